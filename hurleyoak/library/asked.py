"""What the library's calls are asked for: a number out of its limits, and a text that is none, are InputFaults."""
from __future__ import annotations

from numbers import Real
from operator import index
from typing import TYPE_CHECKING, Iterable, Mapping, Sequence

from ..engine.compiling import NAMES, Way
from ..faults import InputFault
from ..simulation.carrying import Limits
from ..simulation.limits import CHANGES_ASKED, MEETING_LIMIT, SEED_LIMIT
from ..simulation.simulation import AGREED, ENDLESS, MEETINGS, SETTLED, TERMINAL, Stop
from ..text.files import load, read_text
from ..text.given import read_given
from ..text.loaded import Loaded
from ..text.membersof import as_words, load_member, members_of
from ..text.relaxed import in_form

if TYPE_CHECKING:
    import pandas

RUN_LIMIT = 100_000
Size = dict[str, int]


def whole(name: str, value: object, low: int, high: int) -> int:
    """The whole number that an argument is, from `low` to `high`."""
    if isinstance(value, float) and value.is_integer():
        value = int(value)
    try:
        number = index(value)  # type: ignore[arg-type]
    except TypeError:
        number = low - 1
    if not low <= number <= high:
        raise InputFault(f"`{name}` is a whole number from {low} to {high}, found {value!r}")
    return number


def seed(value: object, runs: int = 1) -> int:
    """The seed of a run, or of the first of so many."""
    return whole("seed", value, 0, SEED_LIMIT - runs + 1)


def runs(value: object) -> int:
    """How many runs are wanted."""
    return whole("runs", value, 1, RUN_LIMIT)


def step(value: object) -> float:
    """The meetings per agent between two looks at a run."""
    every = float(value) if isinstance(value, Real) else 0.0
    if not 0 < every <= MEETING_LIMIT:
        raise InputFault(f"`every` is a number of meetings per agent above 0, found {value!r}")
    return every


def meetings(value: object) -> int:
    """After how many meetings a run stops; never for None."""
    return ENDLESS if value is None else whole("meetings", value, 0, MEETING_LIMIT)


def limits(until: object, changes: object) -> Limits:
    """Where a run stops: at the end, or where all agree, where outputs stay, or after so many meetings; and after so
    many changes."""
    usual = None if until is None else ENDLESS
    most = usual if changes is None else whole("changes", changes, 0, CHANGES_ASKED)
    until = TERMINAL if until is None else until
    if until in (TERMINAL, AGREED, SETTLED):
        return Limits(Stop(str(until)), ENDLESS, most)
    if isinstance(until, str):
        raise InputFault(f"`until` is 'terminal', 'agreed', 'settled' or a number of meetings, found {until!r}")
    return Limits(MEETINGS, whole("until", until, 0, MEETING_LIMIT), most)


def _values(name: str, size: object) -> list[int]:
    if not isinstance(size, str):
        try:
            return list(size) if isinstance(size, Iterable) else [index(size)]  # type: ignore[arg-type]
        except TypeError:
            pass
    raise InputFault(f"`{name}` is a number of agents or a list of such numbers, found {size!r}")


def sizes(asked: Mapping[str, object]) -> list[Size]:
    """The counts of each size; lists go in step."""
    ranges = {name: _values(name, size) for name, size in asked.items()}
    length = max((len(values) for values in ranges.values()), default=0)
    if any(len(values) not in (1, length) for values in ranges.values()):
        raise InputFault("the ranges of a sweep are equally long, or of one size")
    return [{name: values[i % len(values)] for name, values in ranges.items()} for i in range(length)]


def met(loaded: Loaded, counts: tuple[int, ...]) -> tuple[int, ...]:
    """The counts of an input; InputFault where the file leaves it out by `assume`."""
    if not loaded.meets(counts):
        raise InputFault(f"{loaded.name}: this crowd doesn't meet what the file assumes: {', '.join(loaded.assumed)}")
    return counts


def shown(items: Sequence[Size], progress: bool) -> Iterable[Size]:
    """The items, with a bar by tqdm where that is wanted and there."""
    if not progress:
        return items
    try:
        from tqdm.auto import tqdm
    except ImportError:
        return items
    bar: Iterable[Size] = tqdm(items)
    return bar


def predicate(text: str) -> tuple[str, list[str]]:
    """A predicate of no net in the grammar's form, and its variables in the order of mention."""
    form, names = in_form(text, None)
    if not names:
        raise InputFault(f"`{text}` has no variable; a predicate has one at least, as in `x < 3`")
    read_given(form, names)
    return form, names


def way(name: object, helpers: bool) -> Way:
    """Whose net is wanted of a predicate; without helpers a succinct or a quick one."""
    found = NAMES.get(name) if isinstance(name, str) else None
    if found is None:
        raise InputFault(f"`way` is one of {', '.join(NAMES)}, found {name!r}")
    if helpers or found in (Way.SUCCINCT, Way.QUICK):
        return found
    if found is Way.SMALLEST:
        return Way.SUCCINCT
    raise InputFault(f"`helpers=False` is for succinct and quick nets, and `way` is {name!r}")


def one_protocol(text: str, name: str) -> Loaded:
    """The protocol of a text; InputFault for a family, which has many."""
    found = members_of(text, name)
    if len(found) > 1:
        raise InputFault(
            f"{name} is a family of {len(found)} protocols: `bin/pop text {name} --with {as_words(found[0])}`"
            " writes one of them"
        )
    return load_member(text, found[0], name) if found else load(text, name)


def one_file(path: str) -> Loaded:
    """The same of a file."""
    return one_protocol(read_text(path), path)


def frames() -> type[pandas.DataFrame]:
    """Tables of pandas; InputFault where it isn't installed."""
    try:
        from pandas import DataFrame
    except ImportError:
        raise InputFault("a frame needs pandas: apt-get install python3-pandas") from None
    made: type[pandas.DataFrame] = DataFrame
    return made
