"""What `pop plot` does with `--ode` and `--phase`: the mean field beside runs or alone, and phase portraits."""
from __future__ import annotations

import re
from fractions import Fraction
from typing import Any, Sequence

from ...faults import InputFault
from ...protocol.reactions import Reactions
from ...show import phase
from ...show.fields import even_times, shown_of_field, with_field
from ...show.series import Shown
from ...simulation.crowds import counts_of
from ...simulation.curves import Curve
from ...simulation.ensembles import Ensemble
from ...simulation.events import Crowd, crowd_of, word_of
from ...simulation.meanfield import Course, course
from ...simulation.timeline import PER_AGENT, ROUNDS
from ...text.loaded import Loaded
from ..table.reading import Given
from ..usage import UsageFault
from .inputs import load_given
from .simulate import net_title

USUAL_TIME = 20  # up to which a mean field is drawn alone
_VOLUME = re.compile(r"in volume ([0-9.e+]+|[0-9]+/[0-9]+)$")

Kept = Curve | Ensemble


def of_field(given: Given) -> Loaded | None:
    """The net whose mean field is drawn."""
    path = given.text("--ode")
    return None if path is None else load_given(given, path)


def both_of(given: Given) -> tuple[str, str] | None:
    """The two states of a phase portrait."""
    text = given.text("--phase")
    if text is None:
        return None
    names = text.split(",")
    if len(names) != 2 or not all(names):
        raise UsageFault(f"`--phase` is followed by two states, as in `A,B`, found `{text}`")
    if not given.has("--output"):
        raise UsageFault("a phase portrait is a picture: it goes to a file, by `-o`")
    return names[0], names[1]


def start_of(loaded: Loaded, words: Sequence[str]) -> Crowd:
    """The crowd of counts of variables or of states."""
    from .modelled import by_states

    states = by_states(loaded, words)
    if states is not None:
        return crowd_of(loaded.net, states)
    return Reactions(loaded.net).start(counts_of(loaded.net, words))


def alone(given: Given, loaded: Loaded, words: Sequence[str]) -> Course:
    """The mean field from a crowd on."""
    last = given.whole("--to") if given.has("--to") else USUAL_TIME
    return course(loaded, start_of(loaded, words), even_times(0, last))


def beside(loaded: Loaded, kept: Kept, low: float, high: float) -> Course:
    """The mean field from a run's first crowd on, at the times that are drawn."""
    curve = isinstance(kept, Curve)
    first, begun = (kept.rows[0], kept.places[0]) if isinstance(kept, Curve) else (kept.rows[0][0], 0.0)
    unit = kept.unit or PER_AGENT
    if unit == ROUNDS:
        raise InputFault("the mean field is of meetings one by one, and these runs are in rounds")
    found = _VOLUME.search(unit)
    if loaded.network is not None and found is None:
        raise InputFault("the mean field of a network is in its own time, and this run isn't")
    start = crowd_of(loaded.net, {name: k for name, k in zip(kept.names, first) if k})
    begin = begun if curve else low
    times = [time for time in even_times(low, high) if time >= begin]
    made = course(loaded, start, [begin, *(time for time in times if time > begin)], _volume(found))
    kept_at = [at for at, time in enumerate(made.times) if time >= low]
    rows = [made.rows[at] for at in kept_at]
    return Course(made.names, made.outputs, [made.times[at] for at in kept_at], rows, made.unit, made.agents)


def _volume(found: re.Match[str] | None) -> Fraction | None:
    return None if found is None else Fraction(found[1])


def field_beside(loaded: Loaded, kept: Kept, shown: Shown) -> Shown:
    """A picture with the mean field next to its lines."""
    return with_field(shown, beside(loaded, kept, shown.times[0], shown.times[-1]))


def field_alone(given: Given, loaded: Loaded, words: Sequence[str]) -> Shown:
    """The mean field's own picture."""
    states = [word for word in (given.text("--states") or "").split(",") if word]
    by = given.text("--by")
    title = given.text("--title") or ", ".join([net_title(loaded), " ".join(words)])
    return shown_of_field(alone(given, loaded, words), title, states, None if by is None else by == "output")


def portrait(given: Given, loaded: Loaded | None, kept: Sequence[Kept], words: Sequence[str]) -> Any:
    """The phase portrait of runs, with the mean field where a net is given; of a net alone from many starts."""
    both = both_of(given)
    assert both is not None
    trails: list[phase.Trail] = []
    for one in kept:
        _known(both, one.names)
        trails += phase.of_many(one, both) if isinstance(one, Ensemble) else phase.of_curve(one, both)
    title = given.text("--title") or ", ".join(part for one in kept for part in (one.title, one.crowd) if part)
    if loaded is not None:
        pair = word_of(loaded.net, both[0]), word_of(loaded.net, both[1])
        for one in kept:
            last = one.times[-1] if isinstance(one, Ensemble) else one.places[-1]
            trails += phase.of_course(beside(loaded, one, 0, last), both)
        if not kept:
            start = start_of(loaded, words)
            named = alone(given, loaded, words)
            states = [word_of(loaded.net, name) for name in named.names]
            for crowd in phase.fan(list(dict.fromkeys([*states, *pair])), pair, sum(start.values())):
                trails += phase.of_course(course(loaded, crowd, named.times), both)
            title = given.text("--title") or net_title(loaded)
    return phase.draw_phase(trails, both, title)


def _known(both: tuple[str, str], names: Sequence[str]) -> None:
    for name in both:
        if name not in names:
            raise InputFault(f"`{name}` is no state of the curve; it has {', '.join(names)}")
