"""`pop simulate` as a modeller asks for it: from states, with events, up to a condition, in a network's own time."""
from __future__ import annotations

import re
from dataclasses import replace
from fractions import Fraction
from typing import Sequence

from ...faults import InputFault
from ...show.outcome import told
from ...simulation.carrying import Limits
from ...simulation.asking import is_stop, read_event, stop_of
from ...simulation.crowds import counts_of, crowd_words
from ...simulation.curves import Curve, read_trace
from ...simulation.events import Crowd, crowd_of
from ...simulation.maps import Keeper
from ...simulation.placed import Placed
from ...simulation.placing import Placing
from ...simulation.graphs import graph_of
from ...simulation.simulation import CONDITION, TERMINAL, TIME
from ...simulation.staged import Plan, Staged
from ...simulation.timeline import Pace
from ...statuses import DONE, UNDECIDED
from ...text.files import read_text
from ...text.loaded import Loaded
from ...writing import write_text
from ..progress import Progress
from ..table.reading import Given
from ..usage import UsageFault

OPTIONS = ("--at", "--from", "--volume", "--graph", "--rounds", "--map")
STATE_COUNT = re.compile(r"(\S+)=([0-9]{1,20})")


def by_states(loaded: Loaded, words: Sequence[str]) -> dict[str, int] | None:
    """The counts of states that the words are; None where they are of variables, or no counts."""
    found = [STATE_COUNT.fullmatch(word) for word in words]
    names = {match[1]: int(match[2]) for match in found if match}
    if not names or None in found or len(names) < len(found) or all(name in loaded.net.names for name in names):
        return None
    known = set(loaded.net.leaves[0].states) if len(loaded.net.leaves) == 1 else set()
    return names if all(name in known or "/" in name for name in names) else None


def is_modelled(given: Given, loaded: Loaded, words: Sequence[str]) -> bool:
    """Whether a run has more to it than counts of variables and a limit."""
    asked = any(given.texts(name) if name == "--at" else given.has(name) for name in OPTIONS)
    stops = is_stop(given.text("--until") or "")
    return asked or stops or loaded.network is not None or by_states(loaded, words) is not None


def volume_of(given: Given, loaded: Loaded) -> Fraction | None:
    """The volume that is given."""
    if not given.has("--volume"):
        return None
    if loaded.network is None:
        raise UsageFault(f"`--volume` is for a reaction network (`.crn`), and {loaded.name} has no rates")
    volume = Fraction(str(given.number("--volume")))
    if volume <= 0:
        raise UsageFault("`--volume` is followed by a number above 0")
    return volume


def pace_of(given: Given, loaded: Loaded, agents: int) -> Pace:
    """The pace of the meetings: of a network in its volume, the agents less one where none is given."""
    volume = volume_of(given, loaded)
    return Pace(loaded.network, volume or Fraction(agents - 1)) if loaded.network else Pace(None, None)


def placing_of(given: Given, agents: int) -> Placing | None:
    """How agents have places of their own, where they have."""
    text, rounds = given.text("--graph"), given.has("--rounds")
    if text is None and given.has("--map"):
        raise UsageFault("`--map` keeps a graph: it goes with `--graph`")
    if text is None and not rounds:
        return None
    if given.has("--volume"):
        raise UsageFault("`--volume` is for meetings of all pairs: it goes without `--graph` and `--rounds`")
    return Placing(None if text is None else graph_of(text, agents, given.whole("--seed")), rounds)


def _start(
    given: Given, loaded: Loaded, words: Sequence[str]
) -> tuple[Crowd, str, tuple[int, ...] | None, Curve | None]:
    """The crowd at the start, as words, and as an input or a trace if it is one."""
    from ...protocol.reactions import Reactions

    path = given.text("--from")
    if path is not None:
        if words:
            raise UsageFault("`--from` begins with a trace's last crowd, and goes without counts")
        curve = read_trace(read_text(path), path)
        names = {name: k for name, k in zip(curve.names, curve.rows[-1]) if k}
        return crowd_of(loaded.net, names), " ".join(f"{name}={k}" for name, k in names.items()), None, curve
    states = by_states(loaded, words)
    if states is not None:
        return crowd_of(loaded.net, states), " ".join(words), None, None
    counts = counts_of(loaded.net, words)
    if not loaded.meets(counts):
        raise InputFault(f"{loaded.name}: this crowd doesn't meet what the file assumes: {', '.join(loaded.assumed)}")
    return Reactions(loaded.net).start(counts), crowd_words(loaded.net, counts), counts, None


def run(given: Given, loaded: Loaded, words: Sequence[str], limits: Limits) -> int:
    """Prints the end crowd and how it came to it; 4 where it stopped before the end that was asked for."""
    from .simulate import net_title, value_of

    crowd, shown, counts, trace = _start(given, loaded, words)
    condition, time = stop_of(loaded, given.text("--until") or "")
    events = tuple(read_event(loaded, text) for text in given.texts("--at"))
    value = None if counts is None or events else value_of(loaded, counts)
    begun = 0 if trace is None else trace.meetings
    placing = placing_of(given, sum(crowd.values()))
    limits = replace(limits, meetings=limits.meetings + begun)
    plan = Plan(
        limits=placing.limits(limits, sum(crowd.values())) if placing else limits,
        condition=condition,
        time=time,
        events=events,
        volume=volume_of(given, loaded),
        begun=begun,
        begun_at=0.0 if trace is None else trace.places[-1],
        placing=placing,
    )
    progress = Progress()
    staged = Staged(loaded, plan, given.whole("--seed"), crowd, value)
    simulation = staged.run
    staged.each = lambda: progress(lambda: f"{simulation.meetings:,} meetings, {simulation.changes:,} changes")
    keeper = _keeper(given, staged)
    staged.carry_out()
    progress.end()
    curve = staged.curve(net_title(loaded), shown)
    path = given.text("--trace")
    if path is not None:
        write_text(path, curve.text())
    if keeper is not None:
        _put_map(given, staged, keeper, net_title(loaded))
    print("\n".join(_told(staged, curve, value)))
    asked = CONDITION if condition else TIME if time is not None else limits.until
    return DONE if simulation.ended in (TERMINAL, asked) else UNDECIDED


def _keeper(given: Given, staged: Staged) -> Keeper | None:
    """What keeps the agents' states for `--map`."""
    run, on_change = staged.run, staged.on_change
    if not given.has("--map") or not isinstance(run, Placed):
        return None
    keeper = Keeper(run, 1 if staged.pace.rounds else run.agents)

    def both() -> None:
        on_change()
        keeper.note()

    staged.on_change = both
    return keeper


def _put_map(given: Given, staged: Staged, keeper: Keeper, title: str) -> None:
    """Writes what was kept."""
    placing, path = staged.plan.placing, given.text("--map")
    assert placing is not None and placing.graph is not None and path is not None
    numbers = keeper.end()
    times = staged.times(numbers)
    made = keeper.map(title, placing.graph, staged.pace.unit, [times[number] for number in numbers])
    write_text(path, made.text())


def _told(staged: Staged, curve: Curve, value: bool | None) -> list[str]:
    """The lines of a run, with its time where that isn't plain, and with the graph."""
    placing = staged.plan.placing
    lines = told(staged.run, value, staged.pace.rounds)
    if placing is not None and placing.graph is not None:
        lines.insert(-1, placing.graph.told())
    elif placing is not None:
        lines.insert(-1, "pairs meet at once in each round: a certificate speaks of meetings one by one")
    if staged.pace.rounds:
        return lines
    if curve.unit:
        at = next(number for number, line in enumerate(lines) if line.startswith("meetings "))
        factor = staged.pace.told(staged.run.agents) if staged.pace.volume is not None else curve.unit
        lines[at + 1 : at + 1] = [f"time {curve.moments[-1]:.6g}: {factor}"]
    return lines
