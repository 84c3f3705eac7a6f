"""`pop simulate [FILE] x=30 y=10`: a run of a net by counts; it needs no proof, and proves nothing."""
from __future__ import annotations

from pathlib import Path

from ...simulation.crowds import counts_of, crowd_words, split_words, whole_word
from ...simulation.curves import Recorder
from ..progress import Progress
from ...show.outcome import told
from ...simulation.limits import MEETING_LIMIT
from ...simulation.asking import is_stop
from ...simulation.carrying import Limits, carry_out
from ...simulation.kernelled import KernelRun
from ...simulation.kernelled import carry_out as carry_out_by_kernel
from ...simulation.timeline import BY_AGENT, BY_ROUND
from ...simulation.simulation import AGREED, ENDLESS, MEETINGS, SETTLED, TERMINAL, Simulation, Stop
from ...faults import InputFault
from ...text.files import STANDARD_INPUT, in_volume
from ...text.given import with_predicate
from ...text.loaded import Loaded
from ...protocol.laws import LAWS_TOLD
from ...protocol.nets import Net
from ...protocol.predicates import value_at
from ...statuses import DONE, UNDECIDED
from ...writing import write_text
from . import warn
from ..usage import UsageFault
from ..table.behaviour import ENSEMBLE_RUNS
from ..table.reading import Given, takes
from .inputs import load_given
from .modelled import is_modelled, pace_of, placing_of
from .modelled import run as modelled
from ...wholes import is_whole


ENDS = "the run goes on; `--until` names an earlier end, and `--changes N` stops it"


def net_title(loaded: Loaded) -> str:
    """The net's name: its file's without the ending, or its folder's where the file is `net` or `bundle`."""
    return title_of(loaded.name)


def title_of(name: str) -> str:
    """The same, of a file by its name."""
    path = Path(name)
    return path.resolve().parent.name if path.stem in ("net", "bundle") else path.stem


def value_of(loaded: Loaded, counts: tuple[int, ...]) -> bool | None:
    """The value of the predicate at the input; None where there is none."""
    return None if loaded.predicate is None else value_at(loaded.whole_tree(), counts)


def _limits(given: Given) -> Limits:
    until = given.text("--until") or TERMINAL
    usual = ENDLESS if "--until" in given.named else None
    changes = given.whole("--changes") if given.has("--changes") else usual
    if is_stop(until):
        return Limits(TERMINAL, ENDLESS, changes)
    if until in (TERMINAL, AGREED, SETTLED):
        return Limits(Stop(until), ENDLESS, changes)
    if not is_whole(until):
        raise UsageFault(
            "`--until` is followed by `terminal`, `agreed`, `settled`, a number of meetings, `time 5` or a condition"
            f" on states as in `X = 0`, found `{until}`"
        )
    return Limits(MEETINGS, whole_word("--until", until, 0, MEETING_LIMIT), changes)


def simulation_of(given: Given, net: Net, counts: tuple[int, ...], seed: int) -> Simulation:
    """The run that is asked for: by the kernel, or here."""
    if given.has("--kernel"):
        return KernelRun(net, counts, seed, given.has("--trace"))
    return Simulation(net, counts, seed)


def many(given: Given, loaded: Loaded, counts: tuple[int, ...], limits: Limits, value: bool | None) -> int:
    """Many runs on one grid of times; 4 where one of them stopped before its end."""
    from ...simulation.ensembles import ensemble
    from ...simulation.ensembles import told as told_of

    runs = given.whole("--runs") if given.has("--runs") else ENSEMBLE_RUNS
    every, trace = given.number("--every"), given.text("--trace")
    if every <= 0 or limits.until in (AGREED, SETTLED) or given.has("--changes"):
        raise UsageFault(
            "`--every` is followed by meetings per agent above 0; it goes with `--until terminal` or a number of"
            " meetings, and without `--changes`"
        )
    if given.texts("--at") or given.has("--from") or is_stop(given.text("--until") or ""):
        raise UsageFault("`--every` makes plain runs: it goes without `--at`, `--from`, times and conditions")
    if given.has("--map"):
        raise UsageFault("`--map` keeps one run, and `--every` makes many")
    progress = Progress()
    agents = sum(counts) + len(loaded.net.leaves[0].helpers)
    placing = placing_of(given, agents)
    pace = pace_of(given, loaded, agents) if placing is None else BY_ROUND if placing.rounds else BY_AGENT
    net = loaded.net if pace.volume is None else in_volume(loaded, agents, pace.volume).net
    made = ensemble(
        net,
        counts,
        given.whole("--seed"),
        runs,
        every,
        limits.meetings,
        net_title(loaded),
        lambda done: progress(lambda: f"{done:,} of {runs:,} runs"),
        pace,
        given.whole("--jobs"),
        placing,
        given.has("--kernel"),
    )
    progress.end()
    if trace is not None:
        write_text(trace, made.text())
    graph = [placing.graph.told()] if placing is not None and placing.graph is not None else []
    lines = told_of(made, value)
    print("\n".join([*lines[:-1], *graph, lines[-1]]))
    return DONE if made.terminal == runs or limits.until == MEETINGS else UNDECIDED


def run(given: Given) -> int:
    """Prints the end crowd and how it came to it; 4 where it stopped before the end that was asked for."""
    files, count_words = split_words(given.words)
    if len(files) > 1:
        raise UsageFault(takes(given.command))
    if given.has("--runs") and not given.has("--every"):
        raise UsageFault("`--runs` goes with `--every`, which looks at many runs; without it there is one run")
    seed, trace, predicate = given.whole("--seed"), given.text("--trace"), given.text("--predicate")
    limits = _limits(given)
    loaded = load_given(given, files[0] if files else STANDARD_INPUT)
    if predicate is not None:
        loaded = with_predicate(loaded, predicate)
    warn([told for told in loaded.warnings if told != LAWS_TOLD], loaded.name)
    if given.has("--kernel") and (loaded.network is not None or is_modelled(given, loaded, count_words)):
        raise UsageFault(
            "`--kernel` makes plain runs from counts of variables: it goes without events, volumes, graphs, rounds,"
            " `--from`, times and conditions"
        )
    if not given.has("--every") and is_modelled(given, loaded, count_words):
        return modelled(given, loaded, count_words, limits)
    counts = counts_of(loaded.net, count_words)
    if not loaded.meets(counts):
        raise InputFault(f"{loaded.name}: this crowd doesn't meet what the file assumes: {', '.join(loaded.assumed)}")
    value = value_of(loaded, counts)
    if given.has("--every"):
        return many(given, loaded, counts, limits, value)
    recorder = Recorder() if trace is not None else None
    simulation = simulation_of(given, loaded.net, counts, seed)
    progress = Progress("" if {"--until", "--changes"} & given.named else ENDS)
    watch = recorder.watch(simulation) if recorder else None
    tell = lambda: progress(lambda: f"{simulation.meetings:,} meetings, {simulation.changes:,} changes")  # noqa: E731
    if isinstance(simulation, KernelRun):
        carry_out_by_kernel(simulation, limits, value, watch, tell)
    else:
        carry_out(simulation, limits, value, watch, tell)
    progress.end()
    if recorder and trace is not None:
        write_text(trace, recorder.curve(simulation, net_title(loaded), crowd_words(loaded.net, counts), seed).text())
    print("\n".join(told(simulation, value)))
    return DONE if simulation.ended in (TERMINAL, limits.until) else UNDECIDED
