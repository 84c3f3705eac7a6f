"""How a crowd behaves: one run with its curve, many runs with their growth, and a run of the program with its
journal."""
from __future__ import annotations

import time
from typing import Any

from ..engine import program
from ..simulation.crowds import counts_of, crowd_words
from ..simulation.curves import Recorder
from ..simulation.growth import GOOD, fits_of
from ..simulation.journals import read_journal
from ..simulation.carrying import Limits, carry_out
from ..simulation.seeds import seed_of
from ..simulation.simulation import AGREED, ENDLESS, MEETINGS, TERMINAL, Simulation, Stop
from ..simulation.sizes import sizes_of
from ..simulation.sweepjobs import BY_SIMULATE, Result, mark_of
from ..simulation.table import Row, growths, points, row_of
from ..show.outcome import told as simulation_told
from ..limits import TURN_LIMIT as TURNS_LIMIT
from ..simulation.limits import CHANGES_ASKED, MEETING_LIMIT, SEED_LIMIT
from ..text.loaded import Loaded, strict_bundle
from ..protocol.predicatereader import read_predicate
from ..protocol.predicates import value_at
from .protocol import Fault, loaded_of
from .request import Request, Tell, counts_in, text_in, whole_in
from .watching import journal_list

EVERY = 0.25  # seconds between two messages
NET = "protocol"
RUNS_LIMIT = 1_000
MOST_CHANGES = 10**9


def _value(loaded: Loaded, counts: tuple[int, ...]) -> bool | None:
    return None if loaded.predicate is None else value_at(read_predicate(loaded.predicate, loaded.net.names), counts)


def _limits(request: Request) -> Limits:
    until = text_in(request, "until", TERMINAL)
    changes = whole_in(request, "changes", 10**7, 1, min(MOST_CHANGES, CHANGES_ASKED))
    if until in (TERMINAL, AGREED):
        return Limits(Stop(until), ENDLESS, changes)
    return Limits(MEETINGS, whole_in(request, "meetings", 0, 0, MEETING_LIMIT), changes)


class _Sender:
    """Sends the rows that a recorder has kept since the last message."""

    def __init__(self, run: Simulation, recorder: Recorder, tell: Tell) -> None:
        self.run, self.recorder, self.tell = run, recorder, tell
        self.sent = 0
        self.names: dict[str, int] = {}
        self.next = 0.0

    def __call__(self) -> None:
        """Sends, if it is time."""
        if time.monotonic() >= self.next:
            self.next = time.monotonic() + EVERY
            self.send()

    def send(self) -> None:
        """Sends what is new: names with their outputs, and rows by the numbers of these names."""
        recorder, fresh = self.recorder, []
        recorder.ahead(self.run.meetings)
        for name, output in recorder.outputs.items():
            if name not in self.names:
                self.names[name] = len(self.names)
                fresh.append([name, output])
        rows = [
            [when, [[self.names[name], k] for name, k in crowd.items()]]
            for when, crowd in zip(recorder.times[self.sent :], recorder.crowds[self.sent :])
        ]
        self.sent = len(recorder.times)
        self.tell(
            "rows",
            {
                "names": fresh,
                "rows": rows,
                "meetings": self.run.meetings,
                "changes": self.run.changes,
                "agents": self.run.agents,
            },
        )


def simulate_task(request: Request, tell: Tell) -> dict[str, Any]:
    """One run by counts; rows of its curve are told as they come."""
    loaded = loaded_of(request)
    counts = counts_of(loaded.net, counts_in(request))
    if not loaded.meets(counts):
        raise Fault([f"this crowd doesn't meet what the text assumes: {', '.join(loaded.assumed)}"])
    seed = whole_in(request, "seed", 0, 0, SEED_LIMIT)
    limits = _limits(request)
    value = _value(loaded, counts)
    run = Simulation(loaded.net, counts, seed)
    recorder = Recorder()
    sender = _Sender(run, recorder, tell)
    on_change = recorder.watch(run)
    sender.send()
    carry_out(run, limits, value, on_change, sender)
    curve = recorder.curve(run, NET, crowd_words(loaded.net, counts), seed)
    sender.send()
    return {
        "told": simulation_told(run, value),
        "terminal": run.is_terminal,
        "output": run.output,
        "value": value,
        "agents": run.agents,
        "meetings": run.meetings,
        "lastChange": run.last_change,
        "since": run.since,
        "trace": curve.text(),
    }


def _one(loaded: Loaded, counts: tuple[int, ...], seed: int, changes: int) -> Result:
    stream = seed_of(BY_SIMULATE, crowd_words(loaded.net, counts), str(seed), mark_of(loaded))
    run = Simulation(loaded.net, counts, stream)
    carry_out(run, Limits(TERMINAL, ENDLESS, changes), None)
    value = _value(loaded, counts)
    if not run.is_terminal:
        return Result("", run.agents, run.meetings, None, None, None)
    return Result(
        "", run.agents, run.meetings, run.last_change, run.since, None if value is None else run.output == value
    )


def _row_value(row: Row) -> dict[str, Any]:
    return {
        "crowd": row.crowd,
        "n": row.n,
        "runs": row.runs,
        "undecided": row.undecided,
        "wrong": row.wrong,
        "figures": row.figures,
    }


def _fit_value(rows: list[Row], what: str) -> dict[str, Any] | None:
    known = points(rows, NET, what)
    fits = fits_of([n for n, _ in known], [value for _, value in known])
    if not fits or fits[0].off > GOOD:
        return None
    low, high = min(n for n, _ in known), max(n for n, _ in known)
    places = [low * (high / low) ** (i / 40) for i in range(41)]
    return {"text": fits[0].text, "points": [[n, fits[0].at(n)] for n in places]}


def growth_task(request: Request, tell: Tell) -> dict[str, Any]:
    """Many runs over sizes: a row is told as soon as its runs are done."""
    loaded = loaded_of(request)
    sizes = sizes_of(text_in(request, "sizes").split())
    runs = whole_in(request, "runs", 10, 1, RUNS_LIMIT)
    changes = whole_in(request, "changes", 10**6, 1, MOST_CHANGES)
    first = whole_in(request, "seed", 0, 0, SEED_LIMIT - RUNS_LIMIT)
    asked = [counts_of(loaded.net, [f"{name}={k}" for name, k in size.items()]) for size in sizes]
    crowds = [counts for counts in asked if loaded.meets(counts)]
    rows: list[Row] = []
    last = 0.0
    for at, counts in enumerate(crowds):
        results = []
        for i in range(runs):
            results.append(_one(loaded, counts, first + i, changes))
            if time.monotonic() - last > EVERY:
                last = time.monotonic()
                tell("runs", {"done": at * runs + i + 1, "all": len(crowds) * runs})
        rows.append(row_of(NET, crowd_words(loaded.net, counts), results))
        tell("row", _row_value(rows[-1]))
    told = [line.removeprefix(f"{NET}: ") for line in growths(rows)]
    return {
        "rows": [_row_value(row) for row in rows],
        "growths": told,
        "fits": {what: _fit_value(rows, what) for what in ("end", "agreed")},
    }


def run_task(request: Request, tell: Tell) -> dict[str, Any]:
    """A run by the proved program, which then replays its own journal."""
    loaded = loaded_of(request)
    bundle = strict_bundle(loaded)
    words = counts_in(request)
    seed = whole_in(request, "seed", 0, 0, SEED_LIMIT)
    turns = whole_in(request, "turns", 10_000, 1, TURNS_LIMIT)
    text = f"{bundle.line()}\ncrowd {' '.join(words)}".rstrip() + "\n"
    answer = program.ask(["run", "--turns", str(turns), "--seed", str(seed)], text)
    if answer.status not in (program.DONE, program.UNDECIDED):
        raise Fault([f"the program doesn't run it: {answer.first_line}"])
    replayed = program.ask(["replay"], answer.text)
    curve = read_journal(answer.text, "journal")
    rows = [[when, [[at, k] for at, k in enumerate(row)]] for when, row in zip(curve.times, curve.rows)]
    tell(
        "rows",
        {
            "names": list(zip(curve.names, curve.outputs)),
            "rows": rows,
            "meetings": curve.meetings,
            "changes": 0,
            "agents": curve.agents,
        },
    )
    last = answer.text.splitlines()[-1]
    return {
        "journal": answer.text,
        "last": last,
        "replay": replayed.first_line,
        "status": answer.status,
        "lastChange": curve.last_change,
        "list": journal_list(answer.text),
    }
