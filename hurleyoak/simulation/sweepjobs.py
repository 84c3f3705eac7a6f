"""Jobs of a sweep: one run each, a pure function of the job's words, on whatever machine."""
from __future__ import annotations

import hashlib
import json
import shlex
from dataclasses import asdict, dataclass
from enum import StrEnum
from typing import Any

from ..engine import program
from ..faults import AskFault
from ..faults import InputFault
from ..text.families import values_of
from ..text.files import load_path, read_text
from ..text.given import with_predicate
from ..text.loaded import Loaded, strict_bundle
from ..text.membersof import load_member, members_of
from ..text.jsontext import read_json
from ..protocol.nets import compact
from ..protocol.predicatereader import read_predicate
from ..protocol.predicates import value_at
from ..wholes import is_whole, whole_of
from .crowds import counts_of
from .graphs import graph_of
from .journals import read_journal
from .placing import Placing
from .seeds import seed_of
from .carrying import Limits, carry_out
from .kernelled import KernelRun
from .kernelled import carry_out as carry_out_by_kernel
from .simulation import AGENT_LIMIT, ENDLESS, TERMINAL, Simulation

RUN_MEETINGS = 1_000_000  # turns of one worker of the program at most
MARK_SIZE, CHECK_SIZE = 12, 8
YES = "yes"


class Way(StrEnum):
    """What does a job's run: the simulation here, the kernel, or the proved program."""

    SIMULATE = "simulate"
    KERNEL = "kernel"
    RUN = "run"


BY_SIMULATE, BY_KERNEL, BY_RUN = Way.SIMULATE, Way.KERNEL, Way.RUN


@dataclass(frozen=True, kw_only=True)
class Job:
    """One run: by which way, of which net, with which crowd, seed and limits; `mark` stands for the net's contents.

    `member` has the values of a family's parameters, where the file is one. `graph` and `rounds` say who meets.
    """

    by: Way
    path: str
    crowd: str
    seed: int
    changes: int
    meetings: int
    predicate: str
    mark: str
    member: str = ""
    graph: str = ""
    rounds: bool = False

    def text(self) -> str:
        """The job's words, which are its name too."""
        words = [self.by, self.path, f"crowd={self.crowd}", f"seed={self.seed}", f"changes={self.changes}"]
        words += [f"with={self.member}"] if self.member else []
        words += [f"graph={self.graph}"] if self.graph else []
        words += [f"rounds={YES}"] if self.rounds else []
        words += [f"meetings={self.meetings}"] if self.meetings else []
        words += [f"predicate={self.predicate}"] if self.predicate else []
        return shlex.join([*words, f"net={self.mark}"])

    def stream(self) -> int:
        """The seed that the run begins with: a hash of the words, without those of the place and of the limits."""
        return seed_of(self.by, self.crowd, str(self.seed), self.mark)


@dataclass(frozen=True)
class Result:
    """What came of a job. `end` and `agreed` are numbers of meetings, None where the run was not terminal in time.

    `agreed` is the meeting since which all agents output the same; `right` says whether this is the predicate's value.
    """

    job: str
    agents: int
    meetings: int
    end: int | None
    agreed: int | None
    right: bool | None

    def line(self) -> str:
        """The result as one line of JSON, with a checksum, so that a torn line is none."""
        value = asdict(self)
        return json.dumps({**value, "check": checksum(value)})


def checksum(value: dict[str, Any]) -> str:
    """A mark of a result's values."""
    return hashlib.sha256(json.dumps(value).encode()).hexdigest()[:CHECK_SIZE]


def mark_of(loaded: Loaded) -> str:
    """A mark of the net and its predicate, by which another machine knows that it has the same."""
    laws = [[(str(law.chance), law.ordered) for law in leaf.laws] for leaf in loaded.net.leaves if leaf.laws]
    text = compact(loaded.net.value()) + "\n" + (loaded.predicate or "") + (f"\n{laws}" if laws else "")
    return hashlib.sha256(text.encode("utf-8", "surrogateescape")).hexdigest()[:MARK_SIZE]


def read_job(text: str) -> Job:
    """The job of these words; AskFault where they are none."""
    try:
        by, path, *rest = shlex.split(text)
        given = dict(word.split("=", 1) for word in rest)
        if not all(map(is_whole, (given["seed"], given["changes"], given.get("meetings", "0")))):
            raise ValueError
        if by not in list(Way):
            raise AskFault(f"a job is done by simulate or by run, not by `{by}`")
        job = Job(
            by=Way(by),
            path=path,
            crowd=given["crowd"],
            seed=whole_of(given["seed"]),
            changes=whole_of(given["changes"]),
            meetings=whole_of(given.get("meetings", "0")),
            predicate=given.get("predicate", ""),
            mark=given["net"],
            member=given.get("with", ""),
            graph=given.get("graph", ""),
            rounds=given.get("rounds") == YES,
        )
        values_of(job.member)
    except (ValueError, KeyError):
        raise AskFault(f"these are no words of a job: {text}") from None
    return job


def read_result(line: str) -> Result | None:
    """The result on a line; None where it has none."""
    try:
        value: Any = read_json(line)
        check = value.pop("check")
        result = Result(**value)
    except (ValueError, TypeError, AttributeError, KeyError, RecursionError):
        return None
    return result if _is_possible(result) and check == checksum(asdict(result)) else None


def _is_possible(result: Result) -> bool:
    """Whether a run can have come to this: numbers that are counts, and an end that is no later than the meetings."""
    wholes = [result.agents, result.meetings, *(k for k in (result.end, result.agreed) if k is not None)]
    if not isinstance(result.job, str) or any(isinstance(k, bool) or not isinstance(k, int) for k in wholes):
        return False
    if not 2 <= result.agents <= AGENT_LIMIT or min(wholes) < 0 or max(wholes[1:]) > result.meetings:
        return False
    if result.end is None and (result.agreed is not None or result.right is not None):
        return False
    return result.right is None or isinstance(result.right, bool)


def load_net(path: str, predicate: str, member: str = "") -> Loaded:
    """The net of a job, of a family the member, with the predicate that is given in place of its own."""
    if member and values_of(member) not in members_of(read_text(path), path):
        raise InputFault(f"{path}: `{member}` names no member of this family")
    loaded = load_member(read_text(path), values_of(member), path) if member else load_path(path)
    if predicate:
        return with_predicate(loaded, predicate)
    return loaded


def result_of(job: Job, loaded: Loaded | None = None) -> Result:
    """Does a job; an InputFault where its net is another one, or the program doesn't hold its own journal."""
    loaded = loaded or load_net(job.path, job.predicate, job.member)
    if mark_of(loaded) != job.mark:
        raise InputFault(f"{job.path}: this is another net than the job's ({mark_of(loaded)}, not {job.mark})")
    counts = counts_of(loaded.net, job.crowd.split())
    value = None
    if loaded.predicate is not None:
        value = value_at(read_predicate(loaded.predicate, loaded.net.names), counts)
    if job.by == BY_RUN:
        return _by_run(job, loaded, value)
    if job.by == BY_KERNEL:
        run: Simulation = _by_kernel(job, loaded, counts)
        return _result(job, run, value)
    run = Simulation(loaded.net, counts, job.stream())
    if job.graph or job.rounds:
        graph = graph_of(job.graph, run.agents, job.seed) if job.graph else None
        run = Placing(graph, job.rounds).make(loaded.net, run.crowd(), job.stream())
    carry_out(run, Limits(TERMINAL, job.meetings or ENDLESS, job.changes or None), None)
    return _result(job, run, value)


def _by_kernel(job: Job, loaded: Loaded, counts: tuple[int, ...]) -> KernelRun:
    """The run of a job by the kernel."""
    run = KernelRun(loaded.net, counts, job.stream())
    carry_out_by_kernel(run, Limits(TERMINAL, job.meetings or ENDLESS, job.changes or None), None)
    return run


def _result(job: Job, run: Simulation, value: bool | None) -> Result:
    """What came of a job by its run."""
    if not run.is_terminal:
        return Result(job.text(), run.agents, run.meetings, None, None, None)
    right = None if value is None else run.output == value
    return Result(job.text(), run.agents, run.meetings, run.last_change, run.since, right)


def _by_run(job: Job, loaded: Loaded, value: bool | None) -> Result:
    """The same by the proved program, which then replays its journal."""
    if any(leaf.laws for leaf in loaded.net.leaves):
        raise InputFault(f"{job.path}: a run of the program knows no chances and no orders: `--by simulate` does")
    turns = min(job.meetings or RUN_MEETINGS, RUN_MEETINGS)
    lines = f"{strict_bundle(loaded).line()}\n" + f"crowd {job.crowd}".rstrip() + "\n"
    answer = program.ask(["run", "--turns", str(turns), "--seed", str(job.stream())], lines)
    if answer.status not in (program.DONE, program.UNDECIDED):
        raise InputFault(f"{job.path}: the program doesn't run it: {answer.first_line}")
    replayed = program.ask(["replay"], answer.text)
    if replayed.status != program.DONE:
        raise InputFault(f"{job.path}: the program doesn't hold this journal: {replayed.first_line}")
    curve = read_journal(answer.text, "the journal")
    if not curve.terminal:
        return Result(job.text(), curve.agents, curve.meetings, None, None, None)
    said = {output for output, k in zip(curve.outputs, curve.rows[-1]) if k}
    right = None if value is None else said == {value}
    return Result(job.text(), curve.agents, curve.meetings, curve.last_change, curve.since, right)
