"""The library's calls on files and predicates."""
from __future__ import annotations

from typing import Iterable

from ..compiler.drafts import NotBuilt as NoLeaf
from ..compiler.whole import Helpers
from ..engine import program
from ..engine.compiling import make_bundle
from ..faults import InputFault
from . import asked
from .protocols import AGENTS, RUNS, SECONDS, Protocol
from .ready import needs_program
from .results import Found, Refuted, Run, Table, Verdict


def load(path: str) -> Protocol:
    """The protocol of a file: `.pop`, a net or a bundle in JSON."""
    return Protocol(asked.one_file(path))


def compile(predicate: str, helpers: bool = True, way: str = "smallest") -> Protocol:
    """A protocol for a predicate, with its proof: the smaller of the program's net and a succinct one, certified.

    Or `way` says which: "quick", "succinct", "plain" or "flocks". Without helpers where `helpers` is false; InputFault
    where there is none within the limits.
    """
    needs_program()
    form, names = asked.predicate(predicate)
    wanted = asked.way(way, helpers)
    try:
        made = make_bundle(names, form, wanted, Helpers.ANY if helpers else Helpers.NONE)
    except NoLeaf as why:
        raise InputFault(str(why)) from None
    if made.answer.status != program.DONE:
        raise InputFault(made.answer.first_line)
    return Protocol.parse(made.answer.first_line, f"the net of {form}")


def check(path: str) -> Verdict:
    """What the program says of the bundle in a file."""
    return load(path).check()


def find(path: str, seconds: float = SECONDS) -> Found:
    """Looks for a proof of the protocol in a file."""
    return load(path).find(seconds)


def refute(path: str, agents: int = AGENTS, seconds: float = SECONDS) -> Refuted | None:
    """A counterexample to the protocol in a file."""
    return load(path).refute(agents, seconds)


def simulate(path: str, seed: int = 0, **counts: int) -> Run:
    """One run of the protocol in a file."""
    return load(path).simulate(seed, None, None, None, (), None, None, False, False, **counts)


def sweep(path: str, runs: int = RUNS, **sizes: int | Iterable[int]) -> Table:
    """Many runs of the protocol in a file."""
    return load(path).sweep(runs, 0, False, **sizes)


def explain(path: str) -> str:
    """The proof in a file, by names."""
    return load(path).explain()
