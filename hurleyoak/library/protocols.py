"""Protocols as values: what the program says of them, what is found, and how their crowds behave."""
from __future__ import annotations

from html import escape
from typing import TYPE_CHECKING, Any, Iterable, Mapping

from ..engine import program
from ..faults import AskFault, InputFault
from ..limits import AGENT_LEAST
from ..protocol.nets import Net
from ..protocol.predicatereader import read_predicate
from ..protocol.predicates import value_at
from ..simulation.carrying import carry_out
from ..simulation.kernelled import KernelRun
from ..simulation.kernelled import carry_out as carry_out_by_kernel
from ..simulation.crowds import counts_of, crowd_words
from ..simulation.curves import Recorder
from ..simulation.seeds import seed_of
from ..simulation.simulation import AGENT_LIMIT, Simulation
from ..simulation.sweepjobs import BY_SIMULATE, mark_of
from ..text.given import with_predicate
from ..text.loaded import Loaded, LoadedBundle, strict_bundle
from ..text.relaxed import in_form
from ..text.writer import loaded_text
from . import asked
from .asked import Size
from .ready import needs_program
from .runs import run_of
from .results import Found, Refuted, Run, Runs, Table, Verdict

if TYPE_CHECKING:
    from .chains import Exact

SECONDS, SMALLER, AGENTS, RUNS = 60.0, 4.0, 6, 20
GIVEN = "the text"


class Protocol:
    """A net with its predicate, and with a proof if it has one."""

    def __init__(self, loaded: Loaded) -> None:
        self._loaded = loaded

    @classmethod
    def parse(cls, text: str, name: str = GIVEN) -> Protocol:
        """The protocol of a `.pop` text or of JSON; InputFault says what is wrong and where."""
        return cls(asked.one_protocol(text, name))

    @property
    def net(self) -> Net:
        """The net: leaves side by side, and the combination of their outputs."""
        return self._loaded.net

    @property
    def predicate(self) -> str | None:
        """The predicate's text, if there is one."""
        return self._loaded.predicate

    @property
    def warnings(self) -> list[str]:
        """What is probably not meant."""
        return list(self._loaded.warnings)

    def computes(self, predicate: str) -> Protocol:
        """The same net with another predicate, as people write them (`x >= y`); it has no proof."""
        form, _ = in_form(predicate, list(self.net.names))
        made = Protocol.parse(self.text(), self._loaded.name)
        return Protocol(with_predicate(made._loaded, form))

    def text(self) -> str:
        """The protocol as a `.pop` file, with its proof if it has a whole one."""
        loaded = self._loaded
        return loaded_text(loaded, strict_bundle(loaded) if self.has_proof else None)

    @property
    def has_proof(self) -> bool:
        """Whether there is a whole proof."""
        loaded = self._loaded
        return (
            isinstance(loaded, LoadedBundle)
            or bool(loaded.drafts)
            and all(draft.is_given for draft in loaded.drafts or [])
        )

    def check(self) -> Verdict:
        """What the proved program says of the proof; InputFault where there is none."""
        needs_program()
        return _verdict(program.check(strict_bundle(self._loaded).line()))

    def find(self, seconds: float = SECONDS, jobs: int | None = None) -> Found:
        """Looks for a proof, which the program certifies, and for a counterexample, which it plays."""
        needs_program()
        from ..search.finding import find
        from ..search.processes import processors
        from ..show.telling import failure_told, left_out_told

        outcome = find(self._loaded, seconds, SMALLER, jobs or processors())
        if outcome.flaw is not None:
            refuted = self._refuted(outcome.flaw)
            return Found(None, None, refuted, refuted.told)
        if outcome.left_out is not None:
            return Found(None, None, None, left_out_told(self._loaded, outcome.left_out))
        if outcome.bundle is None:
            return Found(None, None, None, failure_told(self._loaded, outcome.failures[0]))
        line = outcome.bundle.line()
        verdict = _verdict(program.check(line))
        protocol = Protocol.parse(line, self._loaded.name) if verdict else None
        return Found(protocol, verdict, None, verdict.line)

    def refute(self, agents: int = AGENTS, seconds: float = SECONDS) -> Refuted | None:
        """A counterexample among the inputs of up to so many agents, played by the program; None where none was found
        in that time, InputFault where no input was tried."""
        needs_program()
        from ..search.explore import explore
        from ..search.limits import ending
        from ..search.whole import system_of
        from ..show.telling import untried_told

        agents = asked.whole("agents", agents, max(0, AGENT_LEAST - len(self.net.leaves[0].helpers)), AGENT_LIMIT)
        tree = self._loaded.whole_tree()
        with ending(seconds):
            flaw, tried = explore(system_of(self.net), tree, agents, seconds, meets=self._loaded.meets)
        if flaw is not None:
            return self._refuted(flaw)
        if untried := untried_told(self._loaded, tried):
            raise InputFault(f"{self._loaded.name}: {untried}")
        return None

    def _refuted(self, flaw: Any) -> Refuted:
        from ..search.playing import play
        from ..show.telling import flaw_told

        tree = self._loaded.whole_tree()
        played = play(self.net, flaw, value_at(tree, flaw.counts)) if flaw.by_meetings else None
        told = flaw_told(self.net, tree, self.predicate or "", flaw, played)
        return Refuted(dict(zip(self.net.names, flaw.counts)), told)

    def simulate(
        self,
        seed: int = 0,
        until: str | float | None = None,
        changes: int | None = None,
        start: Run | Mapping[str, int] | None = None,
        events: Iterable[tuple[float, str]] = (),
        volume: float | None = None,
        graph: object = None,
        rounds: bool = False,
        kernel: bool = False,
        **counts: int,
    ) -> Run:
        """One run from so many agents for each variable; helpers are added. Measured, and not proved.

        Without `until` it goes to the terminal crowd, or to the usual limit of changes; `ended` says to which. It may
        also begin with the agents in each state, or go on from a run; `events` are times with what happens then. On a
        graph (a text as of `--graph`, or a graph of networkx) neighbours meet, and in rounds many pairs at once. A plain
        run may be made by the kernel, from a stream of its own.
        """
        from .modelled import has_more, modelled

        seed, events = asked.seed(seed), list(events)
        if start is not None and counts:
            raise InputFault("a run begins with `start` or with counts of variables, not with both")
        chosen = None if start is not None else self._assumed(counts)
        is_placed = graph is not None or rounds
        if kernel and (chosen is None or events or volume is not None or is_placed or has_more(self._loaded, until)):
            raise InputFault("the kernel makes plain runs from counts of variables")
        if chosen is None or events or volume is not None or is_placed or has_more(self._loaded, until):
            places = (graph, rounds)
            return run_of(*modelled(self._loaded, chosen, start, seed, until, changes, events, volume, places))
        limits, value = asked.limits(until, changes), None
        if self.predicate is not None:
            value = value_at(read_predicate(self.predicate, self.net.names), chosen)
        recorder = Recorder()
        run = KernelRun(self.net, chosen, seed, True) if kernel else Simulation(self.net, chosen, seed)
        watch = recorder.watch(run)
        if isinstance(run, KernelRun):
            carry_out_by_kernel(run, limits, value, watch)
        else:
            carry_out(run, limits, value, watch)
        return run_of(run, recorder.curve(run, self._loaded.name, "", seed), value)

    def ensemble(
        self,
        every: float,
        runs: int = RUNS,
        seed: int = 0,
        meetings: int | None = None,
        volume: float | None = None,
        graph: object = None,
        rounds: bool = False,
        jobs: int = 1,
        kernel: bool = False,
        **counts: int,
    ) -> Runs:
        """Many runs, each looked at after every so many meetings per agent, up to its end or so many meetings. Of a
        network, times are its own. The runs are shared among so many processes, and are the same with any number."""
        from ..simulation.ensembles import ensemble

        every, runs, seed, most = asked.step(every), asked.runs(runs), asked.seed(seed), asked.meetings(meetings)
        chosen = self._assumed(counts)
        from .modelled import in_own_time, placing_of

        agents = sum(chosen) + len(self.net.leaves[0].helpers)
        placing = placing_of(graph, rounds, agents, seed, volume)
        net, pace = in_own_time(self._loaded, agents, volume, placing)
        if kernel and (placing or self._loaded.network is not None):
            raise InputFault("the kernel makes plain runs from counts of variables")
        name, jobs = self._loaded.name, asked.whole("jobs", jobs, 1, asked.RUN_LIMIT)
        try:
            made = ensemble(
                net, chosen, seed, runs, every, most, name, pace=pace, jobs=jobs, placing=placing, by_kernel=kernel
            )
        except AskFault as fault:
            raise InputFault(str(fault)) from None
        by_state = {name: [[row[i] for row in rows] for rows in made.rows] for i, name in enumerate(made.names)}
        return Runs(made.times, by_state, made.agents, made.terminal)

    def sweep(self, runs: int = RUNS, seed: int = 0, progress: bool = False, **sizes: int | Iterable[int]) -> Table:
        """Many runs for each size: `sweep(x=[10, 100, 1000], y=5)`; ranges go in step. Sizes that the file leaves out
        by `assume` are passed over."""
        from .sweeps import swept

        runs = asked.runs(runs)
        seed = asked.seed(seed, runs)
        met = [counts for counts in asked.sizes(sizes) if self._loaded.meets(self._counts(counts))]

        def made(counts: Size, at: int) -> Run:
            seed_here = self._stream(seed + at, counts)
            return self.simulate(seed_here, None, None, None, (), None, None, False, False, **counts)

        crowds = [crowd_words(self.net, self._counts(counts)) for counts in met]
        return swept(self._loaded.name, asked.shown(met, progress), crowds, runs, made)

    def exact(
        self, fractions: bool = False, after: int | None = None, volume: float | None = None, **counts: int
    ) -> Exact:
        """The Markov chain of a small crowd: chances of its ends and outputs, and the meetings to them. Computed, and
        not proved."""
        from .chains import exact

        meetings = None if after is None else asked.meetings(after)
        return exact(self._loaded, self._assumed(counts), fractions, meetings, volume)

    def worst(self, agents: Iterable[int], fractions: bool = False) -> Table:
        """The slowest of all inputs of so many agents, helpers among them, for each number."""
        from .chains import worst

        return worst(self._loaded, [asked.whole("agents", k, AGENT_LEAST, AGENT_LIMIT) for k in agents], fractions)

    def _stream(self, seed: int, counts: Size) -> int:
        """The seed with which `bin/pop sweep` runs the same."""
        crowd = crowd_words(self.net, self._counts(counts))
        return seed_of(BY_SIMULATE, crowd, str(seed), mark_of(self._loaded))

    def _counts(self, counts: Size) -> tuple[int, ...]:
        """The counts of all variables; InputFault where they make no crowd."""
        try:
            return counts_of(self.net, [f"{name}={k}" for name, k in counts.items()])
        except AskFault as fault:
            raise InputFault(str(fault)) from None

    def _assumed(self, counts: Size) -> tuple[int, ...]:
        """The same; InputFault where the file leaves them out by `assume`."""
        return asked.met(self._loaded, self._counts(counts))

    def explain(self) -> str:
        """Layers, trees and facts by names, with the program's line first."""
        needs_program()
        from ..show.drawing import drawn
        from ..show.explaining import bundle_to_explain, explain

        bundle = bundle_to_explain(self._loaded)
        return drawn(explain(self._loaded, bundle, program.check(bundle.line()).text))

    def __repr__(self) -> str:
        leaves = self.net.leaves
        states = " + ".join(str(len(leaf.states)) for leaf in leaves)
        helpers = f", {len(leaves[0].helpers)} helpers" if leaves[0].helpers else ""
        proof = "with a proof" if self.has_proof else "without a proof"
        return f"<Protocol of {self.predicate or 'no predicate'}: {states} states{helpers}, {proof}>"

    def _repr_html_(self) -> str:
        return f"<pre>{escape(self.text())}</pre>"


def _verdict(answer: program.Answer) -> Verdict:
    claim = answer.claim
    bound = claim.bound if claim else None
    return Verdict(answer.first_line, claim.is_certified, bound, claim.is_stable, claim.is_tame)
