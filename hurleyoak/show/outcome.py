"""What is said of a simulated run."""
from __future__ import annotations

from ..simulation.simulation import AGREED, CHANGES, CONDITION, INTERRUPTED, MEETINGS, SETTLED, TIME, Simulation, Stop


def told(simulation: Simulation, value: bool | None, rounds: bool = False) -> list[str]:
    """The lines of the answer: the crowd as `run` prints it, and then a line for each figure."""
    at = "in round" if rounds else "at meeting"
    agents = simulation.agents
    reactions = simulation.reactions
    lines = [f"{reactions.name(word)} {k}" for word, k in simulation.crowd().items()]
    lines.append(
        f"rounds {simulation.meetings}, of {agents} agents"
        if rounds
        else f"meetings {simulation.meetings}, {simulation.meetings / agents:.4g} for each of {agents} agents"
    )
    lines.append(
        f"changes {simulation.changes}" + (f", the last {at} {simulation.last_change}" if simulation.changes else "")
    )
    stopped: dict[Stop | None, str] = {
        AGREED: "stopped when all agents agreed",
        SETTLED: "stopped when no output can change any more",
        CHANGES: "stopped at the limit of changes; --changes N sets it",
        MEETINGS: f"stopped at the limit of {'rounds' if rounds else 'meetings'}",
        CONDITION: "stopped when the condition held",
        TIME: "stopped at the time that was asked for",
        INTERRUPTED: "stopped by an interrupt; this is what it had come to",
    }
    lines.append("terminal" if simulation.is_terminal else f"not terminal: {stopped[simulation.ended]}")
    output = simulation.output
    lines.append(
        "output mixed"
        if output is None
        else f"output {str(output).lower()}, since {'round' if rounds else 'meeting'} {simulation.since}"
    )
    if value is not None:
        said = "they agree" if value == output else "they differ" if simulation.is_terminal else "not yet agreed"
        lines.append(f"predicate {str(value).lower()}: {said}")
    lines.append(f"{simulation.told}, and not proved")
    return lines
