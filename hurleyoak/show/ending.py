"""What is told behind a run's `undecided A B`: the states of these two agents, and when the last change was."""
from __future__ import annotations

import re
from collections import Counter
from typing import Any

from ..text.jsontext import read_json
from ..protocol.nets import FormatFault, Leaf, Net, is_silent, net_of
from ..text.writer import leaf_names

_UNDECIDED = re.compile(r"undecided (\d+) (\d+)")
_COUNT = re.compile(r"([^=]+)=(\d+)")
States = tuple[int, ...]


def reactions(leaf: Leaf) -> dict[tuple[int, int], tuple[int, int]]:
    """What two states become, in either order; the first move that is listed for them and changes something counts."""
    out: dict[tuple[int, int], tuple[int, int]] = {}
    for p, q, r, s in leaf.moves:
        if not is_silent((p, q, r, s)) and (p, q) not in out:
            out[p, q] = (r, s)
            out.setdefault((q, p), (s, r))
    return out


def seated(net: Net, crowd: str) -> list[States]:
    """Each agent's states at the start: those of the first variable first, and the helpers last."""
    counts = {m.group(1): int(m.group(2)) for m in map(_COUNT.fullmatch, crowd.split(" ")[1:]) if m}
    out: list[States] = []
    for i, name in enumerate(net.names):
        out += [tuple(leaf.inputs[i] for leaf in net.leaves)] * counts.get(name, 0)
    for j in range(len(net.leaves[0].helpers)):
        out.append(tuple(leaf.helpers[j] for leaf in net.leaves))
    return out


def _names(net: Net, states: States) -> str:
    return "/".join(leaf.states[q] for leaf, q in zip(net.leaves, states))


def meet(agents: list[States], tables: list[dict[tuple[int, int], tuple[int, int]]], a: int, b: int) -> None:
    """Two agents meet."""
    made = [table.get((p, q), (p, q)) for table, p, q in zip(tables, agents[a], agents[b])]
    agents[a], agents[b] = tuple(r for r, _ in made), tuple(s for _, s in made)


def undecided_told(bundle_line: str, crowd: str, printed: bytes) -> list[str]:
    """Sentences on a run that ended undecided; none where what was printed isn't understood.

    The states come from playing the marked meetings, and are told only where this leads to the crowd that the program
    printed.
    """
    lines = printed.decode(errors="replace").rstrip("\n").split("\n")
    found = _UNDECIDED.fullmatch(lines[-1])
    if found is None or "end" not in lines:
        return []
    end = len(lines) - 1 - lines[::-1].index("end")
    meetings = [line for line in lines[3:end] if not line.startswith("round")]
    try:
        bundle = read_json(bundle_line)
        net, end_told = net_of(bundle["net"]), _end_told(bundle["proof"])
    except (FormatFault, ValueError, KeyError, TypeError):
        return []
    agents, tables = seated(net, crowd), [reactions(leaf) for leaf in net.leaves]
    last = 0
    for number, line in enumerate(meetings, start=1):
        if line.endswith(" *"):
            pair = line.split(" ")[1:3]
            meet(agents, tables, int(pair[0]), int(pair[1]))
            last = number
    crowd_lines = [f"{_names(net, states)} {k}" for states, k in sorted(Counter(agents).items())]
    a, b = int(found.group(1)), int(found.group(2))
    if crowd_lines != lines[end + 1 : -1] or max(a, b) >= len(agents):
        return []
    return [_told(net, agents, a, b, end_told), _when(len(meetings), last)]


def _end_told(proof: Any) -> str:
    """What the run didn't come to: by goals it is an answer that stays."""
    has_goals = any("goals" in part and "layers" not in part for part in proof)
    return "an answer that stays" if has_goals else "the crowd's end"


def _told(net: Net, agents: list[States], a: int, b: int, end_told: str) -> str:
    if agents[a] == agents[b]:
        return (
            f"the turns are used up before {end_told}: agents {a} and {b} are both in `{_names(net, agents[a])}`,"
            " and their meeting would change that"
        )
    where = "" if len(net.leaves) == 1 else f" (by {', '.join(leaf_names(net))})"
    return (
        f"the turns are used up before {end_told}: agent {a} is in `{_names(net, agents[a])}` and agent {b} in"
        f" `{_names(net, agents[b])}`{where}, and their meeting would change that"
    )


def _when(meetings: int, last: int) -> str:
    if not meetings:
        return "there was no meeting: `--turns N` says how many each worker has"
    if not last:
        return f"none of the {meetings:,} meetings changed anything; `--turns N` gives more, `--seed N` other pairs"
    return (
        f"the last change was {meetings - last:,} meetings ago, of {meetings:,}; `--turns N` gives more, `pop settle`"
        " goes by the proof's moves"
    )
