"""Meetings one by one, by names: the crowd before each, the move, and the crowd behind it."""
from __future__ import annotations

from collections import Counter
from typing import Sequence

from ..protocol.naming import state_text
from ..protocol.nets import FormatFault, Net, net_of
from ..text.jsontext import read_json
from .ending import States, meet, reactions, seated

STAYS = "nothing changes"


def _word(net: Net, states: States) -> str:
    return state_text("/".join(leaf.states[q] for leaf, q in zip(net.leaves, states)))


def _crowd(net: Net, agents: Sequence[States]) -> str:
    return ", ".join(f"{k} {_word(net, states)}" for states, k in sorted(Counter(agents).items()))


def _printed(net: Net, agents: Sequence[States]) -> list[str]:
    """The crowd as the program prints it."""
    return [
        "/".join(leaf.states[q] for leaf, q in zip(net.leaves, states)) + f" {k}"
        for states, k in sorted(Counter(agents).items())
    ]


def steps_told(lines: Sequence[str], printed: str) -> list[str] | None:
    """The crowds and moves of what `play` was asked: a net, a crowd line and meetings; None where they lead to another
    crowd than it printed."""
    try:
        net = net_of(read_json(lines[0]))
    except (FormatFault, ValueError):
        return None
    agents, tables = seated(net, lines[1]), [reactions(leaf) for leaf in net.leaves]
    out = [_crowd(net, agents)]
    for line in lines[2:]:
        a, b = map(int, line.split(" "))
        before = agents[a], agents[b]
        meet(agents, tables, a, b)
        p, q, r, s = (_word(net, states) for states in (*before, agents[a], agents[b]))
        is_changed = sorted(before) != sorted((agents[a], agents[b]))
        out.append(f"{a},{b}".ljust(8) + (f"{p} + {q} -> {r} + {s}" if is_changed else STAYS))
        out.append(_crowd(net, agents))
    return out if printed.splitlines()[:-1] == _printed(net, agents) else None
