"""Warnings about a net: what is probably not meant, though every file may have it."""
from __future__ import annotations

from typing import Callable, Sequence

from ..proof.names import Names
from ..protocol.laws import LAWS_TOLD, PLAIN
from ..protocol.nets import Leaf, Net, pair

TOLD = 3  # moves that are listed twice, each by itself


def reachable_states(leaf: Leaf) -> set[int]:
    """The states that some agent can come to: those of inputs and helpers, and what moves of such states put."""
    reached = {*leaf.inputs, *leaf.helpers}
    while True:
        more = {y for p, q, r, s in leaf.moves if p in reached and q in reached for y in (r, s)} - reached
        if not more:
            return reached
        reached |= more


def _repeated(leaf: Leaf, names: Names, lines: Sequence[int] | None) -> list[str]:
    """Moves that are listed twice, and those that no run takes, since an earlier one is for the same states. Of many
    alike one is told."""

    def place(t: int) -> str:
        return f"line {lines[t]}" if lines else f"move {t}"

    listed: dict[tuple[tuple[int, int], tuple[int, int]], int] = {}
    taken: dict[tuple[int, int], int] = {}
    out, twice = [], []
    for t, (p, q, r, s) in enumerate(leaf.moves):
        before, after = pair(p, q), pair(r, s)
        lead = f"{place(t)}: `{names.move(t)}` is"
        u = listed.setdefault((before, after), t)
        if u != t:
            twice.append((t, u))
        elif leaf.laws and leaf.laws[t] != PLAIN:
            continue  # (what is said of the laws says it)
        elif before != after and (u := taken.setdefault(before, t)) != t:
            out.append(
                f"{lead} hidden by `{names.move(u)}` ({place(u)}): a run takes the first of the two, so a certified"
                " net may run forever. `simulate` and `sweep` take either by equal chance, and a proof has to hold"
                " for both"
            )
    return [*_twice_told(twice, place, names, lines), *out]


def _twice_told(
    twice: Sequence[tuple[int, int]], place: Callable[[int], str], names: Names, lines: Sequence[int] | None
) -> list[str]:
    """What is said of moves that are listed twice, each with the first of the two."""
    told = [
        f"{place(t)}: `{names.move(t)}` is listed twice, first {'on' if lines else 'as'} {place(u)}" for t, u in twice
    ]
    if len(told) <= TOLD:
        return told
    t, u = twice[0]
    same = lines is not None and lines[t] == lines[u]
    turned = "; a move and its turn are one, so a loop goes over `j in i..`" if same else ""
    return [f"{len(told):,} moves are listed twice, for instance `{names.move(t)}` ({place(u)}, {place(t)}){turned}"]


def cautions(net: Net, leaf_lines: Sequence[Sequence[int]] | None = None, labels: Sequence[str] = ()) -> list[str]:
    """Sentences, one for each thing that is probably not meant; `leaf_lines` are the lines of the leaves' moves, and
    `labels` the leaves' names."""
    out = []
    if net.ignored_helpers:
        out.append('`helpers` in a net of format 1 is ignored: it needs `"format":2`')
    unnamed = [i for i in range(len(net.leaves)) if i not in net.combine]
    if unnamed:
        who = ", ".join(labels[i] if labels else f"leaf {i}" for i in unnamed)
        out.append(f"`combine` doesn't name {who}, so it doesn't count for the output")
    if any(leaf.laws for leaf in net.leaves):
        out.append(LAWS_TOLD)
    for i, leaf in enumerate(net.leaves):
        names = Names(net.names, leaf)
        lead = f"leaf {i}: " if len(net.leaves) > 1 else ""
        out += [lead + told for told in _repeated(leaf, names, leaf_lines[i] if leaf_lines else None)]
        lost = sorted(set(range(len(leaf.states))) - reachable_states(leaf))
        if lost:
            shown = ", ".join(names.state(q) for q in lost)
            out.append(f"{lead}no agent ever comes to {'state' if len(lost) == 1 else 'the states'} {shown}")
    return out
