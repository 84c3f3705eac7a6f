"""What is said of a counterexample, and where nothing was found, with what an author can do."""
from __future__ import annotations

from itertools import groupby
from typing import Iterable, Sequence

from ..text.loaded import Loaded
from ..proof.names import Names
from ..protocol.nets import Net
from ..protocol.predicatereader import read_predicate
from ..protocol.predicates import Predicate, value_at
from ..search.flaws import ROUND_SHOWN, WRONG, Flaw, Tried
from ..search.jobs import WHOLE, Result, Why
from ..search.playing import Played, crowd_line

MOVES_SHOWN = 24
MEETINGS_SHOWN = 200


def agents_told(names: Names, crowd: Sequence[int]) -> str:
    """A crowd as `2 A, 1 b`."""
    return ", ".join(f"{k} {names.state(q)}" for q, k in enumerate(crowd) if k) or "no agents"


def moves_told(names: Names, runs: Iterable[tuple[int, int]]) -> str:
    """Moves with how often each is taken in a row."""
    parts = [("" if n == 1 else f"{n} times ") + f"`{names.move(t)}`" for t, n in runs]
    return ", ".join(parts[:MOVES_SHOWN]) + (
        f" and {len(parts) - MOVES_SHOWN} more" if len(parts) > MOVES_SHOWN else ""
    )


def _count(number: int, what: str) -> str:
    return f"{number} {what}{'' if number == 1 else 's'}"


def _input(net: Net, counts: Sequence[int]) -> str:
    return " ".join(f"{name}={k}" for name, k in zip(net.names, counts))


def flaw_told(net: Net, tree: Predicate, text: str, flaw: Flaw, played: Played | None) -> str:
    """A counterexample of the whole net and its predicate, with what `play` printed where meetings lead to it."""
    names = _names(net, flaw)
    want = str(value_at(tree, flaw.counts)).lower()
    other = "false" if want == "true" else "true"
    lines = []
    if flaw.kind == WRONG:
        wrong = [
            names.state(q)
            for q, k in enumerate(flaw.crowd)
            if k and names.leaf.outputs[q] != value_at(tree, flaw.counts)
        ]
        lines.append(
            f"the protocol is wrong: at {_input(net, flaw.counts)} the predicate `{text}` is {want}, and"
            f" {_count(len(flaw.moves), 'move')} lead{'s' if len(flaw.moves) == 1 else ''} to a terminal crowd in"
            f" which {', '.join(wrong)} output{'s' if len(wrong) == 1 else ''} {other}"
        )
    else:
        lines.append(
            f"the protocol is wrong, and doesn't end: at {_input(net, flaw.counts)} {_way(flaw)} no terminal crowd can"
            " be reached"
        )
        lines.append(
            f"the predicate `{text}` is {want} there, and every crowd after it can reach one in which an agent outputs"
            f" {other}"
        )
        lines.append(
            "the workbench says that none can be reached, as it tried all; `play` shows only the way to the crowd"
        )
    lines.append(f"the end: {agents_told(names, flaw.crowd)}")
    lines += _round(names, flaw)
    return "\n".join([*lines, *(_played(net, flaw, played) if played else _unplayed(names, flaw))])


def _names(net: Net, flaw: Flaw) -> Names:
    assert flaw.leaf is not None
    return Names(net.names, flaw.leaf)


def left_out_told(loaded: Loaded, flaw: Flaw) -> str:
    """Why there is no certificate, where the protocol is wrong at an input that the file leaves out."""
    return (
        f"at {_input(loaded.net, flaw.counts)} the protocol doesn't compute `{loaded.predicate}`, and the file leaves"
        " that input out by `assume`.\nWhat helps: a predicate that is right there too; `refute` looks for a wrong crowd"
        " among the others"
    )


def that_meet(loaded: Loaded) -> str:
    """Which inputs are meant, where a file assumes something."""
    return f" that meet {' and '.join(f'`{text}`' for text in loaded.assumed)}" if loaded.assumed else ""


def untried_told(loaded: Loaded, tried: Tried) -> str:
    """That no input was tried, and why; empty where some were."""
    if tried.inputs:
        return ""
    if tried.met or not loaded.assumed:
        return "no input was tried to its end: the crowds of each are too many, or the time was up"
    most = f"none of up to {tried.agents} agents plus helpers" if tried.agents else "none"
    return f"no input was tried: {most} is one of those{that_meet(loaded)}"


OFFERED = "Goals can certify it: `pop find` looks for them"
LOOKED = (
    'Goals can certify such a protocol, and `find` found none (docs/guide/certificates.md, "Goals"). What helps: leave'
    " out the moves that go round, or let them need a state that they use up. Or write the layers of a goal, and `?` for"
    " its tree"
)


def restless_told(net: Net, tree: Predicate, text: str, flaw: Flaw, tried: Tried | None, advice: str = LOOKED) -> str:
    """A crowd whose outputs are at rest while its agents change for ever: what it means, and what else was tried."""
    names = _names(net, flaw)
    want = str(value_at(tree, flaw.counts)).lower()
    lines = [
        (
            f"stable, but not silent: at {_input(net, flaw.counts)} {_way(flaw)} no terminal crowd can be reached,"
            f" while every agent outputs {want} forever, the value of `{text}`"
        ),
        f"the crowd: {agents_told(names, flaw.crowd)}",
        *_round(names, flaw),
    ]
    if flaw.moves:
        lines.append(f"the way: {moves_told(names, ((t, len(list(run))) for t, run in groupby(flaw.moves)))}")
    if tried is not None and tried.agents:
        lines.append(
            f"no wrong output that stays was found: all inputs of up to {_count(tried.agents, 'agent')} plus helpers"
            " were tried"
        )
    lines.append(
        "The workbench alone says all of this, as it tried all crowds. In the literature such a protocol is right, as"
        f" its outputs come to rest. {advice}"
    )
    return "\n".join(lines)


def _way(flaw: Flaw) -> str:
    if not flaw.moves:
        return "from the input itself"
    return f"{_count(len(flaw.moves), 'move')} lead{'s' if len(flaw.moves) == 1 else ''} to a crowd from which"


def _round(names: Names, flaw: Flaw) -> list[str]:
    if not flaw.round:
        return []
    shown = flaw.round[:ROUND_SHOWN]
    if len(shown) == 1:
        return [f"it goes on forever: {agents_told(names, shown[0])}"]
    more = ", .." if len(flaw.round) > len(shown) else ", and again"
    return ["from there it goes round: " + "; ".join(agents_told(names, crowd) for crowd in shown) + more]


def _unplayed(names: Names, flaw: Flaw) -> list[str]:
    hidden = flaw.hidden
    return [
        f"the way: {moves_told(names, ((t, len(list(run))) for t, run in groupby(flaw.moves)))}",
        (
            f"no meeting takes {moves_told(names, ((t, 1) for t in hidden))}, as another move for the same states"
            " comes first. So `play` can't show it, and only the workbench says so. A certificate speaks of all moves"
        ),
    ]


def _played(net: Net, flaw: Flaw, played: Played) -> list[str]:
    lines = ["", crowd_line(net.names, flaw.counts)]
    for i, (a, b) in enumerate(played.meetings[:MEETINGS_SHOWN]):
        lines.append(f"{a} {b}".ljust(10) + played.moves[i])
    if len(played.meetings) > MEETINGS_SHOWN:
        lines.append(f".. and {len(played.meetings) - MEETINGS_SHOWN} more")
    lines += ["", "`pop play` of these meetings printed:", *played.printed]
    if flaw.kind == WRONG:
        lines.append(f"wrong: {', '.join(played.wrong)}")
    return lines


def failure_told(loaded: Loaded, result: Result) -> str:
    """Why no proof was found, and what an author can do."""
    net = loaded.net
    assert loaded.predicate is not None
    if result.at == WHOLE:
        assert result.restless is not None
        return restless_told(net, loaded.whole_tree(), loaded.predicate, result.restless, result.tried)
    assert loaded.parts is not None
    text = loaded.parts[result.at]
    names = Names(net.names, net.leaves[result.at])
    who = f"leaf {result.at}: " if len(net.leaves) > 1 else ""
    if result.why == Why.RESTLESS:
        assert result.restless is not None
        tree = read_predicate(text, net.names)
        return who + restless_told(net, tree, text, result.restless, result.tried)
    if result.why == Why.MISSES:
        assert result.missed is not None
        left_out = "" if loaded.meets(result.missed.counts) else ", which the file leaves out by `assume`,"
        return who + _misses(names, net, result, text, left_out)
    if result.why == Why.NO_LAYERS:
        return who + _no_layers(names, result)
    if result.why == Why.NO_GOAL:
        return (
            f"{who}{result.kind}: {result.told}. What helps: write the goal's layers or its sets, and `?` for the tree"
            ' (docs/guide/certificates.md, "Goals")'
        )
    if result.why == Why.GAVE_UP:
        advice = (
            "Give it more time by --seconds, or write a part of the proof yourself and `?` for the rest"
            if "time" in result.told
            else "Write a part of the proof yourself, and `?` for the rest"
        )
        return f"{who}tree for {result.kind}: {result.told}. {advice}"
    return who + _wrong_end(net, names, result, text)


def _misses(names: Names, net: Net, result: Result, text: str, left_out: str) -> str:
    """A leaf that isn't right for its own predicate, while the whole net wasn't found wrong."""
    assert result.missed is not None
    flaw = result.missed
    want = str(value_at(read_predicate(text, net.names), flaw.counts)).lower()
    way = moves_told(names, ((t, len(list(run))) for t, run in groupby(flaw.moves)))
    end = (
        f"leads to a terminal crowd in which not all agents output {want}"
        if flaw.kind == WRONG
        else "leads to a crowd from which none is reached where all output it forever"
    )
    return (
        f"it misses its own predicate: at {_input(net, flaw.counts)}{left_out} `{text}` is {want}, and {way or 'no move'} {end}:"
        f" {agents_told(names, flaw.crowd)}\nThe whole net was not found wrong there. A proof goes leaf by leaf, so"
        " each leaf needs a predicate that it computes itself.\nWhat helps: change the leaf, or give it another"
        " `computes`, with a whole `predicate` of the combination's shape"
    )


def _no_layers(names: Names, result: Result) -> str:
    if "tame" in result.told:
        return result.told
    if "time" in result.told:
        return (
            f"layers weren't found, but may exist: {result.told}. What helps: more `--seconds`, or layers of your own"
            " with `?` for the weights"
        )
    told = f"no layers were found{': ' + result.told if result.told else ''}"
    if result.are_none:
        told += "; there are none (shown by SMT)"
    if result.moves:
        told += (
            "\nthese moves, each taken a number of times, leave a crowd as it was. So they fit into no layer together,"
            f" and no order of layers was found for them: {moves_told(names, ((t, 1) for t in result.moves))}"
        )
    return (
        told
        + "\nWhat helps: let one of them need a state that the others don't bring back. Or merge leaders or helpers"
        " first, by moves of their own. Or leave out a move that isn't needed. A protocol without layers needs goals, and"
        " `find` found none"
    )


def _wrong_end(net: Net, names: Names, result: Result, text: str) -> str:
    leaf = names.leaf
    first, count = len(net.names), len(leaf.states)
    point = result.point
    counts, end, taken = point[:first], point[first : first + count], point[first + count :]
    active = set(leaf.active)
    way = moves_told(names, ((t, n) for t, n in enumerate(taken) if n and t in active))
    told = (
        f"tree for {result.kind}: no sum, trap, siphon, first entry or pair that could react excludes this candidate"
        f" for a wrong end.\nInput {_input(net, counts)}, where `{text}` is {result.kind}; end:"
        f" {agents_told(names, end)}; taken, in some order: {way or 'no move'}\n"
    )
    if result.order is not None and result.order.is_whole and not result.order.is_found:
        told += (
            f"No order of these moves is possible: `find` tried {_count(result.order.crowds, 'crowd')} that they lead"
            " to. Other moves may lead there\n"
        )
    if result.crowds is None:
        return (
            told
            + "It isn't known whether it can be reached: its input has too many crowds to try. Either the protocol is"
            " wrong, or its proof needs a reason that these nodes can't give. What helps: `pop refute` with more"
            " agents; or a move that converts the states of this end"
        )
    return (
        told
        + f"It can't be reached: all {result.crowds} crowds of this input were tried, and none is a wrong end. The"
        " protocol is right there. Its proof needs a reason that these nodes can't give, such as the order of moves"
        " behind the first one that enters a set. What helps: make the set of these states a trap or"
        " siphon, by a move that converts them, or without a move that enters it"
    )
