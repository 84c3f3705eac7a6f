"""A bundle as a file for the prover Coq: the net and the predicate as terms, the bundle's text, and theorems."""
from __future__ import annotations

from dataclasses import dataclass
from typing import Iterable, Sequence

from ..proof.bundles import Bundle
from ..protocol.nets import Item, Leaf
from ..protocol.predicatereader import read_predicate
from ..protocol.predicates import And, Less, Not, Or, Predicate, Rest
from ..visible import visible

COLUMNS = 110  # of the lines of a list
READABLE = 2_000  # moves of a net that is written as a term: Coq is slow at numerals
PIECE = 2_000  # bytes of one string: Coq's reader of strings needs stack for each byte
BELOW = "  "
PLACES = "_ _ _ _ _ _ _"  # the arguments of `checked`


@dataclass(frozen=True)
class Said:
    """What the file's theorems claim: `certified` or `stable` with a bound, and whether the layers are tame."""

    claim: str
    bound: int
    is_tame: bool = False


@dataclass(frozen=True)
class Theorem:
    """A theorem of the file: its name, the definition that it is about, the lemma that it follows by, and how many
    of what was checked the lemma asks for."""

    name: str
    claim: str
    lemma: str
    premises: int = 0


CERTIFIED, STABLE = "certified", "stable"
CERTIFICATE = {
    CERTIFIED: Theorem("certificate", CERTIFIED, "silent_by", 1),
    STABLE: Theorem("certificate", STABLE, "stable_by"),
}
AT_RANDOM = {
    CERTIFIED: Theorem("at_random", "computes_almost_surely", "surely_by", 2),
    STABLE: Theorem("at_random", "stable_almost_surely", "stable_surely_by", 1),
}
SOON = Theorem("soon", "computes_in_cubic_time", "soon_by", 1)
NOT_SINGLE = "(* no theorem with probability 1: a leaf has two moves for the same two states *)"
NOT_TAME = "(* no theorem with a bound on meetings: the layers aren't tame *)"
NET_OF_TEXT = [
    "(* too long to be read: `as_written` says that its text is the bundle's *)",
    "Definition the_net : net := net_in the_bundle.",
]


def coq_file(bundle: Bundle, source: str, said_of_it: Said) -> str:
    """The file's text, whose theorems claim what is said of the bundle; `source` is what a comment calls it."""
    is_readable = sum(len(leaf.moves) for leaf in bundle.net.leaves) <= READABLE
    net = [*_net(bundle), *_predicate(bundle), *_text(bundle)]
    if not is_readable:
        net = [*_text(bundle), *NET_OF_TEXT, *_predicate(bundle)]
    is_single = all(leaf.is_single for leaf in bundle.net.leaves)
    return "\n".join([*_head(bundle, source), *net, *_theorems(said_of_it, is_single)]) + "\n"


def _head(bundle: Bundle, source: str) -> list[str]:
    return [
        f"(* {said(source)}: {said(bundle.pred)} *)",
        "From Coq Require Import List NArith ZArith.",
        "From Hurleyoak Require Import Model Random Texts Bundles.",
        "Import ListNotations.",
        "",
    ]


def _net(bundle: Bundle) -> list[str]:
    net, helpers = bundle.net, range(len(bundle.net.leaves[0].helpers))
    return [
        f"(* variables: {said(numbered(net.names))} *)",
        *(line for i, leaf in enumerate(net.leaves) for line in _leaf(i, leaf)),
        f"Definition the_net : net := Net {listed(f'leaf_{i}' for i in range(len(net.leaves)))}",
        f"{BELOW}{listed(states_term(leaf.inputs[v] for leaf in net.leaves) for v in range(len(net.names)))}%N",
        f"{BELOW}{listed(states_term(leaf.helpers[h] for leaf in net.leaves) for h in helpers)}%N",
        f"{BELOW}({combination_term(net.combine)}).",
    ]


def _predicate(bundle: Bundle) -> list[str]:
    whole = predicate_term(read_predicate(bundle.pred, bundle.net.names))
    return [f"Definition the_predicate : predicate := ({whole})%Z.", ""]


def _leaf(i: int, leaf: Leaf) -> list[str]:
    moves = listed(f"Move {p} {q} {r} {s}" for p, q, r, s in leaf.moves)
    outputs = listed(str(b).lower() for b in leaf.outputs)
    return [
        f"(* states of leaf {i}: {said(numbered(leaf.states))} *)",
        f"Definition leaf_{i} : leaf := Leaf",
        f"{BELOW}{moves}%N",
        f"{BELOW}{outputs}.",
    ]


def _text(bundle: Bundle) -> list[str]:
    line = bundle.line()
    pieces = [line[i : i + PIECE].replace('"', '""') for i in range(0, len(line), PIECE)]
    return [
        "(* the bundle, as `bin/pop bundle` prints it *)",
        "Definition the_bundle : bytes := flat_map bytes_of [",
        ";\n".join(f'"{piece}"' for piece in pieces) + "]%text.",
        "",
    ]


def _theorems(said_of_it: Said, is_single: bool) -> list[str]:
    claim, bound, is_tame = said_of_it.claim, said_of_it.bound, said_of_it.is_tame
    theorems = [CERTIFICATE[claim], *([AT_RANDOM[claim]] if is_single else []), *([SOON] if is_tame else [])]
    found = " ".join(str(word).lower() for word in (claim == CERTIFIED, is_single, is_tame))
    return [
        "(* what Coq computes: is the proof valid, silent, of a net without a choice of moves, and tame *)",
        f"Lemma is_checked : checked {found} {bound} the_bundle the_net the_predicate = true.",
        "Proof. vm_cast_no_check (eq_refl true). Qed.",
        "",
        *(line for theorem in theorems for line in _theorem(theorem, bound)),
        *([] if is_single else [NOT_SINGLE]),
        *([] if is_tame or claim == STABLE else [NOT_TAME]),
        "Theorem as_written : is_text_of the_bundle the_net the_predicate.",
        f"Proof. exact (text_by {PLACES} is_checked). Qed.",
        "",
        *(f"About {theorem.claim}." for theorem in theorems),
        f"Definition all_theorems := ({', '.join(theorem.name for theorem in theorems)}, as_written).",
        "Print Assumptions all_theorems.",
    ]


def _theorem(theorem: Theorem, bound: int) -> list[str]:
    return [
        f"Theorem {theorem.name} : {theorem.claim} {bound} the_net the_predicate.",
        f"Proof. exact ({theorem.lemma} {PLACES} is_checked{' eq_refl' * theorem.premises}). Qed.",
        "",
    ]


def said(text: str) -> str:
    """A text within a comment, on one line. Coq reads comments and strings within comments, so nothing in it may begin or
    end one."""
    return visible(text).replace('"', "''").replace("(*", "( *").replace("*)", "* )")


def numbered(names: Sequence[str]) -> str:
    """Names with their numbers."""
    return ", ".join(f"{number} {name}" for number, name in enumerate(names))


def signed(a: int) -> str:
    """A whole number."""
    return f"({a})" if a < 0 else str(a)


def listed(parts: Iterable[str]) -> str:
    """A list, over as many lines as it takes."""
    lines, line = [], ""
    for part in parts:
        if line and len(line) + len(part) > COLUMNS:
            lines.append(line)
            line = ""
        line += f"{part}; "
    return "[" + f"\n{BELOW}".join([*lines, line]).removesuffix("; ") + "]"


def states_term(states: Iterable[int]) -> str:
    """A state for each leaf."""
    return listed(map(str, states))


def combination_term(combine: Sequence[Item]) -> str:
    """The tree of a combination in postfix."""
    stack: list[str] = []
    for item in combine:
        if item == "not":
            stack.append(f"Not ({stack.pop()})")
        elif item in ("and", "or"):
            right, left = stack.pop(), stack.pop()
            stack.append(f"{'And' if item == 'and' else 'Or'} ({left}) ({right})")
        else:
            stack.append(f"Atom {item}%nat")
    return stack.pop()


def predicate_term(tree: Predicate) -> str:
    """The term of a predicate."""
    if isinstance(tree, Less):
        return f"Atom (Less {listed(map(signed, tree.coefficients))} {signed(tree.bound)})"
    if isinstance(tree, Rest):
        return f"Atom (Congruent {listed(map(signed, tree.coefficients))} {tree.rest} {tree.modulus})"
    if isinstance(tree, Not):
        return f"Not ({predicate_term(tree.part)})"
    assert isinstance(tree, (And, Or))
    word = "And" if isinstance(tree, And) else "Or"
    return f"{word} ({predicate_term(tree.left)}) ({predicate_term(tree.right)})"
