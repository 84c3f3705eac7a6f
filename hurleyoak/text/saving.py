"""A proof put into the text of a `.pop` file: the lines of the old one give way, and all comments stay."""
from __future__ import annotations

from ..faults import InputFault
from .files import load_pop
from .loaded import strict_bundle
from .popsections import FILE_WORDS, LEAF_WORDS
from ..proof.bundles import Bundle
from ..protocol.predicatereader import read_predicate
from ..protocol.predicates import Predicate
from .scanner import WORD, Line, TextFault, lines_of, without_comment
from .writer import head, proof_lines

PROOF_WORDS = ("layers", "layer", "when")


def _word(line: Line) -> str:
    word = line.matches(WORD) or ""
    line.at = line.indent
    return word if word in FILE_WORDS + LEAF_WORDS else ""


def _parts(text: str) -> tuple[list[list[int]], list[int], list[bool]]:
    """The numbers of the lines of each leaf's proof, of the last line of each leaf, and whether it has `computes`;
    lines count from 0."""
    proofs: list[list[int]] = [[]]
    lasts: list[int] = [-1]
    computes: list[bool] = [False]
    is_named, depth = False, -1
    for line in lines_of(text):
        number, word = line.number - 1, _word(line)
        if word == "leaf":
            if is_named:
                proofs.append([])
                lasts.append(-1)
                computes.append(False)
            is_named, depth = True, -1
        elif word in PROOF_WORDS and line.indent <= max(depth, 0) or word in PROOF_WORDS and depth < 0:
            depth = line.indent
        elif line.indent <= depth:
            depth = -1
        ends = [number, *(more.number - 1 for more in line.more)]
        if depth >= 0:
            proofs[-1] += ends
        elif word not in ("format", "variables", "predicate", "combine"):
            lasts[-1] = max(lasts[-1], *ends)
        computes[-1] |= word == "computes"
    return proofs, lasts, computes


def with_proof(text: str, bundle: Bundle) -> str:
    """The text with the proof of this bundle, whose net it has; InputFault where it can't be put in. Lines that stay
    end as they did, and new ones as the first one does."""
    end = "\r" if text.partition("\n")[0].endswith("\r") else ""
    given = text.split("\n")
    lines = [line.removesuffix("\r") for line in given]
    proofs, lasts, computes = _parts(text)
    taken = {number for proof in proofs for number in proof}
    after: dict[int, list[str]] = {}
    for leaf, part, proof, last, has in zip(bundle.net.leaves, bundle.proof, proofs, lasts, computes):
        fresh = proof_lines(bundle.net, leaf, part)
        kept = _with_comments(fresh, [lines[number] for number in proof])
        after[last] = ([] if has else [head("computes", part.pred)]) + kept
    out: list[str] = []
    for number in range(len(lines)):
        if number not in taken:
            out.append(given[number])
        if number in after:
            out += [fresh + end for fresh in after[number]]
    made = "\n".join(_without_double_blanks(out)).rstrip("\r\n") + f"{end}\n"
    try:
        again = strict_bundle(load_pop(made, "the file"))
    except TextFault as fault:
        raise fault.of_input("the file with the proof") from None
    if _predicates(again) != _predicates(bundle):
        raise InputFault(
            f"the file computes `{again.pred}`, and the proof is of `{bundle.pred}`: change the file first, or write"
            " another one by `-o FILE`"
        )
    if again.net != bundle.net or _trees(again) != _trees(bundle):
        raise InputFault(
            "the proof can't be put into this file: it reads back as another one; `-o FILE` writes a file of its own"
        )
    return made


def _predicates(bundle: Bundle) -> list[Predicate]:
    """The whole predicate and those of the leaves."""
    return [read_predicate(text, bundle.net.names) for text in (bundle.pred, *(part.pred for part in bundle.proof))]


def _trees(bundle: Bundle) -> list[object]:
    """What has to be read back as it was: the trees and the goals."""
    return [(part.tree(value), part.goal(value)) for part in bundle.proof for value in (True, False)]


def _with_comments(fresh: list[str], old: list[str]) -> list[str]:
    """The new lines, with the comments of old lines that say the same behind them; other comments stand before."""
    comments: dict[str, list[str]] = {}
    for line in old:
        said = without_comment(line)
        if len(said) < len(line):
            comments.setdefault(said.strip(), []).append(line[len(said) :])
    out = []
    for line in fresh:
        behind = comments.get(line.strip())
        out.append(f"{line}  {behind.pop(0)}" if behind else line)
    left = [comment for some in comments.values() for comment in some]
    return [*out[:1], *left, *out[1:]]


def _without_double_blanks(lines: list[str]) -> list[str]:
    return [line for at, line in enumerate(lines) if line.strip() or at == 0 or lines[at - 1].strip()]
