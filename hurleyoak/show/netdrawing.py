"""A net as a picture by graphviz: states by output, moves as arrows with whom the agent met, leaves side by side."""
from __future__ import annotations

import shutil
import subprocess
from fractions import Fraction
from typing import Iterator, Sequence

from ..compiler.groups import groups_of
from .look import FALSE_FILL, TRUE_FILL
from ..faults import InputFault
from ..protocol.nets import Leaf, Net
from ..text.writer import combine_text, leaf_names
from ..writing import write_whole
from ..protocol.laws import chance_text
from ..protocol.reactions import Outcome, leaf_outcomes, leaf_table

DRAWN_STATES = 20  # a leaf with more states is a table
PARTNERS_SHOWN = 4
CELLS_SHOWN = 8
StateRow = tuple[str, str, str, list[str]]  # name, output, what starts there, what becomes of it
HEAD: StateRow = ("state", "output", "starts", ["becomes, when it meets"])


def needs_graphviz() -> str:
    """The path of `dot`, or an InputFault that says what to install."""
    found = shutil.which("dot")
    if found is None:
        raise InputFault("pop draw -o needs graphviz: apt-get install graphviz (`--dot` and `--text` need nothing)")
    return found


def arrows(leaf: Leaf) -> dict[tuple[int, int], list[int]]:
    """From a state to another: which states an agent meets then. Where a move only swaps roles, nobody changes."""
    out: dict[tuple[int, int], list[int]] = {}
    for (p, q), (r, s) in sorted(leaf_table(leaf).items()):
        r, s = _kept(p, q, r, s)
        if p != r:
            met = out.setdefault((p, r), [])
            if q not in met:
                met.append(q)
        if p == q and s not in (p, r):
            out.setdefault((q, s), []).append(p)
    return out


def _quoted(text: str) -> str:
    # (graphviz reads `&lt;` in a text as it does in a page)
    return '"' + text.replace("&", "&amp;").replace("\\", "\\\\").replace('"', '\\"') + '"'


def _html(text: str) -> str:
    return text.replace("&", "&amp;").replace("<", "&lt;").replace(">", "&gt;")


def starts(net: Net, leaf: Leaf, state: int) -> str:
    """The variables and helpers that start in a state."""
    names = [name for name, q in zip(net.names, leaf.inputs) if q == state]
    helpers = leaf.helper_counts[state]
    return ", ".join(names + ([f"{helpers} helper{'' if helpers == 1 else 's'}"] if helpers else []))


def met_text(leaf: Leaf, met: Sequence[int]) -> str:
    """Whom an agent meets, in few words."""
    if len(met) == len(leaf.states):
        return "any"
    if len(met) > PARTNERS_SHOWN:
        rest = [q for q in range(len(leaf.states)) if q not in met]
        if len(rest) < PARTNERS_SHOWN - 1:
            return "all but " + ", ".join(leaf.states[q] for q in rest)
        return (
            ", ".join(leaf.states[q] for q in met[: PARTNERS_SHOWN - 1])
            + f" or {len(met) - PARTNERS_SHOWN + 1} others"
        )
    return ", ".join(leaf.states[q] for q in met)


def arrow_texts(leaf: Leaf) -> dict[tuple[int, int], str]:
    """From a state to another: whom an agent meets then, and where the moves have laws by which chance and in which
    role."""
    choices = leaf_outcomes(leaf)
    if not leaf.laws and all(len(made) == 1 for made in choices.values()):
        return {both: met_text(leaf, met) for both, met in arrows(leaf).items()}
    found: dict[tuple[int, int], dict[tuple[int, str], list[str]]] = {}
    for (p, q), outcomes in sorted(choices.items()):
        for (r, s), chance in _by_result(p, q, outcomes).items():
            mark = "" if chance == 1 else f" @ {chance_text(chance)}"
            for own, other, fresh, role in ((p, q, r, "second"), (q, p, s, "first")):
                if own != fresh:
                    found.setdefault((own, fresh), {}).setdefault((other, mark), []).append("" if p == q else role)
    return {
        both: ", ".join(_met_as(leaf.states[q], roles) + mark for (q, mark), roles in met.items())
        for both, met in found.items()
    }


def _met_as(name: str, roles: list[str]) -> str:
    """Whom an agent meets, with the role of the one who is met where it is always the same."""
    return f"{name} {roles[0]}".rstrip() if len(set(roles)) == 1 else name


def _kept(p: int, q: int, r: int, s: int) -> tuple[int, int]:
    """What the two become, where the one that keeps a state is drawn as the one that stays."""
    if p == q:
        return (r, s) if (r != p, r) <= (s != p, s) else (s, r)
    return (s, r) if (p == s) != (q == r) else (r, s)


def _by_result(p: int, q: int, outcomes: Sequence[Outcome]) -> dict[tuple[int, int], Fraction]:
    """The chance of each result; moves with one result count together."""
    out: dict[tuple[int, int], Fraction] = {}
    for (r, s), chance in outcomes:
        result = _kept(p, q, r, s)
        out[result] = out.get(result, Fraction(0)) + chance
    return out


def _graph(net: Net, at: int, leaf: Leaf) -> list[str]:
    """The lines of a leaf that is drawn with arrows; states that are worth the same stand in one frame."""
    lines = []
    for number, (told, states) in enumerate(groups_of(leaf).items()):
        lines += [
            f"subgraph cluster{at}_{number} {{",
            f'label={_quoted(told)} fontsize=11 color="#bbbbbb" style=dashed',
        ]
        lines += [f"s{at}_{q}" for q in states] + ["}"]
    for q, state in enumerate(leaf.states):
        fill = TRUE_FILL if leaf.outputs[q] else FALSE_FILL
        shape = "circle" if leaf.outputs[q] else "box"
        lines.append(f"s{at}_{q} [label={_quoted(state)} fillcolor={_quoted(fill)} shape={shape}]")
        words = starts(net, leaf, q)
        if words:
            lines.append(f'i{at}_{q} [label={_quoted(words)} shape=plaintext style="" fontcolor="#555555"]')
            lines.append(f'i{at}_{q} -> s{at}_{q} [style=dashed color="#999999"]')
    for (p, r), met in arrow_texts(leaf).items():
        lines.append(f"s{at}_{p} -> s{at}_{r} [label={_quoted(' ' + met + ' ')}]")
    return lines


def rows_of(net: Net, leaf: Leaf) -> list[StateRow]:
    """For each state its name, its output, what starts there, and what becomes of it: one text for each state."""
    becomes: list[list[str]] = [[] for _ in leaf.states]
    for (p, r), met in arrow_texts(leaf).items():
        becomes[p].append(f"{leaf.states[r]} by {met}")
    return [
        (name, str(leaf.outputs[q]).lower(), starts(net, leaf, q), becomes[q]) for q, name in enumerate(leaf.states)
    ]


def grouped(leaf: Leaf, rows: Sequence[StateRow]) -> Iterator[tuple[str, StateRow]]:
    """The rows, those of one group behind each other, the first one with the group's name."""
    groups = groups_of(leaf) or {"": list(range(len(rows)))}
    for told, states in groups.items():
        yield from zip([told, *[""] * len(states)], (rows[q] for q in states))


def _cells(texts: Sequence[str]) -> str:
    more = f"; {len(texts) - CELLS_SHOWN} more" if len(texts) > CELLS_SHOWN else ""
    return "; ".join(texts[:CELLS_SHOWN]) + more


def _table(net: Net, at: int, leaf: Leaf) -> list[str]:
    """The line of a leaf that is drawn as a table."""
    rows = [
        "<tr><td><b>state</b></td><td><b>output</b></td><td><b>starts</b></td>"
        "<td><b>becomes, when it meets</b></td></tr>"
    ]
    for told, (name, output, begins, becomes) in grouped(leaf, rows_of(net, leaf)):
        if told:
            rows.append(f'<tr><td colspan="4" align="left"><i>{_html(told)}</i></td></tr>')
        fill = TRUE_FILL if output == "true" else FALSE_FILL
        cells = [f'<td bgcolor="{fill}">{_html(name)}</td>', f"<td>{output}</td>", f"<td>{_html(begins) or ' '}</td>"]
        rows.append(f'<tr>{"".join(cells)}<td align="left">{_html(_cells(becomes)) or " "}</td></tr>')
    return [
        f'table{at} [shape=plaintext style="" '
        f'label=<<table border="0" cellborder="1" cellspacing="0">{"".join(rows)}</table>>]'
    ]


def dot_text(net: Net, title: str, about: str) -> str:
    """The text for graphviz."""
    lines = ["digraph net {", "rankdir=LR", "labelloc=t labeljust=l fontname=Helvetica fontsize=14"]
    lines.append(f'label={_quoted(title)[:-1]}\\l{_quoted(about)[1:-1]}\\l"')
    lines.append('node [style=filled fontname=Helvetica fontsize=12 color="#555555" width=0.5 height=0.4]')
    lines.append('edge [fontname=Helvetica fontsize=10 color="#333333"]')
    for at, (leaf, name) in reversed(list(enumerate(zip(net.leaves, leaf_names(net))))):
        body = _graph(net, at, leaf) if len(leaf.states) <= DRAWN_STATES else _table(net, at, leaf)
        if len(net.leaves) > 1:
            body = [f"subgraph cluster{at} {{", f'label={_quoted(name)} color="#bbbbbb"', *body, "}"]
        lines += body
    return "\n".join([*lines, "}"]) + "\n"


def about_text(net: Net) -> str:
    """What the picture says below its title."""
    told = "circles output true, boxes false; an arrow says whom the agent meets"
    if all(len(leaf.states) > DRAWN_STATES for leaf in net.leaves):
        told = "what an agent becomes, by whom it meets"
    return (
        told
        if len(net.leaves) == 1 and net.combine == (0,)
        else f"{combine_text(net.combine, leaf_names(net))}; {told}"
    )


def table_text(net: Net) -> str:
    """The table of all leaves as text."""
    lines: list[str] = []
    for leaf, name in zip(net.leaves, leaf_names(net)):
        rows = [("", HEAD), *grouped(leaf, rows_of(net, leaf))]
        widths = [max(len(row[i]) for _, row in rows) for i in range(3)]
        lines += [""] * bool(lines) + ([name] if len(net.leaves) > 1 else [])
        for told, row in rows:
            lines += [f"# {told}"] * bool(told)
            lines.append("  ".join([*(str(row[i]).ljust(widths[i]) for i in range(3)), "; ".join(row[3])]).rstrip())
    return "\n".join(lines)


def draw(text: str, path: str) -> None:
    """Lets graphviz draw a picture by its file's ending; InputFault where that fails, WriteFault where it can't be
    written."""
    kind = path.rsplit(".", 1)[1]
    run = subprocess.run(
        [needs_graphviz(), f"-T{kind}"],
        input=text.encode(),
        stdout=subprocess.PIPE,
        stderr=subprocess.PIPE,
        check=False,
    )
    if run.returncode:
        raise InputFault(f"pop draw: graphviz fails: {run.stderr.decode(errors='replace').strip()[:400]}")
    write_whole(path, run.stdout)
