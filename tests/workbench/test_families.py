"""Families: loops and sums make the texts of the members, and faults name the line of the family."""
from __future__ import annotations

import shlex
from pathlib import Path

import pytest

from hurleyoak.simulation.sweepjobs import read_job, result_of
from hurleyoak.text.families import member, member_name, members, parameters
from hurleyoak.text.files import load_pop
from hurleyoak.text.membersof import load_member
from hurleyoak.text.scanner import TextFault

from .conftest import EXAMPLES, needs_program
from .test_commands import pop

FAMILIES = sorted((EXAMPLES / "families").glob("*.pop"))
FLOCK = (EXAMPLES / "families" / "flock.pop").read_text()


@pytest.mark.parametrize("path", FAMILIES, ids=str)
def test_the_first_and_the_last_member_are_read(path: object) -> None:
    """Every family of the examples."""
    text = str(getattr(path, "read_text")())
    for values in (members(text)[0], members(text)[-1]):
        loaded = load_pop(member(text, values).text, member_name(values))
        assert loaded.predicate is not None


@needs_program
@pytest.mark.parametrize("path", FAMILIES, ids=lambda path: str(path.stem))
def test_a_family_is_certified(path: Path) -> None:
    """Its first two members, by `find` and the program; `pop find FILE` does so with all."""
    pytest.importorskip("scipy")
    from hurleyoak.engine import program
    from hurleyoak.search.finding import find

    for values in members(path.read_text())[:2]:
        found = find(load_member(path.read_text(), values, path.name), 60.0, 0.0, 1)
        assert found.bundle is not None, values
        assert program.check(found.bundle.line()).first_line.startswith("certified ")


def test_a_sweep_goes_over_all_members(tmp_path: Path) -> None:
    """A group of jobs for each, whose words name the member."""
    from .test_commands import pop

    listed = pop("sweep", str(EXAMPLES / "families" / "majority.pop"), "x=4", "y=1", "--runs", "2", "--list").stdout
    lines = listed.splitlines()
    assert [sum(f"with=t={t} " in line for line in lines) for t in (0, 1)] == [2, 2]
    for line in lines:
        job = read_job(shlex.split(line)[-1])
        assert read_job(job.text()) == job and result_of(job).right is True
    table = pop("sweep", str(EXAMPLES / "families" / "majority.pop"), "x=4", "y=1", "--runs", "2").stdout
    assert "majority t=0" in table and "majority t=1" in table


@pytest.mark.parametrize(
    "words", [("check",), ("draw", "--text"), ("play", "x=3"), ("explain",), ("bundle",)], ids=str
)
def test_commands_of_one_protocol_say_how_a_member_is_chosen(words: tuple[str, ...]) -> None:
    """A family isn't read as a move that lacks its `+`."""
    from .test_commands import pop

    run = pop(words[0], str(EXAMPLES / "families" / "flock.pop"), *words[1:])
    assert run.returncode == 2 and "is a family of 11 protocols: `--with c=2` chooses one" in run.stderr


@needs_program
def test_find_of_a_family_writes_its_table(tmp_path: Path) -> None:
    """`-o` as everywhere; what is for one protocol is refused, and not passed over."""
    from .test_commands import pop

    pytest.importorskip("scipy")
    file, out = tmp_path / "family.pop", tmp_path / "table"
    file.write_text("family c in 1..2\ninputs x: I y: S\nS + I -> I + I\nyes I\ncomputes x >= 1\n")
    run = pop("find", str(file), "-o", str(out))
    assert run.returncode == 0 and run.stdout == ""
    assert [line.split()[0] for line in out.read_text().splitlines()] == ["member", "c=1", "c=2"]
    refused = pop("find", str(file), "--save")
    assert refused.returncode == 1 and "`--save` is for one protocol: `--with c=1`" in refused.stderr


def test_members() -> None:
    """One for each value, the first parameter slowest."""
    assert members("family m in 2..3\nfamily r in 0..1\n") == [
        {"m": 2, "r": 0},
        {"m": 2, "r": 1},
        {"m": 3, "r": 0},
        {"m": 3, "r": 1},
    ]
    assert members("states A\n") == [] and parameters("family k in 2^3\n") == {"k": range(8, 9)}


def test_loops_and_sums() -> None:
    """Nested loops, conditions, brackets, and the signs."""
    text = "family m in 3\nfor i in 0..m-1, j in i..m-1 if i != j\n  N{i} + N{j} -> N{(i + j) % m} + f\n"
    made = member(text, {"m": 3})
    assert made.text.split("\n")[:3] == ["N0 + N1 -> N1 + f", "N0 + N2 -> N2 + f", "N1 + N2 -> N0 + f"]
    assert made.sources[:3] == [3, 3, 3]
    assert member("[{i}^{2*i} for i in 1..2]", {}).text == "1^2 2^4"
    assert member("{min(k, 3) - max(1, 2) * abs(-2) + 7 // 2 + 2^3}", {"k": 9}).text == "10"
    assert member("trap {N, O}", {"k": 9}).text == "trap {N, O}", "sets of states stay"
    nested = "for i in 1..2\n  for j in 1..i\n    {i} + {j} -> 0 + 0\n  {i}\n"
    assert member(nested, {}).text == "1 + 1 -> 0 + 0\n1\n2 + 1 -> 0 + 0\n2 + 2 -> 0 + 0\n2\n"


@pytest.mark.parametrize(
    "text, line, told",
    [
        ("family m in 2..x", 1, "`x` is neither a parameter"),
        ("family m in 1..99999\nfamily n in 1..9", 1, "it may have 1 to 10000"),
        ("family m in 2\nfor i in 0..9999999\n  {i}\n", 2, "at most 200000 lines"),
        ("family m in 2\nfor i\n  {i}\n", 2, "is no range"),
        ("family m in 2\n\n{m % 0}\n", 3, "a division by 0"),
        ("family m in 2\n{m ^ 99}\n", 2, "an exponent is 0 to 64"),
        ("family m in 1\nfor k in 1..1 if m is 2\n  {k}\n", 2, "a comparison has the signs < <= > >= = and !="),
        ("family m in 1\nfor k in 1..1 if m is not 1\n  {k}\n", 2, "a comparison has the signs"),
        ("family m in 1\nfor k in 1..1 if m in 2\n  {k}\n", 2, "a comparison has the signs"),
        ("family m in 1\nfor k in 1..1 if m not in 2\n  {k}\n", 2, "a comparison has the signs"),
        ("family m in 1\nfor k in 1..1 if k > 1 and m is 1\n  {k}\n", 2, "a comparison has the signs"),
        ("family m in 1\nfor k in 1..1 if k == 1 or m == 1\n  {k}\n", 2, "after `if` comes a comparison"),
        ("family m in 1\n[{k} for k in 1..1 if ]\n", 2, "a condition is missing"),
        ("family m in 1\nfor k in 1..1 if\n  {k}\n", 2, "a condition is missing"),
        ("family m in 1\n{+m}\n", 2, "a sum has the signs"),
        ("family m in 1\n{m << 2}\n", 2, "a sum has the signs"),
        ("family m in 0..2^64\n", 1, "it may have 1 to 10000"),
        (
            "family m in 1\nfor i in 1..2000, j in 1..2000 if i < 0\n  {i}\n",
            2,
            "the loops of the member go round over 1000000 times",
        ),
        ("family m in 1\n" + "x" * 9000 + "[" + "y" * 9000 + " for i in 1..9999]\n", 2, "characters"),
        ("family m in 1\nfor " + ", ".join(["i in 1..1"] * 99) + "\n  {i}\n", 2, "at most 16 names"),
        (
            "family m in 1\n" + "".join(f"{' ' * i}for i in 1..1\n" for i in range(500)) + " " * 500 + "{i}\n",
            18,
            "at most 16 loops",
        ),
    ],
)
def test_faults(text: str, line: int, told: str) -> None:
    """At the family's own line."""
    with pytest.raises(TextFault) as caught:
        for values in members(text):
            member(text, values)
    assert caught.value.line == line and told in caught.value.told


def test_a_fault_stands_at_its_part() -> None:
    with pytest.raises(TextFault) as caught:
        member("for k in 1..1, i in 1..k if m is 2\n  {k}\n", {"m": 1})
    assert caught.value.column == 1 + "for k in 1..1, i in 1..k if m is 2".index("m is 2")


def test_conditions_and_comments() -> None:
    """`=` is read as in predicates, `min` has its comma, and a comment stays one."""
    assert member("for i in 1..3 if i = 2 and m=5\n  {i}\n", {"m": 5}).text == "2\n"
    assert member("for i in 1..3 if i >= 2 and i <= 2\n  {i}\n", {"m": 5}).text == "2\n"
    assert member("for i in 1..min(m, 2), j in max(i, 2)..2\n  {i}{j}\n", {"m": 5}).text == "12\n22\n"
    assert member("{m}  # of {3/4} and {m}", {"m": 5}).text == "5  # of {3/4} and {m}"
    assert member('"#{m}" # {3/4}', {"m": 5}).text == '"#5" # {3/4}'
    assert member("[{i} for i in 1..min(m, 2)]", {"m": 5}).text == "1 2"


def test_a_fault_of_a_member_is_told_at_the_family_s_line() -> None:
    """The reader of `.pop` files knows the member's lines alone."""
    text = FLOCK.replace("-> {i + j} + 0", "-> {i + j}")
    made = member(text, {"c": 4})
    with pytest.raises(TextFault) as caught:
        load_pop(made.text, "flock")
    assert "{i} + {j}" in text.split("\n")[made.back(caught.value).line - 1]


def test_a_loop_outside_a_family_is_told() -> None:
    """With the line that is missing."""
    with pytest.raises(TextFault) as caught:
        load_pop("inputs x: 0\nfor i in 0..2\n  {i} + 0 -> 0 + 0\n", "file")
    assert caught.value.line == 2 and "`family m in 3`" in caught.value.told


def test_a_value_that_no_member_has_is_refused() -> None:
    from .test_commands import pop

    run = pop("text", str(EXAMPLES / "families" / "flock.pop"), "--with", "c=99")
    assert run.returncode == 1 and "`c` is 2 to 12 in this family, found 99" in run.stderr


@pytest.mark.parametrize("command", ["find", "refute", "simulate", "text"])
def test_values_outside_the_declared_range_are_refused(command: str) -> None:
    """By every command that takes a member; and as a job."""
    family = str(EXAMPLES / "families" / "tower.pop")
    for value in (1, 13):
        run = pop(command, family, *(["x=3"] if command == "simulate" else []), "--with", f"c={value}")
        assert run.returncode == 1 and f"`c` is 2 to 12 in this family, found {value}" in run.stderr
    job = pop("sweep", "--job", f"simulate {family} crowd=x=5 seed=1 changes=5 with=c=13 net=0")
    assert job.returncode == 2 and "`c=13` names no member of this family" in job.stderr


TWO = """family a in 1..2
family b in 4..5
inputs x: A y: B
for i in 1..1
  A + B -> a + b
A + b -> A + a
B + a -> B + b
a + b -> b + b
yes A a
computes x > y
"""
EACH = [
    ("net",), ("bundle",), ("text",), ("explain",), ("find", "--text"), ("refute",), ("simulate", "x=3", "y=2"),
    ("exact", "x=3", "y=2"), ("sweep", "x=3", "y=2", "--runs", "2"), ("draw", "--text"), ("page",),
    ("export", "--prism", "x=3", "y=2"), ("check",), ("show",), ("run", "x=3", "y=2"), ("watch", "x=3", "y=2"),
    ("settle", "x=3", "y=2"), ("play", "x=3", "y=2", "0,3"),
]  # fmt: skip


@needs_program
@pytest.mark.parametrize("words", EACH, ids=lambda words: str(words[0]))
def test_a_member_is_chosen_wherever_a_file_is_read(words: tuple[str, ...], tmp_path: Path) -> None:
    """In the form of the hint; a member that isn't there is told, and a fault is that of the member alone."""
    from .test_commands import pop

    if words[0] in ("find", "exact"):
        pytest.importorskip("scipy")
    family = tmp_path / "two.pop"
    family.write_text(TWO)
    hinted = pop(words[0], str(family), *words[1:])
    if words[0] not in ("find", "sweep"):
        assert "is a family of 4 protocols: `--with a=1,b=4` chooses one" in hinted.stderr
    made = pop(words[0], str(family), *words[1:], "--with", "a=1,b=4")
    needs_proof = words[0] in ("bundle", "check", "show", "run", "watch", "settle")
    if needs_proof:
        assert "two.pop with a=1 b=4:3:1: this leaf has no proof" in made.stderr
    else:
        assert made.returncode in (0, 3) and made.stdout and "a family of" not in made.stderr, made.stderr
        assert ": line 10: the predicate was read as" in made.stderr or words[0] == "play", made.stderr
    other = pop(words[0], str(family), *words[1:], "--with", "a=3,b=4")
    assert other.returncode == 1 and "`a` is 1 to 2 in this family, found 3" in other.stderr


@needs_program
def test_a_member_with_its_proof_is_checked(tmp_path: Path) -> None:
    """By its own word, and not by that of the file."""
    from .test_commands import pop

    text = (EXAMPLES / "epidemic" / "epidemic.pop").read_text()
    family = tmp_path / "f.pop"
    family.write_text("family m in 1..2\n" + text)
    made = pop("check", str(family), "--with", "m=2")
    assert made.returncode == 0 and made.stdout.startswith("certified "), made.stderr


def test_a_sweep_goes_over_the_members_that_are_chosen(tmp_path: Path) -> None:
    """Values of some of the parameters are enough."""
    from .test_commands import pop

    family = tmp_path / "two.pop"
    family.write_text(TWO)
    made = pop("sweep", str(family), "x=3", "y=2", "--runs", "2", "--with", "b=5")
    assert {line.split("  ")[0] for line in made.stdout.splitlines() if "  x=3 y=2" in line} == {
        "two a=1 b=5",
        "two a=2 b=5",
    }


def test_warnings_name_the_family_s_own_lines() -> None:
    """And what is wrong with many moves alike is said once."""
    from hurleyoak.text.membersof import load_member

    text = "family m in 3..9\ninputs x: L0\nfor i in 0..m, j in 0..m\n  L{i} + L{j} -> L0 + L0\nyes L1\n\ncomputes 2x > m\n"
    told = load_member(text.replace("> m", "> {m}"), {"m": 3}, "f.pop").warnings
    assert told[0] == (
        "6 moves are listed twice, for instance `L1 + L0 -> L0 + L0` (line 4, line 4); a move and its turn are one, so a"
        " loop goes over `j in i..`"
    )
    assert any(line.startswith("line 7: the predicate was read as") for line in told) and len(told) <= 3
