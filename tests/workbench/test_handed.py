"""Ways out and in: PRISM's models are the chains of `exact`; SBML, Peregrine and ppsim give back what was written."""
from __future__ import annotations

import ast
import csv
import json
import re
import shutil
import subprocess
import sys
from fractions import Fraction
from math import isclose
from pathlib import Path
from typing import Any

import pytest

import hurleyoak
from hurleyoak.faults import InputFault
from hurleyoak.protocol.reactions import Reactions
from hurleyoak.text.files import load, load_path

from .conftest import EXAMPLES
from .test_commands import pop

MAJORITY = str(EXAMPLES / "majority" / "majority.pop")
REMAINDER = str(EXAMPLES / "remainder" / "remainder.pop")
CHANCE = "inputs x: A  y: B\nhelpers h\nA , h -> A , A @ 0.25\nA + B -> A + A @ 0.5\nA + B -> B + B @ 0.3\nyes A\npredicate x - y = 1 mod 3\n"
NETWORK = "k = 2\nA + B -> 2B : k\nB -> A : 0.25\n2B -> 2C : 3\ninputs a: A  b: B\nyes C\n"


class Prism:
    """What a model of PRISM says, read here by itself: constants, variables, commands, formulas and labels."""

    def __init__(self, text: str) -> None:
        self.text = re.sub(r"//.*", "", text)
        self.formulas = dict(re.findall(r"formula (\w+) = (.*?);", self.text, re.DOTALL))
        self.constants: dict[str, Any] = {}
        for name, value in re.findall(r"const (?:int|double) (\w+) = (.*?);", self.text):
            self.constants[name] = self._value(value, {})
        self.start = {n: self._value(v, {}) for n, v in re.findall(r"(\w+) : \[0\.\.agents\] init (.*?);", self.text)}
        self.labels = dict(re.findall(r'label "(\w+)" = (.*?);', self.text))
        self.commands = [
            (guard, [branch.split(" : ") for branch in body.split(" +\n")])
            for guard, body in re.findall(r"\[meet\] (.*?) ->(.*?);", self.text.split("rewards")[0], re.DOTALL)
        ]

    def _value(self, text: str, state: dict[str, Any]) -> Any:
        for name in re.findall(r"\b[a-z]\w*", text):
            if name in self.formulas:
                text = re.sub(rf"\b{name}\b", f"({self.formulas[name]})", text)
                return self._value(text, state)
        text = re.sub(r"\((.*) \? (.*) : (.*)\)$", r"((\2) if (\1) else (\3))", text)
        text = (
            re.sub(r"(?<![<>!=])=(?!=)", "==", text).replace("!(", " not (").replace("&", " and ").replace("|", " or ")
        )
        known = {**self.constants, **state, "max": max, "min": min, "mod": lambda a, b: a % b, "true": True}
        return eval(text.strip(), {"__builtins__": {}}, known)  # noqa: S307  (a text that this repository wrote)

    def steps(self, state: dict[str, int]) -> list[tuple[float, dict[str, int]]]:
        """What may come next, each by its chance or rate."""
        found = []
        for guard, branches in self.commands:
            if not self._value(guard, state):
                continue
            for weight, updates in branches:
                made = dict(state)
                for name, value in re.findall(r"\((\w+)'=((?:[^()]|\([^()]*\))*)\)", updates):
                    made[name] = self._value(value, state)
                found.append((float(self._value(weight, state)), made))
        return [(chance, made) for chance, made in found if chance > 0]

    def holds(self, label: str, state: dict[str, int]) -> bool:
        return bool(self._value(self.labels[label], state))

    def solved(self) -> tuple[dict[str, float], float]:
        """The chance to end where each label holds, and the mean of steps, or of the time, to an end."""
        numpy = pytest.importorskip("numpy")
        numbers, todo, rows = {tuple(self.start.items()): 0}, [self.start], []
        for state in todo:
            steps = [] if self.holds("terminal", state) else self.steps(state)
            for _, made in steps:
                if tuple(made.items()) not in numbers:
                    numbers[tuple(made.items())] = len(todo)
                    todo.append(made)
            rows.append([(chance, numbers[tuple(made.items())]) for chance, made in steps])
        size = len(todo)
        matrix, right = numpy.eye(size), numpy.zeros(size)
        for at, row in enumerate(rows):
            out = sum(chance for chance, _ in row)
            right[at] = 1 / out if row else 0.0
            for chance, to in row:
                matrix[at, to] -= chance / out
        ends = {}
        for label in self.labels:
            wanted = [float(not row and self.holds(label, state)) for row, state in zip(rows, todo)]
            ends[label] = float(numpy.linalg.solve(matrix, numpy.array(wanted))[0])
        return ends, float(numpy.linalg.solve(matrix, right)[0])


def written(tmp_path: Path, text: str, name: str = "net.pop") -> str:
    path = tmp_path / name
    path.write_text(text)
    return str(path)


@pytest.mark.parametrize(
    "source, counts", [(MAJORITY, {"x": 3, "y": 2}), (CHANCE, {"x": 2, "y": 2}), (REMAINDER, {"x": 4})]
)
def test_a_model_for_prism_is_the_chain(source: str, counts: dict[str, int], tmp_path: Path) -> None:
    """Chances of the labels and the mean, by a reader of the model that knows no net."""
    path = written(tmp_path, source) if "\n" in source else source
    made = pop("export", "--prism", path, *(f"{name}={k}" for name, k in counts.items()))
    assert made.returncode == 0, made.stderr
    ends, mean = Prism(made.stdout).solved()
    exact = hurleyoak.load(path).exact(False, None, None, **counts)
    assert isclose(mean, float(exact.mean), rel_tol=1e-9)
    assert isclose(ends["terminal"], 1) and isclose(ends["all_true"], float(exact.outputs[True]), abs_tol=1e-9)
    assert exact.right is not None and isclose(ends["right"], float(exact.right), abs_tol=1e-9)


def test_a_network_for_prism_has_its_own_time(tmp_path: Path) -> None:
    path = written(tmp_path, NETWORK, "net.crn")
    made = pop("export", "--prism", path, "a=3", "b=2", "--volume", "4")
    assert "ctmc" in made.stdout and pop("export", "--prism", path).returncode == 1
    ends, mean = Prism(made.stdout).solved()
    exact = hurleyoak.load(path).exact(volume=4, a=3, b=2)
    assert isclose(mean, exact.time[0], rel_tol=1e-9) and isclose(ends["all_true"], float(exact.outputs[True]))


def test_a_model_without_counts_asks_for_them() -> None:
    made = pop("export", "--prism", MAJORITY).stdout
    assert "const int x;" in made and "const int agents = x + y;" in made


@pytest.mark.skipif(shutil.which("prism") is None, reason="PRISM isn't installed")
def test_prism_agrees(tmp_path: Path) -> None:
    path = tmp_path / "model.pm"
    path.write_text(pop("export", "--prism", MAJORITY, "x=3", "y=2").stdout)
    made = subprocess.run(
        ["prism", str(path), "-pf", 'R{"meetings"}=? [F "terminal"]'], capture_output=True, text=True
    )
    assert "Result: 79.84" in made.stdout


def test_sbml_comes_back(tmp_path: Path) -> None:
    pytest.importorskip("libsbml")
    path = written(tmp_path, NETWORK, "net.crn")
    made = pop("export", "--sbml", path, "a=3", "b=2", "--volume", "2.5")
    assert made.returncode == 0, made.stderr
    back = load(made.stdout, "net.xml")
    own = load_path(path)
    assert back.network is not None and own.network is not None
    assert [(r.before, r.after, r.rate) for r in back.network.reactions] == [
        (r.before, r.after, r.rate) for r in own.network.reactions
    ]
    assert back.net == own.net and any("--volume 2.5" in told for told in back.warnings)
    assert any("A=3 B=2" in told for told in back.warnings)


SBML = """<?xml version="1.0" encoding="UTF-8"?><sbml xmlns="http://www.sbml.org/sbml/level2/version4" level="2" version="4"><model id="m">
<listOfCompartments><compartment id="c" size="4"/></listOfCompartments>
<listOfSpecies><species id="S" compartment="c" initialConcentration="5"/><species id="I" compartment="c"
initialAmount="2"/></listOfSpecies><listOfParameters><parameter id="k" value="0.5"/></listOfParameters>
<listOfReactions><reaction id="infect" reversible="false"><listOfReactants><speciesReference species="S"/>
</listOfReactants><listOfProducts><speciesReference species="I"/></listOfProducts><listOfModifiers>
<modifierSpeciesReference species="I"/></listOfModifiers><kineticLaw>
<math xmlns="http://www.w3.org/1998/Math/MathML">LAW</math></kineticLaw></reaction></listOfReactions></model></sbml>"""


def test_sbml_from_elsewhere() -> None:
    """A law in concentrations, with a modifier that meets and stays."""
    pytest.importorskip("libsbml")
    law = "<apply><times/><ci>c</ci><ci>k</ci><ci>S</ci><ci>I</ci></apply>"
    made = load(SBML.replace("LAW", law), "m.xml")
    assert made.network is not None
    one = made.network.reactions[0]
    assert (one.before, one.after, one.rate) == (("S", "I"), ("I", "I"), Fraction(1, 2))
    assert any("S=20 I=2" in told for told in made.warnings)
    with pytest.raises(InputFault, match="mass action"):
        load(SBML.replace("LAW", "<ci>k</ci>"), "m.xml")
    with pytest.raises(InputFault, match="isn't read"):
        load(SBML.replace("LAW", "<apply><exp/><ci>S</ci></apply>"), "m.xml")
    with pytest.raises(InputFault, match="no SBML"):
        load("<sbml>", "m.xml")


@pytest.mark.parametrize("path, back", [(MAJORITY, "-A + B < 0"), (REMAINDER, None)])
def test_peregrine_both_ways(path: str, back: str | None, tmp_path: Path) -> None:
    made = pop("export", "--peregrine", path)
    if made.returncode:
        assert "leaf" in made.stderr or "one state" in made.stderr
        return
    value = json.loads(made.stdout)
    assert {"states", "transitions", "initialStates", "trueStates", "predicate"} <= set(value)
    one, two = load_path(path), load(made.stdout, "p.json")
    assert one.net.leaves[0].moves == two.net.leaves[0].moves and one.net.leaves[0].states == two.net.leaves[0].states
    assert one.net.leaves[0].outputs == two.net.leaves[0].outputs and two.predicate is not None
    assert back is None or two.predicate == back
    twice = tmp_path / "again.json"
    twice.write_text(made.stdout)
    assert json.loads(pop("export", "--peregrine", str(twice)).stdout)["transitions"] == value["transitions"]


def test_peregrine_s_own_forms() -> None:
    value = {
        "title": "mod",
        "states": ["1", "0", "f"],
        "transitions": [{"name": "t", "pre": ["1", "1"], "post": ["0", "f"]}],
        "initialStates": ["1", "0"],
        "trueStates": ["0"],
        "predicate": "EXISTS k : 1*C[1] + 0*C[0] = 1 + 2 * k",
    }
    assert load(json.dumps(value), "p.json").predicate == "1*x0 + 0*x1 = 1 mod 2"
    value["predicate"] = "C[1] >= 3 && C[0] < 2"
    assert "x0" in (load(json.dumps(value), "p.json").predicate or "")
    value["transitions"] = [{"pre": ["1"], "post": ["0"]}]
    with pytest.raises(InputFault, match="two agents"):
        load(json.dumps(value), "p.json")


def test_ppsim_has_each_ordered_pair(tmp_path: Path) -> None:
    """The dictionaries of the script are what the simulation does."""
    path = written(tmp_path, CHANCE)
    made = pop("export", "--ppsim", path, "x=3", "y=2")
    assert made.returncode == 0, made.stderr
    found = {
        node.targets[0].id: ast.literal_eval(node.value)
        for node in ast.parse(made.stdout).body
        if isinstance(node, ast.Assign) and isinstance(node.targets[0], ast.Name)
    }
    assert found["init"] == {"A": 3, "B": 2, "h": 1}
    net = load_path(path).net
    reactions = Reactions(net)
    names = net.leaves[0].states
    for p, one in enumerate(names):
        for q, two in enumerate(names):
            options = reactions.options((p,), (q,))
            whole = sum(share for _, share in options)
            wanted: dict[tuple[str, str], float] = {}
            for (r, s), share in options:
                key = reactions.name(r), reactions.name(s)
                wanted[key] = wanted.get(key, 0) + share / whole
            got = found["rules"].get((one, two), {(one, two): 1.0} if options else {})
            assert (got if isinstance(got, dict) else {got: 1.0}) == pytest.approx(wanted)


def test_ppsim_runs_it(tmp_path: Path) -> None:
    pytest.importorskip("ppsim")
    script = tmp_path / "majority.py"
    script.write_text(pop("export", "--ppsim", MAJORITY, "x=30", "y=10").stdout)
    made = subprocess.run([sys.executable, str(script)], capture_output=True, text=True)
    assert made.returncode == 0 and "40" in made.stdout, made.stderr


def test_tables_are_comma_separated(tmp_path: Path) -> None:
    """Behind its first line a trace, an ensemble and a sweep are plain CSV, as pandas reads it."""
    trace, many, table = (str(tmp_path / name) for name in ("t.csv", "e.csv", "s.csv"))
    assert pop("simulate", MAJORITY, "x=5", "y=2", "--trace", trace).returncode == 0
    assert pop("simulate", MAJORITY, "x=5", "y=2", "--every", "1", "--runs", "2", "--trace", many).returncode == 0
    assert pop("sweep", MAJORITY, "x=5", "y=2", "--runs", "2", "--csv", table).returncode == 0
    for path in (trace, many, table):
        head, *rows = list(csv.reader(Path(path).read_text().splitlines()[1:]))
        assert rows and all(len(row) == len(head) for row in rows)


def test_words_of_export() -> None:
    assert pop("export", MAJORITY).returncode == 1
    assert pop("export", "--prism", "--coq", MAJORITY).returncode == 1
    assert pop("export", "--ppsim", MAJORITY).returncode == 1
    assert (
        "no chances"
        in pop("export", "--peregrine", str(EXAMPLES / "approximate-majority" / "approximate-majority.pop")).stderr
    )
