"""Pictures of curves, tables and nets: read from their files, and looked at by their structure."""
from __future__ import annotations

import json
import shutil
import subprocess
import xml.etree.ElementTree as xml
from pathlib import Path

import pytest
from hypothesis import given, strategies as st

from hurleyoak.engine import program
from hurleyoak.simulation.curves import read_trace
from hurleyoak.simulation.ensembles import read_ensemble
from hurleyoak.simulation.journals import read_journal
from hurleyoak.show.look import COLOURS, apart
from hurleyoak.show.netdrawing import DRAWN_STATES, arrows, dot_text, table_text
from hurleyoak.show.series import STATES_SHOWN, cropped, shown_of
from hurleyoak.show.textplot import HEIGHT, text_curve
from hurleyoak.faults import InputFault
from hurleyoak.text.files import load_path

from .conftest import EXAMPLES, compiled, needs_program
from .test_commands import pop

MAJORITY = str(EXAMPLES / "majority/majority.pop")
SVG = "{http://www.w3.org/2000/svg}"
PICTURE_BYTES = 200_000
needs_dot = pytest.mark.skipif(shutil.which("dot") is None, reason="graphviz is wanted: apt-get install graphviz")


def test_a_part_of_a_curve(tmp_path: Path) -> None:
    trace = tmp_path / "trace"
    assert (
        pop("simulate", str(EXAMPLES / "epidemic/epidemic.pop"), "x=1", "y=999", "--trace", str(trace)).returncode == 0
    )
    curve = read_trace(trace.read_text(), "trace")
    part = cropped(curve, 3, 5)
    assert part.times[0] == 3000 and part.times[-1] == 5000 and part.times == sorted(part.times)
    assert [series.name for series in shown_of(curve, None, ["S"]).series] == ["S"]
    with pytest.raises(InputFault):
        cropped(curve, 900, None)
    for ending, begins in ((".pdf", b"%PDF"), (".png", b"\x89PNG"), (".svg", b"<?xml")):
        path = tmp_path / f"picture{ending}"
        run = pop("plot", str(trace), "-o", str(path), "--log", "--from", "2", "--states", "I,S", "--size", "3.4x2.6")
        assert run.returncode == 0, run.stderr
        assert path.read_bytes().startswith(begins)


@pytest.mark.parametrize(
    "words, told",
    [
        (["--states", "Q"], "is no state"),
        (["--from", "90000"], "has nothing there"),
        (["--size", "1x1"], "width and height"),
        (["--size", "tall"], "width and height"),
    ],
)
def test_no_part_of_a_curve(words: list[str], told: str, tmp_path: Path) -> None:
    trace = tmp_path / "trace"
    pop("simulate", str(EXAMPLES / "epidemic/epidemic.pop"), "x=1", "y=99", "--trace", str(trace))
    run = pop("plot", str(trace), "-o", str(tmp_path / "picture.svg"), *words)
    assert run.returncode != 0 and told in run.stderr and not (tmp_path / "picture.svg").exists()


def traced(folder: Path, *words: str) -> Path:
    """The trace of a simulation."""
    path = folder / "trace"
    assert pop("simulate", *words, "--trace", str(path)).returncode in (0, program.UNDECIDED)
    return path


def journal() -> str:
    """The journal of a run of the program."""
    bundle = (EXAMPLES / "majority/bundle.json").read_text().strip()
    return program.ask(["run", "--seed", "2"], f"{bundle}\ncrowd x=30 y=10\n").text


def texts_of(path: Path) -> list[str]:
    """All texts of an SVG."""
    assert path.stat().st_size < PICTURE_BYTES
    return [" ".join("".join(element.itertext()).split()) for element in xml.parse(path).getroot().iter(f"{SVG}text")]


def ids_of(path: Path) -> list[str]:
    """All names of groups in an SVG."""
    return [element.get("id", "") for element in xml.parse(path).getroot().iter(f"{SVG}g")]


def test_a_trace_is_read_as_it_was_written(tmp_path: Path) -> None:
    path = traced(tmp_path, MAJORITY, "x=30", "y=10", "--seed", "4")
    curve = read_trace(path.read_text(), "trace")
    assert curve.text() == path.read_text()
    assert curve.names == ["A", "B", "a", "b"] and curve.outputs == [True, False, True, False]
    assert curve.rows[0] == [30, 10, 0, 0] and curve.rows[-1][1] == curve.rows[-1][3] == 0 and curve.terminal
    assert curve.times[0] == 0 and curve.times[-1] == curve.meetings and curve.times == sorted(curve.times)
    assert all(sum(row) == 40 for row in curve.rows)


@needs_program
def test_a_journal_has_the_curve_that_the_program_tells() -> None:
    text = journal()
    curve = read_journal(text, "journal")
    lines = text.splitlines()
    meetings = [line for line in lines[3:] if line[0].isdigit()]
    assert curve.meetings == len(meetings)
    assert curve.last_change == max(at for at, line in enumerate(meetings, 1) if line.endswith("*"))
    end = dict(line.rsplit(" ", 1) for line in lines[lines.index("end") + 1 : -1])
    assert {name: str(k) for name, k in zip(curve.names, curve.rows[-1]) if k} == end
    assert (curve.crowd, curve.seed, curve.source) == ("x=30 y=10", "2", "run")
    assert curve.terminal and not read_journal("\n".join(lines[: lines.index("end")]), "cut off").terminal
    marked = text.replace(" *", "", 1)
    with pytest.raises(InputFault, match="mark says otherwise"):
        read_journal(marked, "journal")


def test_series(tmp_path: Path) -> None:
    curve = read_trace(traced(tmp_path, MAJORITY, "x=30", "y=10").read_text(), "trace")
    assert [series.name for series in shown_of(curve, None).series] == ["A", "B", "a", "b"]
    by_output = shown_of(curve, True)
    assert [series.counts[0] for series in by_output.series] == [30, 10]
    many = read_trace(
        traced(tmp_path, str(EXAMPLES / "flock-of-1024/flock-of-1024.pop"), "x=3000").read_text(), "trace"
    )
    shown = shown_of(many, False)
    assert len(shown.series) == STATES_SHOWN and shown.series[-1].name == "6 others"
    assert all(sum(series.counts[at] for series in shown.series) == 3000 for at in range(len(shown.times)))


def test_text_pictures(tmp_path: Path) -> None:
    trace = traced(tmp_path, MAJORITY, "x=10", "y=30")
    lines = pop("plot", str(trace), "--text").stdout.splitlines()
    assert lines[0] == "trace" or lines[0].startswith("majority, x=10 y=30, seed 0")
    assert len(lines) == HEIGHT + 5 and "meetings per agent" in lines[-1]
    table = tmp_path / "table"
    assert (
        pop(
            "sweep", str(EXAMPLES / "epidemic/epidemic.pop"), "x=1", "y=10..160*2", "--runs", "8", "--csv", str(table)
        ).returncode
        == 0
    )
    text = pop("plot", str(table), "--text", "--of", "agreed").stdout
    assert "agreement" in text and "n log n" in text and text.count("*") == 6
    assert text_curve(shown_of(read_trace(trace.read_text(), "trace"), None)).splitlines()[0] == lines[0]


def test_pictures_of_curves(tmp_path: Path) -> None:
    pytest.importorskip("matplotlib")
    trace = traced(tmp_path, MAJORITY, "x=120", "y=280", "--seed", "9")
    picture = tmp_path / "curve.svg"
    assert pop("plot", str(trace), "-o", str(picture)).returncode == 0
    texts, ids = texts_of(picture), ids_of(picture)
    assert "majority, x=120 y=280, seed 9" in texts and {"A", "B", "a", "b"} <= set(texts)
    assert {"series0", "series1", "series2", "series3", "last-change"} <= set(ids)
    assert all(colour.lower() in picture.read_text() for colour in COLOURS[:4])
    assert any("last change after" in text for text in texts) and "parallel time: meetings per agent" in texts
    again = tmp_path / "again.svg"
    assert pop("plot", "-o", str(again), text=trace.read_text()).returncode == 0
    assert again.read_text() == picture.read_text()
    assert pop("plot", str(trace), "-o", str(tmp_path / "curve.png"), "--by", "output").returncode == 0
    assert (tmp_path / "curve.png").read_bytes()[:4] == b"\x89PNG"


def test_pictures_of_tables(tmp_path: Path) -> None:
    pytest.importorskip("matplotlib")
    table, picture = tmp_path / "table", tmp_path / "table.svg"
    files = [str(EXAMPLES / "epidemic/epidemic.pop"), MAJORITY]
    assert pop("sweep", *files, "x=5..40*2", "y=x+1", "--runs", "8", "--csv", str(table)).returncode == 0
    assert pop("plot", str(table), "-o", str(picture)).returncode == 0
    texts, ids = texts_of(picture), ids_of(picture)
    assert "Meetings to the end: epidemic, majority" in texts and {"epidemic", "majority"} <= set(texts)
    assert {"medians0", "medians1", "fit0", "fit1"} <= set(ids)


@needs_program
def test_a_journal_is_drawn_from_standard_input(tmp_path: Path) -> None:
    pytest.importorskip("matplotlib")
    assert pop("plot", "-o", str(tmp_path / "run.svg"), "--title", "majority", text=journal()).returncode == 0
    assert "majority, x=30 y=10, seed 2" in texts_of(tmp_path / "run.svg")


@given(st.lists(st.floats(0, 1), max_size=8), st.floats(0.01, 0.1))
def test_labels_are_apart(places: list[float], distance: float) -> None:
    found = apart(places, distance)
    ordered = sorted(found)
    assert all(two - one >= distance * 0.999 for one, two in zip(ordered, ordered[1:]))
    assert all(-1e-9 <= at <= 1 + 1e-9 for at in found)
    assert [i for i in sorted(range(len(places)), key=lambda i: places[i])] == sorted(
        range(len(found)), key=lambda i: found[i]
    )


def test_arrows() -> None:
    leaf = load_path(MAJORITY).net.leaves[0]
    states = leaf.states
    told = {(states[p], states[r]): {states[q] for q in met} for (p, r), met in arrows(leaf).items()}
    assert told == {("A", "a"): {"B"}, ("B", "b"): {"A"}, ("b", "a"): {"A"}, ("a", "b"): {"B", "b"}}


@needs_dot
def test_pictures_of_nets(tmp_path: Path) -> None:
    picture = tmp_path / "or.svg"
    assert pop("draw", str(EXAMPLES / "or/or.pop"), "-o", str(picture)).returncode == 0
    texts = texts_of(picture)
    assert texts[0] == "or" and "leaf0" in texts and "leaf1" in texts and {"A", "B", "u", "M", "x", "y"} <= set(texts)
    clusters = [
        element for element in xml.parse(picture).getroot().iter(f"{SVG}g") if element.get("class") == "cluster"
    ]
    assert len(clusters) == 2
    assert pop("draw", MAJORITY, "-o", str(tmp_path / "net.png")).returncode == 0
    assert (tmp_path / "net.png").read_bytes()[:4] == b"\x89PNG"
    odd = tmp_path / "odd.pop"
    odd.write_text('inputs x: "<a&\\"" y: "b\\\\"\n"<a&\\"" + "b\\\\" -> "b\\\\" + "b\\\\"\nyes "b\\\\"\n')
    if pop("net", str(odd)).returncode == 0:
        assert pop("draw", str(odd), "-o", str(picture)).returncode == 0


@needs_program
@needs_dot
def test_a_great_leaf_is_a_table(tmp_path: Path) -> None:
    bundle = compiled("vars x\nx >= 12\n")
    (tmp_path / "net.json").write_text(json.dumps(bundle.net.value()))
    if len(bundle.net.leaves[0].states) > DRAWN_STATES:
        assert "<table" in dot_text(bundle.net, "t", "a")
    assert pop("draw", str(tmp_path / "net.json"), "-o", str(tmp_path / "net.svg")).returncode == 0
    assert "becomes, when it meets" in texts_of(tmp_path / "net.svg")
    lines = table_text(bundle.net).splitlines()
    assert len(lines) == len(bundle.net.leaves[0].states) + 1


@pytest.mark.parametrize(
    "words, text, status, told",
    [
        (["plot"], "", program.USAGE, "a picture goes to a file"),
        (["plot", "-o", "a.gif"], "", program.USAGE, ".svg, .png or .pdf"),
        (["plot", "--text"], "", program.REFUSED, "no journal"),
        (["plot", "--text"], "# trace {}\n", program.REFUSED, "no whole trace"),
        (["plot", "--text"], "# trace [1]\nmeeting\n1\n", program.REFUSED, "no whole trace"),
        (["plot", "--text"], "# sweep x\n", program.REFUSED, "no whole table"),
        (["plot", "--text"], "{}\n", program.REFUSED, "no journal"),
        (["plot", "--text", "--by", "luck"], "", program.USAGE, "`--by`"),
        (["plot", "--text"], "{\ncrowd x=1\nrun workers 1 shards 1 turns 1 seed 1\n", program.REFUSED, "no JSON"),
        (["draw"], "", program.USAGE, "a picture goes to a file"),
        (["draw", "-o", "a.gif"], "", program.USAGE, ".svg or .png"),
        (["draw", "--text"], "A ->", program.REFUSED, "expected"),
    ],
)
def test_faults(words: list[str], text: str, status: int, told: str) -> None:
    run = pop(*words, text=text)
    assert run.returncode == status and told in run.stderr and "Traceback" not in run.stderr


def test_what_is_missing_is_asked_for_by_name(tmp_path: Path) -> None:
    (tmp_path / "matplotlib.py").write_text("raise ImportError\n")
    trace = traced(tmp_path, MAJORITY, "x=3", "y=1")
    words = ["/usr/bin/python3", str(program.TOP / "hurleyoak")]
    plot = subprocess.run(
        [*words, "plot", str(trace), "-o", str(tmp_path / "a.svg")],
        env={"PATH": "/nowhere", "PYTHONPATH": str(tmp_path)},
        capture_output=True,
        text=True,
        check=False,
    )
    assert plot.returncode == program.REFUSED and "apt-get install python3-matplotlib" in plot.stderr
    draw = subprocess.run(
        [*words, "draw", MAJORITY, "-o", str(tmp_path / "a.svg")],
        env={"PATH": "/nowhere"},
        capture_output=True,
        text=True,
        check=False,
    )
    assert draw.returncode == program.REFUSED and "apt-get install graphviz" in draw.stderr


def test_many_runs_have_a_band_and_two_curves_one_picture(tmp_path: Path) -> None:
    """The runs of `--every` as means with bands; two traces on the same axes; names that had to move have leader
    lines."""
    runs, path = tmp_path / "runs", tmp_path / "runs.svg"
    epidemic = str(EXAMPLES / "epidemic/epidemic.pop")
    made = pop("simulate", epidemic, "x=1", "y=99", "--every", "1", "--runs", "6", "--trace", str(runs))
    assert made.returncode == 0 and "runs 6, each of 100 agents; 6 came to a terminal crowd" in made.stdout
    many = read_ensemble(runs.read_text(), "runs")
    assert len(many.rows) == 6 and all(sum(row) == 100 for rows in many.rows for row in rows)
    low, mean, high = ([band[part] for band in many.bands([0])] for part in (1, 0, 2))
    assert all(a <= b <= c for a, b, c in zip(low, mean, high))
    assert pop("plot", str(runs), "-o", str(path)).returncode == 0
    ids = {element.get("id") for element in xml.parse(path).iter()}
    assert {"series0", "series1", "band0", "band1"} <= ids
    text = pop("plot", str(runs), "--text", "--from", "2", "--to", "6").stdout
    assert "mean of 6 runs" in text
    for name, seed in (("one", "1"), ("two", "2")):
        pop("simulate", MAJORITY, "x=30", "y=10", "--seed", seed, "--trace", str(tmp_path / name))
    both = pop("plot", str(tmp_path / "one"), str(tmp_path / "two"), "-o", str(path))
    assert both.returncode == 0, both.stderr
    ids = {element.get("id") for element in xml.parse(path).iter()}
    assert {"series0", "series0of1", "leader"} <= ids


@pytest.mark.parametrize(
    "words, told",
    [
        (["--every", "0"], "above 0"),
        (["--every", "1", "--until", "agreed"], "terminal"),
        (["--every", "0.0001"], "a greater `--every`"),
        (["--every", "1", "--runs", "0"], "`--runs`"),
    ],
)
def test_no_grid(words: list[str], told: str) -> None:
    run = pop("simulate", str(EXAMPLES / "epidemic/epidemic.pop"), "x=1", "y=99", *words)
    assert run.returncode == program.USAGE and told in run.stderr and "Traceback" not in run.stderr


@pytest.mark.parametrize("text", ["# ensemble\n", "# ensemble {}\nrun,time\n", '# ensemble {"title": 3}\n'])
def test_no_ensemble(text: str) -> None:
    with pytest.raises(InputFault):
        read_ensemble(text, "runs")
