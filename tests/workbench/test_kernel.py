"""The kernel: its law against exact chains, each way and by the choice; runs that are functions of their words."""
from __future__ import annotations

import json
import os
import signal
import subprocess
import sys
import time
from pathlib import Path

import pytest

from hurleyoak.engine.kernel import Kernel, go_line, kernel_path
from hurleyoak.engine.places import TOP
from hurleyoak.engine.program import NoProgram
from hurleyoak.faults import AskFault
from hurleyoak.library import load as load_protocol
from hurleyoak.protocol.reactions import Reactions
from hurleyoak.simulation.curves import read_trace
from hurleyoak.simulation.simulation import Simulation
from hurleyoak.simulation.tables import WORD_LIMIT, table_of
from hurleyoak.text.files import load

from .conftest import EXAMPLES
from .test_answers import pop


def _is_built() -> bool:
    try:
        kernel_path()
    except NoProgram:
        return False
    return True


needs_kernel = pytest.mark.skipif(not _is_built(), reason="the kernel isn't built")
MAJORITY = str(EXAMPLES / "majority/majority.pop")
EPIDEMIC = str(EXAMPLES / "epidemic/epidemic.pop")
RPS = "inputs r: R p: P s: S\nR + P -> P + P\nP + S -> S + S\nS + R -> R + R\nyes R\n"
SLOW = "inputs a: A\nA + A -> B + B @ 1/1000000\nB + B -> A + A @ 1/1000000\nyes B\n"
RUNS, LEAST = "2000", 1e-5
ENDLESS = 10**24


@needs_kernel
def test_each_way_has_the_law_of_exact_chains() -> None:
    run = subprocess.run(
        [sys.executable, str(TOP / "bench/kernel.py"), RUNS], capture_output=True, text=True, check=False
    )
    lines = [line.split() for line in run.stdout.splitlines()[:-1]]
    assert len(lines) == 39 and all(float(p) > LEAST for words in lines for p in words[2:]), run.stdout + run.stderr


@needs_kernel
def test_a_planted_bias_of_one_per_cent_is_found() -> None:
    words = [sys.executable, str(TOP / "bench/kernel.py"), "60000", "chance"]
    run = subprocess.run(words, capture_output=True, text=True, check=False)
    assert run.returncode == 0, run.stdout + run.stderr


@needs_kernel
@pytest.mark.parametrize("text, counts", [(RPS, (40, 30, 30)), (SLOW, (60,)), (Path(MAJORITY).read_text(), (21, 20))])
def test_a_run_is_the_same_however_it_is_split(text: str, counts: tuple[int, ...]) -> None:
    net = load(text, "net").net
    start = Reactions(net).start(counts)
    kernel, told = Kernel(), []
    kernel.begin(table_of(net, list(start)).begin(start))
    for pieces in ([10**9], [1, 1, 1, 3, 100, 10**9], [500] * 20):
        kernel.send("run 7\n" + "".join(go_line(20_000, 10**9, (False, False), work) for work in pieces))
        kernel.send(go_line(20_000, 10**9, (False, False), 10**9))
        kernel.tell()
        told.append([kernel.answer()[1] for _ in range(len(pieces) + 1)][-1])
    assert told[0] == told[1] == told[2] and sum(told[0].counts) == sum(counts)


@needs_kernel
def test_simulate_says_who_drew_and_prints_the_same_again() -> None:
    words = ("simulate", MAJORITY, "x=480", "y=520", "--seed", "3", "--kernel")
    one, other = pop(*words), pop(*words)
    assert one.returncode == 0 and one.stdout == other.stdout
    assert one.stdout.splitlines()[-1] == "simulated by the kernel, and not proved"
    assert pop(*words[:-1]).stdout.splitlines()[-1] == "simulated, and not proved"


@needs_kernel
def test_limits_are_kept_to_the_meeting_and_the_change(tmp_path: Path) -> None:
    file = tmp_path / "rps.pop"
    file.write_text(RPS)
    crowd = ("simulate", str(file), "r=34", "p=33", "s=33", "--kernel")
    assert "\nmeetings 777, " in "\n" + pop(*crowd, "--until", "777").stdout
    assert "\nchanges 55, " in "\n" + pop(*crowd, "--changes", "55").stdout
    agreed = pop("simulate", MAJORITY, "x=30", "y=10", "--kernel", "--until", "agreed").stdout
    assert "terminal" in agreed and "output true" in agreed
    assert "not terminal" not in pop("simulate", MAJORITY, "x=30", "y=10", "--kernel").stdout


@needs_kernel
def test_a_curve_has_the_crowd_at_each_change_that_is_due(tmp_path: Path) -> None:
    trace = tmp_path / "trace"
    words = ("simulate", EPIDEMIC, "x=1", "y=299", "--seed", "5", "--kernel")
    plain, kept = pop(*words), pop(*words, "--trace", str(trace))
    curve = read_trace(trace.read_text(), "trace")
    assert plain.returncode == kept.returncode == 0 and curve.times == sorted(set(curve.times))
    assert all(sum(row) == 300 for row in curve.rows) and curve.rows[-1][curve.outputs.index(True)] == 300
    gone = [b - a for a, b in zip(curve.times, curve.times[1:])]
    assert curve.times[-1] == curve.last_change and len(curve.times) > 100 and max(gone) > 1


@needs_kernel
def test_many_runs_are_the_same_by_any_number_of_jobs(tmp_path: Path) -> None:
    words = ("simulate", MAJORITY, "x=20", "y=21", "--kernel", "--every", "2", "--runs", "12", "--trace")
    made = []
    for jobs in ("1", "3"):
        assert pop(*words, str(tmp_path / jobs), "--jobs", jobs).returncode == 0
        made.append((tmp_path / jobs).read_text())
    assert made[0] == made[1] and json.loads(made[0].splitlines()[0].split(" ", 2)[2])["told"].endswith("kernel")
    table = pop("sweep", MAJORITY, "x=5..20*2", "y=x+1", "--by", "kernel", "--runs", "4")
    assert (
        table.returncode == 0
        and pop("sweep", MAJORITY, "x=5..20*2", "y=x+1", "--by", "kernel", "--runs", "4").stdout == table.stdout
    )


@needs_kernel
def test_the_kernel_and_the_workbench_have_one_law() -> None:
    net = load(Path(MAJORITY).read_text(), "majority").net
    start = Reactions(net).start((6, 4))
    kernel, last = Kernel(), []
    kernel.begin(table_of(net, list(start)).begin(start))
    kernel.send("".join(f"run {seed}\n" + go_line(ENDLESS, 10**9, (False, False), 10**9) for seed in range(300)))
    kernel.tell()
    last = sorted(kernel.answer()[1].last_change for _ in range(300))
    here = []
    for seed in range(300):
        run = Simulation(net, (6, 4), seed)
        run.burst(10**6)
        here.append(run.last_change)
    here.sort()
    far = max(
        abs(sum(value <= at for value in last) - sum(value <= at for value in here)) / 300 for at in {*last, *here}
    )
    assert far < 0.16  # (two samples of 300: a chance of one in a thousand)


@needs_kernel
def test_an_interrupt_ends_a_run_with_what_it_has(tmp_path: Path) -> None:
    file = tmp_path / "rps.pop"
    file.write_text(RPS)
    words = ["simulate", str(file), "r=300000", "p=300000", "s=300000", "--kernel", "--until", str(10**15)]
    run = subprocess.Popen([str(TOP / "bin/pop"), *words], stdout=subprocess.PIPE, text=True, start_new_session=True)
    children = Path(f"/proc/{run.pid}/task/{run.pid}/children")
    while not children.read_text().split():
        time.sleep(0.1)
    time.sleep(1)
    os.killpg(run.pid, signal.SIGINT)
    out, _ = run.communicate(timeout=60)
    assert run.returncode == 4 and "not terminal: stopped by an interrupt" in out, out


def test_what_the_kernel_does_not_do_is_refused() -> None:
    for words in (("--rounds",), ("--at", "5", "add 3 A"), ("--until", "time 5")):
        answer = pop("simulate", MAJORITY, "x=5", "y=4", "--kernel", *words)
        assert answer.returncode == 1 and "`--kernel` makes plain runs" in answer.stderr, answer
    answer = pop("sweep", MAJORITY, "x=5", "y=4", "--by", "kernel", "--rounds")
    assert answer.returncode == 1 and "without `--graph` and `--rounds`" in answer.stderr


def test_without_a_kernel_a_sentence_says_how_to_build_it(tmp_path: Path) -> None:
    answer = pop("simulate", MAJORITY, "x=5", "y=4", "--kernel", POP_KERNEL=str(tmp_path / "none"))
    assert answer.returncode == 9 and "which is no program" in answer.stderr, answer


def test_tables_list_what_changes_and_refuse_what_is_too_large() -> None:
    net = load("inputs x: A y: B\nA + B -> A + A @ 0.7\nA + B -> B + A @ 0.1\nyes A\n", "net").net
    table = table_of(net, [(0,), (1,)])
    assert table.lines == ("table 2 10", "true 0", "coin 0 1 7 10 0 0 7", "coin 1 0 7 10 0 0 7")
    fine = load("inputs x: A y: B\nA + B -> A + A @ 1/99999999999\nyes A\n", "net").net
    with pytest.raises(AskFault, match="too long for the kernel"):
        table_of(fine, [(0,), (1,)])
    many = "inputs x: s0\n" + "".join(f"s{k} + s{k} -> s{k + 1} + s{k}\n" for k in range(WORD_LIMIT)) + "yes s0\n"
    with pytest.raises(AskFault, match=f"at most {WORD_LIMIT} states"):
        table_of(load(many, "net").net, [(0,)])


@needs_kernel
def test_the_library_asks_the_kernel() -> None:
    protocol = load_protocol(MAJORITY)
    one, other = protocol.simulate(seed=4, kernel=True, x=48, y=52), protocol.simulate(seed=4, kernel=True, x=48, y=52)
    assert one.ended == "terminal" and one.meetings == other.meetings
    runs = [protocol.ensemble(5, runs=4, kernel=True, jobs=jobs, x=48, y=52).counts for jobs in (1, 2)]
    assert runs[0] == runs[1]
