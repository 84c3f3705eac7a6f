"""Sweeps: sizes, jobs, tables and growth; shared by hosts of which one is lost."""
from __future__ import annotations

import shutil
import subprocess
import time
from statistics import correlation
from pathlib import Path

import pytest

from hurleyoak.engine import program
from hurleyoak.simulation.intervals import margin, wilson
from hurleyoak.simulation.sharing import POP, Gathered
from hurleyoak.simulation.sizes import sizes_of
from hurleyoak.simulation.sweepjobs import Way, Job, Result, load_net, mark_of, read_job, read_result, result_of
from hurleyoak.simulation.table import aligned, csv_text, read_csv, row_of
from hurleyoak.faults import AskFault
from hurleyoak.faults import InputFault

from .conftest import EXAMPLES, needs_program
from .hosts import Host, _children, can_serve
from .test_commands import pop
from .test_growth import FOUR_STATES

COLUMNS = 80  # of a terminal
EPIDEMIC, MAJORITY = str(EXAMPLES / "epidemic/epidemic.pop"), str(EXAMPLES / "majority/majority.pop")


def job_of(path: str, crowd: str, seed: int, by: Way = Way.SIMULATE) -> Job:
    """A job without limits of meetings."""
    return Job(
        by=by,
        path=path,
        crowd=crowd,
        seed=seed,
        changes=10**6,
        meetings=0,
        predicate="",
        mark=mark_of(load_net(path, "")),
    )


@pytest.mark.parametrize(
    "words, sizes",
    [
        (["x=10..100*2"], [{"x": k} for k in (10, 20, 40, 80)]),
        (["x=1..7+3"], [{"x": k} for k in (1, 4, 7)]),
        (["x=3,1,3", "y=4"], [{"x": 3, "y": 4}, {"x": 1, "y": 4}, {"x": 3, "y": 4}]),
        (
            ["x=2..8*2", "y=x-1", "z=3*x/2+1"],
            [{"x": 2, "y": 1, "z": 4}, {"x": 4, "y": 3, "z": 7}, {"x": 8, "y": 7, "z": 13}],
        ),
        (["x=40"], [{"x": 40}]),
    ],
)
def test_sizes(words: list[str], sizes: list[dict[str, int]]) -> None:
    assert sizes_of(words) == sizes


@pytest.mark.parametrize(
    "words",
    [
        [],
        ["x=10..5*2"],
        ["x=1..9*1"],
        ["x=1..9+0"],
        ["x=1,2", "y=1,2,3"],
        ["y=x"],
        ["x=1", "x=2"],
        ["x="],
        ["x=1..999+1"],
        ["x=0..9*2"],
        ["x=1", "y=x-2"],
        ["x=9", "y=x/0"],
        ["x=9999999999"],
    ],
)
def test_no_sizes(words: list[str]) -> None:
    with pytest.raises(AskFault):
        sizes_of(words)


def test_counts_below_zero_are_told_as_they_are_written() -> None:
    """A size as words, and not as Python shows it."""
    with pytest.raises(AskFault, match="the counts x=1 y=-1 are not between 0 and 1,000,000,000"):
        sizes_of(["x=1", "y=x-2"])


def test_a_row_counts_undecided_and_wrong_runs() -> None:
    results = [
        Result("a", 9, 50, 40, 30, True),
        Result("b", 9, 60, 60, None, False),
        Result("c", 9, 99, None, None, None),
        Result("d", 9, 50, 20, 20, None),
    ]
    row = row_of("net", "x=9", results)
    assert (row.runs, row.undecided, row.wrong) == (4, 0.25, 0.25)
    assert row.figures["end median"] == 50 and row.figures["end mean"] is None and row.figures["agreed 95%"] is None
    again, told = read_csv(csv_text([row], "x y"), "table")
    assert again == [row] and told == "x y"
    alone = row_of("net", "x=9", results[3:])
    assert alone.wrong is None and aligned([alone]).split("\n")[2].split()[5] == "-"
    assert read_csv(csv_text([alone], ""), "table")[0] == [alone]


@pytest.mark.parametrize(
    "found, runs, low, high", [(0, 20, 0.0, 0.161), (1, 10, 0.018, 0.404), (5, 10, 0.237, 0.763), (10, 10, 0.722, 1.0)]
)
def test_a_share_lies_in_wilson_s_interval(found: int, runs: int, low: float, high: float) -> None:
    """Figures of the literature (Newcombe 1998, method 3)."""
    assert wilson(found, runs) == pytest.approx((low, high), abs=5e-4)


def test_a_mean_has_a_margin() -> None:
    """Student's law: of five numbers 2.776 standard errors."""
    pytest.importorskip("scipy")
    assert margin([1.0, 2.0, 3.0, 4.0, 5.0]) == pytest.approx(1.9632, abs=1e-3)
    assert margin([4.0]) is None


def test_rows_come_one_after_the_other() -> None:
    """Each is there before the next one's runs are made."""
    words = [str(POP), "sweep", EPIDEMIC, "x=1", "y=10,200000", "--runs", "40"]
    with subprocess.Popen(words, stdout=subprocess.PIPE, text=True) as run:
        assert run.stdout is not None
        lines = [run.stdout.readline() for _ in range(3)]
        assert run.poll() is None
        run.kill()
    assert lines[0] == "runs\n" and lines[2].split()[1:3] == ["x=1", "y=10"]


@pytest.mark.parametrize("jobs", ["1", pytest.param("2", marks=pytest.mark.skipif(not shutil.which("parallel"), reason="GNU parallel is wanted: apt-get install parallel"))])  # fmt: skip
def test_a_size_without_an_end_is_given_up(jobs: str, tmp_path: Path) -> None:
    """After three runs, with the usual limit alone; the table and a sentence say so."""
    endless = tmp_path / "endless.pop"
    endless.write_text("inputs x: A  y: B\nA + B -> B + C\nB + C -> A + B\nyes A\n")
    run = pop("sweep", str(endless), "x=0,3", "y=2", "--runs", "5", "--jobs", jobs)
    rows = [line.split() for line in run.stdout.splitlines()]
    assert run.returncode == 0 and rows[2][-4:-2] == ["5", "0%"] and rows[3][-4:-2] == ["3", "100%"]
    assert run.stdout.count("not within") > 4
    assert "endless: x=3 y=2: given up after 3 of 5 runs, as none came to its end" in run.stdout
    limited = pop("sweep", str(endless), "x=3", "y=2", "--runs", "5", "--until", "40.5")
    assert limited.stdout.splitlines()[2].split()[-4:-2] == ["5", "100%"] and "given up" not in limited.stdout
    assert "not within: a run stopped after 40.5 meetings for each agent" in limited.stdout


def test_until_is_by_time_of_each_agent() -> None:
    listed = pop("sweep", EPIDEMIC, "x=1", "y=9,19", "--runs", "1", "--until", "2.5", "--list").stdout.splitlines()
    assert ["meetings=25" in listed[0], "meetings=50" in listed[1]] == [True, True]
    refused = pop("sweep", EPIDEMIC, "x=1", "y=9", "--until", "0")
    assert refused.returncode == program.USAGE and "`--until` is a number of meetings for each agent" in refused.stderr


def test_inputs_of_one_side_are_told() -> None:
    told = "the predicate is true for all these inputs; on its other side it may take longer"
    assert told in pop("sweep", EPIDEMIC, "x=1", "y=5..20*2", "--runs", "2").stdout
    assert told not in pop("sweep", EPIDEMIC, "x=0,1", "y=5", "--runs", "2").stdout
    assert told not in pop("sweep", EPIDEMIC, "x=1", "y=5", "--runs", "2").stdout


def test_runs_of_neighbouring_sizes_have_nothing_in_common() -> None:
    pairs = []
    for seed in range(200):
        ends = [result_of(job_of(EPIDEMIC, f"x=1 y={n}", seed)).end for n in (60, 61)]
        pairs.append([float(end or 0) for end in ends])
    assert abs(correlation(*zip(*pairs))) < 0.25  # 3.5 standard deviations; with one stream it is above 0.8
    jobs = [job_of(EPIDEMIC, "x=1 y=60", 1), job_of(MAJORITY, "x=1 y=60", 1), job_of(EPIDEMIC, "x=1 y=60", 1, Way.RUN)]
    assert len({job.stream() for job in jobs}) == 3


@pytest.mark.parametrize(
    "text",
    [
        "",
        "# sweep\n",
        "# sweep\nnet,n\na,1\n",
        "# sweep\n"
        + csv_text([row_of("n", "x=1", [Result("a", 2, 3, 3, 3, True)])], "")
        .split("\n", 1)[1]
        .replace("n,x=1,2", "n,x=1,two"),
    ],
)
def test_no_table(text: str) -> None:
    with pytest.raises(InputFault):
        read_csv(text, "table")


def test_a_job_is_a_function_of_its_words(tmp_path: Path) -> None:
    job = job_of(EPIDEMIC, "x=1 y=30", 5)
    assert read_job(job.text()) == job
    result = result_of(job)
    assert result == result_of(read_job(job.text())) == read_result(result.line())
    assert result.end == result.agreed and result.right and result.agents == 31
    spaced = tmp_path / "a net.pop"
    spaced.write_text(Path(EPIDEMIC).read_text())
    assert read_job(job_of(str(spaced), "x=1 y=30", 5).text()).path == str(spaced)
    spaced.write_text(FOUR_STATES)
    with pytest.raises(InputFault):
        result_of(
            Job(
                by=Way.SIMULATE,
                path=str(spaced),
                crowd="x=1 y=30",
                seed=5,
                changes=10**6,
                meetings=0,
                predicate="",
                mark=job.mark,
            )
        )


def test_no_result_counts_twice() -> None:
    jobs = [job_of(EPIDEMIC, "x=1 y=30", seed) for seed in range(3)]
    gathered = Gathered(jobs)
    one, two = result_of(jobs[0]), result_of(jobs[1])
    gathered.take_lines(
        [
            one.line(),
            "parallel: a host was lost",
            "{",
            "[]",
            '{"job": 4}',
            two.line(),
            one.line(),
            result_of(job_of(EPIDEMIC, "x=1 y=30", 9)).line(),
        ]
    )
    assert len(gathered.found) == 2 and gathered.missing(jobs) == jobs[2:]
    with pytest.raises(InputFault):
        gathered.take(Result(one.job, 31, 1, 1, 1, True))


@needs_program
def test_by_the_program_s_runs() -> None:
    job = job_of(MAJORITY, "x=5 y=8", 3, Way.RUN)
    result = result_of(job)
    assert result.end and result.right and result.agreed is not None and result.agreed <= result.end <= result.meetings
    rows = {}
    for by in ("simulate", "run"):
        run = pop("sweep", MAJORITY, "x=10", "y=20", "--runs", "24", "--by", by)
        assert run.returncode == 0, run.stderr
        lines = run.stdout.splitlines()
        assert max(len(line) for line in lines if not line.startswith("majority: ")) <= COLUMNS
        rows[by] = float(lines[lines.index("meetings to the end") + 2].split()[2])
    assert 0.6 < rows["simulate"] / rows["run"] < 1.7
    refused = pop("sweep", "--job", job.text().replace("net=", "net=0"))
    assert refused.returncode == program.REFUSED and "another net" in refused.stderr


def test_list_and_gather(tmp_path: Path) -> None:
    words = ["sweep", EPIDEMIC, "x=1", "y=5..20*2", "--runs", "3"]
    lines = pop(*words, "--list").stdout.splitlines()
    assert len(lines) == 9
    results = tmp_path / "results"
    results.mkdir()
    for i, line in enumerate(lines[:-2]):
        (results / f"out.{i}").write_text(
            subprocess.run(line, shell=True, capture_output=True, text=True, check=True).stdout
        )
    short = pop(*words, "--gather", str(results))
    assert short.returncode == program.UNDECIDED and "2 of 9 runs are missing" in short.stderr
    left = pop(*words, "--gather", str(results), "--list").stdout.splitlines()
    assert left == lines[-2:]
    (results / "again").write_text(
        "".join(
            subprocess.run(line, shell=True, capture_output=True, text=True, check=True).stdout for line in lines[4:]
        )
    )
    whole = pop(*words, "--gather", str(results), "--csv", str(tmp_path / "table"))
    assert whole.returncode == 0 and whole.stdout == pop(*words).stdout
    assert (tmp_path / "table").read_text().startswith("# sweep ")


def test_a_journal_goes_on_after_a_kill(tmp_path: Path) -> None:
    journal = tmp_path / "journal"
    words = ["sweep", EPIDEMIC, "x=1", "y=5..20*2", "--runs", "3", "--journal", str(journal)]
    whole = pop(*words)
    lines = journal.read_text().splitlines()
    assert whole.returncode == 0 and len(lines) == 9
    journal.write_text("\n".join(lines[:4]) + "\n" + lines[4][:40])  # killed while a line was written
    assert pop(*words).stdout == whole.stdout
    again = journal.read_text().splitlines()
    assert again[:4] == lines[:4] and sorted(again[5:]) == sorted(lines[4:])
    assert read_result(lines[0].replace('"agents": 6', '"agents": 7')) is None and read_result(lines[0]) is not None
    none = pop(*words[:-1], str(tmp_path / "no" / "folder"))
    assert none.returncode == program.REFUSED and "No such file" in none.stderr


def test_jobs_are_listed_in_chunks() -> None:
    lines = pop("sweep", EPIDEMIC, "x=1", "y=5..20*2", "--runs", "3", "--list", "--chunk", "4").stdout.splitlines()
    assert len(lines) == 3
    done = subprocess.run(lines[0], shell=True, capture_output=True, text=True, check=True).stdout.splitlines()
    assert len(done) == 4 and all(read_result(line) for line in done)


@pytest.mark.parametrize(
    "words, status, told",
    [
        ([], program.USAGE, "FILE"),
        ([EPIDEMIC], program.USAGE, "sizes"),
        ([EPIDEMIC, "z=1..9*2"], program.REFUSED, "`z` is no variable"),
        (["/nowhere", "x=5"], program.REFUSED, "/nowhere"),
        ([EPIDEMIC, "x=5", "--by", "hand"], program.USAGE, "`--by`"),
        ([EPIDEMIC, "x=5", "--runs", "0"], program.USAGE, "`--runs`"),
        ([EPIDEMIC, "x=5", "--gather", "/nowhere"], program.REFUSED, "/nowhere"),
        (["--job"], program.USAGE, "jobs"),
        (["--job", "a b"], program.USAGE, "these are no words of a job"),
        ([EPIDEMIC, "x=5", "--hosts", "/nowhere", "--jobs", "2"], program.REFUSED, "/nowhere: No such file"),
    ],
)
def test_faults(words: list[str], status: int, told: str) -> None:
    run = pop("sweep", *words)
    assert run.returncode == status and told in run.stderr and "Traceback" not in run.stderr


@pytest.mark.skipif(not shutil.which("parallel"), reason="GNU parallel is wanted: apt-get install parallel")
def test_processors_share_the_jobs_of_a_sweep() -> None:
    words = ["sweep", EPIDEMIC, MAJORITY, "x=5..40*2", "y=x+1", "--runs", "5"]
    run = pop(*words, "--jobs", "2")
    assert run.returncode == 0 and run.stdout == pop(*words).stdout


def test_without_gnu_parallel() -> None:
    run = subprocess.run(
        ["/usr/bin/python3", str(program.TOP / "hurleyoak"), "sweep", EPIDEMIC, "x=5", "--jobs", "2"],
        env={"PATH": "/nowhere"},
        capture_output=True,
        text=True,
        check=False,
    )
    assert (
        run.returncode == program.REFUSED
        and run.stderr == "pop: sweep --jobs and --hosts need GNU parallel: apt-get install parallel\n"
    )


@pytest.mark.skipif(not shutil.which("parallel"), reason="GNU parallel is wanted: apt-get install parallel")
def test_a_dead_host_is_told(tmp_path: Path) -> None:
    """A login that fails at once, beside this machine."""
    (tmp_path / "hosts").write_text(":\n/bin/false nobody\n")
    words = ["sweep", EPIDEMIC, "x=1", "y=5..20*2", "--runs", "3"]
    run = pop(*words, "--hosts", str(tmp_path / "hosts"), "--jobs", "2")
    assert run.returncode == 0 and run.stdout == pop(*words).stdout
    assert "the host `/bin/false nobody` doesn't answer" in run.stderr
    (tmp_path / "hosts").write_text("/bin/false nobody\n")
    run = pop(*words, "--hosts", str(tmp_path / "hosts"))
    assert run.returncode == program.REFUSED and "none of the 1 hosts answers" in run.stderr


@pytest.mark.skipif(
    not can_serve(), reason="GNU parallel and an ssh server are wanted: apt-get install parallel openssh-server"
)
def test_a_lost_host_leaves_no_gap(tmp_path: Path) -> None:
    hosts = [Host(tmp_path / name) for name in ("one", "two")]
    try:
        if not all(host.answers() for host in hosts):
            pytest.skip("no ssh server can be started here")
        (tmp_path / "hosts").write_text("".join(host.login() + "\n" for host in hosts))
        words = [str(POP), "sweep", MAJORITY, "x=20..320*2", "y=x+1", "--runs", "12", "--csv"]
        with subprocess.Popen(
            [*words, str(tmp_path / "shared"), "--hosts", str(tmp_path / "hosts"), "--jobs", "2"],
            stdout=subprocess.PIPE,
            text=True,
        ) as run:
            end = time.monotonic() + 10
            while not _children(hosts[1].server.pid) and time.monotonic() < end:
                time.sleep(0.05)
            time.sleep(0.5)
            assert run.poll() is None
            hosts[1].lose()
            assert run.stdout is not None
            shown = run.stdout.read()
        assert run.returncode == 0
        here = subprocess.run([*words, str(tmp_path / "here")], capture_output=True, text=True, check=True)
        assert shown == here.stdout
        assert (tmp_path / "shared").read_text().split("\n", 1)[1] == (tmp_path / "here").read_text().split("\n", 1)[1]
    finally:
        for host in hosts:
            host.lose()


@pytest.mark.skipif(not shutil.which("parallel"), reason="GNU parallel is wanted: apt-get install parallel")
@pytest.mark.parametrize("line", ["a'b", "-oProxyCommand=touch made", "2/-F here", "''"])
def test_a_line_that_is_no_host(tmp_path: Path, line: str) -> None:
    """It is refused by a sentence, and ssh sees nothing of it."""
    (tmp_path / "hosts").write_text(f":\n{line}\n")
    run = pop("sweep", EPIDEMIC, "x=1", "y=5", "--hosts", str(tmp_path / "hosts"), folder=tmp_path)
    assert run.returncode == program.REFUSED and f"`{line}` is no host" in run.stderr
    assert "Traceback" not in run.stderr and not (tmp_path / "made").exists()


@pytest.mark.parametrize("word", ["with=m=x", "with=m", "seed=\u0663", "seed=-1", "changes=x", "meetings="])
def test_words_that_are_no_job(word: str) -> None:
    """Each is told as a fault of usage, whatever number is missing in it."""
    words = f"simulate {EPIDEMIC} crowd='x=1 y=5' seed=1 changes=5 net=0 {word}"
    run = pop("sweep", "--job", words)
    assert run.returncode == program.USAGE and "no words of a job" in run.stderr and "Traceback" not in run.stderr
