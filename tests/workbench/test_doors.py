"""Doors: links, odd folders, terminal escapes, files written whole, one build at a time, numbers and limits."""
from __future__ import annotations

import fcntl
import json
import os
import shutil
import signal
import subprocess
import time
from pathlib import Path
from typing import Any, Iterator

import pytest

from hurleyoak.engine import program
from hurleyoak.simulation.sharing import Gathered, command_of
from hurleyoak.simulation.sweepjobs import Result, checksum, read_result
from hurleyoak.faults import InputFault
from hurleyoak.text.files import load
from hurleyoak.visible import visible
from hurleyoak.writing import WriteFault, write_whole

from .conftest import EXAMPLES, TOP
from .serving import wait_for

POP = str(TOP / "bin" / "pop")
MAJORITY = str(EXAMPLES / "majority" / "majority.pop")
NET = "inputs x: A\nA + A -> A + b\nyes A\n"


def pop(*words: str, text: str = "", command: str = POP, **more: str) -> "subprocess.CompletedProcess[str]":
    """Runs bin/pop."""
    environment = {**os.environ, "POP_MAIN": "/bin/false", **more}
    return subprocess.run(
        [command, *words],
        input=text,
        capture_output=True,
        text=True,
        errors="surrogateescape",
        check=False,
        env=environment,
    )


# ---- where the workbench is looked for


def test_a_link_runs_what_it_leads_to(tmp_path: Path) -> None:
    (tmp_path / "shared").mkdir()
    for name in ("hurleyoak", "crates"):
        (tmp_path / name).mkdir()
    (tmp_path / "hurleyoak" / "__main__.py").write_text("print('certified 1')\n")
    forged = tmp_path / "crates" / "pop_main" / "out" / "pop_main"
    forged.parent.mkdir(parents=True)
    forged.write_text("#!/bin/sh\necho certified 1\n")
    forged.chmod(0o755)
    link = tmp_path / "shared" / "pop"
    link.symlink_to(POP)
    assert json.loads(pop("net", MAJORITY, command=str(link)).stdout)["vars"] == ["x", "y"]
    assert "certified" not in pop("check", text="{}\n", command=str(link)).stdout


def test_odd_environments(tmp_path: Path) -> None:
    (tmp_path / "json.py").write_text("print('another json')\n")
    assert "another" not in pop("net", MAJORITY, PYTHONPATH=str(tmp_path)).stdout
    (tmp_path / "bin").mkdir()
    shutil.copy(POP, tmp_path / "bin" / "pop")
    for more in ({"PATH": ""}, {"CDPATH": str(tmp_path)}):
        run = subprocess.run(
            ["/bin/sh", "bin/pop", "net", MAJORITY],
            cwd=TOP,
            capture_output=True,
            text=True,
            check=False,
            env={**os.environ, **more},
        )
        assert json.loads(run.stdout)["vars"] == ["x", "y"]


# ---- jobs of a sweep


def test_words_for_the_shell_are_quoted(monkeypatch: pytest.MonkeyPatch, tmp_path: Path) -> None:
    pytest.importorskip("scipy")
    if shutil.which("parallel") is None:
        pytest.skip("GNU parallel isn't installed: apt-get install parallel")
    odd = tmp_path / "a b;touch X"
    odd.write_text("#!/bin/sh\nexec false\n")
    odd.chmod(0o755)
    monkeypatch.setenv("POP_MAIN", str(odd))
    assert f"'POP_MAIN={odd}'" in command_of(2, None, 3)
    net = tmp_path / "n 'et;touch Y.pop"
    net.write_text(NET)
    run = subprocess.run(
        [POP, "sweep", str(net), "x=3,4", "--runs", "2", "--jobs", "2"],
        cwd=tmp_path,
        capture_output=True,
        text=True,
        check=False,
    )
    assert run.returncode == program.DONE, run.stderr
    assert not (tmp_path / "X").exists() and not (tmp_path / "Y").exists()


@pytest.mark.parametrize("shell", ["sh", "bash", "zsh", "fish"])
def test_listed_jobs_mean_the_same_in_each_shell(shell: str, tmp_path: Path) -> None:
    """A line of `sweep --list` is for the shell of whoever pastes it."""
    if shutil.which(shell) is None:
        pytest.skip(f"{shell} isn't installed: apt-get install {shell}")
    net = tmp_path / "it's $HOME; a `net` !1.pop"
    net.write_text(NET)
    listed = subprocess.run(
        [POP, "sweep", str(net), "x=3", "--runs", "2", "--list"], capture_output=True, text=True, check=True
    )
    made = [
        subprocess.run([name, "-c", listed.stdout], capture_output=True, text=True, check=True).stdout
        for name in ("sh", shell)
    ]
    assert made[0] == made[1] and made[0].count("\n") == 2


def test_odd_names_of_nets(tmp_path: Path) -> None:
    feed = tmp_path / "a\nb.pop"
    feed.write_text(NET)
    assert "line feed" in pop("sweep", str(feed), "x=3").stderr
    latin = os.fsencode(tmp_path) + b"/n\xe9.pop"
    with open(latin, "w") as file:
        file.write(NET)
    run = subprocess.run(
        [os.fsencode(POP), b"sweep", latin, b"x=3", b"--runs", b"2"], capture_output=True, check=False
    )
    assert run.returncode == program.DONE and b"Traceback" not in run.stderr
    run = subprocess.run(
        [os.fsencode(POP), b"sweep", latin, b"x=3", b"--runs", b"1", b"--list"], capture_output=True, check=False
    )
    assert b"n\xe9.pop" in run.stdout


# ---- what reaches the terminal

ESCAPES = "\x1b]0;title\x07\x1b[31m\x9b2J\u202e"


def test_what_would_steer_the_terminal_is_written_by_its_number() -> None:
    assert visible("a\x1bb\tc\nd\x9be\u202ef") == "a\\x1bb\tc\nd\\x9be\\u202ef"


@pytest.mark.parametrize(
    "words",
    [
        ["net", "-"],
        ["check", "-"],
        ["eval", "x < " + ESCAPES],
        [ESCAPES],
        ["net", "/no/" + ESCAPES],
        ["help", ESCAPES],
        ["run", MAJORITY, ESCAPES],
    ],
)
def test_no_escape_comes_through(words: list[str]) -> None:
    run = pop(*words, text=f'inputs x: A\nA + {ESCAPES} -> b + b\nyes "{ESCAPES}"\n')
    assert not [c for c in run.stdout + run.stderr if c in "\x1b\x07\x9b\u202e"]


# ---- files are written whole


def test_files_are_written_whole(tmp_path: Path) -> None:
    file, link = tmp_path / "f", tmp_path / "link"
    file.write_text("old")
    file.chmod(0o640)
    link.symlink_to(file)
    write_whole(str(link), b"new")
    assert link.is_symlink() and file.read_text() == "new" and file.stat().st_mode & 0o777 == 0o640
    file.chmod(0o440)
    with pytest.raises(WriteFault, match="read-only"):
        write_whole(str(link), b"newer")
    assert file.read_text() == "new" and len(list(tmp_path.iterdir())) == 2
    with pytest.raises(WriteFault):
        write_whole(str(tmp_path / "no" / "f"), b"")


@pytest.mark.parametrize(
    "words",
    [
        ["simulate", MAJORITY, "x=3", "--trace"],
        ["sweep", MAJORITY, "x=3", "--runs", "2", "--csv"],
        ["draw", MAJORITY, "-o"],
    ],
)
def test_commands_refuse_read_only_files(words: list[str], tmp_path: Path) -> None:
    if words[0] == "draw" and shutil.which("dot") is None:
        pytest.skip("graphviz isn't installed: apt-get install graphviz")
    file = tmp_path / "f.svg"
    file.write_text("old")
    file.chmod(0o444)
    run = pop(*words, str(file))
    assert run.returncode == program.WRITE_FAULT and "read-only" in run.stderr and file.read_text() == "old"


@pytest.mark.parametrize("name", ["/dev/stdout", "/dev/fd/1"])
def test_standard_output_by_its_name(tmp_path: Path, name: str) -> None:
    """A pipe there gets the text, and a file that a shell appends to keeps what it has; so does a pipe by its name."""
    os.mkfifo(tmp_path / "pipe")
    words = "import sys; from hurleyoak.writing import write_whole; print('first'); write_whole(sys.argv[1], b'text')"
    run = ["/usr/bin/python3", "-c", words]
    assert subprocess.run([*run, name], stdout=subprocess.PIPE, cwd=TOP, check=True).stdout == b"first\ntext"
    kept = tmp_path / "kept"
    kept.write_text("before\n")
    with open(kept, "a", encoding="utf-8") as file:
        subprocess.run([*run, name], stdout=file, cwd=TOP, check=True)
    assert kept.read_text() == "before\nfirst\ntext"
    with subprocess.Popen(["cat", str(tmp_path / "pipe")], stdout=subprocess.PIPE) as reader:
        subprocess.run([*run, str(tmp_path / "pipe")], stdout=subprocess.PIPE, cwd=TOP, check=True)
        assert reader.communicate()[0] == b"text"


@pytest.mark.parametrize("number, status", [(signal.SIGINT, 130), (signal.SIGTERM, 143)])
def test_who_is_ended_leaves_nothing(number: int, status: int, tmp_path: Path) -> None:
    trace = tmp_path / "trace"
    run = subprocess.Popen(
        [POP, "simulate", MAJORITY, "x=70000", "y=69000", "--changes", "100000000", "--trace", str(trace)],
        stderr=subprocess.PIPE,
        preexec_fn=lambda: signal.signal(signal.SIGINT, signal.SIG_DFL),  # (a test in the background ignores it)
    )
    try:
        time.sleep(2.0)
        run.send_signal(number)
        assert run.wait(20) == status and run.stderr is not None and b"Traceback" not in run.stderr.read()
    finally:
        run.kill()
    assert not list(tmp_path.iterdir())


# ---- one build at a time


@pytest.fixture()
def checkout(tmp_path: Path) -> Iterator[Path]:
    """A checkout with a program that stood before, and a new one."""
    for name in ("bin", "crates/pop_main/out", "out/pop"):
        (tmp_path / name).mkdir(parents=True)
    shutil.copy(POP, tmp_path / "bin" / "pop")
    shutil.copytree(TOP / "hurleyoak", tmp_path / "hurleyoak", ignore=shutil.ignore_patterns("tests", "__pycache__"))
    for path, said in (("crates/pop_main/out/pop_main", "new"), ("out/pop/standing", "stale")):
        (tmp_path / path).write_text(f"#!/bin/sh\necho {said}\n")
        (tmp_path / path).chmod(0o755)
    (tmp_path / "out/pop/lock").write_text("1 somebody 1\n")
    yield tmp_path
    (tmp_path / "out/pop").chmod(0o755)


def test_a_stale_program_never_answers(checkout: Path) -> None:
    environment = {name: value for name, value in os.environ.items() if name != "POP_MAIN"}
    command = [str(checkout / "bin" / "pop"), "check"]
    runs = [
        subprocess.Popen(command, stdin=subprocess.DEVNULL, stdout=subprocess.PIPE, env=environment, text=True)
        for _ in range(40)
    ]
    assert {run.communicate()[0] for run in runs} == {"new\n"}
    with open(checkout / "out/pop/lock", "a") as lock:
        fcntl.flock(lock, fcntl.LOCK_EX)
        assert (
            subprocess.run(
                command, stdin=subprocess.DEVNULL, capture_output=True, env=environment, text=True, check=False
            ).stdout
            == "stale\n"
        )


@pytest.fixture()
def building(checkout: Path) -> Path:
    """A checkout whose toolchain proves for ten minutes, by a process of its own in another session."""
    tools = checkout / "tools"
    tools.mkdir()
    (tools / "rt").write_text(
        '#!/bin/sh\nsetsid sleep 600 &\necho $! >"$PROVER.new"\nmv "$PROVER.new" "$PROVER"\nwait\n'
    )
    (tools / "rt").chmod(0o755)
    (checkout / "crates.txt").write_text("pop_main:\n")
    (checkout / "crates/pop_main/out/pop_main").unlink()
    return checkout


def begun(building: Path, words: list[str], **more: Any) -> "subprocess.Popen[bytes]":
    """A process that builds, whose toolchain is at work."""
    environment = {name: value for name, value in os.environ.items() if name != "POP_MAIN"}
    environment.update(PATH=f"{building / 'tools'}:{environment['PATH']}", PROVER=str(building / "prover"))
    run = subprocess.Popen(words, stdin=subprocess.DEVNULL, stderr=subprocess.DEVNULL, env=environment, **more)
    assert wait_for((building / "prover").exists)
    return run


def ends(building: Path) -> bool:
    """Whether the toolchain's prover ends soon, and then nobody has the lock."""

    def is_free() -> bool:
        with open(building / "out/pop/lock") as lock:
            try:
                fcntl.flock(lock, fcntl.LOCK_EX | fcntl.LOCK_NB)
            except BlockingIOError:
                return False
        return True

    prover = Path("/proc", (building / "prover").read_text().strip(), "stat")

    def has_ended() -> bool:
        try:
            return prover.read_text().rpartition(")")[2].split()[0] == "Z"
        except OSError:
            return True

    return wait_for(has_ended) and wait_for(is_free)


@pytest.mark.parametrize("number", [signal.SIGKILL, signal.SIGTERM, signal.SIGINT])
def test_a_killed_builder_s_toolchain_ends_with_it(building: Path, number: int) -> None:
    run = begun(building, [str(building / "bin/pop"), "build"], preexec_fn=lambda: signal.signal(2, signal.SIG_DFL))
    run.send_signal(number)
    run.wait()
    assert ends(building)


def test_a_build_that_a_command_began_ends_with_its_caller(building: Path) -> None:
    """The command's own shell is ended, or that above it, and nothing is sent to the build."""
    command = f"'{building / 'bin/pop'}' check; true"
    run = begun(building, ["sh", "-c", command], start_new_session=True)
    run.kill()
    run.wait()
    assert ends(building)


def test_a_build_below_nohup_goes_on(building: Path) -> None:
    """As one does that was asked for."""
    for word in ("nohup '{}' check; true", "'{}' build; true"):
        (building / "prover").unlink(missing_ok=True)
        run = begun(
            building,
            ["sh", "-c", word.format(building / "bin/pop")],
            start_new_session=True,
            stdout=subprocess.DEVNULL,
        )
        run.kill()
        run.wait()
        time.sleep(3.0)
        prover = int((building / "prover").read_text())
        os.kill(prover, 0)
        os.kill(prover, signal.SIGKILL)
        assert ends(building)


def test_another_user_s_checkout(checkout: Path) -> None:
    if os.getuid() == 0:
        lock = checkout / "out/pop/lock"
        lock.unlink()
        lock.mkdir()
    else:
        (checkout / "out/pop").chmod(0o555)
        (checkout / "out/pop/lock").chmod(0o444)
    (checkout / "crates/pop_main/out/pop_main").unlink()
    environment = {name: value for name, value in os.environ.items() if name != "POP_MAIN"}
    run = subprocess.run(
        [str(checkout / "bin" / "pop"), "build"], capture_output=True, text=True, env=environment, check=False
    )
    assert run.returncode == 9 and "out/pop/lock" in run.stderr and "writing failed" not in run.stderr


# ---- numbers, limits, results

LONG = "1" * 5000


@pytest.mark.parametrize(
    "text",
    [
        f"inputs x: A\nyes A\ncomputes x < {LONG}\n",
        f"inputs x: A\nhelpers {LONG}*A\nyes A\n",
        "inputs x: A\nhelpers \u00b2*A\nyes A\n",
        f"inputs x: A\nyes A\ncomputes x < 1\nlayer A: {LONG}\nwhen true\n  lin {LONG}*wrong\n",
        f'{{"net":{LONG}}}',
        '{"net":{"vars":3}}',
        '{"net":{"vars":3},"pred":"x < 1"}',
    ],
)
@pytest.mark.parametrize("command", ["net", "bundle", "explain", "find", "eval", "check", "run"])
def test_odd_numbers_are_told(text: str, command: str, tmp_path: Path) -> None:
    pytest.importorskip("scipy")
    file = tmp_path / "f"
    file.write_text(text)
    run = pop(command, str(file))
    assert run.returncode in range(10) and "Traceback" not in run.stderr


HUGE = {
    "helpers": "inputs x: A\nhelpers 300000000*A\nyes A\n",
    "many helpers": "inputs x: A\nhelpers " + "A " * 400_000 + "\nyes A\n",
    "wildcards": "states " + " ".join(f"s{i}" for i in range(20_000)) + "\ninputs x: s0\ns0 + * -> s0 + s0\nyes s0\n",
    "states": "states " + " ".join(f"s{i}" for i in range(200_000)) + "\ninputs x: s0\nyes s0\n",
    "predicate": "inputs x: A\nyes A\ncomputes " + "x + " * 100_000 + "x < 1\n",
}


@pytest.mark.parametrize("name", HUGE)
def test_limits_come_before_work(name: str, tmp_path: Path) -> None:
    start = time.process_time()
    with pytest.raises(InputFault, match="at most"):
        load(HUGE[name], "f")
    assert time.process_time() - start < 1.0
    (tmp_path / "f.pop").write_text(HUGE[name])
    run = subprocess.run(
        ["sh", "-c", f"ulimit -v 400000; exec {POP} net {tmp_path}/f.pop"], capture_output=True, text=True, check=False
    )
    assert run.returncode == program.REFUSED and len(run.stderr) < 2000


@pytest.mark.parametrize(
    "more",
    [
        {"agents": -3},
        {"agents": True},
        {"end": -1},
        {"end": 99},
        {"end": "3"},
        {"end": [1]},
        {"agreed": -2},
        {"right": 3},
        {"end": None},
    ],
)
def test_each_result_is_looked_at(more: dict[str, object]) -> None:
    values: dict[str, object] = {"job": "j", "agents": 3, "meetings": 9, "end": 5, "agreed": 4, "right": True}
    good = json.dumps({**values, "check": checksum(values)})
    assert read_result(good) == Result("j", 3, 9, 5, 4, True)
    odd = {**values, **more}
    line = json.dumps({**odd, "check": checksum(odd)})
    assert read_result(line) is None
    gathered = Gathered([])
    gathered.take_lines([line, "", "no result", good])
    assert gathered.odd == 2


def test_a_json_file_s_predicate_stays_in_its_line(tmp_path: Path) -> None:
    file = tmp_path / "f.json"
    file.write_text(json.dumps({"net": {"vars": ["x"]}, "pred": "x < 1\ncrowd x=5"}))
    run = pop("eval", str(file), "x=1", POP_MAIN="/bin/cat")
    assert run.returncode == program.REFUSED and "crowd x=5" not in run.stdout
    file.write_text(json.dumps({"net": {"vars": ["x", "y"]}, "pred": "x >= y"}))
    assert "read as" not in pop("eval", str(file), "x=1", POP_MAIN="/bin/false").stderr


@pytest.mark.parametrize("text", ['{"format":NaN}', '{"format":Infinity}', '{"a":"\\ud800"}'])
def test_what_json_has_not(text: str) -> None:
    with pytest.raises(InputFault, match="no JSON"):
        load(text, "f")


def test_names_in_pictures_are_as_they_stand() -> None:
    from hurleyoak.show.netdrawing import dot_text

    net = load('inputs x: "&lt;"\n"&lt;" + "&lt;" -> $a$ + $b\nyes $a$\n', "f").net
    assert "&amp;lt;" in dot_text(net, "", "")
    trace = pop("simulate", "-", "x=4", "--trace", "/dev/stdout", text="inputs x: $_{\nyes $_{\n").stdout
    pytest.importorskip("matplotlib")
    assert "Traceback" not in pop("plot", "-", "-o", "/dev/null.svg", text=trace).stderr


def test_sentences_that_are_lost_take_no_answer_with_them(tmp_path: Path) -> None:
    program_path = tmp_path / "says"
    program_path.write_text("#!/bin/sh\necho certified 2\n")
    program_path.chmod(0o755)
    environment = {**os.environ, "POP_MAIN": str(program_path)}
    with open("/dev/full", "w") as full:
        run = subprocess.run(
            [POP, "check", str(TOP / "examples/majority/majority.pop")],
            stdout=subprocess.PIPE,
            stderr=full,
            check=False,
            env=environment,
        )
    assert run.returncode == 0 and run.stdout == b"certified 2\n"


def test_the_second_checker_takes_no_module_of_another_s(tmp_path: Path) -> None:
    (tmp_path / "json.py").write_text("raise SystemExit(99)\n")
    link = tmp_path / "recheck"
    link.symlink_to(TOP / "bin" / "recheck")
    run = subprocess.run(
        [link, str(TOP / "examples/majority/bundle.json")],
        capture_output=True,
        text=True,
        check=False,
        cwd=tmp_path,
        env={**os.environ, "PYTHONPATH": str(tmp_path)},
    )
    assert (run.returncode, run.stdout) == (0, "certified 2\n")
