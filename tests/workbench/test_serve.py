"""`pop serve` without a browser: who may ask, what jobs answer, and that they end with who asked for them."""
from __future__ import annotations

import asyncio
import json
import os
import signal
import subprocess
import sys
import time
from pathlib import Path
from typing import Iterator

import pytest

from hurleyoak.engine import program
from hurleyoak.serve import guard, jobs, limits
from hurleyoak.serve.document import Changed, Document
from hurleyoak.faults import InputFault

from .conftest import EXAMPLES, TOP, needs_program
from .serving import POP, Server, messages, wait_for, workers

pytest.importorskip("tornado", reason="Tornado isn't installed: apt-get install python3-tornado")
if not Path("/usr/share/javascript/codemirror").is_dir():
    pytest.skip("CodeMirror isn't installed: apt-get install libjs-codemirror", allow_module_level=True)

MAJORITY = (EXAMPLES / "majority/majority.pop").read_text()
NET = MAJORITY.split("\nlayer")[0]
WRONG = (EXAMPLES / "found/approximate-majority.pop").read_text()
SLOW = (EXAMPLES / "found/twice.pop").read_text()
NOBODY = 65534  # the user who owns nothing


@pytest.fixture(scope="module")
def server() -> Iterator[Server]:
    """One server for the tests that don't end it."""
    one = Server()
    yield one
    one.close()


# ---- who may ask


def test_the_page_and_its_files_are_given(server: Server) -> None:
    for path, kind in (
        ("/", "text/html"),
        ("/static/main.js", "text/javascript"),
        ("/static/base.css", "text/css"),
        ("/editor/codemirror.js", "text/javascript"),
    ):
        status, headers, body = server.send("GET", path)
        assert status == 200 and headers["content-type"].startswith(kind) and body
        assert headers["x-content-type-options"] == "nosniff" and headers["referrer-policy"] == "no-referrer"
        policy = headers["content-security-policy"]
        assert "default-src 'none'" in policy and "unsafe" not in policy and "frame-ancestors 'none'" in policy
        assert "server" not in headers and "access-control-allow-origin" not in headers


def test_the_page_has_no_script_or_style_of_its_own(server: Server) -> None:
    page = server.send("GET", "/")[2].decode()
    assert page.count("<script") == page.count("<script src=") + page.count('<script type="module" src=')
    assert "<style" not in page and " style=" not in page and "onclick=" not in page and "://" not in page
    assert server.key not in page


@pytest.mark.parametrize(
    "path",
    [
        "/static/../web.py",
        "/static/%2e%2e/web.py",
        "/static/index.html",
        "/static/jsconfig.json",
        "/static/types.d.ts",
        "/static/.clang-format",
        "/editor/../../../../etc/passwd",
        "/editor/mode/css/css.js",
        "//etc/passwd",
        "/static/",
        "/nothing",
    ],
)
def test_other_files_are_not_given(server: Server, path: str) -> None:
    assert server.send("GET", path)[0] == 404


def test_another_name_is_refused(server: Server) -> None:
    for host in (
        "evil.example",
        f"evil.example:{server.port}",
        "127.0.0.1",
        f"127.0.0.1:{server.port + 1}",
        f"127.0.0.1.evil.example:{server.port}",
        "",
    ):
        for method, path, body in (("GET", "/", None), ("POST", "/start", "{}"), ("POST", "/job", "{}")):
            status, _, answer = server.send(method, path, body, Host=host, Origin=None)
            assert status in (400, 403) and b"examples" not in answer, host
    assert server.send("GET", "/", Host=f"localhost:{server.port}", Origin=None)[0] == 200


def test_another_page_is_refused(server: Server) -> None:
    for changed in (
        {"Origin": "http://evil.example"},
        {"Origin": "null"},
        {"Origin": f"https://127.0.0.1:{server.port}"},
        {"Origin": "http://127.0.0.1:1"},
        {"Sec_Fetch_Site": "cross-site"},
        {"Sec_Fetch_Site": "same-site"},
    ):
        assert server.send("POST", "/start", "{}", **changed)[0] == 403, changed
        assert server.send("POST", "/job", "{}", **changed)[0] == 403, changed


def test_who_has_no_key_is_refused(server: Server) -> None:
    for key in (None, "", "x" * 32, server.key[:-1], server.key + "x", "é"):
        for path in ("/start", "/job", "/save", "/example"):
            assert server.send("POST", path, "{}", X_Pop_Key=key)[0] == 401, (key, path)


def test_a_form_is_refused(server: Server) -> None:
    for kind in ("text/plain", "application/x-www-form-urlencoded", "multipart/form-data; boundary=x", None):
        assert server.send("POST", "/start", "{}", Content_Type=kind)[0] in (400, 401), kind
    assert server.send("GET", "/job")[0] == 405 and server.send("OPTIONS", "/job")[0] in (401, 405)


def test_a_request_that_is_no_object_is_refused(server: Server) -> None:
    bodies: list[str | bytes] = ["", "[]", "1", "{", "[" * 100_000, '"x"', b"\xff\xfe"]
    for body in bodies:
        assert server.send("POST", "/job", body)[0] == 400


def test_a_request_that_is_too_long_is_refused(server: Server) -> None:
    try:
        status = server.send("POST", "/job", b" " * (3 * limits.TEXT_LIMIT))[0]
    except (BrokenPipeError, ConnectionResetError):
        status = 400
    assert status in (400, 413)
    assert server.post("/start", {})[0] == 200


def test_the_guard_alone() -> None:
    assert not guard.refusal({"Host": "127.0.0.1:80"}, 80) and not guard.refusal({"Host": "localhost"}, 80)
    assert guard.refusal({"Host": "localhost"}, 81) and guard.refusal({}, 80)
    assert guard.work_refusal({guard.KEY_HEADER: "", "Content-Type": "application/json"}, "k")
    assert len({guard.new_key() for _ in range(9)}) == 9


# ---- what is answered


@needs_program
def test_a_proof_is_certified_and_explained(server: Server) -> None:
    done = server.done("check", text=MAJORITY)
    assert done["answer"]["line"] == "certified 2" and done["whole"] and not done["faults"]
    nodes = done["explanation"]["leaves"][0]["false"]
    assert MAJORITY.splitlines()[nodes[4]["line"] - 1].strip() == "here: trap {A, b}"


@needs_program
def test_a_wrong_proof_is_rejected_at_its_line(server: Server) -> None:
    text = server.done("text", text=(EXAMPLES / "rejected/wrong-trap.json").read_text())["text"]
    done = server.done("check", text=text)
    assert done["answer"]["line"].startswith("rejected leaf 0 false 5")
    (mark,) = done["faults"]
    assert mark["kind"] == "refused" and "leaves: lin" in text.splitlines()[mark["line"] - 1]


@needs_program
def test_an_open_proof_is_no_whole_one(server: Server) -> None:
    text = MAJORITY.replace("here: lin wrong - absent(B) - absent(b)", "here: ?", 1)
    assert server.done("read", text=text)["proof"] == "open"
    done = server.done("check", text=text)
    assert not done["whole"] and not done["answer"]["good"] and done["faults"][0]["line"]


def test_faults_have_their_places(server: Server) -> None:
    assert server.done("read", text=NET.replace("A + b ->", "A + b =>"))["faults"][0] == {
        "kind": "fault",
        "told": "expected `->`, found `=`",
        "line": 6,
        "column": 7,
    }
    done = server.done("read", text=NET.replace("y - x < 0\n", "x > y  # more\n"))
    assert done["net"] is not None and done["faults"][0]["fix"] == {"old": "x > y", "new": "x - y > 0"}
    twice = server.done("read", text=NET + "A + B -> B + B\n")["faults"]
    assert twice[0]["kind"] == "warning" and twice[0]["line"] == len(NET.splitlines()) + 1
    assert server.done("read", text='{"net": 1}')["faults"][0]["told"].startswith("fault: format")
    assert server.done("read", text="{")["faults"][0]["line"] == 1
    assert server.done("read", text=NET)["net"]["leaves"][0]["moves"][0] == [0, 1, 2, 3, 0]


@needs_program
def test_a_proof_is_found_and_certified(server: Server) -> None:
    pytest.importorskip("scipy")
    told = server.job("find", text=NET, seconds=60)
    assert told[0]["event"] == "tasks" and [m["event"] for m in told[1:-1] if m["event"] != "going"] == ["came"] * 4
    assert all(len(m["shares"]) == 4 for m in told if m["event"] == "going")
    done = told[-1]
    assert done["found"] == "proof" and done["answer"]["line"] == "certified 2"
    assert server.done("check", text=done["text"])["answer"]["line"] == "certified 2"


@needs_program
def test_a_wrong_crowd_is_told_and_played(server: Server) -> None:
    for kind in ("refute", "find"):
        done = server.done(kind, text=WRONG)
        assert (
            done["found"] == "flaw"
            and done["counts"] == {"x": 1, "y": 1}
            and done["printed"] == ["X 2", "terminal"]
            and done["want"] is False
        )
        played = server.done("play", text=WRONG, counts=done["counts"], meetings=done["meetings"])
        assert played["terminal"] and played["crowd"] == {"X": 2} and played["value"] is False
    assert server.done("refute", text=MAJORITY, agents=4)["found"] == "nothing"


@needs_program
def test_meetings_are_those_of_the_program(server: Server) -> None:
    done = server.done("play", text=NET, counts={"x": 2, "y": 1}, meetings=[[0, 2], [1, 2]])
    assert done["crowd"] == {"A": 1, "a": 2} and done["terminal"] and done["value"] is True
    assert server.done("play", text=NET, counts={"x": 2, "y": 1}, meetings=[])["enabled"] == [0, 2]
    assert "doesn't play" in server.fault("play", text=NET, counts={"x": 2, "y": 1}, meetings=[[0, 9]])[0]
    assert server.fault("play", text=NET, counts={"x": 2}, meetings=[[0, "1"]]) and server.fault(
        "play", text=NET, counts={"x": "2"}, meetings=[]
    )


def test_a_run_is_told_while_it_goes_on(server: Server) -> None:
    told = server.job("simulate", text=NET, counts={"x": 900, "y": 100}, seed=3)
    rows = [row for message in told[:-1] for row in message["rows"]]
    done = told[-1]
    assert done["event"] == "done" and done["terminal"] and done["output"] is True and "not proved" in done["told"][-1]
    assert (
        rows[0][0] == 0
        and rows[-1][0] == done["meetings"]
        and all(sum(k for _, k in crowd) == 1000 for _, crowd in rows)
    )
    assert "2 to 1,000,000,000" in server.fault("simulate", text=NET, counts={"x": 1})[0]
    assert server.done("simulate", text=NET, counts={"x": 10**9}, seed=1)["terminal"]


def test_growth_is_measured(server: Server) -> None:
    told = server.job("growth", text=NET, sizes="x=10..80*2 y=x/2", runs=3)
    assert [m["crowd"] for m in told if m["event"] == "row"] == ["x=10 y=5", "x=20 y=10", "x=40 y=20", "x=80 y=40"]
    assert "names no sizes" in server.fault("growth", text=NET, sizes="x=..")[0]


@needs_program
def test_a_journal_is_made_and_replayed(server: Server) -> None:
    done = server.done("run", text=MAJORITY, counts={"x": 20, "y": 5}, seed=1)
    assert done["last"] == "verdict true" and done["replay"].startswith("holds ")
    assert "find" in server.fault("run", text=NET, counts={"x": 20, "y": 5})[0]


@needs_program
def test_a_predicate_is_compiled(server: Server) -> None:
    done = server.done("compile", of="x >= y")
    assert done["form"] == "x - y >= 0" and done["answer"]["good"]
    assert server.done("check", text=done["text"])["answer"] == done["answer"]
    assert server.fault("compile", of="x +")[0].startswith("expected") and server.fault("compile", of="")


def test_a_net_is_placed(server: Server) -> None:
    (leaf,) = server.done("net", text=NET)["leaves"]
    assert [link["text"] for link in leaf["links"]] and leaf["rows"][0][:3] == ["A", "true", "x"]
    if leaf["places"]:
        assert len(leaf["places"]["states"]) == 4 and all("points" in link for link in leaf["links"])


@pytest.mark.parametrize("name", ['a"b', "a\\", "<b>", "&amp;", "${x}", "a;b"])
def test_names_with_signs_are_drawn(server: Server, name: str) -> None:
    quoted = name.replace("\\", "\\\\").replace('"', '\\"')
    (leaf,) = server.done("net", text=f'inputs x: "{quoted}"\n"{quoted}" + "{quoted}" -> B + B\nyes B\n')["leaves"]
    assert leaf["rows"][0][0] == name


@pytest.mark.parametrize(
    "request_",
    [
        {},
        {"text": 1},
        {"text": ""},
        {"text": "\x00"},
        {"text": "inputs"},
        {"text": "é"},
        {"text": "[" * 9999},
        {"text": NET, "counts": []},
        {"text": NET, "seed": -1},
        {"text": NET, "seconds": 10**9},
        {"text": NET, "sizes": 7},
    ],
)
def test_what_means_nothing_is_a_sentence(server: Server, request_: dict[str, object]) -> None:
    for kind in (*limits.SECONDS, "", "__class__"):
        if kind == "find" and request_.get("text") == NET and "seconds" not in request_:
            continue
        last = server.job(kind, **request_)[-1]
        assert last["event"] in ("done", "fault")
        assert not any("mistake of its own" in line or "Traceback" in line for line in last.get("told", [])), last


# ---- jobs end


def test_a_closed_page_ends_its_job(server: Server) -> None:
    connection, answer = server.begin("simulate", text=SLOW, counts={"x": 7000, "y": 4000}, changes=10**9)
    read = messages(answer)
    for _ in range(3):
        assert next(read)["event"] == "rows"
    assert wait_for(lambda: len(workers(server.process.pid)) >= 1)
    before = set(workers(server.process.pid))
    answer.close()
    connection.close()
    # (the one that does the job ends; one that stands ready stays, or comes)
    assert wait_for(lambda: len(before & set(workers(server.process.pid))) < len(before))
    assert wait_for(lambda: len(workers(server.process.pid)) <= 1)


@needs_program
def test_all_that_a_search_started_ends_with_it(server: Server) -> None:
    pytest.importorskip("scipy")
    text = (
        "inputs x: s0\n"
        + "".join(f"s{i} + s{j} -> s{(i * j) % 40} + s{(i + j) % 40}\n" for i in range(40) for j in range(i, 40))
        + "yes s1\ncomputes x >= 20\n"
    )
    connection, answer = server.begin("find", text=text, seconds=300)
    assert next(messages(answer))["event"] == "tasks"
    wait_for(lambda: len(workers(server.process.pid)) >= 2, 5.0)  # (a fast search is over before that is seen)
    answer.close()
    connection.close()
    assert wait_for(lambda: len(workers(server.process.pid)) <= 1)


def test_jobs_are_not_too_many(server: Server) -> None:
    going = [
        server.begin("simulate", text=SLOW, counts={"x": 7000, "y": 4000}, changes=10**9)
        for _ in range(limits.JOBS_LIMIT)
    ]
    for _, answer in going:
        next(messages(answer))
    assert "under way" in server.fault("read", text=NET)[0]
    for connection, answer in going:
        answer.close()
        connection.close()
    assert wait_for(lambda: len(workers(server.process.pid)) <= 1)
    assert server.done("read", text=NET)["net"]


def test_the_end_of_the_server_ends_all() -> None:
    for number in (signal.SIGINT, signal.SIGTERM, signal.SIGKILL):
        one = Server()
        _, answer = one.begin("simulate", text=SLOW, counts={"x": 7000, "y": 4000}, changes=10**9)
        next(messages(answer))
        children = workers(one.process.pid)
        assert children
        one.process.send_signal(number)
        assert one.process.wait(20) == (0 if number != signal.SIGKILL else -number)
        assert wait_for(
            lambda: not any(
                os.path.exists(f"/proc/{pid}")
                and Path(f"/proc/{pid}/stat").read_text().rpartition(")")[2].split()[0] != "Z"
                for pid in children
            )
        )
        one.close()


def test_times() -> None:
    assert jobs.seconds_of({"kind": "find", "seconds": 5}) == 5 + limits.GRACE
    for odd in (-1, 1e9, True, "5", None, float("nan")):
        assert jobs.seconds_of({"kind": "find", "seconds": odd}) == limits.SECONDS["find"] + limits.GRACE
    assert jobs.memory_of(os.getpgid(0)) > 1 << 20 and jobs.work_of(os.getpgid(0)) > 0


@pytest.mark.parametrize(
    "taken, worked, left", [(2.0, 2.0, 8.0), (12.0, 3.0, 7.0), (12.0, 10.0, 0.0), (39.0, 0.0, 1.0), (40.0, 0.0, 0.0)]
)
def test_the_time_of_a_job_is_that_of_its_work(
    monkeypatch: pytest.MonkeyPatch, taken: float, worked: float, left: float
) -> None:
    async def found() -> float:
        clock = jobs.Clock(0, 10.0)
        now = clock.start + taken
        clock.now = lambda: now
        return clock.left

    monkeypatch.setattr(jobs, "work_of", lambda group: worked)
    assert abs(asyncio.run(found()) - left) < 1e-6


# ---- the file


def test_the_file_is_saved_and_no_other(tmp_path: Path) -> None:
    path = tmp_path / "mine.pop"
    path.write_text(NET)
    one = Server(str(path))
    try:
        file = one.post("/start", {})[1]["file"]
        assert file["name"] == "mine.pop" and file["text"] == NET
        status, saved = one.post(
            "/save", {"text": MAJORITY, "seen": file["mark"], "path": "/tmp/other", "name": "other"}
        )
        assert status == 200 and path.read_text() == MAJORITY and [p.name for p in tmp_path.iterdir()] == ["mine.pop"]
        path.write_text("# of another program\n")
        assert one.post("/save", {"text": NET, "seen": saved["mark"]})[0] == 409
        assert path.read_text() == "# of another program\n"
    finally:
        assert one.close() == 0


def test_without_a_file_nothing_is_saved(server: Server) -> None:
    assert server.post("/start", {})[1]["file"] is None
    assert server.post("/save", {"text": "x", "seen": Document.mark("")})[0] == 400


def test_a_document(tmp_path: Path) -> None:
    new = Document(str(tmp_path / "new.pop"))
    mark = new.save("a\r\nb", new.mark(""))
    assert (tmp_path / "new.pop").read_bytes() == b"a\r\nb" and mark == new.mark("a\r\nb")
    with pytest.raises(Changed):
        new.save("c", new.mark(""))
    (tmp_path / "link.pop").symlink_to(tmp_path / "new.pop")
    (tmp_path / "new.pop").chmod(0o640)
    link = Document(str(tmp_path / "link.pop"))
    link.save("d", link.mark("a\r\nb"))
    assert (tmp_path / "link.pop").is_symlink() and (tmp_path / "new.pop").read_text() == "d"
    assert (tmp_path / "new.pop").stat().st_mode & 0o777 == 0o640
    with pytest.raises(InputFault):
        Document(str(tmp_path)).text()
    (tmp_path / "odd.pop").write_bytes(b"\xff")
    with pytest.raises(InputFault):
        Document(str(tmp_path / "odd.pop")).text()


# ---- words


def test_words(tmp_path: Path) -> None:
    for words, status, told in (
        (["--port", "70000"], program.USAGE, "--port"),
        (["a", "b"], program.USAGE, "it takes"),
        (["-"], program.USAGE, "standard input"),
        ([str(tmp_path)], program.REFUSED, "directory"),
    ):
        run = subprocess.run([POP, "serve", *words], capture_output=True, text=True, timeout=30, check=False)
        assert run.returncode == status and told in run.stderr, words
    one = Server()
    run = subprocess.run(
        [POP, "serve", "--port", str(one.port)], capture_output=True, text=True, timeout=30, check=False
    )
    assert run.returncode == program.REFUSED and "in use" in run.stderr
    assert one.close() == 0


def test_a_missing_package_is_asked_for_by_name(tmp_path: Path) -> None:
    (tmp_path / "tornado").mkdir()
    (tmp_path / "tornado" / "__init__.py").write_text("raise ImportError\n")
    words = ["/usr/bin/python3", str(TOP / "hurleyoak"), "serve"]
    run = subprocess.run(
        words, capture_output=True, text=True, env={**os.environ, "PYTHONPATH": str(tmp_path)}, timeout=30, check=False
    )
    assert run.returncode == program.REFUSED and "apt-get install python3-tornado" in run.stderr


def test_the_page_stands_ready_soon(server: Server) -> None:
    server.done("read", text=NET)
    time.sleep(1.0)
    start = time.monotonic()
    assert json.dumps(server.done("read", text=NET))
    assert time.monotonic() - start < 1.0


# ---- lists for Play, joining, mending, great constants


@needs_program
def test_what_settle_takes(server: Server) -> None:
    done = server.done("settle", text=MAJORITY, counts={"x": 4, "y": 2})
    assert done["meetings"] == [[0, 4, 0, 0], [1, 5, 0, 0], [2, 4, 0, 1], [2, 5, 0, 1]]
    assert done["end"] == {"A": 2, "a": 4} and done["last"] == "verdict true"
    assert server.fault("settle", text=NET, counts={"x": 4, "y": 2})


@needs_program
def test_a_journal_is_replayed_before_it_is_watched(server: Server) -> None:
    journal = (EXAMPLES / "replays/held.txt").read_text()
    done = server.done("journal", text=journal)
    assert done["replay"].startswith("holds ") and len(done["meetings"]) == int(done["replay"].split()[1])
    lines = journal.splitlines()
    lines[4] = "0 1 0" if lines[4] != "0 1 0" else "0 0 1"
    assert "doesn't hold" in server.fault("journal", text="\n".join(lines) + "\n")[0]
    assert server.fault("journal", text="{}\ncrowd\nrun\n")


@needs_program
@pytest.mark.parametrize("how, good", [("and", True), ("or", True), ("not", True), ("xor", False)])
def test_nets_are_joined(server: Server, how: str, good: bool) -> None:
    request = {
        "text": (EXAMPLES / "flock/flock.pop").read_text(),
        "other": (EXAMPLES / "remainder/remainder.pop").read_text(),
        "how": how,
    }
    if good:
        assert server.done("join", **request)["answer"]["good"]
    else:
        assert server.fault("join", **request)


@needs_program
def test_great_constants_are_compiled(server: Server) -> None:
    done = server.done("compile", of="x - y < 1000000")
    assert done["answer"]["good"] and not done["own"] and sum(states for states, _ in done["leaves"]) < 100
    assert server.done("compile", of="x >= 2", way="plain")["own"]
    assert server.fault("compile", of="x >= 2", way="slow")
    quick = server.done("compile", of="x - y < 100", way="quick")
    assert not quick["own"] and quick["answer"]["line"].startswith("certified ")


@needs_program
def test_what_is_refused_is_mended(server: Server) -> None:
    pytest.importorskip("scipy")
    done = server.done(
        "mend", text=MAJORITY.replace("absent: lin wrong - absent(A) - absent(a)", "absent: lin wrong - absent(A)")
    )
    assert done["found"] == "proof" and done["answer"]["line"] == "certified 2"
    assert done["text"].startswith("# majority")


def test_a_family_s_member_is_read(server: Server) -> None:
    text = "family k in 2..4\ninputs x: 1\nfor i in 1..k-1\n  1 + {i} -> {i+1} + 0\nyes {k}\n"
    for member, states in ((0, 3), (2, 5), (9, 5)):
        done = server.done("read", text=text, member=member)
        assert done["members"] == ["k=2", "k=3", "k=4"] and len(done["net"]["leaves"][0]["states"]) == states
    assert server.done("read", text=text.replace("k-1", "j"))["faults"][0]["line"] == 3


def test_examples_of_one_name_are_told_apart(server: Server) -> None:
    names = [one["name"] for one in server.post("/start", {})[1]["examples"]]
    assert len(set(names)) == len(names) and {"majority", "families/majority"} <= set(names)
    assert "\nfamily" not in server.post("/example", {"name": "majority"})[1]["text"]
    assert "\nfamily" in server.post("/example", {"name": "families/majority"})[1]["text"]


def test_what_a_file_assumes_holds_for_runs(server: Server) -> None:
    text = f"{NET}\nassume x != y\n"
    assert server.fault("simulate", text=text, counts={"x": 3, "y": 3}) == [
        "this crowd doesn't meet what the text assumes: x - y != 0"
    ]
    rows = server.done("growth", text=text, sizes="x=3,4 y=3", runs=1)["rows"]
    assert [row["crowd"] for row in rows] == ["x=4 y=3"]


def test_all_faults_of_a_family_are_told(server: Server) -> None:
    text = "family k in 2..4\ninputs x: 1\nfor i in 1..k-1\n  1 + {i} => {i+1} + 0\n1 + 1 -> 2\nyes {k}\n"
    found = server.done("read", text=text, member=2)["faults"]
    assert [(one["line"], one["column"]) for one in found] == [(4, 7), (5, 11)]


# ---- two users of one machine


def test_what_every_user_can_read_has_no_key(server: Server) -> None:
    for pid in [server.process.pid, *workers(server.process.pid)]:
        assert server.key.encode() not in Path(f"/proc/{pid}/cmdline").read_bytes()
        assert server.key.encode() not in Path(f"/proc/{pid}/environ").read_bytes()


def test_the_key_of_another_server_is_refused(server: Server) -> None:
    other = Server()
    try:
        assert other.key != server.key
        for path in ("/start", "/job", "/save", "/example"):
            assert server.send("POST", path, "{}", X_Pop_Key=other.key)[0] == 401
    finally:
        assert other.close() == 0


@pytest.mark.skipif(os.geteuid() != 0, reason="another user is one that root becomes")
def test_another_user_reads_no_key_and_ends_no_job(server: Server) -> None:
    looks = f"import os, sys; os.setuid({NOBODY}); sys.stdout.write(open('/proc/{server.process.pid}/environ').read())"
    ends = f"import os; os.setuid({NOBODY}); os.kill({server.process.pid}, 15)"
    for text in (looks, ends):
        run = subprocess.run([sys.executable, "-c", text], capture_output=True, text=True, cwd="/")
        assert run.stdout == "" and "PermissionError" in run.stderr


# ---- a disk that is full


def test_a_full_disk_leaves_the_file(tmp_path: Path) -> None:
    path = tmp_path / "mine.pop"
    path.write_text(NET)
    run = subprocess.run(
        [
            "sh",
            "-c",
            (
                'ulimit -f 1; exec /usr/bin/python3 -c "\nimport signal; signal.signal(signal.SIGXFSZ,'
                " signal.SIG_IGN)\nfrom hurleyoak.serve.document import Document\none ="
                f" Document('{path}')\none.save('x' * 10000, one.mark(one.text()))\""
            ),
        ],
        cwd=TOP,
        capture_output=True,
        text=True,
    )
    assert "nothing was written" in run.stderr and path.read_text() == NET
    assert [one.name for one in tmp_path.iterdir()] == ["mine.pop"]
