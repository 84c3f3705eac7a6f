"""`pop serve` under load and under odd requests: its limits hold before bodies are read, and a refusal is one line."""
from __future__ import annotations

import asyncio
import json
import socket
import subprocess
import time
from contextlib import aclosing
from pathlib import Path
from typing import Iterator

import pytest

from .conftest import EXAMPLES
from .serving import POP, Server, messages

pytest.importorskip("tornado", reason="Tornado isn't installed: apt-get install python3-tornado")
if not Path("/usr/share/javascript/codemirror").is_dir():
    pytest.skip("CodeMirror isn't installed: apt-get install libjs-codemirror", allow_module_level=True)

from hurleyoak.serve import jobs, limits  # noqa: E402

LARGE = 8_000_000  # bytes of a body
PATIENCE = 30.0


@pytest.fixture
def server() -> Iterator[Server]:
    """A server of its own, which says nothing on standard error but what it says at its start."""
    one = Server()
    yield one
    one.process.kill()
    one.close()


def said(server: Server) -> list[str]:
    """What a server that is ended said on standard error."""
    server.process.terminate()
    told = server.process.communicate(timeout=PATIENCE)[1]
    return [line for line in str(told).splitlines() if "the page asks" not in line]


def head(server: Server, path: str, length: int, **changed: str | None) -> bytes:
    """The head of a request, whose body is to follow."""
    lines = [f"POST {path} HTTP/1.1", f"Content-Length: {length}"]
    lines += [f"{name}: {value}" for name, value in server.headers(**changed).items()]
    return ("\r\n".join(lines) + "\r\n\r\n").encode()


def opened(server: Server) -> socket.socket:
    """A connection to it."""
    return socket.create_connection(("127.0.0.1", server.port), timeout=PATIENCE)


@pytest.mark.parametrize(
    "changed, status",
    [({"X_Pop_Key": "x" * 32}, b"401"), ({"Host": "evil.example"}, b"403"), ({"Origin": "http://evil"}, b"403")],
)
def test_who_may_not_ask_is_refused_before_the_body(server: Server, changed: dict[str, str], status: bytes) -> None:
    """The answer comes while the body is still to be sent."""
    for path in ("/job", "/save", "/start"):
        with opened(server) as one:
            one.sendall(head(server, path, LARGE, **changed))
            assert one.recv(1 << 16).split()[1] == status
    assert said(server) == []


def test_no_more_jobs_begin_than_may() -> None:
    """However many ask at the same moment."""

    async def begun(all_: jobs.Jobs) -> str:
        try:
            async with aclosing(all_.messages({"kind": "none"})) as messages:
                async for message in messages:
                    return str(json.loads(message)["told"])
        except jobs.TooMany:
            return "too many"
        return "nothing"

    async def ask() -> list[str]:
        all_ = jobs.Jobs()
        told = await asyncio.gather(*(begun(all_) for _ in range(4 * limits.JOBS_LIMIT)))
        assert all_.begun == 0
        await all_.close()
        return list(told)

    told = asyncio.run(ask())
    assert told.count("too many") == 3 * limits.JOBS_LIMIT
    assert told.count("['there is no such job']") == limits.JOBS_LIMIT


def test_a_job_without_a_place_is_refused_before_its_body(server: Server) -> None:
    """By the sentence that the page shows."""
    text = (EXAMPLES / "found/twice.pop").read_text()
    asked = {"text": text, "counts": {"x": 7000, "y": 4000}, "changes": 10**9}
    under_way = [server.begin("simulate", **asked) for _ in range(limits.JOBS_LIMIT)]
    for _, answer in under_way:
        assert next(messages(answer))["event"] == "rows"
    with opened(server) as one:
        one.sendall(head(server, "/job", LARGE))
        assert b"other jobs are still under way" in one.recv(1 << 16)
    for connection, _ in under_way:
        connection.close()


@pytest.mark.parametrize("files", [0, 100])
def test_idle_connections_make_room(files: int) -> None:
    """Three hundred of them end nothing, also where few files may be open."""
    server = Server() if not files else limited(files)
    waiting = [opened(server) for _ in range(300)]
    deadline = time.monotonic() + PATIENCE
    assert server.send("GET", "/")[0] == 200
    assert server.post("/start", {})[0] == 200
    while (open_ := sum(not is_closed(one) for one in waiting)) > limits.CONNECTIONS:
        assert time.monotonic() < deadline
        time.sleep(0.1)
    assert open_ > 0
    for one in waiting:
        one.close()
    assert said(server) == []
    server.close()


def limited(files: int) -> Server:
    """A server that may have so few open files."""

    class Limited(Server):
        """The same, begun by a shell that sets the limit."""

    before = subprocess.Popen

    def popen(words: list[str], **more: object) -> "subprocess.Popen[str]":
        return before(["sh", "-c", f'ulimit -n {files}; exec "$@"', "sh", *words], **more)  # type: ignore[call-overload, no-any-return]

    with pytest.MonkeyPatch.context() as patch:
        patch.setattr(subprocess, "Popen", popen)
        return Limited()


def is_closed(one: socket.socket) -> bool:
    """Whether the other end was closed."""
    one.setblocking(False)
    try:
        return one.recv(1) == b""
    except BlockingIOError:
        return False
    except OSError:
        return True


@pytest.mark.parametrize("sign", ["\\ud800", "\\udc80"])
def test_half_a_sign_is_not_saved(tmp_path: Path, sign: str) -> None:
    """A text that no UTF-8 has is refused by a sentence, and the file stays."""
    file = tmp_path / "a.pop"
    file.write_text("inputs x: A\n")
    server = Server(str(file))
    seen = server.post("/start", {})[1]["file"]["mark"]
    status, _, body = server.send("POST", "/save", f'{{"text": "# {sign}", "seen": "{seen}"}}')
    assert status == 400 and "half a sign" in json.loads(body)["told"][0]
    assert file.read_text() == "inputs x: A\n" and said(server) == []
    server.close()


def test_a_refusal_is_one_line(server: Server) -> None:
    """Of what is no request, of a length that is too great, and of a body that never comes whole."""
    for sent in (b"\x00\xff nothing\r\n\r\n", head(server, "/job", 1 << 30), head(server, "/job", 5) + b"[]"):
        with opened(server) as one:
            one.sendall(sent)
            one.shutdown(socket.SHUT_WR)
            while one.recv(1 << 16):
                pass
    told = said(server)
    assert len(told) <= 2 and all(line.startswith("pop: ") for line in told), told
