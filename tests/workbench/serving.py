"""A server of the tests: started as a person starts it, asked over its socket, and ended."""
from __future__ import annotations

import http.client
import json
import os
import re
import signal
import subprocess
import time
from pathlib import Path
from typing import Any, Iterator

from .alarm import PATIENCE as PATIENCE
from .conftest import TOP

LOOK = 0.1  # seconds between two looks
POP = str(TOP / "bin" / "pop")


class Server:
    """`pop serve`, with its address and key."""

    def __init__(self, *words: str, cwd: Path | None = None) -> None:
        self.process = subprocess.Popen(
            [POP, "serve", *words], stdout=subprocess.PIPE, stderr=subprocess.PIPE, text=True, cwd=cwd
        )
        assert self.process.stdout is not None
        self.address = self.process.stdout.readline().split(" ")[1]
        found = re.fullmatch(r"http://127\.0\.0\.1:(\d+)/#([A-Za-z0-9_-]{32})", self.address)
        assert found, self.address
        self.port, self.key = int(found[1]), found[2]

    def headers(self, **changed: str | None) -> dict[str, str]:
        """What the page sends; changed by name, `None` leaves one out."""
        usual: dict[str, str | None] = {
            "Host": f"127.0.0.1:{self.port}",
            "X-Pop-Key": self.key,
            "Content-Type": "application/json",
            "Origin": f"http://127.0.0.1:{self.port}",
            "Sec-Fetch-Site": "same-origin",
        }
        usual.update({name.replace("_", "-"): value for name, value in changed.items()})
        return {name: value for name, value in usual.items() if value is not None}

    def connection(self, seconds: float = PATIENCE) -> http.client.HTTPConnection:
        """A connection to it."""
        return http.client.HTTPConnection("127.0.0.1", self.port, timeout=seconds)

    def send(
        self, method: str, path: str, body: "str | bytes | None" = None, **changed: str | None
    ) -> tuple[int, dict[str, str], bytes]:
        """Status, headers and body of an answer."""
        connection = self.connection()
        connection.putrequest(method, path, skip_host=True, skip_accept_encoding=True)
        data = body.encode() if isinstance(body, str) else body
        for name, value in self.headers(**changed).items():
            connection.putheader(name, value)
        if data is not None:
            connection.putheader("Content-Length", str(len(data)))
        connection.endheaders(data)
        answer = connection.getresponse()
        found = answer.status, {name.lower(): value for name, value in answer.getheaders()}, answer.read()
        connection.close()
        return found

    def post(self, path: str, value: Any) -> tuple[int, Any]:
        """Status and JSON of an answer."""
        status, _, body = self.send("POST", path, json.dumps(value))
        return status, json.loads(body)

    def begin(self, kind: str, **request: Any) -> tuple[http.client.HTTPConnection, http.client.HTTPResponse]:
        """A job whose messages are read by the caller."""
        connection = self.connection(2 * PATIENCE)
        connection.request("POST", "/job", json.dumps({"kind": kind, **request}), self.headers())
        return connection, connection.getresponse()

    def job(self, kind: str, **request: Any) -> list[dict[str, Any]]:
        """All messages of a job."""
        connection, answer = self.begin(kind, **request)
        out = list(messages(answer))
        connection.close()
        return out

    def done(self, kind: str, **request: Any) -> dict[str, Any]:
        """The last message of a job that was done."""
        last = self.job(kind, **request)[-1]
        assert last["event"] == "done", last
        return last

    def fault(self, kind: str, **request: Any) -> list[str]:
        """What a job says where it can't be done."""
        last = self.job(kind, **request)[-1]
        assert last["event"] == "fault", last
        told: list[str] = last["told"]
        return told

    def close(self) -> int:
        """Ends it as Ctrl-C does; its status."""
        self.process.send_signal(signal.SIGINT)
        try:
            return self.process.wait(20)
        finally:
            self.process.kill()
            for stream in (self.process.stdout, self.process.stderr):
                if stream is not None:
                    stream.close()


def messages(answer: http.client.HTTPResponse) -> Iterator[dict[str, Any]]:
    """The messages of a stream of events."""
    for line in answer:
        if line.startswith(b"data: "):
            yield json.loads(line[6:])


def workers(parent: int) -> list[int]:
    """The processes that a server, and each that it started, started."""
    children: dict[int, list[int]] = {}
    for name in filter(str.isdigit, os.listdir("/proc")):
        try:
            fields = Path(f"/proc/{name}/stat").read_text().rpartition(")")[2].split()
        except OSError:
            continue
        if fields[0] != "Z":
            children.setdefault(int(fields[1]), []).append(int(name))
    todo, out = [parent], []
    while todo:
        more = children.get(todo.pop(), [])
        out += more
        todo += more
    return out


def wait_for(true: Any, seconds: float = PATIENCE) -> bool:
    """Whether something comes to be within this time."""
    stop = time.monotonic() + seconds
    while time.monotonic() < stop:
        if true():
            return True
        time.sleep(LOOK)
    return bool(true())
