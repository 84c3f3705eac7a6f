"""The server's connections, of which only so many are open, and what it says of a request that it can't read."""
from __future__ import annotations

import logging
import resource
from typing import Any

from tornado.httpserver import HTTPServer
from tornado.iostream import IOStream

from .limits import CONNECTIONS

FILES_EACH = 2  # open files for each connection: with its own the jobs and the page have theirs


class Connections:
    """The open connections, the idle ones by time, and whether a request of theirs is answered."""

    def __init__(self) -> None:
        self.open: dict[IOStream, bool] = {}
        files = resource.getrlimit(resource.RLIMIT_NOFILE)[0]
        self.most = CONNECTIONS if files == resource.RLIM_INFINITY else min(CONNECTIONS, files // FILES_EACH)

    def take(self, stream: IOStream) -> None:
        """One more; the one that has been idle for longest is closed where they are too many, or else this one."""
        if len(self.open) >= self.most:
            idle = next((one for one, is_busy in self.open.items() if not is_busy), stream)
            self.forget(idle)
            idle.close()
        if not stream.closed():
            self.open[stream] = False

    def forget(self, stream: IOStream) -> None:
        """One less."""
        self.open.pop(stream, None)

    def busy(self, stream: IOStream) -> None:
        """A request of this connection is answered from now on."""
        if stream in self.open:
            self.open[stream] = True

    def idle(self, stream: IOStream) -> None:
        """The answer is given; the connection is the last of the idle ones."""
        if self.open.pop(stream, None) is not None:
            self.open[stream] = False


class Server(HTTPServer):
    """A server that keeps so many connections open, and no more."""

    connections: Connections

    def handle_stream(self, stream: IOStream, address: Any) -> None:
        """Takes a connection."""
        self.connections.take(stream)
        if not stream.closed():
            super().handle_stream(stream, address)

    def on_close(self, server_conn: Any) -> None:
        """Forgets a connection that is closed."""
        super().on_close(server_conn)
        self.connections.forget(server_conn.stream)


class _OneLine(logging.Formatter):
    """What a library says of a request or of itself, in one line."""

    def format(self, record: logging.LogRecord) -> str:
        """The first line, and the kind of the fault behind it."""
        told = record.getMessage().split("\n")[0]
        fault = record.exc_info[1] if record.exc_info else None
        return f"pop: {told}" + (f": {type(fault).__name__}" if fault is not None else "")


def one_line_each() -> None:
    """Whatever is said of a request goes to standard error as one line."""
    handler = logging.StreamHandler()
    handler.setFormatter(_OneLine())
    logging.getLogger().handlers = [handler]
