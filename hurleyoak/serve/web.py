"""The server: files of the page, the start, jobs as a stream of events, and the file that is saved."""
from __future__ import annotations

import asyncio
import json
import signal
from typing import Any

from tornado import iostream, web
from tornado.netutil import bind_sockets

from ..building.commands import program_told
from ..faults import InputFault
from .document import Changed, Document, is_whole_text
from .guard import HEADERS, refusal, work_refusal
from .jobs import Jobs, TooMany, trouble
from .connections import Connections, Server, one_line_each
from .library import TYPES, examples, examples_told, page_files
from .limits import BODY_SECONDS, IDLE_SECONDS, TEXT_LIMIT

ADDRESS = "127.0.0.1"
BODY_LIMIT = 2 * TEXT_LIMIT  # JSON writes some signs longer
HEADER_LIMIT = 1 << 16
BUSY = "other jobs are still under way: stop one, and ask again"


class Settings:
    """What the handlers share."""

    def __init__(self, port: int, key: str, document: Document | None) -> None:
        self.port, self.key, self.document = port, key, document
        self.jobs = Jobs()
        self.connections = Connections()
        self.files = page_files()


@web.stream_request_body
class Handler(web.RequestHandler):
    """A request that is refused unless it comes from the page of this server; its body is read only then."""

    is_work = True

    def initialize(self, settings: Settings) -> None:
        """Takes what is shared."""
        self.shared = settings
        self.pieces: list[bytes] = []

    def set_default_headers(self) -> None:
        """The same guards on each answer."""
        self.clear_header("Server")
        for name, value in HEADERS.items():
            self.set_header(name, value)

    def prepare(self) -> None:
        """Refuses who may not ask."""
        self.stream: iostream.IOStream = self.request.connection.stream  # type: ignore[union-attr]
        self.shared.connections.busy(self.stream)
        headers = self.request.headers
        why = refusal(headers, self.shared.port)
        status = 403
        if not why and self.is_work:
            why = work_refusal(headers, self.shared.key)
            status = 401
        if why:
            self.set_status(status)
            self.finish({"told": [why]})

    def data_received(self, chunk: bytes) -> None:
        """Takes a piece of the body of a request that isn't refused."""
        self.pieces.append(chunk)

    def on_finish(self) -> None:
        """The connection waits for another request."""
        self.shared.connections.idle(self.stream)

    def write_error(self, status_code: int, **more: Any) -> None:
        """A refusal without what the server knows of itself."""
        self.finish({"told": [f"the server refuses this ({status_code})"]})

    def value(self) -> dict[str, Any]:
        """The request's JSON object; 400 where it is none."""
        try:
            found = json.loads(b"".join(self.pieces))
        except (ValueError, RecursionError):
            raise web.HTTPError(400) from None
        if not isinstance(found, dict):
            raise web.HTTPError(400)
        return found


class FileHandler(Handler):
    """A file of the page. What it may be stands in a table; no path is made of a request."""

    is_work = False

    def get(self) -> None:
        """The file."""
        path = self.shared.files.get(self.request.path)
        if path is None:
            raise web.HTTPError(404)
        self.set_header("Content-Type", f"{TYPES[path.suffix]}; charset=utf-8")
        if path.suffix != ".html":
            self.set_header("Cache-Control", "no-cache")
        self.finish(path.read_bytes())


class StartHandler(Handler):
    """What the page begins with."""

    def post(self) -> None:
        """The file, the examples, and which program answers."""
        out: dict[str, Any] = {"examples": examples_told(), "program": program_told(), "file": None}
        document = self.shared.document
        if document is not None:
            try:
                text = document.text()
                out["file"] = {
                    "name": document.name,
                    "path": str(document.path),
                    "text": text,
                    "mark": document.mark(text),
                }
            except InputFault as fault:
                out["told"] = str(fault)
        self.finish(out)


class ExampleHandler(Handler):
    """The text of an example."""

    def post(self) -> None:
        """By its name in the menu."""
        path = examples().get(str(self.value().get("name")))
        if path is None:
            raise web.HTTPError(404)
        self.finish({"name": path.name, "text": path.read_text(encoding="utf-8")})


class SaveHandler(Handler):
    """The file that was named at the start is written, and no other."""

    def post(self) -> None:
        """409 where it was changed by somebody else."""
        value = self.value()
        text, seen = value.get("text"), value.get("seen")
        document = self.shared.document
        if document is None or not isinstance(text, str) or not isinstance(seen, str):
            raise web.HTTPError(400)
        if not is_whole_text(text):
            self.set_status(400)
            self.finish({"told": [f"{document.name} is not saved: the text has half a sign, which no UTF-8 has"]})
            return
        try:
            self.finish({"mark": document.save(text, seen)})
        except Changed:
            self.set_status(409)
            self.finish(
                {
                    "told": [
                        f"{document.name} was changed by another program since this page read it; it is left as it is"
                    ]
                }
            )
        except InputFault as fault:
            self.set_status(500)
            self.finish({"told": str(fault).split("\n")})


class JobHandler(Handler):
    """A job, as a stream of server-sent events. Where the page is closed, or doesn't want it any more, the job
    ends."""

    task: asyncio.Task[None] | None = None

    def prepare(self) -> None:
        """Refuses a job for which there is no place, before its body is read."""
        super().prepare()
        if not self._finished and self.shared.jobs.is_full:
            self._begin_stream()
            self.finish(b"data: " + trouble(BUSY) + b"\n\n")

    def _begin_stream(self) -> None:
        self.set_header("Content-Type", "text/event-stream; charset=utf-8")
        self.set_header("X-Accel-Buffering", "no")

    async def post(self) -> None:
        """Starts the job and passes on what it tells."""
        request = self.value()
        self._begin_stream()
        self.task = asyncio.create_task(self._pass_on(request))
        try:
            await self.task
        except (asyncio.CancelledError, iostream.StreamClosedError):
            return
        self.finish()

    async def _pass_on(self, request: dict[str, Any]) -> None:
        messages = self.shared.jobs.messages(request)
        try:
            async for message in messages:
                self.write(b"data: " + message + b"\n\n")
                await self.flush()
        except TooMany:
            self.write(b"data: " + trouble(BUSY) + b"\n\n")
        finally:
            await messages.aclose()

    def on_connection_close(self) -> None:
        """Nobody listens any more."""
        super().on_connection_close()
        if self.task is not None:
            self.task.cancel()


def application(settings: Settings) -> web.Application:
    """The whole server."""
    shared = {"settings": settings}
    return web.Application(
        [
            ("/start", StartHandler, shared),
            ("/example", ExampleHandler, shared),
            ("/save", SaveHandler, shared),
            ("/job", JobHandler, shared),
            (".*", FileHandler, shared),
        ],
        log_function=lambda handler: None,
    )


async def _serve(settings: Settings, server: Server) -> None:
    stop = asyncio.Event()
    loop = asyncio.get_running_loop()
    for number in (signal.SIGINT, signal.SIGTERM, signal.SIGHUP):
        loop.add_signal_handler(number, stop.set)
    settings.jobs.prepare()
    await stop.wait()
    server.stop()
    await settings.jobs.close()


def serve(port: int, key: str, document: Document | None, ready: Any) -> None:
    """Answers until it is interrupted; `ready` is told the address. OSError where the port is taken."""
    sockets = bind_sockets(port, ADDRESS)
    one_line_each()
    own_port: int = sockets[0].getsockname()[1]
    settings = Settings(own_port, key, document)

    async def run() -> None:
        server = Server(
            application(settings),
            max_body_size=BODY_LIMIT,
            max_header_size=HEADER_LIMIT,
            idle_connection_timeout=IDLE_SECONDS,
            body_timeout=BODY_SECONDS,
        )
        server.connections = settings.connections
        server.add_sockets(sockets)
        ready(f"http://{ADDRESS}:{own_port}/#{key}")
        await _serve(settings, server)

    asyncio.run(run())
