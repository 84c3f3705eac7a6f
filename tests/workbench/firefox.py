"""Firefox by its own protocol, Marionette, as Debian has no driver for it: each message is its length, `:` and
JSON."""
from __future__ import annotations

import json
import os
import shutil
import signal
import socket
import subprocess
import tempfile
from contextlib import suppress
from pathlib import Path
from typing import Any

from .serving import PATIENCE, wait_for

FIREFOX = shutil.which("firefox-esr") or shutil.which("firefox")
PORT_FILE = "MarionetteActivePort"  # in the profile: where the browser listens
PREFERENCES = {
    "marionette.port": 0,
    "browser.shell.checkDefaultBrowser": False,
    "datareporting.policy.dataSubmissionEnabled": False,
    "app.update.auto": False,
    "ui.prefersReducedMotion": 1,
    "network.captive-portal-service.enabled": False,
    "network.connectivity-service.enabled": False,
    "services.settings.server": "data:,#none",
    "browser.aboutConfig.showWarning": False,
    "termsofuse.bypassNotification": True,
}
ELEMENT = "element-6066-11e4-a52e-4f735466cecf"  # the key of an element's reference, by the WebDriver standard
START_SECONDS = ANSWER_SECONDS = 2 * PATIENCE
CONSOLE = """return Services.console.getMessageArray()
    .filter((one) => one instanceof Ci.nsIScriptError && !(one.flags & Ci.nsIScriptError.warningFlag))
    .filter((one) => String(one.sourceName).startsWith(arguments[0]))
    .map((one) => one.errorMessage)"""


class Firefox:
    """A browser without a window, with a profile of its own."""

    def __init__(self, width: int = 1280, height: int = 800) -> None:
        assert FIREFOX is not None
        self.profile = tempfile.mkdtemp(prefix="firefox")
        lines = [f"user_pref({json.dumps(name)}, {json.dumps(value)});" for name, value in PREFERENCES.items()]
        (Path(self.profile) / "user.js").write_text("\n".join(lines))
        words = [
            "--headless",
            "--marionette",
            "--remote-allow-system-access",
            "--no-remote",
            "--profile",
            self.profile,
        ]
        size = ["--width", str(width), "--height", str(height)]
        self.process = subprocess.Popen(
            [FIREFOX, *words, *size], stdout=subprocess.DEVNULL, stderr=subprocess.DEVNULL, start_new_session=True
        )
        self.socket: socket.socket | None = None
        self.count, self.rest = 0, b""
        try:
            self._connect(width, height)
        except BaseException:
            self.quit()
            raise

    def _connect(self, width: int, height: int) -> None:
        port = Path(self.profile) / PORT_FILE
        assert wait_for(lambda: port.exists() and port.read_text().strip(), START_SECONDS), "Firefox does not listen"
        self.socket = socket.create_connection(("127.0.0.1", int(port.read_text())), ANSWER_SECONDS)
        self._message()
        self.ask("WebDriver:NewSession", {})
        self.ask("WebDriver:SetWindowRect", {"width": width, "height": height})

    def _message(self) -> Any:
        assert self.socket is not None
        while b":" not in self.rest:
            self.rest += self.socket.recv(1 << 16)
        size, _, self.rest = self.rest.partition(b":")
        while len(self.rest) < int(size):
            self.rest += self.socket.recv(1 << 16)
        text, self.rest = self.rest[: int(size)], self.rest[int(size) :]
        return json.loads(text)

    def ask(self, name: str, words: dict[str, Any]) -> Any:
        """What the browser answers."""
        self.count += 1
        assert self.socket is not None
        text = json.dumps([0, self.count, name, words]).encode()
        self.socket.sendall(b"%d:%s" % (len(text), text))
        kind, number, fault, value = self._message()
        assert (kind, number) == (1, self.count)
        assert fault is None, f"{name}: {fault}"
        return value

    def get(self, address: str) -> None:
        """Goes to an address."""
        self.ask("WebDriver:Navigate", {"url": address})

    def js(self, text: str, *values: Any) -> Any:
        """What a script in the page gives."""
        return self.ask("WebDriver:ExecuteScript", {"script": text, "args": list(values), "sandbox": None})["value"]

    def click(self, path: str) -> None:
        """Presses the element of a CSS path, as a person does."""
        found = self.ask("WebDriver:FindElement", {"using": "css selector", "value": path})["value"]
        self.ask("WebDriver:ElementClick", {"id": found[ELEMENT]})

    def type(self, path: str, text: str) -> None:
        """Types into the element of a CSS path."""
        found = self.ask("WebDriver:FindElement", {"using": "css selector", "value": path})["value"]
        self.ask("WebDriver:ElementSendKeys", {"id": found[ELEMENT], "text": text})

    def complaints(self, origin: str) -> list[str]:
        """The faults that scripts of an origin met, and what its policy refused."""
        self.ask("Marionette:SetContext", {"value": "chrome"})
        out: list[str] = self.ask("WebDriver:ExecuteScript", {"script": CONSOLE, "args": [origin]})["value"]
        self.ask("Marionette:SetContext", {"value": "content"})
        return out

    def quit(self) -> None:
        """Ends it, and its profile."""
        if self.socket is not None:
            self.socket.close()
        with suppress(ProcessLookupError):
            os.killpg(self.process.pid, signal.SIGKILL)
        self.process.wait()
        shutil.rmtree(self.profile, ignore_errors=True)
