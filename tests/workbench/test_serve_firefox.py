"""The page of `pop serve` in Firefox: that what chromium shows, Firefox shows."""
from __future__ import annotations

from pathlib import Path
from typing import Iterator

import pytest

from .conftest import needs_program
from .firefox import FIREFOX, Firefox
from .hostile import MAJORITY, NET, hostile_text
from .serving import PATIENCE, Server, wait_for

if not FIREFOX:
    pytest.skip("there is no Firefox: apt-get install firefox-esr", allow_module_level=True)
pytest.importorskip("tornado", reason="Tornado isn't installed: apt-get install python3-tornado")
if not Path("/usr/share/javascript/codemirror").is_dir():
    pytest.skip("CodeMirror isn't installed: apt-get install libjs-codemirror", allow_module_level=True)

TEXT = "return [...document.querySelectorAll(arguments[0])].map((one) => one.textContent).join(' | ')"


class Seen:
    """The page in Firefox."""

    def __init__(self) -> None:
        self.server = Server()
        self.fox = Firefox()
        self.fox.get(self.server.address)
        assert wait_for(lambda: self.fox.js("return document.body.classList.contains('ready')"), 60)
        self.fox.js("localStorage.setItem('pop-tour', '1')")

    def put(self, text: str) -> None:
        """Puts a text into the editor, and waits until it was read."""
        self.fox.js("document.querySelector('.CodeMirror').CodeMirror.setValue(arguments[0])", text)
        assert wait_for(lambda: self.fox.js("return document.body.dataset.read === document.body.dataset.version"))

    def sees(self, path: str, text: str, seconds: float = PATIENCE) -> None:
        """A text comes to stand in an element."""
        assert wait_for(lambda: text in self.fox.js(TEXT, path), seconds), self.fox.js(TEXT, path)

    def press(self, view: str, text: str) -> None:
        """Presses a button of a view by what it says."""
        find = (
            "return [...document.querySelectorAll(arguments[0] + ' button')].find((one) =>"
            " one.textContent.includes(arguments[1]) && !one.disabled && one.offsetParent)"
        )
        assert wait_for(lambda: self.fox.js(f"{find} !== undefined", f"#panel-{view}", text)), text
        self.fox.js(f"({find.replace('return ', '')}).click()", f"#panel-{view}", text)


@pytest.fixture(scope="module")
def seen() -> Iterator[Seen]:
    """One browser for all."""
    one = Seen()
    yield one
    assert one.fox.complaints(f"http://127.0.0.1:{one.server.port}/") == []
    one.fox.quit()
    one.server.close()


@needs_program
def test_the_tour_stands_first(seen: Seen) -> None:
    seen.sees("#tour", "1 of 4")
    seen.fox.click("#tour .plain")
    assert seen.fox.js("return document.getElementById('tour').hidden")


def test_a_fault_is_marked(seen: Seen) -> None:
    seen.put("inputs x: A  y: B\nA + B => a + b\nyes A a\n")
    seen.sees("#faults", "expected `->`, found `=`")
    assert seen.fox.js("return document.querySelectorAll('.mark-fault').length") == 1


@needs_program
def test_a_proof_is_certified_and_meetings_are_played(seen: Seen) -> None:
    seen.put(MAJORITY)
    seen.sees("#verdict", "certified 2 by the program")
    seen.fox.click("#tab-play")
    seen.fox.click('[aria-label="Random meetings"]')
    assert wait_for(lambda: "0 meeting" != seen.fox.js(TEXT, "#panel-play .count")[:9])
    seen.fox.js(
        "const s = document.querySelector('.speedbox input'); s.value = 100; s.dispatchEvent(new Event('input'))"
    )
    seen.sees("#panel-play .said", "No meeting changes anything any more, and all say true")
    seen.fox.click("#tab-net")
    assert wait_for(lambda: seen.fox.js("return document.querySelectorAll('#panel-net .state').length") == 4)


@needs_program
def test_a_proof_is_found(seen: Seen) -> None:
    pytest.importorskip("scipy")
    seen.put(NET)
    seen.fox.click("#tab-proof")
    seen.press("proof", "Find a proof")
    seen.sees("#panel-proof .line", "certified 2")


def test_a_run_is_drawn(seen: Seen) -> None:
    seen.put(NET)
    seen.fox.click("#tab-behaviour")
    seen.press("behaviour", "Simulate")
    seen.sees("#panel-behaviour .badge.measured", "measured, not proved")
    assert seen.fox.js("return document.querySelectorAll('#panel-behaviour .series path').length") == 4


@needs_program
def test_hostile_names_do_nothing(seen: Seen) -> None:
    seen.put(hostile_text())
    for view in ("play", "net", "proof", "behaviour"):
        seen.fox.click(f"#tab-{view}")
    assert seen.fox.js("return window.hurt === undefined && Object.prototype.hurt === undefined")
    assert seen.fox.js("return document.querySelectorAll('img, iframe, object, embed').length") == 0


def test_no_text_becomes_html(seen: Seen) -> None:
    """Where the browser has no Trusted Types, the rest of the policy keeps scripts out."""
    seen.fox.js(
        "const one = document.createElement('a'); document.body.append(one); try { one.setAttribute('onclick',"
        " 'window.hurt = 1'); one.click() } catch {} one.remove()"
    )
    assert seen.fox.js("return window.hurt === undefined")
    seen.fox.ask("Marionette:SetContext", {"value": "chrome"})
    seen.fox.ask("WebDriver:ExecuteScript", {"script": "Services.console.reset()", "args": []})
    seen.fox.ask("Marionette:SetContext", {"value": "content"})
