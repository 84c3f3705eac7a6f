"""`pop page`: one file without a server, as a browser shows it from the disk."""
from __future__ import annotations

import json
import re
import subprocess
from pathlib import Path
from typing import Iterator

import pytest

from hurleyoak.show.modules import one_script

from .browsing import Page
from .conftest import EXAMPLES, needs_program
from .serving import POP, wait_for

MAJORITY = EXAMPLES / "majority/majority.pop"
NET = MAJORITY.read_text().split("\nlayer")[0] + "\n"


def made(*words: str, text: str | None = None) -> tuple[int, str, str]:
    """Status, page and what is said."""
    run = subprocess.run([POP, "page", *words], input=text, capture_output=True, text=True)
    return run.returncode, run.stdout, run.stderr


def data_of(page: str) -> dict[str, object]:
    """What the page knows."""
    found = re.search(r'<script type="application/json" id="data">(.*)</script>\n', page)
    assert found
    value: dict[str, object] = json.loads(found[1])
    return value


@pytest.fixture()
def shared(browser: Page) -> Iterator[Page]:
    """The browser of all tests; none leaves complaints in its console."""
    browser.resize()
    browser.leave()
    yield browser
    assert browser.complaints() == []


def opened(shared: Page, path: Path) -> Page:
    """The page from the disk."""
    shared.open(f"file://{path}")
    return shared


@pytest.mark.quick
@needs_program
def test_it_shows_all_from_the_disk(shared: Page, tmp_path: Path) -> None:
    path = tmp_path / "page.html"
    assert made(str(MAJORITY), "x=30", "y=10", "-o", str(path)) == (0, "", "")
    page = opened(shared, path)
    page.sees("#verdict .badge.certified", "certified 2")
    page.sees("#editor .listing", "A + B -> a + b")
    assert page.text("#editor .cm-keyword").startswith("inputs")
    page.sees("#panel-play .chips", "A12")
    page.js("document.querySelector('.speedbox input').value = 100")
    page.one('[aria-label="Random meetings"]').click()
    page.sees("#panel-play .said", "No meeting changes anything any more, and all say true")
    page.sees("#panel-play .said", "played by the page")
    page.tab("net")
    assert page.has("#panel-net .state") and page.has("#panel-net .link.taken")
    page.one("#panel-net input[type=checkbox]").click()
    page.sees("#panel-net .legend", "layer 0layer 1")
    page.tab("proof")
    page.sees("#panel-proof .badge.certified", "when this page was made")
    assert page.has("#panel-proof .tree li[data-node='8']")
    page.tab("behaviour")
    page.sees("#panel-behaviour .badge.measured", "measured, not proved")
    assert len(page.browser.find_elements("css selector", "#panel-behaviour .series path")) == 4


@needs_program
def test_a_move_leads_to_its_line(shared: Page, tmp_path: Path) -> None:
    path = tmp_path / "page.html"
    made(str(MAJORITY), "-o", str(path))
    page = opened(shared, path)
    for agent in (0, 12):
        page.js(
            (
                "document.querySelector(`.agent[data-i='${arguments[0]}']`).dispatchEvent(new MouseEvent('click',"
                " {bubbles: true}))"
            ),
            agent,
        )
    page.js("document.querySelector('#panel-play .way .move').click()")
    assert wait_for(lambda: page.text(".listing .pointed") == "A + B -> a + b")


def test_the_policy_names_no_source_outside() -> None:
    page = made(text=NET)[1]
    policy = re.search(r'Content-Security-Policy" content="([^"]*)"', page)
    assert (
        policy
        and policy[1].startswith("default-src 'none'; script-src 'sha256-")
        and "require-trusted-types-for 'script'" in policy[1]
    )
    assert not re.search(r"unsafe|https?:|data:|\*", policy[1])
    assert not re.search(r"""(?:src|href)=["']|url\((?!#)|@import|fetch\(""", page.replace("xlink:href", ""))


def test_nothing_is_fetched_and_nothing_else_runs(shared: Page, tmp_path: Path) -> None:
    path = tmp_path / "page.html"
    path.write_text(made(text=NET)[1])
    page = opened(shared, path)
    assert page.js("return performance.getEntriesByType('resource').length") == 0
    assert "blocked" in page.js(
        "try { document.body.insertAdjacentHTML('beforeend', '<b>x</b>'); return 'done' } catch (error) { return"
        " 'blocked' }"
    )
    page.sees("#verdict", "not proved")
    page.complaints()


def test_hostile_names_do_nothing(shared: Page, tmp_path: Path) -> None:
    names = ["<script>hurt=1", "<script>", "<img\x27onerror=hurt=1>", "<!--", "{hurt}", "__proto__"]
    quoted = ['"' + name + '"' for name in names]
    moves = "\n".join(f"{a} + {b} -> {b} + {b}" for a, b in zip(quoted, quoted[1:]))
    text = f"# </noscript><script>hurt=1</script>\ninputs x: {quoted[0]}  y: {quoted[1]}\n{moves}\nyes {quoted[-1]}\n"
    path = tmp_path / "page.html"
    status, page_text, said = made("--title", "<script>hurt=1</script>", text=text)
    assert status == 0, said
    path.write_text(page_text)
    page = opened(shared, path)
    page.one('[aria-label="Random meetings"]').click()
    for view in ("net", "proof", "behaviour"):
        page.tab(view)
    assert page.js("return window.hurt") is None and page.js("return document.scripts.length") == 2
    page.sees("#panel-net .state text", "<script>hurt=1")


@needs_program
def test_a_proof_that_is_rejected_is_shown_so(shared: Page, tmp_path: Path) -> None:
    text = MAJORITY.read_text().replace("absent: lin wrong - absent(A) - absent(a)", "absent: lin wrong - absent(A)")
    status, page_text, _ = made(text=text)
    assert status == 3
    (tmp_path / "page.html").write_text(page_text)
    page = opened(shared, tmp_path / "page.html")
    page.sees("#verdict .badge.rejected", "rejected leaf 0")
    assert page.has("#panel-proof li.bad")


@pytest.mark.parametrize(
    "words, text, status, said",
    [
        (["no-such-file.pop"], None, 2, "No such file"),
        ([], "A + B => a\n", 2, "expected `->`"),
        (["a.pop", "b.pop"], None, 1, "it takes"),
        (["--seed", "-1"], NET, 1, "a whole number"),
        (["--trace", "no-such-trace"], NET, 2, "No such file"),
        (["z=3"], NET, 2, "z"),
    ],
)
def test_what_cannot_be_shown_is_refused(words: list[str], text: str | None, status: int, said: str) -> None:
    found = made(*words, text=text)
    assert found[0] == status and found[1] == "" and said in found[2], found


def test_traces_are_its_curves(tmp_path: Path) -> None:
    (tmp_path / "net.pop").write_text(NET)
    run = subprocess.run(
        [
            POP,
            "simulate",
            str(tmp_path / "net.pop"),
            "x=9",
            "y=4",
            "--seed",
            "5",
            "--trace",
            str(tmp_path / "a.trace"),
        ],
        capture_output=True,
    )
    assert run.returncode == 0
    curves = data_of(made(str(tmp_path / "net.pop"), "--trace", str(tmp_path / "a.trace"))[1])["curves"]
    assert isinstance(curves, list) and [one["title"] for one in curves] == ["x=9 y=4, seed 5"]


@pytest.mark.parametrize("path", ["flock/bundle.json", "and/and.pop", "helper/helper.pop"])
@needs_program
def test_other_inputs(path: str) -> None:
    status, page, said = made(str(EXAMPLES / path))
    value = data_of(page)
    assert status == 0, said
    check = value["check"]
    assert isinstance(check, dict) and check["good"] and check["line"].startswith("certified ")


def test_the_modules_are_one_script() -> None:
    script = one_script("stillpage", {"api": "still"})
    assert script.index("const module_dom") < script.index("const module_timeline") < script.index("const module_play")
    assert "module_api" not in script and "fetch(" not in script


@pytest.mark.parametrize("width, height", [(390, 844), (1280, 800)])
def test_it_fits(shared: Page, tmp_path: Path, width: int, height: int) -> None:
    (tmp_path / "page.html").write_text(made(text=NET)[1])
    shared.resize(width, height)
    page = opened(shared, tmp_path / "page.html")
    for view in (["text"] if width < 800 else []) + ["play", "net", "proof", "behaviour"]:
        page.tab(view)
        assert page.js("return document.documentElement.scrollWidth") <= width, view
