"""The page of `pop serve` in a real browser: what a person types, presses and sees."""
from __future__ import annotations

import http.server
import subprocess
import threading
from pathlib import Path
from typing import Any, Iterator

import pytest

from hurleyoak.text.files import load
from hurleyoak.show.explaining import bundle_to_explain, explain
from hurleyoak.show.page import page

from .conftest import EXAMPLES, needs_program
from .browsing import Actions, Keys, Page
from .frames import FASTEST, begin, measured
from .hostile import MAJORITY, NET, hostile_text
from .serving import POP, Server, wait_for, workers

pytest.importorskip("tornado", reason="Tornado isn't installed: apt-get install python3-tornado")
if not Path("/usr/share/javascript/codemirror").is_dir():
    pytest.skip("CodeMirror isn't installed: apt-get install libjs-codemirror", allow_module_level=True)

WRONG = (EXAMPLES / "found/approximate-majority.pop").read_text()
SLOW = (EXAMPLES / "found/twice.pop").read_text()
SCRIPT_LIMIT = 5  # milliseconds of a processor that the page's script may take for a frame
PAGE_LIMIT = 30  # that all of the page may, on a busy machine


@pytest.fixture(scope="module")
def server() -> Iterator[Server]:
    """One server for all."""
    one = Server()
    yield one
    one.close()


@pytest.fixture()
def there(browser: Page, server: Server) -> Iterator[Page]:
    """The page anew, with nothing kept from the test before; no test leaves complaints in the console."""
    browser.new(server.address)
    yield browser
    assert browser.complaints() == [] or not browser.is_quiet


@pytest.mark.quick
def test_a_fault_is_marked_as_it_is_typed(there: Page) -> None:
    there.put("")
    there.type("inputs x: A  y: B\nA + B => a + b\nyes A a\n")
    there.sees("#faults", "line 2")
    there.sees("#faults", "expected `->`, found `=`")
    assert there.has(".line-fault .mark-fault") and there.text(".mark-fault") == "="
    there.js(
        "const code = document.querySelector('.CodeMirror').CodeMirror; code.replaceRange('->', {line: 1, ch: 6},"
        " {line: 1, ch: 8})"
    )
    assert wait_for(lambda: not there.text("#faults"))
    there.sees("#panel-play .chips", "A12")


def test_a_predicate_is_written_in_the_grammar_s_form(there: Page) -> None:
    there.put(NET.replace("y - x < 0", "x > y"))
    there.sees("#faults", "Write it as x - y > 0")
    there.one("#faults .fix").click()
    assert wait_for(
        lambda: "computes  x - y > 0" in there.js("return document.querySelector('.CodeMirror').CodeMirror.getValue()")
    )
    assert wait_for(lambda: not there.text("#faults"))


@pytest.mark.quick
@needs_program
def test_find_certifies_majority(there: Page) -> None:
    pytest.importorskip("scipy")
    there.put(NET)
    there.sees("#verdict", "nothing proved")
    there.tab("proof")
    there.press("proof", "Find a proof")
    there.sees("#panel-proof .line", "certified 2")
    there.sees("#panel-proof .badge.certified", "certified by the program")
    assert there.text("#panel-proof .tasks").count("small crowds") == 1 and there.has(
        "#panel-proof .tree li[data-node='8']"
    )
    look = "return getComputedStyle(document.querySelector('#panel-proof .tasks .what')).position"
    assert there.js(look) == "static"
    there.press("proof", "Put the proof into the text")
    there.sees("#verdict", "certified 2 by the program")
    assert "when false" in there.js("return document.querySelector('.CodeMirror').CodeMirror.getValue()")
    # what was certified is this text, and no other
    there.type("c + c -> d + d\n")
    there.sees("#verdict", "an earlier text was certified 2")
    assert there.has("#panel-proof .outcome.old")


@needs_program
def test_a_whole_proof_is_checked_unasked_and_a_wrong_one_is_red(there: Page) -> None:
    there.put(MAJORITY)
    there.sees("#verdict", "certified 2 by the program")
    there.put(MAJORITY.replace("absent: lin wrong - absent(A) - absent(a)", "absent: lin wrong - absent(A)"))
    there.sees("#verdict", "rejected by the program")
    there.sees("#faults", "line 29")
    there.tab("proof")
    assert there.text("#panel-proof li.bad > details > summary").startswith("3absent lin wrong")
    there.sees("#panel-proof .refused", "still positive")


@pytest.mark.quick
@needs_program
def test_refute_animates(there: Page) -> None:
    there.put(WRONG)
    there.sees("#panel-play .chips", "X12")
    there.tab("wrong")
    there.press("wrong", "Look for")
    there.sees("#panel-play .banner", "A crowd that goes wrong")
    assert there.js("return document.body.dataset.view") == "play"
    there.sees("#panel-play .count", "2 meetings")
    there.sees("#panel-play .said", "played by the program")
    there.sees("#panel-play .said", "wrong, the predicate is false here")
    assert len(there.browser.find_elements("css selector", ".agent.wrong")) == 2
    there.one('[aria-label="Back"]').click()
    there.sees("#panel-play .chips", "X1")
    there.sees("#verdict", "goes wrong")
    assert wait_for(lambda: not there.browser.find_elements("css selector", ".agent.wrong"))


def test_simulate_draws(there: Page) -> None:
    there.put(NET)
    there.sees("#panel-play .chips", "A12")
    there.tab("behaviour")
    there.press("behaviour", "Simulate")
    there.sees("#panel-behaviour .badge.measured", "measured, not proved")
    assert len(there.browser.find_elements("css selector", "#panel-behaviour .series path")) == 4
    assert all(
        len(str(path)) > 200
        for path in there.js(
            "return [...document.querySelectorAll('#panel-behaviour .series path')].map((one) =>"
            " one.getAttribute('d'))"
        )[:2]
    )
    there.js("document.getElementById('sizes').value = 'x=10..80*2 y=x/4'")
    there.press("behaviour", "Repeat over sizes")
    there.sees("#panel-behaviour .outcome", "meetings to the end")
    assert len(there.browser.find_elements("css selector", "#panel-behaviour .series circle")) >= 4


@pytest.mark.quick
@needs_program
def test_two_agents_meet_by_the_mouse_and_by_keys(there: Page) -> None:
    there.put(NET)
    there.sees("#panel-play .chips", "B5")
    for agent in (0, 12):
        there.js(
            (
                "document.querySelector(`.agent[data-i='${arguments[0]}']`).dispatchEvent(new MouseEvent('click',"
                " {bubbles: true}))"
            ),
            agent,
        )
    there.sees("#panel-play .way", "A + B → a + b")
    there.sees("#panel-play .said", "1 meeting")
    assert "in a, which says true" in there.one(".agent[data-i='0']").get_attribute("aria-label")
    there.one('[aria-label="Back"]').click()
    there.sees("#panel-play .chips", "B5")
    there.js("document.querySelector('.agent[tabindex=\"0\"]').focus()")
    Actions(there.browser).send_keys(Keys.ENTER, Keys.ARROW_RIGHT, Keys.ENTER).perform()
    there.sees("#panel-play .count", "1 meeting")
    there.js("document.getElementById('tab-play').focus()")
    Actions(there.browser).send_keys(Keys.ARROW_RIGHT, Keys.ARROW_RIGHT).perform()
    assert (
        there.js("return document.activeElement.id") == "tab-proof"
        and there.js("return document.body.dataset.view") == "proof"
    )


@needs_program
def test_random_meetings_come_to_what_the_program_plays(there: Page) -> None:
    for name in ("majority/majority.pop", "and/and.pop", "helper/helper.pop", "found/average-and-conquer.pop"):
        there.put((EXAMPLES / name).read_text())
        there.sees("#verdict", "certified")
        there.js(
            "document.querySelector('.speedbox input').value = 100; document.querySelector('.speedbox"
            " input').dispatchEvent(new Event('input'))"
        )
        there.one('[aria-label="Random meetings"]').click()
        there.sees("#panel-play .said", "No meeting changes anything any more, and all say true")
        assert there.has("#panel-play .said .badge.played")


def test_a_predicate_is_compiled_into_the_editor(there: Page) -> None:
    there.tab("compile")
    there.js("document.getElementById('predicate').value = 'x >= 2'")
    there.press("compile", "Compile")
    there.sees("#panel-compile .badge.certified", "certified")
    there.press("compile", "Put it into the editor")
    there.sees("#verdict", "certified")
    there.tab("net")
    assert there.has("#panel-net .state, #panel-net table")


@needs_program
def test_the_tour_goes_from_two_meetings_to_a_certificate(there: Page) -> None:
    pytest.importorskip("scipy")
    there.one("#help").click()
    there.sees("#tour", "1 of 4")
    there.one("#tour .main").click()
    there.sees("#panel-play .chips", "B5")
    for agent in (0, 12, 1, 13):
        there.js(
            (
                "document.querySelector(`.agent[data-i='${arguments[0]}']`).dispatchEvent(new MouseEvent('click',"
                " {bubbles: true}))"
            ),
            agent,
        )
    there.sees("#tour", "3 of 4")
    there.press("proof", "Find a proof")
    there.sees("#tour", "Certified")
    there.one("#tour .main").click()
    assert not there.one("#tour").is_displayed()
    there.sees("#panel-play .chips", "A12B5")
    assert "x >= 1" in there.js("return document.querySelector('.CodeMirror').CodeMirror.getValue()")


@pytest.mark.quick
@needs_program
def test_an_own_protocol_comes_to_a_certificate(there: Page) -> None:
    """From the page as it opens: a short protocol, one line of it changed, and a proof that is found."""
    pytest.importorskip("scipy")
    there.one("#new").click()
    there.sees("#panel-play .chips", "A12B5")
    there.js(
        "const code = document.querySelector('.CodeMirror').CodeMirror; code.replaceRange('A + A -> A + B', {line: 2,"
        " ch: 0}, {line: 2, ch: 14})"
    )
    there.tab("proof")
    there.press("proof", "Find a proof")
    there.sees("#panel-proof .outcome", "a counterexample, played by the program")
    there.js("const code = document.querySelector('.CodeMirror').CodeMirror; code.undo()")
    there.press("proof", "Find a proof")
    there.sees("#panel-proof .line", "certified")


def test_all_faults_are_marked_at_once(there: Page) -> None:
    there.put("inputs x: A  y: B\nA + B => a + b\nA + b -> A\nyes A a\ncomputes x >< y\n")
    for line in (2, 3, 5):
        there.sees("#faults", f"line {line}")
    assert len(there.browser.find_elements("css selector", "#editor .sign.fault")) == 3


def test_names_are_completed_and_told(there: Page) -> None:
    there.put("inputs x: Alpha  y: Beta\nAlpha + Beta -> Beta + Beta\nyes Beta\ncomputes y >= 1\n")
    there.type("Al")
    there.js("document.querySelector('.CodeMirror').CodeMirror.options.extraKeys['Ctrl-Space']()")
    there.sees(".CodeMirror-hints", "Alpha")
    Actions(there.browser).send_keys(Keys.ENTER).perform()
    assert wait_for(lambda: there.js("return document.querySelector('.CodeMirror').CodeMirror.getLine(4)") == "Alpha")
    there.js(
        "const code = document.querySelector('.CodeMirror').CodeMirror; code.setCursor(1, 10);"
        " code.options.extraKeys.F1()"
    )
    there.sees("#says", "state Beta: says true; y starts here; it meets in 1 move")
    there.js(
        "const code = document.querySelector('.CodeMirror').CodeMirror; code.setCursor(2, 1);"
        " code.options.extraKeys.F1()"
    )
    there.sees("#says", "yes: the states that say true")


@needs_program
def test_what_settles_is_watched_and_lit_in_the_net(there: Page) -> None:
    there.put(MAJORITY)
    there.press("play", "As the proof goes")
    there.sees("#panel-play .banner", "Crowd by crowd")
    there.js(
        "document.querySelector('#panel-play .crowds').open = true; document.querySelectorAll('#panel-play .crowds"
        " button')[3].click()"
    )
    there.sees("#panel-play .count", "3 of")
    there.tab("net")
    assert there.has("#panel-net .link.taken")
    there.tab("play")
    there.js(
        "const time = document.querySelector('.time'); time.value = time.max; time.dispatchEvent(new Event('input'))"
    )
    there.sees("#panel-play .said", "The program comes to this same crowd")


@needs_program
def test_the_layers_are_drawn_on_the_net(there: Page) -> None:
    there.put(MAJORITY)
    there.sees("#verdict", "certified 2 by the program")
    there.tab("net")
    assert there.has("#panel-net .state")
    there.one("#panel-net input[type=checkbox]").click()
    there.sees("#panel-net .legend", "layer 0layer 1")
    looks = there.js("return [...document.querySelectorAll('#panel-net .link')].map((one) => one.dataset.layer)")
    assert sorted(set(looks)) == ["0", "1"]


@needs_program
def test_a_run_of_the_program_is_watched(there: Page) -> None:
    there.put(MAJORITY)
    there.sees("#panel-play .chips", "A12")
    there.tab("behaviour")
    there.js(
        "document.querySelectorAll('#panel-behaviour .count-of input').forEach((one, i) => (one.value = [12, 5][i]))"
    )
    there.press("behaviour", "Run by the program")
    there.press("behaviour", "Watch it in Play")
    there.sees("#panel-play .banner", "Its journal is replayed: holds")
    there.js(
        "const time = document.querySelector('.time'); time.value = time.max; time.dispatchEvent(new Event('input'))"
    )
    there.sees("#panel-play .said", "verdict true. The program comes to this same crowd")


@needs_program
def test_a_journal_that_is_opened_is_watched(there: Page) -> None:
    words = [POP, "run", str(EXAMPLES / "majority/majority.pop"), "x=6", "y=3", "--seed", "1"]
    journal = subprocess.run(words, capture_output=True, text=True, check=True).stdout
    there.js(
        "const data = new DataTransfer(); data.items.add(new File([arguments[0]], 'six.journal')); const one = document.getElementById('picked'); one.files = data.files; one.dispatchEvent(new Event('change'))",
        journal,
    )
    there.sees("#panel-play .banner", "A journal. The program replays it: holds")
    there.js(
        "const time = document.querySelector('.time'); time.value = time.max; time.dispatchEvent(new Event('input'))"
    )
    there.sees("#panel-play .said", "verdict true. The program comes to this same crowd")


@needs_program
def test_what_is_refused_is_mended_by_a_button(there: Page) -> None:
    pytest.importorskip("scipy")
    there.put(MAJORITY.replace("absent: lin wrong - absent(A) - absent(a)", "absent: lin wrong - absent(A)"))
    there.sees("#verdict", "rejected by the program")
    there.tab("proof")
    there.press("proof", "Mend what is refused")
    there.sees("#panel-proof .line", "certified 2")
    there.sees("#panel-proof .outcome", "mended")


@needs_program
def test_two_nets_stand_side_by_side_and_are_joined(there: Page) -> None:
    there.put((EXAMPLES / "flock/flock.pop").read_text())
    there.tab("join")
    there.sees("#panel-join .side:first-child .small", "x >= 3, with a whole proof")
    there.sees("#panel-join .side:last-child .small", "take an example")
    there.js(
        "const one = document.querySelector('#panel-join select'); one.value = 'remainder'; one.dispatchEvent(new Event('change'))"
    )
    there.sees("#panel-join .side:last-child .small", "with a whole proof")
    assert there.has("#panel-join .side:first-child .state") and there.has("#panel-join .side:last-child .state")
    there.press("join", "Both: and")
    there.sees("#panel-join .badge.certified", "certified 5 by the program")
    there.press("join", "Put it into the editor")
    there.sees("#verdict", "certified")
    there.js(
        "const one = document.querySelector('#panel-join textarea'); one.value = 'inputs x: A\\nA + A => B\\n'; one.dispatchEvent(new Event('input'))"
    )
    there.sees("#panel-join .side:last-child .small", "line 2: expected `->`")


@pytest.mark.quick
def test_three_hundred_agents_cost_little(there: Page) -> None:
    """The page's own work leaves room for 60 frames a second; how many there are is the machine's matter."""
    begin(there)
    _, cost = measured(there, FASTEST, 1.0)
    assert cost["script"] < SCRIPT_LIMIT and cost["all"] < PAGE_LIMIT, cost


def test_coins_are_tossed(there: Page) -> None:
    there.put("inputs x: A\nA + A -> B + A\nA + A -> A + C\nyes B\n")
    there.sees("#panel-play .inputs", "coins are tossed")
    there.one('[aria-label="Random meetings"]').click()
    there.sees("#panel-play .said", "played by the page")


def test_who_begins_a_meeting_counts(there: Page) -> None:
    there.put("inputs x: A  y: B\nA , B -> A , A\nyes A\n")
    there.sees("#panel-play .chips", "B5")
    for pair, told in (((12, 0), "nothing changes"), ((0, 12), "A , B → A , A")):
        for agent in pair:
            there.js(
                "document.querySelector(`.agent[data-i='${arguments[0]}']`).dispatchEvent(new MouseEvent('click', {bubbles: true}))",
                agent,
            )
        there.sees("#panel-play .way li:first-child", told)
    there.sees("#panel-play .said", "played by the page")


def test_a_member_of_a_family_is_chosen(there: Page) -> None:
    there.put("family k in 2..4\ninputs x: 1\nfor i in 1..k-1\n  1 + {i} -> {i+1} + 0\nyes {k}\n")
    there.sees("#panel-play .inputs", "k=2")
    there.js(
        "const one = document.querySelector('#panel-play select'); one.value = 2; one.dispatchEvent(new"
        " Event('change'))"
    )
    there.sees("#panel-play .chips", "4")


@pytest.mark.quick
def test_a_screen_reader_finds_its_way(there: Page) -> None:
    there.put(NET)
    there.sees("#panel-play .chips", "A12")
    tree = there.browser.execute_cdp_cmd("Accessibility.getFullAXTree", {})["nodes"]
    known = {
        (node["role"]["value"], node.get("name", {}).get("value", "")) for node in tree if not node.get("ignored")
    }
    for role, name in [
        ("tab", "Play"),
        ("tablist", "Views"),
        ("textbox", "Protocol"),
        ("button", "Random meetings"),
        ("slider", "Speed"),
        ("button", "agent 0 in A, which says true"),
        ("image", "12 agents say true, 5 false"),
        ("region", "The protocol's text"),
        ("tabpanel", "Play"),
    ]:
        assert (role, name) in known or (role == "image" and ("img", name) in known), (role, name)
    assert not [
        node
        for node in tree
        if node["role"]["value"] in ("button", "tab", "slider", "textbox", "spinbutton", "combobox", "checkbox")
        and not node.get("ignored")
        and not node.get("name", {}).get("value")
    ]


@needs_program
def test_hostile_names_do_nothing(there: Page) -> None:
    scripts = there.js("return document.scripts.length")
    text = hostile_text()
    for one in (text, text.replace('leaf "<b>leaf"\n', "")):
        there.put(one)
        assert wait_for(lambda: not there.text("#faults .fault .sign.fault") and there.text("#panel-play .chips"))
        there.tab("play")
        there.one('[aria-label="Random meetings"]').click()
        there.tab("behaviour")
        there.press("behaviour", "Simulate")
        there.sees("#panel-behaviour .outcome", "meetings")
        for view, words in (("proof", "Find"), ("wrong", "Look for")):
            there.tab(view)
            there.press(view, words)
            assert wait_for(
                lambda v=view: there.text(f"#panel-{v} .outcome") != ""
                and not there.browser.find_elements("css selector", f"#panel-{v} button[disabled]")
            )
        there.tab("net")
        assert there.has("#panel-net .state")
        assert there.js("return window.hurt") is None and there.js("return Object.prototype.hurt") is None
        assert there.js("return document.scripts.length") == scripts
        assert not there.js(
            "return [...document.querySelectorAll('img, b')].some((one) => one.onerror ||"
            " one.textContent.startsWith('old'))"
        )
    assert "<script>hurt=1" in there.text("#panel-net .state text")


@needs_program
def test_hostile_names_do_nothing_in_the_page_of_explain(there: Page, tmp_path: Path) -> None:
    loaded = load(hostile_text().replace("<!--", "<!--<script>"), "x")
    bundle = bundle_to_explain(loaded)
    (tmp_path / "page.html").write_text(page(explain(loaded, bundle, "rejected leaf 0 layers no-layer 0")))
    there.browser.get(f"file://{tmp_path}/page.html")
    there.sees("#proof", "<script>hurt=1")
    assert there.js("return window.hurt") is None and there.js("return document.scripts.length") == 2
    there.sees(".verdict", "rejected leaf 0 layers no-layer 0")


@pytest.mark.quick
def test_a_script_that_is_put_in_does_nothing(there: Page) -> None:
    assert "blocked" in there.js(
        "const one = document.createElement('a'); document.body.append(one); try { one.setAttribute('onclick',"
        " 'window.hurt = 1'); one.click(); return 'done' } catch (error) { return 'blocked' }"
    )
    assert "blocked" in there.js(
        "try { document.body.insertAdjacentHTML('beforeend', '<b>x</b>'); return 'done' } catch (error) { return"
        " 'blocked' }"
    )
    assert there.js("return window.hurt") is None
    there.is_quiet = False


def test_another_site_gets_nothing(there: Page, server: Server) -> None:
    class Quiet(http.server.SimpleHTTPRequestHandler):
        def do_GET(self) -> None:
            self.send_response(200)
            self.send_header("Content-Type", "text/html")
            self.end_headers()
            self.wfile.write(b"<!doctype html><title>other</title>")

        def log_message(self, *words: Any) -> None:
            pass

    other = http.server.ThreadingHTTPServer(("127.0.0.1", 0), Quiet)
    threading.Thread(target=other.serve_forever, daemon=True).start()
    there.browser.get(f"http://127.0.0.1:{other.server_port}/")
    there.browser.set_script_timeout(20)
    ask = """const [address, key, mode, done] = arguments;
        fetch(address + "/start", {method: "POST", mode, body: "{}", headers: mode === "cors" ? {"Content-Type": "application/json", "X-Pop-Key": key} : {}})
          .then((answer) => done(answer.type + " " + answer.status), (error) => done("failed"))"""
    address = f"http://127.0.0.1:{server.port}"
    assert there.browser.execute_async_script(ask, address, server.key, "cors") == "failed"
    assert there.browser.execute_async_script(ask, address, server.key, "no-cors") in ("failed", "opaque 0")
    framed = (
        "const [address, done] = arguments; const one = document.createElement('iframe'); one.onload = () => { try {"
        " done(String(one.contentDocument && one.contentDocument.title)) } catch (error) { done('shut') } }; one.src ="
        " address; document.body.append(one)"
    )
    assert there.browser.execute_async_script(framed, address) in ("shut", "null", "")
    other.shutdown()
    there.is_quiet = False


def test_a_page_that_is_left_ends_its_job(there: Page, server: Server) -> None:
    there.put(SLOW)
    there.sees("#panel-play .chips", "A12")
    there.tab("behaviour")
    there.js(
        "document.querySelectorAll('#panel-behaviour .count-of input').forEach((one, i) => (one.value = [7000,"
        " 4000][i]))"
    )
    there.press("behaviour", "Simulate")
    there.sees("#panel-behaviour [role=status]", "meetings")
    assert wait_for(lambda: len(workers(server.process.pid)) >= 1)
    there.js("sessionStorage.clear()")
    there.browser.get("about:blank")
    assert wait_for(lambda: len(workers(server.process.pid)) <= 1)


def test_without_the_key_it_says_what_to_do(browser: Page, server: Server) -> None:
    browser.browser.get(f"http://127.0.0.1:{server.port}/")
    browser.js("sessionStorage.clear()")
    browser.browser.refresh()
    browser.sees(".cover", "open the address that the terminal shows")
    browser.complaints()


@pytest.mark.parametrize("width, height", [(390, 844), (1280, 800)])
def test_it_fits(browser: Page, server: Server, width: int, height: int) -> None:
    browser.new(server.address, True, width, height)
    browser.sees("#tour", "1 of 4")
    assert browser.js("return document.documentElement.scrollWidth") <= width
    browser.one("#tour .plain").click()
    assert not browser.one("#tour").is_displayed()
    for name in (["text"] if width < 800 else []) + ["play", "behaviour", "proof", "wrong", "net", "compile", "join"]:
        browser.tab(name)
        if name == "net":
            assert browser.has("#panel-net .state")
        assert browser.js("return document.documentElement.scrollWidth") <= width, name
        assert browser.js("return document.documentElement.scrollHeight") <= height, name
        shown = browser.one("#left" if name == "text" else f"#panel-{name}")
        assert shown.is_displayed() and shown.rect["height"] > height / 2
        # what can be pressed has a name
        assert not browser.js(
            "return [...document.querySelectorAll('button, input:not([type=file]), select')].filter((one) =>"
            " one.offsetParent && !(one.textContent.trim() || one.ariaLabel || one.labels?.[0]?.textContent.trim() ||"
            " one.title)).map((one) => one.outerHTML)"
        )


def test_the_file_is_saved_from_the_page(browser: Page, tmp_path: Path) -> None:
    path = tmp_path / "mine.pop"
    path.write_text(NET)
    own = Server(str(path))
    try:
        browser.new(own.address)
        browser.sees("#file", "mine.pop")
        browser.type("# more\n")
        browser.sees("#file", "•")
        Actions(browser.browser).key_down(Keys.CONTROL).send_keys("s").key_up(Keys.CONTROL).perform()
        browser.sees(".toast", "mine.pop is saved")
        assert path.read_text() == NET + "# more\n"
        path.write_text("# by another\n")
        browser.type("# again\n")
        browser.one("#save").click()
        browser.sees(".toast", "changed by another program")
        assert path.read_text() == "# by another\n"
    finally:
        browser.js("onbeforeunload = null")
        browser.browser.get("about:blank")
        own.close()
