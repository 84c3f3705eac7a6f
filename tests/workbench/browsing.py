"""A browser of the tests, and the page of `pop serve` in it."""
from __future__ import annotations

import shutil
from pathlib import Path
from typing import Any

import pytest

from .serving import PATIENCE, wait_for

pytest.importorskip(
    "selenium", reason="Selenium isn't installed: apt-get install python3-selenium chromium chromium-driver"
)
BROWSER, DRIVER = shutil.which("chromium"), shutil.which("chromedriver")
if not (BROWSER and DRIVER):
    pytest.skip("there is no browser: apt-get install chromium chromium-driver", allow_module_level=True)

from selenium import webdriver  # noqa: E402
from selenium.webdriver.chrome.options import Options  # noqa: E402
from selenium.webdriver.chrome.service import Service  # noqa: E402
from selenium.webdriver.common.action_chains import ActionChains  # noqa: E402
from selenium.webdriver.common.keys import Keys as Keys  # noqa: E402

Actions: Any = ActionChains
FLAGS = (
    "--headless=new",
    "--no-sandbox",
    "--disable-gpu",
    "--disable-dev-shm-usage",
    "--force-prefers-reduced-motion",
    "--disable-extensions",
    "--disable-background-networking",
    "--disable-component-update",
    "--disable-sync",
    "--no-first-run",
)
NOTHING_KEPT = "static/icon.svg"  # a file of the same origin, which asks for nothing
PHONE = 700  # pixels of width below which a page is shown as on a phone


def chromium(width: int = 1280, height: int = 800) -> Any:
    """A browser without a window, with a console whose lines are kept."""
    options: Any = Options()
    options.binary_location = str(BROWSER)
    for word in (*FLAGS, f"--window-size={width},{height}"):
        options.add_argument(word)
    options.set_capability("goog:loggingPrefs", {"browser": "ALL"})
    browser: Any = webdriver.Chrome(service=Service(str(DRIVER)), options=options)
    resize(browser, width, height)
    return browser


def resize(browser: Any, width: int, height: int) -> None:
    """Gives the page this size."""
    sizes = {"width": width, "height": height, "deviceScaleFactor": 1, "mobile": width < PHONE}
    browser.execute_cdp_cmd("Emulation.setDeviceMetricsOverride", sizes)


class Page:
    """A browser with the page."""

    def __init__(self, width: int = 1280, height: int = 800) -> None:
        self.is_quiet = True  # whether complaints in the console are faults
        self.browser: Any = chromium(width, height)

    def resize(self, width: int = 1280, height: int = 800) -> None:
        """Gives the page this size."""
        resize(self.browser, width, height)

    def leave(self) -> None:
        """Closes the page, so that it asks no server any more, and forgets its complaints."""
        self.browser.get("about:blank")
        self.complaints()

    def open(self, address: str) -> None:
        """Opens the page, and waits until it stands."""
        self.browser.get(address)
        assert wait_for(lambda: self.js("return document.body.classList.contains('ready')"))

    def js(self, text: str, *values: Any) -> Any:
        """Asks the browser."""
        return self.browser.execute_script(text, *values)

    def one(self, path: str) -> Any:
        """The element of a CSS path."""
        return self.browser.find_element("css selector", path)

    def text(self, path: str) -> str:
        """What stands in an element, also where it isn't shown."""
        return str(
            self.js(
                "return [...document.querySelectorAll(arguments[0])].map((one) => one.textContent).join(' | ')", path
            )
        )

    def sees(self, path: str, text: str, seconds: float = PATIENCE) -> bool:
        """Whether a text comes to stand in an element."""
        found = wait_for(lambda: text in self.text(path), seconds)
        assert found, f"{path}: {self.text(path)[:400]!r} has no {text!r}"
        return found

    def has(self, path: str, seconds: float = PATIENCE) -> bool:
        """Whether an element comes to be there."""
        return wait_for(lambda: bool(self.browser.find_elements("css selector", path)), seconds)

    def put(self, text: str) -> None:
        """Puts a text into the editor, as pasted, and waits until it was read."""
        self.js("document.querySelector('.CodeMirror').CodeMirror.setValue(arguments[0])", text)
        assert wait_for(lambda: self.js("return document.body.dataset.read === document.body.dataset.version"))

    def type(self, text: str) -> None:
        """Types into the editor."""
        self.js(
            "const code = document.querySelector('.CodeMirror').CodeMirror; code.focus();"
            " code.setCursor(code.lineCount(), 0)"
        )
        Actions(self.browser).send_keys(text).perform()

    def new(self, address: str, tour: bool = False, width: int = 1280, height: int = 800) -> None:
        """The page as one who comes to it for the first time finds it, or one who has left the tour."""
        self.resize(width, height)
        self.browser.get(address.partition("#")[0] + NOTHING_KEPT)
        self.js(
            "sessionStorage.clear(); localStorage.clear(); if (!arguments[0]) localStorage.setItem('pop-tour', '1')",
            tour,
        )
        self.complaints()
        self.is_quiet = True
        self.open(address)

    def tab(self, name: str) -> None:
        """Goes to a view."""
        self.one(f"#tab-{name}").click()

    def press(self, view: str, text: str) -> None:
        """Presses a button of a view by what it says."""
        path = f'//*[@id="panel-{view}"]//button[contains(., "{text}") and not(@hidden) and not(@disabled)]'
        assert wait_for(lambda: any(one.is_displayed() for one in self.browser.find_elements("xpath", path))), text
        next(one for one in self.browser.find_elements("xpath", path) if one.is_displayed()).click()

    def complaints(self) -> list[str]:
        """What the browser's console has of faults."""
        return [line["message"] for line in self.browser.get_log("browser") if line["level"] == "SEVERE"]
