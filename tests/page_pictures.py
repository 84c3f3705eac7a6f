"""Makes the pictures of the page in docs/pictures, in chromium: python3 tests/page_pictures.py [FOLDER [NAME..]]"""
from __future__ import annotations

import sys
from io import BytesIO
from pathlib import Path
from typing import Any

from PIL import Image

sys.path.insert(0, str(Path(__file__).resolve().parents[1]))

from tests.workbench.browsing import Page  # noqa: E402
from tests.workbench.conftest import EXAMPLES, TOP  # noqa: E402
from tests.workbench.serving import Server, wait_for  # noqa: E402

PHONE = (390, 844)
COLOURS = 96
MAJORITY = (EXAMPLES / "majority/majority.pop").read_text()
MEETINGS = 60  # of Play


def keep(picture: bytes, path: Path) -> None:
    """Writes a picture in few colours, which takes a third of the room."""
    image: Any = Image.open(BytesIO(picture))
    image.convert("RGB").quantize(COLOURS, dither=0).save(path, optimize=True)


def shade(page: Page, word: str) -> None:
    """Light or dark, as the system asks for."""
    features = [{"name": "prefers-color-scheme", "value": word}, {"name": "prefers-reduced-motion", "value": "reduce"}]
    page.browser.execute_cdp_cmd("Emulation.setEmulatedMedia", {"features": features})


def certified(page: Page) -> None:
    """Majority with its proof."""
    page.put(MAJORITY)
    page.sees("#verdict", "certified 2 by the program")


def play(page: Page) -> None:
    """A crowd on its way."""
    certified(page)
    page.tab("play")
    page.js("document.querySelector('.speedbox input').value = 60")
    page.one('[aria-label="Random meetings"]').click()
    assert wait_for(lambda: int(page.text("#panel-play .count").split(" ")[0].replace(",", "")) >= MEETINGS)
    page.js("document.querySelector('[aria-label=\"Stop\"]')?.click()")
    page.sees("#panel-play .said", "played by the program")


def proof(page: Page) -> None:
    """The certificate as a tree."""
    certified(page)
    page.tab("proof")
    page.sees("#panel-proof .badge.certified", "certified by the program")


def behaviour(page: Page) -> None:
    """A run by counts."""
    certified(page)
    page.tab("behaviour")
    page.js(
        "document.querySelectorAll('#panel-behaviour .count-of input').forEach((one, i) => (one.value = [450,"
        " 550][i]))"
    )
    page.press("behaviour", "Simulate")
    page.sees("#panel-behaviour .badge.measured", "measured, not proved")


def net(page: Page) -> None:
    """The net with the crowd of Play in it, and the proof's layers."""
    certified(page)
    page.tab("net")
    assert page.has("#panel-net .state")
    page.one("#panel-net input[type=checkbox]").click()


PICTURES: list[tuple[str, Any, str, tuple[int, int]]] = [
    ("page-proof", proof, "light", (1280, 800)),
    ("page-play", play, "light", (1280, 800)),
    ("page-dark", behaviour, "dark", (1280, 800)),
    ("page-phone", play, "light", PHONE),
    ("page-net", net, "light", (1280, 800)),
]


def main() -> None:
    """Makes all."""
    folder = Path(sys.argv[1]) if len(sys.argv) > 1 else TOP / "docs/pictures"
    wanted = sys.argv[2:]
    folder.mkdir(parents=True, exist_ok=True)
    server, page = Server(), Page()
    try:
        for name, shown, word, (width, height) in PICTURES:
            if wanted and name not in wanted:
                continue
            shade(page, word)
            page.new(server.address, False, width, height)
            shown(page)
            # (which program answered on this machine says nothing to a reader)
            page.js("document.querySelector('#foot span').style.visibility = 'hidden'")
            keep(page.browser.get_screenshot_as_png(), folder / f"{name}.png")
            print(folder / f"{name}.png")
    finally:
        page.browser.quit()
        server.close()


if __name__ == "__main__":
    main()
