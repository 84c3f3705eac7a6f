"""What the tests share: the examples, compiled bundles, and the proved program."""
from __future__ import annotations

import json
import os
from functools import lru_cache
from pathlib import Path
from typing import TYPE_CHECKING, Iterator

import pytest
from hypothesis import settings

from hurleyoak.engine import program
from hurleyoak.proof.bundles import Bundle, bundle_of

from . import alarm

if TYPE_CHECKING:
    from .browsing import Page

TOP = Path(__file__).resolve().parents[2]
EXAMPLES = TOP / "examples"
COMPILED = [
    "vars x y\nx - y < 2 || x + y = 1 mod 3\n",
    "vars x y\nx + 2*y = 1 mod 4\n",
    "vars x\nx >= 64\n",
    "vars x y\n!(x >= 8) && y != 1\n",
]
# each run tries the same examples; WORKBENCH_RANDOM=1 for others
settings.register_profile("same", derandomize=True)
if not os.environ.get("WORKBENCH_RANDOM"):
    settings.load_profile("same")
# how many seeded changes are held against the program: WORKBENCH_CHANGES=2000 for the whole
CHANGES = int(os.environ.get("WORKBENCH_CHANGES", "60"))


def has_program() -> bool:
    """Whether the proved program, or one that POP_MAIN names, is there without building it."""
    named = os.environ.get(program.VARIABLE)
    return os.access(named or program.BUILT, os.X_OK)


needs_program = pytest.mark.skipif(
    not has_program(), reason="the program isn't built: bin/pop builds it, or POP_MAIN names it"
)


def example_paths() -> list[Path]:
    """Every bundle of examples/."""
    return sorted(
        path for name in ("*/bundle", "accepted/*", "rejected/*", "stable/*") for path in EXAMPLES.glob(f"{name}.json")
    )


def bundle_at(path: Path) -> Bundle:
    """The bundle of a file."""
    return bundle_of(json.loads(path.read_text()))


@lru_cache(maxsize=None)
def compiled(text: str) -> Bundle:
    """What the program compiles."""
    answer = program.ask(["compile", "--flocks"], text)
    assert answer.status == program.DONE, answer.text
    return bundle_of(json.loads(answer.text))


def pytest_runtest_setup(item: pytest.Item) -> None:
    """A test in a browser comes to its end within the time of `alarm`, or fails."""
    alarm.skip_after_slow(item)
    alarm.begin(item)


def pytest_runtest_teardown(item: pytest.Item) -> None:
    """So does what comes after it."""
    alarm.begin(item)


def pytest_runtest_logfinish() -> None:
    """The test is over."""
    alarm.end()


@pytest.fixture(scope="session")
def browser() -> "Iterator[Page]":
    """One browser for all tests of pages."""
    from .browsing import Page

    one = Page()
    yield one
    one.browser.quit()
