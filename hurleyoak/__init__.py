"""The workbench: reads, writes, explains and finds what the proved program certifies.

Nothing here is proved, and nothing here decides: a verdict comes from the program. `import hurleyoak` gives the
library: `load`, `Protocol`, `check`, `compile`, `find`, `refute`, `simulate`, `sweep`, `explain`, and the faults
`NotBuilt` and `InputFault`; docs/reference/library.md describes them.
"""
from __future__ import annotations

from importlib import import_module
from typing import TYPE_CHECKING, Any

if TYPE_CHECKING:
    from .faults import InputFault as InputFault
    from .library import Found as Found
    from .library import NotBuilt as NotBuilt
    from .library import Protocol as Protocol
    from .library import Refuted as Refuted
    from .library import Run as Run
    from .library import Runs as Runs
    from .library import Table as Table
    from .library import Verdict as Verdict
    from .library import check as check
    from .library import compile as compile
    from .library import explain as explain
    from .library import find as find
    from .library import load as load
    from .library import refute as refute
    from .library import simulate as simulate
    from .library import sweep as sweep

# (the command line starts without what only the library needs)
_LIBRARY = (
    "Found",
    "NotBuilt",
    "Protocol",
    "Refuted",
    "Run",
    "Runs",
    "Table",
    "Verdict",
    "check",
    "explain",
    "find",
    "load",
    "refute",
    "sweep",
)

__all__ = [*_LIBRARY, "InputFault", "compile", "simulate"]


def __dir__() -> list[str]:
    """The library's names, for completion."""
    return sorted(__all__)


def __getattr__(name: str) -> Any:
    if name == "InputFault":
        return import_module(".faults", __name__).InputFault
    if name in (*_LIBRARY, "compile", "simulate"):
        return getattr(import_module(".library", __name__), name)
    raise AttributeError(f"module {__name__!r} has no attribute {name!r}")
