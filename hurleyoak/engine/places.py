"""Where the program and its parts lie, in a checkout and where it was installed."""
from __future__ import annotations

from pathlib import Path

TOP = Path(__file__).resolve().parents[2]
BUILT = TOP / "crates" / "pop_main" / "out" / "pop_main"
KEPT = TOP / "out" / "pop"
STANDING = KEPT / "standing"
BY_SCRIPT = TOP / "bin" / "pop"
KERNEL = TOP / "crates" / "pop_kernel" / "out" / "pop_kernel"
VARIABLE = "POP_MAIN"
KERNEL_VARIABLE = "POP_KERNEL"
