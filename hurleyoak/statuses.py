"""Exit statuses: those of the program, and the workbench's own."""
from __future__ import annotations

DONE, USAGE, REFUSED, REJECTED, UNDECIDED, DIFFERS, READ_FAULT, WRITE_FAULT, NO_MEMORY, NOT_BUILT = range(10)
