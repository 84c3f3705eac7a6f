"""No input gives a traceback: changed files of the examples, odd words and closed streams, over all commands.

FUZZ=20000 in the environment tries that many cases in place of 200 (`bin/test --long` does).
"""
from __future__ import annotations

import json
import os
import subprocess
from pathlib import Path

import pytest

from .conftest import TOP

CASES = int(os.environ.get("FUZZ", "200"))
PARTS = 4
SEED = 63
SECONDS_EACH = 2.0


@pytest.mark.parametrize("part", range(PARTS))
def test_no_case_gives_a_traceback(part: int, tmp_path: Path) -> None:
    pytest.importorskip("scipy")
    count = CASES // PARTS
    environment = {**os.environ, "POP_MAIN": os.environ.get("POP_MAIN") or "/bin/cat"}
    words = ["/usr/bin/python3", "-m", "tests.workbench.fuzzing", str(SEED + part), str(count), str(tmp_path)]
    run = subprocess.run(
        words, cwd=TOP, env=environment, capture_output=True, text=True, timeout=60 + SECONDS_EACH * count, check=False
    )
    found = [json.loads(line) for line in (tmp_path / "found").read_text().splitlines()]
    assert not run.returncode and found and found[-1] == {"done": count}, (run.stderr[-2000:], found[-1:])
    assert len(found) == 1, json.dumps(found[0], indent=1)[:4000]
