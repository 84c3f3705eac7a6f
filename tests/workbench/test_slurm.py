"""The recipe for Slurm in docs/guide/behaviour.md, on one node: bin/test --long starts it."""
from __future__ import annotations

import os
import re
from pathlib import Path

import pytest

from .conftest import EXAMPLES, TOP
from .slurm import Slurm, can_run
from .test_commands import pop

pytestmark = pytest.mark.skipif(
    not (os.environ.get("WORKBENCH_SLURM") and can_run()),
    reason="Slurm is started with --long, by root: apt-get install slurm-wlm munge",
)
EPIDEMIC = str(EXAMPLES / "epidemic/epidemic.pop")


def recipe() -> str:
    """The command of the document."""
    text = (TOP / "docs/guide/behaviour.md").read_text()
    found = re.search(r"^\$ (sbatch .*)$", text, re.MULTILINE)
    assert found
    return found[1]


def test_an_array_does_the_jobs_of_a_sweep(tmp_path: Path) -> None:
    words = ["sweep", EPIDEMIC, "x=1", "y=5..20*2", "--runs", "4"]
    (tmp_path / "jobs").write_text(pop(*words, "--list", "--chunk", "3").stdout)
    (tmp_path / "results").mkdir()
    slurm = Slurm(tmp_path)
    try:
        for _ in range(2):  # a second try overwrites nothing
            assert "Submitted" in slurm.ask("sh", "-c", recipe().replace("1-700", "1-4"))
            assert slurm.finish(120)
        assert len([*(tmp_path / "results").iterdir()]) == 8
    finally:
        slurm.end()
    gathered = pop(*words, "--gather", str(tmp_path / "results"))
    assert gathered.returncode == 0 and gathered.stdout == pop(*words).stdout
