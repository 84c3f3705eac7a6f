"""`make install` and `make uninstall` replace and remove what they installed, and nothing else."""
from __future__ import annotations

import os
import subprocess
from pathlib import Path

import pytest

from .conftest import TOP

OTHERS = "#!/bin/sh\necho another program\n"


@pytest.fixture
def stand_in(tmp_path: Path) -> Path:
    """A program that stands in for the proved one."""
    made = tmp_path / "stand-in"
    made.write_text("#!/bin/sh\n")
    made.chmod(0o755)
    return made


def install(prefix: Path, program: Path, *words: str) -> "subprocess.CompletedProcess[str]":
    """Runs bin/install."""
    environment = {**os.environ, "PREFIX": str(prefix), "POP_MAIN": str(program)}
    environment.pop("DESTDIR", None)
    return subprocess.run(
        [str(TOP / "bin/install"), *words], capture_output=True, text=True, env=environment, check=False
    )


def files(folder: Path) -> list[str]:
    """The files and links below a folder."""
    return sorted(str(p.relative_to(folder)) for p in folder.rglob("*") if p.is_file() or p.is_symlink())


@pytest.mark.parametrize("target", ["clone", "nothing", "program"])
def test_no_link_is_followed(tmp_path: Path, stand_in: Path, target: str) -> None:
    """A link at bin/pop stands in the way: what it leads to stays as it is."""
    prefix, program = tmp_path / "usr", tmp_path / "program"
    program.write_text(OTHERS)
    to = {"clone": TOP / "bin/pop", "nothing": tmp_path / "nothing", "program": program}[target]
    before = to.read_bytes() if to.exists() else None
    (prefix / "bin").mkdir(parents=True)
    (prefix / "bin/pop").symlink_to(to)
    run = install(prefix, stand_in)
    assert run.returncode == 1 and f"{prefix}/bin/pop, a link, stands in the way" in run.stderr
    assert files(prefix) == ["bin/pop"] and (prefix / "bin/pop").is_symlink()
    assert (to.read_bytes() if to.exists() else None) == before
    install(prefix, stand_in, "--remove")
    assert files(prefix) == ["bin/pop"]


@pytest.mark.parametrize("path", ["bin/pop", "share/man/man1/pop.1", "lib/hurleyoak/docs/README.md"])
def test_another_s_file_stays(tmp_path: Path, stand_in: Path, path: str) -> None:
    """It is named, and neither install nor uninstall touches it."""
    other = tmp_path / "usr" / path
    other.parent.mkdir(parents=True)
    other.write_text(OTHERS)
    run = install(tmp_path / "usr", stand_in)
    assert run.returncode == 1 and "stands in the way: pop didn't install it" in run.stderr
    install(tmp_path / "usr", stand_in, "--remove")
    assert files(tmp_path / "usr") == [path] and other.read_text() == OTHERS


def test_a_folder_that_is_a_link(tmp_path: Path, stand_in: Path) -> None:
    """The folder of the installation is no link: nothing behind one is removed."""
    (tmp_path / "mine").mkdir()
    (tmp_path / "mine/INSTALLED").write_text("")
    (tmp_path / "usr/lib").mkdir(parents=True)
    (tmp_path / "usr/lib/hurleyoak").symlink_to(tmp_path / "mine")
    assert install(tmp_path / "usr", stand_in).returncode == 1
    install(tmp_path / "usr", stand_in, "--remove")
    assert files(tmp_path / "mine") == ["INSTALLED"]


def test_again_and_away(tmp_path: Path, stand_in: Path) -> None:
    """An installation is replaced whole; what an author put into it, or changed, stays and is told."""
    prefix = tmp_path / "usr"
    assert install(prefix, stand_in).returncode == 0
    first = files(prefix)
    assert {Path(name).suffix for name in first if "/show/web/" in name} == {".css", ".html", ".js", ".svg"}
    gone = prefix / "lib/hurleyoak/docs/README.md"
    gone.unlink()
    (prefix / "lib/hurleyoak/hurleyoak/__pycache__").mkdir()
    (prefix / "lib/hurleyoak/hurleyoak/__pycache__/limits.pyc").write_text("")
    assert install(prefix, stand_in).returncode == 0
    assert files(prefix) == first
    changed, mine = prefix / "share/man/man1/pop.1", prefix / "lib/hurleyoak/examples/mine.pop"
    changed.write_text("changed")
    mine.write_text("mine")
    again = install(prefix, stand_in)
    assert again.returncode == 1 and f"{changed} stands in the way" in again.stderr
    run = install(prefix, stand_in, "--remove")
    assert run.returncode == 1 and f"{changed} is left" in run.stderr
    assert files(prefix) == ["lib/hurleyoak/examples/mine.pop", "share/man/man1/pop.1"]


def test_nothing_is_there_to_remove(tmp_path: Path, stand_in: Path) -> None:
    """It is said, and is no fault."""
    run = install(tmp_path / "usr", stand_in, "--remove")
    assert run.returncode == 0 and "nothing of pop is installed" in run.stderr
