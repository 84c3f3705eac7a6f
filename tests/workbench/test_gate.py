"""`bin/test` fetches what its checks need, and names what it skipped."""
from __future__ import annotations

import shutil
import subprocess
from pathlib import Path

from .conftest import TOP

TOOLS = ("sh", "dirname", "mktemp", "rm", "tail", "timeout", "sed", "awk", "tee", "grep", "cat")


def run(tmp_path: Path, body: str, top: Path = TOP) -> str:
    """What the functions of `bin/test` print, on a machine that has nothing but these tools."""
    for name in TOOLS:
        found = shutil.which(name)
        assert found, name
        (tmp_path / name).symlink_to(found)
    for name, said in (("id", "echo 0"), ("apt-get", f'echo "$@" >>"{tmp_path}/asked"; [ "$1" = update ]')):
        (tmp_path / name).write_text(f"#!/bin/sh\n{said}\n")
        (tmp_path / name).chmod(0o755)
    script = (TOP / "bin/test").read_text().split("\nown=\n")[0] + "\n" + body
    return subprocess.run(
        ["/bin/sh", "-c", script, str(top / "bin/test")],
        env={"PATH": str(tmp_path)},
        capture_output=True,
        text=True,
        check=True,
    ).stdout


def test_what_is_missing_is_fetched(tmp_path: Path) -> None:
    """Shells and browsers too; where it doesn't come that is said."""
    told = run(tmp_path, "fetch")
    asked = (tmp_path / "asked").read_text().split()
    assert {"zsh", "fish", "firefox-esr", "chromium-driver", "graphviz", "parallel", "shellcheck"} <= set(asked)
    assert told.startswith("note    not all packages came")


def test_what_was_skipped_is_named(tmp_path: Path) -> None:
    """By its file and its reason, and once more at the end."""
    log = "".join(
        f"SKIPPED [{many}] tests/workbench/{place}: {why}\n"
        for many, place, why in (
            (2, "test_help.py:131", "no zsh"),
            (1, "test_help.py:140", "no zsh"),
            (1, "a.py", "b"),
        )
    )
    told = run(tmp_path, f'cat >"$work/log" <<\'END\'\n{log}END\ncount_skipped; skip x y; cat "$work/skipped"')
    lines = told.splitlines()
    assert set(lines) == {"skipped 3 of test_help.py: no zsh", "skipped 1 of a.py: b", "skipped x: y"}
    assert len(lines) == 6


def test_the_program_that_the_gate_built_is_noted(tmp_path: Path) -> None:
    """With the checksum of the sources before the gate: what changes meanwhile makes the program an older one."""
    top = tmp_path / "top"
    shutil.copytree(TOP / "hurleyoak", top / "hurleyoak", ignore=shutil.ignore_patterns("__pycache__", "web"))
    for name, text in (
        ("crates/pop_main/out/pop_main", "#!/bin/sh\n"),
        ("crates/pop_main/lib.rt", "a"),
        ("bin/test", ""),
    ):
        (top / name).parent.mkdir(parents=True, exist_ok=True)
        (top / name).write_text(text)
        (top / name).chmod(0o755)
    ask = "\"$python\" -c 'from hurleyoak.engine.sources import origin; print(origin().name)'"
    body = f'{ask}; before=$(sources_now); note_program "$before"; {ask}; echo b >crates/pop_main/lib.rt; {ask};'
    body += f'now=$(sources_now); echo c >crates/pop_main/lib.rt; note_program "$now"; {ask}; note_program ""'
    told = run(tmp_path, body, top).splitlines()
    assert told[:4] == ["UNKNOWN", "SAME", "OLDER", "OLDER"]
    assert told[4:] == ["note    from which sources the program was built isn't noted"]
