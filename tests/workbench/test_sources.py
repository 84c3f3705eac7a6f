"""Whether the program is that of the sources: by the checksums that its build noted, and never by the times of files."""
from __future__ import annotations

import os
from pathlib import Path

import pytest

from hurleyoak.building.commands import program_told
from hurleyoak.engine import program, sources
from hurleyoak.engine.claims import claimed
from hurleyoak.engine.program import NoProgram
from hurleyoak.engine.sources import Origin, origin, record

from .conftest import EXAMPLES
from .test_answers import pop

SCRIPT = "#!/bin/sh\necho certified 2\n"


@pytest.fixture(name="built")
def _built(tmp_path: Path, monkeypatch: pytest.MonkeyPatch) -> Path:
    """A program whose build was noted, and sources of a line."""
    built = tmp_path / "pop_main"
    built.write_text("#!/bin/sh\necho the real one\n")
    built.chmod(0o755)
    (tmp_path / "crates").mkdir()
    (tmp_path / "crates" / "lib.rt").write_text("fn main() {}\n")
    monkeypatch.delenv(program.VARIABLE, raising=False)
    for name, path in (("BUILT", built), ("RECORD", tmp_path / "pop_main.built"), ("CRATES", tmp_path / "crates")):
        monkeypatch.setattr(sources, name, path)
    monkeypatch.setattr(sources, "TOP", tmp_path)
    monkeypatch.setattr(sources, "LIST", tmp_path / "crates.txt")
    monkeypatch.setattr("hurleyoak.building.commands.BUILT", built)
    monkeypatch.setattr("hurleyoak.building.commands.STANDING", tmp_path / "none")
    record(sources.checksum())
    return built


def test_a_script_in_its_place_is_not_that_of_the_sources(built: Path) -> None:
    assert origin() is Origin.SAME and program_told() == "the program is that of the sources"
    when = built.stat()
    built.write_text(SCRIPT.ljust(when.st_size - 1, "#") + "\n")
    os.utime(built, ns=(when.st_atime_ns, when.st_mtime_ns))
    assert origin() is Origin.UNKNOWN and "isn't known from which sources" in program_told()


def test_sources_that_changed_and_a_note_that_is_gone(built: Path) -> None:
    (built.parent / "crates" / "lib.rt").write_text("fn main() { }\n")
    os.utime(built.parent / "crates" / "lib.rt", (0, 0))
    assert origin() is Origin.OLDER and "older than the sources" in program_told()
    for noted in ("", "program\n", "program x\nsources y\n", "\x00\n"):
        sources.RECORD.write_text(noted)
        assert origin() is Origin.UNKNOWN
    sources.RECORD.unlink()
    assert origin() is Origin.UNKNOWN and not sources.is_of_sources()


@pytest.mark.parametrize("said", ["", "certified", "certified two", "words: check", "certified 2\nand more", "true"])
def test_a_status_alone_certifies_nothing(said: str, tmp_path: Path, monkeypatch: pytest.MonkeyPatch) -> None:
    """What ends with status 0 and prints no claim isn't the program."""
    assert not claimed(said)
    liar = tmp_path / "liar"
    liar.write_text(f"#!/bin/sh\ncat >/dev/null\nprintf '%s\\n' '{said}'\n")
    liar.chmod(0o755)
    monkeypatch.setenv(program.VARIABLE, str(liar))
    with pytest.raises(NoProgram):
        program.check("{}")
    for name in ("majority.pop", "bundle.json"):
        run = pop("check", str(EXAMPLES / "majority" / name), POP_MAIN=str(liar))
        assert run.returncode == program.NOT_BUILT and "isn't the program" in run.stderr, run.stderr
        assert run.stdout == ""


@pytest.mark.parametrize(
    "text, kind, bound, condition, further",
    [
        ("certified 2\n", "certified", 2, "", ()),
        ("stable 12\n", "stable", 12, "", ()),
        ("certified 2\ntame\n", "certified", 2, "", ("tame",)),
        ("if x != y: certified 2\n", "certified", 2, "x != y", ()),
        ("if !(x - y < 1 && -x + y < 1): stable 2\ntame\n", "stable", 2, "!(x - y < 1 && -x + y < 1)", ("tame",)),
        ("certified 02\n", "nothing", 0, "", ()),
        ("certified -1\n", "nothing", 0, "", ()),
        ("certified ٢\n", "nothing", 0, "", ()),
        ("certified 2 \n", "nothing", 0, "", ()),
        ("certified 2\n\n", "nothing", 0, "", ()),
        ("certified 2\ntame\ntame\n", "nothing", 0, "", ()),
        ("certified 2\nwild\n", "nothing", 0, "", ()),
        ("certified nan\n", "nothing", 0, "", ()),
        ("if x: if y: certified 2\n", "nothing", 0, "", ()),
        ("rejected predicate\n", "nothing", 0, "", ()),
        ("uncertified 2\n", "nothing", 0, "", ()),
    ],
)
def test_a_claim_is_read_whole(text: str, kind: str, bound: int, condition: str, further: tuple[str, ...]) -> None:
    found = claimed(text)
    assert (str(found.kind), found.bound, found.condition, found.further) == (kind, bound, condition, further)
    assert found.is_certified == (kind == "certified" and not condition)


def test_nothing_else_looks_at_the_start_of_a_line() -> None:
    """`claims` alone knows how the program says it."""
    folder = Path(sources.__file__).parents[1]
    for path in folder.rglob("*.py"):
        text = path.read_text(encoding="utf-8")
        for word in ("certified", "stable"):
            assert f'"{word} "' not in text and f"'{word} " not in text, path
    for path in (folder / "show" / "web").glob("*.js"):
        text = path.read_text(encoding="utf-8")
        assert 'line.startsWith("certified' not in text and 'line.startsWith("stable' not in text, path
