"""`find FILE --save`: what was written meanwhile stays, line ends are kept, and so are owner and mode."""
from __future__ import annotations

import os
import stat
from pathlib import Path

import pytest

from hurleyoak.cli.commands.find import free_name, save
from hurleyoak.proof.bundles import Bundle
from hurleyoak.statuses import DONE, WRITE_FAULT
from hurleyoak.text.files import load, read_text
from hurleyoak.text.loaded import strict_bundle
from hurleyoak.text.saving import with_proof
from hurleyoak.writing import write_text

from .conftest import EXAMPLES

NET = "# mine\ninputs    x: I  y: S\nS + I -> I + I  # spreads\nyes       I\ncomputes  x >= 1\n"


@pytest.fixture(name="bundle")
def _bundle() -> Bundle:
    """A proof of NET."""
    return strict_bundle(load((EXAMPLES / "epidemic" / "epidemic.pop").read_text(), "x"))


def _of_net(bundle: Bundle) -> Bundle:
    """The same proof for the net as NET has it."""
    net = load(NET, "x").net
    return Bundle(net, bundle.pred, bundle.proof)


def test_what_was_written_meanwhile_stays(tmp_path: Path, bundle: Bundle, capsys: pytest.CaptureFixture[str]) -> None:
    """The proof goes into a file beside it, with the text that was read."""
    path = tmp_path / "mine.pop"
    path.write_text(NET)
    original = read_text(str(path))
    edited = NET + "# an evening's work\n"
    path.write_text(edited)
    proof = _of_net(bundle)
    for name in ("mine.found.pop", "mine.found2.pop"):
        assert save(str(path), original, proof) == WRITE_FAULT
        assert path.read_text() == edited
        assert (tmp_path / name).read_text() == with_proof(NET, proof)
        assert name in capsys.readouterr().err
    path.write_text(original)
    assert save(str(path), original, proof) == DONE and path.read_text() == with_proof(NET, proof)
    path.unlink()
    assert save(str(path), original, proof) == WRITE_FAULT and not path.exists()
    assert free_name(str(path)).endswith("mine.found4.pop")


@pytest.mark.parametrize("mark", ["", "\ufeff"])
def test_line_ends_are_kept(tmp_path: Path, bundle: Bundle, mark: str) -> None:
    path = tmp_path / "mine.pop"
    proof = _of_net(bundle)
    path.write_bytes((mark + NET.replace("\n", "\r\n")).encode())
    assert save(str(path), read_text(str(path)), proof) == DONE
    written = path.read_bytes().decode()
    assert written == mark + with_proof(NET, proof).replace("\n", "\r\n")
    mixed = NET.replace("# spreads\n", "# spreads\r\n")
    assert with_proof(mixed, proof) == with_proof(NET, proof).replace("# spreads\n", "# spreads\r\n")


def test_owner_and_mode_are_kept(tmp_path: Path) -> None:
    """Also where root writes the file of another."""
    path = tmp_path / "mine.pop"
    path.write_text(NET)
    path.chmod(0o640)
    if os.getuid() == 0:
        os.chown(path, 1234, 2345)
    before = path.stat()
    write_text(str(path), NET * 2)
    after = path.stat()
    assert (after.st_uid, after.st_gid, stat.S_IMODE(after.st_mode)) == (before.st_uid, before.st_gid, 0o640)
    assert path.read_text() == NET * 2
