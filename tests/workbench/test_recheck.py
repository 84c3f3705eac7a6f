"""bin/recheck, which shares no code with the workbench, says what the workbench's reading and the program say."""
from __future__ import annotations

import copy
import importlib.machinery
import importlib.util
import json
import math
import os
import subprocess
from pathlib import Path
from types import ModuleType
from typing import Any, Callable

import pytest

from hurleyoak.engine import program
from hurleyoak.faults import InputFault
from hurleyoak.proof.bundles import Bundle, bundle_of
from hurleyoak.proof.checking import verdict
from hurleyoak.proof.tame import is_tame_bundle
from hurleyoak.protocol.nets import FormatFault
from hurleyoak.text.jsonvalue import json_value

from .changes import changed
from .conftest import CHANGES, TOP, example_paths, has_program, needs_program
from .malformed import malformed

Change = Callable[[dict[str, Any]], Any]
RECHECK = TOP / "bin" / "recheck"
POP = str(TOP / "bin" / "pop")


def loaded() -> ModuleType:
    """The script as a module."""
    loader = importlib.machinery.SourceFileLoader("recheck", str(RECHECK))
    spec = importlib.util.spec_from_loader("recheck", loader)
    assert spec is not None
    module = importlib.util.module_from_spec(spec)
    loader.exec_module(module)
    return module


SECOND = loaded()
VALUES = [json.loads(path.read_text()) for path in example_paths()]


def expected(bundle: Bundle) -> str:
    """What the workbench's own reading expects."""
    line = verdict(bundle)
    return f"{line}\ntame" if line.startswith("certified ") and is_tame_bundle(bundle) else line


def status_of(data: bytes) -> int:
    """The status with which it ends over a file."""
    try:
        line = SECOND.verdict(SECOND.read_bundle(data))
    except (SECOND.Malformed, ValueError, RecursionError):
        return program.REFUSED
    return program.REJECTED if line.startswith("rejected ") else program.DONE


def second(value: object) -> str:
    """Its line on a bundle."""
    return str(SECOND.verdict(copy.deepcopy(value)))


@pytest.mark.parametrize("path", example_paths(), ids=lambda path: f"{path.parent.name}/{path.name}")
def test_every_example(path: object) -> None:
    """Certified and rejected ones, with the bound or the place."""
    value = json.loads(str(getattr(path, "read_text")()))
    assert second(value) == expected(bundle_of(value))


def test_seeded_changes() -> None:
    """Changed bundles: the same line as the workbench's reading, ten for each that the program is asked about."""
    seen = 0
    for seed in range(10 * CHANGES):
        value = changed(VALUES[seed % len(VALUES)], seed)
        try:
            own = expected(bundle_of(value))
        except FormatFault:
            continue
        seen += 1
        assert second(value) == own, seed
    assert seen > 5 * CHANGES


@needs_program
def test_seeded_changes_by_the_program() -> None:
    """The same line as the program's."""
    for seed in range(CHANGES):
        value = changed(VALUES[seed % len(VALUES)], seed)
        text = program.check(json.dumps(value)).text.strip()
        if not text.startswith("fault"):
            assert second(value) == text, seed


SMALL = [value for value in VALUES if len(json.dumps(value)) < 3_000]
MAJORITY = json.loads((TOP / "examples" / "majority" / "bundle.json").read_text())
NO_BUNDLES: dict[str, Change] = {
    "a state below 0 in a set": lambda value: value["proof"][0].update(true=[["siphon", [-1]]]),
    "a state below 0 in a move": lambda value: value["net"]["leaves"][0]["moves"][0].__setitem__(0, -1),
    "fewer inputs than variables": lambda value: value["net"]["leaves"][0]["input"].pop(),
    "digits that aren't ASCII": lambda value: value.update(pred="-x + y < ٠"),
    "a weight that is no number": lambda value: value["proof"][0]["layers"][0]["weights"].__setitem__(0, math.nan),
    "true for 1": lambda value: value["net"]["leaves"][0]["input"].__setitem__(0, True),
    "0 for false": lambda value: value["net"]["leaves"][0]["output"].__setitem__(0, 1),
    "a state's name twice": lambda value: value["net"]["leaves"][0]["states"].__setitem__(1, "A"),
    "a predicate that is no text": lambda value: value.update(pred=5),
    "modulo 0": lambda value: value.update(pred="x = 0 mod 0"),
    "half a character": lambda value: value.update(pred="x < 1\ud800"),
    "too deep": lambda value: value.update(more=json.loads("[" * 200 + "]" * 200)),
}


@pytest.mark.parametrize("name", NO_BUNDLES)
def test_what_is_no_bundle(name: str) -> None:
    """It is refused with the program's status, and certifies nothing."""
    value = copy.deepcopy(MAJORITY)
    NO_BUNDLES[name](value)
    line = json.dumps(value)
    run = subprocess.run([RECHECK], input=line, capture_output=True, text=True, check=False)
    assert (run.returncode, run.stdout) == (program.REFUSED, ""), run
    assert run.stderr.startswith("recheck: this is no bundle: ") and run.stderr.count("\n") == 1
    if has_program():
        assert program.check(line).status == program.REFUSED


def test_malformed_bundles() -> None:
    """Refused where the workbench's reading refuses."""
    for seed in range(10 * CHANGES):
        data = malformed(SMALL[seed % len(SMALL)], seed)
        try:
            own = verdict(bundle_of(json_value(data.decode("utf-8"), "x")[0]))
            wanted = program.REJECTED if own.startswith("rejected ") else program.DONE
        except (FormatFault, InputFault, ValueError, RecursionError):
            wanted = program.REFUSED
        assert status_of(data) == wanted, (seed, data)


@pytest.mark.parametrize("value, status", [(b'"more":-0', 0), (b'"moves":[[-0', 2), (b'"input":[-0', 2)])
def test_minus_zero_is_no_whole_number(value: bytes, status: int) -> None:
    """It may stand where nothing is read, as for the program."""
    line = json.dumps({"more": 0, **MAJORITY}, separators=(",", ":")).encode()
    data = line.replace(value.replace(b"-0", b"0"), value, 1)
    assert data != line and status_of(data) == status
    if status:
        with pytest.raises((FormatFault, InputFault)):
            bundle_of(json_value(data.decode(), "x")[0])
    if has_program():
        assert program.check(data.decode()).status == status


@needs_program
def test_malformed_bundles_by_the_program() -> None:
    """The program's status, and its line where it has one on the proof."""
    for seed in range(CHANGES):
        data = malformed(SMALL[seed % len(SMALL)], seed)
        run = subprocess.run([program.program_path(), "check"], input=data, capture_output=True, check=False)
        assert status_of(data) == run.returncode, (seed, data, run.stdout)
        if run.returncode != program.REFUSED:
            assert SECOND.verdict(SECOND.read_bundle(data)) == run.stdout.decode().strip(), (seed, data)


def test_no_memory() -> None:
    """A status of its own, and no traceback."""
    limit = 40 << 20
    run = subprocess.run(
        ["/bin/sh", "-c", f'ulimit -v {limit >> 10}; exec "$0" "$1"', str(RECHECK), "/dev/stdin"],
        input=b"[" + b'"aaaaaaaaaaaa",' * 4_000_000 + b"0]",
        capture_output=True,
        check=False,
    )
    assert run.returncode == 8 and run.stderr == b"recheck: out of memory\n", run.stderr[-500:]


def test_the_command() -> None:
    """Its status says certified, rejected or no bundle."""
    for name, status in (("majority/bundle.json", 0), ("rejected/wrong-trap.json", 3), ("majority/net.json", 2)):
        run = subprocess.run([str(RECHECK), str(TOP / "examples" / name)], capture_output=True, text=True, check=False)
        assert run.returncode == status, run.stderr


@needs_program
def test_check_asks_twice(tmp_path: Path) -> None:
    """Agreement is said; where the two differ, that is said loudly, with a status of its own."""
    file = str(TOP / "examples" / "flock" / "flock.pop")
    run = subprocess.run([POP, "check", file, "--twice"], capture_output=True, text=True, check=False)
    assert (run.returncode, run.stdout) == (0, "certified 2\ntame\n") and "says the same" in run.stderr
    lying = tmp_path / "lying"
    lying.write_text("#!/bin/sh\necho certified 7\n")
    lying.chmod(0o755)
    environment = {**os.environ, "POP_MAIN": str(lying)}
    run = subprocess.run([POP, "check", file, "--twice"], capture_output=True, text=True, check=False, env=environment)
    assert run.returncode == program.DIFFERS and "THE TWO CHECKERS DIFFER" in run.stderr


def test_a_file_that_is_not_there() -> None:
    run = subprocess.run([RECHECK, "/nowhere"], capture_output=True, text=True, check=False)
    assert run.returncode == 2 and "No such file" in run.stderr and "Traceback" not in run.stderr
