"""`export --coq`: what the file for Coq says, and what is refused before anything is written. Whether Coq accepts it is
for tests/coq.py."""
from __future__ import annotations

import os
import re
import subprocess
from pathlib import Path

import pytest

from hurleyoak.building import coq
from hurleyoak.engine import program
from hurleyoak.proof.bundles import Bundle
from hurleyoak.protocol.nets import Leaf, Net
from hurleyoak.statuses import NO_MEMORY, NOT_BUILT
from hurleyoak.text.coqfile import READABLE, Said, coq_file, said

from .conftest import EXAMPLES, TOP, bundle_at, example_paths, needs_program

POP = str(TOP / "bin" / "pop")
MAJORITY = EXAMPLES / "majority" / "bundle.json"
HOSTILE = ['"', "(*", "*)", '(*")', "(*)", "**)", "*", "(", '"*)"', "中 *)", "a\nb*)", "\x1b(*", "\udcff*)"]


def export(*words: str, text: str = "") -> subprocess.CompletedProcess[str]:
    """A run of the command."""
    return subprocess.run([POP, "export", *words], input=text, capture_output=True, text=True, check=False)


def texts_in(file: str) -> str:
    """The text of the bundle, put together from the file's strings."""
    body = file.split("flat_map bytes_of [\n", 1)[1].split("]%text.", 1)[0]
    return "".join(piece[1:-1].replace('""', '"') for piece in body.split(";\n"))


@pytest.mark.parametrize("name", HOSTILE)
def test_no_name_ends_a_comment_or_begins_a_string(name: str) -> None:
    comment = f"(* {said(name)}, {said(name)} *)"
    assert comment.count("(*") == comment.count("*)") == 1 and '"' not in comment


@pytest.mark.parametrize("path", example_paths(), ids=str)
def test_the_file_has_the_bundle_s_text_and_terms(path: Path) -> None:
    bundle = bundle_at(path)
    file = coq_file(bundle, "a bundle", Said("stable" if bundle.has_goals else "certified", 7))
    assert texts_in(file) == bundle.line()
    assert file.count("Move ") == sum(len(leaf.moves) for leaf in bundle.net.leaves)
    assert len(re.findall(r"^Definition leaf_\d+ ", file, re.M)) == len(bundle.net.leaves)
    claim = "stable" if bundle.has_goals else "certified"
    assert f"Theorem certificate : {claim} 7 the_net the_predicate." in file


def test_names_that_steer_coq_stay_in_their_comments_and_strings() -> None:
    bundle = bundle_at(MAJORITY)
    (leaf,) = bundle.net.leaves
    odd = Leaf(('"', "(*", "*)", '"*)"'), leaf.moves, leaf.inputs, leaf.outputs)
    net = Net(bundle.net.names, (odd,), bundle.net.combine)
    file = coq_file(Bundle(net, bundle.pred, bundle.proof), 'a "(* name', Said("certified", 2))
    outside = re.sub(r'"(?:[^"]|"")*"', "", re.sub(r"(?m)^\(\* .* \*\)$", "", file))
    assert "(*" not in outside and "*)" not in outside and texts_in(file).count('\\"') == 3


def test_a_long_net_has_no_term() -> None:
    bundle = bundle_at(MAJORITY)
    (leaf,) = bundle.net.leaves
    long = Leaf(leaf.states, leaf.moves + ((0, 0, 0, 0),) * READABLE, leaf.inputs, leaf.outputs)
    file = coq_file(Bundle(Net(bundle.net.names, (long,), (0,)), bundle.pred, bundle.proof), "x", Said("certified", 2))
    assert "Move " not in file and file.index("Definition the_bundle") < file.index("net_in the_bundle")


def theorems(file: str) -> dict[str, str]:
    """The names of a file's theorems, and what they claim."""
    return dict(re.findall(r"^Theorem (\w+) : (\w+)", file, re.M))


def test_theorems_on_random_meetings_are_there_where_they_hold() -> None:
    majority, double = bundle_at(MAJORITY), bundle_at(EXAMPLES / "accepted" / "two-moves.json")
    tame = theorems(coq_file(majority, "x", Said("certified", 2, True)))
    assert tame["at_random"] == "computes_almost_surely" and tame["soon"] == "computes_in_cubic_time"
    assert "soon" not in theorems(coq_file(majority, "x", Said("certified", 2)))
    assert theorems(coq_file(majority, "x", Said("stable", 2)))["at_random"] == "stable_almost_surely"
    file = coq_file(double, "x", Said("certified", 2, True))
    assert "at_random" not in theorems(file) and "two moves for the same two states" in file
    assert "Definition all_theorems := (certificate, soon, as_written)." in file


@needs_program
def test_the_file_is_of_valid_bundles_alone(tmp_path: Path) -> None:
    good = export("--coq", str(EXAMPLES / "majority" / "majority.pop"))
    assert good.returncode == program.DONE and "certified 2 the_net" in good.stdout and not good.stderr
    assert ("soon" in theorems(good.stdout)) == program.check(bundle_at(MAJORITY).line()).claim.is_tame
    written = tmp_path / "Wrong.v"
    bad = export("--coq", str(EXAMPLES / "rejected" / "wrong-trap.json"), "-o", str(written))
    assert bad.returncode == program.REJECTED and not bad.stdout
    assert bad.stderr.startswith("pop: rejected leaf 0 false 5 not-closed\n")
    assert not written.exists()
    assert export("--coq", str(MAJORITY), "-o", str(written)).stdout == ""
    assert "Theorem certificate : certified 2" in written.read_text()
    assert export(str(MAJORITY)).returncode == program.USAGE
    assert export("--coq", str(EXAMPLES / "majority" / "net.json")).returncode == program.REFUSED


def test_a_file_that_memory_is_not_enough_for_is_named_with_its_size(monkeypatch: pytest.MonkeyPatch) -> None:
    monkeypatch.setattr(coq, "free_bytes", lambda: 1_000_000_000)
    coq.look_at_size(500_000)
    with pytest.raises(coq.Refused, match="the file has 5,000,000 bytes") as refused:
        coq.look_at_size(5_000_000)
    assert refused.value.status == NO_MEMORY


def test_without_coq_it_says_how_to_install_it(monkeypatch: pytest.MonkeyPatch) -> None:
    monkeypatch.setenv("PATH", "/nowhere")
    with pytest.raises(coq.Refused, match="apt-get install coq") as refused:
        coq.accepted("", lambda told: None, False)
    assert refused.value.status == NOT_BUILT


@pytest.mark.parametrize(
    "faults, status, told",
    [
        ('Error: The term "eq_refl" has type "true = true"', 5, "COQ REFUSES THE BUNDLE"),
        ("Error: Syntax error", 5, "Coq refuses the file"),
        ("Killed", 8, "accepted nothing"),
    ],
)
def test_what_coq_refuses_is_a_sentence(
    faults: str, status: int, told: str, monkeypatch: pytest.MonkeyPatch, tmp_path: Path
) -> None:
    (tmp_path / "coqc").write_text(f"#!/bin/sh\necho '{faults}' >&2\nexit 1\n")
    os.chmod(tmp_path / "coqc", 0o755)
    monkeypatch.setenv("PATH", f"{tmp_path}:{os.environ['PATH']}")
    monkeypatch.setattr(coq, "built_library", lambda told: tmp_path)
    with pytest.raises(coq.Refused) as refused:
        coq.accepted("", lambda told: None, False)
    assert refused.value.status == status and told in refused.value.lines[0]
