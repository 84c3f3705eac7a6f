"""Help: each command has a page whose examples run; the manual page and the completions are made from the same
text."""
from __future__ import annotations

import os
import shutil
import subprocess
from pathlib import Path

import pytest

from hurleyoak.engine import program
from hurleyoak.engine.request import PROGRAM_WORDS
from hurleyoak.cli.help.completion import bash, option_words, zsh
from hurleyoak.cli.help.manual import manual
from hurleyoak.cli.help.reference import reference
from hurleyoak.cli.help.showing import overview, page_text
from hurleyoak.cli.table import OTHER, OWN, PROGRAM, WORKBENCH, Command, all_commands

from .conftest import EXAMPLES, TOP, needs_program

COLUMNS = 80
BUILD_WORDS = ("build", "--version", "--unproved")
ENDLESS_WORDS = ("serve",)  # they answer until they are interrupted: test_serve.py runs them
RT = """#!/bin/sh
case "$1" in
    version) echo kit of the test ;;
    ci) echo 'rt: pop_main proved'; mkdir crates/pop_main/out
        printf '#!/bin/sh\\nexec "%s" "$@"\\n' "$REAL" >crates/pop_main/out/pop_main; chmod +x crates/pop_main/out/pop_main ;;
    try) shift 4; exec "$REAL" "$@" ;;
esac
"""


def shell(line: str, folder: Path, **environment: str) -> "subprocess.CompletedProcess[str]":
    """Runs a line in a shell, where `pop` is the folder's or the repository's."""
    tools = folder / "tools"
    tools.mkdir(exist_ok=True)
    home = folder if (folder / "bin/pop").exists() else TOP
    (tools / "pop").write_text(f'#!/bin/sh\nexec "{home}/bin/pop" "$@"\n')
    (tools / "pop").chmod(0o755)
    if not (folder / "examples").exists():
        (folder / "examples").symlink_to(EXAMPLES)
    env = {**os.environ, "PATH": f"{tools}:{os.environ['PATH']}", **environment}
    return subprocess.run(
        ["sh", "-c", line], capture_output=True, text=True, cwd=folder, env=env, stdin=subprocess.DEVNULL, check=False
    )


def test_every_command_has_a_page_with_two_examples() -> None:
    assert [page.word for page in PROGRAM] == list(PROGRAM_WORDS)
    assert all((TOP / "hurleyoak/cli/commands" / f"{page.module}.py").exists() for page in WORKBENCH)
    for page in all_commands():
        assert len(page.examples) == 2 and page.forms and page.short, page.word
        assert all(f"pop {page.word}" in example for example in page.examples), page.word


def test_help_fits_a_terminal() -> None:
    for text in [overview(), *map(page_text, all_commands())]:
        assert max(map(len, text.splitlines())) <= COLUMNS


EXAMPLE_ROWS = [
    (page.word, example)
    for page in (*PROGRAM, *WORKBENCH, *OTHER)
    for example in page.examples
    if page.word not in (*BUILD_WORDS, *ENDLESS_WORDS)
]


@needs_program
@pytest.mark.parametrize("word, example", EXAMPLE_ROWS, ids=[row[1][:50] for row in EXAMPLE_ROWS])
def test_an_example_runs(word: str, example: str, tmp_path: Path) -> None:
    run = shell(example, tmp_path)
    assert run.returncode == program.DONE and "Traceback" not in run.stderr, run.stderr
    assert run.stdout or "-o" in example.split()


@needs_program
def test_the_examples_of_the_build_run(tmp_path: Path) -> None:
    (tmp_path / "bin").mkdir()
    shutil.copy(TOP / "bin/pop", tmp_path / "bin/pop")
    shutil.copytree(TOP / "hurleyoak", tmp_path / "hurleyoak", ignore=shutil.ignore_patterns("tests", "__pycache__"))
    (tmp_path / "crates/pop_main/src").mkdir(parents=True)
    (tmp_path / "crates.txt").write_text("pop_main:\n")
    (tmp_path / "tools").mkdir()
    (tmp_path / "tools/rt").write_text(RT)
    (tmp_path / "tools/rt").chmod(0o755)
    for page in OTHER:
        for example in page.examples if page.word in BUILD_WORDS else ():
            run = shell(example, tmp_path, POP_MAIN="", REAL=program.program_path())
            assert run.returncode == program.DONE and "Traceback" not in run.stderr, (example, run.stderr)
            assert run.stdout or page.word == "build"


@pytest.mark.parametrize("page", all_commands(), ids=[page.word for page in all_commands()])
def test_help_of_a_command(page: Command) -> None:
    words = [["help", page.word]] + ([[page.word, "--help"]] if page.word in (*PROGRAM_WORDS, *OWN) else [])
    for arguments in words:
        run = subprocess.run([str(TOP / "bin/pop"), *arguments], capture_output=True, text=True, check=False)
        assert (run.returncode, run.stdout, run.stderr) == (0, page_text(page), "")


def test_manual_and_completions_are_made_from_the_help() -> None:
    for path, text in (
        (TOP / "man/pop.1", manual()),
        (TOP / "docs/reference/commands.md", reference()),
        (TOP / "completion/pop.bash", bash()),
        (TOP / "completion/_pop", zsh()),
    ):
        assert path.read_text() == text, f"{path.name} is older than the help: make texts"


def _completed(*words: str) -> list[str]:
    line = (
        f"source '{TOP}/completion/pop.bash'; COMP_WORDS=(pop {' '.join(words)}); [ '{words[-1]}' ] ||"
        f" COMP_WORDS+=(''); COMP_CWORD={len(words)}; _pop; echo ${{COMPREPLY[@]}}"
    )
    return subprocess.run(["bash", "-c", line], capture_output=True, text=True, check=True).stdout.split()


def test_completion_for_bash() -> None:
    assert _completed("ch") == ["check"]
    assert _completed("help", "ch") == ["check"]
    assert _completed("check", "exam") == []
    for page in all_commands():
        if page.options:
            assert set(_completed(page.word, "-")) == {*option_words(page), "--help"}


@pytest.mark.skipif(shutil.which("zsh") is None, reason="zsh isn't installed: apt-get install zsh")
@pytest.mark.parametrize(
    "typed, offered",
    [
        ("pop ch", "check"),
        ("pop help si", "simulate"),
        ("pop run --w", "--workers"),
        ("pop compile x -o ", ":FILE:_files"),
    ],
)
def test_completion_for_zsh(typed: str, offered: str) -> None:
    words = typed.split(" ")
    answers = '_describe() { print -l -- "${(P@)2}"; }; _arguments() { print -l -- "$@"; }'
    run = subprocess.run(
        ["zsh", "-fc", f'{answers}; words=("$@"); CURRENT=$#; . {TOP}/completion/_pop', "zsh", *words],
        check=True,
        capture_output=True,
        text=True,
    )
    assert offered in run.stdout and not run.stderr


@needs_program
def test_install_and_uninstall(tmp_path: Path) -> None:
    prefix = tmp_path / "usr"
    words = [f"PREFIX={prefix}", f"PROGRAM={program.program_path()}"]
    environment = {**os.environ, "PATH": f"{tmp_path}:{os.environ['PATH']}"}
    (tmp_path / "rt").write_text(RT)
    (tmp_path / "rt").chmod(0o755)
    made = subprocess.run(
        ["make", "-C", str(TOP), "install", *words], capture_output=True, text=True, env=environment, check=False
    )
    assert made.returncode == 0, made.stderr
    environment.pop(program.VARIABLE, None)
    pop = str(prefix / "bin/pop")
    for arguments, wanted in (
        (["check", str(EXAMPLES / "majority/majority.pop")], "certified 2\n"),
        (["eval", "x >= y", "x=1"], "true\n"),
    ):
        assert (
            subprocess.run([pop, *arguments], capture_output=True, text=True, env=environment, check=False).stdout
            == wanted
        )
    assert subprocess.run(
        [pop, "check"],
        input=(EXAMPLES / "flock/bundle.json").read_text(),
        capture_output=True,
        text=True,
        env=environment,
        check=False,
    ).stdout.startswith("certified")
    assert subprocess.run(
        [pop, "--version"], capture_output=True, text=True, env=environment, check=False
    ).stdout.startswith("hurleyoak ")
    assert {str(p.relative_to(prefix)) for p in prefix.rglob("*") if p.is_file()} >= {
        "share/man/man1/pop.1",
        "share/bash-completion/completions/pop",
        "share/zsh/site-functions/_pop",
    }
    subprocess.run(["make", "-C", str(TOP), "uninstall", *words], capture_output=True, env=environment, check=True)
    assert not [p for p in prefix.rglob("*") if p.is_file()]
    nothing = subprocess.run(
        ["make", "-C", str(TOP), "install", f"PREFIX={prefix}", "PROGRAM=/nowhere"],
        capture_output=True,
        text=True,
        env=environment,
        check=False,
    )
    assert nothing.returncode != 0 and "bin/pop build" in nothing.stderr
