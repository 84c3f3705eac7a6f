"""Through pipes, files and closed ends the program answers as `run_tool` does in memory."""
from __future__ import annotations

import os

import pytest

from hurleyoak.engine import program

from . import edge
from .conftest import needs_program

SEED = 82
# WORKBENCH_EDGE=10000 for the whole: that takes half an hour
COUNT = int(os.environ.get("WORKBENCH_EDGE", "100"))
IN_MEMORY = int(os.environ.get("WORKBENCH_EDGE", "20"))  # a fifth of a second for each
EVERY = 10  # one case of so many is tried with its standard output closed
WRITE_FAULT = 7


@needs_program
def test_pipes_and_files_give_one_answer_which_is_that_of_memory() -> None:
    named = os.environ.get(program.VARIABLE) or str(program.BUILT)
    answered = []
    for number, case in enumerate(edge.cases(SEED, COUNT)):
        answer = edge.piped(named, case)
        assert edge.filed(named, case) == answer, case
        assert edge.trickled(named, case) == answer, case
        if number % EVERY == 0:
            assert edge.closed(named, case) == (WRITE_FAULT if answer[1] else answer[0]), case
        answered.append((case, answer))
    if not os.access(edge.ORACLE, os.X_OK):
        pytest.skip("row_tests isn't built: `rt ci` builds it, or ROW_TESTS names it")
    assert edge.in_memory(answered[:IN_MEMORY]) == f"{IN_MEMORY} rows were tried\n"


def test_each_command_that_needs_no_threads_has_cases() -> None:
    assert set(edge.known_cases()) == {*edge.COMMANDS, edge.OTHER}
