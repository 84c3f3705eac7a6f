"""The one table of commands: parser, help, manual, completions and the table in docs/ come of it."""
from __future__ import annotations

from .behaviour import BEHAVIOUR
from .other import OTHER as OTHER
from .other import STATUSES as STATUSES
from .program import PROGRAM as PROGRAM
from .protocols import WORKBENCH as PROTOCOLS
from .shape import Command as Command

WORKBENCH: tuple[Command, ...] = (*PROTOCOLS, *BEHAVIOUR)
OWN: dict[str, Command] = {command.word: command for command in WORKBENCH}


def all_commands() -> list[Command]:
    """Every command in the order of the overview."""
    return [*PROGRAM, *WORKBENCH, *OTHER]
