"""The workbench as a library: protocols, what the program says of them, and how their crowds behave.

    import hurleyoak

    majority = hurleyoak.load("examples/majority/majority.pop")
    majority.check()                       # Verdict: certified 2
    majority.simulate(x=30, y=10).output   # True
    hurleyoak.compile("x - y < 1000").check()

No call builds the program: where it isn't there, NotBuilt is raised. Agents and meetings are numbers, times are
meetings divided by agents, seconds are of the clock. Inputs that can't be used raise InputFault, with a text for their
author.
"""
from __future__ import annotations

from ..faults import InputFault as InputFault
from .protocols import Protocol as Protocol
from .ready import NotBuilt as NotBuilt
from .calls import check as check
from .calls import compile as compile
from .calls import explain as explain
from .calls import find as find
from .calls import load as load
from .calls import refute as refute
from .calls import simulate as simulate
from .calls import sweep as sweep
from .results import Found as Found
from .results import Refuted as Refuted
from .results import Run as Run
from .results import Runs as Runs
from .results import Table as Table
from .results import Verdict as Verdict
