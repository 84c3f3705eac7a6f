"""Graphs on which agents meet: `ring`, `star`, `grid 5x4`, `random 3`, or a file with an edge on each line."""
from __future__ import annotations

import re
from dataclasses import dataclass
from math import cos, pi, sin
from typing import Any, Iterable

from ..faults import AskFault, InputFault

RING, STAR, GRID, RANDOM = "ring", "star", "grid", "random"
FORMS = "`ring`, `star`, `grid 5x4`, `random 3` or a file with an edge on each line"
AGENT_LIMIT = 1_000_000
EDGE_LIMIT = 4_000_000
TRIES = 100  # graphs that are drawn until one holds together
LEAST_DEGREE = 3  # of a random graph; with 2 it is a ring
DRAWN_LIMIT = 5_000  # agents, of which a picture still shows something
LAYOUT_SEED = 1
_GRID = re.compile(r"grid\s+([0-9]{1,7})x([0-9]{1,7})")
_RANDOM = re.compile(r"random\s+([0-9]{1,4})")

Edge = tuple[int, int]
Place = tuple[float, float]


@dataclass(frozen=True)
class Graph:
    """Agents by numbers from 0 on, and who meets whom. `text` is how it was asked for; `width` is of a grid, and `names`
    are those of a file."""

    text: str
    agents: int
    edges: tuple[Edge, ...]
    width: int = 0
    names: tuple[str, ...] = ()

    @property
    def parts(self) -> int:
        """How many parts it has that nothing joins."""
        above = list(range(self.agents))

        def top(one: int) -> int:
            while above[one] != one:
                above[one] = above[above[one]]
                one = above[one]
            return one

        for u, v in self.edges:
            above[top(u)] = top(v)
        return sum(top(one) == one for one in range(self.agents))

    def told(self) -> str:
        """The graph in words, and what a certificate has to do with it."""
        parts = self.parts
        apart = "" if parts == 1 else f" in {parts:,} parts, between which nobody meets,"
        edges = f"{len(self.edges):,} edge{'' if len(self.edges) == 1 else 's'}"
        return (
            f"graph {self.text}: {edges}{apart} among {self.agents:,} agents; a certificate speaks of the complete"
            " graph, and not of this one"
        )

    def places(self) -> list[Place]:
        """Where a picture has the agents."""
        if self.width:
            return [(at % self.width, -(at // self.width)) for at in range(self.agents)]
        if self.text in (RING, STAR):
            centre = [(0.0, 0.0)] if self.text == STAR else []
            around = self.agents - len(centre)
            return centre + [(sin(2 * pi * at / around), cos(2 * pi * at / around)) for at in range(around)]
        if self.agents > DRAWN_LIMIT:
            raise InputFault(f"a picture of a graph shows at most {DRAWN_LIMIT:,} agents")
        graph = networkx().Graph()
        graph.add_nodes_from(range(self.agents))
        graph.add_edges_from(self.edges)
        found = networkx().spring_layout(graph, seed=LAYOUT_SEED)
        return [(float(found[at][0]), float(found[at][1])) for at in range(self.agents)]


def networkx() -> Any:
    """The module for graphs, or an InputFault that says what to install."""
    try:
        import networkx as module
    except ImportError:
        raise InputFault("this graph needs networkx: apt-get install python3-networkx") from None
    return module


def is_by_name(text: str) -> bool:
    """Whether a graph is named, and not a file."""
    return text.split(" ")[0] in (RING, STAR, GRID, RANDOM)


def graph_of(text: str, agents: int, seed: int) -> Graph:
    """The graph of a text for so many agents; a random one is drawn from the seed."""
    if agents > AGENT_LIMIT:
        raise InputFault(f"a graph has at most {AGENT_LIMIT:,} agents")
    if found := _GRID.fullmatch(text):
        return _grid(int(found[1]), int(found[2]), agents)
    if found := _RANDOM.fullmatch(text):
        return _random(int(found[1]), agents, seed)
    if text == RING:
        return Graph(text, agents, tuple((at, (at + 1) % agents) for at in range(agents if agents > 2 else 1)))
    if text == STAR:
        return Graph(text, agents, tuple((0, at) for at in range(1, agents)))
    if text.split(" ")[0] in (GRID, RANDOM):
        raise AskFault(f"`{text}` is no graph: it is {FORMS}")
    return _named(text, agents)


def _grid(width: int, height: int, agents: int) -> Graph:
    if width * height != agents:
        raise InputFault(f"a grid {width}x{height} has {width * height:,} agents, and the crowd has {agents:,}")
    beside = [(at, at + 1) for at in range(agents) if (at + 1) % width]
    below = [(at, at + width) for at in range(agents - width)]
    return Graph(f"{GRID} {width}x{height}", agents, tuple(beside + below), width)


def _random(degree: int, agents: int, seed: int) -> Graph:
    """Each agent has so many neighbours; drawn until it holds together."""
    if not LEAST_DEGREE <= degree < agents or degree * agents % 2 or degree * agents > 2 * EDGE_LIMIT:
        raise InputFault(
            f"`random {degree}` is no graph of {agents:,} agents: each has so many neighbours, from {LEAST_DEGREE} on"
            " and fewer than there are agents, and their sum is even"
        )
    for at in range(TRIES):
        drawn = networkx().random_regular_graph(degree, agents, seed=seed + at)
        made = Graph(f"{RANDOM} {degree}", agents, tuple(sorted((min(e), max(e)) for e in drawn.edges)))
        if made.parts == 1:
            return made
    raise InputFault(f"none of {TRIES} random graphs of {agents:,} agents holds together")


def _named(path: str, agents: int) -> Graph:
    from ..text.files import read_text

    try:
        text = read_text(path)
    except InputFault as fault:
        raise InputFault(f"{fault}; a graph is {FORMS}") from None
    names: dict[str, int] = {}
    edges: list[Edge] = []
    for number, line in enumerate(text.splitlines(), 1):
        words = line.partition("#")[0].split()
        if not words:
            continue
        if len(words) != 2 or words[0] == words[1]:
            raise InputFault(f"{path}:{number}: an edge is two names of agents, found `{line.strip()[:60]}`")
        edges.append((names.setdefault(words[0], len(names)), names.setdefault(words[1], len(names))))
    return checked(path, tuple(names), edges, agents)


def checked(text: str, names: tuple[str, ...], edges: Iterable[Edge], agents: int) -> Graph:
    """The graph of some edges, each of which counts once; InputFault where it isn't one of so many agents."""
    once = sorted({(min(u, v), max(u, v)) for u, v in edges})
    if len(names) != agents:
        raise InputFault(f"the graph {text} has {len(names):,} agents, and the crowd has {agents:,}")
    if not once or len(once) > EDGE_LIMIT:
        raise InputFault(f"the graph {text} has {len(once):,} edges: it takes 1 to {EDGE_LIMIT:,}")
    return Graph(text, agents, tuple(once), 0, names)


def graph_given(given: Any, agents: int, seed: int) -> Graph:
    """The graph of a text, or of a graph by networkx."""
    if isinstance(given, str):
        return graph_of(given, agents, seed)
    numbers = {node: at for at, node in enumerate(given.nodes)}
    edges = [(numbers[u], numbers[v]) for u, v in given.edges if u != v]
    return checked("of networkx", tuple(map(str, numbers)), edges, agents)
