"""`pop export` for other tools: PRISM, ppsim, SBML and Peregrine."""
from __future__ import annotations

from fractions import Fraction
from typing import Sequence

from ...faults import InputFault
from ...protocol.reactions import Reactions
from ...simulation.crowds import counts_of
from ...text.files import in_volume
from ...text.loaded import Loaded
from ...text.networks import Network, read_network
from ...text.reactionfile import network_text
from ..table.reading import Given
from ..usage import UsageFault
from .modelled import pace_of
from .simulate import net_title

TOOLS = ("--prism", "--ppsim", "--sbml", "--peregrine")


def handed(given: Given, tool: str, loaded: Loaded, words: Sequence[str]) -> str:
    """The text for another tool."""
    if tool == "--peregrine":
        from ...text.peregrine import peregrine_text

        if words:
            raise UsageFault("Peregrine takes a protocol without counts")
        return peregrine_text(loaded, net_title(loaded))
    counts = counts_of(loaded.net, words) if words else None
    if tool == "--prism":
        return _for_prism(given, loaded, counts)
    if counts is None:
        raise UsageFault(f"`{tool}` writes a crowd too, as in `{loaded.net.names[0]}=30`")
    if tool == "--ppsim":
        from ...chain.ppsim import ppsim_text

        return ppsim_text(loaded, net_title(loaded), counts)
    return _as_sbml(given, loaded, counts)


def _agents(loaded: Loaded, counts: Sequence[int]) -> int:
    return sum(counts) + len(loaded.net.leaves[0].helpers)


def _for_prism(given: Given, loaded: Loaded, counts: tuple[int, ...] | None) -> str:
    from ...chain.prism import prism_text

    if loaded.network is None:
        return prism_text(loaded, net_title(loaded), counts, None)
    if counts is None:
        raise UsageFault(f"a network in its own time has a volume: counts give it, as in `{loaded.net.names[0]}=30`")
    agents = _agents(loaded, counts)
    pace = pace_of(given, loaded, agents)
    assert pace.volume is not None
    inside = in_volume(loaded, agents, pace.volume)
    return prism_text(inside, net_title(loaded), counts, pace)


def _as_sbml(given: Given, loaded: Loaded, counts: tuple[int, ...]) -> str:
    from ...text.sbml import sbml_text

    network = _network(loaded)
    pace = pace_of(given, loaded, _agents(loaded, counts))
    volume = pace.volume or Fraction(_agents(loaded, counts) - 1)
    reactions = Reactions(loaded.net)
    start = {reactions.name(word): k for word, k in reactions.start(counts).items()}
    return sbml_text(network, volume, start, net_title(loaded))


def _network(loaded: Loaded) -> Network:
    """The network of an input; of a net its moves with their chances as rates."""
    if loaded.network is not None:
        return loaded.network
    if any(law.ordered for leaf in loaded.net.leaves for law in leaf.laws):
        raise InputFault(f"{loaded.name}: SBML knows no orders (`,`)")
    return read_network(network_text(loaded.net))
