"""A net as a Python script for ppsim: each ordered pair of states with what becomes of it, and by which chance."""
from __future__ import annotations

from fractions import Fraction
from pprint import pformat
from typing import Any, Sequence

from ..protocol.reactions import Reactions
from ..text.loaded import Loaded
from .rules import Rules

WIDTH = 110


def rules_of(loaded: Loaded) -> dict[tuple[str, str], Any]:
    """For the initiator and the responder what they become; of several ways each with its chance."""
    found = Rules(loaded.net, Reactions(loaded.net).start([1] * len(loaded.net.names)))
    reactions, name = found.reactions, found.reactions.name
    out: dict[tuple[str, str], Any] = {}
    for one in found.words:
        for two in found.words:
            options = reactions.options(one, two)
            whole = sum(share for _, share in options)
            made: dict[tuple[str, str], Fraction] = {}
            for (r, s), share in options:
                both = name(r), name(s)
                made[both] = made.get(both, Fraction(0)) + Fraction(share, whole)
            if made and set(made) != {(name(one), name(two))}:
                certain = len(made) == 1
                out[name(one), name(two)] = next(iter(made)) if certain else {k: float(v) for k, v in made.items()}
    return out


def ppsim_text(loaded: Loaded, title: str, counts: Sequence[int]) -> str:
    """The script, which runs the crowd to its end."""
    start = Reactions(loaded.net)
    init = {start.name(word): k for word, k in start.start(counts).items()}
    return f'''"""{title}, for ppsim (bin/pop export --ppsim)."""
import ppsim

rules = {pformat(rules_of(loaded), width=WIDTH)}

init = {pformat(init, width=WIDTH)}

if __name__ == "__main__":
    simulation = ppsim.Simulation(init, rules, transition_order="asymmetric")
    simulation.run()
    print(simulation.config_dict)
'''
