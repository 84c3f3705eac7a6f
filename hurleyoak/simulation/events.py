"""What happens to a crowd from outside at a time: `add 10 X`, `remove 10 percent of X`, `turn 5 X into Y`."""
from __future__ import annotations

import re
from dataclasses import dataclass
from random import Random

from ..faults import AskFault, InputFault
from ..limits import AGENT_LEAST
from ..protocol.nets import Net
from ..protocol.reactions import Reactions, Word
from .simulation import AGENT_LIMIT

FORMS = "`add 10 X`, `remove 10 X`, `remove 10 percent of X`, `remove 10 percent` or `turn 5 X into Y`"
_FORM = re.compile(
    r"(add|remove|turn)\s+([0-9]{1,10}(?:\.[0-9]{1,6})?)\s*(percent|%)?(?:\s+of)?(?:\s+(\S+?))?(?:\s+into\s+(\S+))?"
)
WHOLE = 100
SAMPLE_LIMIT = 1_000_000  # agents that are drawn one by one

Crowd = dict[Word, int]


@dataclass(frozen=True)
class Event:
    """Agents that come, go, or turn into others. `number` counts them, or per cent of them. `words` is whom it may
    take, None for all; those that come or are turned become `into`."""

    time: float
    text: str
    number: float
    is_share: bool
    words: frozenset[Word] | None
    into: Word | None
    is_new: bool = False

    def happen(self, crowd: Crowd, random: Random) -> Crowd:
        """The crowd afterwards; whom it takes is drawn without order."""
        after = dict(crowd)
        if self.is_new:
            assert self.into is not None
            after[self.into] = after.get(self.into, 0) + int(self.number)
            return _checked(after, self.text)
        there = {word: k for word, k in sorted(crowd.items()) if self.words is None or word in self.words}
        most = sum(there.values())
        wanted = round(most * self.number / WHOLE) if self.is_share else int(self.number)
        if wanted > most:
            raise InputFault(f"`{self.text}` at {self.time:g}: there are {most} such agents")
        for word, k in drawn(there, wanted, random).items():
            after[word] -= k
            if self.into is not None:
                after[self.into] = after.get(self.into, 0) + k
        return _checked({word: k for word, k in after.items() if k}, self.text)


def _checked(crowd: Crowd, text: str) -> Crowd:
    agents = sum(crowd.values())
    if not AGENT_LEAST <= agents <= AGENT_LIMIT:
        raise InputFault(f"`{text}` leaves {agents} agents: a crowd has {AGENT_LEAST} to {AGENT_LIMIT:,}")
    return crowd


def drawn(crowd: Crowd, sample: int, random: Random) -> Crowd:
    """So many agents of a crowd, all such samples equally likely."""
    total = sum(crowd.values())
    if 2 * sample > total:
        left = drawn(crowd, total - sample, random)
        return {word: k - left.get(word, 0) for word, k in crowd.items()}
    if sample > SAMPLE_LIMIT:
        return _drawn_by_numpy(crowd, sample, random)
    taken, places = dict.fromkeys(crowd, 0), iter(sorted(random.sample(range(total), sample)))
    at = next(places, total)
    high = 0
    for word, k in crowd.items():
        high += k
        while at < high:
            taken[word] += 1
            at = next(places, total)
    return taken


def _drawn_by_numpy(crowd: Crowd, sample: int, random: Random) -> Crowd:
    """The same by hypergeometric draws."""
    from numpy.random import PCG64, Generator

    if sum(crowd.values()) >= AGENT_LIMIT:
        raise InputFault(f"so many agents are drawn from fewer than {AGENT_LIMIT:,}")
    generator = Generator(PCG64(random.getrandbits(64)))
    taken = generator.multivariate_hypergeometric([*crowd.values()], sample, method="marginals")
    return dict(zip(crowd, taken.tolist()))


def word_of(net: Net, name: str) -> Word:
    """The word with this name, as a run prints it; InputFault where there is none."""
    parts = name.split("/")
    if len(parts) == len(net.leaves) and all(part in leaf.states for part, leaf in zip(parts, net.leaves)):
        return tuple(leaf.states.index(part) for part, leaf in zip(parts, net.leaves))
    shown = ", ".join(net.leaves[0].states)
    told = f"it has {shown}" if len(net.leaves) == 1 else "of several leaves it is as in `A/b`"
    raise InputFault(f"`{name}` is no state of the net; {told}")


def event_of(net: Net, time: float, text: str) -> Event:
    """The event of a text; a fault where it is none."""
    found = _FORM.fullmatch(text.strip())
    if found is None:
        raise AskFault(f"`{text}` is no event: it is {FORMS}")
    verb, number, percent, name, into = found.groups()
    is_share, value = percent is not None, float(number)
    shape = (name is not None, into is not None)
    fits = {"add": shape == (True, False) and not is_share, "turn": shape[1], "remove": not shape[1]}[verb]
    if not fits or (is_share and value > WHOLE) or (not is_share and value != int(value)):
        raise AskFault(f"`{text}` is no event: it is {FORMS}")
    if verb == "add":
        return Event(time, text, value, False, None, word_of(net, name), True)
    words = None if name is None else frozenset([word_of(net, name)])
    return Event(time, text, value, is_share, words, None if into is None else word_of(net, into))


def crowd_of(net: Net, names: dict[str, int]) -> Crowd:
    """A crowd by the names of its words; InputFault where it is none."""
    crowd: Crowd = {}
    for name, k in names.items():
        if k:
            word = word_of(net, name)
            crowd[word] = crowd.get(word, 0) + k
    return _checked(crowd, " ".join(f"{name}={k}" for name, k in names.items()))


def named(reactions: Reactions, crowd: Crowd) -> dict[str, int]:
    """A crowd by the names of its words."""
    return {reactions.name(word): k for word, k in sorted(crowd.items())}
