"""Goals as they are told: what is reached, why it stays, and what goes on changing."""
from __future__ import annotations

from dataclasses import dataclass, field

from ..proof.bundles import Goal
from ..proof.checking import layer_fault
from ..proof.ends import kept, sets_of
from ..proof.names import Names
from ..proof.staying import SetFault, Stay, agents_before, escapes, sets_fault, stay_of
from ..protocol.nets import Leaf
from .layers import ToldLayer, told_layer
from .reasons import few, layer_lacks

DEAD = "none of the moves in the layers is possible"


@dataclass
class ToldSet:
    """A set of states by names, why it stays, and which moves go on in it."""

    states: str
    stays: list[str]
    goes_on: str


@dataclass
class ToldGoal:
    """What is told of a goal. `fault` has the program's words where its layers or sets are refused, `lacks` says
    why."""

    value: bool
    names: Names
    goal: Goal
    layers: list[ToldLayer]
    reached: list[str] = field(default_factory=list)
    sets: list[ToldSet] = field(default_factory=list)
    fault: str = ""
    lacks: list[str] = field(default_factory=list)

    def lines(self) -> list[str]:
        """Sentences on what is reached, why it stays and what goes on; none where layers or sets are refused."""
        if self.fault:
            return []
        lines = list(self.reached)
        for one in self.sets:
            lines += [f"{one.states} stays: {one.stays[0]}", *one.stays[1:], f"in it {one.goes_on}"]
        return lines


def told_goal(names: Names, leaf: Leaf, value: bool, goal: Goal) -> ToldGoal:
    """What there is to say of a goal but for its tree."""
    told = ToldGoal(value, names, goal, [told_layer(names, leaf, layer) for layer in goal.layers])
    broken = layer_fault(kept(leaf, goal.listed), goal.layers)
    wrong = None if broken else sets_fault(leaf, value, goal)
    if broken:
        told.fault, told.lacks = broken.words(), layer_lacks(names, leaf, goal.layers, broken)
    elif wrong:
        told.fault, told.lacks = wrong.words(), set_lacks(names, leaf, value, goal, wrong)
    else:
        sets = sets_of(leaf, value, goal)
        told.sets = [_set(names, leaf, goal, frozenset(states)) for states in sets]
        told.reached = _reached(goal, [one.states for one in told.sets])
    return told


def _reached(goal: Goal, sets: list[str]) -> list[str]:
    where = f"all agents are in {sets[0]}" if len(sets) == 1 else f"all agents are in one of {', '.join(sets)}"
    if not goal.listed:
        return [f"from the start on, {where}"]
    steps = f"at most {goal.bound} step{'' if goal.bound == 1 else 's'} for each agent"
    return [f"reached by {steps}: {DEAD}", f"there {where}"]


def _set(names: Names, leaf: Leaf, goal: Goal, states: frozenset[int]) -> ToldSet:
    stay = stay_of(leaf, goal.listed, sorted(states))
    out = escapes(leaf, states)
    dead = frozenset(out) if stay is not Stay.SETTLED else goal.listed
    going = [t for t in leaf.active if states.issuperset(leaf.moves[t][:2]) and t not in dead]
    moves = few([f"`{names.move(t)}`" for t in going])
    goes_on = f"these may go on for ever: {moves}" if going else "nothing goes on between its agents"
    return ToldSet(names.braces(sorted(states)), _why(names, stay, out), goes_on)


def _why(names: Names, stay: Stay | None, out: list[int]) -> list[str]:
    if stay is Stay.CLOSED:
        return ["no move of two of its agents leads out of it"]
    if stay is Stay.GUARDED:
        moves = few([f"`{names.move(t)}`" for t in out])
        many = "these are" if len(out) > 1 else "this one is"
        return [f"only {moves} would lead out", f"{many} in the layers, so dead by then, and no other move wakes one"]
    return [f"{DEAD}, and no other move of two of its agents wakes one"]


def set_lacks(names: Names, leaf: Leaf, value: bool, goal: Goal, fault: SetFault) -> list[str]:
    """What is wrong with a set, in sentences."""
    text = names.braces(sets_of(leaf, value, goal)[fault.number])
    if fault.why == "output":
        return [f"{names.state(fault.at)} of the set {text} doesn't output {str(value).lower()}"]
    move = f"move {fault.at}, `{names.move(fault.at)}`"
    if fault.why == "leaves":
        return [
            f"{move}, leads out of the set {text}, and is in no layer",
            "put it into a layer, or leave its states out of the set",
        ]
    before = agents_before(leaf, fault.at, fault.other)
    after = [*leaf.moves[fault.at][2:], *before[2:]]
    woken = f"`{names.move(fault.other)}`"
    return [
        f"{move}, makes move {fault.other}, {woken}, possible again, which leads out of the set {text}",
        f"before it the agents {', '.join(map(names.state, before))} are there, and no move among them leads out",
        f"after it there are {', '.join(map(names.state, after))}, and {woken} is possible",
    ]
