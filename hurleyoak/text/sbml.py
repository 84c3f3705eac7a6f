"""Reaction networks in SBML, written and read by libsbml.

Amounts are counts of agents, and a kinetic law is of mass action: `k * A * B / cell`, `k * A * (A - 1) / 2 / cell`,
`k * A`. What a network has beside its reactions (`inputs`, `yes`) stands in an annotation. Of a file from elsewhere a
law is read whatever its form, if its value is that of mass action: it is computed in fractions at several counts.
"""
from __future__ import annotations

import re
from fractions import Fraction
from typing import Any, Callable

from ..faults import InputFault
from .given import READ_AS
from .networks import MEETING, TERM, Network, Reaction

LEVEL, VERSION = 3, 1
SPACE = "urn:hurleyoak:pop"
CELL = "cell"
POINTS = ((5, 7), (11, 3), (2, 13))  # counts at which a law is looked at
_LINES = re.compile(r"<(?:\w+:)?lines[^>]*>(.*?)</(?:\w+:)?lines>", re.DOTALL)

Values = dict[str, Fraction]


def libsbml() -> Any:
    """The library, or an InputFault that says what to install."""
    try:
        import libsbml as module
    except ImportError:
        raise InputFault("SBML needs libsbml: apt-get install python3-sbml5") from None
    return module


def is_sbml(text: str) -> bool:
    """Whether a text is SBML."""
    return text.lstrip()[:1] == "<" and "<sbml" in text[:2000]


def sbml_text(network: Network, volume: Fraction, start: dict[str, int], name: str) -> str:
    """The file of a network in a volume, with the agents at the start."""
    sbml = libsbml()
    document = sbml.SBMLDocument(LEVEL, VERSION)
    model = document.createModel()
    model.setId("network")
    model.setName(name)
    cell = model.createCompartment()
    cell.setId(CELL)
    cell.setConstant(True)
    cell.setSize(float(volume))
    cell.setSpatialDimensions(3.0)
    ids = _ids(network.species)
    for species, its in ids.items():
        one = model.createSpecies()
        one.setId(its)
        one.setName(species)
        one.setCompartment(CELL)
        one.setInitialAmount(float(start.get(species, 0)))
        one.setHasOnlySubstanceUnits(True)
        one.setBoundaryCondition(False)
        one.setConstant(False)
    for number, reaction in enumerate(network.reactions):
        _put(model, reaction, f"r{number}", f"k{number}", ids)
    lines = "\n".join(line for line in network.lines if line.strip())
    if lines:
        escaped = lines.replace("&", "&amp;").replace("<", "&lt;")
        model.setAnnotation(f'<annotation><pop:lines xmlns:pop="{SPACE}">{escaped}</pop:lines></annotation>')
    made: str = sbml.writeSBMLToString(document)
    return made


def _ids(names: list[str]) -> dict[str, str]:
    """An identifier for each species."""
    out: dict[str, str] = {}
    for name in names:
        plain = re.sub(r"[^A-Za-z0-9_]", "_", name)
        while plain in out.values() or plain == CELL or re.fullmatch(r"[kr][0-9]+", plain):
            plain += "_"
        out[name] = plain
    return out


def _put(model: Any, reaction: Reaction, its: str, rate: str, ids: dict[str, str]) -> None:
    constant = model.createParameter()
    constant.setId(rate)
    constant.setConstant(True)
    constant.setValue(float(reaction.rate))
    made = model.createReaction()
    made.setId(its)
    made.setReversible(False)
    made.setFast(False)
    for side, create in ((reaction.before, made.createReactant), (reaction.after, made.createProduct)):
        for species in dict.fromkeys(side):
            part = create()
            part.setSpecies(ids[species])
            part.setStoichiometry(float(side.count(species)))
            part.setConstant(True)
    names = [ids[species] for species in reaction.before]
    if len(names) < MEETING:
        formula = f"{rate} * {names[0]}"
    elif names[0] == names[1]:
        formula = f"{rate} * {names[0]} * ({names[0]} - 1) / 2 / {CELL}"
    else:
        formula = f"{rate} * {names[0]} * {names[1]} / {CELL}"
    made.createKineticLaw().setMath(libsbml().parseL3Formula(formula))


def network_text_of(text: str, name: str) -> tuple[str, list[str]]:
    """The `.crn` text of a file in SBML, and what it says beside that: the volume and the start."""
    sbml = libsbml()
    document = sbml.readSBMLFromString(text)
    faults = [document.getError(at) for at in range(document.getNumErrors())]
    grave = [fault for fault in faults if fault.getSeverity() >= sbml.LIBSBML_SEV_ERROR]
    if grave:
        raise InputFault(f"{name}: libsbml reads no SBML in it: {' '.join(grave[0].getMessage().split())}")
    model = document.getModel()
    if model is None or model.getNumRules() or model.getNumEvents() or model.getNumCompartments() > 1:
        raise InputFault(f"{name}: of SBML reactions in one compartment are read, without rules and events")
    return _Reader(model, name).text()


def _exact(value: float) -> Fraction:
    return Fraction(repr(float(value)))


class _Reader:
    """Reads a model."""

    def __init__(self, model: Any, name: str) -> None:
        self.model, self.name = model, name
        compartment = model.getCompartment(0)
        self.cell = compartment.getId() if compartment else CELL
        self.volume = _exact(compartment.getSize()) if compartment and compartment.isSetSize() else Fraction(1)
        self.species = [model.getSpecies(at) for at in range(model.getNumSpecies())]
        self.names = self._names()
        self.values = {
            p.getId(): _exact(p.getValue()) for p in map(model.getParameter, range(model.getNumParameters()))
        }

    def _names(self) -> dict[str, str]:
        """What each species is called: by its name if that is one, and no other's."""
        out: dict[str, str] = {}
        for one in self.species:
            name = one.getName()
            fits = TERM.fullmatch(name) is not None and not name[:1].isdigit() and name not in out.values()
            out[one.getId()] = name if fits else one.getId()
        return out

    def text(self) -> tuple[str, list[str]]:
        """The text, and what is said of it."""
        reactions = [self._line(self.model.getReaction(at)) for at in range(self.model.getNumReactions())]
        found = _LINES.search(self.model.getAnnotationString() or "")
        kept = found[1].replace("&lt;", "<").replace("&amp;", "&").split("\n") if found else []
        amounts = {self.names[one.getId()]: self._amount(one) for one in self.species}
        start = " ".join(f"{name}={k}" for name, k in amounts.items() if k)
        told = [f"the compartment {READ_AS}: `--volume {float(self.volume):g}`"]
        told += [f"the amounts at its start {READ_AS}: `{start}`"] if start else []
        return "\n".join([*reactions, *kept]) + "\n", told

    def _amount(self, one: Any) -> Fraction | int:
        amount = _exact(one.getInitialAmount()) if one.isSetInitialAmount() else Fraction(0)
        if one.isSetInitialConcentration():
            amount = _exact(one.getInitialConcentration()) * self.volume
        return int(amount) if amount.denominator == 1 else amount

    def _side(self, count: int, part: Callable[[int], Any]) -> list[str]:
        names: list[str] = []
        for at in range(count):
            one = part(at)
            number = one.getStoichiometry()
            if number != int(number):
                raise InputFault(f"{self.name}: a stoichiometry is {number}, and agents are whole")
            names += [one.getSpecies()] * int(number)
        return names

    def _line(self, reaction: Any) -> str:
        """A reaction of the network, with its rate in a volume."""
        its = reaction.getId()
        if reaction.getReversible():
            raise InputFault(f"{self.name}: `{its}` goes both ways: two reactions have a law each")
        before = self._side(reaction.getNumReactants(), reaction.getReactant)
        after = self._side(reaction.getNumProducts(), reaction.getProduct)
        besides = [reaction.getModifier(at).getSpecies() for at in range(reaction.getNumModifiers())]
        before, after = before + besides, after + besides
        law = reaction.getKineticLaw()
        if law is None or law.getMath() is None or not 0 < len(before) <= MEETING or len(after) != len(before):
            raise InputFault(
                f"{self.name}: `{its}` is no reaction of agents with a law: one or two become as many, and none come or"
                " go"
            )
        own = {p.getId(): _exact(p.getValue()) for p in map(law.getParameter, range(law.getNumParameters()))}
        rate = self._rate(its, law.getMath(), before, {**self.values, **own})
        sides = [" + ".join(self.names[one] for one in side) for side in (before, after)]
        return f"{sides[0]} -> {sides[1]} : {_rate_text(rate)}"

    def _rate(self, its: str, math: Any, before: list[str], values: Values) -> Fraction:
        """The rate of mass action that a law has at all counts; the square of a count stands for its pairs too."""
        pairs: list[Callable[[int, int], Fraction]] = [lambda a, b: Fraction(a * b)]
        if len(before) < MEETING:
            pairs = [lambda a, b: Fraction(a)]
        elif before[0] == before[1]:
            pairs = [lambda a, b: Fraction(a * (a - 1), 2), lambda a, b: Fraction(a * a, 2)]
        for form in pairs:
            found = {self._at(its, math, before, values, a, b) / form(a, b) for a, b in POINTS}
            if len(found) == 1 and (rate := found.pop()) > 0:
                return rate * (self.volume if len(before) == MEETING else 1)
        raise InputFault(f"{self.name}: the law of `{its}` isn't one of mass action")

    def _at(self, its: str, math: Any, before: list[str], values: Values, a: int, b: int) -> Fraction:
        """The value of a law where the reactants have these counts, and all others are absent."""
        known = {**values, self.cell: self.volume}
        for one in self.species:
            count = a if one.getId() == before[0] else b if one.getId() == before[-1] else 0
            known[one.getId()] = Fraction(count) / (1 if one.getHasOnlySubstanceUnits() else self.volume)
        return self._value(its, math, known)

    def _value(self, its: str, node: Any, known: Values) -> Fraction:
        """The value of a formula of sums, products, quotients and powers."""
        sbml = libsbml()
        kind = node.getType()
        if node.isNumber():
            return Fraction(node.getInteger()) if node.isInteger() else _exact(node.getValue())
        if kind == sbml.AST_NAME and node.getName() in known:
            return known[node.getName()]
        parts = [self._value(its, node.getChild(at), known) for at in range(node.getNumChildren())]
        if kind == sbml.AST_PLUS:
            return sum(parts, Fraction(0))
        if kind == sbml.AST_TIMES:
            product = Fraction(1)
            for part in parts:
                product *= part
            return product
        if kind == sbml.AST_MINUS:
            return -parts[0] if len(parts) == 1 else parts[0] - parts[1]
        if kind == sbml.AST_DIVIDE and parts[1]:
            return parts[0] / parts[1]
        if kind in (sbml.AST_POWER, sbml.AST_FUNCTION_POWER) and parts[1].denominator == 1 and abs(parts[1]) < 10:
            return Fraction(parts[0] ** int(parts[1]))
        raise InputFault(f"{self.name}: the law of `{its}` has a part that isn't read: {sbml.formulaToL3String(node)}")


def _rate_text(rate: Fraction) -> str:
    """A rate as a network has it: a decimal number where that is the same."""
    short = f"{float(rate):.15g}"
    return short if Fraction(short) == rate else f"{rate.numerator}/{rate.denominator}"
