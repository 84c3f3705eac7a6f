"""Reads whatever a person has: a net or bundle in JSON, on one line or over many, or a `.pop` file."""
from __future__ import annotations

import sys
from fractions import Fraction
from functools import lru_cache
from typing import Any

from ..faults import InputFault
from ..proof.bundles import bundle_of
from ..proof.names import Names
from ..protocol.nets import FormatFault, Net, net_of
from ..protocol.predicatereader import read_predicate
from .cautions import cautions
from .families import of_family
from .given import pop_predicates, with_predicate
from .jsonvalue import format_fault, json_value
from .loaded import SHAPES, Loaded, LoadedBundle, LoadedNet, Written
from .netreader import make_net, predicate_at
from .networks import ENDING, Network, read_network
from .peregrine import is_peregrine, pop_text
from .popfile import read_sections
from .proofreader import read_proof
from .sbml import is_sbml, network_text_of
from .scanner import Source, TextFault, as_they_are
from ..visible import one_line

STANDARD_INPUT = "-"
NETS_KEPT = 64  # of networks in a volume
ASSUMES = (
    "a certificate speaks of all inputs, and a proof doesn't use what is assumed; `refute`, `simulate` and `sweep`"
    " keep to it"
)


def read_text(path: str) -> str:
    """The text of a file, or of standard input for `-`; InputFault where it cannot be read."""
    try:
        if path == STANDARD_INPUT:
            return sys.stdin.buffer.read().decode("utf-8-sig")
        with open(path, encoding="utf-8-sig", newline="") as file:
            return file.read()
    except OSError as error:
        raise InputFault(f"{one_line(path)}: {error.strerror}") from None
    except UnicodeDecodeError as error:
        raise InputFault(f"{one_line(path)}: byte {error.start} is no UTF-8") from None


def _load_json(text: str, name: str) -> Loaded:
    value, lines = json_value(text, name)
    if is_peregrine(value):
        return _load_peregrine(value, lines, name)
    try:
        if isinstance(value, dict) and "net" in value:
            if "proof" in value:
                bundle = bundle_of(value)
                parts = [part.pred for part in bundle.proof]
                return LoadedBundle(name, bundle.net, bundle.pred, parts, warnings=cautions(bundle.net), bundle=bundle)
            net, lines = net_of(value["net"]), [value["pred"], *lines] if isinstance(value.get("pred"), str) else lines
        else:
            net = net_of(value)
    except FormatFault as fault:
        raise format_fault(fault, name) from None
    loaded = LoadedNet(name, net, warnings=cautions(net))
    return with_predicate(loaded, lines[0], lines[1:]) if lines else loaded


def _load_peregrine(value: dict[str, Any], lines: list[str], name: str) -> Loaded:
    """Reads a protocol of Peregrine, with a predicate behind it where there is one."""
    try:
        loaded = load_pop(pop_text(value, name), name)
    except TextFault as fault:
        raise InputFault(f"{name}, as a .pop file: {fault.shown()}") from None
    return with_predicate(loaded, lines[0], lines[1:]) if lines else loaded


def _load_sbml(text: str, name: str) -> Loaded:
    """Reads a network in SBML."""
    network, told = network_text_of(text, name)
    try:
        loaded = load_network(network, name)
    except TextFault as fault:
        raise InputFault(f"{name}, as a network: {fault.shown()}") from None
    loaded.warnings += told
    return loaded


def load_pop(text: str, name: str, source: Source = as_they_are) -> Loaded:
    """Reads a `.pop` file; TextFault where it is malformed. Faults and warnings name the line from which a
    line comes."""
    file = read_sections(text, source)
    net, made = make_net(file)
    read_as: list[str] = []
    predicate, parts = pop_predicates(file, net, read_as)
    labels = [leaf.name for leaf in file.leaves] if len(made) > 1 else []
    written = Written(made, labels, [predicate_at(*part, net.names)[0] for part in file.assumed])
    lines = [[place.line for place in m.places] for m in made]
    warnings = cautions(net, lines, [f"leaf `{name}`" for name in labels]) + read_as
    loaded = LoadedNet(name, net, predicate, parts, written, warnings)
    if parts is None:
        for leaf in file.leaves:
            given = [layer.place for layer in leaf.layers or []] + [tree.place for tree in leaf.trees.values()]
            if given:
                raise given[0].fault(SHAPES if predicate else "a proof needs a line `computes PREDICATE` before it")
        return loaded
    written.drafts = []
    for leaf, one, part in zip(file.leaves, made, parts):
        tree = read_predicate(part, net.names)
        written.drafts.append(read_proof(leaf, one, Names(net.names, one.leaf), tree))
    return loaded


def load(text: str, name: str) -> Loaded:
    """Reads an input of any kind, or fails with an InputFault for its author."""
    if text.lstrip()[:1] in ("{", "["):
        return _load_json(text, name)
    if is_sbml(text):
        return _load_sbml(text, name)
    try:
        return load_network(text, name) if name.endswith(ENDING) else load_pop(text, name)
    except TextFault as fault:
        raise of_family(fault, text).of_input(name) from None


def load_network(text: str, name: str, source: Source = as_they_are) -> Loaded:
    """Reads a reaction network, with the chances of the usual volume; TextFault where it is malformed."""
    try:
        network = read_network(text)
        made = network.pop_text(Fraction(1))
    except TextFault as fault:
        raise TextFault(source(fault.line), fault.column, fault.told, fault.quoted) from None
    return _of_network(network, made, name, source)


def _load_network(network: Network, name: str, ratio: Fraction) -> Loaded:
    return _of_network(network, network.pop_text(ratio), name)


def _of_network(network: Network, made: str, name: str, source: Source = as_they_are) -> Loaded:
    loaded = load_pop(made, name, source)
    assert loaded.written is not None
    loaded.written.network = network
    return loaded


@lru_cache(maxsize=NETS_KEPT)
def net_in_volume(network: Network, name: str, ratio: Fraction) -> Net:
    """The net of a network where the volume is so many times the agents less one."""
    return _load_network(network, name, ratio).net


def in_volume(loaded: Loaded, agents: int, volume: Fraction) -> Loaded:
    """A reaction network with the chances that it has in a volume, for so many agents."""
    network = loaded.network
    if network is None or network.is_paired:
        return loaded
    try:
        made = _load_network(network, loaded.name, volume / (agents - 1))
    except TextFault as fault:
        raise fault.of_input(loaded.name) from None
    return made if loaded.predicate is None else with_predicate(made, loaded.predicate)


def load_path(path: str) -> Loaded:
    """Reads a file, or standard input for `-`."""
    return load(read_text(path), "standard input" if path == STANDARD_INPUT else one_line(path))
