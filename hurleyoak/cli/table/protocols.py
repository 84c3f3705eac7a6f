"""The commands of the workbench on protocols and proofs."""
from __future__ import annotations

from .shape import Command, file, flag, number, text, whole

MEMBER = text("--with", "the member of a family: values of its parameters, as in `c=7` or `m=5,r=1`", "VALUES")
START = text("--start", "where a variable starts that one of the two lacks", "x=STATE", repeats=True)
WORDS_LIMIT = 99


WORKBENCH = (
    Command(
        "net",
        "a net as one line of JSON",
        ("pop net [FILE]",),
        "Reads a .pop file, a net or a bundle.",
        ("pop net examples/epidemic/epidemic.pop", "pop net < examples/flock/bundle.json"),
        (MEMBER,),
        module="net",
    ),
    Command(
        "bundle",
        "a bundle as one line of JSON",
        ("pop bundle [FILE]",),
        "Reads a .pop file with a proof, or a bundle.",
        ("pop bundle examples/majority/majority.pop", "pop bundle < examples/majority/majority.pop | pop check"),
        (MEMBER,),
        module="bundle",
    ),
    Command(
        "export",
        "a protocol for another tool: Coq, PRISM, ppsim, Peregrine or SBML",
        ("pop export --coq [FILE] [--check]", "pop export --prism [FILE] [x=5 y=4]"),
        (
            "For Coq a theorem, printed only after the program has certified the bundle, and with `--check` only after "
            "Coq has accepted it. For the others a net, with a crowd where counts are given; nothing is proved of it."
        ),
        (
            "pop export --coq examples/majority/majority.pop -o Majority.v",
            "pop export --coq examples/majority/bundle.json | grep '^Theorem certificate'",
        ),
        (
            flag("--coq", "a theorem for Coq 8.16 and proofs/coq"),
            flag("--prism", "a Markov chain for PRISM, with labels for ends and outputs"),
            flag("--ppsim", "a Python script for ppsim"),
            flag("--peregrine", "the JSON of Peregrine, which every command reads back"),
            flag("--sbml", "a reaction network in SBML, which every command reads back (python3-sbml5)"),
            number("--volume", "the volume of a reaction network (the agents less one)", None),
            flag("--check", "asks `coqc`, where it is installed"),
            flag("--chk", "asks `coqchk` as well, Coq's second kernel; it takes a minute"),
            file("--output", "writes the file, whole, once it is accepted", "-o"),
            MEMBER,
        ),
        module="export",
        words=WORDS_LIMIT,
        writes=True,
    ),
    Command(
        "text",
        "a net or a bundle as a .pop file",
        ("pop text [FILE]",),
        "Writes states, moves, layers and trees by names; `net` and `bundle` read it back.",
        ("pop text examples/flock/bundle.json", "pop text < examples/majority/net.json"),
        (flag("--crn", "writes a reaction network, without a proof"), MEMBER),
        module="text",
    ),
    Command(
        "explain",
        "a proof, and what is missing where it is rejected",
        ("pop explain [FILE] [PREDICATE] [--all] [--html]",),
        (
            "Shows the program's line first, then layers, trees and facts by names, and at the node that is "
            "refused what it lacks. Of meetings, as `play` takes them, each crowd; their page has a slider."
        ),
        ("pop explain examples/rejected/wrong-trap.json | grep '>>>'", "pop explain examples/majority/play.txt"),
        (flag("--all", "shows every fact"), flag("--html", "writes a page for a browser"), MEMBER),
        module="explain",
        words=2,
    ),
    Command(
        "and",
        "one bundle of two, whose net says both",
        ("pop and A B [--start x=STATE]..",),
        "Prints it only after the program has certified it.",
        (
            "pop and examples/flock/flock.pop examples/remainder/remainder.pop",
            "pop and examples/flock/bundle.json examples/majority/majority.pop | pop check",
        ),
        (START,),
        module="join",
        words=2,
        needs=2,
    ),
    Command(
        "or",
        "one bundle of two, whose net says one of them or both",
        ("pop or A B [--start x=STATE]..",),
        "Prints it only after the program has certified it.",
        (
            "pop or examples/flock/flock.pop examples/remainder/remainder.pop",
            "pop or examples/flock/bundle.json examples/majority/majority.pop | pop check",
        ),
        (START,),
        module="join",
        words=2,
        needs=2,
    ),
    Command(
        "not",
        "the bundle of the negation",
        ("pop not A",),
        "Prints it only after the program has certified it.",
        ("pop not examples/flock/flock.pop", "pop not examples/majority/majority.pop | pop check"),
        module="join",
        needs=1,
    ),
    Command(
        "find",
        "a certified bundle of a protocol, or a crowd that it gets wrong",
        ("pop find [FILE] [PREDICATE] [OPTION VALUE]..",),
        (
            "Looks for layers and trees, and for goals if the agents never come to rest. It prefers tame layers, which "
            "bound the expected number of meetings, and of these those with the smallest bound. What it prints was certified "
            "by the program, or shown stable; a crowd that is wrong was played by it."
        ),
        (
            "pop find examples/epidemic/net.json 'x >= 1'",
            "pop find examples/majority/net.json 'y - x < 0' | pop check",
        ),
        (
            number("--seconds", "gives up after N seconds, for all of a family", 60),
            number("--small", "seconds for making each tree smaller; 0 takes the first tree", 4),
            whole("--jobs", "N processes in parallel; without it, one for each processor", 0),
            file("--output", "writes the bundle, or its text", "-o"),
            file("--write", "writes the wrong crowd's meetings, for `pop play`"),
            flag("--save", "puts the proof into the named `.pop` file; its comments stay"),
            flag("--mend", "looks anew for what the program refuses of the written proof"),
            flag("--anew", "looks for all parts, also for the written ones"),
            flag("--tame", "takes tame layers alone, which bound the meetings, and no goals"),
            flag("--text", "prints a .pop file"),
            MEMBER,
        ),
        module="find",
        words=2,
        writes=True,
    ),
    Command(
        "refute",
        "looks for a crowd that a protocol gets wrong",
        ("pop refute [FILE] [PREDICATE] [OPTION VALUE]..",),
        "Tries all crowds of few agents, then of more, until the time is up. It does not look for a proof.",
        (
            "pop refute examples/epidemic/net.json 'x >= 1' --agents 4",
            "pop refute examples/majority/majority.pop --agents 4",
        ),
        (
            whole("--agents", "tries inputs of up to N agents, helpers not counted", None),
            number("--seconds", "ends after N seconds", 60),
            file("--write", "writes the wrong crowd's meetings, for `pop play`"),
            MEMBER,
        ),
        module="refute",
        words=2,
    ),
)
