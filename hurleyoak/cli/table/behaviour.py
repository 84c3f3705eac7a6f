"""The commands of the workbench that show how a crowd behaves, and the page."""
from __future__ import annotations

from ...simulation.limits import CHANGES_ASKED, MEETING_LIMIT, SEED_LIMIT
from .protocols import MEMBER, WORDS_LIMIT
from .shape import Command, Kind, Option, choice, file, flag, number, text, whole

RUN_LIMIT, PLACE_LIMIT = 100_000, 1_000
ENSEMBLE_LIMIT, CHUNK_LIMIT = 10_000, 1_000
ENSEMBLE_RUNS = 20
PORT_LIMIT = 65_535
TOP_LIMIT = 1_000_000

GRAPH = Option(
    "--graph",
    "neighbours meet: ring, star, `grid 5x4`, `random 3` (neighbours of each), or a file with edges",
    Kind.TEXT,
    "GRAPH",
    joins=("grid", "random"),
)
MEMBERS = text("--with", "the members of a family with these values alone, as in `c=7` or `m=5,r=1`", "VALUES")
ROUNDS = flag("--rounds", "in each round many pairs meet at once: a random matching")

BEHAVIOUR = (
    Command(
        "simulate",
        "a run of a net by counts, for crowds of any size; no proof is needed",
        ("pop simulate [FILE] x=30 y=10 [OPTION VALUE]..",),
        (
            "Two different agents meet, all pairs equally likely, in a crowd of 2 to 1,000,000,000; meetings that "
            "change nothing are skipped by a draw. Prints the end, when the last change was, and whether the "
            "output is the predicate's value. It is one run, and nothing is proved by it."
        ),
        (
            "pop simulate examples/tellers/tellers.pop x=520 y=480 --seed 1",
            "pop simulate examples/epidemic/net.json x=1 y=999999 --predicate 'x >= 1'",
        ),
        (
            whole("--seed", "from which the pairs are drawn", 0, 0, SEED_LIMIT),
            Option(
                "--until",
                "terminal, agreed, settled, a number of meetings, `time 5`, or a condition as in `X = 0`",
                Kind.TEXT,
                "WHEN",
                "terminal",
            ),
            Option(
                "--at",
                "lets something happen at a time: `add 10 X`, `remove 10 percent of X`, `turn 5 X into Y`",
                Kind.TEXT,
                "T EVENT",
                repeats=True,
                is_pair=True,
            ),
            file("--from", "begins with the last crowd of a trace"),
            number("--volume", "the volume of a reaction network, for its own time (the agents less one)", None),
            GRAPH,
            ROUNDS,
            file("--map", "keeps the graph with the agents' states at some times, for `pop plot`"),
            whole(
                "--changes",
                "stops after N changes (without `--until` 10,000,000, or 10 for each agent)",
                None,
                0,
                CHANGES_ASKED,
            ),
            text("--predicate", "compares the output with its value"),
            file("--trace", "keeps the crowd over time, for `pop plot`"),
            flag("--kernel", "the proved kernel draws: faster, from another stream of random numbers"),
            number("--every", "makes many runs, and looks at each after every N meetings per agent", None),
            whole("--runs", f"how many runs `--every` makes ({ENSEMBLE_RUNS})", None, 1, ENSEMBLE_LIMIT),
            whole("--jobs", "N runs of `--every` in parallel", 1, 1, PLACE_LIMIT),
            MEMBER,
        ),
        module="simulate",
        words=WORDS_LIMIT,
    ),
    Command(
        "exact",
        "a small crowd's Markov chain: chances of its ends, meetings to them",
        ("pop exact [FILE] x=5 y=4 [OPTION VALUE]..", "pop exact [FILE] --agents 2..12"),
        (
            "The chance of each terminal crowd and of each output, with the mean and the deviation of the meetings to "
            "the end. If no crowd is terminal, the ends are closed classes: crowds that lead to each other alone. With "
            "`--agents` it looks at all inputs of so many agents, and says which is the slowest and which is most "
            "often wrong. A chain that is too large is refused, with one that fits. Needs python3-scipy."
        ),
        (
            "pop exact examples/majority/majority.pop x=5 y=4 --after 20",
            "pop exact examples/epidemic/epidemic.pop --agents 2..8",
        ),
        (
            text("--agents", "the worst of all inputs of N agents, or of each number from N to M", "N..M"),
            whole("--after", "the distribution after N meetings", None, 0, MEETING_LIMIT),
            flag("--fractions", "computes in fractions, without rounding"),
            number("--volume", "the volume of a reaction network, for its own time (the agents less one)", None),
            whole("--top", "prints the N likeliest ends and crowds", 10, 1, TOP_LIMIT),
            text("--predicate", "compares the output with its value"),
            MEMBER,
        ),
        module="exact",
        words=WORDS_LIMIT,
    ),
    Command(
        "sweep",
        "many runs over sizes and seeds: how meetings grow with the crowd",
        ("pop sweep FILE.. x=10..1000*2 [y=x-1].. [OPTION VALUE]..",),
        (
            "A table of the meetings to the end and to agreement, and the growth that fits them best. Each job is "
            "a function of its words; they can be shared among processors and machines."
        ),
        (
            "pop sweep examples/epidemic/epidemic.pop x=1 y=10..40*2 --runs 5",
            "pop sweep examples/flock/flock.pop x=10..40*2 --runs 3 --list | head -n 2",
        ),
        (
            whole("--runs", "runs of each size", 20, 1, RUN_LIMIT),
            whole("--seed", "the first run's seed", 0, 0, SEED_LIMIT - RUN_LIMIT),
            whole("--changes", "stops a run after N changes (without `--until` 1,000,000)", None, 1, CHANGES_ASKED),
            whole("--meetings", "stops a run after N meetings", 0, 0, MEETING_LIMIT),
            number("--until", "stops a run after N meetings for each agent", None),
            GRAPH,
            ROUNDS,
            text("--predicate", "compares the output with its value"),
            choice(
                "--by",
                "whose runs; those of the program are replayed",
                "simulate",
                "simulate",
                "kernel",
                "run",
                metavar="WHOM",
            ),
            whole("--jobs", "N jobs in parallel", 1, 1, PLACE_LIMIT),
            file("--hosts", "machines that share the jobs, one on a line"),
            file("--journal", "keeps each result at once, and goes on from those it has, as after a kill"),
            flag("--list", "prints the jobs, one command a line"),
            whole("--chunk", "how many jobs a command of `--list` has", 1, 1, CHUNK_LIMIT),
            file("--gather", "makes the table of what the jobs printed; a folder too"),
            file("--csv", "writes the table, for `pop plot`"),
            MEMBERS,
        ),
        module="sweep",
        words=WORDS_LIMIT,
        needs=1,
    ),
    Command(
        "plot",
        "the picture of a journal, a trace, many runs or a sweep's table",
        (
            "pop plot [FILE [FILE]] -o PICTURE [OPTION VALUE]..",
            "pop plot [FILE] --text",
            "pop plot --ode NET x=30 y=10 -o PICTURE",
        ),
        (
            "Counts over parallel time, also of meetings as `play` takes them. A sweep gives the meetings over the"
            " number of agents, with the fitted growth. Many runs give the mean, with the band that holds eight of"
            " ten. A picture may have two curves. PICTURE ends in .svg, .png or .pdf."
        ),
        (
            "pop plot examples/replays/held.txt --text",
            "head -n 2 examples/replays/held.txt | pop run | pop plot --text --by output",
        ),
        (
            file("--output", "the file that is written, .svg, .png or .pdf", "-o", "PICTURE"),
            flag("--text", "draws in the terminal"),
            text("--states", "the states that are drawn, with commas between them", "A,B"),
            flag("--log", "a logarithmic axis of time"),
            whole("--from", "the time at which the picture begins, in meetings per agent", 0, 0, MEETING_LIMIT),
            whole("--to", "the time at which it ends", None, 0, MEETING_LIMIT),
            text("--size", "width and height in inches, as in `7.2x4.2`", "SIZE"),
            choice("--by", "what is drawn of each agent", None, "state", "output"),
            choice("--of", "meetings to the end, or to what is agreed", "end", "end", "agreed"),
            file("--ode", "the net whose mean field is drawn too, from the same start; alone where counts are given"),
            text("--phase", "the agents in one state against those in another", "A,B"),
            text("--over", "the axis of a sweep's table: a family's parameter in place of the agents", "NAME"),
            text("--title", "in place of the net, the crowd and the seed"),
            MEMBER,
        ),
        module="plot",
        words=WORDS_LIMIT,
        writes=True,
    ),
    Command(
        "draw",
        "the picture of a net",
        ("pop draw [FILE] -o PICTURE", "pop draw [FILE] --text"),
        "States by output, moves as arrows, leaves side by side; a leaf of more than 20 states is a table.",
        ("pop draw examples/majority/majority.pop --text", "pop draw examples/flock/net.json --dot | head -n 3"),
        (
            file("--output", "the file that is written, .svg or .png", "-o", "PICTURE"),
            flag("--dot", "prints the text for graphviz"),
            flag("--text", "prints tables"),
            text("--title", "in place of the net's name"),
            MEMBER,
        ),
        module="draw",
        writes=True,
    ),
    Command(
        "serve",
        "a page in the browser: write, play, prove, refute, measure, draw and compile",
        ("pop serve [FILE] [--port N]",),
        (
            "Prints an address to open in a browser of this machine, and answers until Ctrl-C. The page may save "
            "FILE, and no other. What is certified on it, the program has certified. Needs python3-tornado and "
            "libjs-codemirror."
        ),
        ("pop serve examples/majority/majority.pop", "pop serve --port 8642"),
        (whole("--port", "the port, or a free one", 0, 0, PORT_LIMIT),),
        module="serve",
        writes=True,
    ),
    Command(
        "page",
        "one file for a browser, which needs no server: text, Play, Net, certificate and curves",
        ("pop page [FILE] [x=30 y=10] [OPTION VALUE].. -o page.html",),
        (
            "For talks, artifacts of papers and teaching. A whole proof is shown as the program certified it when the "
            "page was made. A run by counts is measured, of the crowd that is named or of a usual one. The page "
            "fetches nothing."
        ),
        (
            "pop page examples/flock/flock.pop -o page.html && grep -c certified page.html",
            "pop page examples/epidemic/epidemic.pop x=1 y=999 | head -n 5",
        ),
        (
            whole("--seed", "from which the run's pairs are drawn", 1, 0, SEED_LIMIT),
            text("--trace", "shows a run that `simulate --trace` kept", "FILE", repeats=True),
            text("--title", "in place of the file's name"),
            MEMBER,
        ),
        module="page",
        words=WORDS_LIMIT,
    ),
)
