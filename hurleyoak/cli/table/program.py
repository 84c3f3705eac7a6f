"""The commands of the program, which is proved."""
from __future__ import annotations

from ...limits import SEED_LIMIT, SHARD_LIMIT, TURN_LIMIT, WATCHED_WORKERS, WORKER_LIMIT
from .protocols import MEMBER
from .shape import Command, Option, choice, flag, whole


def _numbers(workers: int) -> tuple[Option, ...]:
    return (
        whole("--workers", "workers, more than one on threads", 1, 1, workers),
        whole("--shards", "parts of the crowd that threads lock apart", 16, 1, SHARD_LIMIT),
        whole("--turns", "meetings of each worker, 2,000,000 in all at most", 10_000, 0, TURN_LIMIT),
        whole("--seed", "from which the pairs are drawn", 0, 0, SEED_LIMIT),
    )


PROGRAM = (
    Command(
        "check",
        "certifies a bundle, for crowds of two agents or more",
        ("pop check FILE [--twice]", "pop check < BUNDLE"),
        (
            "Prints `certified K`, where K is the bound of steps for each agent, or `rejected` and the first "
            "part of the proof that is not valid. If the proof has goals, it prints `stable K`: outputs come to rest, "
            "and agents may go on changing. A bundle is a net, a predicate and a proof. FILE is a "
            "bundle in JSON, on one line or many, or a .pop file with a proof."
        ),
        ("pop check examples/majority/majority.pop --twice", "pop check < examples/flock/bundle.json"),
        (flag("--twice", "asks bin/recheck too, and ends with 5 where the two differ"), MEMBER),
    ),
    Command(
        "show",
        "what is certified, by names: predicate, states, moves, layers",
        ("pop show FILE", "pop show < BUNDLE"),
        (
            "Checks a bundle whose proof has no goals, as `check` does. Below `certified K` it prints the predicate and the net that were "
            "certified, by names: variables, states, helpers, outputs, moves, and the layers of the proof. "
            "Whatever else `check` would print, `show` prints too."
        ),
        ("pop show examples/majority/majority.pop", "pop show < examples/and/bundle.json | grep move"),
        (MEMBER,),
    ),
    Command(
        "run",
        "a run of a certified net, line by line, and its verdict",
        ("pop run FILE x=30 y=10 [OPTION N]..", "pop run [OPTION N].. < BUNDLE-AND-CROWD"),
        (
            "Draws pairs of agents that meet, and prints each meeting, the crowd at the end and the verdict. "
            "If the turns are used up before that, the last line is `undecided` with two agents whose "
            "meeting would change something; standard error says their states. By a proof with goals a run "
            "ends where the outputs stay, though agents may go on changing, and the last line is `settled` "
            "and the value."
        ),
        (
            "pop run examples/majority/majority.pop x=30 y=10 --seed 3",
            "head -n 2 examples/replays/held.txt | pop run --turns 100",
        ),
        (*_numbers(WORKER_LIMIT), MEMBER),
    ),
    Command(
        "watch",
        "a run on threads that an observer may stop at the crowd's end",
        ("pop watch FILE x=30 y=10 [OPTION N]..", "pop watch [OPTION N].. < BUNDLE-AND-CROWD"),
        (
            "As `run`, on threads; an observer looks at the crowd while they work, and stops the last round "
            "once the crowd has come to its end. By a proof with goals it stops it once the outputs stay."
        ),
        (
            "pop watch examples/majority/majority.pop x=30 y=10 --workers 3",
            "head -n 2 examples/replays/held.txt | pop watch --workers 2",
        ),
        (*_numbers(WATCHED_WORKERS), MEMBER),
    ),
    Command(
        "settle",
        "the moves that the proof's layers give, up to the crowd's end, and the verdict",
        ("pop settle FILE x=30 y=10", "pop settle < BUNDLE-AND-CROWD"),
        (
            "Makes the first move that the layers allow, again and again. It always comes to the crowd's end, "
            "and prints the verdict. By a proof with goals it comes to a crowd whose outputs stay, and prints "
            "`settled` and the value."
        ),
        (
            "pop settle examples/flock/flock.pop x=5 y=2",
            "cat examples/majority/bundle.json examples/majority/crowd.txt | pop settle",
        ),
        (MEMBER,),
    ),
    Command(
        "play",
        "the crowd after a list of meetings",
        ("pop play FILE x=2 y=1 0,2 1,2 [--steps]", "pop play [--steps] < NET-CROWD-MEETINGS"),
        (
            "Plays meetings of two agents each. Agents are numbered from 0 in the order of the variables, "
            "helpers last. Prints the crowd, and `terminal` or `enabled` with the least pair that changes. "
            "FILE is a net or a bundle; no proof is needed."
        ),
        ("pop play examples/majority/net.json x=2 y=1 0,2 1,2 --steps", "pop play < examples/majority/play.txt"),
        (flag("--steps", "prints each crowd too, with the move between"), MEMBER),
    ),
    Command(
        "eval",
        "a predicate's value at a crowd",
        ("pop eval 'x - y < 3' x=2 y=1", "pop eval FILE x=2 y=1", "pop eval < VARS-PREDICATE-CROWD"),
        (
            "Prints `true` or `false`. The predicate is an argument, or that of a file. `x >= y`, `3 <= x`, "
            "`x == 3` and `x % 2 = 0` are read too; standard error says what was read."
        ),
        ("pop eval 'x - y < 3' x=2", "printf 'vars x y\\nx + 2*y = 1 mod 3\\ncrowd x=20 y=10\\n' | pop eval"),
    ),
    Command(
        "compile",
        "a net that computes a predicate, with a valid proof",
        (
            "pop compile 'x < 9' [--succinct | --quick | --plain | --flocks] [OPTION]..",
            "pop compile [--flocks | --succinct] < VARS-AND-PREDICATE",
        ),
        (
            "Prints a bundle on one line: the program's own, or a succinct one where that has fewer states, which the"
            " program certifies before it is printed. Standard error says which leaves it has, what its helpers mean"
            " for a crowd, who made it, and how many random meetings settle n agents. The variables are in the order in which the predicate mentions them. A compile that"
            " fails leaves no file."
        ),
        (
            "pop compile 'x - y < 1000' -o made.json && pop check made.json",
            "printf 'vars x\\nx >= 1024\\n' | pop compile --flocks",
        ),
        (
            flag(
                "--succinct",
                (
                    "the smallest of the program's succinct net, its plain one and the workbench's; what the program makes"
                    " is right by a theorem"
                ),
            ),
            flag("--quick", "the workbench's net whatever its size: callers tell its answer, and tokens join"),
            flag("--plain", "the program's own leaves alone"),
            flag(
                "--flocks",
                'the program\'s leaf of k + 2 states for each comparison that says "at least 2^k", k from 1 to 39',
            ),
            choice("--helpers", "whether inputs may have helpers", "any", "none", "any", metavar="WHICH"),
            flag("--text", "a `.pop` file, as `-o FILE.pop` writes it too"),
        ),
    ),
    Command(
        "replay",
        "whether a journal is that of a run",
        ("pop replay FILE [--watched]", "pop replay [--watched] < JOURNAL"),
        (
            "Reads what `run` printed, bundle and crowd line first. Prints `holds K` if its K meetings are a run of"
            " the certified net and its last lines are right. Otherwise it prints `differs` and the first line that"
            " isn't the expected one."
        ),
        ("pop replay examples/replays/held.txt", "pop run examples/majority/majority.pop x=30 y=10 | pop replay"),
        (flag("--watched", "the journal is one of `watch`"),),
    ),
    Command(
        "demo",
        "the summary of a run of a compiled predicate",
        ("pop demo N",),
        "Compiles the predicate of case N, from 0 to 9,999, checks the bundle and runs it. Reads nothing.",
        ("pop demo 21", "pop demo 0 | tail -n 1"),
        files=False,
    ),
)
