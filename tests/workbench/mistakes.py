"""Mistakes that people make, and the sentence that each gets: the words, standard input, the status, the program's
line, the sentence.

`@BUNDLE`, `@NET` and `@JOURNAL` stand for the line of majority's bundle, that of its net, and a journal of it;
`@PRETTY` is the bundle over many lines. In the words, a name that ends in .json, .pop or .txt is a file with the text
that FILES has for it.
"""
from __future__ import annotations

from typing import NamedTuple


class Mistake(NamedTuple):
    """One row; `given` is standard input, None where the words name files."""

    words: tuple[str, ...]
    given: str | None
    status: int
    line: str
    says: str


FILES = {
    "majority.json": "@BUNDLE\n",
    "net.json": "@NET\n",
    "pretty.json": "@PRETTY\n",
    "comma.json": '{"net":{\n  "format":1,\n  "vars":["x","y"],\n},\n"pred":"x < 1"}\n',
    "quotes.json": "{'net': 1}\n",
    "python.json": (
        '{"net":{"format":1,"vars":["x"],"leaves":[{"states":["a"],"moves":[],"input":[0],"output":[True]}]}}\n'
    ),
    "cut.json": '{"net":{"format":1,\n',
    "comment.json": '{"net": // the net\n1}\n',
    "state.json": '{"format":1,"vars":["x","y"],\n"leaves":[{"states":["A","B"],\n"moves":[[0,1,2,0]],\n"input":[0,1],"output":[true,false]}],\n"combine":[0]}\n',
    "novars.json": '{"net":{"format":1}}\n',
    "relation.json": "@RELATION\n",
    "list.json": "[1,2]\n",
    "arrow.pop": "inputs x: A\nA + A > b + b\nyes b\n",
    "net.pop": "inputs x: A\nA + A -> b + b\nyes b\n",
    "both.txt": "@BUNDLE\ncrowd x=3 y=1\n",
    "held.txt": "@JOURNAL",
    "crlf.txt": "@CRLF",
    "changed.txt": "@CHANGED",
    "worker.txt": "@WORKER",
    "round.txt": "@ROUND",
    "watched.txt": "@WATCHED",
    "short.txt": "@SHORT",
    "trap.json": "@TRAP\n",
    "layers.json": "@LAYERS\n",
}

MISTAKES: tuple[Mistake, ...] = (
    # words
    Mistake(("chekc",), "", 1, "fault: usage 0 unknown", "unknown word `chekc`; did you mean `check`?"),
    Mistake(
        ("chekc", "majority.json"), None, 1, "fault: usage 0 unknown", "unknown word `chekc`; did you mean `check`?"
    ),
    Mistake(("check", "a.bundle"), None, 2, "", "a.bundle: No such file or directory"),
    Mistake(
        ("check", "--hepl"),
        None,
        1,
        "fault: usage 1 unknown",
        "`--hepl` is no option of `check`; did you mean `--help`?",
    ),
    Mistake(
        ("check", "majority.json", "net.json"),
        None,
        1,
        "fault: usage 1 unknown",
        "`net.json` has no place here: pop check FILE",
    ),
    Mistake(
        ("check", "majority.json", "x=3"),
        None,
        1,
        "fault: usage 1 unknown",
        "`x=3`: `check` takes no crowd: its answer holds for every crowd; `run`, `watch` and `settle` take one",
    ),
    Mistake(
        ("check", "--flocks"),
        "",
        1,
        "fault: usage 1 unknown",
        "`--flocks` is an option of `compile`, and `check` has others: --twice",
    ),
    Mistake(("check", ""), None, 2, "", "the file's name is empty"),
    Mistake(("check", "."), None, 2, "", ". is a folder; give a file"),
    Mistake(
        ("run", "majority.json", "x=3", "--sed", "3"),
        None,
        1,
        "fault: usage 1 unknown",
        "`--sed` is no option of `run`; did you mean `--seed`?",
    ),
    Mistake(
        ("run", "--seeds", "3"),
        "",
        1,
        "fault: usage 1 unknown",
        "`--seeds` is no option of `run`; did you mean `--seed`?",
    ),
    Mistake(
        ("run", "--seed"),
        "",
        1,
        "fault: usage 2 missing",
        "a number is missing after `--seed`: a seed is 0 to 9,223,372,036,854,775,807",
    ),
    Mistake(
        ("run", "majority.json", "x=3", "--turns", "5000000"),
        None,
        1,
        "fault: usage 2 value",
        "`5000000` is out of the limits of `--turns`: turns are 0 to 1,000,000 each, and at most 2,000,000 in all",
    ),
    Mistake(
        ("run", "--turns", "5000000"),
        "",
        1,
        "fault: usage 2 value",
        "`5000000` is out of the limits of `--turns`: turns are 0 to 1,000,000 each, and at most 2,000,000 in all",
    ),
    Mistake(
        ("run", "--turns", "5", "--turns", "6"),
        "",
        1,
        "fault: usage 3 twice",
        "`--turns` is given twice; give each option at most once",
    ),
    Mistake(
        ("run", "--turns", "-5"),
        "",
        1,
        "fault: usage 2 value",
        (
            "`-5` isn't digits alone, as it has to be for `--turns`: turns are 0 to 1,000,000 each, and at most "
            "2,000,000 in all"
        ),
    ),
    Mistake(
        ("run", "majority.json", "x=3", "--turns", "5,000,000"),
        None,
        1,
        "fault: usage 2 value",
        (
            "`5,000,000` isn't digits alone, as it has to be for `--turns`: turns are 0 to 1,000,000 each, and at "
            "most 2,000,000 in all"
        ),
    ),
    Mistake(
        ("watch", "--workers", "64"),
        "",
        1,
        "fault: usage 2 value",
        "`64` is out of the limits of `--workers`: workers are 1 to 64, for `watch` 1 to 63",
    ),
    Mistake(
        ("run", "--workers", "4", "--turns", "1000000"),
        "",
        1,
        "fault: usage 5 product",
        (
            "4 workers with 1,000,000 turns each are 4,000,000 turns; turns are 0 to 1,000,000 each, and at most "
            "2,000,000 in all: with 4 workers give at most `--turns 500000`"
        ),
    ),
    Mistake(
        ("run", "--shards", "0"),
        "",
        1,
        "fault: usage 2 value",
        "`0` is out of the limits of `--shards`: shards are 1 to 1,024",
    ),
    Mistake(
        ("run", "x=30", "y=10"),
        None,
        1,
        "fault: usage 1 unknown",
        (
            "a file, or `-` for standard input, is missing: pop run FILE x=30 y=10 [--workers N] [--shards N] "
            "[--turns N] [--seed N]"
        ),
    ),
    Mistake(("demo",), "", 1, "fault: usage 1 missing", "a number is missing after `demo`: demo cases are 0 to 9,999"),
    Mistake(
        ("demo", "10000"),
        "",
        1,
        "fault: usage 1 value",
        "`10000` is out of the limits of `demo`: demo cases are 0 to 9,999",
    ),
    Mistake(
        ("demo", "first"),
        "",
        1,
        "fault: usage 1 value",
        "`first` isn't digits alone, as it has to be for `demo`: demo cases are 0 to 9,999",
    ),
    Mistake(
        ("compile", "x", "-", "y"),
        None,
        1,
        "fault: usage 1 unknown",
        (
            "`-` has no place here: put the whole predicate in quotes, as in pop compile 'x - y < 3' [--succinct |"
            " --quick | --plain | --flocks] [--helpers none] [--text] [-o FILE]"
        ),
    ),
    Mistake(
        ("compile", "x < 3", "-o"),
        None,
        1,
        "fault: usage 1 unknown",
        (
            "`-o` is followed by the file to write: pop compile 'x - y < 3' [--succinct | --quick | --plain | --flocks]"
            " [--helpers none] [--text] [-o FILE]"
        ),
    ),
    Mistake(
        ("replay", "--watch"),
        "",
        1,
        "fault: usage 1 unknown",
        "`--watch` is no option of `replay`; did you mean `--watched`?",
    ),
    # JSON and lines over standard input
    Mistake(
        ("check",),
        "@PRETTY\n",
        2,
        "fault: line 2 extra",
        (
            "the bundle is over 248 lines; it is one line: give the file as an argument, as in `pop check FILE`, or "
            "use `jq -c .`"
        ),
    ),
    Mistake(("check",), "", 2, "fault: line 1 missing", "the input is empty; `check` takes a bundle: pop check FILE"),
    Mistake(
        ("check",),
        "@BUNDLE\ncrowd x=3 y=1\n",
        2,
        "fault: line 2 extra",
        (
            "line 2 is a crowd line; `check` takes a bundle alone, and its answer holds for every crowd: `run` and "
            "`settle` take a crowd"
        ),
    ),
    Mistake(
        ("check",),
        "@BUNDLE\n\n",
        2,
        "fault: line 2 extra",
        "line 2 is empty; `check` takes a bundle, and nothing after",
    ),
    Mistake(
        ("run",),
        "@BUNDLEcrowd x=3 y=1\n",
        2,
        "fault: line 2 missing",
        (
            "line 1, column 646: this is no JSON: the crowd is on the line of the bundle; "
            "put a line feed before `crowd`"
        ),
    ),
    Mistake(
        ("run",),
        "@BUNDLE\n",
        2,
        "fault: line 2 missing",
        (
            "the crowd is missing: give the counts after the file, as in `pop run FILE x=30 y=10`, or a line `crowd "
            "x=30 y=10` after the bundle"
        ),
    ),
    Mistake(
        ("run",),
        "crowd x=3 y=1\n@BUNDLE\n",
        2,
        "fault: not json",
        "line 1 is a crowd line; the net or bundle comes before it, on a line of its own",
    ),
    Mistake(
        ("run",),
        "@BUNDLE\ncrown x=3\n",
        2,
        "fault: count 0",
        (
            "a crowd line is `crowd` and the counts, as in `crowd x=30 y=10`; this one begins with `crown`; did you "
            "mean `crowd`?"
        ),
    ),
    Mistake(
        ("run",),
        "@BUNDLE\ncrowd  x=3\n",
        2,
        "fault: count 1",
        "there is one space before each count, and here is one more",
    ),
    Mistake(
        ("run",),
        "@BUNDLE\r\ncrowd x=3 y=1\r\n",
        2,
        "fault: count 2",
        "the crowd line ends in CR and LF; a line ends in LF alone",
    ),
    Mistake(
        ("eval",),
        "vars x\r\nx < 1\r\ncrowd x=1\r\n",
        2,
        "fault: line 1 form",
        "line 1 ends in CR and LF; a line ends in LF alone",
    ),
    Mistake(
        ("eval",),
        "vars x\nx < 1\r\ncrowd x=1\n",
        2,
        "fault: pred syntax 5",
        "the line ends in CR and LF; a line ends in LF alone",
    ),
    Mistake(
        ("play",),
        "@NET\ncrowd x=2 y=1\n0 2\r\n",
        2,
        "fault: line 3 form",
        "line 3 ends in CR and LF; a line ends in LF alone",
    ),
    Mistake(
        ("play",),
        "@NET\ncrowd x=2 y=1\n0,2\n",
        2,
        "fault: line 3 form",
        "line 3: a meeting line has two numbers of agents with one space between them, as `0 2`",
    ),
    Mistake(
        ("play",),
        "@NET\ncrowd x=2 y=1\n0 3\n",
        2,
        "fault: line 3 agents",
        "line 3, `0 3`: there are the agents 0 to 2",
    ),
    Mistake(
        ("play",),
        "@BUNDLE\ncrowd x=2 y=1\n",
        2,
        "fault: format /format kind",
        "this is a bundle; `play` takes the net alone: `pop play FILE` with the bundle's file plays its net",
    ),
    Mistake(("compile",), "vars x x\nx < 1\n", 2, "fault: line 1 form", "line 1: `x` is named twice"),
    Mistake(
        ("compile",),
        "x < 1\n",
        2,
        "fault: line 2 missing",
        (
            "line 1 begins with `x`: a vars line is `vars` and 1 to 16 names, with one space before each, as in `vars"
            " x y`"
        ),
    ),
    Mistake(
        ("compile",),
        "vars 2x\nx < 1\n",
        2,
        "fault: line 1 form",
        (
            "line 1: `2x` is no name: 1 to 32 letters, digits and `_`, no digit first, and not `mod`; a vars line is "
            "`vars` and 1 to 16 names, with one space before each, as in `vars x y`"
        ),
    ),
    Mistake(("compile",), "vars x\n", 2, "fault: line 2 missing", "line 2 is missing: it has a predicate"),
    # files
    Mistake(
        ("check", "net.json"),
        None,
        2,
        "fault: format /net kind",
        "this is a net; `check` takes a bundle: a net with its predicate and proof",
    ),
    Mistake(
        ("check", "net.pop"),
        None,
        2,
        "",
        "net.pop: this is a net; a bundle has a predicate and a proof too. `bin/pop find` looks for the proof",
    ),
    Mistake(("check", "arrow.pop"), None, 2, "", "arrow.pop:2:7: expected `->`, found `>`"),
    Mistake(
        ("check", "comma.json"),
        None,
        2,
        "fault: not json",
        "comma.json:4:1: this is no JSON: there is a comma after the last item",
    ),
    Mistake(
        ("check", "quotes.json"),
        None,
        2,
        "fault: not json",
        "quotes.json:1:2: this is no JSON: put texts in double quotes",
    ),
    Mistake(
        ("check", "python.json"),
        None,
        2,
        "fault: not json",
        "python.json:1:92: this is no JSON: write `true`, in small letters",
    ),
    Mistake(("check", "cut.json"), None, 2, "fault: not json", "cut.json:2:1: this is no JSON: it ends too early"),
    Mistake(
        ("check", "comment.json"),
        None,
        2,
        "fault: not json",
        "comment.json:1:9: this is no JSON: JSON has no comments",
    ),
    Mistake(
        ("play", "state.json", "x=1", "y=1"),
        None,
        2,
        "fault: format /leaves/0/moves/0/2 range",
        "/leaves/0/moves/0/2 is 2: a move names states by number, and this leaf has the states 0 to 1",
    ),
    Mistake(
        ("check", "novars.json"),
        None,
        2,
        "fault: format /net/vars kind",
        "/net/vars is missing: `vars` is a list of 1 to 16 names of variables",
    ),
    Mistake(
        ("check", "list.json"),
        None,
        2,
        "fault: format  kind",
        "a net and a bundle are objects, `{..}`; this is a list",
    ),
    Mistake(
        ("check", "relation.json"), None, 2, "fault: format /pred pred syntax 5", "/pred: expected a number, found `x`"
    ),
    Mistake(
        ("check", "both.txt"),
        None,
        2,
        "fault: line 2 extra",
        (
            "line 2 is a crowd line; `check` takes a bundle alone, and its answer holds for every crowd: `run` and "
            "`settle` take a crowd"
        ),
    ),
    Mistake(
        ("check", "trap.json"),
        None,
        3,
        "rejected leaf 0 false 5 not-closed",
        "the proof isn't valid: leaf 0, tree for false: the sum of node 5 doesn't close its branch",
    ),
    Mistake(
        ("check", "layers.json"),
        None,
        3,
        "rejected leaf 0 layers wakes 0 7",
        "the proof isn't valid: leaf 0, layers: move 0 makes a move of an earlier layer possible again",
    ),
    # crowds
    Mistake(
        ("run", "majority.json"),
        None,
        2,
        "fault: line 2 missing",
        (
            "the crowd is missing: give the counts after the file, as in `pop run majority.json x=30 y=10`, or a "
            "line `crowd x=30 y=10` after the bundle"
        ),
    ),
    Mistake(("run", "majority.json", "z=3"), None, 2, "fault: count 1", "`z` is no variable of this net; it has x, y"),
    Mistake(("run", "majority.json", "X=3"), None, 2, "fault: count 1", "`X` is no variable of this net; it has x, y"),
    Mistake(
        ("run", "majority.json", "x=-3"), None, 2, "fault: count 1", "a count is 0 or more, and `x=-3` is negative"
    ),
    Mistake(("run", "majority.json", "x=3", "x=4"), None, 2, "fault: count 2", "`x` is counted twice"),
    Mistake(
        ("run", "majority.json", "x=1,000"),
        None,
        2,
        "fault: count 1",
        "`1,000` is no count: it is 1 to 20 digits, without sign, point or comma",
    ),
    Mistake(
        ("run", "majority.json", "x=99999999999"),
        None,
        2,
        "fault: size 99999999999",
        (
            "the crowd has 99,999,999,999 agents and `run` takes 2 to 65,536; what `check` certifies holds for "
            "greater ones too"
        ),
    ),
    Mistake(
        ("run", "majority.json", "x=99999999999999999999"),
        None,
        2,
        "fault: count 1",
        "a count is below 2^64, 18,446,744,073,709,551,616",
    ),
    Mistake(
        ("run", "majority.json", "x=1"),
        None,
        2,
        "fault: size 1",
        "the crowd has 1 agent and `run` takes 2 to 65,536; in a smaller one no agents meet",
    ),
    Mistake(
        ("settle", "majority.json", "x=40000", "y=40000"),
        None,
        2,
        "fault: size 80000",
        (
            "the crowd has 80,000 agents and `settle` takes 2 to 65,536; what `check` certifies holds for greater ones too"
        ),
    ),
    Mistake(
        ("run", "majority.json", "x=30", "y=10", "--turns", "3"),
        None,
        4,
        "undecided 0 30",
        (
            "the turns are used up before the crowd's end: agent 0 is in `A` and agent 30 in `B`, and their meeting "
            "would change that"
        ),
    ),
    Mistake(
        ("run", "majority.json", "x=30", "y=10", "--turns", "0"),
        None,
        4,
        "undecided 0 30",
        (
            "the turns are used up before the crowd's end: agent 0 is in `A` and agent 30 in `B`, and their meeting "
            "would change that"
        ),
    ),
    Mistake(
        ("play", "net.json", "x=2", "y=1", "0,0"),
        None,
        2,
        "fault: line 3 agents",
        "line 3, `0 0`: an agent doesn't meet itself",
    ),
    Mistake(
        ("play", "net.json", "x=2", "y=1", "a,b"),
        None,
        2,
        "fault: line 3 form",
        "line 3: a meeting line has two numbers of agents with one space between them, as `0 2`",
    ),
    Mistake(
        ("play", "net.json", "0,1"), None, 2, "fault: count 0", "the counts are missing: pop play FILE x=2 y=1 0,2 1,2"
    ),
    # predicates
    Mistake(
        ("eval", "x >"),
        None,
        2,
        "fault: line 3 missing",
        "the counts are missing: pop eval 'x - y < 3' x=2 y=1, or a line `crowd x=2 y=1`",
    ),
    Mistake(("eval", "x >", "x=1"), None, 2, "fault: pred syntax 3", "expected a number, the predicate ends here"),
    Mistake(
        ("eval", "x y < 3", "x=1"),
        None,
        2,
        "fault: pred syntax 2",
        "expected `+`, `-` or one of `<`, `<=`, `>`, `>=`, `=`, `!=`, found `y`",
    ),
    Mistake(("eval", "x < 3", "y=1"), None, 2, "fault: count 1", "`y` is no variable of the predicate; it has x"),
    Mistake(
        ("eval", "x < 3"),
        None,
        2,
        "fault: line 3 missing",
        "the counts are missing: pop eval 'x - y < 3' x=2 y=1, or a line `crowd x=2 y=1`",
    ),
    Mistake(("eval",), "vars x y\nx >= y\ncrowd x=1\n", 2, "fault: pred syntax 5", "expected a number, found `y`"),
    Mistake(("eval",), "vars x\nx == 3\ncrowd x=1\n", 2, "fault: pred syntax 3", "expected a number, found `=`"),
    Mistake(
        ("eval",), "vars x\nz < 3\ncrowd x=1\n", 2, "fault: pred unknown 0", "`z` is no variable here; there is x"
    ),
    Mistake(
        ("eval", "x - y % 3 = 1", "x=1"),
        None,
        2,
        "fault: pred syntax 6",
        (
            "`%` on the left of the sign takes one term. Put the sum in parentheses, as in `(x - y) % 3 = 1`, or the"
            " modulus at the end, as in `x - y = 1 mod 3`"
        ),
    ),
    Mistake(
        ("eval", "x = y % 3", "x=1"),
        None,
        2,
        "fault: pred syntax 4",
        (
            "`%` belongs on the left of the sign, as in `x % 3 = 1`; that two sums leave the same remainder is written"
            " `x = y mod 3`"
        ),
    ),
    Mistake(
        ("eval", "x - y mod 3 = 1", "x=1"),
        None,
        2,
        "fault: pred syntax 6",
        (
            "`mod` on the left of the sign takes one term. Put the sum in parentheses, as in `(x - y) % 3 = 1`, or the"
            " modulus at the end, as in `x - y = 1 mod 3`"
        ),
    ),
    Mistake(
        ("eval", "x = y mod 3 < 2", "x=1"),
        None,
        2,
        "fault: pred syntax 4",
        "after a congruence comes `&&`, `||`, `)` or the end, and here is `<`",
    ),
    Mistake(
        ("eval", "x < 1e5", "x=1"),
        None,
        2,
        "fault: pred syntax 5",
        (
            "`1e5` is no number, which is digits alone; a product is written `1*e5`, and without the sign where `e5`"
            " also occurs elsewhere, or is declared"
        ),
    ),
    Mistake(
        ("eval", "x >= 1_000", "x=1"),
        None,
        2,
        "fault: pred syntax 6",
        (
            "`1_000` is no number, which is digits alone; a product is written `1*_000`, and without the sign where"
            " `_000` also occurs elsewhere, or is declared"
        ),
    ),
    Mistake(
        ("eval", "x = 1 mod5", "x=1"),
        None,
        2,
        "fault: pred syntax 6",
        "`mod5`: put a blank between `mod` and the modulus, as in `mod 5`",
    ),
    Mistake(
        ("eval", "x * y < 3", "x=1"), None, 2, "fault: pred syntax 2", "a product of two variables has no form here"
    ),
    Mistake(
        ("eval", "x % 2 = 3", "x=1"), None, 2, "fault: pred syntax 2", "a remainder modulo 2 is a number from 0 to 1"
    ),
    Mistake(("eval", "x = 1 mod 201", "x=1"), None, 2, "fault: pred large 10", "a modulus is 2 to 200"),
    Mistake(
        ("eval", "x < 9999999999999", "x=1"),
        None,
        2,
        "fault: pred large 4",
        "the constant is at most 1099511627776 in size here",
    ),
    Mistake(
        ("eval", "@DEEP", "x=1"),
        None,
        2,
        "fault: pred deep 64",
        "the signs may be charged 64 in all, and this one makes it 65",
    ),
    Mistake(
        ("compile", "x < 100", "--plain", "-o", "made"),
        None,
        2,
        "fault: width 0 101",
        (
            "the predicate's comparison 0 (counted from 0) is 101 wide (the greatest of its coefficients and of its "
            "constant and 1); `compile` builds up to 80"
        ),
    ),
    Mistake(
        ("compile", "@NINE", "--plain"),
        None,
        2,
        "fault: atoms 9",
        "the predicate has 9 comparisons; `compile` makes a leaf of each, and a net has at most 8",
    ),
    Mistake(
        ("compile", "@WIDE", "--plain"),
        None,
        2,
        "fault: wide 4",
        (
            "the predicate's comparison 4 (counted from 0) is over 42 wide: its leaf has more than 256 states, and a "
            "net with such a leaf has at most 4 leaves"
        ),
    ),
    # journals
    Mistake(
        ("replay", "changed.txt"),
        None,
        5,
        "found: 0 1 0 *",
        (
            "line 6 of the journal isn't what this run prints: the meeting changes something, and the mark ` *` is"
            " missing"
        ),
    ),
    Mistake(
        ("replay", "worker.txt"),
        None,
        2,
        "fault: journal 5 worker",
        "line 5 names a worker that doesn't exist (there are workers 0 to 0) or has all its meetings of this round",
    ),
    Mistake(
        ("replay", "round.txt"),
        None,
        2,
        "fault: journal 7 round",
        "line 7 begins a round, and all turns are used up before it",
    ),
    Mistake(
        ("replay", "watched.txt"), None, 2, "fault: journal 3 form", "this is a journal of `watch`: give `--watched`"
    ),
    Mistake(
        ("replay", "held.txt", "--watched"),
        None,
        2,
        "fault: journal 3 form",
        "this is a journal of `run`: leave `--watched` out",
    ),
    Mistake(
        ("replay", "short.txt"),
        None,
        2,
        "fault: journal 6 missing",
        "the journal ends before line 6: a round lacks meetings, or the line `end` is missing",
    ),
    Mistake(("replay",), "@CRLF", 2, "fault: count 2", "the crowd line ends in CR and LF; a line ends in LF alone"),
    Mistake(
        ("replay", "majority.json"),
        None,
        2,
        "fault: line 2 missing",
        "line 2 is missing; `replay` takes what `run` printed: the bundle, the crowd line and the journal",
    ),
)
