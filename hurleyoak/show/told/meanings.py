"""What each line of the program means, by its form alone, for `pop help 'fault: ..'`."""
from __future__ import annotations

MEANINGS = [
    (r"fault: usage \d+ missing", "A command is missing, or the number after an option or after `demo`."),
    (r"fault: usage \d+ unknown", "The word with this number, counted from 0 after `pop`, can't be there."),
    (r"fault: usage \d+ twice", "The option with this number is given twice."),
    (r"fault: usage \d+ value", "The word with this number is no number, or out of the option's limits."),
    (r"fault: usage \d+ product", "Workers times turns are over 2,000,000."),
    (r"fault: read", "Reading the input failed."),
    (r"fault: too long", "The input has over 134,217,728 bytes."),
    (r"fault: line \d+ missing", "The line with this number, counted from 1, is not there."),
    (r"fault: line \d+ extra", "The line with this number is one too many; a net and a bundle are one line each."),
    (r"fault: line \d+ form", "The line with this number is malformed."),
    (r"fault: line \d+ agents", "The meeting in this line names one agent twice, or one that doesn't exist."),
    (r"fault: not json", "The line of the net or bundle is no JSON."),
    (
        r"fault: format \S* kind",
        "At this path a member is missing, or there is another kind of value than the file's form asks for.",
    ),
    (r"fault: format \S* range", "At this path a number, or a list's length, is out of its limits."),
    (r"fault: format \S* name", "At this path there is no allowed name or word, or one that was there before."),
    (
        r"fault: format \S* shape",
        (
            "At this path `combine` lacks operands, leaves more than one tree or is too deep; "
            "or there are too many leaves for a net with a wide one."
        ),
    ),
    (
        r"fault: format \S* pred .*",
        "The text at this path is no predicate. After it come what is wrong and the byte's offset.",
    ),
    (r"fault: pred syntax \d+", "The predicate breaks the grammar at this offset, counted in bytes from 0."),
    (r"fault: pred unknown \d+", "The name at this offset is no variable."),
    (r"fault: pred large \d+", "The number at this offset is over its limit."),
    (r"fault: pred deep \d+", "At this offset over 64 parentheses are open, or the signs are charged over 64."),
    (r"fault: pred long \d+", "The predicate has this number of bytes; it may have 1,048,576."),
    (
        r"fault: count \d+",
        (
            "The word of the crowd line with this number, counted from 0, is malformed, names no "
            "variable, or names one twice."
        ),
    ),
    (r"fault: atoms \d+", "The predicate has this number of comparisons; `compile` takes 8."),
    (
        r"fault: width \d+ \d+",
        "The comparison with the first number, counted from 0, is as wide as the second; `compile` builds up to 80.",
    ),
    (r"fault: range \d+", "The numbers of the comparison with this number are too large for a succinct leaf."),
    (
        r"fault: states \d+ \d+",
        "The succinct leaf of the comparison with the first number has as many states as the second; a leaf has 512.",
    ),
    (r"fault: wide \d+", "The comparison with this number is over 42 wide, and there are more than four comparisons."),
    (r"fault: journal \d+ missing", "The journal ends before this line."),
    (r"fault: journal \d+ form", "A journal can't have this line there."),
    (r"fault: journal \d+ worker", "The worker in this line doesn't exist, or has all its meetings of the round."),
    (r"fault: journal \d+ agents", "The meeting in this line names one agent twice, or one that doesn't exist."),
    (r"fault: journal \d+ round", "This line begins a round, and all turns are used up."),
    (r"fault: settle \d+", "The proof allows this number of takes for this crowd; `settle` goes up to 8,000,000."),
    (r"fault: size \d+", "The crowd has this number of agents, helpers included; it must have 2 to 65,536."),
    (
        r"certified \d+",
        (
            "The proof is valid: the net computes the predicate for crowds of two agents or more. "
            "This number of steps for each agent can lead it to its end."
        ),
    ),
    (
        r"stable \d+",
        (
            "The proof is valid, and has goals: the net computes the predicate for crowds of two agents or more. This number"
            " of steps for each agent can lead it to a crowd whose outputs are right and stay so. Agents may go on"
            " changing."
        ),
    ),
    (r"holds \d+", "The journal is a run of the certified net, with this number of meetings."),
    (
        r"differs \d+",
        (
            "This line of the journal is the first that isn't what the run prints. The next two lines "
            "have what was kept and what was found."
        ),
    ),
    (
        r"undecided \d+ \d+",
        (
            "The turns of the run are used up, and a meeting of these two agents would change something. "
            "By a proof with goals a move of the goal's layers would change it."
        ),
    ),
    (r"enabled \d+ \d+", "A meeting of these two agents would change something; no lesser pair would."),
    (r"terminal", "No meeting changes anything any more."),
    (r"verdict (true|false)", "The crowd has come to its end, and all agents output this, the predicate's value."),
    (
        r"settled (true|false)",
        (
            "No move of the layers is possible that the input chooses from the proof's goals. "
            "All agents output this, the predicate's value, and do so for ever, though they may go on changing."
        ),
    ),
]
