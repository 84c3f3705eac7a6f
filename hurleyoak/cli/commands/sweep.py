"""`pop sweep FILE.. x=10..1000*2`: many runs over sizes, seeds and nets, and how their meetings grow."""
from __future__ import annotations

import os
import shlex
import sys
from dataclasses import replace
from math import ceil
from pathlib import Path
from typing import Iterator, Mapping, Sequence

from ...simulation.crowds import counts_of, crowd_words, split_words
from ..progress import Progress
from ...simulation.groups import Group, first_jobs, given_up, in_turn, one_sided
from ...simulation.sharing import POP, Gathered, done_here, journal_of, read_folder, shared
from ...simulation.graphs import is_by_name
from ...simulation.limits import CHANGES_ASKED, MEETING_LIMIT
from ...simulation.sizes import sizes_of
from ...simulation.sweepjobs import (
    BY_KERNEL,
    BY_RUN,
    BY_SIMULATE,
    RUN_MEETINGS,
    Job,
    Way,
    load_net,
    mark_of,
    read_job,
    result_of,
)
from ...simulation.table import NOT_WITHIN, csv_text, growths, quantiles
from ...faults import InputFault
from ...protocol.laws import LAWS_TOLD
from ...protocol.predicates import value_at
from ...text.families import member_name
from ...text.files import STANDARD_INPUT, read_text
from ...text.membersof import WITH, NoMember, chosen, found_none, meant, members_of
from ...statuses import DONE, UNDECIDED
from ...writing import write_text
from . import JOB_WORD, warn
from ..sweptrows import SweptRows
from ..usage import UsageFault
from ..table.reading import Given, takes
from .simulate import title_of

SAID = ("--by", "--changes", "--graph", "--meetings", "--runs", "--seed", "--until")
USUAL_CHANGES = 10**6
LIMITS = ("--changes", "--meetings", "--until")


def _groups(given: Given) -> list[Group]:
    files, ranges = split_words(given.words)
    if not files or STANDARD_INPUT in files:
        raise UsageFault(f"it reads files that are named: {takes(given.command)}")
    meetings = given.whole("--meetings")
    if given.text("--by") == BY_RUN and meetings > RUN_MEETINGS:
        raise UsageFault(f"`--meetings` goes to {RUN_MEETINGS:,} with `--by run`, found {meetings}")
    if any("\n" in path for path in files):
        raise UsageFault("the name of a net's file has a line feed: jobs are given a line each")
    sizes = sizes_of(ranges)
    return [
        group for path in files for member in _members(given, path) for group in _groups_of(given, path, member, sizes)
    ]


def _members(given: Given, path: str) -> list[str]:
    """The members of a family by their names, all or those that `--with` names; one without a name where the file has
    one protocol."""
    found, asked = members_of(read_text(path), path), given.text(WITH)
    try:
        if asked is not None:
            found = meant(chosen(asked), found) if found else found_none(path)
    except NoMember as fault:
        raise UsageFault(str(fault)) from None
    return [member_name(values) for values in found] or [""]


def _groups_of(given: Given, path: str, member: str, sizes: Sequence[Mapping[str, int]]) -> Iterator[Group]:
    """A group for each size that meets what the net assumes."""
    predicate, first = given.text("--predicate") or "", given.whole("--seed")
    loaded = load_net(path, predicate, member)
    warn([told for told in loaded.warnings if told != LAWS_TOLD], loaded.name)
    job = Job(
        by=Way(given.text("--by") or BY_SIMULATE),
        path=str(Path(path).absolute()),
        crowd="",
        seed=first,
        changes=_changes(given),
        meetings=given.whole("--meetings"),
        predicate=predicate,
        mark=mark_of(loaded),
        member=member,
        graph=_graph(given),
        rounds=given.has("--rounds"),
    )
    for size in sizes:
        counts = counts_of(loaded.net, [f"{name}={k}" for name, k in size.items()])
        if loaded.meets(counts):
            crowd, agents = crowd_words(loaded.net, counts), sum(counts) + len(loaded.net.leaves[0].helpers)
            one = replace(job, crowd=crowd, meetings=_meetings(given, agents))
            yield Group(
                net=f"{title_of(path)} {member}".rstrip(),
                crowd=crowd,
                agents=agents,
                value=None if loaded.predicate is None else value_at(loaded.whole_tree(), counts),
                gives_up=not given.named.intersection(LIMITS),
                jobs=[replace(one, seed=first + i) for i in range(given.whole("--runs"))],
            )


def _changes(given: Given) -> int:
    """After how many changes a run stops: `--until` alone has the limit of meetings."""
    usual = CHANGES_ASKED if given.has("--until") else USUAL_CHANGES
    return given.whole("--changes") if given.has("--changes") else usual


def _meetings(given: Given, agents: int) -> int:
    """After how many meetings a run of so many agents stops; 0 for no limit."""
    most = given.whole("--meetings")
    if not given.has("--until"):
        return most
    until = given.number("--until")
    if not 0 < until <= MEETING_LIMIT / agents:
        raise UsageFault(f"`--until` is a number of meetings for each agent above 0, found {given.text('--until')}")
    return min(ceil(until * agents), most or MEETING_LIMIT)


def _graph(given: Given) -> str:
    """The graph of the jobs, a file by its whole path."""
    text = given.text("--graph") or ""
    if (text or given.has("--rounds")) and given.text("--by") == BY_RUN:
        raise UsageFault("`--by run` is of meetings of all pairs: it goes without `--graph` and `--rounds`")
    if (text or given.has("--rounds")) and given.text("--by") == BY_KERNEL:
        raise UsageFault("`--by kernel` is of meetings of all pairs: it goes without `--graph` and `--rounds`")
    return text if not text or is_by_name(text) else str(Path(text).absolute())


def _told(given: Given) -> str:
    """The words that say what was measured."""
    nets = [title_of(word) for word in given.words if "=" not in word]
    sizes = [word for word in given.words if "=" in word]
    usual = {option.name: option.usual for option in given.command.options}
    said = [f"{name} {given.text(name)}" for name in SAID if given.values[name] != usual[name]]
    return "  ".join([" ".join(nets), " ".join(sizes), *said, *(["--rounds"] if given.has("--rounds") else [])])


def do_jobs(words: list[str]) -> int:
    """Does the jobs that the words are, and prints a result on a line for each."""
    if not words:
        raise UsageFault(f"`{JOB_WORD}` is followed by jobs, as `pop sweep --list` prints them")
    for word in words:
        print(result_of(read_job(word)).line(), flush=True)
    return DONE


def _print_as_given(text: str) -> None:
    """Prints words for a shell: a name that is no UTF-8 by its own bytes."""
    sys.stdout.flush()
    sys.stdout.buffer.write(os.fsencode(text) + b"\n")


def _print_jobs(jobs: list[Job], chunk: int) -> None:
    """Prints a command for each job, or for so many together."""
    for at in range(0, len(jobs), chunk):
        some = [job.text() for job in jobs[at : at + chunk]]
        _print_as_given(shlex.join([str(POP), "sweep", JOB_WORD, *some]))


def _carry_out(given: Given, groups: list[Group], gathered: Gathered, rows: SweptRows) -> None:
    progress, many = Progress(), sum(len(group.jobs) for group in groups)

    def told() -> None:
        rows.print(progress.end)
        progress(lambda: f"{len(gathered.found):,} of {many:,} runs")

    places, hosts = given.whole("--jobs"), given.text("--hosts")
    try:
        if places > 1 or hosts:
            shared(first_jobs(groups), places, hosts, gathered, told)
            shared([job for group in groups for job in group.missing(gathered)], places, hosts, gathered, told)
        else:
            done_here(in_turn(groups, gathered), gathered, told)
    finally:
        progress.end()


def _stopped(given: Given) -> str:
    """Where a run stopped that came to no end."""
    said = [f"{_changes(given):,} changes"] if given.has("--changes") or not given.has("--until") else []
    said += [f"{given.whole('--meetings'):,} meetings"] if given.whole("--meetings") else []
    said += [f"{given.text('--until')} meetings for each agent"] if given.has("--until") else []
    return f"{NOT_WITHIN}: a run stopped after {' or '.join(said)}"


def run(given: Given) -> int:
    """Prints the table and how meetings grow; 4 where runs are missing."""
    gather, csv, journal = given.text("--gather"), given.text("--csv"), given.text("--journal")
    groups = _groups(given)
    jobs = [job for group in groups for job in group.jobs]
    gathered = Gathered(jobs)
    if gather is not None:
        read_folder(gather, gathered)
        if gathered.odd:
            many = "1 line that is no result" if gathered.odd == 1 else f"{gathered.odd} lines that are no results"
            print(f"pop: {gather}: passed over {many}", file=sys.stderr)
    if given.has("--list"):
        _print_jobs(gathered.missing(jobs), given.whole("--chunk"))
        return DONE
    rows = SweptRows(groups, gathered)
    if gather is None and journal is not None:
        with journal_of(journal, gathered):
            _carry_out(given, groups, gathered, rows)
    elif gather is None:
        _carry_out(given, groups, gathered, rows)
    made = rows.finish()
    missing = sum(len(group.missing(gathered)) for group in groups)
    if not made:
        raise InputFault(f"none of the {len(jobs)} runs has a result")
    if csv is not None:
        write_text(csv, csv_text(made, _told(given)))
    told = [*growths(made), *given_up(groups, gathered), *one_sided(groups)]
    told += [_stopped(given)] if any(row.undecided for row in made) else []
    text = "\n".join([quantiles(made), "", *told, "measured, and not proved"])
    print(text.replace("meetings to ", "rounds to ") if given.has("--rounds") else text)
    if missing:
        print(
            f"pop: {missing} of {len(jobs)} runs are missing; `--list` prints those that `--gather` doesn't find",
            file=sys.stderr,
        )
    return UNDECIDED if missing else DONE
