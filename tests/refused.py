#!/usr/bin/python3
"""Refuses each request for memory in turn, in runs of the built program of their own.

Run from the top of the repository: tests/refused.py [--short | --long] [PROGRAM]; --short is the usual, and --long has
the cases with most requests too. The C library's allocating calls are replaced, for the program alone, by ones of
which the call with a given number gives nothing; they stand below, and gcc builds them. For each case the number
counts up from 1, until a run in which nothing was refused. A run in which something was refused must end with the
status 8 and print nothing, or give the whole answer. The status of the script is 1 where one does neither, or where no
call of a case was refused. On threads the runs differ, so there the whole answer is one that `replay` holds, with a
status of an end. Last, the same is done to a test of the field, which `rt ci` builds: no assertion of it may fail.
"""

from __future__ import annotations

import os
import subprocess
import sys
import tempfile

TOP = os.path.dirname(os.path.dirname(os.path.abspath(__file__)))
IS_SHORT = "--long" not in sys.argv[1:]
GIVEN = [word for word in sys.argv[1:] if word not in ("--short", "--long")]
PROGRAM = GIVEN[0] if GIVEN else os.path.join(TOP, "crates/pop_main/out/pop_main")
TESTS = os.path.join(TOP, "crates/run_tests/out/run_tests_tests")
FIELD_TEST = "refusals::a_refusal_leaves_the_seats"
EXAMPLES = os.path.join(TOP, "examples")
OUT_OF_MEMORY = 8
ENDED = (0, 4)
# the words, the input, and the words that judge the text, if it is no function of both
Case = tuple[list[str], bytes, list[str] | None]
REPLAY = ["replay"]
REPLAY_WATCHED = ["replay", "--watched"]

REFUSING = r"""
#include <errno.h>
#include <stdatomic.h>
#include <stddef.h>
#include <stdlib.h>
#include <unistd.h>

extern void *__libc_malloc(size_t);
extern void *__libc_calloc(size_t, size_t);
extern void *__libc_realloc(void *, size_t);
extern void *__libc_memalign(size_t, size_t);

static atomic_ulong calls;
static unsigned long wanted;

__attribute__((constructor)) static void begin(void) {
    const char *number = getenv("REFUSED_CALL");
    wanted = number ? strtoul(number, NULL, 10) : 0;
    atomic_store(&calls, 0);
}

static int is_refused(void) {
    if (wanted == 0 || atomic_fetch_add(&calls, 1) + 1 != wanted) return 0;
    (void)!write(2, "refused\n", 8);
    errno = ENOMEM;
    return 1;
}

void *malloc(size_t size) { return is_refused() ? NULL : __libc_malloc(size); }
void *calloc(size_t count, size_t size) { return is_refused() ? NULL : __libc_calloc(count, size); }
void *realloc(void *old, size_t size) { return is_refused() ? NULL : __libc_realloc(old, size); }
void *memalign(size_t align, size_t size) { return is_refused() ? NULL : __libc_memalign(align, size); }
void *aligned_alloc(size_t align, size_t size) { return memalign(align, size); }
int posix_memalign(void **out, size_t align, size_t size) {
    void *found = memalign(align, size);
    if (!found) return ENOMEM;
    *out = found;
    return 0;
}
"""


def contents(path: str) -> bytes:
    with open(os.path.join(EXAMPLES, path), "rb") as file:
        return file.read()


def bundle_and_crowd(name: str) -> bytes:
    return contents(f"{name}/bundle.json") + contents(f"{name}/crowd.txt")


def written(words: list[str], data: bytes) -> bytes:
    """What the program writes with all memory."""
    return subprocess.run([PROGRAM, *words], input=data, capture_output=True, timeout=60).stdout


def cases() -> dict[str, Case]:
    """Each case by its name."""
    majority, short_run = contents("majority/bundle.json"), ["run", "--turns", "2"]
    compiled, crowded = written(["compile"], b"vars x\nx = 2\n"), ["run", "--workers", "4", "--shards", "2"]
    many, goals = majority + b"crowd x=120 y=80\n", contents("stable/two-looks.json")
    return {
        "play": (["play"], contents("majority/play.txt"), None),
        "eval": (["eval"], b"vars x y\n2*x - y < 5 && x + y = 1 mod 3\ncrowd x=0 y=1\n", None),
        "check": (["check"], majority, None),
        "check of two leaves": (["check"], contents("and/bundle.json"), None),
        "check of goals": (["check"], goals, None),
        "check with entries": (["check"], contents("stable/restless-flock.json"), None),
        "show": (["show"], majority, None),
        "compile": (["compile"], b"vars x\nx < 1\n", None),
        "compile --flocks": (["compile", "--flocks"], b"vars x\nx >= 4\n", None),
        "compile --succinct": (["compile", "--succinct"], b"vars x\nx >= 3 && x = 0 mod 2\n", None),
        "run of two compiled leaves": (short_run, compiled + b"crowd x=2\n", None),
        "run": (short_run, majority + b"crowd x=1 y=1\n", None),
        "run by four workers": (crowded, many, REPLAY),
        "run by goals": (short_run, goals + b"crowd x=1 y=1\n", None),
        "watch": (["watch", "--turns", "2", "--workers", "2"], bundle_and_crowd("majority"), REPLAY_WATCHED),
        "replay": (["replay"], contents("replays/held.txt"), None),
        "replay of four workers": (["replay"], written(crowded, many), None),
        "replay of a changed mark": (["replay"], contents("replays/changed-mark.txt"), None),
        "replay by goals": (["replay"], written(short_run, goals + b"crowd x=1 y=1\n"), None),
        "settle": (["settle"], bundle_and_crowd("majority"), None),
        "settle by goals": (["settle"], goals + b"crowd x=1 y=1\n", None),
        "demo": (["demo", "0"], b"", None),
    }


LONG = {"check of two leaves", "run of two compiled leaves", "demo"}


def run(library: str, words: list[str], data: bytes, call: int) -> tuple[int, bytes, bool]:
    """The status, the text, and whether the call with this number was refused."""
    environment = {"LD_PRELOAD": library, "REFUSED_CALL": str(call)}
    done = subprocess.run([PROGRAM, *words], input=data, capture_output=True, env=environment, timeout=60)
    return done.returncode, done.stdout, b"refused" in done.stderr


def holds(words: list[str], text: bytes) -> bool:
    """Whether the program, with these words and with all memory, replays the text as a journal that holds."""
    done = subprocess.run([PROGRAM, *words], input=text, capture_output=True, timeout=60)
    return done.returncode == 0 and done.stdout.startswith(b"holds ")


def is_whole(answer: tuple[int, bytes], judge: list[str] | None, status: int, text: bytes) -> bool:
    """Whether this is the whole answer: the one that came with all memory, or a journal that holds."""
    if judge is None:
        return (status, text) == answer
    return status in ENDED and holds(judge, text)


def count(library: str, name: str, words: list[str], data: bytes, judge: list[str] | None) -> int:
    """Prints how many calls were refused in turn, and gives the number of runs that did what they may not."""
    answer = run(library, words, data, 0)[:2]
    silent, wrong, call = 0, 0, 1
    while True:
        status, text, refused = run(library, words, data, call)
        if not refused:
            break
        is_silent = (status, text) == (OUT_OF_MEMORY, b"")
        silent += is_silent
        if not is_silent and not is_whole(answer, judge, status, text):
            wrong += 1
            print(f"DIFFERS {name}: call {call} refused, status {status}, {text[:80]!r}")
        call += 1
    if call == 1:
        wrong += 1
        print(f"DIFFERS {name}: no call was refused, so it takes no memory of the C library, as a program of `rt try`")
    print(
        (
            f"{name}: {call - 1} calls refused in turn, {silent} times out of memory, {call - 1 - silent} times the"
            " whole answer"
        ),
        flush=True,
    )
    return wrong


def count_test(library: str) -> int:
    """The same of the test of the field, whose own requests end it where they are refused."""
    wrong, call = 0, 1
    while True:
        environment = {"LD_PRELOAD": library, "REFUSED_CALL": str(call)}
        done = subprocess.run([TESTS, FIELD_TEST], capture_output=True, env=environment, timeout=60)
        if b"refused" not in done.stderr:
            break
        wrong += b"assert" in done.stdout + done.stderr
        call += 1
    print(f"{FIELD_TEST}: {call - 1} calls refused in turn, {wrong} times an assertion failed", flush=True)
    return wrong + (done.returncode != 0)


def main() -> int:
    with tempfile.TemporaryDirectory() as folder:
        source, library = os.path.join(folder, "refusing.c"), os.path.join(folder, "refusing.so")
        with open(source, "w") as file:
            file.write(REFUSING)
        subprocess.run(["gcc", "-O1", "-shared", "-fPIC", "-o", library, source], check=True)
        wrong = sum(count(library, name, *case) for name, case in cases().items() if not (IS_SHORT and name in LONG))
        if os.path.exists(TESTS):
            wrong += count_test(library)
        else:
            print(f"skipped {FIELD_TEST}: it isn't built (rt ci)")
        return 1 if wrong else 0


if __name__ == "__main__":
    sys.exit(main())
