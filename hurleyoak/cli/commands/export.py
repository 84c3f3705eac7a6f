"""`pop export --coq [FILE]`: a certified bundle as a file for another prover."""
from __future__ import annotations

from ...building.coq import Refused, accepted
from ...engine import program
from ...saying import say
from ...protocol.laws import LAWS_TOLD
from ...simulation.crowds import split_words
from ...statuses import DONE
from ...text.coqfile import Said, coq_file
from ...text.loaded import strict_bundle
from ...writing import write_text
from ..progress import Progress
from ...text.files import STANDARD_INPUT
from ..table.reading import Given, takes
from ..usage import UsageFault
from . import warn
from .handed import TOOLS, handed
from .inputs import load_given

NO_BUNDLE = "nothing was written: a file for Coq is made of a valid bundle alone"
SOME_INPUTS = "nothing was written: no theorem for Coq speaks of some inputs alone"


def run(given: Given) -> int:
    """Prints the file for another tool; for Coq once the program has certified the bundle, and Coq too where `--check`
    asks it."""
    asked = [tool for tool in ("--coq", *TOOLS) if given.has(tool)]
    files, words = split_words(given.words)
    if len(asked) != 1 or len(files) > 1:
        raise UsageFault(f"`export` is for one tool, {', '.join(('--coq', *TOOLS))}: {takes(given.command)}")
    loaded = load_given(given, files[0] if files else STANDARD_INPUT)
    warn([told for told in loaded.warnings if told != LAWS_TOLD or asked == ["--coq"]], loaded.name)
    if asked[0] != "--coq":
        text = handed(given, asked[0], loaded, words)
        return _put(given, text)
    if words:
        raise UsageFault("a theorem is of all crowds: `--coq` goes without counts")
    bundle = strict_bundle(loaded)
    answer = program.check(bundle.line())
    claim = answer.claim
    if not claim or claim.condition:
        say([answer.first_line, SOME_INPUTS if claim.condition else NO_BUNDLE])
        return answer.status or program.REFUSED
    text = coq_file(bundle, loaded.name, Said(claim.kind.value, claim.bound, claim.is_tame))
    if given.has("--check") or given.has("--chk"):
        progress = Progress()
        try:
            told = accepted(text, progress, given.has("--chk"))
        except Refused as why:
            progress.end()
            say(why.lines)
            return why.status
        progress.end()
        say([", ".join([told[0], *answer.text.splitlines()]), *told[1:]])
    return _put(given, text)


def _put(given: Given, text: str) -> int:
    """Prints the file, or writes it whole."""
    path = given.text("--output")
    if path is None:
        print(text, end="")
    else:
        write_text(path, text)
    return DONE
