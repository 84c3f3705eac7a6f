"""`pop serve [FILE]`: one local web page on which an author works with a protocol."""
from __future__ import annotations

import sys
from importlib import import_module

from ...faults import InputFault
from ...statuses import DONE
from ..usage import UsageFault
from ..table.reading import Given


def run(given: Given) -> int:
    """Answers until it is interrupted."""
    port = given.whole("--port")
    if given.words == ["-"]:
        raise UsageFault("it takes no standard input: name a file, or none")
    try:
        import_module("tornado.web")
    except ImportError:
        raise InputFault("pop serve needs Tornado: apt-get install python3-tornado") from None
    from ...serve.document import Document
    from ...serve.guard import new_key
    from ...serve.library import needs_editor
    from ...serve.web import serve

    needs_editor()
    document = Document(given.words[0]) if given.words else None
    if document is not None:
        document.text()
    try:
        serve(port, new_key(), document, _say)
    except OSError as error:
        raise InputFault(f"pop serve: port {port}: {error.strerror}") from None
    return DONE


def _say(address: str) -> None:
    print(f"open {address} in a browser; anyone with this address may use the page. Ctrl-C ends it", flush=True)
    print("the page asks the proved program; what it only measures or plays it says so", file=sys.stderr, flush=True)
