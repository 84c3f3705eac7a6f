"""Pages in one file: nothing is fetched from elsewhere, and a browser runs no other script than the page's own."""
from __future__ import annotations

import base64
import hashlib
import json

TRUSTED = "require-trusted-types-for 'script'; trusted-types 'none'"


def _hash(text: str) -> str:
    """By which a browser knows a script or a style that is meant to be there."""
    return f"'sha256-{base64.b64encode(hashlib.sha256(text.encode()).digest()).decode()}'"


def policy(script: str, style: str) -> str:
    """What the page may do: run this script, use this style, and nothing else."""
    return (
        f"default-src 'none'; script-src {_hash(script)}; style-src {_hash(style)}; base-uri 'none'; form-action"
        f" 'none'; {TRUSTED}"
    )


def data(value: object) -> str:
    """JSON that ends no element: names of states may have any signs."""
    return (
        json.dumps(value, separators=(",", ":"))
        .replace("<", "\\u003c")
        .replace(">", "\\u003e")
        .replace("&", "\\u0026")
    )
