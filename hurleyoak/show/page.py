"""An explanation as one self-contained page. What shows the proof is the module of `pop serve`, with its style."""
from __future__ import annotations

from html import escape

from .drawing import drawn
from .explaining import Explanation
from .modules import one_script, web_file
from .onefile import data, policy
from .pagestyle import SCRIPT, STYLE
from .values import explanation_value


def _script() -> str:
    return one_script("proof") + "const { h } = module_dom;\nconst { render } = module_proof;\n" + SCRIPT


def page(explanation: Explanation) -> str:
    """The whole page: nothing in it is fetched from elsewhere. Without scripts it shows the text."""
    good = bool(explanation.claim)
    style, script = web_file("colours.css") + web_file("proof.css") + STYLE, _script()
    parts = [
        '<!doctype html><html lang="en"><head><meta charset="utf-8">',
        f'<meta http-equiv="Content-Security-Policy" content="{policy(script, style)}">',
        (
            '<meta name="viewport" content="width=device-width,initial-scale=1"><meta name="color-scheme"'
            ' content="light dark">'
        ),
        f"<title>{escape(explanation.bundle.pred)}</title><style>{style}</style></head>",
        (
            f'<body><main><h1><code>{escape(explanation.bundle.pred)}</code></h1><p class="verdict'
            f' {"good" if good else "refused"}">{escape(explanation.line)}</p>'
        ),
        (
            "<p class=\"small\">The first line is the proved program's. The rest of this page is the workbench's own"
            " reading of the same bundle.</p>"
        ),
        (
            f'<noscript><pre>{escape(drawn(explanation))}</pre></noscript><div id="proof"></div></main><div id="says"'
            " hidden></div>"
        ),
        f'<script type="application/json" id="data">{data(explanation_value(explanation))}</script>',
        f'<script type="module">{script}</script></body></html>',
    ]
    return "\n".join(parts) + "\n"
