"""The notebook of examples/: its cells run, and give what it keeps of them."""
from __future__ import annotations

import pytest

from tests.notebook import outputs

from .conftest import EXAMPLES, needs_program


@needs_program
def test_the_notebook_runs() -> None:
    pytest.importorskip("scipy")
    pytest.importorskip("numpy")
    cells = outputs(EXAMPLES / "notebook.ipynb")
    assert len(cells) >= 8
    for source, kept, given in cells:
        assert given == kept, source
