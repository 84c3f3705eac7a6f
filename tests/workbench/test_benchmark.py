"""The benchmark of `find`: late nets are wrong where they say, and the tables are those of the lines."""
from __future__ import annotations

from pathlib import Path

import pytest

pytest.importorskip("scipy")

from bench.finder import benchmark  # noqa: E402
from bench.finder.late import late_nets  # noqa: E402
from hurleyoak.search.explore import explore  # noqa: E402
from hurleyoak.text.loaded import LoadedNet  # noqa: E402

LINES = """late	flock	x >= 5, asked for 6	6	15	5	0.1	played, 5 agents		
late	tower	x >= 20, asked for 21	21	39	20	2.5	neither: wrong end		
published	tower	x >= 200	201	399	0	13.5	certified 199	203,604	779 s (quoted: a paper)
mutants	flock	one	5	10	0	0.2	certified 2	9,5	
mutants	flock	two	5	10	0	0.4	played, 3 agents		
"""


def test_late_nets_are_wrong_at_their_least_crowd() -> None:
    made = list(late_nets())
    assert len(made) >= 52 and max(least for least, _ in made) == 4096
    for least, case in made:
        if least > 6:
            continue
        tree = LoadedNet("x", case.net, case.predicate, [case.predicate]).part_trees()[0]
        flaw, _ = explore(case.net.leaves[0], tree, least, 60.0)
        assert flaw is not None and sum(flaw.counts) == least, case.name


def test_tables_are_those_of_the_lines(tmp_path: Path, monkeypatch: pytest.MonkeyPatch) -> None:
    path, page = tmp_path / "find.txt", tmp_path / "page.md"
    path.write_text(benchmark.HEADER + "\n" + LINES)
    page.write_text(f"before\n{benchmark.BEGIN}\nold\n{benchmark.END}\nbehind\n")
    monkeypatch.setattr(benchmark, "RESULTS", path)
    monkeypatch.setattr(benchmark, "PAGE", page)
    assert "\n".join(line.text() for line in benchmark.known()) + "\n" == LINES
    benchmark.write()
    told = page.read_text()
    assert told.startswith("before\n") and told.endswith("\nbehind\n") and "old" not in told
    assert "| tower: x >= 200 | 201 | 399 | 13.5 | 203, 604 | certified 199 | 779 s (quoted: a paper) |" in told
    assert "| 1 to 7 agents | 1 | 1 | 1 | 0.1 |" in told and "| 17 to 64 agents | 1 | 0 | 0 | 2.5 |" in told
    assert "| certified | 1 | 0.2 |" in told and "| played | 1 | 0.4 |" in told
    benchmark.write()
    assert page.read_text() == told
