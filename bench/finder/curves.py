"""Measures the gallery: `python3 -m bench.finder.curves` writes docs/pictures and a list in CURVES.md beside this
file.

Each protocol has a run for its picture, and a sweep for its growth. All of it is a function of the words below.
"""
from __future__ import annotations

import sys
from pathlib import Path

from hurleyoak.simulation.crowds import counts_of, crowd_words
from hurleyoak.simulation.curves import Recorder
from hurleyoak.simulation.growth import EXPONENTIAL, GOOD, fits_of
from hurleyoak.show.pictures import draw_curve, save
from hurleyoak.show.series import shown_of
from hurleyoak.simulation.carrying import Limits, carry_out
from hurleyoak.simulation.simulation import Simulation
from hurleyoak.simulation.sizes import sizes_of
from hurleyoak.simulation.sweepjobs import BY_SIMULATE, Job, mark_of, result_of
from hurleyoak.simulation.table import Row, points, row_of
from hurleyoak.text.files import load_path
from hurleyoak.text.loaded import Loaded
from hurleyoak.engine.places import TOP

PICTURES = "docs/pictures"
PAGE = TOP / "bench" / "finder" / "CURVES.md"
BEGIN = "<!-- curves: written by `/usr/bin/python3 -m bench.finder.curves` -->"
END = "<!-- end of the curves -->"
PICTURE_CHANGES, SWEEP_CHANGES = 300_000, 100_000
RUNS, SEED = 31, 1
# two agents have to find each other here, after a time that varies much
NOISY, NOISY_RUNS = ("exactly-one", "found-out", "interval"), 301
COLUMNS = 2
PICTURE_BYTES = 200_000

# the file in examples, the crowd of the picture, the sizes of the sweep
CURVES: list[tuple[str, str, str]] = [
    ("and/and", "x=501 y=499", "x=11..352*2 y=x-1"),
    ("epidemic/epidemic", "x=1 y=999", "x=1 y=20..640*2"),
    ("exactly-one/exactly-one", "x=2 y=998", "x=2 y=20..640*2"),
    ("flock/flock", "x=1000", "x=20..640*2"),
    ("flock-of-1024/flock-of-1024", "x=4000", "x=2048..32768*2"),
    ("found/alarm", "warm=500 cold=499 reset=1", "warm=10..320*2 cold=warm reset=1"),
    ("found/angluin-remainder", "x=501 y=499", "x=11..352*2 y=x-1"),
    ("found/angluin-threshold", "x=480 y=520", "x=10..320*2 y=x+1"),
    ("found/approximate-majority", "x=520 y=480", "x=12..384*2 y=2*x/3"),
    ("found/average-and-conquer", "x=520 y=480", "x=3,4,5,6 y=x-1"),
    ("found/binary-flock-13", "x=500 y=500", "x=20..640*2 y=x"),
    ("found/binary-flock-100", "x=500 y=500", "x=250..4000*2 y=x"),
    ("found/counter", "x=999", "x=20..640*2"),
    ("found/either", "x=500 y=500", "x=10..320*2 y=x"),
    ("found/equal", "x=500 y=501", "x=2,3,4,5 y=x+1"),
    ("found/equal-that-tells", "x=500 y=501", "x=10..320*2 y=x+1"),
    ("found/flock-with-rest", "x=1000", "x=20..640*2"),
    ("found/found-out", "x=2 y=998", "x=2 y=20..640*2"),
    ("found/head-start", "x=510 y=480", "x=3,4,5,6 y=x-3"),
    ("found/head-start-that-tells", "x=510 y=480", "x=10..320*2 y=x-3"),
    ("found/helper-remainder", "x=999", "x=21..672*2"),
    ("found/interval", "x=2 y=998", "x=2 y=20..640*2"),
    ("found/majority-with-ties", "x=480 y=520", "x=2,3,4,5 y=x+1"),
    ("found/majority-with-ties-that-tells", "x=480 y=520", "x=10..320*2 y=x+1"),
    ("found/mod-three", "x=601 y=400", "x=1,4,7,10 y=3"),
    ("found/mod-three-that-tells", "x=601", "x=19..769*2"),
    ("found/product", "x=520 y=480", "x=10..320*2 y=x-1"),
    ("found/recall", "x=999 r=1", "x=20..640*2 r=1"),
    ("found/tower", "x=1000", "x=20..640*2"),
    ("found/twice", "x=599 y=300", "x=3,5,7,9 y=x/2+1"),
    ("found/twice-that-tells", "x=599 y=300", "x=19..639*2 y=x/2+1"),
    ("found/two-rumours", "x=10 y=10 z=980", "x=1 y=1 z=20..640*2"),
    ("found/unequal", "x=500 y=501", "x=2,3,4,5 y=x+1"),
    ("found/unequal-that-tells", "x=500 y=501", "x=10..320*2 y=x+1"),
    ("helper/helper", "x=999", "x=20..640*2"),
    ("majority/majority", "x=520 y=480", "x=3,4,5,6 y=x-1"),
    ("or/or", "x=520 y=480", "x=10..320*2 y=x-1"),
    ("remainder/remainder", "x=501 y=499", "x=11..352*2 y=x-1"),
    ("some-agent/some-agent", "x=1000", "x=20..640*2"),
    ("tellers/tellers", "x=520 y=480", "x=10..320*2 y=x-1"),
    ("threshold/threshold", "x=300 y=700", "x=10..320*2 y=2*x"),
]


def picture(loaded: Loaded, name: str, crowd: str) -> str:
    """Draws a run, and gives the picture's path in the repository."""
    counts = counts_of(loaded.net, crowd.split())
    run = Simulation(loaded.net, counts, SEED)
    recorder = Recorder()
    carry_out(run, Limits(changes=PICTURE_CHANGES), None, recorder.watch(run))
    path = f"{PICTURES}/{name}.svg"
    save(draw_curve(shown_of(recorder.curve(run, name, crowd_words(loaded.net, counts), SEED), None)), str(TOP / path))
    assert (TOP / path).stat().st_size < PICTURE_BYTES
    return path


def swept(loaded: Loaded, name: str, ranges: str) -> list[Row]:
    """The rows of a sweep."""
    mark = mark_of(loaded)
    rows = []
    runs = NOISY_RUNS if name in NOISY else RUNS
    for size in sizes_of(ranges.split()):
        crowd = " ".join(f"{variable}={k}" for variable, k in size.items())
        jobs = [
            Job(
                by=BY_SIMULATE,
                path=loaded.name,
                crowd=crowd,
                seed=seed,
                changes=SWEEP_CHANGES,
                meetings=0,
                predicate="",
                mark=mark,
            )
            for seed in range(runs)
        ]
        rows.append(row_of(name, crowd, [result_of(job, loaded) for job in jobs]))
    return rows


def growth(rows: list[Row], name: str) -> str:
    """How the median grows, in few words."""
    known = points(rows, name, "end")
    undecided = [row.n for row in rows if row.figures["end median"] is None]
    wrong = max(row.wrong or 0 for row in rows)
    told = []
    fits = fits_of([n for n, _ in known], [value for _, value in known])
    if fits:
        fitted = "no plain growth, nearest" if fits[0].off > GOOD else "about"
        shape = "exponential" if fits[0].shape == EXPONENTIAL else fits[0].text
        told.append(f"{fitted} {shape} meetings ({fits[0].off:.0%} off, n = {known[0][0]:,} to {known[-1][0]:,})")
    if undecided:
        told.append(f"undecided after {SWEEP_CHANGES:,} changes from n = {undecided[0]:,} on")
    if wrong:
        told.append(f"wrong in up to {wrong:.0%} of the runs")
    return "; ".join(told) or "too few sizes with a median"


def cell(name: str, path: str, loaded: Loaded, told: str, ranges: str) -> str:
    """One protocol of the list."""
    predicate = (loaded.predicate or "").replace("|", "\\|")  # (a bar would end the table's cell)
    return f"**{name}**: `{predicate}`<br>{told}; `{ranges}`<br>![{name}](../../{path})"


def main() -> None:
    """Writes all pictures and the list; with names as words, only prints their lines."""
    asked = sys.argv[1:]
    (TOP / PICTURES).mkdir(exist_ok=True)
    cells = []
    for file, crowd, ranges in CURVES:
        name = Path(file).name
        if asked and name not in asked:
            continue
        loaded = load_path(str(TOP / "examples" / f"{file}.pop"))
        told = growth(swept(loaded, name, ranges), name)
        cells.append(cell(name, picture(loaded, name, crowd), loaded, told, ranges))
        print(f"{name}: {told}", flush=True)
    if asked:
        return
    lines = ["| | |", "|---|---|"]
    lines += [
        "| " + " | ".join(one for one in cells[at : at + COLUMNS]) + " |" for at in range(0, len(cells), COLUMNS)
    ]
    before, rest = PAGE.read_text().split(BEGIN)
    PAGE.write_text(before + BEGIN + "\n\n" + "\n".join(lines) + "\n\n" + END + rest.split(END)[1])


if __name__ == "__main__":
    main()
