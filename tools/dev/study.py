"""Measures what one table for all scenarios costs, and makes the tables and pictures of docs/STUDY.md.

    tools/study PROGRAM [--into FOLDER] [--seconds N] [--jobs N] [--only FAMILY]
    tools/study --quick PROGRAM
    tools/study --page

PROGRAM is the built `cpgc`. Graphs are drawn by fixed seeds (tools/dev/study_graphs.py), and what `explore` searches with is ended by numbers of
tries (tools/dev/study_found.py). What is measured goes into files of comma-separated values in FOLDER, docs/study where nothing is said: a line
for each graph. Lines that stand there are kept, so that a run that was ended goes on; delete a file to have it measured anew. With --seconds it
begins no graph after so many seconds. Where all lines are there, the tables and the pictures are made of those in docs/study, which --page does
alone.

With --quick it measures a small part anew, fails where one figure differs from the stored one, and fails where the tables and pictures
aren't what the stored figures make. All of it is whole numbers that are the same on every machine, but for times.csv: that file has
processor times, and --quick doesn't look at it.
"""
from __future__ import annotations

import csv
import functools
import sys
import tempfile
import time
from collections.abc import Iterator, Sequence
from concurrent.futures import ProcessPoolExecutor
from pathlib import Path
from typing import Any

from cpgc_tools import cli
from dev import study_page, study_runs
from dev.measuring import TOP
from dev.study_found import measure_merged, measure_orders, measure_placed, measure_rates, placed_graphs, rate_systems
from dev.study_given import CELL, condition_graphs, fault_graphs, measure_condition, measure_faults, measure_times, time_graphs
from dev.study_runs import Wrong

STORED = TOP / "docs" / "study"
FAMILIES = {
    "conditions": (condition_graphs, measure_condition, ("graph", "slot")),
    "orders": (condition_graphs, measure_orders, ("graph", "slot")),
    "merged": (condition_graphs, measure_merged, ("graph", "slot")),
    "faults": (fault_graphs, measure_faults, ("graph", "k")),
    "placed": (placed_graphs, measure_placed, ("graph", "k")),
    "rates": (rate_systems, measure_rates, ("system", "kind")),
    "times": (time_graphs, measure_times, ("graph", "k", "frozen")),
}


def one_of(family: str, program: str, until: float, what: Any) -> Any:
    """What is measured of one, or nothing after a time."""
    return FAMILIES[family][1](program, what) if time.monotonic() < until else None


def each(family: str, program: str, whats: Sequence[Any], jobs: int, until: float = float("inf")) -> Iterator[tuple[Any, Any]]:
    """Each with what is measured of it, in their order; several at once, and none is begun after one that failed."""
    with tempfile.TemporaryDirectory() as place:
        pool = ProcessPoolExecutor(jobs, initializer=study_runs.begin, initargs=(place,))
        try:
            yield from zip(whats, pool.map(functools.partial(one_of, family, program, until), whats))
        finally:
            pool.shutdown(cancel_futures=True)


def key_of(line: Any, keys: Any) -> Any:
    return tuple(str(line[key]) for key in keys)


def is_quick(family: str, what: Any) -> bool:
    """The part that --quick measures anew."""
    if family == "rates":
        return bool(what["system"] % 15 == 7)
    number: int = what["graph"]
    if family in ("conditions", "merged"):
        return number % CELL in (4, 9)
    if family == "orders":
        return number % (2 * CELL) == 40 or what["slot"] != "2" and number % (5 * CELL) == 7
    if family == "faults":
        return number % 16 in (4, 8) and what["k"] <= (3 if what["processes"] == 20 else 1)
    return family == "placed" and what["processes"] == 20 and number % 40 == 24


def stored(place: Path, family: str) -> Any:
    """The stored lines by key."""
    path = place / f"{family}.csv"
    if not path.exists():
        return {}
    with open(path, newline="") as it:
        return {key_of(line, FAMILIES[family][2]): line for line in csv.DictReader(it)}


def measure(program: str, place: Path, until: float, jobs: int, only: str | None) -> bool:
    """Measures what isn't there yet, and says whether all is there."""
    place.mkdir(parents=True, exist_ok=True)
    whole = only is None
    for family, (graphs, _, keys) in FAMILIES.items():
        if only not in (None, family):
            continue
        have, path = stored(place, family), place / f"{family}.csv"
        left = [what for what in graphs() if key_of(what, keys) not in have]
        heads = list(next(iter(have.values()), {}))
        with open(path, "a", newline="") as it:
            for done, (_, line) in enumerate(each(family, program, left, 1 if family == "times" else jobs, until)):
                if line is None:
                    whole = False
                    break
                heads = heads or list(line)
                writer = csv.DictWriter(it, heads, lineterminator="\n")
                if it.tell() == 0:
                    writer.writeheader()
                writer.writerow(line)
                it.flush()
                if sys.stderr.isatty():
                    print(f"\r{family} {done + 1} of {len(left)} ", end="", file=sys.stderr)
    return whole


def quick(program: str, jobs: int) -> None:
    """Fails where a small part, measured anew, differs from what is stored, or the page from what it makes."""
    count = 0
    for family, (graphs, _, keys) in FAMILIES.items():
        have, all_of_it = stored(STORED, family), list(graphs())
        if [key_of(what, keys) for what in all_of_it] != list(have):
            raise Wrong(f"{family}.csv has other lines than the study")
        chosen = [what for what in all_of_it if is_quick(family, what)]
        for what, line in each(family, program, chosen, jobs):
            old = have.get(key_of(what, keys), {})
            for name in {**line, **old}:
                if old.get(name) != str(line.get(name)):
                    raise Wrong(f"{family}.csv, {' '.join(key_of(what, keys))}, {name}: stored {old.get(name)}, measured {line.get(name)}")
            count += 1
    study_page.check(TOP)
    print(f"{count} lines measured as stored; tables and pictures are what is stored")


def measured() -> None:
    parser = cli.Words(__doc__)
    parser.add_argument("program", metavar="PROGRAM", nargs="?", type=Path)
    parser.add_argument("--quick", action="store_true")
    parser.add_argument("--page", action="store_true")
    parser.add_argument("--into", metavar="FOLDER", type=Path, default=STORED)
    parser.add_argument("--seconds", metavar="N", type=float, default=float("inf"))
    parser.add_argument("--jobs", metavar="N", type=int, default=2)
    parser.add_argument("--only", metavar="FAMILY", choices=list(FAMILIES))
    words = parser.parse_args()
    if words.page == (words.program is not None):
        raise Wrong("either a program or --page; --help says more")
    if words.page:
        return study_page.write(TOP)
    program = str(words.program.resolve())
    if words.quick:
        return quick(program, words.jobs)
    if not measure(program, words.into, time.monotonic() + words.seconds, words.jobs, words.only):
        print("not all is measured; the next run goes on")
    elif words.into == STORED:
        study_page.write(TOP)


def main() -> None:
    try:
        measured()
    except (Wrong, OSError, study_page.Differs) as wrong:
        cli.fail(str(wrong))
