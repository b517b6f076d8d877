"""Draws systems with two periods by number, and shows how many of them a search for an order brings in time.

    tools/two-rate PROGRAM FROM TO
    tools/two-rate --choice --seconds 10 --any 20 PROGRAM FROM TO

`cpgc hyper` makes each of two parts. They have 3 to 6 processes on 1 to 3 nodes, each node is loaded to at most 87%, and k is 0 or 1. With
--choice each part has a condition, and k is 0 to 2. A line for each system has its status with the program as it is, with what
`explore --quick` finds, with what `explore --goal in-time` finds in some processor seconds, and with a longer search from another seed, and
the processor seconds of each. A search isn't made if an earlier one was in time, or if no order can be.

For example, `tools/two-rate cpgc 0 80` draws 80 systems.
"""
from __future__ import annotations

import random
import subprocess
import tempfile
import time
from pathlib import Path
from typing import Any

from cpgc_tools import cli, graph
from cpgc_tools.explore.bound import bound
from cpgc_tools.explore.command import SHARE, WALKS
from cpgc_tools.explore.course import Course, Here, Words
from cpgc_tools.explore.reckoning import Plan
from cpgc_tools.explore.search import Search, of_plain

PERIODS = (100, 150), (100, 200), (120, 160), (200, 300)
CHOICE_PERIODS = (100, 300), (100, 400), (200, 300)


def edges_of(draw: random.Random, names: list[str], choice: bool) -> list[dict[str, Any]]:
    if not choice or len(names) < 4:
        return [{"from": names[draw.randrange(max(0, i - 3), i)], "to": names[i]} for i in range(1, len(names)) if draw.random() < 0.7]
    fork = [{"from": names[0], "to": names[1], "when": True}, {"from": names[0], "to": names[2], "when": False}]
    meet = [{"from": names[1], "to": names[3]}, {"from": names[2], "to": names[3]}]
    return fork + meet + [{"from": names[draw.randrange(3, i)], "to": names[i]} for i in range(4, len(names)) if draw.random() < 0.7]


def part(draw: random.Random, letter: str, count: int, nodes: int, period: int, load: float, faults: int, slot: int, choice: bool) -> dict[str, Any]:
    """A part in which each node that has a process is loaded so."""
    names = [f"{letter}{i}" for i in range(count)]
    node = [draw.randrange(nodes) for _ in names]
    edges = edges_of(draw, names, choice)
    share = [draw.uniform(0.4, 1.6) for _ in names]
    sums = [sum(it for it, n in zip(share, node) if n == here) for here in range(nodes)]
    wcet = [max(1, int(it / sums[n] * period * load)) for it, n in zip(share, node)]
    processes: list[dict[str, Any]] = [{"name": name, "node": f"N{n}", "wcet": it} for name, n, it in zip(names, node, wcet)]
    for i, it in enumerate(processes):
        it.update({"mu": 1} if faults else {}, **({"join": True} if choice and count >= 4 and i == 3 else {}))
    return {
        "faults": faults, "deadline": period, "node": [{"name": f"N{n}"} for n in range(nodes)],
        "slot": [{"node": f"N{n}", "length": slot, "bytes": 8} for n in range(nodes)], "process": processes, "edge": edges}


def drawn(number: int, choice: bool) -> list[tuple[int, str]]:
    """The periods and the graph files of the two parts."""
    draw = random.Random(f"two-rate {number} {choice}")
    nodes, faults = draw.choice((1, 2, 3)), draw.choice((0, 1, 2) if choice else (0, 0, 1))
    periods, slot = draw.choice(CHOICE_PERIODS if choice else PERIODS), draw.choice((1, 2, 5))
    least, less = 4 if choice else 3, 1 + faults * 0.6 if choice else 1
    loads = draw.uniform(0.3, 0.45) / less, draw.uniform(0.2, 0.42) / less
    counts = draw.randint(least, 5), draw.randint(least, 6)
    drawn_by = zip("ab", counts, periods, loads)
    return [(period, graph.spelled(part(draw, letter, count, nodes, period, load, faults, slot, choice))) for letter, count, period, load in drawn_by]


def unrolled(program: str, folder: Path, number: int, choice: bool) -> Path:
    words: list[str] = []
    for period, text in drawn(number, choice):
        path = folder / f"{number}-{len(words)}.toml"
        path.write_text(text)
        words += [str(period), str(path)]
    made = folder / f"{number}.toml"
    made.write_bytes(subprocess.run([program, "hyper", *words], check=True, capture_output=True).stdout)
    return made


def asked(program: str, folder: Path, it: graph.Graph) -> int:
    """The status of the program on a graph."""
    path = folder / "asked.toml"
    path.write_text(it.text())
    return subprocess.run([program, "show", path], capture_output=True, check=False).returncode


def found(program: str, folder: Path, it: graph.Graph, words: Words, seconds: float) -> tuple[int, float]:
    """The status of the program on the best that is found, and the processor seconds that this took."""
    begun = time.process_time()
    course = Course(it, {}, words)
    while not course.is_over() and time.process_time() - begun < seconds:
        course.go(Here())
    took = time.process_time() - begun
    order = of_plain(course.best[0][1]).order
    assert order is not None
    return asked(program, folder, it.changed(top={"order": [it.processes[p].name for p in order]})), took


def main() -> None:
    words = cli.Words(__doc__)
    words.add_argument("--choice", action="store_true", help="parts with a condition")
    words.add_argument("--seconds", type=float, default=10.0, help="processor seconds of the search (10)")
    words.add_argument("--any", type=float, default=20.0, help="processor seconds of the longer search (20)")
    words.add_argument("program", metavar="PROGRAM")
    words.add_argument("first", metavar="FROM", type=int)
    words.add_argument("last", metavar="TO", type=int)
    said = words.parse_args()
    sums: dict[str, int] = {}
    with tempfile.TemporaryDirectory() as place:
        folder = Path(place)
        for number in range(said.first, said.last):
            path = unrolled(said.program, folder, number, said.choice)
            it = graph.read(str(path))
            now, line = asked(said.program, folder, it), [f"{number}: {len(it.processes)} processes, k {it.faults}"]
            best = now
            whole = Search(it, {}, "shortest")
            tries = {
                "quick": (Words("shortest", 1, 1, whole.quick_tries(), whole.quick_tries(), None), 60.0),
                "explore": (Words("in-time", 1, WALKS, None, SHARE, None), said.seconds),
                "any": (Words("in-time", 7, WALKS, None, SHARE, None), said.any)}
            least = bound(Plan(whole.problem, whole.base)).late
            ends = {"as it is": now}
            for name, (words_of, seconds) in tries.items():
                if name == "quick" or best and least <= 0:
                    status, took = found(said.program, folder, it, words_of, seconds)
                    best = min(best, status)
                    line.append(f"{name} {status} in {took:.2f} s")
                    ends[name] = status
                else:
                    ends[name] = best
            line.insert(1, f"as it is {now}")
            line += [f"no order is late by less than {least}"] if least > 0 else []
            cli.write_lines([", ".join(line)])
            cli.flush()
            for name, status in [*ends.items(), ("can't be in time", int(least <= 0)), ("quick spoils", int(not (now == 0 and ends["quick"] != 0)))]:
                sums[name] = sums.get(name, 0) + (status == 0)
    cli.write_lines([f"{name}: {count}" for name, count in sums.items()])
