"""Measures the built program on graphs that it generates, and prints the rows of docs/PERFORMANCE.md.

    tools/figures PROGRAM [NAME ..]
    tools/figures PROGRAM --beside OTHER [NAME ..]
    tools/figures PROGRAM --more [NAME ..]

With `--beside` it also runs another program that takes the words `show`, `compile` and `check` next to each run. It prints the processor
time of both, and the ratio of the time of `cpgc` to that of the other. Both check the packs of `cpgc`, and then those of the other.

With `--more` it prints how much longer a play and audits of a pack take than its check, by the least of nine runs in turn. The audits are
of the logs of plays without faults, with one fault in the middle, with all possible faults there, and with all of them apart; of the first
half of a log; and of a log that no scenario gives.

Otherwise each run is the best of three, by processor time, with the most memory that it held. Execution times and edges are drawn from a
fixed seed, so the graphs are the same on every machine.
"""
from __future__ import annotations

import atexit
import os
import random
import shutil
import subprocess
import sys
import tempfile
from collections.abc import Callable, Iterator

from cpgc_tools import program
from cpgc_tools.graph import parsed
from cpgc_tools.play import Scenario, scenario_file
from cpgc_tools.stream import CLOSE, END, FRAME, record
from dev import extremes
from dev.measuring import TOP, Timed, graph, log_of, timed, words_with_program

ROOM = tempfile.mkdtemp()
atexit.register(shutil.rmtree, ROOM, True)


def at(name: str) -> str:
    """A file of the room."""
    return os.path.join(ROOM, name)


def written(name: str, content: str | bytes) -> str:
    """The same with its content."""
    with open(at(name), "wb") as it:
        it.write(content if isinstance(content, bytes) else content.encode())
    return at(name)


def played_log() -> str:
    """The log of the play that was the last output."""
    with open(at("said")) as it:
        return log_of(it.read())


def apart(count: int, faults: int) -> str:
    """Processes on one node without edges."""
    draw = random.Random(count)
    return graph(1, [(0, draw.randrange(10, 100), False, False) for _ in range(count)], faults=faults)


def chain(count: int, faults: int, frozen: bool = False) -> str:
    """One after another on one node."""
    draw = random.Random(count)
    return graph(1, [(0, draw.randrange(10, 100), frozen, False) for _ in range(count)], [(p, p + 1, None, False) for p in range(count - 1)], faults)


def spread(count: int, nodes: int, faults: int, conditions: int = 0, edges: int = 1, every: int = 0, seed: int = 1) -> str:
    """Processes in turn on the nodes, each behind some of those before it; some processes decide which of two others runs."""
    draw = random.Random(seed)
    deciding = [count * (c + 1) // (conditions + 2) for c in range(conditions)]
    made: list[tuple[int, int, bool | None, bool]] = []
    guarded: set[int] = set()
    for c in deciding:
        made += [(c, c + 1, True, False), (c, c + 2, False, False)]
        guarded |= {c + 1, c + 2}
    for p in range(1, count):
        if p in guarded:
            continue
        choice = [q for q in range(max(0, p - 8), p) if q not in guarded and q not in deciding]
        for q in draw.sample(choice, min(len(choice), edges)):
            made.append((q, p, None, False))
    return graph(nodes, [(p % nodes, draw.randrange(10, 100), every > 0 and p % every == 0, False) for p in range(count)], made, faults)


def deciding(count: int) -> str:
    """On one node processes that decide nothing but whether one other each runs."""
    edges = [(p, count + p, True, False) for p in range(count)]
    return graph(1, [(0, 10, False, False)] * (2 * count), edges, faults=0)


def sending(count: int, far: int, faults: int) -> str:
    """A node of which the last processes send to one each on a second node."""
    nodes = [(0, 100 if p < count - far else 10, False, False) for p in range(count)] + [(1, 10, False, False)] * far
    return graph(2, nodes, [(count - far + p, count + p, None, False) for p in range(far)], faults)


def controller() -> str:
    return (TOP / "examples" / "controller.toml").read_text()


GRAPHS: dict[str, Callable[[], str]] = {
    "the controller": controller,
    "22 on one node without edges, k 4: 14,950 scenarios": lambda: apart(22, 4),
    "44 on one node without edges, k 3: 16,215 scenarios": lambda: apart(44, 3),
    "128 on one node without edges, k 2: 8,385 scenarios": lambda: apart(128, 2),
    "a chain of 40 on one node, k 3: 12,341 scenarios": lambda: chain(40, 3),
    "a chain of 40 frozen ones on one node, k 8: 377,348,994 scenarios": lambda: chain(40, 8, True),
    "60 on four nodes, two conditions, k 2: 7,564 scenarios": lambda: spread(60, 4, 2, 2),
    "the same, every third process frozen": lambda: spread(60, 4, 2, 2, every=3),
    "60 on four nodes, three conditions, k 2: 15,128 scenarios": lambda: spread(60, 4, 2, 3),
    "64 on sixteen nodes, k 1": lambda: spread(64, 16, 1),
    "128 on four nodes, eight conditions, k 0: 256 tracks": lambda: spread(128, 4, 0, 8, 2),
    "14 conditions on one node, k 0: 16,384 tracks": lambda: deciding(14),
    "64 on sixteen nodes without edges, k 8: 11,969,016,345 scenarios": lambda: graph(16, [(p % 16, 10, False, False) for p in range(64)], faults=8),
    "128 on two nodes, 14 of which send, k 2": lambda: sending(114, 14, 2),
}


def chosen(names: list[str]) -> Iterator[tuple[str, str, str]]:
    """The graphs of these names, or all: the name of each, its text and its file."""
    for name, make in GRAPHS.items():
        if not names or any(it in name for it in names):
            text = make()
            yield name, text, written("graph.toml", text)


def beside(program: str, other: str, names: list[str]) -> None:
    """Both programs on the same files."""

    def row(name: str, command: str, words: list[str]) -> None:
        ours, theirs = timed([program, *words], at("ours")), timed([other, *words], at("theirs"))
        if ours[0] != theirs[0]:
            print(f"| {name} | `{command}` | status {ours[0]} | status {theirs[0]} | | |")
            return
        print(f"| {name} | `{command}` | {ours[1] * 1e3:.1f} ms | {theirs[1] * 1e3:.1f} ms | {ours[1] / max(theirs[1], 1e-6):.1f} | {ours[2]:.0f} MiB |", flush=True)

    print("| graph | command | `cpgc` | the other | ratio | memory |")
    for name, _, file in chosen(names):
        own, foreign = at("own.pack"), at("foreign.pack")
        row(name, "show", ["show", file])
        row(name, "compile", ["compile", file])
        made = timed([program, "compile", file], own)[0] == 0 and timed([other, "compile", file], foreign)[0] == 0
        if made:
            row(name, f"check, its own pack of {os.path.getsize(own) / 1e6:.1f} MB", ["check", file, own])
            row(name, f"check, the other's of {os.path.getsize(foreign) / 1e6:.1f} MB", ["check", file, foreign])


def more(program: str, names: list[str]) -> None:
    """Plays and audits beside the check of their pack."""
    logs = ["none", "one", "all in one", "all spread", "half", "impossible"]
    print("| pack | `check` | `play` | " + " | ".join(f"`audit`: {log}" for log in logs) + " |")
    for name, text, file in chosen(names):
        pack = at("tables.pack")
        if timed([program, "compile", file], pack)[0]:
            continue
        processes, k = list(parsed(file, text.encode()).number), parsed(file, text.encode()).faults
        middle = len(processes) // 2
        spread = [len(processes) * (part + 1) // (k + 1) for part in range(k)]
        scenarios: dict[str, dict[int, int]] = {"none": {}, "one": {middle: min(k, 1)}, "all in one": {middle: k}, "all spread": dict.fromkeys(spread, 1)}
        runs = {"check": ["check", file, pack]}
        acts: dict[str, tuple[int, list[tuple[int, str]]]] = {}
        for log, faults in scenarios.items():
            scenario = Scenario({processes[p]: count for p, count in faults.items() if count})
            play = ["play", file, pack, written("scenario", scenario_file(scenario, processes)), "--turns", "0"]
            if timed([program, *play], at("said"), 1)[0]:
                continue  # a process that isn't active has no faults
            head, *lines = played_log().splitlines()
            acts[log] = int(head.split()[1]), [(int(line.split(" ", 1)[0]), line.split(" ", 1)[1]) for line in lines]
            if log == "none":
                runs["play"] = [*play[:3], written("empty", ""), *play[4:]]
        until, all_acts = acts["none"]
        half = all_acts[len(all_acts) // 2][0]
        acts["half"] = half, [act for act in all_acts if act[0] <= half]
        acts["impossible"] = until + 1, [(time + 1, act) for time, act in all_acts]
        for log, (end, kept) in acts.items():
            runs[log] = ["audit", file, pack, written(log, "\n".join([f"until {end}", *(f"{time} {act}" for time, act in kept), ""]))]
        least: dict[str, float] = {}
        for _ in range(9):
            for run, words in runs.items():
                least[run] = min(least.get(run, 9e9), timed([program, *words], at("said"), 1)[1])
        shown = [f"{least[run] - least['check']:+.3f} s" if run in least else "" for run in ["play", *logs]]
        print(f"| {name} | {least['check']:.3f} s | " + " | ".join(shown) + " |", flush=True)


def told(what: Timed) -> str:
    status, took, most, said = what
    return (f"{took:.2f} s | {most:.0f} MiB" if status == 0 else f"{took:.2f} s, {said.decode().strip()} | {most:.0f} MiB")


def columns_of(pack: str) -> int:
    """How many columns the rows of a pack have."""
    count = "import sys; from cpgc_tools import pack; print(sum(len(row.columns) for rows in pack.read(sys.argv[1]).rows for row in rows))"
    # (in a process of its own: a program that this one starts is charged with what this one holds)
    return int(subprocess.run([sys.executable, "-c", count, pack], cwd=TOP / "tools", capture_output=True, check=True).stdout)


def stream_of(count: int) -> bytes:
    """So many records for node N2 of examples/pair.toml: a frame again and again, the end of B, and the close."""
    return record(FRAME, 90, 2, 1) * (count - 2) + record(END, 105, 1, 0) + record(CLOSE, 105)


def main() -> None:
    words = words_with_program(__doc__)
    words.add_argument("--beside", metavar="OTHER", type=program.found, help="another program that takes the same words")
    words.add_argument("--more", action="store_true", help="plays and audits beside checks")
    words.add_argument("names", metavar="NAME", nargs="*", help="parts of names of graphs")
    said = words.parse_intermixed_args()
    if said.beside:
        beside(said.program, said.beside, said.names)
    elif said.more:
        more(said.program, said.names)
    else:
        measure(said.program, said.names)


def measure(program: str, names: list[str]) -> None:
    """The rows of PERFORMANCE."""
    empty, pack = written("empty.toml", ""), at("tables.pack")
    for name, _, file in chosen(names):
        show, compiled = timed([program, "show", file], at("text")), timed([program, "compile", file], pack)
        if compiled[0]:
            print(f"| `compile` | {name} | {told(compiled)} |")
            continue
        print(f"| `show` | {name} | {told(show)} |")
        print(f"| `compile` | the same: {columns_of(pack):,} columns, {os.path.getsize(pack) / 1e6:.1f} MB | {told(compiled)} |")
        print(f"| `check` | its pack | {told(timed([program, 'check', file, pack], at('said')))} |")
        print(f"| `play` | its pack, in the scenario without faults | {told(timed([program, 'play', file, pack, empty, '--turns', '0'], at('said')))} |")
        print(f"| `audit` | that play's log | {told(timed([program, 'audit', file, pack, written('log', played_log())], at('said')))} |", flush=True)
    pair = str(TOP / "examples" / "pair.toml")
    timed([program, "compile", pair], at("pair.pack"))
    written("stream", stream_of(1_000_000))
    print(f"| `live` | the pair, a stream of 1,000,000 records | {told(timed([program, 'live', at('pair.pack'), 'N2', at('stream')], at('said')))} |")
    for name in ("single", "pair", "controller"):
        file = os.path.join(os.path.dirname(pair), f"{name}.toml")
        print(f"| `tune` | examples/{name}.toml | {told(timed([program, 'tune', file], at('said')))} |")
    for number in ("0", "7", "12345"):
        print(f"| `trial` | {number} | {told(timed([program, 'trial', number], at('said')))} |")
    for name in extremes.CASES:
        words = extremes.written(name, written)
        print(f"| `{words[0]}` | {name} | {told(timed([program, *words], at('said')))} |", flush=True)
