"""What the tools that measure share: the graph files that they make, and runs of the built program."""
import os
import subprocess
from collections.abc import Callable, Iterable, Sequence
from pathlib import Path
from typing import Any

from cpgc_tools import cli, program
from cpgc_tools.graph import spelled

TOP = Path(__file__).resolve().parents[2]
Timed = tuple[int, float, float, bytes]  # a status, seconds, MiB, and the error stream


def words_with_program(text: str | None) -> cli.Words:
    """Words whose first is the built program."""
    words = cli.Words(text)
    words.add_argument("program", metavar="PROGRAM", type=program.found, help="the built cpgc")
    return words


def graph(nodes: int, processes: Iterable[tuple[Any, ...]], edges: Iterable[tuple[Any, ...]] = (), faults: int = 2, deadline: int = 10**9, slot: int = 10,
          costs: tuple[int, int, int] = (2, 3, 5)) -> str:
    """A graph file: processes are (node, wcet, frozen, join) or (node, wcet, frozen, join, parts), edges (from, to, when, frozen); each
    node has a slot of the same length, and costs are alpha, chi and mu of all processes."""
    alpha, chi, mu = costs
    return spelled({
        "faults": faults, "deadline": deadline, "node": [{"name": f"N{n}"} for n in range(nodes)],
        "slot": [{"node": f"N{n}", "length": slot, "bytes": 8} for n in range(nodes if nodes > 1 else 0)],
        "process": [{"name": f"p{p}", "node": f"N{node}", "wcet": wcet, "alpha": alpha, "chi": chi, "mu": mu, **dict(zip(("parts",), parts)), **set_of(frozen=frozen, join=join)}
                    for p, (node, wcet, frozen, join, *parts) in enumerate(processes)],
        "edge": [{"from": f"p{a}", "to": f"p{b}", **({} if when is None else {"when": when}), **set_of(frozen=frozen)} for a, b, when, frozen in edges]})


def set_of(**flags: bool) -> dict[str, bool]:
    """Those that are set."""
    return {name: True for name, flag in flags.items() if flag}


def log_of(trace: str) -> str:
    """All acts of a play, as a log until its last event."""
    events = [line.split() for line in trace.splitlines() if line[0].isdigit()]
    return "\n".join([f"until {events[-1][0] if events else 0}", *[" ".join(it) for it in events if it[2] != "end"], ""])


def timed(words: Sequence[str], out: str, times: int = 3, begin: Callable[[], None] | None = None) -> Timed:
    """Runs, and returns the status, the processor time in seconds, the most memory in MiB and what it said of an error. Each run calls `begin`
    first, in the process that runs."""
    best: Timed | None = None
    for _ in range(times):
        with open(out, "wb") as it:
            child = subprocess.Popen(words, stdout=it, stderr=subprocess.PIPE, preexec_fn=begin)
            said = child.stderr.read() if child.stderr else b""
            _, status, usage = os.wait4(child.pid, 0)
        took = usage.ru_utime + usage.ru_stime
        if best is None or took < best[1]:
            best = os.waitstatus_to_exitcode(status), took, usage.ru_maxrss / 1024, said
        if took > 2:
            break
    assert best
    return best
