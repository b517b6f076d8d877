"""What a text of `cpgc show` says, and tables of words for people."""
from __future__ import annotations

import json
from collections.abc import Iterator, Sequence

from cpgc_tools.graph import Graph


def order(table: str) -> list[str]:
    """The order of the processes, by name."""
    return table.splitlines()[0].split(" ")[1:]


def worst(table: str) -> str:
    """The line on the latest end of all scenarios, as `worst 105`."""
    return table.splitlines()[1]


def latest_end(table: str) -> int:
    return int(worst(table).split(" ")[1])


def columns_of(table: str) -> dict[str, list[str]]:
    """The items of the text, each with its columns."""
    found: dict[str, list[str]] = {}
    item = ""
    for line in table.splitlines():
        if line.startswith("  "):
            found[item].append(line.strip())
        elif line.split(" ", 1)[0] in ("start", "send", "tell"):
            item = " ".join(line.split(" ")[:2])
            found[item] = []
    return found


def idle(table: str) -> list[str]:
    """The processes that are started in no scenario."""
    return [item.split()[1] for item, columns in columns_of(table).items() if item.startswith("start ") and not columns]


def idle_lines(graph: Graph, names: Sequence[str]) -> Iterator[str]:
    """For each process that never runs, though all that it waits for do in some scenario, a line on it."""
    idle_ones = {graph.number[name] for name in names}
    for name in names:
        inputs = graph.inputs(graph.processes[graph.number[name]])
        if any(it.source in idle_ones for it in inputs):
            continue
        shown = [graph.processes[it.source].name + ("" if it.when is None else f" {json.dumps(it.when)}") for it in inputs]
        after = [other for other in names if other != name and graph.number[name] in graph.before(graph.number[other])]
        rest = f", nor does what waits for it: {' '.join(after)}" if after else ""
        yield f"{name} never runs: its inputs ({', '.join(shown)}) never come together{rest}; join = true takes one of them"


def in_columns(rows: Sequence[Sequence[object]]) -> Iterator[str]:
    """Lines of texts and numbers under each other, the first two of a row to the left."""
    widths = [max(len(str(row[i])) for row in rows if i < len(row)) for i in range(max(map(len, rows)))]
    for row in rows:
        cells = [str(cell).ljust(width) if i < 2 else str(cell).rjust(width) for i, (cell, width) in enumerate(zip(row, widths))]
        yield "  " + "  ".join(cells).rstrip()
