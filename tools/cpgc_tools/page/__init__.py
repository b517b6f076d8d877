"""Writes a page that shows a graph's tables in every scenario: one file for a browser, which needs no network.

    page GRAPH PACK > page.html
    page GRAPH PACK --due OTHER > page.html

With `--due` the due times are those of another graph file with the same processes. This is for a graph that is rejected as late: compile
a copy of it with later deadlines, and show the due times of the original. The page picks the column of each item that fits the scenario.
It doesn't judge the pack: `cpgc check` does that.

For example, `cpgc compile pair.toml > pair.pack && page pair.toml pair.pack > pair.html`.
"""
from __future__ import annotations

import base64
import json
import pkgutil
import re
from collections.abc import Iterable, Sequence
from typing import Any

from cpgc_tools import cli, graph, pack
from cpgc_tools.graph import Graph, Process
from cpgc_tools.pack import VALUES, Column, Pack, literals

EXACT = 2**53  # from here on a browser's numbers leave some out


def rows_of(it: Graph, tables: Pack, path: str) -> list[Sequence[Column]]:
    """The rows of all starts and sends by item. What a node hears is left out, once it is found to be what is sent, later by the slot."""
    acts = {row.item.number: (node, row) for node, row in tables.acts()}
    for rows in tables.rows:
        for row in rows:
            node, sent = acts[row.item.number]
            length = it.slot_of[node].length if node in it.slot_of else 0
            if row.heard and list(row.columns) != [(time + length, cube) for time, cube in sent.columns]:
                cli.fail(f"{path}: what a node hears isn't what is sent; `cpgc check` says where")
    most, found = limits(it), [acts[number][1].columns for number in sorted(acts)]
    if not all(low <= high <= most[variable] for columns in found for _, cube in columns for variable, low, high in literals(cube)):
        cli.fail(f"{path}: no pack")
    if any(time >= EXACT for columns in found for time, _ in columns):
        cli.fail(f"{path}: a time is too great for a browser's numbers; `cpgc check` says whether it is lawful")
    return found


def limits(it: Graph) -> list[int]:
    """The greatest number of each variable; that of one that the graph doesn't have is below all numbers."""
    counts = [it.faults] * len(it.processes) + [-1] * VALUES
    return counts[:VALUES] + [1] * len(it.deciding) + [-1] * (VALUES - len(it.deciding))


def small(number: int, out: bytearray) -> None:
    """A number in groups of seven bits, the lowest first; all but the last have the highest bit set."""
    while number > 127:
        out.append(number & 127 | 128)
        number >>= 7
    out.append(number)


def encoded(rows: Iterable[Sequence[Column]]) -> str:
    """All rows, in few bytes: of each its count, of each column its time, the count of its literals, and of each its variable and range."""
    out = bytearray()
    for columns in rows:
        small(len(columns), out)
        for time, cube in columns:
            small(time, out)
            out.append(len(cube) // 3)
            for variable, low, high in literals(cube):
                out += bytes([variable, low << 4 | high])
    return base64.b64encode(out).decode()


def process_data(it: Graph, process: Process, due: int) -> dict[str, Any]:
    numbers = {key: getattr(process, key) for key in ("wcet", "parts", "alpha", "chi", "mu", "release")}
    flags = {"join": process.join, "frozen": process.frozen, "condition": process.condition is not None}
    durations = [process.duration(faults) for faults in range(it.faults + 1)]
    return {"name": process.name, "node": process.node, **numbers, "due": due, **{key: int(flag) for key, flag in flags.items()}, "durations": durations}


def data(it: Graph, dues: Graph) -> dict[str, Any]:
    """What the page is told of a graph, with the due times of another file of it."""
    return {
        "faults": it.faults, "deadline": dues.deadline, "nodes": it.nodes, "slots": [[slot.node, slot.length] for slot in it.slots],
        "processes": [process_data(it, process, other.due) for process, other in zip(it.processes, dues.processes)],
        "edges": [[edge.source, edge.target, -1 if edge.when is None else int(edge.when), int(edge.frozen)] for edge in it.edges]}


def read_graph(path: str) -> Graph:
    it = graph.read(path)
    try:
        it.sources_first()
    except ValueError:
        cli.fail(f"{path}: its edges lead around")
    return it


def page(graph_path: str, pack_path: str, due_path: str | None = None) -> str:
    it, tables = read_graph(graph_path), pack.read(pack_path)
    if found := pack.difference(it, tables):
        cli.fail(f"{pack_path}: other graph {found.part}")
    rows, dues = rows_of(it, tables, pack_path), read_graph(due_path) if due_path else it
    if list(dues.number) != list(it.number):
        cli.fail(f"{due_path}: its processes are others")
    whole = {"files": {"graph": graph_path, "pack": pack_path, "due": due_path}, **data(it, dues), "tables": encoded(rows)}
    return inlined(json.dumps(whole, separators=(",", ":")).replace("<", "\\u003c"))


def part(name: str) -> str:
    """A part of the page."""
    return (pkgutil.get_data("cpgc_tools.page", name) or b"").decode()


def inlined(values: str) -> str:
    """page.html with its parts and the data put into it."""
    text = re.sub(r'<link rel="stylesheet" href="([a-z.]+)">', lambda it: f"<style>\n{part(it[1])}</style>", part("page.html"))
    text = re.sub(r'<script src="([a-z.]+)"></script>', lambda it: f"<script>\n{part(it[1])}</script>", text)
    text = re.sub(r"\{\{([a-z]+\.js)\}\}\n", lambda it: part(it[1]), text)
    return text.replace("{{DATA}}", values)


def main() -> None:
    words = cli.Words(__doc__).with_files("GRAPH", "PACK")
    words.add_argument("--due", metavar="OTHER", help="a graph file whose due times are shown in place of those of GRAPH")
    said = words.parse_args()
    cli.write(page(said.graph, said.pack, said.due))
