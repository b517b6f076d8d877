"""What the pictures of tables and of plays share."""
from __future__ import annotations

from collections.abc import Collection, Iterator
from dataclasses import dataclass

from cpgc_tools import cli
from cpgc_tools.graph import Graph
from cpgc_tools.svg import Axis, Canvas, Entry

SLOT, EMPTY, STRIKE = "#eef0f2", "#9aa0a6", "\u00d7"
RIGHT = 34  # what is left free on the right


@dataclass(frozen=True)
class Options:
    """What is to be drawn, and how wide."""

    nodes: frozenset[int]
    begin: int = 0
    end: int | None = None
    rows: int = 1
    width: int = 900
    due: str | None = None


def windows(options: Options, end: int) -> list[tuple[int, int]]:
    """The stretches of time of the rows into which the picture wraps."""
    low, high = options.begin, options.end if options.end is not None else max(end, options.begin + 1)
    if low >= high:
        cli.fail(f"--from {low} isn't before --to {high}")
    each = -(-(high - low) // options.rows)
    return [(low + each * row, min(low + each * (row + 1), high)) for row in range(options.rows) if low + each * row < high]


def until(deadline: int, end: int) -> int:
    """How far the axis goes for what ends then: to the deadline too, if it isn't much later."""
    return -(-max(end, deadline if deadline * 5 <= end * 6 else 0) * 103 // 100) or 1


def slots(graph: Graph, nodes: Collection[int], axis: Axis) -> list[tuple[int, int]]:
    """The slots of these nodes in a stretch of time, as (begin, node), or none where they would be too narrow to see."""
    if not graph.round or axis.wide(graph.round) < 4 * (len(nodes) + 1):
        return []
    rounds = range(axis.low // graph.round, axis.high // graph.round + 1)
    found = sorted((number * graph.round + graph.slot_of[node].begin, node) for number in rounds for node in graph.slot_of if node in nodes)
    return [(begin, node) for begin, node in found if axis.holds(begin, graph.arrival(node, begin))]


def item_text(graph: Graph, kind: str, number: int) -> str:
    if kind == "send":
        edge = graph.edges[number]
        return f"e{number} {graph.processes[edge.source].name}>{graph.processes[edge.target].name}"
    return ("tell " if kind == "tell" else "") + graph.processes[number].name


def is_frozen(graph: Graph, kind: str, number: int) -> bool:
    return kind == "start" and graph.processes[number].frozen or kind == "send" and graph.edges[number].frozen


def of_graph(graph: Graph, deadline: int) -> str:
    def count(number: int, what: str) -> str:
        return f"{number} {what}{'' if number == 1 else 'es' if what.endswith('s') else 's'}"

    processes, nodes, faults = count(len(graph.processes), "process"), count(len(graph.nodes), "node"), count(graph.faults, "fault")
    return f"{processes} on {nodes}, at most {faults}, deadline {deadline}."


def mark_entries(canvas: Canvas, frozen: bool, release: bool, due: bool) -> Iterator[Entry]:
    """The entries of a legend for the marks that both kinds of picture have."""
    if frozen:
        yield 7, lambda x, y: canvas.diamond(x + 3.5, y), "frozen: one time in all scenarios"
    if release:
        yield 6, lambda x, y: canvas.arrow(x + 3, y + 6, y - 6), "release"
    if due:
        yield 6, lambda x, y: canvas.arrow(x + 3, y - 6, y + 6), "due"
