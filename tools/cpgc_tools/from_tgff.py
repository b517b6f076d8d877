"""Makes a graph file from a TGFF task graph and a mapping of its tasks to nodes.

    from-tgff FILE MAPPING > graph.toml
    from-tgff --graph N FILE MAPPING > graph.toml

FILE is what TGFF writes (.tgff): blocks @TASK_GRAPH with TASK, ARC and HARD_DEADLINE, and blocks of tables that give numbers by type, such
as @PE 0. The columns of a table are named in the comment above it. MAPPING is a TOML file with what TGFF doesn't know:

    faults = 1                      required, k
    scale = 10                      time units for one of FILE (1 by default)
    deadline = 300                  of the graph, in its time units (the period by default)
    bytes = 4                       of each message; or by the type of its arc: bytes = { table = "COMMUN 0", column = "bytes" }
    node = [{ name = "N1", table = "PE 0", column = "exec_time" }, ..]     where the times of its tasks are, by type
    slot = [{ node = "N1", length = 10, bytes = 8 }, ..]                   as in a graph file
    [task]                          on which node a task runs; `*` in a name stands for anything, and the first that fits counts
    "t0_*" = "N1"
    [process]                       keys of all processes
    alpha = 1
    [process.t0_3]                  keys of one, such as parts, release, frozen
    parts = 2

A task becomes a process, an arc an edge, and a hard deadline the process's own deadline. Soft deadlines and everything else are left out.
Times are rounded up and deadlines down, and a time is at least 1. If a table has a column `valid`, rows with a 0 there don't count; if a
type has several rows, the greatest number counts. If FILE has several task graphs, N says which; `cpgc hyper` joins the graphs of several.

For example, `from-tgff --graph 0 engine.tgff engine-mapping.toml > engine.toml` with the files of docs/examples.
"""
from __future__ import annotations

import math
import re
from collections.abc import Iterable, Mapping as Entries
from fnmatch import fnmatchcase
from fractions import Fraction
from typing import Any, NoReturn

from cpgc_tools import cli, graph
from cpgc_tools.toml_places import Table as Document

NUMBER = re.compile(r"[-+]?(\d+(\.\d*)?|\.\d+)([eE][-+]?\d{1,3})?", re.ASCII)
LONGEST = 100  # a number, in digits; and a line that is shown
KEYS = "faults", "scale", "deadline", "bytes", "node", "slot", "task", "process"
OWN = graph.keys_of("process")[3:]  # what a mapping may say of a process


class Table:
    """Rows of numbers by type. The names of the columns stand in the comment above them, which begins with `type`."""

    def __init__(self) -> None:
        self.names: list[str] = []
        self.rows: list[dict[str, Fraction]] = []

    def line(self, text: str) -> None:
        numbers, _, comment = text.partition("#")
        if not numbers:
            self.names = comment.split() if comment.split()[:1] == ["type"] else self.names
        elif self.names:
            self.rows.append(dict(zip(self.names, map(number, numbers.split()))))

    def of(self, kind: Fraction, column: str) -> Fraction | None:
        """The greatest number of a column in the rows of a type, or None."""
        rows = [it for it in self.rows if it.get("type") == kind and it.get("valid", 1) != 0]
        return max((it[column] for it in rows if column in it), default=None)


class TaskGraph:
    def __init__(self) -> None:
        self.period: Fraction | None = None
        self.tasks: dict[str, Fraction] = {}
        self.arcs: list[tuple[str, str, Fraction]] = []
        self.deadlines: dict[str, Fraction] = {}

    def line(self, text: str) -> None:
        words = text.partition("#")[0].split() or [""]
        told = dict(zip(words[2::2], words[3::2]))
        if words[0] == "PERIOD":
            self.period = number(words[1])
        elif words[0] == "TASK":
            self.tasks[words[1]] = number(told["TYPE"])
        elif words[0] == "ARC":
            self.arcs.append((told["FROM"], told["TO"], number(told["TYPE"])))
        elif words[0] == "HARD_DEADLINE":
            self.deadlines[told["ON"]] = min(number(told["AT"]), self.deadlines.get(told["ON"], number(told["AT"])))


Block = Table | TaskGraph


def number(text: str) -> Fraction:
    if len(text) > LONGEST or not NUMBER.fullmatch(text):
        raise ValueError(f"{text[:LONGEST]} is no number")
    return Fraction(text)


def blocks(text: str) -> dict[str, Block]:
    """The blocks of a file by their names, as `TASK_GRAPH 0`. Raises ValueError with the line that isn't understood."""
    found: dict[str, Block] = {}
    block: Block | None = None
    for count, line in enumerate(map(str.strip, text.splitlines()), 1):
        try:
            if block is None and (head := re.fullmatch(r"@(\w+)(?:\s+(\d+))?\s*\{", line)):
                block = TaskGraph() if head[1] == "TASK_GRAPH" else Table()
                found[" ".join(filter(None, head.groups()))] = block
            elif line == "}":
                block = None
            elif block is not None and line:
                block.line(line)
        except (ValueError, KeyError, IndexError) as fault:
            raise ValueError(f"line {count}: {line[:LONGEST]}" + (f" ({fault})" if isinstance(fault, ValueError) else "")) from None
    return found


class Mapping:
    """What a mapping file says. A mistake in it ends the tool with a line."""

    def __init__(self, path: str, document: Document) -> None:
        self.path, self.document = path, document
        self.known(document, KEYS, "the mapping")
        self.faults = self.checked("top", {"faults": self.key(document, "faults", int, "the mapping")}, "the mapping")["faults"]
        self.nodes: dict[str, Document] = {}
        for it in self.key(document, "node", list, "the mapping"):
            name = self.key(it, "name", str, "a node")
            self.checked("node", {"name": name}, "a node")
            if name in self.nodes:
                self.fail(f"node {name} is there twice")
            self.nodes[name] = it
        self.tasks = self.key(document, "task", dict, "the mapping")
        self.scale = self.scaled(self.key({"scale": 1, **document}, "scale", (int, float), "the mapping"))
        keys = self.key({"process": {}, **document}, "process", dict, "the mapping")
        self.common = {key: it for key, it in keys.items() if not isinstance(it, dict)}
        self.own = {key: it for key, it in keys.items() if isinstance(it, dict)}
        for name, entry in {"process": self.common, **self.own}.items():
            self.known(entry, OWN, name)
            self.checked("process", entry, name)
        self.slots = self.key({"slot": [], **document}, "slot", list, "the mapping")
        for slot in self.slots:
            if not isinstance(slot, dict):
                self.fail("a slot is no table")
            self.known(slot, graph.keys_of("slot"), "a slot")
            self.checked("slot", slot, "a slot")
        for key in ("deadline",) if "deadline" in document else ():
            self.checked("top", {key: document[key]}, "the mapping")

    def known(self, table: Entries[str, object], keys: Iterable[str], where: str) -> None:
        for key in table:
            if key not in keys:
                self.fail(f"{where} has no key {key}")

    def checked(self, kind: str, entry: Document, where: str) -> Document:
        """Keys of a graph file, which have its types and ranges."""
        for key, value in entry.items():
            if not graph.has_type(kind, key, value) or not graph.in_range(kind, key, value):
                self.fail(f"{where} has no {key} of the right type: {graph.shown(value)} isn't {graph.wanted(kind, key)}")
        return entry

    def scaled(self, scale: float) -> Fraction:
        if isinstance(scale, bool) or not math.isfinite(scale) or scale <= 0:
            self.fail("the mapping has no scale of the right type: it is a number above 0")
        return Fraction(str(scale))

    def fits(self, tasks: list[str]) -> None:
        """Each task that is named has to be one of the file."""
        for pattern in [*self.tasks, *self.own]:
            if not any(fnmatchcase(task, pattern) for task in tasks):
                self.fail(f"{pattern} is no task of the file")

    def fail(self, why: str) -> NoReturn:
        cli.fail(f"{self.path}: {why}")

    def key(self, table: object, name: str, kind: type | tuple[type, ...], where: str) -> Any:
        if not isinstance(table, dict) or not isinstance(table.get(name), kind):
            self.fail(f"{where} has no {name} of the right type")
        return table[name]

    def node(self, task: str) -> str:
        """On which node a task runs."""
        name = next((node for pattern, node in self.tasks.items() if fnmatchcase(task, pattern)), None)
        if not isinstance(name, str) or name not in self.nodes:
            self.fail(f"task {task} is on no node" if name is None else f"task {task} is on {name}, which is no node")
        return name

    def by_type(self, tables: Entries[str, Block], place: Document, kind: Fraction, what: str) -> Fraction:
        """The number of a type in the table and the column that a place names."""
        name, column = (self.key(place, it, str, what) for it in ("table", "column"))
        table = tables.get(name)
        if not isinstance(table, Table):
            self.fail(f"{what} names the table {name}, which the file doesn't have")
        found = table.of(kind, column)
        if found is None:
            self.fail(f"type {kind} of {what} has no {column} in the table {name}")
        return found


def graph_of(tasks: TaskGraph, tables: Entries[str, Block], mapping: Mapping) -> Document:
    """The graph of a task graph."""

    def up(time: Fraction) -> int:
        return max(math.ceil(time * mapping.scale), 1)

    def down(time: Fraction) -> int:
        return max(math.floor(time * mapping.scale), 0)

    document = mapping.document
    if "deadline" in document:
        deadline = document["deadline"]
    elif tasks.period is None:
        mapping.fail("the task graph has no period, so the mapping has to say a deadline")
    else:
        deadline = down(tasks.period)
    processes, edges = [], []
    for name, kind in tasks.tasks.items():
        node = mapping.node(name)
        wcet = up(mapping.by_type(tables, mapping.nodes[node], kind, f"task {name}"))
        due = {"deadline": down(tasks.deadlines[name])} if name in tasks.deadlines else {}
        entry = {"name": name, "node": node, "wcet": wcet, **due, **mapping.common, **mapping.own.get(name, {})}
        processes.append(mapping.checked("process", entry, f"task {name}"))
    for source, to, kind in tasks.arcs:
        size = mapping.key(document, "bytes", (int, dict), "the mapping")
        bytes_ = size if isinstance(size, int) else math.ceil(mapping.by_type(tables, size, kind, "bytes"))
        edges.append(mapping.checked("edge", {"from": source, "to": to, "bytes": bytes_}, f"the arc from {source} to {to}"))
    nodes = [{"name": name} for name in mapping.nodes]
    top = mapping.checked("top", {"faults": mapping.faults, "deadline": deadline}, "the mapping")
    return {**top, "node": nodes, "slot": mapping.slots, "process": processes, "edge": edges}


def chosen(path: str, found: Entries[str, Block], wanted: int | None) -> TaskGraph:
    """The task graph of a number, or the only one."""
    made = {name: it for name, it in found.items() if isinstance(it, TaskGraph)}
    if wanted is None and len(made) == 1:
        return next(iter(made.values()))
    if wanted is None or f"TASK_GRAPH {wanted}" not in made:
        cli.fail(f"{path}: say by --graph which of its task graphs: {', '.join(it.split()[-1] for it in made) or 'there is none'}")
    return made[f"TASK_GRAPH {wanted}"]


def main() -> None:
    words = cli.Words(__doc__).with_files("FILE", "MAPPING")
    words.add_argument("--graph", metavar="N", type=cli.whole(0, 10**9), help="which task graph of FILE")
    said = words.parse_args()
    try:
        found = blocks(cli.read(said.file, cli.GRAPH).decode(errors="replace"))
    except ValueError as fault:
        cli.fail(f"{said.file}: {fault}")
    mapping = Mapping(said.mapping, graph.toml_of(said.mapping, cli.read(said.mapping, cli.GRAPH))[1])
    mapping.fits([task for it in found.values() if isinstance(it, TaskGraph) for task in it.tasks])
    cli.write(graph.spelled(graph_of(chosen(said.file, found, said.graph), found, mapping)))
