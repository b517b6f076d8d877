"""The one model of a graph: what its file says, with the places at which it says it.

    file = graph.File("pair.toml")              # whatever stands there: bytes, text, document, places; nothing is asked of it
    it = graph.read("pair.toml")                # a Graph, or the tool ends by a line
    it.processes[0].duration(1)                 # how long an execution with one fault lasts
    it.changed(process={0: {"wcet": 5}})        # another Graph; a key that is None is left out
    it.text()                                   # a graph file, with each entry on a line

Names, types and ranges are those of graph.schema.json; docs/FORMATS.md has the keys. That a Graph is one that cpgc admits is asked of cpgc.
"""
from __future__ import annotations

import datetime
import functools
import json
import os
import pkgutil
import re
from collections.abc import Collection, Iterator, Mapping, Sequence
from dataclasses import dataclass
from typing import Any

from cpgc_tools import cli
from cpgc_tools.toml_places import Places, Table, document

NAME = re.compile(r"[A-Za-z0-9_.-]{1,32}")
LIMIT = 10**9  # of a time in a graph file
LONGEST_SHOWN = 300
KINDS = ("node", "slot", "process", "edge")  # of the entries of a graph
TYPES = {"integer": int, "string": str, "boolean": bool, "array": list}

# What the schema says of the keys.


@functools.cache
def schema() -> Table:
    found: Table = json.loads(pkgutil.get_data("cpgc_tools", "graph.schema.json") or b"")
    return found


def table_of(kind: str) -> Table:
    """What the schema says of an entry, or of the graph, which is the kind `top`."""
    found: Table = schema() if kind == "top" else schema()["definitions"][kind]
    return found


@functools.cache
def keys_of(kind: str) -> tuple[str, ...]:
    return tuple(table_of(kind)["properties"])


@functools.cache
def rule_of(kind: str, key: str) -> Table | None:
    """What the schema says of a key, or nothing."""
    entry: Table | None = table_of(kind)["properties"].get(key)
    refers = entry and (entry.get("$ref") or next((it["$ref"] for it in entry.get("allOf", [])), None))
    return {**schema()["definitions"][refers.rsplit("/", 1)[1]], **entry} if entry and refers else entry


def has_type(kind: str, key: str, value: object) -> bool:
    """Whether a value has the type of its key: a name is a text of the form of a name."""
    rule = rule_of(kind, key)
    if rule is None or type(value) is not TYPES[rule["type"]]:
        return False
    if isinstance(value, list):
        return all(is_name(it) if kind == "top" and key == "order" else isinstance(it, dict) for it in value)
    return not isinstance(value, str) or is_name(value)


def is_name(value: object) -> bool:
    return isinstance(value, str) and NAME.fullmatch(value) is not None


def in_range(kind: str, key: str, value: object) -> bool:
    """Whether a value of the right type is in the range of its key."""
    rule = rule_of(kind, key) or {}
    if isinstance(value, list):
        return len(value) <= int(rule.get("maxItems", len(value)))
    return type(value) is not int or bool(rule["minimum"] <= value <= rule["maximum"])


def lawful(kind: str, entry: object) -> Table:
    """An entry with the defaults of keys that it doesn't have. Raises ValueError where the schema doesn't hold."""
    if not isinstance(entry, dict):
        raise ValueError(f"a {kind} is no table")
    for key, value in entry.items():
        if not has_type(kind, key, value) or not in_range(kind, key, value):
            raise ValueError(f"{kind}: {key}")
    if missing := [key for key in table_of(kind)["required"] if key not in entry]:
        raise ValueError(f"{kind}: no {missing[0]}")
    return {**defaults(kind), **entry}


def shown(value: object) -> str:
    """A value as a sentence shows it: as it stands in a file, but cut where it is long."""
    if isinstance(value, (datetime.date, datetime.time, float)):
        return str(value)
    try:
        text = json.dumps(value, default=str)
    except (RecursionError, ValueError):
        text = "a value that is nested deep" if isinstance(value, (dict, list)) else "a number with many digits"
    return text if len(text) <= LONGEST_SHOWN else f"{text[:LONGEST_SHOWN]} .."


def wanted(kind: str, key: str) -> str:
    """What a value of this key has to be, in words."""
    rule = rule_of(kind, key) or {}
    if rule["type"] == "integer":
        return f"a whole number from {rule['minimum']} to {rule['maximum']:,}"
    if key == "order":
        return "an array of names"
    return {"string": "a name: 1 to 32 letters, digits, _, - or .", "boolean": "true or false", "array": "an array of tables"}[rule["type"]]


@functools.cache
def defaults(kind: str) -> Table:
    return {key: rule["default"] for key in keys_of(kind) if "default" in (rule := rule_of(kind, key) or {})}


# Entries.


def duration(entry: Mapping[str, Any], faults: int) -> int:
    """How long an execution of a process with so many faults lasts, by the keys of its entry."""
    wcet, parts, alpha = entry["wcet"], entry.get("parts", 1), entry.get("alpha", 0)
    once = wcet + parts * (alpha + entry.get("chi", 0))
    again = entry.get("mu", 0) - (-wcet // parts) + alpha
    return int(once + faults * again)


@dataclass(frozen=True)
class Process:
    number: int
    entry: Table  # as it stands in the file
    name: str
    node: int
    wcet: int
    parts: int
    alpha: int
    chi: int
    mu: int
    join: bool
    frozen: bool
    release: int
    deadline: int | None  # its own
    due: int  # its own deadline, or that of the graph if it is earlier
    condition: int | None  # the number of its condition

    def duration(self, faults: int) -> int:
        return duration(self.entry, faults)

    def phases(self, faults: int) -> list[tuple[str, int]]:
        """What an execution does in turn, as pairs of a kind and a length. The model doesn't say which part a fault strikes: here all
        strike the first one, than which none is longer.

        `work` is done once and kept, `lost` is destroyed by a fault, `again` is done once more and kept; `overhead` is a detection or
        a checkpoint, `recovery` goes before a part is done again.
        """
        found = []
        for part in range(self.parts):
            work, strikes = self.wcet // self.parts + (part < self.wcet % self.parts), 0 if part else faults
            found += [("lost", work), ("overhead", self.alpha), ("recovery", self.mu)] * strikes
            found += [("again" if strikes else "work", work), ("overhead", self.alpha + self.chi)]
        return found


@dataclass(frozen=True)
class Edge:
    number: int
    source: int
    target: int
    bytes: int
    when: bool | None
    frozen: bool


@dataclass(frozen=True)
class Slot:
    node: int
    begin: int  # in the round
    length: int
    bytes: int


@dataclass(frozen=True)
class Graph:
    document: Table  # as it stands in the file
    faults: int
    deadline: int
    nodes: tuple[str, ...]
    slots: tuple[Slot, ...]  # in the order of the round
    processes: tuple[Process, ...]
    edges: tuple[Edge, ...]
    order: tuple[str, ...] | None  # of the processes, where the file says one

    @classmethod
    def of(cls, document: Table) -> Graph:
        """Raises ValueError where the schema doesn't hold, or a name is unknown or there twice."""
        top = lawful("top", document)
        entries = {kind: [lawful(kind, it) for it in top.get(kind, [])] for kind in KINDS}
        nodes, numbers = numbered(entries["node"], "name"), numbered(entries["process"], "name")
        edges = tuple(
            Edge(n, known(numbers, it["from"]), known(numbers, it["to"]), it["bytes"], it.get("when"), it["frozen"]) for n, it in enumerate(entries["edge"]))
        deciding = {p: c for c, p in enumerate(sorted({it.source for it in edges if it.when is not None}))}
        numbered(entries["slot"], "node")
        slots: list[Slot] = []
        for it in entries["slot"]:
            begin = slots[-1].begin + slots[-1].length if slots else 0
            slots.append(Slot(known(nodes, it["node"]), begin, it["length"], it["bytes"]))
        processes = tuple(
            Process(
                number, document["process"][number], it["name"], known(nodes, it["node"]), it["wcet"], it["parts"], it["alpha"], it["chi"], it["mu"],
                it["join"], it["frozen"], it["release"], it.get("deadline"), min(it.get("deadline", LIMIT), top["deadline"]), deciding.get(number))
            for number, it in enumerate(entries["process"]))
        order = tuple(top["order"]) if "order" in top else None
        if order is not None and len({known(numbers, it) for it in order}) < len(order):
            raise ValueError("order names a process twice")
        return cls(document, top["faults"], top["deadline"], tuple(nodes), tuple(slots), processes, edges, order)

    @functools.cached_property
    def number(self) -> dict[str, int]:
        """The numbers of the processes by name."""
        return {it.name: it.number for it in self.processes}

    @functools.cached_property
    def deciding(self) -> list[Process]:
        """The processes that have a condition, by the number of the condition."""
        return [it for it in self.processes if it.condition is not None]

    @functools.cached_property
    def slot_of(self) -> dict[int, Slot]:
        """The slots by the number of their node, in the order of the round."""
        return {it.node: it for it in self.slots}

    @property
    def round(self) -> int:
        return sum(it.length for it in self.slots)

    def node_of(self, process: Process) -> str:
        """The name of the node that a process runs on."""
        return self.nodes[process.node]

    @functools.cached_property
    def into(self) -> list[list[int]]:
        """The edges that lead to each process, by their numbers."""
        return [[it.number for it in self.edges if it.target == process.number] for process in self.processes]

    @functools.cached_property
    def out(self) -> list[list[int]]:
        """The edges that lead from each process."""
        return [[it.number for it in self.edges if it.source == process.number] for process in self.processes]

    def inputs(self, process: Process) -> list[Edge]:
        return [self.edges[e] for e in self.into[process.number]]

    def is_message(self, edge: Edge) -> bool:
        return self.processes[edge.source].node != self.processes[edge.target].node

    def arrival(self, node: int, time: int) -> int:
        """When a frame is there that this node sends at this time."""
        return time + self.slot_of[node].length

    def first_slot(self, node: int, time: int) -> int:
        """The begin of the first slot of a node at a time or after it."""
        begin, length = self.slot_of[node].begin, self.round
        return begin + max(-(-(time - begin) // length), 0) * length

    def before(self, process: int) -> set[int]:
        """All processes that a process waits for, directly or over others."""
        found: set[int] = set()
        left = [process]
        while left:
            for it in self.inputs(self.processes[left.pop()]):
                if it.source not in found:
                    found.add(it.source)
                    left.append(it.source)
        return found

    def activations(self, true: Collection[int]) -> tuple[list[int | None], list[tuple[int, ...]]]:
        """Where the conditions of these processes are true and all others false: of each process by which input it is active if it is a join,
        else -1, and None if it isn't active; and its live inputs."""
        active: list[int | None] = [None] * len(self.processes)
        live: list[tuple[int, ...]] = [()] * len(self.processes)
        for p, join, inputs in self._ways:
            found = [e for e, source, when in inputs if active[source] is not None and (when is None or when == (source in true))]
            if not inputs or (found if join else len(found) == len(inputs)):
                active[p], live[p] = found[0] if join and found else -1, tuple(found)
        return active, live

    @functools.cached_property
    def _ways(self) -> list[tuple[int, bool, list[tuple[int, int, bool | None]]]]:
        """Of each process, behind the sources of its inputs, whether it is a join, and of its inputs the number, the source and the value."""
        return [(p, self.processes[p].join, [(it.number, it.source, it.when) for it in self.inputs(self.processes[p])]) for p in self._sorted]

    def active(self, true: Collection[int]) -> set[int]:
        """The processes that are active then."""
        return {p for p, it in enumerate(self.activations(true)[0]) if it is not None}

    def outcomes(self) -> Iterator[tuple[int, int]]:
        """The outcomes of the conditions, without values of inactive processes: the processes that are active, and those whose condition is true,
        as bits. Raises ValueError if the edges lead around."""
        order = self.sources_first()
        inputs = [[(edge.source, edge.when) for edge in self.inputs(process)] for process in self.processes]
        left = [(0, 0, 0)]  # how far in the order, what is active, which values are true
        while left:
            at, active, true = left.pop()
            for place in range(at, len(order)):
                number = order[place]
                live = [active >> source & 1 == 1 and when in (None, bool(true >> source & 1)) for source, when in inputs[number]]
                if not live or (any if self.processes[number].join else all)(live):
                    active |= 1 << number
                    if self.processes[number].condition is not None:
                        left.append((place + 1, active, true | 1 << number))
            yield active, true

    def sources_first(self) -> list[int]:
        """The processes, each behind the sources of its inputs. Raises ValueError where the edges lead around."""
        return self._sorted

    @functools.cached_property
    def _sorted(self) -> list[int]:
        waiting = [len(into) for into in self.into]
        found = [number for number, count in enumerate(waiting) if not count]
        for number in found:
            for edge in self.out[number]:
                target = self.edges[edge].target
                waiting[target] -= 1
                if not waiting[target]:
                    found.append(target)
        if len(found) < len(self.processes):
            raise ValueError("the edges lead around")
        return found

    def urgency_order(self) -> list[str]:
        """The names of the processes by the longest way ahead, as docs/MODEL.md says it."""
        tails = [it.duration(0) for it in self.processes]
        for number in reversed(self._sorted):
            ahead = [tails[it.target] + (self.round if self.is_message(it) else 0) for it in map(self.edges.__getitem__, self.out[number])]
            tails[number] += max(ahead, default=0)
        return [it.name for it in sorted(self.processes, key=lambda it: -tails[it.number])]

    def changed(self, top: Mapping[str, object] | None = None, process: Mapping[int, Mapping[str, object]] | None = None,
                edge: Mapping[int, Mapping[str, object]] | None = None) -> Graph:
        """The graph with other keys of its own, of processes and of edges by their numbers. A key that is None is left out."""
        document = without_none({**self.document, **(top or {})})
        for kind, changes in ("process", process), ("edge", edge):
            if changes:
                document[kind] = [without_none({**it, **(changes.get(number) or {})}) for number, it in enumerate(document.get(kind, []))]
        return Graph.of(document)

    def with_edge(self, source: int, target: int) -> Graph:
        """The graph with one more edge."""
        return self.changed(top={"edge": [*self.document.get("edge", []), {"from": self.processes[source].name, "to": self.processes[target].name}]})

    def text(self) -> str:
        return spelled(self.document)


def numbered(entries: Sequence[Table], key: str) -> dict[str, int]:
    """The numbers of entries by a name that each has for itself."""
    found = {it[key]: number for number, it in enumerate(entries)}
    if len(found) < len(entries):
        raise ValueError(f"a {key} is there twice")
    return found


def known(numbers: dict[str, int], name: str) -> int:
    if name not in numbers:
        raise ValueError(f"no {name}")
    return numbers[name]


def without_none(table: Table) -> Table:
    return {key: value for key, value in table.items() if value is not None}


def spelled(document: Table) -> str:
    """A document as a graph file, with each entry on a line. Of an entry it has the keys of the schema, and no others."""

    def inline(entry: Table) -> str:
        return "{ " + ", ".join(f"{key} = {json.dumps(it)}" for key, it in entry.items()) + " }"

    lines = [f"{key} = {json.dumps(document[key])}" for key in ("faults", "deadline", "order") if key in document]
    for kind in KINDS:
        entries = [{key: entry[key] for key in keys_of(kind) if key in entry} for entry in document.get(kind, [])]
        lines += [f"{kind} = [", *(f"  {inline(entry)}," for entry in entries), "]"] if entries else []
    return "\n".join([*lines, ""])


# Files.


class Sentence(str):
    """A sentence on a place of a file, with which it begins."""

    path: str
    line: int | None  # counted from 1
    column: int | None
    name: str | None  # of the entry
    said: str  # behind the place

    @classmethod
    def of(cls, said: str, path: str, line: int | None = None, column: int | None = None, name: str | None = None) -> Sentence:
        it = cls(f"{path}:{line}: {said}" if line else f"{path}: {said}")
        it.path, it.line, it.column, it.name, it.said = path, line, column, name, said
        return it


class File:
    """A TOML file, and whatever stands in it: its bytes, its text, its document and the places there. Nothing is asked of it, so that it can
    be looked at where it is refused, too."""

    def __init__(self, path: str, most: int = cli.GRAPH, content: bytes | None = None) -> None:
        """The file of a path, of which the bytes may have been read."""
        self.path, self.bytes, self.fault, self.known = path, content or b"", "", os.path.isfile(path)
        try:
            if content is None and (self.known or os.path.isdir(path) or not os.path.exists(path)):  # else a pipe, which has gone by
                with open(path, "rb") as it:
                    self.bytes = it.read(most + 1)
        except (OSError, ValueError) as fault:
            self.fault = cli.why(fault)
        self.text, self.document = "", {}
        try:
            self.text = self.bytes.decode().replace("\r\n", "\n")
            self.document = document(self.text)
        except ValueError:
            pass

    @functools.cached_property
    def places(self) -> Places:
        return Places(self.text if self.document else "")

    @property
    def size(self) -> int:
        return os.path.getsize(self.path) if self.known else len(self.bytes)

    def at(self, what: str, *path: str | int) -> Sentence:
        """A sentence on a place of the file: the first of its path that is found."""
        name = self.entry(path[0], path[1]).get("name") if len(path) > 1 and isinstance(path[0], str) and isinstance(path[1], int) else None
        while path and self.places.line(*path) is None:
            path = path[:-1]
        return Sentence.of(what, self.path, self.places.line(*path), self.places.column(*path), name)

    def written(self, kind: str, number: int) -> Table:
        """An entry as it stands there, or the graph itself, which is of the kind `top`."""
        found = self.document if kind == "top" else self.document.get(kind)
        if isinstance(found, list):
            found = found[number] if number < len(found) else {}
        return found if isinstance(found, dict) else {}

    def entry(self, kind: str, number: int) -> Table:
        """What an entry has of the right type."""
        return {key: value for key, value in self.written(kind, number).items() if has_type(kind, key, value)}

    def entries(self, kind: str) -> list[Table]:
        found = self.document.get(kind)
        return [self.entry(kind, number) for number in range(len(found))] if isinstance(found, list) else []

    def has(self, kind: str, number: int) -> bool:
        """Whether there is such an entry."""
        found = self.document.get(kind)
        return kind == "top" or isinstance(found, list) and number < len(found)

    def called(self, kind: str, number: int) -> str:
        """An entry as it is called in a sentence."""
        if kind == "top":
            return "the graph"
        entry, keys = self.entry(kind, number), {"slot": ("node",), "edge": ("from", "to")}.get(kind, ("name",))
        said = " to ".join(entry.get(key, "?") for key in keys if key in entry or kind == "edge")
        return f"{kind} {number}" + (f" ({'of ' * (kind == 'slot')}{said})" if said and said != "? to ?" else "")

    def names(self, kind: str) -> list[str | None]:
        return [it.get("name") for it in self.entries(kind)]

    def of_name(self, kind: str, name: str) -> int | None:
        """The number of the first entry of a name."""
        names = self.names(kind)
        return names.index(name) if name in names else None

    def named(self, what: str, kind: str, name: str, *key: str) -> Sentence:
        """A sentence on the entry of a name."""
        number = self.of_name(kind, name)
        return self.at(what) if number is None else self.at(what, kind, number, *key)

    def graph(self) -> Graph | None:
        """The graph, where it is one."""
        try:
            return Graph.of(self.document)
        except (ValueError, RecursionError):
            return None


def toml_of(path: str, content: bytes) -> tuple[str, Table]:
    """The text of a TOML file, of which the bytes were read, and its document. A fault ends the tool."""
    try:
        text = content.decode().replace("\r\n", "\n")
        return text, document(text)
    except ValueError as fault:
        cli.fail(f"{path}: {fault}")


def parsed(path: str, content: bytes) -> Graph:
    """The graph of a file, of which the bytes were read. A fault ends the tool."""
    try:
        return Graph.of(toml_of(path, content)[1])
    except (ValueError, RecursionError):
        cli.fail(f"{path}: no graph file; `cpgc show` says why")


def read(path: str) -> Graph:
    """The graph of a file. A fault ends the tool."""
    return parsed(path, cli.read(path, cli.GRAPH))
