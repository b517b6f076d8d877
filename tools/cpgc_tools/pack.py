"""The one model of a pack of schedule tables, and the tool that reads one as JSON, or writes one from it. docs/FORMATS.md says the bytes.

    tables = pack.read("pair.pack")             # a Pack, or the tool ends by a line
    tables.rows[node][0].columns                # (time, cube) each; a cube is bytes, three for a literal: variable, low, high
    tables.item_text(3)                         # `start A`, `send e0` or `tell A`, as the number of an item is said
    pack.bytes_of(tables)                       # its bytes again

A variable p below VALUES is the fault count of process p, and VALUES + c the value of condition c.
"""
from __future__ import annotations

import functools
import json
from collections.abc import Iterator, Mapping, Sequence
from dataclasses import dataclass, replace
from typing import Any, NamedTuple, TypeVar

from cpgc_tools import cli
from cpgc_tools.graph import Graph, is_name
from cpgc_tools.toml_places import Table

HELP = """Reads a pack of schedule tables as JSON, or writes one from JSON. docs/FORMATS.md describes the bytes.

    pack read [FILE] > tables.json
    pack write [FILE] > tables.pack

Without a file, standard input is read. Each process and each row is a line. A column is [time, [[variable, low, high], ..]]. Variable p
below 128 is the fault count of process p, and 128 + c is the value of condition c. Rows are listed by node, each with its item.

Names are written beside the numbers, at keys that end in _name or _names; those of columns are as `cpgc show` writes literals. `pack write`
ignores the names. The tool doesn't judge a pack: `cpgc check` does that.

For example, `pack read pair.pack | sed 's/\\[50, /[49, /' | pack write > wrong.pack` makes a frame come one time unit earlier.
"""
VALUES = 128  # the variables of values begin here, those of fault counts at 0
NONE = 2**64 - 1  # the deadline of a process that has none of its own
Column = tuple[int, bytes]
Variable = TypeVar("Variable")  # a number, or what it stands for


class Process(NamedTuple):
    name: str
    node: int
    condition: int  # 0 or 1
    durations: tuple[int, ...]  # by the number of faults
    release: int = 0
    deadline: int | None = None


class Item(NamedTuple):
    """What has rows. Its number is that of the process, behind these that of the edge, behind these that of the condition."""

    number: int
    kind: str  # start, send or tell
    of: int  # its process, its edge, or the process whose value it is


class Row(NamedTuple):
    item: Item
    heard: bool  # whether the node hears it; else it starts or sends it
    columns: Sequence[Column]


@dataclass(frozen=True)
class Pack:
    version: int
    faults: int
    nodes: tuple[str, ...]
    processes: tuple[Process, ...]
    edges: tuple[tuple[int, int], ...]
    rows: tuple[tuple[Row, ...], ...] = ()  # by node

    @functools.cached_property
    def deciding(self) -> list[int]:
        """The processes that have a condition, by the number of the condition."""
        return [number for number, it in enumerate(self.processes) if it.condition]

    def on(self, process: int) -> int:
        return self.processes[process].node

    def item(self, number: int) -> Item | None:
        """The item of a number, or nothing."""
        processes, edges, deciding = len(self.processes), len(self.edges), self.deciding
        if number < processes:
            return Item(number, "start", number)
        if number < processes + edges:
            return Item(number, "send", number - processes)
        condition = number - processes - edges
        return Item(number, "tell", deciding[condition]) if condition < len(deciding) else None

    def sender(self, item: Item) -> int:
        """The process whose start, message or value an item is."""
        return self.edges[item.of][0] if item.kind == "send" else item.of

    def items(self, node: int) -> list[tuple[Item, bool]]:
        """What a node starts, what it sends, and what it hears, in the order of its rows; whether it hears it."""
        processes, edges = len(self.processes), len(self.edges)
        starts = [Item(p, "start", p) for p in range(processes) if self.on(p) == node]
        sent = [Item(processes + e, "send", e) for e, (a, b) in enumerate(self.edges) if self.on(a) != self.on(b)]
        told = [Item(processes + edges + c, "tell", p) for c, p in enumerate(self.deciding)] if len(self.nodes) > 1 else []
        own = starts + [it for it in sent + told if self.on(self.sender(it)) == node]
        heard = [it for it in sent if self.on(self.edges[it.of][1]) == node] + [it for it in told if self.on(it.of) != node]
        return [(it, False) for it in own] + [(it, True) for it in heard]

    def name_of(self, item: Item) -> str:
        """What stands behind the kind of an item."""
        return f"e{item.of}" if item.kind == "send" else self.processes[item.of].name

    def item_text(self, item: Item, heard: bool = False) -> str:
        return f"{'hear' if heard else item.kind} {self.name_of(item)}"

    def edge_text(self, edge: int) -> str:
        source, target = self.edges[edge]
        return f"{self.processes[source].name}>{self.processes[target].name}"

    def acts(self) -> Iterator[tuple[int, Row]]:
        """The rows of all that nodes start and send, with the node."""
        yield from ((node, row) for node, rows in enumerate(self.rows) for row in rows if not row.heard)

    def row(self, kind: str, name: str) -> tuple[int, Row] | None:
        """The row of what a node starts or sends, as `start A` or `send e0`, with the node."""
        return next(((node, row) for node, row in self.acts() if (row.item.kind, self.name_of(row.item)) == (kind, name)), None)

    def literal_text(self, variable: int, low: int, high: int) -> str:
        """A literal as `cpgc show` writes it."""
        if variable < VALUES:
            name = self.processes[variable].name if variable < len(self.processes) else f"{variable}"
            return f"{name} faults {low if low == high else f'{low}..{high}'}"
        deciding, condition = self.deciding, variable - VALUES
        return f"{self.processes[deciding[condition]].name if condition < len(deciding) else condition} {'true' if low else 'false'}"

    @functools.cached_property
    def known_texts(self) -> dict[bytes, str]:
        """The texts of literals that were asked for."""
        return {}

    def cube_text(self, cube: bytes) -> str:
        known, found = self.known_texts, []
        for at in range(0, len(cube), 3):
            literal = cube[at:at + 3]
            if literal not in known:
                known[literal] = self.literal_text(*literal)
            found.append(known[literal])
        return ", ".join(found) or "always"

    def latest_ends(self) -> dict[str, int]:
        """Of each process that ever runs its latest end, if the tables keep the rules: in the scenarios of a column all faults that its
        literals leave may strike the process."""
        ends: dict[str, int] = {}
        for _, row in self.acts():
            if row.item.kind == "start":
                process = self.processes[row.item.of]
                for time, cube in row.columns:
                    left = self.faults - asked(cube)
                    if left >= 0:
                        ends[process.name] = max(ends.get(process.name, 0), time + process.durations[left])
        return ends

    def last_time(self) -> int:
        """The greatest time of all columns."""
        return max((time for rows in self.rows for row in rows for time, _ in row.columns), default=0)

    def last_arrival(self) -> int:
        """The greatest time in what the nodes hear, 0 where nothing is sent."""
        return max((time for rows in self.rows for row in rows if row.heard for time, _ in row.columns), default=0)


def literals(cube: bytes) -> Iterator[tuple[int, int, int]]:
    return zip(cube[::3], cube[1::3], cube[2::3])


def ranges(cube: bytes) -> dict[int, tuple[int, int]]:
    """What the literals of a column say of each variable."""
    return {variable: (low, high) for variable, low, high in literals(cube)}


def common(one: Mapping[Variable, tuple[int, int]], other: Mapping[Variable, tuple[int, int]]) -> dict[Variable, tuple[int, int]] | None:
    """The ranges that are in both, or nothing if one is empty."""
    found = dict(one)
    for variable, (low, high) in other.items():
        mine = found.get(variable)
        if mine is not None:
            low, high = max(low, mine[0]), min(high, mine[1])
            if low > high:
                return None
        found[variable] = low, high
    return found


def asked(cube: bytes) -> int:
    """How many faults a column asks for: there are at least so many in each scenario that it is for."""
    return sum(low for variable, low in zip(cube[::3], cube[1::3]) if variable < VALUES)


# From bytes.


class Reader:
    """The bytes of a pack, and how far they have been read."""

    def __init__(self, content: bytes) -> None:
        self.content, self.at = content, 0
        self.begins = [(0, "the text CPGT")]  # what begins where

    def note(self, what: str) -> None:
        self.begins.append((self.at, what))

    def take(self, size: int) -> bytes:
        begin = self.at
        if begin + size > len(self.content):
            raise ValueError(f"it ends too early, after {len(self.content)} bytes")
        self.at = begin + size
        return self.content[begin:self.at]

    def number(self, size: int = 1) -> int:
        return int.from_bytes(self.take(size), "big")

    def name(self, of: str) -> str:
        text = self.take(self.number()).decode("latin-1")
        if not is_name(text):
            raise ValueError(f"{of} is named {ascii(text)}, which is no name")
        return text

    def column(self) -> Column:
        head = self.take(9)
        return int.from_bytes(head[:8], "big"), self.take(3 * head[8])

    def part_at(self, at: int) -> str:
        """What of a pack stands at a byte, as far as it was read."""
        if self.begins[-1][1] == "nothing" and self.begins[-1][0] <= at:
            return "it ends before"
        return [what for begin, what in self.begins if begin <= at][-1]


def read_process(reader: Reader, version: int, faults: int, nodes: int, number: int) -> Process:
    reader.note(f"process {number}")
    name, node, condition = reader.name(f"process {number}"), reader.number(), reader.number()
    durations = tuple(reader.number(8) for _ in range(faults + 1))
    release, deadline = (reader.number(8), reader.number(8)) if version == 2 else (0, NONE)
    if node >= nodes:
        raise ValueError(f"process {number} is on node {node}, which there isn't")
    return Process(name, node, condition, durations, release, None if deadline == NONE else deadline)


def read_edge(reader: Reader, processes: int, number: int) -> tuple[int, int]:
    reader.note(f"edge {number}")
    edge = reader.number(), reader.number()
    if max(edge) >= processes:
        raise ValueError(f"edge {number} is of process {max(edge)}, which there isn't")
    return edge


def read_row(reader: Reader, head: Pack, node: int, item: Item, heard: bool) -> Row:
    reader.note(f"the row of {head.item_text(item, heard)} on {head.nodes[node]}")
    return Row(item, heard, [reader.column() for _ in range(reader.number(2))])


def decoded(reader: Reader) -> Pack:
    """The pack that a reader has. Raises ValueError where the bytes are none."""
    if reader.take(4) != b"CPGT":
        raise ValueError("it doesn't begin with CPGT")
    reader.note("the version, 1 or 2")
    version = reader.number()
    if version not in (1, 2):
        raise ValueError(f"its version is {version}")
    reader.note("the most faults, 0 to 8")
    faults = reader.number()
    reader.note("the names of the nodes")
    nodes = tuple(reader.name(f"node {number}") for number in range(reader.number()))
    reader.note("how many processes there are")
    processes = tuple(read_process(reader, version, faults, len(nodes), number) for number in range(reader.number()))
    reader.note("how many edges there are")
    edges = tuple(read_edge(reader, len(processes), number) for number in range(reader.number(2)))
    head = Pack(version, faults, nodes, processes, edges)
    rows = tuple(tuple(read_row(reader, head, node, *it) for it in head.items(node)) for node in range(len(nodes)))
    reader.note("nothing")
    if reader.at != len(reader.content):
        raise ValueError(f"bytes follow its end, from byte {reader.at} on")
    return replace(head, rows=rows)


def parsed(content: bytes) -> Pack:
    """The pack that bytes are. Raises ValueError."""
    return decoded(Reader(content))


def read(path: str) -> Pack:
    """The pack of a file. A fault ends the tool."""
    return of_file(path, cli.read(path, cli.PACK))


def of_file(path: str, content: bytes) -> Pack:
    """The pack of a file, of which the bytes were read. A fault ends the tool."""
    try:
        return parsed(content)
    except ValueError as fault:
        cli.fail(f"{path}: no pack: {fault}")


# To bytes.


class Writer:
    def __init__(self) -> None:
        self.out = bytearray(b"CPGT")

    def number(self, number: int, size: int = 1) -> None:
        self.out += number.to_bytes(size, "big")

    def name(self, text: str) -> None:
        self.number(len(text))
        self.out += text.encode()

    def row(self, columns: Sequence[Column]) -> None:
        self.number(len(columns), 2)
        for time, cube in columns:
            self.number(time, 8)
            self.number(len(cube) // 3)
            self.out += cube


def bytes_of(pack: Pack) -> bytes:
    """Raises OverflowError where a number is too great for its bytes."""
    out = Writer()
    out.number(pack.version)
    out.number(pack.faults)
    out.number(len(pack.nodes))
    for node in pack.nodes:
        out.name(node)
    out.number(len(pack.processes))
    for it in pack.processes:
        out.name(it.name)
        out.number(it.node)
        out.number(it.condition)
        for duration in it.durations:
            out.number(duration, 8)
        if pack.version == 2:
            out.number(it.release, 8)
            out.number(NONE if it.deadline is None else it.deadline, 8)
    out.number(len(pack.edges), 2)
    for source, target in pack.edges:
        out.number(source)
        out.number(target)
    for rows in pack.rows:
        for row in rows:
            out.row(row.columns)
    return bytes(out.out)


# A pack beside its graph.


def head_of(graph: Graph, version: int = 2) -> Pack:
    """The head of a graph's packs."""
    found = [Process(it.name, it.node, int(it.condition is not None), tuple(map(it.duration, range(graph.faults + 1))), it.release, it.deadline) for it in graph.processes]
    processes = tuple(found if version == 2 else [it._replace(release=0, deadline=None) for it in found])
    return Pack(version, graph.faults, graph.nodes, processes, tuple((it.source, it.target) for it in graph.edges))


class Difference(NamedTuple):
    """What a pack's head says otherwise than a graph."""

    part: str  # faults, nodes, processes or edges
    number: int  # of the process or edge
    key: str  # of the process
    here: str  # what the graph says
    there: str  # what the pack says


def difference(graph: Graph, pack: Pack) -> Difference | None:
    """The first thing that the head of a pack says otherwise than a graph, as `cpgc` compares them, or nothing."""
    mine = head_of(graph, pack.version)
    if mine.faults != pack.faults:
        return Difference("faults", 0, "faults", str(mine.faults), str(pack.faults))
    if mine.nodes != pack.nodes:
        return Difference("nodes", 0, "nodes", " ".join(mine.nodes), " ".join(pack.nodes))
    for number, (here, there) in enumerate(zip(mine.processes, pack.processes)):
        for key, our, its in zip(Process._fields, in_words(mine, here), in_words(pack, there)):
            if our != its:
                return Difference("processes", number, key, our, its)
    lists: list[tuple[str, Sequence[object], Sequence[object]]] = [("processes", mine.processes, pack.processes), ("edges", mine.edges, pack.edges)]
    for part, ours, theirs in lists:
        if ours != theirs:
            number = next((n for n, (a, b) in enumerate(zip(ours, theirs)) if a != b), min(len(ours), len(theirs)))
            return Difference(part, number, "", str(len(ours)), str(len(theirs)))
    return None


def in_words(head: Pack, it: Process) -> list[str]:
    """What a head says of a process, field by field."""
    deadline = "none" if it.deadline is None else str(it.deadline)
    return [it.name, head.nodes[it.node], str(it.condition != 0).lower(), " ".join(map(str, it.durations)), str(it.release), deadline]


# As JSON.


def json_rows(pack: Pack, node: int) -> Iterator[str]:
    """The rows of a node with names beside their numbers."""
    for row in pack.rows[node]:
        edge = {"edge_name": pack.edge_text(row.item.of)} if row.item.kind == "send" else {}
        head = json.dumps({"item": pack.item_text(row.item, row.heard), **edge})
        columns = ", ".join(f"[{time}, [{', '.join(f'[{v}, {low}, {high}]' for v, low, high in literals(cube))}]]" for time, cube in row.columns)
        names = ", ".join(f'"{pack.cube_text(cube)}"' for _, cube in row.columns)  # of letters that JSON takes as they are
        yield f'{head[:-1]}, "columns": [{columns}], "column_names": [{names}]}}'


def json_process(pack: Pack, it: Process) -> Table:
    extra = {"release": it.release, "deadline": NONE if it.deadline is None else it.deadline} if pack.version == 2 else {}
    head = {"name": it.name, "node": it.node, "node_name": pack.nodes[it.node], "condition": it.condition}
    return {**head, "durations": list(it.durations), **extra}


def json_text(pack: Pack) -> Iterator[str]:
    """JSON with each process and each row on a line of its own, so that a change is easy to make and to see; in pieces."""
    head = {
        "version": pack.version, "faults": pack.faults, "nodes": list(pack.nodes), "condition_names": [pack.processes[p].name for p in pack.deciding],
        "edges": [list(it) for it in pack.edges], "edge_names": [pack.edge_text(edge) for edge in range(len(pack.edges))]}
    yield "{" + "".join(f"{json.dumps(key)}: {json.dumps(value)},\n " for key, value in head.items())
    yield '"processes": [' + ",".join(f"\n  {json.dumps(json_process(pack, it))}" for it in pack.processes) + '],\n "rows": ['
    for node in range(len(pack.nodes)):
        yield ("," if node else "") + "\n  ["
        for number, row in enumerate(json_rows(pack, node)):
            yield ("," if number else "") + f"\n   {row}"
        yield "]"
    yield "]}\n"


def of_json(content: bytes) -> bytes:
    """The bytes of a pack that is said in JSON; of an item nothing is asked. Raises ValueError, with why there are none."""
    try:
        said = json.loads(content)
        version, faults = said["version"], said["faults"]
        nodes = tuple(text_of(it) for it in said["nodes"])
        processes = tuple(
            Process(
                text_of(it["name"]), it["node"], it["condition"], tuple(it["durations"]), *((it["release"], it["deadline"]) if version == 2 else ()))
            for it in said["processes"])
        edges = tuple((a, b) for a, b in said["edges"])
        rows = tuple(tuple(Row(Item(0, "", 0), False, [column_of(it) for it in row["columns"]]) for row in node) for node in said["rows"])
        return bytes_of(Pack(version, faults, nodes, processes, edges, rows))
    except KeyError as fault:
        raise ValueError(f"the key {fault} is missing") from None
    except OverflowError:
        raise ValueError("a number is below 0 or too great for its bytes") from None
    except json.JSONDecodeError as fault:
        raise ValueError(f"the JSON: {fault}") from None
    except (TypeError, AttributeError, IndexError, RecursionError):
        raise ValueError("a value has another type than those that `pack read` writes") from None


def text_of(name: object) -> str:
    if not isinstance(name, str):
        raise TypeError
    return name


def column_of(said: Any) -> Column:
    time, cube = said
    numbers = [number for literal in cube for number in literal]
    if any(len(it) != 3 for it in cube) or any(not isinstance(it, int) for it in numbers):
        raise TypeError
    if any(not 0 <= it < 256 for it in numbers):
        raise OverflowError
    return time, bytes(numbers)


def main() -> None:
    words = cli.Words(HELP)
    words.add_argument("what", metavar="read|write", choices=("read", "write"))
    words.add_argument("file", metavar="FILE", nargs="?")
    said = words.parse_args()
    content = cli.read(said.file, cli.PACK if said.what == "read" else 2**31) if said.file else cli.read_input(2**31)
    try:
        if said.what == "write":
            cli.write(of_json(content))
        else:
            pack = parsed(content)
            del content
            for text in json_text(pack):
                cli.write(text)
    except ValueError as fault:
        cli.fail(f"no {'pack' if said.what == 'read' else 'tables of a pack'}: {fault}")
