"""The table of one node as constants in C, for the node of runtime/c: made of a pack, written, read again, and held against the program.

    made = constants(tables, node)                  # of a Pack
    text = "\\n".join(lines(made, ["a comment"]))    # the C that lays them down
    hold(cpgc, text, content, tables, node)         # ends the tool where cpgc doesn't say of the pack what stands in the C

`hold` knows nothing of how the constants were made: it reads the C, writes what it finds there as `cpgc node` writes the table, and puts it into the
pack in place of what the pack says of the node.
"""
from __future__ import annotations

import re
from collections.abc import Iterator, Sequence
from dataclasses import replace
from typing import NamedTuple

from cpgc_tools import cli, pack
from cpgc_tools.pack import Column, Pack, Row
from cpgc_tools.program import Program

NO_CONDITION = 255
TIME, LITERAL = 8, 3  # bytes
HEX = [f"0x{byte:02x}U" for byte in range(256)]
UNSAFE = 7
ARRAY = re.compile(r"^static const (\w+) (\w+)\[\] = \{\n(.*?)^\};$", re.MULTILINE | re.DOTALL)
FIELD = re.compile(r"^    \.(\w+) = (\w+),$", re.MULTILINE)
NUMBER = re.compile(r"\b(0x[0-9a-f]{2}|\d+)U\b")


class Own(NamedTuple):
    """A process of the node."""

    durations: int  # their place in the bytes
    condition: int  # NO_CONDITION where it has none


class Due(NamedTuple):
    at: int  # the place in the bytes
    row: int
    column: int


class Constants(NamedTuple):
    """The fields of a cpg_table, but for the lengths of its arrays."""

    pack: bytes  # columns and durations
    item: tuple[int, ...]  # by row
    process: tuple[Own, ...]  # by the row of the start
    due: tuple[Due, ...]  # by time; of one time what is heard, then sends, then starts
    acting: int
    broadcast: int
    k: int
    processes: int
    conditions: int

    def rank(self, row: int) -> int:
        """What of one time comes first."""
        return 0 if row >= self.acting else 2 if row < len(self.process) else 1

    def part(self, at: int, size: int) -> bytes:
        """So many of the bytes. Raises ValueError where they aren't there."""
        if at + size > len(self.pack):
            raise ValueError(f"byte {at + size - 1} isn't there")
        return self.pack[at:at + size]

    def time(self, at: int) -> int:
        return int.from_bytes(self.part(at, TIME), "big")

    def column(self, at: int) -> Column:
        count = self.part(at + TIME, 1)[0]
        return self.time(at), self.part(at + TIME + 1, LITERAL * count)

    def durations(self, own: Own) -> tuple[int, ...]:
        return tuple(self.time(own.durations + TIME * faults) for faults in range(self.k + 1))


# Made and written.


def constants(tables: Pack, node: int) -> Constants:
    rows, content = tables.rows[node], bytearray()
    starts = [row.item.of for row in rows if row.item.kind == "start"]
    acting = sum(not row.heard for row in rows)
    process = []
    for number in starts:
        condition = tables.deciding.index(number) if tables.processes[number].condition else NO_CONDITION
        process.append(Own(len(content), condition))
        content += b"".join(time.to_bytes(TIME, "big") for time in tables.processes[number].durations)
    head = Constants(b"", tuple(row.item.number for row in rows), tuple(process), (), acting, len(tables.processes) + len(tables.edges), tables.faults,
                     len(tables.processes), len(tables.deciding))
    columns = [(time, head.rank(at), at, number, cube) for at, row in enumerate(rows) for number, (time, cube) in enumerate(row.columns)]
    due = []
    for time, _, at, number, cube in sorted(columns):
        due.append(Due(len(content), at, number))
        content += time.to_bytes(TIME, "big") + bytes([len(cube) // LITERAL]) + cube
    return head._replace(pack=bytes(content), due=tuple(due))


def array(kind: str, name: str, texts: Sequence[str], a_line: int) -> Iterator[str]:
    """An array; where it has no elements one that nobody reads, since C has no empty arrays."""
    yield f"static const {kind} {name}[] = {{"
    for at in range(0, max(len(texts), 1), a_line):
        yield f"    {', '.join(texts[at:at + a_line] or ['{ 0U }' if kind.startswith('cpg_') else '0U'])},"
    yield "};"


def lines(made: Constants, least: dict[str, int], comment: Sequence[str]) -> Iterator[str]:
    """The lines of the C file, which isn't compiled where a macro is less than it has to be."""
    *first, last = comment
    yield from [f"{'/*' if number == 0 else ' *'} {line}" for number, line in enumerate(first)]
    yield f" * {last} */"
    yield from ['#include "cpg_table.h"', ""]
    yield from (f"typedef char {macro.lower()}_is_large_enough[({macro} >= {size}U) ? 1 : -1];" for macro, size in least.items())
    yield ""
    yield from array("uint8_t", "pack", [HEX[byte] for byte in made.pack], 16)
    yield from array("uint16_t", "item", [f"{number}U" for number in made.item], 16)
    yield from array("cpg_process", "process", [f"{{ {it.durations}U, {it.condition}U }}" for it in made.process], 4)
    yield from array("cpg_due", "due", [f"{{ {it.at}U, {it.row}U, {it.column}U }}" for it in made.due], 4)
    counts = {
        "size": len(made.pack), "dues": len(made.due), "own": len(made.process), "acting": made.acting, "rows": len(made.item), "broadcast": made.broadcast,
        "k": made.k, "processes": made.processes, "conditions": made.conditions}
    yield from ["", "const cpg_table cpg_node_table = {"]
    yield from (f"    .{name} = {name}," for name in ("pack", "item", "process", "due"))
    yield from (f"    .{name} = {count}U," for name, count in counts.items())
    yield "};"


# Read again, and held against the program.


def read(text: str) -> Constants:
    """The constants that stand in a C file. Raises ValueError, KeyError or IndexError where it isn't such a file."""
    arrays = {name: [int(it, 0) for it in NUMBER.findall(body)] for _, name, body in ARRAY.findall(text)}
    fields = dict(FIELD.findall(text))
    if any(fields[name] != name for name in arrays):
        raise ValueError("a pointer leads elsewhere")
    count = {name: int(it[:-1]) for name, it in fields.items() if name not in arrays}
    sizes = {"pack": count["size"], "item": count["rows"], "process": 2 * count["own"], "due": 3 * count["dues"]}
    if any(len(arrays[name]) != size for name, size in sizes.items() if size):
        raise ValueError("an array has another length")
    if not count["own"] <= count["acting"] <= count["rows"]:
        raise ValueError("rows are counted otherwise")
    found = {name: arrays[name][:size] for name, size in sizes.items()}
    process, due = found["process"], found["due"]
    return Constants(bytes(found["pack"]), tuple(found["item"]), tuple(map(Own, process[::2], process[1::2])), tuple(map(Due, due[::3], due[1::3], due[2::3])),
                     *(count[name] for name in ("acting", "broadcast", "k", "processes", "conditions")))


def rows_of(found: Constants, tables: Pack) -> tuple[Row, ...]:
    """The rows that the constants have. Raises ValueError where the index isn't in its order, or leaves a column out."""
    columns: list[list[Column]] = [[] for _ in found.item]
    for at, row, number in sorted(found.due, key=lambda it: (it.row, it.column)):
        if number != len(columns[row]):
            raise ValueError(f"row {row} has column {number} in place of {len(columns[row])}")
        columns[row].append(found.column(at))
    order = [(found.column(at)[0], found.rank(row), row, column) for at, row, column in found.due]
    if order != sorted(order):
        raise ValueError("the index isn't in its order")
    items = [tables.item(number) for number in found.item]
    if None in items:
        raise ValueError("an item that isn't there")
    return tuple(Row(item, row >= found.acting, columns[row]) for row, item in enumerate(items) if item)


def told(rows: Sequence[Row], tables: Pack, node: int) -> Iterator[str]:
    """Rows as `cpgc node` writes them."""
    yield f"node {tables.nodes[node]}"
    for item, heard, columns in rows:
        yield tables.item_text(item, heard) + (f" {tables.edge_text(item.of)}" if item.kind == "send" else "")
        yield from (f"  {time}: {tables.cube_text(cube)}" for time, cube in columns)


def rebuilt(found: Constants, rows: tuple[Row, ...], tables: Pack, node: int) -> Pack:
    """The pack with the constants in place of what it says of the node. Raises ValueError where they count otherwise."""
    if (found.broadcast, found.processes, found.conditions) != (len(tables.processes) + len(tables.edges), len(tables.processes), len(tables.deciding)):
        raise ValueError("items are counted otherwise")
    processes = list(tables.processes)
    for number, own in zip(found.item, found.process):
        decides = own.condition != NO_CONDITION
        if decides and tables.deciding[own.condition] != number:
            raise ValueError(f"process {number} has condition {own.condition}")
        processes[number] = processes[number]._replace(condition=int(decides), durations=found.durations(own))
    every = tuple(rows if number == node else it for number, it in enumerate(tables.rows))
    return replace(tables, faults=found.k, processes=tuple(processes), rows=every)


def difference(cpgc: Program, text: str, content: bytes, tables: Pack, node: int) -> str:
    """How the constants in C differ from what cpgc says of a pack, or nothing."""
    said = cpgc.text("node", cpgc.file("held.pack", content), "--", tables.nodes[node]).splitlines()
    try:
        found = read(text)
        rows = rows_of(found, tables)
        mine = list(told(rows, tables, node))
        again = pack.bytes_of(rebuilt(found, rows, tables, node))
    except (ValueError, KeyError, IndexError, OverflowError) as fault:
        return f"no table of the node: {fault}"
    if mine != said:
        line = next((number for number, (one, other) in enumerate(zip(mine, said)) if one != other), min(len(mine), len(said)))
        return f"line {line + 1} of `cpgc node` differs"
    return "" if again == content else "another head"


def hold(cpgc: Program, text: str, content: bytes, tables: Pack, node: int) -> None:
    """Ends the tool where the constants in C aren't what cpgc says of a pack."""
    if differs := difference(cpgc, text, content, tables, node):
        cli.fail(f"what was to be written isn't the table of node {tables.nodes[node]}: {differs}")


def hold_head(cpgc: Program, text: str, graph: str, tables: Pack, node: int) -> None:
    """Ends the tool where the head of the pack with the constants in it isn't the graph's, as `cpgc check` says. Without columns it is never safe, if
    anything has to be done, but that is no refusal."""
    found = read(text)
    head = rebuilt(found, rows_of(found, tables), tables, node)
    empty = tuple(tuple(row._replace(columns=[]) for row in rows) for rows in head.rows)
    cpgc.answer("check", graph, cpgc.file("head.pack", pack.bytes_of(replace(head, rows=empty))), statuses=(0, UNSAFE))
