"""The refusals of a stream and of a log."""
from __future__ import annotations

import re
from collections.abc import Iterator

from cpgc_tools import cli
from cpgc_tools.explain.files import Files, listed, mend, near
from cpgc_tools.explain.table import Sentences, explains
from cpgc_tools.graph import File, Sentence, shown
from cpgc_tools.pack import Pack
from cpgc_tools.stream import CLOSE, END, FRAME

SIZE = 14  # of a record


class Record:
    """A record of a stream, or the beginning of one."""

    def __init__(self, content: bytes) -> None:
        self.content, self.whole = content, len(content) == SIZE
        fields = content.ljust(SIZE, b"\0")
        self.kind, self.value = fields[0], fields[13]
        self.time, self.item, self.number = (int.from_bytes(fields[a:b], "big") for a, b in ((1, 9), (9, 11), (11, 13)))

    def told(self, pack: Pack | None) -> str:
        """The record in words."""
        if not self.whole:
            return f", of {len(self.content)} bytes in place of {SIZE}" if self.content else ""
        kind = {FRAME: "a frame of item", END: "an end of process", CLOSE: "a close"}.get(self.kind, f"of kind {self.kind} with item")
        what = "" if self.kind == CLOSE else f" {self.item}{item_name(pack, self.item)} with number {self.number} and value {self.value}"
        return f", {kind}{what} at {self.time}"

    def of_kind(self) -> str:
        """What of its kind is lawless."""
        if self.kind > CLOSE:
            return f"its kind is {self.kind}, and at most 2 may be"
        if self.value > 1:
            return f"its value is {self.value}, and 0 or 1 may be"
        return "a close has something else than 0 behind its time" if self.kind == CLOSE else "a frame of a message has the value 1, and 0 alone may be"

    def of_end(self, pack: Pack | None, name: str | None) -> str:
        """What of an end is lawless, as far as the record and the pack tell."""
        node = pack.nodes.index(name) if pack and name in pack.nodes else None
        process = pack.processes[self.item] if pack and self.item < len(pack.processes) else None
        if pack and process is None:
            return f"there is no process {self.item}"
        if process and node is not None and process.node != node:
            return f"{process.name} doesn't run on {name}"
        if pack and self.number > pack.faults:
            return f"its count is {self.number}, and at most {pack.faults} faults may be"
        if process and self.value and not process.condition:
            return f"it has the value 1, and {process.name} has no condition"
        return "the process isn't running there, or the time isn't after its start and at most its planned end"


@explains(4, "^cpgc: refused 21 stream ([0-9]+) (length|kind|order|frame|end)$")
def stream(files: Files, said: str, why: str) -> Sentences:
    file, number, pack = files.get("stream"), int(said), files.pack()
    record = Record(file.bytes[SIZE * number:SIZE * number + SIZE] if file else b"")
    known = record.whole and pack is not None
    what = {
        "length": "a byte follows the close, or the stream ends before a close or within a record",
        "kind": record.of_kind() if record.whole else "its kind is above 2, its value above 1, or a field that has to be 0 isn't",
        "order": "its time is before that of the record before it",
        "frame": "the node hears no such item, the item has no such column, the column arrives at another time, or it contradicts what was heard",
        "end": record.of_end(pack, files.name) if known else "it isn't an end that can be",
    }[why]
    told = f"record {number}, at byte {SIZE * number}{record.told(pack)}: {what}"
    yield Sentence.of(told, file.path) if file else told
    if why == "frame" and record.whole and pack:
        yield from heard(files, pack, record.item)
    yield mend(f"docs/FORMATS.md has the fields; {cli.named('stream')} makes a lawful one of a play")


def item_name(pack: Pack | None, number: int) -> str:
    item = pack.item(number) if pack else None
    if pack is None or item is None:
        return ""
    return f" ({pack.name_of(item)} {pack.edge_text(item.of)})" if item.kind == "send" else f" ({pack.item_text(item)})"


def heard(files: Files, pack: Pack, number: int) -> Iterator[str]:
    """When a node hears an item."""
    if files.name in pack.nodes:
        rows = [row for row in pack.rows[pack.nodes.index(files.name)] if row.heard and row.item.number == number]
        times = [f"{time} by column {n}" for row in rows for n, (time, _) in enumerate(row.columns)]
        yield f"{files.name} hears it at {listed(times)}" if rows else f"{files.name} doesn't hear it"


@explains(4, "^cpgc: refused 23 log ([0-9]+)$")
def log(files: Files, said: str) -> Sentences:
    file, number = files.get("log") or File(""), int(said)
    lines = file.bytes.decode(errors="replace").split("\n")
    line = lines[number] if number < len(lines) else ""
    yield Sentence.of(f"{shown(line)}: {log_fault(files, lines, number, line)}", file.path, number + 1)
    yield mend("the first line is `until TIME`, each other one `TIME NODE start NAME`, `TIME NODE send eN` or `TIME NODE tell NAME`")


def log_fault(files: Files, lines: list[str], number: int, line: str) -> str:
    """Why a line of a log can't stand there."""
    if number == 0:
        return "the first line isn't `until TIME`"
    found = re.fullmatch(r"(0|[1-9][0-9]*) ([^ ]+) (start|tell|send) ([^ ]+)", line)
    if not found:
        return "it isn't of the form of an act"
    pack = files.pack()
    until = lines[0].split(" ")[-1]
    act = f"{found[3]} {found[4]}"
    rows = {pack.item_text(row.item): pack.nodes[node] for node, row in pack.acts()} if pack else None
    if rows is not None and act not in rows:
        return f"there is no {act}{near(found[4], [it.split(' ')[1] for it in rows if it.startswith(found[3])])}"
    if rows is not None and rows[act] != found[2]:
        return f"{act} is of {rows[act]}, not of {found[2]}"
    earlier = next((n for n, it in enumerate(lines[1:number], 1) if it.split(" ")[2:] == [found[3], found[4]]), None)
    if earlier is not None:
        return f"{act} stands on line {earlier + 1} already"
    return f"{found[1]} is after {until}, up to which the log goes" if re.fullmatch("[0-9]{1,20}", until) and len(found[1]) <= 20 and int(found[1]) > int(until) else "it can't stand there"
