"""Says what changed between two graphs and their tables, as text, as JSON or as a picture.

    compare OLD NEW
    compare OLD NEW OLD_PACK NEW_PACK
    compare --svg OLD NEW > changes.svg

OLD and NEW are graph files. Their tables are compiled, or those of the packs are checked. The output says what differs in the graphs, the latest
end of all scenarios, how many columns there are, the latest end and the spare time of each process for which one of them differs, and what moved:
each start, message and broadcast that has another time in a scenario of both graphs. It says by how much it moves, and in which scenario the most.
An item with another number of columns whose times stay is listed behind them. Processes are known by their names, and messages by both ends, so
other numbers change nothing.

A scenario of both has the same faults and the same true values, and strikes only what is in both. If an item has more than 1,000,000 pairs of
columns, only its latest times are compared. If a graph has more than 4,096 outcomes, a scenario may be shown that its conditions don't allow.

If a graph is late or too wide, only the graphs are compared, and the line and the status are those of cpgc. --all lists all that moved, not only
the first 20. In a picture each process has a bar from its earliest start to its latest end, once grey and once dark, with an arrow at its due.

For example, `sed 's/wcet = 30/wcet = 20/' pair.toml > faster.toml; compare pair.toml faster.toml` says `worst 85, was 105`.
"""
from __future__ import annotations

import functools
import itertools
import json
from collections.abc import Iterator, Sequence
from dataclasses import dataclass

from cpgc_tools import cli, graph, pack, safe, show
from cpgc_tools.graph import Graph, keys_of
from cpgc_tools.pack import VALUES, Pack, Row, common, literals
from cpgc_tools.play import Scenario
from cpgc_tools.program import Program
from cpgc_tools.svg import INK, RULE, SOFT, STRONG, Axis, Canvas, cut_to, heading, legend, width_of

MOST_PAIRS, MOST_OUTCOMES = 1_000_000, 4096
MOST_LISTED = 20
LANE, NAMES = 20, 150  # of the picture, in pixels
Name = tuple[str, ...]  # of an item: start and a process, send and both ends with how many there were before, or tell and a process
Variable = tuple[str, bool]  # a process, and whether it is its value and not its faults
Cube = dict[Variable, tuple[int, int]]


# Graphs.


def worded(key: str, old: object, new: object) -> str:
    def said(value: object) -> str:
        return "none" if value is None else "yes" if value is True else "no" if value is False else str(value)
    return f"{key} {said(new)}, was {said(old)}"


def entries(it: Graph, kind: str) -> dict[Name, dict[str, object]]:
    """The entries of a kind by what they are known by, with the defaults of what isn't said."""
    found: dict[Name, dict[str, object]] = {}
    by = {"slot": ("node",), "edge": ("from", "to")}.get(kind, ("name",))
    for entry in it.document.get(kind, []):
        known = tuple(entry[key] for key in by)
        before = sum(other[:len(by)] == known for other in found)
        found[(*known, str(before)) if kind == "edge" else known] = {**dict.fromkeys(keys_of(kind)), **graph.defaults(kind), **entry}
    return found


def called(kind: str, name: Name) -> str:
    if kind == "edge":
        return f"edge {name[0]}>{name[1]}" + (f" ({int(name[2]) + 1})" if name[2] != "0" else "")
    return f"{kind} {'of ' * (kind == 'slot')}{name[0]}"


def of_graphs(old: Graph, new: Graph) -> Iterator[str]:
    """What differs between two graphs, in words."""
    for key in ("faults", "deadline"):
        if old.document[key] != new.document[key]:
            yield worded(key, old.document[key], new.document[key])
    if old.order != new.order:
        yield "no order is given" if new.order is None else "an order is given" if old.order is None else "another order is given"
    for kind in graph.KINDS:
        before, after = entries(old, kind), entries(new, kind)
        yield from (f"{called(kind, name)} is gone" for name in before if name not in after)
        for name, entry in after.items():
            if name not in before:
                yield f"{called(kind, name)} is new"
            elif changed := [worded(key, before[name][key], value) for key, value in entry.items() if before[name][key] != value]:
                yield f"{called(kind, name)}: {'; '.join(changed)}"
        if kind == "slot" and list(before) != list(after) and set(before) == set(after):
            yield f"slots in the order {' '.join(name for name, in after)}, was {' '.join(name for name, in before)}"


# Tables.


class Side:
    """A graph with its tables, by names."""

    def __init__(self, it: Graph, tables: Pack) -> None:
        self.graph, self.tables, self.ends = it, tables, tables.latest_ends()
        self.rows: dict[Name, Row] = {}
        for _, row in tables.acts():
            self.rows[self.name_of(row)] = row
        self.valued = {process.number for process in it.deciding}
        self.outcomes = list(itertools.islice(it.outcomes(), MOST_OUTCOMES + 1))

    def name_of(self, row: Row) -> Name:
        if row.item.kind != "send":
            return row.item.kind, self.tables.name_of(row.item)
        edge = self.graph.edges[row.item.of]
        before = sum((it.source, it.target) == (edge.source, edge.target) for it in self.graph.edges[:edge.number])
        return "send", *(self.graph.processes[it].name for it in (edge.source, edge.target)), str(before)

    def cube(self, cube: bytes) -> Cube:
        found: Cube = {}
        for variable, low, high in literals(cube):
            number = variable if variable < VALUES else self.tables.deciding[variable - VALUES]
            found[self.graph.processes[number].name, variable >= VALUES] = low, high
        return found

    @property
    def worst(self) -> int:
        return max(self.ends.values(), default=0)

    @property
    def columns(self) -> int:
        return sum(len(row.columns) for row in self.rows.values())

    def spare(self, name: str) -> int | None:
        """How long before its due a process is over at the latest."""
        return self.graph.processes[self.graph.number[name]].due - self.ends[name] if name in self.ends else None

    def first(self, name: str) -> int:
        """The earliest start of a process."""
        return min((time for time, _ in self.rows["start", name].columns), default=0)

    @functools.cached_property
    def known(self) -> dict[frozenset[tuple[int, bool | None, bool]], bool]:
        return {}

    def can_be(self, own: Cube, other: Cube) -> bool:
        """Whether there is an outcome of a column of this graph and one of the other: what the own one speaks of is active. What isn't active has
        no fault, and a value that the other one asks for isn't true there."""
        if len(self.outcomes) > MOST_OUTCOMES:
            return True
        asked: set[tuple[int, bool | None, bool]] = set()  # a process, its value or None, and whether it has to be active
        for cube, is_own in (own, True), (other, False):
            for (name, is_value), (low, _) in cube.items():
                number = self.graph.number[name]
                if is_value and number in self.valued:
                    asked.add((number, bool(low), is_own or bool(low)))
                elif is_own or not is_value and low:
                    asked.add((number, None, True))
        key = frozenset(asked)
        if key not in self.known:
            self.known[key] = any(
                all((not must or active >> number & 1 == 1) and (value is None or (true >> number & 1 == 1) == value) for number, value, must in key)
                for active, true in self.outcomes)
        return self.known[key]


@dataclass(frozen=True)
class Item:
    """An item of which something differs. Times are those of the scenario in which it moves the most, and none if it doesn't move."""

    name: Name
    columns: tuple[int, int]
    earlier: int = 0  # by so much at most
    later: int = 0
    times: tuple[int, int] | None = None
    scenario: str = ""
    always: bool = False  # whether it moves by the same in all scenarios

    def text(self) -> str:
        kind, *rest = self.name
        said = f"{kind} {'>'.join(rest[:2])}" + (f" ({int(rest[2]) + 1})" if rest[2:] and rest[2] != "0" else "")
        columns = f"{self.columns[1]} column{'s' * (self.columns[1] != 1)}, was {self.columns[0]}"
        if self.times is None:
            return f"{said}: {columns if all(self.columns) else 'is new' if self.columns[1] else 'is gone'}"
        most = f"{self.earlier} earlier" if self.earlier else f"{self.later} later"
        if self.always:
            moved = f"{most} in all scenarios"
        elif self.earlier and self.later:
            moved = f"up to {self.earlier} earlier and up to {self.later} later"
        else:
            moved = f"up to {most}"
        count = f"; {columns}" if self.columns[0] != self.columns[1] else ""
        return f"{said}: {moved}, as at {self.times[1]}, was {self.times[0]}, in {self.scenario}{count}"

    def document(self) -> dict[str, object]:
        times = None if self.times is None else {"old": self.times[0], "new": self.times[1]}
        return {"item": list(self.name), "columns": {"old": self.columns[0], "new": self.columns[1]}, "earlier": self.earlier, "later": self.later,
                "time": times, "scenario": self.scenario or None}


def both(old: Cube, new: Cube, most: int) -> Cube | None:
    """The scenarios of two cubes with so many faults at most, or nothing if there are none."""
    found = common(old, new)
    return found if found is not None and sum(low for (_, is_value), (low, _) in found.items() if not is_value) <= most else None


class Comparison:
    def __init__(self, old: Side, new: Side) -> None:
        self.old, self.new = old, new
        self.most = min(old.graph.faults, new.graph.faults)
        self.partly = False  # whether only the latest times of an item were compared

    def cubes(self, side: Side, row: Row) -> list[tuple[int, Cube]]:
        """The columns of a row that are for a scenario of both graphs: without faults of what is in one alone, whose values don't count."""
        there = self.old.graph.number.keys() & self.new.graph.number.keys()
        found = []
        for time, cube in row.columns:
            known = side.cube(cube)
            if not any(low and not is_value for (name, is_value), (low, _) in known.items() if name not in there):
                found.append((time, {variable: it for variable, it in known.items() if variable[0] in there}))
        return found

    def scenario(self, cube: Cube) -> str:
        counts = {name: low for (name, is_value), (low, _) in cube.items() if not is_value and low}
        return Scenario(counts, frozenset(name for (name, is_value), (low, _) in cube.items() if is_value and low)).text(self.new.graph.number)

    def item(self, name: Name) -> Item | None:
        """What differs in an item, or nothing."""
        before, after = self.old.rows.get(name), self.new.rows.get(name)
        counts = len(before.columns) if before else 0, len(after.columns) if after else 0
        if not before or not after or 0 in counts:
            return Item(name, counts) if counts[0] != counts[1] else None
        unmoved = Item(name, counts) if counts[0] != counts[1] else None
        cubes, new = self.cubes(self.old, before), self.cubes(self.new, after)
        if cubes == new:
            return unmoved
        if counts[0] * counts[1] > MOST_PAIRS:
            self.partly = True
            times = max(time for time, _ in before.columns), max(time for time, _ in after.columns)
            shift = times[1] - times[0]
            return Item(name, counts, max(-shift, 0), max(shift, 0), times, "the latest of its columns") if shift else unmoved
        least, greatest, most, found = 10**20, -10**20, 0, None
        for time, cube in cubes:
            for other, its in new:
                shift = other - time
                if least <= shift <= greatest and abs(shift) <= most:
                    continue
                shared = both(cube, its, self.most)
                if shared is None or not self.old.can_be(cube, its) or not self.new.can_be(its, cube):
                    continue
                least, greatest = min(least, shift), max(greatest, shift)
                if abs(shift) > most:
                    most, found = abs(shift), ((time, other), self.scenario(shared))
        if found is None:
            return unmoved
        return Item(name, counts, max(-least, 0), max(greatest, 0), *found, always=least == greatest)

    def items(self) -> list[Item]:
        names, found = list(dict.fromkeys((*self.old.rows, *self.new.rows))), []
        for number, name in enumerate(names):
            cli.progress(f"{number} of {len(names)} items")
            if it := self.item(name):
                found.append(it)
        return sorted(found, key=lambda it: -max(it.earlier, it.later))

    def same_scenarios(self) -> bool:
        """Whether the scenarios of both graphs are known to be the same, by names."""
        def named(side: Side) -> set[tuple[frozenset[str], frozenset[str]]]:
            names = [it.name for it in side.graph.processes]
            return {(of(active, names), of(true, names)) for active, true in side.outcomes}

        def of(mask: int, names: list[str]) -> frozenset[str]:
            return frozenset(name for number, name in enumerate(names) if mask >> number & 1)

        if self.old.graph.document == self.new.graph.document:
            return True
        few = max(len(self.old.outcomes), len(self.new.outcomes)) <= MOST_OUTCOMES
        return self.old.graph.faults == self.new.graph.faults and few and named(self.old) == named(self.new)

    def processes(self) -> list[tuple[str, str, int | None, int | None, int | None, int | None]]:
        """Of each process of the new graph its name, its node, its latest end and its spare time, each new and old."""
        found = []
        for it in self.new.graph.processes:
            name = it.name
            there = name in self.old.graph.number
            found.append((name, self.new.graph.node_of(it), self.new.ends.get(name), self.old.ends.get(name), self.new.spare(name), self.old.spare(name) if there else None))
        return found


def signed(number: int) -> str:
    return f"{number:+}"


def as_text(changes: Sequence[str], it: Comparison, everything: bool) -> Iterator[str]:
    yield from changes or ["the graphs are alike"]
    old, new = it.old, it.new
    yield f"worst {new.worst}" + (f", was {old.worst} ({signed(new.worst - old.worst)})" if new.worst != old.worst else ", as before")
    yield f"{new.columns} columns" + (f", was {old.columns} ({signed(new.columns - old.columns)})" if new.columns != old.columns else ", as before")
    rows: list[tuple[object, ...]] = []
    for name, node, end, was, spare, had in it.processes():
        if (end, spare) != (was, had):
            by = "" if end is None or was is None else signed(end - was)
            rows.append((name, node, "never" if end is None else end, "never" if was is None else was, by, "" if spare is None else spare, "" if had is None else had))
    if rows:
        yield from (line.rstrip() for line in show.in_columns([("process", "node", "latest end", "was", "by", "spare", "was"), *rows]))
    found = it.items()
    shown = found if everything else found[:MOST_LISTED]
    yield from (item.text() for item in shown)
    if len(shown) < len(found):
        yield f"and {len(found) - len(shown)} more, which --all lists"
    if all(item.times is None and all(item.columns) for item in found):
        yield ("no latest time moved" if it.partly else "nothing moved") + " in scenarios of both" * (not it.same_scenarios())


def as_json(changes: Sequence[str], it: Comparison) -> str:
    keys = ("name", "node")
    processes = [dict(zip(keys, row[:2])) | {"latest_end": {"old": row[3], "new": row[2]}, "spare": {"old": row[5], "new": row[4]}} for row in it.processes()]
    return json.dumps({
        "graph": list(changes), "worst": {"old": it.old.worst, "new": it.new.worst}, "columns": {"old": it.old.columns, "new": it.new.columns},
        "processes": processes, "items": [item.document() for item in it.items()]}, indent=1) + "\n"


def as_svg(names: tuple[str, str], changes: Sequence[str], it: Comparison, width: int = 900) -> Iterator[str]:
    """The picture: of each process the time from its earliest start to its latest end."""
    canvas, new, old = Canvas(), it.new, it.old
    title = f"{names[0]} and {names[1]}"
    said = f"Latest end {new.worst}, was {old.worst}; {new.columns} columns, was {old.columns}. {'; '.join(changes) or 'The graphs are alike'}."
    top = heading(canvas, title, said, width) + 34
    deadline = max(new.graph.deadline, old.graph.deadline)
    axis = Axis(0, max(deadline, new.worst, old.worst, 1), NAMES, width - 70)
    lanes = sorted(new.graph.processes, key=lambda process: (process.node, new.first(process.name), process.number))
    y, node = top, -1
    for process in lanes:
        if process.node != node:
            node = process.node
            canvas.line("grid", 10, y, axis.right, y, RULE, 0.8)
            canvas.text(12, y + 14, cut_to(new.graph.nodes[node], 11, 60), 11, bold=True)
        canvas.text(axis.left - 6, y + 13, cut_to(process.name, 9.5, NAMES - 84), 9.5, anchor="end")
        name, end, was = process.name, new.ends.get(process.name), old.ends.get(process.name)
        if was is not None:
            x, to = axis.cut(old.first(name), was)
            canvas.rect("ground", x, y + 3, max(to - x, 0.8), 6, RULE)
        if end is not None:
            x, to = axis.cut(new.first(name), end)
            canvas.rect("shapes", x, y + 10, max(to - x, 0.8), 6, STRONG if was is not None and end > was else INK)
            canvas.text(axis.right + 6, y + 14, "new" if was is None else "" if end == was else signed(end - was), 9.5, SOFT)
        if process.due < new.graph.deadline:
            canvas.arrow(axis.at(process.due), y + 1, y + LANE - 1)
        y += LANE
    axis.draw(canvas, top, y)
    axis.draw_deadline(canvas, top, y, new.graph.deadline)
    entries = [(16, lambda x, y: canvas.rect("marks", x, y - 3, 16, 6, RULE), names[0]), (16, lambda x, y: canvas.rect("marks", x, y - 3, 16, 6, INK), names[1]),
               (16, lambda x, y: canvas.rect("marks", x, y - 3, 16, 6, STRONG), f"{names[1]}, with a later latest end")]
    if any(process.due < new.graph.deadline for process in lanes):
        entries.append((6, lambda x, y: canvas.arrow(x + 3, y - 5, y + 5), "due"))
    low = legend(canvas, entries, NAMES - width_of("x", 9), width - 12, y + 32)
    yield from canvas.whole(width, low, title, said)


def main() -> None:
    words = cli.Words(__doc__).with_program().with_files("OLD", "NEW")
    words.add_argument("--all", action="store_true", help="list all that moved")
    words.add_argument("--json", action="store_true", help="write JSON, with all that moved")
    words.add_argument("--svg", action="store_true", help="draw a picture")
    words.add_argument("packs", metavar="PACK", nargs="*", help="the tables of both, else they are compiled")
    said = words.parse_args()
    if len(said.packs) not in (0, 2):
        words.error("two packs, or none")
    contents = [cli.read(path, cli.GRAPH) for path in (said.old, said.new)]
    given: Sequence[bytes | None] = [cli.read(path, cli.PACK) for path in said.packs] or [None, None]
    graphs: list[Graph] = []
    with Program(said.program) as cpgc:
        for number, (path, content) in enumerate(zip((said.old, said.new), contents)):
            if not graph.File(path, content=content).graph():
                cpgc.asked("compile", cpgc.file(f"graph-{number}.toml", content))  # which says why
            graphs.append(graph.parsed(path, content))
        changes = list(of_graphs(*graphs))
        try:
            packs = [safe.tables_of(cpgc, cpgc.file(f"graph-{number}.toml", content), tables) for number, (content, tables) in enumerate(zip(contents, given))]
        except cli.Refused as refused:
            if refused.status in (5, 6) and not said.json and not said.svg:
                cli.write_lines(changes or ["the graphs are alike"])
            raise
    found = Comparison(*(Side(it, pack.of_file(path, content)) for it, path, content in zip(graphs, said.packs or (said.old, said.new), packs)))
    if said.json:
        cli.write(as_json(changes, found))
    elif said.svg:
        cli.write_lines(as_svg((said.old, said.new), changes, found))
    else:
        cli.write_lines(as_text(changes, found, said.all))
