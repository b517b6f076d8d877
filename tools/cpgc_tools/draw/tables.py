"""The picture of tables: for each node its processes and what it sends, a row for each."""
from __future__ import annotations

import functools
from collections.abc import Iterator, Sequence

from cpgc_tools import schedule
from cpgc_tools.draw.shared import RIGHT, SLOT, Options, is_frozen, item_text, mark_entries, of_graph, slots, until, windows
from cpgc_tools.graph import Graph, Process
from cpgc_tools.pack import VALUES, Item, Pack, Row, asked, literals
from cpgc_tools.schedule import Act, act_of
from cpgc_tools.svg import INK, RULE, SOFT, STRONG, Axis, Canvas, Entry, cut_to, heading, joined, legend, shown, width_of

SHADES = "#dbe7f3 #c3d7ea #a6c4df #86aed2 #6797c3 #4a7fb2 #31679d #1d5085 #0c396b".split()  # each darker than the one before
EDGE = "#26435f"
WAITS, ENDS = ' stroke-dasharray="2 2.5"', ' stroke-dasharray="2 3"'
Piece = tuple[float, float, float, float]  # from a place to a place


class Bar:
    """The columns of a row that have one time and ask for equally many faults."""

    def __init__(self, graph: Graph, node: int, item: Item, time: int, faults: int, cubes: Sequence[bytes]) -> None:
        self.time, self.faults, self.cubes = time, faults, cubes
        if item.kind == "start":
            process = graph.processes[item.of]
            self.end, self.latest = time + process.duration(0), time + process.duration(graph.faults - faults)
        else:
            self.end = self.latest = graph.arrival(node, time)


def bars(graph: Graph, node: int, row: Row) -> list[Bar]:
    """The bars of a row, by time. A column that asks for more faults than there may be is for no scenario."""
    found: dict[tuple[int, int], list[bytes]] = {}
    for time, cube in row.columns:
        faults = asked(cube)
        if faults <= graph.faults:
            found.setdefault((time, faults), []).append(cube)
    return [Bar(graph, node, row.item, time, faults, cubes) for (time, faults), cubes in sorted(found.items())]


def values_of(cubes: Sequence[bytes]) -> list[tuple[int, int, int]]:
    """The literals on values that all these cubes have."""
    return sorted(set.intersection(*({it for it in literals(cube) if it[0] >= VALUES} for cube in cubes)))


def clusters(tables: Pack, found: Sequence[Bar], gap: float) -> list[tuple[int, int, str]]:
    """The bars of a row, parted where there is a gap: of each part its first time, its latest end and what its columns say of values."""
    parts: list[list[Bar]] = []
    latest = 0
    for bar in found:
        if parts and bar.time <= latest + gap:
            parts[-1].append(bar)
        else:
            parts.append([bar])
            latest = bar.latest
        latest = max(latest, bar.latest)

    def said(part: list[Bar]) -> str:
        return ", ".join(tables.literal_text(*it) for it in values_of([cube for bar in part for cube in bar.cubes]))

    return [(part[0].time, max(bar.latest for bar in part), said(part)) for part in parts]


class Strips:
    """How a row is cut into strips, one for each number of faults that its columns ask for."""

    def __init__(self, found: Sequence[Bar]) -> None:
        self.faults = sorted({bar.faults for bar in found}) or [0]
        count = len(self.faults)
        self.each = 11 if count == 1 else 8 if count == 2 else 6 if count < 5 else 4
        self.height = max(self.each * count + 4, 15)

    def at(self, y: float, faults: int) -> float:
        """Where the strip begins in a row at y."""
        return y + (self.height - self.each * len(self.faults)) / 2 + self.each * self.faults.index(faults)


class Tables:
    def __init__(self, graph: Graph, tables: Pack, options: Options) -> None:
        self.graph, self.tables, self.options = graph, tables, options
        rows = schedule.rows_of(tables)
        self.latest, self.scenario, self.last = schedule.worst(graph, rows)
        self.picks = schedule.picked(graph, rows, self.scenario)
        self.way = schedule.path(graph, rows, self.scenario, self.last)
        self.rows = [(node, row.item, bars(graph, node, row)) for node, row in rows if node in options.nodes]
        self.canvas = Canvas()
        self.notes: list[tuple[float, float, str, str]] = []  # texts beside bars: (x, y, text, anchor)
        self.slotted = self.others = False  # whether slots, and columns beside the way, are drawn
        texts = [width_of(item_text(graph, *act_of(item)), 10.5) for _, item, _ in self.rows]
        self.labels = min(max(texts, default=0), options.width // 4)
        self.names = min(max([width_of(f"{graph.nodes[n]} bus", 11.5) for n in options.nodes], default=0), options.width // 8)

    def draw(self, name: str) -> Iterator[str]:
        graph, options, right = self.graph, self.options, self.options.width - RIGHT
        left = max(int(self.labels + self.names) + 42, 100)
        end = max([bar.latest for *_, found in self.rows for bar in found], default=0)
        title = f"Tables of {name}"
        said = f"{of_graph(graph, graph.deadline)} The latest end of all scenarios is {self.latest}, in {self.scenario.text(graph.number)}."
        y = heading(self.canvas, title, said, options.width) - 6
        for number, (low, high) in enumerate(windows(options, until(graph.deadline, end))):
            axis = Axis(low, high, left, right)
            y = self.draw_window(axis, number, y + (48 if self.is_crowded(axis) else 36))
        y = legend(self.canvas, self.entries(), 12, options.width - 12, y + 14)
        return self.canvas.whole(options.width, y, title, said)

    def is_crowded(self, axis: Axis) -> bool:
        """Whether the deadline and the latest end are too near to each other to be named side by side."""
        times = self.latest, self.graph.deadline
        return all(axis.low < time <= axis.high for time in times) and abs(axis.at(times[0]) - axis.at(times[1])) < 100

    def draw_window(self, axis: Axis, number: int, y: float) -> float:
        """The lanes of a stretch of time, from y on; answers where they end."""
        top = y
        places: dict[Act, float] = {}
        seen = [it for it in self.rows if not it[2] or any(axis.holds(bar.time, bar.latest) for bar in it[2])]
        for node in sorted(self.options.nodes):
            for on_bus in (False, True):
                group = [(item, found) for at, item, found in seen if at == node and (item.kind != "start") == on_bus]
                if group:
                    y = self.draw_group(axis, node, on_bus, group, y, places)
        axis.draw(self.canvas, top, y)
        axis.draw_deadline(self.canvas, top, y, self.graph.deadline, 27 if self.is_crowded(axis) else 15)
        self.draw_scenario(axis, places, number, top, y)
        return y + 16

    def draw_group(self, axis: Axis, node: int, on_bus: bool, group: Sequence[tuple[Item, list[Bar]]], y: float, places: dict[Act, float]) -> float:
        """The starts of a node, or what it sends, below its name."""
        canvas, name, top = self.canvas, self.graph.nodes[node], y
        canvas.line("ground", 10, y, axis.right, y, RULE, 0.4 if on_bus else 0.8)
        if on_bus:
            canvas.text(12, y + 14, cut_to(f"{name} bus", 10, self.names), 10, SOFT)
        else:
            canvas.text(12, y + 14, cut_to(name, 12, self.names), 11.5, bold=True)
        y += 3
        for item, found in sorted(group, key=lambda it: (it[1][0].time if it[1] else 0, it[0].of)):
            strips = Strips(found)
            self.draw_row(axis, act_of(item), found, strips, y, places)
            y += strips.height
        if on_bus:
            self.draw_slots(axis, node, top, y + 3)
        return y + 3

    def draw_slots(self, axis: Axis, node: int, top: float, bottom: float) -> None:
        way = []
        for begin, _ in slots(self.graph, [node], axis):
            x, end = axis.cut(begin, self.graph.arrival(node, begin))
            way.append(f"M{shown(x)} {shown(top)}H{shown(end)}V{shown(bottom)}H{shown(x)}Z")
        if way:
            self.slotted = True
            self.canvas.path("grid", "".join(way), None, fill=SLOT)

    def draw_row(self, axis: Axis, item: Act, found: Sequence[Bar], strips: Strips, y: float, places: dict[Act, float]) -> None:
        """A row; notes where in it the way would pass."""
        canvas, middle = self.canvas, y + strips.height / 2
        size, fill = (10.5, INK) if item[0] == "start" else (9.5, SOFT)
        canvas.text(axis.left - 14, middle + 3.5, cut_to(item_text(self.graph, *item), size, self.labels), size, fill, "end")
        for faults in strips.faults:
            self.draw_strip(axis, [bar for bar in found if bar.faults == faults], strips.at(y, faults), strips.each - 1, faults)
        if is_frozen(self.graph, *item):
            times = sorted({bar.time for bar in found if axis.low <= bar.time < axis.high})
            for x in (axis.left - 7, *map(axis.at, times)):
                canvas.diamond(x, middle)
        if not found:
            self.notes.append((axis.left + 4, middle + 3, "in no scenario", "start"))
        if item in self.picks:
            places[item] = strips.at(y, asked(self.picks[item][1])) + (strips.each - 1) / 2
        self.note_times(axis, found, middle + 3)
        if item[0] == "start":
            self.draw_bounds(axis, self.graph.processes[item[1]], y, strips.height)

    def draw_strip(self, axis: Axis, found: Sequence[Bar], y: float, height: float, faults: int) -> None:
        """The bars of a row that ask for equally many faults, by time."""
        longer = [bar for bar in found if bar.latest > bar.end]
        behind = joined(axis.cut(bar.end, bar.latest) for bar in longer if axis.holds(bar.end, bar.latest))
        ends = sorted({axis.at(bar.latest) for bar in longer if axis.low < bar.latest <= axis.high})
        way = "".join(f"M{shown(begin)} {shown(y + height / 2)}H{shown(latest)}" for begin, latest in behind)
        way += "".join(f"M{shown(x)} {shown(y + 1)}v{shown(height - 2)}" for x in ends)
        if way:
            self.canvas.path("ground", way, SOFT, 0.8)
        self.draw_bars([axis.cut(bar.time, bar.end) for bar in found if axis.holds(bar.time, bar.end)], y, height, faults)

    def draw_bars(self, cuts: Sequence[tuple[float, float]], y: float, height: float, faults: int) -> None:
        """Bars in one shade, with an outline around all and a line where one begins within another. Where they are dense these lines
        are left out, as they would change the shade."""
        if not cuts:
            return
        shade, begins = faults * 8 // max(self.graph.faults, 1), sorted({x for x, _ in cuts})
        way = "".join(f"M{shown(x)} {shown(y)}H{shown(max(end, x + 0.8))}V{shown(y + height)}H{shown(x)}Z" for x, end in joined(cuts))
        beside = zip([-9, *begins], begins, [*begins[1:], begins[-1] + 9])
        spaced = [x for before, x, after in beside if x - before >= 3 <= after - x or x == begins[0]]
        self.canvas.path("shapes", way, EDGE, 0.8)
        self.canvas.path("shapes", way, None, fill=SHADES[shade])
        edges = "".join(f"M{shown(x)} {shown(y)}v{shown(height)}" for x in spaced)
        self.canvas.path("shapes", edges, EDGE if shade < 5 else "#fff", 0.8)

    def draw_shade(self, faults: int, x: float, y: float) -> None:
        """The shade of bars that ask for so many faults, in the legend."""
        self.draw_bars([(x, x + 16)], y - 4, 8, faults)

    def note_times(self, axis: Axis, found: Sequence[Bar], y: float) -> None:
        """Beside the bars the first time, the latest end, and for which values they are, where there is room."""
        free = axis.left + 2
        parts = clusters(self.tables, found, 14 * (axis.high - axis.low) // (axis.right - axis.left))
        for (first, latest, said), then in zip(parts, [*(part[0] for part in parts[1:]), None]):
            if axis.low <= first < axis.high:
                x = axis.at(first) - 5
                for text in (str(first), said):
                    if text and x - width_of(text, 9) > free:
                        self.notes.append((x, y, text, "end"))
                        x -= width_of(text, 9) + 4
                    else:
                        break
            if axis.low < latest <= axis.high:
                x, free = axis.at(latest) + 4, axis.at(latest) + 3
                over = x + width_of(str(latest), 9) + 3
                if over < (axis.right + 30 if then is None or then >= axis.high else axis.at(then)):
                    self.notes.append((x, y, str(latest), "start"))
                    free = over

    def draw_bounds(self, axis: Axis, process: Process, y: float, height: float) -> None:
        if axis.low < process.release <= axis.high:
            self.canvas.arrow(axis.at(process.release), y + height, y)
        if process.due < self.graph.deadline and axis.low <= process.due <= axis.high:
            self.canvas.arrow(axis.at(process.due), y, y + height)

    def stretch(self, kind: str, number: int) -> tuple[int, int]:
        """From when to when an item goes on in the scenario of the latest end."""
        time, process = self.picks[kind, number][0], self.graph.processes[self.graph.edges[number].source if kind == "send" else number]
        return time, time + process.duration(self.scenario.faults.get(process.name, 0)) if kind == "start" else self.graph.arrival(process.node, time)

    def pieces(self, axis: Axis, places: dict[Act, float]) -> tuple[list[Piece], list[Piece]]:
        """The way to the latest end in pieces (x, y, to x, to y): along executions and slots and down to the next, and where it waits."""
        goes: list[Piece] = []
        waits: list[Piece] = []
        before: tuple[float, float] | None = None
        for item in reversed(self.way):
            if item not in places:
                before = None
                continue
            (x, end), y = (axis.at(time) for time in self.stretch(*item)), places[item]
            if before:
                goes.append((before[0], before[1], before[0], y))
                waits += [(before[0], y, x, y)] if x > before[0] else []
            goes.append((x, y, end, y))
            before = end, y
        return goes, waits

    def draw_scenario(self, axis: Axis, places: dict[Act, float], number: int, top: float, bottom: float) -> None:
        """The scenario of the latest end: a line along all that goes on in it, and a stronger one that leads to its end."""
        goes, waits = self.pieces(axis, places)
        others: list[Piece] = []
        for item in places:
            x, end = (axis.at(time) for time in self.stretch(*item))
            if item not in self.way and x < axis.right and end > axis.left:
                others.append((x, places[item], end, places[item]))
        self.others = self.others or others != []
        if goes or others:
            self.draw_pieces(axis, others, goes, waits, number, top, bottom)
        if axis.low < self.latest <= axis.high:
            x = axis.at(self.latest)
            self.canvas.line("path", x, top, x, bottom, STRONG, 0.8, ENDS)
            self.canvas.text(x, top - 15, f"worst {self.latest}", 9.5, STRONG, "middle", bold=True)
            goes.append((x, top, x, bottom))
        self.write_notes(goes + waits)

    def draw_pieces(self, axis: Axis, others: list[Piece], goes: list[Piece], waits: list[Piece], number: int, top: float, bottom: float) -> None:
        canvas, place = self.canvas, f'x="{axis.left}" y="{shown(top)}" width="{axis.right - axis.left}" height="{shown(bottom - top)}"'
        canvas.put("path", f'<clipPath id="row{number}"><rect {place}/></clipPath>')
        canvas.put("path", f'<g clip-path="url(#row{number})">')
        for pieces, stroke, thick, more in ((others, STRONG, 1, ""), (goes + waits, "#fff", 4, ""), (goes, STRONG, 2, ""), (waits, STRONG, 1.6, WAITS)):
            if pieces:
                way = "".join(f"M{shown(x)} {shown(y)}L{shown(end)} {shown(to)}" for x, y, end, to in pieces)
                canvas.path("path", way, stroke, thick, more=more)
        canvas.put("path", "</g>")

    def write_notes(self, pieces: Sequence[Piece]) -> None:
        """The texts beside the bars, on a ground of their own where the way passes."""
        for x, y, text, anchor in self.notes:
            low = x - width_of(text, 9) if anchor == "end" else x
            high = low + width_of(text, 9)
            passed = any(a <= high + 1 and c >= low - 1 and min(b, d) <= y and max(b, d) >= y - 8 for a, b, c, d in pieces)
            self.canvas.text(x, y, text, 9, SOFT, anchor, ground=passed)
        self.notes = []

    def entries(self) -> Iterator[Entry]:
        """The legend, of what is there."""
        canvas, graph, faults = self.canvas, self.graph, self.graph.faults

        def longer(x: float, y: float) -> None:
            canvas.line("ground", x, y, x + 18, y, SOFT, 0.8)
            canvas.line("ground", x + 18, y - 3, x + 18, y + 3, SOFT, 0.8)

        def way(x: float, y: float) -> None:
            canvas.line("path", x, y, x + 11, y, STRONG, 2)
            canvas.line("path", x + 11, y, x + 20, y, STRONG, 1.6, WAITS)

        said = ["a column that asks for no fault", *map(str, range(1, faults)), *([f"{faults} fault{'s' * (faults > 1)}"] if faults else [])]
        for count, text in enumerate(said):
            yield 16, functools.partial(self.draw_shade, count), text
        if faults:
            yield 18, longer, "with the faults that are left"
        yield 20, way, "the way to the latest end, with its waits"
        if self.others:
            yield 16, lambda x, y: canvas.line("path", x, y, x + 16, y, STRONG, 1), "else in that scenario"
        frozen = any(is_frozen(graph, *act_of(item)) for _, item, _ in self.rows)
        due = any(process.due < graph.deadline for process in graph.processes)
        yield from mark_entries(canvas, frozen, any(process.release for process in graph.processes), due)
        if self.slotted:
            yield 10, lambda x, y: canvas.rect("ground", x, y - 6, 10, 12, SLOT, RULE, 0.4), f"slot of the node, in a round of {graph.round}"
