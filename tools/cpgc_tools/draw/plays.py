"""The picture of plays: what each node runs, with faults, recoveries and overheads, and each message from its slot to the start that it is for."""
from __future__ import annotations

import os
from collections.abc import Callable, Iterator, Mapping, Sequence
from dataclasses import dataclass
from typing import NamedTuple

from cpgc_tools.draw.shared import EMPTY, RIGHT, STRIKE, Options, is_frozen, mark_entries, of_graph, slots, until, windows
from cpgc_tools.graph import Graph
from cpgc_tools.play import Play, Scenario
from cpgc_tools.svg import INK, RULE, SOFT, STRONG, Axis, Canvas, Entry, Labels, cut_to, heading, legend, lines_of, shown, width_of

FRAME = "#aab4be"
FILLS = {"work": "#d3e2f0", "again": "#7ba7cd", "lost": "url(#lost)", "overhead": "url(#overhead)", "recovery": "url(#recovery)"}
PATTERN = '<pattern id="{}" width="{}" height="{}" patternUnits="userSpaceOnUse">{}</pattern>'
PATTERNS = [
    "<defs>",
    PATTERN.format("lost", 5, 5, f'<rect width="5" height="5" fill="#fff"/><path d="M-1 6L6 -1M-1 1L1 -1M4 6L6 4" stroke="{STRONG}"/>'),
    PATTERN.format("overhead", 2, 4, '<rect width="2" height="4" fill="#fff"/><rect width="1" height="4" fill="#555b61"/>'),
    PATTERN.format(
        "recovery", 4, 4, '<rect width="4" height="4" fill="#26292d"/><path d="M-1 -1L5 5M-1 3L1 5M3 -1L5 1" stroke="#fff" stroke-width=".7"/>'),
    "</defs>"]
ENDS, EARLY = ' stroke-dasharray="2 3"', ' stroke-dasharray="2 2"'
Wanted = tuple[float, str, float, str, bool]  # a label: its place, text, size and colour, and whether it has a mark


class Execution(NamedTuple):
    process: int
    begin: int
    end: int
    faults: int
    value: str | None
    ran: int


@dataclass(frozen=True)
class Shown:
    """A play by the numbers of the graph, in the order of time."""

    scenario: Scenario
    executions: list[Execution]
    sends: list[tuple[int, str, int]]  # a time, a kind and the number of the edge or of the process whose value it is
    finish: int

    @classmethod
    def of(cls, graph: Graph, scenario: Scenario, acts: Play) -> Shown:
        executions = []
        for it in acts.ends.values():
            begin = acts.starts[it.name].time
            executions.append(Execution(graph.number[it.name], begin, it.time, it.faults, it.value, it.time - begin if it.ran is None else it.ran))
        sends = sorted((it.time, it.kind, int(it.name[1:]) if it.kind == "send" else graph.number[it.name]) for it in acts.sends.values())
        return cls(scenario, sorted(executions, key=lambda it: (it.begin, it.process)), sends, acts.finish)


class Plays:
    BAR, LINE = 17, 12  # the heights of a bar and of a line of labels

    def __init__(self, graph: Graph, deadline: int, dues: Sequence[int], options: Options) -> None:
        self.graph, self.deadline, self.dues, self.options, self.canvas = graph, deadline, dues, options, Canvas()
        self.kinds: set[str] = set()  # what the legend has to explain

    def draw(self, name: str, plays: Sequence[Shown]) -> Iterator[str]:
        graph, options = self.graph, self.options
        names = [min(width_of(graph.nodes[node], 12), options.width // 6) for node in options.nodes]
        left = int(max([*names, width_of("time units", 9.5)])) + 32
        end = max([play.finish for play in plays], default=0)
        title = f"{'A play' if len(plays) == 1 else 'Plays'} of {name}"
        if options.due:
            title += f", with the dues of {os.path.basename(options.due)}"
        said = [f"{play.scenario.text(graph.number)}: the last end is at {play.finish}." for play in plays]
        y = heading(self.canvas, title, of_graph(graph, self.deadline), options.width)
        for play in plays:
            y = self.head(play, y + 28)
            for low, high in windows(options, until(self.deadline, end)):
                y = self.draw_window(play, Axis(low, high, left, options.width - RIGHT), y + 38)
        y = legend(self.canvas, self.entries(), 12, options.width - 12, y + 14)
        return self.canvas.whole(options.width, y, title, " ".join([of_graph(graph, self.deadline), *said]), PATTERNS)

    def head(self, play: Shown, y: float) -> float:
        """The scenario of a play, and when it ends."""
        canvas, width = self.canvas, self.options.width
        late = sum(it.end > self.dues[it.process] for it in play.executions)
        canvas.line("ground", 12, y - 16, width - 12, y - 16, RULE)
        canvas.text(width - 12, y, f"ends at {play.finish}" + (f", {late} late" if late else ""), 10.5, STRONG if late else SOFT, "end")
        for number, line in enumerate(lines_of(play.scenario.text(self.graph.number), 12.5, width - 160)):
            canvas.text(12, y + 15 * number, line, 11.5, bold=True)
        return y + 15 * number - 10

    def draw_window(self, play: Shown, axis: Axis, y: float) -> float:
        """The lanes of a stretch of time, from y on; answers where they end."""
        top = y
        lanes: dict[int, float] = {}
        for node in sorted(self.options.nodes):
            executions = [it for it in play.executions if self.graph.processes[it.process].node == node]
            lanes[node], y = self.draw_lane(axis, node, executions, y)
        if len(self.graph.nodes) > 1 and self.graph.slots:
            self.draw_messages(axis, play, lanes, y + 4)
            y = self.draw_bus(axis, play, y + 4)
        axis.draw(self.canvas, top, y)
        axis.draw_deadline(self.canvas, top, y, self.deadline)
        if axis.low < play.finish <= axis.high:
            x = axis.at(play.finish)
            self.canvas.line("ground", x, top, x, y, SOFT, 0.8, ENDS)
        return y + 16

    def draw_lane(self, axis: Axis, node: int, executions: Sequence[Execution], y: float) -> tuple[float, float]:
        """The executions of a node; answers where its bars stand and where the lane ends."""
        labels = self.lane_labels(axis, executions)
        bar = y + 4 + self.LINE * max(len(labels.free), 1)
        labels.draw(self.canvas, bar - 4, -self.LINE, bar)
        self.canvas.text(12, bar + 13, cut_to(self.graph.nodes[node], 12, axis.left - 20), 11.5, bold=True)
        self.tell_unnamed(labels, bar + 25)
        self.canvas.line("ground", axis.left, bar + self.BAR, axis.right, bar + self.BAR, RULE)
        for it in executions:
            if axis.holds(it.begin, it.end):
                self.draw_execution(axis, it, bar)
            self.draw_bounds(axis, it, bar)
        return bar, bar + self.BAR + 12

    def lane_labels(self, axis: Axis, executions: Sequence[Execution]) -> Labels:
        """The names of what runs, with a value, faults and lateness, and the dues that are a process's own."""
        wanted: list[Wanted] = []
        for it in executions:
            process, due = self.graph.processes[it.process], self.dues[it.process]
            words = [process.name, *([it.value] if it.value is not None else []), *([STRIKE * it.faults] if it.faults else [])]
            late = it.end > due
            if axis.holds(it.begin, it.end):
                text = " ".join(words) + (f", {it.end - due} late" if late else "")
                wanted.append((axis.cut(it.begin, it.end)[0], text, 10, STRONG if late else INK, process.frozen))
            if due < self.deadline and axis.low <= due <= axis.high:
                wanted.append((axis.at(due), f"due {process.name}" + (f" {due}" if late else ""), 9, SOFT, False))
        return Labels(axis.right + 30, wanted, 12)

    def tell_unnamed(self, labels: Labels, y: float) -> None:
        if labels.without:
            self.canvas.text(12, y, f"{labels.without} unnamed", 8.5, SOFT)

    def draw_bounds(self, axis: Axis, execution: Execution, bar: float) -> None:
        process, due = self.graph.processes[execution.process], self.dues[execution.process]
        if due < self.deadline and axis.low <= due <= axis.high:
            self.kinds.add("due")
            self.canvas.arrow(axis.at(due), bar - 3, bar + self.BAR)
        if axis.low < process.release <= axis.high:
            self.kinds.add("release")
            self.canvas.arrow(axis.at(process.release), bar + self.BAR, bar - 3)

    def segments(self, execution: Execution) -> Iterator[tuple[str, int, int]]:
        """The phases of an execution with their times, and what it keeps free where it ran for less than it may."""
        at, stop = execution.begin, execution.begin + execution.ran
        for kind, length in self.graph.processes[execution.process].phases(execution.faults):
            if length and at < stop:
                yield kind, at, min(at + length, stop)
            at += length
        if stop < execution.end:
            yield "early", stop, execution.end

    def draw_execution(self, axis: Axis, execution: Execution, y: float) -> None:
        canvas, due = self.canvas, self.dues[execution.process]
        for kind, begin, end in self.segments(execution):
            if axis.holds(begin, end):
                self.kinds.add(kind)
                self.draw_segment(kind, *axis.cut(begin, end), y)
        x, to = axis.cut(execution.begin, execution.begin + execution.ran)
        if to > x:
            canvas.rect("shapes", x, y, to - x, self.BAR, "none", INK, 0.8)
        if execution.end > due and axis.holds(max(due, execution.begin), execution.end):
            self.kinds.add("late")
            x, to = axis.cut(max(due, execution.begin), execution.end)
            canvas.rect("marks", x, y + self.BAR + 1, to - x, 4, STRONG)

    def draw_segment(self, kind: str, x: float, to: float, y: float) -> None:
        wide = max(to - x, 0.5)
        if kind == "early":
            self.canvas.rect("shapes", x, y, wide, self.BAR, "#fff", SOFT, 0.6, EARLY)
        else:
            self.canvas.rect("shapes", x, y, wide, self.BAR, FILLS[kind])
        if kind == "lost" and wide > 9:
            self.canvas.cross((x + to) / 2, y + self.BAR / 2, 4, 1.8)

    def sender(self, kind: str, number: int) -> int:
        """The process whose message or value it is."""
        return self.graph.edges[number].source if kind == "send" else number

    def draw_bus(self, axis: Axis, play: Shown, y: float) -> float:
        """The slots of the bus with their frames; answers where the lane ends."""
        canvas, graph = self.canvas, self.graph
        wanted: list[Wanted] = []
        values = {it.process: it.value or "none" for it in play.executions}
        named = axis.wide(min(slot.length for slot in graph.slots)) >= max(width_of(name, 8) for name in graph.nodes) + 2
        canvas.text(12, y + 11, "bus", 10.5, SOFT, bold=True)
        self.draw_slots(axis, {time for time, _, _ in play.sends}, named, y)
        for time, kind, number in play.sends:
            node = graph.processes[self.sender(kind, number)].node
            if axis.holds(time, graph.arrival(node, time)):
                x, end = axis.cut(time, graph.arrival(node, time))
                canvas.rect("shapes", x, y, max(end - x, 1), 14, FRAME, INK, 0.8)
                text = f"e{number}" if kind == "send" else f"{graph.processes[number].name} {values[number]}"
                wanted.append((x, text if named else f"{graph.nodes[node]} {text}", 9, INK, is_frozen(graph, kind, number)))
        labels = Labels(axis.right + 30, wanted, 4)
        labels.draw(canvas, y + 25, 11, y + 14)
        self.tell_unnamed(labels, y + 23)
        return y + 20 + 11 * max(len(labels.free), 1)

    def draw_slots(self, axis: Axis, taken: set[int], named: bool, y: float) -> None:
        graph = self.graph
        for begin, node in slots(graph, graph.slot_of, axis):
            end = graph.arrival(node, begin)
            x, to = axis.cut(begin, end)
            self.canvas.rect("ground", x, y, to - x, 14, "#fff", RULE, 0.5)
            if named and begin >= axis.low and end <= axis.high:
                self.canvas.text((x + to) / 2, y + 10, graph.nodes[node], 8, INK if begin in taken else EMPTY, "middle", layer="marks")

    def draw_messages(self, axis: Axis, play: Shown, lanes: Mapping[int, float], y: float) -> None:
        """From the end of a producer down to its slot, and from the slot up to the start that waits for the message."""
        graph, ran = self.graph, {it.process: it for it in play.executions}
        for time, kind, number in play.sends:
            producer = ran[self.sender(kind, number)]
            node = graph.processes[producer.process].node
            if node in lanes and axis.low <= time <= axis.high:
                begin, low = axis.at(max(producer.end, axis.low)), lanes[node] + self.BAR + 3
                way = f"M{shown(begin)} {shown(low)}H{shown(axis.at(time))}V{shown(y)}"
                self.canvas.path("ground", way, SOFT, 0.8, more=' stroke-dasharray="1.5 2"')
            consumer = ran.get(graph.edges[number].target) if kind == "send" else None
            if consumer and graph.processes[consumer.process].node in lanes:
                bar = lanes[graph.processes[consumer.process].node] + self.BAR
                self.draw_message(axis, graph.arrival(node, time), consumer.begin, bar, y)

    def draw_message(self, axis: Axis, arrival: int, begin: int, bar: float, y: float) -> None:
        """Up from the bus below the bar, on to the start, and with a head up to it."""
        if not axis.holds(arrival, begin) and not axis.low <= arrival == begin <= axis.high:
            return
        self.kinds.add("message")
        low = bar + 8
        way = f"M{shown(axis.at(arrival))} {shown(y)}V{shown(low)}" if arrival >= axis.low else f"M{shown(axis.left)} {shown(low)}"
        self.canvas.path("path", way + f"H{shown(axis.at(min(begin, axis.high)))}", INK, 0.9)
        if begin <= axis.high:
            self.canvas.arrow(axis.at(begin), low, bar)

    def entries(self) -> Iterator[Entry]:
        """The legend, of what is there."""
        canvas = self.canvas

        def box(fill: str, line: str = INK, thick: float = 0.8, more: str = "") -> Callable[[float, float], None]:
            return lambda x, y: canvas.rect("shapes", x, y - 5, 16, 10, fill, line, thick, more)

        def lost(x: float, y: float) -> None:
            box(FILLS["lost"])(x, y)
            canvas.cross(x + 8, y, 3, 1.6)

        def message(x: float, y: float) -> None:
            canvas.path("path", f"M{shown(x)} {shown(y + 5)}H{shown(x + 10)}", INK, 0.9)
            canvas.arrow(x + 10, y + 5, y - 6)

        explained: list[tuple[str, float, Callable[[float, float], None], str]] = [
            ("work", 16, box(FILLS["work"]), "work"),
            ("lost", 16, lost, f"work that a fault destroys ({STRIKE} for each)"),
            ("overhead", 16, box(FILLS["overhead"]), "detection, checkpoint"),
            ("recovery", 16, box(FILLS["recovery"]), "recovery"),
            ("again", 16, box(FILLS["again"]), "work done again"),
            ("early", 16, box("#fff", SOFT, 0.6, EARLY), "ended early, still kept free"),
            ("message", 16, box(FRAME), "slot with a frame"),
            ("message", 14, message, "a message from its slot to its start"),
            ("late", 16, lambda x, y: canvas.rect("marks", x, y - 2, 16, 4, STRONG), "past its due")]
        yield from ((wide, draw, text) for kind, wide, draw, text in explained if kind in self.kinds)
        frozen = any(it.frozen for it in self.graph.processes) or any(it.frozen for it in self.graph.edges)
        yield from mark_entries(canvas, frozen, "release" in self.kinds, "due" in self.kinds)
