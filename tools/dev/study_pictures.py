"""The pictures of docs/STUDY.md, as SVG: text as text, and marks that differ in grey too."""
from __future__ import annotations

import math
import statistics
from collections.abc import Callable, Iterable, Mapping, Sequence
from typing import Any

from cpgc_tools.svg import GRID, INK, RULE, SOFT, Canvas, Entry, escape, legend, shown

COLOURS = "#0b5394", "#e69138", "#38761d", "#777777"
PALE = "#cfe2f3", "#fce5cd", "#d9ead3", "#eeeeee"
SHAPES = {"circle": "m-3 0a3 3 0 0 0 6 0a3 3 0 0 0 -6 0", "square": "m-3 -3h6v6h-6z", "triangle": "m0 -4l3.5 6.5h-7z"}
WIDTH = 880


def words(canvas: Canvas, x: float, y: float, text: str, size: float = 12, anchor: str = "middle") -> None:
    canvas.text(x, y, text, size, INK, anchor)


def marks(canvas: Canvas, places: Iterable[tuple[float, float]], kind: str, colour: str) -> None:
    """At each place a circle, a square or a triangle."""
    canvas.path("marks", "".join(f"M{shown(x)} {shown(y)}{SHAPES[kind]}" for x, y in places), colour)


def boxes(canvas: Canvas, said: Iterable[tuple[str, str, str]]) -> list[Entry]:
    """Entries of a legend: boxes of these fills and edges."""

    def box(fill: str, edge: str) -> Callable[[float, float], None]:
        return lambda x, y: canvas.rect("shapes", x, y - 6, 12, 12, fill, edge)

    return [(12, box(fill, edge), text) for fill, edge, text in said]


def whole(canvas: Canvas, height: float, title: str) -> str:
    return "\n".join([*canvas.whole(WIDTH, height, title, title), ""])


class Panel:
    """Axes in a picture: values go up from the low to the high."""

    def __init__(self, canvas: Canvas, left: float, top: float, width: float, height: float, low: float, high: float, step: float, unit: str, label: str) -> None:
        self.canvas, self.top, self.height, self.low, self.high = canvas, top, height, low, high
        value = low
        while value <= high:
            canvas.line("grid", left, self.y(value), left + width, self.y(value), RULE if value == 0 else GRID)
            words(canvas, left - 6, self.y(value) + 4, f"{value:g}{unit}", anchor="end")
            value += step
        canvas.path("grid", f"M{left} {top}V{top + height}H{left + width}", SOFT)
        turned = f'transform="rotate(-90 {left - 48} {top + height / 2})" text-anchor="middle"'
        canvas.put("texts", f'<text x="{left - 48}" y="{top + height / 2}" font-size="12" fill="{INK}" {turned}>{escape(label)}</text>')

    def y(self, value: float) -> float:
        return self.top + self.height * (self.high - value) / (self.high - self.low)

    def spread(self, x: float, width: float, values: Sequence[float], number: int) -> None:
        """A box from quartile to quartile with its median, lines to the 5th and the 95th of a hundred, and the mean."""
        cuts = statistics.quantiles(values, n=20, method="inclusive")
        low, first, middle, third, high = (self.y(cuts[it]) for it in (0, 4, 9, 14, 18))
        way = f"M{shown(x)} {shown(low)}V{shown(first)}M{shown(x)} {shown(third)}V{shown(high)}"
        way += "".join(f"M{shown(x - width / 4)} {shown(end)}h{shown(width / 2)}" for end in (low, high))
        self.canvas.path("ground", way, COLOURS[number])
        self.canvas.rect("shapes", x - width / 2, third, width, first - third, PALE[number], COLOURS[number], 1)
        self.canvas.line("path", x - width / 2, middle, x + width / 2, middle, COLOURS[number], 2)
        mean = self.y(statistics.mean(values))
        self.canvas.path("marks", f"M{shown(x)} {shown(mean - 5)}l5 5l-5 5l-5 -5z", None, fill=COLOURS[number])


def reach(values: Iterable[Any], step: float) -> float:
    """The next step at or above the greatest of the 95th parts of a hundred."""
    most = max(statistics.quantiles(some, n=20, method="inclusive")[18] for some in values)
    return step * (int(most / step) + 1)


def gains_by_tracks(values: Mapping[int, Mapping[str, Sequence[float]]], published: Mapping[int, float]) -> str:
    """How much longer than the longest track, and how often no longer, by the number of tracks and by what is compared."""
    canvas = Canvas()
    every = [some for by_way in values.values() for some in by_way.values()]
    low = min(statistics.quantiles(some, n=20, method="inclusive")[0] for some in every)
    panel = Panel(canvas, 70, 40, 420, 280, 2 * math.floor(low / 2), reach(every, 2), 2, "%", "longer than the longest track")
    second = Panel(canvas, 590, 40, 270, 280, 0, 100, 20, "%", "share of the graphs")
    words(canvas, 280, 24, "the table's worst case beside the longest track")
    words(canvas, 725, 24, "graphs whose table is no longer")
    for place, (tracks, by_way) in enumerate(values.items()):
        x, right = 70 + 420 * (place + 0.5) / len(values), 590 + 270 * (place + 0.5) / len(values)
        for number, some in enumerate(by_way.values()):
            panel.spread(x + 20 * (number - 1.5), 16, some, number)
            here = 100 * sum(value <= 0 for value in some) / len(some)
            canvas.rect("shapes", right + 10 * (number - 2.5), second.y(here), 9, second.y(0) - second.y(here), PALE[number], COLOURS[number], 1)
        canvas.rect("shapes", right + 15, second.y(published[tracks]), 9, second.y(0) - second.y(published[tracks]), "#fff", SOFT)
        for at in (x, right):
            words(canvas, at, 338, str(tracks))
    for at in (280, 725):
        words(canvas, at, 358, "alternative tracks")
    names = next(iter(values.values()))
    legend(canvas, boxes(canvas, [*zip(PALE, COLOURS, names), ("#fff", SOFT, "published (recalled)")]), 70, WIDTH, 377)
    words(canvas, 440, 402, "box: quartiles and median; lines: 5% to 95%; diamond: mean; graphs with more than one processor", 11)
    return whole(canvas, 410, "What one table adds to the longest track")


def boxes_by_faults(values: Mapping[int, Mapping[str, Sequence[float]]]) -> str:
    """What k faults add, by what is frozen and how many parts."""
    canvas = Canvas()
    panel = Panel(canvas, 70, 40, 790, 290, 0, reach([some for by_form in values.values() for some in by_form.values()], 50), 50, "%", "added to the worst case")
    words(canvas, 465, 24, "what k faults add to the worst case without faults and overheads, of graphs that fit in all forms")
    for place, (k, by_form) in enumerate(values.items()):
        middle = 70 + 790 * (place + 0.5) / len(values)
        for number, some in enumerate(by_form.values()):
            panel.spread(middle + 42 * (number - 1.5), 32, some, number)
        words(canvas, middle, 350, f"k {k}: {len(next(iter(by_form.values())))} graphs")
    legend(canvas, boxes(canvas, zip(PALE, COLOURS, next(iter(values.values())))), 60, WIDTH, 377)
    said = "in each group from left to right, what is frozen and how executions are cut; box: quartiles and median; lines: 5% to 95%; diamond: mean"
    words(canvas, 465, 408, said, 11)
    return whole(canvas, 420, "What k faults add to the worst case without faults")


def worst_beside_columns(dots: Mapping[str, Sequence[tuple[float, float]]]) -> str:
    """Columns against what two faults add, a mark for each graph."""
    canvas = Canvas()
    most = max(value for points in dots.values() for _, value in points)
    panel = Panel(canvas, 70, 40, 760, 330, 0, 50 * (int(most / 50) + 1), 50, "%", "added to the worst case")
    words(canvas, 465, 24, f"two faults, one part: {len(next(iter(dots.values())))} graphs, each as three marks")
    first, decades = 1, 5  # from 10 to 1,000,000 columns
    for decade in range(first, first + decades + 1):
        x = 70 + 760 * (decade - first) / decades
        canvas.line("grid", x, 40, x, 370, GRID)
        words(canvas, x, 388, f"{10 ** decade:,}")
    words(canvas, 465, 408, "columns of all tables")
    for number, (kind, (name, points)) in enumerate(zip(SHAPES, dots.items())):
        places = [(70 + 760 * (math.log10(columns) - first) / decades, panel.y(value)) for columns, value in points]
        marks(canvas, [*places, (200 + 190 * number, 434)], kind, COLOURS[number])
        words(canvas, 212 + 190 * number, 438, name, anchor="start")
    return whole(canvas, 460, "What freezing costs and saves with two faults")
