"""What a picture over time is made of: shapes in layers, an axis, labels, a heading and a legend, as SVG.

    canvas, axis = Canvas(), Axis(0, 100, 80, 860)
    heading(canvas, "A title", "What it shows.", 900)
    canvas.rect("shapes", axis.at(10), 90, axis.wide(20), 12, INK)
    axis.draw(canvas, 80, 110)
    print(*canvas.whole(900, 140, "A title", "What it shows."), sep="\n")

Lengths are pixels. A time is turned into whole tenths of a pixel, and a text is measured by a table of letter widths, so that the bytes are
the same on every machine.
"""
from __future__ import annotations

from collections.abc import Callable, Iterable, Iterator
from xml.sax import saxutils

Entry = tuple[float, Callable[[float, float], None], str]  # of a legend: its width, how it is drawn at a place, its text

INK, SOFT, RULE, GRID, STRONG = "#1a1a1a", "#5a5f66", "#c4c8cd", "#e9ebee", "#c2410c"
FONTS = "Helvetica, Arial, 'Liberation Sans', 'DejaVu Sans', sans-serif"
WIDTHS = {222: "ijl", 278: "ftI .,:;", 333: "r-()", 500: "ckszvxyJ", 611: "FTZ", 667: "ABEKPSVXY", 722: "wCDHNRU", 778: "GOQ", 833: "mM", 944: "W"}
WIDTH = {letter: width for width, letters in WIDTHS.items() for letter in letters}


def escape(text: str) -> str:
    """A text for XML, without the characters that it can't have."""
    return saxutils.escape("".join(it if it.isprintable() else "\ufffd" for it in text))


def width_of(text: str, size: float) -> float:
    """About how wide a text is in a common font without serifs, and a little more."""
    return sum(WIDTH.get(letter, 560) for letter in text) * size * 27 // 2500 / 10


def cut_to(text: str, size: float, wide: float) -> str:
    """As much of the begin and of the end of a text as there is room for."""
    cuts = (f"{text[:left // 2]}\u2026{text[len(text) - (left + 1) // 2:]}" for left in range(len(text) - 1, -1, -1))
    return next((cut for cut in (text, *cuts) if width_of(cut, size) <= wide), "")


def lines_of(text: str, size: float, wide: float) -> list[str]:
    """A text in lines that have room."""
    lines = [""]
    for word in text.split():
        if lines[-1] and width_of(f"{lines[-1]} {word}", size) > wide:
            lines.append(word)
        else:
            lines[-1] = f"{lines[-1]} {word}".strip()
    return lines


def shown(number: float) -> str:
    """A length in pixels with at most one decimal."""
    return f"{number:.1f}".removesuffix(".0")


class Canvas:
    """Shapes in layers, of which the later ones lie above."""

    LAYERS = "grid", "ground", "shapes", "path", "marks", "texts"

    def __init__(self) -> None:
        self.layers: dict[str, list[str]] = {layer: [] for layer in self.LAYERS}

    def put(self, layer: str, shape: str) -> None:
        self.layers[layer].append(shape)

    def rect(self, layer: str, x: float, y: float, width: float, height: float, fill: str, stroke: str | None = None, thick: float = 0.6, more: str = "") -> None:
        edge = f' stroke="{stroke}" stroke-width="{thick}"' if stroke else ""
        self.put(layer, f'<rect x="{shown(x)}" y="{shown(y)}" width="{shown(width)}" height="{shown(height)}" fill="{fill}"{edge}{more}/>')

    def path(self, layer: str, way: str, stroke: str | None, thick: float = 1, fill: str = "none", more: str = "") -> None:
        line = f' stroke="{stroke}" stroke-width="{thick}"' if stroke else ""
        self.put(layer, f'<path d="{way}" fill="{fill}"{line}{more}/>')

    def line(self, layer: str, x: float, y: float, to_x: float, to_y: float, stroke: str | None, thick: float = 1, more: str = "") -> None:
        self.path(layer, f"M{shown(x)} {shown(y)}L{shown(to_x)} {shown(to_y)}", stroke, thick, more=more)

    def text(self, x: float, y: float, text: str, size: float = 10, fill: str = INK, anchor: str = "start", bold: bool = False, ground: bool = False, layer: str = "texts") -> None:
        if ground:  # so that it can be read over a line
            wide = width_of(text, size)
            at = x - (wide if anchor == "end" else wide / 2 if anchor == "middle" else 0)
            self.rect(layer, at - 1, y - size + 1.5, wide + 2, size, "#fff", more=' fill-opacity=".8"')
        more = (f' text-anchor="{anchor}"' if anchor != "start" else "") + (' font-weight="bold"' if bold else "")
        self.put(layer, f'<text x="{shown(x)}" y="{shown(y)}" font-size="{size}" fill="{fill}"{more}>{escape(text)}</text>')

    def diamond(self, x: float, y: float, size: float = 3.5, layer: str = "marks") -> None:
        way = f"M{shown(x)} {shown(y - size)}L{shown(x + size)} {shown(y)}L{shown(x)} {shown(y + size)}L{shown(x - size)} {shown(y)}Z"
        self.path(layer, way, "#fff", 0.8, INK)

    def arrow(self, x: float, y: float, to_y: float, stroke: str = INK) -> None:
        """A line up or down with a head at its end."""
        back = 4 if to_y < y else -4
        self.line("marks", x, y, x, to_y + back / 2, stroke, 1.2)
        head = f"M{shown(x)} {shown(to_y)}L{shown(x - 2.6)} {shown(to_y + back)}L{shown(x + 2.6)} {shown(to_y + back)}Z"
        self.path("marks", head, None, fill=stroke)

    def cross(self, x: float, y: float, size: float, thick: float) -> None:
        way, wide = f"M{shown(x - size)} {shown(y - size)}", 2 * size
        way += f"l{wide} {wide}m0 {-wide}l{-wide} {wide}"
        self.path("marks", way, "#fff", thick + 2)
        self.path("marks", way, STRONG, thick)

    def whole(self, width: float, height: float, title: str, said: str, defined: Iterable[str] = ()) -> Iterator[str]:
        """The lines of the picture, on a white ground, with what it is for those who don't see it."""
        size = f'width="{width}" height="{shown(height)}" viewBox="0 0 {width} {shown(height)}"'
        yield f'<svg xmlns="http://www.w3.org/2000/svg" {size} role="img" font-family="{FONTS}">'
        yield f"<title>{escape(title)}</title>"
        yield f"<desc>{escape(said)}</desc>"
        yield from defined
        yield f'<rect width="{width}" height="{shown(height)}" fill="#fff"/>'
        for layer in self.LAYERS:
            yield from self.layers[layer]
        yield "</svg>"


class Axis:
    """A stretch of time, from left to right."""

    def __init__(self, low: int, high: int, left: float, right: float) -> None:
        self.low, self.high, self.left, self.right = low, high, left, right

    def at(self, time: int) -> float:
        """In whole tenths of a pixel, so that every machine comes to the same."""
        return (20 * (time - self.low) * (self.right - self.left) + self.high - self.low) // (2 * (self.high - self.low)) / 10 + self.left

    def wide(self, time: int) -> float:
        return time * (self.right - self.left) / (self.high - self.low)

    def holds(self, begin: int, end: int) -> bool:
        return begin < self.high and end > self.low or begin == end == self.low

    def cut(self, begin: int, end: int) -> tuple[float, float]:
        """Where what lies between two times begins and ends in the picture."""
        return self.at(max(begin, self.low)), self.at(min(end, self.high))

    def ticks(self) -> range:
        apart = max(48, width_of(str(self.high), 9.5) + 12)
        step = next(step * 10 ** power for power in range(20) for step in (1, 2, 5) if self.wide(step * 10 ** power) >= apart)
        return range(-(-self.low // step) * step, self.high + 1, step)

    def draw(self, canvas: Canvas, top: float, bottom: float) -> None:
        """Lines through all lanes, with the times above and below."""
        for time in self.ticks():
            x = self.at(time)
            canvas.line("grid", x, top, x, bottom, GRID)
            for y in (top - 5, bottom + 12):
                canvas.text(x, y, str(time), 9.5, SOFT, "middle")
        for y in (top, bottom):
            canvas.line("grid", self.left, y, self.right, y, RULE)
        canvas.text(self.left - 16, bottom + 12, "time units", 9.5, SOFT, "end")

    def draw_deadline(self, canvas: Canvas, top: float, bottom: float, deadline: int, above: float = 15) -> None:
        if self.low <= deadline <= self.high:
            x = self.at(deadline)
            canvas.line("marks", x, top, x, bottom, INK, 1.2, ' stroke-dasharray="6 3"')
            canvas.text(x, top - above, f"deadline {deadline}", 9.5, INK, "middle" if x < self.right - 10 else "end", bold=True)


def joined(cuts: Iterable[tuple[float, float]]) -> list[list[float]]:
    """What several stretches cover together, in turn."""
    found: list[list[float]] = []
    for begin, end in sorted(cuts):
        if found and begin <= found[-1][1]:
            found[-1][1] = max(found[-1][1], end)
        else:
            found.append([begin, end])
    return found


def heading(canvas: Canvas, title: str, said: str, width: float) -> float:
    """The title, and what is said below it in as many lines as it needs."""
    canvas.text(12, 24, cut_to(title, 16, width - 24), 15, bold=True)
    for number, line in enumerate(lines_of(said, 10.5, width - 24)):
        y = 41 + 14 * number
        canvas.text(12, y, line, 10.5, SOFT)
    return y


def legend(canvas: Canvas, entries: Iterable[Entry], left: float, right: float, y: float) -> float:
    """Entries side by side, in as many lines as they need: (width, how it is drawn at a place, its text)."""
    x = left
    for wide, draw, text in entries:
        need = wide + 5 + width_of(text, 11.5) + 12  # with room for a wide font
        if x + need > right and x > left:
            x, y = left, y + 18
        draw(x, y)
        canvas.text(x + wide + 5, y + 3.5, text, 10, SOFT)
        x += need
    return y + 16


class Labels:
    """Labels in lines, so that none lies on another: (x, text, size, fill, whether with a diamond) each. They are placed from right to
    left, each in the nearest line that has room: so the line from a label to its place passes no other one. Where no line up to the limit
    has room a label is left out, and counted."""

    def __init__(self, right: float, wanted: Iterable[tuple[float, str, float, str, bool]], limit: int) -> None:
        self.free: list[float] = []
        self.placed: list[tuple[float, int, str, float, str, bool]] = []
        self.without = 0
        for x, text, size, fill, marked in sorted(wanted, key=lambda it: -it[0]):
            wide = width_of(text, size) + 9 * marked
            at = min(x, right - wide)
            level = next((n for n, begin in enumerate(self.free) if at + wide + 4 <= begin), len(self.free))
            if level == limit:
                self.without += 1
                continue
            self.free[level:level + 1] = [at]
            self.free[:level] = [min(begin, at) for begin in self.free[:level]]
            self.placed.append((at, level, text, size, fill, marked))

    def draw(self, canvas: Canvas, y: float, step: float, to: float) -> None:
        """The labels in lines from y on, from left to right, each with a line to the height at which it belongs if it isn't beside that."""
        for at, level, text, size, fill, marked in reversed(self.placed):
            base = y + step * level
            if level:
                canvas.line("ground", at, base + (2 if step < 0 else 1 - size), at, to, SOFT, 0.5)
            if marked:
                canvas.diamond(at + 3.5, base - size / 2 + 1.5)
            canvas.text(at + (9 if marked else 1), base, text, size, fill, ground=True)
