"""A picture of how a search became better: the latest end of the best design so far, by the number of designs tried."""
from __future__ import annotations

from typing import TYPE_CHECKING

from cpgc_tools import cli
from cpgc_tools.svg import GRID, INK, RULE, SOFT, STRONG, Canvas, heading

if TYPE_CHECKING:
    from cpgc_tools.explore.course import Course

WIDTH, HEIGHT, LEFT, RIGHT, TOP, BOTTOM = 720, 330, 80, 700, 70, 280


def step_of(most: int, count: int) -> int:
    """A round step, of which so many at most go into a number."""
    steps = (step * int(10**power) for power in range(20) for step in (1, 2, 5))
    return next(it for it in steps if it * count >= most)


def drawn(course: Course, path: str) -> None:
    """Writes the picture."""
    points = [(at, score.late or score.worst, bool(score.late)) for at, score in course.history]
    if any(not late for *_, late in points):
        points = [it for it in points if not it[2]]
    what = "by how much an end misses its due" if points[0][2] else "the latest end"
    title, said = "The best design so far", f"How {what} became less with the number of designs tried."
    canvas, tried = Canvas(), max(course.tried, 1)
    heading(canvas, title, said, WIDTH)
    most, least = max(it[1] for it in points), min(it[1] for it in points)
    step = step_of(max(most - least, 1), 5)
    low, high = least // step * step, (most // step + 1) * step

    def x(at: int) -> float:
        return LEFT + (RIGHT - LEFT) * at * 10 // tried / 10

    def y(value: int) -> float:
        return BOTTOM - (BOTTOM - TOP) * (value - low) * 10 // (high - low) / 10

    for value in range(low, high + 1, step):
        canvas.line("grid", LEFT, y(value), RIGHT, y(value), RULE if value == low else GRID)
        canvas.text(LEFT - 6, y(value) + 3.5, str(value), 9.5, SOFT, "end")
    for at in range(0, tried + 1, step_of(tried, 6)):
        canvas.line("grid", x(at), TOP, x(at), BOTTOM, GRID)
        canvas.text(x(at), BOTTOM + 14, str(at), 9.5, SOFT, "middle")
    canvas.text(RIGHT, BOTTOM + 30, "designs tried", 9.5, SOFT, "end")
    for (at, value, _), (to, after) in zip(points, [*[it[:2] for it in points[1:]], (tried, points[-1][1])]):
        canvas.path("path", f"M{x(at)} {y(value)}H{x(to)}V{y(after)}", STRONG, 2)
    canvas.text(x(points[-1][0]), y(points[-1][1]) + 14, str(points[-1][1]), 10, INK, bold=True)
    try:
        with open(path, "w", encoding="utf-8") as it:
            it.write("\n".join(canvas.whole(WIDTH, HEIGHT, title, said)) + "\n")
    except OSError as fault:
        cli.fail(f"{path}: {cli.why(fault)}", cli.OUTPUT_FAILED)
