"""Shows how far the wcet of each process may grow on its own until the graph is rejected.

    slack GRAPH [NAME ..]
    slack --samples N GRAPH [NAME ..]

The bound is found by bisection: the graph compiles with that wcet, and not with one more. For a graph with at most two conditions the
tool computes itself whether the graph would compile, and lets cpgc confirm what it finds. If cpgc disagrees, and for other graphs, cpgc
makes every try.

A longer execution can change the order of the processes, so a graph may be rejected with one wcet and compile with a greater one.
Therefore values between the wcet and the bound are tried as well: all of them if there are at most 64, and otherwise 32 that are evenly
spread (or N of them, or all if there are no more). The bound is then below the least value found to be rejected. If greater values compile
too, the greatest that was found comes after it. Nothing is known of values that weren't tried; the head line says how many were.

For a late graph it shows to what each wcet would have to shrink on its own, or `none` if neither 1 nor any other value that was tried
helps. The processes that need the least change, in proportion, come first. With names it shows this for these processes alone. As many
tries run at once as there are processors.

For example, `slack pair.toml A` writes `up to 34` of A, whose wcet is 30.
"""
from __future__ import annotations

import dataclasses
from collections.abc import Callable

from cpgc_tools import cli, graph, show
from cpgc_tools.explore.offer import compiles
from cpgc_tools.program import Program

ALL, SAMPLES = 64, 32
CONDITIONS = 2  # of a graph that is reckoned faster than it is compiled


class Tries:
    """A graph of which the wcet of one process is changed and tried."""

    def __init__(self, cpgc: Program, it: graph.Graph, samples: int | None) -> None:
        self.cpgc, self.graph, self.samples = cpgc, it, samples
        self.reckons = len(it.deciding) <= CONDITIONS
        self.tried: dict[tuple[int, int], bool] = {}
        self.rows = 0  # that are found

    def compiles(self, number: int, wcet: int) -> bool:
        """Whether the graph compiles with this wcet: as it is reckoned, or as cpgc says."""
        if (number, wcet) not in self.tried:
            known = compiles(self.changed(number, wcet)) if self.reckons else None
            self.tried[number, wcet] = self.asked(number, wcet) if known is None else known
        return self.tried[number, wcet]

    def changed(self, number: int, wcet: int) -> graph.Graph:
        return self.graph.changed(process={number: {"wcet": wcet}})

    def asked(self, number: int, wcet: int) -> bool:
        file = self.cpgc.file(f"tried-{number}.toml", self.changed(number, wcet).text())
        return self.cpgc.answer("compile", file, statuses=(0, 5, 6)).status == 0

    def confirmed(self, number: int, to: int | None, most: int | None) -> bool:
        """Whether cpgc says of what was found that it compiles, and of one more that it doesn't."""
        fits = all(self.asked(number, it) for it in {to, most} if it is not None)
        return fits and (to is None or to >= self.most(number) or not self.asked(number, to + 1))

    def most(self, number: int) -> int:
        """The greatest wcet with which an execution with all faults may still end in time, were it alone."""
        process = self.graph.processes[number]
        room = process.due - process.release
        return halved(0, graph.LIMIT + 1, lambda wcet: graph.duration({**process.entry, "wcet": wcet}, self.graph.faults) <= room)

    def between(self, low: int, high: int) -> list[int]:
        """Numbers above one and below another, evenly spread: all, or as many as are to be tried."""
        count = self.samples if self.samples is not None else ALL if high - low - 1 <= ALL else SAMPLES
        step = max((high - low) // (count + 1), 1)
        return list(range(low + step, high, step))[:count]

    def bound(self, number: int, wcet: int) -> tuple[int, int]:
        """The greatest wcet with which the graph compiles, as it does below it as far as was tried; and the greatest that was found."""

        def fits(wcet: int) -> bool:
            return self.compiles(number, wcet)

        found = most = halved(wcet, self.most(number) + 1, fits)
        while True:
            refused = next((it for it in self.between(wcet, found) if not fits(it)), None)
            if refused is None:
                return found, most
            found = halved(wcet, refused, fits)

    def shrunk(self, number: int, wcet: int) -> int | None:
        """The greatest lesser wcet that was found with which the graph compiles, or None."""

        def fits(wcet: int) -> bool:
            return self.compiles(number, wcet)

        tried = [1, *self.between(1, wcet), wcet]
        fitting = [i for i, it in enumerate(tried[:-1]) if it < wcet and fits(it)]
        return halved(tried[fitting[-1]], tried[fitting[-1] + 1], fits) if fitting else None


def halved(low: int, high: int, fits: Callable[[int], bool]) -> int:
    """The last number that fits before one that doesn't, between one that does and one that doesn't."""
    while high - low > 1:
        middle = (low + high) // 2
        low, high = (middle, high) if fits(middle) else (low, middle)
    return low


@dataclasses.dataclass(frozen=True)
class Row:
    name: str
    node: str
    wcet: int
    to: int | None
    most: int | None

    @property
    def growth(self) -> float:
        return -1 if self.to is None else (self.to - self.wcet) / self.wcet

    def cells(self) -> list[object]:
        by = ["", ""] if self.to is None else [f"{self.to - self.wcet:+}", f"{round(100 * self.growth):+} %"]
        return [self.name, self.node, self.wcet, "none" if self.to is None else self.to, *by, *([f"also {self.most}"] if self.most != self.to else [])]


def row(tries: Tries, number: int, late: bool) -> Row:
    process = tries.graph.processes[number]

    def found(tries: Tries) -> tuple[int | None, int | None]:
        return (tries.shrunk(number, process.wcet),) * 2 if late else tries.bound(number, process.wcet)

    to, most = found(tries)
    if tries.reckons and not tries.confirmed(number, to, most):  # then cpgc alone is asked
        tries = Tries(tries.cpgc, tries.graph, tries.samples)
        tries.reckons = False
        to, most = found(tries)
    return Row(process.name, tries.graph.node_of(process), process.wcet, to, most)


def main() -> None:
    words = cli.Words(__doc__).with_program().with_files("GRAPH")
    words.add_argument("--samples", metavar="N", type=cli.whole(0, 10**6), help="how many values below the bound are tried as well")
    words.add_argument("names", metavar="NAME", nargs="*", help="a process")
    said = words.parse_args()
    with Program(said.program) as cpgc:
        content = cli.read(said.graph, cli.GRAPH)
        ran = cpgc.answer("show", cpgc.file("graph.toml", content), statuses=(0, 5))
        it, idle = graph.parsed(said.graph, content), show.idle(ran.text)
        for warning in show.idle_lines(it, idle):
            cli.note(warning)
        if unknown := [name for name in said.names if name not in it.number]:
            cli.fail(f"{said.graph}: {unknown[0]} is no process")
        tries, late = Tries(cpgc, it, said.samples), ran.status != 0
        asked = [process.number for process in it.processes if process.name not in idle and (not said.names or process.name in said.names)]
        cpgc.tells = False

        def found(number: int) -> Row:
            made = row(tries, number, late)
            tries.rows += 1
            cli.progress(f"{tries.rows} of {len(asked)} processes")
            return made

        rows = cpgc.each(found, asked)
    cli.write_lines([ran.line or f"compiles, {show.worst(ran.text)}"])
    head = ["process", "node", "wcet", "up to", "by", "", f"tried {len(tries.tried)}"]
    cli.write_lines(show.in_columns([head, *(it.cells() for it in sorted(rows, key=lambda it: it.growth, reverse=late))]))
