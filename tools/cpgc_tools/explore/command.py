"""The command: its words, what it says on the way, and the file in the end."""
from __future__ import annotations

import os
import sys
from collections.abc import Iterator
from typing import Any

from cpgc_tools import cli, graph, show
from cpgc_tools.explore import search
from cpgc_tools.explore.choices import Wrong
from cpgc_tools.explore.course import Course, Words, end, executor_of
from cpgc_tools.explore.problem import Design
from cpgc_tools.explore.reckoning import Plan
from cpgc_tools.explore.search import Score, Search, of_plain
from cpgc_tools.explore.written import document_of, text_of
from cpgc_tools.program import Program, Ran

TRIES, WALKS = 24_000, 4
SHARE, DEEP = 500, 2_000  # of a walk in a round, where the order alone is open, and where more is
TRIED = 6  # designs that are shown to cpgc at most
STATUSES = (0, 5, 6)


def words_of(text: str | None) -> cli.Words:
    words = cli.Words(text).with_program().with_files("GRAPH")
    words.add_argument("--quick", action="store_true", help="order alone, in half a second")
    words.add_argument("--goal", choices=search.GOALS, default="shortest", help="what is best (shortest)")
    many = f"how many designs are tried ({TRIES}; with --seconds as many as it takes)"
    words.add_argument("--tries", metavar="N", type=cli.whole(1, 10**9), help=many)
    words.add_argument("--seconds", metavar="S", type=float, help="ends after this many seconds")
    words.add_argument("--walks", metavar="N", type=cli.whole(1, 1000), default=WALKS, help=f"how many walks there are ({WALKS})")
    words.add_argument("--seed", metavar="N", type=cli.whole(0, 2**63), default=1, help="the seed of all draws (1)")
    words.add_argument("--jobs", metavar="N", type=cli.whole(1, 1000), help="how many processes work (one for each processor)")
    words.add_argument("--dask", metavar="ADDRESS", help="runs the walks on the workers of this dask scheduler")
    words.add_argument("--state", metavar="FILE", help="keeps the state of the search there, and goes on from it")
    words.add_argument("--picture", metavar="FILE", help="draws how the best design improved, as SVG")
    words.add_argument("--quiet", action="store_true", help="no lines while it searches")
    words.add_argument("choices", metavar="CHOICES", nargs="?")
    return words


def told(score: Score, goal: str) -> str:
    if score.late:
        return f"late by {score.late}"
    items = f", {score.items} {'frozen' if goal == 'least-frozen' else 'not frozen'}" if goal in search.FREEZING else ""
    return f"worst {score.worst}{items}" + (", perhaps too wide" if score.over else "")


def main(text: str | None) -> int:
    words = words_of(text)
    said = words.parse_args()
    if said.quick and said.choices:
        words.error("--quick takes no CHOICES")
    if said.seconds is not None and not 0 < said.seconds < 10**9:
        words.error("--seconds takes a number above 0")
    with Program(said.program) as cpgc:
        content = cli.read(said.graph, cli.GRAPH)
        now = cpgc.answer("show", cpgc.file("graph.toml", content), statuses=STATUSES)
        it = graph.parsed(said.graph, content)
        wanted = graph.toml_of(said.choices, cli.read(said.choices, cli.GRAPH))[1] if said.choices else {}
        if said.quick:
            quick_words(said, it)
        tries = said.tries or (None if said.seconds else TRIES)
        share: int = min(SHARE if said.choices is None and said.goal in search.ORDERED else DEEP, tries or DEEP)
        share = said.tries if said.quick else share
        try:
            course = Course(it, wanted, Words(said.goal, said.seed, said.walks, tries, share, said.seconds))
        except Wrong as wrong:
            cli.fail(f"{said.choices}: {wrong}")
        if said.state:
            course.load(said.state)
        gone(course, said)
        return Finish(course, cpgc, content.decode(), now).finished(said.picture)


def quick_words(said: Any, it: graph.Graph) -> None:
    """The words of a quick search: one walk of so many tries that it takes half a second."""
    said.walks, said.jobs, said.quiet, said.goal, said.dask, said.seconds = 1, 1, True, "shortest", None, None
    said.tries = Search(it, {}, "shortest").quick_tries()


def gone(course: Course, said: Any) -> None:
    """The course, with lines on the way."""
    executor = executor_of(min(said.jobs or os.cpu_count() or 1, said.walks), said.dask)
    shown = course.best[0][0]
    live = not said.quiet and sys.stderr is not None and sys.stderr.isatty()

    def tell(course: Course) -> None:
        nonlocal shown
        line = f"{course.tried} tried, {told(course.best[0][0], said.goal)}, {course.spent():.0f} s"
        if live:
            sys.stderr.write(f"\r\033[K{cli.name()}: {line}")
            sys.stderr.flush()
        elif course.best[0][0] != shown and not said.quiet:
            cli.note(line)
        shown = course.best[0][0]

    try:
        course.run(executor, tell, said.state)
    except BaseException:
        course.stopped = True
        raise
    finally:
        end(executor, course.stopped)
        if live:
            sys.stderr.write("\n")


class Finish:
    """The best design that compiles, and what it says of it."""

    def __init__(self, course: Course, cpgc: Program, text: str, now: Ran) -> None:
        self.course, self.search, self.cpgc, self.text, self.now = course, course.search, cpgc, text, now
        self.old = self.search.problem.graph.document

    def shown(self, design: Design) -> tuple[Ran, str, bool]:
        """What cpgc says of a design, its text, and whether that is the old one with changes."""
        text, kept = text_of(self.text, self.old, document_of(self.search.problem, design))
        return self.cpgc.answer("show", self.cpgc.file("found.toml", text), statuses=STATUSES), text, kept

    def finished(self, picture: str | None) -> int:
        course, goal = self.course, self.search.goal
        best = course.best[0][0]
        if picture:
            from cpgc_tools.explore.picture import drawn  # which takes longer to load than all else

            drawn(course, picture)
        for score, plain in course.best[:TRIED]:
            design = of_plain(plain)
            ran, text, kept = self.shown(design)
            if goal == "least-frozen" and ran.status == 0:
                design, ran, text, kept = self.thinned(design, ran, text, kept)
            if ran.status == 0:
                if said_by(ran) != f"worst {score.worst}" and goal != "least-frozen":
                    cli.note(f"reckoned worst {score.worst}, but the program says {said_by(ran)}")
                if self.now.status == 0 and goal in search.ORDERED and show.latest_end(ran.text) >= show.latest_end(self.now.text):
                    break
                cli.write(text)
                cli.flush()
                if not kept:
                    cli.note("written anew, without its comments")
                self.note(said_by(ran))
                for line in self.changes(design):
                    cli.tell(line)
                return 0
        least = self.search.least
        if self.now.status == 0:
            cli.write(self.text)
            cli.flush()
            no_other = "no order is better" if least is not None and best.worst <= least.worst and not best.late else "nothing better was found"
            self.note(f"{no_other}, it stays as it is")
            return 0
        no_other = f"no order is late by less than {least.late}" if least is not None and least.late > 0 else "nothing that compiles was found"
        self.note(f"{no_other}; the best is {told(best, goal)}")
        return self.now.status

    def note(self, what: str) -> None:
        cli.note(f"{said_by(self.now)}: {what}, after {self.course.tried} designs in {self.course.seconds:.1f} s")

    def thinned(self, design: Design, ran: Ran, text: str, kept: bool) -> tuple[Design, Ran, str, bool]:
        """With less frozen as long as cpgc compiles it: what is too wide by views may still fit as it is made."""
        thaws = list(self.thaws(design))
        low, high, best = 0, len(thaws), (design, ran, text, kept)
        while low < high:
            middle = (low + high + 1) // 2 if low else high  # nothing frozen at first
            tried = design._replace(frozen=design.frozen - frozenset(thaws[:middle]))
            again = self.shown(tried)
            if again[0].status == 0:
                low, best = middle, (tried, *again)
            else:
                high = middle - 1
        return best

    def thaws(self, design: Design) -> Iterator[int]:
        """What is frozen and needn't be, in the order in which it makes items wide the least."""
        problem, order = self.search.problem, design.order or ()
        plan = Plan(problem, design)
        left = sorted(design.frozen & frozenset(self.search.choices.freezable))
        while left and order:
            made = [(self.search.widths.over(thawed, order), it, thawed) for it in left
                    for thawed in [Plan(problem, plan.design._replace(frozen=plan.design.frozen - {it}), plan)]]
            _, it, plan = min(made, key=lambda it: it[:2])
            left.remove(it)
            yield it

    def changes(self, design: Design) -> Iterator[str]:
        """What became another, as lines of a table."""
        problem, old = self.search.problem, self.search.problem.design()
        names = [it.name for it in problem.processes]
        rows = []
        for p, name in enumerate(names):
            was = problem.nodes[old.nodes[p]], problem.processes[p].wcet, old.parts[p], p in old.frozen
            now = problem.nodes[design.nodes[p]], problem.wcet(p, design.nodes[p]), design.parts[p], p in design.frozen
            if was != now:
                frozen = {(False, True): "now", (True, False): "no more"}.get((was[3], now[3]), "")
                rows.append([name, *(str(a) if a == b else f"{a} > {b}" for a, b in zip(was[:3], now[:3])), frozen])
        if rows:
            yield from show.in_columns([["process", "node", "wcet", "parts", "frozen"], *rows])
        for edge in problem.edges:
            item = -1 - edge.number
            if (item in old.frozen) != (item in design.frozen):
                yield f"  e{edge.number} {names[edge.source]}>{names[edge.target]} {'frozen' if item in design.frozen else 'no longer frozen'}"
        if [it[:1] for it in by_node(old)] != [it[:1] for it in by_node(design)] or by_node(old) != by_node(design):
            yield "  slots " + " ".join(f"{problem.nodes[n]} {length}/{size}" for n, length, size in by_node(design))


def by_node(design: Design) -> list[tuple[int, int, int]]:
    return [(it.node, it.length, it.bytes) for it in design.slots]


def said_by(ran: Ran) -> str:
    """What cpgc says of a graph: its worst, or its line."""
    return show.worst(ran.text) if ran.status == 0 else ran.line.removeprefix("cpgc: ")
