"""Writes a graph file with the best number of parts for each process, as `cpgc tune` finds them.

    tuned GRAPH > better.toml
    tuned --search GRAPH > better.toml

Only the `parts` change in the text: a number that is there is replaced, and any other is added after the wcet. If the text doesn't have
the parts as a key of their process, the graph is written anew, without the comments, and a line on the error stream says so.

The best parts are those with which an execution with all faults is shortest. The graph needn't be better with them, since each execution
without a fault lasts longer. If its latest end doesn't come earlier, a line on the error stream says so.

--search looks for parts with which the latest end comes earlier. It repeatedly changes the parts of processes that lead to that end,
starting from the best parts and from those of the file, and compiles what it finds with `cpgc`. It never says that no other parts are
better.

For example, `tuned pair.toml > better.toml` puts `parts = 2` behind the wcet of A.
"""
from __future__ import annotations

import math

from cpgc_tools import cli, graph, show
from cpgc_tools.explore.course import Course, Here, Words
from cpgc_tools.explore.search import Search, of_plain
from cpgc_tools.explore.written import text_of
from cpgc_tools.program import Program

WALKS, TIMES = 2, 2  # of a search, and how many times as many designs as a quick one tries
Parts = tuple[int, ...]


def best_parts(tune: str) -> Parts:
    """The number of parts of each process, in the order of the file."""
    lines = [line.split(" ") for line in tune.splitlines()]
    return tuple(int(words[2]) for words in lines if len(words) == 3 and words[1] == "parts")


class Tries:
    """A graph of which the numbers of parts are changed and tried."""

    def __init__(self, cpgc: Program, it: graph.Graph) -> None:
        self.cpgc, self.graph = cpgc, it
        self.tried: dict[Parts, str] = {}

    def answer(self, parts: Parts) -> tuple[float, str]:
        """How bad these parts are, and a text on it: the latest end, or that the graph is refused."""
        if parts not in self.tried:
            changed = self.graph.changed(process={number: {"parts": count} for number, count in enumerate(parts)})
            ran = self.cpgc.answer("show", self.cpgc.file("tried.toml", changed.text()), statuses=(0, 5, 6))
            self.tried[parts] = show.worst(ran.text) if ran.status == 0 else " ".join(ran.line.split(" ")[1:3])
        said = self.tried[parts]
        return (int(said.split(" ")[1]) if said.startswith("worst") else math.inf), said


def searched(it: graph.Graph) -> list[Parts]:
    """The best parts that a search finds, with all else as it is."""
    wanted = {"order": False, "process": {"*": {"parts": [1, 255]}}}
    tries = TIMES * Search(it, wanted, "shortest").quick_tries()
    course = Course(it, wanted, Words("shortest", 1, WALKS, tries, tries // (2 * WALKS), None))
    course.run(Here(), lambda _: None)
    return [of_plain(design).parts for _, design in course.best]


def tuned(text: str, it: graph.Graph, parts: Parts) -> tuple[str, bool]:
    """The text of the graph with these parts, and whether it's the old one with changes."""
    changes = {p.number: {"parts": count} for p, count in zip(it.processes, parts) if count != 1 or "parts" in p.entry}
    return text_of(text, it.document, it.changed(process=changes).document)


def main() -> None:
    words = cli.Words(__doc__).with_program().with_files("GRAPH")
    words.add_argument("--search", action="store_true", help="look for parts with which the latest end comes earlier")
    said = words.parse_args()
    content = cli.read(said.graph, cli.GRAPH)
    with Program(said.program) as cpgc:
        tune = cpgc.text("tune", cpgc.file("graph.toml", content))
        it = graph.parsed(said.graph, content)
        tries, old, parts = Tries(cpgc, it), tuple(process.parts for process in it.processes), best_parts(tune)
        if said.search:
            parts = min((old, parts, *searched(it)), key=lambda parts: tries.answer(parts)[0])
        written, kept = tuned(content.decode(), it, parts)
        if not kept:
            cli.note("written anew, without its comments")
        if parts == old:
            cli.note("the parts stay as they are")
        elif tries.answer(parts)[0] >= tries.answer(old)[0]:
            cli.note(f"no better: {tries.answer(old)[1]} becomes {tries.answer(parts)[1]}")
    cli.write(written)
