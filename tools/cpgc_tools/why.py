"""Says why a graph is late: which process misses its due in which scenario by how much, what it waited for, and draws it.

    why GRAPH
    why --all GRAPH
    why --keep FOLDER GRAPH

A late graph has no tables, so its deadlines are put off until it has some: those of the order that misses by the least. What is said
is true of these tables; `cpgc` itself names the scenario. Of a graph that compiles, its latest end is shown in the same way.

Each line says what an execution or a frame waited for, and what would have to be otherwise so that it comes sooner. They go back to what
waits for nothing, or for its release: over what is frozen in the scenario for which its time is meant, and over the frames before it in the
queue of its node.

Then single changes are tried, each by a compile, and those with which the graph compiles are shown, the cheapest first: of the order, of
checkpoints, of what is frozen, of the slots, of the mapping. Of what was waited for, these are an edge that turns two processes of a node
round, if it leaves all as active as it was, or two edges in each other's place in the file; the best parts of a process, and if these don't
help, 2, 3 and so on up to them; an item that is no longer frozen; and a process on another node, with the same wcet. Then come an edge between
any two processes of the nodes that were waited on, if there are at most 100 such edges; the slots in other orders, of more than four by
exchanging two; and another order of all processes, as `explore --quick` finds it, if no other change of order is as good. If the file has the
key `order`, a process gets another place in it instead of an edge. If nothing is found, the last line says so, and how many changes were
tried. Of a graph that is too wide, another order alone is tried.

--all lists the latest end of each process, not of those alone that are late. --keep leaves the graph with its deadlines put off,
its tables and the scenario as why.toml, why.pack and why-scenario.toml in FOLDER, for `cpgc play` and other tools; files of these names
are written over, also through links. A process that never runs is warned of on the error stream.

For example, `why late.toml` says that control waits for the end of sense, and `mended by parts = 2 of sense: worst 77`.
"""
from __future__ import annotations

import re
from collections import Counter
from collections.abc import Iterator
from dataclasses import replace

from cpgc_tools import cli, graph, pack, play, show, timeline
from cpgc_tools.graph import LIMIT, Graph, Process
from cpgc_tools.mends import KINDS, Mend, Mends
from cpgc_tools.program import Program
from cpgc_tools.waits import Played, Waits

MOST_LISTED = 12  # of the changes of a kind that mend


def put_off(it: Graph, by: int) -> Graph:
    """The graph with each due later by so much, as far as a graph file can say it."""

    def later(time: int) -> int:
        return min(time + by, LIMIT)

    own = {process.number: {"deadline": later(process.deadline)} for process in it.processes if process.deadline is not None}
    return it.changed(top={"deadline": later(it.deadline)}, process=own)


def due_alone(it: Graph, name: str, time: int) -> Graph:
    """The graph with one process due at a time, and all others as late as may be."""
    dues = {process.number: {"deadline": time if process.name == name else None} for process in it.processes}
    return it.changed(top={"deadline": LIMIT}, process=dues)


def late_by(line: str, it: Graph) -> int:
    """By how much the process of a line of status 5 is late."""
    found = re.fullmatch(r"cpgc: late (\d+) by (\S+) in .*", line)
    if not found or found[2] not in it.number:
        cli.fail(f"a line of cpgc that isn't understood: {line}")
    return int(found[1]) - it.processes[it.number[found[2]]].due


class Case:
    """A graph, the tables that are looked at (of the graph with its deadlines put off), and the plays of its worst scenarios."""

    def __init__(self, cpgc: Program, it: Graph, excess: int) -> None:
        self.cpgc, self.graph = cpgc, it
        self.loose, self.packed = self.tables(excess)
        self.tables_of = pack.parsed(self.packed)
        self.ends = self.tables_of.latest_ends()
        self.show = cpgc.text("show", cpgc.file("why.toml", self.loose.text()))
        self.order = show.order(self.show)
        self.changes = Mends(it)

    def tables(self, excess: int) -> tuple[Graph, bytes]:
        """The graph with its deadlines put off so far that the order that misses by the least compiles it, and its pack."""
        for by in (max(excess - 1, 0), excess, LIMIT):
            loose = put_off(self.graph, by)
            ran = self.cpgc.run("compile", self.cpgc.file("why.toml", loose.text()))
            if ran.status == 0:
                return loose, ran.out
        raise ran.refusal()

    def process(self, name: str) -> Process:
        return self.graph.processes[self.graph.number[name]]

    def scenario_of(self, name: str, time: int) -> str:
        """The first scenario in which the tables let the process end after a time, as `cpgc check` says it."""
        # (a pack of version 1 tells no releases and no deadlines, so that it may be checked for other ones)
        file = self.cpgc.file("asked.toml", due_alone(self.graph, name, time).text())
        line = self.cpgc.run("check", file, self.cpgc.file("asked.pack", pack.bytes_of(replace(self.tables_of, version=1)))).line
        found = re.fullmatch(r"cpgc: unsafe V9 start (\S+) column \d+ in (.*)", line)
        if not found or found[1] != name:
            cli.fail(f"the program doesn't confirm that {name} ends after {time}: {line or 'safe'}")
        return found[2]

    def files(self, scenario: str) -> dict[str, str | bytes]:
        """The files of a play: the graph, its pack and the scenario."""
        said = play.scenario_file(play.scenario_of(scenario), self.graph.number)
        return {"why.toml": self.loose.text(), "why.pack": self.packed, "why-scenario.toml": said}

    def played(self, scenario: play.Scenario) -> Played | None:
        """A scenario, played, if it is one of the graph."""
        said = scenario.text(self.graph.number)
        ran = self.cpgc.run("play", *[self.cpgc.file(*it) for it in self.files(said).items()], "--turns", "0")
        return Played(said, play.parsed(ran.text.splitlines())) if ran.status == 0 else None

    def play(self, name: str) -> Played:
        """The least scenario in which a process ends the latest, played."""
        scenario = self.scenario_of(name, self.ends[name] - 1)
        words = [self.cpgc.file(*it) for it in self.files(scenario).items()]
        return Played(scenario, play.parsed(self.cpgc.text("play", *words, "--turns", "0").splitlines()))

    # Changes.

    def worst_with(self, change: Mend, number: int = 0) -> int | None:
        """The latest end of the graph changed so, if it compiles."""
        ran = self.cpgc.run("show", self.cpgc.file(f"mended-{number}.toml", change.graph.text()))
        return show.latest_end(ran.text) if ran.status == 0 else None

    def mended(self, waits: Waits) -> Iterator[str]:
        """A line for each change with which the graph compiles, the cheapest first: of each list the first one that does."""
        lists = [*waits.changes, *([it] for it in self.changes.pairs(waits.nodes)), *([it] for it in self.changes.slots()), *([it] for it in self.changes.moved(waits.processes))]
        by_text: dict[str, list[Mend]] = {}
        for it in lists:
            by_text.setdefault(it[0].text, it)

        def first(numbered: tuple[int, list[Mend]]) -> list[tuple[Mend, int | None]]:
            """The changes up to the first that mends, each with its latest end."""
            found: list[tuple[Mend, int | None]] = []
            for change in numbered[1]:
                found.append((change, self.worst_with(change, numbered[0])))
                if found[-1][1] is not None:
                    break
            return found

        tried = [it for some in self.cpgc.each(first, enumerate(by_text.values())) for it in some]
        least = min((worst for change, worst in tried if worst is not None and change.kind == "order"), default=LIMIT)
        searched = first((0, self.changes.searched(cli.named("explore"))))
        found = [(change, worst) for change, worst in [*tried, *(it for it in searched if it[1] is not None and it[1] < least)] if worst is not None]
        for kind in KINDS:
            of_kind = sorted((it for it in found if it[0].kind == kind), key=lambda it: it[1])
            yield from (f"mended by {change.text}: worst {worst}" for change, worst in of_kind[:MOST_LISTED])
            if len(of_kind) > MOST_LISTED:
                yield f"mended by {len(of_kind) - MOST_LISTED} more changes of {kind}"
        if not found:
            count = Counter(change.kind for change, _ in [*tried, *searched])
            counts = ", ".join(f"{count[kind]} of {kind}" for kind in KINDS if count[kind])
            yield f"no single change was found that mends it: {f'tried were {counts}' if counts else 'there was none to try'}"


def order_line(case: Case) -> str:
    given = case.graph.order and list(case.graph.order)
    kind = "given" if given == case.order else "urgency" if case.order == case.graph.urgency_order() else "track"
    return f"under the {kind} order: {' '.join(case.order)}"


def told(case: Case, late: bool, everything: bool) -> tuple[list[str], Played, Waits]:
    """The lines on a graph, the play that they speak of, and what its acts waited for."""
    due = {it.name: it.due for it in case.graph.processes}
    over = {name: end - due[name] for name, end in case.ends.items()}
    worst = max(over, key=over.__getitem__) if late else max(case.ends, key=case.ends.__getitem__)
    played, end = case.play(worst), case.ends[worst]
    if late:
        lines = [f"late: {worst} ends at {end}, {over[worst]} past its due of {due[worst]}, in {played.scenario}"]
        least = case.scenario_of(worst, due[worst])
        lines += [f"it is past it already in {least}"] if least != played.scenario else []
    else:
        lines = [f"in time: {worst} ends last, at {end}, due at {due[worst]}, in {played.scenario}"]
    lines.append(order_line(case))
    shown = sorted((name for name in over if everything or over[name] > 0), key=lambda name: -over[name])
    if everything or len(shown) > 1:
        rows = [(name, case.graph.node_of(case.process(name)), due[name], case.ends[name], -over[name]) for name in shown]
        lines += show.in_columns([("process", "node", "due", "latest end", "spare"), *rows])
    waits = Waits(case)
    found = list(waits.chain(played, worst))
    width = max(len(step) for step, text in found if text)
    lines += [f"{step:<{width}}  {text}".rstrip() if text else step for step, text in found]
    lines += timeline.as_text(case.graph.nodes, played.acts)
    return lines, played, waits


def say(case: Case, late: bool, everything: bool, folder: str | None) -> None:
    for line in show.idle_lines(case.graph, show.idle(case.show)):
        cli.note(line)
    if not case.ends:
        return cli.write("nothing ever runs\n")
    lines, played, waits = told(case, late, everything)
    cli.write_lines(lines)
    cli.flush()
    if late:
        cli.write_lines(case.mended(waits))
    if folder is not None:
        with Program(case.cpgc.path, folder) as kept:
            for name, content in case.files(played.scenario).items():
                kept.file(name, content)


def reordered(cpgc: Program, it: Graph) -> list[str]:
    """A line on another order of all processes with which the graph compiles."""
    ran = [(change, cpgc.run("show", cpgc.file("ordered.toml", change.graph.text()))) for change in Mends(it).searched(cli.named("explore"))]
    return [f"mended by {change.text}: {show.worst(it.text)}" for change, it in ran if it.status == 0]


def main() -> None:
    words = cli.Words(__doc__).with_program().with_files("GRAPH")
    words.add_argument("--all", action="store_true", help="list the latest end of each process")
    words.add_argument("--keep", metavar="FOLDER", help="leave the files of the play there, over any of the same names")
    said = words.parse_args()
    content = cli.read(said.graph, cli.GRAPH)
    with Program(said.program) as cpgc:
        ran = cpgc.answer("show", cpgc.file("graph.toml", content), statuses=(0, 5, 6))
        it = graph.parsed(said.graph, content)
        if ran.status == 6:
            cli.write_lines(reordered(cpgc, it))
            raise ran.refusal()
        say(Case(cpgc, it, late_by(ran.line, it) if ran.status else 0), ran.status == 5, said.all, said.keep)
