"""Warns of what stands in a graph file and can hardly be meant, though cpgc accepts it silently.

    lint GRAPH [PACK]
    lint --strict GRAPH [PACK]

A line has FILE:LINE, a grade, a text and, in brackets, a kind. If there is nothing to warn of, nothing is written. With --strict the status is 1
if there is a warning, or a note that is hardly ever meant so: too-long, load, units, due-later or frozen-local. The others leave it at 0. The kinds
of warnings are

    never-runs    a process that is active in no scenario, as if a join = true was forgotten, with what waits for it
    no-overhead   a process without alpha, chi and mu, though faults may strike: to find one and to recover would take no time
    no-bytes      a message without `bytes`: it counts as one byte, so no slot is too short for it
    doubled-edge  an edge with the same ends and the same `when` as an earlier one

and those of notes, which have no effect, cost time, or can't be in time:

    apart         a process without edges, if others have some
    frozen-local  frozen = true on an edge within a node, which has no message
    due-later     a deadline of a process after that of the graph
    too-long      a process that is due before the longest way to it can be over, in any order
    load          a node with more work, with all faults, than there is time before the deadline
    units         a wcet that is a thousand times less or more than the median of all
    round         a round that doesn't divide the deadline, a period of hyper's parts, or a period that --period names
    late-frame    a frame that arrives after the deadline, so the tables can only be repeated later (with a PACK)
    idle-slot     a slot of a node that sends nothing

The graph isn't compiled: ask cpgc whether it is in time. With a PACK, which has to be the graph's, what its tables never start counts, too.
--without KIND leaves a kind out. --json writes the lines as JSON, with file, line, column, grade, kind, name and text.

For example, `lint pair.toml` notes that a round of 20 doesn't divide the deadline of 105.
"""
from __future__ import annotations

import itertools
import json
import statistics
from collections.abc import Iterable, Iterator, Sequence
from dataclasses import dataclass

from cpgc_tools import cli, cycle, instances, pack, show
from cpgc_tools.graph import File, Graph, Process, Sentence
from cpgc_tools.pack import Pack

WARNINGS = ("never-runs", "no-overhead", "no-bytes", "doubled-edge")
NOTES = ("apart", "frozen-local", "due-later", "too-long", "load", "units", "round", "late-frame", "idle-slot")
STRICT = (*WARNINGS, "frozen-local", "due-later", "too-long", "load", "units")  # of which --strict has status 1
MOST_TRACKS = 2**14  # of a graph that cpgc takes
APART = 1000  # of a time in another unit
Found = Iterator[tuple[str, Sentence]]  # a kind and a sentence


@dataclass(frozen=True)
class Warning:
    kind: str
    said: Sentence

    @property
    def grade(self) -> str:
        return "warning" if self.kind in WARNINGS else "note"

    def text(self) -> str:
        place = self.said[:len(self.said) - len(self.said.said)]
        return f"{place}{self.grade}: {self.said.said} [{self.kind}]"

    def document(self) -> dict[str, object]:
        it = self.said
        return {"file": it.path, "line": it.line, "column": it.column, "grade": self.grade, "kind": self.kind, "name": it.name, "text": it.said}


class Lint:
    """A graph file of which kinds of warnings are asked. Raises ValueError if it is no graph."""

    def __init__(self, file: File, tables: Pack | None = None, periods: Iterable[int] = ()) -> None:
        self.file, self.graph, self.tables = file, Graph.of(file.document), tables
        self.active = [active for active, _ in itertools.islice(self.graph.outcomes(), MOST_TRACKS + 1)]
        ever = 0
        for it in self.active:
            ever |= it
        self.idle = {it.number for it in self.graph.processes if not ever >> it.number & 1}
        self.lacking = {row.item.of for _, row in tables.acts() if row.item.kind == "start" and not row.columns} - self.idle if tables else set[int]()
        parts = instances.of(self.graph)
        self.periods = [*periods, *(it.period for it in parts.parts if it.count > 1)] if parts else list(periods)

    def warnings(self, kinds: Sequence[str]) -> list[Warning]:
        """What there is of some kinds, in the order of the file."""
        found = [Warning(*it) for kind in kinds for it in getattr(self, kind.replace("-", "_"))()]
        return sorted(found, key=lambda it: it.said.line or 0)

    def on(self, what: str, process: Process, *key: str) -> Sentence:
        return self.file.at(what, "process", process.number, *key)

    # warnings

    def never_runs(self) -> Found:
        if len(self.active) > MOST_TRACKS:
            return
        names = [it.name for it in self.graph.processes if it.number in self.idle]
        for line in show.idle_lines(self.graph, names):
            yield "never-runs", self.on(line, self.graph.processes[self.graph.number[line.split(" ")[0]]])
        for number in sorted(self.lacking):
            it = self.graph.processes[number]
            yield "never-runs", self.on(f"{it.name} is in no column of the pack, though it is active in some scenario: ask `cpgc check`", it)

    def no_overhead(self) -> Found:
        bare = [it for it in self.graph.processes if not it.alpha + it.chi + it.mu and self.graph.faults]
        faults = f"{self.graph.faults} fault{'s' * (self.graph.faults > 1)} may strike, and to find one, to save a checkpoint and to recover takes no time"
        if bare and len(bare) == len(self.graph.processes) > 1:
            yield "no-overhead", self.on(f"no process has alpha, chi or mu: {faults}", bare[0])
            return
        for it in bare:
            yield "no-overhead", self.on(f"{it.name} has no alpha, chi or mu: {faults}", it)

    def no_bytes(self) -> Found:
        for it in self.graph.edges:
            if self.graph.is_message(it) and "bytes" not in self.file.written("edge", it.number):
                yield "no-bytes", self.file.at(f"the message of {self.file.called('edge', it.number)} has no bytes, and counts as 1", "edge", it.number)

    def doubled_edge(self) -> Found:
        first: dict[tuple[int, int, bool | None], int] = {}
        for it in self.graph.edges:
            earlier = first.setdefault((it.source, it.target, it.when), it.number)
            if earlier < it.number:
                cost = ": its message is sent twice" if self.graph.is_message(it) else ""
                line = self.file.places.line("edge", earlier)
                yield "doubled-edge", self.file.at(
                    f"{self.file.called('edge', it.number)} stands there already, as edge {earlier}{f' on line {line}' if line else ''}{cost}", "edge", it.number)

    # notes

    def apart(self) -> Found:
        joined = {end for it in self.graph.edges for end in (it.source, it.target)}
        for it in self.graph.processes if joined else ():
            if it.number not in joined:
                yield "apart", self.on(f"{it.name} has no edges: it waits for nothing, and nothing waits for it", it)

    def frozen_local(self) -> Found:
        for it in self.graph.edges:
            if it.frozen and not self.graph.is_message(it):
                node = self.graph.node_of(self.graph.processes[it.source])
                yield "frozen-local", self.file.at(f"{self.file.called('edge', it.number)} is within {node}: frozen has no effect", "edge", it.number, "frozen")

    def due_later(self) -> Found:
        for it in self.graph.processes:
            if it.deadline is not None and it.deadline > self.graph.deadline:
                yield "due-later", self.on(f"{it.name} has a deadline of {it.deadline}, and the graph's of {self.graph.deadline} is before it", it, "deadline")

    def too_long(self) -> Found:
        least = self.least_ends()
        for it in self.graph.processes:
            way = least.get(it.number)
            if way and way[-1][0] > it.due and not any(least[edge.source][-1][0] > self.graph.processes[edge.source].due for edge in self.graph.inputs(it)
                                                       if edge.source in least):
                end, names = way[-1]
                with_faults = f" with {self.graph.faults} fault{'s' * (self.graph.faults > 1)}" if self.graph.faults else ""
                yield "too-long", self.on(f"{' '.join(names)} take{'s' * (len(names) == 1)} until {end}{with_faults}, and {it.name} is due at {it.due}: no order helps", it)

    def least_ends(self) -> dict[int, list[tuple[int, list[str]]]]:
        """Of each process that ever runs, by the number of faults up to it, before which time it can't be made to end in all scenarios with so
        many, and the way that leads there. Of a join's inputs the shortest one counts, since it may be the live one."""
        graph, found = self.graph, dict[int, list[tuple[int, list[str]]]]()

        def there(source: int, faults: int, to: Process) -> tuple[int, list[str]]:
            end, names = found[source][faults]
            node = graph.processes[source].node
            return (graph.arrival(node, graph.first_slot(node, end)) if node != to.node and node in graph.slot_of else end), names

        for number in graph.sources_first():
            it = graph.processes[number]
            sources = [edge.source for edge in graph.inputs(it) if edge.source in found]
            if number in self.idle or graph.inputs(it) and not sources:
                continue
            starts = []
            for faults in range(graph.faults + 1):
                ready = [there(source, faults, it) for source in sources]
                start = (min if it.join else max)(ready, key=lambda it: it[0]) if ready else (0, [])
                starts.append(start if start[0] > it.release or ready and start[0] == it.release else (it.release, []))
            found[number] = [max(((starts[faults - own][0] + it.duration(own), [*starts[faults - own][1], it.name]) for own in range(faults + 1)), key=lambda it: it[0])
                             for faults in range(graph.faults + 1)]
        return found

    def load(self) -> Found:
        if len(self.active) > MOST_TRACKS:
            return
        for node, name in enumerate(self.graph.nodes):
            on = [it for it in self.graph.processes if it.node == node]
            first, again = {it.number: it.duration(0) for it in on}, {it.number: it.duration(1) - it.duration(0) for it in on}
            mask = sum(1 << it.number for it in on)
            most = 0
            for active in {it & mask for it in self.active}:
                running = [it.number for it in on if active >> it.number & 1]
                most = max(most, sum(first[it] for it in running) + self.graph.faults * max((again[it] for it in running), default=0))
            if most > self.graph.deadline:
                with_faults = f" with {self.graph.faults} fault{'s' * (self.graph.faults > 1)}" if self.graph.faults else ""
                yield "load", self.file.at(f"{name} has work for {most}{with_faults}, and the deadline is {self.graph.deadline}", "node", node)

    def units(self) -> Found:
        median = statistics.median_low([it.wcet for it in self.graph.processes]) if self.graph.processes else 0
        for it in self.graph.processes:
            if it.wcet * APART <= median or it.wcet >= median * APART:
                yield "units", self.on(f"{it.name} has a wcet of {it.wcet}, and half of all have {median} or {'more' if it.wcet < median else 'less'}: is it in the same unit?",
                                       it, "wcet")

    def round(self) -> Found:
        length = self.graph.round
        if not length:
            return
        if self.graph.deadline % length:
            least = -(-self.graph.deadline // length) * length
            yield "round", self.file.at(f"a round of {length} doesn't divide the deadline of {self.graph.deadline}: the tables repeat after {least} at the earliest", "deadline")
        for period in sorted(set(self.periods) - {self.graph.deadline}):
            if period % length:
                yield "round", self.file.at(f"a round of {length} doesn't divide the period of {period}: slots come at other offsets in each instance", "slot")

    def late_frame(self) -> Found:
        if self.tables is not None and self.tables.last_arrival() > self.graph.deadline:
            least = cycle.parts(self.graph, self.tables)["cycle"]
            yield "late-frame", self.file.at(
                f"a frame arrives at {self.tables.last_arrival()}, after the deadline of {self.graph.deadline}: the tables repeat after {least} at the earliest", "deadline")

    def idle_slot(self) -> Found:
        senders = {self.graph.processes[it.source].node for it in self.graph.edges if self.graph.is_message(it)}
        if len(self.graph.nodes) > 1:
            senders |= {it.node for it in self.graph.deciding}
        for number, it in enumerate(self.graph.slots):
            if it.node not in senders:
                name = self.graph.nodes[it.node]
                yield "idle-slot", self.file.at(f"{name} has a slot and sends nothing: each round is {it.length} longer for it", "slot", number)


def high(file: File) -> list[Warning]:
    """The warnings of a graph file, none if cpgc doesn't admit it."""
    try:
        return Lint(file).warnings(WARNINGS)
    except (ValueError, RecursionError):
        return []


def tables_of(path: str, it: Graph) -> Pack:
    """The tables of a pack, which has to be the graph's."""
    tables = pack.read(path)
    other = pack.difference(it, tables)
    if other is not None:
        cli.fail(f"{path}: it was made for another graph; `{cli.named('explain')} -- cpgc check` says what differs")
    return tables


def main() -> int:
    words = cli.Words(__doc__).with_files("GRAPH")
    words.add_argument("--strict", action="store_true", help="status 1 if there is a warning, or a note that is hardly ever meant so")
    words.add_argument("--without", metavar="KIND", action="append", default=[], choices=[*WARNINGS, *NOTES], help="leave this kind out; may be said again")
    words.add_argument("--period", metavar="N", action="append", default=[], type=cli.whole(1, 10**9), help="a period that the round has to divide; may be said again")
    words.add_argument("--json", action="store_true", help="write JSON")
    words.add_argument("pack", metavar="PACK", nargs="?")
    said = words.parse_args()
    file = File(said.graph, content=cli.read(said.graph, cli.GRAPH))
    try:
        it = Lint(file, tables_of(said.pack, Graph.of(file.document)) if said.pack else None, said.period)
        found = it.warnings([kind for kind in (*WARNINGS, *NOTES) if kind not in said.without])
    except (ValueError, RecursionError):
        cli.fail(f"{said.graph}: no graph file; `cpgc show` says why")
    if said.json:
        cli.write(json.dumps([it.document() for it in found], indent=1) + "\n")
    else:
        cli.write_lines(it.text() for it in found)
    return int(said.strict and any(it.kind in STRICT for it in found))
