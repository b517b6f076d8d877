"""What the acts of a play waited for, one after another back to what waits for nothing, and what would have to change.

    waits = Waits(case)                                     # of the tool why: a graph, its tables, and plays of it
    for line in waits.chain(played, "control"): ..          # the lines on the end of a process; changes that may spare a wait are in waits.changes

An act is a kind (start, send or tell) and what stands behind it in the line of a play. A start waits for the end of an input or of what is before
it on its node, for a frame, or for its release; a frame for the end of its producer and the slot of the node, or for the frame before it in the
queue. What is frozen waits for one of these in another scenario, which is looked for in the columns, and played.
"""
from __future__ import annotations

import itertools
from collections.abc import Callable, Iterable, Iterator, Mapping
from typing import TYPE_CHECKING, NamedTuple

from cpgc_tools.graph import Edge, Graph, Process
from cpgc_tools.mends import Mend
from cpgc_tools.pack import VALUES, common, ranges
from cpgc_tools.play import Play, Scenario

if TYPE_CHECKING:
    from cpgc_tools.why import Case

MOST_MERGED = 2_000  # pairs of columns of which the least scenario is taken
MOST_STEPS = 1_000
Act = tuple[str, str]
Other = tuple[Act, int]  # an act, and when it is over, or for a frame of the same node when it is sent


class Played(NamedTuple):
    """A scenario, as cpgc writes it, and its play."""

    scenario: str
    acts: Play


class Wait(NamedTuple):
    """What an act waited for, what has to be otherwise so that it comes sooner, what that rests on, in this or another scenario, and changes
    that may spare the wait."""

    text: str
    sooner: str
    next: Act | None = None
    played: Played | None = None
    changes: tuple[Callable[[], Mend | None], ...] = ()


class Waits:
    def __init__(self, case: Case) -> None:
        self.case, self.graph = case, case.graph
        self.changes: list[list[Mend]] = []  # of each list the first one that mends is enough
        self.nodes: set[int] = set()  # of the acts that were looked at
        self.processes: list[str] = []  # that lead to the end

    # Lines.

    def chain(self, played: Played, name: str) -> Iterator[tuple[str, str]]:
        """The lines on the way back from the end of a process, in two parts; a line on another scenario has the first part alone."""
        act: Act | None = ("start", name)
        for _ in range(MOST_STEPS):
            if act is None:
                return
            wait = self.start(played, act[1]) if act[0] == "start" else self.frame(played, act)
            yield self.head(played, act), f"waits for {wait.text}; sooner if {wait.sooner}"
            process = self.producer(act)
            self.nodes.add(process.node)
            self.changes += [[it] for make in wait.changes if (it := make())]
            if act[0] == "start":
                self.processes.append(process.name)
                self.changes += [parts] if (parts := self.case.changes.parts(process.name)) else []
            if wait.played is not None and wait.next is not None:
                played = wait.played
                yield self.where(played, wait.next), ""
            act = wait.next

    def head(self, played: Played, act: Act) -> str:
        if act[0] != "start":
            sent = played.acts.sends[act]
            return f"  {self.called(act)} is sent on {sent.node} at {sent.time}"
        start, end = played.acts.starts[act[1]], played.acts.ends[act[1]]
        struck = f" with {end.faults} fault{'s' * (end.faults > 1)}" if end.faults else ""
        return f"  {act[1]} runs on {start.node} from {start.time} to {end.time}{struck}"

    def where(self, played: Played, act: Act) -> str:
        if act[0] != "start":
            return f"where {self.called(act)} is sent at {played.acts.sends[act].time}, in {played.scenario}:"
        end = played.acts.ends[act[1]].time
        return f"where {act[1]} ends {'the latest' if end == self.case.ends[act[1]] else f'at {end}'}, in {played.scenario}:"

    # Acts.

    def edge(self, act: Act) -> Edge:
        return self.graph.edges[int(act[1][1:])]

    def producer(self, act: Act) -> Process:
        """The process that runs, or whose message or value it is."""
        return self.graph.processes[self.edge(act).source] if act[0] == "send" else self.case.process(act[1])

    def called(self, act: Act) -> str:
        return f"{act[1]} of {self.producer(act).name}" if act[0] == "send" else f"the value of {act[1]}" if act[0] == "tell" else act[1]

    def is_frozen(self, act: Act) -> bool:
        return act[0] == "send" and self.edge(act).frozen or act[0] == "start" and self.producer(act).frozen

    def over(self, played: Played, act: Act) -> int | None:
        """When an execution has ended or a frame is there, if it is active."""
        time = self.when(played, act)
        return time if time is None or act[0] == "start" else self.graph.arrival(self.producer(act).node, time)

    def queue(self, act: Act) -> list[Act]:
        """The frames of a node before this one, in the order of its queue."""
        node, found = self.producer(act).node, list[Act]()
        for name in self.case.order:
            process = self.case.process(name)
            if process.node == node:
                found += [("tell", name)] if process.condition is not None else []
                found += [("send", f"e{it.number}") for it in self.graph.edges if it.source == process.number and self.graph.is_message(it)]
        return found[:found.index(act)]

    def is_live(self, played: Played, edge: Edge) -> bool:
        end = played.acts.ends.get(self.graph.processes[edge.source].name)
        return end is not None and (edge.when is None or end.value == str(edge.when).lower())

    # Starts.

    def start(self, played: Played, name: str) -> Wait:
        process, begin = self.case.process(name), played.acts.starts[name].time
        for edge in self.graph.inputs(process):
            if self.is_live(played, edge):
                act = self.input(edge)
                if self.over(played, act) == begin:
                    return Wait(f"the end of {act[1]}", f"{act[1]} ends sooner", act) if act[0] == "start" else self.arrived(played, act)
        node = self.graph.node_of(process)
        for other in self.before(name):
            if self.over(played, ("start", other)) == begin:
                turned = self.case.changes.turned(name, other)
                return Wait(f"the end of {other}, which is before it on {node}", f"it goes before {other}, or {other} ends sooner", ("start", other), None, (turned,))
        if begin == process.release:
            return Wait("its release", "that is sooner") if begin else Wait("nothing", "it lasts shorter")
        for act in self.told(process):
            if self.over(played, act) == begin:
                return self.arrived(played, act)
        return self.frozen_start(process, begin) if process.frozen else Wait("what isn't known", "something else changes")

    def input(self, edge: Edge) -> Act:
        return ("send", f"e{edge.number}") if self.graph.is_message(edge) else ("start", self.graph.processes[edge.source].name)

    def before(self, name: str) -> list[str]:
        """The processes before one on its node, in their order."""
        order = self.case.order
        return [it for it in order[:order.index(name)] if self.case.process(it).node == self.case.process(name).node]

    def told(self, process: Process) -> list[Act]:
        """The values that a process may have to hear."""
        return [("tell", it.name) for it in self.graph.deciding if it.node != process.node]

    def arrived(self, played: Played, act: Act) -> Wait:
        """The wait for a frame, with what that waited for: the next step is behind it."""
        wait, sent = self.frame(played, act), played.acts.sends[act].time
        how = " as it is frozen" if wait.played else f" behind {self.called(wait.next)}" if wait.next and wait.next[0] != "start" else ""
        text = f"{self.called(act)}, sent at {sent}{how}, there at {self.over(played, act)}"
        return wait._replace(text=text, sooner=wait.sooner.replace("it isn't frozen", f"{act[1]} isn't frozen", 1))

    def frozen_start(self, process: Process, begin: int) -> Wait:
        """A frozen process waits for what it waits for in the worst scenario of its own."""
        changes, node = (lambda: self.case.changes.thawed_process(process.name),), self.graph.node_of(process)
        others: list[tuple[Act, str]] = []
        for edge in self.graph.inputs(process):
            others.append((self.input(edge), f"the latest that comes of {self.graph.processes[edge.source].name}"))
        for name in self.before(process.name):
            others.append((("start", name), f"the latest end of {name}, which is before it on {node}"))
        others += [(act, f"the latest that {self.called(act)} comes") for act in self.told(process)]
        for act, text in others:
            there = begin if act[0] == "start" else begin - self.graph.arrival(self.producer(act).node, 0)
            if (found := self.elsewhere(("start", process.name), [(act, there)])) is not None:
                played, act = found
                if act[0] != "start" and (wait := self.frame(played, act)).played is None and wait.next and wait.next[0] == "start":
                    act = wait.next
                return Wait(f"{text}, as it is frozen", f"it isn't frozen, or {self.called(act)} {'ends' if act[0] == 'start' else 'comes'} sooner there", act, played, changes)
        return Wait("its frozen time", "it isn't frozen", None, None, changes)

    # Frames.

    def frame(self, played: Played, act: Act) -> Wait:
        producer, sent, graph = self.producer(act), played.acts.sends[act].time, self.graph
        node, end = graph.node_of(producer), played.acts.ends[producer.name].time
        if graph.first_slot(producer.node, end) == sent:
            least = sent - graph.round
            ends = f"{producer.name} ends by {least}, or " if least >= 0 else ""
            return Wait(f"the end of {producer.name} at {end} and the slot of {node}", f"{ends}the slot of {node} moves", ("start", producer.name))
        for other in reversed(self.queue(act)):
            if other in played.acts.sends and played.acts.sends[other].time == sent - graph.round:
                what, its = self.called(other), self.producer(other)
                first = f"{producer.name} runs before {its.name}, or " if its != producer else f"{act[1]} stands before {other[1]} in the file, or " if other[0] == "send" else ""
                return Wait(f"the frame before it, {what}", f"{first}{what} is sent sooner", other, None, (lambda: self.case.changes.sent_before(act, other),))
        if not self.is_frozen(act):
            return Wait("what isn't known", "something else changes")
        changes = (lambda: self.case.changes.thawed_message(int(act[1][1:])),)
        found = self.elsewhere(act, self.held_up_by(act, sent))
        if found is None:
            return Wait("its frozen time", "it isn't frozen", None, None, changes)
        what = f"{found[1][1]} ends" if found[1][0] == "start" else f"{self.called(found[1])} is sent"
        return Wait("its frozen time", f"it isn't frozen, or {what} sooner there", found[1], found[0], changes)

    def held_up_by(self, act: Act, sent: int) -> Iterator[Other]:
        """What a frame may have waited for in some scenario, so that it is sent at this time, the latest end first."""
        producer, graph = self.producer(act), self.graph
        for end in sorted(self.ends_of(producer), reverse=True):
            if graph.first_slot(producer.node, end) == sent:
                yield ("start", producer.name), end
        for other in reversed(self.queue(act)):
            yield other, sent - graph.round

    def ends_of(self, process: Process) -> set[int]:
        found = self.case.tables_of.row("start", process.name)
        return {time + process.duration(n) for time, _ in (found[1].columns if found else ()) for n in range(self.graph.faults + 1)}

    # Other scenarios.

    def elsewhere(self, act: Act, others: Iterable[Other]) -> tuple[Played, Act] | None:
        """A scenario in which an act is done, and one of the others is over, or sent, at its time; played. And which one that is."""
        for other, time in others:
            played = None
            if other[0] == "start" and time == self.case.ends.get(other[1]):
                played = self.case.play(other[1])
            if played is None or self.when(played, act) is None or self.when(played, other) != time:
                scenario = self.both(act, other, time)
                played = self.case.played(scenario) if scenario else None
            if played is not None and self.when(played, act) is not None and self.when(played, other) == time:
                return played, other
        return None

    @staticmethod
    def when(played: Played, act: Act) -> int | None:
        """When an execution ends, or a frame is sent, if it is active."""
        found = played.acts.ends.get(act[1]) if act[0] == "start" else played.acts.sends.get(act)
        return None if found is None else found.time

    def both(self, act: Act, other: Act, time: int) -> Scenario | None:
        """The least scenario of some in which an act is done, and another one is over, or sent, at a time."""
        first, second = self.case.tables_of.row(*act), self.case.tables_of.row(*other)
        if first is None or second is None:
            return None
        wanted: list[tuple[bytes, dict[int, tuple[int, int]]]] = []
        for at, cube in second[1].columns:
            if other[0] != "start":
                wanted += [(cube, {})] if at == time else []
            else:
                process = self.case.process(other[1])
                wanted += [(cube, {process.number: (n, n)}) for n in range(self.graph.faults + 1) if at + process.duration(n) == time]
        pairs = itertools.product((cube for _, cube in first[1].columns), wanted)
        ranges = (merged(self.graph, one, cube, more) for one, (cube, more) in itertools.islice(pairs, MOST_MERGED))
        found = [it for it in ranges if it is not None]
        if not found:
            return None
        least = min(found, key=lambda it: (sum(it[0].values()), len(it[1]), sorted(it[0].items())))
        names = [it.name for it in self.graph.processes]
        return Scenario({names[p]: n for p, n in least[0].items() if n}, frozenset(names[p] for p in least[1]))


def merged(graph: Graph, one: bytes, other: bytes, more: Mapping[int, tuple[int, int]]) -> tuple[dict[int, int], set[int]] | None:
    """The least scenario of two cubes and ranges, as the faults of processes and those whose value is true, or nothing if there is none."""
    both = common(ranges(one), ranges(other))
    found = None if both is None else common(both, more)
    if found is None:
        return None
    faults = {variable: low for variable, (low, _) in found.items() if variable < VALUES}
    if sum(faults.values()) > graph.faults:
        return None
    return faults, {graph.deciding[variable - VALUES].number for variable, (low, _) in found.items() if variable >= VALUES and low}
