"""What leads to the latest end of an order, or to the end that misses its due by most: executions and frames, the last one first."""
from __future__ import annotations

from collections.abc import Iterator
from typing import NamedTuple

from cpgc_tools.explore.reckoning import Reckoned, begun


class Step(NamedTuple):
    """An execution or a frame: what it waited for ("input", "node", "hear", "release"; a frame for the "end" of its sender or in the "queue";
    or nothing), and of which process that was."""

    kind: str  # "start", "send" of an edge, "tell" of a process
    item: int
    faults: int  # that strike this execution
    why: str
    behind: int | None


def chain(found: Reckoned) -> list[Step]:
    return list(_Chain(found).steps())


class _Chain:
    def __init__(self, found: Reckoned) -> None:
        self.found, self.plan, self.problem, self.times = found, found.plan, found.plan.problem, found.times
        self.k = 0 if self.plan.scalar else self.plan.k
        self.lines: list[list[int]] = [[] for _ in self.problem.nodes]  # of each node its processes, in turn
        self.place = [0] * self.problem.count
        for p in found.order:
            line = self.lines[self.plan.node[p]]
            self.place[p] = len(line)
            line.append(p)
        self.rows = self.plan.row_of_track

    def at(self, t: int, i: int, j: int) -> int:
        time: int = self.times[t][i] if self.plan.scalar else self.times[t][i][j]
        return time

    def last(self) -> int | None:
        """The process at whose end it all ends."""
        late, latest, due = self.found.late > 0, self.found.latest, self.problem.due
        ends = [(latest[p] - due[p] if late else 0, latest[p], p) for p in self.found.order if latest[p]]
        return max(ends)[2] if ends else None

    def steps(self) -> Iterator[Step]:
        p = self.last()
        if p is None:
            return
        ends = [(self.at(t, p, self.k), t) for t in self.rows[p]]
        self.t, self.j = max(ends)[1], self.k
        while p is not None:
            faults, more = 0, self.plan.more[p]
            while self.j and self.at(self.t, p, self.j - 1) + more == self.at(self.t, p, self.j):
                self.j, faults = self.j - 1, faults + 1
            start = self.at(self.t, p, self.j) - self.plan.first[p]
            if p in self.plan.design.frozen:  # the track and the faults that it is planned for
                self.t, self.j = next((t for t in self.rows[p] if self.reason(t, p, self.k, start)[0]), self.t), self.k
            why, i = self.reason(self.t, p, self.j, start)
            before = self.source(i)
            yield Step("start", p, faults, why, before)
            if self.plan.arrival <= i < self.plan.free and not self.is_inner(i):
                assert before is not None
                yield from self.frames(i, before)
                p = self.sender
            else:
                p = before

    def source(self, i: int) -> int | None:
        """The process from which a time comes."""
        if not 0 <= i < self.plan.free:
            return None
        if i < self.plan.arrival:
            return i
        return self.problem.source[i - self.plan.arrival] if i < self.plan.told else i - self.plan.told

    def is_inner(self, i: int) -> bool:
        if i >= self.plan.told:
            return False
        edge = self.problem.edges[i - self.plan.arrival]
        return self.plan.node[edge.source] == self.plan.node[edge.target]

    def reason(self, t: int, p: int, j: int, start: int) -> tuple[str, int]:
        """Why an execution starts when it does, and the time that it waits for; nothing where it waits for none."""
        plan = self.plan
        for i in self.rows[p][t]:
            if self.at(t, i, j) == start:
                if i >= plan.released:
                    return "release", -1
                return ("input" if plan.arrival <= i < plan.told else "hear"), i
        line = self.lines[plan.node[p]]
        for q in reversed(line[:self.place[p]]):
            if t in self.rows[q]:
                return ("node", q) if self.at(t, q, j) == start else ("", -1)
            for i in dict(plan.idle[q]).get(t, ()):
                if self.at(t, i, j) == start:
                    return "hear", i
        return "", -1

    def frames(self, i: int, sender: int) -> Iterator[Step]:
        """The frames of a node that wait for each other, down to the one that waits for its sender."""
        plan, n = self.plan, self.plan.node[sender]
        while True:
            kind, item = ("send", i - plan.arrival) if i < plan.told else ("tell", i - plan.told)
            if kind == "send" and -1 - item in plan.design.frozen:
                self.t = max((t for t in self.rows[sender] if self.at(t, i, self.k)), key=lambda t: self.at(t, sender, self.k))
                self.j = self.k
            begin = self.at(self.t, i, self.j) - plan.slot[n]
            if begun(plan, n, [self.at(self.t, sender, self.j)])[0] == begin:
                yield Step(kind, item, 0, "end", None)
                break
            found = self.queued(sender, i, begin)
            if found is None:
                yield Step(kind, item, 0, "", None)
                break
            i, other = found
            yield Step(kind, item, 0, "queue", other if other != sender else None)
            sender = other
        self.sender: int = sender

    def queued(self, sender: int, i: int, begin: int) -> tuple[int, int] | None:
        """The frame of the node one round before, and its sender."""
        plan, n = self.plan, self.plan.node[sender]
        wanted = begin - plan.round + plan.slot[n]
        for q in reversed(self.lines[n][:self.place[sender] + 1]):
            if self.t in self.rows[q]:
                for send in plan.sends[q]:
                    if send.arrival != i and (send.tracks is None or self.t in send.tracks) and self.at(self.t, send.arrival, self.j) == wanted:
                        return send.arrival, q
        return None
