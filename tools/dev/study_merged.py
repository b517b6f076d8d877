"""Tables that are merged from a schedule of each track, as the works on conditional process graphs do it, as we recall them.

Each track has a schedule of its own, by list scheduling. The tree of conditions is walked from the longest one: what starts on a node before it
has heard a condition is fixed for both values. Behind the value of the schedule that is followed it goes on; behind the other one the longest of
the tracks that are left is scheduled anew, around what is fixed. So two processes of a node may go one way round in one track and the other way
round in another. Broadcasts and slots are those of docs/MODEL.md; there are no faults.

    made = Merging(problem, plan, ranks)
    made.worst, made.longest      # the latest end, and that of the longest track by itself
    made.pack(head)               # the tables, for `cpgc check`
"""
from __future__ import annotations

from collections.abc import Sequence
from dataclasses import replace
from typing import NamedTuple

from cpgc_tools.explore.problem import Problem, Track
from cpgc_tools.explore.reckoning import Plan
from cpgc_tools.pack import VALUES, Pack, Row

Item = tuple[str, int]  # a start of a process, a send of an edge, a tell of a process
Times = dict[Item, int]
Literals = tuple[tuple[int, bool], ...]


class Fixed(NamedTuple):
    """A start that is fixed where these values hold, which the node has heard by then."""

    process: int
    time: int
    literals: Literals


class Merging:
    def __init__(self, problem: Problem, plan: Plan, ranks: Sequence[Sequence[int]]) -> None:
        """By the ranks of the processes in each track."""
        self.problem, self.plan, self.ranks = problem, plan, ranks
        self.node = plan.node
        none = [0] * len(problem.nodes)
        self.alone = [self.latest(self.scheduled(t, frozenset(), none)) for t in range(len(problem.tracks))]
        self.longest = max(self.alone)
        self.leaves: list[tuple[int, Times]] = []
        self.merge({}, frozenset(), none)
        self.worst = max(self.latest(times) for _, times in self.leaves)

    def latest(self, times: Times) -> int:
        return max(time + self.plan.first[p] for (kind, p), time in times.items() if kind == "start")

    def merge(self, values: dict[int, bool], fixed: frozenset[Fixed], known: list[int]) -> None:
        """Behind some values, with what is fixed, and no start that isn't before each node knows so much."""
        left = [t for t, track in enumerate(self.problem.tracks) if all(track.values.get(c) == value for c, value in values.items())]
        t = max(left, key=lambda t: (self.alone[t], -t))
        track, times = self.problem.tracks[t], self.scheduled(t, fixed, known)
        open_ = [(times["start", c] + self.plan.first[c], c) for c in track.values if c not in values]
        if not open_:
            self.leaves.append((t, times))
            return
        _, c = min(open_)
        heard = [self.heard(times, c, n) for n in range(len(known))]
        kept = [(p, time) for (kind, p), time in times.items() if kind == "start" and time < heard[self.node[p]]]
        fixed |= {Fixed(p, time, self.literals(track, times, self.node[p], time)) for p, time in kept}
        for value in (track.values[c], not track.values[c]):
            self.merge({**values, c: value}, fixed, [max(both) for both in zip(known, heard)])

    def literals(self, track: Track, times: Times, n: int, by: int) -> Literals:
        """The values that a node has heard by a time."""
        return tuple((c, value) for c, value in track.values.items() if self.heard(times, c, n) <= by)

    def producer(self, it: Item) -> int:
        return self.problem.source[it[1]] if it[0] == "send" else it[1]

    def heard(self, times: Times, c: int, n: int) -> int:
        """When a node has heard a condition."""
        own = self.node[c]
        return times["start", c] + self.plan.first[c] if own == n else times["tell", c] + self.plan.slot[own]

    def waits(self, track: Track, p: int) -> list[int]:
        """The conditions that a start waits for."""
        return [c for c in self.problem.deciders[p] if track.active[c]]

    def scheduled(self, t: int, all_fixed: frozenset[Fixed], known: Sequence[int]) -> Times:
        """The times of a track: starts as fixed for its values, the others not before the node knows so much, and each frame in the first slot."""
        problem, plan, node, track, rank = self.problem, self.plan, self.node, self.problem.tracks[t], self.ranks[t]
        fixed = {p: time for p, time, literals in all_fixed if all(track.values.get(c) == value for c, value in literals)}
        ready, left, behind = problem.release[:], [0] * problem.count, dict[int, list[int]]()
        for p in range(problem.count):
            if track.active[p]:
                waits = self.waits(track, p)
                left[p] = len(track.live[p]) + len(waits)
                for c in waits:
                    behind.setdefault(c, []).append(p)
        free, queue, times = list(known), [0] * len(known), Times()
        can = {p for p in range(problem.count) if track.active[p] and not left[p]}

        def arrive(p: int, time: int) -> None:
            ready[p] = max(ready[p], time)
            left[p] -= 1
            if not left[p]:
                can.add(p)

        def sent(it: Item, n: int, end: int) -> int:
            """Sends a frame, and returns when it is there."""
            at = plan.offset[n]
            at -= (at - max(end, queue[n], at)) // plan.round * plan.round
            times[it], queue[n] = at, at + 1
            return at + plan.slot[n]

        while can:
            start, _, p = min((fixed.get(p, max(ready[p], free[node[p]])), rank[p], p) for p in can)
            n, end = node[p], start + plan.first[p]
            can.remove(p)
            times["start", p], free[n] = start, max(free[n], end)
            told = sent(("tell", p), n, end) if p in track.values and len(known) > 1 else end
            for q in behind.get(p, ()):
                arrive(q, end if node[q] == n else told)
            for e in problem.out[p]:
                q, when = problem.target[e], problem.when[e]
                if when is not None and when != track.values[p]:
                    continue
                there = end if node[q] == n else sent(("send", e), n, end)
                if track.active[q] and e in track.live[q]:
                    arrive(q, there)
        return times

    def pack(self, head: Pack) -> Pack:
        """The tables in place of those of a pack of the same graph."""
        number = {p: c for c, p in enumerate(head.deciding)}
        columns: dict[tuple[str, int], set[tuple[int, bytes]]] = {}
        for t, times in self.leaves:
            track = self.problem.tracks[t]
            for it, time in times.items():
                p = self.producer(it)
                by = times["start", p] + (self.plan.first[p] if it[0] == "send" else 0)
                known = sorted((VALUES + number[c], int(value)) for c, value in self.literals(track, times, self.node[p], by))
                columns.setdefault(it, set()).add((time, bytes(b for variable, value in known for b in (variable, value, value))))

        def filled(row: Row) -> Row:
            it = row.item.kind, row.item.of
            later = self.plan.slot[self.node[self.producer(it)]] if row.heard else 0
            return row._replace(columns=sorted((time + later, cube) for time, cube in columns.get(it, ())))

        return replace(head, rows=tuple(tuple(map(filled, rows)) for rows in head.rows))


def by_ways(problem: Problem, plan: Plan) -> list[list[int]]:
    """In each track the rank of each process by the longest way ahead of it there."""
    return [_ranked(problem, plan, track) for track in problem.tracks]


def _ranked(problem: Problem, plan: Plan, track: Track) -> list[int]:
    way = [0] * problem.count
    for p in reversed(problem.sorted):
        for e in problem.out[p]:
            q = problem.target[e]
            if track.active[p] and track.active[q] and e in track.live[q]:
                way[p] = max(way[p], way[q] + (0 if plan.node[p] == plan.node[q] else plan.slot[plan.node[p]]))
        way[p] += plan.first[p]
    return ranks(problem, sorted(range(problem.count), key=lambda p: (-way[p], p)))


def ranks(problem: Problem, order: Sequence[int]) -> list[int]:
    found = [0] * problem.count
    for i, p in enumerate(order):
        found[p] = i
    return found
