"""The latest ends of a graph's tables under an order, without the tables.

    plan = Plan(problem, design)                        # what doesn't rest on the order
    found = reckoned(plan, order)                       # found.late, found.worst, found.latest
    better = reckoned(plan, other, found, 17, limit)    # an order that is the same before place 17; None where it is no better than a limit
    chain(found)                                        # what leads to the latest end, the last execution first

Times of a run (docs/MODEL.md) are made by maxima, by sums and by the next slot, which all grow with what they are made of. So an end is the
greatest over the ways that lead to it, and the faults of the worst scenario lie on one way: of each item it is enough to know the latest
time with 0, 1, .. k faults on the ways to it, some (processes + edges) * k steps for each track, however many scenarios there are. A
frozen item has the time of k faults in the latest of its tracks, with none of them spent. Where k is 0 a time is one number.

Nothing of this is proved, so what is found this way has to be asked of cpgc.
"""
from __future__ import annotations

import functools
from collections.abc import Sequence
from operator import sub
from typing import Any, NamedTuple

from cpgc_tools.explore.problem import Design, Problem

STEP = 16  # places of an order between two of which it is kept how things stand
FAR = 10**15  # later than any time

# With 0 to k faults on the way, latest first time: a list, or one number where k is 0 and nothing is frozen.
Time = Any
Row = tuple[int, tuple[int, ...]]  # a track, and the times that a start waits for there


class Limit(NamedTuple):
    """What an order has to be no worse than: by how much an end may miss its due, and the latest end."""

    late: int
    worst: int


class Send(NamedTuple):
    """A frame: the time of its arrival, in which tracks it goes (None where in all), and whether it is frozen."""

    arrival: int
    tracks: frozenset[int] | None
    frozen: bool


class Plan:
    """A design without its order, made ready for reckoning. Times of a track stand in one list: the ends of the processes, the arrivals of the
    edges, those of the broadcasts, when each node is free, when it may send next, and the releases."""

    def __init__(self, problem: Problem, design: Design, like: Plan | None = None) -> None:
        """Of a design; what it shares with the plan of another one is taken from there."""
        self.problem, self.design, self.k, self.node = problem, design, problem.k, design.nodes
        count, edges = problem.count, len(problem.edges)
        self.arrival, self.told = count, count + edges
        self.free = self.told + count
        self.queue = self.free + len(problem.nodes)
        self.released = self.queue + len(problem.nodes)
        self.scalar = self.k == 0 and not design.frozen
        self.slot, self.offset = [0] * len(problem.nodes), [0] * len(problem.nodes)
        for it in design.slots:
            self.slot[it.node], self.offset[it.node] = it.length, it.begin
        self.round = sum(it.length for it in design.slots)
        if like is None:
            self.first, self.more = [0] * count, [0] * count
            self.sends: list[tuple[Send, ...]] = [()] * count
            self.inner: list[tuple[int, ...]] = [()] * count
            self.together = [False] * count
            moved, touched = set(range(count)), set(range(count))
        else:
            self.first, self.more, self.sends, self.inner, self.together = like.first[:], like.more[:], like.sends[:], like.inner[:], like.together[:]
            moved = {p for p in range(count) if design.nodes[p] != like.node[p]}
            touched = moved | {problem.source[e] for p in moved for e in problem.into[p]}
            touched |= {it if it >= 0 else problem.source[-1 - it] for it in design.frozen ^ like.design.frozen}
        for p in range(count):
            if like is None or p in moved or design.parts[p] != like.design.parts[p]:
                first, more = problem.duration(p, design.nodes[p], design.parts[p])
                self.first[p], self.more[p] = first, more if self.k else 0
        for p in touched:
            self.sends[p] = self._sends(p)
            self.inner[p] = tuple(self.arrival + e for e in problem.out[p] if self.node[problem.target[e]] == self.node[p])
            self.together[p] = p in design.frozen or any(it.frozen for it in self.sends[p])
        self._waits(like, moved)
        self._bounds()

    def _sends(self, p: int) -> tuple[Send, ...]:
        """The frames of a process in the order of the queue."""
        problem, found = self.problem, []
        if problem.has_value[p] and len(problem.nodes) > 1:
            found.append(Send(self.told + p, None, False))
        for e in problem.out[p]:
            target, when = problem.target[e], problem.when[e]
            if self.node[target] != self.node[p]:
                tracks = None if when is None else frozenset(t for t, it in enumerate(problem.tracks) if it.values.get(p, False) == when)
                found.append(Send(self.arrival + e, tracks, -1 - e in self.design.frozen))
        return tuple(found)

    @functools.cached_property
    def tail(self) -> list[int]:
        """Of each process the longest way ahead of it."""
        problem, found = self.problem, [0] * self.problem.count
        for p in reversed(problem.sorted):
            longest, here = 0, self.node[p]
            for e in problem.out[p]:
                target = problem.target[e]
                way = found[target] if self.node[target] == here else found[target] + self.round
                if way > longest:
                    longest = way
            found[p] = longest + self.first[p]
        return found

    def urgency(self) -> list[int]:
        """The urgency order."""
        return sorted(range(self.problem.count), key=lambda p: -self.tail[p])

    @functools.cached_property
    def row_of_track(self) -> list[dict[int, tuple[int, ...]]]:
        """Of each process what it waits for, by tracks."""
        return [dict(it) for it in self.rows]

    def _waits(self, like: Plan | None, moved: set[int]) -> None:
        """Of each process in which tracks it starts, and what it waits for there; and in which its node waits for conditions alone."""
        problem, asked = self.problem, moved
        self.ranked: tuple[int, ...] = ()
        if problem.conditions:
            self.ranked = tuple(sorted(problem.conditions, key=lambda p: (-self.tail[p], p)))
            if like is not None:
                asked = {p for p in range(problem.count) if p in moved or not moved.isdisjoint(problem.deciders[p])}
        elif like is not None:
            asked = set()
        if like is None or like.ranked != self.ranked:
            self.rows: list[list[Row]] = [[] for _ in range(problem.count)]
            self.idle: list[list[Row]] = [[] for _ in range(problem.count)]
            asked = set(range(problem.count))
        else:
            self.rows, self.idle = (like.rows[:], like.idle[:]) if asked else (like.rows, like.idle)
        deciding = problem.deciding(self.ranked) if self.ranked else None
        for p in asked:
            self.rows[p], self.idle[p] = [], []
            for t, track in enumerate(problem.tracks):
                heard = tuple([c if self.node[c] == self.node[p] else self.told + c for c in deciding[t][p]]) if deciding else ()
                if track.active[p]:
                    released = (self.released + p,) if problem.release[p] else ()
                    self.rows[p].append((t, (*[self.arrival + e for e in track.live[p]], *heard, *released)))
                elif heard:
                    self.idle[p].append((t, heard))

    def _bounds(self) -> None:
        """Of each process what is at least to come after its end, and by when it has to end so that nothing behind it misses its due."""
        problem, rest, by = self.problem, [0] * self.problem.count, self.problem.due[:]
        for p in reversed(problem.sorted):
            for e in problem.out[p]:
                if problem.sure[e]:
                    target = problem.target[e]
                    least = self.first[target] if self.node[target] == self.node[p] else self.first[target] + self.slot[self.node[p]]
                    if least + rest[target] > rest[p]:
                        rest[p] = least + rest[target]
                    if by[target] - least < by[p]:
                        by[p] = by[target] - least
        self.rest, self.by = rest, by

    def caps(self, limit: Limit) -> list[int]:
        """The latest ends with which an order may still keep a limit."""
        late, worst = limit
        return [by + late if by + late < worst - rest else worst - rest for by, rest in zip(self.by, self.rest)]

    def beginning(self) -> list[list[Time]]:
        """The times of each track before anything has happened."""
        zero: Time = 0 if self.scalar else [0] * (self.k + 1)
        released: list[Time] = [it if self.scalar else [it] * (self.k + 1) for it in self.problem.release]
        return [[zero] * self.released + released for _ in self.problem.tracks]


class Reckoned:
    """What an order comes to: by how much an end misses its due at most (below 0 where all have time to spare), the latest end of all,
    and of each process (0 where it never runs)."""

    __slots__ = ("plan", "order", "late", "worst", "latest", "kept", "times")

    def __init__(self, plan: Plan, order: Sequence[int], latest: list[int], kept: list[list[list[Time]]], times: list[list[Time]]) -> None:
        self.plan, self.order, self.latest, self.kept, self.times = plan, order, latest, kept, times
        self.late = max(map(sub, latest, plan.problem.due), default=0)
        self.worst = max(latest, default=0)


def reckoned(plan: Plan, order: Sequence[int], like: Reckoned | None = None, place: int = 0, limit: Limit | None = None) -> Reckoned | None:
    """What an order comes to. Where it is `like` another before a place, under a plan that is the same up to there, only the rest is
    reckoned. Nothing where it is surely over a limit."""
    begin = 0
    if like is None or place < STEP:
        kept, times, latest = [], plan.beginning(), [0] * plan.problem.count
    else:
        begin = place // STEP
        kept, latest = like.kept[:begin], like.latest[:]
        times = [it[:] for it in like.kept[begin]]
    caps = [FAR] * plan.problem.count if limit is None else plan.caps(limit)
    run = _scalars if plan.scalar else _vectors
    for first in range(begin * STEP, len(order), STEP):
        kept.append([it[:] for it in times])
        if not run(plan, order[first:first + STEP], times, latest, caps):
            return None
    return Reckoned(plan, order, latest, kept, times)


def _scalars(plan: Plan, order: Sequence[int], times: list[list[Time]], latest: list[int], caps: list[int]) -> bool:
    """Goes on along an order where each time is one number; says whether all ends are within the caps."""
    free, queue, round_, node = plan.free, plan.queue, plan.round, plan.node
    for p in order:
        n, top, first, sends, inner = node[p], 0, plan.first[p], plan.sends[p], plan.inner[p]
        for t, waits in plan.rows[p]:
            time = times[t]
            end = time[free + n]
            for i in waits:
                if time[i] > end:
                    end = time[i]
            end += first
            if end > top:
                top = end
            time[p] = time[free + n] = end
            for i in inner:
                time[i] = end
            if sends:
                at = plan.offset[n]
                if end > at:
                    at -= (at - end) // round_ * round_
                if time[queue + n] > at:
                    at = time[queue + n]
                for i, tracks, _ in sends:
                    if tracks is None or t in tracks:
                        time[i] = at + plan.slot[n]
                        at += round_
                        time[queue + n] = at
        for t, waits in plan.idle[p]:
            time = times[t]
            for i in waits:
                if time[i] > time[free + n]:
                    time[free + n] = time[i]
        latest[p] = top
        if top > caps[p]:
            return False
    return True


def later(a: list[int], b: list[int]) -> list[int]:
    """The later of two times for each number of faults."""
    if a[0] >= b[-1]:
        return a
    if b[0] >= a[-1]:
        return b
    return [x if x > y else y for x, y in zip(a, b)]


def ended(start: list[int], first: int, more: int) -> list[int]:
    """The ends of an execution: each fault was before it, or strikes it."""
    end = start[0] + first
    found = [end]
    for time in start[1:]:
        end += more
        if time + first > end:
            end = time + first
        found.append(end)
    return found


def begun(plan: Plan, n: int, end: list[int]) -> list[int]:
    """When a frame goes that is ready at these times, if no other one is before it."""
    at, round_ = plan.offset[n], plan.round
    if end[0] > at:
        return [at - (at - it) // round_ * round_ for it in end]
    return [at - (at - it) // round_ * round_ if it > at else at for it in end]


def _vectors(plan: Plan, order: Sequence[int], times: list[list[Time]], latest: list[int], caps: list[int]) -> bool:
    """The same where times are lists."""
    k, free, queue, round_, node = plan.k, plan.free, plan.queue, plan.round, plan.node
    for p in order:
        n, first, more, sends, inner = node[p], plan.first[p], plan.more[p], plan.sends[p], plan.inner[p]
        if plan.together[p]:
            _together(plan, p, times, latest)
        else:
            top = 0
            for t, waits in plan.rows[p]:
                time = times[t]
                start = time[free + n]
                for i in waits:
                    other = time[i]
                    if other[0] >= start[k]:
                        start = other
                    elif other[k] > start[0]:
                        start = [x if x > y else y for x, y in zip(start, other)]
                end = ended(start, first, more)
                if end[k] > top:
                    top = end[k]
                time[p] = time[free + n] = end
                for i in inner:
                    time[i] = end
                if sends:
                    at = later(begun(plan, n, end), time[queue + n])
                    slot = plan.slot[n]
                    for i, tracks, _ in sends:
                        if tracks is None or t in tracks:
                            time[i] = [it + slot for it in at]
                            time[queue + n] = at = [it + round_ for it in at]
            latest[p] = top
        for t, waits in plan.idle[p]:
            time = times[t]
            for i in waits:
                time[free + n] = later(time[free + n], time[i])
        if latest[p] > caps[p]:
            return False
    return True


def _together(plan: Plan, p: int, times: list[list[Time]], latest: list[int]) -> None:
    """A process that is frozen, or sends what is: all its tracks together."""
    k, n, free, queue = plan.k, plan.node[p], plan.free + plan.node[p], plan.queue + plan.node[p]
    starts, top = [], 0
    for t, waits in plan.rows[p]:
        start = times[t][free]
        for i in waits:
            start = later(start, times[t][i])
        starts.append((t, start))
    if p in plan.design.frozen and starts:
        frozen = [max(start[k] for _, start in starts)] * (k + 1)
        starts = [(t, frozen) for t, _ in starts]
    for t, start in starts:
        time, end = times[t], ended(start, plan.first[p], plan.more[p])
        top = max(top, end[k])
        time[p] = time[free] = end
        for i in plan.inner[p]:
            time[i] = end
    for i, tracks, is_frozen in plan.sends[p]:
        sent = [(t, later(begun(plan, n, times[t][p]), times[t][queue])) for t, _ in starts if tracks is None or t in tracks]
        if is_frozen and sent:
            frozen = [max(at[k] for _, at in sent)] * (k + 1)
            sent = [(t, frozen) for t, _ in sent]
        for t, at in sent:
            times[t][i] = [it + plan.slot[n] for it in at]
            times[t][queue] = [it + plan.round for it in at]
    latest[p] = top
