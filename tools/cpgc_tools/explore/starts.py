"""Orders by rules: those that the compile takes by itself, and those from which a search begins.

The rules heed releases and dues: at each step of a plain schedule a node runs, of the processes that are ready, the one with the latest
start that comes soonest. A latest start is the process's due, or that of what comes behind it, less the way to there. So an unrolled graph is
ordered instance by instance.
"""
from __future__ import annotations

import heapq
from collections.abc import Iterator, Sequence
from typing import Any

from cpgc_tools.explore.problem import MOST_SCHEDULED, Track
from cpgc_tools.explore.reckoning import Plan


def compiled(plan: Plan) -> list[tuple[int, ...]]:
    """The orders of which the compile takes the better one: the urgency order, and the track order where there is one."""
    found = [tuple(plan.urgency())]
    second = track_order(plan)
    if second is not None and second != found[0]:
        found.append(second)
    return found


def track_order(plan: Plan) -> tuple[int, ...] | None:
    """The order by the latest starts of all tracks, or nothing where there are too many."""
    problem = plan.problem
    if problem.track_count > min(MOST_SCHEDULED, len(problem.tracks)):
        return None
    rank = [0] * problem.count
    for i, p in enumerate(plan.urgency()):
        rank[p] = i
    keys = [0] * problem.count
    lasts = [first + problem.k * more for first, more in zip(plan.first, plan.more)]
    for track in problem.tracks:
        for p, start in enumerate(greedy(plan, track, lasts, rank, plan.round)):
            keys[p] = max(keys[p], start)
    for p in problem.sorted:
        for e in problem.out[p]:
            target = problem.target[e]
            keys[target] = max(keys[target], keys[p] + 1)
    return tuple(sorted(range(problem.count), key=lambda p: (keys[p], p)))


def greedy(plan: Plan, track: Track, lasts: Sequence[int], rank: Sequence[Any], hop: int) -> list[int]:
    """The starts in a track's schedule in which a node runs, of what is ready, the least by rank; 0 of what isn't active."""
    problem, node = plan.problem, plan.node
    left = [len(it) for it in track.live]
    ready, free, starts = problem.release[:], [0] * len(problem.nodes), [0] * problem.count
    waiting: list[list[int]] = [[] for _ in problem.nodes]
    for p in range(problem.count):
        if track.active[p] and not left[p]:
            waiting[node[p]].append(p)
    while True:
        begins = [(max(free[n], min(ready[p] for p in here)), n) for n, here in enumerate(waiting) if here]
        if not begins:
            return starts
        time, n = min(begins)
        p = min((p for p in waiting[n] if ready[p] <= time), key=rank.__getitem__)
        waiting[n].remove(p)
        starts[p], free[n] = time, time + lasts[p]
        for e in problem.out[p]:
            target = problem.target[e]
            if track.active[target] and e in track.live[target]:
                ready[target] = max(ready[target], free[n] + (0 if node[target] == n else hop))
                left[target] -= 1
                if not left[target]:
                    waiting[node[target]].append(target)


# Rules that heed releases and dues. Here all processes are active, as in the order all stand.


def latest_starts(plan: Plan, lasts: Sequence[int], hop: int) -> list[int]:
    """When each process has to start so that all behind it can be in time."""
    problem, found = plan.problem, [0] * plan.problem.count
    for p in reversed(problem.sorted):
        end = problem.due[p]
        for e in problem.out[p]:
            target = problem.target[e]
            end = min(end, found[target] - (0 if plan.node[target] == plan.node[p] else hop))
        found[p] = end - lasts[p]
    return found


def scheduled(plan: Plan, lasts: Sequence[int], key: Sequence[Any], hop: int) -> tuple[int, ...]:
    """By start in a schedule in which, again and again, what can start soonest does, of several the least key."""
    problem, node = plan.problem, plan.node
    left = [len(it) for it in problem.into]
    ready, free, starts = problem.release[:], [0] * len(problem.nodes), [0] * problem.count
    waiting = [p for p in range(problem.count) if not left[p]]
    while waiting:
        start, _, p = min([(max(ready[p], free[node[p]]), key[p], p) for p in waiting])
        waiting.remove(p)
        starts[p], free[node[p]] = start, start + lasts[p]
        for e in problem.out[p]:
            target = problem.target[e]
            ready[target] = max(ready[target], free[node[p]] + (0 if node[target] == node[p] else hop))
            left[target] -= 1
            if not left[target]:
                waiting.append(target)
    return tuple(sorted(range(problem.count), key=lambda p: (starts[p], key[p], p)))


def by_key(plan: Plan, key: Sequence[Any]) -> tuple[int, ...]:
    """Of what has all its sources in the order, the least key goes next."""
    problem, found = plan.problem, []
    left = [len(it) for it in problem.into]
    heap = [(key[p], p) for p in range(problem.count) if not left[p]]
    heapq.heapify(heap)
    while heap:
        p = heapq.heappop(heap)[1]
        found.append(p)
        for e in problem.out[p]:
            target = problem.target[e]
            left[target] -= 1
            if not left[target]:
                heapq.heappush(heap, (key[target], target))
    return tuple(found)


def ruled(plan: Plan) -> Iterator[tuple[int, ...]]:
    """The orders of all rules, the one that helps most often first."""
    problem, hop = plan.problem, plan.round
    long = [first + problem.k * more for first, more in zip(plan.first, plan.more)]
    none, all_ = latest_starts(plan, plan.first, hop), latest_starts(plan, long, hop)
    yield scheduled(plan, plan.first, none, hop)
    yield scheduled(plan, long, all_, hop)
    yield scheduled(plan, long, none, hop)
    yield by_key(plan, none)
    yield by_key(plan, list(zip(problem.due, none)))
    short = max(plan.slot, default=0)  # a message as the sender's slot: many reach their slot sooner than after a round
    if short != hop:
        soon = latest_starts(plan, plan.first, short)
        yield scheduled(plan, plan.first, soon, short)
        yield by_key(plan, soon)
