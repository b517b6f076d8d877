"""What no order of a plan comes below: by how much an end misses its due at least, and the least latest end.

No execution ends before it would if each had a node for itself, and each frame the bus. Of those executions of a node that can't start before a
time, the last one ends no earlier than all of them need one after the other, with all faults in the one that they cost most; and each of them
has to end so early that what comes behind it can be in time.
"""
from __future__ import annotations

from collections.abc import Iterator, Mapping

from cpgc_tools.explore.problem import Track
from cpgc_tools.explore.reckoning import FAR, Limit, Plan, begun, ended, later


def bound(plan: Plan) -> Limit:
    k, problem = plan.k, plan.problem
    late, worst = -FAR, 0
    for track in problem.tracks:
        alone = alone_ends(plan, track)
        for p, end in alone.items():
            late, worst = max(late, end[k] - plan.by[p]), max(worst, end[k] + plan.rest[p])
        heads = {p: end[0] - plan.first[p] for p, end in alone.items()}
        for n in range(len(problem.nodes)):
            here = sorted((p for p in heads if plan.node[p] == n), key=lambda p: plan.by[p])
            for last, by, rest in last_ends(plan, here, heads):
                late, worst = max(late, last - by), max(worst, last + rest)
    return Limit(late, worst)


def alone_ends(plan: Plan, track: Track) -> dict[int, list[int]]:
    """When each execution could end at the latest, with 0 to k faults on the way, if each had a node for itself."""
    problem, found = plan.problem, dict[int, list[int]]()
    for p in problem.sorted:
        if track.active[p]:
            start = [problem.release[p]] * (plan.k + 1)
            for e in track.live[p]:
                source = problem.source[e]
                n, there = plan.node[source], found[source]
                if n != plan.node[p]:
                    there = [it + plan.slot[n] for it in begun(plan, n, there)]
                start = later(start, there)
            found[p] = ended(start, plan.first[p], plan.more[p])
    return found


def last_ends(plan: Plan, here: list[int], heads: Mapping[int, int]) -> Iterator[tuple[int, int, int]]:
    """Of executions of a node, which stand by when they have to end: of some of them the least last end, by when one of them has to end at
    the latest, and what is at least to come after it."""
    for begin in {heads[p] for p in here}:
        work, most, rest = 0, 0, FAR
        for p in here:
            if heads[p] >= begin:
                work, most, rest = work + plan.first[p], max(most, plan.more[p]), min(rest, plan.rest[p])
                yield begin + work + plan.k * most, plan.by[p], rest
