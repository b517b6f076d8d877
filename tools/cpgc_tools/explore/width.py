"""By how much the tables of an order may be too wide, by the views of what an item rests on.

cpgc refuses a graph without an order where an item has more than 16,384 views, or all items have more than 524,288. Under an order of the file
it counts the columns that were made, which are never more: so what fits here fits there.
"""
from __future__ import annotations

import math
from collections.abc import Iterator, Sequence

from cpgc_tools.explore.problem import Problem
from cpgc_tools.explore.reckoning import Plan

MOST_VIEWS, MOST_LOAD = 16_384, 524_288


class Widths:
    """Of a problem, with the views that were counted before."""

    def __init__(self, problem: Problem) -> None:
        self.problem = problem
        self.bit = {c: 1 << problem.count + i for i, c in enumerate(problem.conditions)}
        self.fixed = [sum(self.bit[c] for c in problem.deciders[p]) if problem.conditions else 0 for p in range(problem.count)]
        self.masks = [
            (sum(1 << p for p in range(problem.count) if it.active[p]), sum(self.bit[c] for c, value in it.values.items() if value))
            for it in problem.tracks]
        self.counted: dict[int, int] = {}
        # no order is too wide where an item that rests on everything isn't; of too many tracks it isn't known
        every = self.views((1 << problem.count + len(problem.conditions)) - 1)
        items = problem.count + 2 * len(problem.edges) + len(problem.conditions) * len(problem.nodes)
        self.never = every <= MOST_VIEWS and every * items <= MOST_LOAD or problem.track_count > len(problem.tracks)

    def views(self, reach: int) -> int:
        """How many values what is reached has together; a condition that isn't reached counts as false."""
        found = self.counted.get(reach)
        if found is None:
            k = self.problem.k
            found = self.counted[reach] = sum(math.comb((reach & active).bit_count() + k, k) for active, true in self.masks if not true & ~reach)
        return found

    def items(self, plan: Plan, order: Sequence[int]) -> Iterator[tuple[int, int, int]]:
        """Of each item of the tables, in turn: which it is, its views, and how many rows it has. A broadcast is told as its process."""
        problem, node, frozen, bit = self.problem, plan.node, plan.design.frozen, self.bit
        several = len(problem.nodes) > 1
        on_node, queued = [0] * len(problem.nodes), [0] * len(problem.nodes)
        ends, sent, told = [0] * problem.count, [0] * len(problem.edges), [0] * problem.count
        for p in order:
            n = node[p]
            for c in problem.deciders[p] if bit else ():
                on_node[n] |= bit[c] | (ends[c] if node[c] == n else told[c])
            if p in frozen:
                reach = self.fixed[p]
            else:
                reach = on_node[n]
                for e in problem.into[p]:
                    source, when = problem.source[e], problem.when[e]
                    reach |= (ends[source] if node[source] == n else sent[e]) | (bit[source] if when is not None else 0)
            yield p, self.views(reach), 1
            ends[p] = reach | 1 << p
            on_node[n] |= ends[p]
            if several and p in bit:
                told[p] = ends[p] | queued[n]
                queued[n] |= told[p]
                yield p, self.views(told[p]), len(problem.nodes)
            for e in problem.out[p]:
                target, when = problem.target[e], problem.when[e]
                if node[target] != n:
                    reach = (self.fixed[p] if -1 - e in frozen else ends[p] | queued[n]) | (bit[p] if when is not None else 0)
                    sent[e] = reach
                    queued[n] |= reach
                    yield -1 - e, self.views(reach), 2

    def over(self, plan: Plan, order: Sequence[int]) -> int:
        """By how many views items have too many, and all together; 0 where the tables fit."""
        if self.never:
            return 0
        load = over = 0
        for _, views, rows in self.items(plan, order):
            load += views * rows
            over += max(views - MOST_VIEWS, 0)
        return over + max(load - MOST_LOAD, 0)
