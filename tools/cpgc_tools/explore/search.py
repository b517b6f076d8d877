"""The search: designs by list scheduling and by rules to begin with, then walks that anneal.

    search = Search(graph, wanted, goal)     # wanted is the document of a choices file
    search.begin()                              # what it begins with, the best first
    walk(task)                                  # one walk, in words that are plain, so that it may run in another process

A walk is the same for the same words on each machine, if no time ends it.
"""
from __future__ import annotations

import functools
import json
import math
import random
import time
from collections.abc import Mapping, Sequence
from typing import Any, NamedTuple

from cpgc_tools.explore import starts
from cpgc_tools.explore.bound import bound
from cpgc_tools.explore.choices import Choices, checked, wcets_of
from cpgc_tools.explore.moves import Moves, Standing
from cpgc_tools.explore.problem import Design, Problem, in_turn
from cpgc_tools.explore.reckoning import FAR, Limit, Plan, Reckoned, reckoned
from cpgc_tools.explore.width import Widths
from cpgc_tools.graph import Graph

ORDERED, FREEZING = ("shortest", "in-time"), ("most-frozen", "least-frozen")
GOALS = ORDERED + FREEZING
HOT, COLD = 0.05, 0.0005  # how much worse a change may be at first and at last, as a share of the latest end, on average
QUICK, QUICK_TRIES = 150_000, 2_000  # steps of reckoning in a quick search, less than half a second; designs that it tries at most
Plain = list[Any]


class Score(NamedTuple):
    """The less the better: by how much it is too wide, by how much an end misses its due, how many items are not as the goal wants
    them, and the latest end."""

    over: int
    late: int
    items: int
    worst: int


class Task(NamedTuple):
    """A walk, in plain words: the text of the search, where it begins, its seed, how many designs it tries, how hot it begins, and for how
    many seconds it goes on at most."""

    text: str
    design: Plain
    seed: str
    tries: int
    heat: float
    seconds: float | None


class Walked(NamedTuple):
    """What a walk found, with its score, where it ended, after how many tries something better was found, and how many it tried."""

    best: Plain
    score: Score
    here: Plain
    history: list[tuple[int, Score]]
    tried: int


class Search:
    def __init__(self, graph: Graph, wanted: Mapping[str, Any], goal: str) -> None:
        """Raises choices.Wrong where `wanted` isn't right."""
        names, nodes = [it.name for it in graph.processes], {name: n for n, name in enumerate(graph.nodes)}
        checked(wanted, names, [f"{names[it.source]}>{names[it.target]}" for it in graph.edges], nodes)
        self.goal, self.freezes = goal, goal in FREEZING
        self.problem = Problem(graph, wcets_of(graph.processes, nodes, wanted))
        self.choices = Choices(self.problem, wanted, self.freezes)
        self.widths = Widths(self.problem)
        self.moves = Moves(self.problem, self.choices, self.freezes)
        self.tried, self.stopped = 0, False

    # What a design is worth.

    def items(self, design: Design) -> int:
        if not self.freezes:
            return 0
        free = [it for it in self.choices.freezable if it >= 0 or not self.moves.is_inner(design, -1 - it)]
        return sum((it in design.frozen) == (self.goal == "least-frozen") for it in free)

    def over(self, found: Reckoned) -> int:
        return self.widths.over(found.plan, found.order)

    def score(self, found: Reckoned) -> Score:
        return Score(self.over(found), max(found.late, 0), self.items(found.plan.design), found.worst)

    @functools.cached_property
    def least(self) -> Limit | None:
        """What no design comes below, if the order alone is open."""
        design = self.file_design()
        return None if self.moves.others or design is None else bound(Plan(self.problem, design))

    def is_done(self, score: Score) -> bool:
        """Whether nothing better is to be found."""
        if score.over:
            return False
        if self.least is not None and (score.late, score.worst) <= (max(self.least.late, 0), self.least.worst):
            return True
        return self.goal == "in-time" and (score.late == 0 or self.least is not None and self.least.late > 0)

    def look(self, plan: Plan, order: Sequence[int] | None, like: Reckoned | None = None, place: int = 0, limit: Limit | None = None) -> Reckoned | None:
        """What a plan comes to under an order, or under that which the compile takes."""
        self.tried += 1
        if order is not None:
            return reckoned(plan, order, like, place, limit)
        return self.compiled(plan, limit)

    def compiled(self, plan: Plan, limit: Limit | None = None) -> Reckoned | None:
        """The better one of the orders that the compile takes by itself."""
        best, fits = None, True
        for i, order in enumerate(starts.compiled(plan)):
            found = reckoned(plan, order, limit=limit)
            if i == 0 and self.widths.over(plan, order):
                return found
            if found and (best is None or (max(found.late, 0), found.worst) < (max(best.late, 0), best.worst)) and not self.widths.over(plan, order):
                best = found
        return best if fits else None

    def quick_tries(self) -> int:
        """How many designs a quick search tries."""
        plan = Plan(self.problem, self.base)
        steps = sum(map(len, plan.rows)) * (1 if plan.scalar else 3 + self.problem.k // 2)
        return min(max(QUICK // max(steps, 1), 50), QUICK_TRIES)

    # Where it begins.

    def begin(self) -> list[tuple[Score, Reckoned]]:
        """Designs to begin with, the best first: that of the file and those of list scheduling where processes may move, each with its parts
        and with the best ones for one execution alone, under the orders of the compile, of the file and of the rules."""
        designs = [self.file_design(), *([self.listed(weight) for weight in (0.0, 0.25, 1.0)] if self.choices.movable else [])]
        designs += [self.best_parts(it) for it in designs if it] if self.choices.cut else []
        found: dict[tuple[Design, tuple[int, ...]], Reckoned] = {}
        for design in dict.fromkeys(designs):
            if design is None:
                continue
            plan = Plan(self.problem, design)
            for order in self.orders(plan):
                here = self.look(plan, order)
                if here:
                    found.setdefault((design, tuple(here.order)), here)
        scored = [(self.score(it), it) for it in found.values()]
        if self.goal == "least-frozen":
            scored += [(self.score(it), it) for it in map(self.narrowed, [it for score, it in scored if score.over][:3]) if it]
        scored.sort(key=lambda it: it[0])
        return scored

    def orders(self, plan: Plan) -> list[tuple[int, ...] | None]:
        given = plan.design.order
        if not self.choices.order:
            return [given]
        return list(dict.fromkeys([*([given] if given else []), *starts.compiled(plan), *starts.ruled(plan)]))

    def file_design(self) -> Design | None:
        """The design of the file, as far as the choices allow it."""
        return self.made(self.base)

    @functools.cached_property
    def base(self) -> Design:
        """The design of the file with nodes and parts that are allowed."""
        it, choices = self.problem.design(), self.choices
        nodes = tuple(n if n in allowed else allowed[0] for n, allowed in zip(it.nodes, choices.nodes))
        return it._replace(nodes=nodes, parts=tuple(min(max(n, low), high) for n, (low, high) in zip(it.parts, choices.parts)))

    def made(self, design: Design) -> Design | None:
        slots = self.choices.slots_of(design.nodes, [it.node for it in design.slots])
        return design._replace(slots=slots) if slots is not None and self.choices.allows(design.nodes) else None

    def best_parts(self, design: Design) -> Design:
        def lasts(p: int, parts: int) -> int:
            first, more = self.problem.duration(p, design.nodes[p], parts)
            return first + self.problem.k * more

        return design._replace(parts=tuple(min(range(low, high + 1), key=lambda n: lasts(p, n)) for p, (low, high) in enumerate(self.choices.parts)))

    def listed(self, weight: float) -> Design | None:
        """A design by list scheduling: processes by the longest way ahead, each on the node on which it ends first. An execution counts with so
        much of what its faults add, a message with the wait for its slot."""
        problem, choices, base = self.problem, self.choices, self.base

        def lasts(p: int, n: int) -> float:
            first, more = problem.duration(p, n, base.parts[p])
            return first + weight * problem.k * more

        round_ = sum(it.length for it in base.slots)
        offset = {it.node: (it.begin, it.length) for it in base.slots}
        tail = [0.0] * problem.count
        for p in reversed(problem.sorted):
            mean = sum(lasts(p, n) for n in choices.nodes[p]) / len(choices.nodes[p])
            tail[p] = mean + max((tail[problem.target[e]] + round_ / 2 for e in problem.out[p]), default=0)
        node, end, free = list(base.nodes), [0.0] * problem.count, [0.0] * len(problem.nodes)
        taken: list[set[int]] = [set() for _ in problem.nodes]  # the rounds in which a node sends
        put: dict[int, int] = {}  # of a group its node, by the first process of it
        rank = {p: i for i, p in enumerate(problem.sorted)}

        def there(e: int, n: int) -> tuple[float, int | None]:
            """When an input is on a node, and the round in which it is sent."""
            source = problem.source[e]
            if node[source] == n or node[source] not in offset:
                return end[source], None
            at, length = offset[node[source]]
            turn = max(math.ceil((end[source] - at) / round_), 0)
            while turn in taken[node[source]]:
                turn += 1
            return turn * round_ + at + length, turn

        for p in sorted(range(problem.count), key=lambda p: (-tail[p], rank[p])):
            group = choices.group.get(p, [p])[0]
            barred = {node[q] for some in choices.apart if p in some for q in some if q != p and end[q]}
            allowed = [put[group]] if group in put else [n for n in choices.nodes[p] if n not in barred] or list(choices.nodes[p])
            ends = [(max([free[n], problem.release[p], *[there(e, n)[0] for e in problem.into[p]]]) + lasts(p, n), i, n) for i, n in enumerate(allowed)]
            end[p], _, node[p] = min(ends)
            free[node[p]], put[group] = end[p], node[p]
            for e in problem.into[p]:
                turn = there(e, node[p])[1]
                if turn is not None:
                    taken[node[problem.source[e]]].add(turn)
        return self.made(base._replace(order=None, nodes=tuple(node)))

    def narrowed(self, found: Reckoned) -> Reckoned | None:
        """The same with few items frozen, so that nothing is too wide: again and again the one that takes most away, then none that needn't be."""
        design, order = found.plan.design, found.order
        plan, over = found.plan, self.over(found)
        while over:
            tries = []
            for it in self.choices.freezable:
                if it not in design.frozen and (it >= 0 or not self.moves.is_inner(design, -1 - it)):
                    made = Plan(self.problem, design._replace(frozen=design.frozen | {it}), plan)
                    tries.append((self.widths.over(made, order), it, made))
            if not tries or min(tries)[0] >= over:
                return None
            over, _, plan = min(tries, key=lambda it: it[:2])
            design = plan.design
        for it in sorted(design.frozen & frozenset(self.choices.freezable)):
            made = Plan(self.problem, design._replace(frozen=design.frozen - {it}), plan)
            if not self.widths.over(made, order):
                plan, design = made, made.design
        return self.look(plan, order)

    # A walk.

    def walk(self, begin: Reckoned, task: Task) -> tuple[Reckoned, Reckoned, list[tuple[int, Score]]]:
        """Anneals from a design: the best that was found, where it ended, and after how many tries something better was found."""
        draw, clock = random.Random(task.seed), time.monotonic()
        here, standing = begin, Standing(begin)
        now = best_score = self.score(begin)
        best, history, before = begin, [(0, now)], self.tried
        unit = max(begin.worst // 50, 1)  # so much earlier a latest end has to be for one item less that is as the goal wants it
        try:
            for i in range(task.tries):
                if self.is_done(best_score) or task.seconds is not None and i % 16 == 0 and time.monotonic() - clock >= task.seconds:
                    break
                change = self.moves.drawn(standing, draw)
                slack = -self.heat(task, i) * here.worst * math.log(1 - draw.random())
                if change is None:
                    continue
                fewer = 0 if change.plan is here.plan else now.items - self.items(change.plan.design)
                gain = FAR if fewer > 0 and here.late <= 0 else unit * fewer
                found = self.look(change.plan, change.order, here, change.place, self.limit(here, int(slack), gain))
                if found is None or now.over == 0 and self.over(found):
                    continue
                here, standing = found, Standing(found)
                now = self.score(found)
                if now < best_score:
                    best, best_score = here, now
                    history.append((self.tried - before, now))
        except KeyboardInterrupt:  # the best so far counts
            self.stopped = True
        return best, here, history

    @staticmethod
    def heat(task: Task, i: int) -> float:
        hot = task.heat * HOT
        return hot * math.pow(COLD / hot, i / task.tries)

    @staticmethod
    def limit(here: Reckoned, slack: int, gain: int) -> Limit:
        """How bad a change may be."""
        return Limit(here.late + slack + gain, FAR) if here.late > 0 else Limit(0, here.worst + slack + gain)


# Plain words, for other processes and machines.


def plain(found: Reckoned, ordered: bool = True) -> Plain:
    """A design with the order that it was reckoned under."""
    design = found.plan.design
    order = list(found.order) if ordered else None
    return [order, list(design.nodes), list(design.parts), [[it.node, it.length, it.bytes] for it in design.slots], sorted(design.frozen)]


def of_plain(it: Plain) -> Design:
    order, nodes, parts, slots, frozen = it
    return Design(None if order is None else tuple(order), tuple(nodes), tuple(parts), in_turn(slots), frozenset(frozen))


@functools.lru_cache(2)
def search_of(text: str) -> Search:
    document, wanted, goal = json.loads(text)
    return Search(Graph.of(document), wanted, goal)


def walk(task: Task) -> Walked:
    search = search_of(task.text)
    before, design = search.tried, of_plain(task.design)
    begin = search.look(Plan(search.problem, design), design.order)
    assert begin is not None
    best, here, history = search.walk(begin, task)
    ordered = design.order is not None
    return Walked(plain(best, ordered), search.score(best), plain(here, ordered), history, search.tried - before)
