"""Changes of a design: most of them of what leads to its latest end, some of anything."""
from __future__ import annotations

import functools
import random
from collections.abc import Sequence
from typing import NamedTuple

from cpgc_tools.explore.chain import Step, chain
from cpgc_tools.explore.choices import Choices
from cpgc_tools.explore.problem import Design, Problem, in_turn
from cpgc_tools.explore.reckoning import Plan, Reckoned


class Change(NamedTuple):
    """A plan and an order, and the place in it before which all is as it was."""

    plan: Plan
    order: Sequence[int] | None
    place: int


class Standing:
    """A design under way, with what its changes are drawn from."""

    def __init__(self, found: Reckoned) -> None:
        self.found, self.problem = found, found.plan.problem

    @functools.cached_property
    def place(self) -> list[int]:
        places = [0] * self.problem.count
        for i, p in enumerate(self.found.order):
            places[p] = i
        return places

    @functools.cached_property
    def lines(self) -> list[list[int]]:
        """Of each node its processes, in turn."""
        found: list[list[int]] = [[] for _ in self.problem.nodes]
        for p in self.found.order:
            found[self.found.plan.node[p]].append(p)
        return found

    @functools.cached_property
    def steps(self) -> list[Step]:
        return chain(self.found)

    @functools.cached_property
    def turns(self) -> list[tuple[int, int]]:
        """Pairs of processes of a node, the first before the second, that may as well go the other way round: those that wait for each other
        on the way to the latest end, and the first and the last of several with each of them."""
        found: dict[tuple[int, int], None] = {}
        block: list[int] = []
        for step in self.steps:
            if step.kind != "start":
                if step.why == "queue" and step.behind is not None:
                    sender = self.problem.source[step.item] if step.kind == "send" else step.item
                    found[step.behind, sender] = None
                continue
            block.append(step.item)
            if step.why != "node":
                found.update(dict.fromkeys(self._ends(block)))
                block = []
        found.update(dict.fromkeys(self._ends(block)))
        before = self.problem.before
        return [(q, p) for q, p in found if not before[p] >> q & 1]

    @staticmethod
    def _ends(block: list[int]) -> list[tuple[int, int]]:
        """Of processes that wait for each other, the last first."""
        if len(block) < 2:
            return []
        return [(block[-1], p) for p in block[:-1]] + [(q, block[0]) for q in block[1:-1]] + [(q, p) for p, q in zip(block[1:], block[2:-1])]

    @functools.cached_property
    def critical(self) -> list[int]:
        """The executions that lead to the latest end."""
        return [it.item for it in self.steps if it.kind == "start"]


def before(problem: Problem, order: Sequence[int], place: Sequence[int], p: int, q: int) -> tuple[list[int], int] | None:
    """The order with p, which stands behind q, and what it needs put before q; and from where on it differs. Nothing where p needs q."""
    if problem.before[p] >> q & 1:
        return None
    i, j, needed = place[q], place[p], problem.before[p] | 1 << p
    part = order[i:j + 1]
    return [*order[:i], *[it for it in part if needed >> it & 1], *[it for it in part if not needed >> it & 1], *order[j + 1:]], i


def behind(problem: Problem, order: Sequence[int], place: Sequence[int], q: int, p: int) -> tuple[list[int], int] | None:
    """The order with q, which stands before p, and what needs it put behind p."""
    if problem.behind[q] >> p & 1:
        return None
    i, j, taken = place[q], place[p], problem.behind[q] | 1 << q
    part = order[i:j + 1]
    return [*order[:i], *[it for it in part if not taken >> it & 1], *[it for it in part if taken >> it & 1], *order[j + 1:]], i


class Moves:
    """Draws changes where the choices leave something open."""

    def __init__(self, problem: Problem, choices: Choices, freezes: bool) -> None:
        self.problem, self.choices, self.freezes = problem, choices, freezes
        weights = {
            self.turned: 8 if choices.order and problem.count > 1 else 0,
            self.moved: 8 if choices.movable else 0,
            self.swapped: 3 if len(choices.movable) > 1 else 0,
            self.parted: 4 if choices.cut else 0,
            self.shifted: 1 if choices.slots and len(problem.graph.slots) > 1 else 0,
            self.frozen: (6 if freezes else 2) if choices.freezable else 0,
        }
        self.kinds = [kind for kind, weight in weights.items() for _ in range(weight)]
        self.others = any(kind != self.turned for kind in self.kinds)  # whether more is open than the order

    def drawn(self, here: Standing, draw: random.Random) -> Change | None:
        return draw.choice(self.kinds)(here, draw)

    def order_of(self, here: Standing) -> Sequence[int] | None:
        """The order that stays; nothing where the compile takes one by itself."""
        return here.found.order if self.choices.order or here.found.plan.design.order is not None else None

    # Each of these is one kind of change.

    def turned(self, here: Standing, draw: random.Random) -> Change | None:
        order, place = here.found.order, here.place
        if here.turns and draw.random() < 0.75:
            q, p = draw.choice(here.turns)
        else:
            line = here.lines[here.found.plan.node[draw.randrange(self.problem.count)]]
            if len(line) < 2:
                return None
            i = draw.randrange(len(line) - 1)
            q, p = line[i], line[draw.randint(i + 1, min(i + 8, len(line) - 1))]
        made = before(self.problem, order, place, p, q) if draw.random() < 0.5 else behind(self.problem, order, place, q, p)
        return made and Change(here.found.plan, *made)

    def moved(self, here: Standing, draw: random.Random) -> Change | None:
        choices, nodes = self.choices, here.found.plan.node
        some = [p for p in here.critical if len(choices.nodes[p]) > 1] if draw.random() < 0.7 else []
        p = draw.choice(some or choices.movable)
        to = draw.choice(choices.nodes[p])
        group = choices.group.get(p, [p])
        if to == nodes[p] or any(to not in choices.nodes[q] for q in group):
            return None
        return self._placed(here, {q: to for q in group}, p)

    def swapped(self, here: Standing, draw: random.Random) -> Change | None:
        choices, nodes = self.choices, here.found.plan.node
        some = [p for p in here.critical if len(choices.nodes[p]) > 1]
        p, q = draw.choice(some or choices.movable), draw.choice(choices.movable)
        if nodes[p] == nodes[q] or p in choices.group or q in choices.group or nodes[q] not in choices.nodes[p] or nodes[p] not in choices.nodes[q]:
            return None
        return self._placed(here, {p: nodes[q], q: nodes[p]}, p)

    def _placed(self, here: Standing, to: dict[int, int], p: int) -> Change | None:
        """A design in which some processes are on other nodes, and one of them stands there where its time comes."""
        design, choices = here.found.plan.design, self.choices
        nodes = tuple(to.get(q, n) for q, n in enumerate(design.nodes))
        slots = choices.slots_of(nodes, [it.node for it in design.slots])
        if slots is None or not choices.allows(nodes):
            return None
        order, place, latest = self.order_of(here), here.place, here.found.latest
        touched = [*to, *[self.problem.source[e] for q in to for e in self.problem.into[q]]]
        start = min(place[q] for q in touched)
        if choices.order:
            line = here.lines[to[p]]
            q = next((q for q in line if latest[q] >= latest[p] and q not in to), None)
            made = None
            if q is not None and place[q] < place[p]:
                made = before(self.problem, here.found.order, place, p, q)
            elif q is not None and (i := line.index(q)) and place[line[i - 1]] > place[p]:
                made = behind(self.problem, here.found.order, place, p, line[i - 1])
            if made:
                order, start = made[0], min(start, made[1])
        return self._change(here, design._replace(nodes=nodes, slots=slots), order, 0 if slots != design.slots else start)

    def parted(self, here: Standing, draw: random.Random) -> Change | None:
        design, choices = here.found.plan.design, self.choices
        some = [p for p in here.critical if p in choices.cut] if draw.random() < 0.8 else []
        p = draw.choice(some or choices.cut)
        low, high = choices.parts[p]
        count = min(max(design.parts[p] + draw.choice((-1, -1, 1, 1, -2, 2)), low), high)
        if count == design.parts[p]:
            return None
        return self._change(here, design._replace(parts=(*design.parts[:p], count, *design.parts[p + 1:])), self.order_of(here), here.place[p])

    def shifted(self, here: Standing, draw: random.Random) -> Change | None:
        design = here.found.plan.design
        slots = [(it.node, it.length, it.bytes) for it in design.slots]
        a, b = draw.sample(range(len(slots)), 2)
        slots[a], slots[b] = slots[b], slots[a]
        return self._change(here, design._replace(slots=in_turn(slots)), self.order_of(here), 0)

    def frozen(self, here: Standing, draw: random.Random) -> Change | None:
        design, free = here.found.plan.design, self.choices.freezable
        change = {draw.choice(free)}
        if self.freezes and draw.random() < 0.5:  # another one in its place
            change ^= {draw.choice(free)}
        if any(it < 0 and self.is_inner(design, -1 - it) and it not in design.frozen for it in change) or not change:
            return None
        places = [here.place[it if it >= 0 else self.problem.source[-1 - it]] for it in change]
        return self._change(here, design._replace(frozen=design.frozen ^ change), self.order_of(here), min(places))

    def is_inner(self, design: Design, e: int) -> bool:
        """Whether an edge is within a node, where it doesn't matter if it is frozen."""
        return design.nodes[self.problem.source[e]] == design.nodes[self.problem.target[e]]

    def _change(self, here: Standing, design: Design, order: Sequence[int] | None, place: int) -> Change:
        plan = Plan(self.problem, design, here.found.plan)
        same = plan.scalar == here.found.plan.scalar and plan.ranked == here.found.plan.ranked
        return Change(plan, order, place if same else 0)
