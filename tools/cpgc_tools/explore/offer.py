"""What other tools ask: whether another order of a graph's processes is in time, and what a compile would say, by reckoning."""
from __future__ import annotations

from typing import NamedTuple

from cpgc_tools.explore.reckoning import Plan
from cpgc_tools.explore.search import Search, Task
from cpgc_tools.graph import Graph


class Offer(NamedTuple):
    """An order that is in time and fits, with its latest end, as it was reckoned."""

    order: list[str]
    worst: int


def offered(graph: Graph) -> Offer | None:
    """What a quick search finds, where that is in time and not too wide. A graph that cpgc wouldn't admit has none."""
    try:
        it = Search(graph, {}, "shortest")
        score, found = it.begin()[0]
        if it.moves.kinds and not it.is_done(score):
            found = it.walk(found, Task("", [], "1.0.0", it.quick_tries(), 1.0, None))[0]
            score = it.score(found)
    except (ValueError, ArithmeticError, LookupError):
        return None
    if score.over or score.late:
        return None
    return Offer([graph.processes[p].name for p in found.order], found.worst)


def compiles(graph: Graph) -> bool | None:
    """Whether cpgc compiles a graph that it admits; None where that isn't known by reckoning."""
    it = Search(graph, {"order": False}, "shortest")
    if it.problem.track_count > len(it.problem.tracks):
        return None
    plan = Plan(it.problem, it.problem.design())
    found = it.look(plan, plan.design.order)
    if found is None or found.late > 0:
        return False
    if it.over(found):
        return False if plan.design.order is None else None  # of a given order the columns that are made count
    return True
