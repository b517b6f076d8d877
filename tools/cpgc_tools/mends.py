"""Single changes of a graph that may mend it, cheapest first: of an order, of checkpoints, of what is frozen, of slots, of the mapping.

    mends = Mends(graph)
    mends.parts("A")                        # changes, each with its kind, a text and the graph changed so
    mends.slots(), mends.moved(["A"])       # those that don't rest on what was waited for
"""
from __future__ import annotations

import itertools
from collections.abc import Callable, Iterable
from typing import NamedTuple

from cpgc_tools.explore.moves import before
from cpgc_tools.explore.offer import offered
from cpgc_tools.explore.problem import Problem
from cpgc_tools.graph import Graph, duration

KINDS = "order", "checkpoints", "frozen flags", "slots", "mapping"  # as they are paid for
MOST_CONDITIONS = 12  # up to which all outcomes are gone through
MOST_PAIRS = 100
MOST_PERMUTED = 4  # slots of which each order is tried, of more each exchange of two
MOST_MOVED = 100  # pairs of a process and a node


class Mend(NamedTuple):
    kind: str
    text: str
    graph: Graph


class Mends:
    def __init__(self, graph: Graph) -> None:
        self.graph = graph

    # Of the order.

    def goes_along(self, source: int, target: int) -> bool:
        """Whether an edge between two processes leaves all as active as they are. It is asked if there are few conditions."""
        deciding = [it.number for it in self.graph.deciding]
        if len(deciding) > MOST_CONDITIONS or self.graph.processes[target].join:
            return False
        if not self.graph.inputs(self.graph.processes[source]):
            return True
        outcomes = itertools.product((False, True), repeat=len(deciding))
        sets = (self.graph.active({p for p, value in zip(deciding, it) if value}) for it in outcomes)
        return all(target not in active or source in active for active in sets)

    def edge(self, source: str, target: str) -> Mend | None:
        """An edge between two processes of a node, or a place before it in the order that the file gives; None if it would change what is
        active, or lead around."""
        a, b = self.graph.number[source], self.graph.number[target]
        if b in self.graph.before(a):
            return None
        if self.graph.order is not None:
            return self.ordered(a, b)
        return Mend("order", f"an edge from {source} to {target}", self.graph.with_edge(a, b)) if self.goes_along(a, b) else None

    def ordered(self, a: int, b: int) -> Mend | None:
        """The order of the file with a process, and what it needs, before another one."""
        order = [self.graph.number[name] for name in self.graph.order or ()]
        place = [order.index(p) for p in range(len(order))]
        made = before(Problem(self.graph), order, place, a, b) if place[b] < place[a] else None
        names = [it.name for it in self.graph.processes]
        return made and Mend("order", f"{names[a]} before {names[b]} in the order", self.graph.changed(top={"order": [names[p] for p in made[0]]}))

    def turned(self, name: str, other: str) -> Callable[[], Mend | None]:
        return lambda: self.edge(name, other)

    def sent_before(self, act: tuple[str, str], other: tuple[str, str]) -> Mend | None:
        """A frame of a node before another one: by their producers, or by their edges in the file."""
        sources = [self.graph.edges[int(name[1:])].source if kind == "send" else self.graph.number[name] for kind, name in (act, other)]
        if sources[0] != sources[1]:
            return self.edge(*(self.graph.processes[it].name for it in sources))
        if "tell" in (act[0], other[0]):
            return None
        a, b, edges = int(act[1][1:]), int(other[1][1:]), list(self.graph.document["edge"])
        edges[a], edges[b] = edges[b], edges[a]
        return Mend("order", f"e{a} and e{b} in each other's place in the file", self.graph.changed(top={"edge": edges}))

    def pairs(self, nodes: set[int]) -> Iterable[Mend]:
        """An edge between any two processes of these nodes, or none if there are too many."""
        there = {(it.source, it.target) for it in self.graph.edges}
        found = [(a.name, b.name) for a, b in itertools.permutations(self.graph.processes, 2)
                 if a.node == b.node and a.node in nodes and (a.number, b.number) not in there and (b.number, a.number) not in there]
        return filter(None, (self.edge(*it) for it in found)) if len(found) <= MOST_PAIRS else []

    def searched(self, tool: str) -> list[Mend]:
        """Another order of all processes."""
        offer = offered(self.graph)
        return [Mend("order", f"another order, which `{tool} --quick` writes", self.graph.changed(top={"order": offer.order}))] if offer else []

    # Of checkpoints and what is frozen.

    def parts(self, name: str) -> list[Mend]:
        """The parts with which an execution with all faults lasts shortest, and those below it, if they aren't those of the file."""
        process = self.graph.processes[self.graph.number[name]]
        best = min(range(1, 256), key=lambda parts: duration({**process.entry, "parts": parts}, self.graph.faults))
        counts = [it for it in (best, *range(2, best)) if it != process.parts] if best != process.parts else []
        return [Mend("checkpoints", f"parts = {it} of {name}", self.graph.changed(process={process.number: {"parts": it}})) for it in counts]

    def thawed_process(self, name: str) -> Mend:
        return Mend("frozen flags", f"{name} not frozen", self.graph.changed(process={self.graph.number[name]: {"frozen": False}}))

    def thawed_message(self, number: int) -> Mend:
        return Mend("frozen flags", f"e{number} not frozen", self.graph.changed(edge={number: {"frozen": False}}))

    # Of the bus and the mapping.

    def slots(self) -> list[Mend]:
        """The slots in other orders."""
        old, count = list(self.graph.document.get("slot", [])), len(self.graph.slots)
        orders: list[tuple[int, ...]] = list(itertools.permutations(range(count)))[1:] if count <= MOST_PERMUTED else []
        for a, b in itertools.combinations(range(count), 2) if not orders else ():
            orders.append(tuple({a: b, b: a}.get(it, it) for it in range(count)))
        return [Mend("slots", f"slots in the order {' '.join(old[it]['node'] for it in order)}", self.graph.changed(top={"slot": [old[it] for it in order]})) for order in orders]

    def moved(self, names: Iterable[str]) -> list[Mend]:
        """A process on another node, which takes the same wcet there."""
        found = []
        for name in dict.fromkeys(names):
            process = self.graph.processes[self.graph.number[name]]
            others = [node for number, node in enumerate(self.graph.nodes) if number != process.node]
            found += [Mend("mapping", f"{name} on {node}, if its wcet is the same there", self.graph.changed(process={process.number: {"node": node}})) for node in others]
        return found[:MOST_MOVED]
