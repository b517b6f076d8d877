"""What a graph file fixes, as numbers: processes, edges, conditions, tracks, and what decides whether a process is active.

A process, a node and an edge is here its number in the file. An item that may be frozen is a process, or edge e as -1 - e.
"""
from __future__ import annotations

import functools
import itertools
import random
from collections.abc import Iterable, Iterator, Mapping, Sequence
from typing import NamedTuple

from cpgc_tools.graph import Graph, Slot, duration

MOST_TRACKS = 64  # that are reckoned with; of more those with the most work, and such as differ from them in one condition
MOST_SCHEDULED = 256  # tracks of a graph that has a track order
MOST_DECIDING = 10  # conditions of which each outcome is looked at


class Design(NamedTuple):
    """What a search changes. Without an order it is the one that the compile takes by itself."""

    order: tuple[int, ...] | None
    nodes: tuple[int, ...]
    parts: tuple[int, ...]
    slots: tuple[Slot, ...]
    frozen: frozenset[int]


class Track(NamedTuple):
    """A way through the conditions: their values, the processes that are active, and of each its live inputs."""

    values: dict[int, bool]
    active: list[bool]
    live: list[tuple[int, ...]]


def in_turn(slots: Iterable[tuple[int, int, int]]) -> tuple[Slot, ...]:
    """Slots in the order of a round, each of a node, a length and bytes."""
    found, begin = [], 0
    for node, length, size in slots:
        found.append(Slot(node, begin, length, size))
        begin += length
    return tuple(found)


class Problem:
    """Of a graph that cpgc admits. `wcets` has for each process the wcet on some nodes, where it isn't that of the file."""

    def __init__(self, graph: Graph, wcets: Sequence[Mapping[int, int]] | None = None) -> None:
        self.graph, self.k, self.count = graph, graph.faults, len(graph.processes)
        self.nodes, self.processes, self.edges = graph.nodes, graph.processes, graph.edges
        self.wcets = wcets or [{} for _ in graph.processes]
        self.release = [it.release for it in graph.processes]
        self.due = [it.due for it in graph.processes]
        self.source, self.target = [it.source for it in graph.edges], [it.target for it in graph.edges]
        self.when = [it.when for it in graph.edges]
        self.frozen = frozenset([it.number for it in graph.processes if it.frozen] + [-1 - it.number for it in graph.edges if it.frozen])
        self.out, self.into, self.sorted = graph.out, graph.into, graph.sources_first()
        self.conditions = [it.number for it in graph.deciding]
        self.has_value = [it.condition is not None for it in graph.processes]
        self.before, self.behind = self._reached()
        self.tracks, self.track_count = self._tracks()
        # edges whose target is active, and waits for them, in each track in which their source is
        self.sure = [all(edge.number in it.live[edge.target] for it in self.tracks if it.active[edge.source]) for edge in graph.edges]
        self.duration = functools.lru_cache(None)(self._duration)
        self.deciding = functools.lru_cache(64)(self._deciding)

    def design(self) -> Design:
        """The design of the file."""
        order = None if self.graph.order is None else tuple(self.graph.number[name] for name in self.graph.order)
        return Design(order, tuple(it.node for it in self.processes), tuple(it.parts for it in self.processes), self.graph.slots, self.frozen)

    def wcet(self, p: int, node: int) -> int:
        return self.wcets[p].get(node, self.processes[p].wcet)

    def _duration(self, p: int, node: int, parts: int) -> tuple[int, int]:
        """How long an execution lasts without a fault, and how much longer with each."""
        entry = {**self.processes[p].entry, "wcet": self.wcet(p, node), "parts": parts}
        first = duration(entry, 0)
        return first, duration(entry, 1) - first

    def _reached(self) -> tuple[list[int], list[int]]:
        """Of each process all that come before it, and all behind it, as bits."""
        before, behind = [0] * self.count, [0] * self.count
        for p in self.sorted:
            for e in self.into[p]:
                source = self.source[e]
                before[p] |= before[source] | 1 << source
        for p in reversed(self.sorted):
            for e in self.out[p]:
                target = self.target[e]
                behind[p] |= behind[target] | 1 << target
        return before, behind

    # Conditions.

    def activations(self, values: Mapping[int, bool]) -> tuple[list[int | None], list[tuple[int, ...]]]:
        """As those of the graph, by the values of conditions; what isn't said is false."""
        return self.graph.activations({p for p, value in values.items() if value})

    def _tracks(self) -> tuple[list[Track], int]:
        """The tracks that are reckoned with, and how many there are, at most one more than MOST_SCHEDULED."""
        decided = [p for p in self.sorted if p in set(self.conditions)]
        found: list[dict[int, bool]] = [{}]
        for c in decided:  # what comes before a condition in the graph has its value already
            longer = []
            for values in found:
                both = self.activations(values)[0][c] is not None
                longer += [{**values, c: it} for it in ((False, True) if both else (False,))]
            found = longer
            if len(found) > MOST_SCHEDULED:
                break
        count = len(found)
        if count > MOST_SCHEDULED:
            found = self._heavy(decided)
        made = []
        for values in found:
            active, live = self.activations(values)
            made.append(Track({c: it for c, it in values.items() if active[c] is not None}, [it is not None for it in active], live))
        if len(made) > MOST_TRACKS:
            made.sort(key=self._work, reverse=True)
        return made[:MOST_TRACKS], count

    def _work(self, track: Track) -> int:
        return sum(self.processes[p].wcet for p in range(self.count) if track.active[p])

    def _heavy(self, decided: list[int]) -> list[dict[int, bool]]:
        """Outcomes in which much has to be done: condition by condition the value with more work, and others that differ from it."""
        def work(values: Mapping[int, bool]) -> int:
            active = self.activations(values)[0]
            return sum(self.processes[p].wcet for p in range(self.count) if active[p] is not None)

        most: dict[int, bool] = dict.fromkeys(decided, False)
        for c in decided:
            most = max(({**most, c: it} for it in (False, True)), key=work)
        found = [most] + [{**most, c: not most[c]} for c in decided]
        draw = random.Random(0)
        while len(found) < 2 * MOST_TRACKS:
            found.append({c: draw.random() < 0.5 for c in decided})
        kept: dict[tuple[int | None, ...], dict[int, bool]] = {}
        for values in found:
            kept.setdefault(tuple(self.activations(values)[0]), values)
        return list(kept.values())

    @functools.cached_property
    def changing(self) -> dict[int, dict[int, list[tuple[bool, ...]]]] | None:
        """For each condition, the outcomes in which its value changes how a process is active: {condition: {process: [outcome]}}. None
        where there are too many conditions; then those on the ways to a process stand for what decides it."""
        if len(self.conditions) > MOST_DECIDING:
            return None
        found: dict[int, dict[int, list[tuple[bool, ...]]]] = {c: {} for c in self.conditions}
        table = {values: self.activations(dict(zip(self.conditions, values)))[0] for values in self._outcomes()}
        for values, active in table.items():
            for i, c in enumerate(self.conditions):
                if not values[i]:
                    other = table[(*values[:i], True, *values[i + 1:])]
                    for p in range(self.count):
                        if active[p] != other[p]:
                            found[c].setdefault(p, []).append(values)
        return found

    def _outcomes(self) -> Iterator[tuple[bool, ...]]:
        return itertools.product((False, True), repeat=len(self.conditions))

    @functools.cached_property
    def deciders(self) -> list[tuple[int, ...]]:
        """Of each process the conditions that decide it in some outcome."""
        if self.changing is not None:
            return [tuple(c for c in self.conditions if p in self.changing[c]) for p in range(self.count)]
        found: list[set[int]] = [set() for _ in range(self.count)]
        for p in self.sorted:
            for e in self.into[p]:
                source, when = self.source[e], self.when[e]
                found[p] |= found[source] | ({source} if when is not None else set())
        return [tuple(sorted(it)) for it in found]

    def _deciding(self, ranked: tuple[int, ...]) -> list[list[tuple[int, ...]]]:
        """For each track the conditions that decide each process, where conditions are in this order of urgency."""
        result = []
        rank = {c: i for i, c in enumerate(ranked)}
        for track in self.tracks:
            if self.changing is None:
                result.append([tuple(c for c in self.deciders[p] if track.active[c]) for p in range(self.count)])
                continue
            found: list[list[int]] = [[] for _ in range(self.count)]
            for c in self.conditions:
                earlier = [(i, track.values.get(d, False)) for i, d in enumerate(self.conditions) if rank[d] < rank[c]]
                for p, outcomes in self.changing[c].items():
                    if any(all(outcome[i] == value for i, value in earlier) for outcome in outcomes):
                        found[p].append(c)
            result.append([tuple(it) for it in found])
        return result
