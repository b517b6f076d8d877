"""Graphs of the study: each is drawn from its number, so that it is the same on every machine."""
from __future__ import annotations

import functools
import random
from collections.abc import Mapping, Sequence
from typing import Any

from dev.measuring import graph


@functools.cache
def least_size(tracks: int) -> int:
    """The fewest processes of a block with so many tracks."""
    if tracks == 1:
        return 1
    sums = [least_size(first) + least_size(tracks - first) + 2 for first in range(1, tracks // 2 + 1)]
    products = [least_size(first) + least_size(tracks // first) for first in range(2, tracks) if tracks % first == 0]
    return min(sums + products)


Arm = tuple[tuple[int, bool], ...]


class Drawn:
    """A drawn graph. An arm is the list of the conditions that a process is behind, each with its value."""

    def __init__(self, number: int, processes: int, tracks: int, nodes: int, exponential: bool = False, near: bool = False) -> None:
        draw = random.Random(number)
        self.draw, self.nodes = draw, nodes
        self.arms: list[Arm] = []
        self.joins: set[int] = set()
        self.edges: list[tuple[int, int, bool | None]] = []
        self.conditions: list[int] = []
        self.block(processes, tracks, ())
        self.add_edges(processes // 5)
        self.node = self.places(near)
        self.wcet = [self.exponential() if exponential else 10 + self.below(91) for _ in self.arms]

    def below(self, bound: int) -> int:
        return int(self.draw.random() * bound)

    def exponential(self) -> int:
        """1 and more, 54 on average, at most 500."""
        length = 1
        while length < 500 and self.below(54):
            length += 1
        return length

    def process(self, arm: Arm) -> int:
        self.arms.append(arm)
        return len(self.arms) - 1

    def block(self, size: int, tracks: int, arm: Arm) -> tuple[int, int]:
        """Draws so many processes with so many tracks, and returns the first and the last: two blocks one after the other (one time
        in six), side by side (four in six), or one for each value of a condition (one in six)."""
        if size == 1:
            return (self.process(arm),) * 2
        while True:
            kind = self.below(6)
            if kind == 0 and tracks > 1:
                first = 1 + self.below(tracks - 1)
                second, ends = tracks - first, 2
            else:
                factors = [factor for factor in range(1, tracks + 1) if tracks % factor == 0]
                first = factors[self.below(len(factors))]
                second, ends = tracks // first, 2 if kind > 1 else 0
            spare = size - ends - least_size(first) - least_size(second)
            if spare >= 0:
                break
        left = least_size(first) + self.below(spare + 1)
        right = size - ends - left
        if not ends:
            before, after = self.block(left, first, arm), self.block(right, second, arm)
            self.edges.append((before[1], after[0], None))
            return before[0], after[1]
        fork, deciding = self.process(arm), kind == 0
        arms = [arm + ((fork, True),), arm + ((fork, False),)] if deciding else [arm, arm]
        one, other = self.block(left, first, arms[0]), self.block(right, second, arms[1])
        meet = self.process(arm)
        if deciding:
            self.conditions.append(fork)
            self.joins.add(meet)
        whens = (True, False) if deciding else (None, None)
        self.edges += [(fork, one[0], whens[0]), (fork, other[0], whens[1]), (one[1], meet, None), (other[1], meet, None)]
        return fork, meet

    def order(self) -> list[int]:
        """The processes, each after those that it waits for."""
        sources: list[list[int]] = [[] for _ in self.arms]
        for source, target, _ in self.edges:
            sources[target].append(source)
        found: list[int] = []
        done: set[int] = set()

        def visit(process: int) -> None:
            if process not in done:
                done.add(process)
                for source in sources[process]:
                    visit(source)
                found.append(process)

        for process in range(len(self.arms)):
            visit(process)
        return found

    def add_edges(self, count: int) -> None:
        """Draws so many more edges between processes of one arm, or fewer where twenty times as many draws find no more."""
        place = {process: number for number, process in enumerate(self.order())}
        pairs = {(source, target) for source, target, _ in self.edges}
        for _ in range(20 * count):
            source, target = sorted((self.below(len(self.arms)), self.below(len(self.arms))), key=place.__getitem__)
            fits = source != target and self.arms[source] == self.arms[target] and target not in self.joins
            if count and fits and (source, target) not in pairs:
                pairs.add((source, target))
                self.edges.append((source, target, None))
                count -= 1

    def places(self, near: bool) -> list[int]:
        """The node of each process: any, or, where near, two times in three that of the first process that it waits for."""
        source: dict[int, int] = {}
        for before, after, _ in self.edges:
            source.setdefault(after, before)
        node = [0] * len(self.arms)
        for process in self.order():
            follows = near and process in source and self.below(3) > 0
            node[process] = node[source[process]] if follows else self.below(self.nodes)
        return node

    def is_active(self, process: int, values: Mapping[int, bool]) -> bool:
        return all(values.get(condition) == value for condition, value in self.arms[process])

    def tracks(self) -> Any:
        """The values of the conditions of each track."""
        found: list[dict[int, bool]] = [{}]
        for condition in sorted(self.conditions):
            found = [{**values, **more} for values in found for more in self.values_of(condition, values)]
        return found

    def values_of(self, condition: int, values: Mapping[int, bool]) -> Any:
        return [{condition: True}, {condition: False}] if self.is_active(condition, values) else [{}]

    def messages(self) -> Any:
        return sum(self.node[source] != self.node[target] for source, target, _ in self.edges)

    def text(self, faults: int, slot: int, costs: tuple[int, int, int], deadline: int = 10**9, frozen: str = "none", parts: Sequence[int] | None = None) -> str:
        """The graph file. `frozen` is none, messages or all."""
        processes = [(self.node[p], self.wcet[p], frozen == "all", p in self.joins, *([parts[p]] if parts else [])) for p in range(len(self.arms))]
        edges = [(source, target, when, frozen != "none") for source, target, when in self.edges]
        return graph(self.nodes, processes, edges, faults, deadline, slot, costs)

    def alone(self, values: Mapping[int, bool], slot: int) -> Any:
        """The graph file of a track: what is active in it, without conditions, faults and overheads."""
        return self.track(values, slot, False)

    def heard(self, values: Mapping[int, bool], slot: int) -> Any:
        """The same with its conditions: they are sent, and waited for. In its other outcomes less runs, so its latest end is that of the track."""
        return self.track(values, slot, True)

    def track(self, values: Mapping[int, bool], slot: int, told: bool) -> Any:
        kept = self.kept(values)
        number = {process: n for n, process in enumerate(kept)}
        edges = [(number[source], number[target], when if told else None, False) for source, target, when in self.edges if source in number and target in number]
        return graph(self.nodes, [(self.node[p], self.wcet[p], False, told and p in self.joins) for p in kept], edges, 0, 10**9, slot, (0, 0, 0))

    def kept(self, values: Mapping[int, bool]) -> list[int]:
        """What is active in a track."""
        return [process for process in range(len(self.arms)) if self.is_active(process, values)]

    def measures(self, values: Mapping[int, bool], slot: int) -> Any:
        """Of a track the sum of all work, the longest way, a message as one slot, and what no schedule is shorter than: the greater of
        this and the most work of a node."""
        sources: dict[int, list[int]] = {}
        ends: dict[int, int] = {}
        work = [0] * self.nodes
        for source, target, _ in self.edges:
            sources.setdefault(target, []).append(source)
        for process in self.order():
            if self.is_active(process, values):
                ready = [ends[s] + (slot if self.node[s] != self.node[process] else 0) for s in sources.get(process, []) if s in ends]
                ends[process] = max(ready, default=0) + self.wcet[process]
                work[self.node[process]] += self.wcet[process]
        return sum(work), max(ends.values()), max(*ends.values(), *work)
