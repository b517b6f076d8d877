"""The copies that `cpgc hyper` makes of its parts: what their names say, PART.INSTANCE.NAME, and from when to when each instance goes on.
PART is a number, or a name if `hyper-edges` has given one.

    it = instances.of(graph)                    # Instances, or None if the graph isn't one of hyper
    it.parts[0].period                          # of the first part
    it.parts[0].names                           # of its processes, as its file has them
    it.copy(0, 1, "kalman")                     # the process 0.1.kalman
    instances.short("0.1.kalman")               # kalman
"""
from __future__ import annotations

import re
from dataclasses import dataclass

from cpgc_tools.graph import Graph, Process

COPY = re.compile(r"([^.]+)\.(0|[1-9][0-9]{0,9})\.(.+)", re.S)


def split(name: str) -> tuple[str, int, str] | None:
    """The part, the instance and the name in the part that a copy's name says."""
    found = COPY.fullmatch(name)
    return (found[1], int(found[2]), found[3]) if found else None


def short(name: str) -> str:
    """The name in the part of a copy, and any other name as it is."""
    found = split(name)
    return found[2] if found else name


@dataclass(frozen=True)
class Part:
    label: str  # by which names of copies begin
    count: int  # of instances
    period: int
    names: tuple[str, ...]


@dataclass(frozen=True)
class Instances:
    graph: Graph
    parts: tuple[Part, ...]

    def name(self, part: int, instance: int, name: str) -> str:
        return f"{self.parts[part].label}.{instance}.{name}"

    def copy(self, part: int, instance: int, name: str) -> Process:
        return self.graph.processes[self.graph.number[self.name(part, instance, name)]]


def of(graph: Graph) -> Instances | None:
    """The parts of a graph whose processes are all named as copies, each part with as many instances of each process."""
    found: dict[str, dict[str, set[int]]] = {}
    for process in graph.processes:
        copy = split(process.name)
        if copy is None:
            return None
        found.setdefault(copy[0], {}).setdefault(copy[2], set()).add(copy[1])
    parts = []
    for label, names in found.items():
        count = max(map(len, names.values()))
        if graph.deadline % count or any(it != set(range(count)) for it in names.values()):
            return None
        parts.append(Part(label, count, graph.deadline // count, tuple(names)))
    return Instances(graph, tuple(parts)) if parts else None
