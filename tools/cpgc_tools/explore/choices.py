"""What may change of a graph: the CHOICES file, of which the words stand in `explore --help`."""
from __future__ import annotations

from collections.abc import Iterable, Mapping
from fnmatch import fnmatchcase
from typing import Any

from cpgc_tools.explore.problem import Problem, in_turn
from cpgc_tools.graph import LIMIT, Process, Slot

KEYS = {"process": ("nodes", "wcet", "parts", "frozen"), "edge": ("frozen",), "slot": ("sizes",)}
WORDS = ("order", "slots", "together", "apart")
MOST_PARTS = 255


class Wrong(Exception):
    """What is wrong with a choices file, in one line."""


def ask(right: bool, why: str) -> None:
    if not right:
        raise Wrong(why)


def is_whole(it: object, least: int, most: int) -> bool:
    return isinstance(it, int) and not isinstance(it, bool) and least <= it <= most


def said_of(tables: Mapping[str, Mapping[str, Any]], name: str, key: str) -> Any:
    """What the table of a name says for a key, else the first table whose pattern fits and that has the key."""
    if name in tables and key in tables[name]:
        return tables[name][key]
    return next((it[key] for pattern, it in tables.items() if key in it and fnmatchcase(name, pattern)), None)


def wcets_of(processes: Iterable[Process], nodes: Mapping[str, int], wanted: Mapping[str, Any]) -> list[dict[int, int]]:
    """Of each process the wcet on those nodes for which one is said."""
    found = []
    for it in processes:
        wcet = said_of(wanted.get("process", {}), it.name, "wcet")
        right = wcet is None or isinstance(wcet, dict) and all(is_whole(n, 1, LIMIT) for n in wcet.values())
        ask(right, f"{it.name}: wcet is a table of a number for each node")
        for name in wcet or {}:
            ask(name in nodes, f"{it.name}: {name} is no node")
        found.append({nodes[name]: n for name, n in (wcet or {}).items()})
    return found


def checked(wanted: Mapping[str, Any], names: Iterable[str], edges: Iterable[str], nodes: Iterable[str]) -> None:
    """Asks that all keys and names are known, and that tables are tables."""
    for key in wanted:
        ask(key in WORDS or key in KEYS, f"there is no key {key}")
    for key in ("order", "slots"):
        ask(isinstance(wanted.get(key, True), bool), f"{key} is true or false")
    known = {"process": list(names), "edge": list(edges), "slot": list(nodes)}
    for kind, keys in KEYS.items():
        tables = wanted.get(kind, {})
        ask(isinstance(tables, dict) and all(isinstance(it, dict) for it in tables.values()), f"{kind} has to be tables, as [{kind}.NAME]")
        for pattern, table in tables.items():
            for key in table:
                ask(key in keys, f"{kind} {pattern} has no key {key}")
            ask(isinstance(table.get("frozen", True), bool), f"{kind} {pattern}: frozen is true or false")
            ask(any(fnmatchcase(name, pattern) or name == pattern for name in known[kind]), f"{pattern} is no {kind if kind != 'slot' else 'node'}")
    for key in ("together", "apart"):
        groups = wanted.get(key, [])
        right = isinstance(groups, list) and all(isinstance(it, list) and all(isinstance(name, str) for name in it) for it in groups)
        ask(right, f"{key} is a list of lists of processes")
        for name in (name for group in groups for name in group):
            ask(name in known["process"], f"{key}: {name} is no process")


class Choices:
    """Of a problem that was made with the wcets of these choices."""

    def __init__(self, problem: Problem, wanted: Mapping[str, Any], every: bool = False) -> None:
        """With `every` all that isn't frozen may be, if nothing is said of what may."""
        self.problem, names = problem, [it.name for it in problem.processes]
        tables: Mapping[str, Mapping[str, Any]] = wanted.get("process", {})
        node_number = {name: n for n, name in enumerate(problem.nodes)}
        self.order: bool = wanted.get("order", True)
        self.slots: bool = wanted.get("slots", False)
        self.nodes = [self._nodes(p, said_of(tables, name, "nodes"), node_number) for p, name in enumerate(names)]
        self.parts = [self._parts(p, said_of(tables, name, "parts")) for p, name in enumerate(names)]
        said = [p for p, name in enumerate(names) if said_of(tables, name, "frozen")]
        for edge in problem.edges:
            if said_of(wanted.get("edge", {}), f"{names[edge.source]}>{names[edge.target]}", "frozen"):
                said.append(-1 - edge.number)
        none_said = not any("frozen" in it for kind in ("process", "edge") for it in wanted.get(kind, {}).values())
        unsaid = [it for it in (*range(problem.count), *(-1 - e for e in range(len(problem.edges)))) if it not in problem.frozen]
        self.freezable = unsaid if every and none_said else said
        self.sizes = self._sizes(wanted.get("slot", {}), node_number)
        self.together, self.apart = ([[problem.graph.number[name] for name in group] for group in wanted.get(key, [])] for key in ("together", "apart"))
        self.group = {p: group for group in self.together for p in group}
        self.movable = [p for p, nodes in enumerate(self.nodes) if len(nodes) > 1]
        self.cut = [p for p, (low, high) in enumerate(self.parts) if low < high]

    def _nodes(self, p: int, said: Any, number: Mapping[str, int]) -> tuple[int, ...]:
        name = self.problem.processes[p].name
        ask(said is None or isinstance(said, list) and bool(said) and all(isinstance(it, str) for it in said), f"{name}: nodes is a list of names")
        for it in said or ():
            ask(it in number, f"{name}: {it} is no node")
        if said is not None:
            return tuple(dict.fromkeys(number[it] for it in said))
        return tuple(self.problem.wcets[p]) or (self.problem.processes[p].node,)

    def _parts(self, p: int, said: Any) -> tuple[int, int]:
        now = self.problem.processes[p].parts
        pair = [now, now] if said is None else said if isinstance(said, list) else [said, said]
        right = len(pair) == 2 and all(is_whole(it, 1, MOST_PARTS) for it in pair) and pair[0] <= pair[1]
        ask(right, f"{self.problem.processes[p].name}: parts is a number, or the least and the most")
        return pair[0], pair[1]

    def _sizes(self, tables: Mapping[str, Mapping[str, Any]], number: Mapping[str, int]) -> dict[int, list[tuple[int, int]]]:
        found = {}
        for name, n in number.items():
            said = said_of(tables, name, "sizes")
            if said is not None:
                right = isinstance(said, list) and said and all(isinstance(it, list) and len(it) == 2 and all(is_whole(n, 1, LIMIT) for n in it) for it in said)
                ask(bool(right), f"slot {name}: sizes are pairs of a length and bytes")
                found[n] = sorted((it[0], it[1]) for it in said)
        return found

    def allows(self, nodes: tuple[int, ...]) -> bool:
        """Whether processes may stand on these nodes, as far as they are together or apart."""
        if any(len({nodes[p] for p in group}) < len(group) for group in self.apart):
            return False
        return all(len({nodes[p] for p in group}) == 1 for group in self.together)

    def slots_of(self, nodes: tuple[int, ...], places: Iterable[int]) -> tuple[Slot, ...] | None:
        """The least slots that take what nodes send, in this turn; nothing where none does."""
        problem, most = self.problem, dict[int, int]()
        if len(problem.nodes) > 1:
            for edge in problem.edges:
                if nodes[edge.source] != nodes[edge.target]:
                    most[nodes[edge.source]] = max(most.get(nodes[edge.source], 0), edge.bytes)
            for c in problem.conditions:
                most.setdefault(nodes[c], 0)
        standing = {it.node: [(it.length, it.bytes)] for it in problem.graph.slots}
        found = []
        for n in places:
            fits = [it for it in self.sizes.get(n, standing[n]) if it[1] >= most.get(n, 0)]
            if not fits:
                return None
            found.append((n, *fits[0]))
        return in_turn(found) if all(n in standing for n in most) else None
