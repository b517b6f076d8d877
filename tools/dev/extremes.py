"""Small inputs within the limits whose answer is small too, and whose work is only where a program does too much of it.

A case is the words of a run and its files. Each family says what it is hard for; its parameters let others be tried than those of CASES.
"""
from __future__ import annotations

import dataclasses
import itertools
import os
import random
import resource
from collections.abc import Callable, Sequence
from typing import Any

from cpgc_tools import graph, pack
from dev.measuring import Timed, timed

Files = dict[str, bytes]  # of a case, by what they are


class Design:
    """A graph, and tables for it that are written by hand."""

    def __init__(self, faults: int, deadline: int = 10**9) -> None:
        self.faults, self.deadline = faults, deadline
        self.nodes: list[str] = []
        self.processes: list[dict[str, Any]] = []
        self.edges: list[tuple[int, int, bool | None, bool]] = []
        self.rows: dict[str, list[Any]] = {}  # columns, a time with literals each, by item
        self.now = 0  # when all processes that always start are over

    def node(self) -> int:
        self.nodes.append(f"N{len(self.nodes)}")
        return len(self.nodes) - 1

    def process(self, name: str, node: int = 0, wcet: int = 1, **more: Any) -> int:
        """Adds a process and returns its number."""
        self.processes.append({"name": name, "node": node, "wcet": wcet, **more})
        return len(self.processes) - 1

    def always(self, name: str, node: int = 0) -> int:
        """Adds a process that starts in all scenarios, behind those that did before, and returns its number."""
        self.rows[f"start {name}"] = [[self.now, []]]
        self.now += self.faults + 2
        return self.process(name, node)

    def edge(self, source: int, target: int, when: bool | None = None, frozen: bool = False) -> int:
        """Adds an edge and returns its number."""
        self.edges.append((source, target, when, frozen))
        return len(self.edges) - 1

    def document(self) -> dict[str, Any]:
        names = [it["name"] for it in self.processes]
        edges = [{"from": names[source], "to": names[target], **({} if when is None else {"when": when}), **({"frozen": True} if frozen else {})}
                 for source, target, when, frozen in self.edges]
        return {
            "faults": self.faults, "deadline": self.deadline, "node": [{"name": node} for node in self.nodes],
            "slot": [{"node": node, "length": 1, "bytes": 9} for node in self.nodes if len(self.nodes) > 1],
            "process": [{**it, "node": self.nodes[it["node"]]} for it in self.processes], "edge": edges}

    def text(self) -> bytes:
        """The graph file."""
        return graph.spelled(self.document()).encode()

    def pack(self) -> bytes:
        """The pack of its rows, by item as tools/pack names them; what a node hears is what is sent, a slot of 1 later."""
        head = pack.head_of(graph.Graph.of(self.document()), 1)

        def row(item: pack.Item, heard: bool) -> pack.Row:
            columns = [(time + heard, b"".join(map(bytes, cube))) for time, cube in self.rows[head.item_text(item)]]
            return pack.Row(item, heard, columns)

        rows = tuple(tuple(row(*it) for it in head.items(node)) for node in range(len(self.nodes)))
        return pack.bytes_of(dataclasses.replace(head, rows=rows))


def first_with(members: Sequence[int], top: int) -> Any:
    """For each member of a set the cube 'this one has a fault, and none before it': with that of no fault they part all scenarios."""
    return [[[q, 0, 0] for q in members[:place]] + [[p, 1, top]] for place, p in enumerate(members)]


def none_of(members: Sequence[int]) -> Any:
    return [[p, 0, 0] for p in members]


def frozen_inputs(nodes: int, chain: int, faults: int, draw: Any = None) -> Files:
    """A frozen process behind the ends of chains on many nodes: the times at which all inputs are there are a product."""
    it, drawn = Design(faults), random.Random(draw)
    ends = []
    for _ in range(nodes):
        node = it.node()
        for place in range(chain):
            number = len(it.processes)
            more = {"wcet": drawn.randrange(500, 1000)} if draw is not None else {"mu": 10_000 + 20 * number}
            p = it.process(f"p{number}", node, **more)
            if place:
                it.edge(p - 1, p)
        ends.append(p)
    last = it.process("x", it.node(), frozen=True)
    for p in ends:
        it.edge(p, last)
    return {"graph": it.text()}


def decided(conditions: int, chain: int, frozen: int, later: Any, faults: int, draw: Any = 1) -> Files:
    """Frozen processes one after another on a node, each decided by conditions of other nodes behind chains of faults, and more of
    them that nothing decides: when the node has heard all conditions is a product."""
    it, drawn = Design(faults), random.Random(draw)
    here = it.node()
    deciding = []
    for _ in range(conditions):
        node = it.node()
        for place in range(chain + 1):
            p = it.process(f"p{len(it.processes)}", node, drawn.randrange(500, 1000))
            if place:
                it.edge(p - 1, p)
        deciding.append(p)
    for number in range(frozen + later):
        p = it.process(f"x{number}", here, drawn.randrange(5, 10), frozen=True)
        for source in deciding if number < frozen else ():
            it.edge(source, p, bool(drawn.randrange(2)))
    return {"graph": it.text()}


def followed_parity(process: Callable[..., int], it: Design, deciding: Any, **more: Any) -> Any:
    """Processes that follow the parity of conditions, by a function that adds one: those of odd and of even parity of all."""
    odd, even = process("x0", **more), process("n0", **more)
    it.edge(deciding[0], odd, True), it.edge(deciding[0], even, False)
    for c in range(1, len(deciding)):
        sides = []
        for name, source, when in (("a", odd, False), ("b", even, True), ("d", odd, True), ("e", even, False)):
            side = process(f"{name}{c}", **more)
            it.edge(source, side), it.edge(deciding[c], side, when)
            sides.append(side)
        odd, even = process(f"x{c}", join=True, **more), process(f"n{c}", join=True, **more)
        for joined, both in ((odd, sides[:2]), (even, sides[2:])):
            for side in both:
                it.edge(side, joined)
    return odd, even


def parities(conditions: int, faults: int, nodes: int = 1) -> tuple[Design, Callable[..., int], Any, Any]:
    """Joins that follow the parity of conditions: trees that fork on all of them, each in an order of its own. Also what adds a
    process, and the joins of an odd and of an even number."""
    it = Design(faults)
    for _ in range(nodes):
        it.node()

    def process(name: str, **more: Any) -> int:
        number = len(it.processes) + 1
        return it.process(name, number % nodes, 1 + number % 7, **more)

    odd, even = followed_parity(process, it, [process(f"c{c}") for c in range(conditions)])
    return it, process, odd, even


def parity(conditions: int, faults: int, nodes: int = 1) -> Files:
    """The parity of conditions alone."""
    return {"graph": parities(conditions, faults, nodes)[0].text()}


def joined_parities(conditions: int, joins: int) -> Files:
    """Joins of both parities: each is always active, by one of two edges, and its guard tests all conditions."""
    it, process, odd, even = parities(conditions, 0)
    for number in range(joins):
        both = process(f"j{number}", join=True)
        it.edge(odd, both)
        it.edge(even, both)
    return {"graph": it.text()}


def meshed_parity(conditions: int, followers: int, sources: int) -> Files:
    """Processes behind a parity's join, each with inputs from so many of those before it."""
    it, process, odd, _ = parities(conditions, 0)
    made = [odd]
    for number in range(followers):
        made.append(process(f"f{number}"))
        for source in made[-1 - sources:-1]:
            it.edge(source, made[-1])
    return {"graph": it.text()}


def late_alternatives(conditions: int) -> Files:
    """A join of both parities and of a process that is active only where all conditions are true."""
    it, process, odd, even = parities(conditions, 0)
    every, both = process("t"), process("both", join=True)
    for condition in range(conditions):
        it.edge(condition, every, True)
    for source in (odd, even, every):
        it.edge(source, both)
    return {"graph": it.text()}


def parity_sent(conditions: int, before: int, faults: int, draw: Any = 3) -> Files:
    """A frozen message that is sent where the parity of conditions is odd, behind messages of its node that depend on faults: when
    the slots are free then is a product."""
    it, drawn = Design(faults), random.Random(draw)
    here, there = it.node(), it.node()
    for number in range(before):
        it.edge(it.process(f"p{number}", here, drawn.randrange(500, 1000)), it.process(f"q{number}", there, frozen=True))
    deciding = [it.process(f"c{c}", it.node() if c < 8 else 2 + c % 8, 1 + c) for c in range(conditions)]

    def process(name: str, **more: Any) -> int:
        return it.process(name, here if name == f"x{conditions - 1}" else there, 1 + len(it.processes) % 7, **more)

    odd, _ = followed_parity(process, it, deciding, frozen=True)
    it.edge(odd, it.process("last", there, frozen=True), frozen=True)
    it.edge(odd, it.process("behind", here, frozen=True))
    return {"graph": it.text()}


def audited_sets(size: int, sets: int, faults: int) -> Any:
    """A log by which each of disjoint sets of processes had a fault, one set more than there are faults: no scenario gives it."""
    it, step = Design(faults), faults + 2
    it.node()
    members = [[it.always(f"p{i}_{j}") for j in range(size)] for i in range(sets)]
    now, log = it.now, [f"{columns[0][0]} N0 {item}" for item, columns in it.rows.items()]
    for number, own in enumerate(members):
        late = now + step
        it.process(f"x{number}")
        it.rows[f"start x{number}"] = [[now, none_of(own)], *([late, cube] for cube in first_with(own, faults))]
        log.append(f"{late} N0 start x{number}")
        now += 2 * step
    return {"graph": it.text(), "pack": it.pack(), "log": "\n".join([f"until {now}", *log, ""]).encode()}


def heard_sets(size: int, sets: int, faults: int, conditions: int = 0) -> Files:
    """Messages of which each tells a node something where no process of a set had a fault; not all sets can have one. With conditions
    a message's column is parted by one of them."""
    it = Design(faults)
    near, far = it.node(), it.node()
    members = [[it.always(f"p{i}_{j}", near) for j in range(size)] for i in range(sets)]
    told = it.always("v", near)
    deciding = [it.always(f"c{c}", near) for c in range(conditions)]
    if deciding:
        both = it.always("y", near)
        it.rows["start y"][0][1] = [[128 + c, 1, 1] for c in range(conditions)]
        for c in deciding:
            it.edge(c, both, True)
    senders = [it.always(f"y{i}", near) for i in range(sets)]
    last = it.process("x", far)
    now = it.now + faults + 2
    now += now % 2
    for c in deciding:
        it.rows[f"tell {it.processes[c]['name']}"] = [[now, []]]
        now += 2
    for number, own in enumerate(members):
        edge, deciding_one = it.edge(senders[number], last), 128 + number % max(conditions, 1)
        values = [[[deciding_one, value, value]] for value in (0, 1)] if conditions else [[]]
        columns = [[now, none_of(own) + [count] + value] for value in values for count in ([told, 0, 0], [told, 1, faults])]
        columns += [[now, cube] for cube in first_with(own, faults)]
        it.rows[f"send e{edge}"] = [[time, sorted(literals)] for time, literals in columns]
        now += 2
    now += 10
    it.rows["start x"] = [[now, [[told, 0, 0]]], [now + 7, [[told, 1, faults]]]]
    return {"graph": it.text(), "pack": it.pack()}


def vectors(count: int, left: int) -> Any:
    """All lists of so many fault counts with at most so many faults."""
    if count == 0:
        yield ()
        return
    for first in range(left + 1):
        for rest in vectors(count - 1, left - first):
            yield (first, *rest)


def long_rows(rows: int, columns: int, seed: int = 5) -> Files:
    """Rows of many columns of which no single variable parts the most."""
    faults, drawn = 8, random.Random(seed)
    it, step = Design(faults), faults + 2
    it.node()
    chained, forked = [it.always(f"a{i}") for i in range(12)], [it.always(f"b{i}") for i in range(9)]
    parting, later = it.always("r"), [it.always(f"s{i}") for i in range(9)]
    depth = next(depth for depth in range(1, 9) if sum(1 for _ in vectors(depth, 7)) >= columns)
    cubes = [[[parting, 1, faults], *none_of(later), *([p, n, n] for p, n in zip(forked, counts))] for counts in vectors(depth, 7)]
    drawn.shuffle(cubes)
    chain = [none_of(chained), *first_with(chained, faults)]
    front = [cube + [[parting, 0, 0]] for cube in chain]
    middle = [[[parting, 1, faults]] + cube for cube in first_with(later, faults)]
    place = (len(front) + len(cubes) + len(middle)) // 2 - len(front) - 7
    cubes[place:place] = middle
    for number in range(rows):
        it.process(f"x{number}")
        it.rows[f"start x{number}"] = [[it.now + number * step + (10**6 if cube is middle[0] else 0), sorted(cube)] for cube in front + cubes]
    return {"graph": it.text(), "pack": it.pack()}


def by_threshold(members: Sequence[int], least: int, faults: int) -> Any:
    """Cubes that part all scenarios by which members have so many faults at least. None has a literal where no faults are left, so
    that of most two no single variable says that they can't match together."""
    most = faults // least
    for count in range(most + 1):
        for chosen in itertools.combinations(members, count):
            held = chosen if count == most else members
            yield [[p, least, faults] if p in chosen else [p, 0, least - 1] for p in held]


def threshold_row(processes: int, least: int, faults: int, damage: Any) -> Files:
    """A row of such columns, of which one stands twice, is too wide or is missing."""
    it = Design(faults)
    it.node()
    members = [it.always(f"p{i}") for i in range(processes)]
    cubes = list(by_threshold(members, least, faults))
    place = len(cubes) - 1 - processes
    if damage == "double":
        cubes.append(cubes[place])
    elif damage == "wide":
        (variable, low, high), *others = cubes[-1]
        cubes[-1] = [[variable, low - 1, high], *others]
    else:
        del cubes[place]
    it.process("x")
    it.rows["start x"] = [[it.now, cube] for cube in cubes]
    return {"graph": it.text(), "pack": it.pack()}


def deep_row(processes: int) -> Files:
    """A row that forks one fault count at a time, as deep as there are processes and faults."""
    it = Design(8)
    it.node()
    members = [it.always(f"p{i}") for i in range(processes)]
    it.process("x")
    columns = [[it.now, none_of(members[:p]) + [[p, n, n]]] for p in members for n in range(it.faults, 0, -1)] + [[it.now, none_of(members)]]
    middle = len(columns) // 2
    columns[middle], columns[middle - 1] = columns[middle - 1], columns[middle]
    it.rows["start x"] = columns
    return {"graph": it.text(), "pack": it.pack()}


def in_order(files: Files) -> Files:
    """The same with the key `order`: its urgency order."""
    it = graph.parsed("graph", files["graph"])
    return {**files, "graph": it.changed(top={"order": it.urgency_order()}).text().encode()}


def in_turn(processes: int, faults: int) -> Files:
    """Processes without edges on one node, each shorter than the one before, so that each starts at a time for each placing of faults."""
    it = Design(faults)
    it.node()
    for n in range(processes):
        it.process(f"p{n}", wcet=2 ** (processes - n))
    return {"graph": it.text()}


# by name: what makes the files, the command, its status, and what a run may take: seconds, MiB of memory, and KiB of stack
CASES: dict[str, Any] = {
    "a frozen process behind 15 chains of 3, k 8": (lambda: frozen_inputs(15, 3, 8), "show", 0, 1, 100, 1024),
    "the same with drawn times, chains of 4": (lambda: frozen_inputs(15, 4, 8, 7), "compile", 0, 1, 150, 1024),
    "the frozen process behind 15 chains of 3, tuned": (lambda: frozen_inputs(15, 3, 1), "tune", 0, 2, 150, 1024),
    "2 frozen processes that 8 conditions behind chains decide, k 8": (lambda: decided(8, 2, 2, 0, 8), "show", 0, 1, 50, 1024),
    "20 such by 6 conditions, and 20 behind them": (lambda: decided(6, 1, 20, 20, 8), "compile", 0, 1, 50, 1024),
    "the same, tuned": (lambda: decided(6, 1, 20, 20, 1), "tune", 0, 2, 50, 1024),
    "a frozen message by the parity of 10 conditions, k 8": (lambda: parity_sent(10, 8, 8), "show", 0, 1, 100, 1024),
    "the parity of 14 conditions": (lambda: parity(14, 0), "show", 0, 2, 300, 1024),
    "34 joins of both parities of 14 conditions": (lambda: joined_parities(14, 34), "show", 6, 0.1, 30, 1024),
    "such joins, tuned": (lambda: joined_parities(14, 34), "tune", 0, 0.3, 30, 1024),
    "20 processes behind a parity, with 4 inputs each": (lambda: meshed_parity(14, 20, 4), "show", 6, 0.1, 30, 1024),
    "34 joins of both parities of 14 conditions, in a given order": (lambda: in_order(joined_parities(14, 34)), "show", 0, 40, 250, 1024),
    "such joins in a given order, tuned": (lambda: in_order(joined_parities(14, 34)), "tune", 0, 0.3, 30, 1024),
    "20 processes behind a parity, in a given order": (lambda: in_order(meshed_parity(14, 20, 4)), "show", 0, 12, 200, 1024),
    "20 processes in turn in a given order, k 8": (lambda: in_order(in_turn(20, 8)), "show", 6, 1, 100, 1024),
    "a join with two live inputs in the last outcomes": (lambda: late_alternatives(14), "show", 4, 0.2, 30, 1024),
    "a log of 9 sets of 13 processes with a fault each, k 8": (lambda: audited_sets(13, 9, 8), "audit", 0, 1, 50, 1024),
    "messages that 9 sets of 10 processes part, k 8": (lambda: heard_sets(10, 9, 8), "check", 0, 1, 50, 1024),
    "the same, sets of 6, and 8 conditions": (lambda: heard_sets(6, 9, 8, 8), "check", 0, 1, 50, 1024),
    "ten rows of 6,000 columns that nothing parts": (lambda: long_rows(10, 6000), "check", 0, 1, 60, 1024),
    "a row of 15,226 columns and one of them again, 45 processes, k 3": (lambda: threshold_row(45, 1, 3, "double"), "check", 7, 1, 60, 1024),
    "a row of 8,002 columns, the last too wide, 126 processes, k 8": (lambda: threshold_row(126, 3, 8, "wide"), "check", 7, 1, 60, 1024),
    "the same with one missing": (lambda: threshold_row(126, 3, 8, "missing"), "check", 7, 1, 60, 1024),
    "a row that forks 1,017 times in turn": (lambda: deep_row(127), "check", 0, 1, 50, 1024),
}
ORDER = {"show": ("graph",), "compile": ("graph",), "tune": ("graph",), "check": ("graph", "pack"), "audit": ("graph", "pack", "log")}


def written(name: str, file: Callable[[str, bytes], str]) -> list[str]:
    """Writes the files of a case, by a function of a name and bytes that returns a path: the words of its run."""
    make, command, *_ = CASES[name]
    files = make()
    return [command, *(file(f"extreme.{kind}", files[kind]) for kind in ORDER[command])]


def run(program: str, name: str, file: Callable[[str, bytes], str]) -> Timed:
    """Runs a case with no more stack than it may take, and no more than four times its memory and some of its time."""
    _, _, _, seconds, memory, stack = CASES[name]

    def begin() -> None:
        resource.setrlimit(resource.RLIMIT_STACK, (stack << 10,) * 2)
        resource.setrlimit(resource.RLIMIT_AS, ((4 * memory + 1024) << 20,) * 2)
        resource.setrlimit(resource.RLIMIT_CPU, (int(4 * seconds) + 20,) * 2)

    return timed([program, *written(name, file)], os.devnull, 1, begin)
