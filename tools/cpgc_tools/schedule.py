"""What the tables of a graph come to: the latest end of all scenarios, the columns that a scenario picks, and the way to an end.

    rows = schedule.rows_of(tables)                         # of each start, message and broadcast
    latest, scenario, last = schedule.worst(graph, rows)    # the latest end of all scenarios, and one that ends so
    picks = schedule.picked(graph, rows, scenario)          # the column of each active act in a scenario
    steps = schedule.path(graph, rows, scenario, last)      # the acts that lead to an end, the last one first

An act is a kind (start, send or tell) and the number of its process, its edge, or the process whose value it is. The pack is taken to be
one that `cpgc` finds safe for the graph: so check or play first.
"""
from __future__ import annotations

from collections.abc import Mapping, Sequence

from cpgc_tools.graph import Graph
from cpgc_tools.pack import VALUES, Column, Item, Pack, Row, asked, literals
from cpgc_tools.play import Scenario

Act = tuple[str, int]
Sent = tuple[int, Row]  # a row, with the node that starts or sends it


def rows_of(pack: Pack) -> list[Sent]:
    """The rows of starts by process, those of messages by edge, and those of broadcasts by condition."""
    return sorted(pack.acts(), key=lambda it: it[1].item.number)


def act_of(item: Item) -> Act:
    return item.kind, item.of


def numbers_of(graph: Graph, scenario: Scenario) -> bytes:
    """What each variable is in a scenario."""
    numbers = bytearray(2 * VALUES)
    for process in graph.processes:
        numbers[process.number] = scenario.faults.get(process.name, 0)
        if process.condition is not None:
            numbers[VALUES + process.condition] = process.name in scenario.true
    return bytes(numbers)


def matches(cube: bytes, numbers: bytes) -> bool:
    return all(low <= numbers[variable] <= high for variable, low, high in literals(cube))


def picked(graph: Graph, rows: Sequence[Sent], scenario: Scenario) -> dict[Act, Column]:
    """The column that a scenario picks of each active act."""
    found, numbers = {}, numbers_of(graph, scenario)
    for _, row in rows:
        column = next((it for it in row.columns if matches(it[1], numbers)), None)
        if column:
            found[act_of(row.item)] = column
    return found


def least(graph: Graph, cube: bytes, more: Mapping[str, int]) -> Scenario:
    """The least scenario of a column, with more faults."""
    counts = {graph.processes[variable].name: low for variable, low, _ in literals(cube) if variable < VALUES and low}
    true = frozenset(graph.deciding[variable - VALUES].name for variable, low, _ in literals(cube) if variable >= VALUES and low)
    return Scenario({**counts, **more}, true)


def worst(graph: Graph, rows: Sequence[Sent]) -> tuple[int, Scenario, int | None]:
    """The latest end of all scenarios, a scenario that ends so, and the process that does. Of several it is the first process in the
    order of the file and its first column that ends so, with the least scenario of this column that does: the one that `cpgc check` names
    where the graph's deadline is one time unit before. Where nothing runs there is none."""
    latest, scenario, last = 0, Scenario(), None
    for _, row in rows:
        if row.item.kind == "start":
            process = graph.processes[row.item.of]
            for time, cube in row.columns:
                faults = graph.faults - asked(cube)
                if faults < 0:
                    continue  # it is for no scenario
                end = time + process.duration(faults)
                if end > latest:
                    latest, last = end, process.number
                    scenario = least(graph, cube, {process.name: faults} if faults else {})
    return latest, scenario, last


def path(graph: Graph, rows: Sequence[Sent], scenario: Scenario, last: int | None) -> list[Act]:
    """What leads to the end of a process in a scenario, from there back: each act waits for the one after it in the list, which of all that
    it waits for is over last."""
    times = {act: time for act, (time, _) in picked(graph, rows, scenario).items()}
    ends = {p: time + graph.processes[p].duration(scenario.faults.get(graph.processes[p].name, 0)) for (kind, p), time in times.items() if kind == "start"}
    steps: list[Act] = []
    at = last
    while at is not None:
        steps.append(("start", at))
        process, begin = graph.processes[at], times["start", at]
        over: list[tuple[int, int, int, Act | None]] = []
        for edge in graph.edges:
            source = graph.processes[edge.source]
            if edge.target == at and edge.source in ends and edge.when in (None, source.name in scenario.true):
                if graph.is_message(edge):
                    over.append((graph.arrival(source.node, times["send", edge.number]), 3, edge.source, ("send", edge.number)))
                else:
                    over.append((ends[edge.source], 2, edge.source, None))
        for p, end in ends.items():
            if p != at and graph.processes[p].node == process.node and end == begin:
                over.append((end, 1, p, None))
        for kind, p in times:
            node = graph.processes[p].node if kind == "tell" else process.node
            if node != process.node and graph.arrival(node, times[kind, p]) == begin:
                over.append((begin, 0, p, ("tell", p)))
        if not over or (process.release == begin and max(it[0] for it in over) < begin):
            break
        _, _, at, frame = max(over, key=lambda it: it[:3])
        steps += [frame] if frame else []
    return steps
