"""The families of the study that are searched, by what `explore` searches with: orders, mappings with checkpoints, and systems of two periods.

Each family lists what it measures, and measures one: the fields of a line. A search is ended by how many designs it has tried, never by a time.
Each design that is found is shown to the program, which has to say what was reckoned.
"""
from __future__ import annotations

import copy
import subprocess
from collections.abc import Iterator, Mapping
from typing import Any

from cpgc_tools import graph, pack
from cpgc_tools.explore.reckoning import Limit, Plan, Reckoned, reckoned
from cpgc_tools.explore.search import Search, Task
from cpgc_tools.explore.written import document_of
from dev import two_rate
from dev.study_given import CELL, COSTS, FREE, SLOT, best_parts, draw_condition, draw_fault, fault_graphs
from dev.study_graphs import Drawn
from dev.study_merged import Merging, by_ways
from dev.study_runs import Wrong, answer, folder, shown

ORDERS, TRACK, DEEP = 2_000, 1_000, 10_000  # tries for an order of a table, for one of a track, and in a longer search
LONGER = 5, 24  # of each size and number of tracks, the graphs that are searched for long
DESIGNS = 2_000  # tries for a mapping, for checkpoints, or for both
SYSTEMS, LONG = 60, 10_000  # how many systems of two periods of each kind, and tries in a long search
FORMS = ("none", "messages")


def searching(text: str, wanted: Mapping[str, Any] | None = None) -> Search:
    return Search(graph.parsed("graph", text.encode()), wanted or {}, "shortest")


def compiled(it: Search) -> Reckoned:
    """What a compile of the file comes to."""
    found = it.compiled(Plan(it.problem, it.problem.design()))
    assert found
    return found


def walked(it: Search, begin: Reckoned, tries: int, seed: str) -> Reckoned:
    return it.walk(begin, Task("", [], seed, tries, 1.0, None))[0]


def best(it: Search, tries: int, seed: str) -> Reckoned:
    return walked(it, it.begin()[0][1], tries, seed)


def asked(program: str, it: Search, found: Reckoned) -> int:
    """The latest end of what was found, which the program says too."""
    design = found.plan.design._replace(order=tuple(found.order))
    said, _ = shown(program, graph.spelled(document_of(it.problem, design)))
    if said != found.worst:
        raise Wrong(f"reckoned worst {found.worst}, the program says {said}")
    return found.worst


# Orders

def measure_orders(program: str, what: Any) -> dict[str, Any]:
    """What a compile comes to if nothing is waited for, or sent, to hear conditions; the best of the rules of `explore`, the best order found,
    and what no order comes below; and the longest track, under the best orders found for each track."""
    drawn, slot = draw_condition(what)
    it, seed = searching(drawn.text(0, slot, FREE)), f"{what['graph']} {what['slot']}"
    now = compiled(it)
    unwaited, unsent = (reckoned(unheard(now.plan, sent), now.order) for sent in (True, False))
    assert unwaited and unsent and it.least
    begin = it.begin()[0][1]
    found = walked(it, begin, ORDERS, seed)
    long = what["slot"] == "2" and what["graph"] % CELL in LONGER
    return {"graph": what["graph"], "slot": what["slot"], "compiled": now.worst, "unwaited": unwaited.worst, "unsent": unsent.worst,
            "rules": begin.worst, "best": asked(program, it, found), "least": it.least.worst, "track": best_tracks(drawn, slot, found, seed),
            "long": asked(program, it, walked(it, begin, DEEP, seed)) if long else ""}


def unheard(plan: Plan, sent: bool) -> Plan:
    """A plan in which no node waits for a condition; without broadcasts if they aren't sent."""
    made = copy.copy(plan)
    made.rows = [[(t, tuple(i for i in waits if plan.arrival <= i < plan.told or i >= plan.released)) for t, waits in rows] for rows in plan.rows]
    made.idle = [[] for _ in plan.idle]
    if not sent:
        made.sends = [tuple(send for send in sends if send.arrival < plan.told) for sends in plan.sends]
    return made


def best_tracks(drawn: Drawn, slot: int, table: Reckoned, seed: str) -> int:
    """The greatest latest end of the tracks, each with its broadcasts, under the best order found for it alone. A track that surely isn't the
    longest is searched no further."""
    begins = []
    for number, values in enumerate(drawn.tracks()):
        it, place = searching(drawn.heard(values, slot)), {p: i for i, p in enumerate(drawn.kept(values))}
        it.problem.tracks = [track for track in it.problem.tracks if all(track.active)]
        it.problem.track_count = len(it.problem.tracks)
        assert it.problem.track_count == 1
        same = it.look(Plan(it.problem, it.base), [place[p] for p in table.order if p in place])
        assert same
        begins.append((min(same, *(found for _, found in it.begin()), key=lambda found: found.worst), number, it))
    most = 0
    for begin, number, it in sorted(begins, key=lambda begin: (-begin[0].worst, begin[1])):
        if begin.worst > most:
            assert it.least
            it.least = Limit(it.least.late, max(it.least.worst, most))
            most = max(most, walked(it, begin, TRACK, f"{seed} {number}").worst)
    return most


# Merged tables

def measure_merged(program: str, what: Any) -> dict[str, Any]:
    """The latest end of tables that are merged from schedules of the tracks, and that of the longest of these; the program checks the tables."""
    drawn, slot = draw_condition(what)
    text = drawn.text(0, slot, FREE)
    it = searching(text)
    plan = Plan(it.problem, it.problem.design())
    made = Merging(it.problem, plan, by_ways(it.problem, plan))
    checked(program, text, made)
    return {"graph": what["graph"], "slot": what["slot"], "longest": made.longest, "merged": made.worst}


def checked(program: str, text: str, made: Merging) -> None:
    file, packed = folder() / "graph.toml", folder() / "merged.pack"
    head = pack.parsed(answer(program, "compile", text)[1])
    packed.write_bytes(pack.bytes_of(made.pack(head)))
    done = subprocess.run([program, "check", file, packed], capture_output=True, check=False)
    if done.stdout != b"safe\n":
        raise Wrong(f"merged tables: {(done.stdout + done.stderr).decode().strip()}")


# Mappings and checkpoints

def placed_graphs() -> Iterator[dict[str, Any]]:
    """Of the graphs with faults one of each kind, with 1 to 3 faults; of the largest ones those with one track."""
    for what in fault_graphs():
        if what["graph"] % 4 == 0 and what["k"] < 4 and (what["processes"] < 60 or what["tracks"] == 1):
            yield what


def measure_placed(program: str, what: Any) -> dict[str, Any]:
    """The latest end if a better order, mapping, number of parts, or all of them are searched."""
    drawn, k, seed = draw_fault(what), what["k"], f"{what['graph']} {what['k']}"
    nodes = [f"N{n}" for n in range(what["nodes"])]
    free = {"order": {}, "mapping": {"nodes": nodes}, "both": {"nodes": nodes, "parts": [1, 12]}}
    line: dict[str, Any] = {"graph": what["graph"], "k": k}
    for name in ("order", "mapping"):
        it = searching(drawn.text(0, SLOT, FREE), {"process": {"*": free[name]}} if free[name] else {})
        line[f"base {name}"] = asked(program, it, best(it, DESIGNS, seed))
    for frozen in FORMS:
        for name, table in free.items():
            if frozen == "none" and k > 2:
                line[f"{frozen} {name}"] = ""
                continue
            it = searching(drawn.text(k, SLOT, COSTS, frozen=frozen), {"process": {"*": table}} if table else {})
            found = best(it, DESIGNS, seed)
            line[f"{frozen} {name}"] = asked(program, it, found)
            if (frozen, name) == ("messages", "mapping"):
                line["carried"] = sum(found.plan.node[edge.source] != found.plan.node[edge.target] for edge in it.problem.edges)
    climbed, parts = checkpoints(program, drawn, k, seed) if k == 2 and what["processes"] < 60 else ("", "")
    return {**line, "climbed": climbed, "parts": parts}


def checkpoints(program: str, drawn: Drawn, k: int, seed: str) -> tuple[object, object]:
    """The latest end with messages frozen, as placed, with the parts of a climb that changes one process by one part at a time, and with those
    of a search; under the order that a compile takes."""
    it = searching(drawn.text(k, SLOT, COSTS, frozen="messages"), {"order": False, "process": {"*": {"parts": [1, 255]}}})
    ones = it.problem.design().parts
    ends: dict[tuple[int, ...], int] = {}

    def end(parts: tuple[int, ...]) -> int:
        if parts not in ends:
            found = it.compiled(Plan(it.problem, it.base._replace(parts=parts)))
            ends[parts] = found.worst if found and not it.over(found) else 10**9
        return ends[parts]

    def climbed(parts: tuple[int, ...]) -> int:
        worst, better = end(parts), True
        while better:
            better = False
            for p in range(len(parts)):
                for step in (1, -1):
                    changed = (*parts[:p], parts[p] + step, *parts[p + 1:])
                    if 1 <= changed[p] <= 255 and end(changed) < worst:
                        parts, worst, better = changed, end(changed), True
        return worst

    found = best(it, DESIGNS, seed)
    said, _ = shown(program, graph.spelled(document_of(it.problem, found.plan.design)))
    if said != found.worst:
        raise Wrong(f"reckoned worst {found.worst}, the program says {said}")
    return min(map(climbed, (ones, tuple(best_parts(program, drawn, k))))), found.worst


# Systems of two periods

def rate_systems() -> Iterator[dict[str, Any]]:
    for kind in ("plain", "choice"):
        for number in range(SYSTEMS):
            yield {"system": number, "kind": kind}


def measure_rates(program: str, what: Any) -> dict[str, Any]:
    """By how much the ends miss their dues, below 0 by how much they don't: as compiled, under the order of a quick search, under that of a long
    one, and at least."""
    it = searching(two_rate.unrolled(program, folder(), what["system"], what["kind"] == "choice").read_text())
    now, least, quick, seed = compiled(it), it.least, it.quick_tries(), f"{what['system']} {what['kind']}"
    assert least
    found = best(it, quick, "1.0.0")
    it.goal = "in-time"
    long = walked(it, found, LONG, seed) if found.late > 0 >= least.late else found
    line = {**what, "processes": it.problem.count, "nodes": len(it.problem.nodes), "k": it.problem.k, "load": load(it)}
    for name, one in (("late", now), ("quick", found), ("long", long)):
        document = document_of(it.problem, one.plan.design if name == "late" else one.plan.design._replace(order=tuple(one.order)))
        if (answer(program, "show", graph.spelled(document))[0] == 5) != (one.late > 0):
            raise Wrong(f"reckoned late {one.late}, the program says something else")
        line[name] = one.late
    return {**line, "least": least.late}


def load(it: Search) -> int:
    """The work of the busiest node, in per cent of the time that there is."""
    works = [max(sum(it.problem.processes[p].wcet for p in range(it.problem.count) if track.active[p] and it.problem.processes[p].node == n)
                 for n in range(len(it.problem.nodes))) for track in it.problem.tracks]
    return 100 * max(works) // it.problem.graph.deadline
