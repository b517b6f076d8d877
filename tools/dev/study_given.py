"""The families of the study that are compiled as they are drawn: graphs with conditions, graphs with faults, and runs that are timed.

Each family lists what it measures, and measures one: the fields of a line.
"""
from __future__ import annotations

import itertools
import math
from pathlib import Path
from typing import Any

from cpgc_tools import tuned
from dev.measuring import timed
from dev.study_graphs import Drawn
from dev.study_runs import Wrong, answer, folder, shown, under_urgency

SLOT = 2
BUSES = {"2": (2, 1), "10": (10, 1), "0.2": (2, 10)}  # a slot by its name: its length, and by what executions are longer
COSTS = 2, 3, 5  # alpha, chi and mu, where there are faults
FREE = 0, 0, 0
CUTS = {"none": ("one", "50", "34", "25", "tuned", "rule"), "messages": ("one", "50", "34", "25", "tuned"), "all": ("one", "tuned")}
FORMS = [(frozen, cut) for frozen, cuts in CUTS.items() for cut in cuts]  # what is frozen, and how executions are cut
RULED = {20: 4, 40: 2, 60: 1}  # by the number of processes up to which k the rule is tried
CELL = 72  # as many graphs of each size and number of tracks


def cut_parts(cut: str, drawn: Drawn, best: Any, base: Any, faults: int) -> Any:
    """The parts of each process, or nothing for one each: by a greatest length, as `tune` says, or by the rule of the page."""
    if cut in ("one", "tuned"):
        return best if cut == "tuned" else None
    longest = math.isqrt((COSTS[0] + COSTS[1]) * base // faults) if cut == "rule" else int(cut)
    return [-(-wcet // longest) for wcet in drawn.wcet]


def best_parts(program: str, drawn: Drawn, faults: int) -> Any:
    """The parts that `tune` finds, which rest on nothing but the processes' own durations: so all is frozen, and it is quick."""
    _, out, _ = answer(program, "tune", drawn.text(faults, SLOT, COSTS, frozen="all"))
    return tuned.best_parts(out.decode())


def condition_graphs() -> Any:
    """Number, slot and what is drawn, for all graphs of the first family; the second and third slots are for a part of the smallest ones."""
    cells = list(itertools.product((60, 80, 120), (10, 12, 18, 24, 32)))
    for slot, count, chosen in (("2", CELL, cells), ("10", 11, cells[:5]), ("0.2", 11, cells[:3])):
        for cell, (processes, tracks) in enumerate(chosen):
            for n in range(count):
                yield {"graph": cell * CELL + n, "slot": slot, "processes": processes, "tracks": tracks, "nodes": 1 + n % 11,
                       "durations": ("uniform", "exponential")[n % 2]}


def draw_condition(what: Any) -> Any:
    drawn = Drawn(what["graph"], what["processes"], what["tracks"], what["nodes"], what["durations"] == "exponential")
    assert len(drawn.arms) == what["processes"] and len(drawn.tracks()) == what["tracks"]
    slot, longer = BUSES[what["slot"]]
    drawn.wcet = [wcet * longer for wcet in drawn.wcet]
    return drawn, slot


def measure_condition(program: str, what: Any) -> Any:
    """One table for all tracks, and each track alone, without broadcasts and with its own."""
    drawn, slot = draw_condition(what)
    tracks = drawn.tracks()
    work, way, bound = (max(figures) for figures in zip(*(drawn.measures(values, slot) for values in tracks)))
    worst, columns = shown(program, drawn.text(0, slot, FREE))
    return {**what, "conditions": len(drawn.conditions), "edges": len(drawn.edges), "messages": drawn.messages(),
            "work": work, "way": way, "bound": bound,
            "alone": max(shown(program, drawn.alone(values, slot))[0] for values in tracks),
            "heard": max(shown(program, drawn.heard(values, slot))[0] for values in tracks), "worst": worst,
            "urgency": under_urgency(program, drawn.text(0, slot, FREE, deadline=0)), "columns": columns}


def fault_graphs() -> Any:
    """What is drawn for the second family, each with 1 to 4 faults: four of each kind, of the largest one."""
    every = itertools.product((20, 40, 60), (2, 3, 4, 5, 6), (1, 4), ("any", "near"), range(4))
    for number, (processes, nodes, tracks, places, copy) in enumerate(every):
        for k in (1, 2, 3, 4) if processes < 60 or copy == 0 else ():
            yield {"graph": 100000 + number, "processes": processes, "tracks": tracks, "nodes": nodes, "places": places, "k": k}


def draw_fault(what: Any) -> Any:
    return Drawn(what["graph"], what["processes"], what["tracks"], what["nodes"], near=what["places"] == "near")


def measure_faults(program: str, what: Any) -> Any:
    """The latest end where nothing, messages or all is frozen, by how executions are cut, and the columns with one part."""
    drawn, k = draw_fault(what), what["k"]
    best, base = best_parts(program, drawn, k), shown(program, drawn.text(0, SLOT, FREE))[0]
    line = {**what, "edges": len(drawn.edges), "messages": drawn.messages(), "base": base, "parts": sum(best),
            "urgency": under_urgency(program, drawn.text(k, SLOT, COSTS, deadline=0))}
    for frozen, cut in FORMS:
        if cut == "rule" and k > RULED[what["processes"]]:
            line[f"{frozen} {cut}"] = ""
            continue
        worst, columns = shown(program, drawn.text(k, SLOT, COSTS, frozen=frozen, parts=cut_parts(cut, drawn, best, base, k)))
        line.update({f"{frozen} {cut}": worst, **({f"{frozen} columns": columns} if cut == "one" else {})})
    return line


def time_graphs() -> Any:
    """The graphs whose runs are timed: of the first family one of each cell, of the second eight with four tracks."""
    for what in condition_graphs():
        if what["slot"] == "2" and what["graph"] % CELL == 4:
            yield {"family": "conditions", "k": 0, "frozen": "none", **what}
    for what in fault_graphs():
        if what["graph"] % 32 == 8:
            for frozen in ("none", "messages", "all"):
                yield {"family": "faults", "frozen": frozen, **what}


def measure_times(program: str, what: Any) -> Any:
    """How long a compile and a check take, in microseconds of processor time, and how many bytes the pack has."""
    if what["family"] == "conditions":
        text = draw_condition(what)[0].text(0, SLOT, FREE)
    else:
        text = draw_fault(what).text(what["k"], SLOT, COSTS, frozen=what["frozen"])
    file, pack, said = (str(folder() / name) for name in ("graph.toml", "pack", "said"))
    Path(file).write_text(text)
    line = {key: what[key] for key in ("family", "graph", "processes", "k", "frozen")}
    status, compiled, *_ = timed([program, "compile", file], pack, 1)
    if status == 6:
        return {**line, "compile": "wide", "check": "", "bytes": ""}
    if status or (checked := timed([program, "check", file, pack], said, 1))[0]:
        raise Wrong(f"graph {what['graph']}: a compile or a check ends with another status")
    return {**line, "compile": round(compiled * 1e6), "check": round(checked[1] * 1e6), "bytes": Path(pack).stat().st_size}
