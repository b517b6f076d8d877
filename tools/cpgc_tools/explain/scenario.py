"""The refusals of a scenario file."""
from __future__ import annotations

from typing import Any

from cpgc_tools.explain.files import Files, listed, mend, near
from cpgc_tools.explain.graph import deciding, not_toml_of
from cpgc_tools.explain.table import Sentences, explains
from cpgc_tools.graph import LONGEST_SHOWN, File, shown

Entries = list[tuple[str, str, Any]]  # a table, a name and a value


@explains(4, "^cpgc: refused 12 scenario (toml|field|unknown|condition|budget|length)$")
def scenario(files: Files, why: str) -> Sentences:
    file = files.get("scenario") or File("")
    graph = files.get("graph") or File("")
    tables = {key: it for key, it in file.document.items() if isinstance(it, dict)}
    entries: Entries = [(table, name, value) for table in ("faults", "values", "lengths") for name, value in tables.get(table, {}).items()]
    yield from {
        "toml": scenario_toml, "field": scenario_field, "unknown": scenario_unknown, "condition": scenario_condition,
        "budget": scenario_budget, "length": scenario_length}[why](file, graph, entries)


def scenario_toml(file: File, graph: File, entries: Entries) -> Sentences:
    yield from not_toml_of(file, "the scenario file is no TOML document")


def scenario_field(file: File, graph: File, entries: Entries) -> Sentences:
    tables = ("faults", "values", "lengths")
    kinds = {"faults": int, "values": bool, "lengths": int}
    for key, value in file.document.items():
        if key not in tables:
            yield file.at(f"{key} is none of the tables of a scenario{near(key, tables)}", key)
            yield mend("faults, values and lengths are its tables; processes stand in them, as A = 1 below [faults]")
            return
        if not isinstance(value, dict):
            yield file.at(f"{key} = {shown(value)} is no table", key)
            yield mend(f"write [{key}] on a line of its own, and below it the processes")
            return
    for table, name, value in entries:
        if isinstance(value, dict):
            dotted = name
            while isinstance(value, dict) and value:
                key, value = next(iter(value.items()))
                dotted += f".{key}"
            yield file.at(f"{dotted[:LONGEST_SHOWN]} is read as tables within tables, since it has dots", table, name)
            yield mend(f'put the name in quotes: "{dotted[:LONGEST_SHOWN]}" = ..')
            return
        if type(value) is not kinds[table]:
            kind = "true or false" if table == "values" else "a whole number"
            yield file.at(f"{name} = {shown(value)} in {table} isn't {kind}", table, name)
            yield mend(f"give {name} {kind}")
            return
    yield file.at("a table or an entry of the scenario has another type than it should")
    yield mend("faults and lengths have whole numbers, values has true and false")


def scenario_unknown(file: File, graph: File, entries: Entries) -> Sentences:
    names = graph.names("process")
    for table, name, _ in entries:
        if names and name not in names:
            yield file.at(f"{name} in {table} is no process of {graph.path}{near(name, names)}", table, name)
            yield mend(f"its processes are {listed(names)}")
            return
    yield file.at("a name in the scenario is no process of the graph")
    yield mend("write the names as the graph file has them")


def scenario_condition(file: File, graph: File, entries: Entries) -> Sentences:
    having = deciding(graph)
    for table, name, _ in entries:
        if table == "values" and graph.document and name not in having:
            yield file.at(f"{name} in values has no condition in {graph.path}: no edge from it has `when`", table, name)
            yield mend(f"leave it out; with a condition there are: {listed(having)}")
            return
    yield file.at("a process in values has no condition")
    yield mend("leave out those from which no edge with `when` leads")


def scenario_budget(file: File, graph: File, entries: Entries) -> Sentences:
    faults = [(name, value) for table, name, value in entries if table == "faults" and isinstance(value, int)]
    below = next((it for it in faults if it[1] < 0), None)
    most = graph.entry("top", 0).get("faults")
    if below:
        yield file.at(f"{below[0]} has {below[1]} faults", "faults", below[0])
        yield mend("a count is 0 or more")
    else:
        said = f"{sum(value for _, value in faults)} faults ({listed(f'{name} {value}' for name, value in faults)})"
        yield file.at(f"there are {said}, and the graph has at most {most}", "faults")
        if most is not None:
            yield graph.at(f"faults = {most}", "faults")
        yield mend("take some out; in one cycle all processes share them")


def scenario_length(file: File, graph: File, entries: Entries) -> Sentences:
    faults = {name: value for table, name, value in entries if table == "faults" and isinstance(value, int)}
    known = graph.graph()
    for table, name, value in entries:
        if table == "lengths" and isinstance(value, int) and known and name in known.number:
            struck = faults.get(name, 0)
            most = known.processes[known.number[name]].duration(struck)
            if not 1 <= value <= most:
                yield file.at(f"{name} runs for {value}, and it can run for 1 to {most} with {struck} fault{'s' * (struck != 1)}", table, name)
                yield mend(f"give it a length from 1 to {most}")
                return
    yield file.at("a length is below 1, or above the duration of its process with its faults")
    yield mend("give it one that the process can have")
