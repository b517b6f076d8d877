"""The graph file of a design: the text of the one it comes from, with the values changed where they stand."""
from __future__ import annotations

import json
import textwrap
from collections.abc import Mapping, Sequence
from typing import Any

from cpgc_tools.explore.problem import Design, Problem
from cpgc_tools.graph import KINDS, spelled
from cpgc_tools.toml_places import Places, Table, document

BEHIND = {"process": "wcet", "edge": "to"}  # the key behind which a new one is put


def document_of(problem: Problem, design: Design) -> Table:
    """The document of a design."""
    old = problem.graph.document
    processes, edges = [], []
    for p, it in enumerate(old.get("process", [])):
        now = {"node": problem.nodes[design.nodes[p]], "wcet": problem.wcet(p, design.nodes[p]), "parts": design.parts[p], "frozen": p in design.frozen}
        processes.append({**it, **{key: value for key, value in now.items() if key in it or (key, value) not in (("parts", 1), ("frozen", False))}})
    for e, it in enumerate(old.get("edge", [])):
        frozen = -1 - e in design.frozen
        edges.append({**it, "frozen": frozen} if frozen or "frozen" in it else it)
    slots = [{"node": problem.nodes[it.node], "length": it.length, "bytes": it.bytes} for it in design.slots]
    made = {**old, "slot": slots, "process": processes, "edge": edges}
    if design.order is not None:
        made["order"] = [problem.processes[p].name for p in design.order]
    return {key: value for key, value in made.items() if value or key in old}


def text_of(text: str, old: Table, new: Table) -> tuple[str, bool]:
    """The text of the new document, and whether it is the old text with changes."""
    try:
        changed = with_changes(text, old, new)
        if document(changed.replace("\r\n", "\n")) == new:
            return changed, True
    except (ValueError, KeyError, TypeError, AttributeError):
        pass
    return spelled(new), False


def order_text(names: Sequence[str], end: str) -> str:
    """The value of the key `order`, on one line or on several that end so."""
    words = ", ".join(json.dumps(it) for it in names)
    if len(words) <= 90:
        return f"[{words}]"
    return end.join(["[", *(f"  {it}" for it in textwrap.wrap(words, 98, break_on_hyphens=False, break_long_words=False))]) + f",{end}]"


def line_end(text: str) -> str:
    return "\r\n" if "\r\n" in text else "\n"


def end_of_line(text: str, at: int) -> int:
    found = text.find("\n", at)
    return len(text) if found < 0 else found - (text[found - 1] == "\r")


def with_changes(text: str, old: Table, new: Table) -> str:
    """The text with each value that is another one put in, as far as values stand in it as they are read."""
    places = Places(text)
    changes: list[tuple[int, int, str]] = []
    if "order" in new and new["order"] != old.get("order"):
        changes.append(order_change(text, places, new["order"]))
    for kind in KINDS:
        for number, (was, now) in enumerate(zip(old.get(kind, []), new.get(kind, []))):
            changes += [value_change(text, places, (kind, number, key), was, value) for key, value in now.items() if was.get(key) != value]
    for begin, end, put in reversed(sorted(changes, key=lambda it: it[:2])):
        text = text[:begin] + put + text[end:]
    return text


def order_change(text: str, places: Places, names: Sequence[str]) -> tuple[int, int, str]:
    """In the place of an order that stands there, or on a line of its own behind the deadline."""
    value = order_text(names, line_end(text))
    if ("order",) in places.values:
        return (*places.values["order",], value)
    end = end_of_line(text, places.values["deadline",][1])
    return end, end, f"{line_end(text)}order = {value}"


def value_change(text: str, places: Places, path: tuple[str, int, str], was: Mapping[str, Any], value: object) -> tuple[int, int, str]:
    """In the place of a value that stands there, or as a key of its own behind another one."""
    kind, number, key = path
    if path in places.values:
        return (*places.values[path], json.dumps(value))
    if key in was:
        raise KeyError(key)
    begin, end = places.values[kind, number, BEHIND[kind]]
    if (kind, number) not in places.sections:
        return end, end, f", {key} = {json.dumps(value)}"
    line, end = text.rfind("\n", 0, begin) + 1, end_of_line(text, end)
    margin = text[line:begin][:len(text[line:begin]) - len(text[line:begin].lstrip())]
    return end, end, f"{line_end(text)}{margin}{key} = {json.dumps(value)}"
