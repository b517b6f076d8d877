"""The one model of a scenario and of a play: what cpgc says of a scenario in a line, in a file, and what the nodes do then.

    it = play.scenario_of("A faults 1, C true")             # as a line of cpgc says it
    play.scenario_file(it)                                  # the text of a scenario file
    acts = play.parsed(lines)                               # what `cpgc play` writes; raises ValueError where it is no play
"""
from __future__ import annotations

from collections.abc import Iterable, Mapping, Sequence
from dataclasses import dataclass, field
from typing import NamedTuple

from cpgc_tools import cli
from cpgc_tools.graph import toml_of
from cpgc_tools.toml_places import Table


@dataclass(frozen=True)
class Scenario:
    """By the names of processes."""

    faults: Mapping[str, int] = field(default_factory=dict)  # where it isn't 0
    true: frozenset[str] = frozenset()  # where the value is true
    lengths: Mapping[str, int] = field(default_factory=dict)

    def text(self, names: Iterable[str]) -> str:
        """As `cpgc` writes it, with the processes in this order."""
        said = []
        for name in names:
            said += [f"{name} faults {self.faults[name]}"] if self.faults.get(name) else []
            said += [f"{name} true"] if name in self.true else []
        return ", ".join(said) or "none"


def scenario_of(line: str) -> Scenario:
    """The scenario that a line says."""
    faults, true = {}, set()
    for part in [] if line == "none" else line.split(", "):
        name, what, *count = part.split(" ")
        if what == "faults":
            faults[name] = int(count[0])
        elif what == "true":
            true.add(name)
    return Scenario(faults, frozenset(true))


def scenario_of_document(document: Table) -> Scenario:
    """The scenario of a document that `cpgc` takes."""
    faults, values = document.get("faults", {}), document.get("values", {})
    return Scenario({name: n for name, n in faults.items() if n}, frozenset(name for name, value in values.items() if value), document.get("lengths", {}))


def read_scenario(path: str) -> Scenario:
    """The scenario of a file that `cpgc` takes."""
    return scenario_of_document(toml_of(path, cli.read(path, cli.SCENARIO))[1])


def scenario_file(scenario: Scenario, names: Iterable[str]) -> str:
    """The text of a scenario file, with the processes in this order."""
    tables: dict[str, Mapping[str, object]] = {"faults": scenario.faults, "values": dict.fromkeys(scenario.true, "true")}
    if scenario.lengths:
        tables["lengths"] = scenario.lengths
    lines, names = [], list(names)
    for key, entries in tables.items():
        lines += [f"[{key}]", *(f'"{name}" = {entries[name]}' for name in names if name in entries)]
    return "".join(line + "\n" for line in lines)


class Start(NamedTuple):
    time: int
    node: str
    name: str


class End(NamedTuple):
    time: int  # up to which its time is kept free
    node: str
    name: str
    faults: int
    value: str | None  # true or false, of a process that has a condition
    ran: int | None  # for how long, where that is less


class Send(NamedTuple):
    time: int
    node: str
    kind: str  # send or tell
    name: str  # eN, or the process whose value it is


@dataclass
class Play:
    starts: dict[str, Start] = field(default_factory=dict)
    ends: dict[str, End] = field(default_factory=dict)
    sends: dict[tuple[str, str], Send] = field(default_factory=dict)
    nodes: list[tuple[int, str]] = field(default_factory=list)  # that act at a time, in turn
    finish: int = 0
    last: int = 0  # the time of the last line

    def really_ends(self, name: str) -> int:
        """When an execution is over."""
        end = self.ends[name]
        return end.time if end.ran is None else self.starts[name].time + end.ran


def parsed(lines: Sequence[str]) -> Play:
    """What the lines of `cpgc play` say. Raises ValueError where they are none, as one that tells no finish."""
    found, whole = Play(), False
    for line in lines:
        words = line.split(" ")
        if words[0] == "finish" and len(words) == 2:
            found.finish, whole = time_of(words[1]), True
        elif words[0].isdigit():
            act(found, words)
    if not whole:
        raise ValueError("it says no finish")
    found.last = max([found.finish, *(time for time, _ in found.nodes)])
    return found


def act(play: Play, words: list[str]) -> None:
    """Takes a line on an act."""
    if len(words) < 4:
        raise ValueError(" ".join(words))
    time, node, kind, name = time_of(words[0]), *words[1:4]
    rest = dict(zip(words[4::2], words[5::2]))
    if kind == "start":
        play.starts[name] = Start(time, node, name)
    elif kind == "end":
        if name not in play.starts or "faults" not in rest:
            raise ValueError(" ".join(words))
        play.ends[name] = End(time, node, name, time_of(rest["faults"]), rest.get("value"), time_of(rest["ran"]) if "ran" in rest else None)
    elif kind in ("send", "tell"):
        play.sends[kind, name] = Send(time, node, kind, name)
    else:
        raise ValueError(" ".join(words))
    play.nodes.append((time, node))


def time_of(word: str) -> int:
    """A number of at most 64 bits. Raises ValueError."""
    if not (word.isascii() and word.isdigit()) or len(word) > 20 or int(word) >= 2**64:
        raise ValueError(f"{word} is no time")
    return int(word)
