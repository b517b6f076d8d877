"""Makes one graph of graphs with different periods, as `cpgc hyper` does, with edges from one part to another.

    hyper-edges RULES N GRAPH [N GRAPH ..] > joined.toml

The words after RULES are those of `cpgc hyper`, which makes the copies PART.INSTANCE.NAME; parts count from 0. RULES is a TOML file:

    parts = ["inner", "outer"]  # may be left out: names of the parts in place of numbers, in all that shows the graph
    [[edge]]
    from = "outer.setpt"        # a process of a part; 1.setpt without names
    to = "inner.normal"
    take = "latest before"      # which instances an edge leads from and to
    bytes = 12                  # bytes, when and frozen as in a graph file

`take` says for each instance of `to` which instances of `from` it takes, by the times at which periods begin:

    latest before    the latest one whose period begins before that of the instance of `to`
    latest           the latest one that begins before it or with it
    latest due       the latest one that is due by the time it begins, so that nothing waits
    all within       each one that begins within the period of the instance of `to`

An instance of `to` without such a one has no edge: it takes what the cycle before has left. With `once = true` an instance of `from` has an edge
only to the first of several instances of `to`. Those after it begin when the first is due, and find the value on their node if the first always
runs. `pairs = [[0, 1], ..]` in place of `take` lists instances of `from` and `to`.

An edge may not change what runs. So an edge to a join is refused, and, unless it has `when`, an edge to a process that also runs in scenarios in
which `from` doesn't. The output is a graph file; comments at its head list the edges of the rules.

For example, `hyper-edges rates.toml 1000 inner.toml 2000 outer.toml > joined.toml`.
"""
from __future__ import annotations

import re
from collections.abc import Iterator
from dataclasses import dataclass
from typing import NoReturn

from cpgc_tools import cli, graph, instances
from cpgc_tools.explain.files import near
from cpgc_tools.graph import File, Graph, Process, has_type, in_range, shown, wanted
from cpgc_tools.instances import Instances
from cpgc_tools.program import Program
from cpgc_tools.toml_places import Table

PART = re.compile("[A-Za-z_][A-Za-z0-9_-]*")  # a name of a part
TAKES = ("latest before", "latest", "latest due", "all within")
KEYS = ("from", "to", "take", "pairs", "once", "bytes", "when", "frozen")
MOST_OUTCOMES = 2**14  # of a graph that cpgc takes


@dataclass(frozen=True)
class End:
    """A process of a part."""

    part: int
    name: str

    def copy(self, it: Instances, instance: int) -> Process:
        return it.copy(self.part, instance, self.name)

    def begin(self, it: Instances, instance: int) -> int:
        return instance * it.parts[self.part].period


class Rules:
    """A file of rules, and the copies that they are about."""

    def __init__(self, file: File, it: Instances) -> None:
        self.file, self.it = file, it
        for key in file.document:
            if key not in ("edge", "parts"):
                self.fail(f"{key} is no key of rules{near(key, ['edge', 'parts'])}", key)
        entries = file.document.get("edge", [])
        if not isinstance(entries, list) or not (entries or "parts" in file.document) or not all(isinstance(entry, dict) for entry in entries):
            self.fail("there is no [[edge]]")
        self.entries: list[Table] = entries
        if "parts" in file.document:
            self.it = self.named(it, file.document["parts"])

    def named(self, it: Instances, names: object) -> Instances:
        """The same with names in place of the numbers of parts."""
        if not isinstance(names, list) or not all(isinstance(name, str) and PART.fullmatch(name) for name in names) or len(set(names)) < len(names):
            self.fail("parts is no list of names, each with a letter first, without dots, and once", "parts")
        if len(names) != len(it.parts):
            self.fail(f"parts has {len(names)} names, and there are {len(it.parts)} parts", "parts")
        labels = dict(zip((part.label for part in it.parts), names))

        def renamed(name: str) -> str:
            label, rest = name.split(".", 1)
            new = f"{labels[label]}.{rest}"
            if not graph.is_name(new):
                self.fail(f"{new} has more than 32 letters", "parts")
            return new

        document = dict(it.graph.document)
        document["process"] = [{**entry, "name": renamed(entry["name"])} for entry in document["process"]]
        document["edge"] = [{**entry, "from": renamed(entry["from"]), "to": renamed(entry["to"])} for entry in document.get("edge", [])]
        found = instances.of(Graph.of(document))
        assert found is not None
        return found

    def fail(self, what: str, *path: str | int) -> NoReturn:
        cli.fail(self.file.at(what, *path))

    def end(self, number: int, key: str) -> End:
        """The process that a rule names by a key."""
        said, labels = self.entries[number].get(key), [part.label for part in self.it.parts]
        label, _, name = said.partition(".") if isinstance(said, str) else ("", "", "")
        if not label or not name:
            self.fail(f"edge {number} has {key} = {shown(said)}, which isn't PART.NAME, as \"{labels[0]}.{self.it.parts[0].names[0]}\"", "edge", number, key)
        if label not in labels:
            self.fail(f"edge {number}: {key} = {shown(said)}: the parts are {', '.join(labels)}", "edge", number, key)
        names = self.it.parts[labels.index(label)].names
        if name not in names:
            self.fail(f"edge {number}: {key} = {shown(said)}: part {label} has no process {name}{near(name, names)}", "edge", number, key)
        return End(labels.index(label), name)

    def pairs(self, number: int, source: End, target: End) -> list[tuple[int, int]]:
        """The instances of a rule."""
        entry, counts = self.entries[number], (self.it.parts[source.part].count, self.it.parts[target.part].count)
        if ("take" in entry) == ("pairs" in entry):
            self.fail(f"edge {number} needs take or pairs" + ", and not both" * ("take" in entry), "edge", number)
        if "pairs" in entry:
            pairs = entry["pairs"]
            if not isinstance(pairs, list) or not all(isinstance(it, list) and len(it) == 2 and all(type(n) is int and 0 <= n < most for n, most in zip(it, counts)) for it in pairs):
                self.fail(f"edge {number}: pairs has pairs of instances below {counts[0]} and {counts[1]}", "edge", number, "pairs")
            return [(a, b) for a, b in pairs]
        if entry["take"] not in TAKES:
            self.fail(f"edge {number}: take = {shown(entry['take'])} is none of {', '.join(TAKES)}{near(entry['take'], TAKES)}", "edge", number, "take")
        return list(self.taken(entry["take"], source, target))

    def taken(self, take: str, source: End, target: End) -> Iterator[tuple[int, int]]:
        count, period = self.it.parts[source.part].count, self.it.parts[target.part].period
        for instance in range(self.it.parts[target.part].count):
            begin = target.begin(self.it, instance)
            begins = {other: source.begin(self.it, other) for other in range(count)}
            if take == "all within":
                found = [other for other, time in begins.items() if begin <= time < begin + period]
            elif take == "latest due":
                found = [other for other in begins if source.copy(self.it, other).due <= begin][-1:]
            else:
                found = [other for other, time in begins.items() if time < begin or take == "latest" and time == begin][-1:]
            yield from ((other, instance) for other in found)

    def edges(self, number: int) -> list[Table]:
        """The edges of a rule."""
        entry = self.entries[number]
        for key, value in entry.items():
            if key not in KEYS:
                self.fail(f"edge {number}: {key} is none of its keys{near(key, KEYS)}; they are {', '.join(KEYS)}", "edge", number, key)
            if key in ("bytes", "when", "frozen") and not (has_type("edge", key, value) and in_range("edge", key, value)):
                self.fail(f"edge {number} has {key} = {shown(value)}, which isn't {wanted('edge', key)}", "edge", number, key)
        if type(entry.get("once", False)) is not bool:
            self.fail(f"edge {number} has once = {shown(entry['once'])}, which isn't true or false", "edge", number, "once")
        source, target = self.end(number, "from"), self.end(number, "to")
        pairs = self.pairs(number, source, target)
        if entry.get("once"):
            pairs = [(a, b) for a, b in pairs if b == min(it for other, it in pairs if other == a)]
        if not pairs:
            self.fail(f"edge {number} leads from no instance to any: take another, or leave it out", "edge", number)
        self.ask_activity(number, pairs, source, target)
        more = {key: entry[key] for key in ("bytes", "when", "frozen") if key in entry}
        return [{"from": source.copy(self.it, a).name, "to": target.copy(self.it, b).name, **more} for a, b in pairs]

    def ask_activity(self, number: int, pairs: list[tuple[int, int]], source: End, target: End) -> None:
        """Edges don't change what runs."""
        if target.copy(self.it, 0).join:
            self.fail(f"edge {number} leads to {target.name}, a join, which would take it for one more of its alternatives: lead to a process before or behind it", "edge", number)
        if "when" in self.entries[number]:
            return
        asked = [(source.copy(self.it, a).number, target.copy(self.it, b).number) for a, b in pairs]
        for count, (active, _) in enumerate(self.it.graph.outcomes()):
            if count > MOST_OUTCOMES:
                return
            for a, b in asked:
                if active >> b & 1 and not active >> a & 1:
                    names = (self.it.graph.processes[it].name for it in (a, b))
                    self.fail("edge {}: {} doesn't always run when {} does, which would then not run either: lead from a process that does".format(number, *names), "edge", number)

    def all_edges(self) -> list[Table]:
        return [edge for number in range(len(self.entries)) for edge in self.edges(number)]


def joined(it: Graph, edges: list[Table], path: str) -> Graph:
    """The graph with more edges. If these lead around, the tool ends."""
    found = it.changed(top={"edge": [*it.document.get("edge", []), *edges]})
    try:
        found.sources_first()
    except ValueError:
        cli.fail(f"{path}: with these edges a process would wait for itself; `cpgc show` names them in what hyper writes with the edges one by one")
    return found


def main() -> None:
    words = cli.Words(__doc__).with_program().with_files("RULES")
    words.add_argument("parts", metavar="N GRAPH", nargs="+", help="the words of cpgc hyper")
    said = words.parse_args()
    rules = File(said.rules, content=cli.read(said.rules, cli.GRAPH))
    if not rules.document:
        graph.toml_of(said.rules, rules.bytes)
        cli.fail(f"{said.rules}: there is no [[edge]]")
    with Program(said.program) as cpgc:
        text = cpgc.output("hyper", *said.parts)
    it = instances.of(graph.parsed("cpgc hyper", text))
    if it is None:
        cli.fail("the parts have no processes")
    asked = Rules(rules, it)
    edges = asked.all_edges()
    found = joined(asked.it.graph, edges, said.rules)
    cli.write_lines([f"# cpgc hyper {cli.shown(' '.join(said.parts))}, and edges by {cli.shown(said.rules)}:", *(f"#   {edge['from']} > {edge['to']}" for edge in edges)])
    cli.write(found.text())
