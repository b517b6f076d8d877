"""Says how far the starts of a process are apart from instance to instance, and which release makes them one.

    jitter GRAPH [PACK]
    jitter --process PART.NAME GRAPH [PACK]

GRAPH is one that `cpgc hyper` or `hyper-edges` has made. An offset is a start less the start of its instance's period. For each process with more
than one instance the output has the least and the greatest offset over all instances and scenarios (`earliest`, `latest`), how far these are
apart, and how far offsets are apart within one instance at most, in which only scenarios differ.

A release is shown for each process that --process names or, without --process, that nothing waits for, as actuators are. If all copies have that
release, after the start of their period, and are frozen, all start at this one offset. It was found by compiling; `none` says that what was
compiled wasn't in time, or that 8 tries found no offset. If there are several, the last line says whether they can be put in together. --all
lists each instance.

For example, `jitter joined.toml --process 0.elev_l`.
"""
from __future__ import annotations

from collections.abc import Iterator, Mapping
from typing import NamedTuple

from cpgc_tools import cli, instances, pack, safe, show
from cpgc_tools.graph import Graph
from cpgc_tools.instances import Instances
from cpgc_tools.pack import Pack
from cpgc_tools.program import Program

TRIES = 8
Named = tuple[int, str]  # a part and a process of it


class Offsets(NamedTuple):
    """The least and the greatest offset of the starts of a process in each instance; nothing of one that never runs."""

    least: list[int]
    greatest: list[int]

    @property
    def apart(self) -> int:
        return max(self.greatest) - min(self.least)

    @property
    def within(self) -> int:
        return max(b - a for a, b in zip(self.least, self.greatest))


def offsets(it: Instances, tables: Pack, process: Named) -> Offsets | None:
    part, name = process
    found = Offsets([], [])
    for instance in range(it.parts[part].count):
        row = tables.row("start", it.name(part, instance, name))
        times = [time - instance * it.parts[part].period for time, _ in row[1].columns] if row else []
        if times:
            found.least.append(min(times))
            found.greatest.append(max(times))
    return found if found.least else None


def at_releases(it: Instances, releases: Mapping[Named, int]) -> Graph:
    """The graph in which processes are frozen and have releases, behind the start of each instance's period."""
    changes: dict[int, dict[str, object]] = {}
    for (part, name), release in releases.items():
        for instance in range(it.parts[part].count):
            changes[it.copy(part, instance, name).number] = {"release": instance * it.parts[part].period + release, "frozen": True}
    return it.graph.changed(process=changes)


class Found(NamedTuple):
    releases: dict[Named, int]
    worst: int


def released(cpgc: Program, it: Instances, first: Mapping[Named, int]) -> Found | None:
    """Releases with which each of these processes starts at one offset: at first those that are given, then those to which the starts moved."""
    releases = dict(first)
    for _ in range(TRIES):
        ran = cpgc.answer("compile", cpgc.file("released.toml", at_releases(it, releases).text()), statuses=(0, 4, 5, 6))
        if ran.status:
            return None
        tables = pack.parsed(ran.out)
        then = {process: found for process in releases if (found := offsets(it, tables, process))}
        if all(found.apart == 0 for found in then.values()):
            return Found({process: found.least[0] for process, found in then.items()}, max(tables.latest_ends().values(), default=0))
        releases.update({process: max(found.greatest) for process, found in then.items()})
    return None


def called(it: Instances, process: Named) -> str:
    return f"{it.parts[process[0]].label}.{process[1]}"


def repeated(it: Instances) -> list[Named]:
    """The processes with more than one instance."""
    return [(number, name) for number, part in enumerate(it.parts) if part.count > 1 for name in part.names]


def named(it: Instances, names: list[str], path: str) -> list[Named]:
    """The processes whose releases are asked for: those of the names, or those that nothing waits for."""
    known = {called(it, process): process for process in repeated(it)}
    if unknown := [name for name in names if name not in known]:
        cli.fail(f"{path}: {unknown[0]} is no process with more than one instance; they are {', '.join(list(known)[:12]) or 'none'}{' ..' if len(known) > 12 else ''}")
    sources = {edge.source for edge in it.graph.edges}
    return [known[name] for name in dict.fromkeys(names)] or [process for process in known.values() if it.copy(process[0], 0, process[1]).number not in sources]


def lines(it: Instances, tables: Pack, found: Mapping[Named, Found | None], everything: bool) -> Iterator[str]:
    rows: list[tuple[object, ...]] = [("process", "node", "earliest", "latest", "apart", "in one", "release", "worst")]
    for process in repeated(it):
        each = offsets(it, tables, process)
        node = it.graph.node_of(it.copy(process[0], 0, process[1]))
        if each is None:
            rows.append((called(it, process), node, "never"))
            continue
        release: tuple[object, ...] = ()
        if process in found:
            one = found[process]
            release = ("none",) if one is None else (one.releases[process], one.worst)
        rows.append((called(it, process), node, min(each.least), max(each.greatest), each.apart, each.within, *release))
        if everything and len(each.least) == it.parts[process[0]].count:
            rows += [(f"  in {number}", "", a, b, "", b - a) for number, (a, b) in enumerate(zip(each.least, each.greatest))]
    yield from (line.rstrip() for line in show.in_columns(rows))


def main() -> None:
    words = cli.Words(__doc__).with_program().with_files("GRAPH")
    words.add_argument("--process", metavar="PART.NAME", action="append", default=[], help="a process whose release is asked for; may be said again")
    words.add_argument("--all", action="store_true", help="list each instance")
    words.add_argument("pack", metavar="PACK", nargs="?", help="its tables, else it is compiled")
    said = words.parse_args()
    with Program(said.program) as cpgc:
        read = safe.read(cpgc, said.graph, said.pack)
        tables, it = read.tables, instances.of(read.graph)
        if it is None:
            cli.fail(f"{said.graph}: not a graph of `cpgc hyper`, whose processes are named PART.INSTANCE.NAME")
        asked = named(it, said.process, said.graph)
        first = {process: max(each.greatest) for process in asked if (each := offsets(it, tables, process)) and (each.apart or said.process)}
        found = {process: released(cpgc, it, {process: release}) for process, release in first.items()}
        together = released(cpgc, it, first) if len(first) > 1 else None
    cli.write_lines(lines(it, tables, found, said.all))
    if len(first) > 1:
        put = together and ", ".join(f"{called(it, process)} {release}" for process, release in together.releases.items())
        cli.write(f"together: {put}: worst {together.worst}\n" if together else "together: none\n")
