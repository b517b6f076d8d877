"""Draws the tables of a pack, or plays of them, as an SVG picture on standard output.

    draw GRAPH PACK > tables.svg
    draw GRAPH PACK SCENARIO .. > plays.svg
    draw GRAPH PACK --worst > worst.svg

Without a scenario it draws the tables: for each node, a row for each of its processes and for each item that it sends on the bus. A bar
is a column, from its time to its end without faults. The more faults the column's literals require, the lower and darker the bar is. The
thin line behind it goes to the latest end, with the faults that are left. A line leads to the latest end of all scenarios, through what
that waits for.

With scenarios it draws a play of each, as `cpgc play` writes it, and with --worst a play of a scenario that has the latest end. A play
shows what each node runs, with faults, recoveries and overheads, and each message from its slot to the start that it is for.

Tables that `cpgc` doesn't find safe for the graph aren't drawn.

For example, `draw pair.toml pair.pack pair-scenario.toml --rows 2 > play.svg`.
"""
from __future__ import annotations

import argparse
import os
from collections.abc import Iterator, Sequence

from cpgc_tools import cli, graph, play, safe, schedule
from cpgc_tools.draw.plays import Plays, Shown
from cpgc_tools.draw.shared import Options
from cpgc_tools.draw.tables import Tables
from cpgc_tools.graph import Graph
from cpgc_tools.program import Program


def options_of(words: Sequence[str] | None = None) -> argparse.Namespace:
    parser = cli.Words(__doc__).with_program().with_files("GRAPH", "PACK")
    parser.add_argument("scenarios", metavar="SCENARIO", nargs="*")
    parser.add_argument("--worst", action="store_true", help="also draws a play of a scenario that has the latest end")
    parser.add_argument("--due", metavar="GRAPH", help="in plays, draws the due times of this other file of the graph, such as one that is rejected as late")
    parser.add_argument("--node", action="append", metavar="NAME", help="only this node; may be given more than once")
    parser.add_argument("--from", dest="begin", type=cli.whole(0, 10**12), default=0, metavar="TIME", help="only what is at this time or later")
    parser.add_argument("--to", dest="end", type=cli.whole(0, 10**12), metavar="TIME", help="only what is at this time or before")
    parser.add_argument("--rows", type=cli.whole(1, 100), default=1, metavar="N", help="wraps the time axis into this many rows")
    parser.add_argument("--width", type=cli.whole(400, 10000), default=900, metavar="N", help="the width of the picture in pixels (900)")
    said = parser.parse_intermixed_args(words)
    if said.due and not (said.scenarios or said.worst):
        parser.error("--due is of plays: name a scenario too, or --worst")
    return said


def nodes_of(it: Graph, named: Sequence[str] | None) -> frozenset[int]:
    unknown = [name for name in named or [] if name not in it.nodes]
    if unknown:
        cli.fail(f"no such node: {unknown[0]}")
    return frozenset(n for n, name in enumerate(it.nodes) if not named or name in named)


def dues_of(it: Graph, path: str | None) -> tuple[int, list[int]]:
    """The deadline, and when each process is due, by the graph or by another file of it."""
    other = graph.read(path) if path else it
    if list(other.number) != list(it.number):
        cli.fail(f"{path}: its processes are others")
    return other.deadline, [process.due for process in other.processes]


def picture(said: argparse.Namespace) -> Iterator[str]:
    """The lines of the picture. The first thing is that `cpgc` takes the files."""
    name = os.path.basename(said.graph)
    with Program(said.program) as cpgc:
        read = safe.read(cpgc, said.graph, said.pack)
        it, tables = read.graph, read.tables
        options = Options(nodes_of(it, said.node), said.begin, said.end, said.rows, said.width, said.due)
        plays = []
        for path in said.scenarios:
            content = cli.read(path, cli.SCENARIO)
            acts = read.play(content)
            plays.append(Shown.of(it, play.scenario_of_document(graph.toml_of(path, content)[1]), acts))
        if said.worst:
            _, scenario, _ = schedule.worst(it, schedule.rows_of(tables))
            plays.append(Shown.of(it, scenario, read.play(play.scenario_file(scenario, it.number))))
    if not plays:
        return Tables(it, tables, options).draw(name)
    return Plays(it, *dues_of(it, said.due), options).draw(name, plays)


def main() -> None:
    cli.write_lines(picture(options_of()))
