"""What several tools begin with: a graph file and a pack that cpgc finds safe for it, and plays of them; the pack of a node.

    it = safe.read(cpgc, "pair.toml", "pair.pack")      # it.graph, it.tables; else the line and the status of cpgc are the tool's
    it.play(scenario_file)                              # a Play
"""
from __future__ import annotations

import argparse
from typing import NamedTuple

from cpgc_tools import cli, graph, pack, play
from cpgc_tools.program import Program


class Safe(NamedTuple):
    cpgc: Program
    files: tuple[str, str]
    graph: graph.Graph
    tables: pack.Pack

    def play(self, scenario: str | bytes) -> play.Play:
        """What the nodes do in the scenario of a file."""
        return play.parsed(self.cpgc.text("play", *self.files, self.cpgc.file("scenario.toml", scenario), "--turns", "0").splitlines())


def tables_of(cpgc: Program, graph_file: str, given: bytes | None) -> bytes:
    """The tables of a graph: a pack that is checked, or those that are compiled."""
    if given is None:
        return cpgc.output("compile", graph_file)
    cpgc.asked("check", graph_file, cpgc.file("tables.pack", given))
    return given


def read(cpgc: Program, graph_path: str, pack_path: str | None) -> Safe:
    """A graph file with a pack, or if there is none with its own tables."""
    written, given = cli.read(graph_path, cli.GRAPH), None if pack_path is None else cli.read(pack_path, cli.PACK)
    file = cpgc.file("graph.toml", written)
    tables = tables_of(cpgc, file, given)
    return Safe(cpgc, (file, cpgc.file("tables.pack", tables)), graph.parsed(graph_path, written), pack.of_file(pack_path or graph_path, tables))


def words_with_node(text: str | None) -> cli.Words:
    """Words that end with PACK and NODE."""
    words = cli.Words(text, short_help=False)
    words.add_argument("pack", metavar="PACK", help="a pack of schedule tables")
    words.add_argument("node", metavar="NODE", help="the name of the node")
    return words


def node_of(said: argparse.Namespace) -> tuple[bytes, pack.Pack, int]:
    """The bytes of the pack, the pack, and the number of the node that words say."""
    content = cli.read(said.pack, cli.PACK)
    tables, name = pack.of_file(said.pack, content), said.node or "--"  # which argparse takes out, wherever it stands
    if name not in tables.nodes:
        cli.fail(f"{said.pack}: no node is named {name}; its nodes are {', '.join(tables.nodes)}")
    return content, tables, tables.nodes.index(name)
