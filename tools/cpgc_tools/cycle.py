"""Writes the least cycle time at which the tables of a pack may be repeated.

    cycle GRAPH PACK
    cycle --more GRAPH PACK

The cycle time is the least multiple of the bus round that is before neither the graph's deadline nor the last arrival of a frame
(docs/MODEL.md, "Repeating a cycle"). The pack is checked first. --more also writes what the cycle time comes from: the round, the
deadline, the last arrival, and the latest end, to which the deadline could be lowered.

For example, `cpgc compile pair.toml > pair.pack && cycle pair.toml pair.pack` writes `cycle 120`.
"""
from __future__ import annotations

from cpgc_tools import cli, graph, pack, safe
from cpgc_tools.program import Program


def parts(it: graph.Graph, tables: pack.Pack) -> dict[str, int]:
    bound = max(it.deadline, tables.last_arrival(), 1)
    step = max(it.round, 1)
    return {
        "cycle": -(-bound // step) * step,
        "round": it.round,
        "deadline": it.deadline,
        "last arrival": tables.last_arrival(),
        "latest end": max(tables.latest_ends().values(), default=0),
    }


def main() -> None:
    words = cli.Words(__doc__).with_program().with_files("GRAPH", "PACK")
    words.add_argument("--more", action="store_true", help="also write what the cycle time comes from")
    said = words.parse_args()
    with Program(said.program) as cpgc:
        it = safe.read(cpgc, said.graph, said.pack)
    shown = parts(it.graph, it.tables)
    cli.write_lines(f"{name} {number}" for name, number in list(shown.items())[:None if said.more else 1])
