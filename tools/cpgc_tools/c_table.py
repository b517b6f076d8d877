"""Writes the table of one node as C, for the node of runtime/c; or what its program needs to know of it.

    c-table PACK NODE > table.c
    cc $(c-table PACK NODE --sizes) -I runtime/c -c runtime/c/cpg_node.c table.c
    c-table PACK NODE --header GRAPH > table_names.h
    c-table PACK NODE --cost
    c-table PACK NODE --pack > table.pack

table.c has the constants of cpg_node_table, which runtime/c/cpg_table.h declares: the rows of the node, its columns by time, its processes with their
durations and conditions. What stands in the C is read again and held against cpgc: written as a table it has to be the text of `cpgc node`, and
put into the pack it has to be that pack again. With --graph its head has to be the one of the graph, as `cpgc check` says. Where one differs nothing is
written, and the status isn't 0.

--sizes writes the macros of cpg_node.h that are just large enough, as words for the compiler. With less table.c isn't compiled.

--header writes names for the numbers of events: the own processes, and the frames that the node sends and hears, with the bytes of messages, which
stand in the graph file. What isn't a letter or a digit of C is _ there. An inserted process changes numbers, but no name. The SHA-256 of both
files stand there too.

--cost writes how many instructions of a Cortex-M3 each call of cpg_node.h takes at most, by counts of its loops for this table; and of each own
process how many instants with a turn may fall into its execution, the most of all scenarios, and how many instructions their calls take: an end,
a frame and the polls of each. It is reckoned for arm-none-eabi-gcc 12 with -Os and the macros of --sizes, for safe tables, as long as the premises
hold and the node is polled at each instant that cpg_next names.

--pack writes the table as a pack, for a node that opens it by runtime/c/cpg_open.h: the rows of this node alone, and of the head what a node acts
by. The rows of other nodes are empty; their names, those of processes, and releases and deadlines are left out. With --whole the head is the whole
one: then `cpgc live` and `cpgc node` take the table for this node as they take the whole pack.

That cpgc can make the node of the pack is asked first, and for --header that the pack is safe for the graph. A node whose name begins with -
stands behind `--`.

For example, `c-table pair.pack N2 > n2.c`.
"""
from __future__ import annotations

import hashlib
import re
from collections.abc import Iterable, Iterator
from dataclasses import replace

from cpgc_tools import __version__, c_constants, cli, graph, pack, safe, show
from cpgc_tools.graph import Graph
from cpgc_tools.pack import Item, Pack
from cpgc_tools.program import Program


def table(tables: Pack, node: int, whole: bool = False) -> bytes:
    """The pack with the rows of one node alone, as bytes; with the whole head, or what a node needs of it."""
    rows = tuple(rows if at == node else tuple(row._replace(columns=[]) for row in rows) for at, rows in enumerate(tables.rows))
    if whole:
        return pack.bytes_of(replace(tables, rows=rows))
    other = "-" if tables.nodes[node] != "-" else "_"
    nodes = tuple(name if at == node else other for at, name in enumerate(tables.nodes))
    processes = tuple(it._replace(name="-", release=0, deadline=None) for it in tables.processes)
    return pack.bytes_of(replace(tables, version=1, nodes=nodes, processes=processes, rows=rows))


def sizes(tables: Pack, node: int) -> dict[str, int]:
    """What the macros of cpg_node.h have to be at least."""
    rows = tables.rows[node]
    least = {
        "PROCESSES": len(tables.processes),
        "CONDITIONS": len(tables.deciding),
        "OWN": sum(process.node == node for process in tables.processes),
        "ROWS": len(rows),
        "COLUMNS": sum(len(row.columns) for row in rows),
    }
    return {f"CPG_MAX_{name}": max(size, 1) for name, size in least.items()}


def size_words(tables: Pack, node: int) -> list[str]:
    """The same as words for the compiler."""
    return [f"-D{name}={size}U" for name, size in sizes(tables, node).items()]


def source(tables: Pack, node: int) -> Iterator[str]:
    """The lines of the C file. A name in a pack that was read has letters, digits, _, - and . alone."""
    comment = [
        f"The table of node {tables.nodes[node]}. Made by tools/c-table {__version__} of a pack with the SHA-256",
        f"{hashlib.sha256(pack.bytes_of(tables)).hexdigest()}."]
    least = {name: size for name, size in sizes(tables, node).items() if name != "CPG_MAX_COLUMNS"}
    return c_constants.lines(c_constants.constants(tables, node), least, comment)


def held(cpgc: Program, content: bytes, tables: Pack, node: int, graph_file: str | None) -> str:
    """The C file, or the end of the tool where it isn't what cpgc says of the pack."""
    text = "".join(f"{line}\n" for line in source(tables, node))
    c_constants.hold(cpgc, text, content, tables, node)
    if graph_file is not None:
        c_constants.hold_head(cpgc, text, cpgc.file("graph.toml", cli.read(graph_file, cli.GRAPH)), tables, node)
    return text


# Names for C.


def in_c(name: str) -> str:
    return re.sub("[^A-Z0-9]", "_", name.upper())


def apart(names: Iterable[tuple[str, str]], path: str) -> None:
    """Two texts with one macro end the tool."""
    found: dict[str, str] = {}
    for macro, text in names:
        if macro in found:
            cli.fail(f"{path}: {text} and {found[macro]} would both be {macro} in C")
        found[macro] = text


def frame_names(tables: Pack, items: Iterable[Item]) -> Iterator[tuple[str, Item]]:
    """The macro of each frame: a message by the ends of its edge, and a number if it isn't the first between them; a value by its process."""
    seen: dict[str, int] = {}
    for it in items:
        ends = [tables.processes[p].name for p in tables.edges[it.of]] if it.kind == "send" else [tables.processes[it.of].name]
        macro = f"CPG_{'FRAME' if it.kind == 'send' else 'VALUE'}_{'_TO_'.join(map(in_c, ends))}"
        key = f"{it.kind} {' '.join(ends)}"
        seen[key] = seen.get(key, 0) + 1
        yield macro + (f"_{seen[key]}" if seen[key] > 1 else ""), it


def header(it: Graph, tables: Pack, node: int, path: str, digests: tuple[str, str]) -> Iterator[str]:
    """The lines of a header with the names of a node."""
    rows, name = tables.rows[node], tables.nodes[node]
    own = [row for row in rows if row.item.kind == "start"]
    own.sort(key=lambda row: (min((time for time, _ in row.columns), default=graph.LIMIT * len(tables.processes)), row.item.number))
    named = [(f"CPG_START_{in_c(tables.name_of(row.item))}", row.item) for row in own]
    frames = {heard: list(frame_names(tables, (row.item for row in rows if row.heard == heard and row.item.kind != "start"))) for heard in (False, True)}
    apart(((macro, tables.item_text(item)) for some in (named, *frames.values()) for macro, item in some), path)
    starts = dict(named)
    yield f"/* Names of what node {name} does. Made by tools/c-table {__version__}. */"
    yield from [f"#ifndef CPG_NAMES_OF_{in_c(name)}_H", f"#define CPG_NAMES_OF_{in_c(name)}_H", ""]
    yield from [f'#define CPG_TOOLS_VERSION "{__version__}"', f'#define CPG_GRAPH_SHA256 "{digests[0]}"', f'#define CPG_PACK_SHA256 "{digests[1]}"', ""]
    yield from [f"#define CPG_FAULTS {tables.faults}U", "", "/* its processes, in the order of their earliest starts */"]
    yield from (f"#define {macro} {item.number}U" for macro, item in starts.items())
    yield from listed("CPG_STARTS", starts)
    if starts:
        quoted = ", ".join(f'"{tables.name_of(item)}"' for item in starts.values())
        yield f"#define CPG_START_NAMES {{ {quoted} }}"
    for heard, what in (False, "SENT"), (True, "HEARD"):
        yield from ["", f"/* frames that it {'hears' if heard else 'sends'}: their items, and the bytes of messages */"]
        for macro, item in frames[heard]:
            yield f"#define {macro} {item.number}U"
            if item.kind == "send":
                yield f"#define {macro}_BYTES {it.edges[item.of].bytes}U"
        yield from listed(f"CPG_{what}", [macro for macro, _ in frames[heard]])
    yield from ["", "#endif"]


def listed(name: str, texts: Iterable[str]) -> Iterator[str]:
    """The count of texts, and all of them as the elements of an array, if there are any."""
    found = list(texts)
    yield f"#define {name}_COUNT {len(found)}U"
    if found:
        yield f"#define {name} {{ {', '.join(found)} }}"


def costs(tables: Pack, node: int) -> Iterator[str]:
    """The lines on the instructions of a node."""
    from cpgc_tools.c_cost import Cost

    cost = Cost(tables, node)
    yield from show.in_columns([("call", "", "instructions"), *((name, "", f"{most:,}") for name, most in cost.calls().items())])
    instants = {time: cost.instant(time) for time in cost.times}
    if instants:
        worst = max(instants, key=instants.__getitem__)
        yield f"an instant takes at most {instants[worst]:,}: that at {worst}; a cycle has at most {len(instants)} such instants, and {sum(instants.values()):,} instructions"
    found = cost.executions()
    if found:
        rows = [(tables.processes[it.process].name, it.start, it.turns, f"{it.instructions:,}") for it in found]
        yield from show.in_columns([("process", "start", "turns in it", "instructions"), *rows])


def main() -> None:
    words = safe.words_with_node(__doc__).with_program()
    which = words.add_mutually_exclusive_group()
    which.add_argument("--graph", metavar="GRAPH", help="ask too whether the head of the table is the one of this graph file")
    which.add_argument("--sizes", action="store_true", help="write the macros of cpg_node.h in place of the table")
    which.add_argument("--header", metavar="GRAPH", help="write names for what the node does, by the graph file of the pack")
    which.add_argument("--cost", action="store_true", help="write how many instructions the calls of the node take at most")
    which.add_argument("--pack", dest="as_pack", action="store_true", help="write the table as a pack, for cpg_open")
    which.add_argument("--whole", action="store_true", help="write it as a pack, and leave nothing of the head out")
    said = words.parse_args()
    content, tables, node = safe.node_of(said)
    with Program(said.program) as cpgc:
        if not (said.sizes or said.header or said.cost or said.as_pack or said.whole):
            cli.write(held(cpgc, content, tables, node, said.graph))
            return
        cpgc.asked("node", cpgc.file("tables.pack", content), "--", tables.nodes[node])
        it = safe.read(cpgc, said.header, said.pack).graph if said.header else None
    if it is not None:
        digests = hashlib.sha256(cli.read(said.header, cli.GRAPH)).hexdigest(), hashlib.sha256(content).hexdigest()
        cli.write_lines(list(header(it, tables, node, said.pack, digests)))
    elif said.as_pack or said.whole:
        cli.write(table(tables, node, said.whole))
    else:
        cli.write_lines([" ".join(size_words(tables, node))] if said.sizes else costs(tables, node))
