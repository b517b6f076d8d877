"""The refusals of a pack, and what breaks a rule."""
from __future__ import annotations

from cpgc_tools.explain.files import Files, listed, mend, near
from cpgc_tools.explain.run import item_at, item_said
from cpgc_tools.explain.table import Sentences, explains
from cpgc_tools.graph import File, Sentence
from cpgc_tools.pack import Pack, Reader, decoded, difference

RULES = {
    1: "a column matches where its item isn't active, or speaks of a process that isn't",
    2: "two columns of a row match",
    3: "the item is active and has no column",
    4: "by the time of the column its node hasn't heard one of its literals",
    5: "it is before its release, or before what it waits for is there",
    6: "two executions on a node overlap",
    7: "it is sent off the slots of its node, or in one that another item has",
    8: "a frozen item has two times",
    9: "it ends after its due",
    10: "what a node hears differs from what is sent",
}


def part_at(content: bytes, at: int) -> str:
    """In which part of a pack a byte stands."""
    reader = Reader(content)
    try:
        decoded(reader)
    except ValueError:
        pass
    return reader.part_at(at)


@explains(4, "^cpgc: refused 10 pack ([0-9]+)$")
def no_pack(files: Files, said: str) -> Sentences:
    file, at = files.get("pack"), int(said)
    path, content = (file.path, file.bytes) if file else ("", b"")

    def told(what: str) -> str:
        return Sentence.of(what, path) if path else what

    if file and file.known and not content:
        yield told("the pack is empty")
        yield mend("a compile that is refused leaves an empty file: compile again, and look at its line")
    elif file and at < 4 and not content.startswith(b"CPGT"):
        yield told("this is no pack: one begins with CPGT")
        is_graph = any(key in file.document for key in ("faults", "process", "node", "deadline"))
        yield mend("it is a graph file; " * is_graph + "cpgc compile makes a pack; the words name the graph first, then the pack")
    elif file and at == len(content):
        yield told(f"the pack ends too early, after {at} bytes: {part_at(content, at)} is missing")
        yield mend("copy it once more, or compile the graph again")
    else:
        byte = f" ({content[at]:02x})" if at < len(content) else ""
        yield told(f"byte {at}{byte} can't stand there: {part_at(content, at)}")
        yield mend("compile the graph again; docs/FORMATS.md has the bytes of a pack")


@explains(4, "^cpgc: refused 17 other graph (faults|nodes|processes|edges)$")
def other_graph(files: Files, part: str) -> Sentences:
    graph, pack, file = files.get("graph") or File(""), files.pack(), files.get("pack")
    yield f"{file.path if file else 'the pack'} was made for another graph than {graph.path or 'this one'}: its {part} differ"
    if pack and (found := different(graph, pack, part)):
        yield found
    yield mend(f"compile {graph.path or 'the graph'} again, or name the file that the pack was made of")


def different(file: File, pack: Pack, part: str) -> str | None:
    """What a part of a pack's head says otherwise than the graph, at its place in the graph."""
    graph = file.graph()
    found = difference(graph, pack) if graph else None
    if graph is None or found is None or found.part != part:
        return None
    number = found.number
    if part == "faults":
        return file.at(f"faults = {found.here}, and in the pack {found.there}", "faults")
    if part == "nodes":
        return file.at(f"the nodes are {listed(graph.nodes)}, and in the pack {listed(pack.nodes)}", "node")
    if part == "processes":
        mine = f"{file.called('process', number)}: its {found.key}: {found.here}" if found.key else f"there are {found.here} processes"
        return file.at(f"{mine}, and in the pack {found.there}", "process", *([number] if found.key else []))
    its = f"edge {number} leads from {' to '.join(pack.edge_text(number).split('>'))}" if number < len(pack.edges) else f"there are {found.there} edges"
    return file.at((f"there are {found.here} edges" if number == len(graph.edges) else file.called("edge", number)) + f", and in the pack {its}", "edge", number)


@explains(4, "^cpgc: refused 19 node$")
def no_node(files: Files) -> Sentences:
    file, pack = files.get("pack"), files.pack()
    names = pack.nodes if pack else ()
    name = files.name or "the name"
    yield Sentence.of(f"no node is named {name}{near(name, names)}", file.path if file else "the pack")
    yield mend(f"its nodes are {listed(names)}" if pack else "cpgc show names the nodes of a graph")


@explains(7, "^cpgc: unsafe V([0-9]+) (start|send|tell) ([^ ]+) column ([0-9]+|-) in (.+)$")
def unsafe(files: Files, rule: str, kind: str, name: str, column: str, in_: str) -> Sentences:
    graph, pack, file = files.get("graph") or File(""), files.pack(), files.get("pack")
    yield item_at(graph, kind, name, f"{item_said(graph, kind, name)} breaks rule V{rule} in {in_}: {RULES.get(int(rule), '?')}")
    found = pack.row(kind, name) if pack else None
    if file and pack and found:
        node, row = pack.nodes[found[0]], found[1]
        if column.isdigit() and int(column) < len(row.columns):
            time, cube = row.columns[int(column)]
            yield Sentence.of(f"column {column} of {kind} {name} on {node} is {time}: {pack.cube_text(cube)}", file.path)
        else:
            yield Sentence.of(f"{kind} {name} on {node} has {len(row.columns)} columns", file.path)
    yield mend({
        8: "the pack is older than `frozen` in the graph: compile it again",
        9: "compile the graph again, which refuses it as late where no tables are found",
    }.get(int(rule), "compile the graph again; tables of another tool need this column put right, and docs/RULES.md has the rule"))
