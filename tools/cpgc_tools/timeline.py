"""Draws what `cpgc play` prints as a time line: for each node a lane for its executions, and one for what it sends.

    cpgc play GRAPH PACK SCENARIO --turns 0 | timeline [GRAPH]
    cpgc play GRAPH PACK SCENARIO --turns 0 | timeline --svg [GRAPH] > play.svg
    timeline GRAPH PACK SCENARIO

With three files it plays the scenario itself. An execution is drawn from its start to its end, with a `!` for each fault, and a frame at the time
at which its slot begins. If a bar is too short, its name and marks are cut. The name of a copy that `hyper` made loses its part and its instance
first. With the graph file, nodes are in its order, and those that do nothing are shown too. Without it they are in the order of their names,
except for those whose order the play shows.

For example, `timeline pair.toml pair.pack pair-scenario.toml`.
"""
from __future__ import annotations

from collections.abc import Iterator, Sequence

from cpgc_tools import cli, graph, play
from cpgc_tools.instances import short
from cpgc_tools.play import Play
from cpgc_tools.program import Program
from cpgc_tools.svg import escape

WIDTH = 100  # of a line, in letters
MOST_MARKS = 8  # of faults that are shown at a name: a play has no more
Bar = tuple[int, int, str]  # from a time to a time


def bars(acts: Play, node: str) -> list[Bar]:
    """The executions of a node, in the order in which they end."""
    ends = (it for it in acts.ends.values() if it.node == node)
    return [(acts.starts[it.name].time, it.time, it.name + "!" * min(it.faults, MOST_MARKS)) for it in ends]


def frames(acts: Play, node: str) -> list[tuple[int, str]]:
    return [(it.time, it.name) for it in acts.sends.values() if it.node == node]


def ordered(acts: Play) -> list[str]:
    """The nodes by name, but for those that act at one time after each other: then so."""
    after: dict[str, set[str]] = {node: set() for _, node in acts.nodes}
    in_turn: dict[int, dict[str, None]] = {}
    for time, node in acts.nodes:
        in_turn.setdefault(time, {})[node] = None
    for nodes in in_turn.values():
        for before, node in zip(list(nodes), list(nodes)[1:]):
            after[node].add(before)
    found: list[str] = []
    left = sorted(after)
    while left:
        found.append(next((name for name in left if after[name] <= set(found)), left[0]))
        left.remove(found[-1])
    return found


def as_text(nodes: Sequence[str], acts: Play) -> Iterator[str]:
    side = max(map(len, nodes), default=0) + 5

    def at(time: int) -> int:
        return round(time * WIDTH / max(acts.last, 1))

    def lane(name: str, marks: Sequence[tuple[int, str]]) -> str:
        line = [" "] * (WIDTH + 40)
        for (place, mark), end in zip(marks, [place for place, _ in marks[1:]] + [len(line)]):
            mark = mark[:max(end - place, 1)]
            line[place:place + len(mark)] = mark
        return f"{name:<{side}}{''.join(line).rstrip()}".rstrip()

    yield lane("", [(at(time), str(time)) for time in ticks(acts)])
    for node in nodes:
        yield lane(node, [(at(a), "|" + fitting(name, at(b) - at(a) - 1).ljust(max(at(b) - at(a) - 1, 0), "-") + "|") for a, b, name in bars(acts, node)])
        if sent := frames(acts, node):
            yield lane(f"{node} bus", [(at(time), f"^{name}") for time, name in sent])


def fitting(name: str, room: int) -> str:
    """A name, without the part and the instance if there is no room for them."""
    return name if len(name) <= room else short(name)


def ticks(acts: Play) -> list[int]:
    return [acts.last * n // 5 for n in range(6)]


def as_svg(nodes: Sequence[str], acts: Play, width: int = 900, lane: int = 36) -> Iterator[str]:
    def at(time: int) -> float:
        return 90 + time * width / max(acts.last, 1)

    yield f'<svg xmlns="http://www.w3.org/2000/svg" width="{width + 120}" height="{lane * len(nodes) + 40}" font-family="sans-serif" font-size="11">'
    for number, node in enumerate(nodes):
        y = lane * number + 8
        yield f'<text x="4" y="{y + 14}">{escape(node)}</text><line x1="90" x2="{width + 90}" y1="{y + 24}" y2="{y + 24}" stroke="#bbb"/>'
        for a, b, name in bars(acts, node):
            fill = "#f4c7c3" if "!" in name else "#cfe3f7"
            yield f'<rect x="{at(a):.1f}" y="{y}" width="{max(at(b) - at(a), 1):.1f}" height="20" fill="{fill}" stroke="#456"/>'
            yield f'<text x="{at(a) + 3:.1f}" y="{y + 14}">{escape(name)}</text>'
        for time, name in frames(acts, node):
            yield f'<path d="M{at(time):.1f} {y + 20}v10" stroke="#a50"/><text x="{at(time) + 2:.1f}" y="{y + 33}" font-size="9">{escape(name)}</text>'
    for time in ticks(acts):
        yield f'<text x="{at(time):.1f}" y="{lane * len(nodes) + 30}" fill="#666">{time}</text>'
    yield "</svg>"


def nodes_of(path: str | None, acts: Play) -> Sequence[str]:
    """The nodes in the order in which they are shown."""
    if path is None:
        return ordered(acts)
    document = graph.toml_of(path, cli.read(path, cli.GRAPH))[1]
    nodes = [it.get("name") for it in document.get("node", [])] if graph.has_type("top", "node", document.get("node", [])) else []
    if strange := [node for _, node in acts.nodes if node not in nodes]:
        cli.fail(f"{path}: it has no node {strange[0]}, which the play names")
    return [node for node in nodes if graph.is_name(node)]


def played(named: str | None, *paths: str) -> list[str]:
    """The lines of a play of three files."""
    with Program(named) as cpgc:
        return cpgc.text("play", *paths, "--turns", "0").splitlines()


def main() -> None:
    words = cli.Words(__doc__).with_program()
    words.add_argument("--svg", action="store_true", help="an SVG picture; `draw` makes better ones")
    words.add_argument("graph", metavar="GRAPH", nargs="?", help="the graph file, for the order of the nodes")
    words.add_argument("pack", metavar="PACK", nargs="?")
    words.add_argument("scenario", metavar="SCENARIO", nargs="?")
    said = words.parse_args()
    if said.pack and not said.scenario:
        words.error("SCENARIO is missing behind PACK")
    try:
        acts = play.parsed(played(said.program, said.graph, said.pack, said.scenario) if said.scenario else cli.lines_of_input())
    except ValueError:
        cli.fail("no play on standard input: cpgc play GRAPH PACK SCENARIO --turns 0 | timeline")
    nodes = nodes_of(said.graph, acts)
    cli.write_lines(as_svg(nodes, acts) if said.svg else as_text(nodes, acts))
