"""Makes the stream of one node from a play, for `cpgc live`: what the node hears and reports. docs/FORMATS.md describes the bytes.

    cpgc play GRAPH PACK SCENARIO --turns 0 | stream PACK NODE > node.stream
    cpgc live PACK NODE node.stream

The stream has a frame for each message and broadcast that the node hears, an end for each of its executions, when it really ends, and a
close after the play's last event. Put `--` before a node's name that begins with -.

For example, `cpgc play pair.toml pair.pack pair-scenario.toml --turns 0 | stream pair.pack N2 > n2.stream`.
"""
from __future__ import annotations

from collections.abc import Iterator

from cpgc_tools import cli, pack, play, safe
from cpgc_tools.pack import VALUES, Pack

FRAME, END, CLOSE = range(3)


def record(kind: int, time: int, item: int = 0, number: int = 0, value: bool = False) -> bytes:
    return bytes([kind]) + time.to_bytes(8, "big") + item.to_bytes(2, "big") + number.to_bytes(2, "big") + bytes([value])


def number_of(tables: Pack, acts: play.Play, variable: int) -> int:
    """What a variable is in a play: the faults of a process, or the value of a condition."""
    process = variable if variable < VALUES else tables.deciding[variable - VALUES]
    end = acts.ends.get(tables.processes[process].name)
    return 0 if end is None else end.faults if variable < VALUES else int(end.value == "true")


def stream(tables: Pack, node: int, acts: play.Play) -> Iterator[tuple[int, bytes]]:
    """Records with their times. Raises ValueError where the play isn't one of the pack."""
    for item, heard, columns in tables.rows[node]:
        name = tables.name_of(item)
        if heard and (item.kind, name) in acts.sends:
            found = [(column, time) for column, (time, cube) in enumerate(columns)
                     if all(low <= number_of(tables, acts, variable) <= high for variable, low, high in pack.literals(cube))]
            if len(found) != 1:
                raise ValueError(name)
            [(column, time)] = found
            yield time, record(FRAME, time, item.number, column, item.kind == "tell" and acts.ends[name].value == "true")
        elif item.kind == "start" and name in acts.ends:
            end, time = acts.ends[name], acts.really_ends(name)
            yield time, record(END, time, item.number, end.faults, end.value == "true")


def records(tables: Pack, node: int, acts: play.Play) -> bytes:
    """The whole stream. Raises ValueError, KeyError, IndexError or OverflowError where the play isn't one of the pack."""
    found = sorted(stream(tables, node, acts))
    return b"".join(it for _, it in found) + record(CLOSE, max([acts.last, *(time for time, _ in found)]))


def main() -> None:
    said = safe.words_with_node(__doc__).parse_args()
    _, tables, node = safe.node_of(said)
    try:
        acts = play.parsed(cli.lines_of_input())
        made = records(tables, node, acts)
    except (ValueError, KeyError, IndexError, OverflowError):
        cli.fail(f"no play of {said.pack} on standard input: cpgc play GRAPH PACK SCENARIO --turns 0 | stream PACK NODE")
    cli.write(made)
