"""How many instructions the node of runtime/c takes for a table: a bound by counts of its loops.

    cost = Cost(tables, node)
    cost.begin(), cost.poll(), cost.hear(), cost.ended(), cost.next                     # of a call at an instant, whatever was heard
    cost.instant(90)                                                                    # of all calls of one instant
    cost.executions()                                                                   # of each own process the turns that fall into it

Each function is counted with all its instructions, and once more with those of its loop for each pass: so a way that leaves some of them out is
counted as if it took them. The counts are those of a Cortex-M3 by arm-none-eabi-gcc 12, -Os -fno-inline; with -Os alone there are fewer.
For another processor or compiler measure one call, and take the bound in proportion. tools/test-runtime --arm compares what an emulator counts, and
the counts of functions.
"""
from __future__ import annotations

import bisect
import functools
import itertools
from typing import NamedTuple

from cpgc_tools.c_table import sizes
from cpgc_tools.pack import Pack, Row, asked

# of each function of cpg_node.c its instructions, and at most how many of them are in a pass of its loop
WHOLE = {
    "byte_at": 7, "word_at": 19, "time_at": 10, "is_start": 6, "is_heard": 6, "cpg_begin": 47, "place_of": 4, "place_of_value": 5, "literal_at": 4,
    "range_at": 12, "common": 16, "is_empty": 9, "is_within": 17, "follows": 37, "learn": 32, "know": 8, "due_time": 9, "is_awaited": 5, "cpg_next": 26,
    "tell_end": 24, "tell_ends": 26, "tell": 12, "find_overrun": 20, "tell_overrun": 17, "rule_out": 28, "had_to_come": 58, "end_of": 13,
    "start": 22, "told_place": 7, "value_of": 10, "take_heard": 31, "take_act": 43, "take_due": 23, "take_column": 1, "take_next": 6,
    "take_dues": 25, "take_rest": 20, "take_turn": 12, "take_instant": 6, "cpg_poll": 37, "find_heard": 39, "contradicts": 63,
    "learn_column": 30, "hear_due": 20, "cpg_hear": 49, "find_own": 15, "may_tell": 24, "cpg_ended": 49,
}
PASS = {"cpg_begin": 18, "cpg_next": 15, "tell_ends": 20, "find_overrun": 15, "take_dues": 18, "learn_column": 22, "find_own": 10}
MEMSET = 40, 4  # of the library: at most so many, and so many for each byte
TIME_BYTES = 8
VARIABLES = "CPG_MAX_PROCESSES", "CPG_MAX_CONDITIONS"


def of(name: str, passes: int = 0) -> int:
    """The instructions of a call, without those of what it calls."""
    return WHOLE[name] + PASS.get(name, WHOLE[name]) * passes


BYTE = of("byte_at")
TIME = of("time_at") + 2 * of("word_at") + TIME_BYTES * BYTE
LITERAL = of("literal_at") + BYTE + of("place_of") + of("range_at") + 2 * BYTE  # where it stands, and what it says
LEARN = of("learn") + 2 * of("common") + of("is_empty")


def follows(literals: int) -> int:
    return of("follows", literals) + BYTE + literals * (LITERAL + of("is_within"))


def had_to_come(literals: int) -> int:
    return of("had_to_come", literals) + BYTE + literals * (LITERAL + of("is_within")) + LITERAL + of("rule_out")


class Execution(NamedTuple):
    """Of an own process the start with the most instructions in its execution; the most turns, and these instructions, of all starts."""

    process: int
    start: int
    turns: int
    instructions: int


class Cost:
    def __init__(self, tables: Pack, node: int) -> None:
        self.tables, self.node, self.rows = tables, node, tables.rows[node]
        self.own = sum(it.node == node for it in tables.processes)
        self.columns: dict[int, list[tuple[Row, int]]] = {}  # by time: the row of each, and how many literals it has
        for row in self.rows:
            for time, cube in row.columns:
                self.columns.setdefault(time, []).append((row, len(cube) // 3))
        self.times = sorted(self.columns)

    # Calls.

    def begin(self) -> int:
        """With the macros that --sizes writes."""
        macros = sizes(self.tables, self.node)
        return of("cpg_begin", sum(macros[it] for it in VARIABLES) + self.own) + MEMSET[0] + MEMSET[1] * len(self.rows)

    @functools.cached_property
    def next(self) -> int:
        return of("cpg_next", self.own) + of("due_time") + TIME + self.own * of("is_awaited")

    @functools.cached_property
    def pass_of_poll(self) -> int:
        """A turn without its columns: the next instant, and what has ended. Of the executions of a node one at most ends at an instant."""
        ends = of("tell_ends", self.own) + of("tell_end") + of("place_of") + of("place_of_value") + 2 * of("know")
        turn = of("take_instant") + of("take_turn") + of("take_rest") + of("take_dues")
        return self.next + turn + ends + of("find_overrun", self.own) + of("tell_overrun") + of("tell")

    def column(self, row: Row, literals: int) -> int:
        """A column whose time has come: it is taken out of the index, and looked at; at most one of a row leads to an event."""
        found = PASS["take_dues"] + of("due_time") + TIME + of("take_next") + of("take_column") + of("take_due") + of("is_heard")
        return found + (of("take_heard") + had_to_come(literals) if row.heard else of("take_act") + of("is_start") + follows(literals))

    @property
    def event(self) -> int:
        """What is done for a start or a send, the greater of both."""
        return of("tell") + max(of("start") + TIME, of("value_of") + of("told_place") + of("place_of_value"))

    def one_poll(self, time: int) -> int:
        """One call at an instant: all columns of it, up to an event; the next instant is looked at again if there is none."""
        columns = sum(self.column(*it) for it in self.columns.get(time, ()))
        return of("cpg_poll", 1) + self.pass_of_poll + columns + of("due_time") + TIME + max(self.event, self.next)

    def polls(self, time: int) -> int:
        """All calls at an instant: one for a start, one for a send, and the one that answers that there is no more."""
        columns = self.columns.get(time, [])
        acts = len({row.item.kind == "start" for row, _ in columns if not row.heard})
        each = of("cpg_poll", 2) + self.pass_of_poll + of("due_time") + TIME
        return (acts + 1) * each + sum(self.column(*it) for it in columns) + acts * self.event + self.next

    def one_hear(self, time: int) -> int:
        """A frame: its column is looked for among those of its instant."""
        columns = self.columns.get(time, [])
        most = max((literals for row, literals in columns if row.heard), default=0)
        search = of("find_heard", len(columns)) + (len(columns) + 1) * (of("due_time") + TIME + of("is_heard"))
        contradicts = of("contradicts", most) + BYTE + most * (LITERAL + 2 * (of("common") + of("is_empty"))) + of("common") + of("is_empty")
        learns = of("hear_due") + of("learn_column", most) + BYTE + most * (LITERAL + LEARN) + LEARN
        return of("cpg_hear") + of("told_place") + of("place_of_value") + self.next + search + contradicts + learns

    def poll(self) -> int:
        return max(map(self.one_poll, self.times), default=of("cpg_poll", 1) + self.next)

    def hear(self) -> int:
        return max((self.one_hear(time) for time, columns in self.columns.items() if any(row.heard for row, _ in columns)), default=0)

    def ended(self) -> int:
        return of("cpg_ended") + of("find_own", self.own) + of("may_tell") + of("end_of") + TIME

    def instant(self, time: int) -> int:
        """All calls of an instant: an end, a frame, and the turn. In safe tables there is no more: executions of a node don't overlap, and no two
        slots end at once."""
        heard = any(row.heard for row, _ in self.columns.get(time, ()))
        return self.ended() + heard * self.one_hear(time) + self.polls(time)

    def calls(self) -> dict[str, int]:
        found = {"begin": self.begin(), "poll": self.poll(), "hear": self.hear(), "ended": self.ended(), "next": self.next}
        return {f"cpg_{name}": most for name, most in found.items()}

    # Executions.

    def executions(self) -> list[Execution]:
        """Of each own process that ever runs. An execution in scenarios of a column may have the faults that its literals leave."""
        found = []
        for row in self.rows:
            if row.item.kind == "start" and row.columns:
                every = [self.execution(row, time, asked(cube)) for time, cube in row.columns]
                most = max(every, key=lambda it: (it.instructions, -it.start))
                found.append(most._replace(turns=max(it.turns for it in every)))
        return found

    def execution(self, row: Row, start: int, faults: int) -> Execution:
        end = start + self.tables.processes[row.item.of].durations[max(self.tables.faults - faults, 0)]
        first, last = bisect.bisect_right(self.times, start), bisect.bisect_left(self.times, end)
        return Execution(row.item.of, start, last - first, self.until[last] - self.until[first])

    @functools.cached_property
    def until(self) -> list[int]:
        """The instructions of all instants before each one."""
        return [0, *itertools.accumulate(map(self.instant, self.times))]
