"""Builds each node of a pack as a program of its own, with its table alone, and runs them as a cluster in one scenario.

    run-nodes GRAPH PACK SCENARIO [--arm]
    run-nodes GRAPH PACK SCENARIO --lose e0 --hang A

The nodes are those of runtime/c/example. They run on this machine, or with --arm each on an emulated Cortex-M3
(gcc-arm-none-eabi, libnewlib-arm-none-eabi and qemu-system-arm of Debian). This tool is their bus and their processes, tick by
tick: a frame is there so much later than it was sent as the slot of its node lasts, an execution ends when the scenario says. Ticks
of a node in which nothing arrives, ends or is due are left out, as docs/MODEL.md allows. It
writes what `cpgc play` writes but for the line `waits`, and what the watch of a node tells, as TIME NODE overrun, missing or
strange ITEM. To see the watch at work, --lose loses the frame of a message or, by the name of its process, of a broadcast, and --hang lets an
execution never report its end. Tables that go on for more than 1,000,000 time units are refused. That they are safe, and that the scenario is one of the
graph, is asked of cpgc first. It runs in a checkout of cpgc alone, which has the nodes in C.

For example, `run-nodes pair.toml pair.pack pair-scenario.toml`.
"""
from __future__ import annotations

import subprocess
import tempfile
from collections.abc import Collection, Sequence
from pathlib import Path

from cpgc_tools import c_table, cli, graph, play, program, safe
from cpgc_tools.graph import Graph
from cpgc_tools.pack import Pack
from cpgc_tools.play import Scenario
from cpgc_tools.program import Program

C = Path(__file__).resolve().parents[2] / "runtime" / "c"
WARNINGS = ["-std=c99", "-Wall", "-Wextra", "-Wpedantic", "-Wconversion", "-Wshadow", "-Werror"]
ARM = ["arm-none-eabi-gcc", "-mcpu=cortex-m3", "-mthumb", "-Os", "-nostartfiles", "-T", str(C / "example/arm/lm3s6965.ld")]
EMULATOR = ["qemu-system-arm", "-machine", "lm3s6965evb", "-display", "none", "-monitor", "none", "-serial", "stdio",
            "-semihosting-config", "enable=on,target=native", "-kernel"]
END, SEND, START, WATCH = range(4)
MOST_TICKS = 1_000_000  # a minute or more
Line = tuple[int, int, int, int, str]  # a time, a node, a kind, an item, and the text


def missing_programs(arm: bool) -> list[str]:
    """The programs that are wanted and aren't there."""
    return program.missing(["arm-none-eabi-gcc", "arm-none-eabi-size", "qemu-system-arm"] if arm else ["gcc"])


def build(tables: Pack, node: int, place: Path, arm: bool, flags: Sequence[str] = ()) -> Path:
    """The program of a node."""
    table, made = place / f"node-{node}.c", place / f"node-{node}"
    table.write_text("\n".join([*c_table.source(tables, node), ""]))
    boards = sorted((C / "example/arm").glob("*.c")) if arm else [C / "example/pc.c"]
    files = [table, C / "cpg_node.c", C / "example/node.c", C / "example/wire.c", *boards]
    cli.progress(f"building node {node + 1} of {len(tables.nodes)}")
    words = [*(ARM if arm else ["gcc", "-O1"]), *WARNINGS, *flags, *c_table.size_words(tables, node), "-I", str(C), *map(str, files), "-o", str(made)]
    ran = program.run(words, seconds=600)
    if ran.status:
        cli.fail(f"node {tables.nodes[node]} isn't built: {(ran.err.decode(errors='replace').strip().splitlines() or ['gcc failed'])[0]}")
    return made


class Node:
    """A node that runs, at the other end of its wire."""

    def __init__(self, made: Path, arm: bool) -> None:
        words = [*EMULATOR, str(made)] if arm else [str(made)]
        self.running = subprocess.Popen(words, stdin=subprocess.PIPE, stdout=subprocess.PIPE, stderr=subprocess.DEVNULL, text=True)

    def say(self, lines: Sequence[str]) -> None:
        if self.running.stdin is None:
            return
        try:
            self.running.stdin.write("".join(f"{line}\n" for line in lines))
            self.running.stdin.flush()
        except OSError:
            cli.fail("a node stopped")

    def told(self) -> list[list[str]]:
        """The lines up to the next `done`."""
        lines: list[list[str]] = []
        for line in self.running.stdout or ():
            if line.strip() == "done":
                return lines
            lines.append(line.split())
        cli.fail("a node stopped")

    def stop(self) -> None:
        try:
            self.say(["stop"])
            self.running.wait(10)
        except (cli.Failure, subprocess.TimeoutExpired):
            pass
        finally:
            self.running.kill()
            self.running.wait()
            for stream in (self.running.stdin, self.running.stdout):
                try:
                    if stream:
                        stream.close()
                except OSError:
                    pass


class Cluster:
    """What happens to the nodes, and what they did, as lines of a play."""

    def __init__(self, it: Graph, tables: Pack, scenario: Scenario, lost: Collection[str] = (), hung: Collection[str] = ()) -> None:
        self.graph, self.tables, self.scenario = it, tables, scenario
        self.lost, self.hung = lost, hung  # names of items and of processes
        self.coming: dict[tuple[int, int], list[str]] = {}
        times = [{0, *(time for row in rows for time, _ in row.columns)} for rows in tables.rows]
        self.turns = [it | {time + 1 for time in it} for it in times]  # of each node the instants at which something may be due
        self.lines: list[Line] = []
        self.finish = 0

    def text(self, number: int) -> str:
        """An item as a line of a play names it."""
        item = self.tables.item(number)
        return self.tables.item_text(item) if item else str(number)

    def hearers(self, number: int, sender: int) -> list[int]:
        item = self.tables.item(number)
        if item and item.kind == "send":
            return [self.tables.on(self.tables.edges[item.of][1])]
        return [node for node in range(len(self.tables.nodes)) if node != sender]

    def tell(self, time: int, node: int, line: str) -> None:
        self.coming.setdefault((time, node), []).append(line)

    def started(self, time: int, node: int, process: int) -> None:
        about = self.tables.processes[process]
        faults, value = self.scenario.faults.get(about.name, 0), bool(about.condition) and about.name in self.scenario.true
        planned = about.durations[faults]
        real = self.scenario.lengths.get(about.name, planned)
        end = f"end {about.name} faults {faults}" + (f" value {str(value).lower()}" if about.condition else "")
        self.lines.append((time, node, START, process, self.text(process)))
        self.turns[node].update(time + it + more for it in about.durations for more in (0, 1))
        if about.name in self.hung:
            return
        self.lines.append((time + planned, node, END, process, end + (f" ran {real}" if real < planned else "")))
        self.tell(time + real, node, f"end {process} {faults} {int(value)}")
        self.finish = max(self.finish, time + planned)

    def did(self, time: int, node: int, words: Sequence[str]) -> None:
        """Takes a line that a node has written."""
        kind, numbers = words[0], list(map(int, words[1:]))
        if kind == "start":
            self.started(time, node, numbers[0])
        elif kind == "send":
            self.lines.append((time, node, SEND, numbers[0], self.text(numbers[0])))
            for hearer in self.hearers(numbers[0], node) if self.text(numbers[0]).split(" ")[1] not in self.lost else ():
                self.tell(self.graph.arrival(node, time), hearer, "frame {} {} {}".format(*numbers))
        else:
            self.lines.append((time, node, WATCH, numbers[0], f"{kind} {self.text(numbers[0])}"))

    def run(self, nodes: Sequence[Node], last: int, skip: bool = False) -> None:
        """All ticks up to the last one, or those alone in which something may be due."""
        next_tick = [0] * len(nodes)
        for node in nodes:
            node.told()
        for time in range(last + 1):
            cli.progress(f"{time} of {last} ticks")
            asked = [number for number in range(len(nodes)) if not skip or time in self.turns[number] or (time, number) in self.coming]
            for number in asked:
                left_out = [f"wait {time - next_tick[number]}"] if time > next_tick[number] else []
                nodes[number].say([*left_out, *self.coming.pop((time, number), []), "tick"])
                next_tick[number] = time + 1
            for number in asked:
                for words in nodes[number].told():
                    self.did(time, number, words)

    def trace(self) -> list[str]:
        names = self.tables.nodes
        return [f"{time} {names[node]} {text}" for time, node, _, _, text in sorted(self.lines)] + [f"finish {self.finish}"]


def last_instant(tables: Pack) -> int:
    """An instant by which all is over."""
    return tables.last_time() + max((time for process in tables.processes for time in process.durations), default=0) + 1


def simulated(it: Graph, tables: Pack, scenario: Scenario, place: Path, arm: bool = False, flags: Sequence[str] = (), every: bool = False,
              lost: Collection[str] = (), hung: Collection[str] = ()) -> list[str]:
    """The trace of a cluster in a scenario, with every tick or with those in which something may be due."""
    cluster, nodes = Cluster(it, tables, scenario, lost, hung), list[Node]()
    programs = [build(tables, node, place, arm, flags) for node in range(len(tables.nodes))]
    try:
        nodes += [Node(made, arm) for made in programs]
        cluster.run(nodes, last_instant(tables), not every)
    finally:
        for node in nodes:
            node.stop()
    return cluster.trace()


def main() -> None:
    words = cli.Words(__doc__).with_program().with_files("GRAPH", "PACK", "SCENARIO")
    words.add_argument("--arm", action="store_true", help="on emulated Cortex-M3s")
    words.add_argument("--lose", metavar="ITEM", action="append", default=[], help="lose this frame; may be said again")
    words.add_argument("--hang", metavar="PROCESS", action="append", default=[], help="never end this process; may be said again")
    said = words.parse_args()
    missing = missing_programs(said.arm)
    if missing:
        cli.fail(f"there is no {', '.join(missing)}", cli.NO_PROGRAM)
    if not (C / "cpg_node.c").is_file():
        cli.fail("the nodes in C aren't there: run it in a checkout of cpgc", cli.NO_PROGRAM)
    content = cli.read(said.scenario, cli.SCENARIO)
    with Program(said.program) as cpgc:
        it = safe.read(cpgc, said.graph, said.pack)
        it.play(content)
    sent = {it.tables.name_of(row.item) for _, row in it.tables.acts() if row.item.kind != "start"}
    for kind, names, known in ("frame", said.lose, sent), ("process", said.hang, set(it.graph.number)):
        if unknown := [name for name in names if name not in known]:
            cli.fail(f"{said.graph}: there is no {kind} {unknown[0]}")
    scenario = play.scenario_of_document(graph.toml_of(said.scenario, content)[1])
    if last_instant(it.tables) > MOST_TICKS:
        cli.fail(f"{said.pack}: it goes on to {last_instant(it.tables):,}, and this tool takes {MOST_TICKS:,} ticks at most")
    with tempfile.TemporaryDirectory(prefix="cpgc-") as place:
        cli.write_lines(simulated(it.graph, it.tables, scenario, Path(place), said.arm, lost=said.lose, hung=said.hang))
