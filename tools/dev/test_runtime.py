"""Tests the node in C (runtime/c) against the program.

    tools/test-runtime PROGRAM [--streams N] [--plays N] [--seed S] [--arm] [--keep FOLDER]

It builds the node with gcc under the address and undefined-behaviour sanitizers, and compares

- its answers to wrong calls, and to calls when a premise is broken, with what is expected;
- how it opens lawful and damaged packs, with `cpgc live`;
- that any calls with damaged packs end, and touch nothing else;
- what it does on streams of records, lawful and damaged, by the packs of the examples, of generated graphs and of no graph, with
  `cpgc live`: with the table that it makes of the pack, and with the constants of `c-table`, which are the same table;
- these constants, as `c-table` does it, with `cpgc node` and `cpgc check`;
- what a cluster of such nodes does, which exchange nothing but frames, with `cpgc play`; its watch then reports nothing except each
  execution that hangs and, of lost frames, what it can;
- what nodes do that are separate programs, each with only its own table (runtime/c/example), with `cpgc play`; also cycle after cycle;

and runs cppcheck, clang-tidy and clang, which must report nothing.

--arm also runs these on an emulated Cortex-M3, and counts the instructions of their calls, which are no more than `c-table --cost` says, and those
of each function. If gcc, or for --arm a package, is missing, a line says so and it is left out.
The status is 0 if nothing differs.
"""
from __future__ import annotations

import argparse
import importlib.machinery
import importlib.util
import os
import random
import re
import shutil
import subprocess
import sys
import tempfile
import tomllib
from collections import Counter
from collections.abc import Sequence
from pathlib import Path
from typing import Any

from cpgc_tools import c_constants, c_cost, c_table, cli, cycle, graph, pack, play, run_nodes, stream
from cpgc_tools.pack import Pack
from cpgc_tools.program import Program

TOP = Path(__file__).resolve().parents[2]
C = TOP / "runtime" / "c"
WARNINGS = run_nodes.WARNINGS
SANITIZERS = ["-g", "-O1", "-fsanitize=address,undefined", "-fno-sanitize-recover=all"]
LARGEST_PACK = 200_000
LONGEST = 300                                         # seconds of a program, on a machine that does much else
os.environ["ASAN_OPTIONS"] = "detect_leaks=0"         # the node takes no memory, and the test programs free none


CYCLES = 3
# a cycle of the fly-by-wire system in which faults strike at both rates, and each decision is for the longer way
FAULTY = """
faults = { "1.0.airdata" = 1, "0.1.kalman" = 1 }
values = { "0.0.valid" = true, "0.1.valid" = true, "1.0.mode" = true, "1.0.stall" = true }
"""
# the value of C is there at 20, when the next cycle may begin
TIGHT = """
faults = 0
deadline = 20
node = [{ name = "N1" }, { name = "N2" }]
slot = [{ node = "N1", length = 10, bytes = 8 }, { node = "N2", length = 10, bytes = 8 }]
process = [{ name = "A", node = "N1", wcet = 20 }, { name = "C", node = "N2", wcet = 8 }, { name = "B", node = "N2", wcet = 2 }]
edge = [{ from = "C", to = "B", when = true }]
"""


def load(path: Path) -> Any:
    loader = importlib.machinery.SourceFileLoader(path.stem.replace("-", "_"), str(path))
    spec = importlib.util.spec_from_loader(loader.name, loader)
    assert spec
    module = importlib.util.module_from_spec(spec)
    loader.exec_module(module)
    return module


GRAPHS, PACKS = load(C / "test" / "graphs.py"), load(C / "test" / "packs.py")


Pair = tuple[Path, Path]  # a graph file and its pack
Result = tuple[int, str, str]  # a status, standard output and the error stream


class Test:
    """The program, the C programs in a folder, and what has been counted."""

    def __init__(self, program: Path, place: Path, seed: int) -> None:
        self.program, self.place, self.seed, self.wrong = program, place, seed, 0
        self.asked = Program(str(program))
        self.counts: Counter[str] = Counter()
        self.tables: dict[tuple[Path, str], Path] = {}

    def random(self, *words: object) -> random.Random:
        return random.Random(" ".join(map(str, (self.seed, *words))))

    def file(self, name: str, content: str | bytes) -> Path:
        path = self.place / name
        path.write_bytes(content if isinstance(content, bytes) else content.encode())
        return path

    def differ(self, what: str, *shown: object) -> None:
        self.wrong += 1
        if self.wrong <= 10:
            print(f"differs: {what}", *(f"  {str(it)[:400]}" for it in shown), sep="\n")

    def run(self, *words: object) -> Result:
        try:
            done = subprocess.run([str(word) for word in words], capture_output=True, timeout=LONGEST)
        except subprocess.TimeoutExpired:
            return -1, "", f"{words[0]} didn't end"
        return done.returncode, done.stdout.decode(errors="replace"), done.stderr.decode(errors="replace")

    def cpgc(self, *words: object) -> Result:
        return self.run(self.program, *words)

    def c(self, name: str, *words: object) -> Result:
        return self.run(self.place / name, *words)

    def gcc(self, *words: object) -> None:
        status, _, error = self.run("gcc", *WARNINGS, *words)
        if status != 0:
            sys.exit(f"test-runtime: not built\n{error}")

    def build(self, names: Sequence[str], *flags: str) -> None:
        """Builds programs of runtime/c/test."""
        shared = [C / "test" / "host.c", C / "cpg_node.c", C / "cpg_open.c"]
        objects = [self.place / f"{file.stem}.o" for file in shared]
        for file, object_ in zip(shared, objects):
            self.gcc(*flags, "-c", file, "-o", object_)
        for name in names:
            self.gcc(*flags, C / "test" / f"{name}.c", *objects, "-o", self.place / name)


# ---- Packs ----


def compiled(test: Test, name: str, text: str) -> Pair | None:
    """A graph as a file and its pack, where it compiles to a pack that isn't too long for a test."""
    graph, pack = test.file(f"{name}.toml", text), test.place / f"{name}.pack"
    done = subprocess.run([str(test.program), "compile", str(graph)], stdout=pack.open("wb"), stderr=subprocess.DEVNULL)
    if done.returncode == 0 and 0 < pack.stat().st_size <= LARGEST_PACK:
        return graph, pack
    return None


def examples(test: Test) -> list[Any]:
    names = ["single", "two-in-turn", "pair", "pair-frozen", "branching", "brake", "controller"]
    texts = [(name, (TOP / "examples" / f"{name}.toml").read_text()) for name in names]
    texts.append(("periods", test.cpgc("hyper", 20, TOP / "examples" / "control.toml", 30, TOP / "examples" / "log.toml")[1]))
    return [compiled(test, name, text) for name, text in texts]


def generated(test: Test, count: int) -> list[Pair]:
    found: list[Pair] = []
    number = 0
    while len(found) < count and number < 20 * count + 20:
        pair = compiled(test, f"generated-{number}", GRAPHS.graph(test.random("graph", number)))
        found += [pair] if pair else []
        number += 1
    return found


def table(test: Test, path: Path, name: str) -> Path:
    """The constants of a node, which cpgc has to say of the pack, as a shared object."""
    if (path, name) not in test.tables:
        content = path.read_bytes()
        tables = pack.parsed(content)
        node = tables.nodes.index(name)
        text = "".join(f"{line}\n" for line in c_table.source(tables, node))
        differs = c_constants.difference(test.asked, text, content, tables, node)
        if differs:
            test.differ(f"the table of {name} in {path.name}", differs)
        made = test.tables[path, name] = test.place / f"table-{len(test.tables)}.so"
        test.gcc("-shared", "-fPIC", "-I", C, test.file("table.c", text), "-o", made)
    return test.tables[path, name]


def node_names(path: Path) -> list[str]:
    return sorted(set(pack.read(str(path)).nodes))


# ---- What is compared ----


def compare_unit(test: Test, pair: Path, branching: Path) -> None:
    status, told, error = test.c("unit", pair, branching)
    if status != 0:
        test.differ("unit", told, error)
    test.counts["checks"] = int(told.split()[0]) if told[:1].isdigit() else 0


def said_of_pack(test: Test, path: Path, name: str) -> str:
    """What the program says of a pack and a name: `ok`, or the words of its refusal."""
    status, _, error = test.cpgc("live", path, name, test.place / "close.stream")
    return "ok" if status == 0 else error.strip().removeprefix("cpgc: ")


def compare_opened(test: Test, paths: Sequence[Path], name: str) -> None:
    """Opens packs in C all at once, and by the program one after another."""
    status, told, error = test.c("open", name, *paths)
    lines = told.splitlines()
    if status != 0 or len(lines) != len(paths):
        test.differ("open", error)
        return
    for path, line in zip(paths, lines):
        wanted = said_of_pack(test, path, name)
        test.counts["packs opened"] += 1
        test.counts[wanted.split()[0] + "".join(wanted.split()[1:2])] += 1
        if line != wanted:
            test.differ(f"{path} {name}", wanted, line)


def compare_packs(test: Test, small: Path, count: int) -> None:
    """Lawful and damaged packs; and a small one that is cut, or wrong, at each place."""
    bytes_ = small.read_bytes()
    cut = [test.file(f"cut-{at}.pack", bytes_[:at]) for at in range(len(bytes_))]
    spoilt = [test.file(f"spoilt-{at}.pack", bytes_[:at] + b"\xfe" + bytes_[at + 1:]) for at in range(len(bytes_))]
    compare_opened(test, cut + spoilt + [test.file("longer.pack", bytes_ + b"\0")], node_names(small)[0])
    for number in range(count):
        lawful = PACKS.pack(test.random("pack", number))
        paths = [test.file("lawful.pack", lawful), test.file("damaged.pack", PACKS.damaged(test.random("damage", number), lawful))]
        compare_opened(test, paths, ["a", "N1", "n0", "nosuch"][number % 4])


def compare_sizes(test: Test, path: Path) -> None:
    """A node that is built just large enough opens its pack, and one that is too small in any way is full; for constants it isn't built."""
    read = pack.read(str(path))
    node = max(range(len(read.nodes)), key=lambda it: len(read.rows[it]))
    sizes, name = c_table.sizes(read, node), read.nodes[node]
    for less in [None, *sizes]:
        wanted = "ok" if less is None else "full"
        flags = [f"-D{key}={size - (key == less)}U" for key, size in sizes.items()]
        test.build(["open"], *flags)
        told = test.c("open", name, path)[1]
        test.counts["sizes"] += 1
        if not told.startswith(wanted):
            test.differ(f"sizes, {less} less", told)
        built = test.run("gcc", *flags, "-I", C, "-fsyntax-only", test.file("table.c", "\n".join(c_table.source(read, node))))[0] == 0
        if built != (less in (None, "CPG_MAX_COLUMNS")):
            test.differ(f"sizes of constants, {less} less", built)


def compare_streams(test: Test, packs: Sequence[Pair], wild: Sequence[Path], count: int) -> None:
    """Streams for the nodes of packs in turn; every second pack is one that no graph has."""
    number = 0
    while number < count:
        if number % 2 == 0:
            path = packs[(number // 2) % len(packs)][1]
        else:
            path = wild[(number // 2) % len(wild)]
        chosen = test.random("stream", number)
        node = chosen.choice(node_names(path))
        words_ = [str(chosen.randrange(10 ** 6)), chosen.choice(["0", "0", "5", "50"])]
        done = subprocess.run([test.place / "gen", path, node, *words_], capture_output=True)
        if done.returncode != 0:
            test.differ("gen", done.stderr)
        stream = test.file("node.stream", done.stdout)
        wanted, got = test.cpgc("live", path, node, stream), test.c("live", path, node, stream)
        constant = test.c("live", path, node, stream, table(test, path, node))
        test.counts["streams"] += 1
        test.counts["records"] += len(done.stdout) // 14
        test.counts["lines of streams"] += wanted[1].count("\n")
        test.counts["streams refused"] += wanted[0] == 4
        if not wanted == got == constant:
            test.differ(f"stream {number} of {path.name} {node}", wanted, got, constant)
        number += 1


def scenario_text(tables: Pack, faults: Sequence[int], values: Sequence[bool], lengths: Sequence[int]) -> str:

    def name(it: int) -> str:
        return f'"{tables.processes[it].name}"'

    parts = [("faults", faults), ("values", values), ("lengths", lengths)]
    return "".join(f"[{part}]\n" + "".join(f"{name(it)} = {str(number).lower()}\n" for it, number in enumerate(numbers) if number)
                   for part, numbers in parts)


def cluster_words(file: Path, tables: Pack, faults: Sequence[int], values: Sequence[bool], lengths: Sequence[int]) -> list[str]:

    def name(it: int) -> str:
        return tables.processes[it].name

    return ([f"slot:{slot['node']}={slot['length']}" for slot in tomllib.loads(file.read_text()).get("slot", [])]
            + [f"fault:{name(it)}={number}" for it, number in enumerate(faults) if number]
            + [f"value:{name(it)}" for it, value in enumerate(values) if value]
            + [f"length:{name(it)}={number}" for it, number in enumerate(lengths) if number])


def compare_plays(test: Test, packs: Sequence[Pair], count: int) -> None:
    """Plays of a cluster, and then the same with an execution that hangs, and with a frame that is lost."""
    for number in range(count):
        graph_file, path = packs[number % len(packs)]
        tables, chosen = pack.read(str(path)), test.random("play", number)
        scenario = GRAPHS.scenario(chosen, tables)
        file = test.file("scenario.toml", scenario_text(tables, *scenario))
        words = cluster_words(graph_file, tables, *scenario)
        status, wanted, error = test.cpgc("play", graph_file, path, file, "--turns", number)
        played = "".join(line for line in wanted.splitlines(True) if not line.startswith("waits"))
        got = test.c("cluster", path, *words)
        test.counts["plays"] += 1
        test.counts["lines of plays"] += played.count("\n")
        if status != 0 or got != (0, played, ""):
            test.differ(f"play {number} of {path.name}", words, error, played, got)
        else:
            hang(test, chosen, path, tables, words, played.splitlines())
            lose(test, chosen, path, tables, words, played.splitlines())


def watched(test: Test, path: Path, *words: object) -> list[list[str]]:
    """What the watches of a cluster tell, as [time, node, kind, item], in the order of time."""
    lines = [line.split(" ", 3) for line in test.c("cluster", path, *words)[1].splitlines()]
    return [line for line in lines if line[2:3] in (["overrun"], ["missing"])]


def hang(test: Test, chosen: random.Random, path: Path, tables: Pack, words: Sequence[str], lines: Sequence[str]) -> None:
    """An execution that hangs is told at its end with all k faults."""
    started = [line.split() for line in lines if line.split()[2:3] == ["start"]]
    if not started:
        return
    time, node, _, name = chosen.choice(started)
    [process] = [it for it in tables.processes if it.name == name]
    end = int(time) + process.durations[tables.faults]
    overruns = [line for line in watched(test, path, *words, f"hang:{name}") if line[2] == "overrun"]
    test.counts["hangs"] += 1
    if overruns != [[str(end), node, "overrun", f"start {name}"]]:
        test.differ(f"hang of {name} in {path.name}", words, overruns)


def lose(test: Test, chosen: random.Random, path: Path, tables: Pack, words: Sequence[str], lines: Sequence[str]) -> None:
    """A frame that is lost is told, where what came leaves no other reason why it isn't there."""
    sent = [line.split() for line in lines if line.split()[2:3] in (["send"], ["tell"])]
    if not sent:
        return
    _, _, kind, name = chosen.choice(sent)
    row = tables.row(kind, name)
    assert row
    item = row[1].item.number
    missing = [line for line in watched(test, path, *words, f"lose:{item}") if line[2] == "missing"]
    test.counts["losses"] += 1
    test.counts["losses told"] += missing != []
    test.counts["losses named first"] += missing != [] and missing[0][3] == f"{kind} {name}"


def compare_programs(test: Test, file: Path, path: Path, scenario: Path, arm: bool) -> None:
    """Nodes as programs of their own, in the scenario of an example."""
    status, wanted, error = test.cpgc("play", file, path, scenario, "--turns", 0)
    played = [line for line in wanted.splitlines() if not line.startswith("waits")]
    read, flags = pack.read(str(path)), () if arm else SANITIZERS
    place = test.place / f"{path.stem}-{'arm' if arm else 'pc'}"
    place.mkdir()
    try:
        got = run_nodes.simulated(graph.read(str(file)), read, play.read_scenario(str(scenario)), place, arm, flags, every=not arm)
    except (cli.Failure, OSError) as fault:
        got = [str(fault)]
    test.counts["programs"] += len(read.nodes)
    if status != 0 or got != played:
        test.differ(f"programs of {path.name}", error, played, got)
    elif arm:
        tell_size(test, place, read)


def compare_cycles(test: Test, name: str, text: str, scenario: str, arm: bool = False) -> None:
    """Nodes as programs of their own, cycle after cycle, begun again as soon as they may: each cycle is the same play."""
    made = compiled(test, name, text)
    assert made
    files = *made, test.file(f"{name}-scenario.toml", scenario)
    it, tables, place = graph.read(str(files[0])), pack.read(str(files[1])), test.place / f"{name}-cycles"
    length = cycle.parts(it, tables)["cycle"]
    cluster = run_nodes.Cluster(it, tables, play.read_scenario(str(files[2])))
    place.mkdir()
    flags = (*(() if arm else SANITIZERS), f"-DNODE_CYCLE={length}U")
    cluster.turns = [{time + number * length for time in turns for number in range(CYCLES + 1)} for turns in cluster.turns]
    nodes = [run_nodes.Node(run_nodes.build(tables, node, place, arm, flags), arm) for node in range(len(tables.nodes))]
    try:
        cluster.run(nodes, CYCLES * length, arm)
    finally:
        for node in nodes:
            node.stop()
    last = CYCLES * length      # one more cycle begins there
    cluster.lines = [it for it in cluster.lines if it[0] < last or it[0] == last and it[2] in (run_nodes.END, run_nodes.WATCH)]
    played = [line.split(" ", 1) for line in test.cpgc("play", *files, "--turns", 0)[1].splitlines() if line[0].isdigit()]
    wanted = [f"{int(time) + cycle * length} {text}" for cycle in range(CYCLES) for time, text in played]
    got = cluster.trace()[:-1]
    test.counts["programs"] += len(nodes)
    if not wanted or sorted(got) != sorted(wanted):
        test.differ(f"cycles of {name}", wanted, got)
    elif arm:
        tell_size(test, place, tables)


TABLE = "pack", "item", "process", "due", "cpg_node_table"


def tell_size(test: Test, place: Path, tables: Pack) -> None:
    """Flash and RAM of the programs of nodes, as arm-none-eabi-size tells them, and what of it a table and a cpg_node take."""
    for node, name in enumerate(tables.nodes):
        text, data, bss = map(int, test.run("arm-none-eabi-size", place / f"node-{node}")[1].splitlines()[1].split()[:3])
        symbols = [line.split() for line in test.run("arm-none-eabi-nm", "-S", place / f"node-{node}")[1].splitlines()]
        sizes = {it[3]: int(it[1], 16) for it in symbols if len(it) == 4}
        print(f"Cortex-M3, node {name}: flash {text + data} bytes, {sum(sizes[it] for it in TABLE)} of them its table; "
              f"RAM {data + bss} bytes and the stack, {sizes['node']} of them its state")


def compare_costs(test: Test, name: str, path: Path, file: Path, scenario: Path) -> None:
    """What the emulator counts of the calls of each node in a play is no more than what `c-table --cost` says."""
    tables = pack.read(str(path))
    acts = play.parsed(test.cpgc("play", file, path, scenario, "--turns", 0)[1].splitlines())
    for node, called in enumerate(tables.nodes):
        records = stream.records(tables, node, acts)
        table, told, made = test.place / "cost-table.c", test.place / "cost-stream.c", test.place / "cost"
        table.write_text("\n".join([*c_table.source(tables, node), ""]))
        told.write_text(f"#include <stdint.h>\nextern const uint8_t cost_stream[];\nextern const uint32_t cost_records;\n"
                        f"const uint32_t cost_records = {len(records) // 14}U;\nconst uint8_t cost_stream[] = {{ {', '.join(map(str, records))} }};\n")
        files = [C / "cpg_node.c", C / "test/cost.c", C / "example/arm/startup.c", table, told]
        error = test.run(*run_nodes.ARM, *WARNINGS, *c_table.size_words(tables, node), "-I", C, *files, "-o", made)[2]
        if error:
            test.differ("cost", error)
            return
        emulator = ["null" if it == "stdio" else it for it in run_nodes.EMULATOR[:-1]]
        ran = test.run(*emulator, "-icount", "shift=9,sleep=off", "-kernel", made)
        counted = {words[0]: int(words[1]) for words in map(str.split, (ran[1] + ran[2]).splitlines()) if len(words) == 2 and words[1].isdigit()}
        cost = c_cost.Cost(tables, node)
        most = {**cost.calls(), "instant": max(map(cost.instant, cost.times), default=0)}
        test.counts["costs"] += 1
        if set(counted) != set(most) or any(counted[it] > most[it] for it in most):
            test.differ(f"cost of {name} {called}", counted, most)
        print(f"Cortex-M3, node {called}: " + ", ".join(f"{it} {counted.get(it, 0):,} of at most {most[it]:,}" for it in most))


FUNCTION = re.compile(r"^[0-9a-f]+ <(\w+)[^>]*>:\n((?:.+\n)+)", re.MULTILINE)
INSTRUCTION = re.compile(r"^ *([0-9a-f]+):\t[0-9a-f ]+\t(?!\.)(\S+)\t?(.*)$", re.MULTILINE)
BACK = re.compile(r"(?:\w+, )?([0-9a-f]+) <")


def instructions(code: str) -> tuple[int, int]:
    """How many instructions a function has, and the most of them from one to which a branch leads back on up to that."""
    found = [(int(at, 16), name, words) for at, name, words in INSTRUCTION.findall(code)]
    places = {at: number for number, (at, _, _) in enumerate(found)}
    ends = [(number, int(to[1], 16)) for number, (_, name, words) in enumerate(found) if name != "bl" and (to := BACK.match(words))]
    return len(found), max((number - places[to] + 1 for number, to in ends if places.get(to, number + 1) <= number), default=0)


def compare_counts(test: Test) -> None:
    """A function of cpg_node.c has no more instructions than `c-table --cost` counts with."""
    made = test.place / "counts.o"
    error = test.run(*run_nodes.ARM[:4], "-fno-inline", "-std=c99", "-c", C / "cpg_node.c", "-o", made)[2]
    found = {name: instructions(code) for name, code in FUNCTION.findall(test.run("arm-none-eabi-objdump", "-d", made)[1])}
    least = {name: (whole, c_cost.PASS.get(name, whole)) for name, whole in c_cost.WHOLE.items()}
    more = {name: counts for name, counts in found.items() if any(one > other for one, other in zip(counts, least.get(name, (0, 0))))}
    if error or more or not found:
        test.differ("instructions of functions", error, more)


def compare_calls(test: Test, paths: Sequence[Path], rounds: int) -> None:
    """Any calls of nodes whose packs are damaged, also after they were opened; once with large tables, once with small ones."""
    small = ["PROCESSES=4", "CONDITIONS=1", "OWN=2", "ROWS=8", "COLUMNS=24"]
    for flags in (["-DCPG_MAX_COLUMNS=65536U"], [f"-DCPG_MAX_{it}U" for it in small]):
        test.build(["fuzz"], *SANITIZERS, *flags)
        status, told, error = test.c("fuzz", rounds, test.seed, *paths)
        if status != 0:
            test.differ("fuzz", *error.splitlines()[:6])
            continue
        opened, calls = map(int, told.split())
        test.counts["packs of any calls"] += opened
        test.counts["any calls"] += calls


SOURCES = C / "cpg_node.c", C / "cpg_open.c"
CHECKERS = {
    "cppcheck": ["--enable=all", "--std=c99", "--suppress=missingIncludeSystem", "--suppress=unusedFunction", "-q", *SOURCES],
    "clang-tidy": ["--quiet", "--checks=-*,clang-analyzer-*,bugprone-*,cert-*,misc-*,performance-*,portability-*,readability-*,"
                   "-bugprone-easily-swappable-parameters,-readability-function-cognitive-complexity,"
                   "-readability-identifier-length,-readability-magic-numbers", *SOURCES, "--", "-std=c99"],
}


def compare_checkers(test: Test) -> None:
    """What reads the C as a text says nothing of it, nor does clang."""
    for name, flags in {**CHECKERS, "clang": [*WARNINGS, "-Wsign-conversion", "-fsyntax-only", *SOURCES]}.items():
        if shutil.which(name) is None:
            print(f"{name} is left out: it isn't there")
            continue
        status, told, error = test.run(name, *flags)
        said = [line for line in (told + error).splitlines() if not line.endswith("warnings generated.")]
        if status != 0 or said:
            test.differ(name, *said)


# ---- The whole ----


def compare(test: Test, streams: int, plays: int) -> None:
    test.file("close.stream", bytes([2] + [0] * 13))
    known = examples(test)
    packs = known + generated(test, max(plays // 4, 10))
    wild = [test.file(f"wild-{it}.pack", PACKS.pack(test.random("wild", it))) for it in range(max(streams // 8, 10))]
    paths = {pack.stem: pack for _, pack in known}
    compare_unit(test, paths["pair"], paths["branching"])
    compare_packs(test, paths["single"], max(streams // 8, 20))
    compare_sizes(test, paths["controller"])
    compare_streams(test, packs, wild, streams)
    compare_plays(test, packs, plays)
    compare_calls(test, [pack for _, pack in packs] + wild, max(streams // 2, 50))


def compare_examples(test: Test, arm: bool) -> None:
    compare_cycles(test, "single", (TOP / "examples/single.toml").read_text(), "[faults]\nA = 1\n")
    compare_cycles(test, "tight", TIGHT, "[values]\nC = true\n")
    missing = run_nodes.missing_programs(True) if arm else []
    if missing:
        print(f"the emulated Cortex-M3 is left out: there is no {', '.join(missing)}")
    for name in ("pair", "branching", "controller"):
        files = TOP / "examples" / f"{name}.toml", test.place / f"{name}.pack", TOP / "examples" / f"{name}-scenario.toml"
        if name != "controller":
            compare_programs(test, *files, False)
        if arm and not missing and name != "branching":
            compare_programs(test, *files, True)
            compare_costs(test, name, files[1], files[0], files[2])
    if arm and not missing:
        compare_counts(test)
        fbw = TOP / "examples/fbw"
        compare_cycles(test, "fly-by-wire", test.cpgc("hyper", 1000, fbw / "inner.toml", 2000, fbw / "outer.toml")[1], FAULTY, True)


def summary(test: Test) -> None:
    it = test.counts
    print(f"{it['checks']} checks of calls, {it['sizes']} of sizes; {len(test.tables)} tables of constants; "
          f"{it['refused10']} packs refused as none, {it['refused19']} for their node")
    print(f"streams: {it['records']} records, {it['lines of streams']} lines, {it['streams refused']} refused; "
          f"plays: {it['lines of plays']} lines")
    print(f"any calls: {it['any calls']} by {it['packs of any calls']} packs, damaged before or afterwards")
    print(f"the watch: {it['hangs']} executions that hang, of {it['losses']} lost frames {it['losses told']} told, "
          f"{it['losses named first']} of them named first")
    found = "nothing differs" if test.wrong == 0 else "1 differs" if test.wrong == 1 else f"{test.wrong} differ"
    print(f"{it['packs opened']} packs, {it['streams']} streams, {it['plays']} plays and {it['programs']} nodes as programs: {found}")


def words() -> argparse.Namespace:
    parser = cli.Words(__doc__)
    parser.add_argument("program", metavar="PROGRAM", help="the built cpgc")
    parser.add_argument("--streams", type=int, default=300, metavar="N", help="how many streams (300)")
    parser.add_argument("--plays", type=int, default=60, metavar="N", help="how many plays (60)")
    parser.add_argument("--seed", type=int, default=1, metavar="S", help="the seed from which all are drawn (1)")
    parser.add_argument("--arm", action="store_true", help="run the emulated Cortex-M3 too")
    parser.add_argument("--keep", metavar="FOLDER", help="leave the programs, packs and last files in this folder, an empty one")
    return parser.parse_args()


def test_in(place: Path, program: Path, asked: argparse.Namespace) -> int:
    test = Test(program, place, asked.seed)
    test.build(["live", "gen", "open", "cluster", "unit"], *SANITIZERS, "-DCPG_MAX_COLUMNS=524288U")
    compare(test, asked.streams, asked.plays)
    compare_checkers(test)
    compare_examples(test, asked.arm)
    summary(test)
    return 1 if test.wrong else 0


def main() -> int:
    asked = words()
    if shutil.which("gcc") is None:
        print("skipped: there is no gcc")
        return 0
    program = Path(asked.program).resolve()
    if not os.access(program, os.X_OK):
        cli.fail(f"no program: {asked.program}", cli.NO_PROGRAM)
    if asked.keep:
        Path(asked.keep).mkdir(parents=True, exist_ok=True)
        return test_in(Path(asked.keep), program, asked)
    with tempfile.TemporaryDirectory() as place:
        return test_in(Path(place), program, asked)
