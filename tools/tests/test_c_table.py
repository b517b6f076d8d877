"""The tool c-table. Wanted values are worked out by hand: the bytes from docs/FORMATS.md, costs from the counts that c_cost says it takes."""
import hashlib
import re
import shutil
import subprocess
import unittest
from collections.abc import Iterator
from unittest import mock

from cpgc_tools import c_constants, c_table, cli, pack
from cpgc_tools.c_cost import Cost
from cpgc_tools.program import Program
from tests.case import BRANCHING, CPGC, PAIR, TOP, Case

STRANGE = """
faults = 0
deadline = 100
node = [{ name = "N1" }, { name = "N2" }]
slot = [{ node = "N1", length = 10, bytes = 8 }, { node = "N2", length = 10, bytes = 8 }]
process = [{ name = "0.a-b", node = "N1", wcet = 1 }, { name = "SECOND", node = "N2", wcet = 1 }]
edge = [{ from = "0.a-b", to = "SECOND", bytes = 2 }, { from = "0.a-b", to = "SECOND", bytes = 3 }]
"""


ALONE = """
faults = 0
deadline = 100
node = [{ name = "N1" }, { name = "idle" }]
process = [{ name = "A", node = "N1", wcet = 1 }]
"""
NUMBER = re.compile(r"(?<![0-9A-Z_a-z.])(0x[0-9a-f]{2}|[0-9]+)U")


def wrong(text: str) -> Iterator[str]:
    """The C with another number in place of each one that the node reads."""
    for it in NUMBER.finditer(text, text.index("static const")):
        number = int(it[1], 0)
        yield text[:it.start()] + (f"0x{number ^ 1:02x}U" if it[1].startswith("0x") else f"{number + 1}U") + text[it.end():]


class CTable(Case):
    def test_constants(self) -> None:
        """N2 of the pair hears e0 (item 2) and starts B (item 1). Its rows are start B and hear e0; at 50 and at 90 the frame comes before the start.
        B has two durations of 8 bytes, and a column with one literal has 12."""
        tables = pack.read(self.packed(PAIR))
        made = c_constants.constants(tables, 1)
        times = [time.to_bytes(8, "big") for time in (15, 32, 50, 50, 90, 90)]
        literals = [bytes([1, 0, 0, 0])] * 2 + [bytes([1, 0, 1, 1])] * 2
        self.assertEqual(made.pack, b"".join(times[:2] + [time + literal for time, literal in zip(times[2:], literals)]))
        self.assertEqual((made.item, made.process, made.due), ((1, 2), ((0, 255),), ((16, 1, 0), (28, 0, 0), (40, 1, 1), (52, 0, 1))))
        self.assertEqual(made[4:], (1, 3, 1, 2, 0))
        text = self.of("c-table", "graph.pack", "N2")
        self.assertEqual(c_constants.read(text), made)
        self.assertIn(hashlib.sha256((self.folder / "graph.pack").read_bytes()).hexdigest(), text)
        self.assertEqual(self.of("c-table", "graph.pack", "N2", "--graph", "graph.toml"), text)

    def test_order(self) -> None:
        """At one time what is heard comes first, then sends, then starts; of these rows in their order."""
        tables = pack.read(self.packed(BRANCHING))
        for node in 0, 1:
            made = c_constants.constants(tables, node)
            found = [(made.column(at)[0], 0 if row >= made.acting else 1 if row >= len(made.process) else 2, row, column) for at, row, column in made.due]
            self.assertEqual(found, sorted(found))
            self.assertEqual(len(found), sum(len(row.columns) for row in tables.rows[node]))
        self.assertEqual([it.condition for it in c_constants.constants(tables, 0).process], [0, 255])  # of A and C

    def test_wrong_constants(self) -> None:
        """No number in the C may be another one, no pointer lead elsewhere, and no array be shorter. A is released at 1, since a column at 0 for all
        scenarios stands at two places: it is all zeros."""
        for graph, nodes in (PAIR, 2), (BRANCHING, 2):
            path = self.packed(graph.replace('name = "A", node = "N1",', 'name = "A", node = "N1", release = 1,'))
            content, tables = (self.folder / "graph.pack").read_bytes(), pack.read(path)
            with Program(CPGC) as cpgc:
                for node in range(nodes):
                    text = "".join(f"{line}\n" for line in c_table.source(tables, node))
                    self.assertEqual(c_constants.difference(cpgc, text, content, tables, node), "")
                    self.assertGreater(len(list(wrong(text))), 70)
                    with mock.patch.object(cpgc, "text", return_value=cpgc.text("node", path, tables.nodes[node])):
                        for other in wrong(text):
                            self.assertNotEqual(c_constants.difference(cpgc, other, content, tables, node), "", other)
                    for one, other in (".pack = pack", ".pack = item"), ("    0x00U, ", "    "), ("U },\n};", "U },\n    { 0U, 0U, 0U },\n};"):
                        self.assertNotEqual(c_constants.difference(cpgc, text.replace(one, other), content, tables, node), "")

    def test_other_head(self) -> None:
        """A pack that was made of another graph is refused with --graph, and so is a table whose durations are others."""
        path = self.packed(PAIR)
        self.file("longer.toml", PAIR.replace("wcet = 10", "wcet = 11"))
        self.of("c-table", path, "N2", "--graph", "longer.toml", status=4, err="cpgc: refused 17 other graph processes\n")
        self.file("none.toml", "faults")
        self.of("c-table", path, "N2", "--graph", "none.toml", status=4, err="cpgc: refused 1 not toml\n")
        tables = pack.read(path)
        text = "\n".join(c_table.source(tables, 1)).replace("0x0fU", "0x10U")
        with Program(CPGC) as cpgc, self.assertRaises(cli.Failure) as refused:
            c_constants.hold_head(cpgc, text, str(self.folder / "graph.toml"), tables, 1)
        self.assertIn("17 other graph", str(refused.exception))

    @unittest.skipIf(shutil.which("gcc") is None, "there is no gcc")
    def test_constants_are_c(self) -> None:
        """A table without rows is C as well, and with a macro that is too small it isn't."""
        path = self.packed(ALONE)
        words = ["gcc", "-std=c99", "-Wall", "-Wextra", "-Wpedantic", "-Wconversion", "-Werror", "-I", str(TOP / "runtime/c"), "-fsyntax-only"]
        for name in "N1", "idle":
            self.file("table.c", self.of("c-table", path, name))
            sizes = self.of("c-table", path, name, "--sizes").split()
            for flags, status in (sizes, 0), (["-DCPG_MAX_OWN=1U", "-DCPG_MAX_PROCESSES=1U", "-DCPG_MAX_ROWS=1U"], 0):
                said = subprocess.run([*words, *flags, "table.c"], cwd=self.folder, capture_output=True, check=False)
                self.assertEqual((said.returncode, said.stderr), (status, b""))
        self.file("table.c", self.of("c-table", self.packed(PAIR), "N2"))
        said = subprocess.run([*words, "-DCPG_MAX_OWN=1U", "-DCPG_MAX_PROCESSES=1U", "table.c"], cwd=self.folder, capture_output=True, check=False)
        self.assertIn(b"cpg_max_processes_is_large_enough", said.stderr)

    def test_table(self) -> None:
        """12 bytes up to the names of the nodes, 2 processes of 20 and their count, 4 of the edge, rows without columns of 4 and of 2, and two rows
        with 2 columns of 12: 113 bytes. Names and the rest of the head come back with --whole, on 114."""
        path = self.packed(PAIR)
        tables = pack.read(path)
        short = pack.parsed(c_table.table(tables, 1))
        self.assertEqual((len(c_table.table(tables, 1)), len(c_table.table(tables, 1, True))), (113, 114))
        self.assertEqual((short.nodes, [it.name for it in short.processes], short.rows[1]), (("-", "N2"), ["-", "-"], tables.rows[1]))
        self.assertEqual([it.durations for it in short.processes], [(35, 72), (15, 32)])
        self.file("short.pack", c_table.table(tables, 1))
        self.assertEqual(self.cpgc("live", "short.pack", "N2", str(TOP / "examples/pair-N2.stream")).stdout, b"90 start -\nclosed 105\n")
        for option, whole in ("--pack", False), ("--whole", True):
            self.assertEqual(self.of("c-table", path, "N2", option).encode("latin-1"), c_table.table(tables, 1, whole))

    def test_header(self) -> None:
        """Items: the processes A, B, C and J are 0 to 3, the four edges 4 to 7, and the value of A is 8. The last edge, e3, is that of C to J."""
        path = self.packed(BRANCHING)
        lines = self.of("c-table", path, "N2", "--header", "graph.toml").splitlines()
        digest = hashlib.sha256(BRANCHING.encode()).hexdigest()
        for line in (
                f'#define CPG_GRAPH_SHA256 "{digest}"', "#define CPG_START_B 1U",
                "#define CPG_STARTS { CPG_START_B, CPG_START_J }", '#define CPG_START_NAMES { "B", "J" }', "#define CPG_SENT_COUNT 0U",
                "#define CPG_FRAME_C_TO_J 7U", "#define CPG_VALUE_A 8U", "#define CPG_HEARD_COUNT 3U"):
            self.assertIn(line, lines)

    def test_names(self) -> None:
        """What isn't a letter or digit is _, and the second of two edges has its number; two names that become one are refused."""
        path = self.packed(STRANGE)
        lines = self.of("c-table", path, "N1", "--header", "graph.toml").splitlines()
        for line in ("#define CPG_START_0_A_B 0U", "#define CPG_FRAME_0_A_B_TO_SECOND 2U", "#define CPG_FRAME_0_A_B_TO_SECOND_BYTES 2U",
                     "#define CPG_FRAME_0_A_B_TO_SECOND_2 3U", "#define CPG_FRAME_0_A_B_TO_SECOND_2_BYTES 3U"):
            self.assertIn(line, lines)
        alike = STRANGE.replace('{ name = "SECOND", node = "N2"', '{ name = "0.A.B", node = "N1"').replace("SECOND", "0.A.B")
        path = self.packed(alike, "alike")
        self.of("c-table", path, "N1", "--header", "alike.toml", status=1,
                err=f"c-table: {path}: start 0.A.B and start 0.a-b would both be CPG_START_0_A_B in C\n")
        path = self.packed(PAIR, "pair")
        self.of("c-table", path, "N1", "--header", "graph.toml", status=4, err="cpgc: refused 17 other graph faults\n")

    @unittest.skipIf(shutil.which("gcc") is None, "there is no gcc")
    def test_header_is_c(self) -> None:
        path = self.packed(BRANCHING)
        self.file("N2.h", self.of("c-table", path, "N2", "--header", "graph.toml"))
        self.file("one.c", '#include "N2.h"\nconst unsigned starts[CPG_STARTS_COUNT] = CPG_STARTS;\nconst unsigned heard[CPG_HEARD_COUNT] = CPG_HEARD;\n'
                  "const char *const names[] = CPG_START_NAMES;\n")
        said = subprocess.run(["gcc", "-std=c99", "-Wall", "-Werror", "-c", "one.c", "-o", "one.o"], cwd=self.folder, capture_output=True, check=False)
        self.assertEqual((said.returncode, said.stderr), (0, b""))

    def test_cost(self) -> None:
        """On N1 A runs for 72 at most, and its message may be sent at 40, within it; on N2 nothing falls into B, from 50 to 82 and from 90.

        A byte costs 7, and a time 10, two words of 19 and 8 bytes, so 104. cpg_next: 26, a pass of 15 and a test of 5 for the one execution, and a
        due time of 9 and 104. cpg_ended: 49, 15 and a pass of 10 to find it, 24, 13 and a time. cpg_begin: 47, four passes of 18 (two fault counts, a
        value, an execution), and 40 and 4 for each of two rows.

        An instant with a send: cpg_ended; two polls, each 37 and two passes of that, the next instant, 6, 12, 20 and 25 of the turn, 26 and a pass of
        20 for ends with 24, 4, 5 and twice 8, 20, a pass of 15, 17 and 12 for overruns, and a due time; a column of 18, a due time, 6, 1, 23, 6, 43,
        6 and 37, a pass of that, a byte and a literal of 4 + 7 + 4 + 12 + 14 and 17; the event of 12 and a start of 22 and a time, which is more than
        a send; and the next instant once more."""
        tables = pack.read(self.packed(PAIR))
        one, other = Cost(tables, 0), Cost(tables, 1)
        self.assertEqual((one.next, one.ended(), one.begin()), (159, 215, 167))
        due, poll = 9 + 104, 3 * 37
        each = poll + 159 + 6 + 12 + 20 + 25 + 46 + 24 + 4 + 5 + 2 * 8 + 20 + 15 + 17 + 12 + due
        column = 18 + due + 6 + 1 + 23 + 6 + 43 + 6 + 2 * 37 + 7 + 41 + 17
        self.assertEqual(one.instant(40), 215 + 2 * each + column + 12 + 22 + 104 + 159)
        self.assertEqual([it[:4] for it in one.executions()], [(0, 0, 1, one.instant(40))])
        self.assertEqual([it[:3] for it in other.executions()], [(1, 50, 0)])
        lines = self.of("c-table", "graph.pack", "N1", "--cost").splitlines()
        self.assertEqual([lines[-1].split(), lines[2].split()], [["A", "0", "1", f"{one.instant(40):,}"], ["cpg_poll", f"{one.poll():,}"]])
