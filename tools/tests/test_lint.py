"""The tool lint. Wanted lines are worked out by hand from docs/MODEL.md."""
import json
import random

from cpgc_tools import lint, pack
from cpgc_tools.graph import File
from tests.case import BRANCHING, EXAMPLES, LATE, PAIR, Case
from tests.drawn import drawn

NO_JOIN = BRANCHING.replace("join = true, ", "")
CLEAN = """faults = 0
deadline = 40
node = [{ name = "N" }, { name = "M" }]
slot = [{ node = "N", length = 5, bytes = 4 }, { node = "M", length = 5, bytes = 4 }]
process = [{ name = "A", node = "N", wcet = 5 }, { name = "B", node = "M", wcet = 5 }, { name = "C", node = "N", wcet = 4 }]
edge = [{ from = "A", to = "B", bytes = 1 }, { from = "B", to = "C", bytes = 1 }]
"""


class Lint(Case):
    def found(self, text: str, *words: object) -> list[tuple[str, str]]:
        """The kind and the place of each warning."""
        lines = self.of("lint", *words, self.file("x.toml", text)).splitlines()
        return [(line.rpartition("[")[2][:-1], line.removeprefix(str(self.folder / "x.toml:")).split(" ")[0]) for line in lines]

    def test_clean(self) -> None:
        """A goes from 0 to 5, its frame is there at 15, B ends at 20, its frame in the slot at 25 is there at 30, and C ends at 34."""
        self.assertEqual(self.found(CLEAN), [])
        self.assertEqual(self.found(""" faults = 0\ndeadline = 5\n"""), [])

    def test_never_runs(self) -> None:
        """B runs if A is true and C if it is false, so J, which waits for both, never does."""
        file = self.file("x.toml", NO_JOIN)
        line = f"{file}:9: warning: J never runs: its inputs (B, C) never come together; join = true takes one of them [never-runs]\n"
        status, out, err = self.run_tool("lint", "--strict", "--without", "round", "--without", "idle-slot", file)
        self.assertEqual((status, out, err), (1, line, ""))
        self.assertEqual(self.of("lint", "--strict", "--without", "never-runs", "--without", "round", "--without", "idle-slot", file), "")
        self.assertEqual(self.run_tool("lint", "--without", "round", "--without", "idle-slot", file, self.packed(NO_JOIN)), (0, line, ""))

    def test_not_in_the_pack(self) -> None:
        """What tables leave out that is active is told, too: C starts at 30. A pack of another graph is none of this one."""
        pack, file = self.packed(CLEAN), self.file("x.toml", CLEAN)
        self.assertEqual(self.of("lint", file, pack), "")
        tables = self.of("pack", "read", pack)
        row = next(line for line in tables.splitlines() if '"start C"' in line)
        self.assertIn("[[30, []]]", row)
        less = self.file("less.pack", self.run_tool("pack", "write", stdin=tables.replace(row, row.replace("[[30, []]]", "[]")))[1].encode("latin-1"))
        self.assertEqual(self.of("lint", file, less), f"{file}:5: warning: C is in no column of the pack, though it is active in some scenario: ask `cpgc check` [never-runs]\n")
        other = self.packed(PAIR, "pair")
        self.of("lint", file, other, status=1, err=f"lint: {other}: it was made for another graph; `explain -- cpgc check` says what differs\n")

    def test_overheads(self) -> None:
        """Where faults may strike, an execution that runs again has overheads; 0 counts as none."""
        text = CLEAN.replace("faults = 0", "faults = 1").replace("deadline = 40", "deadline = 80")
        self.assertEqual(self.found(text), [("no-overhead", "5:")])
        one = text.replace("wcet = 5", "wcet = 5, mu = 1").replace("wcet = 4", "alpha = 0, wcet = 4")
        lines = self.of("lint", self.file("x.toml", one)).splitlines()
        self.assertEqual([line.split(": ", 2)[2].split(":")[0] for line in lines], ["C has no alpha, chi or mu"])

    def test_edges(self) -> None:
        """A second edge with the same ends, a message without bytes, and frozen within a node."""
        text = CLEAN.replace(', { from = "B"', ',\n{ from = "A", to = "B", bytes = 1 },\n{ from = "A", to = "C", frozen = true },\n{ from = "C", to = "B" },\n{ from = "B"')
        text = text.replace('{ from = "B", to = "C", bytes = 1 }', '{ from = "A", to = "B", bytes = 1, when = true }')
        self.assertEqual(self.found(text), [("idle-slot", "4:"), ("doubled-edge", "7:"), ("frozen-local", "8:"), ("no-bytes", "9:")])
        lines = self.of("lint", self.file("x.toml", text)).splitlines()
        self.assertIn("edge 1 (A to B) stands there already, as edge 0 on line 6: its message is sent twice", lines[1])

    def test_apart_and_slots(self) -> None:
        text = CLEAN.replace('{ from = "B", to = "C", bytes = 1 }', "")
        self.assertEqual(self.found(text), [("idle-slot", "4:"), ("apart", "5:")])
        self.assertEqual(self.found(text.replace('bytes = 1 }', 'bytes = 1 }, { from = "A", to = "C", when = true }')), [("idle-slot", "4:")])

    def test_times(self) -> None:
        """A deadline after that of the graph; ways that take longer than there is time: that to B until 20 and that to C until 34, as above;
        and N, which has work for 9."""
        later = CLEAN.replace('"N", wcet = 5', '"N", deadline = 50, wcet = 5')
        self.assertEqual(self.found(later), [("due-later", "5:")])
        late = CLEAN.replace("deadline = 40", "deadline = 30")
        self.assertEqual(self.of("lint", self.file("x.toml", late)), f"{self.folder}/x.toml:5: note: A B C take until 34, and C is due at 30: no order helps [too-long]\n")
        self.assertEqual(self.found(late.replace('"M", wcet', '"M", deadline = 19, wcet')), [("too-long", "5:")])  # C waits for B
        self.assertEqual([kind for kind, _ in self.found(CLEAN.replace("deadline = 40", "deadline = 8"))], ["round", "load", "too-long"])

    def test_late(self) -> None:
        """With its fault `sense` ends at 72, and `control` after 15 more."""
        self.assertEqual(self.of("lint", self.file("x.toml", LATE)),
                         f"{self.folder}/x.toml:8: note: sense control take until 87 with 1 fault, and control is due at 80: no order helps [too-long]\n")

    def test_joins(self) -> None:
        """J takes B or C. J lasts 10. The way over C takes until 80: A ends at 35, C at 50, its frame goes at 60 and is there at 70. The shorter
        one is over B: the frame of A is there at 50 at the earliest, and B lasts 15."""
        for deadline, kinds in (74, ["too-long"]), (75, []):
            text = BRANCHING.replace("deadline = 95", f"deadline = {deadline}")
            self.assertEqual([kind for kind, _ in self.found(text, "--without", "round", "--without", "idle-slot")], kinds, deadline)

    def test_load(self) -> None:
        """In one outcome N has 10 and 30, in the other 10 and 20; with a fault 30 again."""
        text = """
            faults = 1
            deadline = 69
            node = [{ name = "N" }]
            process = [{ name = "A", node = "N", wcet = 10, mu = 1 }, { name = "B", node = "N", wcet = 30, mu = 1 }, { name = "C", node = "N", wcet = 20, mu = 1 }]
            edge = [{ from = "A", to = "B", when = true }, { from = "A", to = "C", when = false }]
        """
        lines = self.of("lint", self.file("x.toml", text)).splitlines()
        self.assertIn("N has work for 71 with 1 fault, and the deadline is 69", lines[0])
        self.assertEqual([kind for kind, _ in self.found(text)], ["load", "too-long"])
        self.assertEqual(self.found(text.replace("69", "71")), [])

    def test_units(self) -> None:
        """The median of 5000, 5000 and 5 is 5000, a thousand times 5."""
        text = CLEAN.replace("wcet = 5", "wcet = 5000").replace("deadline = 40", "deadline = 40000").replace("wcet = 4", "wcet = 5")
        self.assertEqual(self.found(text), [("units", "5:")])
        self.assertEqual(self.found(text.replace("wcet = 5 ", "wcet = 6 ")), [])

    def test_strict(self) -> None:
        """Notes on what can't be in time, on times in other units and on what has no effect end with status 1, too; the others don't. The ways to B and C
        take until 20 and 34, and N has work for 9. A due of B after the graph's has no effect. B lasts 5000 times as long as A."""
        slow = CLEAN.replace('"M", wcet = 5', '"M", wcet = 5000').replace("deadline = 40", "deadline = 40000")
        cases: list[tuple[str, list[str], int]] = [
            (CLEAN, [], 0),
            (CLEAN.replace("deadline = 40", "deadline = 30"), ["too-long"], 1),
            (CLEAN.replace("deadline = 40", "deadline = 8"), ["round", "load", "too-long"], 1),
            (slow, ["units"], 1),
            (CLEAN.replace('"M", wcet', '"M", deadline = 50, wcet'), ["due-later"], 1),
            (CLEAN.replace(", bytes = 1 }]", ', bytes = 1 }, { from = "A", to = "C", frozen = true }]'), ["frozen-local"], 1),
            (CLEAN.replace("deadline = 40", "deadline = 45"), ["round"], 0),
            (CLEAN.replace('{ from = "B", to = "C", bytes = 1 }', ""), ["idle-slot", "apart"], 0),
        ]
        for text, kinds, wanted in cases:
            with self.subTest(kinds):
                self.assertEqual([kind for kind, _ in self.found(text)], kinds)
                self.assertEqual(self.run_tool("lint", "--strict", self.file("x.toml", text))[0], wanted)
                self.assertEqual(self.run_tool("lint", "--strict", *(it for kind in kinds for it in ("--without", kind)), self.file("x.toml", text)), (0, "", ""))

    def test_rounds(self) -> None:
        """A round of 10 divides 40 and not 15; of 7 neither, and the two instances of a part with the period of 20."""
        self.assertEqual(self.found(CLEAN, "--period", "20", "--period", "15"), [("round", "4:")])
        text = CLEAN.replace("length = 5", "length = 2").replace("length = 2", "length = 5", 1).replace("deadline = 40", "deadline = 42")
        self.assertEqual(self.found(text), [])
        copies = text.replace('"A"', '"0.0.A"').replace('"B"', '"0.1.A"').replace('"C"', '"1.0.C"').replace("length = 5", "length = 4")
        self.assertEqual(self.found(copies), [("round", "4:")])  # 6 divides 42, and not 21

    def test_late_frame(self) -> None:
        """docs/MODEL.md has this graph: the value of A goes in the slot from 40 to 50."""
        text = """
            faults = 0
            deadline = 40
            node = [{ name = "N1" }, { name = "N2" }]
            slot = [{ node = "N1", length = 10, bytes = 8 }, { node = "N2", length = 10, bytes = 8 }]
            process = [{ name = "A", node = "N1", wcet = 25 }, { name = "B", node = "N1", wcet = 5 }, { name = "C", node = "N2", wcet = 5 }]
            edge = [{ from = "A", to = "B", when = true }]
        """
        lines = self.of("lint", self.file("x.toml", text), self.packed(text)).splitlines()
        self.assertIn(": note: a frame arrives at 50, after the deadline of 40: the tables repeat after 60 at the earliest [late-frame]", lines[0])

    def test_json(self) -> None:
        path = self.file("x.toml", (EXAMPLES / "pair.toml").read_text())
        self.assertEqual(json.loads(self.of("lint", "--json", "--without", "idle-slot", path)), [
            {"file": path, "line": 2, "column": 1, "grade": "note", "kind": "round", "name": None,
             "text": "a round of 20 doesn't divide the deadline of 105: the tables repeat after 120 at the earliest"}])
        named = json.loads(self.of("lint", "--json", self.file("x.toml", NO_JOIN)))[-1]
        self.assertEqual((named["line"], named["column"], named["grade"], named["kind"], named["name"]), (9, 3, "warning", "never-runs", "J"))

    def test_drawn(self) -> None:
        """Of drawn graphs: what never runs is what the tables of cpgc never start, and nothing that runs ends before its least end."""
        rng, idle = random.Random(1), 0
        for number in range(60):
            text = drawn(rng).text()
            path = self.file("x.toml", text)
            made = self.cpgc("compile", path)
            if made.returncode == 0:
                with self.subTest(number, graph=text):
                    tables, it = pack.parsed(made.stdout), lint.Lint(File(path))
                    self.assertEqual(it.idle, {row.item.of for _, row in tables.acts() if row.item.kind == "start" and not row.columns})
                    least, ends = it.least_ends(), tables.latest_ends()
                    self.assertEqual({it.graph.processes[p].name for p in least}, set(ends))
                    for p, ways in least.items():
                        self.assertLessEqual(ways[-1][0], ends[it.graph.processes[p].name])
                    idle += len(it.idle)
        self.assertGreater(idle, 0)

    def test_no_graph(self) -> None:
        for text in "faults = 0\n", CLEAN.replace('to = "B"', 'to = "A"'), CLEAN.replace('to = "C"', 'to = "A"'):
            file = self.file("x.toml", text)
            self.of("lint", file, status=1, err=f"lint: {file}: no graph file; `cpgc show` says why\n")
