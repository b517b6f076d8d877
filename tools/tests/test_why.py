"""The tool why. Wanted values are worked out by hand from docs/MODEL.md."""
from tests.case import BRANCHING, EXAMPLES, LATE, Case
from tests.forms import FORMS

# X comes first in the urgency order, as it lasts longer, and A would end at 71, 11 past its due. In the track order A is first, as X is
# released at 30, and X is late
BYSTANDER = """
faults = 0
deadline = 100
node = [{ name = "N" }]
process = [{ name = "A", node = "N", wcet = 12, deadline = 60 }, { name = "X", node = "N", wcet = 29, release = 30, deadline = 55 }]
"""


# the round is 30; e0 and e1 are frozen
QUEUED = """
faults = 1
deadline = 200
node = [{ name = "N1" }, { name = "N2" }, { name = "N3" }]
slot = [{ node = "N1", length = 10, bytes = 8 }, { node = "N2", length = 10, bytes = 8 }, { node = "N3", length = 10, bytes = 8 }]
process = [
  { name = "A", node = "N1", wcet = 30, mu = 5 },
  { name = "B", node = "N2", wcet = 10, mu = 5 },
  { name = "C", node = "N3", wcet = 10, mu = 5, deadline = 140 },
]
edge = [{ from = "A", to = "B", frozen = true }, { from = "A", to = "C", frozen = true }]
"""


class Why(Case):
    def test_late(self) -> None:
        """With a fault `sense` runs to 72, and `control` 15 more; it is due at 80."""
        lines = self.lines("why", LATE)
        self.assertEqual(lines[:4], [
            "late: control ends at 87, 7 past its due of 80, in sense faults 1",
            "under the urgency order: sense control",
            "  control runs on N1 from 72 to 87            waits for the end of sense; sooner if sense ends sooner",
            "  sense runs on N1 from 0 to 72 with 1 fault  waits for nothing; sooner if it lasts shorter"])
        self.assertTrue(lines[-2].startswith("N1     |sense!---"))
        self.assertEqual(lines[-1], "mended by parts = 2 of sense: worst 77")

    def test_forms(self) -> None:
        for form, text in FORMS.items():
            with self.subTest(form):
                self.assertEqual(self.lines("why", text)[:4], [
                    "in time: B ends last, at 105, due at 105, in A faults 1",
                    "under the urgency order: A B",
                    "  B runs on N2 from 90 to 105             waits for e0 of A, sent at 80, there at 90; sooner if A ends by 60, or the slot of N1 moves",
                    "  A runs on N1 from 0 to 72 with 1 fault  waits for nothing; sooner if it lasts shorter"])
                late = text.replace("= 0x69", "= 104").replace("= 105", "= 104")
                self.assertEqual(self.lines("why", late)[0], "late: B ends at 105, 1 past its due of 104, in A faults 1")

    def test_the_line_of_cpgc_names_a_bystander(self) -> None:
        file = self.file("graph.toml", BYSTANDER)
        self.assertEqual(self.cpgc("show", file).stderr, b"cpgc: late 71 by A in none\n")
        lines = self.of("why", "--all", file).splitlines()
        self.assertEqual(lines[:6], [
            "late: X ends at 59, 4 past its due of 55, in none",
            "under the track order: A X",
            "  process  node  due  latest end  spare",
            "  X        N      55          59     -4",
            "  A        N      60          12     48",
            "  X runs on N from 30 to 59  waits for its release; sooner if that is sooner"])

    def test_frozen(self) -> None:
        """What is frozen waits for another scenario. e0 is always sent at 80; B is 1 late with its own fault, in A's too it would end at 105."""
        graph = (EXAMPLES / "pair-frozen.toml").read_text().replace("122", "104")
        self.assertEqual(self.lines("why", graph)[:6], [
            "late: B ends at 122, 18 past its due of 104, in B faults 1",
            "it is past it already in none",
            "under the urgency order: A B",
            "  B runs on N2 from 90 to 122 with 1 fault  waits for e0 of A, sent at 80 as it is frozen, there at 90; sooner if e0 isn't frozen, or A ends sooner there",
            "where A ends the latest, in A faults 1:",
            "  A runs on N1 from 0 to 72 with 1 fault    waits for nothing; sooner if it lasts shorter"])

    def test_mended(self) -> None:
        """X as the first one ends at 40 and Y at 70, as it is urgent; an edge from Y to X ends them at 30 and 70. But no edge may lead from
        a process that doesn't always run, or to a join, since that changes what runs. Other edges on the node are tried, too."""
        graph = """
            faults = 0
            deadline = 75
            node = [{ name = "N" }]
            process = [{ name = "X", node = "N", wcet = 40 }, { name = "Y", node = "N", wcet = 30, deadline = 60 }, { name = "Z", node = "N", wcet = 1 }]
            edge = [EDGE]
        """
        self.assertEqual(self.lines("why", graph.replace("EDGE", ""))[-1], "mended by an edge from Y to X: worst 71")
        lines = self.lines("why", graph.replace("EDGE", '{ from = "Z", to = "Y", when = true }'))
        self.assertEqual([it for it in lines if "mended" in it], ["mended by another order, which `explore --quick` writes: worst 71"])
        join = graph.replace("EDGE", '{ from = "Z", to = "X" }').replace("wcet = 40", "wcet = 40, join = true")
        self.assertEqual([it for it in self.lines("why", join) if "mended" in it], ["mended by an edge from Y to Z: worst 71"])

    def test_fewer_parts(self) -> None:
        """The best parts of B are 4, with which it ends at 35; with two it ends at 34."""
        graph = """
            faults = 2
            deadline = 34
            node = [{ name = "N" }]
            process = [{ name = "A", node = "N", wcet = 8 }, { name = "B", node = "N", wcet = 8, chi = 1, mu = 1 }]
            edge = [{ from = "A", to = "B" }]
        """
        self.assertEqual([it for it in self.lines("why", graph) if "parts" in it], ["mended by parts = 2 of B: worst 34"])

    def test_thawed(self) -> None:
        """On one node A ends at 72 with a fault, and B 15 later."""
        graph = (EXAMPLES / "pair-frozen.toml").read_text().replace("122", "110")
        mended = "mended by e0 not frozen: worst 105", *(f"mended by {move}, if its wcet is the same there: worst 87" for move in ("B on N1", "A on N2"))
        self.assertEqual(self.lines("why", graph)[-3:], list(mended))

    def test_conditions(self) -> None:
        """The broadcast of A goes at 40, and e0 in the next round; J waits for B, which is on its node."""
        self.assertEqual(self.lines("why", BRANCHING)[2:5], [
            "  J runs on N2 from 85 to 95          waits for the end of B; sooner if B ends sooner",
            "  B runs on N2 from 70 to 85          waits for e0 of A, sent at 60 behind the value of A, there at 70; sooner if the value of A is sent sooner",
            "  the value of A is sent on N1 at 40  waits for the end of A at 35 and the slot of N1; sooner if A ends by 20, or the slot of N1 moves"])

    def test_behind_a_frozen_frame(self) -> None:
        """A ends at 65 with a fault. So e0 is always sent at 90, and e1 a round later; a fault of C costs 15. As the second of the two e0 is there
        at 130, and B ends by 155. With 30 parts A ends at 36, e0 goes at 60, e1 at 90, and C ends by 125. A slot of N1 that begins at 10 takes e0
        at 70 and e1 at 100. On N2, whose slot begins at 10, A sends e1 alone, at 70; on N3, from 20, e0 alone, at 80, and B ends by 115. If C is on
        N1, e0 still goes at 90, and B ends by 125."""
        lines = self.lines("why", QUEUED)
        self.assertEqual([lines[0], *lines[2:6]], [
            "late: C ends at 155, 15 past its due of 140, in C faults 1",
            "  C runs on N3 from 130 to 155 with 1 fault  waits for e1 of A, sent at 120 behind e0 of A, there at 130; "
            "sooner if e1 stands before e0 in the file, or e0 of A is sent sooner",
            "  e0 of A is sent on N1 at 90                waits for its frozen time; sooner if it isn't frozen, or A ends sooner there",
            "where A ends the latest, in A faults 1:",
            "  A runs on N1 from 0 to 65 with 1 fault     waits for nothing; sooner if it lasts shorter"])
        self.assertEqual([it for it in lines if "mended" in it], [
            "mended by e1 and e0 in each other's place in the file: worst 155",
            "mended by parts = 30 of A: worst 125",
            "mended by slots in the order N2 N1 N3: worst 135",
            "mended by slots in the order N3 N1 N2: worst 135",
            "mended by A on N2, if its wcet is the same there: worst 105",
            "mended by A on N3, if its wcet is the same there: worst 115",
            "mended by C on N1, if its wcet is the same there: worst 125"])

    def test_frozen_behind_a_frame_of_another_scenario(self) -> None:
        """X ends at 66 at the latest, for which the slot at 90 would do. But with A's fault e0 has that one: so e1 is always sent at 120."""
        graph = QUEUED.replace('{ from = "A", to = "B", frozen = true }, { from = "A"', '{ from = "A", to = "B" }, { from = "X"')
        graph = graph.replace('{ name = "B"', '{ name = "X", node = "N1", wcet = 1, mu = 5 },\n{ name = "B"')
        self.assertEqual(self.lines("why", graph)[2:6], [
            "  C runs on N3 from 130 to 155 with 1 fault  waits for e1 of X, sent at 120 as it is frozen, there at 130; "
            "sooner if e1 isn't frozen, or e0 of A is sent sooner there",
            "where e0 of A is sent at 90, in A faults 1:",
            "  e0 of A is sent on N1 at 90                waits for the end of A at 65 and the slot of N1; "
            "sooner if A ends by 60, or the slot of N1 moves",
            "  A runs on N1 from 0 to 65 with 1 fault     waits for nothing; sooner if it lasts shorter"])

    def test_a_frozen_process(self) -> None:
        """C is frozen, and its message isn't: it is there at 100 if A has a fault, else at 40."""
        graph = QUEUED.replace('{ from = "A", to = "B", frozen = true }, ', "").replace('to = "C", frozen = true', 'to = "C"')
        graph = graph.replace('name = "C"', 'name = "C", frozen = true').replace("140", "110")
        self.assertEqual(self.lines("why", graph)[:5], [
            "late: C ends at 125, 15 past its due of 110, in C faults 1",
            "under the urgency order: A B C",
            "  C runs on N3 from 100 to 125 with 1 fault  waits for the latest that comes of A, as it is frozen; sooner if it isn't frozen, or A ends sooner there",
            "where A ends the latest, in A faults 1:",
            "  A runs on N1 from 0 to 65 with 1 fault     waits for nothing; sooner if it lasts shorter"])

    def test_none_is_found(self) -> None:
        graph = """
            faults = 0
            deadline = 15
            node = [{ name = "N" }]
            process = [{ name = "A", node = "N", wcet = 10 }, { name = "B", node = "N", wcet = 10 }]
        """
        self.assertEqual(self.lines("why", graph)[-1], "no single change was found that mends it: tried were 2 of order")
        alone = graph.replace(', { name = "B", node = "N", wcet = 10 }', "").replace("15", "5")
        self.assertEqual(self.lines("why", alone)[-1], "no single change was found that mends it: there was none to try")

    def test_given_order(self) -> None:
        """Y is due at 60, and X before it lasts 40: with Y first they end at 30 and 70, and Z at 71."""
        graph = """
            faults = 0
            deadline = 75
            order = ["X", "Y", "Z"]
            node = [{ name = "N" }]
            process = [{ name = "X", node = "N", wcet = 40 }, { name = "Y", node = "N", wcet = 30, deadline = 60 }, { name = "Z", node = "N", wcet = 1 }]
        """
        lines = self.lines("why", graph)
        self.assertEqual([lines[1], lines[-1]], ["under the given order: X Y Z", "mended by Y before X in the order: worst 71"])

    def test_never_runs(self) -> None:
        warning = "J never runs: its inputs (B, C) never come together; join = true takes one of them\n"
        for tool in "why", "slack":
            file = self.file("graph.toml", BRANCHING.replace("join = true, ", ""))
            self.of(tool, file, err=f"{tool}: {warning}")

    def test_keep(self) -> None:
        """What is kept can be played."""
        file = self.file("graph.toml", LATE)
        self.of("why", "--keep", "kept", file)
        kept = [str(self.folder / "kept" / name) for name in ("why.toml", "why.pack", "why-scenario.toml")]
        self.assertEqual(self.cpgc("play", *kept, "--turns", "0").stdout.splitlines()[-2], b"finish 87")
