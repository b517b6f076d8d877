"""The tool slack. Wanted values are worked out by hand from docs/MODEL.md."""
from tests.case import LATE, PAIR, SINGLE, Case

# Q is before P as long as it lasts longer, and P then ends at 8 and its own length: in time up to 4. From 8 on P is first: in time up to 12
FLIPPING = """
faults = 0
deadline = 30
node = [{ name = "N" }]
process = [{ name = "P", node = "N", wcet = 3, deadline = 12 }, { name = "Q", node = "N", wcet = 8 }]
"""

# p3 compiles with 60 to 80 and with 82 to 100, as the order changes; with 81 something else is late
HOLE = """
faults = 0
deadline = 262
node = [
  { name = "N0" },
  { name = "N1" },
]
slot = [
  { node = "N0", length = 10, bytes = 8 },
  { node = "N1", length = 10, bytes = 8 },
]
process = [
  { name = "p0", node = "N1", wcet = 40 },
  { name = "p1", node = "N1", wcet = 48 },
  { name = "p2", node = "N1", wcet = 23, join = true },
  { name = "p3", node = "N0", wcet = 60 },
  { name = "p4", node = "N1", wcet = 71 },
  { name = "p5", node = "N1", wcet = 29 },
  { name = "p6", node = "N1", wcet = 21 },
  { name = "p7", node = "N1", wcet = 18, join = true },
]
edge = [
  { from = "p0", to = "p1", when = true },
  { from = "p1", to = "p2" },
  { from = "p0", to = "p2", when = false },
  { from = "p0", to = "p3" },
  { from = "p3", to = "p4" },
  { from = "p2", to = "p5" },
  { from = "p5", to = "p6", when = true },
  { from = "p6", to = "p7" },
  { from = "p5", to = "p7", when = false },
]
"""


class Slack(Case):
    def slack(self, graph: str, *words: str) -> list[tuple[str, ...]]:
        return [tuple(line.split()) for line in self.lines("slack", graph, *words)[2:]]

    def test_pair(self) -> None:
        """A with a fault lasts 2 * wcet + 12, up to 80 for the slot at 80; B then has 15, its 5 of overhead among them."""
        self.assertEqual(self.slack(PAIR), [("B", "N2", "10", "10", "+0", "+0", "%"), ("A", "N1", "30", "34", "+4", "+13", "%")])

    def test_alone(self) -> None:
        """2 * wcet + 12 is at most the deadline."""
        self.assertEqual(self.slack(SINGLE), [("A", "N1", "30", "30", "+0", "+0", "%")])
        self.assertEqual(self.slack(SINGLE.replace("72", "101")), [("A", "N1", "30", "44", "+14", "+47", "%")])

    def test_late(self) -> None:
        """2 * sense + 12 + control + 5 is at most 80."""
        self.assertEqual(self.slack(LATE), [("sense", "N1", "30", "26", "-4", "-13", "%"), ("control", "N1", "10", "3", "-7", "-70", "%")])
        self.assertEqual(self.slack(LATE.replace("80", "16")), [("sense", "N1", "30", "none"), ("control", "N1", "10", "none")])

    def test_names(self) -> None:
        self.assertEqual(self.slack(PAIR, "--samples", "2"), self.slack(PAIR))
        file = self.file("graph.toml", PAIR)
        self.assertEqual([line.split()[0] for line in self.of("slack", file, "A").splitlines()[2:]], ["A"])
        self.of("slack", file, "C", status=1, err=f"slack: {file}: C is no process\n")

    def test_hole(self) -> None:
        """All values are tried where there are at most 64: a single one that is refused is found, and how many were tried is said."""
        file = self.file("graph.toml", HOLE)
        refused = self.cpgc("show", self.file("longer.toml", HOLE.replace("wcet = 60", "wcet = 81")))
        self.assertEqual(refused.returncode, 5)
        head, row = self.of("slack", file, "p3").splitlines()[1:]
        self.assertEqual(row.split(), ["p3", "N0", "60", "80", "+20", "+33", "%", "also", "100"])
        self.assertRegex(head, r"  tried \d+$")

    def test_refused_and_taken_again(self) -> None:
        self.assertEqual(self.slack(FLIPPING), [("Q", "N", "8", "9", "+1", "+12", "%"), ("P", "N", "3", "4", "+1", "+33", "%", "also", "12")])
        self.assertEqual(self.slack(FLIPPING, "--samples", "0")[1][:4], ("P", "N", "3", "12"))
