"""The tool cycle. Wanted values are worked out by hand from docs/MODEL.md."""
from tests.case import CONTROLLER, PAIR, SINGLE, Case

# A's value is broadcast at 40, when all executions have ended
TAIL = """
faults = 0
deadline = 40
node = [{ name = "N1" }, { name = "N2" }]
slot = [{ node = "N1", length = 10, bytes = 8 }, { node = "N2", length = 10, bytes = 8 }]
process = [{ name = "A", node = "N1", wcet = 25 }, { name = "B", node = "N1", wcet = 5 }, { name = "C", node = "N2", wcet = 5 }]
edge = [{ from = "A", to = "B", when = true }]
"""

ALONE = """
faults = 0
deadline = 7
node = [{ name = "N1" }]
process = [{ name = "A", node = "N1", wcet = 3 }]
"""


class Cycle(Case):
    def cycle(self, graph: str, *words: str) -> str:
        pack = self.packed(graph)
        return self.of("cycle", *words, "graph.toml", pack)

    def test_pair(self) -> None:
        """The last frame is there at 90, the deadline is 105, the round is 20."""
        self.assertEqual(self.cycle(PAIR), "cycle 120\n")
        self.assertEqual(self.cycle(PAIR, "--more").splitlines()[1:], ["round 20", "deadline 105", "last arrival 90", "latest end 105"])

    def test_frame_after_the_deadline(self) -> None:
        self.assertEqual(self.cycle(TAIL, "--more").splitlines(), ["cycle 60", "round 20", "deadline 40", "last arrival 50", "latest end 30"])

    def test_no_bus(self) -> None:
        self.assertEqual(self.cycle(SINGLE), "cycle 72\n")
        self.assertEqual(self.cycle(ALONE), "cycle 7\n")

    def test_controller(self) -> None:
        self.assertEqual(self.cycle(CONTROLLER), "cycle 2010\n")

    def test_a_multiple_of_the_round(self) -> None:
        self.assertEqual(self.cycle(PAIR.replace("105", "120")), "cycle 120\n")
        self.assertEqual(self.cycle(PAIR.replace("105", "121")), "cycle 140\n")

    def test_another_pack(self) -> None:
        pack = self.packed(SINGLE, "single")
        self.of("cycle", self.file("pair.toml", PAIR), pack, status=4, err="cpgc: refused 17 other graph nodes\n")
