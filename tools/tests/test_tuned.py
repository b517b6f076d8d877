"""The tool tuned. Wanted values are worked out by hand from docs/MODEL.md."""
from cpgc_tools import show
from tests.case import CONTROLLER, PAIR, SINGLE, Case
from tests.forms import BRACES, FORMS, SECTIONS


class Tuned(Case):
    def test_forms(self) -> None:
        """The best parts of A are 2, those of B 1; all else of the text stays. A then ends at 62 in place of 72 after a fault, but the next
        slot is at 80 all the same."""
        changed = {
            "examples/pair.toml": PAIR.replace("wcet = 30", "wcet = 30, parts = 2"),
            "sections": SECTIONS.replace("# the work of A\n", "# the work of A\nparts = 2\n"),
            "braces": BRACES.replace("wcet = 30", "wcet = 30, parts = 2"),
        }
        for form, text in FORMS.items():
            with self.subTest(form):
                out = self.of("tuned", self.file("graph.toml", text), err="tuned: no better: worst 105 becomes worst 105\n")
                self.assertEqual(out, changed[form])

    def test_a_number_that_stands_there(self) -> None:
        text = SINGLE.replace("wcet = 30", "parts = 0x04, wcet = 30")
        self.assertEqual(self.of("tuned", self.file("graph.toml", text)), SINGLE.replace("wcet = 30", "parts = 2, wcet = 30"))

    def test_written_anew(self) -> None:
        """A key that is spelled by its number isn't found in the text."""
        text = SINGLE.replace("wcet", '"w\\u0063et"')
        out = self.of("tuned", self.file("graph.toml", text), err="tuned: written anew, without its comments\n")
        self.assertIn('{ name = "A", node = "N1", wcet = 30, parts = 2, alpha = 2, chi = 3, mu = 5 }', out)

    def test_nothing_to_change(self) -> None:
        """Without a fault no parts help, in a late graph as in another one."""
        text = SINGLE.replace("faults = 1", "faults = 0")
        for graph in text, text.replace("deadline = 72", "deadline = 34"):
            out = self.of("tuned", self.file("graph.toml", graph), err="tuned: the parts stay as they are\n")
            self.assertEqual(out, graph)

    def test_search(self) -> None:
        """Four processes of 30 after each other last 35 each with one part and 37 more with a fault, 177 in all. With two parts, the best
        of each, they last 40 and 22 more, 182. Two of them last 107 and 102, though with one changed alone they last 112."""
        one = '{{ name = "{}", node = "N1", wcet = 30, alpha = 2, chi = 3, mu = 5 }}'

        def graph(names: str) -> str:
            return SINGLE.replace("72", "500").replace(one.format("A"), ", ".join(map(one.format, names)))

        four, two = self.file("four.toml", graph("ABCD")), self.file("two.toml", graph("AB"))
        self.of("tuned", four, err="tuned: no better: worst 177 becomes worst 182\n")
        self.assertEqual(self.of("tuned", "--search", four, err="tuned: the parts stay as they are\n"), graph("ABCD"))
        self.assertEqual(self.of("tuned", "--search", two), graph("AB").replace("wcet = 30", "wcet = 30, parts = 2"))

    def test_controller(self) -> None:
        """It ends later with the best parts of all, and earlier with those that are searched."""

        def worst(graph: str) -> int:
            return show.latest_end(self.cpgc("show", self.file("graph.toml", graph)).stdout.decode())

        file = self.file("controller.toml", CONTROLLER)
        best, searched = self.run_tool("tuned", file)[1], self.run_tool("tuned", "--search", file)[1]
        self.assertLess(worst(searched), worst(CONTROLLER))
        self.assertLess(worst(CONTROLLER), worst(best))
