"""The key `order`: what `show` says of an order can be put back as one, and what is too large with it."""
from cpgc_tools import graph, show
from cpgc_tools.graph import Graph
from tests.case import EXAMPLES, PAIR, Case

ORDERED = (EXAMPLES / "ordered.toml").read_text()
SHOWN = "pair", "pair-frozen", "single", "two-in-turn", "branching", "brake", "controller", "ordered"


def in_turn(count: int, faults: int = 8, deadline: int = 10**6, apart: int = 0, listed: bool = True) -> str:
    """Processes without edges on one node, each shorter than the one before, in this order, and each released so long after the one before."""
    processes = "".join(f'  {{ name = "p{n}", node = "N", wcet = {100 + 2 ** (count - n)}, release = {n * apart} }},\n' for n in range(count))
    order = "order = [" + ", ".join(f'"p{n}"' for n in range(count)) + "]\n"
    return f'faults = {faults}\ndeadline = {deadline}\n{order * listed}node = [{{ name = "N" }}]\nprocess = [\n{processes}]\n'


class Order(Case):
    def answer(self, text: str) -> tuple[int, str]:
        """The status of `show`, and its first line on either stream."""
        done = self.cpgc("show", self.file("x.toml", text))
        return done.returncode, (done.stdout + done.stderr).decode().splitlines()[0]

    def test_put_back(self) -> None:
        """The first line of `show` is an order that the file may have: the pack is the same with it."""
        for name in SHOWN:
            with self.subTest(name):
                text = (EXAMPLES / f"{name}.toml").read_text()
                it = graph.parsed(name, text.encode())
                table = self.cpgc("show", self.file("x.toml", text)).stdout.decode()
                put = it.changed(top={"order": show.order(table)}).text()
                self.assertEqual(self.cpgc("show", self.file("y.toml", put)).stdout.decode(), table)
                packs = [self.cpgc("compile", str(self.folder / f"{it}.toml")).stdout for it in "xy"]
                self.assertTrue(packs[0])
                self.assertEqual(*packs)

    def test_width(self) -> None:
        """The tenth process has more views than there may be. With the key that isn't asked: what is made is."""
        with self.subTest("apart, no item rests on the ones before it"):
            self.assertEqual(self.answer(in_turn(11, apart=10_000, listed=False)), (6, "cpgc: too wide start p9"))
            self.assertEqual(self.answer(in_turn(11, apart=10_000)), (0, "order " + " ".join(f"p{n}" for n in range(11))))
        with self.subTest("so far apart that each tree has one leaf, though one that kept all faults would have 203,490"):
            self.assertEqual(self.answer(in_turn(14, deadline=10**8, apart=10**6))[0], 0)
        with self.subTest("a row as made is too long; the line names the item that is the least too wide by its views"):
            self.assertEqual(self.answer(in_turn(11)), (6, "cpgc: too wide start p9"))
        with self.subTest("what is late comes before rows"):
            self.assertEqual(self.answer(in_turn(11, deadline=1000))[1].split(" by ")[1:], ["p10 in p0 faults 8"])
            self.assertEqual(self.answer(in_turn(11, deadline=1000))[0], 5)
            self.assertEqual(self.answer(in_turn(11, deadline=1000, listed=False)), (6, "cpgc: too wide start p9"))
        with self.subTest("and trees come before what is late: the ends of the thirteenth process have 203,490 leaves"):
            self.assertEqual(self.answer(in_turn(13, deadline=1000)), (6, "cpgc: too wide start p9"))
            self.assertEqual(self.answer(in_turn(12, deadline=1000))[0], 5)  # and of the twelfth 125,970

    def test_tune(self) -> None:
        """`tune` judges width by views, with the key too."""
        lines = self.cpgc("tune", self.file("x.toml", in_turn(11, apart=10_000))).stdout.decode().splitlines()
        self.assertIn("k 8 wide start p9", lines)
        self.assertEqual(lines[-1], "tolerates 6")  # with 7 faults the eleventh has (10 + 7 over 7) = 19,448 views

    def test_model(self) -> None:
        """A graph is one whose order names processes, each once; whether it has all of them, cpgc says."""
        it = graph.parsed("ordered.toml", ORDERED.encode())
        self.assertEqual((it.order, Graph.of({**it.document, "order": ["Y"]}).order), (("X", "Y"), ("Y",)))
        for order in ["X", "Z"], ["X", "X"], ["X", 3], "X", {}:
            with self.subTest(order), self.assertRaises(ValueError):
                Graph.of({**it.document, "order": order})
        self.assertIsNone(graph.parsed("pair.toml", PAIR.encode()).order)

    def test_schema(self) -> None:
        """The schema has the key last, as FORMATS has it, for lists of names that are not there twice."""
        self.assertEqual(graph.keys_of("top"), ("faults", "deadline", "node", "slot", "process", "edge", "order"))
        rule = graph.rule_of("top", "order") or {}
        self.assertEqual((rule["type"], rule["uniqueItems"], rule["maxItems"]), ("array", True, 128))
        self.assertTrue(graph.has_type("top", "order", []))
        self.assertFalse(graph.has_type("top", "order", ["A B"]))
