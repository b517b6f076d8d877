"""The tools hyper-edges and jitter. Wanted values are worked out by hand from docs/MODEL.md."""
import tomllib

from tests.case import BRANCHING, EXAMPLES, PAIR, Case

# `control` begins at 0, 20 and 40 and is due 20 later; `log` begins at 0 and 30 and is due 30 later
CONTROL, LOG = ((EXAMPLES / f"{name}.toml").read_text() for name in ("control", "log"))
PARTS = ["20", "control.toml", "30", "log.toml"]


def rule(more: str, source: str = "0.control", target: str = "1.log") -> str:
    return f'[[edge]]\nfrom = "{source}"\nto = "{target}"\n{more}\n'


class HyperEdges(Case):
    def setUp(self) -> None:
        super().setUp()
        self.file("control.toml", CONTROL)
        self.file("log.toml", LOG)

    def edges(self, rules: str, *parts: str) -> list[tuple[str, str]]:
        document = tomllib.loads(self.of("hyper-edges", self.file("rules.toml", rules), *(parts or PARTS)))
        return [(it["from"], it["to"]) for it in document["edge"]]

    def test_takes(self) -> None:
        for take, once, pairs, back in [
            ("latest before", "false", [(1, 1)], [(0, 1), (1, 2)]), ("latest", "false", [(0, 0), (1, 1)], [(0, 0), (0, 1), (1, 2)]),
            ("latest due", "false", [(0, 1)], [(0, 2)]), ("all within", "false", [(0, 0), (1, 0), (2, 1)], [(0, 0), (1, 1)]),
            ("latest", "true", [(0, 0), (1, 1)], [(0, 0), (1, 2)]),
        ]:
            with self.subTest(take, once=once):
                more = f'take = "{take}"\nonce = {once}'
                self.assertEqual(self.edges(rule(more)), [(f"0.{a}.control", f"1.{b}.log") for a, b in pairs])
                self.assertEqual(self.edges(rule(more, "1.log", "0.control")), [(f"1.{a}.log", f"0.{b}.control") for a, b in back])
        self.assertEqual(self.edges(rule("pairs = [[2, 1], [0, 0]]")), [("0.2.control", "1.1.log"), ("0.0.control", "1.0.log")])
        self.assertEqual(self.edges(rule('take = "latest before"', "0.control", "0.control")), [("0.0.control", "0.1.control"), ("0.1.control", "0.2.control")])

    def test_output(self) -> None:
        """What hyper writes is there with its edges, and the new ones with their keys; cpgc takes it."""
        self.file("pair.toml", PAIR.replace("105", "190"))
        self.file("slow.toml", PAIR.replace("105", "390"))
        rules = rule('take = "latest"\nbytes = 7\nfrozen = true', "0.B", "1.A")
        out = self.of("hyper-edges", self.file("rules.toml", rules), "200", "pair.toml", "400", "slow.toml")
        self.assertEqual(out.splitlines()[:2], [f"# cpgc hyper 200 pair.toml 400 slow.toml, and edges by {self.folder}/rules.toml:", "#   0.0.B > 1.0.A"])
        edges = tomllib.loads(out)["edge"]
        self.assertEqual([(it["from"], it["to"], it["bytes"], it["frozen"]) for it in edges], [
            ("0.0.A", "0.0.B", 1, False), ("0.1.A", "0.1.B", 1, False), ("1.0.A", "1.0.B", 1, False), ("0.0.B", "1.0.A", 7, True)])
        self.assertEqual(self.cpgc("show", self.file("joined.toml", out)).returncode, 0)

    def test_refused(self) -> None:
        path = self.folder / "rules.toml"
        for rules, said in [
            ("", " there is no [[edge]]"), ("edge = 3", " there is no [[edge]]"), ("[[edge]", None), (rule('take = "latest"') + "[x]\n", "5: x is no key of rules"),
            ("parts = 3", "1: parts is no list of names, each with a letter first, without dots, and once"), ('parts = ["a"]', "1: parts has 1 names, and there are 2 parts"),
            ('parts = ["a", "a"]', "1: parts is no list of names, each with a letter first, without dots, and once"),
            (f'parts = ["a", "{"b" * 30}"]', f"1: {'b' * 30}.0.log has more than 32 letters"),
            (rule('take = "latest"', "2.control"), '2: edge 0: from = "2.control": the parts are 0, 1'),
            (rule('take = "latest"', "control"), '2: edge 0 has from = "control", which isn\'t PART.NAME, as "0.control"'),
            (rule('take = "latest"', "0.contol"), '2: edge 0: from = "0.contol": part 0 has no process contol; is control meant?'),
            (rule('take = "last"'), '4: edge 0: take = "last" is none of latest before, latest, latest due, all within; is latest meant?'),
            (rule(""), "1: edge 0 needs take or pairs"), (rule('take = "latest"\npairs = []'), "1: edge 0 needs take or pairs, and not both"),
            (rule("pairs = [[3, 0]]"), "4: edge 0: pairs has pairs of instances below 3 and 2"),
            (rule("pairs = []"), "1: edge 0 leads from no instance to any: take another, or leave it out"),
            (rule('take = "latest"\nbytes = 0'), "5: edge 0 has bytes = 0, which isn't a whole number from 1 to 65,535"),
            (rule('take = "latest"\nonce = 1'), "5: edge 0 has once = 1, which isn't true or false"),
            (rule('take = "latest"\nwhem = true'), "5: edge 0: whem is none of its keys; is when meant?; they are from, to, take, pairs, once, bytes, when, frozen"),
        ]:
            with self.subTest(said):
                status, out, err = self.run_tool("hyper-edges", self.file("rules.toml", rules), *PARTS)
                self.assertEqual((status, out), (1, ""))
                if said:
                    self.assertEqual(err, f"hyper-edges: {path}:{said}\n")
        around = rule('take = "latest"') + rule('take = "latest"', "1.log", "0.control")
        self.of("hyper-edges", self.file("rules.toml", around), *PARTS, status=1,
                err=f"hyper-edges: {path}: with these edges a process would wait for itself; `cpgc show` names them in what hyper writes with the edges one by one\n")
        self.of("hyper-edges", path, "20", "none.toml", status=2, err="cpgc: read fault\n")

    def test_names_of_parts(self) -> None:
        """Parts may have names in place of numbers, in rules and in the graph."""
        rules = 'parts = ["fast", "slow"]\n'
        document = tomllib.loads(self.of("hyper-edges", self.file("rules.toml", rules), *PARTS))
        self.assertEqual([it["name"] for it in document["process"]], ["fast.0.control", "fast.1.control", "fast.2.control", "slow.0.log", "slow.1.log"])
        self.assertEqual(self.edges(rules + rule('take = "latest due"', "fast.control", "slow.log")), [("fast.0.control", "slow.1.log")])
        named = self.file("named.toml", self.of("hyper-edges", self.folder / "rules.toml", *PARTS))
        self.assertEqual(self.of("jitter", named).splitlines()[1].split()[0], "fast.control")

    def test_activity(self) -> None:
        """B runs if A is true and J always: an edge from B alone would keep `log` from running, one with `when` is meant so, and none leads to a join."""
        graph = BRANCHING.replace("deadline = 95", "deadline = 100")
        self.file("branching.toml", graph)
        self.file("other.toml", graph)
        parts = ["100", "branching.toml", "200", "other.toml"]
        path = self.file("rules.toml", rule('take = "latest"', "0.B", "1.A"))
        self.of("hyper-edges", path, *parts, status=1,
                err=f"hyper-edges: {path}:1: edge 0: 0.0.B doesn't always run when 1.0.A does, which would then not run either: lead from a process that does\n")
        self.assertIn(("0.0.J", "1.0.A"), self.edges(rule('take = "latest"', "0.J", "1.A"), *parts))
        self.assertIn(("0.0.B", "1.0.B"), self.edges(rule('take = "latest"\nwhen = true', "0.B", "1.B"), *parts))
        self.assertIn("a join, which would take it", self.run_tool("hyper-edges", self.file("rules.toml", rule('take = "latest"', "0.A", "1.J")), *parts)[2])


class Jitter(Case):
    def setUp(self) -> None:
        super().setUp()
        self.file("control.toml", CONTROL)
        self.file("log.toml", LOG)
        self.both = self.file("both.toml", self.cpgc("hyper", *PARTS).stdout)

    def test_periods(self) -> None:
        """`log` runs from 0 to 8, `control` from 8, 20 and 40: at offsets of 8, 0 and 0. With a release of 8 all three start there, the last one
        from 48 to 53; the second `log`, which begins at 30, then waits until 33, but has one offset of its own here."""
        self.assertEqual(self.of("jitter", self.both).splitlines(), [
            "  process    node  earliest  latest  apart  in one  release  worst",
            "  0.control  N1           0       8      8       0        8     53",
            "  1.log      N1           0       0      0       0"])
        self.assertEqual(self.of("jitter", "--all", self.both).splitlines()[1:5], [
            "  0.control  N1           0       8      8       0        8     53",
            "    in 0                  8       8              0",
            "    in 1                  0       0              0",
            "    in 2                  0       0              0"])

    def test_together(self) -> None:
        """With `control` at 8 the second `log`, released at 30, waits until 33; with both at 3 the first `control` waits until 11, and so on, until
        `control`, which is due at 20, is late."""
        lines = self.of("jitter", "--process", "0.control", "--process", "1.log", self.both).splitlines()
        self.assertEqual(lines[2:], ["  1.log      N1           0       0      0       0        0     45", "together: none"])

    def test_faults(self) -> None:
        """B follows A, at 5 or, with a fault in A, at 11, in each instance. Frozen it is always at 11, and the second one ends at 50 + 11 + 11."""
        text = 'faults = 1\ndeadline = 40\nnode = [{ name = "N" }, { name = "M" }]\nprocess = [\n'
        self.file("part.toml", text + '{ name = "A", node = "N", wcet = 5, mu = 1 }, { name = "B", node = "N", wcet = 5, mu = 1 }]\nedge = [{ from = "A", to = "B" }]\n')
        self.file("slow.toml", text + '{ name = "C", node = "M", wcet = 1 }]\n')
        graph = self.file("x.toml", self.cpgc("hyper", "50", "part.toml", "100", "slow.toml").stdout)
        wanted = ["  process  node  earliest  latest  apart  in one  release  worst",
                  "  0.A      N            0       0      0       0",
                  "  0.B      N            5      11      6       6       11     72"]
        self.assertEqual(self.of("jitter", graph).splitlines(), wanted)
        self.assertEqual(self.of("jitter", graph, self.packed((self.folder / "x.toml").read_text(), "x")).splitlines(), wanted)

    def test_refused(self) -> None:
        pair = self.file("pair.toml", PAIR)
        self.of("jitter", pair, status=1, err=f"jitter: {pair}: not a graph of `cpgc hyper`, whose processes are named PART.INSTANCE.NAME\n")
        self.of("jitter", self.both, "--process", "0.x", status=1, err=f"jitter: {self.both}: 0.x is no process with more than one instance; they are 0.control, 1.log\n")
        self.of("jitter", self.both, self.packed(PAIR, "pair"), status=4, err="cpgc: refused 17 other graph faults\n")
