"""The tool compare. Wanted values are worked out by hand from docs/MODEL.md."""
import json
import random
import xml.etree.ElementTree as xml
from unittest import mock

from cpgc_tools import pack
from cpgc_tools.compare import Comparison, Side
from cpgc_tools.play import Scenario
from cpgc_tools.schedule import matches, numbers_of
from tests.case import BRANCHING, EXAMPLES, LATE, PAIR, SINGLE, Case
from tests.drawn import changed, drawn, scenarios

# with a wcet of 20 A lasts 25, and 52 with a fault, so that e0 goes at 40 or 60 and B starts at 50 or 70
FASTER = """process A: wcet 20, was 30
worst 85, was 105 (-20)
5 columns, as before
  process  node  latest end  was   by  spare  was
  A        N1            52   72  -20     53   33
  B        N2            85  105  -20     20    0
send A>B: up to 20 earlier, as at 60, was 80, in A faults 1
start B: up to 20 earlier, as at 70, was 90, in A faults 1
""".splitlines()


class Compare(Case):
    def compared(self, old: str, new: str, *words: object) -> list[str]:
        return self.of("compare", *words, self.file("old.toml", old), self.file("new.toml", new)).splitlines()

    def test_pair(self) -> None:
        self.assertEqual(self.compared(PAIR, PAIR.replace("wcet = 30", "wcet = 20")), FASTER)
        self.assertEqual(self.compared(PAIR, PAIR), ["the graphs are alike", "worst 105, as before", "5 columns, as before", "nothing moved"])

    def test_packs(self) -> None:
        """Tables may be given. In these B starts at 51 rather than at 50, and is safe."""
        tables = self.packed(PAIR, "pair")
        later = "\n".join(line.replace("[50, ", "[51, ") if '"start B"' in line else line for line in self.of("pack", "read", tables).splitlines())
        pack = self.file("later.pack", self.run_tool("pack", "write", stdin=later)[1].encode("latin-1"))
        pair = self.folder / "pair.toml"
        self.assertEqual(self.of("compare", pair, pair, tables, pack).splitlines(), [
            "the graphs are alike", "worst 105, as before", "5 columns, as before", "start B: up to 1 later, as at 51, was 50, in none"])
        with mock.patch("cpgc_tools.compare.MOST_PAIRS", 3):  # of two columns and two, so that only the latest starts are compared, at 90 both
            self.assertEqual(self.of("compare", pair, pair, tables, pack).splitlines()[-1], "no latest time moved")
        self.of("compare", pair, pair, tables, status=1, err="compare: two packs, or none (--help says the words)\n")
        single = self.file("single.toml", SINGLE)
        self.of("compare", single, pair, tables, tables, status=4, err="cpgc: refused 17 other graph nodes\n")

    def test_frozen(self) -> None:
        """The message is sent at 80 always, not at 40 without a fault; B ends at 122 with its own fault."""
        frozen = (EXAMPLES / "pair-frozen.toml").read_text()
        lines = self.compared(PAIR, frozen)
        self.assertEqual(lines[:4], ["deadline 122, was 105", "edge A>B: frozen yes, was no", "worst 122, was 105 (+17)", "3 columns, was 5 (-2)"])
        self.assertEqual(lines[-2:], ["send A>B: up to 40 later, as at 80, was 40, in none; 1 column, was 2",
                                      "start B: up to 40 later, as at 90, was 50, in none; 1 column, was 2"])

    def test_columns(self) -> None:
        """With two faults A ends at 109 and B starts at 130 in one scenario more, and ends at 145. In the scenarios of both nothing moves. A process alone has
        one column with two faults, too. With wcet 29 it ends a time unit earlier, in the same scenarios."""
        new = PAIR.replace("faults = 1", "faults = 2").replace("deadline = 105", "deadline = 200")
        wanted = ["faults 2, was 1", "deadline 200, was 105", "worst 145, was 105 (+40)", "7 columns, was 5 (+2)", "  process  node  latest end  was   by  spare  was",
                  "  A        N1           109   72  +37     91   33", "  B        N2           145  105  +40     55    0",
                  "send A>B: 3 columns, was 2", "start B: 3 columns, was 2", "nothing moved in scenarios of both"]
        self.assertEqual(self.compared(PAIR, new), wanted)
        self.assertEqual(self.compared(PAIR, new, "--all"), wanted)
        items = json.loads("\n".join(self.compared(PAIR, new, "--json")))["items"]
        self.assertEqual(items[1], {"item": ["start", "B"], "columns": {"old": 2, "new": 3}, "earlier": 0, "later": 0, "time": None, "scenario": None})
        single = SINGLE.replace("deadline = 72", "deadline = 200")
        self.assertEqual(self.compared(single, single.replace("faults = 1", "faults = 2"))[-1], "nothing moved in scenarios of both")
        self.assertEqual(self.compared(single, single.replace("wcet = 30", "wcet = 29"))[-1], "nothing moved")

    def test_conditions(self) -> None:
        """With a longer C, which runs if A is false, what follows it moves in that outcome alone. C ends at 65, e3 goes at 80 in place of 60, and J
        begins at 90 in place of 70. Of A true nothing moves: no scenario has the columns of both outcomes."""
        lines = self.compared(BRANCHING, BRANCHING.replace('"C", node = "N1", wcet = 10', '"C", node = "N1", wcet = 25').replace("95", "100"))
        self.assertEqual([it for it in lines if it.startswith(("send", "start"))], [
            "send C>J: 20 later in all scenarios, as at 80, was 60, in none", "start J: up to 20 later, as at 90, was 70, in none"])

    def test_graphs(self) -> None:
        """What differs in the files, by names; another place in the file is none."""
        new = PAIR.replace('{ name = "A", node = "N1", wcet = 30, alpha = 2, chi = 3, mu = 5 },\n', "")
        new = new.replace("mu = 5 },\n]", 'mu = 5 },\n  { name = "A", node = "N1", wcet = 30, alpha = 2, chi = 3, mu = 5, parts = 1 },\n]')
        self.assertEqual(self.compared(PAIR, new)[0], "the graphs are alike")
        changed = PAIR.replace("faults = 1", 'faults = 0\norder = ["A", "B", "C"]').replace("mu = 5 },\n]", 'mu = 5, join = true },\n  { name = "C", node = "N1", wcet = 1 },\n]')
        changed = changed.replace('{ node = "N1", length = 10, bytes = 8 }, { node = "N2", length = 10, bytes = 8 }', '{ node = "N2", length = 5, bytes = 8 }, { node = "N1", length = 10, bytes = 8 }')
        changed = changed.replace("bytes = 1 }", 'bytes = 2 }, { from = "A", to = "C" }')
        lines = self.compared(PAIR, changed)
        self.assertEqual(lines[:8], [
            "faults 0, was 1", "an order is given", "slot of N2: length 5, was 10", "slots in the order N2 N1, was N1 N2", "process B: join yes, was no", "process C is new",
            "edge A>B: bytes 2, was 1", "edge A>C is new"])
        # without faults A ends at 35, its slot begins at 35 and not at 40, and B runs from 45 to 60
        self.assertIn("worst 60, was 105 (-45)", lines)
        self.assertIn("start B: 5 earlier in all scenarios, as at 45, was 50, in none; 1 column, was 2", lines)
        self.assertIn("start C: is new", lines)
        back = self.compared(changed, PAIR)
        self.assertIn("process C is gone", back)
        self.assertIn("start C: is gone", back)
        self.assertIn("no order is given", back)

    def test_refused(self) -> None:
        """Of a graph without tables the file is compared, and the line and the status are those of cpgc."""
        old, new = self.file("old.toml", LATE.replace("deadline = 80", "deadline = 87")), self.file("new.toml", LATE)
        self.assertEqual(self.run_tool("compare", old, new), (5, "process control: deadline 80, was 87\n", "cpgc: late 87 by control in sense faults 1\n"))
        self.of("compare", old, self.file("x.toml", "faults = 0"), status=4, err="cpgc: refused 2 field top deadline\n")

    def test_json(self) -> None:
        found = json.loads("\n".join(self.compared(PAIR, PAIR.replace("wcet = 30", "wcet = 20"), "--json")))
        self.assertEqual(found["graph"], ["process A: wcet 20, was 30"])
        self.assertEqual((found["worst"], found["columns"]), ({"old": 105, "new": 85}, {"old": 5, "new": 5}))
        self.assertEqual(found["processes"][1], {"name": "B", "node": "N2", "latest_end": {"old": 105, "new": 85}, "spare": {"old": 0, "new": 20}})
        self.assertEqual(found["items"][1], {"item": ["start", "B"], "columns": {"old": 2, "new": 2}, "earlier": 20, "later": 0, "time": {"old": 90, "new": 70},
                                             "scenario": "A faults 1"})

    def test_svg(self) -> None:
        """A bar of B from 50 to 105 in grey, and one from 50 to 85: of 680 pixels for 105 time units from 150 on, each time is 6.476."""
        picture = "\n".join(self.compared(PAIR, PAIR.replace("wcet = 30", "wcet = 20"), "--svg"))
        root = xml.fromstring(picture)
        bars = [(it.get("x"), it.get("width"), it.get("fill")) for it in root.iter("{http://www.w3.org/2000/svg}rect") if it.get("height") == "6"]
        self.assertIn(("473.8", "356.2", "#c4c8cd"), bars)
        self.assertIn(("473.8", "226.7", "#1a1a1a"), bars)
        self.assertIn("-20", [it.text for it in root.iter("{http://www.w3.org/2000/svg}text")])

    def times(self, side: Side, scenario: Scenario) -> dict[tuple[str, ...], int]:
        """When each item is in a scenario."""
        numbers = numbers_of(side.graph, scenario)
        return {name: time for name, row in side.rows.items() for time, cube in row.columns if matches(cube, numbers)}

    def test_drawn(self) -> None:
        """Of drawn graphs and others made of them, how far each item moves is what it is scenario by scenario, where each scenario of the one is
        beside those of the other with the same faults and the same true values."""
        rng, moved = random.Random(2), 0
        for number in range(60):
            graphs = [drawn(rng)]
            graphs.append(changed(rng, graphs[0]))
            made = [self.cpgc("compile", self.file(f"{n}.toml", it.text())) for n, it in enumerate(graphs)]
            if any(it.returncode for it in made):
                continue
            with self.subTest(number, old=graphs[0].text(), new=graphs[1].text()):
                old, new = (Side(it, pack.parsed(done.stdout)) for it, done in zip(graphs, made))
                valued = {it.name for it in old.graph.deciding} & {it.name for it in new.graph.deciding}
                there: dict[tuple[frozenset[tuple[str, int]], frozenset[str]], list[Scenario]] = {}
                for scenario in scenarios(new.graph):
                    there.setdefault((frozenset(scenario.faults.items()), scenario.true & valued), []).append(scenario)
                shifts: dict[tuple[str, ...], set[int]] = {}
                for scenario in scenarios(old.graph):
                    for other in there.get((frozenset(scenario.faults.items()), scenario.true & valued), []):
                        before, after = self.times(old, scenario), self.times(new, other)
                        for name in before.keys() & after.keys():
                            shifts.setdefault(name, set()).add(after[name] - before[name])
                wanted = {name: (max(-min(it), 0), max(max(it), 0)) for name, it in shifts.items() if it != {0}}
                self.assertEqual({it.name: (it.earlier, it.later) for it in Comparison(old, new).items() if it.times}, wanted)
                moved += bool(wanted)
        self.assertGreater(moved, 10)
