"""`explore`: what it reckons is what cpgc says, and what it finds is what is worked out by hand from docs/MODEL.md."""
from __future__ import annotations

import itertools
import json
import random
import subprocess
from pathlib import Path
from typing import Any
from xml.etree import ElementTree

from cpgc_tools import show
from cpgc_tools.explore import offer, search, starts
from cpgc_tools.explore.bound import bound
from cpgc_tools.explore.chain import Step, chain
from cpgc_tools.explore.course import archive
from cpgc_tools.explore.moves import Standing, before, behind
from cpgc_tools.explore.problem import Design, Problem
from cpgc_tools.explore.reckoning import FAR, Limit, Plan, Reckoned, reckoned
from cpgc_tools.explore.width import Widths
from cpgc_tools.graph import Graph, spelled
from cpgc_tools.toml_places import document
from tests.case import BRAKE, BRANCHING, CONTROLLER, EXAMPLES, PAIR, SINGLE, Case

# on one node one execution after the other; on two both at once
TWO = """
faults = 0
deadline = 100
node = [{ name = "N1" }, { name = "N2" }]
process = [
  { name = "A", node = "N1", wcet = 30 },  # the first
  { name = "B", node = "N1", wcet = 20 },
]
"""

# Q goes first, as it lasts longer, and P ends at 11
TURN = """
faults = 0
deadline = 50
node = [{ name = "N" }]
process = [{ name = "P", node = "N", wcet = 3, deadline = 4 }, { name = "Q", node = "N", wcet = 8 }]
"""

# A ends at 10. The slot of N2 is at 0 and 20, so B starts at 30; behind that of N1 it is at 10, so B starts at 20
SLOTS = """
faults = 0
deadline = 50
node = [{ name = "N1" }, { name = "N2" }]
slot = [{ node = "N2", length = 10, bytes = 8 }, { node = "N1", length = 10, bytes = 8 }]
process = [{ name = "A", node = "N2", wcet = 10 }, { name = "B", node = "N1", wcet = 5 }]
edge = [{ from = "A", to = "B", bytes = 2 }]
"""

# Its processes by release are a0 b0 a1: a0 from 0 to 4, b0 to 10, a1 from 10 to 14
RATES = """
faults = 0
deadline = 20
node = [{ name = "N" }]
process = [
  { name = "b0", node = "N", wcet = 6 },
  { name = "a1", node = "N", wcet = 4, release = 10, deadline = 20 },
  { name = "a0", node = "N", wcet = 4, deadline = 10 },
]
"""


def drawn(number: int, count: int, nodes: int, faults: int, slot: int = 5, frozen: float = 0, choices: int = 0) -> dict[str, Any]:
    """A document: layers of processes, and some choices of two ways that a join unites."""
    draw = random.Random(number)
    processes: list[dict[str, Any]] = [
        {"name": f"p{p}", "node": f"N{draw.randrange(nodes)}", "wcet": draw.randint(5, 60), "parts": draw.randint(1, 3), "alpha": 2, "chi": 3, "mu": 5}
        for p in range(count)]
    edges: list[dict[str, Any]] = []
    first = 0
    for _ in range(choices):  # a fork, its two ways and the join in a row
        if first + 4 < count:
            fork, true, false, join = range(first, first + 4)
            edges += [{"from": f"p{fork}", "to": f"p{true}", "when": True}, {"from": f"p{fork}", "to": f"p{false}", "when": False}]
            edges += [{"from": f"p{it}", "to": f"p{join}"} for it in (true, false)] + [{"from": f"p{join}", "to": f"p{join + 1}"}]
            processes[join]["join"] = True
            first += 5
    for p in range(first, count):
        edges += [{"from": f"p{q}", "to": f"p{p}"} for q in sorted({draw.randrange(max(0, p - 6), p) for _ in range(draw.randint(0, 2)) if p})
                  if q >= first or not choices or q % 5 in (0, 3, 4)]
    for it in [*processes, *edges]:
        it.update({"frozen": True} if draw.random() < frozen else {})
    for it in processes:
        it.update({"release": draw.randint(0, 200)} if draw.random() < 0.15 else {})
    return {
        "faults": faults, "deadline": 10**9, "node": [{"name": f"N{n}"} for n in range(nodes)],
        "slot": [{"node": f"N{n}", "length": slot, "bytes": 8} for n in range(nodes)], "process": processes, "edge": edges}


def plan_of(text: str) -> Plan:
    problem = Problem(Graph.of(document(text)))
    return Plan(problem, problem.design())


def whole(plan: Plan, order: Any) -> Reckoned:
    found = reckoned(plan, order)
    assert found is not None
    return found


def names(plan: Plan, order: Any) -> list[str]:
    return [plan.problem.processes[p].name for p in order]


class Lengths(Case):
    """What is reckoned beside what cpgc says."""

    def shown(self, text: str) -> subprocess.CompletedProcess[bytes]:
        return self.cpgc("show", self.file("asked.toml", text))

    def compared(self, text: str, given: bool = False) -> Reckoned:
        """Under the order that cpgc takes by itself, or one that is given."""
        plan = plan_of(text)
        graph, widths = plan.problem.graph, Widths(plan.problem)
        if given:
            draw = random.Random(text)
            order = draw.choice([*starts.ruled(plan), starts.by_key(plan, [draw.random() for _ in graph.processes])])
            text, found = spelled({**graph.document, "order": names(plan, order)}), whole(plan, order)
        else:
            it = search.Search(graph, {}, "shortest").compiled(plan)
            assert it is not None
            found = it
        wide, done = widths.over(plan, found.order), self.shown(text)
        if done.returncode == 0:
            table = done.stdout.decode()
            self.assertEqual((found.worst, max(found.late, 0)), (show.latest_end(table), 0), text)
            self.assertEqual(names(plan, found.order), show.order(table), text)
        else:
            self.assertIn(done.returncode, (5, 6), done.stderr)
            self.assertGreater(found.late if done.returncode == 5 else wide, 0, text)
        return found

    def test_examples(self) -> None:
        for name in "pair", "pair-frozen", "single", "branching", "late", "brake", "controller", "two-in-turn", "too-wide":
            with self.subTest(name):
                self.compared((EXAMPLES / f"{name}.toml").read_text())

    def test_drawn(self) -> None:
        for number in range(30):
            draw = random.Random(number)
            made = drawn(number, 14, draw.randint(1, 4), draw.randint(0, 3), draw.choice((2, 10)), draw.choice((0, 0, 0.2)), draw.choice((0, 1, 2)))
            with self.subTest(number):
                self.compared(spelled(made), given=number % 2 == 0)

    def test_same_by_pieces(self) -> None:
        """A plan that is made from another one, and an order that is reckoned from a place on, come to the same."""
        for number in range(20):
            draw = random.Random(number)
            nodes = draw.randint(1, 4)
            graph = Graph.of(drawn(number, 40, nodes, draw.randint(0, 2), frozen=draw.choice((0, 0.2)), choices=2))
            problem = Problem(graph)
            plan = Plan(problem, problem.design())
            one = whole(plan, next(starts.ruled(plan)))
            standing = Standing(one)
            pairs = [(q, p) for q, p in itertools.combinations(one.order, 2) if standing.place[q] > 15]
            q, p = draw.choice(pairs)
            for made in before(problem, one.order, standing.place, p, q), behind(problem, one.order, standing.place, q, p):
                if made:
                    again, new = reckoned(plan, made[0], one, made[1]), whole(plan, made[0])
                    assert again is not None
                    self.assertEqual((again.latest, again.times), (new.latest, new.times))
            design = problem.design()
            places = tuple(draw.randrange(nodes) if draw.random() < 0.2 else n for n in design.nodes)
            frozen = frozenset(draw.sample(range(-len(graph.edges), 40), 5))
            other = design._replace(nodes=places, parts=tuple(draw.randint(1, 3) for _ in design.parts), frozen=frozen)
            a, b = Plan(problem, other, plan), Plan(problem, other)
            for key in ("first", "more", "sends", "inner", "together", "rows", "idle", "rest", "by", "ranked"):
                self.assertEqual(getattr(a, key), getattr(b, key), key)

    def test_limit(self) -> None:
        plan = plan_of(PAIR)
        order = starts.compiled(plan)[0]
        self.assertIsNotNone(reckoned(plan, order, limit=Limit(0, 105)))
        self.assertIsNone(reckoned(plan, order, limit=Limit(0, 104)))
        self.assertIsNotNone(reckoned(plan, order, limit=Limit(0, FAR)))  # it is due at 105, where it ends
        self.assertIsNone(reckoned(plan, order, limit=Limit(-1, FAR)))

    def test_chain(self) -> None:
        # A with its fault up to 72, sent at 80, B from 90
        plan = plan_of(PAIR)
        steps = chain(whole(plan, starts.compiled(plan)[0]))
        self.assertEqual(steps, [Step("start", 1, 0, "input", 0), Step("send", 0, 0, "end", None), Step("start", 0, 1, "", None)])

    def test_chain_begins(self) -> None:
        """What leads to an end begins at 0 or at a release, with no more faults than there are where nothing is frozen."""
        for number in range(20):
            made = drawn(number, 30, 3, 2, frozen=0.1 * (number % 2), choices=number % 3)
            plan = plan_of(spelled(made))
            steps = chain(whole(plan, next(starts.ruled(plan))))
            self.assertIn(steps[-1].why, ("", "release"))
            self.assertLessEqual(sum(it.faults for it in steps), 2 if number % 2 == 0 else 99)

    def test_orders(self) -> None:
        plan = plan_of(RATES)
        self.assertEqual(names(plan, starts.compiled(plan)[0]), ["b0", "a1", "a0"])
        self.assertEqual(names(plan, next(starts.ruled(plan))), ["a0", "b0", "a1"])
        self.assertEqual(whole(plan, next(starts.ruled(plan))).latest, [10, 14, 4])

    def test_bound(self) -> None:
        """No order comes below it, and many come down to it."""
        self.assertEqual(bound(plan_of(PAIR)), Limit(0, 105))
        self.assertEqual(bound(plan_of(TURN)), Limit(-1, 11))  # P alone from 0 to 3, due at 4
        reached = 0
        for number in range(20):
            plan = plan_of(spelled(drawn(number, 12, 1 + number % 3, number % 3, choices=number % 2)))
            least, found = bound(plan), [whole(plan, it) for it in starts.ruled(plan)]
            self.assertLessEqual(least.worst, min(it.worst for it in found))
            self.assertLessEqual(least.late, min(it.late for it in found))
            reached += least.worst == min(it.worst for it in found)
        self.assertGreater(reached, 5)

    def test_turns(self) -> None:
        """A process that is put before another takes what it needs with it."""
        made = {**drawn(0, 4, 1, 0), "edge": [{"from": "p1", "to": "p3"}]}
        problem = Problem(Graph.of(made))
        self.assertEqual(before(problem, [0, 1, 2, 3], [0, 1, 2, 3], 3, 0), ([1, 3, 0, 2], 0))
        self.assertEqual(behind(problem, [1, 2, 3, 0], [3, 0, 1, 2], 1, 0), ([2, 0, 1, 3], 0))
        self.assertIsNone(before(problem, [0, 1, 2, 3], [0, 1, 2, 3], 3, 1))

    def test_exhaustive(self) -> None:
        """Of all places of five processes on two nodes, both orders of slots and all orders the best is found."""
        for number in range(2):
            graph = Graph.of({**drawn(number, 5, 2, 1), "deadline": 10**6})
            it = search.Search(graph, {"slots": True, "process": {"*": {"nodes": ["N0", "N1"], "parts": 1}}}, "shortest")
            base = it.file_design()
            assert base is not None
            orders = [order for order in itertools.permutations(range(5)) if all(order.index(e.source) < order.index(e.target) for e in graph.edges)]
            best = FAR
            for nodes, slots in itertools.product(itertools.product((0, 1), repeat=5), ((0, 1), (1, 0))):
                plan = Plan(it.problem, base._replace(nodes=nodes, slots=it.choices.slots_of(nodes, slots) or ()))
                best = min([best, *(found.worst for order in orders if (found := reckoned(plan, order, limit=Limit(0, best - 1))))])
            begin = it.begin()[0][1]
            self.assertEqual(it.walk(begin, search.Task("", [], "1", 2_000, 1.0, None))[0].worst, best)


class Explore(Case):
    def found(self, text: str, choices: str | None = None, *words: str, status: int = 0, tries: str = "200") -> tuple[str, str]:
        """What the tool writes of a graph with these choices, and what it says."""
        files = [self.file("graph.toml", text), *([self.file("choices.toml", choices)] if choices is not None else [])]
        got, out, said = self.run_tool("explore", "--jobs", "1", "--walks", "2", "--tries", tries, "--quiet", *words, *files)
        self.assertEqual(got, status, said)
        return out, said

    def worst(self, text: str) -> int:
        done = self.cpgc("show", self.file("asked.toml", text))
        return show.latest_end(done.stdout.decode()) if done.returncode == 0 else -done.returncode

    def test_order(self) -> None:
        # late as it is: P has to go first, and Q ends at 11
        for words in (("--quick",), ()):
            status, out, said = self.run_tool("explore", *words, self.file("turn.toml", TURN))
            self.assertEqual((status, document(out)["order"], self.worst(out)), (0, ["P", "Q"], 11), said)
            self.assertEqual(out, TURN.replace("deadline = 50\n", 'deadline = 50\norder = ["P", "Q"]\n'))
        out, said = self.found(TURN, "order = false\n", status=5)
        self.assertEqual(out, "")
        self.assertIn("nothing that compiles was found; the best is late by 7", said)
        late = self.run_tool("explore", "--quick", str(EXAMPLES / "late.toml"))
        self.assertEqual(late[:2], (5, ""))
        self.assertIn("no order is late by less than 7; the best is late by 7", late[2])

    def test_order_in_its_place(self) -> None:
        text = TURN.replace("faults", 'order = ["Q", "P"]  # as it was\nfaults')
        self.assertEqual(self.found(text)[0], text.replace('"Q", "P"', '"P", "Q"'))

    def test_line_ends(self) -> None:
        out = self.found(TURN.replace("\n", "\r\n"))[0]
        self.assertEqual(out, TURN.replace("deadline = 50\n", 'deadline = 50\norder = ["P", "Q"]\n').replace("\n", "\r\n"))

    def test_no_better(self) -> None:
        out, said = self.found(PAIR)
        self.assertEqual(out, PAIR)
        self.assertIn("worst 105: no order is better, it stays as it is", said)

    def test_nodes(self) -> None:
        out, said = self.found(TWO, '[process.B]\nnodes = ["N1", "N2"]\n')
        self.assertEqual(document(out)["process"][1], {"name": "B", "node": "N2", "wcet": 20})
        self.assertIn("worst 50: worst 30", said)
        self.assertIn("B        N1 > N2", said)
        self.assertIn("# the first", out)

    def test_wcet(self) -> None:
        # on N2 B takes 60, so it stays where it is
        self.assertEqual(self.found(TWO, "[process.B]\nwcet = { N1 = 20, N2 = 60 }\n")[0], TWO)
        out = self.found(TWO, "order = false\n[process.B]\nwcet = { N1 = 20, N2 = 31 }\n")[0]
        self.assertEqual(out, TWO.replace('"B", node = "N1", wcet = 20', '"B", node = "N2", wcet = 31'))

    def test_together_and_apart(self) -> None:
        free = '[process."*"]\nnodes = ["N1", "N2"]\n'
        self.assertEqual(self.worst(self.found(TWO, 'together = [["A", "B"]]\n' + free)[0]), 50)
        self.assertEqual(self.worst(self.found(TWO, 'apart = [["A", "B"]]\n' + free)[0]), 30)

    def test_slots(self) -> None:
        out = self.found(SLOTS, "slots = true\n")[0]
        self.assertEqual([it["node"] for it in document(out)["slot"]], ["N1", "N2"])
        self.assertEqual((self.worst(SLOTS), self.worst(out)), (35, 25))
        self.assertEqual(self.found(SLOTS)[0], SLOTS)

    def test_sizes(self) -> None:
        # 2 bytes go into the shorter slot: the round is 16 long, and A's message goes at 16 or, behind N1, at 10
        out = self.found(SLOTS, "slots = true\n[slot.N2]\nsizes = [[6, 2], [10, 8]]\n")[0]
        self.assertEqual([(it["node"], it["length"], it["bytes"]) for it in document(out)["slot"]], [("N1", 10, 8), ("N2", 6, 2)])
        self.assertEqual(self.worst(out), 21)

    def test_parts(self) -> None:
        # 72 with one part, 62 with two (MODEL, "How long an execution lasts")
        out = self.found(SINGLE.replace("deadline = 72", "deadline = 100"), "[process.A]\nparts = [1, 4]\n")[0]
        self.assertEqual(self.worst(out), 62)
        self.assertEqual(self.found(SINGLE)[0], SINGLE)

    def test_most_frozen(self) -> None:
        # frozen the message goes at 80 in each scenario, and B ends at 122
        for deadline, frozen in (122, True), (121, False):
            text = PAIR.replace("deadline = 105", f"deadline = {deadline}")
            out = self.found(text, '[edge."A>B"]\nfrozen = true\n', "--goal", "most-frozen")[0]
            self.assertEqual(document(out)["edge"][0].get("frozen", False), frozen)

    def test_least_frozen(self) -> None:
        """The tenth process of too-wide.toml has more views than there may be; with one item frozen, or as it is made, it fits."""
        text = (EXAMPLES / "too-wide.toml").read_text()
        out, said = self.found(text, None, "--goal", "least-frozen")
        self.assertLessEqual(sum(it.get("frozen", False) for it in document(out)["process"]), 1, said)
        self.assertGreater(self.worst(out), 0)

    def test_sections(self) -> None:
        text = "".join(f'[[process]]\nname = "{name}"  # here\nwcet = 5\nnode = "N"\n' for name in "PQ")
        text = text.replace('"N"\n[[', '"N"\ndeadline = 5\n[[').replace("wcet = 5\nnode", "wcet = 4\nnode", 1)
        text = 'faults = 0\ndeadline = 10\n[[node]]\nname = "N"\n' + text
        out = self.found(text)[0]
        self.assertEqual((document(out)["order"], self.worst(out)), (["P", "Q"], 9))
        self.assertIn("# here", out)

    def test_comments(self) -> None:
        out = self.found(BRAKE, '[process.lamp]\nnodes = ["sensor", "motor"]\n[process."*"]\nparts = [1, 3]\n', tries="400")[0]
        comments = [line for line in BRAKE.splitlines() if line.lstrip().startswith("#")]
        self.assertEqual([line for line in out.splitlines() if line.lstrip().startswith("#")], comments)
        self.assertLess(self.worst(out), self.worst(BRAKE))

    def test_same(self) -> None:
        """The same words and files find the same, by one process or two, at once or in two runs."""
        graph, choices = self.file("graph.toml", CONTROLLER), self.file("choices.toml", '[process."*"]\nnodes = ["E1", "E2", "E3"]\n')
        words = ["--walks", "2", "--tries", "8000", "--quiet", graph, choices]
        one, two = (self.run_tool("explore", "--jobs", jobs, *words)[1] for jobs in "12")
        self.assertEqual(one, two)
        state = str(self.folder / "state")
        first = self.run_tool("explore", "--jobs", "1", "--state", state, "--walks", "2", "--tries", "4000", "--quiet", graph, choices)
        self.assertEqual((first[0], json.loads(Path(state).read_text())["round"]), (0, 1), first[2])
        self.assertEqual(self.run_tool("explore", "--jobs", "1", "--state", state, *words)[1], one)
        self.assertIn("it is of another search", self.run_tool("explore", "--seed", "2", "--state", state, *words)[2])

    def test_seconds(self) -> None:
        """It ends in time, with what it has."""
        out = self.found(CONTROLLER, '[process."*"]\nnodes = ["E1", "E2", "E3"]\n', "--seconds", "0.3", tries="1000000")[0]
        self.assertLessEqual(self.worst(out), self.worst(CONTROLLER))

    def test_picture(self) -> None:
        path = str(self.folder / "way.svg")
        self.found(CONTROLLER, None, "--picture", path)
        self.assertEqual(ElementTree.parse(path).getroot().tag, "{http://www.w3.org/2000/svg}svg")

    def test_archive(self) -> None:
        """What workers of dask import is all of the package."""
        code = "import sys; sys.path.insert(0, sys.argv[1]); import cpgc_tools.explore.search as it; print(it.__file__)"
        done = subprocess.run(["python3", "-S", "-c", code, archive(str(self.folder))], capture_output=True, text=True, check=True, cwd=self.folder)
        self.assertIn("cpgc_tools.zip", done.stdout)

    def test_wrong(self) -> None:
        for choices, why in (
            ("speed = 1\n", "there is no key speed"), ('[process.X]\nnodes = ["N1"]\n', "X is no process"), ("slots = 3\n", "slots is true or false"),
            ('[process.A]\nnodes = ["N9"]\n', "A: N9 is no node"), ("[process.A]\nnodes = []\n", "A: nodes is a list of names"),
            ("[process.A]\nparts = [3, 2]\n", "A: parts is a number, or the least and the most"), ('together = [["X"]]\n', "together: X is no process"),
            ("apart = 1\n", "apart is a list of lists of processes"), ("[process.A]\nfrozen = 1\n", "process A: frozen is true or false"),
            ("[process.A]\nspeed = 1\n", "process A has no key speed"), ("[slot.N1]\nsizes = 3\n", "slot N1: sizes are pairs of a length and bytes"),
            ('[process.A]\nwcet = { N1 = "x" }\n', "A: wcet is a table of a number for each node"),
            ("process = 1\n", "process has to be tables, as [process.NAME]"),
        ):
            out, said = self.found(TWO, choices, status=1)
            self.assertEqual((out, said.count("\n")), ("", 1))
            self.assertTrue(said.startswith("explore: ") and said.endswith(f": {why}\n"), said)
        self.assertIn("cpgc: refused 2 field", self.found("faults = 0\n", status=4)[1])
        self.assertEqual(self.run_tool("explore", "--quick", "a", "b")[0], 1)

    def test_nothing_to_do(self) -> None:
        """Graphs with one process or none, and with conditions."""
        one = 'faults = 0\ndeadline = 5\nnode = [{ name = "N" }]\nprocess = [{ name = "P", node = "N", wcet = 3 }]\n'
        self.assertEqual(self.found(one)[0], one)
        self.assertEqual(self.found("faults = 0\ndeadline = 5\n")[0], "faults = 0\ndeadline = 5\n")
        self.assertLessEqual(self.worst(self.found(BRANCHING)[0]), self.worst(BRANCHING))


class Offers(Case):
    """What other tools say of another order."""

    def test_late(self) -> None:
        path = self.file("turn.toml", TURN)
        self.assertIn("mended by an edge from P to Q: worst 11", self.of("why", path))
        said = self.run_tool("explain", path, stdin="cpgc: late 11 by P in none\n")[1]
        self.assertIn(f"under that of `explore --quick {path}` its latest end would be 11", said)

    def test_too_wide(self) -> None:
        text = (EXAMPLES / "too-wide.toml").read_text()
        self.assertEqual(self.run_tool("why", self.file("wide.toml", text))[0], 6)  # in each order the last one rests on all the others
        self.assertNotIn("order", self.run_tool("explain", self.file("wide.toml", text), stdin="cpgc: too wide start I\n")[1])

    def test_reckoned(self) -> None:
        """It compiles just where cpgc says so."""
        for number in range(12):
            made = drawn(number, 10, 2, number % 3, frozen=0.1, choices=number % 2)
            plan = plan_of(spelled(made))
            worst = whole(plan, starts.compiled(plan)[0]).worst
            graph = Graph.of({**made, "deadline": worst - number % 2})
            done = self.cpgc("compile", self.file("asked.toml", graph.text()))
            self.assertEqual(offer.compiles(graph), done.returncode == 0)


class Designs(Case):
    def test_plain(self) -> None:
        plan = plan_of(CONTROLLER)
        found = whole(plan, next(starts.ruled(plan)))
        again = search.of_plain(json.loads(json.dumps(search.plain(found))))
        self.assertEqual(again, Design(tuple(found.order), *plan.design[1:]))
