"""The study: what its families reckon, with values worked out by hand from docs/MODEL.md, and how figures become cells.

In examples/branching.toml A runs on N1 from 0 to 35 and is told from 40 to 50. If it is true, its message goes from 60 to 70, B ends at 85 and J
on the same node at 95. If it is false, C ends at 50, its message comes at 70, and J ends at 80.
"""
from __future__ import annotations

from typing import Any

from cpgc_tools import pack
from cpgc_tools.explore.reckoning import Plan, reckoned
from dev import study, study_found, study_given, study_graphs, study_page, study_runs
from dev.study_merged import Merging, by_ways
from tests.case import BRANCHING, CPGC, SINGLE, Case


class Reckoning(Case):
    def plan(self, graph: str) -> Plan:
        it = study_found.searching(graph)
        return Plan(it.problem, it.problem.design())

    def worst(self, plan: Plan) -> int:
        found = reckoned(plan, plan.urgency())
        assert found
        return found.worst

    def test_unheard(self) -> None:
        """Without waits all is as before. If A isn't told either, its message goes at 40 and J ends at 75; in the other track it is 80 as before."""
        plan = self.plan(BRANCHING)
        self.assertEqual(self.worst(plan), 95)
        self.assertEqual(self.worst(study_found.unheard(plan, True)), 95)
        self.assertEqual(self.worst(study_found.unheard(plan, False)), 80)
        self.assertEqual(self.worst(plan), 95)

    def test_a_node_that_waits(self) -> None:
        """D goes after B, and runs if A is false too: then N2 knows at 50 that B won't run, and D ends at 57 in place of 7. Alone it would be done."""
        graph = BRANCHING.replace('wcet = 5, join = true, alpha = 2, chi = 3, mu = 5 },', 'wcet = 5, join = true }, { name = "D", node = "N2", wcet = 7 },')
        plan = self.plan(graph.replace("deadline = 95", "deadline = 200"))
        names = [it.name for it in plan.problem.processes]
        order = [names.index(name) for name in "ACBDJ"]
        waiting, not_waiting = reckoned(plan, order), reckoned(study_found.unheard(plan, True), order)
        assert waiting and not_waiting
        self.assertEqual([waiting.latest[p] for p in order], [35, 50, 85, 92, 97])
        self.assertEqual(waiting.times[0][names.index("D")], 57)
        self.assertEqual(not_waiting.times[0][names.index("D")], 7)

    def test_merged(self) -> None:
        """Of the two tracks the longer one is kept, and the other one is as it would be alone."""
        plan = self.plan(BRANCHING)
        made = Merging(plan.problem, plan, by_ways(plan.problem, plan))
        self.assertEqual((made.alone, made.longest, made.worst), ([80, 95], 95, 95))
        graph, tables = self.file("graph.toml", BRANCHING), pack.read(self.packed(BRANCHING, "of"))
        merged = made.pack(tables)
        self.assertEqual([(row.item.kind, [time for time, _ in row.columns]) for row in merged.rows[1] if not row.heard], [("start", [70]), ("start", [70, 85])])
        self.assertEqual(self.cpgc("check", graph, self.file("merged.pack", pack.bytes_of(merged))).stdout, b"safe\n")


class Graphs(Case):
    def test_tracks_of_a_graph(self) -> None:
        """A track alone has what is active in it; with its broadcasts it has its conditions and joins, too, and lasts at least as long."""
        drawn = study_graphs.Drawn(5, 60, 10, 6)
        for values in drawn.tracks():
            kept = drawn.kept(values)
            alone, heard = study_found.searching(drawn.alone(values, 2)), study_found.searching(drawn.heard(values, 2))
            self.assertEqual((alone.problem.count, heard.problem.count), (len(kept), len(kept)))
            self.assertEqual((len(alone.problem.conditions), len(heard.problem.conditions)), (0, len(values)))
            self.assertEqual(sum(all(track.active) for track in heard.problem.tracks), 1)
            for search in (alone, heard):
                found = study_found.compiled(search)
                said = self.cpgc("show", self.file("graph.toml", drawn.alone(values, 2) if search is alone else drawn.heard(values, 2)))
                self.assertIn(f"worst {found.worst}\n".encode(), said.stdout)


class Lines(Case):
    """Lines of families, and cells of the page."""

    def line(self, family: str, what: dict[str, Any]) -> dict[str, Any]:
        study_runs.begin(str(self.folder))
        found: dict[str, Any] = study.FAMILIES[family][1](CPGC, what)
        return found

    def test_one_processor(self) -> None:
        """Nothing is waited for there, so all is as long as the most work of a track: no order and no table changes that."""
        what = next(it for it in study_given.condition_graphs() if it["nodes"] == 1)
        line, orders, merged = (self.line(family, what) for family in ("conditions", "orders", "merged"))
        self.assertEqual({line[key] for key in ("alone", "heard", "worst", "urgency", "work", "bound")}, {line["work"]})
        self.assertEqual({orders[key] for key in ("compiled", "unwaited", "unsent", "rules", "best", "least", "track")}, {line["work"]})
        self.assertEqual((merged["longest"], merged["merged"]), (line["work"], line["work"]))

    def test_what_holds_of_a_line(self) -> None:
        what = next(it for it in study_given.condition_graphs() if it["graph"] == 40)
        line, orders = self.line("conditions", what), self.line("orders", what)
        self.assertEqual(orders["compiled"], line["worst"])
        self.assertLessEqual(orders["unsent"], orders["unwaited"])
        self.assertLessEqual(orders["unwaited"], line["worst"])
        for less, more in (("least", "track"), ("least", "best"), ("track", "best"), ("best", "rules"), ("rules", "compiled")):
            self.assertLessEqual(orders[less], orders[more], (less, more))

    def test_numbers(self) -> None:
        self.assertEqual([study_page.number(it) for it in ("12", "-12", "0.2", "wide", "")], [12, -12, "0.2", "wide", ""])

    def test_cells(self) -> None:
        """Of fewer than ten no mean is printed, of fewer than four no quartiles. Those of 1 to 5 are 2, 3 and 4."""
        self.assertEqual((study_page.enough([1.0] * 9), study_page.enough([1.0] * 10)), ("", "1%"))
        self.assertEqual((study_page.quartiles([1, 2, 3]), study_page.quartiles([1, 2, 3, 4, 5])), ("-", "2.0/3.0/4.0"))
        self.assertEqual(study_page.no_longer([{"worst": 5, "alone": 5}, {"worst": 6, "alone": 5}]), "50%")
        self.assertEqual(study_page.gains([{"worst": 6, "alone": 5}]), [20.0])

    def test_systems_of_two_periods(self) -> None:
        """By dues: what a search finds is no later than what is compiled, and nothing is earlier than the bound."""
        for kind in ("plain", "choice"):
            line = self.line("rates", {"system": 1, "kind": kind})
            self.assertTrue(line["least"] <= line["long"] <= line["quick"] <= line["late"], line)

    def test_a_page_with_a_table_that_nothing_makes(self) -> None:
        with self.assertRaises(study_page.Differs):
            study_page.page_of("<!-- table one -->\n<!-- end -->\n", {})
        self.assertEqual(study_page.page_of("a\n<!-- table one -->\nx\n<!-- end -->\nb\n", {"one": ["y"]}), "a\n<!-- table one -->\n\ny\n\n<!-- end -->\nb\n")

    def test_a_load(self) -> None:
        """30 of 100."""
        self.assertEqual(study_found.load(study_found.searching(SINGLE.replace("deadline = 72", "deadline = 100"))), 30)
