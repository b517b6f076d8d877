"""The tool run-nodes, where gcc is. tools/test-runtime runs nodes beside the program; here is what a frame that is lost and an execution that hangs
come to, and that ticks left out change nothing. Wanted lines are worked out by hand from docs/MODEL.md and runtime/c/README.md."""
import shutil
import tempfile
import unittest
from pathlib import Path

from cpgc_tools import graph, pack, play, run_nodes
from tests.case import BRANCHING, EXAMPLES, PAIR, SCENARIO, Case


@unittest.skipIf(shutil.which("gcc") is None, "gcc isn't there")
class RunNodes(Case):
    def setUp(self) -> None:
        super().setUp()
        self.words = self.file("pair.toml", PAIR), self.packed(PAIR, "pair"), self.file("s.toml", SCENARIO)

    def test_lost_and_hung(self) -> None:
        """A has its fault and ends at 72; e0 goes at 80. N2 knows at 90 that it is missing. An A that never ends is told at 72."""
        self.assertEqual(self.of("run-nodes", *self.words, "--lose", "e0").splitlines(), [
            "0 N1 start A", "72 N1 end A faults 1", "80 N1 send e0", "90 N2 missing send e0", "finish 72"])
        self.assertEqual(self.of("run-nodes", *self.words, "--hang", "A").splitlines(), ["0 N1 start A", "72 N1 overrun start A", "90 N2 missing send e0", "finish 0"])
        for words, said in (("--lose", "e1"), "there is no frame e1"), (("--hang", "C"), "there is no process C"):
            self.of("run-nodes", *self.words, *words, status=1, err=f"run-nodes: {self.words[0]}: {said}\n")

    def test_ticks_left_out(self) -> None:
        """With every tick and without those that are left out nodes do the same."""
        branching = self.file("branching.toml", BRANCHING), self.packed(BRANCHING, "branching"), str(EXAMPLES / "branching-scenario.toml")
        for (file, tables, scenario), lost, hung in (self.words, ("e0",), ()), (self.words, (), ("A",)), (branching, (), ()):
            with self.subTest(file, lost=lost, hung=hung):
                traces = []
                for every in True, False:
                    with tempfile.TemporaryDirectory() as place:
                        it = graph.read(file), pack.read(tables), play.read_scenario(scenario)
                        traces.append(run_nodes.simulated(*it, Path(place), every=every, lost=lost, hung=hung))
                self.assertEqual(*traces)
