"""The tool from-tgff. Wanted values are worked out by hand."""
import tomllib
from typing import Any

from tests.case import TOOL_EXAMPLES, Case


class FromTgff(Case):
    FILE, MAPPING = ((TOOL_EXAMPLES / name).read_text() for name in ("engine.tgff", "engine-mapping.toml"))

    def made(self, *words: str, file: str = FILE, mapping: str = MAPPING, **wanted: Any) -> str:
        return self.of("from-tgff", *words, self.file("engine.tgff", file), self.file("mapping.toml", mapping), **wanted)

    def test_example(self) -> None:
        """8.25 becomes 9, 9.75 becomes 10, the deadline of 150.5 becomes 150; messages of types 0 and 1 have 4 and 8 bytes."""
        graph = tomllib.loads(self.made("--graph", "0"))
        self.assertEqual((graph["faults"], graph["deadline"]), (1, 200))
        shown = [(it["name"], it["node"], it["wcet"], it["alpha"], it.get("deadline")) for it in graph["process"]]
        self.assertEqual(shown, [("t0_0", "N1", 9, 1, None), ("t0_1", "N1", 12, 1, None), ("t0_2", "N2", 10, 1, None), ("t0_3", "N2", 7, 1, 150)])
        self.assertEqual([(it["from"], it["to"], it["bytes"]) for it in graph["edge"]],
                         [("t0_0", "t0_1", 4), ("t0_0", "t0_2", 8), ("t0_1", "t0_3", 4), ("t0_2", "t0_3", 8)])

    def test_compiles(self) -> None:
        """In the worst case a fault strikes t0_0: it ends at 22, t0_1 at 36, its message waits for the slot at 60, and t0_3 ends at 79."""
        file = self.file("graph.toml", self.made("--graph", "0"))
        self.assertEqual(self.cpgc("show", file).stdout.splitlines()[:2], [b"order t0_0 t0_1 t0_2 t0_3", b"worst 79"])

    def test_scale_and_keys(self) -> None:
        """Ten time units for one of the file, and keys of one process. Soft deadlines are left out."""
        graph = tomllib.loads(self.made("--graph", "1", mapping="scale = 10\n" + self.MAPPING + "[process.t1_1]\nparts = 2\n"))
        self.assertEqual((graph["deadline"], graph["process"][0]["wcet"]), (1000, 83))
        self.assertEqual(graph["process"][1], {"name": "t1_1", "node": "N1", "wcet": 205, "parts": 2, "alpha": 1, "chi": 1, "mu": 1})

    def test_rows_that_do_not_count(self) -> None:
        """Of two rows of a type the greater counts, of those with valid = 0 none."""
        rows = "# type version valid exec_time\n 0 0 1 3 # slow\n 0 1 1 4\n 0 2 0 5\n 2 0 1 1\n"
        file = self.FILE[:self.FILE.index("@PE 0")] + "@PE 0 {\n" + rows + "}\n"
        graph = tomllib.loads(self.made("--graph", "1", file=file))
        self.assertEqual([it["wcet"] for it in graph["process"]], [4, 1])

    def test_mistakes(self) -> None:
        here = self.folder
        of_mapping, of_file = (f"from-tgff: {here}/{name}: " for name in ("mapping.toml", "engine.tgff"))

        def mapping(old: str, new: str) -> dict[str, str]:
            return {"mapping": self.MAPPING.replace(old, new)}

        for change, said in [
            (mapping('t0_1 = "N1"', 't0_1 = "N3"'), of_mapping + "task t0_1 is on N3, which is no node"),
            (mapping('"t0_*" = "N2"', ""), of_mapping + "task t0_2 is on no node"),
            (mapping('t0_1 = "N1"', 't0_9 = "N1"'), of_mapping + "t0_9 is no task of the file"),
            (mapping("PE 1", "PE 7"), of_mapping + "task t0_2 names the table PE 7, which the file doesn't have"),
            (mapping("exec_time", "time"), of_mapping + "type 0 of task t0_0 has no time in the table PE 0"),
            (mapping("faults", "fault"), of_mapping + "the mapping has no key fault"),
            (mapping("alpha = 1", "alfa = 1"), of_mapping + "process has no key alfa"),
            (mapping("faults = 1", ""), of_mapping + "the mapping has no faults of the right type"),
            ({"file": self.FILE.replace("TYPE 2", "TYPE two", 1)}, of_file + "line 15: TASK t0_2	TYPE two (two is no number)"),
            ({"file": self.FILE.replace("FROM t0_0", "t0_0", 1)}, of_file + "line 18: ARC a0_0 	t0_0  TO  t0_1 TYPE 0"),
            ({"file": ""}, of_mapping + "t0_0 is no task of the file"),
        ]:
            with self.subTest(said):
                self.made("--graph", "0", status=1, err=said + "\n", **change)
        self.made(status=1, err=of_file + "say by --graph which of its task graphs: 0, 1\n")
