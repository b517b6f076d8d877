"""The tool pack, and the model of a pack."""
import json
import re

from cpgc_tools import pack, show
from tests.case import BRAKE, BRANCHING, CONTROLLER, PAIR, SINGLE, Case


class Pack(Case):
    def test_names(self) -> None:
        """Names stand beside the numbers, and the pack is written again without them."""
        for graph in PAIR, BRANCHING, CONTROLLER, BRAKE, SINGLE, "faults = 0\ndeadline = 0\n":
            packed = self.cpgc("compile", self.file("graph.toml", graph)).stdout
            read = self.of("pack", "read", stdin=packed)
            again = self.of("pack", "write", stdin=read.encode())
            self.assertEqual(again.encode("latin-1"), packed)
            without = re.sub(r', "[a-z]+_names?": (\[[^\]]*\]|"[^"]*")', "", re.sub(r'\n "[a-z]+_names": .*,', "", read))
            self.assertEqual(pack.of_json(without.encode()), packed)
            self.assertEqual(pack.bytes_of(pack.parsed(packed)), packed)
        self.assertEqual(json.loads(self.of("pack", "read", stdin=self.cpgc("compile", self.file("graph.toml", BRANCHING)).stdout))["condition_names"], ["A"])

    def test_columns(self) -> None:
        """They are named as `cpgc show` writes literals."""
        for graph in PAIR, BRANCHING, CONTROLLER:
            file = self.file("graph.toml", graph)
            shown = show.columns_of(self.cpgc("show", file).stdout.decode())
            read = json.loads(self.of("pack", "read", stdin=self.cpgc("compile", file).stdout))
            rows = {it["item"]: it for rows in read["rows"] for it in rows if not it["item"].startswith("hear")}
            self.assertEqual({item: [f"{time}: {name}" for (time, _), name in zip(it["columns"], it["column_names"])] for item, it in rows.items()}, shown)

    def test_mistakes(self) -> None:
        """Each is one line."""
        packed = self.cpgc("compile", self.file("pair.toml", PAIR)).stdout
        read = self.of("pack", "read", stdin=packed)
        cases: list[tuple[list[str], bytes, str]] = [
            (["read"], b"", "no pack: it ends too early, after 0 bytes"),
            (["read"], packed[:100], "no pack: it ends too early, after 100 bytes"),
            (["read"], packed + b"x", "no pack: bytes follow its end, from byte 147 on"),
            (["read"], PAIR.encode(), "no pack: it doesn't begin with CPGT"),
            (["read"], packed[:4] + b"\3" + packed[5:], "no pack: its version is 3"),
            (["read"], packed[:16] + b"\2" + packed[17:], "no pack: process 0 is on node 2, which there isn't"),
            (["read", "none.pack"], b"", "none.pack: No such file or directory"),
            (["write"], b"{", "no tables of a pack: the JSON: Expecting property name enclosed in double quotes: line 1 column 2 (char 1)"),
            (["write"], b"{}", "no tables of a pack: the key 'version' is missing"),
            (["write"], read.replace("50", "-50").encode(), "no tables of a pack: a number is below 0 or too great for its bytes"),
            (["write"], read.replace("50", '"50"').encode(), "no tables of a pack: a value has another type than those that `pack read` writes"),
            ([], b"", "the following arguments are required: read|write (--help says the words)"),
        ]
        for words, stdin, said in cases:
            with self.subTest(said):
                self.assertEqual(self.run_tool("pack", *words, stdin=stdin), (1, "", f"pack: {said}\n"))

    def test_every_beginning(self) -> None:
        """What is cut off anywhere is no pack."""
        packed = self.cpgc("compile", self.file("graph.toml", BRANCHING)).stdout
        for size in range(len(packed)):
            self.assertRaises(ValueError, pack.parsed, packed[:size])
