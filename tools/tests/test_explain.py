"""The tool explain: each line of cpgc, and what it says of it."""
import contextlib
import itertools
import json
import re
import subprocess
from collections.abc import Callable, Mapping

from cpgc_tools.explain.files import Files
from cpgc_tools.explain.table import explained
from tests.case import CPGC, EXAMPLES, PAIR, SCENARIO, SINGLE, TOOLS, TOP, Case
from tests.forms import SECTIONS

Content = str | bytes | Callable[[bytes], bytes]  # of a file, or made of what the pair has

BASE: dict[str, str | bytes] = {"pair.toml": PAIR, "single.toml": SINGLE, "s.toml": SCENARIO, "control.toml": (EXAMPLES / "control.toml").read_text(),
        "x.stream": (EXAMPLES / "pair-N2.stream").read_bytes(), "x.log": "until 200\n0 N1 start A\n80 N1 send e0\n90 N2 start B\n",
        "ordered.toml": (EXAMPLES / "ordered.toml").read_text()}
PLAY = ["play", "pair.toml", "pair.pack", "s.toml", "--turns", "0"]
AUDIT, LIVE = ["audit", "pair.toml", "pair.pack", "x.log"], ["live", "pair.pack", "N2", "x.stream"]
SHOW, CHECK = ["show", "pair.toml"], ["check", "pair.toml", "pair.pack"]
ORDERED, TEN = ["show", "ordered.toml"], ", ".join(f'"p{n}"' for n in range(1, 11))


def pair(old: str, new: str) -> dict[str, str]:
    assert old in PAIR, old
    return {"pair.toml": PAIR.replace(old, new)}


def ordered(order: str, edges: str = "# no edges") -> dict[str, str]:
    """The example with another key `order`, on line 5, and perhaps edges, on line 7; Y stands on line 9 and X on line 10."""
    text = str(BASE["ordered.toml"])
    assert text.count('["X", "Y"]') == text.count("# no edges") == 1
    return {"ordered.toml": text.replace('["X", "Y"]', order).replace("# no edges", edges)}


def many(kind: str, count: int, entry: str) -> dict[str, str]:
    return pair("edge = [", f"{kind} = [" + ", ".join(entry.format(n) for n in range(count)) + "]\nedge = [")


# what is refused: the words, the files that differ from the pair's, the line of cpgc, and how what is said of it begins, line by line.
# In the pair the nodes stand on line 3, the slots on 4, the processes on 6 and 7, the edge on 9
REFUSED: list[tuple[list[str], Mapping[str, Content], str, list[str]]] = [
    (SHOW, pair("wcet = 30,", "wcet = ,"), "refused 1 not toml", ["pair.toml:6: Invalid value", "to mend it: write text in quotes, numbers bare"]),
    (SHOW, pair('bytes = 1 }]', 'bytes = 1 }'), "refused 1 not toml", ["pair.toml:9: Unclosed array"]),
    (SHOW, pair("wcet = 30", "wcet = 99999999999999999999"), "refused 1 not toml", ["pair.toml:6: the number 99999999999999999999 is outside 64 bits"]),
    (SHOW, {"pair.toml": PAIR.encode().replace(b'"B", node', b'"\xff", node')}, "refused 1 not toml", ["pair.toml:7: byte"]),
    (SHOW, pair("wcet = 30, ", ""), "refused 2 field process 0 wcet",
     ["pair.toml:6: process 0 (A) has no wcet, which it needs", "to mend it: add wcet = .., a whole number from 1 to 1,000,000,000"]),
    (SHOW, pair("wcet = 30", "wect = 30"), "refused 2 field process 0 wcet", ["pair.toml:6: process 0 (A) has no wcet", "pair.toml:6: wect stands there"]),
    (SHOW, pair("wcet = 10", 'wcet = "10"'), "refused 2 field process 1 wcet",
     ['pair.toml:7: process 1 (B) has wcet = "10", which isn\'t a whole number', "to mend it: give it a whole number from 1 to 1,000,000,000, without quotes"]),
    (SHOW, pair('name = "N1"', 'name = "N 1"'), "refused 2 field node 0 name", ['pair.toml:3: node 0 has name = "N 1", which isn\'t a name']),
    (SHOW, pair("deadline = 105\n", ""), "refused 2 field top deadline", ["pair.toml: the graph has no deadline, which it needs"]),
    (SHOW, {"pair.toml": "faults = 0\n[[node]]\nname = \"N\"\ndeadline = 3\n"}, "refused 2 field top deadline",
     ["pair.toml: the graph has no deadline", "pair.toml:4: a deadline stands in node 0 (N)", "to mend it: deadline of the graph goes before the first [[..]]"]),
    (SHOW, pair("process =", "proces ="), "refused 2 field top unknown", ["pair.toml:5: the graph: proces is none of its keys; is process meant?"]),
    (SHOW, pair('to = "B"', 'to = "B", weight = 3'), "refused 2 field edge 0 unknown", ["pair.toml:9: edge 0 (A to B): weight is none of its keys"]),
    (SHOW, {"pair.toml": SECTIONS + "whenn = true\n"}, "refused 2 field edge 0 unknown", ["pair.toml:34: edge 0 (A to B): whenn is none of its keys; is when meant?"]),
    (SHOW, pair('name = "B"', 'name = "A"'), "refused 3 double process 1 name", ["pair.toml:7: process 1 is named A", "pair.toml:6: the earlier one is process 0"]),
    (SHOW, pair('node = "N2", length', 'node = "N1", length'), "refused 3 double slot 1 node", ["pair.toml:4: slot 1 is of N1", "pair.toml:4: the earlier one"]),
    (SHOW, pair('to = "B"', 'to = "b"'), "refused 4 unknown edge 0 to",
     ['pair.toml:9: edge 0 (A to b): to = "b" is the name of no process; is B meant?', "to mend it: write one of A, B"]),
    (SHOW, pair('"B", node = "N2"', '"B", node = "A"'), "refused 4 unknown process 1 node",
     ['pair.toml:7: process 1 (B): node = "A" is the name of no node', "to mend it: A is a process; node names a node"]),
    (SHOW, pair("wcet = 10", "wcet = 0"), "refused 5 limit process 1 wcet", ["pair.toml:7: process 1 (B) has wcet = 0, which isn't a whole number from 1"]),
    (SHOW, pair("wcet = 10", "deadline = -1, wcet = 10"), "refused 5 limit process 1 deadline", ["pair.toml:7: process 1 (B) has deadline = -1"]),
    (SHOW, pair("faults = 1", "faults = 9"), "refused 5 limit top faults", ["pair.toml:1: the graph has faults = 9, which isn't a whole number from 0 to 8"]),
    (SHOW, {"pair.toml": SINGLE.replace('[{ name = "N1" }', '[{ name = "N1" }' + "".join(f', {{ name = "M{n}" }}' for n in range(16)))},
     "refused 5 limit nodes", ["pair.toml:3: there are 17 nodes, and at most 16 may be"]),
    (SHOW, pair("edge = [", 'edge = [{ from = "B", to = "A" }, '), "refused 6 cycle A B",
     ["pair.toml:6: the edges lead around: A B A", "pair.toml:9: edge 1 (A to B)", "pair.toml:9: edge 0 (B to A)", "to mend it: take one of these edges out"]),
    (["show", "a.toml"], {"a.toml": (TOP / "crates/cpg_cases/data/alternatives.toml").read_text()}, "refused 7 alternatives J in none",
     ["a.toml:8: the join J has two inputs", "a.toml:10: edge 0 (X to J) is live then", "a.toml:10: edge 1 (Y to J) is live then"]),
    (SHOW, {"pair.toml": re.sub("slot = .*\n", "", PAIR)}, "refused 8 slot N1",
     ["pair.toml:3: node N1 has no slot", "pair.toml:8: edge 0 (A to B) is a message from N1", 'to mend it: add a slot: { node = "N1", length = .., bytes = .. }']),
    (SHOW, pair("bytes = 1", "bytes = 9"), "refused 9 big e0", ["pair.toml:9: the message of edge 0 (A to B) has 9 bytes", "pair.toml:4: slot 0 (of N1) takes 8"]),
    (CHECK, {"pair.pack": b""}, "refused 10 pack 0", ["pair.pack: the pack is empty", "to mend it: a compile that is refused"]),
    (["check", "pair.toml", "pair.toml"], {}, "refused 10 pack 0", ["pair.toml: this is no pack", "to mend it: it is a graph file"]),
    (CHECK, {"pair.pack": lambda pack: pack[:100]}, "refused 10 pack 100",
     ["pair.pack: the pack ends too early, after 100 bytes: the row of start B on N2 is missing"]),
    (CHECK, {"pair.pack": lambda pack: pack + b"x"}, "refused 10 pack 147", ["pair.pack: byte 147 (78) can't stand there: it ends before"]),
    (CHECK, {"pair.pack": lambda pack: pack[:16] + b"\2" + pack[17:]}, "refused 10 pack 16", ["pair.pack: byte 16 (02) can't stand there: process 0"]),
    (PLAY, {"s.toml": "[faults\n"}, "refused 12 scenario toml", ["s.toml:1: Expected ']'"]),
    (PLAY, {"s.toml": "[falts]\nA = 1\n"}, "refused 12 scenario field", ["s.toml:1: falts is none of the tables of a scenario; is faults meant?"]),
    (PLAY, {"s.toml": "[faults]\nA = true\n"}, "refused 12 scenario field", ["s.toml:2: A = true in faults isn't a whole number"]),
    (PLAY, {"s.toml": "[faults]\n0.1.A = 1\n"}, "refused 12 scenario field", ["s.toml:2: 0.1.A is read as tables", 'to mend it: put the name in quotes: "0.1.A" = ..']),
    (PLAY, {"s.toml": "[faults]\n\"a\" = 1\n"}, "refused 12 scenario unknown", ["s.toml:2: a in faults is no process of pair.toml; is A meant?"]),
    (PLAY, {"s.toml": "[values]\nA = true\n"}, "refused 12 scenario condition", ["s.toml:2: A in values has no condition in pair.toml"]),
    (PLAY, {"s.toml": "[faults]\nA = 1\nB = 1\n"}, "refused 12 scenario budget",
     ["s.toml:1: there are 2 faults (A 1, B 1), and the graph has at most 1", "pair.toml:1: faults = 1"]),
    (PLAY, {"s.toml": "[faults]\nA = 1\n[lengths]\nA = 73\n"}, "refused 12 scenario length", ["s.toml:4: A runs for 73, and it can run for 1 to 72 with 1 fault"]),
    (SHOW, {"pair.toml": b"#" * 2**24 + b"\n"}, "refused 16 long graph", ["pair.toml: the graph has 16,777,217 bytes and is longer than 16,777,216 bytes"]),
    (CHECK, pair("faults = 1", "faults = 2"), "refused 17 other graph faults", ["pair.pack was made for another", "pair.toml:1: faults = 2, and in the pack 1"]),
    (CHECK, pair("wcet = 10", "wcet = 11"), "refused 17 other graph processes",
     ["pair.pack was made for another", "pair.toml:7: process 1 (B): its durations: 16 34, and in the pack 15 32"]),
    (CHECK, pair('edge = [{ from = "A", to = "B", bytes = 1 }]', ""), "refused 17 other graph edges",
     ["pair.pack was made for another", "pair.toml: there are 0 edges, and in the pack edge 0 leads from A to B"]),
    (["check", "single.toml", "pair.pack"], {}, "refused 17 other graph nodes", ["pair.pack was made", "single.toml:3: the nodes are N1, and in the pack N1, N2"]),
    (["show", "f.toml"], {"f.toml": (TOP / "crates/cpg_cases/data/fifteen-conditions.toml").read_text()}, "refused 18 tracks",
     ["f.toml:37: the conditions have more than 16,384 outcomes; there are 15: C1, C2"]),
    (["node", "pair.pack", "n2"], {}, "refused 19 node", ["pair.pack: no node is named n2; is N2 meant?", "to mend it: its nodes are N1, N2"]),
    (LIVE, {"x.stream": lambda stream: stream[:17]}, "refused 21 stream 1 length", ["x.stream: record 1, at byte 14, of 3 bytes in place of 14: a byte follows the close, or"]),
    (LIVE, {"x.stream": lambda stream: stream[:12] + b"\0" + stream[13:]}, "refused 21 stream 0 frame",
     ["x.stream: record 0, at byte 0, a frame of item 2 (e0 A>B) with number 0 and value 0 at 90: ", "N2 hears it at 50 by column 0, 90 by column 1"]),
    (["hyper", "0", "control.toml"], {}, "refused 22 hyper range 0", ["the period 0 of part 0, control.toml, isn't from 1"]),
    (["hyper", "20", "control.toml", "200", "pair.toml"], {}, "refused 22 hyper differ 1", ["pair.toml:1: faults of part 1 differ", "control.toml:3: here are"]),
    (["hyper", "20", "control.toml", "19", "control.toml"], {}, "refused 22 hyper over 1", ["control.toml:4: deadline is 20, after the period of 19 of part 1"]),
    (["hyper", "999983", "control.toml", "999979", "control.toml"], {}, "refused 22 hyper period", ["the least common multiple of the periods 999983, 999979 is"]),
    (["hyper", "20", "control.toml", "10000", "control.toml"], {}, "refused 22 hyper processes", ["all instances together have more than 128 processes"]),
    (["hyper", "200", "pair.toml"], pair('"A"', '"' + "A" * 30 + '"'), "refused 22 hyper name 0", ["pair.toml:6: a copy of AAAA"]),
    (AUDIT, {"x.log": "until 200\n0 N1 start A\n80 N2 send e0\n"}, "refused 23 log 2", ['x.log:3: "80 N2 send e0": send e0 is of N1, not of N2']),
    (AUDIT, {"x.log": "until 200\n0 N1 start C\n"}, "refused 23 log 1", ['x.log:2: "0 N1 start C": there is no start C']),
    (AUDIT, {"x.log": "until 60\n80 N1 send e0\n"}, "refused 23 log 1", ['x.log:2: "80 N1 send e0": 80 is after 60']),
    (SHOW, pair("105", "104"), "late 105 by B in A faults 1", ["pair.toml:7: process B ends at 105, 1 after its due of 104, in A faults 1", "to mend it: ask `why pair.toml`"]),
    (["show", "w.toml"], {"w.toml": (EXAMPLES / "too-wide.toml").read_text()}, "too wide start p10", ["w.toml:17: the start of p10 might need more", "to mend it: freeze it"]),
    (CHECK, pair("105", "104"), "unsafe V9 start B column 1 in A faults 1",
     ["pair.toml:7: the start of B breaks rule V9 in A faults 1: it ends after its due", "pair.pack: column 1 of start B on N2 is 90: A faults 1"]),
    (CHECK, pair("bytes = 1 }", "bytes = 1, frozen = true }"), "unsafe V8 send e0 column 1 in A faults 1",
     ["pair.toml:9: the message of edge 0 (A to B) breaks rule V8", "pair.pack: column 1 of send e0 on N1 is 80: A faults 1"]),
    (ORDERED, ordered('"X"'), "refused 2 field top order",
     ['ordered.toml:5: the graph has order = "X", which isn\'t an array of names', "to mend it: give it an array of names"]),
    (ORDERED, ordered('["X", 3]'), "refused 2 field top order", ['ordered.toml:5: the graph has order = ["X", 3], which isn\'t an array of names']),
    (ORDERED, ordered('["X",\n"X"]'), "refused 3 double top order", ["ordered.toml:6: order names X twice", "to mend it: name each process once"]),
    (ORDERED, ordered('["x", "Y"]'), "refused 4 unknown top order",
     ["ordered.toml:5: order names x, which is no process; is X meant?", "to mend it: name each process of the graph once: Y, X"]),
    (ORDERED, ordered('["X"]'), "refused 24 order Y",
     ["ordered.toml:5: order lacks the process Y", "ordered.toml:9: process Y stands here", "to mend it: put it in: order names each process"]),
    (ORDERED, ordered("[]"), "refused 24 order Y", ["ordered.toml:5: order lacks the process Y"]),
    (ORDERED, ordered('["Y"]', 'edge = [{ from = "Y", to = "X" }]'), "refused 24 order X",
     ["ordered.toml:5: order lacks the process X", "ordered.toml:10: process X stands here", "to mend it: put it in behind Y: order"]),
    (ORDERED, ordered('["X", "Y"]', 'edge = [{ from = "Y", to = "X" }]'), "refused 24 order X",
     ["ordered.toml:5: order has X before Y, for which it waits", "ordered.toml:7: edge 0 (Y to X)", "to mend it: put X behind Y"]),
    (["hyper", "100", "single.toml", "200", "ordered.toml"], {"single.toml": ordered("[]")["ordered.toml"].replace("order = []", "")}, "refused 22 hyper order 1",
     ["ordered.toml:5: part 1, ordered.toml, has the key order", "to mend it: take it out, and give an order to the graph that hyper writes"]),
    (ORDERED, ordered('["Y", "X"]'), "late 18 by X in none",
     ["ordered.toml:10: process X ends at 18, 8 after its due of 10, in none", "ordered.toml:5: it is so under this order; no other one is tried"]),
    (["show", "w.toml"], {"w.toml": (EXAMPLES / "too-wide.toml").read_text().replace("node = [", f"order = [{TEN}]\nnode = [", 1)}, "too wide start p10",
     ["w.toml:18: the start of p10 might need more", "w.toml:6: under this order a row as made has more than 16,384 columns"]),
    (["show", "pair.tml"], {}, "read fault", ["pair.tml: the graph can't be read: No such file or directory", "to mend it: is pair.toml meant?"]),
    (["show", "nosuch.toml"], {}, "read fault", ["nosuch.toml: the graph can't be read", "to mend it: name a file that is there and may be read"]),
    (["check", "pair.toml", "."], {}, "read fault", [".: the pack can't be read: Is a directory"]),
    ([], {}, "words", ["the commands of cpgc are", "  show GRAPH                          writes the tables of a graph as text"]),
    (["chekc", "pair.toml", "pair.pack"], {}, "words", ["chekc is no command", "to mend it: cpgc check GRAPH PACK"]),
    (["check", "pair.toml"], {}, "words", ["check is written as: cpgc check GRAPH PACK; here is 1 where 2 belong"]),
    (PLAY[:4], {}, "words", ["play is written as: cpgc play GRAPH PACK SCENARIO --turns N; here is no --turns N"]),
    (["show", "--help"], {}, "words", ["show is written as: cpgc show GRAPH; here is the option --help"]),
    (["trial", "x"], {}, "words", ["trial is written as: cpgc trial N; here is 'x', which is no whole number"]),
]

# values of other types than they should have, and names that are no names
ODD = """
faults = "x"
deadline = []
node = [{ name = 3 }, { name = [1] }, {}]
slot = [{ node = {}, length = "x", bytes = true }]
process = [{ name = [1], node = [2], wcet = "a", parts = 0 }, { name = "A", node = "N1", parts = 0, wcet = 1 }, { name = "B" }, 7]
edge = [{ from = [1], to = {}, when = 3, bytes = "x" }, { from = "A", when = true }, { from = "B", to = "B" }]
values = [1]
lengths = { A = "x", B = { C = 1 } }
"""
LINES_ALONE = ["write fault", "memory", "refused 16 long stream"]  # what no small file brings about


class Explain(Case):
    def made(self, files: Mapping[str, Content]) -> None:
        """The files of the pair in a folder, but for those that are others."""
        for name, content in BASE.items():
            self.file(name, content)
        pack = self.cpgc("compile", str(self.folder / "pair.toml")).stdout
        contents: dict[str, Content] = {"pair.pack": pack, **files}
        for name, other in contents.items():
            base = BASE.get(name, pack)
            self.file(name, other if isinstance(other, (str, bytes)) else other(base if isinstance(base, bytes) else base.encode()))

    def test_refused(self) -> None:
        """Each kind of line: cpgc writes it, and the entry that is at fault is named, with its file and line."""
        for words, files, line, wanted in REFUSED:
            with self.subTest(line, words=words), contextlib.chdir(self.folder):
                self.made(files)
                done = self.cpgc(*words)
                self.assertEqual(done.stderr.decode(), f"cpgc: {line}\n")
                status, said = explained(f"cpgc: {line}", Files(words[1:], words[0] if words else ""))
                self.assertEqual(status, done.returncode)
                self.assertGreaterEqual(len(said), len(wanted), said)
                for got, begin in zip(said, wanted):
                    self.assertEqual(got[:len(begin)], begin)
                self.assertTrue(said[-1].startswith("to mend it: "), said)

    def test_without_files(self) -> None:
        """A line is a sentence also where no file is named, or another one."""
        self.made({"odd.toml": ODD, "process.toml": "process = 3\nfaults = { A = \"x\", B = 3 }\nlengths = { A = 3 }\n"})
        for line in [*(line for _, _, line, _ in REFUSED), *LINES_ALONE]:
            odd = [[first, "pair.pack", last] for first, last in itertools.product(("odd.toml", "process.toml"), repeat=2)]
            known: list[list[str]] = [[], ["missing.toml"], ["pair.pack"], ["pair.toml"], ["s.toml", "x.log", "pair.toml"]]
            for files in known + odd:
                with self.subTest(line, files=files), contextlib.chdir(self.folder):
                    said = explained(f"cpgc: {line}", Files(files))[1]
                    self.assertTrue(said and all(said), said)

    def test_lines(self) -> None:
        """Each line of cpgc that is known is matched by just one expression, of its status; and FORMATS has these expressions."""
        patterns = self.of("explain", "--patterns").splitlines()
        documented = re.findall(r"^[1-8]  \^cpgc: .*\$$", (TOP / "docs/FORMATS.md").read_text(), re.M)
        self.assertEqual(documented, patterns)
        lines: set[tuple[str, str | None]] = set(re.findall(r"^! (cpgc: .*)\nstatus ([1-8])$", (TOP / "crates/cpg_cases/stdout").read_text(), re.M))
        self.assertGreater(len(lines), 70)
        for path in EXAMPLES.glob("*.out"):
            lines |= set(re.findall(r"^! (cpgc: .*)\nstatus ([1-8])$", path.read_text(), re.M))
        lines |= {(f"cpgc: {line}", None) for line in [*(line for _, _, line, _ in REFUSED), *LINES_ALONE]}
        met = set()
        for line, status in lines:
            found = [it for it in patterns if re.search(it[3:], line)]
            self.assertEqual(len(found), 1, line)
            self.assertIn(status, (None, found[0][0]), line)
            met.add(found[0])
        self.assertEqual(met, set(patterns))

    def test_doubled(self) -> None:
        """A key that stands there twice is told with both places."""
        more = "process = [{ name = \"A\", node = \"N1\", wcet = 3 }]\n"
        for text, said in [
            (PAIR + more, ["pair.toml:10: process stands there a second time", "pair.toml:5: process stands here already"]),
            (PAIR.replace("faults = 1", "faults = 1\nfaults = 1"), ["pair.toml:2: faults stands there a second time", "pair.toml:1: faults stands here"]),
            (PAIR.replace("wcet = 30", "wcet = 30, wcet = 31"), ["pair.toml:6: wcet stands there a second time", "pair.toml:6: wcet stands here"]),
            (PAIR + '[[process]]\nname = "C"\n', ["pair.toml:10: process stands there a second time", "pair.toml:5: process stands here"]),
            ("a = 1\n[b]\nc = 1\n[b]\nd = 2\n", ["pair.toml:4: b stands there a second time", "pair.toml:2: b stands here"]),
        ]:
            with self.subTest(said[0]), contextlib.chdir(self.folder):
                self.made({"pair.toml": text})
                self.assertEqual(self.cpgc(*SHOW).stderr, b"cpgc: refused 1 not toml\n")
                got = explained("cpgc: refused 1 not toml", Files(SHOW[1:], "show"))[1]
                self.assertEqual([it[:len(begin)] for it, begin in zip(got, said)], said)
                self.assertTrue(got[-1].startswith("to mend it: leave one of the two out"))

    def test_units(self) -> None:
        """Periods and units aren't of a graph file, and a deadline in another unit is suspected."""
        for change, line, advice in [
            (("faults = 1", "period = 9\nfaults = 1"), "refused 2 field top unknown", "periods stand in no graph file: cpgc hyper PERIOD GRAPH .. repeats"),
            (("faults = 1", 'unit = "us"\nfaults = 1'), "refused 2 field top unknown", "no unit is written"),
            (("wcet = 30", "wcet = 30, priority = 1"), "refused 2 field process 0 unknown", "there are no priorities: the key order"),
            (("wcet = 30", "wcet = 1.5"), "refused 2 field process 0 wcet", "give it a whole number from 1 to 1,000,000,000; for fractions take a smaller"),
            (("wcet = 30", 'wcet = "30us"'), "refused 2 field process 0 wcet", "give it a whole number from 1 to 1,000,000,000, without quotes; no unit"),
        ]:
            with self.subTest(advice), contextlib.chdir(self.folder):
                self.made(pair(*change))
                self.assertEqual(self.cpgc(*SHOW).stderr.decode(), f"cpgc: {line}\n")
                self.assertTrue(explained(f"cpgc: {line}", Files(SHOW[1:], "show"))[1][-1].startswith(f"to mend it: {advice}"))
        self.made(pair("deadline = 105", "deadline = 12"))
        with contextlib.chdir(self.folder):
            said = explained("cpgc: late 105 by B in A faults 1", Files(["pair.toml"], "show"))[1]
        self.assertEqual(said[:3], [
            "pair.toml:7: process B ends at 105, 93 after its due of 12, in A faults 1; no order ends it before 105 in all scenarios",
            "pair.toml:2: one process has a wcet above the deadline of 12 (A): is it in the same unit?",
            "pair.toml:4: a round of all slots lasts 20, longer than the deadline of 12: is it in the same unit?"])
        self.made(pair("length = 10", "length = 40"))
        with contextlib.chdir(self.folder):
            said = explained("cpgc: late 155 by B in A faults 1", Files(["pair.toml"], "show"))[1]
        self.assertEqual(said[1], "pair.toml:4: a way with 1 message may wait for a round of 80, half of the deadline or more: are slots in the same unit?")

    def test_true_miss(self) -> None:
        """The line names A, which is 11 late under the urgency order. Under the track order X, released at 30, is 4 late."""
        file = self.file("x.toml", "faults = 0\ndeadline = 100\nnode = [{ name = \"N\" }]\nprocess = [\n{ name = \"A\", node = \"N\", wcet = 12, deadline = 60 },\n"
                         "{ name = \"X\", node = \"N\", wcet = 29, release = 30, deadline = 55 }]\n")
        self.assertEqual(self.run_tool("explain", "--", CPGC, "show", file), (5, "", f"""cpgc: late 71 by A in none
{file}:5: process A ends at 71, 11 after its due of 60, in none
{file}:6: under the track order, which misses by less, X ends at 59, 4 after its due, in none
to mend it: ask `why {file}` what held it up; `slack` says how far a wcet has to shrink
"""))
        # two that are late by as much, in the two outcomes of A: the first one of them is named, and no order misses by less
        tie = self.file("tie.toml", "faults = 0\ndeadline = 9\nnode = [{ name = \"N\" }]\nprocess = [\n{ name = \"A\", node = \"N\", wcet = 5 },\n"
                        "{ name = \"B\", node = \"N\", wcet = 5 },\n{ name = \"C\", node = \"N\", wcet = 5 }]\n"
                        "edge = [{ from = \"A\", to = \"B\", when = true }, { from = \"A\", to = \"C\", when = false }]\n")
        said = self.run_tool("explain", "--", CPGC, "show", tie)[2].splitlines()
        self.assertRegex(said[0], "^cpgc: late 10 by [BC] in ")
        self.assertRegex(said[1], ": process [BC] ends at 10, 1 after its due of 9, in .*; no order ends it before 10 in all scenarios$")
        self.assertEqual([it for it in said if "misses by less" in it], [])
        piped = self.of("explain", file, stdin="cpgc: late 71 by A in none\n", status=5).splitlines()
        self.assertEqual(piped[2], f"to mend it: ask `why {file}` what held it up: another process may be what misses by less; `slack` says how far a wcet has to shrink")

    def test_warnings(self) -> None:
        """Behind a run the warnings of lint stand, five at most, and none where the graph isn't one."""
        many = ", ".join(f'{{ from = "A", to = "B", when = {value} }}' for value in ("true", "false"))
        self.made(pair('{ from = "A", to = "B", bytes = 1 }', many + ', { from = "A", to = "B" }' * 3))
        done = subprocess.run([TOOLS / "explain", "--", CPGC, "compile", "pair.toml"], cwd=self.folder, capture_output=True, check=False)
        lines = done.stderr.decode().splitlines()
        self.assertEqual((done.returncode, done.stdout[:4], len(lines), lines[-1]), (0, b"CPGT", 6, "and 3 more warnings, which `lint pair.toml` has"))
        self.made(pair("wcet = 10", "wcet = 0"))
        self.assertNotIn("warning", self.run_tool("explain", "--", CPGC, "show", self.folder / "pair.toml")[2])

    def test_json(self) -> None:
        """A line as an object in its place, of a run and on standard input; a warning, too."""
        self.made(pair("wcet = 10", "wcet = 0"))
        wanted = {"grade": "error", "status": 4, "number": 5, "kind": "limit", "file": "pair.toml", "line": 7, "column": 30, "name": "B",
                  "text": "process 1 (B) has wcet = 0, which isn't a whole number from 1 to 1,000,000,000", "advice": "give it a whole number from 1 to 1,000,000,000",
                  "more": [], "said": "cpgc: refused 5 limit process 1 wcet"}
        with contextlib.chdir(self.folder):
            status, out, err = self.run_tool("explain", "--json", "--", CPGC, "show", "pair.toml")
            self.assertEqual((status, out, json.loads(err)), (4, "", wanted))
            status, out, err = self.run_tool("explain", "--json", "pair.toml", stdin="a line\ncpgc: refused 5 limit process 1 wcet\n")
            self.assertEqual((status, out.splitlines()[0], json.loads(out.splitlines()[1]), err), (4, "a line", wanted, ""))
            self.made(pair(", bytes = 1", ""))
            done = subprocess.run([TOOLS / "explain", "--json", "--", CPGC, "compile", "pair.toml"], capture_output=True, check=False)
            warned = json.loads(done.stderr)
            text = "the message of edge 0 (A to B) has no bytes, and counts as 1"
            self.assertEqual(warned, {
                "grade": "warning", "status": None, "number": None, "kind": "no-bytes", "file": "pair.toml", "line": 9, "column": 9, "name": None, "text": text,
                "advice": None, "more": [], "said": f"pair.toml:9: warning: {text} [no-bytes]"})
        for words, _, line, _ in REFUSED:
            with contextlib.chdir(self.folder):
                found = json.loads(self.run_tool("explain", "--json", *words[1:], stdin=f"cpgc: {line}")[1]) if words[1:] and not any(it.startswith("--") for it in words) else {}
            if found:
                self.assertEqual((found["number"], found["said"]), (int(line.split()[1]) if line.startswith("refused") else None, f"cpgc: {line}"))

    def test_audit(self) -> None:
        """Of a log that no scenario gives it is said from when on. e0 goes at 40 without a fault in A and at 80 with one; then B starts 10 later."""
        for log, said in [
            ("until 200\n0 N1 start A\n40 N1 send e0\n90 N2 start B\n",
             "x.log: at 50 each scenario that is left has an act, and the log has none; before, it is the log of the scenario none, and perhaps of others"),
            ("until 200\n0 N1 start A\n80 N1 send e0\n91 N2 start B\n",
             "x.log: at 90 each scenario that is left has an act, and the log has none; before, it is the log of the scenario A faults 1, and perhaps of others"),
            ("until 200\n0 N1 start A\n70 N1 send e0\n",
             "x.log:3: at 70 no scenario has just N1 send e0; before, it is the log of the scenario A faults 1, and perhaps of others"),
            ("until 200\n", "x.log: at 0 each scenario that is left has an act, and the log has none"),
            ("until 200\n0 N1 start A\n80 N1 send e0\n90 N2 start B\n", None),
        ]:
            self.made({"x.log": log})
            done = subprocess.run([TOOLS / "explain", "--", CPGC, *AUDIT], cwd=self.folder, capture_output=True, text=True, check=False)
            self.assertEqual((done.returncode, done.stderr), (0, f"{said}\n" if said else ""), done.stdout)

    def test_files_of_hyper(self) -> None:
        """What is wrong in the second part is told of its file, whatever the first one has there."""
        for old, new, line, said in [
            ("faults = 1", "faults = 9", "refused 5 limit top faults", "p1.toml:1: the graph has faults = 9"),
            ('to = "B"', 'to = "b"', "refused 4 unknown edge 0 to", "p1.toml:9: edge 0 (A to b)"),
            ('name = "B"', 'name = "A"', "refused 3 double process 1 name", "p1.toml:7: process 1 is named A"),
            ("wcet = 10", "wcet = 10, weight = 3", "refused 2 field process 1 unknown", "p1.toml:7: process 1 (B): weight is none"),
            ("edge = [", 'edge = [{ from = "B", to = "A" }, ', "refused 6 cycle A B", "p1.toml:6: the edges lead around: A B A"),
            ("faults = 1", "faults =", "refused 1 not toml", "p1.toml:1: Invalid value"),
            ("bytes = 1 }", "bytes = 9 }", "refused 9 big e0", "p1.toml:9: the message of edge 0 (A to B) has 9 bytes"),
        ]:
            with self.subTest(line), contextlib.chdir(self.folder):
                self.made({"p0.toml": PAIR, "p1.toml": PAIR.replace(old, new)})
                words = ["hyper", "200", "p0.toml", "200", "p1.toml"]
                if not line.startswith(("refused 6", "refused 9")):  # hyper leaves these to a compile of what it writes
                    self.assertEqual(self.cpgc(*words).stderr.decode(), f"cpgc: {line}\n")
                got = explained(f"cpgc: {line}", Files(words[1:], "hyper"))[1]
                self.assertTrue(got[0].startswith(said), got)

    def test_files_of_tools(self) -> None:
        """A tool that passes a line on has its own form: the rules are no part, of two graphs the one that cpgc refuses is meant, and --header and --graph have a graph."""
        rules = '[[edge]]\nfrom = "0.A"\nto = "1.b"\ntake = "latest"\n'
        late = (EXAMPLES / "late.toml").read_text()
        cases: list[tuple[str, dict[str, Content], str, str]] = [
            ("hyper-edges rates.toml 200 p0.toml 100 p1.toml", {"p0.toml": PAIR, "p1.toml": PAIR}, "refused 22 hyper over 1",
             "p1.toml:2: deadline is 105, after the period of 100 of part 1"),
            ("hyper-edges rates.toml 200 p0.toml 200 p1.toml", {"p0.toml": PAIR.replace('to = "B"', 'to = "b"'), "p1.toml": PAIR}, "refused 4 unknown edge 0 to",
             "p0.toml:9: edge 0 (A to b): to = \"b\" is the name of no process; is B meant?"),
            ("compare pair.toml late.toml", {}, "late 87 by control in sense faults 1", "late.toml:8: process control ends at 87, 7 after its due of 80, in sense faults 1"),
            ("compare --json later.toml late.toml", {"later.toml": late.replace("deadline = 80", "deadline = 87")}, "late 87 by control in sense faults 1",
             "late.toml:8: process control ends at 87, 7 after its due of 80, in sense faults 1"),
            ("compare pair.toml pair.toml pair.pack cut.pack", {"cut.pack": lambda it: it[:-1]}, "refused 10 pack 146", "cut.pack:"),
            ("c-table pair.pack N1 --header late.toml", {}, "refused 17 other graph nodes", "pair.pack was made for another"),
            ("c-table --header=late.toml pair.pack N1", {}, "refused 17 other graph nodes", "pair.pack was made for another"),
            ("c-table pair.pack N1 --graph late.toml", {}, "refused 17 other graph nodes", "pair.pack was made for another"),
        ]
        for command, files, line, said in cases:
            self.made({"rates.toml": rules, "late.toml": late, **files})
            tool, *words = command.split()
            with self.subTest(command), contextlib.chdir(self.folder):
                done = subprocess.run([TOOLS / "explain", "--", TOOLS / tool, *words], capture_output=True, text=True, check=False)
                lines = done.stderr.splitlines()
                lines = [it for it in lines if not it.startswith("compare: ")]
                self.assertEqual(lines[0], f"cpgc: {line}")
                self.assertTrue(lines[1].startswith(said), lines)
                if "c-table" in command:
                    self.assertEqual(lines[2], "late.toml:5: the nodes are N1, and in the pack N1, N2")
        with contextlib.chdir(self.folder):
            self.assertEqual(explained("cpgc: late 87 by control in sense faults 1", Files(["pair.toml"], "show"))[1],
                             ["process control ends at 87, in sense faults 1; it stands in none of the files", "to mend it: ask `why GRAPH` of the graph that has it"])

    def test_many_alternatives(self) -> None:
        """Of many live edges twelve are shown."""
        sources = ", ".join(f'{{ name = "X{n}", node = "N1", wcet = 1 }}' for n in range(15))
        edges = ", ".join(f'{{ from = "X{n}", to = "J" }}' for n in range(15))
        self.made({"pair.toml": f'faults = 0\ndeadline = 99\nnode = [{{ name = "N1" }}]\nprocess = [{sources}, {{ name = "J", node = "N1", wcet = 1, join = true }}]\n'
                   f'edge = [{edges}]\n'})
        line = self.cpgc("show", "pair.toml").stderr.decode().strip()
        out = self.run_tool("explain", "pair.toml", stdin=line)[1].splitlines()
        self.assertEqual((line, sum(it.endswith(" is live then") for it in out)), ("cpgc: refused 7 alternatives J in none", 12))
        self.assertEqual(out[-2], "and 3 more edges are live then")

    def test_records(self) -> None:
        """Of a record it is said which of its fields is lawless."""
        stream = (EXAMPLES / "pair-N2.stream").read_bytes()
        for at, value, said in [
            (13, 1, "a frame of a message has the value 1"), (13, 2, "its value is 2"), (0, 3, "its kind is 3, and at most 2 may be"),
            (26, 9, "its count is 9, and at most 1 faults may be"), (27, 1, "it has the value 1, and B has no condition"),
            (24, 0, "A doesn't run on N2"), (41, 1, "a close has something else than 0 behind its time"),
        ]:
            with self.subTest(said):
                self.made({"x.stream": stream[:at] + bytes([value]) + stream[at + 1:]})
                line = self.cpgc(*LIVE).stderr.decode().strip()
                with contextlib.chdir(self.folder):
                    self.assertIn(said, explained(line, Files(LIVE[1:], "live"))[1][0])

    def test_part_without_the_entry(self) -> None:
        """A part of `hyper` without the entry isn't blamed."""
        one = SINGLE.replace("A", "P")
        self.made({"p0.toml": one, "p1.toml": PAIR.replace('"B"', '"log file"')})
        with contextlib.chdir(self.folder):
            said = explained("cpgc: refused 2 field process 1 name", Files(["20", "p0.toml", "30", "p1.toml"], "hyper"))[1]
        self.assertTrue(said[0].startswith('p1.toml:7: process 1 has name = "log file"'), said)

    def test_command(self) -> None:
        """A command's outputs and status stay; behind its line comes what it means. Its lines may also come on standard input."""
        self.made({})

        def run(*more: str) -> subprocess.CompletedProcess[str]:
            return subprocess.run([TOOLS / "explain", "--", *more], cwd=self.folder, capture_output=True, text=True, check=False)

        self.assertEqual([(it.returncode, it.stdout, it.stderr) for it in [run(CPGC, *CHECK)]], [(0, "safe\n", "")])
        late = run(CPGC, "show", str(EXAMPLES / "late.toml"))
        self.assertEqual((late.returncode, late.stdout, late.stderr.splitlines()[0]), (5, "", "cpgc: late 87 by control in sense faults 1"))
        self.assertIn("late.toml:", late.stderr.splitlines()[1])
        self.assertEqual((run("./none").returncode, run("./none").stderr), (127, "explain: ./none: No such file or directory\n"))

    def test_lines_from_input(self) -> None:
        self.made(pair("wcet = 10", "wcet = 0"))
        status, out, err = self.run_tool("explain", "pair.toml", stdin=b"some line\ncpgc: refused 5 limit process 1 wcet\n\xff")
        self.assertEqual((status, out.splitlines()[:3], err), (4, ["some line", "cpgc: refused 5 limit process 1 wcet",
                         "pair.toml:7: process 1 (B) has wcet = 0, which isn't a whole number from 1 to 1,000,000,000"], ""))
        self.assertEqual(self.run_tool("explain", "pair.toml", stdin=b"order A\n"), (0, "order A\n", ""))
        pairs = self.run_tool("explain", "20", "control.toml", "200", "pair.toml", stdin=b"cpgc: refused 5 limit process 1 wcet")[1]
        self.assertTrue(pairs.splitlines()[1].startswith("pair.toml:7: "), pairs)
        self.of("explain", "sh", "x", status=1, err="explain: -- is missing before the command: explain -- sh x\n")

    def test_part_of_hyper(self) -> None:
        """A line of a graph file names no file: it is found in the part that shows the fault."""
        self.made(pair("wcet = 10", "wcet = 0"))
        with contextlib.chdir(self.folder):
            said = explained("cpgc: refused 5 limit process 1 wcet", Files(["20", "control.toml", "200", "pair.toml"], "hyper"))[1]
        self.assertTrue(said[0].startswith("pair.toml:7: "), said)
