"""Files that were made to do harm, outputs that fail, and stops: whatever happens, a tool ends with a status and at most one line, within a
time, and leaves nothing behind. Each case is one that once went wrong; the last tests draw damaged files by a fixed seed."""
from __future__ import annotations

import functools
import os
import random
import re
import signal
import subprocess
import sys
import tempfile
import time
import xml.etree.ElementTree as xml
from collections.abc import Callable
from pathlib import Path

from cpgc_tools.__main__ import TOOLS as ALL
from tests.case import BRANCHING, CONTROLLER, CPGC, EXAMPLES, LATE, PAIR, SCENARIO, SINGLE, TOOL_EXAMPLES, TOOLS, Case

SECONDS = 600  # of a tool that is started, on a machine that does much else
QUICK = 60.0  # of a tool in this process
LATE_PLAY = "0 N1 start A\n72 N1 end A faults 1\n80 N1 send e0\n90 N2 start B\n105 N2 end B faults 0\nfinish 105\n"
QUOTES, BRACKETS = "a = " + ('"' + chr(92)) * 20000, "[" * 40000
# texts that are no graph files, and take a reader long or deep
TEXTS = {
    "quotes that aren't closed": QUOTES,
    "long quotes that aren't closed": 'a = """' + '\\"' * 30000,
    "open brackets": BRACKETS,
    "open braces": "{" * 40000,
    "tables in tables": "a = " + "{b=" * 3000,
    "arrays in arrays": "a = " + "[" * 3000 + "]" * 3000,
    "an integer of 5,000 digits": "faults = " + "1" * 5000,
    "a key of 3,000 parts": "a." * 2999 + "a=1",
    "a key of 20,000 parts": "a." * 19999 + "a=1",
    "a header of 3,000 parts": "[" + "a." * 2999 + "a]",
    "a date": "faults = 1979-05-27\ndeadline = 10:00:00\n",
    "infinite numbers": "faults = inf\ndeadline = nan\n",
    "node = 5": "faults = 0\ndeadline = 9\nnode = 5\n",
    "node = [1]": "faults = 0\ndeadline = 9\nnode = [1]\n",
    "node = \"ab\"": 'faults = 0\ndeadline = 9\nnode = "ab"\n',
    "a deadline that is text": PAIR.replace("105", '"x"'),
    "an infinite deadline": PAIR.replace("105", "inf"),
    "a deadline below 0": PAIR.replace("105", "-5"),
    "frozen = inf": PAIR.replace("bytes = 1", "frozen = inf"),
    "no text": "\0\1\2",
    "half a mark": '"\\',
    "an order of numbers": PAIR.replace("faults = 1", "faults = 1\norder = [1, 2]"),
}


Call = tuple[str, list[str]]  # a tool with its words


CALLS: dict[str, list[str]] = {
    "c-table": ["pair.pack", "N1"], "compare": ["pair.toml", "pair.toml"], "cycle": ["pair.toml", "pair.pack"], "draw": ["pair.toml", "pair.pack"], "explain": ["--patterns"],
    "explore": ["--quick", "pair.toml"], "hyper-edges": ["rates.toml", "20", "control.toml", "30", "log.toml"], "jitter": ["joined.toml"],
    "from-tgff": ["--graph", "0", "engine.tgff", "engine-mapping.toml"], "lint": ["pair.toml", "pair.pack"], "pack": ["read", "pair.pack"], "page": ["pair.toml", "pair.pack"],
    "run-nodes": ["pair.toml", "pair.pack", "s.toml"], "slack": ["pair.toml"], "stream": ["pair.pack", "N2"], "timeline": [], "tuned": ["late.toml"],
    "why": ["late.toml"],
}


ASKING = "slack", "why", "tuned", "draw", "cycle", "run-nodes", "c-table", "compare", "hyper-edges", "jitter"  # which run cpgc


def calls(*given: Call) -> list[Call]:
    return list(given)


def calls_of_graphs() -> list[tuple[str, list[str], str]]:
    """Each tool with a file x.toml in each place that takes a graph file or another TOML file, and its standard input."""
    return [
        ("why", ["x.toml"], ""), ("slack", ["x.toml"], ""), ("tuned", ["x.toml"], ""), ("cycle", ["x.toml", "pair.pack"], ""),
        ("hyper-edges", ["x.toml", "20", "control.toml"], ""), ("hyper-edges", ["rates.toml", "20", "x.toml"], ""), ("jitter", ["x.toml"], ""),
        ("compare", ["x.toml", "pair.toml"], ""), ("compare", ["pair.toml", "x.toml"], ""),
        ("lint", ["x.toml"], ""), ("lint", ["pair.toml", "x.toml"], ""),
        ("explore", ["--quick", "x.toml"], ""), ("explore", ["--tries", "9", "--jobs", "1", "pair.toml", "x.toml"], ""),
        ("page", ["x.toml", "pair.pack"], ""), ("page", ["pair.toml", "pair.pack", "--due", "x.toml"], ""), ("draw", ["x.toml", "pair.pack"], ""),
        ("draw", ["pair.toml", "pair.pack", "--worst", "--due", "x.toml"], ""), ("draw", ["pair.toml", "pair.pack", "x.toml"], ""),
        ("run-nodes", ["x.toml", "pair.pack", "s.toml"], ""), ("run-nodes", ["pair.toml", "pair.pack", "x.toml"], ""),
        ("timeline", ["x.toml"], LATE_PLAY), ("from-tgff", ["--graph", "0", "engine.tgff", "x.toml"], ""),
        ("from-tgff", ["x.toml", "engine-mapping.toml"], ""), ("pack", ["read", "x.toml"], ""), ("stream", ["x.toml", "N2"], LATE_PLAY)]


EVIL = 'N";\n#include <stdlib.h>\n__attribute__((constructor)) static void f(void){system("id>pwned.txt");}\nconst char*z="'
NAMES = [EVIL, "N*/ int x; /*", "<b>", "a b", "../../x", "$(id>x)", "", "x" * 33, "x" * 255, "\x1b[2J", "N\n"]


class Hostile(Case):
    def setUp(self) -> None:
        super().setUp()
        for name, text in (("pair.toml", PAIR), ("s.toml", SCENARIO), ("late.toml", LATE), ("play", LATE_PLAY)):
            self.file(name, text)
        self.pack = self.cpgc("compile", "pair.toml").stdout
        self.file("pair.pack", self.pack)
        for name in "control.toml", "log.toml":
            self.file(name, (EXAMPLES / name).read_text())
        self.file("rates.toml", '[[edge]]\nfrom = "0.control"\nto = "1.log"\ntake = "latest"\n')
        self.file("joined.toml", self.cpgc("hyper", "20", "control.toml", "30", "log.toml").stdout)
        for file in TOOL_EXAMPLES.iterdir():
            self.file(file.name, file.read_bytes())

    def fine(self, tool: str, *words: object, stdin: str | bytes = b"", statuses: tuple[int, ...] = ()) -> tuple[int, str, str]:
        """A tool ends with a status and at most one line of its own, within a time."""
        begin = time.monotonic()
        status, out, err = self.run_tool(tool, *words, stdin=stdin)
        took = time.monotonic() - begin
        self.assertLess(took, QUICK, (tool, words))
        self.assertNotIn("Traceback", err)
        self.assertLessEqual(len(err.splitlines()), 1, err)
        if status:
            self.assertRegex(err, f"^({tool}|cpgc): ")
        if statuses:
            self.assertIn(status, statuses, (out, err))
        return status, out, err

    def named(self, name: str, at: str = "node") -> bytes:
        """The pack of the pair with another name in it."""
        old = b"\2N1" if at == "node" else b"\1A"
        content = name.encode("latin-1")
        return self.pack.replace(old, bytes([len(content)]) + content, 1)

    # what a graph file says

    def test_texts(self) -> None:
        """Each tool that reads a graph file or another TOML file ends soon, whatever stands there."""
        for what, text in TEXTS.items():
            self.file("x.toml", text)
            for tool, words, stdin in calls_of_graphs():
                with self.subTest(what, tool=tool, words=words):
                    status, _, _ = self.fine(tool, *words, stdin=stdin)
                    self.assertTrue(status or tool == "timeline")
            with self.subTest(what, tool="explain"):
                self.explained("show", "x.toml")
                self.explained("play", "pair.toml", "pair.pack", "x.toml", "--turns", "0")

    def explained(self, *words: str) -> None:
        """What `explain` says of a command: the line of cpgc stands first, then sentences."""
        line = self.cpgc(*words).stderr.decode().strip()
        if line:
            begin = time.monotonic()
            files = [it for it in words[1:] if it not in ("--turns", "0")]
            status, out, err = self.run_tool("explain", *files, stdin=line)
            self.assertEqual((out.splitlines()[:1], err), ([line], ""))
            self.assertGreater(status, 0)
            self.assertIn("to mend it: ", out)
            self.assertLess(time.monotonic() - begin, QUICK)

    def test_deep_refusal(self) -> None:
        """A refusal whose file Python can't read is told by cpgc's line, with its status and a sentence."""
        for text, said in ("faults = " + "1" * 5000, "x.toml:1: a number has more than 4,300 digits"), ("a." * 2999 + "a=1", "x.toml:1: a key has more"):
            self.file("x.toml", text)
            done = subprocess.run([TOOLS / "explain", "--", CPGC, "show", "x.toml"], cwd=self.folder, capture_output=True, text=True, check=False)
            self.assertEqual((done.returncode, done.stdout), (4, ""))
            self.assertTrue(done.stderr.splitlines()[1].startswith(said) or done.stderr.startswith("cpgc: refused 2"), done.stderr)

    def test_dates(self) -> None:
        """A date is shown as it stands, and quotes aren't blamed."""
        self.file("x.toml", PAIR.replace("alpha = 2", "alpha = 1979-05-27", 1))
        out = self.run_tool("explain", "x.toml", stdin="cpgc: refused 2 field process 0 alpha")[1]
        self.assertIn("has alpha = 1979-05-27, which isn't a whole number", out)
        self.assertNotIn("quotes", out)

    # what a pack says

    def test_names(self) -> None:
        """A name that is none is refused where a pack is read, as cpgc refuses it: no name reaches C, HTML or SVG."""
        for name in NAMES:
            for at in "node", "process":
                with self.subTest(name, at=at):
                    self.file("evil.pack", self.named(name, at))
                    node = name if at == "node" else "N1"
                    for tool, words in calls(
                        ("pack", ["read", "evil.pack"]), ("c-table", ["evil.pack", "--", node]), ("c-table", ["--sizes", "evil.pack", "--", node]),
                        ("stream", ["evil.pack", "--", node]), ("page", ["pair.toml", "evil.pack"]), ("draw", ["pair.toml", "evil.pack"]),
                        ("cycle", ["pair.toml", "evil.pack"]), ("lint", ["pair.toml", "evil.pack"]), ("compare", ["pair.toml", "pair.toml", "evil.pack", "pair.pack"]),
                        ("run-nodes", ["pair.toml", "evil.pack", "s.toml"]),
                    ):
                        status, out, _ = self.fine(tool, *words, stdin=LATE_PLAY)
                        self.assertEqual((status > 0, out), (True, ""), tool)
                    self.assertEqual(self.cpgc("check", "pair.toml", "evil.pack").returncode, 4)

    def test_code_in_a_name(self) -> None:
        """A graph file and a pack with code in a node's name: nothing is built or run."""
        quoted = EVIL.replace("\\", "\\\\").replace('"', '\\"').replace("\n", "\\n")
        self.file("evil.toml", PAIR.replace('"N1"', f'"{quoted}"'))
        self.file("evil.pack", self.named(EVIL))
        status, out, err = self.fine("run-nodes", "evil.toml", "evil.pack", "s.toml")
        self.assertEqual((status, out, err), (4, "", "cpgc: refused 2 field node 0 name\n"))
        self.assertFalse((self.folder / "pwned.txt").exists())

    def test_odd_names(self) -> None:
        """Lawful names that look like words of a command."""
        for name in "-h", "--sizes", "--help", "-", "--", "__proto__", "e0", "...":
            with self.subTest(name):
                self.file("odd.toml", PAIR.replace('"N2"', f'"{name}"'))
                self.file("odd.pack", self.cpgc("compile", "odd.toml").stdout)
                self.assertIn(f"/* The table of node {name}. ", self.of("c-table", "odd.pack", "--", name))
                self.assertTrue(self.of("c-table", "--sizes", "odd.pack", "--", name).startswith("-DCPG_MAX_PROCESSES=2U"))
                play = self.cpgc("play", "odd.toml", "odd.pack", "s.toml", "--turns", "0").stdout
                self.assertEqual(len(self.of("stream", "odd.pack", "--", name, stdin=play)), 42)
                for tool in "draw", "page", "cycle":
                    self.of(tool, "odd.toml", "odd.pack")
        self.assertNotEqual(self.run_tool("c-table", "pair.pack", "-h")[0], 0)

    def test_no_nodes(self) -> None:
        """A graph without nodes goes through all tools."""
        self.file("none.toml", "faults = 0\ndeadline = 0\n")
        self.file("none.pack", self.cpgc("compile", "none.toml").stdout)
        self.file("empty.toml", "")
        for tool, words in calls(("draw", []), ("page", []), ("cycle", []), ("run-nodes", ["empty.toml"])):
            self.of(tool, "none.toml", "none.pack", *words)
        for tool in "why", "slack", "tuned":
            self.run_tool(tool, "none.toml")

    def test_large_numbers_of_a_play(self) -> None:
        """A play that no program writes."""
        for line in [
            "0 N1 end A faults 99999999999", "0 N1 start A\n0 N1 end A faults 99999999999", f"{'9' * 5000} N1 start A", "18446744073709551616 N1 start A",
            "0 N1 start A\n5 N1 end A faults 1 ran 99999999999999999999999", "0 N1 end A", "0 N1", "0 N1 hop A", "\u0661 N1 start A", "0 N1 send e",
        ]:
            for tool, words in calls(("timeline", []), ("timeline", ["--svg"]), ("timeline", ["pair.toml"]), ("stream", ["pair.pack", "N2"])):
                with self.subTest(line[:40], tool=tool):
                    self.fine(tool, *words, stdin=f"{line}\nfinish 9\n", statuses=(0, 1))

    def test_large_pack(self) -> None:
        """100 processes apart, k 2: a pack of 27.5 MB takes some seconds and few hundred megabytes."""
        process = '{{ name = "p{}", node = "N", wcet = {} }}'
        self.file("large.toml", "faults = 2\ndeadline = 1000000\nnode = [{ name = \"N\" }]\nprocess = ["
                  + ", ".join(process.format(n, 10 + n) for n in range(60)) + "]\n")
        self.file("large.pack", self.cpgc("compile", "large.toml").stdout)
        size = (self.folder / "large.pack").stat().st_size
        code = ("import resource, runpy, sys\nfrom cpgc_tools.__main__ import tool\nsys.argv = ['pack', 'read', 'large.pack']\nstatus = tool('pack', 'pack')\n"
                "print(resource.getrusage(resource.RUSAGE_SELF).ru_maxrss, file=sys.stderr)\nsys.exit(status)")
        done = subprocess.run([sys.executable, "-c", code], cwd=self.folder, env={**os.environ, "PYTHONPATH": str(TOOLS)}, stdout=subprocess.DEVNULL,
                              stderr=subprocess.PIPE, check=False)
        self.assertEqual(done.returncode, 0, done.stderr)
        self.assertLess(int(done.stderr) * 1024, 30 * size + 100 * 2**20)

    # mappings and task graphs

    def test_mappings(self) -> None:
        """Mistakes in a mapping are a line, and what isn't a graph file isn't written."""
        mapping, tgff = (TOOL_EXAMPLES / "engine-mapping.toml").read_text(), (TOOL_EXAMPLES / "engine.tgff").read_text()
        for change in [
            "scale = inf", "scale = nan", "scale = true", "scale = -1", "scale = 0", "scale = 1979-05-27", 'scale = "x"', "deadline = [1]",
            'deadline = "9\\nfaults=7"', "deadline = true", "deadline = -1", "deadline = 1e400", "bytes = 1979-05-27", "scale = 1e300",
        ]:
            with self.subTest(change):
                key = change.split(" ")[0]
                self.file("m.toml", change + "\n" + re.sub(f"^{key} = .*\n", "", mapping, flags=re.M))
                self.fine("from-tgff", "--graph", "0", "engine.tgff", "m.toml", statuses=(1,))
        for old, new in [
            ("faults = 1", "faults = true"), ("faults = 1", "faults = 9"), ("alpha = 1", "alpha = 1979-05-27"), ("alpha = 1", 'alpha = "x"'),
            ("alpha = 1", "alpha = [1]"), ('"t0_*" = "N2"', '"t0_*" = ["x"]'), ('"t0_*" = "N2"', '"t0_*" = 3'), ("length = 10", "length = 10:00:00"),
            ("length = 10", "length = inf"), ("length = 10", "length = 0"),
        ]:
            with self.subTest(new):
                self.assertIn(old, mapping)
                self.file("m.toml", mapping.replace(old, new, 1))
                self.fine("from-tgff", "--graph", "0", "engine.tgff", "m.toml", statuses=(1,))
        self.file("m.toml", re.sub("(?s)slot = .*?\n]\n|slot = .*\n", "slot = [1]\n", mapping, count=1))
        self.fine("from-tgff", "--graph", "0", "engine.tgff", "m.toml", statuses=(1,))
        for number in "1e30000000", "1e-30000000", "1" * 5000, "1" * 100000 + "x", ".", "1e", "inf", "nan", "\u0661":
            with self.subTest(number[:20]):
                self.file("x.tgff", re.sub(r"(?m)^(\s*PERIOD) .*", rf"\1 {number}", tgff, count=1))
                self.fine("from-tgff", "--graph", "0", "x.tgff", "engine-mapping.toml", statuses=(1,))

    # files that are no files

    def test_endless_files(self) -> None:
        """What is read has an end."""
        for tool, words in calls(
            ("cycle", ["/dev/zero", "pair.pack"]), ("slack", ["/dev/zero"]), ("why", ["/dev/zero"]), ("tuned", ["/dev/zero"]),
            ("from-tgff", ["/dev/zero", "engine-mapping.toml"]), ("from-tgff", ["engine.tgff", "/dev/zero"]), ("timeline", ["/dev/zero"]),
            ("page", ["/dev/zero", "pair.pack"]), ("draw", ["/dev/zero", "pair.pack"]), ("run-nodes", ["/dev/zero", "pair.pack", "s.toml"]),
        ):
            with self.subTest(tool):
                status, _, err = self.fine(tool, *words, stdin=LATE_PLAY)
                self.assertEqual((status, err), (1, f"{tool}: /dev/zero: more than 16,777,216 bytes\n"))

    def test_strange_files(self) -> None:
        """Folders, files that aren't there, and names that no file has."""
        for path in ".", "none", "a\0b", "x" * 5000, "/proc/self/mem", "\udcff":
            for tool, words in calls(
                ("cycle", [path, "pair.pack"]), ("cycle", ["pair.toml", path]), ("why", [path]), ("pack", ["read", path]), ("pack", ["write", path]),
                ("timeline", [path]), ("c-table", [path, "N1"]), ("page", [path, path]), ("draw", ["pair.toml", "pair.pack", path]), ("stream", [path, "x"]),
            ):
                with self.subTest(path[:10], tool=tool):
                    self.assertEqual(self.fine(tool, *words, stdin=LATE_PLAY)[0], 1)

    def test_file_names(self) -> None:
        """A file's name comes into pictures and pages as text."""
        for name in '"><script>alert(1)<', "a\x01b\x1b", "<&>'", "{{DATA}}":
            with self.subTest(name):
                self.file(f"{name}.toml", PAIR)
                for _, words in calls(("", []), ("", ["--worst"]), ("", ["--worst", "--due", f"{name}.toml"])):
                    xml.fromstring(self.of("draw", f"{name}.toml", "pair.pack", *words))
                page = self.of("page", f"{name}.toml", "pair.pack")
                self.assertNotIn("<script>alert", page)
                self.assertEqual(page.count("<script"), 3)

    def test_encodings(self) -> None:
        """What is written is UTF-8, whatever the locale."""
        text = PAIR.replace("faults = 1", "faults = 1 # caf\u00e9")
        self.file("cafe.toml", text)
        for encoding in "latin-1", "ascii":
            done = self.start("tuned", "cafe.toml", PYTHONIOENCODING=encoding)
            self.assertEqual((done.returncode, done.stdout.decode()), (0, text.replace("wcet = 30", "wcet = 30, parts = 2")))

    def test_line_ends(self) -> None:
        """Lines that end in CR LF stay so."""
        for text in PAIR, "\n".join(["[[process]]", 'name = "A"', 'node = "N1"', "wcet = 30", "mu = 5", "[[node]]", 'name = "N1"', ""]):
            text = (text if "faults" in text else "faults = 1\ndeadline = 500\n" + text).replace("\n", "\r\n")
            self.file("crlf.toml", text.encode())
            out = self.start("tuned", "crlf.toml").stdout
            self.assertEqual((out.count(b"\r\n"), b"parts = " in out), (out.count(b"\n"), True))

    # outputs that fail, and stops

    def start(self, tool: str, *words: object, stdout: int | None = subprocess.PIPE, **env: str) -> subprocess.CompletedProcess[bytes]:
        with open(self.folder / "play", "rb") as play:
            return subprocess.run([TOOLS / tool, *map(str, words)], cwd=self.folder, env={**os.environ, **env}, stdin=play, stdout=stdout,
                                  stderr=subprocess.PIPE, timeout=SECONDS, check=False)

    def test_full_disk(self) -> None:
        """A line on standard output, and the status of a failed output."""
        self.assertEqual(set(CALLS), set(ALL))
        for tool, words in CALLS.items():
            with self.subTest(tool), open("/dev/full", "wb") as full:
                done = self.start(tool, *words, stdout=full.fileno())
                self.assertEqual((done.returncode, done.stderr.decode().splitlines()[-1:]), (3, [f"{tool}: standard output: No space left on device"]))
                self.assertNotIn(b"Traceback", done.stderr)

    def test_closed_output(self) -> None:
        """A pipe that nobody reads ends a tool in silence, a standard output that is closed by a line."""
        for tool, words in CALLS.items():
            with self.subTest(tool):
                reading, writing = os.pipe()
                os.close(reading)
                done = self.start(tool, *words, stdout=writing)
                os.close(writing)
                self.assertEqual((done.returncode, [it for it in done.stderr.splitlines() if b"no better" not in it]), (3, []))
                closed = subprocess.run(["sh", "-c", '"$@" >&-', "sh", TOOLS / tool, *words], cwd=self.folder, input=LATE_PLAY.encode(), capture_output=True,
                                        timeout=SECONDS, check=False)
                self.assertEqual((closed.returncode, closed.stderr.decode().splitlines()[-1:]), (3, [f"{tool}: standard output: it is closed"]))

    def test_closed_input_and_error(self) -> None:
        for tool in "timeline", "stream", "pack":
            words = dict(calls(("timeline", []), ("stream", ["pair.pack", "N2"]), ("pack", ["read"])))[tool]
            for closed, lines in ("<&-", 1), ("2>&-", 0), ("<&- 2>&-", 0):
                with self.subTest(tool, closed=closed):
                    done = subprocess.run(["sh", "-c", f'"$@" {closed}', "sh", TOOLS / tool, *words], cwd=self.folder, input=b"x", capture_output=True,
                                          timeout=SECONDS, check=False)
                    self.assertEqual((done.returncode, len(done.stderr.splitlines())), (1, lines), done.stderr)

    def test_stops(self) -> None:
        """^C and SIGTERM end a tool without a line, and its folder goes."""
        slow = self.file("slow", '#!/bin/sh\n: > "$STARTED/$$"\nsleep 1000\n')
        os.chmod(slow, 0o755)
        chosen = {tool: words for tool, words in CALLS.items() if tool in ASKING}
        for stop, status in (signal.SIGINT, 130), (signal.SIGTERM, 143), (signal.SIGHUP, 129):
            with tempfile.TemporaryDirectory() as room, tempfile.TemporaryDirectory() as started:
                running = [subprocess.Popen([TOOLS / tool, "--program", slow, *words], cwd=self.folder, env={**os.environ, "TMPDIR": room, "STARTED": started},
                                            stdin=subprocess.DEVNULL, stdout=subprocess.PIPE, stderr=subprocess.PIPE) for tool, words in chosen.items()]
                self.wait_for(functools.partial(has_folders, room, len(chosen)))
                self.wait_for(functools.partial(has_folders, started, len(chosen)))
                time.sleep(0.5)  # each tool has taken note of the program that it has started
                for it in running:
                    it.send_signal(stop)
                ended = [(it.communicate(timeout=SECONDS), it.returncode) for it in running]
                self.assertEqual(ended, [((b"", b""), status)] * len(chosen))
                self.assertEqual(list(Path(room).iterdir()), [])

    def test_stop_of_threads(self) -> None:
        """`slack` in the middle of many tries ends at once."""
        with tempfile.TemporaryDirectory() as room:
            self.file("slow.toml", CONTROLLER)
            it = subprocess.Popen([TOOLS / "slack", "slow.toml"], cwd=self.folder, env={**os.environ, "TMPDIR": room}, stdout=subprocess.PIPE, stderr=subprocess.PIPE)
            self.wait_for(lambda: len(list(Path(room).glob("*/tried*"))) > 1)
            it.send_signal(signal.SIGTERM)
            self.assertEqual((it.communicate(timeout=SECONDS), it.returncode), ((b"", b""), 143))
            self.assertEqual(list(Path(room).iterdir()), [])

    def test_stop_of_explain(self) -> None:
        """A tool behind `explain --` takes its folder away, too."""
        slow = self.file("slow", "#!/bin/sh\nsleep 1000\n")
        os.chmod(slow, 0o755)
        with tempfile.TemporaryDirectory() as room:
            it = subprocess.Popen([TOOLS / "explain", "--", TOOLS / "why", "--program", slow, "late.toml"], cwd=self.folder, env={**os.environ, "TMPDIR": room},
                                  stdout=subprocess.PIPE, stderr=subprocess.PIPE)
            self.wait_for(functools.partial(has_folders, room, 1))
            it.send_signal(signal.SIGTERM)
            self.assertEqual((it.communicate(timeout=SECONDS), it.returncode), ((b"", b""), 143))
            self.assertEqual(list(Path(room).iterdir()), [])

    def wait_for(self, holds: Callable[[], bool]) -> None:
        end = time.monotonic() + SECONDS
        while not holds():
            self.assertLess(time.monotonic(), end)
            time.sleep(0.02)

    def test_program_that_is_killed(self) -> None:
        """A cpgc that a signal ends is told by a line."""
        killed = self.file("killed", "#!/bin/sh\nkill -9 $$\n")
        os.chmod(killed, 0o755)
        for tool in ASKING:
            with self.subTest(tool):
                status, out, err = self.run_tool(tool, "--program", killed, *CALLS[tool])
                self.assertEqual((status, out, err), (137, "", "killed: ended by signal 9\n"))

    def test_no_program(self) -> None:
        """A cpgc that isn't there or can't be run, by any way of naming it."""
        self.file("plain", "x")
        for tool in ASKING:
            for name in "none", "./plain", ".":
                status, out, err = self.run_tool(tool, "--program", name, *CALLS[tool])
                self.assertEqual((status, out, err.count("\n")), (127, "", 1), err)
        none = self.file("broken", "\x7fELF")
        os.chmod(none, 0o755)
        self.assertEqual(self.run_tool("cycle", "--program", none, "pair.toml", "pair.pack")[0], 127)

    def test_full_temporary_folder(self) -> None:
        """Where no file can be made a line says so."""
        done = self.start("cycle", "pair.toml", "pair.pack", TMPDIR="/proc/self/none", TEMP="/none", TMP="/none")
        self.assertEqual(done.stderr.count(b"\n"), done.returncode > 0)
        status, _, err = self.run_tool("why", "--keep", "/proc/none/x", "late.toml")
        self.assertEqual((status, err), (3, "why: /proc/none/x: No such file or directory\n"))

    # damaged files, by a fixed seed

    def test_damaged_packs(self) -> None:
        self.file("branching.toml", BRANCHING)
        branching = self.cpgc("compile", "branching.toml").stdout
        self.file("none.toml", "")
        draws = random.Random(1)
        for count in range(150):
            name, content = (("pair", self.pack), ("branching", branching))[count % 2]
            self.file("x.pack", damaged(draws, content))
            for tool, words in calls(
                ("pack", ["read", "x.pack"]), ("page", [f"{name}.toml", "x.pack"]), ("stream", ["x.pack", "N2"]),
                ("lint", [f"{name}.toml", "x.pack"]),
                *([("draw", [f"{name}.toml", "x.pack"]), ("c-table", ["x.pack", "N2"]), ("compare", [f"{name}.toml", f"{name}.toml", "x.pack", "x.pack"])]
                  if count % 5 == 0 else []),
            ):
                with self.subTest(count, tool=tool):
                    self.fine(tool, *words, stdin=LATE_PLAY)
            with self.subTest(count, tool="explain"):
                self.explained("check", f"{name}.toml", "x.pack")

    def test_damaged_graphs(self) -> None:
        draws = random.Random(2)
        texts = [PAIR, BRANCHING, (EXAMPLES / "pair-frozen.toml").read_text(), LATE, SINGLE]
        for count in range(120):
            self.file("x.toml", damaged_text(draws, texts[count % len(texts)]))
            for tool, words in calls(
                ("page", ["x.toml", "pair.pack"]), ("timeline", ["x.toml"]), ("lint", ["x.toml"]),
                *([("compare", ["x.toml", "pair.toml"]), ("hyper-edges", ["rates.toml", "200", "x.toml"]), ("jitter", ["x.toml"])] if count % 4 == 2 else []),
                *([(("why", "slack", "tuned")[count // 4 % 3], ["x.toml"]), ("cycle", ["x.toml", "pair.pack"])] if count % 4 == 0 else []),
            ):
                with self.subTest(count, tool=tool):
                    status, _, err = self.run_tool(tool, *words, stdin=LATE_PLAY)
                    self.assertNotIn("Traceback", err)
                    self.assertTrue(status == 0 or err.count("\n") >= 1)
            with self.subTest(count, tool="explain"):
                self.explained("show", "x.toml")

    def test_damaged_rules(self) -> None:
        draws, parts = random.Random(6), ["20", "control.toml", "30", "log.toml"]
        rules = 'parts = ["fast", "slow"]\n[[edge]]\nfrom = "fast.control"\nto = "slow.log"\ntake = "latest"\nonce = true\nbytes = 3\n'
        for count in range(150):
            self.file("x.toml", damaged_text(draws, rules))
            with self.subTest(count):
                status, out, _ = self.fine("hyper-edges", "x.toml", *parts)
                if status == 0 and count % 8 == 0:
                    self.assertNotIn(b"refused 1 ", self.cpgc("show", self.file("made.toml", out)).stderr)

    def test_damaged_tables_in_json(self) -> None:
        text, draws = self.of("pack", "read", "pair.pack"), random.Random(3)
        for count in range(300):
            with self.subTest(count):
                self.fine("pack", "write", stdin=damaged_text(draws, text))
        strange: list[str | bytes] = [
            "[]", "1", "null", "NaN", "[" * 100000, '{"a":' * 100000, '"x"', "{}", '{"version": 1, "faults": 1, "nodes": 3}',
            "1" * 5000, "\ud800".encode(errors="surrogatepass")]
        for said in strange:
            self.fine("pack", "write", stdin=said, statuses=(1,))

    def test_damaged_task_graphs(self) -> None:
        draws = random.Random(4)
        tgff, mapping = (TOOL_EXAMPLES / "engine.tgff").read_text(), (TOOL_EXAMPLES / "engine-mapping.toml").read_text()
        for count in range(200):
            self.file("x.tgff", damaged_text(draws, tgff) if count % 2 else tgff)
            self.file("x.toml", mapping if count % 2 else damaged_text(draws, mapping))
            with self.subTest(count):
                status, out, _ = self.fine("from-tgff", "--graph", "0", "x.tgff", "x.toml")
                if status == 0 and count % 8 == 0:
                    self.assertNotIn(b"refused 1 ", self.cpgc("show", self.file("made.toml", out)).stderr)

    def test_damaged_plays_and_scenarios(self) -> None:
        draws = random.Random(5)
        self.file("x.log", "until 200\n0 N1 start A\n80 N1 send e0\n90 N2 start B\n")
        stream = (EXAMPLES / "pair-N2.stream").read_bytes()
        for count in range(100):
            play = damaged_text(draws, LATE_PLAY)
            for tool, words in calls(("timeline", []), ("timeline", ["--svg", "pair.toml"]), ("stream", ["pair.pack", "N2"])):
                with self.subTest(count, tool=tool):
                    self.fine(tool, *words, stdin=play, statuses=(0, 1))
            self.file("x.toml", damaged_text(draws, SCENARIO))
            self.file("x.stream", damaged(draws, stream))
            self.file("x.log", damaged_text(draws, "until 200\n0 N1 start A\n80 N1 send e0\n90 N2 start B\n"))
            with self.subTest(count, tool="explain"):
                self.explained("play", "pair.toml", "pair.pack", "x.toml", "--turns", "0")
                self.explained("live", "pair.pack", "N2", "x.stream")
                self.explained("audit", "pair.toml", "pair.pack", "x.log")

    def test_any_line(self) -> None:
        """Lines that cpgc might write, about files that aren't those."""
        draws, patterns = random.Random(6), [line[3:] for line in self.of("explain", "--patterns").splitlines()]
        for _ in range(200):
            line = drawn_line(draws, draws.choice(patterns))
            words = draws.sample(["pair.toml", "pair.pack", "s.toml", "play", "none", "20", "engine.tgff"], draws.randint(0, 4))
            with self.subTest(line, words=words):
                status, out, err = self.run_tool("explain", *words, stdin=line)
                self.assertEqual((out.splitlines()[0], err), (line, ""))


def has_folders(room: str, count: int) -> bool:
    return len(list(Path(room).iterdir())) >= count


def damaged(draws: random.Random, content: bytes) -> bytes:
    """Bytes that are changed, cut, doubled or moved in some places."""
    it = bytearray(content)
    for _ in range(draws.randint(1, 3)):
        at = draws.randrange(len(it) + 1)
        kind = draws.randrange(5)
        if kind == 0 and at < len(it):
            it[at] = draws.choice([0, 1, 2, 8, 9, 32, 127, 128, 254, 255])
        elif kind == 1:
            del it[at:at + draws.randint(1, 8)]
        elif kind == 2:
            it[at:at] = it[at:at + draws.randint(1, 20)]
        elif kind == 3:
            del it[at:]
        else:
            it[at:at] = bytes(draws.randrange(256) for _ in range(draws.randint(1, 9)))
    return bytes(it)


VALUES = ['"x"', "-1", "0", "1e9", "inf", "nan", "true", "[]", "{}", "[[1]]", "9" * 30, "1979-05-27", '"\\u0000"', "'''", "{a = {b = 1}}", "null", "\x1b[2J", "\u202e", "\0"]


def damaged_text(draws: random.Random, text: str) -> bytes:
    """A text in which words are changed for others; some are damaged as bytes."""
    words = re.split(r"(\s+|[\[\]{}=,:])", text)
    for _ in range(draws.randint(1, 4)):
        at = draws.randrange(len(words))
        words[at] = draws.choice([draws.choice(VALUES), draws.choice(words), "", words[at] * 2])
    content = "".join(words).encode()
    return damaged(draws, content) if draws.random() < 0.3 else content


def drawn_line(draws: random.Random, pattern: str) -> str:
    """A line that an expression matches, with odd numbers and names."""
    names = ["A", "B", "e0", "e99999999999", "N1", "x" * 40, "\u00e9", "none", "0.0.A"]
    line = pattern.removeprefix("^").removesuffix("$")
    while found := re.search(r"\(([a-z]+(?:\|[a-z]+)+)\)", line):
        line = line[:found.start()] + draws.choice(found[1].split("|")) + line[found.end():]
    line = line.replace("(top|(node|slot|process|edge) [0-9]+)", draws.choice(["top", "node 0", "slot 7", "process 300", "edge 12345678901234567890"]))
    line = re.sub(r"\(\[0-9\]\+\|-\)|\[0-9\]\+|\(\[0-9\]\+\)", lambda _: str(draws.choice([0, 1, 3, 17, 200, 10**9, 10**25])), line)
    line = re.sub(r"\(( ?)\[\^ \]\+\)\+?|\(\.\+\)", lambda it: (it[1] or "") + draws.choice(names), line)
    return line.replace("(", "").replace(")", "").replace("[a-z]+", draws.choice(["wcet", "faults", "unknown", "zzz"]))
