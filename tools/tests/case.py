"""What the tests share: a tool is run in this process, in a folder of the test's own."""
from __future__ import annotations

import contextlib
import io
import os
import signal
import subprocess
import sys
import tempfile
import unittest
from pathlib import Path
from unittest import mock

from cpgc_tools.__main__ import tool

TOP = Path(__file__).resolve().parents[2]
TOOLS, EXAMPLES, TOOL_EXAMPLES = TOP / "tools", TOP / "examples", TOP / "docs" / "examples"
CPGC = os.environ.setdefault("CPGC", str(TOP / "crates/cpgc/out/cpgc"))
PAIR, SINGLE, LATE, BRANCHING, CONTROLLER, BRAKE = (
    (EXAMPLES / f"{name}.toml").read_text() for name in ("pair", "single", "late", "branching", "controller", "brake"))
SCENARIO = (EXAMPLES / "pair-scenario.toml").read_text()

# A shell has what it runs in the background ignore these, and what is started from there inherits that: a tool would never stop.
for stop in signal.SIGINT, signal.SIGTERM, signal.SIGHUP:
    if signal.getsignal(stop) is signal.SIG_IGN:
        signal.signal(stop, signal.SIG_DFL)


class Case(unittest.TestCase):
    def setUp(self) -> None:
        place = tempfile.TemporaryDirectory()
        self.addCleanup(place.cleanup)
        self.folder = Path(place.name)

    def file(self, name: str, content: str | bytes) -> str:
        """A file of the test's folder."""
        path = self.folder / name
        path.write_bytes(content if isinstance(content, bytes) else content.encode())
        return str(path)

    def run_tool(self, name: str, *words: object, stdin: str | bytes = b"") -> tuple[int, str, str]:
        """Status, standard output and the error stream of a tool, which runs in this process: to start one takes the most of the time."""
        out, err = (io.TextIOWrapper(io.BytesIO(), "utf-8", write_through=True) for _ in range(2))
        given = io.TextIOWrapper(io.BytesIO(stdin if isinstance(stdin, bytes) else stdin.encode()), "utf-8")
        with mock.patch.multiple(sys, argv=[name, *map(str, words)], stdin=given), contextlib.chdir(self.folder):
            with contextlib.redirect_stdout(out), contextlib.redirect_stderr(err):
                status = tool(name, name)
        written = [it.buffer.getvalue() for it in (out, err) if isinstance(it.buffer, io.BytesIO)]
        texts = [it.decode("latin-1" if b"CPGT" in it else "utf-8", "replace") for it in written]
        return status, texts[0], texts[1]

    def of(self, name: str, *words: object, status: int = 0, err: str = "", stdin: str | bytes = b"") -> str:
        """Standard output of a tool that ends so."""
        got, out, said = self.run_tool(name, *words, stdin=stdin)
        self.assertEqual((got, said), (status, err), out)
        return out

    def lines(self, name: str, graph: str, *words: object) -> list[str]:
        """The lines that a tool writes of a graph."""
        return self.of(name, *words, self.file("graph.toml", graph)).splitlines()

    def cpgc(self, *words: str) -> subprocess.CompletedProcess[bytes]:
        return subprocess.run([CPGC, *words], cwd=self.folder, capture_output=True, check=False)

    def packed(self, graph: str, name: str = "graph") -> str:
        """The path of the pack of a graph."""
        return self.file(f"{name}.pack", self.cpgc("compile", self.file(f"{name}.toml", graph)).stdout)
