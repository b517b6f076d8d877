"""What all tools have: help with an example, one line for a mistake, one way to find the program."""
import io
import subprocess
import sys
from unittest import mock

from cpgc_tools import __version__, cli
from cpgc_tools.__main__ import TOOLS as ALL
from dev import zipped
from tests.case import CPGC, PAIR, SINGLE, TOOLS, TOP, Case


class Every(Case):
    def test_help_and_errors(self) -> None:
        """Help is on standard output; each mistake is one line and a status."""
        for tool in ALL:
            with self.subTest(tool):
                status, out, err = self.run_tool(tool, "--help")
                self.assertEqual((status, out.startswith(f"usage: {tool}"), err), (0, True, ""))
                self.assertIn("\nFor example, ", out)
                self.assertEqual(self.run_tool(tool, "--version"), (0, f"{tool} {__version__}\n", ""))
                mistakes: list[list[str]] = [["--no"], ["--no", "x", "x", "x"], *([] if tool == "explain" else [["x", "x", "x", "x"]])]
                for words in mistakes:
                    status, out, err = self.run_tool(tool, *words)
                    self.assertEqual((status > 0, out, err.count("\n")), (True, "", 1), words)
                    self.assertTrue(err.startswith(f"{tool}: "), err)

    def test_version(self) -> None:
        """Where the repository says its version, it is that of the tools."""
        if (TOP / "VERSION").exists():
            self.assertEqual((TOP / "VERSION").read_text().strip(), __version__)

    def test_names(self) -> None:
        """A tool is a file of two lines, a module, and a word or a name of the one file that has all."""
        made = self.folder / "cpgc-cycle"
        made.write_bytes(zipped.archive())
        made.chmod(0o755)
        self.assertEqual(zipped.archive(), made.read_bytes())
        calls: list[tuple[list[str], str]] = [([str(TOOLS / "cycle")], "cycle"), ([sys.executable, "-m", "cpgc_tools", "cycle"], "cycle"), ([str(made)], "cpgc-cycle")]
        for call, name in calls:
            done = subprocess.run([*call, "--help"], capture_output=True, text=True, cwd=TOOLS, check=False)
            self.assertEqual((done.returncode, done.stdout.split()[:2], done.stderr), (0, ["usage:", name], ""))
        for tool in ALL:
            self.assertEqual((TOOLS / tool).read_text(), "#!/usr/bin/env python3\nimport cpgc_tools.shim\n")
        done = subprocess.run([sys.executable, made.rename(self.folder / "all"), "none"], capture_output=True, text=True, check=False)
        self.assertEqual((done.returncode, done.stderr), (1, f"cpgc_tools: none is no tool; they are {', '.join(ALL)}\n"))

    def test_program(self) -> None:
        """Another program is named by --program; where there is none, a line says so. A refusal is cpgc's own line and status."""
        file, cycle = self.file("single.toml", SINGLE), self.file("around.toml", PAIR.replace("edge = [", 'edge = [{ from = "B", to = "A" }, '))
        for tool in "why", "slack", "tuned":
            with self.subTest(tool):
                said = f"{tool}: no program ./none: name it by --program or CPGC, or put cpgc on the path\n"
                self.of(tool, "--program", "./none", file, status=127, err=said)
                self.run_tool(tool, "--program", CPGC, file)
                self.of(tool, cycle, status=4, err="cpgc: refused 6 cycle A B\n")

    def test_progress(self) -> None:
        """What takes long says on a terminal how far it has come; what is written next takes its place. Elsewhere it says nothing."""

        class Terminal(io.StringIO):
            def isatty(self) -> bool:
                return True

        for stream, wanted in (Terminal(), "\rslack: 1 of 2\rslack: 2 of 2\r             \r"), (io.StringIO(), ""):
            def main() -> None:
                cli.progress("0 of 2")
                with mock.patch.multiple(cli, SILENT=0.0, APART=0.0):
                    cli.progress("1 of 2")
                    cli.progress("2 of 2")
                cli.write("")

            with mock.patch.object(sys, "stderr", stream):
                self.assertEqual(cli.run("slack", main), 0)
            self.assertEqual(stream.getvalue(), wanted)
