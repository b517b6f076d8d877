"""Tests of tools/unproved and of the programs of tools/dev, over small trees of their own: none builds or proves anything.

    python3 tools/tests/test_dev.py
"""
import hashlib
import os
import shutil
import subprocess
import sys
import tempfile
import unittest
from pathlib import Path

sys.dont_write_bytecode = True
TOP = Path(__file__).resolve().parent.parent.parent


class Tree(unittest.TestCase):
    """A copy of what a tool reads, which a test may spoil."""

    copied: tuple[str, ...] = ()

    def setUp(self) -> None:
        room = tempfile.TemporaryDirectory()
        self.addCleanup(room.cleanup)
        self.top = Path(room.name) / "tree"
        for name in self.copied:
            place = self.top / name
            place.parent.mkdir(parents=True, exist_ok=True)
            if (TOP / name).is_dir():
                shutil.copytree(TOP / name, place, ignore=shutil.ignore_patterns("out", "__pycache__"))
            else:
                shutil.copy(TOP / name, place)

    def run_tool(self, *words: object, **env: str) -> tuple[int, str, str]:
        done = subprocess.run([str(it) for it in words], cwd=self.top, env={**os.environ, **env}, capture_output=True, text=True)
        return done.returncode, done.stdout, done.stderr

    def script(self, name: str, text: str) -> Path:
        place = self.top / name
        place.parent.mkdir(parents=True, exist_ok=True)
        place.write_text(f"#!/bin/sh\n{text}\n")
        place.chmod(0o755)
        return place


class Unproved(Tree):
    copied = ("tools/unproved",)
    said = "unproved: nothing is proved of the program that this builds\n"

    def test_another_kit(self) -> None:
        rt = self.script("kit/rt", "echo rattle-kit-99a logic 0123456789abcdef")
        status, out, err = self.run_tool("tools/unproved", "program", PATH=f"{rt.parent}:{os.environ['PATH']}")
        self.assertEqual((status, out), (1, self.said))
        self.assertEqual(err, "unproved: this kit is another one: rattle-kit-99a logic 0123456789abcdef; wanted is one with logic dac8208d650f15bf\n")

    def test_no_kit(self) -> None:
        python = self.top / "python"
        python.mkdir()
        (python / "python3").symlink_to(sys.executable)
        status, out, err = self.run_tool("tools/unproved", "program", PATH=f"{python}:/usr/bin:/bin")
        if shutil.which("rt", path="/usr/bin:/bin") is None:
            self.assertEqual((status, out, err), (1, self.said, "unproved: Rattle's kit isn't on the path: there is no rt\n"))

    def test_a_kit_that_makes_nothing(self) -> None:
        """`rt try` that ends without a program: its last lines are shown, and nothing is left."""
        rt = self.script("kit/bin/rt", 'if [ "$1" = version ]; then echo rattle-kit-13b logic dac8208d650f15bf; else echo no such crate >&2; exit 2; fi')
        self.script("kit/bin/rtlib.py", "")
        self.script("kit/toolchain/bin/clang", "exit 1")
        (self.top / "crates/cpgc").mkdir(parents=True)
        status, out, err = self.run_tool("tools/unproved", "program", PATH=f"{rt.parent}:{os.environ['PATH']}")
        self.assertEqual((status, out), (1, self.said))
        self.assertEqual(err, "unproved: the kit made no program of this text\n  no such crate\n")
        self.assertFalse((self.top / "program").exists())

    def test_words(self) -> None:
        self.assertEqual(self.run_tool("tools/unproved")[0], 1)
        self.assertEqual(self.run_tool("tools/unproved", "--help")[0], 0)


class Names(Tree):
    """Crates of a line or two each."""

    copied = ("tools/dev/names",)

    def said(self, files: dict[str, str]) -> tuple[int, list[str]]:
        for name, text in files.items():
            place = self.top / "crates" / name
            place.parent.mkdir(parents=True, exist_ok=True)
            place.write_text(text)
        status, out, _ = self.run_tool("tools/dev/names")
        return status, out.splitlines()

    def test_one_meaning_each(self) -> None:
        files = {"one/src/lib.rt": "pub struct Row {\n}\npub fn read() {}\n", "two/src/lib.rt": "enum Rows {\n}\npub fn read() {}\n", "two/proofs/Laws.antt": "x" * 200 + "\n"}
        self.assertEqual(self.said(files), (0, ["2 types, 1 functions, 0 long lines of proofs: 0 wrong"]))

    def test_a_type_twice(self) -> None:
        files = {"one/src/lib.rt": "pub struct Row {\n}\n", "two/src/row.rt": "pub(crate) enum Row {\n}\n"}
        self.assertEqual(self.said(files), (1, ["a type twice: Row: one/src/lib.rt, two/src/row.rt", "1 types, 0 functions, 0 long lines of proofs: 1 wrong"]))

    def test_a_function_three_times(self) -> None:
        """Methods and functions of one file alone don't count."""
        files = {f"{name}/src/lib.rt": "pub fn read() {}\nfn own() {}\nimpl X {\n    pub fn new() {}\n}\n" for name in ("one", "two", "three")}
        places = "one/src/lib.rt, three/src/lib.rt, two/src/lib.rt"
        self.assertEqual(self.said(files), (1, [f"a function three times: read: {places}", "0 types, 1 functions, 0 long lines of proofs: 1 wrong"]))

    def test_a_long_line(self) -> None:
        status, lines = self.said({"one/proofs/Laws.antt": "\n" + "x" * 201 + "\n"})
        self.assertEqual((status, lines[1:]), (1, ["crates/one/proofs/Laws.antt:2: 201 columns", "0 types, 0 functions, 1 long lines of proofs: 2 wrong"]))


class Documents(Tree):
    """A small repository: one crate, three documents, and the commands of two of them."""

    copied = ("tools/dev/docs",)
    files = {
        "README.md": "# One\n\nSee [the guide](docs/GUIDE.md#a-graph), `cpg_one` `Graph`, `IsGraph` and `cpg_one::run`.\n\n```\n$ cpgc show x\nworst 1\n```\n",
        "docs/GUIDE.md": "# Guide\n\n## A graph\n\n`cpg_one/specs/Graph` and [here](../README.md).\n\n```\n$ cpgc tune x\nA parts 2\n...\n```\n",
        "docs/MORE.md": "# More\n",
        "crates.txt": "cpg_one:   # the only one\n",
        "crates/cpg_one/specs/Graph.antt": "pub record IsGraph : Type 0 where\n",
        "crates/cpg_one/src/lib.rt": "pub fn run() {}\n",
        "examples/readme.out": "$ cpgc show x\n> worst 1\nstatus 0\n",
        "examples/guide.out": "needs cc\n$ cpgc tune x\n> A parts 2\n> k 0 worst 40\nstatus 0\n",
        "runtime/c/x.h": "int cpg_call(void);\n",
    }

    def setUp(self) -> None:
        super().setUp()
        for name, text in self.files.items():
            (self.top / name).parent.mkdir(parents=True, exist_ok=True)
            (self.top / name).write_text(text)

    def spoil(self, name: str, old: str, new: str) -> list[str]:
        """What the tool says of it after an edit of a document, but for its last line."""
        text = (self.top / name).read_text()
        self.assertIn(old, text)
        (self.top / name).write_text(text.replace(old, new, 1))
        status, out, _ = self.run_tool("tools/dev/docs")
        self.assertEqual(status, 1, out)
        return out.splitlines()[:-1]

    def test_as_they_are(self) -> None:
        status, out, _ = self.run_tool("tools/dev/docs", "--words")
        self.assertEqual((status, out), (0, "    18 README.md\n    18 docs/GUIDE.md\n     2 docs/MORE.md\n3 documents, 38 words, 0 wrong\n"))

    def test_a_name_of_the_node_in_c(self) -> None:
        (self.top / "docs/MORE.md").write_text("# More\n\n`cpg_call`\n")
        self.assertEqual(self.run_tool("tools/dev/docs")[0], 0)

    def test_a_link(self) -> None:
        self.assertEqual(self.spoil("docs/GUIDE.md", "../README.md", "../READYOU.md"), ["docs/GUIDE.md: there is no ../READYOU.md"])

    def test_a_path(self) -> None:
        text = "# More `docs/GUIDE.md x` `docs/NAME.md` `crates/cpg_one/out/it` `docs/LESS.md`"
        self.assertEqual(self.spoil("docs/MORE.md", "# More", text), ["docs/MORE.md: there is no `docs/LESS.md`"])

    def test_a_version(self) -> None:
        (self.top / "VERSION").write_text("1.2.3\n")
        (self.top / "CHANGELOG.md").write_text("# Changelog\n\n## 1.2.2\n\n## 1.2.1\n")
        self.assertIn("CHANGELOG.md: version 1.2.2, and VERSION has 1.2.3\n", self.run_tool("tools/dev/docs")[1])

    def test_a_heading(self) -> None:
        self.assertEqual(self.spoil("README.md", "#a-graph", "#a-pack"), ["README.md: docs/GUIDE.md has no heading #a-pack"])

    def test_a_crate(self) -> None:
        self.assertEqual(self.spoil("docs/GUIDE.md", "`cpg_one/specs/Graph`", "`cpg_two/specs/Graph`"), ["docs/GUIDE.md: `cpg_two/specs/Graph` names no crate"])

    def test_a_file(self) -> None:
        self.assertEqual(self.spoil("docs/GUIDE.md", "specs/Graph", "specs/Pack"), ["docs/GUIDE.md: there is no `cpg_one/specs/Pack`"])

    def test_a_definition(self) -> None:
        self.assertEqual(self.spoil("README.md", "`cpg_one` `Graph`", "`cpg_one` `Pack`"), ["README.md: cpg_one has no `Pack`"])

    def test_a_definition_alone(self) -> None:
        self.assertEqual(self.spoil("README.md", "`IsGraph`", "`IsPack`"), ["README.md: no crate has `IsPack`"])

    def test_a_function(self) -> None:
        self.assertEqual(self.spoil("README.md", "cpg_one::run", "cpg_one::walk"), ["README.md: `cpg_one::walk` is not in cpg_one"])

    def test_a_command(self) -> None:
        self.assertEqual(self.spoil("README.md", "$ cpgc show x", "$ cpgc show y"), ["README.md: $ cpgc show y", "  in readme.out: $ cpgc show x"])

    def test_lines_of_a_command(self) -> None:
        self.assertEqual(self.spoil("docs/GUIDE.md", "A parts 2", "A parts 3"), ["docs/GUIDE.md: $ cpgc tune x: guide.out has other lines"])

    def test_a_command_elsewhere(self) -> None:
        (self.top / "docs/MORE.md").write_text("# More\n\n```\n$ cpgc show x\nworst 1\n```\n")
        self.assertEqual(self.run_tool("tools/dev/docs")[0], 0)
        why = ["docs/MORE.md: $ cpgc show x: no file of examples has it with these lines"]
        self.assertEqual(self.spoil("docs/MORE.md", "worst 1", "worst 2"), why)

    def test_one_command_more(self) -> None:
        self.assertEqual(self.spoil("docs/GUIDE.md", "...", "...\n$ cpgc"), ["docs/GUIDE.md has 2 commands, and guide.out 1"])

    def test_length_of_readme(self) -> None:
        self.assertEqual(self.spoil("README.md", "# One", "# One" + " word" * 1400), ["README.md has 1418 words, and 1400 are the most"])


class Blocks(Tree):
    """The blocks of documents, with a program that does nothing."""

    copied = ("tools/examples", "tools/dev/__init__.py", "tools/dev/shim.py", "tools/dev/examples.py", "tools/cpgc_tools")
    readme = "```sh\nmkdir out && tools/unproved out/cpgc\n(cd crates/cpgc && rt run -- show ../../examples/pair.toml)\n```\n\n" \
             "```sh\n(cd crates/cpgc && rt try --data x.toml=../../examples/pair.toml -- show x.toml)\nexport PATH=$PWD/out:$PWD/tools:$PATH\ncd examples\n```\n"
    guide = "```sh\nexport PATH=$PWD/tools:$PATH\ncd examples\n```\n\n```\n$ nothing\n```\n"

    def said(self, readme: str) -> tuple[int, list[str]]:
        program = self.script("bin/cpgc", '[ "$1" = show ] && cat "$2"')
        self.script("tools/unproved", "exit 1")
        for name in ("draw", "why"):
            self.script(f"tools/{name}", "exit 1")
        for name, text in {"README.md": readme, "docs/GUIDE.md": self.guide, "examples/pair.toml": "faults = 1\n", "docs/examples/x": ""}.items():
            (self.top / name).parent.mkdir(parents=True, exist_ok=True)
            (self.top / name).write_text(text)
        status, out, _ = self.run_tool("tools/examples", program, PATH=f"{program.parent}:{os.environ['PATH']}")
        return status, out.splitlines()

    def test_as_they_are(self) -> None:
        stub = "blocks of sh run, with a stub in place of rt and tools/unproved"
        self.assertEqual(self.said(self.readme), (0, [f"README.md: 2 {stub}", f"docs/GUIDE.md: 1 {stub}", "0 files, 0 commands wrong, 0 documents wrong"]))

    def test_a_file_that_is_not_there(self) -> None:
        status, lines = self.said(self.readme.replace("../../examples/pair.toml)", "../examples/pair.toml)"))
        self.assertEqual((status, lines[-1]), (1, "0 files, 0 commands wrong, 1 documents wrong"))
        self.assertRegex("\n".join(lines), "(?m)^  ! cat: .*examples/pair.toml")

    def test_other_words(self) -> None:
        status, lines = self.said(self.readme.replace("rt run --", "rt run"))
        self.assertEqual(status, 1)
        self.assertIn("  ! rt: other words: run show ../../examples/pair.toml", lines)


class Cases(Tree):
    copied = ("tools/dev/cases", "crates/cpg_cases")

    def test_a_wrong_program(self) -> None:
        program = self.script("program", "exit 8")
        status, out, _ = self.run_tool("tools/dev/cases", program)
        self.assertEqual(status, 1)
        self.assertRegex(out.splitlines()[-1], r"^\d+ runs, \d+ wrong, \d+ left out, 0 not asked for$")


class Release(Tree):
    """A tree with one commit, a program that a gate has built, and tools that put it into a folder."""

    copied = ("tools/dev/release", "VERSION", "LICENSE")

    def setUp(self) -> None:
        super().setUp()
        self.script("tools/dev/cases", "exit 0")
        self.script("tools/install", 'mkdir -p "$3/bin" && cp "$2" "$3/bin/cpgc"')
        rt = self.script("kit/rt", "echo rattle-kit-13b logic dac8208d650f15bf")
        self.path = f"{rt.parent}:{os.environ['PATH']}"
        for name in ("README.md", "CHANGELOG.md", "SECURITY.md", "CITATION.cff", "docs/x.md", "examples/x.toml", "runtime/x.c"):
            (self.top / name).parent.mkdir(exist_ok=True)
            (self.top / name).write_text(name)
        (self.top / ".gitignore").write_text("out/\n")
        git = ["git", "-c", "user.name=x", "-c", "user.email=x@example.org"]
        for words in (["init", "-q"], ["add", "-A"], ["commit", "-qm", "x"]):
            subprocess.run([*git, *words], cwd=self.top, check=True)
        self.program = self.script("crates/cpgc/out/cpgc", "exit 0")
        self.log = self.top / "out/log"
        (self.top / "out/place").mkdir(parents=True)
        self.log.write_text("proved\n7 passed, 0 failed\n")

    def release(self) -> tuple[int, str, str]:
        return self.run_tool("tools/dev/release", self.log, self.top / "out/place", PATH=self.path)

    def test_a_release(self) -> None:
        status, out, err = self.release()
        self.assertEqual((status, err), (0, ""))
        sum_ = hashlib.sha256(self.program.read_bytes()).hexdigest()
        self.assertIn(f"gate 7 passed, 0 failed\nsha256 {sum_}\n", out)
        name = f"cpgc-{(TOP / 'VERSION').read_text().strip()}"
        folder = self.top / "out/place" / name
        self.assertTrue((folder / "docs/x.md").exists())
        checked = subprocess.run(["sha256sum", "--check", "--quiet", "SHA256SUMS"], cwd=folder)
        self.assertEqual(checked.returncode, 0)
        first = (folder.parent / f"{name}.tar.gz").read_bytes()
        self.assertEqual(self.release()[0], 1)  # it is there already
        shutil.rmtree(folder)
        (folder.parent / f"{name}.tar.gz").unlink()
        self.assertEqual(self.release()[0], 0)
        self.assertEqual((folder.parent / f"{name}.tar.gz").read_bytes(), first)

    def refused(self, why: str) -> None:
        status, out, err = self.release()
        self.assertEqual((status, out), (1, ""))
        self.assertIn(why, err)
        self.assertEqual(list((self.top / "out/place").iterdir()), [])

    def test_a_gate_that_failed(self) -> None:
        self.log.write_text("6 passed, 1 failed\n")
        self.refused("its last line isn't N passed, 0 failed")

    def test_changes(self) -> None:
        (self.top / "README.md").write_text("other")
        self.refused("the tree has changes that aren't committed")

    def test_a_later_program(self) -> None:
        os.utime(self.program, (4e9, 4e9))
        self.refused("newer than the log")

    def test_an_older_program(self) -> None:
        os.utime(self.program, (1, 1))
        self.refused("older than the commit")

    def test_a_wrong_program(self) -> None:
        self.script("tools/dev/cases", "exit 1")
        subprocess.run(["git", "-c", "user.name=x", "-c", "user.email=x@example.org", "commit", "-qam", "y"], cwd=self.top, check=True)
        self.program.touch()
        self.log.touch()
        self.refused("the program fails a case")


class Linters(Tree):
    """tools/style with an eslint of the test's own. No other linter is on the path."""

    copied = ("tools",)

    def eslint(self, text: str) -> list[str]:
        """What is written of eslint and of the end, where it runs this."""
        place = self.script("bin/eslint", "")
        place.write_text(f"#!{sys.executable}\n{text}\n")
        done = self.run_tool(sys.executable, "tools/style", PATH=str(place.parent))
        return [it for it in done[1].splitlines() if "installed: " not in it and "not installed, " not in it][-3:]

    def test_a_place(self) -> None:
        """A line of all scripts together is that of its file."""
        said = ("import json, sys\nline = sys.stdin.read().split('const reword')[0].count(chr(10)) + 1\n"
                "print(json.dumps([{'messages': [{'line': line, 'message': 'a fault', 'ruleId': 'rule'}]}]))")
        at = (self.top / "tools/cpgc_tools/page/layout.js").read_text().split("const reword")[0].count("\n") + 1
        self.assertEqual(self.eslint(said), ["eslint: asked", f"tools/cpgc_tools/page/layout.js:{at}: a fault (rule)", "1 of the linters' runs say something"])

    def test_another_eslint(self) -> None:
        self.assertEqual(self.eslint("import sys\nsys.exit('no such option')")[-2:],
                         ["eslint: not asked, as this one can't be: no such option", "the linters say nothing"])


class Contracts(Tree):
    """tools/prove-runtime with a frama-c of the test's own, which keeps the source that it is given."""

    copied = ("tools", "runtime/c")

    def prove(self, says: str, *words: str) -> list[str]:
        for name in ["why3", "cvc4", "cvc5", "z3"]:
            self.script(f"bin/{name}", "")
        self.script("bin/frama-c", f'for word in "$@"; do case "$word" in *.c) file=$word;; esac; done; cat "$file" >> {self.top}/given\n{says}')
        path = f"{self.top}/bin:{os.environ['PATH']}"
        status, out, err = self.run_tool(sys.executable, "tools/prove-runtime", *words, PATH=path)
        self.assertEqual(err, "")
        return [*out.splitlines(), f"status {status}"]

    def test_alone(self) -> None:
        """A function stands as it is in its source, with the contracts of those that it calls, and with no other body."""
        said = self.prove("echo '[wp] Proved goals:    2 / 3'; echo '[wp] [Timeout] Goal typed_know_table (cvc5)'", "--table", "tell_end",
                          "--machine", "x86_32", "--macros", "small")
        self.assertEqual([said[0], said[1], said[-1]], ["tell_end, table: 2 of 3", "  left: typed_know_table", "status 1"])
        given, source = (self.top / "given").read_text(), (TOP / "runtime/c/cpg_node.c").read_text()
        self.assertEqual(given.count("\n{\n"), 1)
        for name, end in [("tell_end", "\n}\n"), ("know", ")\n"), ("place_of", ")\n"), ("place_of_value", ")\n")]:
            at = source.index(f" {name}(")
            self.assertIn(source[source.rindex("/*@", 0, at):source.index(end, at) + len(end)].rstrip("\n"), given)

    def test_kept(self) -> None:
        """One prover may leave just the goals that are kept for it, in the setting for which they are."""
        words = ["--table", "tell_end", "--machine", "x86_32", "--macros", "small"]
        says = "echo '[wp] Proved goals:    1 / 2'; echo '[wp] [Timeout] Goal typed_one (cvc5)'; echo '[wp] [Qed] Goal typed_other : Valid'"
        (self.top / "runtime/c/test/left_by_cvc5.txt").write_text("# Kept\nx86_32 small typed_one\nx86_64 small typed_other\n")
        self.assertEqual([it for it in self.prove(says, *words, "--by", "cvc5") if " s " not in it],
                         ["tell_end, table: 1 of 2", "  left, as is kept: typed_one", "1 of 2 goals proved, and 1 are kept as left", "status 0"])
        self.assertEqual(self.prove(says, *words)[-2:], ["1 of 2 goals proved", "status 1"])
        (self.top / "runtime/c/test/left_by_cvc5.txt").write_text("x86_32 small typed_other\n")
        said = self.prove(says, *words, "--by", "cvc5")
        self.assertEqual([*said[1:3], *said[-2:]], ["  left: typed_one", "  proved, though it is kept: typed_other", "1 of 2 goals proved", "status 1"])

    def test_wrong(self) -> None:
        """A body is refused where a goal is left that the right one doesn't leave."""
        left = "echo '[wp] Proved goals:    1 / 2'; echo '[wp] [Timeout] Goal typed_is_heard_ensures (cvc5)'"
        other = f"if grep -q 'row >= node->table->own' \"$file\"; then {left}; else echo '[wp] Proved goals:    2 / 2'; fi"
        name, goal = "what a node sends heard too", "typed_is_heard_ensures"
        self.assertEqual(self.prove(other, "--wrong", "is_heard"),
                         [f"{name}: refused by is_heard", f"  left: {goal}", "0 wrong bodies weren't refused", "status 0"])
        self.assertEqual(self.prove(left, "--wrong", "is_heard"),
                         [f"{name}: not refused", f"  left: {goal}", f"  left by the right body: {goal}", "1 wrong bodies weren't refused", "status 1"])


if __name__ == "__main__":
    unittest.main()
