"""What install puts into a folder, the page of the manual, and the completion of words."""
import re
import shutil
import subprocess

from cpgc_tools.explain.files import COMMANDS
from dev.install import INSTALLED
from tests.case import CPGC, LATE, PAIR, SCENARIO, TOOLS, TOP, Case


class Installed(Case):
    def install(self, *words: str) -> subprocess.CompletedProcess[str]:
        return subprocess.run([TOOLS / "install", *words], capture_output=True, text=True, check=False)

    def test_install(self) -> None:
        """All is found by a path, runs there alone, can be put there again, and goes away again."""
        folder = self.folder / "a place"
        for _ in range(2):
            done = self.install("--program", CPGC, str(folder))
            self.assertEqual((done.returncode, done.stdout, done.stderr), (0, f"export PATH='{folder}/bin':$PATH\n", ""))
        for name, content in (("pair.toml", PAIR), ("s.toml", SCENARIO), ("late.toml", LATE)):
            self.file(name, content)
        environment = {"PATH": f"{folder}/bin:/usr/bin:/bin"}
        for command, wanted in [
            ("cpgc compile pair.toml > pair.pack && cpgc check pair.toml pair.pack", "safe"),
            ("cpgc-pack read pair.pack | cpgc-pack write | cmp - pair.pack && echo same", "same"),
            ("cpgc play pair.toml pair.pack s.toml --turns 0 | cpgc-timeline pair.toml | grep -c N1", "2"),
            ("cpgc play pair.toml pair.pack s.toml --turns 0 | cpgc-stream pair.pack N2 > x && cpgc live pair.pack N2 x | tail -n 1", "closed 105"),
            ("cpgc-why late.toml | tail -n 1", "mended by parts = 2 of sense: worst 77"),
            ("cpgc-cycle pair.toml pair.pack", "cycle 120"),
            ("cpgc-draw pair.toml pair.pack | grep -c '^</svg>'", "1"),
            ("cpgc-page pair.toml pair.pack | grep -c '</html>'", "1"),
            ("cpgc-c-table pair.pack N2 --sizes | cut -c 1-20", "-DCPG_MAX_PROCESSES="),
            ("cpgc-slack pair.toml | head -n 1", "compiles, worst 105"),
            ("cpgc-tuned late.toml 2>&1 | grep -c 'parts = 2'", "1"),
            ("cpgc-from-tgff --help | head -n 1 | cut -c 1-21", "usage: cpgc-from-tgff"),
            ("cpgc-explain -- cpgc show late.toml 2>&1 | grep -o 'ask `cpgc-why late.toml`'", "ask `cpgc-why late.toml`"),
        ]:
            with self.subTest(command):
                done = subprocess.run(["sh", "-c", command], cwd=self.folder, env=environment, capture_output=True, text=True, check=False)
                self.assertEqual((done.stdout.strip(), done.stderr), (wanted, ""))
        self.assertEqual([path.name for path in (folder / "lib/cpgc").iterdir()], ["tools"])
        self.file("a place/bin/mine", "kept")
        self.assertEqual(self.install("--remove", str(folder)).returncode, 0)
        self.assertEqual([str(path.relative_to(folder)) for path in folder.rglob("*") if path.is_file()], ["bin/mine"])

    def test_mistakes(self) -> None:
        self.file("file", "")
        cases: list[tuple[list[str], str]] = [
            ([], "install: the following arguments are required: DIR (--help says the words)\n"),
            (["--program", "none", "x"], "install: none: no such file: build the program first, or name it by --program\n"),
            (["--remove", str(self.folder)], f"install: {self.folder}: nothing is installed there\n"),
            ([""], "install: DIR is empty (--help says the words)\n"),
        ]
        for words, said in cases:
            done = self.install(*words)
            self.assertEqual((done.returncode, done.stdout, re.sub("; this is the one of cpgc, another is /[^ ]*/install", "", done.stderr)), (1, "", said))
        self.assertIn(": Not a directory\n", self.install("--program", CPGC, str(self.folder / "file")).stderr)

    def test_links(self) -> None:
        """Nothing is written or taken away through a link that leads out of the folder, and a list that is a link is replaced."""
        folder, out = self.folder / "place", self.folder / "out"
        (folder / "share").mkdir(parents=True)
        out.mkdir()
        (folder / "share/man").symlink_to(out)
        done = self.install("--program", CPGC, str(folder))
        self.assertEqual((done.returncode, done.stderr), (1, f"install: {folder}/share/man/man1/cpgc.1: a link leads out of {folder}\n"))
        self.assertEqual(list(out.iterdir()), [])
        (folder / "share/man").unlink()
        (out / "other").write_text("kept")
        (folder / "share/cpgc").mkdir()
        (folder / "share/cpgc/installed").symlink_to(out / "other")
        self.assertEqual(self.install("--program", CPGC, str(folder)).returncode, 0)
        self.assertEqual((out / "other").read_text(), "kept")
        (folder / "share/link").symlink_to(out)
        with open(folder / "share/cpgc/installed", "ab") as it:
            it.write(b"share/link/other\n../out/other\n/etc/none\n\xff\xfe\n\0\n")
        done = self.install("--remove", str(folder))
        self.assertEqual((done.returncode, done.stderr), (0, f"install: {folder}/share/link/other: left, since a link leads out of {folder}\n"))
        self.assertEqual(((out / "other").read_text(), sorted(path.name for path in folder.rglob("*"))), ("kept", ["link", "share"]))

    def test_failed(self) -> None:
        """What a run that fails has left is taken away by --remove."""
        folder = self.folder / "place"
        (folder / "share/man/man1/cpgc.1/x").mkdir(parents=True)
        done = self.install("--program", CPGC, str(folder))
        self.assertEqual((done.returncode, done.stderr), (3, f"install: {folder}/share/man/man1/cpgc.1: Is a directory\n"))
        self.assertTrue((folder / "bin/cpgc").exists())
        done = self.install("--remove", str(folder))
        self.assertEqual((done.returncode, done.stderr), (0, f"install: {folder}/share/man/man1/cpgc.1: left: Is a directory\n"))
        self.assertEqual([path for path in folder.rglob("*") if path.is_file()], [])

    def test_manual(self) -> None:
        """The page has each command, and groff has no word on it."""
        text = (TOP / "man/cpgc.1").read_text()
        for name in COMMANDS:
            self.assertIn(f"cpgc {name}", text)
        said = {name.replace("\\", "") for name in re.findall(r"cpgc\\-([a-z\\-]+)\n", text)}
        self.assertEqual(said, set(INSTALLED))
        if shutil.which("groff") is None:
            self.skipTest("groff isn't there")
        done = subprocess.run(["groff", "-man", "-ww", "-Tutf8", TOP / "man/cpgc.1"], capture_output=True, text=True, check=False)
        self.assertEqual((done.returncode, done.stderr), (0, ""))

    def test_completion(self) -> None:
        self.file("pair.pack", self.cpgc("compile", self.file("pair.toml", PAIR)).stdout)
        self.file("x.stream", "")
        self.file("bad.pack", b"CPGT\1\1\1\7$(id>x)")
        cases = {
            "": "show compile check play node hyper tune audit live trial", "c": "compile check", "show p": "pair.toml", "check pair.toml p": "pair.pack",
            "node pair.pack ": "N1 N2", "live pair.pack N2 x": "x.stream", "play --turns 3 p": "pair.toml", "play --turns ": "",
            "play pair.toml pair.pack pair.toml ": "--turns", "play -": "--turns", "hyper 20 p": "pair.toml", "hyper ": "", "hyper 1 pair.toml ": "",
            "node bad.pack ": "", "show pair.toml ": "", "trial ": "",
        }
        script = ["source " + str(TOP / "completion/cpgc.bash")]
        for words in cases:
            script += [f"COMP_WORDS=(cpgc {words} {chr(39) * 2 if words[-1:] in ('', ' ') else ''}); COMP_CWORD=$((${{#COMP_WORDS[@]}} - 1))", '_cpgc; echo "${COMPREPLY[*]}"']
        done = subprocess.run(["bash", "-c", "\n".join(script)], cwd=self.folder, capture_output=True, text=True, check=False)
        self.assertEqual((dict(zip(cases, done.stdout.split("\n"))), done.stderr), (cases, ""))
        self.assertFalse((self.folder / "x").exists())

    def test_completion_of_tools(self) -> None:
        """Each tool that is installed has its options and files completed."""
        for name in "pair.toml", "pair.pack", "other":
            self.file(name, "")
        script = ["source " + str(TOP / "completion/cpgc.bash")]
        for words in "p", "--s", "--j", "o":
            script += [f"COMP_WORDS=(cpgc-lint {words}); COMP_CWORD=1; _cpgc_tool {TOP}/tools/lint; echo \"${{COMPREPLY[*]}}\""]
        script += ["complete -p | sed -n 's/.*-F _cpgc_tool cpgc-//p' | sort"]
        done = subprocess.run(["bash", "-c", "\n".join(script)], cwd=self.folder, capture_output=True, text=True, check=False)
        self.assertEqual(done.stderr, "")
        self.assertEqual(done.stdout.splitlines(), ["pair.pack pair.toml", "--strict", "--json", "other", *sorted(INSTALLED)])
