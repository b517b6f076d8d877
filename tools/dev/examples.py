"""Runs the examples, and tells where one writes something else than stands beside it.

    tools/examples [PROGRAM [NAME ..]]

A file whose first line is `needs PROGRAM ..` is left out, with a line, where one of these programs isn't there.

PROGRAM is crates/cpgc/out/cpgc where nothing is said. Each file examples/NAME.out, also of a folder there, is a list of commands with what they write: a
command behind `$`, its lines on standard output behind `>`, its lines on the error stream behind `!`, and its status. They run in a
copy of examples/, each file's in its folder, with docs/examples/ where it is seen from there, and with `cpgc` and the scripts of tools/ on the path, so that what
they write is gone afterwards.

Without names, the blocks of README and of the guide that are marked `sh` run too, all of a document in one shell, at the top of a copy. They build the
program, which takes Rattle's kit and an hour: in place of `rt` and of `tools/unproved` stands a script that takes the same words, and whose program is
PROGRAM.
"""
import os
import re
import shutil
import subprocess
import tempfile
from pathlib import Path

from cpgc_tools import cli, program

TOP = Path(__file__).resolve().parents[2]
DOCUMENTS = "README.md", "docs/GUIDE.md"
# A file OUT or out/cpgc in place of a build; then the words of cpgc. It says what it doesn't know.
STUB = """#!/bin/sh
set -e
case "${{0##*/}} $1 $2" in
unproved*) exec ln -s '{cpgc}' "$1" ;;
"rt run --") mkdir -p out && ln -sf '{cpgc}' out/cpgc && shift 2 ;;
"rt try --data") mkdir -p out/data && cp "${{3#*=}}" "out/data/${{3%%=*}}" && cd out/data && shift 4 ;;
*) echo "${{0##*/}}: other words: $*" >&2 && exit 1 ;;
esac
exec '{cpgc}' "$@"
"""
# What has to be so behind the blocks: the commands of the document find the program, the tools and the files.
FOUND = "cpgc show pair.toml && command -v draw && command -v why"


def missing(text: str) -> list[str]:
    """The programs that a file needs and that aren't there."""
    first = text.partition("\n")[0].split()
    return program.missing(first[1:]) if first[:1] == ["needs"] else []


def commands(text: str) -> list[tuple[str, list[str]]]:
    """The commands of a file, each with the lines that are wanted of it."""
    found: list[tuple[str, list[str]]] = []
    for line in text.splitlines()[text.startswith("needs "):]:
        if line.startswith("$ "):
            found.append((line[2:], []))
        else:
            found[-1][1].append(line)
    return found


def told(mark: str, bytes: bytes) -> list[str]:
    return [f"{mark} {line}" for line in bytes.decode(errors="replace").splitlines()]


def run(command: str, folder: Path, path: str) -> list[str]:
    done = subprocess.run(["sh", "-c", command], cwd=folder, env={**os.environ, "PATH": path}, capture_output=True)
    return told(">", done.stdout) + told("!", done.stderr) + [f"status {done.returncode}"]


def checkout(cpgc: str, top: Path) -> Path:
    """A copy of what the blocks of documents see, with stubs for what builds; and the folder of the stub for `rt`."""
    shutil.copytree(TOP / "examples", top / "examples")
    (top / "crates/cpgc").mkdir(parents=True)
    (top / "tools").mkdir()
    for tool in (TOP / "tools").iterdir():
        (top / "tools" / tool.name).symlink_to(tool)
    (top / "tools/unproved").unlink()
    (top / "kit").mkdir()
    for stub in (top / "tools/unproved", top / "kit/rt"):
        stub.write_text(STUB.format(cpgc=cpgc))
        stub.chmod(0o755)
    return top / "kit"


def run_blocks(cpgc: str, place: Path) -> int:
    """Runs the blocks of documents that are marked `sh`, and answers how many documents are wrong."""
    wrong = 0
    for name in DOCUMENTS:
        blocks = re.findall(r"^```sh\n(.*?)^```$", (TOP / name).read_text(), re.S | re.M)
        top = place / Path(name).stem
        path = f"{checkout(cpgc, top)}:{os.environ['PATH']}"
        got = run("set -e\n" + "".join(blocks) + FOUND, top, path)
        print(f"{name}: {len(blocks)} blocks of sh run, with a stub in place of rt and tools/unproved")
        if got[-1] != "status 0" or any(line.startswith("!") for line in got):
            wrong += 1
            print(*(f"  {line}" for line in got), sep="\n")
    return wrong


def run_all(cpgc: str, names: list[str]) -> int:
    files = [TOP / "examples" / f"{name}.out" for name in names] or sorted((TOP / "examples").rglob("*.out"))
    wrong = 0
    with tempfile.TemporaryDirectory() as place:
        folder = shutil.copytree(TOP / "examples", Path(place) / "examples")
        shutil.copytree(TOP / "docs/examples", Path(place) / "docs/examples")
        (Path(place) / "cpgc").symlink_to(cpgc)
        for file in files:
            if missing(file.read_text()):
                print(f"{file.name} is left out: there is no {', '.join(missing(file.read_text()))}")
                continue
            for command, wanted in commands(file.read_text()):
                got = run(command, folder / file.parent.relative_to(TOP / "examples"), f"{place}:{TOP}/tools:{os.environ['PATH']}")
                if got != wanted:
                    wrong += 1
                    print(f"{file.name}: $ {command}", *(f"  wanted {line}" for line in wanted), *(f"  got    {line}" for line in got), sep="\n")
        documents_wrong = 0 if names else run_blocks(cpgc, Path(place) / "checkouts")
    print(f"{len(files)} files, {wrong} commands wrong" + f", {documents_wrong} documents wrong" * (not names))
    return int(wrong + documents_wrong > 0)


def main() -> int:
    words = cli.Words(__doc__)
    words.add_argument("program", metavar="PROGRAM", nargs="?", type=program.found, default=str(TOP / "crates/cpgc/out/cpgc"), help="the built cpgc")
    words.add_argument("names", metavar="NAME", nargs="*", help="of a file examples/NAME.out")
    said = words.parse_args()
    unknown = [name for name in said.names if not (TOP / "examples" / f"{name}.out").exists()]
    if unknown:
        cli.fail(f"there is no examples/{unknown[0]}.out")
    return run_all(program.found(said.program), said.names)
