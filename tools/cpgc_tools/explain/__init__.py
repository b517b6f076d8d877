"""Says what a line of cpgc on its error stream means: which entry it is about, with its file and line, and what mends it.

    explain -- cpgc check graph.toml x.pack
    cpgc check graph.toml x.pack 2>&1 | explain graph.toml x.pack
    explain --json -- cpgc check graph.toml x.pack
    explain --patterns

Behind `--` stands a command. It is run, its outputs stay as they are, and behind its line on the error stream comes what that line
means. The status is that of the command. It may also be another tool that passes a line of cpgc on. After `cpgc show`, `compile` and `check`
come the warnings that `lint` has of the graph, such as that of a process that never runs. After `impossible` of `cpgc audit` it says up to which
time the log is one of the tables, and what goes wrong then.

Without `--` the lines come on standard input, and all of them are written again. The files are those of the command, in its order. The
status is the one that cpgc has with such a line, and 0 where there is none.

With --json each line of cpgc, and each warning, is an object on a line in its place: grade (error or warning), status, number and kind of the
line, file, line, column and name of the entry, text, advice, more, which are further places, and said, which is the line itself. What isn't known
is null; a warning has no status, number and advice.

If the place of an entry can't be found, as in a file that spells keys in a strange way, its sentence has no line. --patterns writes the status and
a regular expression for each line that cpgc may write, one a line.

For example, `explain -- cpgc show late.toml` says by how much control is late, and which tools tell more.
"""
from __future__ import annotations

import json
import os
import re
import shutil
import sys
from collections.abc import Sequence

from cpgc_tools import cli, lint, program
from cpgc_tools.explain import audit, graph, pack, run, scenario, stream
from cpgc_tools.explain.files import COMMANDS, Files, mend
from cpgc_tools.explain.table import explained, patterns
from cpgc_tools.graph import Sentence

LINTED, TAKEN = ("show", "compile", "check"), (0, 5, 6, 7)  # the commands behind which warnings stand, and the statuses of a graph that is one
MOST_WARNINGS = 5
MEND = mend("")
PARTS = graph, pack, run, scenario, stream  # whose functions explain the lines of the table


def run_command(words: Sequence[str], as_json: bool) -> int:
    """Runs a command, and explains its line."""
    ran = program.run(words, seconds=None, passed_on=True)
    if words[1:2] == ["audit"] and ran.status == 0 and not as_json:
        for line in audit.told(files_of(words), program_of(words)):
            cli.tell(line)
    if not as_json:
        cli.tell_bytes(ran.err)
    if ran.err:
        for line in ran.err.decode(errors="replace").splitlines():
            files = files_of(words, line)
            files.program = program_of(words)
            for said in told(line, files, as_json):
                cli.tell(said)
    if words[1:2] and words[1] in LINTED and ran.status in TAKEN:
        warn(files_of(words), as_json)
    return ran.status if ran.status >= 0 else 128 - ran.status


def program_of(words: Sequence[str]) -> str | None:
    """The program of a command that is one of cpgc, or any that is found."""
    try:
        return program.found(words[0] if os.path.basename(words[0]) == "cpgc" or words[1:2] and words[1] in COMMANDS else None)
    except cli.Failure:
        return None


def told(line: str, files: Files, as_json: bool) -> list[str]:
    """What is told of a line: sentences, or an object in its place."""
    status, said = explained(line, files)
    if not as_json:
        return said
    return [json.dumps(document(line, status, said))] if said else [line]


def document(line: str, status: int, said: Sequence[str]) -> dict[str, object]:
    """A line of cpgc and what it means, by keys."""
    refused = re.fullmatch("cpgc: refused ([0-9]+) ([a-z]+).*", line)
    kind = refused[2] if refused else " ".join(line.split(" ")[1:3]) if status in (2, 3, 6) else line.split(" ")[1]
    places = [place(it) for it in said if not it.startswith(MEND)]
    advice = [it.removeprefix(MEND) for it in said if it.startswith(MEND)]
    first = places[0] if places else place("")
    return {"grade": "error", "status": status, "number": int(refused[1]) if refused else None, "kind": kind, **first, "advice": "; ".join(advice) or None,
            "more": places[1:], "said": line}


def place(said: str) -> dict[str, object]:
    """A sentence by keys."""
    if isinstance(said, Sentence):
        return {"file": said.path, "line": said.line, "column": said.column, "name": said.name, "text": said.said}
    return {"file": None, "line": None, "column": None, "name": None, "text": said}


def warn(files: Files, as_json: bool) -> None:
    """The warnings of the graph of a command."""
    found = lint.high(files.graphs[0]) if files.graphs else []
    if as_json:
        for it in found:
            unknown: dict[str, object] = {"status": None, "number": None, "advice": None, "more": []}
            cli.tell(json.dumps({**unknown, **it.document(), "said": it.text()}))
        return
    for line in [it.text() for it in found[:MOST_WARNINGS]]:
        cli.tell(line)
    if len(found) > MOST_WARNINGS:
        cli.tell(f"and {len(found) - MOST_WARNINGS} more warnings, which `{cli.named('lint')} {files.graphs[0].path}` has")


def files_of(words: Sequence[str], line: str = "") -> Files:
    """The files of a command that writes a line: of cpgc and of some tools by its form, of another tool by what they are."""
    name, *rest = words
    tool = os.path.basename(name).removeprefix("cpgc-")
    if tool == "cpgc" or rest and rest[0] in COMMANDS:
        return Files(rest[1:], rest[0] if rest else "")
    if tool == "hyper-edges":
        return Files(without_options(rest)[0][1:], "hyper")
    if tool == "compare":
        return files_of_compare(without_options(rest)[0], program_of(words), line)
    if tool == "c-table":
        plain, graph_file = without_options(rest)
        return Files([graph_file, *plain], "c-table") if graph_file else Files(plain, "node")
    return Files(rest)


def files_of_compare(words: Sequence[str], cpgc: str | None, line: str) -> Files:
    """The graph, and its pack if there are packs, of which cpgc writes a line; or all of them, if neither is known to be it."""
    for number, path in enumerate(words[:2] if cpgc and line.startswith("cpgc: ") else ()):
        asked = ("compile", path) if len(words) < 4 else ("check", path, words[2 + number])
        try:
            err = program.run([str(cpgc), *asked], seconds=run.SECONDS).err
        except cli.Failure:
            continue
        if line in err.decode(errors="replace").splitlines():
            return Files(asked[1:], asked[0])
    return Files(words, "compare")


def without_options(words: Sequence[str]) -> tuple[list[str], str | None]:
    """The words of a tool that are no options, and the graph file of --header or --graph."""
    plain: list[str] = []
    graph_file, left = None, list(words)
    while left:
        name, given, value = left.pop(0).partition("=")
        if name in ("--program", "--cpgc", "--header", "--graph"):
            value = value if given or not left else left.pop(0)
            graph_file = value if name in ("--header", "--graph") else graph_file
        elif name + given == "--":
            return plain + left, graph_file
        elif not name.startswith("--"):
            plain.append(name + given + value)
    return plain, graph_file


def read(words: Sequence[str], as_json: bool) -> int:
    """Writes what comes on standard input again, with what its lines mean."""
    last = 0
    if sys.stdin is None:
        cli.fail("standard input: it is closed")
    for line in iter(lambda: sys.stdin.buffer.readline(cli.GRAPH), b""):
        text = line.decode(errors="replace").rstrip("\n")
        if not text.startswith("cpgc: "):
            cli.write(line)
            continue
        status, said = explained(text, Files(words))
        last = status or last
        if as_json and said:
            cli.write_lines([json.dumps(document(text, status, said))])
        else:
            cli.write(line if line.endswith(b"\n") else line + b"\n")
            cli.write_lines(map(cli.shown, said))
    return last


def main() -> int:
    as_json = sys.argv[1:2] == ["--json"]
    given = sys.argv[1 + as_json:]
    if given[:1] == ["--"] and len(given) > 1:
        return run_command(given[1:], as_json)
    words = cli.Words(__doc__)
    words.add_argument("--json", action="store_true", help="objects in place of lines, as said first")
    words.add_argument("--patterns", action="store_true", help="write the status and the expression of each line of cpgc")
    words.add_argument("files", metavar="FILE", nargs="*", help="the files of the command")
    said = words.parse_args()
    if said.patterns:
        cli.write_lines(f"{status}  {pattern}" for status, pattern in patterns())
        return 0
    if said.files and not os.path.exists(said.files[0]) and shutil.which(said.files[0]):
        cli.fail(f"-- is missing before the command: explain -- {' '.join(said.files)}")
    return read(said.files, said.json)
