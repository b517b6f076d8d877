"""Installs cpgc, its tools, their manual page and the completion of its words where a PATH finds them.

    tools/install [--program CPGC] DIR
    tools/install --remove DIR

CPGC is crates/cpgc/out/cpgc by default. DIR is for example ~/.local or /usr/local, and then has

    bin/cpgc, bin/cpgc-explain, bin/cpgc-why ..    the program, and each tool with a name that begins with cpgc-
    lib/cpgc/tools                                 the tools as one file, to which these names link
    share/cpgc/graph.schema.json                   the schema by which editors know a graph file
    share/cpgc/c                                   the node in C, for the tables that cpgc-c-table writes
    share/man/man1/cpgc.1
    share/bash-completion/completions/cpgc
    share/cpgc/installed                           a list of all these, by which --remove deletes them

It can be run again: whatever was installed before and no longer belongs is deleted. Nothing is written or deleted through a link that leads
out of DIR. For example, `tools/install ~/.local`.
"""
from __future__ import annotations

import os
import shlex
import shutil
from collections.abc import Iterable
from pathlib import Path
from typing import NoReturn

from cpgc_tools import cli
from cpgc_tools.__main__ import TOOLS
from dev import zipped

TOP = Path(__file__).resolve().parents[2]
INSTALLED = [name for name in TOOLS if name != "run-nodes"]  # which builds nodes of a checkout
RUNTIME = "cpg_node.c cpg_node.h cpg_open.c cpg_open.h cpg_table.h".split()
LIST = "share/cpgc/installed"
PROGRAMS = "bin/", "lib/"
Source = Path | str | bytes  # a file to copy, where a link leads, or the bytes of a file


class Words(cli.Words):
    def error(self, message: str) -> NoReturn:
        """In a shell with this folder on its path another `install` may be meant."""
        path = [it for it in os.environ.get("PATH", "").split(":") if it and os.path.realpath(it) != str(TOP / "tools")]
        other = shutil.which("install", path=":".join(path))
        cli.fail(f"{message} (--help says the words)" + (f"; this is the one of cpgc, another is {other}" if other else ""))


def files(program: str) -> dict[str, Source]:
    """What is to be at each path below DIR."""
    found: dict[str, Source] = {"bin/cpgc": Path(program), "lib/cpgc/tools": zipped.archive()}
    found.update({f"bin/cpgc-{name}": "../lib/cpgc/tools" for name in INSTALLED})
    found["share/cpgc/graph.schema.json"] = zipped.PACKAGE / "graph.schema.json"
    found.update({f"share/cpgc/c/{name}": TOP / "runtime/c" / name for name in RUNTIME})
    found["share/man/man1/cpgc.1"] = TOP / "man/cpgc.1"
    found["share/bash-completion/completions/cpgc"] = TOP / "completion/cpgc.bash"
    return found


def place_of(folder: Path, path: str) -> Path:
    """Where a path is below the folder. A link out of it ends the tool."""
    place = folder / path
    if not place.parent.resolve().is_relative_to(folder.resolve()):
        cli.fail(f"{place}: a link leads out of {folder}")
    return place


def put(folder: Path, path: str, source: Source) -> None:
    """Writes a file or a link beside its place first, so that a program that runs is never half a file, and a link there isn't followed."""
    place = place_of(folder, path)
    new = place.with_name(f".{place.name}.new")
    try:
        place.parent.mkdir(parents=True, exist_ok=True)
        new.unlink(missing_ok=True)
        try:
            if isinstance(source, str):
                new.symlink_to(source)
            else:
                content = source if isinstance(source, bytes) else source.read_bytes()
                with open(new, "xb") as it:
                    it.write(content)
                new.chmod(0o755 if path.startswith(PROGRAMS) else 0o644)
            os.replace(new, place)
        except BaseException:
            new.unlink(missing_ok=True)
            raise
    except OSError as fault:
        cli.fail(f"{place}: {cli.why(fault)}", cli.OUTPUT_FAILED)


def put_list(folder: Path, paths: Iterable[str]) -> None:
    put(folder, LIST, "".join(f"{path}\n" for path in paths).encode(errors="surrogateescape"))


def listed(folder: Path) -> list[str]:
    """What the list of an earlier run has: paths below the folder."""
    try:
        lines = (folder / LIST).read_bytes().decode(errors="surrogateescape").splitlines()
    except FileNotFoundError:
        return []
    except OSError as fault:
        cli.fail(f"{folder / LIST}: {cli.why(fault)}")
    return [line for line in lines if line and "\0" not in line and not Path(line).is_absolute() and ".." not in Path(line).parts]


def remove(folder: Path, paths: Iterable[str]) -> None:
    """Takes files away, and the folders that are empty then."""
    for path in paths:
        place = folder / path
        if not place.parent.resolve().is_relative_to(folder.resolve()):
            cli.note(f"{place}: left, since a link leads out of {folder}")
            continue
        try:
            place.unlink(missing_ok=True)
        except OSError as fault:
            cli.note(f"{place}: left: {cli.why(fault)}")
        for parent in place.relative_to(folder).parents:
            try:
                if parent.parts:
                    (folder / parent).rmdir()
            except OSError:
                break


def install(folder: Path, program: str) -> None:
    wanted = files(program)
    missing = next((path for path in wanted.values() if isinstance(path, Path) and not path.is_file()), None)
    if missing:
        cli.fail(f"{missing}: no such file" + (": build the program first, or name it by --program" if missing == Path(program) else ""))
    old = listed(folder)
    for path in wanted:
        place_of(folder, path)
    put_list(folder, dict.fromkeys([*old, *wanted]))  # so that --remove takes away what a run that fails has left
    for path, source in wanted.items():
        put(folder, path, source)
    remove(folder, [path for path in old if path not in wanted])
    put_list(folder, wanted)
    cli.write(f"export PATH={shlex.quote(f'{folder}/bin')}:$PATH\n")


def main() -> None:
    words = Words(__doc__)
    words.add_argument("--program", metavar="CPGC", default=str(TOP / "crates/cpgc/out/cpgc"), help="the program")
    words.add_argument("--remove", action="store_true", help="take away what was installed")
    words.add_argument("folder", metavar="DIR")
    said = words.parse_args()
    if not said.folder:
        words.error("DIR is empty")
    folder = Path(said.folder).expanduser().absolute()
    if not said.remove:
        install(folder, said.program)
    elif not (folder / LIST).exists():
        cli.fail(f"{folder}: nothing is installed there")
    else:
        remove(folder, [*listed(folder), LIST])
