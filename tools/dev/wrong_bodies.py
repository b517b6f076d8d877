"""Tries the wrong bodies of crates that the gate doesn't try.

    tools/wrong-bodies NAME ..

Each file crates/NAME/wrong-bodies/WRONG.edit changes one body to a wrong one, in the form of the gate's must-fail edits. Both kinds are
tried together in a copy, and the prover must refuse each. The copy takes the proved libraries that are in out/, so prove the crates below
first (`rt check` in the crate's folder does that). The status is 0 if each was refused.
"""
import os
import shutil
import subprocess
import tempfile
from pathlib import Path

from cpgc_tools import cli

TOP = Path(__file__).resolve().parents[2]


def link(source: str, target: str) -> None:
    try:
        os.link(source, target)
    except OSError:
        shutil.copy2(source, target)


def copy_of(place: Path, names: list[str]) -> None:
    """A copy of the repository's crates, in which the wrong bodies of some stand among their must-fail edits."""
    for name in ("HANDLES", "crates.txt"):
        shutil.copy2(TOP / name, place / name)
    for crate in sorted((TOP / "crates").iterdir()):
        copy = place / "crates" / crate.name
        shutil.copytree(crate, copy, ignore=shutil.ignore_patterns("out"))
        libraries = crate / "out" / "rlib"
        if libraries.is_dir() and crate.name not in names:
            shutil.copytree(libraries, copy / "out" / "rlib", copy_function=link)
        if crate.name in names:
            (copy / "must-fail").mkdir(exist_ok=True)
            for edit in (copy / "wrong-bodies").glob("*.edit"):
                edit.rename(copy / "must-fail" / edit.name)


def main() -> int:
    words = cli.Words(__doc__)
    words.add_argument("names", metavar="NAME", nargs="+", help="a crate")
    names = words.parse_args().names
    if shutil.which("rt") is None:
        cli.fail("there is no rt: install Rattle's kit", cli.NO_PROGRAM)
    for name in names:
        if not any((TOP / "crates" / name / kind).is_dir() for kind in ("must-fail", "wrong-bodies")):
            cli.fail(f"{name} has no wrong body")
    with tempfile.TemporaryDirectory(prefix="wrong-bodies-") as place:
        copy_of(Path(place), names)
        return subprocess.run(["rt", "must-fail", *names], cwd=place).returncode
