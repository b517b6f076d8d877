"""What the study asks of the built program: the latest end and the columns of a graph's tables."""
from __future__ import annotations

import subprocess
import tempfile
from pathlib import Path
from typing import Any

from cpgc_tools import show

FOLDERS: list[Path] = []  # that of this process


class Wrong(Exception):
    """What ends a run with one line."""


def begin(place: str) -> None:
    """Makes a folder of this process's own in a place."""
    FOLDERS[:] = [Path(tempfile.mkdtemp(dir=place))]


def folder() -> Path:
    return FOLDERS[0]


def answer(program: str, command: str, text: str) -> Any:
    """The status, the output and the line of a run on a graph file."""
    file = folder() / "graph.toml"
    file.write_text(text)
    done = subprocess.run([program, command, file], capture_output=True)
    if done.returncode not in (0, 5, 6):
        raise Wrong(f"status {done.returncode} {done.stderr.decode().strip()}")
    return done.returncode, done.stdout, done.stderr.decode()


def shown(program: str, text: str) -> Any:
    """The latest end and the columns of a graph's tables, or `wide` and none."""
    status, out, _ = answer(program, "show", text)
    return ("wide", "") if status == 6 else (show.latest_end(out.decode()), out.count(b"\n  "))


def under_urgency(program: str, text: str) -> Any:
    """The latest end under the urgency order, of a graph file with the deadline 0, so that it is late by just this."""
    status, _, line = answer(program, "show", text)
    return "wide" if status == 6 else int(line.split()[2])
