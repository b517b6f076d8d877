"""The table of the lines that cpgc may write on its error stream: of each its status, its expression, and what explains it."""
from __future__ import annotations

import re
from collections.abc import Callable, Iterator

from cpgc_tools.explain.files import Files

Sentences = Iterator[str]
Explains = Callable[..., Sentences]  # of the files of the command, and what the groups of the expression found
EXPLAINED: list[tuple[int, str, Explains]] = []


def explains(status: int, pattern: str) -> Callable[[Explains], Explains]:
    def of(function: Explains) -> Explains:
        EXPLAINED.append((status, pattern, function))
        return function
    return of


def patterns() -> list[tuple[int, str]]:
    """The status and the expression of each line, in the order of the statuses and of the numbers of refusals."""
    def place(it: tuple[int, str]) -> tuple[int, int]:
        number = re.search("refused ([0-9]+)", it[1])
        return it[0], int(number[1]) if number else 0
    return sorted(((status, pattern) for status, pattern, _ in EXPLAINED), key=place)


def explained(line: str, files: Files) -> tuple[int, list[str]]:
    """The status that a line of cpgc has, and what it means, in lines."""
    for status, pattern, function in EXPLAINED:
        if found := re.fullmatch(pattern, line):
            files.line = line
            return status, list(function(files, *found.groups()))
    return 0, []
