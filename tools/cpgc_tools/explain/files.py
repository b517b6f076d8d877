"""The files of a command that cpgc refused, by what they are, and what sentences on them are made of."""
from __future__ import annotations

import difflib
import itertools
from collections.abc import Callable, Iterable, Iterator, Sequence

from cpgc_tools import cli, pack
from cpgc_tools.graph import File
from cpgc_tools.pack import Pack

COMMANDS = {
    "show": "GRAPH", "compile": "GRAPH", "check": "GRAPH PACK", "play": "GRAPH PACK SCENARIO --turns N", "node": "PACK NAME",
    "hyper": "N GRAPH ..", "tune": "GRAPH", "audit": "GRAPH PACK LOG", "live": "PACK NAME STREAM", "trial": "N",
}
FORMS = {**COMMANDS, "compare": "GRAPH GRAPH PACK PACK", "c-table": "GRAPH PACK NAME"}  # also of tools, as files_of puts their words
DOES = {
    "show": "writes the tables of a graph as text", "compile": "writes them as a pack", "check": "says whether a pack is safe for a graph",
    "play": "plays the nodes in one scenario", "node": "writes the table of one node", "hyper": "makes one graph of graphs with periods N",
    "tune": "finds the best checkpoints", "audit": "finds the scenario of a log", "live": "runs one node on a stream", "trial": "tries a generated graph",
}
KINDS = {"GRAPH": "graph", "PACK": "pack", "SCENARIO": "scenario", "LOG": "log", "STREAM": "stream"}
MOST = {"graph": cli.GRAPH, "scenario": cli.SCENARIO, "log": cli.LOG, "pack": cli.PACK, "stream": cli.STREAM}
MOST_LISTED = 12
MOST_LETTERS, MOST_COMPARED = 100, 1000  # of a word that something else may be meant by


def near(word: object, names: Iterable[object]) -> str:
    """What may have been meant, as an end of a sentence."""
    found = nearest(word, names)
    return f"; is {found} meant?" if found else ""


def nearest(word: object, names: Iterable[object], least: float = 0.6) -> str | None:
    """The one of some names that is most like a word, whatever its letters' case, or nothing."""
    if len(str(word)) > MOST_LETTERS:
        return None
    by = {str(it).lower(): str(it) for it in itertools.islice(names, MOST_COMPARED)}
    found = difflib.get_close_matches(str(word).lower(), by, 1, least)
    return by[found[0]] if found else None


def listed(names: Iterable[object], most: int = MOST_LISTED) -> str:
    said = [str(it) for it in names]
    return ", ".join(said[:most]) + (f" and {len(said) - most} more" if len(said) > most else "") or "none"


def mend(what: str) -> str:
    return f"to mend it: {what}"


class Files:
    """The files of a command, by what they are."""

    def __init__(self, words: Sequence[str], command: str | None = None) -> None:
        self.words, self.command = words, command
        self.by: dict[str, File] = {}
        self.name: str | None = None
        self.line = ""  # that is explained
        self.program: str | None = None  # that wrote it, if more may be asked of it
        self.order = list(self.of_form() if command in FORMS else self.of_content())
        self.graphs = [file for kind, file in self.order if kind == "graph"]
        for kind, file in self.order:
            self.by.setdefault(kind, file)

    def of_form(self) -> Iterator[tuple[str, File]]:
        """The files as the form of the command has them."""
        rest, form, turns = [], FORMS[self.command or ""].split(" --turns")[0].split(" "), False
        options = self.words.index("--") if "--" in self.words else len(self.words)
        for number, word in enumerate(self.words):
            if number == options or number < options and (word.startswith("--turns=") or turns):
                turns = False
            elif number < options and word == "--turns":
                turns = True
            else:
                rest.append(word)
        for number, word in enumerate(rest):
            kind = ("N", "GRAPH")[number % 2] if self.command == "hyper" else form[number] if number < len(form) else ""
            if kind == "NAME":
                self.name = word
            if kind in KINDS:
                yield KINDS[kind], File(word, MOST[KINDS[kind]])

    def of_content(self) -> Iterator[tuple[str, File]]:
        """The files of a command that isn't known: packs begin so, the first other one is the graph, the next is what it may be."""
        files = [File(word, cli.PACK) for word in self.words if not word.startswith("-") and not word.isdigit()]
        self.name = next((it.path for it in files if it.fault), None)
        first, pairs = True, any(word.isdigit() for word in self.words)  # of hyper
        for number, file in enumerate(files):
            if file.bytes.startswith(b"CPGT"):
                yield "pack", file
            elif file.path.endswith(".pack") or file.known and not file.bytes and number:
                yield "pack", file
            elif first or pairs:
                first = False
                yield "graph", file
            else:
                yield "other", file

    def get(self, kind: str) -> File | None:
        """The file of a kind, or nothing where none is named."""
        if kind in self.by or kind == "graph":
            return self.by.get(kind)
        files = [file for of, file in self.order if of == "other"] or [file for _, file in self.order]
        return files[-1] if files else None

    def pack(self) -> Pack | None:
        """What the pack spells, or nothing."""
        file = self.get("pack")
        try:
            return pack.parsed(file.bytes) if file else None
        except ValueError:
            return None


def graph_with(files: Files, test: Callable[[File], object]) -> File:
    """The graph file that shows something: of several, as `hyper` has them, the first that does."""
    for file in files.graphs:
        if test(file):
            return file
    return files.graphs[0] if files.graphs else File("")
