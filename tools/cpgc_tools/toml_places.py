"""A TOML text: its document, why it is none, and where its tables, keys and values stand in it.

    document(text)                             # as tomllib reads it; raises ValueError
    fault_at(text)                             # the line at which it is no TOML, counted from 1, and why
    places = Places(text)                      # of a text that is a document
    places.line("process", 3, "wcet")          # the line of a key, counted from 1; of a table or an entry of an array where it begins
    places.values["process", 3, "wcet"]        # where the value begins and ends
    places.sections                            # the paths of the tables that have a header, as [[process]]
    Places(text).doubled                       # of any text: the first key that stands there twice, and where both begin

A path is made of keys and, within an array, of numbers that count from 0. What a text spells in a way that isn't seen here, such as a
key by the numbers of its letters, has no place. Each of these takes time in proportion to the text, whatever stands in it.
"""
from __future__ import annotations

import re
import tomllib
from collections.abc import Callable, Iterable
from typing import Any

Path = tuple[str | int, ...]
Table = dict[str, Any]

# the words of a TOML text: comments, texts of four kinds, marks, line ends, blanks, and what else there is (keys, numbers). A text that
# isn't closed goes to the end of its line or of the file
WORD = re.compile(
    r'#[^\n]*|"""(?:\\.|[^\\])*?(?:"""|\\?\Z)|\'\'\'.*?(?:\'\'\'|\Z)|"(?:\\.|[^"\\\n])*(?:"|\\?\Z|(?=\n))|\'[^\'\n]*\''
    r'|[\[\]{}=,]|\n|[ \t\r]+|[^\s\[\]{}=,#"\']+|.', re.S)
PLACED = re.compile(r"(.*) \((?:at line (\d+), column (\d+)|at end of document)\)", re.S)


def words_on_one_line(text: str) -> list[tuple[str, int]]:
    """The words of the same document with each table in braces on one line, which a reader of TOML 1.0 asks for and cpgc doesn't; each with
    the place at which it stands in the text."""
    out: list[tuple[str, int]] = []
    open_marks: list[str] = []
    at = braces = 0
    for word in WORD.findall(text):
        begin, at = at, at + len(word)
        if word in ("[", "{"):
            open_marks.append(word)
            braces += word == "{"
        elif word in ("]", "}") and open_marks:
            braces -= open_marks.pop() == "{"
        if braces and (word.startswith("#") or word == "\n"):
            continue
        if word == "}":
            while out and out[-1][0].isspace():
                out.pop()
            if out and out[-1][0] == ",":
                out.pop()
        out.append((word, begin))
    return out


def joined(words: Iterable[tuple[str, int]]) -> str:
    return "".join(word for word, _ in words)


MOST_PARTS = 200  # of a dotted key: tomllib takes time by the square of them


def has_long_key(text: str) -> bool:
    """Whether a key has more parts than any of ours by far."""
    dots = 0
    if text.count(".") > MOST_PARTS:
        for word in WORD.findall(text):
            if word in "=,{}[]\n":
                dots = 0
            elif word[0] not in "#\"'":
                dots += word.count(".")
            if dots > MOST_PARTS:
                return True
    return False


def loaded(text: str) -> Table:
    if has_long_key(text):
        raise ValueError(f"a key has more than {MOST_PARTS} parts")
    try:
        return tomllib.loads(text)
    except RecursionError:
        raise ValueError("it is nested too deep") from None


def document(text: str) -> Table:
    """The document of a TOML text. Raises ValueError."""
    try:
        return loaded(text)
    except tomllib.TOMLDecodeError:
        return loaded(joined(words_on_one_line(text)))


def fault_at(text: str) -> tuple[int, str] | None:
    """The line of a text at which it is no TOML, counted from 1, and why, or nothing where it is a document."""
    words = words_on_one_line(text)
    try:
        loaded(joined(words))
        return None
    except ValueError as fault:
        said = str(fault)
    if "integer string conversion" in said:
        long = re.search("[0-9_]{4300,}", text)
        return text.count("\n", 0, long.start() if long else len(text)) + 1, "a number has more than 4,300 digits"
    found = PLACED.fullmatch(said)
    if not found or not found[2]:
        return text.rstrip().count("\n") + 1, (found[1] if found else said) + ", at the end"
    lines, at, begin, word = joined(words).split("\n"), 0, 0, ""
    place = sum(len(line) + 1 for line in lines[:int(found[2]) - 1]) + int(found[3]) - 1
    for word, begin in words:
        if place < at + len(word):
            break
        at += len(word)
    return text.count("\n", 0, min(begin + place - at, len(text))) + 1, found[1]


def bare(key: str) -> str:
    return key.strip("\"'")


def parts(words: Iterable[str]) -> Path:
    """The keys of a dotted key, from its words."""
    found: list[str] = []
    for word in words:
        found += [bare(word)] if word[0] in "\"'" else [part for part in word.split(".") if part]
    return tuple(found)


class Places:
    """Where the parts of a document stand. What is nested too deep has no places."""

    def __init__(self, text: str) -> None:
        self.text, self.at = text, 0
        self.words: list[tuple[str, int, int]] = []
        self.begins: dict[Path, int] = {}
        self.values: dict[Path, tuple[int, int]] = {}
        self.sections: set[Path] = set()
        self.counts: dict[Path, int] = {}
        self.doubled: tuple[Path, int, int] | None = None
        at = 0
        for word in WORD.findall(text):
            if not word.isspace() and not word.startswith("#") or word == "\n":
                self.words.append((word, at, at + len(word)))
            at += len(word)
        try:
            self.document()
        except RecursionError:
            self.begins, self.values, self.sections = {}, {}, set()

    def line(self, *path: str | int) -> int | None:
        """The line on which it begins, or nothing."""
        return self.text.count("\n", 0, self.begins[path]) + 1 if path in self.begins else None

    def column(self, *path: str | int) -> int | None:
        """How many letters from the begin of its line it begins, counted from 1, or nothing."""
        return self.place(self.begins[path])[1] if path in self.begins else None

    def place(self, at: int) -> tuple[int, int]:
        """The line and the column of a letter, counted from 1."""
        return self.text.count("\n", 0, at) + 1, at - self.text.rfind("\n", 0, at)

    def keys(self, *path: str | int) -> list[str]:
        """The keys of a table, in the order of the text."""
        found = (it for it in self.begins if len(it) == len(path) + 1 and it[:-1] == path)
        return [str(it[-1]) for it in sorted(found, key=self.begins.__getitem__)]

    def next(self) -> tuple[str, int, int]:
        self.at += 1
        return self.words[self.at - 1] if self.at <= len(self.words) else ("", 0, 0)

    def upto(self, *marks: str) -> list[str]:
        """The words up to one of the marks, which is gone past."""
        found = []
        while (word := self.next()[0]) not in (*marks, ""):
            found.append(word)
        return found

    def document(self) -> None:
        table: Path = ()
        while self.at < len(self.words):
            word, begin, _ = self.words[self.at]
            if word == "[":
                table = self.header(begin)
            elif word == "\n":
                self.at += 1
            else:
                self.entry(table)

    def header(self, begin: int) -> Path:
        """A line such as [faults] or [[process]]: the path of the table that follows."""
        words = self.upto("\n")
        array = words[:2] == ["[", "["]
        keys = parts(word for word in words if word not in ("[", "]"))
        path: Path = ()
        for number, key in enumerate(keys[:MOST_PARTS]):
            path += (key,)
            if array and number == len(keys) - 1:
                self.counts[path] = self.counts.get(path, -1) + 1
            if path in self.counts:
                path += (self.counts[path],)
        if path in self.sections or path in self.values or array and path[:-1] in self.values:
            self.double(path[:-1] if array else path, begin)
        self.begins[path] = begin
        self.sections.add(path)
        return path

    def double(self, path: Path, begin: int) -> None:
        """Takes note of a key that was there before."""
        self.doubled = self.doubled or (path, self.begins[path], begin)

    def entry(self, table: Path) -> None:
        """A key with its value."""
        begin = self.words[self.at][1]
        path = table
        for key in parts(self.upto("="))[:MOST_PARTS]:
            path += (key,)
            self.begins.setdefault(path, begin)
        if path in self.values:
            self.double(path, begin)
        self.value(path)

    def value(self, path: Path) -> None:
        word, begin, end = self.next()
        while word == "\n":
            word, begin, end = self.next()
        self.begins.setdefault(path, begin)
        if word == "[":
            self.within("]", lambda number: self.value((*path, number)))
        elif word == "{":
            self.within("}", lambda _: self.entry(path))
        else:
            while self.at < len(self.words) and self.words[self.at][0] not in ("\n", ",", "]", "}"):
                end = self.next()[2]  # the rest of a time with a blank
        self.values[path] = begin, max(end, self.words[self.at - 1][2] if word in ("[", "{") and self.at <= len(self.words) else end)

    def within(self, close: str, element: Callable[[int], None]) -> None:
        """The elements of an array, or the entries of a table in braces."""
        number = 0
        while self.at < len(self.words):
            word = self.words[self.at][0]
            if word in (close, ",", "\n"):
                self.at += 1
                if word == close:
                    return
            else:
                element(number)
                number += 1
