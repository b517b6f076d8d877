"""How a tool begins and ends: its words, what it reads and writes, and one way to fail.

    def main() -> None:
        said = cli.Words(__doc__).with_files("GRAPH").parse_args()
        content = cli.read(said.graph, cli.GRAPH)       # at most so many bytes
        cli.fail(f"{said.graph}: no graph file")        # ends the tool by `TOOL: GRAPH: no graph file` and BAD_INPUT
        cli.write("a line\n")                           # text as UTF-8, or bytes, on standard output

`run` calls it and answers with its status. Whatever ends a tool, it is at most one line on the error stream.
"""
from __future__ import annotations

import argparse
import os
import re
import signal
import sys
import threading
import time
from collections.abc import Callable, Iterable
from typing import IO, NoReturn

from cpgc_tools import __version__

# The statuses of a tool. Where cpgc refuses, its line and its status (4 to 8) are the tool's.
BAD_INPUT = 1  # the words, or a file that can't be read or isn't what it should be
OUTPUT_FAILED = 3  # standard output, or a file that was to be written
NO_PROGRAM = 127  # cpgc, or another program that is wanted, isn't there or can't be run
STOPPED = 130  # by ^C; 143 by SIGTERM

SILENT, APART = 2.0, 0.2  # seconds: after which a tool says how far it has come, and how often

# How many bytes each kind of file has at most, as cpgc reads them.
GRAPH = SCENARIO = LOG = 2**24
PACK = 2**28
STREAM = 14 * 2**24

_name = "cpgc_tools"
_begun = time.monotonic()
_progress, _told, _lock = "", 0.0, threading.Lock()  # what stands on the terminal of how far a tool has come, and since when


class Failure(Exception):
    """What ends a tool: one line, and a status."""

    def __init__(self, line: str, status: int = BAD_INPUT) -> None:
        super().__init__(line)
        self.line, self.status = line, status


class Refused(Failure):
    """The line and the status of a program that was asked, which are the tool's own."""


def name() -> str:
    """How this tool is called."""
    return _name


def named(tool: str) -> str:
    """How another tool is called: as this one, by its name alone or behind cpgc-."""
    return f"cpgc-{tool}" if _name.startswith("cpgc-") else tool


def fail(why: str, status: int = BAD_INPUT) -> NoReturn:
    raise Failure(why, status)


def shown(text: str) -> str:
    """A text from a file or a word, without characters that a terminal acts on or that can't be encoded."""
    return "".join(it if it.isprintable() or it == "\t" else ascii(it)[1:-1] for it in text)


def note(what: str) -> None:
    """A line on the error stream that doesn't end the tool."""
    tell(f"{_name}: {what}")


def tell(line: str) -> None:
    """A line on the error stream, where there is one."""
    tell_bytes((shown(line) + "\n").encode(errors="backslashreplace"))


def progress(text: str) -> None:
    """Says on a terminal how far a tool has come, once it has run for two seconds, in place of what it said so before. What is written next takes
    its place."""
    global _progress, _told
    with _lock:
        now = time.monotonic()
        if now < _begun + SILENT or now < _told + APART or sys.stderr is None or not sys.stderr.isatty():
            return
        line = shown(f"{_name}: {text}")
        sys.stderr.write("\r" + line.ljust(len(_progress)))
        sys.stderr.flush()
        _progress, _told = line, now


def _clear() -> None:
    """Takes what `progress` has said off the terminal."""
    global _progress
    with _lock:
        if _progress and sys.stderr is not None:
            sys.stderr.write("\r" + " " * len(_progress) + "\r")
            sys.stderr.flush()
        _progress = ""


def tell_bytes(content: bytes) -> None:
    _clear()
    try:
        sys.stderr.buffer.write(content)
        sys.stderr.flush()
    except (AttributeError, OSError, ValueError):
        pass


def why(fault: OSError | ValueError) -> str:
    """The words of a fault."""
    return (fault.strerror if isinstance(fault, OSError) else None) or str(fault)


class Words(argparse.ArgumentParser):
    """Command words: the text at the head of a tool is its help, and an error is one line."""

    def __init__(self, text: str | None, short_help: bool = True) -> None:
        super().__init__(prog=_name, description=text, formatter_class=argparse.RawDescriptionHelpFormatter, allow_abbrev=False, add_help=False)
        self.add_argument(*(["-h"] if short_help else []), "--help", action="help", help="show this help and exit")
        self.add_argument("--version", action="version", version=f"{_name} {__version__}", help="show the version and exit")

    def with_program(self) -> Words:
        self.add_argument("--program", "--cpgc", metavar="CPGC", help="the program; else $CPGC, else cpgc on the path")
        return self

    def with_files(self, *names: str) -> Words:
        """Files that have to be named, as the help calls them."""
        for name in names:
            self.add_argument(name.lower(), metavar=name)
        return self

    def error(self, message: str) -> NoReturn:
        fail(f"{message} (--help says the words)")

    def _print_message(self, message: str, file: IO[str] | None = None) -> None:
        if message:
            write(message)


def whole(least: int, most: int) -> Callable[[str], int]:
    """What reads a word as a whole number within bounds."""

    def read_number(text: str) -> int:
        if not re.fullmatch("[0-9]{1,20}", text) or not least <= int(text) <= most:
            raise argparse.ArgumentTypeError(f"{text!r} is no whole number from {least} to {most}")
        return int(text)

    return read_number


# Reading.


def read(path: str, most: int = PACK) -> bytes:
    """The bytes of a file, which are so many at most."""
    try:
        with open(path, "rb") as it:
            return bounded(it, path, most)
    except (OSError, ValueError) as fault:
        fail(f"{path}: {why(fault)}")


def read_input(most: int = PACK) -> bytes:
    """The bytes of standard input, which are so many at most."""
    if sys.stdin is None:
        fail("standard input: it is closed")
    try:
        return bounded(sys.stdin.buffer, "standard input", most)
    except (OSError, ValueError) as fault:
        fail(f"standard input: {why(fault)}")


def bounded(source: IO[bytes], called: str, most: int) -> bytes:
    content = source.read(most + 1)
    if len(content) > most:
        fail(f"{called}: more than {most:,} bytes")
    return content


def lines_of_input(most: int = GRAPH) -> list[str]:
    """The lines of standard input as text. Bytes that are none become what no lawful line has."""
    return read_input(most).decode(errors="replace").splitlines()


# Writing.


def write(content: str | bytes) -> None:
    """Writes on standard output: a text as UTF-8, whatever the locale."""
    _clear()
    try:
        if sys.stdout is None:
            raise OSError("it is closed")
        sys.stdout.buffer.write(content if isinstance(content, bytes) else content.encode(errors="backslashreplace"))
    except OSError as fault:
        _output_failed(fault)


def write_lines(lines: Iterable[str]) -> None:
    write("".join(f"{line}\n" for line in lines))


def flush() -> None:
    try:
        if sys.stdout is not None:
            sys.stdout.flush()
    except OSError as fault:
        _output_failed(fault)


def _output_failed(fault: OSError) -> NoReturn:
    if sys.stdout is not None:
        try:  # so that nothing is tried again at the end
            os.dup2(os.open(os.devnull, os.O_WRONLY), sys.stdout.fileno())
        except (OSError, ValueError):
            pass
    if isinstance(fault, BrokenPipeError):
        raise SystemExit(OUTPUT_FAILED) from None
    fail(f"standard output: {why(fault)}", OUTPUT_FAILED)


# The run of a tool.


def _stop(number: int, _: object) -> None:
    """On SIGTERM and SIGHUP the tool ends as by ^C, so that it takes its files away."""
    signal.signal(number, signal.SIG_IGN)
    raise SystemExit(128 + number)


def run(called: str, main: Callable[[], int | None]) -> int:
    """Runs a tool and answers with its status."""
    global _name, _begun
    _name, _begun = called, time.monotonic()
    try:
        for number in (signal.SIGTERM, signal.SIGHUP):
            if signal.getsignal(number) == signal.SIG_DFL:
                signal.signal(number, _stop)
        status = main() or 0
        _clear()
        flush()
        return status
    except Refused as refused:
        tell(refused.line)
        return _ended(refused.status)
    except Failure as failure:
        note(failure.line)
        return _ended(failure.status)
    except KeyboardInterrupt:
        return _ended(STOPPED)
    except OSError as fault:  # of a file of the tool's own, as in a full folder of temporary files
        note(f"{fault.filename or 'a file'}: {why(fault)}")
        return _ended(OUTPUT_FAILED)
    except MemoryError:
        note("memory ran out")
        return _ended(BAD_INPUT)
    except SystemExit as end:
        if isinstance(end.code, str):
            tell(end.code)
        return _ended(end.code if isinstance(end.code, int) else int(end.code is not None))


def _ended(status: int) -> int:
    """What was written before the end goes out, where it can."""
    _clear()
    try:
        flush()
    except (Failure, SystemExit):
        pass
    return status
