"""The one way to run cpgc and other programs: within a time, with so much output, and gone when the tool ends.

    with Program(said.program) as cpgc:                             # named by a word, else $CPGC, else on the path, else built beside
        graph = cpgc.file("graph.toml", content)                    # in a folder that goes with it
        ran = cpgc.run("show", graph)                               # ran.status, ran.out (bytes), ran.line (of the error stream)
        pack = cpgc.output("compile", graph)                        # status 0, or the line and the status of cpgc are the tool's

    ran = program.run(["gcc", "--version"], seconds=10)             # any program
"""
from __future__ import annotations

import os
import shutil
import signal
import subprocess
import tempfile
import threading
import weakref
from collections.abc import Callable, Iterable, Mapping, Sequence
from concurrent.futures import ThreadPoolExecutor
from dataclasses import dataclass
from pathlib import Path
from types import TracebackType
from typing import IO, TypeVar

from cpgc_tools import cli

Given = TypeVar("Given")
Made = TypeVar("Made")
SECONDS = 3600.0  # after which a run is ended
MOST = 2**29  # bytes of output, after which a run is ended; a pack has half as many at most
TIMED_OUT = 124


@dataclass(frozen=True)
class Ran:
    """How a run ended."""

    words: Sequence[str]
    status: int  # below 0 where a signal ended it
    out: bytes
    err: bytes
    late: bool = False  # whether it was ended because of its time

    @property
    def text(self) -> str:
        return self.out.decode(errors="replace")

    @property
    def line(self) -> str:
        """The last line of the error stream."""
        lines = self.err.decode(errors="replace").strip().splitlines()
        return lines[-1] if lines else ""

    def refusal(self) -> cli.Refused:
        """What ends a tool whose run failed: the line and the status of the program, or how it was ended."""
        name = os.path.basename(self.words[0])
        if self.late:
            return cli.Refused(f"{name}: not over in time", TIMED_OUT)
        if self.status < 0:
            return cli.Refused(f"{name}: ended by signal {-self.status}", 128 - self.status)
        return cli.Refused(self.line or f"{name}: ended with status {self.status}", self.status)


def run(words: Sequence[str], *, seconds: float | None = SECONDS, most: int = MOST, stdin: bytes | None = None, cwd: str | Path | None = None,
        env: Mapping[str, str] | None = None, running: set[subprocess.Popen[bytes]] | None = None, passed_on: bool = False, silent: bool = False) -> Ran:
    """Runs a program. Where `passed_on`, its input and output are those of the tool, and where `silent`, nobody reads its output. What is
    running is in `running` meanwhile."""
    with tempfile.TemporaryFile() as told, tempfile.TemporaryFile() as given:
        given.write(stdin or b"")
        given.seek(0)
        source: IO[bytes] | int | None = None if passed_on else given if stdin else subprocess.DEVNULL
        try:
            child = subprocess.Popen(words, stdin=source, stdout=None if passed_on else subprocess.DEVNULL if silent else subprocess.PIPE, stderr=told, cwd=cwd, env=env,
                                     process_group=None if passed_on else 0)
        except (OSError, ValueError) as fault:
            cli.fail(f"{words[0]}: {cli.why(fault)}", cli.NO_PROGRAM)
        late = threading.Event()

        def end() -> None:
            late.set()
            kill(child)

        clock = threading.Timer(seconds or 0, end)
        clock.daemon = True
        if seconds is not None:
            clock.start()
        if running is not None:
            running.add(child)
        try:
            out = child.stdout.read(most + 1) if child.stdout else b""
            if len(out) > most:
                cli.fail(f"{os.path.basename(words[0])}: more than {most:,} bytes of output", cli.OUTPUT_FAILED)
            status = child.wait()
        except BaseException:
            if passed_on:
                child.terminate()  # it may be a tool, which takes its files away
            else:
                kill(child)
            child.wait()
            raise
        finally:
            clock.cancel()
            if child.stdout:
                child.stdout.close()
            if running is not None:
                running.discard(child)
        return Ran(words, status, out, tail(told), late.is_set())


def kill(child: subprocess.Popen[bytes]) -> None:
    """Ends a program, with those that it has started."""
    try:
        os.killpg(child.pid, signal.SIGKILL)
    except (ProcessLookupError, PermissionError):
        child.kill()


def tail(told: IO[bytes], most: int = 2**20) -> bytes:
    """The end of what stands in a file, at most so many bytes."""
    told.seek(max(told.seek(0, os.SEEK_END) - most, 0))
    return told.read()


def found(named: str | None = None) -> str:
    """The path of cpgc: the one that is named, $CPGC, the one on the path, or the one that is built beside the tools."""
    built = Path(__file__).resolve().parents[2] / "crates" / "cpgc" / "out" / "cpgc"
    wanted = named or os.environ.get("CPGC") or ("cpgc" if shutil.which("cpgc") or not built.is_file() else str(built))
    path = shutil.which(wanted)
    if path is None:
        cli.fail(f"no program {wanted}: name it by --program or CPGC, or put cpgc on the path", cli.NO_PROGRAM)
    return os.path.abspath(path)


def missing(names: Sequence[str]) -> list[str]:
    """The programs that aren't on the path."""
    return [name for name in names if shutil.which(name) is None]


class Program:
    """cpgc, and a folder for the files that it is given: one that is gone afterwards, or one to keep. Threads may share it."""

    def __init__(self, named: str | None = None, folder: str | None = None, seconds: float = SECONDS) -> None:
        self.path, self.ended, self.seconds = found(named), False, seconds
        self.runs, self.tells = 0, True  # how many there were, and whether that is told if they take long
        self.running: set[subprocess.Popen[bytes]] = set()
        try:
            self.folder = folder or tempfile.mkdtemp(prefix="cpgc-")
            self.tidy = weakref.finalize(self, shutil.rmtree, self.folder, ignore_errors=True)
            if folder:
                self.tidy.detach()
                os.makedirs(folder, exist_ok=True)
        except OSError as fault:
            cli.fail(f"{folder or tempfile.gettempdir()}: {cli.why(fault)}", cli.OUTPUT_FAILED)

    def __enter__(self) -> Program:
        return self

    def __exit__(self, kind: type[BaseException] | None, value: BaseException | None, trace: TracebackType | None) -> None:
        self.end()
        self.tidy()

    def end(self) -> None:
        """Ends what runs, and lets nothing more begin."""
        self.ended = True
        for child in list(self.running):
            kill(child)

    def each(self, function: Callable[[Given], Made], items: Iterable[Given]) -> list[Made]:
        """Calls a function on each item, as many at once as there are processors; in the order of the items."""
        pool = ThreadPoolExecutor(os.cpu_count())
        try:
            return list(pool.map(function, items))
        except BaseException:
            pool.shutdown(wait=False, cancel_futures=True)
            self.end()
            raise
        finally:
            pool.shutdown()

    def file(self, name: str, content: str | bytes) -> str:
        """Writes a file of the folder, and answers with its path."""
        path = os.path.join(self.folder, name)
        try:
            with open(path, "wb") as it:
                it.write(content if isinstance(content, bytes) else content.encode())
        except OSError as fault:
            cli.fail(f"{path}: {cli.why(fault)}", cli.OUTPUT_FAILED)
        return path

    def run(self, *words: str) -> Ran:
        if self.ended:
            cli.fail("ended")
        self.runs += 1
        if self.tells:
            cli.progress(f"{self.runs} runs of cpgc")
        return run([self.path, *words], seconds=self.seconds, running=self.running)

    def output(self, *words: str) -> bytes:
        """Standard output of a run that has to end with status 0; else its line and its status are the tool's."""
        ran = self.run(*words)
        if ran.status:
            raise ran.refusal()
        return ran.out

    def asked(self, *words: str) -> None:
        """A run that has to end with status 0, and whose output nobody reads."""
        ran = run([self.path, *words], running=self.running, silent=True)
        if ran.status:
            raise ran.refusal()

    def text(self, *words: str) -> str:
        return self.output(*words).decode(errors="replace")

    def answer(self, *words: str, statuses: tuple[int, ...] = (0,)) -> Ran:
        """A run that may end by one of these statuses; else its line and its status are the tool's."""
        ran = self.run(*words)
        if ran.status not in statuses:
            raise ran.refusal()
        return ran
