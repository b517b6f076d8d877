"""Walks that meet: how a search goes on, where it is kept, and on what it runs.

    course = Course(graph, wanted, Words(goal="shortest", seed=1, walks=4, tries=20_000, share=1_000, seconds=None))
    course.run(Here(), tell)        # tell is called with a line when something better was found
    course.best                     # designs with their scores, the best first

In a round each walk tries its share of designs. Then they meet: half of them go on from the best, and the others from where they are. So what
is found rests on the words and the seed alone, whatever runs the walks, unless a time or a stop by hand ends it.
"""
from __future__ import annotations

import hashlib
import importlib
import json
import multiprocessing
import os
import shutil
import signal
import tempfile
import time
from collections.abc import Callable, Mapping
from pathlib import Path
from typing import Any, NamedTuple, Protocol

import cpgc_tools
from cpgc_tools import cli
from cpgc_tools.explore import search
from cpgc_tools.explore.search import Plain, Score, Search, Task, Walked
from cpgc_tools.graph import Graph

MOST_KEPT = 8  # designs
REHEAT = 0.5  # how hot a walk begins that goes on from the best


class Words(NamedTuple):
    """What a course goes by. Without `tries` it is ended by its seconds."""

    goal: str
    seed: int
    walks: int
    tries: int | None
    share: int
    seconds: float | None


class Executor(Protocol):
    def submit(self, call: Callable[[Task], Walked], task: Task, /) -> Any:
        """A future of the call."""


class Done:
    """What a walk has found, as a future has it."""

    def __init__(self, found: Walked) -> None:
        self.found = found

    def result(self) -> Walked:
        return self.found

    def done(self) -> bool:
        return True

    def cancelled(self) -> bool:
        return False

    def cancel(self) -> bool:
        return False


class Here:
    """Works in this process."""

    def submit(self, call: Callable[[Task], Walked], task: Task, /) -> Done:
        return Done(call(task))

    def shutdown(self, wait: bool = True) -> None:
        """There is nothing to end."""


def _deaf() -> None:
    """A stop by hand is the matter of the first process alone, which ends the others."""
    signal.signal(signal.SIGINT, signal.SIG_IGN)
    for number in (signal.SIGTERM, signal.SIGHUP):
        signal.signal(number, signal.SIG_DFL)


def end(executor: Any, at_once: bool) -> None:
    """Ends what runs walks; at once, with those that are under way, after a stop."""
    executor.shutdown(wait=not at_once)
    if at_once:
        for child in multiprocessing.active_children():
            child.terminate()


def executor_of(jobs: int, address: str | None) -> Any:
    """Where walks run: here, in processes of this machine, or with the workers of a scheduler of dask."""
    if address is None:
        if jobs == 1:
            return Here()
        from concurrent.futures import ProcessPoolExecutor

        return ProcessPoolExecutor(jobs, initializer=_deaf)
    try:
        client = importlib.import_module("distributed").Client(address)
    except ImportError:
        cli.fail("--dask needs the package distributed (Debian: python3-distributed)", cli.NO_PROGRAM)
    except OSError as fault:
        cli.fail(f"{address}: {cli.why(fault)}")
    with tempfile.TemporaryDirectory() as folder:
        client.upload_file(archive(folder))
    return client.get_executor()


def archive(folder: str) -> str:
    """These tools as one file that workers can import."""
    import zipfile

    here, made = Path(cpgc_tools.__file__).parent, os.path.join(folder, "cpgc_tools.zip")
    if not here.is_dir():  # they run from such a file
        shutil.copy(here.parent, made)
        return made
    with zipfile.ZipFile(made, "w") as it:
        for path in sorted(here.rglob("*")):
            if path.suffix in (".py", ".json"):
                it.write(path, path.relative_to(here.parent))
    return made


class Course:
    KEPT = ("tried", "round", "seconds", "best", "here", "history")

    def __init__(self, graph: Graph, wanted: Mapping[str, Any], words: Words) -> None:
        """Raises choices.Wrong where `wanted` isn't right."""
        Search(graph, wanted, words.goal)
        self.text, self.words, self.begun = json.dumps([graph.document, wanted, words.goal], default=str), words, time.monotonic()
        self.search = search.search_of(self.text)
        begins = self.search.begin()
        if not begins:
            cli.fail("the choices leave no design to begin with")
        ordered = self.search.choices.order or graph.order is not None
        self.best: list[tuple[Score, Plain]] = [(score, search.plain(it, ordered)) for score, it in begins][:MOST_KEPT]
        self.here = [self.best[i % len(self.best)][1] for i in range(words.walks)]
        self.tried, self.round, self.seconds, self.stopped = self.search.tried, 0, 0.0, False
        self.history: list[tuple[int, Score]] = [(self.tried, self.best[0][0])]

    # Keeping where it is.

    def mark(self) -> str:
        return hashlib.sha256(json.dumps([cpgc_tools.__version__, self.text, self.words._replace(seconds=None, tries=None)]).encode()).hexdigest()

    def load(self, path: str) -> None:
        """Goes on from where a course was kept. A file that isn't there yet is no fault."""
        if not os.path.exists(path):
            return
        try:
            kept = json.loads(cli.read(path))
            if kept["of"] != self.mark():
                cli.fail(f"{path}: it is of another search")
            self.tried, self.round, self.seconds, self.here = (kept[key] for key in ("tried", "round", "seconds", "here"))
            self.best = [(Score(*score), design) for score, design in kept["best"]]
            self.history = [(at, Score(*score)) for at, score in kept["history"]]
            if len(self.here) != self.words.walks or not self.best or not all(isinstance(it, int) for it in (self.tried, self.round)):
                raise ValueError
        except (ValueError, KeyError, TypeError):
            cli.fail(f"{path}: it is no state of a search")

    def save(self, path: str) -> None:
        try:
            with open(f"{path}.new", "w") as it:
                json.dump({"of": self.mark(), **{key: getattr(self, key) for key in self.KEPT}}, it)
            os.replace(f"{path}.new", path)
        except OSError as fault:
            cli.fail(f"{path}: {cli.why(fault)}", cli.OUTPUT_FAILED)

    # Going on.

    def spent(self) -> float:
        return self.seconds + time.monotonic() - self.begun

    def left(self) -> float | None:
        return None if self.words.seconds is None else max(self.words.seconds - self.spent(), 0)

    def is_over(self) -> bool:
        words = self.words
        over = words.tries is not None and self.round * words.walks * words.share >= words.tries
        return over or self.stopped or self.left() == 0 or not self.search.moves.kinds or self.search.is_done(self.best[0][0])

    def go(self, executor: Executor) -> None:
        """One round."""
        words = self.words
        begins = [it if i % 2 or not self.round else self.best[0][1] for i, it in enumerate(self.here)]
        under_way = []
        try:
            for i, design in enumerate(begins):
                heat = 1.0 if self.round == 0 or i % 2 else REHEAT
                under_way.append(executor.submit(search.walk, Task(self.text, design, f"{words.seed}.{self.round}.{i}", words.share, heat, self.left())))
                if self.search.stopped:
                    break
            done = [it.result() for it in under_way]
        except KeyboardInterrupt:
            self.stopped = True
            done = [it.result() for it in under_way if it.done() and not it.cancelled()]
            for it in under_way:
                it.cancel()
        self.take(done)

    def take(self, done: list[Walked]) -> None:
        """What the walks of a round have found."""
        self.stopped = self.stopped or self.search.stopped
        before = self.tried
        steps: list[tuple[int, Score]] = []
        for it in done:
            steps += [(self.tried + at, score) for at, score in it.history]
            self.tried += it.tried
            self.best.append((it.score, it.best))
        for at, score in sorted(steps):
            if score < self.history[-1][1]:
                self.history.append((at, score))
        self.best.sort(key=lambda it: (it[0], it[1]))
        self.best = [it for i, it in enumerate(self.best) if it not in self.best[:i]][:MOST_KEPT]
        if len(done) == len(self.here) and self.tried > before:
            self.here, self.round = [it.here for it in done], self.round + 1

    def run(self, executor: Executor, tell: Callable[[Course], None], keep: str | None = None) -> None:
        while not self.is_over():
            self.go(executor)
            if keep is not None:
                self.save(keep)
            tell(self)
        self.seconds, self.begun = self.spent(), time.monotonic()
