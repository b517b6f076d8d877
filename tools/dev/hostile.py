"""Runs the built program on damaged, huge and deep input, and with memory that runs out. None of this is part of the gate.

    tools/hostile PROGRAM [damage] [limits] [depth] [files] [memory] [extremes] [--quick]

damage   each byte of worked packs, graph files, scenario files, logs and streams changed to each of eight values, each byte
         doubled, and each prefix: the program ends in time, with a status of its own and at most one line
limits   files of exactly the limit and of one byte more, and streams of the most records and of one byte more
depth    deep nesting, long keys, many tables, long numbers, and packs that claim more than they have
files    for each command, outputs that take every number of bytes below what it writes, error outputs that take every number below
         the line of a refusal of each status, and each of its files missing or a folder
memory   each allocation fails in turn, by a library that is made with cc and loaded before malloc: status 8 and no output, or
         what the run writes with enough memory (for long runs every allocation at first, and then one of many)
extremes small files with small answers that take minutes or gigabytes if a program does too much: each within limits of time and
         memory, and with a stack of 1 MiB

--quick takes a sample of each. The last line says how many runs there were, and how many of them ended as they must not.
"""
from __future__ import annotations

import atexit
import itertools
import os
import re
import resource
import shutil
import signal
import subprocess
import tempfile
import time
from collections.abc import Callable, Iterable, Iterator, Sequence
from concurrent.futures import ThreadPoolExecutor
from typing import Any

from cpgc_tools.stream import CLOSE, END, FRAME, record
from dev import extremes as extreme_cases
from dev.measuring import TOP, log_of, words_with_program

EXAMPLES = str(TOP / "examples")
LINES = {0: (b"",), 1: (b"cpgc: words\n",), 2: (b"cpgc: read fault\n",), 3: (b"cpgc: write fault\n", b""), 8: (b"cpgc: memory\n",)}
ACTS = re.compile(rb"(\d+ (start|send) \w+\n)*")
STARTS = {4: b"cpgc: refused ", 5: b"cpgc: late ", 6: b"cpgc: too wide ", 7: b"cpgc: unsafe "}
REFUSER = r"""
#define _GNU_SOURCE
#include <dlfcn.h>
#include <stdlib.h>
#include <stddef.h>
#include <errno.h>
#include <stdio.h>
static long left = -1, taken;
static const char *count_to;
__attribute__((constructor)) static void begin(void) { const char *n = getenv("REFUSE_AT"); left = n ? atol(n) : 0; taken = 0; count_to = getenv("COUNT_TO"); }
__attribute__((destructor)) static void end(void) { if (count_to) { FILE *f = fopen(count_to, "w"); if (f) { fprintf(f, "%ld", taken); fclose(f); } } }
static int refused(void) { if (left < 0) return 0; taken++; return left && taken == left; }
static void *(*next_of(const char *name))(size_t) { return (void *(*)(size_t))dlsym(RTLD_NEXT, name); }
void *malloc(size_t n) { static void *(*f)(size_t); if (!f) f = next_of("malloc"); if (refused()) { errno = ENOMEM; return 0; } return f(n); }
void *realloc(void *p, size_t n) { static void *(*f)(void *, size_t); if (!f) f = dlsym(RTLD_NEXT, "realloc"); if (refused()) { errno = ENOMEM; return 0; } return f(p, n); }
void *aligned_alloc(size_t a, size_t n) { static void *(*f)(size_t, size_t); if (!f) f = dlsym(RTLD_NEXT, "aligned_alloc"); if (refused()) { errno = ENOMEM; return 0; } return f(a, n); }
int posix_memalign(void **p, size_t a, size_t n) { static int (*f)(void **, size_t, size_t); if (!f) f = dlsym(RTLD_NEXT, "posix_memalign"); if (refused()) return ENOMEM; return f(p, a, n); }
"""


class Bench:
    def __init__(self, program: str) -> None:
        self.program, self.runs, self.faults, self.slowest, self.most = program, 0, 0, 0.0, 0
        self.room = tempfile.mkdtemp()
        atexit.register(shutil.rmtree, self.room, True)
        self.pool = ThreadPoolExecutor(max(1, len(os.sched_getaffinity(0)) // 2))

    def file(self, name: str, bytes: bytes) -> str:
        path = os.path.join(self.room, name)
        with open(path, "wb") as it:
            it.write(bytes)
        return path

    def run(self, words: Sequence[str], env: Any = None, seconds: float = 60) -> Any:
        began = time.time()
        try:
            it = subprocess.run([self.program, *words], capture_output=True, timeout=seconds, env={**os.environ, **(env or {})})
            return it.returncode, it.stdout, it.stderr, time.time() - began
        except subprocess.TimeoutExpired:
            return "too slow", b"", b"", time.time() - began

    def judge(self, what: str, words: Sequence[str], env: Any = None, seconds: float = 60, wanted: Any = None) -> Any:
        """Runs, and tells where the run ended as none may."""
        status, out, err, took = self.run(words, env, seconds)
        self.runs, self.slowest = self.runs + 1, max(self.slowest, took)
        fine = (err in LINES[status] if status in LINES else status in STARTS and err.startswith(STARTS[status]) and err.count(b"\n") == 1)
        fine = fine and (status in (0, 3) or out == b"" or words[0] == "live" and ACTS.fullmatch(out)) and (wanted is None or status in wanted)
        if not fine:
            self.faults += 1
            print(f"{what}: {' '.join(words)}: status {status}, {len(out)} bytes, {err[:80]!r}")
        return status, out

    def judge_all(self, runs: Iterable[Any]) -> list[Any]:
        def judged(it: Any) -> Any:
            return self.judge(*it[:2], **(it[2] if len(it) > 2 else {}))

        return [*self.pool.map(judged, runs)]


def read(name: str) -> bytes:
    with open(os.path.join(EXAMPLES, name), "rb") as it:
        return it.read()


def damaged(bytes: bytes, step: int = 1) -> Any:
    """The bytes with each changed to eight values, doubled, and left out with all behind it."""
    for at in range(0, len(bytes), step):
        was = bytes[at]
        for new in sorted({0, 1, was - 1, was + 1, 0x7F, 0x80, 0xFF, was ^ 0x10}):
            if 0 <= new < 256 and new != was:
                yield f"byte {at} as {new:02x}", bytes[:at] + new.to_bytes() + bytes[at + 1:]
        yield f"byte {at} twice", bytes[:at] + bytes[at:at + 1] + bytes[at:]
        yield f"{at} bytes", bytes[:at]


def in_pieces(items: Iterator[Any], size: int) -> Iterator[list[Any]]:
    return iter(lambda: list(itertools.islice(items, size)), [])


def damage(bench: Bench, quick: bool) -> None:
    for graph, scenario in (("pair.toml", "pair-scenario.toml"), ("branching.toml", None), ("controller.toml", None), ("ordered.toml", None)):
        path = os.path.join(EXAMPLES, graph)
        packed = bench.judge("pack", ["compile", path])[1]
        texts: list[tuple[str, bytes, Callable[[str], list[str]]]] = [("graph", read(graph), lambda it: ["show", it])]
        texts.append(("pack", packed, lambda it: ["check", path, it]))
        pack = bench.file("whole.pack", packed)
        played = bench.judge("play", ["play", path, pack, bench.file("zero.toml", b""), "--turns", "1"])[1]
        texts.append(("log", log_of(played.decode()).encode(), lambda it: ["audit", path, pack, it]))
        if scenario:
            texts.append(("scenario", read(scenario), lambda it: ["play", path, pack, it, "--turns", "1"]))
            texts.append(("stream", read("pair-N2.stream"), lambda it: ["live", pack, "N2", it]))
        for kind, bytes, words in texts:
            step = (101 if quick else 1) if len(bytes) < 4000 else (997 if quick else 13)
            for piece in in_pieces(damaged(bytes, step), 64):
                runs = [(f"{kind} of {graph}, {what}", words(bench.file(f"damaged-{i}", new))) for i, (what, new) in enumerate(piece)]
                bench.judge_all(runs)
            print(f"{kind} of {graph}: {len(bytes)} bytes, one of {step} damaged")


def padded_log(text: bytes, size: int) -> bytes:
    """A log with its last line again and again, and then a part of it."""
    last = text.splitlines(True)[-1]
    return (text + last * (size // len(last)))[:size]


def limits(bench: Bench, quick: bool) -> None:
    pair = os.path.join(EXAMPLES, "pair.toml")
    pack = bench.file("pair.pack", bench.judge("pack", ["compile", pair])[1])
    text, most = read("pair.toml"), 1 << 24

    def padded(text: bytes, size: int) -> bytes:
        return text + b"\n#" + b"x" * (size - len(text) - 2)

    graph, long = bench.file("most.toml", padded(text, most)), bench.file("more.toml", padded(text, most + 1))
    bench.judge("graph of 16 MiB", ["show", graph], wanted=(0,))
    bench.judge("graph of 16 MiB and a byte", ["show", long], wanted=(4,))
    said = read("pair-scenario.toml")
    scenario, longer = bench.file("most-scenario.toml", padded(said, most)), bench.file("more-scenario.toml", padded(said, most + 1))
    bench.judge("scenario of 16 MiB", ["play", pair, pack, scenario, "--turns", "0"], wanted=(0,))
    bench.judge("scenario of 16 MiB and a byte", ["play", pair, pack, longer, "--turns", "0"], wanted=(4,))
    large = bench.file("large.pack", b"CPGC" + bytes(1 << 28))
    bench.judge("pack of 256 MiB and four bytes", ["check", pair, large], wanted=(4,))
    large = bench.file("large.pack", open(pack, "rb").read() + bytes((1 << 28) - os.path.getsize(pack)))
    bench.judge("pack of 256 MiB", ["check", pair, large], wanted=(4,))
    log = read("pair-early.log")
    bench.judge("log of 16 MiB", ["audit", pair, pack, bench.file("log", padded_log(log, most))], wanted=(0, 4))
    bench.judge("log of 16 MiB and a byte", ["audit", pair, pack, bench.file("log", padded_log(log, most + 1))], wanted=(4,))
    frames = record(FRAME, 90, 2, 1) * most
    for what, more in (("and no close", b""), ("and a byte", b"\2"), ("and a close", record(CLOSE, 105))):
        bench.judge(f"16,777,216 frames {what}", ["live", pack, "N2", bench.file("stream", frames + more)], wanted=(4,))
    bench.judge("16,777,214 frames, the end of B and a close", ["live", pack, "N2", bench.file("stream", frames[28:] + record(END, 105, 1) + record(CLOSE, 105))], wanted=(0,))
    used = resource.getrusage(resource.RUSAGE_CHILDREN).ru_maxrss // 1024
    print(f"limits: slowest {bench.slowest:.2f} s, most memory of a run {used} MiB")


def depth(bench: Bench, quick: bool) -> None:
    pair = os.path.join(EXAMPLES, "pair.toml")
    pack = bench.judge("pack", ["compile", pair])[1]
    million = 1 << 20
    cases = {
        "16 MiB of [": b"[" * (16 * million), "nested arrays": b"faults = " + b"[" * million + b"]" * million, "nested tables": b"a = " + b"{a=" * 100_000 + b"1" + b"}" * 100_000,
        "dotted keys": b"a" + b".a" * million + b" = 1\n", "a key of a megabyte": b"x" * million + b" = 1\n", "a text of 16 MiB": b'faults = "' + b"x" * (16 * million - 20) + b'"\n',
        "100,000 tables": b"".join(b"[t%d]\n" % i for i in range(100_000)), "100,000 nodes": b"faults = 0\ndeadline = 1\n" + b"[[node]]\nname = \"N\"\n" * 100_000,
        "an order of a million names": b"faults = 0\ndeadline = 1\norder = [" + b'"N",' * million + b"]\n",
        "a number of 10,000 digits": b"faults = " + b"9" * 10_000 + b"\n", "a float of 10,000 digits": b"faults = 0." + b"9" * 10_000 + b"\n",
        "100,000 keys": b"".join(b"k%d = 1\n" % i for i in range(100_000)),
        "one key 100,000 times": b"faults = 1\n" * 100_000, "no text": bytes(range(256)) * 4096, "line feeds": b"\n" * (16 * million), "quotes": b'"' * million, "comments": b"#\n" * (8 * million),
    }
    for what, text in cases.items():
        path = bench.file("deep.toml", text)
        bench.judge(what, ["show", path], seconds=10, wanted=(4,))
        bench.judge(what, ["play", pair, bench.file("p", pack), path, "--turns", "0"], seconds=10, wanted=(4, 0))
    for at in range(0, len(pack) - 1, 1 if len(pack) < 4000 else 7):
        bench.judge("a pack that claims 65,535", ["check", pair, bench.file("claims", pack[:at] + b"\xff\xff")], seconds=10, wanted=(4,))
    print(f"depth: slowest {bench.slowest:.2f} s")


def limited(size: int) -> Any:
    """Lets a program write so many bytes to a file, and no more; its own end isn't a signal's."""
    def begin() -> None:
        signal.signal(signal.SIGXFSZ, signal.SIG_IGN)
        resource.setrlimit(resource.RLIMIT_FSIZE, (size, size))
    return begin


def cut(bench: Bench, words: Sequence[str], size: int, stream: Any) -> Any:
    """Runs with an output, or an error output, in a file that takes so many bytes: the status, the file, and the other stream."""
    path = os.path.join(bench.room, f"cut-{stream}-{size}")
    with open(path, "wb") as it:
        ways: Any = {"stdout": it, "stderr": subprocess.PIPE} if stream == "out" else {"stdout": subprocess.PIPE, "stderr": it}
        done = subprocess.run([bench.program, *words], preexec_fn=limited(size), timeout=60, **ways)
    bench.runs += 1
    with open(path, "rb") as it:
        return done.returncode, it.read(), (done.stderr if stream == "out" else done.stdout)


def files(bench: Bench, quick: bool) -> None:
    pair, scenario, late = (os.path.join(EXAMPLES, it) for it in ("pair.toml", "pair-scenario.toml", "late.toml"))
    pack = bench.file("pair.pack", bench.judge("pack", ["compile", pair])[1])
    log, stream, empty = os.path.join(EXAMPLES, "pair.log"), os.path.join(EXAMPLES, "pair-N2.stream"), bench.file("empty", b"")
    periods = ["hyper", "20", os.path.join(EXAMPLES, "control.toml"), "30", os.path.join(EXAMPLES, "log.toml")]
    commands = [["show", pair], ["compile", pair], ["check", pair, pack], ["play", pair, pack, scenario, "--turns", "0"], ["node", pack, "N2"]]
    commands += [["live", pack, "N2", stream], ["audit", pair, pack, log], ["tune", pair], ["trial", "7"], periods]
    for words in commands:
        out, wrong = bench.run(words)[1], 0
        for size in range(0, len(out), 37 if quick else 1):
            wrong += cut(bench, words, size, "out") != (3, out[:size], b"cpgc: write fault\n")
        unread = [it for it in range(len(words)) if os.path.exists(words[it])]
        for at in unread:
            for other in (bench.room, os.path.join(bench.room, "nothing")):
                bench.judge("a file that can't be read", [*words[:at], other, *words[at + 1:]], wanted=(2,))
        bench.faults += wrong
        print(f"files, {words[0]}: {len(out)} bytes, {wrong} outputs cut otherwise; {2 * len(unread)} files that can't be read")
    unordered = bench.file("unordered.toml", read("ordered.toml").replace(b'["X", "Y"]', b'["X"]'))
    wide, frozen = (os.path.join(EXAMPLES, it) for it in ("too-wide.toml", "pair-frozen.toml"))
    for words in (["shew"], ["show", unordered], ["show", bench.room], ["show", empty], ["show", late], ["show", wide], ["check", frozen, pack]):
        status, _, line, _ = bench.run(words)
        wrong = sum(cut(bench, words, size, "err") != (3, line[:size], b"") for size in range(len(line)))
        bench.faults += wrong
        print(f"files, status {status}: {len(line)} bytes, {wrong} lines cut otherwise")


def memory(bench: Bench, quick: bool) -> None:
    source, library = bench.file("refuser.c", REFUSER.encode()), os.path.join(bench.room, "refuser.so")
    subprocess.run(["cc", "-shared", "-fPIC", "-O1", "-w", "-o", library, source, "-ldl"], check=True)
    pair, scenario = (os.path.join(EXAMPLES, it) for it in ("pair.toml", "pair-scenario.toml"))
    controller = os.path.join(EXAMPLES, "controller.toml")
    packs = {it: bench.file(f"{i}.pack", bench.judge("pack", ["compile", it])[1]) for i, it in enumerate((pair, controller))}
    damaged = bench.file("damaged.pack", open(packs[pair], "rb").read()[:-1])
    zero = bench.file("zero.toml", b"")
    commands = []
    for graph in (pair, controller):
        node = "N1"
        played = bench.judge("play", ["play", graph, packs[graph], zero, "--turns", "1"])[1]
        commands.append(["audit", graph, packs[graph], bench.file(f"{os.path.basename(graph)}.log", log_of(played.decode()).encode())])
        commands += [["show", graph], ["compile", graph], ["check", graph, packs[graph]], ["play", graph, packs[graph], zero, "--turns", "1"], ["node", packs[graph], node]]
        commands += [["hyper", "1000000", graph], ["tune", graph]]
    commands += [["check", pair, damaged], ["node", damaged, "N1"], ["trial", "7"], ["live", packs[pair], "N2", os.path.join(EXAMPLES, "pair-N2.stream")]]
    for words in commands:
        wanted, out, err, _ = bench.run(words)
        count = os.path.join(bench.room, "count")
        bench.run(words, {"LD_PRELOAD": library, "COUNT_TO": count})
        number = int(open(count).read()) if os.path.exists(count) else 0
        most = 60 if quick else 1500
        places = [*range(1, min(number, most) + 1), *range(most + 1, number + 1, max(1, (number - most) // most))]
        found = bench.judge_all([(f"allocation {n}", words, {"env": {"LD_PRELOAD": library, "REFUSE_AT": str(n)}, "wanted": (8, wanted)}) for n in places])
        # (where memory doesn't matter to the answer, it is the answer of a run with enough)
        odd = sum(it != (wanted, out) and (it[0] != 8 or it[1] != out[:len(it[1])] or it[1] != b"" and words[0] != "live") for it in found)
        bench.faults += odd
        print(f"memory, {' '.join(os.path.basename(it) for it in words)}: {number} allocations, {len(places)} of them refused in turn, {sum(it[0] == 8 for it in found)} times status 8, {odd} odd")


def extremes(bench: Bench, quick: bool) -> None:
    for name, (_, command, wanted, seconds, most, _) in extreme_cases.CASES.items():
        status, took, memory, line = extreme_cases.run(bench.program, name, bench.file)
        fine = status == wanted and took <= seconds and memory <= most
        bench.runs, bench.faults, bench.slowest = bench.runs + 1, bench.faults + (not fine), max(bench.slowest, took)
        said = "" if fine else f", {line[:60]!r}, where {seconds} s and {most} MiB are the most"
        print(f"extremes, {name}: {command} ended with {status} in {took:.2f} s with {memory:.0f} MiB{said}", flush=True)


def main() -> int:
    parts = {"damage": damage, "limits": limits, "depth": depth, "files": files, "memory": memory, "extremes": extremes}
    words = words_with_program(__doc__)
    words.add_argument("--quick", action="store_true", help="a sample of each part")
    words.add_argument("parts", metavar="PART", nargs="*", help=f"of {', '.join(parts)}; all where none is said")
    said = words.parse_intermixed_args()
    if unknown := [it for it in said.parts if it not in parts]:
        words.error(f"{unknown[0]} is no part")
    bench = Bench(said.program)
    for it in said.parts or parts:
        parts[it](bench, said.quick)
    print(f"{bench.runs} runs, {bench.faults} ended as none may; the slowest took {bench.slowest:.2f} s")
    return 1 if bench.faults else 0
