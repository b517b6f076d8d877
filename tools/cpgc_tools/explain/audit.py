"""At which time a log is none of the tables any more, if `cpgc audit` says `impossible`."""
from __future__ import annotations

import re
from collections.abc import Iterator, Sequence

from cpgc_tools import cli
from cpgc_tools.explain.files import Files, listed
from cpgc_tools.graph import Sentence
from cpgc_tools.program import Program

SECONDS = 60.0  # of one of the runs


def told(files: Files, program: str | None) -> Iterator[str]:
    """Sentences on a log that no scenario gives: a log may end early, so the first time is looked for up to which it may not."""
    graph, pack, log = (files.by.get(kind) for kind in ("graph", "pack", "log"))
    if program is None or graph is None or pack is None or log is None:
        return
    head, *lines = log.bytes.decode(errors="replace").splitlines() or [""]
    until = re.fullmatch("until ([0-9]{1,20})", head)
    acts = [(int(line.split(" ")[0]), number, line) for number, line in enumerate(lines, 2) if re.match("[0-9]{1,20} ", line)]
    if until is None or len(acts) < len(lines):
        return
    try:
        with Program(program, seconds=SECONDS) as cpgc:
            paths = cpgc.file("graph.toml", graph.bytes), cpgc.file("tables.pack", pack.bytes)

            def asked(time: int) -> str:
                """What the audit says of the log up to a time."""
                beginning = "".join(f"{line}\n" for at, _, line in acts if at <= time)
                return cpgc.answer("audit", *paths, cpgc.file("beginning.log", f"until {time}\n{beginning}")).text.strip()

            low, high = -1, int(until[1])
            if asked(high) != "impossible":
                return
            while high - low > 1:
                middle = (low + high) // 2
                low, high = (low, middle) if asked(middle) == "impossible" else (middle, high)
            before = asked(low) if low >= 0 else ""
    except (cli.Failure, ValueError):
        return
    yield from at_time(log.path, high, before, [(number, line) for at, number, line in acts if at == high])


def at_time(path: str, time: int, before: str, there: Sequence[tuple[int, str]]) -> Iterator[str]:
    known = f"; before, it is the log of the scenario {before.removeprefix('scenario ')}, and perhaps of others" if before else ""
    if there:
        yield Sentence.of(f"at {time} no scenario has just {listed(line.split(' ', 1)[1] for _, line in there)}{known}", path, there[0][0])
    else:
        yield Sentence.of(f"at {time} each scenario that is left has an act, and the log has none{known}", path)
