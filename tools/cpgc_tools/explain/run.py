"""The lines that aren't refusals of a file, and those on what a graph comes to."""
from __future__ import annotations

import os
import re

from cpgc_tools import cli, lint, why
from cpgc_tools.explain.files import COMMANDS, DOES, MOST, Files, graph_with, listed, mend, near, nearest
from cpgc_tools.explain.table import Sentences, explains
from cpgc_tools.explore.offer import offered
from cpgc_tools.graph import File, Sentence
from cpgc_tools.program import Program


SECONDS = 60.0  # of each run that asks for more: what isn't known by then isn't said


def like(name: str, names: list[str]) -> str | None:
    """The name of a file that may have been meant: one that is like it also without their endings."""
    found = nearest(name, names)
    stems = [os.path.splitext(it)[0] for it in (name, found or "")]
    return found if found and nearest(stems[0], stems[1:]) else None


def listed_in(folder: str) -> list[str]:
    """The names in a folder, none where it can't be looked at."""
    try:
        return os.listdir(folder)
    except OSError:
        return []


def edge_of(name: str) -> int:
    """The number of an edge that is called e and its number, else -1."""
    return int(name[1:]) if re.fullmatch("e[0-9]{1,9}", name) else -1


@explains(1, "^cpgc: words$")
def words(files: Files) -> Sentences:
    forms = [f"{name} {form}" for name, form in COMMANDS.items()]
    if files.command == "" and not files.words:
        yield "the commands of cpgc are"
        width = max(len(form) for form in forms)
        yield from (f"  {form:<{width}}  {DOES[name]}" for form, name in zip(forms, COMMANDS))
        yield mend("begin with one of these; man cpgc has more on each")
    elif files.command is None:
        yield f"the words of the command have no form; the forms are: {', '.join(forms)}"
        yield mend("write the command as one of these")
    elif files.command not in COMMANDS:
        found = nearest(files.command, COMMANDS, 0.5)
        yield (f"{files.command} is no command" if files.command else "a command is missing") + f": {', '.join(COMMANDS)}"
        yield mend(f"cpgc {found} {COMMANDS[found]}" if found else "begin with one of these; man cpgc has their forms")
    else:
        yield f"{files.command} is written as: cpgc {files.command} {COMMANDS[files.command]}; here is {wrong_word(files)}"
        yield mend("write it so; nothing is shortened, and a word that begins with - stands behind --")


def wrong_word(files: Files) -> str:
    """What is wrong in the words of a command."""
    rest = files.words[:files.words.index("--")] if "--" in files.words else files.words
    form = COMMANDS[files.command or ""].split(" ")
    turns = [it.partition("=")[2] or (rest[i + 1:] or [""])[0] for i, it in enumerate(rest) if it == "--turns" or it.startswith("--turns=")]
    options = [it for it in rest if it.startswith("-") and len(it) > 1 and not re.fullmatch("--turns(=.*)?", it, re.S)]
    if options:
        return f"the option {options[0]}, which there isn't{near(options[0], ['--turns'])}"
    if turns and files.command != "play":
        return "--turns, which play alone has"
    if files.command == "play" and len(turns) != 1:
        return "no --turns N" if not turns else "--turns more than once"
    count = len(files.words) - ("--" in files.words) - len(turns) - sum(it == "--turns" for it in rest)
    least = 2 if files.command == "hyper" else len(form) - 2 * ("--turns" in form)
    if files.command == "hyper" and (count % 2 or not 2 <= count <= 8):
        return f"not one to four pairs, but {count} words"
    if files.command != "hyper" and count != least:
        return f"{count} where {least} belong{'s' * (least == 1)}"
    numbers = turns + list(files.words[::2] if files.command == "hyper" else files.words if files.command == "trial" else [])
    bad = [it for it in numbers if not re.fullmatch("[0-9]{1,20}", it) or int(it) >= 2**64]
    return f"{bad[0]!r}, which is no whole number below 2^64" if bad else "a word that isn't UTF-8"


@explains(2, "^cpgc: read fault$")
def read_fault(files: Files) -> Sentences:
    for kind, file in files.order:
        if file.fault:
            yield Sentence.of(f"the {kind if kind != 'other' else 'file'} can't be read: {file.fault}", file.path)
            folder = os.path.dirname(file.path) or "."
            found = like(os.path.basename(file.path), [it for it in listed_in(folder) if it != os.path.basename(file.path)])
            yield mend(f"is {os.path.join(os.path.dirname(file.path), found)} meant?" if found else "name a file that is there and may be read")
            return
    yield "a file can't be read" + (f": one of {listed(file.path for _, file in files.order)}" if files.order else "")
    yield mend("look whether each file of the command is there and may be read; standard input is /dev/stdin")


@explains(3, "^cpgc: write fault$")
def write_fault(_: Files) -> Sentences:
    yield "standard output took only a beginning of what was to be written"
    yield mend("is the disk full, or did the reader of a pipe go away? What was written is no whole output: write it again")


@explains(4, "^cpgc: refused 16 long (graph|pack|scenario|log|stream)$")
def long(files: Files, kind: str) -> Sentences:
    file = files.get(kind) if kind != "graph" else graph_with(files, lambda it: it.size > MOST["graph"])
    most = "16,777,216 records" if kind == "stream" else f"{MOST[kind]:,} bytes"
    size = f"has {file.size:,} bytes and " if file and file.known else ""
    told = f"the {kind} {size}is longer than {most}"
    yield Sentence.of(told, file.path) if file and file.path else told
    yield mend({"log": "split the log: a beginning of it is audited, too", "stream": "close the stream by then; each cycle is a stream of its own"}.get(
        kind, "is it the right file? No lawful one is so long"))


@explains(5, "^cpgc: late ([0-9]+) by ([^ ]+) in (.+)$")
def late(files: Files, finish: str, name: str, in_: str) -> Sentences:
    file = graph_with(files, lambda it: it.of_name("process", name) is not None)
    number = file.of_name("process", name)
    if number is None and file.path:
        yield f"process {name} ends at {finish}, in {in_}; it stands in none of the files"
        yield mend(f"ask `{cli.named('why')} GRAPH` of the graph that has it")
        return
    own = file.entry("process", number) if number is not None else {}
    dues = [it for it in (file.entry("top", 0).get("deadline"), own.get("deadline")) if it is not None]
    due = f", {int(finish) - min(dues)} after its due of {min(dues)}" if dues else ""
    yield file.named(f"process {name} ends at {finish}{due}, in {in_}{any_order(file, name)}", "process", name)
    if "order" in file.entry("top", 0):
        yield file.at("it is so under this order; no other one is tried", "order")
    yield from other_units(file)
    asked, other = true_miss(files, file)
    yield from other
    unknown = "" if asked else ": another process may be what misses by less"
    yield mend(f"ask `{cli.named('why')} {file.path or 'GRAPH'}` what held it up{unknown}; `{cli.named('slack')}` says how far a wcet has to shrink")
    yield from another_order(file)


def any_order(file: File, name: str) -> str:
    """How late a process is in any order at least, as an end of a sentence."""
    try:
        it = lint.Lint(file)
        least = it.least_ends().get(it.graph.number[name])
    except (LookupError, RecursionError, ValueError):
        return ""
    return "" if least is None or least[-1][0] <= it.graph.processes[it.graph.number[name]].due else f"; no order ends it before {least[-1][0]} in all scenarios"


def other_units(file: File) -> Sentences:
    """Whether the deadline and the durations look as if they were in two units."""
    deadline = file.entry("top", 0).get("deadline")
    longer = [str(it.get("name")) for it in file.entries("process") if deadline is not None and it.get("wcet", 0) > deadline]
    if longer:
        have = "one process has" if len(longer) == 1 else f"{len(longer)} processes have"
        yield file.at(f"{have} a wcet above the deadline of {deadline} ({listed(longer, 3)}): is it in the same unit?", "deadline")
    length = sum(it.get("length", 0) for it in file.entries("slot"))
    if deadline is not None and length > deadline:
        yield file.at(f"a round of all slots lasts {length}, longer than the deadline of {deadline}: is it in the same unit?", "slot")
        return
    most = most_messages(file)
    if deadline is not None and 2 * most * length >= deadline:
        rounds = "a round" if most == 1 else f"{most} rounds"
        yield file.at(f"a way with {most} message{'s' * (most != 1)} may wait for {rounds} of {length}, half of the deadline or more: are slots in the same unit?", "slot")


def most_messages(file: File) -> int:
    """How many messages the way with the most has, 0 if that isn't known."""
    it = file.graph()
    if it is None:
        return 0
    try:
        found = [0] * len(it.processes)
        for number in it.sources_first():
            found[number] = max((found[edge.source] + it.is_message(edge) for edge in it.inputs(it.processes[number])), default=0)
        return max(found, default=0)
    except ValueError:
        return 0


def true_miss(files: Files, file: File) -> tuple[bool, list[str]]:
    """Whether the program could be asked which order misses by the least; and a sentence on its miss, if the line has another one."""
    it, found = file.graph(), re.fullmatch("cpgc: late ([0-9]+) by ([^ ]+) in .+", files.line)
    if files.program is None or it is None or found is None or found[2] not in it.number:
        return False, []
    try:
        with Program(files.program, seconds=SECONDS) as cpgc:
            case = why.Case(cpgc, it, why.late_by(files.line, it))
            over = {name: end - it.processes[it.number[name]].due for name, end in case.ends.items()}
            worst = max(over, key=over.__getitem__)
            if over[worst] >= why.late_by(files.line, it):
                return True, []
            scenario, under = case.scenario_of(worst, case.ends[worst] - 1), why.order_line(case).split(":")[0]
    except (cli.Failure, ValueError):
        return False, []
    return True, [file.named(f"{under}, which misses by less, {worst} ends at {case.ends[worst]}, {over[worst]} after its due, in {scenario}", "process", worst)]


def another_order(file: File) -> Sentences:
    """A sentence on an order that is in time and fits, as it is reckoned."""
    it = file.graph()
    offer = offered(it) if it else None
    if offer:
        yield mend(f"or take another order: under that of `{cli.named('explore')} --quick {file.path or 'GRAPH'}` its latest end would be {offer.worst}")


@explains(6, "^cpgc: too wide (start|send|tell) ([^ ]+)$")
def wide(files: Files, kind: str, name: str) -> Sentences:
    file = files.get("graph") or File("")
    yield item_at(file, kind, name, f"{item_said(file, kind, name)} might need more than 16,384 columns, or all rows up to it more than 524,288")
    if "order" in file.entry("top", 0):
        yield file.at("under this order a row as made has more than 16,384 columns, all rows have more than 524,288, or a tree on the way to them has more "
                      "than 147,456 leaves", "order")
    yield mend("freeze it, or messages that lead to it (frozen = true), so that less depends on faults; or lower faults")
    yield from another_order(file)


def item_at(graph: File, kind: str, name: str, what: str) -> str:
    """A sentence on an item, at its entry."""
    if kind != "send":
        return graph.named(what, "process", name)
    number = edge_of(name)
    return graph.at(what, "edge", number) if 0 <= number < len(graph.entries("edge")) else graph.at(what)


def item_said(graph: File, kind: str, name: str) -> str:
    if kind == "send":
        number = edge_of(name)
        return f"the message of {graph.called('edge', number) if number >= 0 and graph.entry('edge', number) else name}"
    return f"the {'start' if kind == 'start' else 'broadcast of the value'} of {name}"


@explains(8, "^cpgc: memory$")
def memory(_: Files) -> Sentences:
    yield "memory ran out"
    yield mend("give the program more memory (see ulimit -v), or make the graph smaller: fewer faults, more frozen items")
