"""The refusals of a graph file, and of several that `hyper` joins."""
from __future__ import annotations

import re

from cpgc_tools.explain.files import MOST_LISTED, Files, graph_with, listed, mend, near, nearest
from cpgc_tools.explain.table import Sentences, explains
from cpgc_tools.graph import LIMIT, File, Sentence, has_type, in_range, keys_of, rule_of, shown, wanted
from cpgc_tools.play import scenario_of
from cpgc_tools.toml_places import Path, Places, fault_at

COUNTS = {"node": "nodes", "slot": "slots", "process": "processes", "edge": "edges"}
DEEPEST = 8  # up to which the place of a value is told
TWICE = re.compile("Cannot (overwrite|declare|redefine|mutate)|Duplicate inline table key")  # as tomllib says that a key stands there twice
PERIODS, UNITS, PRIORITIES = ("period", "periods", "cycle", "hyperperiod", "rate"), ("unit", "units", "time_unit"), ("priority", "prio", "priorities")
PLACE = "(top|(node|slot|process|edge) [0-9]+) ([a-z]+)"


@explains(4, "^cpgc: refused 1 not toml$")
def not_toml(files: Files) -> Sentences:
    file = graph_with(files, lambda it: toml_fault(it))
    yield from not_toml_of(file, "the graph file is no TOML document")


def not_toml_of(file: File, otherwise: str) -> Sentences:
    """Why a file is no TOML document, or a sentence if no reason is found."""
    fault = toml_fault(file)
    twice = Places(file.text).doubled if fault and TWICE.search(fault) else None
    if twice:
        path, first, second = twice
        for what, at in ("stands there a second time", second), ("stands here already", first):
            yield Sentence.of(f"{path[-1]} {what}", file.path, *Places(file.text).place(at))
        yield mend("leave one of the two out, or make them one; [[process]] and its like may stand there many times, but not beside process = ..")
        return
    yield fault or (Sentence.of(otherwise, file.path) if file.path else otherwise)
    yield mend(hint_of(fault, file.bytes))


def hint_of(fault: str | None, content: bytes) -> str:
    if content.startswith(b"CPGT"):
        return "this is a pack: do the words stand in another order?"
    if fault and "value" in fault:
        return "write text in quotes, numbers bare, and true or false in small letters"
    return "put the text right there; an editor with a TOML mode shows the rest"


def toml_fault(file: File) -> Sentence | None:
    """The first place at which a text is no TOML, as far as another reader finds it."""
    try:
        text = file.bytes.decode()
    except UnicodeDecodeError as fault:
        return Sentence.of(f"byte {fault.start} isn't UTF-8", file.path, file.bytes.count(b"\n", 0, fault.start) + 1)
    placed = fault_at(text.replace("\r\n", "\n"))
    return Sentence.of(placed[1], file.path, placed[0]) if placed else great_number(file)


def great_number(file: File) -> Sentence | None:
    """A whole number that cpgc doesn't take: the first one that isn't deeper than others."""
    left: list[tuple[object, Path]] = [(file.document, ())]
    for value, path in left:
        if isinstance(value, dict):
            left += [(it, (*path, key) if len(path) < DEEPEST else path) for key, it in value.items()]
        elif isinstance(value, list):
            left += [(it, (*path, number) if len(path) < DEEPEST else path) for number, it in enumerate(value)]
        elif isinstance(value, int) and not -2**63 <= value < 2**63:
            return file.at(f"the number {shown(value)} is outside 64 bits", *path)
    return None


def place(said: str) -> tuple[str, int]:
    table, _, number = said.partition(" ")
    return table, int(number or 0)


@explains(4, f"^cpgc: refused 2 field {PLACE}$")
def field(files: Files, said: str, _: str, key: str) -> Sentences:
    table, number = place(said)
    if key == "unknown":
        file = graph_with(files, lambda it: unknown_keys(it, table, number))
        yield from unknown_field(file, table, number)
        return
    file = graph_with(files, lambda it: it.has(table, number) and not has_type(table, key, it.written(table, number).get(key)))
    entry, called = file.written(table, number), file.called(table, number)
    if key in entry:
        yield file.at(f"{called} has {key} = {shown(entry[key])}, which isn't {wanted(table, key)}", *path_of(table, number, key))
        quoted = isinstance(entry[key], str) and wants_no_text(table, key)
        finer = isinstance(entry[key], float) and wants_no_text(table, key)
        yield mend(f"give it {wanted(table, key)}" + ", without quotes" * quoted + "; for fractions take a smaller time unit in the whole file" * finer
                   + "; no unit is written, and all times of a file are in the same" * (quoted and entry[key][:1].isdigit()))
        return
    yield file.at(f"{called} has no {key}, which it needs", *path_of(table, number))
    others: list[tuple[str, int]] = [(kind, n) for kind in COUNTS for n in range(len(file.entries(kind))) if table == "top" and key in file.written(kind, n)]
    astray = [it for it in others if key not in keys_of(it[0])] or others
    typo = nearest(key, unknown_keys(file, table, number))
    if typo:
        yield file.at(f"{typo} stands there, which is no key", *path_of(table, number, typo))
        yield mend(f"write {key} in its place")
    elif astray:
        yield file.at(f"a {key} stands in {file.called(*astray[0])}", *astray[0], key)
        yield mend(f"{key} of the graph goes before the first [[..]]")
    else:
        yield mend(f"add {key} = .., {wanted(table, key)}")


def wants_no_text(table: str, key: str) -> bool:
    rule = rule_of(table, key)
    return rule is not None and rule["type"] in ("integer", "boolean")


def unknown_field(file: File, table: str, number: int) -> Sentences:
    keys = unknown_keys(file, table, number)
    if not keys:
        yield file.at(f"{file.called(table, number)} has a key that is none of its keys", *path_of(table, number))
        yield mend(f"its keys are {', '.join(keys_of(table))}")
        return
    elsewhere = [kind for kind in ("top", *COUNTS) if kind != table and keys[0] in keys_of(kind)]
    for key in keys:
        yield file.at(f"{file.called(table, number)}: {key} is none of its keys{near(key, keys_of(table))}", *path_of(table, number, key))
    if keys[0] in PERIODS:
        yield mend("periods stand in no graph file: cpgc hyper PERIOD GRAPH .. repeats a graph by its period; its deadline is at most that")
    elif keys[0] in PRIORITIES:
        yield mend("there are no priorities: the key order of the graph lists all processes, and each node runs its own in that order")
    elif keys[0] in UNITS:
        yield mend("no unit is written: all times of a file are whole numbers in the same one")
    elif elsewhere and elsewhere[0] == "top":
        yield mend(f"{keys[0]} is of the graph, and goes before the first [[..]]")
    else:
        yield mend(f"its keys are {', '.join(keys_of(table))}" + (f"; {keys[0]} is of a {elsewhere[0]}" if elsewhere else ""))


def unknown_keys(file: File, table: str, number: int) -> list[str]:
    keys = keys_of(table)
    found = [key for key in file.places.keys(*path_of(table, number)) if key not in keys]
    return found or [key for key in file.written(table, number) if key not in keys]


def path_of(table: str, number: int, *key: str) -> Path:
    if table == "top":
        return key
    return (table, number, *key)


@explains(4, "^cpgc: refused 3 double (node|slot|process) ([0-9]+) (name|node)$")
def double(files: Files, table: str, said: str, key: str) -> Sentences:
    number = int(said)

    def name_of(it: File, n: int) -> object:
        return it.entry(table, n).get(key, n)

    def first(it: File) -> int | None:
        return next((n for n in range(min(number, len(it.entries(table)))) if name_of(it, n) == name_of(it, number)), None)

    file = graph_with(files, lambda it: first(it) is not None)
    name, earlier = file.entry(table, number).get(key), first(file)
    what = f"slot {number} is of {name}, which has one already" if table == "slot" else f"{table} {number} is named {name}, as an earlier one"
    yield file.at(what, table, number, key)
    if earlier is not None:
        yield file.at(f"the earlier one is {table} {earlier}", table, earlier, key)
    yield mend({
        "slot": "leave one of them out: a node has at most one slot in a round", "process": "give one of them another name, also where edges say it",
        "node": "give one of them another name, or leave it out"}[table])


@explains(4, "^cpgc: refused 3 double top order$")
def double_in_order(files: Files) -> Sentences:
    def first(it: File) -> int | None:
        places: dict[str, int] = {}
        return next((n for n, name in enumerate(order_of(it)) if places.setdefault(name, n) < n), None)

    file = graph_with(files, lambda it: first(it) is not None)
    number = first(file)
    yield order_at(file, "order names a process twice" if number is None else f"order names {order_of(file)[number]} twice", number)
    yield mend("name each process once")


@explains(4, "^cpgc: refused 4 unknown (slot|process|edge) ([0-9]+) (node|from|to)$")
def unknown(files: Files, table: str, said: str, key: str) -> Sentences:
    number, kind = int(said), "node" if key == "node" else "process"
    file = graph_with(files, lambda it: it.entry(table, number).get(key, ...) not in (*it.names(kind), ...))
    name, names = file.entry(table, number).get(key), file.names(kind)
    other = "process" if kind == "node" else "node"
    yield file.at(f"{file.called(table, number)}: {key} = {shown(name)} is the name of no {kind}{near(name, names)}", table, number, key)
    known = f"{name} is a {other}; {key} names a {kind}"
    yield mend(known if name in file.names(other) else f"write one of {listed(names)}, or add {name} as a {kind}")


@explains(4, "^cpgc: refused 4 unknown top order$")
def unknown_in_order(files: Files) -> Sentences:
    def first(it: File) -> int | None:
        known = set(it.names("process"))
        return next((n for n, name in enumerate(order_of(it)) if name not in known), None)

    file = graph_with(files, lambda it: first(it) is not None)
    number, names = first(file), file.names("process")
    name = None if number is None else order_of(file)[number]
    yield order_at(file, f"order names {name or 'something'}, which is no process{near(name, names) if name else ''}", number)
    yield mend(f"name each process of the graph once: {listed(names)}")


@explains(4, "^cpgc: refused 5 limit (nodes|slots|processes|edges|conditions)$")
def too_many(files: Files, what: str) -> Sentences:
    kind = next((it for it, many in COUNTS.items() if many == what), None)
    most = 32 if kind is None else (rule_of("top", kind) or {})["maxItems"]

    def count(it: File) -> int:
        return len(it.entries(kind)) if kind else len(deciding(it))

    file = graph_with(files, lambda it: count(it) > most)
    place_of: Path = ()
    if kind:
        place_of = kind, most
    else:
        beyond = set(deciding(file)[most:])
        over = [n for n, it in enumerate(file.entries("edge")) if it.get("from") in beyond and "when" in it]
        if over:
            place_of = "edge", over[0]
    yield file.at(f"there are {count(file)} {what}, and at most {most} may be" + ("; here is the first that is over" if place_of else ""), *place_of)
    yield mend("a graph of this size isn't taken: join processes, or leave some out" if what != "conditions" else
               "each process with an edge that has `when` has a condition: fewer of them may decide")


def deciding(file: File) -> list[str]:
    """The names from which edges with `when` lead, in their order."""
    return list(dict.fromkeys(str(it.get("from")) for it in file.entries("edge") if "when" in it))


@explains(4, "^cpgc: refused 5 limit (top|(slot|process|edge) [0-9]+) ([a-z]+)$")
def out_of_range(files: Files, said: str, _: str, key: str) -> Sentences:
    table, number = place(said)

    def outside(it: File) -> bool:
        value = it.entry(table, number).get(key)
        return value is not None and not in_range(table, key, value)

    file = graph_with(files, outside)
    value = file.entry(table, number).get(key)
    yield file.at(f"{file.called(table, number)} has {key} = {shown(value)}, which isn't {wanted(table, key)}", *path_of(table, number, key))
    yield mend(f"give it {wanted(table, key)}" + "; for more, take a larger time unit in the whole file" * (isinstance(value, int) and value > LIMIT))


@explains(4, "^cpgc: refused 6 cycle( [^ ]+)+$")
def cycle(files: Files, _: str) -> Sentences:
    names = files.line.split(" ")[4:]

    def edges_of(it: File) -> list[int | None]:
        ends = [(e.get("from"), e.get("to")) for e in it.entries("edge")]
        return [ends.index(pair) if pair in ends else None for pair in zip(names, names[1:] + names[:1])]

    file = graph_with(files, lambda it: None not in edges_of(it))
    yield file.named(f"the edges lead around: {' '.join(names + names[:1])}", "process", names[0])
    for number in edges_of(file):
        if number is not None:
            yield file.at(file.called("edge", number), "edge", number)
    yield mend("take one of these edges out, or turn it round: a process can't wait for itself")


def order_of(file: File) -> list[str]:
    """What the key `order` lists, as far as it is a list of names."""
    found: list[str] = file.entry("top", 0).get("order", [])
    return found


def order_at(file: File, what: str, number: int | None) -> str:
    """A sentence on the key `order`, or on one of its names."""
    return file.at(what, "order", *(() if number is None else (number,)))


@explains(4, "^cpgc: refused 7 alternatives ([^ ]+) in (.+)$")
def alternatives(files: Files, name: str, scenario: str) -> Sentences:
    file = graph_with(files, lambda it: it.of_name("process", name) is not None)
    live = live_inputs(file, name, scenario)
    yield file.named(f"the join {name} has two inputs that are live at once, in {scenario}", "process", name)
    for number in live[:MOST_LISTED]:
        yield file.at(f"{file.called('edge', number)} is live then", "edge", number)
    if len(live) > MOST_LISTED:
        yield f"and {len(live) - MOST_LISTED} more edges are live then"
    yield mend("a join takes one of several inputs: let `when` part them, or take join = true out, so that it waits for all")


def live_inputs(file: File, name: str, scenario: str) -> list[int]:
    """The edges to a process that are live with the values that a scenario has."""
    graph = file.graph()
    if graph is None or name not in graph.number:
        return []
    true = {graph.number[it] for it in scenario_of(scenario).true if it in graph.number}
    try:
        active = graph.active(true)
    except ValueError:
        return []
    return [it.number for it in graph.edges if it.target == graph.number[name] and it.source in active and it.when in (None, it.source in true)]


@explains(4, "^cpgc: refused 8 slot ([^ ]+)$")
def no_slot(files: Files, name: str) -> Sentences:
    file = graph_with(files, lambda it: name in it.names("node") and name not in [slot.get("node") for slot in it.entries("slot")])
    on = {it.get("name"): it.get("node") for it in file.entries("process")}
    edges = list(enumerate(file.entries("edge")))
    sent = [n for n, it in edges if on.get(it.get("from")) == name != on.get(it.get("to"))]
    tells = [n for n, it in edges if on.get(it.get("from")) == name and "when" in it]
    yield file.named(f"node {name} has no slot, though it sends", "node", name)
    if sent:
        yield file.at(f"{file.called('edge', sent[0])} is a message from {name}", "edge", sent[0])
    elif tells:
        edge = file.called("edge", tells[0])
        yield file.at(f"by {edge} {edges[tells[0]][1]['from']} has a condition, of which all other nodes are told", "edge", tells[0])
    yield mend(f'add a slot: {{ node = "{name}", length = .., bytes = .. }}')


@explains(4, "^cpgc: refused 9 big e([0-9]+)$")
def big(files: Files, said: str) -> Sentences:
    number = int(said)

    def slot_of(it: File) -> int | None:
        on = {process.get("name"): process.get("node") for process in it.entries("process")}
        sender = on.get(it.entry("edge", number).get("from"))
        return next((n for n, slot in enumerate(it.entries("slot")) if slot.get("node") == sender), None)

    def is_big(it: File) -> bool:
        slot = slot_of(it)
        return slot is not None and it.entry("edge", number).get("bytes", 1) > it.entry("slot", slot).get("bytes", 0)

    file = graph_with(files, is_big)
    slot, size = slot_of(file), file.entry("edge", number).get("bytes", 1)
    yield file.at(f"the message of {file.called('edge', number)} has {size} bytes", "edge", number, "bytes")
    if slot is not None:
        yield file.at(f"{file.called('slot', slot)} takes {file.entry('slot', slot).get('bytes')}", "slot", slot, "bytes")
    yield mend(f"let the slot take {size} bytes, and last as long as these need; or send less")


@explains(4, "^cpgc: refused 18 tracks$")
def tracks(files: Files) -> Sentences:
    file = graph_with(files, lambda it: len(deciding(it)) >= 14)
    having = deciding(file)
    yield file.at(f"the conditions have more than 16,384 outcomes; there are {len(having)}: {listed(having)}", *(() if not having else ("edge",)))
    yield mend("let fewer processes decide, or let one decide only where another has gone one way: what isn't active has no outcome")


@explains(4, "^cpgc: refused 22 hyper (range|differ|over|name|order) ([0-9]+)$")
def hyper_part(files: Files, why: str, said: str) -> Sentences:
    number = int(said)
    file = files.graphs[number] if number < len(files.graphs) else File("")
    periods = [int(it) for it in files.words if is_period(it)]
    period = periods[number] if number < len(periods) else None
    if why == "range":
        yield f"the period {'of' if period is None else f'{period} of'} part {number}{of(file)} isn't from 1 to 1,000,000,000"
        yield mend("give it such a period")
    elif why == "differ":
        first = files.graphs[0] if files.graphs else File("")
        key = next((key for key in ("faults", "node", "slot") if alike(first, key) != alike(file, key)), "faults")
        yield file.at(f"{COUNTS.get(key, key)} of part {number} differ from those of part 0", key)
        yield first.at("here are those of part 0", key)
        yield mend("all parts run on the same nodes with the same slots and faults: write them alike, in the same order")
    elif why == "over":
        found: list[tuple[str, int, Path]] = [("deadline", file.entry("top", 0).get("deadline", 0), ("deadline",))]
        found += [(f"the release of {file.called('process', n)}", it.get("release", 0), ("process", n, "release"))
                  for n, it in enumerate(file.entries("process"))]
        what, value, path = next((it for it in found if period is not None and it[1] > period), found[0])
        yield file.at(f"{what} is {value}, after the period{'' if period is None else f' of {period}'} of part {number}", *path)
        yield mend("lower it, or take a longer period: an instance is over before the next one comes")
    elif why == "order":
        yield file.at(f"part {number}{of(file)} has the key order, which a part can't have", "order")
        yield mend("take it out, and give an order to the graph that hyper writes, which names all copies")
    else:
        longest = max(map(str, file.names("process")), key=len, default="a name")
        yield file.named(f"a copy of {longest}, as {number}.0.{longest}, has a name of more than 32 bytes", "process", longest, "name")
        yield mend("shorten the name")


def is_period(word: str) -> bool:
    return word.isascii() and word.isdigit() and len(word) <= 20


def of(file: File) -> str:
    return f", {file.path}," if file.path else ""


def alike(file: File, key: str) -> object:
    return [it.get("name") for it in file.entries("node")] if key == "node" else file.document.get(key)


@explains(4, "^cpgc: refused 22 hyper (period|processes|edges|conditions)$")
def hyper_whole(files: Files, what: str) -> Sentences:
    periods = ", ".join(it for it in files.words if is_period(it))
    if what == "period":
        yield f"the least common multiple of the periods{' ' + periods if periods else ''} is above 1,000,000,000"
    else:
        most = {"processes": 128, "edges": 256, "conditions": 32}[what]
        yield f"all instances together have more than {most} {what}" + (f", with the periods {periods}" if periods else "")
    yield mend("take periods of which each divides the next, as 10, 20, 40, so that fewer instances come together")


@explains(4, "^cpgc: refused 24 order ([^ ]+)$")
def bad_order(files: Files, name: str) -> Sentences:
    file = graph_with(files, lambda it: "order" in it.entry("top", 0) and it.of_name("process", name) is not None)
    listing = order_of(file)
    sources = {str(it.get("from")): n for n, it in reversed([*enumerate(file.entries("edge"))]) if it.get("to") == name}
    if name not in listing:
        yield file.at(f"order lacks the process {name}", "order")
        yield file.named(f"process {name} stands here", "process", name)
        yield mend("put it in" + (f" behind {listed(sources)}" if sources else "") + ": order names each process of the graph")
        return
    early = next((it for it in sources if it in listing and listing.index(it) > listing.index(name)), None)
    if early is None:
        yield order_at(file, f"order has {name} before a process that it waits for", listing.index(name))
    else:
        yield order_at(file, f"order has {name} before {early}, for which it waits", listing.index(name))
        yield file.at(file.called("edge", sources[early]), "edge", sources[early])
    yield mend(f"put {name} behind {early or 'the sources of its inputs'}")
