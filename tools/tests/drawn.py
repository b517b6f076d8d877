"""Small graphs that are drawn by a seed, and all their scenarios, for tests beside a reckoning that goes through them one by one."""
from __future__ import annotations

import itertools
import json
import random
from collections.abc import Iterator

from cpgc_tools.graph import Graph
from cpgc_tools.play import Scenario

LATE = 100_000  # a deadline that none of them misses


def drawn(rng: random.Random) -> Graph:
    """A graph of two to six processes on one to three nodes, with conditions, joins, frozen items and at most two faults."""
    nodes, count = rng.randint(1, 3), rng.randint(2, 6)
    document: dict[str, object] = {"faults": rng.randint(0, 2), "deadline": LATE, "node": [{"name": f"N{n}"} for n in range(nodes)]}
    if nodes > 1:
        document["slot"] = [{"node": f"N{n}", "length": rng.choice([3, 5]), "bytes": 8} for n in rng.sample(range(nodes), nodes)]
    processes = []
    for p in range(count):
        entry: dict[str, object] = {"name": f"p{p}", "node": f"N{rng.randrange(nodes)}", "wcet": rng.randint(1, 20), "mu": rng.randint(0, 4), "alpha": rng.randint(0, 2),
                                    "parts": rng.randint(1, 3), "join": rng.random() < 0.3, "frozen": rng.random() < 0.15, "release": rng.choice([0, 0, 0, rng.randint(1, 50)])}
        processes.append(entry)
    edges = []
    for a, b in itertools.combinations(range(count), 2):
        if rng.random() < 0.35:
            when = {"when": rng.random() < 0.5} if rng.random() < 0.4 else {}
            edges.append({"from": f"p{a}", "to": f"p{b}", "frozen": rng.random() < 0.15, **when})
    return Graph.of({**document, "process": processes, "edge": edges})


def changed(rng: random.Random, it: Graph) -> Graph:
    """The graph with one or two other things."""
    document = json.loads(json.dumps(it.document))
    for _ in range(rng.randint(1, 2)):
        process, what = rng.choice(document["process"]), rng.randrange(7)
        if what < 2:
            process["wcet"] = rng.randint(1, 20)
        elif what == 2:
            document["faults"] = rng.randint(0, 2)
        elif what == 3 and document["edge"]:
            document["edge"].pop(rng.randrange(len(document["edge"])))
        elif what == 4:
            process["release"] = rng.randint(0, 40)
        elif what == 5:
            document["process"].append({"name": f"q{len(document['process'])}", "node": "N0", "wcet": rng.randint(1, 9)})
        else:
            rng.shuffle(document["process"])
    return Graph.of(document)


def scenarios(it: Graph) -> Iterator[Scenario]:
    """All scenarios: the values of active processes with conditions, and each placing of the faults on active ones."""
    deciding, seen = [process.number for process in it.deciding], set()
    for values in itertools.product((False, True), repeat=len(deciding)):
        active = it.active({p for p, value in zip(deciding, values) if value})
        true = frozenset(it.processes[p].name for p, value in zip(deciding, values) if value and p in active)
        key = frozenset(active), true
        if key not in seen:
            seen.add(key)
            names = [it.processes[p].name for p in sorted(active)]
            for faults in itertools.product(range(it.faults + 1), repeat=len(names)):
                if sum(faults) <= it.faults:
                    yield Scenario({name: count for name, count in zip(names, faults) if count}, true)
