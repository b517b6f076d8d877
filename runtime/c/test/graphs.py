"""Random graph files: 1 to 16 nodes, conditions, joins, frozen items, releases, own deadlines. docs/FORMATS.md has the keys."""


def joined(random, process, edges, decides):
    """The two inputs of a join: from one condition, the true and the false way, each directly or by a process between."""
    deciding = [it for it in range(process) if it in decides]
    if not deciding:
        return []
    source = random.choice(deciding)
    inputs = []
    for value in (True, False):
        between = [it for it in range(source + 1, process) if [e for e in edges if e[1] == it] == [(source, it, value)]]
        direct = not between or random.random() < .3
        inputs.append((source, process, value) if direct else (random.choice(between), process, None))
    return inputs


def edges_of(random, processes, decides):
    """Edges from lesser to greater numbers, and which processes are joins."""
    edges, joins = [], set()
    for it in range(1, processes):
        inputs = joined(random, it, edges, decides) if random.random() < .15 else []
        if inputs:
            joins.add(it)
        for source in [] if inputs else random.sample(range(it), min(it, random.choice([0, 1, 1, 1, 2, 2, 3]))):
            inputs.append((source, it, random.choice([True, False, None]) if source in decides else None))
        edges += inputs
    return edges, joins


def process_line(random, number, node, is_join):
    keys = [f'name = "p{number}"', f'node = "n{node}"', f"wcet = {random.randint(1, 40)}", f"parts = {random.randint(1, 4)}",
            f"alpha = {random.randint(0, 3)}", f"chi = {random.randint(0, 3)}", f"mu = {random.randint(0, 5)}"]
    if is_join:
        keys.append("join = true")
    if random.random() < .12:
        keys.append("frozen = true")
    if random.random() < .15:
        keys.append(f"release = {random.randint(0, 200)}")
    if random.random() < .1:
        keys.append(f"deadline = {random.randint(3000, 9000)}")
    return f"  {{ {', '.join(keys)} }},"


def edge_line(random, edge):
    source, target, value = edge
    keys = [f'from = "p{source}"', f'to = "p{target}"', f"bytes = {random.randint(1, 64)}"]
    if value is not None:
        keys.append(f"when = {str(value).lower()}")
    if random.random() < .2:
        keys.append("frozen = true")
    return f"  {{ {', '.join(keys)} }},"


def graph(random):
    """A graph file. It may be refused, mostly as late or for a join of which two inputs are live."""
    nodes = random.choice([1, 2, 2, 3, 3, 4, 5, 8, 16])
    processes = random.randint(1, 22) if nodes < 8 else random.randint(nodes, 32)
    decides = {it for it in range(processes) if random.random() < .25}
    edges, joins = edges_of(random, processes, decides)
    slots = random.sample(range(nodes), nodes)
    return "\n".join([
        f"faults = {random.choice([0, 1, 1, 2, 2, 3])}",
        f"deadline = {random.choice([10 ** 9, 10 ** 9, 20000])}",
        "node = [" + ", ".join(f'{{ name = "n{it}" }}' for it in range(nodes)) + "]",
        "slot = [" + ", ".join(f'{{ node = "n{it}", length = {random.randint(1, 12)}, bytes = 64 }}' for it in slots) + "]",
        "process = [",
        *(process_line(random, it, random.randrange(nodes), it in joins) for it in range(processes)),
        "]",
        "edge = [",
        *(edge_line(random, it) for it in edges),
        "]", ""])


def scenario(random, tables):
    """A scenario of a pack's graph: the faults and the value of each process, and how long some executions really run."""
    processes = tables.processes
    faults = [0] * len(processes)
    for _ in range(random.randint(0, tables.faults) if processes else 0):
        faults[random.randrange(len(processes))] += 1
    values = [process.condition == 1 and random.random() < .5 for process in processes]
    lengths = [random.randint(1, process.durations[n]) if random.random() < .4 and process.durations[n] > 0 else 0
               for process, n in zip(processes, faults)]
    return faults, values, lengths
