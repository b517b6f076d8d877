"""Random packs that no graph stands behind: lawful ones, most of which break the ten rules, and damaged ones. docs/FORMATS.md has
the bytes."""


class Writer:
    def __init__(self):
        self.bytes = bytearray(b"CPGT")

    def number(self, number, size=1):
        self.bytes.extend(number.to_bytes(size, "big"))

    def name(self, name):
        self.number(len(name))
        self.bytes.extend(name.encode())


def time_of(random, most):
    return random.choice([0, 1, random.randrange(most), random.randrange(most), random.randrange(most)])


def write_head(random, out, version, faults, nodes, most):
    """Writes a head. Answers the node of each process, which of them have a condition, and the edges."""
    out.number(version), out.number(faults), out.number(nodes)
    for it in range(nodes):
        out.name(random.choice(["a", "b", "N1", f"n{it}", "x" * 32]))
    processes = random.randint(0, 7)
    at, decides = [random.randrange(nodes) for _ in range(processes)], [random.random() < .4 for _ in range(processes)]
    out.number(processes)
    for it in range(processes):
        out.name(f"p{it}"), out.number(at[it]), out.number(decides[it])
        for _ in range(faults + 1):
            out.number(time_of(random, most) if random.random() < .97 else 2 ** 60 - 1, 8)
        if version == 2:
            out.number(random.choice([0, 5, 10 ** 9]), 8), out.number(random.choice([2 ** 64 - 1, 0, 10 ** 9]), 8)
    edges = [(random.randrange(processes), random.randrange(processes)) for _ in range(random.randint(0, 8) if processes else 0)]
    out.number(len(edges), 2)
    for source, target in edges:
        out.number(source), out.number(target)
    return at, decides, edges


def write_literal(random, out, variable, faults):
    out.number(variable)
    if variable >= 128:
        low = high = random.randrange(2)
    else:
        ranges = [(low, high) for low in range(faults + 1) for high in range(low, faults + 1)]
        low, high = random.choice([it for it in ranges if it != (0, faults)])
    out.number(low), out.number(high)


def write_row(random, out, variables, faults, most):
    columns = random.choice([0, 1, 1, 2, 3, 4])
    out.number(columns, 2)
    for _ in range(columns):
        out.number(time_of(random, most) if random.random() < .98 else random.choice([2 ** 60 - 1, 2 ** 59]), 8)
        literals = sorted(random.sample(variables, min(len(variables), random.choice([0, 0, 0, 1, 1, 2, 3]))))
        out.number(len(literals))
        for variable in literals:
            write_literal(random, out, variable, faults)


def pack(random):
    """A lawful pack with arbitrary rows."""
    out = Writer()
    version, faults, nodes = random.choice([1, 1, 2]), random.choice([0, 1, 1, 2, 3, 8]), random.choice([1, 2, 2, 3, 4, 16])
    most = random.choice([6, 20, 100])
    at, decides, edges = write_head(random, out, version, faults, nodes, most)
    variables = (list(range(len(at))) if faults else []) + [128 + it for it in range(sum(decides))]
    for node in range(nodes):
        rows = at.count(node) + sum((at[a] == node) != (at[b] == node) for a, b in edges) + (sum(decides) if nodes > 1 else 0)
        for _ in range(rows):
            write_row(random, out, variables, faults, most)
    return bytes(out.bytes)


def damaged(random, bytes_):
    """A pack of which a byte, the end or both are changed."""
    out = bytearray(bytes_)
    for _ in range(random.choice([1, 1, 2])):
        kind = random.randrange(4)
        if kind == 0:
            out = out[:random.randrange(len(out) + 1)]
        elif kind == 1:
            out.append(random.randrange(256))
        elif out:
            place = random.randrange(len(out))
            out[place] = random.choice([out[place] ^ 1 << random.randrange(8), random.randrange(256), 0, 1, 2, 255])
    return bytes(out)
