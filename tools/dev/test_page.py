"""Compares what the page of tools/page shows with what `cpgc play` writes, in a headless browser.

    tools/test-page PROGRAM [--quick]
    tools/test-page PROGRAM --measure
    tools/test-page PROGRAM --screenshot FILE

PROGRAM is a built cpgc. Pages of generated graphs and of the examples are opened, and scenarios are given to each by its address. Three
things are compared: what is drawn then, and the play as text, with the play of the program; each process's latest end with that of all
scenarios, if the graph has few; and what a node is said to have heard with the play and the rows of the pack.

With `--measure` it times clicks in the page of a graph of 128 processes over 16 nodes. With `--screenshot` it writes page.png or
fly-by-wire.png, the picture of a page of docs/demo. It needs Chromium; if there is none, it says so and ends with status 0.
"""
from __future__ import annotations

import base64
import fcntl
import json
import os
import random
import select
import shutil
import subprocess
import sys
import tempfile
import time
import tomllib
from pathlib import Path
from typing import Any

from cpgc_tools import cli
from cpgc_tools import pack as pack_model

TOP = Path(__file__).resolve().parents[2]
BROWSERS = ["chromium", "chromium-browser", "google-chrome", "google-chrome-stable"]
FEW = 20000


class Trouble(Exception):
    """What ends a test, in one line."""


class Browser:
    """A headless Chromium, spoken to by a pipe: requests and answers are JSON, each with a zero byte behind it."""

    def __init__(self, program: str, room: str) -> None:
        asks, self.write = os.pipe()
        self.read, answers = os.pipe()
        far = [fcntl.fcntl(it, fcntl.F_DUPFD, 20) for it in (asks, answers)]
        words = [program, "--headless", "--no-sandbox", "--disable-gpu", "--hide-scrollbars", "--no-first-run", "--force-color-profile=srgb",
                 f"--user-data-dir={room}", "--remote-debugging-pipe", "about:blank"]

        def join() -> None:
            for it, to in zip(far, (3, 4)):
                os.dup2(it, to)

        quiet = subprocess.DEVNULL
        self.left, self.number, self.session = b"", 0, None
        self.faults: list[Any] = []
        try:
            self.child = subprocess.Popen(words, stdin=quiet, stdout=quiet, stderr=quiet, preexec_fn=join, pass_fds=(3, 4))
        except OSError as fault:
            raise Trouble(f"{program}: {fault.strerror}")
        for it in (asks, answers, *far):
            os.close(it)

    def begin(self) -> None:
        target = self.ask("Target.createTarget", url="about:blank")["targetId"]
        self.session = self.ask("Target.attachToTarget", targetId=target, flatten=True)["sessionId"]
        self.ask("Page.enable")
        self.ask("Runtime.enable")

    def message(self, until: Any) -> Any:
        while b"\0" not in self.left:
            if not select.select([self.read], [], [], max(until - time.monotonic(), 0))[0]:
                raise Trouble("the browser doesn't answer")
            piece = os.read(self.read, 1 << 20)
            if not piece:
                raise Trouble("the browser ended")
            self.left += piece
        text, self.left = self.left.split(b"\0", 1)
        it = json.loads(text)
        if it.get("method") == "Runtime.exceptionThrown":
            self.faults.append(it["params"]["exceptionDetails"].get("exception", {}).get("description", "a fault of the page"))
        return it

    def ask(self, method: str, **words: Any) -> Any:
        self.number += 1
        request = {"id": self.number, "method": method, "params": words, **({"sessionId": self.session} if self.session else {})}
        self.send(json.dumps(request).encode() + b"\0")
        until = time.monotonic() + 120
        while True:
            it = self.message(until)
            if it.get("id") == self.number:
                if "error" in it:
                    raise Trouble(f"{method}: {it['error'].get('message')}")
                return it["result"]

    def send(self, data: Any) -> None:
        try:
            while data:
                data = data[os.write(self.write, data):]
        except OSError:
            raise Trouble("the browser ended")

    def open(self, path: Any, address: str = "") -> None:
        self.ask("Page.navigate", url="about:blank")
        self.ask("Page.navigate", url=f"{path.as_uri()}{address}")
        until = time.monotonic() + 60
        while self.value("document.readyState == 'complete' && location.href != 'about:blank'") is not True:
            if time.monotonic() > until:
                raise Trouble(f"{path.name} isn't loaded")

    def value(self, text: str) -> Any:
        said = self.ask("Runtime.evaluate", expression=text, returnByValue=True, awaitPromise=True)
        if "exceptionDetails" in said:
            raise Trouble(said["exceptionDetails"].get("exception", {}).get("description", "a fault in a test").replace("\n", " "))
        return said["result"].get("value")

    def look(self, width: int, height: int, dark: bool = False, scale: float = 1) -> Any:
        """How wide and high the window is, and which colours are asked for."""
        self.ask("Emulation.setDeviceMetricsOverride", width=width, height=height, deviceScaleFactor=scale, mobile=False)
        self.ask("Emulation.setEmulatedMedia", features=[{"name": "prefers-color-scheme", "value": "dark" if dark else "light"}])

    def picture(self) -> bytes:
        return base64.b64decode(self.ask("Page.captureScreenshot", format="png")["data"])

    def close(self) -> None:
        try:
            self.session = None
            self.ask("Browser.close")
        except (Trouble, OSError):
            pass
        try:
            self.child.wait(10)
        except subprocess.TimeoutExpired:
            self.child.kill()
            self.child.wait()
        os.close(self.write)
        os.close(self.read)


# ---- graphs and scenarios -----------------------------------------------------------------------------------------------------------------

def graph_text(faults: Any, deadline: int, slots: Any, processes: Any, edges: Any, nodes: list[str]) -> str:
    """A graph file of tables with keys and values."""

    def table(it: dict[str, Any]) -> str:
        return "{ " + ", ".join(f"{key} = {json.dumps(value)}" for key, value in it.items()) + " }"

    lists = {"node": [{"name": name} for name in nodes], "slot": slots, "process": processes, "edge": edges}
    lines = [f"{name} = [\n" + "".join(f"  {table(it)},\n" for it in list) + "]" for name, list in lists.items()]
    return "\n".join([f"faults = {faults}", f"deadline = {deadline}", *lines, ""])


def graph_of(seed: int) -> str:
    """A random graph. But for each sixth one, which may be anything small, it has several nodes, conditions, frozen items, releases and
    checkpoints."""
    small = seed % 6 == 5
    for turn in range(1000):
        text = random_graph(random.Random(f"{seed} {turn}"), small)
        has_all = has(tomllib.loads(text))
        if small or all(has_all[key] for key in has_all if key != "joins"):
            return text
    raise Trouble(f"no graph of {seed}")


def random_graph(draw: random.Random, small: bool) -> str:
    """Where a process decides, one runs where it is true and another where it is false, and some of these meet in a join."""
    count, nodes, faults = (draw.randint(0, 6), draw.randint(1, 2), draw.randint(0, 3)) if small else (draw.randint(6, 20), draw.randint(2, 5), draw.randint(1, 3))
    edges, joins, guarded, met = [], set(), set(), set()

    def edge(a: int, b: int, when: Any = None) -> None:
        if (a, b) not in met:
            met.add((a, b))
            edges.append((a, b, when))

    for p in range(1, count):
        if p in guarded:
            continue
        free = [q for q in range(max(0, p - 5), p) if q not in guarded]
        for q in draw.sample(free, min(len(free), draw.choice([0, 1, 1, 2]))):
            edge(q, p)
        if p + 3 < count and not small and draw.random() < .35:
            guarded |= {p + 1, p + 2}
            edge(p, p + 1, True)
            edge(p, p + 2, False)
            if draw.random() < .7 and p + 3 < count:
                guarded.add(p + 3)
                joins.add(p + 3)
                edge(p + 1, p + 3)
                edge(p + 2, p + 3)
    names = [f"p{p}" if draw.random() < .9 else f"1.{p}.x-y" for p in range(count)]

    def chance(part: float) -> bool:
        return draw.random() < part

    processes = []
    for p, name in enumerate(names):
        it = {"name": name, "node": f"n{draw.randrange(nodes)}", "wcet": draw.randint(1, 40), "parts": draw.choice([1, 1, 2, 3, 7])}
        it |= {"alpha": draw.randint(0, 3), "chi": draw.randint(0, 3), "mu": draw.randint(0, 5)}
        it |= {"join": True} if p in joins else {}
        it |= {"frozen": True} if chance(.15) else {}
        it |= {"release": draw.randint(1, 200)} if chance(.2) else {}
        it |= {"deadline": draw.randint(3000, 9000)} if chance(.15) else {}
        processes.append(it)
    slots = [{"node": f"n{n}", "length": draw.randint(1, 12), "bytes": 64} for n in draw.sample(range(nodes), nodes)]
    made = [{"from": names[a], "to": names[b], "bytes": draw.randint(1, 64), **({} if when is None else {"when": when}), **({"frozen": True} if chance(.25) else {})}
            for a, b, when in edges]
    return graph_text(faults, draw.choice([10**9, 20000]), slots, processes, made, [f"n{n}" for n in range(nodes)])


def large() -> str:
    """128 processes over 16 nodes, two faults, nine conditions, each eighth process frozen: of random ones, one with large tables."""
    draw = random.Random(12)
    edges, guarded, deciding = [], set(), {p for p in range(1, 126) if p % 15 == 3}
    for p in range(1, 128):
        if p in guarded:
            continue
        free = [q for q in range(max(0, p - 18), p) if q not in guarded and q not in deciding]
        for q in draw.sample(free, min(len(free), draw.choice([1, 1, 2]))):
            edges.append({"from": f"p{q}", "to": f"p{p}", "bytes": draw.randint(1, 8)})
            draw.random()
        if p in deciding:
            guarded |= {p + 1, p + 2}
            edges += [{"from": f"p{p}", "to": f"p{p + 1}", "when": True, "frozen": True}, {"from": f"p{p}", "to": f"p{p + 2}", "when": False, "frozen": True}]

    def costs(p: int) -> dict[str, Any]:
        return {"wcet": draw.randint(5, 60), "parts": draw.randint(1, 4), "alpha": 2, "chi": 3, "mu": 5, "frozen": p % 8 == 2}

    processes = [{"name": f"p{p}", "node": f"N{p % 16}", **costs(p)} for p in range(128)]
    slots = [{"node": f"N{n}", "length": 4, "bytes": 8} for n in range(16)]
    return graph_text(2, 10**6, slots, processes, edges, [f"N{n}" for n in range(16)])


def scenario_of(graph: Any, draw: random.Random) -> Any:
    """A random scenario: the fault counts of processes, and the values that are true."""
    names, deciding = [it["name"] for it in graph["process"]], {it["from"] for it in graph["edge"] if "when" in it}
    faults: dict[str, int] = {}
    for _ in range(draw.choice([0, graph["faults"], draw.randint(0, graph["faults"])]) if names else 0):
        name = draw.choice(names)
        faults[name] = faults.get(name, 0) + 1
    return faults, [name for name in names if name in deciding and draw.random() < .6]


def address(faults: Any, values: Any) -> str:
    parts = ["f=" + ",".join(f"{name}:{n}" for name, n in faults.items())] if faults else []
    return "#" + "&".join(parts + (["v=" + ",".join(values)] if values else []))


def scenario_text(faults: Any, values: Any) -> str:
    return "\n".join(["[faults]", *(f'"{name}" = {n}' for name, n in faults.items()), "[values]", *(f'"{name}" = true' for name in values), ""])


# ---- what the page shows ------------------------------------------------------------------------------------------------------------------

SHOWN = """(given) => given.map(([address, time]) => {
  page.open(address);
  page.moveTime(time);
  const { model } = page, { play } = page.shown(), { px, pad } = page.scale();
  const drawn = [...document.querySelectorAll("#picture .run, #picture .frame")].filter((it) => it.style.display !== "none").map((it) => ({
    item: Number(it.dataset.item), start: Number(it.dataset.start), end: Number(it.dataset.end), faults: Number(it.dataset.faults ?? -1),
    place: (it.transform.baseVal[0].matrix.e - pad) / px, length: (it.querySelector(".edge") ?? it.querySelector("rect")).width.baseVal.value / px,
    pixel: 1 / px,
  }));
  const unheard = [];
  const numbers = (v) => (v < model.VALUE ? play.scenario.faults[v] : play.scenario.values[v - model.VALUE]);
  for (const it of [...play.runs.filter(Boolean), ...play.frames]) {
    const { low, high } = model.heard(play, it.item.node, it.start);
    for (const literal of model.literalsOf(it.column))
      if (low[literal.variable] < literal.low || high[literal.variable] > literal.high) unheard.push(`${model.nameOf(it.item)} at ${it.start}`);
  }
  model.data.nodes.forEach((_, node) => {
    const { low, high } = model.heard(play, node, Infinity);
    model.processes.forEach((_, p) => { if (play.active[p] && (numbers(p) < low[p] || numbers(p) > high[p])) unheard.push(`count of ${p}`); });
    model.deciding.forEach((p, c) => { const v = model.VALUE + c; if (play.active[p] && (numbers(v) < low[v] || numbers(v) > high[v])) unheard.push(`value of ${p}`); });
  });
  const rows = (card) => [...card.querySelectorAll("dt")].map((head) => [head.textContent, head.nextElementSibling.textContent]);
  const known = [...document.querySelectorAll("#nodes .node")].map(rows), moment = Number(document.getElementById("known-time").textContent);
  return { known, moment, trace: document.getElementById("trace").textContent, file: document.getElementById("scenario-file").textContent, hash: location.hash, drawn, unheard,
    wrong: play.wrong };
})"""

LATEST = """(few) => {
  const { model } = page, claimed = model.latest.map((it) => (it ? it.end : null));
  const shown = model.latest.map((it, p) => (it ? model.acts(model.scenarioOf(it)).runs[p].end : null));
  let all = null;
  if (model.scenarioCount() <= few) {
    all = claimed.map(() => null);
    const visit = (faults, values) => model.acts({ faults, values }).runs.forEach((run, p) => { if (run) all[p] = Math.max(all[p] ?? 0, run.end); });
    const spread = (p, left, faults, values) => {
      if (p === faults.length) return visit(faults, values);
      for (let n = 0; n <= left; n++) { faults[p] = n; spread(p + 1, left - n, faults, values); }
      faults[p] = 0;
    };
    for (let v = 0; v < 2 ** model.deciding.length; v++) spread(0, model.k, claimed.map(() => 0), model.deciding.map((_, c) => (v >> c) & 1));
  }
  return { claimed, shown, all, worst: Number(document.getElementById("worst-end").textContent) };
}"""


def drawn_lines(drawn: Any, graph: Any) -> set[str]:
    """The starts, sends and ends that are drawn, as a play writes them but for the values of conditions."""
    names, nodes = [it["name"] for it in graph["process"]], [it["node"] for it in graph["process"]]
    edges = graph["edge"]
    deciding = [name for name in names if any(it["from"] == name and "when" in it for it in edges)]
    found = set()
    for it in drawn:
        item = it["item"]
        if item < len(names):
            found |= {f"{it['start']} {nodes[item]} start {names[item]}", f"{it['end']} {nodes[item]} end {names[item]} faults {it['faults']}"}
        elif item < len(names) + len(edges):
            found.add(f"{it['start']} {nodes[names.index(edges[item - len(names)]['from'])]} send e{item - len(names)}")
        else:
            name = deciding[item - len(names) - len(edges)]
            found.add(f"{it['start']} {nodes[names.index(name)]} tell {name}")
    return found


def heard(tables: Any, node: int, lines: Any, until: Any) -> Any:
    """What a node has heard by a time, as its card in the page says it: from the lines of a play and the rows of the pack."""
    names, k = [it.name for it in tables.processes], tables.faults
    deciding = tables.deciding
    ranges = {p: (0, k) for p in range(len(names))} | {128 + c: (0, 1) for c in range(len(deciding))}
    numbers: dict[int, int] = {}
    sent: dict[tuple[str, str], int] = {}

    def cut(v: int, low: int, high: int) -> None:
        ranges[v] = max(ranges[v][0], low), min(ranges[v][1], high)

    for instant, at, kind, name, *more in (line.split() for line in lines if not line.startswith("finish")):
        if kind == "end":
            p = names.index(name)
            told = {p: int(more[1])} | ({128 + deciding.index(p): int(more[3] == "true")} if p in deciding else {})
            numbers |= told
            if at == tables.nodes[node] and int(instant) <= until:
                for variable, number in told.items():
                    cut(variable, number, number)
        elif kind != "start":
            sent[kind, name] = int(instant)
    for row in tables.rows[node]:
        act = row.item.kind, tables.name_of(row.item)
        if row.heard and act in sent:
            cubes = [(arrival, list(pack_model.literals(cube))) for arrival, cube in row.columns]
            [(there, cube)] = [it for it in cubes if all(v in numbers and low <= numbers[v] <= high for v, low, high in it[1])]
            value = 128 + deciding.index(row.item.of) if row.item.kind == "tell" else None
            for literal in cube + ([(value, numbers[value], numbers[value])] if value is not None else []):
                if there <= until:
                    cut(*literal)
    return card(names, deciding, ranges, k)


def card(names: Any, deciding: Any, ranges: Any, k: int) -> Any:
    values = [f"{names[p]} {'true' if ranges[128 + c][0] else 'false'}" for c, p in enumerate(deciding) if ranges[128 + c][0] == ranges[128 + c][1]]
    counts = [(name, *ranges[p]) for p, name in enumerate(names) if ranges[p] != (0, k)]
    within: dict[str, list[str]] = {}
    for name, low, high in counts:
        if low != high:
            within.setdefault(f"faults {low}..{high}", []).append(name)
    exact = [(name, low) for name, low, high in counts if low == high]
    rows = [("values", values), ("faults", [f"{name} {n}" for name, n in exact if n]), *sorted(within.items()), ("no fault in", [name for name, n in exact if not n])]
    return [[head, ", ".join(list)] for head, list in rows if list]


def without_value(line: str) -> str:
    words = line.split()
    return " ".join(words[:6]) if len(words) > 2 and words[2] == "end" else line


class Test:
    def __init__(self, program: str, browser: Any, room: str) -> None:
        self.program, self.browser, self.room = program, browser, Path(room)
        self.scenarios, self.listed = 0, 0
        self.wrong: list[str] = []

    def run(self, *words: Any) -> subprocess.CompletedProcess[str]:
        return subprocess.run([self.program, *words], cwd=self.room, capture_output=True, text=True)

    def make(self, name: str, text: str) -> Any:
        """The page of a graph, or nothing where the program refuses it."""
        graph, pack = f"{name}.toml", f"{name}.pack"
        (self.room / graph).write_text(text)
        done = subprocess.run([self.program, "compile", graph], cwd=self.room, capture_output=True)
        if done.returncode:
            return None
        (self.room / pack).write_bytes(done.stdout)
        return self.page(graph, pack)

    def page(self, graph: str, pack: str, *more: str) -> Path:
        made = subprocess.run([sys.executable, TOP / "tools/page", graph, pack, *more], cwd=self.room, capture_output=True)
        if made.returncode:
            raise Trouble(made.stderr.decode().strip())
        path = self.room / (graph.removesuffix(".toml") + ".html")
        path.write_bytes(made.stdout)
        return path

    def fail(self, name: str, text: str) -> None:
        self.wrong.append(f"{name}: {text}")

    def plays(self, name: str, graph: Any, scenarios: Any) -> None:
        """Holds the page that is open against the plays of scenarios."""
        draw, tables = random.Random(name), pack_model.parsed((self.room / f"{name}.pack").read_bytes())
        moments = [draw.randint(0, draw.choice([60, 300, 1500])) for _ in scenarios]
        shown = self.browser.value(f"({SHOWN})({json.dumps([(address(*it), time) for it, time in zip(scenarios, moments)])})")
        for (faults, values), it in zip(scenarios, shown):
            self.scenarios += 1
            (self.room / "scenario.toml").write_text(scenario_text(faults, values))
            play = self.run("play", f"{name}.toml", f"{name}.pack", "scenario.toml", "--turns", "0")
            lines = play.stdout.splitlines()[:-1]
            where = f"{name} in {address(faults, values)}"
            if play.returncode or it["trace"].splitlines() != lines:
                self.fail(where, f"the play is {lines} {play.stderr}, the page has {it['trace'].splitlines()}")
            if drawn_lines(it["drawn"], graph) != {without_value(line) for line in lines if not line.startswith("finish")}:
                self.fail(where, "what is drawn isn't the play")
            off = [d for d in it["drawn"] if abs(d["place"] - d["start"]) > d["pixel"] or abs(d["length"] - (d["end"] - d["start"])) > 2 * d["pixel"]]
            if off:
                self.fail(where, f"drawn at another place: {off[0]}")
            known = [heard(tables, node, lines, it["moment"]) for node in range(len(tables.nodes))]
            if it["known"] != known:
                self.fail(where, f"at {it['moment']} nodes have heard {known}, the page says {it['known']}")
            if it["unheard"] or it["wrong"]:
                self.fail(where, f"not heard: {it['unheard']}; not safe: {it['wrong']}")
            self.file(where, name, it, play.stdout)

    def file(self, where: str, name: str, shown: Any, wanted: Any) -> None:
        """The scenario file that the page shows gives the same play, and its address the same scenario."""
        (self.room / "shown.toml").write_text(shown["file"])
        if self.run("play", f"{name}.toml", f"{name}.pack", "shown.toml", "--turns", "0").stdout != wanted:
            self.fail(where, f"the scenario file is {shown['file']!r}")

    def latest(self, name: str) -> Any:
        it = self.browser.value(f"({LATEST})({FEW})")
        text = self.run("show", f"{name}.toml").stdout.splitlines()
        if f"worst {it['worst']}" not in text[:2]:
            self.fail(name, f"worst {it['worst']}, and the program says {text[1:2]}")
        if it["claimed"] != it["shown"]:
            self.fail(name, f"latest ends {it['claimed']}, and in their scenarios {it['shown']}")
        if it["all"] is not None:
            self.listed += 1
            if it["claimed"] != it["all"]:
                self.fail(name, f"latest ends {it['claimed']}, and over all scenarios {it['all']}")

    def graph(self, name: str, text: str, path: Any, count: int) -> Any:
        graph: dict[str, Any] = {"process": [], "edge": [], "node": [], **tomllib.loads(text)}
        draw = random.Random(name)
        self.browser.open(path)
        self.plays(name, graph, [({}, [])] + [scenario_of(graph, draw) for _ in range(count - 1)])
        self.latest(name)
        return graph

    def strange(self) -> None:
        faults, self.browser.faults = self.browser.faults, []
        self.wrong += [fault.replace("\n", " ") for fault in faults]


def has(graph: Any) -> Any:
    """What a graph has of what is to be tried."""
    processes, edges = graph["process"], graph["edge"]
    return {"conditions": any("when" in it for it in edges), "frozen items": any(it.get("frozen") for it in processes + edges),
            "releases": any("release" in it for it in processes), "checkpoints": any(it.get("parts", 1) > 1 for it in processes),
            "several nodes": len(graph["node"]) > 1, "joins": any(it.get("join") for it in processes)}


def generated(test: Test, graphs: int, count: int) -> None:
    seen: dict[str, int] = {}
    made, seed, refused = 0, 0, 0
    while made < graphs:
        text, name = graph_of(seed), f"graph{seed}"
        path = test.make(name, text)
        seed += 1
        if path is None:
            refused += 1
            continue
        made += 1
        for key, value in has(test.graph(name, text, path, count)).items():
            seen[key] = seen.get(key, 0) + value
    print(f"{made} generated graphs ({refused} more were refused): " + ", ".join(f"{n} with {key}" for key, n in seen.items()))


def examples(test: Test) -> None:
    made = 0
    for file in sorted((TOP / "examples").glob("*.toml")):
        text = file.read_text()
        if "process" not in tomllib.loads(text):
            continue
        path = test.make(file.stem, text)
        if path:
            made += 1
            test.graph(file.stem, text, path, 5)
    print(f"{made} examples")


class Hand:
    """A hand at the mouse and the keys of a page that is open."""

    def __init__(self, browser: Any) -> None:
        self.browser = browser

    def press(self, key: str, text: str = "", shift: bool = False) -> None:
        code = {"Tab": 9, "Enter": 13, " ": 32}.get(key, 0)
        words = {"key": key, "windowsVirtualKeyCode": code, "modifiers": 8 if shift else 0}
        self.browser.ask("Input.dispatchKeyEvent", type="keyDown", **words, **({"text": text} if text else {}))
        self.browser.ask("Input.dispatchKeyEvent", type="keyUp", **words)

    def click(self, selector: str, shift: bool = False) -> None:
        middle = "(() => { const it = document.querySelector(%s); it.scrollIntoView({ block: 'center' }); const box = it.getBoundingClientRect(); " \
                 "return [box.x + box.width / 2, box.y + box.height / 2]; })()"
        x, y = self.browser.value(middle % json.dumps(selector))
        for kind in ("mousePressed", "mouseReleased"):
            self.browser.ask("Input.dispatchMouseEvent", type=kind, x=x, y=y, button="left", clickCount=1, modifiers=8 if shift else 0)


def used(test: Test) -> None:
    """The controller's page by mouse and by keys."""
    test.browser.look(1280, 900)
    test.browser.open(test.room / "controller.html")
    hand, value = Hand(test.browser), test.browser.value

    def wants(what: str, said: Any, wanted: Any) -> None:
        if said != wanted:
            test.fail(f"the controller's page, {what}", f"{said!r} in place of {wanted!r}")

    name = "document.activeElement.getAttribute('aria-label') ?? document.activeElement.textContent"
    hand.click("[data-item='2'] .edge")
    wants("a click on radar", value("location.hash"), "#f=radar:1")
    hand.click("[data-item='2'] .edge")
    wants("a second click", value("location.hash"), "#f=radar:2")
    hand.click("[data-item='0'] .edge")
    wants("a click without a fault left", value("location.hash"), "#f=radar:2")
    hand.click("[data-item='2'] .edge", shift=True)
    wants("a click with shift", value("location.hash"), "#f=radar:1")
    hand.press("ArrowRight")
    wants("the key to the right", value(name), "fuse on E2, from 70 to 105, 0 faults")
    hand.press("+", "+")
    hand.press("ArrowDown")
    wants("plus", value("location.hash"), "#f=radar:1,fuse:1")
    wants("the key down", value(name), "panel on E3, from 32 to 45, 0 faults")
    hand.press("Home")
    hand.press("ArrowUp")
    wants("the first of a lane, and the key up", value("document.activeElement.dataset.item"), "2")
    hand.press("ArrowRight")
    hand.press("-", "-")
    wants("minus", value("location.hash"), "#f=radar:1")
    value("document.querySelector('.switch').focus()")
    hand.press(" ", " ")
    wants("a switch by its key", value("location.hash"), "#f=radar:1&v=mode")
    hand.press("Tab")
    wants("the next switch", value(name), "followfalse")
    hand.click("#worst")
    wants("the worst scenario", value("document.getElementById('finish').textContent"), value("document.getElementById('worst-end').textContent"))
    hand.click("#tightest")
    wants("the least slack", value("page.shown().play.runs[page.model.tightest].end"), value("page.model.latest[page.model.tightest].end"))
    hand.click("#rows [data-latest='8']")
    wants("a latest end", value("page.shown().play.runs[8].end"), value("page.model.latest[8].end"))
    address = value("location.hash")
    test.browser.open(test.room / "controller.html", address)
    wants("a link", value("location.hash + page.shown().play.runs[8].end"), address + str(value("page.model.latest[8].end")))
    value("location.hash = '#f=nobody:1,radar:3,lever:2'")
    time.sleep(.2)
    wants("a link with what isn't there", value("location.hash"), "#f=lever:2")
    hand.click("#clear")
    wants("the button that clears", value("location.hash"), "")


def late(test: Test) -> None:
    """A graph that is refused as late: a copy with later deadlines, and the due times of the first."""
    text = (TOP / "examples/late.toml").read_text()
    (test.room / "late.toml").write_text(text)
    test.make("later", text.replace("deadline = 80", "deadline = 100"))
    test.browser.open(test.page("later.toml", "later.pack", "--due", "late.toml"))
    test.browser.value("document.getElementById('tightest').click()")
    shown = test.browser.value("[document.getElementById('least-slack').textContent, document.getElementById('late').textContent, location.hash]")
    if shown != ["-7", "Late: control by 7", "#f=sense:1"]:
        test.fail("late", f"{shown}")


CLICK = """async (n) => {
  const frame = () => new Promise((done) => requestAnimationFrame(done));
  const after = () => new Promise((done) => { const { port1, port2 } = new MessageChannel(); port1.onmessage = done; port2.postMessage(0); });
  const runs = [...document.querySelectorAll("#picture .run")].filter((it) => it.style.display !== "none"), switches = document.querySelectorAll(".switch");
  const target = n % 4 === 3 ? switches[n % switches.length] : runs[(n * 37) % runs.length];
  await frame();
  const from = performance.now();
  target.dispatchEvent(new MouseEvent("click", { bubbles: true, detail: 1 }));
  await frame();
  await after();
  return performance.now() - from;
}"""


def measure(test: Test, rounds: int = 3, clicks: int = 60, limit: float = 100) -> None:
    """Times clicks, each to when its picture has been drawn: by the clock, and the processor time of the page's thread, in which all is
    done but the filling of pixels. Of each click the least of some rounds counts, as other work on the machine disturbs."""
    path = test.make("large", large())
    pack, page = (test.room / "large.pack").stat().st_size, path.stat().st_size
    test.browser.look(1280, 1000)
    test.browser.ask("Performance.enable", timeDomain="threadTicks")

    def busy() -> float:
        return 1000 * float(next(it["value"] for it in test.browser.ask("Performance.getMetrics")["metrics"] if it["name"] == "TaskDuration"))

    spent, passed = [], []
    for _ in range(rounds):
        test.browser.open(path)
        for n in range(clicks):
            before = busy()
            passed.append(test.browser.value(f"({CLICK})({n})"))
            spent.append(busy() - before)

    def least(times: list[float]) -> list[float]:
        return sorted(min(times[n::clicks]) for n in range(clicks))

    said = [f"{times[clicks // 2]:.0f} ms in the middle and at most {times[-1]:.0f}" for times in (least(passed), least(spent))]
    print(f"128 processes over 16 nodes, a pack of {pack:,} bytes, a page of {page:,}. From click to picture, of {clicks} clicks, each the least of "
          f"{rounds} times: {said[0]}; processor time {said[1]}")
    if least(spent)[-1] > limit:
        test.fail("large", f"a click takes more than {limit} ms")


PICTURES = {  # by the file's name a page of docs/demo, its address, the process that is picked, and above which part the picture ends
    "page.png": ("controller", "#f=radar:1,torque:1&v=mode,follow&t=160", 12, "processes"),
    "fly-by-wire.png": ("fly-by-wire", "#f=inner.0.kalman:1,inner.1.monitor:1&v=inner.0.valid,outer.0.stall&t=640", 27, "known"),
}


def screenshot(test: Test, file: str) -> None:
    name, address, process, below = PICTURES[os.path.basename(file)]
    test.browser.look(1280, 900)
    test.browser.open(TOP / "docs/demo" / f"{name}.html", address)
    test.browser.value(f"page.pick({process})")
    height = test.browser.value(f"document.getElementById('{below}').offsetTop - 2")
    test.browser.look(1280, height)
    Path(file).write_bytes(test.browser.picture())
    print(f"{file}: {os.path.getsize(file):,} bytes")


def main() -> int:
    words = cli.Words(__doc__)
    words.add_argument("program", metavar="PROGRAM")
    words.add_argument("--quick", action="store_true", help="three generated graphs in place of thirty")
    words.add_argument("--measure", action="store_true", help="time clicks in a large page")
    words.add_argument("--screenshot", metavar="FILE", help=f"write the picture of this name: {' or '.join(PICTURES)}")
    words.add_argument("--browser", metavar="PATH", help="the browser, if it isn't found by its name")
    given = words.parse_args()
    browser = given.browser or next((it for it in map(shutil.which, BROWSERS) if it), None)
    if given.screenshot and os.path.basename(given.screenshot) not in PICTURES:
        words.error(f"a picture is named {' or '.join(PICTURES)}")
    if browser is None:
        print("test-page: skipped, no Chromium here")
        return 0
    program = os.path.abspath(given.program)
    if not os.access(program, os.X_OK):
        cli.fail(f"{given.program}: no program", cli.NO_PROGRAM)
    with tempfile.TemporaryDirectory(ignore_cleanup_errors=True) as room:
        try:
            started = Browser(browser, os.path.join(room, "browser"))
        except Trouble as trouble:
            cli.fail(str(trouble))
        try:
            started.begin()
            test = Test(program, started, room)
            if given.screenshot:
                screenshot(test, given.screenshot)
            elif given.measure:
                measure(test)
            else:
                examples(test)
                used(test)
                late(test)
                generated(test, 3 if given.quick else 30, 11)
                print(f"{test.scenarios} scenarios; {test.listed} graphs with at most {FEW:,} scenarios, all of which were gone over for latest ends")
            test.strange()
        except Trouble as trouble:
            cli.fail(str(trouble))
        finally:
            started.close()
        print(*test.wrong[:20], f"{len(test.wrong)} wrong", sep="\n")
        return int(bool(test.wrong))
