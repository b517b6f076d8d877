"""The tables and pictures of docs/STUDY.md, made of the stored figures in docs/study."""
from __future__ import annotations

import csv
import re
import statistics
from collections.abc import Iterable, Mapping, Sequence
from pathlib import Path
from typing import Any

from dev.study_pictures import boxes_by_faults, gains_by_tracks, worst_beside_columns

TRACKS, SIZES, FAULTS = (10, 12, 18, 24, 32), (60, 80, 120), (1, 2, 3, 4)
SMALL = 20, 40, 60
NONE_PUBLISHED = {10: 90, 12: 82, 18: 57, 24: 46, 32: 33}  # recalled
FROZEN_PUBLISHED = {20: (48, 86, 139), 40: (39, 66, 97), 60: (32, 58, 86)}  # recalled
NOTHING_PUBLISHED = {20: (24, 44, 63), 40: (17, 29, 43), 60: (12, 24, 34)}  # recalled
FROZEN = {"none": "nothing", "messages": "messages", "all": "all"}
CUTS = {"one": "one part", "50": "parts up to 50", "34": "up to 34", "25": "up to 25", "tuned": "as tuned"}
PRINTED = "one", "50", "25", "tuned"  # in the table of cuts
LEAST = 10  # graphs of which a mean is printed
FORMS = [(frozen, cut) for frozen in FROZEN for cut in CUTS if frozen != "all" or not cut.isdigit()]


Line = dict[str, Any]  # a line of a stored file, by its heads
Lines = list[Line]


class Differs(Exception):
    """A table or a picture isn't what the stored figures make, or a figure is missing."""


def number(text: str) -> Any:
    return int(text) if text.removeprefix("-").isdigit() else text


def load(top: Path, family: str) -> Lines:
    path = top / "docs" / "study" / f"{family}.csv"
    with open(path, newline="") as it:
        return [{key: number(value) for key, value in line.items()} for line in csv.DictReader(it)]


def over(more: float, less: float) -> float:
    """By how many per cent the one is over the other."""
    return 100 * (more - less) / less


def share(values: Sequence[bool]) -> str:
    return f"{100 * sum(values) / len(values):.0f}%" if values else "-"


def mean(values: Sequence[float], unit: str = "%", digits: int = 1) -> str:
    return f"{rounded(statistics.mean(values), digits)}{unit}" if values else "-"


def rounded(value: float, digits: int) -> str:
    """Without a sign where it is 0."""
    return f"{round(value, digits) + 0.0:,.{digits}f}"


def quartiles(values: Sequence[float], digits: int = 1) -> str:
    """The quartiles with the median between them, of four values or more."""
    return "/".join(f"{it:,.{digits}f}" for it in statistics.quantiles(values, n=4, method="inclusive")) if len(values) > 3 else "-"


def enough(values: Sequence[float], unit: str = "%", digits: int = 0) -> str:
    """The mean, of ten values or more: fewer say too little."""
    return mean(values, unit, digits) if len(values) >= LEAST else ""


def table(heads: Sequence[object], rows: Iterable[Sequence[object]]) -> list[str]:
    return ["| " + " | ".join(map(str, cells)) + " |" for cells in [heads, ["---"] * len(heads), *rows]]


# Conditions. Lines are those of conditions.csv with what orders.csv and merged.csv have of the same graphs.

def gains(lines: Lines, over_what: str = "alone", what: str = "worst") -> list[float]:
    return [over(line[what], line[over_what]) for line in lines]


def no_longer(lines: Lines, over_what: str = "alone", what: str = "worst") -> str:
    return share([line[what] <= line[over_what] for line in lines])


def tracks_table(lines: Lines) -> list[str]:
    def row(name: object, some: Lines, published: object) -> list[object]:
        own = [cell for over_what in ("alone", "heard") for cell in (mean(gains(some, over_what)), no_longer(some, over_what))]
        return [name, len(some), *own, no_longer(some, "track", "best"), no_longer(some, "longest", "merged"), published]

    several = [line for line in lines if line["nodes"] > 1]
    rows = [row(tracks, [line for line in several if line["tracks"] == tracks], f"{NONE_PUBLISHED[tracks]}%") for tracks in TRACKS]
    heads = ["tracks", "graphs", "over the longest track alone", "no longer", "over it with its broadcasts", "no longer",
             "best orders on both sides, no longer", "merged, no longer", "published, no longer (recalled)"]
    return table(heads, [*rows, row("all", several, ""), row("one processor", [line for line in lines if line["nodes"] == 1], "")])


def causes_table(lines: Lines) -> list[str]:
    several = [line for line in lines if line["nodes"] > 1]
    rows = []
    for name, what, over_what in (
            ("the table, over the longest track alone", "worst", "alone"), ("the same if nothing waits for a condition", "unwaited", "alone"),
            ("the same if conditions aren't sent either", "unsent", "alone"), ("the table, over the longest track with its broadcasts", "worst", "heard"),
            ("the best order found, over the longest track under the best one found for it", "best", "track"),
            ("merged tables, over the longest of the schedules that they are merged of", "merged", "longest"),
            ("the table, over the merged tables", "worst", "merged"), ("the table, over the best order found", "worst", "best"),
            ("the best order of the rules, over the best order found", "rules", "best")):
        values = gains(several, over_what, what)
        rows.append([name, mean(values), quartiles(values), f"{max(values):.1f}%", share([it <= 0 for it in values]), share([it < 0 for it in values])])
    return table(["what is longer", "mean", "quartiles", "most", "no longer", "shorter"], rows)


def best_table(by_slot: Mapping[str, Lines]) -> list[str]:
    def row(name: object, some: Lines, best: str = "best") -> list[object]:
        return [name, len(some), mean(gains(some)), mean(gains(some, "heard")), no_longer(some, "heard"), mean(gains(some, "track", best)) if best == "best" else "",
                mean(gains(some, best)), share([it > 5 for it in gains(some, best)]), mean(gains(some, "least", best))]

    several = {slot: [line for line in lines if line["nodes"] > 1] for slot, lines in by_slot.items()}
    narrow = several["2"]
    rows = [row(f"{size} processes", [line for line in narrow if line["processes"] == size]) for size in SIZES]
    rows += [row(f"{least} to {most} processors", [line for line in narrow if least <= line["nodes"] <= most]) for least, most in ((2, 3), (4, 7), (8, 11))]
    rows += [row(f"{least} to {most} conditions", [line for line in narrow if least <= line["conditions"] <= most]) for least, most in ((4, 8), (9, 18))]
    same = {line["graph"] for line in several["10"]}
    rows += [*(row(f"slots of {slot}", several[slot]) for slot in ("10", "0.2")), row("the first, of 2", [line for line in narrow if line["graph"] in same])]
    longer = [line for line in narrow if line["long"] != ""]
    rows += [row("10,000 tries", longer, "long"), row("the same, 2,000", longer)]
    heads = ["graphs", "number", "over the longest track alone", "with its broadcasts", "no longer", "best orders on both sides", "over the best order found",
             "by more than 5%", "best found over the bound"]
    return table(heads, rows)


# Orders

def orders_table(lines: Lines, faults: Lines) -> list[str]:
    def row(name: object, pairs: Sequence[tuple[Any, Any]]) -> list[object]:
        gained = [over(urgency, worst) for urgency, worst in pairs]
        return [name, len(pairs), share([it > 0 for it in gained]), mean(gained), quartiles(gained)]

    rows = [row("k 0", [(line["urgency"], line["worst"]) for line in lines])]
    for k in FAULTS:
        fitting = [line for line in faults if line["k"] == k and line["none one"] != "wide"]
        rows.append(row(f"k {k}", [(line["urgency"], line["none one"]) for line in fitting]))
    return table(["graphs", "number", "track order taken", "urgency order longer by", "quartiles"], rows)


def rates_table(lines: Lines) -> list[str]:
    def row(name: str, some: Lines) -> list[object]:
        late = [line for line in some if line["late"] > 0]
        ends = [sum(line[one] <= 0 for line in late) for one in ("quick", "long")]
        never = sum(line["least"] > 0 for line in late)
        copies = [line["processes"] for line in some]
        return [name, len(some), f"{min(copies)}-{max(copies)}", len(late), *ends, never, len(late) - ends[1] - never]

    rows = []
    for kind, name in (("plain", "no condition"), ("choice", "a condition in each")):
        for k in range(3):
            some = [line for line in lines if line["kind"] == kind and line["k"] == k]
            if some:
                rows.append(row(f"{name}, k {k}", some))
    heads = ["parts", "systems", "processes", "late", "of these in time by `explore --quick`", "by a long search", "late under any order", "open"]
    return table(heads, [*rows, row("all", lines)])


# Faults

def added(line: Line, frozen: str, cut: str = "one", base: str = "base") -> float:
    """By how many per cent the worst with faults is over that without faults and overheads."""
    return over(line[f"{frozen} {cut}"], line[base])


def fit(lines: Lines, *forms: str) -> Lines:
    """Those that aren't too wide, whatever the parts."""
    return [line for line in lines if all(line[f"{frozen} {cut}"] != "wide" for frozen, cut in FORMS if frozen in forms)]


def at(lines: Lines, k: int, size: int | None = None) -> Lines:
    return [line for line in lines if line["k"] == k and size in (None, line["processes"])]


def faults_table(lines: Lines) -> list[str]:
    rows = []
    for size in SMALL:
        for k in FAULTS:
            some = at(lines, k, size)
            kept = fit(some, "none")
            ruled = [] if "" in (line["none rule"] for line in kept) else kept
            rows.append([size, k, len(kept), *(enough([added(line, "none", cut) for line in kept], digits=1) for cut in ("one", "50", "tuned")),
                         enough([added(line, "none", "rule") for line in ruled], digits=1)])
    heads = ["processes", "k", "graphs that fit", "one part", "parts up to 50", "as tuned", "by the rule"]
    return table(heads, [row for row in rows if row[3]])


def cuts_table(lines: Lines) -> list[str]:
    rows = []
    for frozen, name in FROZEN.items():
        for k in FAULTS:
            kept = fit(at(lines, k), frozen)
            cells = [mean([added(line, frozen, cut) for line in kept], digits=0) if (frozen, cut) in FORMS else "" for cut in PRINTED]
            rows.append([name, k, len(kept), *cells, share([line[f"{frozen} tuned"] < line[f"{frozen} one"] for line in kept])])
    return table(["frozen", "k", "graphs", *(CUTS[cut] for cut in PRINTED), "tuned shorter than one part"], rows)


def frozen_table(lines: Lines) -> list[str]:
    rows = []
    for frozen, name in FROZEN.items():
        for k in FAULTS:
            fitting, both = fit(at(lines, k), frozen), fit(at(lines, k), "none", frozen)
            longer = [over(line[f"{frozen} one"], line["none one"]) for line in both]
            left = [100 * line[f"{frozen} columns"] / line["none columns"] for line in both]
            wide = "/".join(str(len(some) - len(fit(some, frozen))) for some in (at(lines, k, size) for size in SMALL))
            rows.append([name, k, mean([line[f"{frozen} columns"] for line in fitting], "", 0), wide,
                         *([len(both), mean(longer, digits=0), mean(left, digits=2 if statistics.mean(left) < 1 else 1)] if frozen != "none" else [""] * 3)])
    return table(["frozen", "k", "columns, mean", "too wide of 80/80/20 with 20/40/60 processes", "graphs compared", "worst longer by", "columns left"], rows)


def placed_table(lines: Lines, found: Mapping[tuple[Any, Any], Line]) -> list[str]:
    """What is added, as placed and as found."""
    rows = []
    for size in SMALL:
        for k in (1, 2, 3):
            some = at(lines, k, size)
            both = [{**line, **found[line["graph"], k]} for line in some if (line["graph"], k) in found]
            cells: list[object] = [size, k]
            for frozen, published in (("none", NOTHING_PUBLISHED), ("messages", FROZEN_PUBLISHED)):
                for places in ("any", "near") if frozen == "messages" else ("near",):
                    cells.append(enough([added(line, frozen) for line in fit([line for line in some if line["places"] == places], frozen)]))
                for name in ("mapping", "both") if frozen == "messages" else ("mapping",):
                    cells.append(enough([added(line, frozen, name, "base mapping") for line in both if line[f"{frozen} {name}"] != ""]))
                cells.append(f"{published[size][k - 1]}%")
            rows.append(cells)
    return table(["processes", "k", "nothing frozen: near", "mapping found", "published", "messages frozen: anywhere", "near", "mapping found",
                  "mapping and parts found", "published"], rows)


def found_table(lines: Lines, found: Mapping[tuple[Any, Any], Line]) -> list[str]:
    """How much shorter what was found is than what was placed."""
    rows = []
    for frozen, name in (("none", "nothing"), ("messages", "messages")):
        for k in (0, 1, 2, 3):
            some = [{**line, **found[line["graph"], line["k"]]} for line in fit(at(lines, max(k, 1)), frozen) if (line["graph"], line["k"]) in found]
            if k == 0 and frozen == "none":
                shorter = {one: [-over(line[f"base {one}"], line["base"]) for line in some] for one in ("order", "mapping")}
            elif k and some and some[0][f"{frozen} order"] != "":
                shorter = {one: [-over(line[f"{frozen} {one}"], line[f"{frozen} one"]) for line in some] for one in ("order", "mapping", "both")}
            else:
                continue
            carried = mean([100 * line["carried"] / line["edges"] for line in some], digits=0) if frozen == "messages" else ""
            cells = [f"{mean(shorter[one])} ({rounded(min(shorter[one]), 0)} to {rounded(max(shorter[one]), 0)})" if one in shorter else "" for one in ("order", "mapping", "both")]
            rows.append([name, k, len(some), *cells, carried])
    return table(["frozen", "k", "graphs", "order found", "order and mapping", "and parts", "edges that are messages"], rows)


def parts_table(lines: Lines, found: Mapping[tuple[Any, Any], Line]) -> list[str]:
    """Parts of a climb and of a search, as placed, with k 2 and messages frozen."""
    rows = []
    for size in (20, 40):
        some = [{**line, **found[line["graph"], 2]} for line in fit(at(lines, 2, size), "messages") if (line["graph"], 2) in found]
        shorter = [-over(line["parts"], line["climbed"]) for line in some]
        rows.append([size, len(some), *(mean([-over(line[one], line["messages one"]) for line in some]) for one in ("messages tuned", "climbed", "parts")),
                     share([it > 0 for it in shorter]), share([it < 0 for it in shorter]), f"{max(shorter, default=0):.1f}%"])
    return table(["processes", "graphs", "as tuned: shorter than one part by", "by the climb", "by the search", "search shorter than climb", "longer", "shorter by, most"], rows)


# Times

def packs_table(times: Lines) -> list[str]:
    def row(name: object, some: Lines) -> list[object]:
        made = [line for line in some if line["compile"] != "wide"]
        return [name, len(made), len(some) - len(made), *(mean([line[key] / 1000 for line in made], "", 1) for key in ("compile", "check", "bytes"))]

    conditions, faults = ([line for line in times if line["family"] == family] for family in ("conditions", "faults"))
    rows = [row(f"k 0, {size} processes", [line for line in conditions if line["processes"] == size]) for size in SIZES[::2]]
    for frozen, name, faults_of in (("none", "nothing frozen", (1, 2, 3)), ("messages", "messages frozen", (2,)), ("all", "all frozen", (2,))):
        for k in faults_of:
            rows.append(row(f"k {k}, {name}", [line for line in faults if line["frozen"] == frozen and line["k"] == k]))
    return table(["graphs", "number", "too wide", "`compile`, ms", "`check`, ms", "pack, kB"], rows)


# The page

def made(top: Path) -> tuple[dict[str, list[str]], dict[str, str]]:
    """All tables by name, and all pictures by file name."""
    conditions, orders, merged, faults, placed, rates, times = (load(top, it) for it in ("conditions", "orders", "merged", "faults", "placed", "rates", "times"))
    more = [{(line["graph"], line["slot"]): line for line in lines} for lines in (orders, merged)]
    joined = [{**line, **more[0][line["graph"], line["slot"]], **more[1][line["graph"], line["slot"]]} for line in conditions]
    if wrong := [line for line in joined if line["compiled"] != line["worst"]]:
        raise Differs(f"graph {wrong[0]['graph']}: reckoned {wrong[0]['compiled']}, the program says {wrong[0]['worst']}")
    by_slot = {slot: [line for line in joined if str(line["slot"]) == slot] for slot in ("0.2", "2", "10")}
    narrow, found = by_slot["2"], {(line["graph"], line["k"]): line for line in placed}
    tables = {
        "tracks": tracks_table(narrow), "causes": causes_table(narrow), "best": best_table(by_slot),
        "orders": orders_table(narrow, faults), "rates": rates_table(rates), "faults": faults_table(faults), "cuts": cuts_table(faults),
        "frozen": frozen_table(faults), "placed": placed_table(faults, found), "found": found_table(faults, found), "parts": parts_table(faults, found),
        "packs": packs_table(times),
    }
    several = [line for line in narrow if line["nodes"] > 1]
    by_tracks = {tracks: [line for line in several if line["tracks"] == tracks] for tracks in TRACKS}
    ways = {"longest track alone": ("alone", "worst"), "with its broadcasts": ("heard", "worst"), "best orders on both sides": ("track", "best"),
            "merged tables": ("longest", "merged")}
    gained = {tracks: {name: gains(some, *way) for name, way in ways.items()} for tracks, some in by_tracks.items()}
    shown = {"nothing frozen, one part": ("none", "one"), "nothing frozen, parts up to 50": ("none", "50"),
             "messages frozen, as tuned": ("messages", "tuned"), "all frozen, as tuned": ("all", "tuned")}
    by_faults = {k: {name: [added(line, *form) for line in fit(at(faults, k), *FROZEN)] for name, form in shown.items()} for k in FAULTS}
    dots = {name: [(line[f"{frozen} columns"], added(line, frozen)) for line in fit(at(faults, 2), *FROZEN)]
            for frozen, name in (("none", "nothing frozen"), ("messages", "messages frozen"), ("all", "all frozen"))}
    pictures = {
        "study-tracks.svg": gains_by_tracks(gained, NONE_PUBLISHED), "study-faults.svg": boxes_by_faults(by_faults),
        "study-frozen.svg": worst_beside_columns(dots),
    }
    return tables, pictures


def page_of(text: str, tables: Mapping[str, list[str]]) -> str:
    """The page with each table between its marks."""
    def filled(match: re.Match[str]) -> str:
        if match[1] not in tables:
            raise Differs(f"docs/STUDY.md has a table {match[1]}, which nothing makes")
        return "\n".join([f"<!-- table {match[1]} -->", "", *tables[match[1]], "", "<!-- end -->"])

    return re.sub(r"<!-- table (\w+) -->\n.*?<!-- end -->", filled, text, flags=re.S)


def write(top: Path) -> None:
    tables, pictures = made(top)
    page = top / "docs" / "STUDY.md"
    page.write_text(page_of(page.read_text(), tables))
    (top / "docs" / "pictures").mkdir(exist_ok=True)
    for name, text in pictures.items():
        (top / "docs" / "pictures" / name).write_text(text)


def check(top: Path) -> None:
    """Fails where a table or a picture isn't what the stored figures make."""
    tables, pictures = made(top)
    text = (top / "docs" / "STUDY.md").read_text()
    for old, new in zip(text.splitlines(), page_of(text, tables).splitlines()):
        if old != new:
            raise Differs(f"docs/STUDY.md has `{old}`, the stored figures make `{new}`")
    if text != page_of(text, tables):
        raise Differs("docs/STUDY.md has other tables than the stored figures make")
    for name, wanted in pictures.items():
        if (top / "docs" / "pictures" / name).read_text() != wanted:
            raise Differs(f"docs/pictures/{name} isn't what the stored figures make")
