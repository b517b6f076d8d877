"""Shows by Frama-C what the contracts of the node in C (runtime/c) say: that it is defined on any bytes, and what its turn part does.

    tools/prove-runtime [FUNCTION ...] [--memory | --table] [--machine M ...] [--macros default|small ...] [--by PROVER ...] [--smoke]
        [--seconds S] [--provers N] [--keep FOLDER]
    tools/prove-runtime --wrong [FUNCTION ...] [--seconds S] [--provers N]

There are two parts, each for the sizes of x86_64 and x86_32, and for both with the default macros and with those of one small table, unless
some are named. With --memory it does the first one alone, which is the quick way; with --table the second.

- Memory: WP with the checks of RTE on cpg_node.c and cpg_open.c, without all that is said by a lawful table. A line for each file says how
  many goals were proved.
- Table: WP on the lemmas of cpg_spec.h, and on the behavior `table` of one function of cpg_node.c after another, with a line for each. A
  function is asked in a file of its own, with the contracts of those that it calls, so that a prover reads no more than it needs.

A line after it names each goal that wasn't proved. The last line has the sum. The status is 0 if all were proved.

runtime/c/test/left_by_PROVER.txt keeps the goals by a lawful table that one prover leaves alone: a machine model, macros and a goal a line. If
just that prover is asked, by one --by, the status is 0 too if it leaves no other goal. A line names each that it proves though it is kept.

With --smoke the tool also looks whether a contract can't be met, so that all of it would be proved in vain. With --wrong it tries the wrong
bodies of runtime/c/test/wrong.py instead, with the default macros and for x86_64 unless others are named. It asks for the goals that are to
refuse a body, which each names, and says which are left. A body is refused if one is, and the right body leaves none by the same limits. If
frama-c, why3 or a prover is missing, a line says so, and nothing is done.

Debian's packages: frama-c-base why3 cvc4 cvc5 z3.
"""
import argparse
import hashlib
import importlib.util
import os
import re
import resource
import subprocess
import tempfile
import time
from concurrent.futures import ThreadPoolExecutor
from pathlib import Path
from typing import Any, Iterator

from cpgc_tools import cli, program

Setting = tuple[str, str]  # a machine model and a name of MACROS
Run = tuple[str, Path, list[str], list[str]]  # of WP: its name, a source, functions of it, and more words
Answer = tuple[int, int, list[str], list[str]]  # how many goals are proved, how many there are, and names of those that aren't and that are

FOLDER = Path(__file__).resolve().parents[2] / "runtime" / "c"
SOURCES = ["cpg_node.c", "cpg_open.c"]
MACHINES = ["x86_64", "x86_32"]
MACROS: dict[str, list[str]] = {
    "default": [],
    # those of `c-table pair.pack N2 --sizes`
    "small": ["CPG_MAX_PROCESSES=2U", "CPG_MAX_CONDITIONS=1U", "CPG_MAX_OWN=1U", "CPG_MAX_ROWS=2U", "CPG_MAX_COLUMNS=4U"]}
# In the order in which they are tried, each with its words. With --macros-quant a prover puts definitions in their places.
PROVERS: dict[str, tuple[str, str, str]] = {
    "cvc4-macros": ("cvc4", "--lang=smt2 --macros-quant", "cvc4_17"),
    "cvc5": ("cvc5", "--lang=smt2 --force-logic=ALL", "cvc4_17"),
    "cvc5-macros": ("cvc5", "--lang=smt2 --force-logic=ALL --macros-quant", "cvc4_17"),
    "cvc4": ("cvc4", "--lang=smt2", "cvc4_17"),
    "z3": ("z3", "-smt2 -T:1000000", "z3_440")}
# Seconds, before each prover has all of its time. z3 proves one lemma at once that the others leave.
SHORT = [("cvc4-macros", 2), ("cvc5", 3), ("cvc4-macros", 8), ("z3", 1), ("cvc5-macros", 6)]
# Frama-C itself takes a third of the processor time. So a simplification without which all is proved too is left out, and garbage is
# collected less often.
QUICK = ["-wp-no-ground"]
OCAML = "s=8M,o=400"
LEMMAS = "lemmas"  # asks for the lemmas of cpg_spec.h, in place of a function
LONGEST = 3600  # seconds of the clock for a goal, on a machine that does much else
# What would let a goal be proved in vain: an annotation that isn't understood, and a function that is called without a contract.
FATAL = "annot-error=abort,annot:missing-spec=abort,typing:implicit-function-declaration=abort"
DEFINITION = re.compile(r"^(?:static )?\w+ (\w+)\([^;{]*\)\n\{", re.MULTILINE)
COUNTS = re.compile(r"Proved goals:\s*(\d+) / (\d+)")
LEFT = re.compile(r"^\[wp\] \[[^]]*\] Goal (\w+)(?! : Valid)\b", re.MULTILINE)
PROVED = re.compile(r"^\[wp\] \[[^]]*\] Goal (\w+) : Valid\b", re.MULTILINE)
# What is said by a lawful table: a behavior, at the end of its comment or alone in it, clauses of loops, and assertions.
BY_TABLE = re.compile(r"/\*@ behavior table:.*?\*/|\n\s*behavior table:.*?(?= \*/)|for table: .*?;(?=\n| \*/)", re.DOTALL)
EMPTY = re.compile(r"/\*@\s*\*/|//@\s*(?=\n)")
CONTRACT = re.compile(r"/\*@(?:(?!\*/).)*\*/\n(?=(?:static )?\w+ \w+\([^;{]*\)\n\{|\Z)", re.DOTALL)
BLOCK = re.compile(r"^    axiomatic (\w+) \{\n.*?^    \}\n", re.MULTILINE | re.DOTALL)
NAME = re.compile(r"\b(?:predicate|logic \w+) (\w+)")
BODY = r"^(?:static )?\w+ {}\([^;{{]*\)\n\{{.*?^\}}\n"


def functions_of(source: str) -> list[str]:
    return DEFINITION.findall((FOLDER / source).read_text())


def functions_by_table(source: str) -> list[str]:
    """The functions with a behavior `table`."""
    text = (FOLDER / source).read_text()
    return [found[1] for found in DEFINITION.finditer(text) if "behavior table:" in text[:found.start()].rpartition("\n}\n")[2]]


def alone(text: str, function: str) -> str:
    """A source with one function and the contracts of those that it calls."""
    found = re.search(BODY.format(function), text, re.MULTILINE | re.DOTALL)
    body, parts, at = found[0] if found else "", list[str](), 0
    for other in DEFINITION.finditer(text):
        contract = CONTRACT.search(text, at, other.start())
        parts.append(text[at:contract.start() if contract else other.start()])
        at = text.index("\n}\n", other.end()) + 3
        if other[1] == function:
            parts.append(text[contract.start() if contract else other.start():at])
        elif re.search(rf"\b{other[1]}\(", body):
            parts.append(text[contract.start() if contract else other.start():other.end() - 2] + ";\n")
    return "".join(parts)


def with_blocks(spec: str, text: str) -> str:
    """The specification without the blocks of axioms and lemmas that nobody names."""
    for block in reversed(list(BLOCK.finditer(spec))):
        rest = spec[:block.start()] + spec[block.end():]
        if not any(re.search(rf"\b{name}\b", rest + text) for name in NAME.findall(block[0])):
            spec = rest
    return spec


def without_table(text: str) -> str:
    """A source without what it says by a lawful table."""
    return EMPTY.sub("", BY_TABLE.sub("", text))


def tries(asked: argparse.Namespace) -> list[tuple[str, int]]:
    """Who is asked for a goal, and for how many seconds, one after another."""
    provers = asked.by or list(PROVERS)
    short = [(name, seconds) for name, seconds in SHORT if name in provers and seconds < asked.seconds]
    return [*short, *((name, asked.seconds) for name in provers)]


def configure(place: Path, asked: argparse.Namespace) -> None:
    """Writes what Why3 needs to know of the provers. The version of each is the processor time that it has."""
    parts = ["[main]\nmagic = 14\nmemlimit = 2000\nrunning_provers_max = 4\n"]
    for name, seconds in tries(asked):
        file, words, driver = PROVERS[name]
        command = f"prlimit --cpu={seconds} {file} {words} %f"
        parts.append(f'[prover]\nname = "{name}"\nversion = "{seconds}"\ncommand = "{command}"\ndriver = "{driver}"\n')
    conf = place / "why3.conf"
    conf.write_text("\n".join(parts))
    os.environ["WHY3CONFIG"] = str(conf)


def answers_of(folder: str) -> Path:
    """Where answers of just these provers are kept: an answer names a goal, a prover and its seconds, and nothing else."""
    said = [subprocess.run([file, "--version"], capture_output=True, text=True).stdout for file in sorted({it[0] for it in PROVERS.values()})]
    return Path(folder) / hashlib.sha256(repr([PROVERS, *said]).encode()).hexdigest()[:16]


def command(source: Path, functions: list[str], words: list[str], setting: Setting, asked: argparse.Namespace) -> list[str]:
    """WP's words. A goal that is the same text in two settings is asked once, by the cache."""
    machine, macros = setting
    flags = " ".join(["-std=c99", f"-I{source.parent}", f"-I{FOLDER}", *(f"-D{macro}" for macro in MACROS[macros])])
    provers = ",".join(f"{name}:{seconds}" for name, seconds in tries(asked))
    smoke = ["-wp-smoke-tests"] if asked.smoke else []
    return ["frama-c", "-machdep", machine, f"-cpp-extra-args={flags}", "-kernel-warn-key", FATAL, str(source), "-wp", "-wp-rte", *QUICK,
            *words, "-wp-prover", provers, "-wp-timeout", str(LONGEST), "-wp-par", "1", "-wp-cache", "update", "-wp-cache-dir", asked.keep, *smoke,
            *(["-wp-fct", ",".join(functions)] if functions else [])]


def prove(source: Path, functions: list[str], words: list[str], setting: Setting, asked: argparse.Namespace) -> Answer:
    """What WP says of the goals of some functions, each of which has some."""
    done = subprocess.run(command(source, functions, words, setting, asked), capture_output=True, text=True,
                          env={"OCAMLRUNPARAM": OCAML, **os.environ})
    counts = COUNTS.search(done.stdout)
    if done.returncode != 0 or counts is None or counts[2] == "0":
        cli.fail(f"frama-c failed on {', '.join(functions) or LEMMAS}\n{(done.stdout + done.stderr)[-2000:]}")
    return int(counts[1]), int(counts[2]), LEFT.findall(done.stdout), PROVED.findall(done.stdout)


def kept_of(setting: Setting, by: list[str] | None) -> set[str]:
    """The goals by a lawful table that a prover leaves by itself."""
    file = FOLDER / "test" / f"left_by_{by[0]}.txt" if by and len(by) == 1 else None
    lines = [line.split() for line in file.read_text().splitlines()] if file and file.exists() else []
    return {line[2] for line in lines if line[:2] == [*setting]}


def processor_time() -> float:
    """Of all programs that have ended."""
    used = resource.getrusage(resource.RUSAGE_CHILDREN)
    return used.ru_utime + used.ru_stime


def wrong_bodies() -> Any:
    spec = importlib.util.spec_from_file_location("wrong", FOLDER / "test" / "wrong.py")
    assert spec and spec.loader
    module = importlib.util.module_from_spec(spec)
    spec.loader.exec_module(module)
    return module.BODIES


def spoilt(source: str, wrong: Any) -> str:
    """The source with one wrong body."""
    body = re.search(BODY.format(wrong.function), source, re.MULTILINE | re.DOTALL)
    if body is None or body[0].count(wrong.old) != 1:
        cli.fail(f"{wrong.name}: not in {wrong.function}")
    return source[:body.start()] + body[0].replace(wrong.old, wrong.new) + source[body.end():]


def try_wrong(place: Path, asked: argparse.Namespace) -> int:
    """Tries each wrong body, and answers how many weren't refused: neither is one where the right body leaves a goal by the same limits."""
    setting = asked.machine[0] if asked.machine else MACHINES[0], asked.macros[0] if asked.macros else "default"
    right, rights, passed = (FOLDER / "cpg_node.c").read_text(), dict[tuple[str, str], list[str]](), 0

    def left_of(source: str, function: str, by: str) -> list[str]:
        file = write_alone(place / function, SOURCES[0], source, function)
        return prove(file, [function], ["-wp-split", *(["-wp-prop", by] if by else [])], setting, asked)[2]

    for wrong in wrong_bodies():
        if not asked.functions or wrong.function in asked.functions:
            where = wrong.function, wrong.by
            left = left_of(spoilt(right, wrong), *where)
            if where not in rights:
                rights[where] = left_of(right, *where)
            refused = left and not rights[where]
            passed += not refused
            print(f"{wrong.name}: {'refused by ' + wrong.function if refused else 'not refused'}", *(f"  left: {goal}" for goal in left),
                  *(f"  left by the right body: {goal}" for goal in rights[where]), sep="\n", flush=True)
    print(f"{passed} wrong bodies weren't refused")
    return passed


def words() -> argparse.Namespace:
    parser = cli.Words(__doc__)
    parser.add_argument("functions", nargs="*", metavar="FUNCTION", help="a function of cpg_node.c or cpg_open.c, or `lemmas`, those of "
                        "cpg_spec.h (all by default)")
    parser.add_argument("--memory", action="store_true", help="the contracts on memory alone")
    parser.add_argument("--table", action="store_true", help="what is said by a lawful table alone")
    parser.add_argument("--machine", action="append", metavar="M", help="a machine model of frama-c (x86_64 and x86_32, which has the "
                        "sizes of a Cortex-M)")
    parser.add_argument("--macros", action="append", choices=list(MACROS), help="the macros CPG_MAX_.. (both by default)")
    parser.add_argument("--by", action="append", choices=list(PROVERS), metavar="PROVER", help=f"a prover (all by default): {', '.join(PROVERS)}")
    parser.add_argument("--smoke", action="store_true", help="look for contracts that can't be met")
    parser.add_argument("--wrong", action="store_true", help="try the wrong bodies of runtime/c/test/wrong.py")
    parser.add_argument("--seconds", type=int, default=20, metavar="S", help="how much processor time a prover has for a goal (20)")
    parser.add_argument("--provers", type=int, default=2, metavar="N", help="how many functions are asked at a time (2, as Frama-C "
                        "waits for half of its time)")
    parser.add_argument("--keep", metavar="FOLDER", help="where to look for what provers have answered, and to keep it (nowhere, and never with --wrong)")
    return parser.parse_args()


def on_memory(place: Path, asked: argparse.Namespace) -> Iterator[Run]:
    for source in SOURCES:
        functions = [function for function in functions_of(source) if not asked.functions or function in asked.functions]
        if functions:
            file = place / source
            file.write_text(without_table((FOLDER / source).read_text()))
            yield f"{source}, memory", file, functions, []


def write_alone(folder: Path, source: str, text: str, function: str, named: str = "") -> Path:
    """Writes a file for one function, and beside it the specification without what neither the function nor other words name."""
    folder.mkdir(exist_ok=True)
    text = alone(text, function)
    (folder / source).write_text(text)
    (folder / "cpg_spec.h").write_text(with_blocks((FOLDER / "cpg_spec.h").read_text(), text + named))
    return folder / source


def by_table(place: Path, asked: argparse.Namespace) -> Iterator[Run]:
    if not asked.functions or LEMMAS in asked.functions:
        for block in BLOCK.finditer((FOLDER / "cpg_spec.h").read_text()):
            if " lemma " in block[0]:
                file = write_alone(place / block[1], SOURCES[0], (FOLDER / SOURCES[0]).read_text(), LEMMAS, block[0])
                yield f"{LEMMAS} of {block[1]}", file, [], ["-wp-prop", "@lemma"]
    for source in SOURCES:
        for function in functions_by_table(source):
            if not asked.functions or function in asked.functions:
                file = write_alone(place / function, source, (FOLDER / source).read_text(), function)
                yield f"{function}, table", file, [function], ["-wp-bhv", "table", "-wp-split"]


def prove_all(place: Path, setting: Setting, asked: argparse.Namespace) -> tuple[int, int, int]:
    """The goals that are proved, all of them, and those that are left and not kept."""
    proved, goals, new, kept = 0, 0, 0, kept_of(setting, asked.by)
    began, used = time.monotonic(), processor_time()
    runs = [*on_memory(place, asked)] if not asked.table else []
    runs += by_table(place, asked) if not asked.memory else []

    def answer(run: Run) -> Answer:
        _, source, functions, more = run
        return prove(source, functions, more, setting, asked)

    with ThreadPoolExecutor(asked.provers) as pool:
        for (name, *_), (some, all_, left, others) in zip(runs, pool.map(answer, runs)):
            known = set() if name.endswith(", memory") else kept
            proved, goals, new = proved + some, goals + all_, new + all_ - some - len(known.intersection(left))
            print(f"{name}: {some} of {all_}", *(f"  left{', as is kept' if goal in known else ''}: {goal}" for goal in left),
                  *(f"  proved, though it is kept: {goal}" for goal in others if goal in known), sep="\n", flush=True)
    print(f"{', '.join(setting)} macros: {proved} of {goals} goals proved, in {time.monotonic() - began:.0f} s, "
          f"{processor_time() - used:.0f} s of a processor", flush=True)
    return proved, goals, new


def main() -> int:
    asked = words()
    missing = program.missing(["frama-c", "why3", *(PROVERS[name][0] for name in asked.by or PROVERS)])
    if missing:
        print(f"skipped: there is no {', '.join(missing)}")
        return 0
    known = [function for source in SOURCES for function in functions_of(source)]
    unknown = [function for function in asked.functions if function not in [*known, LEMMAS]]
    if unknown:
        cli.fail(f"no function: {unknown[0]}")
    totals = [0, 0, 0]
    with tempfile.TemporaryDirectory() as place:
        asked.keep = str(answers_of(asked.keep if asked.keep and not asked.wrong else place))
        Path(asked.keep).mkdir(parents=True, exist_ok=True)
        configure(Path(place), asked)
        if asked.wrong:
            return 1 if try_wrong(Path(place), asked) else 0
        for machine in asked.machine or MACHINES:
            for macros in asked.macros or MACROS:
                totals = [sum(it) for it in zip(totals, prove_all(Path(place), (machine, macros), asked))]
    proved, goals, new = totals
    print(f"{proved} of {goals} goals proved{f', and {goals - proved - new} are kept as left' if goals - proved - new else ''}")
    return 1 if new else 0
