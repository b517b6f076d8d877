"""Runs the gate and says what it costs: processor seconds by crate and step, as a table for docs/GATE.md.

    tools/gate_times.py    at the top of the repository: .ci/run, which proves and tries all anew

The steps are a crate's proof, its tests (proved with them once more), the seed (the proof that its wrong bodies are tried over), and the
wrong bodies. Each rattle process is looked at twice a second, with those that it started and that have ended, so that up to half a
second of each is missed; the sum at the end is exact.
"""
import os
import resource
import subprocess
import time

from cpgc_tools import cli

TICK = os.sysconf("SC_CLK_TCK")
Found = dict[tuple[str, tuple[str, str]], float]  # seconds by process, crate and step


def words_of(pid: str) -> list[str]:
    with open(f"/proc/{pid}/cmdline", "rb") as it:
        return it.read().decode(errors="replace").split("\0")


def seconds_of(pid: str) -> float:
    with open(f"/proc/{pid}/stat") as it:
        fields = it.read().rpartition(")")[2].split()
    return sum(map(int, fields[11:15])) / TICK


def step_of(words: list[str]) -> str:
    if "--test" in words:
        return "tests"
    if "--incremental" in words:
        return "seed" if words[words.index("--incremental") + 1].endswith("/seed") else "edits"
    return "proof"


def parent_of(pid: str) -> str:
    with open(f"/proc/{pid}/stat") as it:
        return it.read().rpartition(")")[2].split()[1]


def is_below(pid: str, top: str) -> bool:
    while pid not in ("0", "1", top):
        pid = parent_of(pid)
    return pid == top


def look(found: Found, top: str) -> None:
    for pid in filter(str.isdigit, os.listdir("/proc")):
        try:
            words = words_of(pid)
            if not words[0].endswith("/rattle") or "--crate-name" not in words or not is_below(pid, top):
                continue
            key = (words[words.index("--crate-name") + 1], step_of(words))
            found[pid, key] = seconds_of(pid)
        except (OSError, IndexError, ValueError):
            continue


def main() -> int:
    cli.Words(__doc__).parse_args()
    gate = subprocess.Popen([".ci/run"])
    begun = time.time()
    found: Found = {}
    while gate.poll() is None:
        look(found, str(gate.pid))
        time.sleep(0.5)
    steps = ["proof", "tests", "seed", "edits"]
    crates: dict[str, dict[str, float]] = {}
    for (_, (crate, step)), seconds in found.items():
        crates.setdefault(crate, dict.fromkeys(steps, 0.0))[step] += seconds
    print("| crate | " + ", s | ".join(steps) + ", s |\n|---|---|---|---|---|")
    for crate, row in sorted(crates.items()):
        print(f"| `{crate}` | " + " | ".join(f"{row[step]:.0f}" for step in steps) + " |")
    print("| all | " + " | ".join(f"{sum(row[step] for row in crates.values()):.0f}" for step in steps) + " |")
    used = resource.getrusage(resource.RUSAGE_CHILDREN)
    print(f"{(used.ru_utime + used.ru_stime) / 60:.0f} processor minutes, {(time.time() - begun) / 60:.0f} minutes, load {os.getloadavg()[2]:.1f}")
    return gate.returncode
