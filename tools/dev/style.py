"""Asks the linters about the tools, those that are installed, and says plainly which aren't.

    tools/style

mypy --strict and ruff read the Python of tools/ (pycodestyle and pyflakes3 where there is no ruff), by pyproject.toml; shellcheck the shell;
node --check and eslint's recommended rules (tools/dev/eslint.json) the page's JavaScript, eslint all parts as they stand together. On Debian:
apt-get install mypy pycodestyle python3-pyflakes shellcheck nodejs eslint; ruff comes by pip. The status is 1 where one of them says anything.

For example, `tools/style`.
"""
from __future__ import annotations

import json
import os
import re
import shutil
import subprocess

from cpgc_tools import cli, page, program
from dev.measuring import TOP

SHELL = [".ci/run", "completion/cpgc.bash"]
LONGEST = 200
# what pycodestyle says of the layout of long calls and of lambdas is a matter of taste
IGNORED = "E121,E123,E126,E127,E128,E129,E131,E731,W503,W504"


def python_files() -> list[str]:
    return sorted(str(path.relative_to(TOP)) for path in (TOP / "tools").rglob("*.py") if "import dev.shim" not in path.read_text())


def calls() -> list[tuple[str, list[list[str]]]]:
    """The linters, each with its runs: of several that stand for each other the first that is there."""
    scripts = sorted(str(path.relative_to(TOP)) for path in (TOP / "tools").rglob("*.js"))
    lines = [["pycodestyle", f"--max-line-length={LONGEST}", f"--ignore={IGNORED}", *python_files()], ["pyflakes3", *python_files()]]
    return [
        ("mypy", [["mypy", f"--cache-dir={os.devnull}", "--no-error-summary", "--hide-error-context"]]),
        ("ruff", [["ruff", "check", "tools"]]) if shutil.which("ruff") else ("pycodestyle and pyflakes3 in place of ruff, which is not installed", lines),
        ("shellcheck", [["shellcheck", *SHELL]]),
        ("node", [["node", "--check", script] for script in scripts]),
    ]


def said_of_scripts() -> tuple[str, list[str]]:
    """Whether eslint is asked about the scripts of the page, and what it says of them."""
    if shutil.which("eslint") is None:
        return "not asked, as it is not installed", []
    text = "".join(re.findall(r"<script>\n(.*?)</script>", page.inlined("{}"), re.S))
    begins = {text.count("\n", 0, text.index(page.part(path.name))): path for path in sorted((TOP / "tools/cpgc_tools/page").glob("*.js"))}
    # where node isn't Debian's it doesn't look for eslint's modules there
    env = {"NODE_PATH": "/usr/share/nodejs", "ESLINT_USE_FLAT_CONFIG": "false", **os.environ}
    words = ["eslint", "--no-eslintrc", "--config", "tools/dev/eslint.json", "--format", "json", "--stdin", "--stdin-filename", "page.js"]
    ran = program.run(words, stdin=text.encode(), cwd=TOP, env=env)
    try:
        found = [it for file in json.loads(ran.out) for it in file["messages"]]
    except ValueError:
        return f"not asked, as this one can't be: {ran.line or 'it says nothing'}", []
    places = [max(begin for begin in begins if begin < max(it["line"], 1)) for it in found]
    return "asked", [f"{begins[begin].relative_to(TOP)}:{it['line'] - begin}: {it['message']} ({it['ruleId']})" for begin, it in zip(places, found)]


def main() -> int:
    cli.Words(__doc__).parse_args()
    wrong = 0
    for name, runs in calls():
        missing = sorted({words[0] for words in runs if shutil.which(words[0]) is None})
        cli.write(f"{name}: {'not asked, as it is not installed: ' + ', '.join(missing) if missing else 'asked'}\n")
        cli.flush()
        for words in runs:
            if words[0] not in missing:
                wrong += subprocess.run(words, cwd=TOP, check=False).returncode != 0
    how, said = said_of_scripts()
    cli.write_lines([f"eslint: {how}", *said])
    wrong += said != []
    cli.write("the linters say nothing\n" if not wrong else f"{wrong} of the linters' runs say something\n")
    return int(wrong > 0)
