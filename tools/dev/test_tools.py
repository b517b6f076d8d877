"""Tests the tools.

    tools/test-tools [PROGRAM [NAME ..]]

PROGRAM is crates/cpgc/out/cpgc by default. A NAME is a module of tools/tests or something in one, such as test_slack or
test_slack.Slack.test_pair; without names, all tests run. tools/test-draw PROGRAM --make writes the pictures of docs/pictures.

For example, `tools/test-tools PROGRAM test_cycle`.
"""
from __future__ import annotations

import os
import unittest

from cpgc_tools import cli, program
from dev.measuring import TOP


def run(named: str | None, names: list[str]) -> int:
    """Runs tests with a program, and answers with a status."""
    os.environ["CPGC"] = program.found(named)
    os.chdir(TOP / "tools")
    loader = unittest.TestLoader()
    suite = loader.loadTestsFromNames([f"tests.{name}" for name in names]) if names else loader.discover("tests", top_level_dir=".")
    return int(not unittest.TextTestRunner().run(suite).wasSuccessful())


def main() -> int:
    words = cli.Words(__doc__)
    words.add_argument("program", metavar="PROGRAM", nargs="?", default=str(TOP / "crates/cpgc/out/cpgc"), help="the built cpgc")
    words.add_argument("names", metavar="NAME", nargs="*", help="a test")
    said = words.parse_args()
    return run(said.program, said.names)
