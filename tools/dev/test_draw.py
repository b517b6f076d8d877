"""Draws the pictures of docs/pictures again, and compares what they rest on with the program, in some seconds.

    tools/test-draw PROGRAM
    tools/test-draw PROGRAM --make

The pictures must be the same to the byte; --make writes them instead. The tests are those of tools/tests/test_draw.py.
"""
from __future__ import annotations

import os

from dev.measuring import words_with_program
from dev.test_tools import run


def main() -> int:
    words = words_with_program(__doc__)
    words.add_argument("--make", action="store_true", help="write the pictures")
    said = words.parse_args()
    if said.make:
        os.environ["CPGC_MAKE_PICTURES"] = "1"
    return run(said.program, ["test_draw.Pictures.test_stored" if said.make else "test_draw"])
