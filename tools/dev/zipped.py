"""Writes the tools as one file, a zip that Python runs. It acts as the tool of its own name, such as cpgc-why, or else of its first word.

    tools/zipped FILE

The bytes are the same for the same tools. For example, `tools/zipped cpgc-tools && ./cpgc-tools why late.toml`.
"""
from __future__ import annotations

import io
import os
import zipfile
from pathlib import Path

import cpgc_tools
from cpgc_tools import cli

PACKAGE = Path(cpgc_tools.__file__).parent
SKIPPED = ("shim.py",)
MAIN = b"import sys\n\nfrom cpgc_tools.__main__ import main\n\nsys.exit(main())\n"


def parts() -> dict[str, bytes]:
    """The files of the zip by their paths."""
    files = sorted(path for path in PACKAGE.rglob("*") if path.is_file() and "__pycache__" not in path.parts and path.name not in SKIPPED)
    return {"__main__.py": MAIN, **{str(path.relative_to(PACKAGE.parent)): path.read_bytes() for path in files}}


def archive() -> bytes:
    out = io.BytesIO(b"")
    out.write(b"#!/usr/bin/env python3\n")
    with zipfile.ZipFile(out, "a", zipfile.ZIP_DEFLATED) as it:
        for path, content in parts().items():
            entry = zipfile.ZipInfo(path)  # of 1980, whenever it is made
            entry.external_attr = 0o644 << 16
            it.writestr(entry, content, zipfile.ZIP_DEFLATED, 9)
    return out.getvalue()


def main() -> None:
    said = cli.Words(__doc__).with_files("FILE").parse_args()
    try:
        Path(said.file).write_bytes(archive())
        os.chmod(said.file, 0o755)
    except OSError as fault:
        cli.fail(f"{said.file}: {cli.why(fault)}", cli.OUTPUT_FAILED)
