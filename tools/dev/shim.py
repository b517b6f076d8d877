"""What a file such as tools/figures imports: it runs the program of tools/dev that has its name."""
import importlib
import os
import sys

from cpgc_tools import cli

name = os.path.basename(sys.argv[0])
sys.exit(cli.run(name, importlib.import_module(f"dev.{name.removesuffix('.py').replace('-', '_')}").main))
