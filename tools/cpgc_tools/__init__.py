"""The tools of cpgc, for people and scripts: Python 3.11 without other packages. `python3 -m cpgc_tools` lists them."""
import sys

__version__ = "1.1.7"

if sys.version_info < (3, 11):
    sys.exit(f"the tools of cpgc need Python 3.11 or later, and this is {sys.version.split()[0]}")
