"""What a file such as tools/why imports: it runs the tool of its name."""
import sys

from cpgc_tools.__main__ import main

sys.exit(main())
