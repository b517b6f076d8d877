"""The pair in other forms of TOML: sections with comments and keys in another order, and tables in braces over several lines."""
from tests.case import PAIR

SECTIONS = """
deadline = 0x69   # 105
faults = 1
[[process]]
wcet = 30  # the work of A
name = "A"
"node" = 'N1'
alpha = 2
chi = 3
mu = 5
[[process]]
name = "B"   # parts = 9 would be wrong
node = "N2"
wcet = 1_0
parts = 1
alpha = 2
chi = 3
mu = 5
[[node]]
name = "N1"
[[node]]
name = "N2"
[[slot]]
node = "N1"
length = 10
bytes = 8
[[slot]]
node = "N2"
length = 10
bytes = 8
[[edge]]
from = "A"
to = "B"
"""
BRACES = """
faults = 1
deadline = 105
node = [{
  name = "N1",   # a comment, with a } and a "
}, { name = "N2" }]
slot = [{ node = "N1", length = 10, bytes = 8 }, { node = "N2", length = 10, bytes = 8 }]
process = [
  { name = "A", node = "N1",
    wcet = 30, alpha = 2,
    chi = 3, mu = 5, },
  { name = "B", node = "N2", wcet = 10, alpha = 2, chi = 3, mu = 5 },
]
edge = [{ from = "A", to = "B" }]
"""
FORMS = {"examples/pair.toml": PAIR, "sections": SECTIONS, "braces": BRACES}
