"""Searches for a better order of a graph's processes, or a better design, and writes its graph file.

    explore GRAPH > found.toml
    explore --quick GRAPH > found.toml
    explore GRAPH CHOICES > found.toml

Without CHOICES it looks for an order: the key `order` of a graph file, which `cpgc` compiles in place of its own orders. CHOICES is a TOML
file that says what else may change:

    order = true                    the order may change (true by default)
    slots = true                    slots may change places (false by default)
    together = [["a", "b"]]         processes that stay on one node
    apart = [["c", "d"]]            processes of which no two may be on one node
    [process.fuse]                  a process; `*` in a name stands for anything; the first name that fits counts, a full name before those
    nodes = ["E1", "E2"]            it may run on these, with the wcet of GRAPH
    wcet = { E1 = 31, E2 = 25 }     or on these, with this wcet there
    parts = [1, 4]                  the least and the most number of parts, or one number
    frozen = true                   it may be frozen or not
    [edge."fuse>follow"]            a message
    frozen = true
    [slot.E1]                       lengths and bytes; the shortest slot that takes all messages of the node is used
    sizes = [[6, 4], [10, 16]]

With the goal `shortest` a design is better if fewer ends miss their due, by less, and then if the latest end is earlier. `in-time` stops
as soon as no end misses its due. With `most-frozen`, of the designs in time the one that freezes more of what may be frozen is better; with
`least-frozen`, of those that aren't too wide, the one that freezes less of it. With these two, if CHOICES doesn't say what may be frozen,
everything may.

What is written has been compiled by `cpgc`. The same words and files give the same result, on any number of processors, unless --seconds or
an interrupt ends the search; then it writes the best so far. --quick looks for an order by a few rules and a short search. If only the order
may change, explore also computes a bound that no order can beat, and says if it is reached. For anything else it never says that nothing is
better.

For example, `explore --quick pair.toml` says that no order of pair.toml is better, and writes it as it is.
"""
from __future__ import annotations


def main() -> int:
    from cpgc_tools.explore import command

    return command.main(__doc__)
