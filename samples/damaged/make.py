#!/usr/bin/env python3
"""Writes a lawful pack of damaged rules. RULES.txt says what is wrong with each."""
import os
import sys

HERE = os.path.dirname(os.path.abspath(__file__))
sys.path.insert(0, os.path.dirname(HERE))
from pack_bytes import pack, table, write


def rule(*rows):
    return table(2, 1, rows)


def wide_scope(leaves):
    """An in row whose scope joins this many flags, two rows for each but the first."""
    rows = [("top",), ("flag", 0)]
    for _ in range(leaves - 1):
        rows += [("flag", 1), ("or", len(rows) - 1, len(rows))]
    return rule(*rows, ("in", 0, len(rows) - 1))


TOP = rule(("top",))
RULES = [
    (1, TOP[:3]),
    (2, b"\0\0\2\1"),
    (3, rule(*[("top",)] * 1025)),
    (4, table(33, 0, [("top",)])),
    (5, table(0, 5, [("top",)])),
    (6, TOP + b"\0"),
    (7, rule(("top",), (12, 0))),
    (8, rule(("top",), ("not", 0, 1))),
    (9, rule(("flag", 2))),
    (10, rule(("code", 1))),
    (11, rule(("top",), ("not", 1))),
    (12, rule(("top",), ("top",))),
    (13, rule(("top",), ("and", 0, 0))),
    (14, rule(("top",), ("flag", 0), ("next", 1), ("in", 0, 2))),
    (15, wide_scope(33)),
    (16, wide_scope(32)),
    (17, TOP),
]

if __name__ == "__main__":
    write(os.path.join(HERE, "rules.pack"), pack(RULES))
