#!/usr/bin/env python3
"""Writes the course's rules.pack. RULES.txt says the same rules in words."""
import os
import sys

HERE = os.path.dirname(os.path.abspath(__file__))
sys.path.insert(0, os.path.dirname(HERE))
from pack_bytes import pack, table, write

LISTENING, ANSWER, EXERCISE, READING, UNIT_END, HINT = range(6)
SPEECH, PACE = range(2)


def rule(*rows):
    return table(6, 2, rows)


RULES = [
    (7, rule(("code", SPEECH), ("always", 0), ("flag", LISTENING), ("flag", ANSWER), ("or", 2, 3), ("in", 1, 4))),
    (101, rule(("flag", HINT), ("not", 0), ("always", 1))),
    (102, rule(("flag", UNIT_END), ("eventually", 0))),
    (103, rule(("flag", LISTENING), ("not", 0), ("flag", ANSWER), ("next", 2), ("or", 1, 3), ("always", 4),
               ("flag", EXERCISE), ("in", 5, 6))),
    (104, rule(("code", SPEECH), ("always", 0), ("flag", EXERCISE), ("in", 1, 2))),
    (105, rule(("flag", READING), ("flag", EXERCISE), ("until", 0, 1))),
    (106, rule(("flag", HINT), ("not", 0), ("always", 1), ("flag", EXERCISE), ("flag", READING), ("or", 3, 4),
               ("in", 2, 5))),
    (107, rule(("code", SPEECH), ("always", 0), ("flag", ANSWER), ("in", 1, 2), ("flag", EXERCISE), ("in", 3, 4))),
    (108, rule(("flag", READING), ("flag", UNIT_END), ("eventually", 1), ("and", 0, 2))),
    (109, rule(("code", PACE), ("eventually", 0), ("flag", HINT), ("not", 2), ("in", 1, 3))),
    (110, rule(("top",))),
]

if __name__ == "__main__":
    write(os.path.join(HERE, "rules.pack"), pack(RULES))
