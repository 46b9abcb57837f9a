#!/usr/bin/env python3
"""Writes a plain table. TABLE.txt says what it is."""
import os
import sys

HERE = os.path.dirname(os.path.abspath(__file__))
sys.path.insert(0, os.path.dirname(HERE))
from pack_bytes import table, write

ROWS = [("flag", 0), ("flag", 1), ("or", 0, 1), ("not", 2), ("flag", 1), ("and", 2, 4), ("until", 3, 5), ("and", 2, 6),
        ("until", 3, 7), ("next", 8), ("and", 2, 9), ("until", 3, 10)]

if __name__ == "__main__":
    write(os.path.join(HERE, "plain.table"), table(2, 0, ROWS))
