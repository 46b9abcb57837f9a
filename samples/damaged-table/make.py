#!/usr/bin/env python3
"""Writes a rule where a plain table should stand."""
import os
import sys

HERE = os.path.dirname(os.path.abspath(__file__))
sys.path.insert(0, os.path.dirname(HERE))
from pack_bytes import table, write

ROWS = [("flag", 1), ("next", 0), ("flag", 0), ("flag", 1), ("or", 2, 3), ("in", 1, 4)]

if __name__ == "__main__":
    write(os.path.join(HERE, "plain.table"), table(2, 0, ROWS))
