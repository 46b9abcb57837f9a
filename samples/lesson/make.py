#!/usr/bin/env python3
"""Writes the sheet of a short lesson. SHEET.txt says what it is."""
import os
import sys

HERE = os.path.dirname(os.path.abspath(__file__))
sys.path.insert(0, os.path.dirname(HERE))
from pack_bytes import sheet, write

STATES = [(1, [20]), (4, [-30]), (2, [55]), (4, [10]), (0, [0, 127, -128, 1]), (2**31 + 2**16 + 3, [])]

if __name__ == "__main__":
    write(os.path.join(HERE, "session.sheet"), sheet(STATES))
