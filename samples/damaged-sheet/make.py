#!/usr/bin/env python3
"""Writes a sheet whose last byte is missing."""
import os
import sys

HERE = os.path.dirname(os.path.abspath(__file__))
sys.path.insert(0, os.path.dirname(HERE))
from pack_bytes import sheet, write

if __name__ == "__main__":
    write(os.path.join(HERE, "session.sheet"), sheet([(1, [20]), (4, [-30])])[:-1])
