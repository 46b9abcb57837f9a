#!/usr/bin/env python3
"""Writes a pack of no rules."""
import os
import sys

HERE = os.path.dirname(os.path.abspath(__file__))
sys.path.insert(0, os.path.dirname(HERE))
from pack_bytes import pack, write

if __name__ == "__main__":
    write(os.path.join(HERE, "rules.pack"), pack([]))
