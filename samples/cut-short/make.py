#!/usr/bin/env python3
"""Writes the pack of the course without its last byte."""
import os
import sys

HERE = os.path.dirname(os.path.abspath(__file__))
sys.path[:0] = [os.path.dirname(HERE), os.path.join(os.path.dirname(HERE), "course")]
from pack_bytes import pack, write
from make import RULES

if __name__ == "__main__":
    write(os.path.join(HERE, "rules.pack"), pack(RULES)[:-1])
