#!/usr/bin/python3
"""replication/run, which takes any server to be far ahead: far.py WORDS..  keeps the mirror's file itself."""

from __future__ import annotations

import os
import runpy
import sys

TOP = os.path.dirname(os.path.dirname(os.path.abspath(__file__)))
sys.path.insert(0, TOP)

import start

if __name__ == "__main__":
    setattr(start, "FAR", -1)
    sys.argv[0] = os.path.join(TOP, "run")
    runpy.run_path(sys.argv[0], run_name="__main__")
