#!/usr/bin/env python3
"""Checks the history that a controller writes, as it grows: tail -n +1 -f history | watch.py

It stops at the first step that isn't legal, and says which rule that breaks. vandrexu.py lies on PYTHONPATH."""
import sys

from vandrexu import Checker, Config

lines = (line.rstrip("\n") for line in sys.stdin)
with Checker(Config.of_line(next(lines))) as checker:
    for place, line in enumerate(lines, 1):
        if words := checker.why(line):
            sys.exit(f"bad at {place} (line {place + 1}): {words}")
        checker.take_line(line)
print("legal")
