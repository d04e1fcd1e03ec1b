#!/usr/bin/env python3
"""Prints the run files of a sweep, a line each: one key, at clock after clock. To copy, and to change for what you sweep over.

  examples/sweep/make_runs.py RUN FIRST END STEP

RUN has the other fields."""
import json
import sys

CLOCKS = range(*map(int, sys.argv[2:5]))
DOWN, UP, HELD = 0x1E, 0x9E, 500  # the key A, and for how many clocks it is down

with open(sys.argv[1], encoding='utf-8') as file:
    fields = json.load(file)
for at in CLOCKS:
    print(json.dumps({'name': f'key-{at}'} | fields | {'keys': [[at, DOWN], [at + HELD, UP]]}))
