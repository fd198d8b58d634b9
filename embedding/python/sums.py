"""Reads a number a line, and writes the moving sum and the low-pass of each:

    seq 1 10 | python3 embedding/python/sums.py embedding/sums.toml
"""

import sys

import hoxburen

with hoxburen.open(sys.argv[1]) as flow:
    for line in sys.stdin:
        flow["x"].feed([int(line)])
        for words in zip(flow["sum"].signed, flow["low"].signed):
            print(*words)
