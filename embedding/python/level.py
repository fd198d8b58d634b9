"""A level meter, a part of which is a process of our own: the root. Reads a sample a line and writes the level of each:

    printf '%s\\n' 30 -40 50 | python3 embedding/python/level.py embedding/level.toml
"""

import sys
from math import isqrt

import hoxburen

with hoxburen.open(sys.argv[1]) as flow:
    for line in sys.stdin:
        flow["x"].feed([int(line)])
        # Our own process: a root for each word of power.
        flow["root"].feed(isqrt(word) for word in flow["power"])
        for level in flow["level"]:
            print(level)
