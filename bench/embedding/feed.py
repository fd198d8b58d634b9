"""As feed.c, with arrays. It tells how long the feeding took, without what Python takes for the samples and the comparison.

feed.py FILE SAMPLES WORDS
"""

import os
import sys
import time
from array import array

sys.dont_write_bytecode = True
sys.path.insert(0, os.path.join(os.path.dirname(os.path.abspath(__file__)), "..", "..", "embedding", "python"))
import hoxburen

path, samples, words = sys.argv[1], int(sys.argv[2]), int(sys.argv[3])
source = array("Q", (it * 7919 % 1000 for it in range(samples)))
sums, lows = array("Q", bytes(8 * samples)), array("Q", bytes(8 * samples))
with hoxburen.open(path) as flow:
    x, sum_, low = flow["x"], flow["sum"], flow["low"]
    fed, to_sums, to_lows, given = 0, memoryview(sums), memoryview(lows), memoryview(source)
    begun = time.perf_counter()
    while fed < samples:
        fed += x.offer(given[fed : fed + words])
        flow.advance()
        to_sums = to_sums[sum_.poll(to_sums) :]
        to_lows = to_lows[low.poll(to_lows) :]
    took, entries = time.perf_counter() - begun, flow.entries
for place, word in enumerate(source):
    old = [source[place - it] if place >= it else 0 for it in (1, 2, 3)]
    assert (sums[place], lows[place]) == (word + old[0] + old[1] + old[2], word + 2 * old[0] + old[1])
print(f"{samples} samples, both sums of each, {entries} entries, {took} seconds")
