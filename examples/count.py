#!/usr/bin/env python3
"""count.py FILE: how many elements a PBF file has, and its ten most frequent keys, with one block in memory at a time."""
import sys
import zlib
from collections import Counter

import numpy as np
import pbfrow

numbers, keys = np.zeros(3, int), Counter()
with pbfrow.open(sys.argv[1], inflate=zlib.decompress) as file:
    for block in file.blocks(threads=4):
        numbers += block.numbers
        often = np.bincount(block.tags.keys, minlength=len(block.texts))
        for key in np.flatnonzero(often):
            keys[block.texts[key]] += int(often[key])

print("{} nodes, {} ways, {} relations".format(*numbers))
for key, count in keys.most_common(10):
    print(count, key)
