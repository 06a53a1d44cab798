#!/usr/bin/env python3
"""count_pbfrow.py FILE blocks|whole THREADS: counts what a file has, once all of it is in arrays: nodes, ways, relations, tags,
refs and members. By `blocks` one block at a time is in memory, by `whole` all of the file."""
import sys

import numpy as np
import pbfrow


def counts(block):
    return [*block.numbers, len(block.tags), len(block.refs), len(block.members)]


path, way, threads = sys.argv[1], sys.argv[2], int(sys.argv[3])
if way == "whole":
    print(*counts(pbfrow.read(path, threads=threads)))
else:
    with pbfrow.open(path) as file:
        print(*np.sum([counts(block) for block in file.blocks(threads)], axis=0))
