#!/usr/bin/env python3
"""ways_with_places.py FILE: each way of a PBF file with the box around its nodes, in degrees: id, west, south, east, north.

The whole file is in memory. Nodes that the file lacks, as at the edge of an extract, are left out; a way without any has a line
with its id alone."""
import signal
import sys
import zlib

import numpy as np
import pbfrow

signal.signal(signal.SIGPIPE, signal.SIG_DFL)  # so that `head` may end it

country = pbfrow.read(sys.argv[1], inflate=zlib.decompress, threads=4)
nodes, ways = country.nodes, country.ways

# where each node is among the nodes, by binary search
order = np.argsort(nodes.ids, kind="stable")
sorted_ids = nodes.ids[order]
places = np.searchsorted(sorted_ids, ways.refs.ids)
is_there = np.isin(ways.refs.ids, sorted_ids)
node = order[places[is_there]]

# the least and the greatest of each way that has nodes
owners = ways.refs.owners[is_there]
has, begins = np.unique(owners, return_index=True)
sides = np.full((len(ways), 4), np.nan)
for column, values, of_each in ((0, nodes.lons, np.minimum), (1, nodes.lats, np.minimum), (2, nodes.lons, np.maximum), (3, nodes.lats, np.maximum)):
    sides[has, column] = of_each.reduceat(values[node], begins) / 1e9 if len(has) else 0

for at, box in zip(ways.ids, sides):
    print(at, *(() if np.isnan(box[0]) else box))
