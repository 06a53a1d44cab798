#!/usr/bin/env python3
"""nodes_of_box.py FILE WEST SOUTH EAST NORTH: the nodes of a PBF file in a box, whose sides are in degrees: id, latitude and
longitude, and the name if there is one."""
import signal
import sys
import zlib

import numpy as np
import pbfrow

signal.signal(signal.SIGPIPE, signal.SIG_DFL)  # so that `head` may end it

path, *sides = sys.argv[1:]
west, south, east, north = (round(float(side) * 1e9) for side in sides)

with pbfrow.open(path, inflate=zlib.decompress) as file:
    for nodes in file.nodes:
        lats, lons = nodes.lats, nodes.lons
        inside = np.flatnonzero((west <= lons) & (lons <= east) & (south <= lats) & (lats <= north))
        tags = nodes.tags
        named = tags.find("name")
        names = dict(zip(tags.owners[named], tags.values[named]))
        for at in inside:
            name = [nodes.texts[names[at]]] if at in names else []
            print(nodes.ids[at], lats[at] / 1e9, lons[at] / 1e9, *name)
