#!/usr/bin/env python3
"""Makes files of the greatest sizes that the format allows, and of one byte more: sizes.py FOLDER

Written are greatest.osm.pbf, whose data frame has a header, a Blob and raw data of the greatest sizes; greatest.txt, the
lines of its elements; and header.osm.pbf, blob.osm.pbf and raw.osm.pbf, in each of which one of the three has one byte more.
"""
import sys

from wire import field, number

GREATEST_HEADER = 65_535
GREATEST_BLOB = 33_619_968
GREATEST_RAW = 33_554_431
# the texts of as many nodes fill nearly all of a block
NODES, TEXT = 16, 2_000_000


def padded(front, size):
    """The message with a field that no reader knows behind it, so that it has this size."""
    for length in range(size - len(front), 0, -1):
        made = front + number(8 * 100 + 2) + number(length)
        if len(made) + length == size:
            return made + bytes(length)
    raise ValueError(size)


def frame(kind, blob, header_size=None):
    header = field(1, kind) + number(8 * 3) + number(len(blob))
    if header_size:
        header = padded(header, header_size)
    return len(header).to_bytes(4, "big") + header + blob


def raw_blob(raw, size=None):
    blob = field(1, raw)
    return padded(blob, size) if size else blob


def block(size):
    """A block of nodes 1, 2, .. at the place 0, 0, each with a long text of its own behind the key k."""
    texts = [b"", b"k"] + [bytes([97 + node]) * TEXT for node in range(NODES)]
    tags = b"".join(number(1) + number(2 + node) + number(0) for node in range(NODES))
    dense = field(1, number(2) * NODES) + field(8, number(0) * NODES) + field(9, number(0) * NODES) + field(10, tags)
    return padded(field(1, b"".join(field(1, text) for text in texts)) + field(2, field(2, dense)), size)


def main(folder):
    header = frame(b"OSMHeader", raw_blob(field(4, b"OsmSchema-V0.6") + field(4, b"DenseNodes")))
    raw = block(GREATEST_RAW)
    made = {
        "greatest.osm.pbf": frame(b"OSMData", raw_blob(raw, GREATEST_BLOB), GREATEST_HEADER),
        "header.osm.pbf": frame(b"OSMData", raw_blob(raw), GREATEST_HEADER + 1),
        "blob.osm.pbf": frame(b"OSMData", raw_blob(raw, GREATEST_BLOB + 1)),
        "raw.osm.pbf": frame(b"OSMData", raw_blob(block(GREATEST_RAW + 1))),
    }
    for name, data in made.items():
        with open(f"{folder}/{name}", "wb") as file:
            file.write(header + data)
    with open(f"{folder}/greatest.txt", "w", encoding="ascii") as file:
        for node in range(NODES):
            file.write(f"n {node + 1} 0 0 [] {{k={chr(97 + node) * TEXT}}}\n")
    print(len(header), len(made["greatest.osm.pbf"]))


main(sys.argv[1])
