#!/usr/bin/env python3
"""python_files.py FOLDER: files that the usual writers don't make, for the checks of the package pbfrow.

Written are mixed.osm.pbf, in whose blocks the kinds of elements stand mixed, texts stand twice, and much is missing; and
header.osm.pbf, whose header block says all that one can say. It shares nothing with the program and the package.
"""
import sys
import zlib

from wire import field, number


def plain(place, value):
    """A field that is a number."""
    return number(8 * place) + number(value % 2**64)


def signed(place, value):
    return plain(place, 2 * value if value >= 0 else -2 * value - 1)


def packed(place, values):
    return field(place, b"".join(number(value % 2**64) for value in values))


def zigzags(values):
    return [2 * value if value >= 0 else -2 * value - 1 for value in values]


def deltas(values):
    return [value - before for value, before in zip(values, [0, *values])]


def frame(kind, blob):
    header = field(1, kind) + plain(3, len(blob))
    return len(header).to_bytes(4, "big") + header + blob


def raw(payload):
    return field(1, payload)


def deflated(payload, raw_size=None):
    return plain(2, len(payload) if raw_size is None else raw_size) + field(3, zlib.compress(payload))


HEADER = field(4, b"OsmSchema-V0.6") + field(4, b"DenseNodes")


def info(**said):
    """version, time, changeset, uid, user, visible: what is known of them."""
    places = {"version": 1, "time": 2, "changeset": 3, "uid": 4, "user": 5, "visible": 6}
    return field(4, b"".join(plain(places[name], value) for name, value in said.items()))


def tagged(pairs):
    return packed(2, [key for key, _ in pairs]) + packed(3, [value for _, value in pairs])


def node(at, lat, lon, pairs=(), **said):
    return field(1, signed(1, at) + tagged(pairs) + info(**said) + signed(8, lat) + signed(9, lon))


def way(at, refs, pairs=(), **said):
    return field(3, plain(1, at) + tagged(pairs) + info(**said) + packed(8, zigzags(deltas(refs))))


def relation(at, members, pairs=(), **said):
    """Members are triples of a kind, an id and a role."""
    kinds, ids, roles = zip(*members) if members else ((), (), ())
    parts = packed(8, roles) + packed(9, zigzags(deltas(ids))) + packed(10, kinds)
    return field(4, plain(1, at) + tagged(pairs) + info(**said) + parts)


def block(texts, *groups, **scales):
    places = {"granularity": 17, "date_granularity": 18, "lat_offset": 19, "lon_offset": 20}
    table = field(1, b"".join(field(1, text.encode()) for text in texts))
    return table + b"".join(field(2, group) for group in groups) + b"".join(plain(places[name], value) for name, value in scales.items())


TEXTS = ["", "name", "Käse=50%, [alt] {neu}\t\n\x7f", "name", "日本語", "", "forward", "ann", "ann", "x" * 300]


def mixed():
    """Blocks whose kinds stand mixed: by groups, and one of each in turn."""
    nodes = [
        node(-1, -(10**9), 1_800_000_000, [(1, 2), (3, 4)], version=0, time=5, changeset=0, uid=0, user=0, visible=1),
        node(2**62 - 1, 900_000_000, -1_800_000_000, [], version=7),
        node(0, 0, 0, [(1, 0), (5, 9)], user=8),
    ]
    ways = [
        way(-5, [], [(3, 2)], time=-1, changeset=-9, uid=-1, visible=0),
        way(6, [1, 1, -1, 2**40, 3], [], user=7),
        way(7, [9], [(1, 1)] * 40),
    ]
    relations = [relation(-2**40, [(0, 5, 0), (1, -7, 6), (2, 2**50, 4), (0, 5, 5)], [(4, 4)], version=2), relation(1, [])]
    by_group = block(TEXTS, ways[0] + ways[1], nodes[0], relations[0], nodes[1] + nodes[2], relations[1], ways[2], granularity=1)
    in_turn = block(TEXTS, *[one for three in zip(nodes, ways, relations * 2) for one in three], date_granularity=1, lat_offset=5, lon_offset=-7)
    late = block(["", "name", "ann", "b"], *ways[:1], *nodes[:1] * 0, way(8, [4], [(1, 2)], user=3))
    return [by_group, in_turn, late, block([]), block(["a", "b"]), block(["only"], node(1, 2, 3))]


def sides(left, right, top, bottom):
    return field(1, signed(1, left) + signed(2, right) + signed(3, top) + signed(4, bottom))


FULL_HEADER = (
    sides(-1, 2, 90 * 10**9, -(90 * 10**9)) + HEADER + field(5, b"Sort.Type_then_ID") + field(5, b"Has_Metadata")
    + field(16, b"hand") + field(17, "Käse".encode()) + plain(32, 1_700_000_000) + plain(33, 4711) + field(34, b"https://example.org/")
)  # fmt: skip


def main():
    folder = sys.argv[1]
    with open(f"{folder}/mixed.osm.pbf", "wb") as file:
        file.write(frame(b"OSMHeader", raw(HEADER)) + frame(b"OSMMine", b"whatever"))
        for payload in mixed():
            file.write(frame(b"OSMData", raw(payload)))
    with open(f"{folder}/header.osm.pbf", "wb") as file:
        file.write(frame(b"OSMHeader", deflated(FULL_HEADER)) + frame(b"OSMData", raw(mixed()[0])))


if __name__ == "__main__":
    main()
