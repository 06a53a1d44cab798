#!/usr/bin/env python3
"""Makes a file of links and tags whose numbers or keys are long: links.py FOLDER

Written are links.osm.pbf and links.txt, the lines of its elements, and the offset of its second frame is printed. Members and
references have the ids around 2^31, 2^32, 2^40 and 2^62 and below 0, one relation has more than 2^16 members, one blob more
than 2^16 relations, one node more than 2^16 tags, and another keys of 255 bytes and more.
"""
import sys

from wire import field, number

IDS = [0, 2**31 - 1, 2**31, 2**32 - 1, 2**32, 2**40 - 1, 2**40, 2**62 - 1, 0, -1, -(2**40), 1 - 2**62, -1, 1]
ROLES = ["", "outer", "inner", "a role of its own", "subarea"]
# behind the roles in the table of texts
KEYS = ["k" * 255, "l" * 256, "m" * 300]
LETTERS = "nwr"
MANY = 2**16 + 4


def zigzag(value):
    return number(2 * value if value >= 0 else -2 * value - 1)


def differences(ids):
    return b"".join(zigzag(it - before) for before, it in zip([0, *ids], ids))


def node(key, tags):
    """The tags are pairs of places in ROLES and KEYS; it lies at 0, 0."""
    keys = field(2, b"".join(number(at) for at, _ in tags))
    values = field(3, b"".join(number(at) for _, at in tags))
    return field(1, number(8) + zigzag(key) + keys + values + number(8 * 8) + zigzag(0) + number(8 * 9) + zigzag(0))


def way(key, refs):
    return field(3, number(8) + number(key) + field(8, differences(refs)))


def relation(key, members):
    """The members are triples: the place in LETTERS, the id, and the place in ROLES."""
    roles = field(8, b"".join(number(role) for _, _, role in members))
    kinds = field(10, b"".join(number(kind) for kind, _, _ in members))
    return field(4, number(8) + number(key) + roles + field(9, differences([it for _, it, _ in members])) + kinds)


def block(group):
    return field(1, b"".join(field(1, text.encode()) for text in ROLES + KEYS)) + field(2, group)


def frame(kind, raw):
    blob = field(1, raw)
    header = field(1, kind) + number(8 * 3) + number(len(blob))
    return len(header).to_bytes(4, "big") + header + blob


def node_line(key, tags):
    texts = [it.replace(" ", "%20") for it in ROLES + KEYS]
    return f"n {key} 0 0 [] {{{','.join(f'{texts[at]}={texts[val]}' for at, val in tags)}}}\n"


def way_line(key, refs):
    return f"w {key} ({','.join(str(it) for it in refs)}) [] {{}}\n"


def relation_line(key, members):
    texts = (f"{LETTERS[kind]}{it}@{ROLES[role].replace(' ', '%20')}" for kind, it, role in members)
    return f"r {key} ({','.join(texts)}) [] {{}}\n"


def main(folder):
    long_ids = [(at % 3, it, at % len(ROLES)) for at, it in enumerate(IDS)]
    many = [(at % 3, 7 * at, at % len(ROLES)) for at in range(MANY)]
    many_tags = [(at % len(ROLES), 1) for at in range(MANY)]
    long_keys = [(len(ROLES) + at % len(KEYS), at % len(ROLES + KEYS)) for at in range(9)]
    alone = [[(at % 3, at - 9, at % len(ROLES))] for at in range(MANY)]
    header = frame(b"OSMHeader", field(4, b"OsmSchema-V0.6"))
    frames = [
        header,
        frame(b"OSMData", block(node(1, many_tags))),
        frame(b"OSMData", block(node(2, long_keys))),
        frame(b"OSMData", block(way(1, IDS))),
        frame(b"OSMData", block(relation(1, long_ids))),
        frame(b"OSMData", block(relation(2, many))),
        frame(b"OSMData", block(b"".join(relation(3 + at, members) for at, members in enumerate(alone)))),
    ]
    with open(f"{folder}/links.osm.pbf", "wb") as file:
        file.writelines(frames)
    with open(f"{folder}/links.txt", "w", encoding="ascii") as file:
        file.write(node_line(1, many_tags) + node_line(2, long_keys))
        file.write(way_line(1, IDS) + relation_line(1, long_ids) + relation_line(2, many))
        file.writelines(relation_line(3 + at, members) for at, members in enumerate(alone))
    print(len(header))


main(sys.argv[1])
