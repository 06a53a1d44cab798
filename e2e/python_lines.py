#!/usr/bin/env python3
"""python_lines.py FILE WAY: the elements of a file as the lines of `pbfrow show`, made from the arrays of the package pbfrow.

WAY says how they are read: `blocks`, one block at a time; `ahead`, by four threads; `map`, by a pool of the caller; `whole`, all
of the file at once; `growing`, the same where at first there is room for nothing; `together`, by three threads, whose blocks are put
together; `kinds`, the nodes of the whole file, then its ways, then its relations; `zlib`, blocks that zlib inflates.
"""
import sys
import zlib
from concurrent.futures import ThreadPoolExecutor

import pbfrow

SEPARATORS = b"%=,@[]{}()"
ESCAPES = {byte: "%%%02X" % byte for byte in range(256) if byte < 33 or byte == 127 or byte in SEPARATORS}


def infos(elements, names):
    """What the lines have in [ ], one for each element."""
    for version, time, changeset, uid, user, visible in zip(
        elements.versions.tolist(), elements.times.tolist(), elements.changesets.tolist(), elements.uids.tolist(),
        elements.users.tolist(), elements.visible.tolist(),
    ):  # fmt: skip
        parts = []
        parts += [] if version == -1 else [f"v={version}"]
        parts += [] if time == pbfrow.MISSING else [f"t={time}"]
        parts += [] if changeset == pbfrow.MISSING else [f"c={changeset}"]
        parts += [] if uid == pbfrow.MISSING_INT else [f"i={uid}"]
        parts += [] if user == -1 else [f"u={names[user]}"]
        parts += [] if visible == 2 else [f"x={visible}"]
        yield ",".join(parts)


def ranges(part):
    ends = part.ends.tolist()
    assert part.offsets.tolist() == [0, *ends] and len(part) == part.offsets[-1]
    return zip([0, *ends], ends)


def lines(elements):
    """The lines of these elements."""
    names = [text.translate(ESCAPES) for text in elements.texts]
    tags, refs, members = elements.tags, elements.refs, elements.members
    pairs = [f"{names[key]}={names[value]}" for key, value in zip(tags.keys.tolist(), tags.values.tolist())]
    nodes = refs.ids.tolist()
    parts = [
        f"{'nwr'[kind]}{number}@{names[role]}"
        for kind, number, role in zip(members.kinds.tolist(), members.ids.tolist(), members.roles.tolist())
    ]
    rows = zip(
        elements.kinds.tolist(), elements.ids.tolist(), elements.lats.tolist(), elements.lons.tolist(),
        infos(elements, names), ranges(tags), ranges(refs), ranges(members),
    )  # fmt: skip
    for kind, number, lat, lon, info, tag, ref, member in rows:
        place = [f"{lat} {lon}", f"({','.join(map(str, nodes[slice(*ref)]))})", f"({','.join(parts[slice(*member)])})"][kind]
        assert kind == 0 or lat == lon == 0
        yield f"{'nwr'[kind]} {number} {place} [{info}] {{{','.join(pairs[slice(*tag)])}}}"


def blocks(file, way):
    """What has the elements of a file, in order."""
    if way == "map":
        with ThreadPoolExecutor(4) as pool:
            yield from (block.elements for block in pool.map(file.decode, file.blobs()))
    else:
        yield from (block.elements for block in file.blocks(4 if way == "ahead" else 1))


def main():
    path, way = sys.argv[1:]
    sys.stdout.reconfigure(newline="\n", encoding="utf-8")
    if way in ("whole", "growing", "together", "kinds"):
        if way == "growing":
            pbfrow._read._MOST_AT_FIRST = 0
        block = pbfrow.read(path, threads=3 if way == "together" else 1)
        all_of = [block.nodes, block.ways, block.relations] if way == "kinds" else [block.elements]
        for elements in all_of:
            sys.stdout.writelines(line + "\n" for line in lines(elements))
        return
    with pbfrow.open(path, inflate=zlib.decompress if way == "zlib" else None) as file:
        for elements in blocks(file, way):
            sys.stdout.writelines(line + "\n" for line in lines(elements))


main()
