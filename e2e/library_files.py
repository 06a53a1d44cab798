#!/usr/bin/env python3
"""Makes files with faults of every kind, the same ones in each run: library_files.py TOP FOLDER

  FOLDER/blobs.osm.pbf  a header, and behind it frames whose blobs and blocks are bad in many ways; a reader goes over all of them
  FOLDER/alone/         files that each end with their first fault of a frame, and those whose header is bad
  FOLDER/header.osm.pbf a header that says all it can

They are made of the bytes in the tests of crates/osm_vectors, each read as a block, as a header block, as a blob and as a file;
of data/, whose frames, blobs and blocks are changed and cut at random; and of blocks that are made at random. The last line says
how many of each there are.
"""
import os
import random
import re
import sys

from wire import field, number

RNG = random.Random(20131)
RAW, TOO_LONG = 1, 33_554_432
TEXTS = [b"", b"a", b"name", b"highway", "Caf\u00e9".encode(), b"a=b, [c]@{d}%(e)", b"\x7f \x01", "\U0001f5fa".encode()]


def frame(kind, blob, size=None):
    header = field(1, kind) + number(8 * 3) + number(len(blob) if size is None else size)
    return len(header).to_bytes(4, "big") + header + blob


def data_frame(block):
    return frame(b"OSMData", field(RAW, block))


def vectors(top):
    """All byte arrays and byte strings of the tests."""
    found = []
    for folder, _, names in sorted(os.walk(f"{top}/crates/osm_vectors/src")):
        for name in sorted(names):
            with open(f"{folder}/{name}", encoding="utf-8") as file:
                text = file.read()
            for row in re.findall(r"\[\s*((?:0x[0-9A-Fa-f]{2},?\s*)+)\]", text):
                found.append(bytes(int(it, 16) for it in re.findall(r"0x([0-9A-Fa-f]{2})", row)))
            for row in re.findall(r'(?<![A-Za-z0-9_])b"((?:[^"\\]|\\.)*)"', text):
                found.append(row.encode().decode("unicode_escape").encode("latin-1"))
    return list(dict.fromkeys(it for it in found if len(it) < 100_000))


def frames_of(path):
    """The frames of a good file, each as its type, its block and all of its bytes."""
    with open(path, "rb") as file:
        data = file.read()
    at = 0
    while at < len(data):
        start = at + 4 + int.from_bytes(data[at : at + 4], "big")
        header = data[at + 4 : start]
        kind = header[2 : 2 + header[1]]
        size, shift = 0, 0
        for byte in header[2 + header[1] + 1 :]:
            size |= (byte & 127) << shift
            shift += 7
        blob = data[start : start + size]
        # field 1 and the length of the block stand in front of it, and nothing behind
        length, at_block, shift = 0, 1, 0
        while True:
            byte = blob[at_block]
            at_block += 1
            length |= (byte & 127) << shift
            shift += 7
            if byte < 128:
                break
        yield kind, blob[at_block : at_block + length], data[at : start + size]
        at = start + size


def changed(data):
    """The bytes with one to three changes: turned, set, cut off, cut out, put in, repeated."""
    data = bytearray(data)
    for _ in range(RNG.choice([1, 1, 1, 2, 3])):
        at = RNG.randrange(len(data) + 1)
        here = min(at, len(data) - 1)
        way = RNG.randrange(7)
        if way <= 1 and data:
            data[here] ^= 1 << RNG.randrange(8)
        elif way == 2 and data:
            data[here] = RNG.choice([0, 1, 2, 8, 10, 18, 26, 34, 127, 128, 255])
        elif way == 3:
            del data[at:]
        elif way == 4:
            del data[at : at + RNG.choice([1, 2, 5])]
        elif way == 5:
            data[at:at] = RNG.randbytes(RNG.choice([1, 1, 2, 9]))
        else:
            data[at:at] = data[at : at + RNG.choice([1, 2, 8, 30])]
    return bytes(data)


# ---- blocks of elements that are made at random, with what is rare in a map: most have no fault


def varint(value):
    return number(value & (1 << 64) - 1)


def zigzag(value):
    return varint(value * 2 if value >= 0 else -value * 2 - 1)


def int_field(place, encoded):
    return number(8 * place) + encoded


def integer():
    """A number, mostly a small one, and seldom one at a border."""
    if RNG.randrange(400) == 0:
        return RNG.choice([(1 << 62) - 1, -(1 << 62) + 1, 1 << 62, (1 << 63) - 1, -(1 << 63)])
    return RNG.choice([0, 1, -1, RNG.randrange(-100, 100), RNG.randrange(-(1 << 40), 1 << 40)])


def integers(count):
    return [zigzag(integer()) for _ in range(count)]


def index(texts):
    """That of a text, seldom of one that isn't there."""
    return RNG.randrange(texts) if RNG.randrange(400) else texts


def packed(place, numbers):
    """Numbers in one array, in two, or each by itself, as a reader has to take them."""
    way = RNG.randrange(8)
    if way == 0:
        return b"".join(int_field(place, it) for it in numbers)
    cut = RNG.randrange(len(numbers) + 1) if way == 1 else len(numbers)
    return b"".join(field(place, b"".join(it)) for it in (numbers[:cut], numbers[cut:]) if it or RNG.randrange(4) == 0)


def info(texts):
    """What is said of a change, with any part of it left out."""
    parts = [(1, varint(RNG.choice([-1, 0, 1, 7, (1 << 31) - 2]))), (2, varint(integer())), (3, varint(integer()))]
    parts += [(4, varint(RNG.choice([-1, 0, 5, (1 << 31) - 2]))), (5, varint(index(texts))), (6, varint(RNG.randrange(2)))]
    return field(4, b"".join(int_field(*it) for it in parts if RNG.randrange(3)))


def element(texts, own):
    """A node, a way or a relation with these parts of its own."""
    count = RNG.choice([0, 0, 1, 3])
    parts = [packed(2, [varint(index(texts)) for _ in range(count)]), packed(3, [varint(index(texts)) for _ in range(count)])]
    parts += own if RNG.randrange(3) == 0 else [info(texts), *own]
    if RNG.randrange(6) == 0:
        RNG.shuffle(parts)
    return b"".join(parts)


def dense_info(count, texts):
    """What is said of the changes of dense nodes, with any array left out."""
    users = [RNG.randrange(texts) for _ in range(count)]
    steps = [zigzag(to - since) for to, since in zip(users, [0, *users])]
    arrays = [packed(1, [varint(RNG.choice([-1, 1, 9])) for _ in range(count)]), packed(2, integers(count)), packed(3, integers(count))]
    arrays += [packed(4, [zigzag(RNG.choice([0, 1])) for _ in range(count)]), packed(5, steps)]
    arrays.append(packed(6, [varint(RNG.randrange(2)) for _ in range(count)]))
    return field(5, b"".join(it for it in arrays if RNG.randrange(4)))


def dense_tags(count, texts):
    tags = []
    for _ in range(count):
        for _ in range(RNG.choice([0, 0, 1, 2]) if texts > 1 else 0):
            tags += [varint(RNG.randrange(1, texts)), varint(index(texts))]
        tags.append(varint(0))
    return packed(10, tags)


def dense(texts):
    count = RNG.choice([0, 1, 2, 5])
    parts = [packed(1, integers(count)), packed(8, integers(count)), packed(9, integers(count))]
    parts += [dense_info(count, texts)] if RNG.randrange(3) else []
    parts += [dense_tags(count, texts)] if RNG.randrange(2) else []
    return field(2, b"".join(parts))


def own_parts(kind, texts):
    """What a node (1), a way (3) or a relation (4) has and no other element."""
    count = RNG.choice([0, 1, 2, 6])
    if kind == 1:
        return [int_field(place, zigzag(integer())) for place in (1, 8, 9)]
    if kind == 3:
        return [int_field(1, varint(integer())), packed(8, integers(count))]
    roles = packed(8, [varint(index(texts)) for _ in range(count)])
    return [int_field(1, varint(integer())), roles, packed(9, integers(count)), packed(10, [varint(RNG.randrange(3)) for _ in range(count)])]


def group(texts):
    kind = RNG.choice([1, 2, 3, 4])
    if kind == 2:
        return dense(texts)
    made = b""
    for _ in range(RNG.choice([0, 1, 2, 4])):
        made += field(kind, element(texts, own_parts(kind, texts)))
        if RNG.randrange(100) == 0:
            made += field(RNG.choice([1, 3, 4, 5]), b"")
    return made


def made_block():
    texts = RNG.choice([1, 2, 5, 8])
    strings = TEXTS[:texts]
    if RNG.randrange(100) == 0:
        strings[RNG.randrange(texts)] = RNG.choice([b"\xff", b"a\x00", b"\xed\xa0\x80"])
    scales = [(17, varint(RNG.choice([1, 100, 1000]))), (18, varint(RNG.choice([1, 1000]))), (19, varint(integer())), (20, varint(integer()))]
    parts = [field(1, b"".join(field(1, it) for it in strings))]
    parts += [int_field(*it) for it in scales if RNG.randrange(4) == 0]
    parts += [field(2, group(texts)) for _ in range(RNG.randrange(4))]
    if RNG.randrange(6) == 0:
        RNG.shuffle(parts)
    return b"".join(parts)


def block_of_many_texts(count):
    """A block in which every text but the empty one is used twice, far apart."""
    table = field(1, field(1, b"") + b"".join(field(1, b"text %d" % at) for at in range(1, count)))
    ways = b"".join(field(3, int_field(1, varint(at)) + field(2, varint(at)) + field(3, varint(count - at))) for at in range(1, count))
    return table + field(2, ways)


# ---- the files


def blobs(top, path):
    """Writes the file of bad blobs and blocks, and answers how many were changed at random."""
    two = [*frames_of(f"{top}/data/two-nodes.osm.pbf")]
    country = [block for kind, block, _ in frames_of(f"{top}/data/liechtenstein-raw.osm.pbf") if kind == b"OSMData"]
    known = vectors(top)
    small = [it for it in known if it[:2] in (b"\x0a\x02", b"\x0a\x06", b"\x0a\x08")] + [two[1][1]]
    made = [data_frame(it) for it in known] + [frame(b"OSMData", it) for it in known] + [frame(b"Extra", it) for it in known]
    made += [two[0][2], frame(b"OSMData", b""), data_frame(bytes(TOO_LONG)), data_frame(block_of_many_texts(40_000))]
    made += [frame(b"OSMData", number(8 * 2) + number(9) + field(place, b"packed")) for place in range(3, 9)]
    fixed = len(made)
    made += [data_frame(made_block()) for _ in range(2000)]
    made += [data_frame(changed(made_block())) for _ in range(1000)]
    made += [data_frame(changed(RNG.choice(small))) for _ in range(3000)]
    made += [frame(b"OSMData", changed(field(RAW, RNG.choice(small)))) for _ in range(3000)]
    made += [data_frame(changed(RNG.choice(country))) for _ in range(300)]
    with open(path, "wb") as file:
        file.write(two[0][2])
        file.writelines(made)
    return fixed, len(made) - fixed


def alone(top, folder):
    """Writes the files that have one fault each, and answers how many were changed at random."""
    two = [*frames_of(f"{top}/data/two-nodes.osm.pbf")]
    header = two[0][2]
    known = vectors(top)
    features = two[0][1]
    replication = b"\x80\x02\x05\x88\x02\x07" + field(34, b"there")
    full = field(1, b"\x08\x02\x10\x04\x18\x06\x20\x08") + features + field(5, b"Sorted")
    full += field(16, b"me") + field(17, b"here") + replication
    made = known + [header + it for it in known] + [frame(b"OSMHeader", field(RAW, it)) for it in known]
    made += [b"\0\0\0", header + b"\0\1\0\0", header + b"\0\0\0\2\x18\x00", header + b"\0\0\0\3\x0a\x01A"]
    made += [two[1][2], frame(b"Extra", b"")]
    made += [header + frame(b"OSMData", b"", size) for size in (33_619_969, 33_619_968, (1 << 64) - 1)]
    made.append(frame(b"OSMHeader", field(RAW, full)))
    with open(f"{folder}/../header.osm.pbf", "wb") as file:
        file.write(made[-1])
    fixed = len(made)
    made += [header + changed(two[1][2]) + two[1][2] for _ in range(1600)]
    made += [changed(header + two[1][2]) for _ in range(500)]
    made += [frame(b"OSMHeader", field(RAW, changed(RNG.choice([features, full])))) for _ in range(700)]
    for at, data in enumerate(made):
        with open(f"{folder}/{at:05}", "wb") as file:
            file.write(data)
    return fixed, len(made) - fixed


def main():
    top, folder = sys.argv[1:]
    os.makedirs(f"{folder}/alone")
    known, among = blobs(top, f"{folder}/blobs.osm.pbf")
    fixed, by_themselves = alone(top, f"{folder}/alone")
    print(f"{known + fixed} of the tests' vectors, {among + by_themselves} made or changed")
    return 0 if known > 300 and among + by_themselves >= 10_000 else 1


if __name__ == "__main__":
    sys.exit(main())
