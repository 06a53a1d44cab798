#!/usr/bin/env python3
"""python_faults.py PBFROW COUNT FILE..: the faults of the package pbfrow are those of `pbfrow check`.

Tried are files with one fault of each sort that the format has, and COUNT files that are changed or cut at random, the same ones
in each run: small ones, and the FILEs. Of each, the package has to tell the same faults at the same offsets, whether they are
raised or told to a function, by one thread or several, and the same numbers of elements. Each has to be found as often as it can:
a fault of a blob doesn't hide those behind it.
"""
import random
import subprocess
import sys
import tempfile
from concurrent.futures import ThreadPoolExecutor

import pbfrow
from python_files import FULL_HEADER, HEADER, block, deflated, frame, info, mixed, node, packed, plain, raw, relation, signed, tagged, way
from wire import field, number

HEAD = frame(b"OSMHeader", raw(HEADER))
GOOD = frame(b"OSMData", raw(block(["", "a"], node(1, 2, 3, [(1, 1)], version=1))))


def data(payload):
    return HEAD + frame(b"OSMData", raw(payload)) + GOOD


def of_frames():
    """Files whose second frame isn't one, or which don't begin as they should."""
    kind, size = field(1, b"OSMData"), plain(3, 0)
    yield b""
    yield GOOD + HEAD
    yield HEAD + GOOD + HEAD + GOOD
    yield frame(b"OSMMine", b"") + GOOD
    for front in (b"\0", b"\0\1\0\0", b"\xff" * 4, b"\0\0\0\5abc"):
        yield HEAD + GOOD + front
    for header in (b"\xff", kind, size, kind + plain(3, 2**31), kind + plain(3, 33_619_969), kind + plain(3, -1), b"", field(1, b"") + size):
        yield HEAD + len(header).to_bytes(4, "big") + header + GOOD
    for at in range(len(HEAD + GOOD)):
        yield (HEAD + GOOD)[:at]


def of_blobs():
    payload = block(["", "a"], node(1, 2, 3))
    for place in (3, 4, 5, 6, 7):
        yield HEAD + frame(b"OSMData", field(place, b"abc") + plain(2, 9)) + GOOD
    for blob in (b"", b"\xff", plain(2, 5), field(3, b"") + raw(payload), raw(bytes(33_554_432)), raw(b"") + raw(payload), field(9, b"")):
        yield HEAD + frame(b"OSMData", blob) + GOOD
        yield frame(b"OSMHeader", blob) + GOOD
        yield HEAD + frame(b"OSMMine", blob) + GOOD
    yield frame(b"OSMHeader", deflated(HEADER)) + HEAD + frame(b"OSMData", deflated(payload))


def of_headers():
    for payload in (b"\xff", field(4, b"Unheard-Of"), field(4, b"\xff"), field(16, b"\xff"), field(1, b"\1"), field(1, signed(1, 5)), b"", field(4, b"a\0")):
        yield frame(b"OSMHeader", raw(payload)) + GOOD
    for at in range(len(FULL_HEADER)):
        yield frame(b"OSMHeader", raw(FULL_HEADER[:at])) + GOOD


def of_blocks():
    texts = ["", "a", "b"]
    dense = packed(1, [2, 2]) + packed(8, [2, 2]) + packed(9, [2, 2])
    groups = [
        node(1, 2, 3, [(7, 1)]), node(1, 2, 3, [(1, -1)]), node(2**63, 2, 3), node(1, 2**62, 3), node(1, 2, 3, version=-2),
        node(1, 2, 3, version=-1), node(1, 2, 3, user=9), node(1, 2, 3, uid=-2), node(1, 2, 3, time=2**62), node(1, 2, 3, changeset=-(2**63)),
        field(1, signed(8, 1) + signed(9, 1)), field(1, signed(1, 1)), field(1, b"\xff"), field(1, signed(1, 1) + packed(2, [1]) + signed(8, 1) + signed(9, 1)),
        field(2, dense), field(2, packed(1, [2]) + packed(8, [2, 2]) + packed(9, [2, 2])), field(2, dense + packed(10, [1, 1, 0, 0])),
        field(2, dense + packed(10, [1])), field(2, dense + packed(10, [9, 1, 0, 0])), field(2, dense + packed(10, [0, 0, 0])),
        field(2, dense + field(5, packed(1, [1]))), field(2, dense + field(5, packed(1, [1, 2]) + packed(5, [2, 99]))),
        field(2, packed(1, zigzag_edges()) + packed(8, [0, 0, 0]) + packed(9, [0, 0, 0])),
        way(1, [2**62]), way(1, [1, 2], [(1, 9)]), field(3, packed(8, [2])), field(3, plain(1, 1) + field(8, b"\xff")), way(1, [5]) + field(5, b"x"),
        relation(1, [(3, 1, 1)]), relation(1, [(0, 1, 9)]), field(4, plain(1, 1) + packed(8, [1]) + packed(9, [2])), field(4, tagged([(1, 1)])),
        field(4, plain(1, 1) + packed(10, [0])), info(version=1), b"", field(5, b"changeset"), b"\xff\xff", b"\0",
    ]  # fmt: skip
    for group in groups:
        yield data(block(texts, group))
        yield data(block(texts, node(5, 5, 5), group, node(2**63, 0, 0)))
    yield from map(data, (b"", b"\xff", block(texts), block(texts) + block(texts), plain(17, 5), field(2, b"")))
    for scales in ({"granularity": 0}, {"granularity": -1}, {"date_granularity": 0}, {"lat_offset": 2**62}, {"granularity": 2**31 - 1, "lon_offset": -(2**63)}):
        yield data(block(texts, node(1, 2, 3), **scales))
    for text in (b"\xff", b"a\0b", b"\xed\xa0\x80", b"\xc0\x80", "\U0010ffff".encode(), b"\xf4\x90\x80\x80"):
        yield data(field(1, field(1, b"") + field(1, text)) + field(2, node(1, 2, 3, [(1, 1)])))
    yield data(field(1, number(8) + b"\1"))


def zigzag_edges():
    return [2**64 - 2, 2**64 - 1, 2]


def vectors():
    yield from of_frames()
    yield from of_blobs()
    yield from of_headers()
    yield from of_blocks()


def changed(whole, rng):
    """The file with some bytes changed, cut out or put in, or without its end."""
    made = bytearray(whole)
    for _ in range(rng.choice((1, 1, 1, 2, 5))):
        at, sort = rng.randrange(len(made)), rng.randrange(6)
        if sort == 0:
            del made[at:]
        elif sort == 1:
            del made[at : at + rng.choice((1, 1, 4, 40))]
        elif sort == 2:
            made[at:at] = rng.randbytes(rng.choice((1, 1, 4)))
        elif sort == 3:
            made[at] = rng.choice((0, 1, 127, 128, 255))
        else:
            made[at] ^= 1 << rng.randrange(8)
        if not made:
            break
    return bytes(made)


def said(program, path):
    """The lines of `pbfrow check`."""
    return subprocess.run([program, "check", path], capture_output=True, text=True).stdout


def told(path, threads):
    """The same, by the package. The faults are told to a function."""
    lines, numbers, count = [], [0, 0, 0], 0
    with pbfrow.open(path, on_fault=lambda fault: lines.append(str(fault))) as file:
        for made in file.blocks(threads):
            numbers = [sum(pair) for pair in zip(numbers, made.numbers)]
            assert len(made) == sum(made.numbers) == len(made.ways) + len(made.nodes) + len(made.relations)
    return lines, numbers


def raised(path):
    """The faults, raised one after the other by one iterator."""
    lines = []
    with pbfrow.open(path) as file:
        blocks = iter(file.elements)
        while True:
            try:
                assert len(next(blocks))
            except StopIteration:
                return lines
            except pbfrow.Fault as fault:
                assert str(fault) == f"fault {fault.number} {fault.name} at {fault.offset}"
                lines.append(str(fault))
                assert not fault.ends_file or next(blocks, None) is None


def judge(program, folder, at, made):
    path = f"{folder}/{at}.osm.pbf"
    with open(path, "wb") as file:
        file.write(made)
    want = said(program, path)
    lines, numbers = told(path, threads=3 if at % 8 == 0 else 1)
    got = "".join(line + "\n" for line in lines)
    count = want.rsplit("blobs ", 1)[-1].split(" ")[0]
    got += f"blobs {count} nodes {numbers[0]} ways {numbers[1]} relations {numbers[2]} faults {len(lines)}\n"
    differs = got != want or raised(path) != lines
    return differs and f"file {at}, {made.hex()[:400]}:\n{got}instead of\n{want}", {line.split(" ")[1] for line in lines}


def main():
    program, count, names = sys.argv[1], int(sys.argv[2]), sys.argv[3:]
    wholes = [HEAD + b"".join(frame(b"OSMData", raw(payload)) for payload in mixed()), HEAD + GOOD]
    for name in names:
        with open(name, "rb") as file:
            wholes.append(file.read())
    files = list(vectors())
    rng = random.Random(7)
    files += [changed(wholes[at % len(wholes)], rng) for at in range(count)]
    with tempfile.TemporaryDirectory() as folder, ThreadPoolExecutor(4) as pool:
        judged = list(pool.map(lambda pair: judge(program, folder, *pair), enumerate(files)))
    differing = [differs for differs, _ in judged if differs]
    found = sorted(map(int, set().union(*(numbers for _, numbers in judged))))
    print(f"{len(files)} files, with {len(found)} sorts of faults: {' '.join(map(str, found))}")
    if differing:
        sys.exit(f"{len(differing)} differ:\n" + "\n".join(differing[:5]))


main()
