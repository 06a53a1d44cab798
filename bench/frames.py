#!/usr/bin/env python3
"""Writes a PBF file of COUNT frames behind a header frame, each with SIZE bytes of raw data.

usage: frames.py COUNT SIZE OUT [TYPE]. TYPE is OSMData if it is left out. The raw data is no primitive block: `list`
doesn't look into it, and the other commands look only into that of OSMData."""

import sys

count, size, out = int(sys.argv[1]), int(sys.argv[2]), sys.argv[3]
kind = sys.argv[4].encode() if len(sys.argv) > 4 else b"OSMData"


def number(n):
    spelled = b""
    while n > 127:
        spelled += bytes([n & 127 | 128])
        n >>= 7
    return spelled + bytes([n])


def frame(name, raw):
    blob = b"\x0a" + number(len(raw)) + raw
    header = b"\x0a" + number(len(name)) + name + b"\x18" + number(len(blob))
    return len(header).to_bytes(4, "big") + header + blob


with open(out, "wb") as file:
    file.write(frame(b"OSMHeader", b""))
    one = frame(kind, b"\x55" * size)
    batch = max(1, 1_000_000 // len(one))
    for start in range(0, count, batch):
        file.write(one * min(batch, count - start))
