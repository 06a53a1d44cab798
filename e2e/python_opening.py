#!/usr/bin/env python3
"""python_opening.py RAW PACKED: what the package pbfrow says of files that can't be read, of those that are compressed, and of what
it is asked wrongly. RAW is a file, and PACKED the same one compressed by zlib, whose data are decompressed by functions that are
right and wrong."""
import bz2
import lzma
import os
import pickle
import sys
import threading
import zlib
from concurrent.futures import ThreadPoolExecutor

import numpy as np
import pbfrow
from pbfrow._tables import used_texts
from python_files import FULL_HEADER, HEADER, block, deflated, field, frame, mixed, node, plain, raw


def raises(kind, call, *said):
    """The exception that the call raises, whose text has these parts."""
    try:
        call()
    except kind as error:
        assert all(part in str(error) for part in said), str(error)
        return error
    raise AssertionError(f"{said} wasn't raised")


def written(name, data):
    with open(name, "wb") as file:
        file.write(data)
    return name


def openings(path):
    error = raises(FileNotFoundError, lambda: pbfrow.open("nowhere.osm.pbf"), "nowhere.osm.pbf")
    assert error.filename == "nowhere.osm.pbf"
    raises(IsADirectoryError, lambda: pbfrow.open("."))
    raises(NotADirectoryError, lambda: pbfrow.open(path + "/inside"))
    os.mkfifo("pipe")
    raises(OSError, lambda: pbfrow.open("pipe"), "save it", "pipe")
    raises(OSError, lambda: pbfrow.read("/dev/null"), "save it")
    raises(TypeError, lambda: pbfrow.open(None))
    raises(ValueError, lambda: pbfrow.open(path, on_fault="ignore"), "on_fault")
    os.chmod(written("locked", b""), 0)
    user = os.geteuid()
    os.seteuid(user or 65534)
    raises(PermissionError, lambda: pbfrow.open("locked"), "locked")
    os.seteuid(user)
    for name in (os.fsencode(path), type("Path", (), {"__fspath__": lambda self: path})()):
        assert len(pbfrow.read(name)) == len(pbfrow.read(path))


def empty():
    path = written("empty.osm.pbf", b"")
    for call in (lambda: pbfrow.read(path), lambda: next(iter(pbfrow.open(path))), lambda: next(pbfrow.open(path).blobs()), lambda: pbfrow.open(path).header):
        fault = raises(pbfrow.Fault, call)
        assert str(fault) == "fault 61 NoHeaderFirst at 0" and (fault.number, fault.name, fault.offset) == (61, "NoHeaderFirst", 0)
    again = pickle.loads(pickle.dumps(fault))
    assert str(again) == str(fault) and again.name == fault.name
    only_header = pbfrow.read(written("only-header.osm.pbf", frame(b"OSMHeader", raw(HEADER))))
    assert len(only_header) == len(only_header.tags) == len(only_header.texts) == 0 and only_header.numbers == (0, 0, 0)
    assert only_header.tags.find("name").tolist() == [] and only_header.ways.refs.owners.tolist() == []


def closing(path):
    with pbfrow.open(path) as file:
        blocks, blob = iter(file), next(file.blobs())
        block = next(blocks)
    for call in (lambda: next(blocks), lambda: next(iter(file)), lambda: file.decode(blob), lambda: file.header):
        raises(ValueError, call, "closed")
    assert block.elements.ids[0] == block.elements.to_pandas()["id"][0] if has_pandas() else True
    file.close()


def has_pandas():
    try:
        import pandas  # noqa: F401
    except ImportError:
        return False
    return True


def headers():
    path = written("full-header.osm.pbf", frame(b"OSMHeader", deflated(FULL_HEADER)))
    header = pbfrow.open(path, inflate=zlib.decompress).header
    assert header == pbfrow.Header(
        pbfrow.Box(left=-1, bottom=-(90 * 10**9), right=2, top=90 * 10**9), ("OsmSchema-V0.6", "DenseNodes"),
        ("Sort.Type_then_ID", "Has_Metadata"), "hand", "Käse", 1_700_000_000, 4711, "https://example.org/",
    ), header  # fmt: skip
    bare = pbfrow.open(written("bare-header.osm.pbf", frame(b"OSMHeader", raw(HEADER)))).header
    assert bare == pbfrow.Header(None, ("OsmSchema-V0.6", "DenseNodes"), (), None, None, None, None, None)
    many = b"".join(field(5, b"feature %d " % at + b"x" * 99) for at in range(500))
    assert len(pbfrow.open(written("many.osm.pbf", frame(b"OSMHeader", raw(HEADER + many)))).header.optional) == 500
    bad = pbfrow.open(written("bad-header.osm.pbf", frame(b"OSMHeader", raw(field(4, b"Unheard-Of")))))
    assert raises(pbfrow.Fault, lambda: bad.header).number == 33


def same(one, other):
    for name in ("kinds", "ids", "lats", "lons", "versions", "times", "changesets", "uids", "visible"):
        assert np.array_equal(getattr(one.elements, name), getattr(other.elements, name)), name
    names = [[part.texts.strings[codes].tolist() for codes in (part.elements.users, part.tags.keys, part.tags.values, part.members.roles)] for part in (one, other)]
    assert names[0] == names[1] and np.array_equal(one.tags.ends, other.tags.ends)
    for part in ("refs", "members"):
        assert np.array_equal(getattr(one, part).ids, getattr(other, part).ids)
        assert np.array_equal(getattr(one, part).ends, getattr(other, part).ends)


def compressed(path, packed):
    whole = pbfrow.read(path)
    codecs = {"zlib": zlib.decompress, "lzma": None}
    for inflate in (zlib.decompress, codecs, lambda data: bytearray(zlib.decompress(data)), lambda data: memoryview(zlib.decompress(data))):
        same(whole, pbfrow.read(packed, inflate=inflate, threads=2))
    plain_data, files = block(["", "a"], node(1, 2, 3, [(1, 1)])), {}
    for codec, place, compress in (("zlib", 3, zlib.compress), ("lzma", 4, lzma.compress), ("bzip2", 5, bz2.compress)):
        blobs = [plain(2, len(payload)) + field(place, compress(payload)) for payload in (HEADER, plain_data)]
        files[codec] = written(f"{codec}.osm.pbf", frame(b"OSMHeader", blobs[0]) + frame(b"OSMData", blobs[1]))
    codecs = {"zlib": zlib.decompress, "lzma": lzma.decompress, "bzip2": bz2.decompress}
    for codec, name in files.items():
        assert pbfrow.read(name, inflate=codecs).elements.ids.tolist() == [1]
        assert [blob.codec for blob in pbfrow.open(name, inflate=codecs).blobs()] == [codec]
        without = {other: call for other, call in codecs.items() if other != codec}
        raises(pbfrow.Fault, lambda: pbfrow.read(name, inflate=without), f"fault 21 Compressed{codec.title()} at 0")
    offsets = [blob.offset for blob in pbfrow.open(packed, inflate=zlib.decompress).blobs()]
    for refusing in (None, {}, {"lzma": zlib.decompress}):
        told = []
        assert len(pbfrow.read(packed, inflate=refusing, on_fault=told.append)) == 0
        assert [str(fault) for fault in told] == [f"fault 21 CompressedZlib at {at}" for at in [0, *offsets]]
        assert str(raises(pbfrow.Fault, lambda: pbfrow.open(packed, inflate=refusing).header)) == "fault 21 CompressedZlib at 0"


def wrong_functions(packed):
    def failing(_):
        raise RuntimeError("no such luck")

    fault = raises(pbfrow.Fault, lambda: pbfrow.read(packed, inflate=failing), "fault 21 CompressedZlib at 0", "RuntimeError: no such luck")
    assert isinstance(fault.__cause__, RuntimeError)
    for inflate, said in (
        (lambda data: zlib.decompress(data)[:-1], "bytes, and the blob says"),
        (lambda data: zlib.decompress(data) + b"\0", "bytes, and the blob says"),
        (lambda data: b"", "gave 0 bytes"),
        (lambda data: None, "TypeError"),
        (lambda data: memoryview(zlib.decompress(data))[::2], "inflate failed"),
        (lambda data: "text", "TypeError"),
    ):
        told = []
        assert len(pbfrow.read(packed, inflate=inflate, on_fault=told.append)) == 0 and len(told) > 1
        assert all(said in str(fault) and fault.number == 21 for fault in told), str(told[0])
    data = block([""], node(1, 2, 3))
    for blob, said in ((deflated(data, len(data) + 1), f"gave {len(data)} bytes, and the blob says {len(data) + 1}"), (deflated(data, 2**31), "more than any"), (deflated(data, -1), "more than any")):
        path = written("sizes.osm.pbf", frame(b"OSMHeader", raw(HEADER)) + frame(b"OSMData", blob))
        raises(pbfrow.Fault, lambda: pbfrow.read(path, inflate=zlib.decompress), said)
    unsaid = field(3, zlib.compress(data)) + plain(9, 1)
    path = written("unsaid.osm.pbf", frame(b"OSMHeader", raw(HEADER)) + frame(b"OSMData", unsaid))
    raises(pbfrow.Fault, lambda: pbfrow.read(path, inflate=zlib.decompress), "fault 21 CompressedZlib at 47: it doesn't say")
    nothing = frame(b"OSMHeader", raw(HEADER)) + frame(b"OSMData", field(2, b"") + field(3, zlib.compress(b"")))
    raises(pbfrow.Fault, lambda: pbfrow.read(written("nothing.osm.pbf", nothing), inflate=zlib.decompress), "fault 21 CompressedZlib at 47: it doesn't say")


def progress(path):
    for threads in (1, 3):
        seen = []
        with pbfrow.open(path, progress=lambda done, total: seen.append((done, total))) as file:
            blocks = [block.offset for block in file.blocks(threads)]
        assert seen[-1] == (os.path.getsize(path),) * 2 and len(seen) == len(blocks) + 1
        assert seen == sorted(seen)
    assert [blob.offset for blob in pbfrow.open(path).blobs()] == blocks
    seen = []
    pbfrow.read(path, progress=lambda done, total: seen.append(done))
    assert seen[-1] == os.path.getsize(path)


def threads(path):
    """Many threads over one file, which is closed under them."""
    whole = pbfrow.read(path)
    same(whole, pbfrow.read(path, threads=4))
    ids = whole.elements.ids.tolist()
    file = pbfrow.open(path)
    with ThreadPoolExecutor(8) as pool:
        for _ in range(5):
            assert sum((block.elements.ids.tolist() for block in pool.map(file.decode, file.blobs())), []) == ids
        waiting = [pool.submit(file.decode, blob) for blob in list(file.blobs()) * 5]
        file.close()
        for one in waiting:
            assert one.exception() is None or "closed" in str(one.exception())
    with pbfrow.open(path) as file:
        next(file.blocks(4))
    assert threading.active_count() == 1, "an iterator that was dropped has left threads"


def texts():
    path = written("mixed-texts.osm.pbf", frame(b"OSMHeader", raw(HEADER)) + b"".join(frame(b"OSMData", raw(payload)) for payload in mixed()))
    first = next(iter(pbfrow.open(path)))
    every = list(first.texts)
    assert every == first.texts.strings.tolist() == [first.texts[at] for at in range(len(every))]
    for text in ("ann", "日本語", "", "forward", "nowhere", "Käse=50%, [alt] {neu}\t\n\x7f"):
        assert first.texts.find(text).tolist() == [at for at, other in enumerate(every) if other == text]
    assert "日本語" in every and "ann" in every
    twice = pbfrow.Texts(np.array([0, 1, 3, 4, 4, 6, 6]), np.frombuffer(b"abcabc", np.uint8))
    assert list(twice) == ["a", "bc", "a", "", "bc", ""] and [twice.find(text).tolist() for text in ("a", "bc", "", "b")] == [[0, 2], [1, 4], [3, 5], []]
    codes, used = used_texts(np.array([5, 2, -1, 0, 4, 1], np.int32), twice)
    assert used == ["a", "bc", ""] and codes.tolist() == [2, 0, -1, 0, 1, 1]
    tags = pbfrow.Tags(None, np.array([0, 2, 4]), np.array([0, 1, 2, 4], np.int32), np.array([3, 3, 5, 0], np.int32), twice)
    assert tags.find("a").tolist() == [0, 2] == tags.find("a", "").tolist() and tags.find("bc", "a").tolist() == [3]
    assert first.texts.of(np.array([1, -1, 0], np.int32)).tolist() == [every[1], None, every[0]]
    raises(IndexError, lambda: first.texts[-1], "no text -1")
    raises(IndexError, lambda: first.texts[len(first.texts)])
    whole = pbfrow.read(path)
    assert len(set(whole.texts)) == len(whole.texts)
    for block_of in (first, whole):
        tags = block_of.tags
        for key, value in (("name", None), ("name", "日本語"), ("nowhere", None), ("name", "nowhere"), ("", None)):
            want = [at for at in range(len(tags)) if block_of.texts[tags.keys[at]] == key and value in (None, block_of.texts[tags.values[at]])]
            assert tags.find(key, value).tolist() == want
        for part in (tags, block_of.refs, block_of.members, block_of.ways.tags, block_of.relations.members):
            assert part.owners.tolist() == [at for at, length in enumerate(np.diff(part.offsets)) for _ in range(length)]


def main():
    path, packed = sys.argv[1:]
    openings(path)
    empty()
    closing(path)
    headers()
    compressed(path, packed)
    wrong_functions(packed)
    progress(path)
    threads(path)
    texts()


main()
