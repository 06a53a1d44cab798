#!/usr/bin/env python3
"""python_tables.py FILE SHOWN CONSUMER: the tables of the package pbfrow beside what `pbfrow show` says of the same file.

SHOWN has the lines of `pbfrow show` that are elements, from which the rows of each table are made here, slowly. CONSUMER is
python_arrow.c, compiled: it reads what the package gives to readers of Arrow. Tables of pandas are compared if pandas is there.
Then it looks whether memory is kept as long as somebody needs it, and no longer.
"""
import ctypes
import gc
import sys
import threading
import weakref

import pbfrow

INFO = ["version", "time", "changeset", "uid", "user", "visible"]
COLUMNS = {
    "elements": ["kind", "id", "lat", "lon", *INFO],
    "nodes": ["id", "lat", "lon", *INFO],
    "ways": ["id", "refs", *INFO],
    "relations": ["id", *INFO],
    "tags": ["kind", "id", "key", "value"],
    "refs": ["id", "ref"],
    "members": ["id", "member_kind", "member_id", "role"],
}
KINDS = {"n": "node", "w": "way", "r": "relation"}
MISSING = "%"
# the formats of Arrow, and whether there is a unit
FORMATS = {
    "kind": "C", "id": "l", "lat": "l:unit", "lon": "l:unit", "version": "i", "time": "tsm:UTC", "changeset": "l", "uid": "i",
    "user": "i", "visible": "b", "refs": "+L", "key": "i", "value": "i", "ref": "l", "member_kind": "C", "member_id": "l",
    "role": "i",
}  # fmt: skip


def split(joined):
    return joined.split(",") if joined else []


def rows_of(lines):
    """The rows of each table that the lines of `show` stand for, each a list of texts."""
    made = {name: [] for name in COLUMNS}
    for line in lines:
        letter, number, *place, info, tags = line.rstrip("\n").split(" ")
        said = dict(part.split("=", 1) for part in split(info[1:-1]))
        about = [said.get(letter, MISSING) for letter in "vtciux"]
        lat, lon = place if letter == "n" else (MISSING, MISSING)
        made["elements"].append([KINDS[letter], number, lat, lon, *about])
        made["tags"] += [[KINDS[letter], number, *tag.split("=")] for tag in split(tags[1:-1])]
        if letter == "n":
            made["nodes"].append([number, lat, lon, *about])
        elif letter == "w":
            made["ways"].append([number, place[0], *about])
            made["refs"] += [[number, ref] for ref in split(place[0][1:-1])]
        else:
            made["relations"].append([number, *about])
            made["members"] += [[number, KINDS[m[0]], *m[1:].split("@")] for m in split(place[0][1:-1])]
    return made


class Consumer:
    """What reads Arrow."""

    def __init__(self, path):
        self.library = ctypes.CDLL(path)
        self.pointer = ctypes.PYFUNCTYPE(ctypes.c_void_p, ctypes.py_object, ctypes.c_char_p)(
            ("PyCapsule_GetPointer", ctypes.pythonapi)
        )

    def _said(self, wrong):
        assert wrong == 0, f"python_arrow.c, line {wrong}"
        with open("consumed.txt", newline="\n", encoding="utf-8") as file:
            first, *rest = file.read().split("\n")[:-1]
        return first.split("\t"), [line.split("\t") for line in rest]

    def array(self, table, elsewhere=0):
        schema, array = table.__arrow_c_array__()
        places = [ctypes.c_void_p(self.pointer(schema, b"arrow_schema")), ctypes.c_void_p(self.pointer(array, b"arrow_array"))]
        return self._said(self.library.consume_array(*places, b"consumed.txt", elsewhere))

    def child(self, table):
        schema, array = table.__arrow_c_array__()
        places = [ctypes.c_void_p(self.pointer(schema, b"arrow_schema")), ctypes.c_void_p(self.pointer(array, b"arrow_array"))]
        del table
        first, rest = self._said(self.library.consume_child(*places, b"consumed.txt"))
        return [first, *rest]

    def stream(self, table):
        stream = table.__arrow_c_stream__()
        place = ctypes.c_void_p(self.pointer(stream, b"arrow_array_stream"))
        return self._said(self.library.consume_stream(place, b"consumed.txt"))


def same(what, got, want):
    if got != want:
        at = next((i for i, pair in enumerate(zip(got, want)) if pair[0] != pair[1]), min(len(got), len(want)))
        sys.exit(f"{what}: {len(got)} and {len(want)} rows, which differ at {at}:\n {got[at:at + 2]}\n {want[at:at + 2]}")


def arrow(path, want, consumer):
    """The tables of the whole file, of its blocks, and as streams."""
    whole = pbfrow.read(path)
    for name, columns in COLUMNS.items():
        names = [f"{column}:{FORMATS[column]}" for column in columns]
        by_block = []
        with pbfrow.open(path) as file:
            for block in file:
                by_block += consumer.array(getattr(block, name), elsewhere=1)[1]
            streamed = consumer.stream(getattr(file, name))
        same(f"arrow {name}", consumer.array(getattr(whole, name)), (names, want[name]))
        same(f"arrow {name} of blocks", by_block, want[name])
        same(f"arrow {name} as a stream", streamed, (names, want[name]))
        same(f"arrow {name} as a stream of one", consumer.stream(getattr(whole, name)), (names, want[name]))
        last = consumer.child(getattr(whole, name))
        same(f"arrow {name}, a column alone", last, [[row[-1]] for row in want[name]] or [[""]])


def shown(column, series):
    """What a column of pandas has, as texts."""
    if column in ("lat", "lon"):
        return [MISSING if degrees != degrees else str(round(degrees * 1e9)) for degrees in series.tolist()]
    if column == "time":
        return [MISSING if missing else str(time) for missing, time in zip(series.isna(), series.astype("int64") // 10**6)]
    if column == "visible":
        return [MISSING if flag not in (True, False) else str(int(flag)) for flag in series.astype(object).fillna(MISSING)]
    texts = series.astype(object).where(series.notna(), None).tolist()
    return [MISSING if text is None else "".join(map(escaped, str(text))) for text in texts]


def escaped(letter):
    return "%%%02X" % ord(letter) if ord(letter) < 33 or ord(letter) == 127 or letter in "%=,@[]{}()" else letter


def tables_of_pandas(path, want):
    whole = pbfrow.read(path, threads=2)
    with pbfrow.open(path) as file:
        blocks = list(file)
    for name, columns in COLUMNS.items():
        places = [i for i, column in enumerate(columns) if column != "refs"]
        wanted = [[row[i] for i in places] for row in want[name]]
        for what, parts in (("", [whole]), (" of blocks", blocks)):
            got = []
            for part in parts:
                table = getattr(part, name).to_pandas()
                assert list(table.columns) == [columns[i] for i in places]
                got += map(list, zip(*(shown(column, table[column]) for column in table.columns)))
            same(f"pandas {name}{what}", got, wanted)


def memory_of(block):
    """What is gone when nothing looks at the memory of a block any more."""
    array = block.elements.ids
    while array.base is not None and type(array.base) is type(array):
        array = array.base
    return weakref.ref(array)


def lifetimes(path, consumer):
    with pbfrow.open(path) as file:
        block = next(iter(file))
        ids, before, memory = block.elements.ids, block.elements.ids.tolist(), memory_of(block)
        del block
        for _ in file:
            pass
        assert ids.tolist() == before, "an array whose block is gone has changed"
        assert memory() is not None
        del ids
        assert memory() is None, "memory that nobody looks at is kept"
        for take in (consumer.array, consumer.stream, consumer.child):
            block = next(iter(file))
            memory = memory_of(block)
            take(block.tags)
            del block
            gc.collect()
            assert memory() is None, "memory is kept after its release"
        block = next(iter(file))
        memory, capsules = memory_of(block), (block.elements.__arrow_c_array__(), block.elements.__arrow_c_stream__())
        del block
        gc.collect()
        assert memory() is not None, "memory of capsules isn't kept"
        del capsules
        gc.collect()
        assert memory() is None, "memory of capsules that nobody took is kept"


def exceptions(path):
    """An exception on its way isn't lost when capsules go."""
    nodes = next(iter(pbfrow.open(path))).elements
    for made in (nodes.__arrow_c_array__, nodes.__arrow_c_stream__, nodes.__arrow_c_schema__):
        try:
            [made()].index("nothing like it")
        except ValueError as error:
            assert "not in list" in str(error)
        try:
            print(made(), {}["nothing like it"])
        except KeyError:
            pass


def faulty(path, consumer):
    """The fault of a block stops a stream, which says so."""
    with open(path, "rb") as file:
        data = file.read()
    with open("faulty.osm.pbf", "wb") as file:
        file.write(data[:-5])
    with pbfrow.open("faulty.osm.pbf") as file:
        rows = consumer.stream(file.elements)[1]
    assert rows[-1][0].startswith("Fault: fault 18 BlobCut at "), rows[-1]
    told = []
    with pbfrow.open("faulty.osm.pbf", on_fault=told.append) as file:
        assert consumer.stream(file.elements)[1] == rows[:-1]
    assert len(told) == 1


def main():
    path, said, consumer = sys.argv[1], sys.argv[2], Consumer(sys.argv[3])
    with open(said, newline="\n", encoding="utf-8") as file:
        want = rows_of(file)
    arrow(path, want, consumer)
    lifetimes(path, consumer)
    exceptions(path)
    faulty(path, consumer)
    try:
        import pandas  # noqa: F401
    except ImportError:
        print("pandas isn't installed")
    else:
        tables_of_pandas(path, want)
    assert threading.active_count() == 1, "threads are left"


main()
