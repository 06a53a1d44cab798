"""The shared library libpbfrow.so, as pbfrow.h describes it: its structs, its calls, and where it is found.

Each call lets go of the interpreter's lock while it runs, and the library has no state, so calls in several threads run side
by side.
"""

from __future__ import annotations

import ctypes
import os
from typing import Any, NamedTuple

import numpy as np

#: The status of a call whose arrays are too short.
NO_ROOM = 72
#: The status of a blob that is compressed.
COMPRESSED = 21
#: The statuses of blobs that a reader can go on behind.
PASSABLE = frozenset((0, 20, 21, 22, 23, 61, 62))
#: The names of the codecs, by the number that a blob has for its compression.
CODECS = ("", "zlib", "lzma", "bzip2", "lz4", "zstd")
#: The longest payload of a blob in bytes, once it is decompressed.
MOST_RAW = 33_554_431


class BlobAnswer(ctypes.Structure):
    _fields_ = [
        ("length", ctypes.c_uint64),
        ("payload_at", ctypes.c_uint64),
        ("payload_length", ctypes.c_uint64),
        ("raw_size", ctypes.c_uint64),
        ("kind", ctypes.c_uint8),
        ("compression", ctypes.c_uint8),
    ]


class HeaderAnswer(ctypes.Structure):
    _fields_ = [
        (name, ctypes.c_int64) for name in ("left", "right", "top", "bottom", "timestamp", "sequence")
    ] + [
        (name, ctypes.c_uint64) for name in ("required", "optional", "texts", "text_bytes")
    ] + [
        (name, ctypes.c_uint8)
        for name in ("has_bbox", "has_timestamp", "has_sequence", "has_program", "has_source", "has_url")
    ]


#: What is counted of a block, in the order of pbfrow_counts.
COUNTS = ("elements", "nodes", "ways", "relations", "tags", "refs", "members", "texts", "text_bytes")


class Counts(ctypes.Structure):
    _fields_ = [(name, ctypes.c_uint64) for name in COUNTS]


class Column(NamedTuple):
    """A column of a block: its name, the type of its items, the count that says how many it has, and what its items are the
    ends among, if they are ends."""

    name: str
    type: np.dtype[Any]
    counted: str
    ends_of: str | None = None


_BYTES: np.dtype[Any] = np.dtype(np.uint8)
_INTS: np.dtype[Any] = np.dtype(np.int32)
_LONGS: np.dtype[Any] = np.dtype(np.int64)

#: The columns in the order of pbfrow_columns. Ends are unsigned there, and below 2**63, so here they are int64 as well.
COLUMNS = (
    Column("kinds", _BYTES, "elements"),
    Column("ids", _LONGS, "elements"),
    Column("lats", _LONGS, "elements"),
    Column("lons", _LONGS, "elements"),
    Column("versions", _INTS, "elements"),
    Column("times", _LONGS, "elements"),
    Column("changesets", _LONGS, "elements"),
    Column("uids", _INTS, "elements"),
    Column("users", _INTS, "elements"),
    Column("visible", _BYTES, "elements"),
    Column("tag_ends", _LONGS, "elements", "tags"),
    Column("keys", _INTS, "tags"),
    Column("values", _INTS, "tags"),
    Column("ref_ends", _LONGS, "elements", "refs"),
    Column("refs", _LONGS, "refs"),
    Column("member_ends", _LONGS, "elements", "members"),
    Column("member_kinds", _BYTES, "members"),
    Column("member_ids", _LONGS, "members"),
    Column("roles", _INTS, "members"),
    Column("text_ends", _LONGS, "texts", "text_bytes"),
    Column("text_bytes", _BYTES, "text_bytes"),
)


def _load() -> ctypes.CDLL:
    path = os.environ.get("PBFROW_LIBRARY") or os.path.join(os.path.dirname(os.path.abspath(__file__)), "libpbfrow.so")
    try:
        library = ctypes.CDLL(path)
    except OSError as error:
        raise ImportError(f"the shared library of pbfrow can't be loaded, PBFROW_LIBRARY may name it: {error}") from error
    place, size, u64, u8 = ctypes.c_void_p, ctypes.c_size_t, ctypes.c_uint64, ctypes.c_uint8
    calls = {
        "pbfrow_blob_at": (u8, [place, size, u64, ctypes.POINTER(BlobAnswer)]),
        "pbfrow_header_block": (u8, [place, size, ctypes.POINTER(HeaderAnswer), place]),
        "pbfrow_block_columns": (u8, [place, size, ctypes.POINTER(Counts), place]),
        "pbfrow_fault_name": (size, [u8, u8, ctypes.c_char_p, size]),
    }
    for name, (answer, words) in calls.items():
        call = getattr(library, name, None)
        if call is None:
            raise ImportError(f"{path} isn't the library that this package needs: it has no {name}")
        call.restype, call.argtypes = answer, words
    return library


library = _load()


def fault_name(number: int, compression: int = 0) -> str:
    """The name of a fault as pbfrow's messages have it, such as "BlobCut"; "" where there is none of this number."""
    name = ctypes.create_string_buffer(24)
    length = library.pbfrow_fault_name(number, compression, name, len(name))
    return name.raw[:length].decode("ascii")
