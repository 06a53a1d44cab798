"""The header block of a file."""

from __future__ import annotations

import ctypes
from typing import NamedTuple

import numpy as np

from ._library import NO_ROOM, HeaderAnswer, library


class Box(NamedTuple):
    """A bounding box: its sides in nanodegrees."""

    left: int
    bottom: int
    right: int
    top: int


class Header(NamedTuple):
    """What the header block of a file says; None where it doesn't say."""

    #: The bounding box, in nanodegrees.
    bbox: Box | None
    #: The features that a reader has to know, such as "OsmSchema-V0.6" and "DenseNodes".
    required: tuple[str, ...]
    #: The features that a reader may use, such as "Sort.Type_then_ID".
    optional: tuple[str, ...]
    #: The program that wrote the file.
    program: str | None
    #: Where the data come from.
    source: str | None
    #: Up to when changes are in the file, in seconds since 1970.
    replication_timestamp: int | None
    #: The number of the last change file.
    replication_sequence: int | None
    #: Where change files are.
    replication_url: str | None


def decoded(address: int, length: int) -> tuple[int, Header | None]:
    """Decodes the payload of so many bytes at this address. The status, and where that is 0 the header."""
    answer = HeaderAnswer()
    ends, data = np.empty(16, np.uint64), np.empty(1024, np.uint8)
    while True:
        texts = np.array([[ends.ctypes.data, len(ends)], [data.ctypes.data, len(data)]], np.uint64)
        status = library.pbfrow_header_block(address, length, ctypes.byref(answer), texts.ctypes.data)
        if status != NO_ROOM:
            break
        ends, data = np.empty(answer.texts + 1, np.uint64), np.empty(answer.text_bytes + 1, np.uint8)
    if status != 0:
        return status, None
    stops = ends[: answer.texts].tolist()
    written = data[: answer.text_bytes].tobytes()
    return 0, _header(answer, [written[a:b].decode() for a, b in zip([0, *stops], stops)])


def _header(answer: HeaderAnswer, texts: list[str]) -> Header:
    features = answer.required + answer.optional
    rest = iter(texts[features:])
    return Header(
        bbox=Box(answer.left, answer.bottom, answer.right, answer.top) if answer.has_bbox else None,
        required=tuple(texts[: answer.required]),
        optional=tuple(texts[answer.required : features]),
        program=next(rest) if answer.has_program else None,
        source=next(rest) if answer.has_source else None,
        replication_timestamp=answer.timestamp if answer.has_timestamp else None,
        replication_sequence=answer.sequence if answer.has_sequence else None,
        replication_url=next(rest) if answer.has_url else None,
    )
