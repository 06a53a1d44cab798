"""Tables for what reads Arrow, through its C data interface: structs made by ctypes, which look at arrays of numpy.

What a struct looks at is kept alive by a list, which its private data refer to; release.c gives it back, once, when the
consumer releases the struct.
"""

from __future__ import annotations

import ctypes
import errno
import os
from functools import lru_cache
from typing import TYPE_CHECKING, Any, Iterator, NamedTuple, Sequence

import numpy as np

if TYPE_CHECKING:
    from numpy.typing import NDArray

    from ._tables import Field

_NULLABLE = 2
_place = ctypes.c_void_p


class Schema(ctypes.Structure):
    """ArrowSchema."""

    _fields_ = [
        ("format", _place), ("name", _place), ("metadata", _place), ("flags", ctypes.c_int64), ("n_children", ctypes.c_int64),
        ("children", _place), ("dictionary", _place), ("release", _place), ("private_data", _place),
    ]  # fmt: skip


class Array(ctypes.Structure):
    """ArrowArray."""

    _fields_ = [
        ("length", ctypes.c_int64), ("null_count", ctypes.c_int64), ("offset", ctypes.c_int64), ("n_buffers", ctypes.c_int64),
        ("n_children", ctypes.c_int64), ("buffers", _place), ("children", _place), ("dictionary", _place), ("release", _place),
        ("private_data", _place),
    ]  # fmt: skip


class Stream(ctypes.Structure):
    """ArrowArrayStream."""

    _fields_ = [
        ("get_schema", _place), ("get_next", _place), ("get_last_error", _place), ("release", _place), ("private_data", _place),
    ]  # fmt: skip


class Part(NamedTuple):
    """A table, one of its columns, or what a column consists of."""

    name: str
    format: str
    length: int
    buffers: Sequence[NDArray[Any] | None]
    nulls: int = 0
    flags: int = 0
    children: Sequence[Part] = ()
    dictionary: Part | None = None
    unit: str = ""


# ---- what a table consists of


def _bits(flags: NDArray[np.bool_]) -> NDArray[np.uint8]:
    return np.packbits(flags, bitorder="little")


def _texts(offsets: NDArray[np.int64], data: NDArray[np.uint8]) -> Part:
    return Part("", "U", len(offsets) - 1, (None, offsets, data))


@lru_cache(None)
def _kinds() -> Part:
    from ._tables import KINDS

    offsets = np.cumsum([0, *map(len, KINDS)])
    return _texts(offsets, np.frombuffer("".join(KINDS).encode(), np.uint8))


_FORMATS = {"i": "i", "l": "l", "B": "C"}


def _column(field: Field) -> Part:
    name, form, items, valid, more = field
    nulls = 0 if valid is None else int(len(items) - np.count_nonzero(valid))
    is_valid = None if valid is None else _bits(valid)
    flags = 0 if form in ("number", "kind", "list") else _NULLABLE
    part = Part(name, _FORMATS[items.dtype.char], len(items), (is_valid, items), nulls, flags)
    if form == "place":
        return part._replace(unit="nanodegrees")
    if form == "time":
        return part._replace(format="tsm:UTC")
    if form == "flag":
        return part._replace(format="b", buffers=(is_valid, _bits(items == 1)))
    if form == "kind":
        return part._replace(dictionary=_kinds())
    if form == "text":
        return part._replace(dictionary=_texts(more.offsets, more.bytes))
    if form == "list":
        item = part._replace(name="item")
        return Part(name, "+L", len(more) - 1, (None, more), children=(item,))
    return part


def _table(fields: Sequence[Field]) -> Part:
    columns = [_column(field) for field in fields]
    return Part("", "+s", columns[0].length, (None,), children=columns)


# ---- structs


def _text(kept: list[Any], text: bytes) -> int:
    kept.append(ctypes.create_string_buffer(text))
    return ctypes.addressof(kept[-1])


def _pointers(kept: list[Any], addresses: Sequence[int]) -> int | None:
    if not addresses:
        return None
    kept.append((_place * len(addresses))(*addresses))
    return ctypes.addressof(kept[-1])


def _metadata(key: str, value: str) -> bytes:
    lengths = [number.to_bytes(4, "little") for number in (1, len(key), len(value))]
    return lengths[0] + lengths[1] + key.encode() + lengths[2] + value.encode()


def _held(kept: list[Any]) -> int:
    """The address of the list, which release.c will give back."""
    ctypes.pythonapi.Py_IncRef(ctypes.py_object(kept))
    return id(kept)


def _fill_schema(schema: Schema, part: Part) -> None:
    kept: list[Any] = []
    schema.format = _text(kept, part.format.encode())
    schema.name = _text(kept, part.name.encode())
    schema.metadata = _text(kept, _metadata("unit", part.unit)) if part.unit else None
    schema.flags = part.flags
    schema.n_children = len(part.children)
    schema.children = _pointers(kept, [_made(kept, Schema(), child) for child in part.children])
    schema.dictionary = _made(kept, Schema(), part.dictionary) if part.dictionary else None
    schema.release = _functions().release_schema
    schema.private_data = _held(kept)


def _fill_array(array: Array, part: Part) -> None:
    buffers = [None if buffer is None else np.ascontiguousarray(buffer) for buffer in part.buffers]
    kept: list[Any] = [buffers]
    array.length, array.null_count, array.offset = part.length, part.nulls, 0
    array.n_buffers = len(buffers)
    array.buffers = _pointers(kept, [0 if buffer is None else buffer.ctypes.data for buffer in buffers])
    array.n_children = len(part.children)
    array.children = _pointers(kept, [_made(kept, Array(), child) for child in part.children])
    array.dictionary = _made(kept, Array(), part.dictionary) if part.dictionary else None
    array.release = _functions().release_array
    array.private_data = _held(kept)


def _made(kept: list[Any], struct: Schema | Array, part: Part) -> int:
    """Fills the struct, which the list keeps, and says its address."""
    kept.append(struct)
    _fill_schema(struct, part) if isinstance(struct, Schema) else _fill_array(struct, part)
    return ctypes.addressof(struct)


_GET = ctypes.CFUNCTYPE(ctypes.c_int, _place, _place)
_LAST_ERROR = ctypes.CFUNCTYPE(_place, _place)


def _fill_stream(stream: Stream, first: Sequence[Field], batches: Iterator[Sequence[Field]]) -> None:
    error: list[Any] = []

    def tried(call: Any, out: int) -> int:
        try:
            call(out)
            return 0
        except BaseException as problem:  # a consumer in C can be told no other way, also of an interruption
            error[:] = [ctypes.create_string_buffer(f"{type(problem).__name__}: {problem}".encode())]
            return errno.EIO

    def schema(out: int) -> None:
        _fill_schema(Schema.from_address(out), _table(first))

    def batch(out: int) -> None:
        array = Array.from_address(out)
        array.release = None
        fields = next(batches, None)
        if fields is not None:
            _fill_array(array, _table(fields))

    get_schema = _GET(lambda _, out: tried(schema, out))
    get_next = _GET(lambda _, out: tried(batch, out))
    last_error = _LAST_ERROR(lambda _: ctypes.addressof(error[0]) if error else None)
    stream.get_schema, stream.get_next = _address(get_schema), _address(get_next)
    stream.get_last_error = _address(last_error)
    stream.release = _functions().release_stream
    stream.private_data = _held([get_schema, get_next, last_error])


# ---- capsules


def schema_capsule(fields: Sequence[Field]) -> object:
    """A capsule of the ArrowSchema of a table."""
    schema = Schema()
    _fill_schema(schema, _table(fields))
    return _capsule(schema, b"arrow_schema", _functions().drop_schema)


def array_capsule(fields: Sequence[Field]) -> object:
    """A capsule of the ArrowArray of a table."""
    array = Array()
    _fill_array(array, _table(fields))
    return _capsule(array, b"arrow_array", _functions().drop_array)


def stream_capsule(first: Sequence[Field], batches: Iterator[Sequence[Field]]) -> object:
    """A capsule of an ArrowArrayStream of tables; its schema is that of the first fields, which aren't in the stream."""
    stream = Stream()
    _fill_stream(stream, first, batches)
    return _capsule(stream, b"arrow_array_stream", _functions().drop_stream)


def _capsule(struct: Schema | Array | Stream, name: bytes, drop: int) -> object:
    functions = _functions()
    capsule = functions.new_capsule(ctypes.addressof(struct), functions.names.setdefault(name, name), drop)
    ctypes.pythonapi.Py_IncRef(ctypes.py_object(struct))
    functions.set_context(capsule, id(struct))
    return capsule


def _address(function: Any) -> int:
    address = ctypes.cast(function, _place).value
    assert address is not None
    return address


class _Functions:
    """The functions of release.c, by address, and those of Python that make capsules."""

    def __init__(self) -> None:
        path = os.path.join(os.path.dirname(os.path.abspath(__file__)), "librelease.so")
        try:
            self.library = ctypes.CDLL(path)
        except OSError as error:
            raise ImportError(f"this pbfrow can't make Arrow tables; its wheel can: {error}") from error
        api = ctypes.pythonapi
        needed = [
            api.Py_IsInitialized, api.PyGILState_Ensure, api.PyGILState_Release, api.PyErr_Fetch, api.PyErr_Restore,
            api.Py_DecRef, api.PyCapsule_GetName, api.PyCapsule_GetPointer, api.PyCapsule_GetContext,
        ]  # fmt: skip
        self.library.pbfrow_python((_place * len(needed))(*map(_address, needed)))
        self.release_schema, self.release_array, self.release_stream = self._named("release")
        self.drop_schema, self.drop_array, self.drop_stream = self._named("drop")
        self.new_capsule: Any = ctypes.PYFUNCTYPE(ctypes.py_object, _place, ctypes.c_char_p, _place)(
            ("PyCapsule_New", api)
        )
        self.set_context: Any = ctypes.PYFUNCTYPE(ctypes.c_int, ctypes.py_object, _place)(("PyCapsule_SetContext", api))
        # a capsule looks at its name as long as it lives
        self.names: dict[bytes, bytes] = {}

    def _named(self, verb: str) -> list[int]:
        return [_address(getattr(self.library, f"pbfrow_{verb}_{what}")) for what in ("schema", "array", "stream")]


@lru_cache(None)
def _functions() -> _Functions:
    return _Functions()
