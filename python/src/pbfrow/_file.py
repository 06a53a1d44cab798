"""A PBF file, of which one block at a time is in memory."""

from __future__ import annotations

import ctypes
import errno
import io
import mmap
import os
import stat
from collections import deque
from queue import Empty, SimpleQueue
from threading import Lock, Thread
from typing import TYPE_CHECKING, Any, Callable, Generic, Iterator, Literal, Mapping, NamedTuple, TypeVar, Union

import numpy as np

from . import _arrow
from ._block import Block, Elements, Members, Nodes, Numbers, Refs, Relations, Tags, Ways
from ._fault import Fault
from ._header import Header, decoded
from ._library import CODECS, COLUMNS, COMPRESSED, MOST_RAW, PASSABLE, BlobAnswer, library
from ._memory import Decoder
from ._tables import Table

if TYPE_CHECKING:
    from numpy.typing import NDArray

#: How many bytes of a file may be mapped behind the place that a loop has reached.
_MAPPED = 1 << 24

#: What decompresses: a function of the compressed bytes, for zlib or for whatever comes, or one for each codec ("zlib", "lzma",
#: "bzip2", "lz4", "zstd").
Inflate = Union[Callable[[bytes], bytes], Mapping[str, Callable[[bytes], bytes]]]
#: What becomes of faults: they are raised, or a function is told them.
OnFault = Union[Literal["raise"], Callable[[Fault], object]]
#: A function that is told how many bytes have been read, and how many the file has.
Progress = Callable[[int, int], object]


class Blob(NamedTuple):
    """Where a blob is. Nothing of it has been decoded."""

    #: The offset of its frame in the file, in bytes.
    offset: int
    #: How long the frame is, in bytes; the next one begins behind it.
    length: int
    #: 0 of an OSMHeader, 1 of OSMData.
    kind: int
    #: Where its payload is, in bytes from the front of the file, and how long it is; compressed if `codec` isn't "".
    payload_at: int
    payload_length: int
    #: The codec that the payload is compressed by, such as "zlib", or "".
    codec: str = ""
    #: How long the payload is once it is decompressed, in bytes, or 0 where the blob doesn't say.
    raw_size: int = 0


class File:
    """A PBF file that is open, as `pbfrow.open` makes it. Iterating over it gives its blocks one after the other, and does so again
    each time. Once it is closed, it raises ValueError.

    The file is mapped into memory, so it must not get shorter while it is read: the process would be ended by SIGBUS, as with
    numpy.memmap. Several threads may use one File.
    """

    #: The name that the file was opened by.
    path: str | bytes | os.PathLike[Any]
    #: How long the file is, in bytes.
    size: int

    def __init__(
        self,
        path: str | bytes | os.PathLike[Any],
        inflate: Inflate | None = None,
        on_fault: OnFault = "raise",
        progress: Progress | None = None,
    ) -> None:
        if on_fault != "raise" and not callable(on_fault):
            raise ValueError(f'on_fault is "raise" or a function, not {on_fault!r}')
        self.path, self._inflate, self._on_fault, self._progress = path, inflate, on_fault, progress
        self._map = _mapped(path)
        self._bytes: NDArray[np.uint8] | None = np.frombuffer(self._map, np.uint8)
        self.size, self._address = len(self._bytes), self._bytes.ctypes.data
        self._decoder = Decoder()

    def __enter__(self) -> File:
        return self

    def __exit__(self, *_: object) -> None:
        self.close()

    def __repr__(self) -> str:
        return f"<pbfrow.File {os.fsdecode(self.path)!r}>"

    def close(self) -> None:
        """Lets go of the file. Blocks stay as they are."""
        self._bytes, self._map = None, b""

    @property
    def header(self) -> Header:
        """What the header block says. Raises Fault where the file doesn't begin with a good one."""
        status, blob, compression = self._at(0)
        if blob is None or status not in (0, COMPRESSED):
            raise Fault(status, 0, compression)
        header: Header = self._with_payload(blob, decoded)
        return header

    # ---- blocks

    def __iter__(self) -> Iterator[Block]:
        return self.blocks()

    def blocks(self, threads: int = 1) -> Iterator[Block]:
        """The blocks one after the other, decoded ahead by so many threads, of which the one that asks for them is one.

        A fault is raised when it is its turn, and next() goes on behind the bad blob; behind the fault of a frame is nothing
        more. Where `on_fault` is a function, it is told each fault, and the next block comes.
        """
        return _BlocksAhead(self, threads) if threads > 1 else _Blocks(self, self.decode)

    def blobs(self) -> Iterator[Blob]:
        """Where the blobs with elements are, one after the other, for `decode`. They cost little: nothing is decoded but the
        header block. Faults of frames, blobs and the header block are raised or told as those of `blocks`."""
        return _Blobs(self)

    def decode(self, blob: Blob) -> Block:
        """The block of this blob. Raises Fault where it is a bad one, whatever `on_fault` is."""
        counts, columns = self._with_payload(blob, self._columns)
        return Block(blob.offset, Numbers(counts.nodes, counts.ways, counts.relations), columns)

    # ---- tables

    @property
    def elements(self) -> Tables[Elements]:
        """The elements of each block, for what reads a stream of Arrow; iterating gives those of one block after the other."""
        return Tables(self, "elements", Elements)

    @property
    def nodes(self) -> Tables[Nodes]:
        """The nodes of each block that has some, likewise."""
        return Tables(self, "nodes", Nodes)

    @property
    def ways(self) -> Tables[Ways]:
        """The ways of each block that has some, likewise."""
        return Tables(self, "ways", Ways)

    @property
    def relations(self) -> Tables[Relations]:
        """The relations of each block that has some, likewise."""
        return Tables(self, "relations", Relations)

    @property
    def tags(self) -> Tables[Tags]:
        """The tags of each block that has some, likewise."""
        return Tables(self, "tags", Tags)

    @property
    def refs(self) -> Tables[Refs]:
        """The nodes of the ways of each block that has some, likewise."""
        return Tables(self, "refs", Refs)

    @property
    def members(self) -> Tables[Members]:
        """The members of relations of each block that has some, likewise."""
        return Tables(self, "members", Members)

    # ---- what the iterators share

    def _each(self, decode: Callable[[int, int], tuple[int, Any]]) -> Iterator[Any]:
        """What this function makes of the payload of each blob with elements, one after the other, as `blocks` gives blocks."""
        return _Blocks(self, lambda blob: self._with_payload(blob, decode))

    def _opened(self) -> NDArray[np.uint8]:
        if self._bytes is None:
            raise ValueError("the file is closed")
        return self._bytes

    def _at(self, offset: int) -> tuple[int, Blob | None, int]:
        """The status of the frame at this offset, where its blob is, unless the frame itself is bad, and its compression."""
        self._opened()
        if self.size == 0:
            return 61, None, 0
        answer = BlobAnswer()
        status = library.pbfrow_blob_at(self._address + offset, self.size - offset, offset, ctypes.byref(answer))
        if status not in PASSABLE:
            return status, None, 0
        codec = CODECS[answer.compression]
        at = offset + answer.payload_at
        blob = Blob(offset, answer.length, answer.kind, at, answer.payload_length, codec, answer.raw_size)
        return status, blob, answer.compression

    def _with_payload(self, blob: Blob, decode: Callable[[int, int], tuple[Any, ...]]) -> Any:
        """What the function makes of the payload of a blob, decompressed if need be. It gives a status, and then that."""
        data = self._opened()  # it is kept until the payload has been decoded
        begin, end, _ = slice(blob.payload_at, blob.payload_at + blob.payload_length).indices(self.size)
        if blob.codec:
            inflated = self._inflated(blob, data[begin:end])
            status, *made = decode(inflated.ctypes.data, len(inflated))
        else:
            status, *made = decode(self._address + begin, max(end - begin, 0))
        if status:
            raise Fault(status, blob.offset)
        return made[0] if len(made) == 1 else made

    def _columns(self, address: int, length: int) -> tuple[Any, ...]:
        return self._decoder.columns(address, length)

    def _codec(self, blob: Blob) -> Callable[[bytes], bytes] | None:
        return self._inflate.get(blob.codec) if isinstance(self._inflate, Mapping) else self._inflate

    def _inflated(self, blob: Blob, payload: NDArray[np.uint8]) -> NDArray[np.uint8]:
        inflate, compression = self._codec(blob), CODECS.index(blob.codec)
        if inflate is None:
            fault = Fault(COMPRESSED, blob.offset, compression)
            if hasattr(fault, "add_note"):  # Python 3.11
                fault.add_note(f"inflate=zlib.decompress, or a function that decompresses {blob.codec}, reads such blobs")
            raise fault
        if not 0 < blob.raw_size <= MOST_RAW:
            told = f"it says that it has {blob.raw_size} bytes, more than any may have" if blob.raw_size else "it doesn't say how many bytes it has"
            raise Fault(COMPRESSED, blob.offset, compression, told)
        try:
            inflated = np.frombuffer(inflate(payload.tobytes()), np.uint8)
        except Exception as error:
            told = f"inflate failed: {type(error).__name__}: {error}"
            raise Fault(COMPRESSED, blob.offset, compression, told) from error
        if len(inflated) != blob.raw_size:
            told = f"inflate gave {len(inflated)} bytes, and the blob says {blob.raw_size}"
            raise Fault(COMPRESSED, blob.offset, compression, told)
        return inflated

    def _advance(self, end: int) -> None:
        if self._progress is not None:
            self._progress(end, self.size)

    def _forget(self, begin: int, end: int) -> None:
        """Takes pages that have been read out of this process, whose memory they count as. Who needs them again gets them again."""
        mapped = self._map
        if isinstance(mapped, mmap.mmap):
            mapped.madvise(mmap.MADV_DONTNEED, begin, end - begin)

    def _tell(self, fault: Fault) -> None:
        if not callable(self._on_fault):
            raise fault
        self._on_fault(fault)


class _Step(NamedTuple):
    """A frame of a file: where the next one begins, and the blob with elements or the fault that it has."""

    end: int
    has: Blob | Fault | None


class _Walk(Iterator[_Step]):
    """The frames of a file. Behind one that is no frame is nothing."""

    def __init__(self, file: File) -> None:
        self._file, self._offset, self._forgotten, self._has_ended = file, 0, 0, False

    def __next__(self) -> _Step:
        file, offset = self._file, self._offset
        if self._has_ended:
            raise StopIteration
        if offset >= self._forgotten + 2 * _MAPPED:
            file._forget(self._forgotten, self._forgotten + _MAPPED)
            self._forgotten += _MAPPED
        status, blob, compression = file._at(offset)
        self._offset = offset + (blob.length if blob else 0)
        self._has_ended = blob is None or self._offset >= file.size
        if blob is None or status not in (0, COMPRESSED) or (status and file._codec(blob) is None):
            return _Step(self._offset, Fault(status, offset, compression))
        if blob.kind == 0:
            return _Step(self._offset, self._fault_of_header(blob))
        return _Step(self._offset, blob if blob.kind == 1 else None)

    def _fault_of_header(self, blob: Blob) -> Fault | None:
        try:
            self._file._with_payload(blob, decoded)
        except Fault as fault:
            return fault
        return None


class _Blobs(Iterator[Blob]):
    """The blobs with elements; it goes on behind a fault."""

    def __init__(self, file: File) -> None:
        self._file, self._walk = file, _Walk(file)

    def __next__(self) -> Blob:
        for end, has in self._walk:
            self._file._advance(end)
            if isinstance(has, Fault):
                self._file._tell(has)
            elif has is not None:
                return has
        raise StopIteration


class _Blocks(Iterator[Any]):
    """What a function makes of the blobs, each when it is asked for; it goes on behind a fault."""

    def __init__(self, file: File, decode: Callable[[Blob], Any]) -> None:
        self._file, self._decode, self._walk = file, decode, _Walk(file)

    def __next__(self) -> Any:
        return self._next_of(self._walk)

    def _next_of(self, steps: Iterator[Any]) -> Any:
        for end, has in steps:
            block = None
            try:
                block = self._made(has)
            except Fault as fault:
                self._file._tell(fault)
            finally:
                self._file._advance(end)
            if block is not None:
                return block
        raise StopIteration

    def _made(self, has: Blob | Fault | None) -> Any:
        if isinstance(has, Fault):
            raise has
        return self._decode(has) if has else None


class _BlocksAhead(_Blocks):
    """The same, decoded by threads ahead of the one that asks for them. That one is one of them: rather than wait for its block,
    it decodes another one."""

    def __init__(self, file: File, threads: int) -> None:
        super().__init__(file, file.decode)
        self._todo: SimpleQueue[_Ahead | None] = SimpleQueue()
        self._started = _started(file, self._walk, self._todo, threads)

    def __next__(self) -> Any:
        return self._next_of(self._started)

    def _made(self, has: Any) -> Any:
        if not isinstance(has, _Ahead):
            return super()._made(has)
        while not has.has_ended():
            try:
                other = self._todo.get_nowait()
            except Empty:
                break
            if other is None:  # it is for a thread, which ends by it
                self._todo.put(None)
                break
            other.decode(self._file)
        return has.result()


class _Ahead:
    """A blob that a thread makes a block of. A pool of concurrent.futures does more to hand one over, and meanwhile no other
    thread can go on."""

    def __init__(self, blob: Blob) -> None:
        self._blob, self._ended = blob, Lock()
        self._ended.acquire()
        self._block: Block | None = None
        self._fault: BaseException | None = None

    def decode(self, file: File) -> None:
        try:
            self._block = file.decode(self._blob)
        except BaseException as fault:  # it is raised where the block is asked for
            self._fault = fault
        finally:
            self._ended.release()

    def has_ended(self) -> bool:
        return not self._ended.locked()

    def result(self) -> Block | None:
        with self._ended:
            if self._fault is not None:
                raise self._fault
            return self._block


def _decode_each(file: File, todo: SimpleQueue[_Ahead | None]) -> None:
    for ahead in iter(todo.get, None):
        ahead.decode(file)


def _started(file: File, walk: _Walk, todo: SimpleQueue[_Ahead | None], threads: int) -> Iterator[tuple[int, Any]]:
    """The frames of a file, the blobs of some of them on their way to blocks, by all threads but the one that asks."""
    waiting: deque[tuple[int, Fault | _Ahead | None]] = deque()
    workers = [Thread(target=_decode_each, args=(file, todo), daemon=True) for _ in range(threads - 1)]
    for worker in workers:
        worker.start()
    try:
        for end, has in walk:
            if isinstance(has, Blob):
                todo.put(ahead := _Ahead(has))
                waiting.append((end, ahead))
            else:
                waiting.append((end, has))
            if len(waiting) > 2 * threads:
                yield waiting.popleft()
        while waiting:
            yield waiting.popleft()
    finally:
        for _ in workers:
            todo.put(None)
        for worker in workers:
            worker.join()


Made = TypeVar("Made", bound=Table)


class _TablesInTurn(Iterator[Made]):
    """The tables of blocks that aren't empty; it goes on behind a fault."""

    def __init__(self, blocks: Iterator[Block], name: str) -> None:
        self._blocks, self._name = blocks, name

    def __next__(self) -> Made:
        while True:
            table: Made = getattr(next(self._blocks), self._name)
            if len(table):
                return table


class Tables(Generic[Made]):
    """A table of each block of a file that has rows of it: to iterate over, or for what reads a stream of Arrow, which gets a
    batch for each. Faults are raised or told as those of `File.blocks`; they end a stream of Arrow, with their text as its error.
    """

    def __init__(self, file: File, name: str, made: type[Made]) -> None:
        self._file, self._name, self._made = file, name, made

    def __iter__(self) -> Iterator[Made]:
        return _TablesInTurn(self._file.blocks(), self._name)

    def __arrow_c_schema__(self) -> object:
        """The type of the table: a capsule of an ArrowSchema."""
        return _arrow.schema_capsule(self._nothing()._fields())

    def __arrow_c_stream__(self, requested_schema: object = None) -> object:
        """The tables one after the other: a capsule of an ArrowArrayStream. The requested schema isn't heeded."""
        return _arrow.stream_capsule(self._nothing()._fields(), (table._fields() for table in self))

    def _nothing(self) -> Made:
        nothing = {column.name: np.zeros(int(column.ends_of is not None), column.type) for column in COLUMNS}
        made: Made = getattr(Block(0, Numbers(0, 0, 0), nothing), self._name)
        return made


def _mapped(path: str | bytes | os.PathLike[Any]) -> mmap.mmap | bytes:
    """The bytes of a file. Raises OSError where it can't be opened, or is no regular file."""
    mode = os.stat(path).st_mode
    if stat.S_ISDIR(mode):
        raise IsADirectoryError(errno.EISDIR, os.strerror(errno.EISDIR), os.fsdecode(path))
    if not stat.S_ISREG(mode):
        raise OSError(errno.ESPIPE, "not a regular file, such as a pipe: save it to a file first", os.fsdecode(path))
    with io.open(path, "rb") as file:
        if os.fstat(file.fileno()).st_size == 0:
            return b""
        return mmap.mmap(file.fileno(), 0, access=mmap.ACCESS_READ)


def open(
    path: str | bytes | os.PathLike[Any],
    inflate: Inflate | None = None,
    on_fault: OnFault = "raise",
    progress: Progress | None = None,
) -> File:
    """Opens a PBF file, whose blocks iterating gives one after the other.

        with pbfrow.open("country.osm.pbf", inflate=zlib.decompress) as file:
            for block in file:
                print(block.offset, len(block.nodes))

    `inflate` decompresses blobs: a function that is given the compressed bytes and gives the others, as bytes or what numpy takes
    for them, or a function for each codec by its name ("zlib", "lzma", "bzip2", "lz4", "zstd"). Without it, or without one for its
    codec, a compressed blob is fault 21. So it is, with a text that says why, where the function raises an exception, or gives
    another number of bytes than the blob says. It is called by the threads that decode.

    `on_fault` is "raise", or a function that is told each Fault; then the loop goes on with the next blob. `progress` is a function
    that is told, once a blob is done, how many bytes of the file are, and how many it has.

    Raises FileNotFoundError, IsADirectoryError, PermissionError or another OSError where the file can't be opened, or is no
    regular file, such as a pipe. That it is no PBF file is a Fault of its first blob; that of an empty file is 61 at 0.
    """
    return File(path, inflate, on_fault, progress)
