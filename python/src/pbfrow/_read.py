"""A whole file in memory, as one array for each column."""

from __future__ import annotations

import ctypes
import itertools
import mmap
import os
from collections import defaultdict
from typing import TYPE_CHECKING, Any

import numpy as np

from ._block import Block, Numbers, Texts
from ._file import File, Inflate, OnFault, Progress
from ._library import COLUMNS, COUNTS, NO_ROOM, Column, Counts, library

if TYPE_CHECKING:
    from numpy.typing import NDArray

#: The columns whose items are indexes of texts.
_INDEXES = frozenset(("users", "keys", "values", "roles"))
#: How many bytes of a file there is room for an item for, in each column, to begin with, and at most so many items: the kernel gives
#: memory only for what is written.
_BYTES_FOR_AN_ITEM, _MOST_AT_FIRST = 8, 1 << 22


def read(
    path: str | bytes | os.PathLike[Any],
    inflate: Inflate | None = None,
    on_fault: OnFault = "raise",
    progress: Progress | None = None,
    threads: int = 1,
) -> Block:
    """All elements of a file as one Block, decoded by so many threads.

    Its arrays are those of the file's blocks one after the other, and its texts those of all blocks, each once. They take about
    five times the bytes of a raw file, or twelve times those of one that is compressed by zlib. One thread decodes each block where
    its items stay; of several, each decodes blocks of its own, and one puts them together, so that three are about as quick as
    more. The result doesn't depend on how many there are.

    `inflate`, `on_fault` and `progress` are those of `pbfrow.open`, which says what is raised, beside MemoryError where memory for
    the arrays is refused. Blocks that have a fault are left out where `on_fault` is a function.
    """
    with File(path, inflate, on_fault, progress) as file:
        whole = _Whole(min(file.size // _BYTES_FOR_AN_ITEM, _MOST_AT_FIRST))
        if threads > 1:
            for block in file.blocks(threads):
                whole.append(block)
        else:
            for _ in file._each(whole.decode):
                pass
    return whole.block()


class _Growing:
    """A column that grows at its end. The kernel makes its memory longer without copying it."""

    def __init__(self, column: Column, items: int) -> None:
        self._type, self._used = column.type, int(column.ends_of is not None)
        self._memory = mmap.mmap(-1, self._bytes(items), flags=mmap.MAP_PRIVATE | mmap.MAP_ANONYMOUS)
        self._look()

    def slot(self) -> tuple[int, int]:
        """Where the next item goes, and how many there is room for."""
        return self._address + self._used * self._type.itemsize, len(self._array) - self._used

    def reserve(self, items: int) -> None:
        """Makes room for so many more."""
        if self._used + items > len(self._array):
            self._resize(max(self._used + items, 2 * len(self._array)))

    def next(self, items: int) -> NDArray[Any]:
        """The next so many items, for which there is room, to be written."""
        return self._array[self._used : self._used + items]

    def take(self, items: int) -> NDArray[Any]:
        """The next so many items, which have been written: they belong to the column from now on."""
        taken, self._used = self.next(items), self._used + items
        return taken

    def done(self) -> NDArray[Any]:
        """All items."""
        self._resize(max(self._used, 1))
        return self._array[: self._used]

    def _bytes(self, items: int) -> int:
        return max(-(-items * self._type.itemsize // mmap.PAGESIZE), 1) * mmap.PAGESIZE

    def _resize(self, items: int) -> None:
        # memory that is looked at can't be made longer
        del self._array
        self._memory.resize(self._bytes(items))
        self._look()

    def _look(self) -> None:
        self._array: NDArray[Any] = np.frombuffer(self._memory, self._type)
        self._address = self._array.ctypes.data


class _Whole:
    """The blocks of a file, one behind the other."""

    def __init__(self, items: int) -> None:
        self._grown = {column: _Growing(column, items) for column in COLUMNS if not column.name.startswith("text_")}
        self._used = dict.fromkeys(COUNTS, 0)
        self._texts: dict[bytes, int] = defaultdict(itertools.count().__next__)
        # the texts of the block that is decoded; in front of their ends is a zero
        self._ends, self._bytes = np.zeros(1 << 14, np.int64), np.zeros(1 << 18, np.uint8)

    def decode(self, address: int, length: int) -> tuple[int, Counts]:
        """Decodes the payload of so many bytes at this address right behind the blocks that are there. Answers the status: where
        it isn't 0, nothing is added."""
        counts = Counts()
        while True:
            slots = np.array([*(grown.slot() for grown in self._grown.values()), *self._slots_of_texts()], np.uint64)
            status: int = library.pbfrow_block_columns(address, length, ctypes.byref(counts), slots.ctypes.data)
            if status != NO_ROOM:
                break
            self._reserve(counts)
        if status == 0:
            texts = Texts(self._ends[: counts.texts + 1], self._bytes[: counts.text_bytes])
            self._add({name: getattr(counts, name) for name in COUNTS}, texts)
        return status, counts

    def append(self, block: Block) -> None:
        """Copies a block behind those that are there."""
        columns = block._columns
        counts = {column.counted: len(columns[column.name]) - int(column.ends_of is not None) for column in COLUMNS}
        for column, grown in self._grown.items():
            grown.reserve(counts[column.counted])
            grown.next(counts[column.counted])[:] = columns[column.name][int(column.ends_of is not None) :]
        self._add({**counts, **block.numbers._asdict()}, block.texts)

    def block(self) -> Block:
        columns = {column.name: grown.done() for column, grown in self._grown.items()}
        lengths = np.fromiter(map(len, self._texts), np.int64, len(self._texts))
        columns["text_ends"] = np.concatenate((np.zeros(1, np.int64), np.cumsum(lengths)))
        columns["text_bytes"] = np.frombuffer(bytearray(b"").join(self._texts), np.uint8)
        return Block(0, Numbers(*(self._used[name] for name in Numbers._fields)), columns)

    def _slots_of_texts(self) -> list[tuple[int, int]]:
        ends, data = self._ends, self._bytes
        return [(ends.ctypes.data + ends.itemsize, len(ends) - 1), (data.ctypes.data, len(data))]

    def _reserve(self, counts: Counts) -> None:
        """Makes room for a block of so many items."""
        for column, grown in self._grown.items():
            grown.reserve(getattr(counts, column.counted))
        if counts.texts >= len(self._ends):
            self._ends = np.zeros(2 * counts.texts, np.int64)
        if counts.text_bytes > len(self._bytes):
            self._bytes = np.zeros(2 * counts.text_bytes, np.uint8)

    def _add(self, counts: dict[str, int], texts: Texts) -> None:
        """Makes the items of a block, which have been written behind the others, those of the file."""
        codes = self._codes(texts)
        for column, grown in self._grown.items():
            items = grown.take(counts[column.counted])
            if column.ends_of:
                items += self._used[column.ends_of]
            elif column.name in _INDEXES:
                # by "wrap" the index -1 is that of the last code
                np.take(codes, items, out=items, mode="wrap")
        for name in self._used:
            self._used[name] += counts[name]

    def _codes(self, texts: Texts) -> NDArray[np.int32]:
        """What the indexes of a block's texts are among those of the file; behind them is -1, for the index -1."""
        data, ends = texts.bytes.tobytes(), texts.offsets.tolist()
        pieces = [data[begin:end] for begin, end in zip(ends, ends[1:])]
        return np.fromiter(itertools.chain(map(self._texts.__getitem__, pieces), (-1,)), np.int32, len(ends))
