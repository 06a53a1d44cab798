"""The memory that blocks are decoded into: one piece for all columns of a block, which is used again once no array looks at it.

A block of eight thousand elements has about a megabyte of columns. Memory that is new for each block costs a page fault for
each 4 KiB of it, and those of several threads wait for one another in the kernel; memory that was used before costs none.
"""

from __future__ import annotations

import ctypes
import threading
from collections import deque
from typing import TYPE_CHECKING, Any, Dict

import numpy as np

from ._library import COLUMNS, COUNTS, NO_ROOM, Counts, library

if TYPE_CHECKING:
    from numpy.typing import NDArray

# What the library takes of malloc for a block it gives back after it. malloc of glibc hands that on to the kernel each time, which
# takes as long as half of the decoding, until a longer piece has been freed once; from then on it keeps pieces of up to that
# length. So one is freed here. It is never touched, so it takes no memory.
np.empty(1 << 24, np.uint8)

_ALIGNED = 64
_COUNTED = tuple(dict.fromkeys(column.counted for column in COLUMNS))
_SIZES = np.array([column.type.itemsize for column in COLUMNS])
_COUNT_OF = np.array([_COUNTED.index(column.counted) for column in COLUMNS])
_IS_ENDS = np.array([column.ends_of is not None for column in COLUMNS])
_PLACES = {column.name: at for at, column in enumerate(COLUMNS)}


class Room:
    """How much room a block has: so many items of each count, and where in its memory each column begins.

    In front of each column of ends is one item more, a zero, so that ends are offsets as well.
    """

    def __init__(self, items: NDArray[np.int64]) -> None:
        self.items = items
        sizes = (items[_COUNT_OF] + _IS_ENDS) * _SIZES
        steps = -(-sizes // _ALIGNED) * _ALIGNED
        self.starts = np.concatenate(([0], np.cumsum(steps)[:-1]))
        self.size = int(steps.sum())
        #: pbfrow_columns for memory at the address 0: where the items of each column begin, and how many it has room for
        self.slots = np.stack((self.starts + _IS_ENDS * _SIZES, items[_COUNT_OF]), axis=1).astype(np.uint64)

    @classmethod
    def guessed(cls, length: int) -> Room:
        """Room for what a payload of this many bytes usually has, if it isn't a very long one."""
        few = min(length, 1 << 20) // 8 + 16
        return cls(np.full(len(_COUNTED), few, np.int64))

    def holding(self, counts: Counts) -> Room:
        """This room, grown to hold so many, and an eighth more of what has grown."""
        needed = np.array([getattr(counts, name) for name in _COUNTED], np.int64)
        return Room(np.where(needed > self.items, needed + needed // 8 + 16, self.items))


class Piece:
    """A piece of memory with this room, at an address that 64 divides. What a call and an array need of it is made once, since no
    other thread of Python goes on meanwhile."""

    def __init__(self, room: Room) -> None:
        self.room = room
        self._memory = np.empty(room.size + _ALIGNED, np.uint8)
        address = -(-self._memory.ctypes.data // _ALIGNED) * _ALIGNED
        self._slots = room.slots.copy()
        self._slots[:, 0] += np.uint64(address)
        #: where pbfrow_columns of this memory is
        self.slots_at = self._slots.ctypes.data
        self.interface = {"version": 3, "typestr": "|u1", "shape": (room.size,), "data": (address, False)}


class Lease:
    """A piece on loan: numpy arrays that look at it hold this object, and when the last one is gone it is free again."""

    def __init__(self, free: deque[Piece], piece: Piece) -> None:
        self._free, self.piece = free, piece
        self.__array_interface__ = piece.interface

    def __del__(self) -> None:
        self._free.append(self.piece)


class Pool(threading.local):
    """Memory for blocks that was used before. Each thread has its own, whichever thread lets go of it: it is in the cache of the
    processor that the thread runs on."""

    def __init__(self, most: int) -> None:
        self._free: deque[Piece] = deque(maxlen=most)

    def lend(self, room: Room) -> Lease:
        """Memory with this room, whose bytes have any value."""
        piece = self._free.pop() if self._free else None
        return Lease(self._free, piece if piece and piece.room is room else Piece(room))


class Columns(Dict[str, "NDArray[Any]"]):
    """The columns of a block by name, each made when it is first asked for. Ends have a zero in front of them."""

    def __init__(self, counts: Counts, room: Room, memory: NDArray[np.uint8]) -> None:
        super().__init__()
        self._counts, self._room, self._memory = counts, room, memory

    def __missing__(self, name: str) -> NDArray[Any]:
        at = _PLACES[name]
        column, start = COLUMNS[at], int(self._room.starts[at])
        is_ends = column.ends_of is not None
        size = (getattr(self._counts, column.counted) + is_ends) * column.type.itemsize
        view = self[name] = self._memory[start : start + size].view(column.type)
        if is_ends:
            view[0] = 0
        return view


class Decoder:
    """Decodes payloads of blocks, each into memory of its own, for several threads at a time."""

    def __init__(self, most_spare: int = 8) -> None:
        self._pool = Pool(most_spare)
        self._room: Room | None = None

    def columns(self, address: int, length: int) -> tuple[int, Counts, Columns]:
        """Decodes the payload of so many bytes at this address. The status, and where that is 0 the counts and the columns."""
        counts = Counts()
        room = self._room or Room.guessed(length)
        while True:
            lease = self._pool.lend(room)
            status = library.pbfrow_block_columns(address, length, ctypes.byref(counts), lease.piece.slots_at)
            if status != NO_ROOM:
                break
            room = room.holding(counts)
        self._room = room
        return status, counts, Columns(counts, room, np.asarray(lease))


assert set(_COUNTED) <= set(COUNTS)
