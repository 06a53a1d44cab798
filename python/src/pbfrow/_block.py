"""A block, or a whole file, as arrays of numpy: one array for each column."""

from __future__ import annotations

from functools import cached_property
from typing import TYPE_CHECKING, Any, Iterator, Mapping, NamedTuple, Union

import numpy as np

from ._tables import Field, Table, known

if TYPE_CHECKING:
    from numpy.typing import NDArray

#: The item that stands for a missing number of 64 and of 32 bits. Versions and users that are missing are -1.
MISSING, MISSING_INT = -(2**63), -(2**31)

Selection = Union[slice, "NDArray[np.intp]"]


class Texts:
    """Texts, as one array of bytes in UTF-8 and where each ends: text i is bytes[offsets[i]:offsets[i + 1]].

    len() says how many there are, and texts[i] is one of them as str. Of a block they are those of its string table, used or
    not, mostly each once, but a text may stand there twice; of a whole file each is there once.
    """

    #: Where each text begins among the bytes, and where the last one ends: (texts + 1,) int64, from 0, ascending.
    offsets: NDArray[np.int64]
    #: All texts one after the other: (bytes,) uint8.
    bytes: NDArray[np.uint8]

    def __init__(self, offsets: NDArray[np.int64], data: NDArray[np.uint8]) -> None:
        self.offsets, self.bytes = offsets, data

    def __len__(self) -> int:
        return len(self.offsets) - 1

    def __getitem__(self, at: int) -> str:
        """The text of this index. Raises IndexError where there is none; -1 stands for no text, and isn't the last one."""
        if not 0 <= at < len(self):
            raise IndexError(f"there is no text {at}, there are {len(self)}")
        return self.bytes[self.offsets[at] : self.offsets[at + 1]].tobytes().decode()

    def __iter__(self) -> Iterator[str]:
        data, ends = self.bytes.tobytes(), self.offsets.tolist()
        return (data[begin:end].decode() for begin, end in zip(ends, ends[1:]))

    @property
    def ends(self) -> NDArray[np.int64]:
        """Where each text ends among the bytes: (texts,) int64."""
        return self.offsets[1:]

    @cached_property
    def strings(self) -> NDArray[np.object_]:
        """All texts as str, decoded at the first use: (texts,) of objects. `strings[tags.keys]` are the keys of tags; of users take
        `of`, since numpy has the last text for an index of -1."""
        strings = np.empty(len(self), object)
        strings[:] = list(self)
        return strings

    def of(self, indexes: NDArray[np.int32]) -> NDArray[np.object_]:
        """The texts of these indexes as str, and None for -1, which stands for no text: as many objects as indexes."""
        named: NDArray[np.object_] = np.concatenate([self.strings, np.array([None], object)])[indexes]
        return named

    def find(self, text: str) -> NDArray[np.int32]:
        """The indexes that this text has, without decoding the others: usually one, or none where it isn't there."""
        wanted = np.frombuffer(text.encode(), np.uint8)
        begins = self.offsets[:-1]
        found = np.flatnonzero(np.diff(self.offsets) == len(wanted))
        for at, byte in enumerate(wanted):
            if len(found) == 0:
                break
            found = found[self.bytes[begins[found] + at] == byte]
        return found.astype(np.int32)


class Owners(NamedTuple):
    """The elements that tags, refs or members belong to."""

    kinds: NDArray[np.uint8]
    ids: NDArray[np.int64]


class Tags(Table):
    """Tags of elements, in the order of the elements. As a table it has a row for each tag: kind, id, key and value."""

    #: Tags offsets[i] to offsets[i + 1] are those of element i: (elements + 1,) int64, from 0.
    offsets: NDArray[np.int64]
    #: Indexes of `texts`: (tags,) int32 each.
    keys: NDArray[np.int32]
    values: NDArray[np.int32]
    texts: Texts

    def __init__(
        self,
        of: Owners,
        offsets: NDArray[np.int64],
        keys: NDArray[np.int32],
        values: NDArray[np.int32],
        texts: Texts,
    ) -> None:
        self._of, self.offsets, self.keys, self.values, self.texts = of, offsets, keys, values, texts

    def __len__(self) -> int:
        return len(self.keys)

    @property
    def ends(self) -> NDArray[np.int64]:
        """Where the tags of each element end: (elements,) int64."""
        return self.offsets[1:]

    @cached_property
    def owners(self) -> NDArray[np.intp]:
        """Which of the elements each tag belongs to: (tags,) of their places, from 0."""
        return _owners(self.offsets)

    def find(self, key: str, value: str | None = None) -> NDArray[np.intp]:
        """The places, among the tags, of those with this key, and with this value if one is given: ascending.

        `elements.ids[tags.owners[tags.find("amenity", "cafe")]]` are the ids of cafés.
        """
        found = np.flatnonzero(_is_one_of(self.keys, self.texts.find(key)))
        if value is not None:
            found = found[_is_one_of(self.values[found], self.texts.find(value))]
        return found

    def _fields(self) -> list[Field]:
        return [
            Field("kind", "kind", self._of.kinds[self.owners]),
            Field("id", "number", self._of.ids[self.owners]),
            Field("key", "text", self.keys, None, self.texts),
            Field("value", "text", self.values, None, self.texts),
        ]


class Refs(Table):
    """The nodes of ways, in the order of the ways. As a table it has a row for each: the way's id, and the node as ref."""

    #: Refs offsets[i] to offsets[i + 1] are those of element i: (elements + 1,) int64, from 0.
    offsets: NDArray[np.int64]
    #: Ids of nodes: (refs,) int64.
    ids: NDArray[np.int64]

    def __init__(self, of: Owners, offsets: NDArray[np.int64], ids: NDArray[np.int64]) -> None:
        self._of, self.offsets, self.ids = of, offsets, ids

    def __len__(self) -> int:
        return len(self.ids)

    @property
    def ends(self) -> NDArray[np.int64]:
        """Where the refs of each element end: (elements,) int64."""
        return self.offsets[1:]

    @cached_property
    def owners(self) -> NDArray[np.intp]:
        """Which of the elements each ref belongs to: (refs,) of their places, from 0."""
        return _owners(self.offsets)

    def _fields(self) -> list[Field]:
        return [Field("id", "number", self._of.ids[self.owners]), Field("ref", "number", self.ids)]


class Members(Table):
    """The members of relations, in the order of the relations. As a table it has a row for each: the relation's id, then
    member_kind, member_id and role."""

    #: Members offsets[i] to offsets[i + 1] are those of element i: (elements + 1,) int64, from 0.
    offsets: NDArray[np.int64]
    #: 0 node, 1 way, 2 relation: (members,) uint8.
    kinds: NDArray[np.uint8]
    #: Ids of the members: (members,) int64.
    ids: NDArray[np.int64]
    #: Indexes of `texts`: (members,) int32.
    roles: NDArray[np.int32]
    texts: Texts

    def __init__(
        self,
        of: Owners,
        offsets: NDArray[np.int64],
        kinds: NDArray[np.uint8],
        ids: NDArray[np.int64],
        roles: NDArray[np.int32],
        texts: Texts,
    ) -> None:
        self._of, self.offsets, self.kinds, self.ids, self.roles, self.texts = of, offsets, kinds, ids, roles, texts

    def __len__(self) -> int:
        return len(self.ids)

    @property
    def ends(self) -> NDArray[np.int64]:
        """Where the members of each element end: (elements,) int64."""
        return self.offsets[1:]

    @cached_property
    def owners(self) -> NDArray[np.intp]:
        """Which of the elements each member belongs to: (members,) of their places, from 0."""
        return _owners(self.offsets)

    def _fields(self) -> list[Field]:
        return [
            Field("id", "number", self._of.ids[self.owners]),
            Field("member_kind", "kind", self.kinds),
            Field("member_id", "number", self.ids),
            Field("role", "text", self.roles, None, self.texts),
        ]


class Elements(Table):
    """Elements in the order of the file, one item of each array for each of them.

    The elements of one kind stand side by side in each block of the usual writers; then the arrays of `nodes`, `ways` and
    `relations` look at those of the block. Where they don't, they are copies.
    """

    #: 0 node, 1 way, 2 relation: (elements,) uint8.
    kinds: NDArray[np.uint8]
    #: (elements,) int64.
    ids: NDArray[np.int64]
    #: Latitudes and longitudes in nanodegrees: (elements,) int64 each. 0 of ways and relations. Of deleted nodes, in files
    #: with history, they are what the writer put there: osmium writes 214748364700.
    lats: NDArray[np.int64]
    lons: NDArray[np.int64]
    #: (elements,) int32, -1 where it isn't there.
    versions: NDArray[np.int32]
    #: Milliseconds since 1970: (elements,) int64, MISSING where it isn't there; `times.view("datetime64[ms]")` has NaT there.
    times: NDArray[np.int64]
    #: (elements,) int64, MISSING where it isn't there.
    changesets: NDArray[np.int64]
    #: Numbers of users: (elements,) int32, MISSING_INT where it isn't there.
    uids: NDArray[np.int32]
    #: Names of users, as indexes of `texts`: (elements,) int32, -1 where it isn't there.
    users: NDArray[np.int32]
    #: 1 visible, 0 deleted, 2 where the file doesn't say, as usual in files without history: (elements,) uint8.
    visible: NDArray[np.uint8]
    #: The texts that users, tags and roles are indexes of.
    texts: Texts

    def __init__(self, columns: Mapping[str, NDArray[Any]], selection: Selection, texts: Texts) -> None:
        self._columns, self._selection, self.texts = columns, selection, texts
        self.kinds, self.ids = columns["kinds"][selection], columns["ids"][selection]
        self.lats, self.lons = columns["lats"][selection], columns["lons"][selection]
        self.versions, self.times = columns["versions"][selection], columns["times"][selection]
        self.changesets, self.uids = columns["changesets"][selection], columns["uids"][selection]
        self.users, self.visible = columns["users"][selection], columns["visible"][selection]

    def __len__(self) -> int:
        return len(self.ids)

    @cached_property
    def tags(self) -> Tags:
        """The tags of these elements."""
        offsets, items = _parts(self._columns["tag_ends"], self._selection)
        return Tags(self._owners, offsets, self._columns["keys"][items], self._columns["values"][items], self.texts)

    @cached_property
    def refs(self) -> Refs:
        """The nodes of these ways; other elements have none."""
        offsets, items = _parts(self._columns["ref_ends"], self._selection)
        return Refs(self._owners, offsets, self._columns["refs"][items])

    @cached_property
    def members(self) -> Members:
        """The members of these relations; other elements have none."""
        offsets, items = _parts(self._columns["member_ends"], self._selection)
        kinds, ids, roles = (self._columns[name][items] for name in ("member_kinds", "member_ids", "roles"))
        return Members(self._owners, offsets, kinds, ids, roles, self.texts)

    @property
    def _owners(self) -> Owners:
        # not the elements themselves: what holds its holder is freed late, and its memory is wanted for the next block
        return Owners(self.kinds, self.ids)

    def _place_fields(self) -> list[Field]:
        is_node = self.kinds == 0
        valid = None if is_node.all() else is_node
        return [Field("lat", "place", self.lats, valid), Field("lon", "place", self.lons, valid)]

    def _info_fields(self) -> list[Field]:
        return [
            Field("version", "optional", self.versions, known(self.versions, -1)),
            Field("time", "time", self.times, known(self.times, MISSING)),
            Field("changeset", "optional", self.changesets, known(self.changesets, MISSING)),
            Field("uid", "optional", self.uids, known(self.uids, MISSING_INT)),
            Field("user", "text", self.users, known(self.users, -1), self.texts),
            Field("visible", "flag", self.visible, known(self.visible, 2)),
        ]

    def _fields(self) -> list[Field]:
        return [
            Field("kind", "kind", self.kinds),
            Field("id", "number", self.ids),
            *self._place_fields(),
            *self._info_fields(),
        ]


class Nodes(Elements):
    """Nodes: as Elements. As a table: id, lat, lon, version, time, changeset, uid, user, visible."""

    def _fields(self) -> list[Field]:
        return [Field("id", "number", self.ids), *self._place_fields(), *self._info_fields()]


class Ways(Elements):
    """Ways: as Elements, with `refs`. As a table: id, refs (in Arrow alone: a list for each way), version, time, changeset, uid,
    user, visible."""

    def _fields(self) -> list[Field]:
        refs = Field("refs", "list", self.refs.ids, None, self.refs.offsets)
        return [Field("id", "number", self.ids), refs, *self._info_fields()]


class Relations(Elements):
    """Relations: as Elements, with `members`. As a table: id, version, time, changeset, uid, user, visible."""

    def _fields(self) -> list[Field]:
        return [Field("id", "number", self.ids), *self._info_fields()]


class Numbers(NamedTuple):
    """How many elements of each kind there are."""

    nodes: int
    ways: int
    relations: int


class Block:
    """The elements of a block, or of a whole file. len() says how many there are.

    Its arrays keep its memory alive; once none of them is left, it is used again for a later block of the file.
    """

    #: The offset of the frame in the file, in bytes; 0 of a whole file.
    offset: int
    #: How many nodes, ways and relations there are.
    numbers: Numbers

    def __init__(self, offset: int, numbers: Numbers, columns: Mapping[str, NDArray[Any]]) -> None:
        self.offset, self.numbers, self._columns = offset, numbers, columns

    def __len__(self) -> int:
        return sum(self.numbers)

    def __repr__(self) -> str:
        nodes, ways, relations = self.numbers
        return f"<pbfrow.Block at {self.offset}: {nodes} nodes, {ways} ways, {relations} relations>"

    @cached_property
    def texts(self) -> Texts:
        """The texts that users, tags and roles are indexes of."""
        return Texts(self._columns["text_ends"], self._columns["text_bytes"])

    @cached_property
    def elements(self) -> Elements:
        """All elements, in the order of the file."""
        return Elements(self._columns, slice(0, len(self)), self.texts)

    @cached_property
    def nodes(self) -> Nodes:
        """The nodes alone."""
        return Nodes(self._columns, self._those_of(0), self.texts)

    @cached_property
    def ways(self) -> Ways:
        """The ways alone."""
        return Ways(self._columns, self._those_of(1), self.texts)

    @cached_property
    def relations(self) -> Relations:
        """The relations alone."""
        return Relations(self._columns, self._those_of(2), self.texts)

    @property
    def tags(self) -> Tags:
        """The tags of all elements."""
        return self.elements.tags

    @property
    def refs(self) -> Refs:
        """The nodes of all ways; `offsets` are those of all elements."""
        return self.elements.refs

    @property
    def members(self) -> Members:
        """The members of all relations; `offsets` are those of all elements."""
        return self.elements.members

    def _those_of(self, kind: int) -> Selection:
        kinds, count = self._columns["kinds"], self.numbers[kind]
        if count in (0, len(kinds)):
            return slice(0, count)
        is_one = kinds == kind
        first = int(is_one.argmax())
        if is_one[first : first + count].all():
            return slice(first, first + count)
        return np.flatnonzero(is_one)


def _owners(offsets: NDArray[np.int64]) -> NDArray[np.intp]:
    return np.repeat(np.arange(len(offsets) - 1), np.diff(offsets))


def _is_one_of(items: NDArray[np.int32], wanted: NDArray[np.int32]) -> NDArray[np.bool_]:
    found: NDArray[np.bool_] = items == wanted[0] if len(wanted) == 1 else np.isin(items, wanted)
    return found


def _parts(offsets: NDArray[np.int64], selection: Selection) -> tuple[NDArray[np.int64], Selection]:
    """Which items the selected elements have, and the offsets of each among them."""
    if isinstance(selection, slice):
        part = offsets[selection.start : selection.stop + 1]
        first, last = int(part[0]), int(part[-1])
        return part if first == 0 else part - first, slice(first, last)
    begins = offsets[:-1][selection]
    lengths = offsets[1:][selection] - begins
    made = np.zeros(len(lengths) + 1, np.int64)
    np.cumsum(lengths, out=made[1:])
    return made, np.arange(made[-1]) + np.repeat(begins - made[:-1], lengths)
