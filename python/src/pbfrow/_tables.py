"""What a table has: its fields, from which tables of pandas and of Arrow are made."""

from __future__ import annotations

from typing import TYPE_CHECKING, Any, NamedTuple

import numpy as np

from . import _arrow

if TYPE_CHECKING:
    import pandas
    from numpy.typing import NDArray

    from ._block import Texts

#: The names of the kinds, by their numbers.
KINDS = ("node", "way", "relation")


class Field(NamedTuple):
    """A field of a table, with an item for each row.

    Its form is "number" (it is always there), "optional" (a number), "place" (nanodegrees), "time" (milliseconds since 1970),
    "flag", "kind", "text" (items are indexes of `more`, which are texts) or "list" (`more` are the offsets of the lists
    among the items). `valid` says which items are there; None where all are.
    """

    name: str
    form: str
    items: NDArray[Any]
    valid: NDArray[np.bool_] | None = None
    more: Any = None


def known(items: NDArray[Any], missing: int) -> NDArray[np.bool_] | None:
    """Which items aren't the one that stands for a missing value; None where none is."""
    valid = items != missing
    return None if valid.all() else valid


class Table:
    """Rows that pandas and what reads Arrow can take."""

    def __len__(self) -> int:
        raise NotImplementedError

    def _fields(self) -> list[Field]:
        raise NotImplementedError

    def to_pandas(self) -> pandas.DataFrame:
        """A table of pandas with a row for each.

        Latitudes and longitudes are in degrees (float64). Numbers that may be missing are Int32 or Int64 with NA, times
        datetime64 with NaT, flags boolean with NA. Texts and kinds are categories, made from their indexes: no text is
        decoded more than once. Raises ImportError without pandas, and pandas's OutOfBoundsDatetime where pandas is older
        than 2 and a time isn't between the years 1678 and 2262.
        """
        import pandas

        columns = {field.name: _SERIES[field.form](field) for field in self._fields() if field.form != "list"}
        return pandas.DataFrame(columns, copy=False)

    def __arrow_c_schema__(self) -> object:
        """The type of this table for what reads Arrow: a capsule of an ArrowSchema."""
        return _arrow.schema_capsule(self._fields())

    def __arrow_c_array__(self, requested_schema: object = None) -> tuple[object, object]:
        """This table for what reads Arrow: capsules of an ArrowSchema and of an ArrowArray, a struct with a child for each
        column.

        Latitudes and longitudes are int64, in nanodegrees; times are timestamps in milliseconds; texts are dictionaries of
        large_utf8, and lists large_list of int64. What stands in arrays of this table isn't copied, and they stay alive as long
        as the consumer needs them. The requested schema isn't heeded.
        """
        fields = self._fields()
        return _arrow.schema_capsule(fields), _arrow.array_capsule(fields)

    def __arrow_c_stream__(self, requested_schema: object = None) -> object:
        """This table as a stream of one batch: a capsule of an ArrowArrayStream."""
        fields = self._fields()
        return _arrow.stream_capsule(fields, iter([fields]))


def _of_number(field: Field) -> Any:
    return field.items


def _of_optional(field: Field) -> Any:
    import pandas

    return pandas.arrays.IntegerArray(field.items, _missing(field))


def _of_place(field: Field) -> Any:
    degrees = field.items / 1e9
    if field.valid is not None:
        degrees[~field.valid] = np.nan
    return degrees


def _of_time(field: Field) -> Any:
    return field.items.view("datetime64[ms]")


def _of_flag(field: Field) -> Any:
    import pandas

    return pandas.arrays.BooleanArray(field.items == 1, _missing(field))


def _of_kind(field: Field) -> Any:
    import pandas

    return pandas.Categorical.from_codes(field.items.view(np.int8), list(KINDS))


def _of_text(field: Field) -> Any:
    import pandas

    codes, used = used_texts(field.items, field.more)
    return pandas.Categorical.from_codes(codes, used)


_SERIES = {
    "number": _of_number,
    "optional": _of_optional,
    "place": _of_place,
    "time": _of_time,
    "flag": _of_flag,
    "kind": _of_kind,
    "text": _of_text,
}


def _missing(field: Field) -> NDArray[np.bool_]:
    return np.zeros(len(field.items), np.bool_) if field.valid is None else ~field.valid


def used_texts(indexes: NDArray[np.int32], texts: Texts) -> tuple[NDArray[np.int32], list[str]]:
    """The texts that these indexes name, each once, and the indexes among them; -1 stays."""
    is_used = np.zeros(len(texts) + 1, np.bool_)
    is_used[indexes] = True
    is_used[-1] = False
    used = np.flatnonzero(is_used)
    number: dict[str, int] = {}
    codes = np.full(len(texts) + 1, -1, np.int32)
    codes[used] = [number.setdefault(texts[i], len(number)) for i in used.tolist()]
    return codes[indexes], list(number)
