"""Tables, their columns, and rows."""

from __future__ import annotations

from collections.abc import Iterable, Mapping, Sequence
from dataclasses import dataclass
from functools import lru_cache
from typing import Any, ClassVar, Literal, SupportsIndex, Union, overload

Value = Union[int, str]


@dataclass(frozen=True)
class Column:
    """A column. `partition` lets a repair pass over the writes to other values of this column."""
    name: str
    kind: Literal["int", "text"]
    partition: bool = False


@dataclass(frozen=True)
class Table:
    """A table. Its first column is of kind "int", and holds the key."""
    name: str
    columns: Sequence[Column]


class Row(list[Value]):
    """The values of a row, in the order of its table's columns: a list whose values can be had by their
    columns' names, too. `dict(row)` has both.

    The rows of `changes` have no names, since its answer doesn't tell their table.
    """

    __slots__ = ()
    places: ClassVar[Mapping[str, int]] = {}    # where each column stands

    @overload
    def __getitem__(self, place: SupportsIndex | str) -> Value: ...

    @overload
    def __getitem__(self, place: slice) -> list[Value]: ...

    def __getitem__(self, place: SupportsIndex | str | slice) -> Value | list[Value]:
        """A value by its place or by the name of its column. Raises `IndexError` or `KeyError`."""
        if isinstance(place, str):
            try:
                return list.__getitem__(self, self.places[place])
            except KeyError:
                known = ", ".join(self.places) or "no names of columns"
                raise KeyError(f"no column {place}: there are {known}") from None
        return list.__getitem__(self, place)

    def keys(self) -> list[str]:
        """The names of the columns, in their order."""
        return list(self.places)

    def __reduce__(self) -> tuple[Any, ...]:
        return _row, (tuple(self.places), list(self))


@lru_cache(maxsize=1024)
def row_of(names: tuple[str, ...]) -> type[Row]:
    """The class of the rows of a table with these columns."""
    places = {name: place for place, name in enumerate(names)}
    return type("Row", (Row,), {"__slots__": (), "__module__": Row.__module__, "places": places})


def _row(names: tuple[str, ...], values: Iterable[Value]) -> Row:
    return row_of(names)(values) if names else Row(values)


def in_order(table: str, places: Mapping[str, int], row: Mapping[str, Value]) -> list[Value]:
    """The values of a row that names its columns. Raises `ValueError` where one is missing or unknown."""
    for name in row:
        if name not in places:
            raise ValueError(f"table {table} has no column {name}")
    for name in places:
        if name not in row:
            raise ValueError(f"a row for table {table} has no value for column {name}")
    return [row[name] for name in places]
