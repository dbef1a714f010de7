"""Requests, for `Session.send`, and how they are written as lines. The writes are for `do` and
`replace`, too."""

from __future__ import annotations

import json
from collections.abc import Callable, Iterable, Iterator, Mapping, Sequence
from dataclasses import dataclass
from typing import Any, Literal, TypedDict, Union, overload

from .tables import Row, Value


PAGE = 1000    # entries of a list that is asked for in pages, if it isn't said otherwise
SPAN = 10_000    # slots that one request may ask for


@dataclass(frozen=True)
class Compared:
    """How a column compares with a value: `is_not`, `below`, `at_most`, `above` and `at_least` make it."""
    how: Literal["=", "!=", "<", "<=", ">", ">="]
    value: Value


Condition = Union[Value, Compared]    # a plain value is the one that a column has
# A column and its condition; or, as answers have it, a column, how it compares, and with what.
Pair = Union[tuple[str, Condition], tuple[str, str, Value], list[Value], list[Condition]]
Where = Union[Mapping[str, Condition], Sequence[Pair], Iterator[Pair]]
Change = tuple[Literal["set", "add"], str, Value]
NewRow = Union[Sequence[Value], Mapping[str, Value]]    # in the columns' order, or by their names


class Write(TypedDict, total=False):
    """One insert, update or delete, as the functions below make it, and as the answers of slots have it.
    In a request `row` may be any list of values, or a dict of columns."""
    insert: str
    row: Row
    update: str
    delete: str
    change: list[list[Value]]    # a list of a Change
    where: list[list[Value]]    # a list of a column, perhaps how it compares, and a value


class _DoRequest(TypedDict):
    do: list[Write]


class DoRequest(_DoRequest, total=False):
    """Some writes as one slot."""
    whole: bool


class Edit(TypedDict, total=False):
    """What a repair does to one slot."""
    cancel: int
    replace: int
    by: Union[Write, DoRequest]


class _SelectRequest(TypedDict):
    select: str
    where: list[list[Value]]


class _PreviewRequest(TypedDict):
    preview: str
    where: list[list[Value]]


# What a select may have besides. `in` can't be written as a member of a class.
_Bounds = TypedDict("_Bounds", {"at": int, "in": int, "after": int, "most": int}, total=False)


class SelectRequest(_SelectRequest, _Bounds):
    """The rows of a table."""


class PreviewRequest(_PreviewRequest, total=False):
    """The rows of a table as a repair has rebuilt them."""
    after: int
    most: int


class BeginRequest(TypedDict):
    """The begin of a repair."""
    begin: list[Edit]


class _StepRequest(TypedDict):
    step: int


class StepRequest(_StepRequest, total=False):
    """The next slots of a repair."""
    of: int    # the worker who has begun it


class _FinishRequest(TypedDict):
    finish: Literal[True]


class FinishRequest(_FinishRequest, total=False):
    """The end of a repair, by which its data become the current ones."""
    of: int


class _AbortRequest(TypedDict):
    abort: Literal[True]


class AbortRequest(_AbortRequest, total=False):
    """The end of a repair that is given up."""
    of: int


class StatusRequest(TypedDict):
    """The current time, and what belongs to it."""
    status: Literal[True]


class _SlotsRequest(TypedDict):
    slots: list[int]


class SlotsRequest(_SlotsRequest, total=False):
    """Slots, with what was written in them."""
    of: int
    row: list[Value]    # a table and a key
    stamps: list[int]    # the least and the greatest stamp


class _ChangesRequest(TypedDict):
    changes: Literal["now", "next"]


class ChangesRequest(_ChangesRequest, total=False):
    """The answers that are others now."""
    of: int    # the worker of the requests
    only: Literal["writes", "reads"]
    after: int    # a call
    most: int
    asked: bool    # whether they are told with what was asked for


class _WhyRequest(TypedDict):
    why: Literal[True]


# Of which repair it is asked, and of which slots.
_WhyBounds = TypedDict("_WhyBounds", {"in": int, "after": int, "most": int}, total=False)


class WhyRequest(_WhyRequest, _WhyBounds):
    """Why a repair has re-executed its slots."""


class _DiffRequest(TypedDict):
    diff: Literal[True]


# Of which repair it is asked, and of which rows: those behind a table and a key.
_DiffBounds = TypedDict("_DiffBounds", {"in": int, "after": list[Value], "most": int}, total=False)


class DiffRequest(_DiffRequest, _DiffBounds):
    """Which rows differ between the generations of a repair."""


class WouldRequest(TypedDict):
    """What a repair with these edits would come to."""
    would: list[Edit]


class TablesRequest(TypedDict):
    """The opening of the session."""
    tables: Literal[True]


class ForgetRequest(TypedDict):
    """The time before which all is forgotten."""
    forget: int


# Making them

def insert(table: str, row: NewRow) -> Write:
    """A new row: its values in the columns' order, or all of them by their columns' names. It changes
    nothing, and is a duplicate, where the table has a row with that key.

    Raises `TypeError` for a row that is neither.
    """
    return {"insert": table, "row": _copied(row)}


def _copied(row: NewRow) -> Any:
    if type(row) is list:
        return row.copy()
    if isinstance(row, Mapping):
        return dict(row)
    if isinstance(row, (str, bytes, set, frozenset)):
        raise TypeError(f"a row is a list of values, or a dict of columns, and no {type(row).__name__}")
    return list(row)


@overload
def update(table: str, change: Iterable[Change], where: Where) -> Write: ...


@overload
def update(table: str, where: Where, /, *, set: Mapping[str, Value] = ...,
           add: Mapping[str, int] = ...) -> Write: ...


@overload
def update(table: str, *, where: Where, set: Mapping[str, Value] = ...,
           add: Mapping[str, int] = ...) -> Write: ...


def update(table: str, change: Any = None, where: Any = None, *, set: Mapping[str, Value] | None = None,
           add: Mapping[str, int] | None = None) -> Write:
    """Changes of the rows that match: either `set` and `add`, which have the columns and what each is set
    to, or what is added to it; or a list of ("set", column, value) and ("add", column, number).

        update("acct", {"id": 1}, set={"owner": "ann"}, add={"bal": -5})
        update("acct", [("set", "owner", "ann"), ("add", "bal", -5)], {"id": 1})

    `where` is empty for every row. It is a dict of columns, or a list of pairs, in which a column may stand
    twice; each column has to have the value, or to compare so (`at_least` and its like). Raises `TypeError`
    where it or the changes are missing.
    """
    if set is not None or add is not None:
        if change is not None and where is not None:
            raise TypeError("an update takes a list of changes, or set= and add=, not both")
        where = change if where is None else where
        change = [*(("set", *each) for each in (set or {}).items()),
                  *(("add", *each) for each in (add or {}).items())]
    if change is None or where is None:
        raise TypeError("an update needs its changes and where=, which is empty for every row")
    if isinstance(change, Mapping):
        raise TypeError("the changes of an update are a list; a dict is for set= or add=")
    return {"update": table, "change": [list(each) for each in change], "where": pairs(where)}


def is_not(value: Value) -> Compared:
    """The condition that a column has another value, in a `where`.

        delete("acct", {"owner": is_not("ann")})
    """
    return Compared("!=", value)


def below(value: Value) -> Compared:
    """The condition that a column has a value less than this one, in a `where`.

    Numbers compare as numbers, and texts by their bytes in UTF-8.
    """
    return Compared("<", value)


def at_most(value: Value) -> Compared:
    """The condition that a column has this value or one that is less, in a `where`."""
    return Compared("<=", value)


def above(value: Value) -> Compared:
    """The condition that a column has a value greater than this one, in a `where`.

        select("acct", [("id", above(1)), ("id", below(9))])
    """
    return Compared(">", value)


def at_least(value: Value) -> Compared:
    """The condition that a column has this value or one that is greater, in a `where`.

        update("acct", where={"id": 1, "bal": at_least(8)}, add={"bal": -8})
    """
    return Compared(">=", value)


def delete(table: str, where: Where) -> Write:
    """The rows that match go."""
    return {"delete": table, "where": pairs(where)}


def do(writes: Iterable[Write], *, whole: bool = False) -> DoRequest:
    """Up to 16 writes as one slot, at one time.

        do([update("acct", where={"id": 1, "bal": at_least(8)}, add={"bal": -8}),
            insert("acct", [2, "bob", 8])], whole=True)

    Where they are whole, either each of them has an effect, or nothing is written: the first one that has
    none, since its key is there or no row matches, ends the action and takes back what those before it
    have written. It is so in a repair, too.
    """
    request: DoRequest = {"do": list(writes)}
    if whole:
        request["whole"] = True
    return request


def _bound(request: SelectRequest | PreviewRequest | ChangesRequest | WhyRequest, after: int | None,
           most: int | None) -> None:
    """Asks for one page of what is told."""
    if after is not None:
        request["after"] = after
    if most is not None:
        request["most"] = most


def select(table: str, where: Where = (), *, at: int | None = None, generation: int | None = None,
           after: int | None = None, most: int | None = None) -> SelectRequest:
    """The rows that match, now or at a time."""
    request: SelectRequest = {"select": table, "where": pairs(where)}
    if at is not None:
        request["at"] = at
    if generation is not None:
        request["in"] = generation
    _bound(request, after, most)
    return request


def preview(table: str, where: Where = (), *, after: int | None = None,
            most: int | None = None) -> PreviewRequest:
    """The rows that match, as the repair under way has rebuilt them so far."""
    request: PreviewRequest = {"preview": table, "where": pairs(where)}
    _bound(request, after, most)
    return request


def cancel(slot: int) -> Edit:
    """The edit by which a slot writes nothing."""
    return {"cancel": slot}


def replace(slot: int, by: Write | DoRequest) -> Edit:
    """The edit by which a slot makes another write, or the writes of a `do`."""
    return {"replace": slot, "by": by}


def step(slots: int, of: int | None) -> StepRequest:
    """The next slots of a repair, of a worker's."""
    return {"step": slots} if of is None else {"step": slots, "of": of}


def finish(of: int | None) -> FinishRequest:
    """The end of a repair, of a worker's."""
    return {"finish": True} if of is None else {"finish": True, "of": of}


def abort(of: int | None) -> AbortRequest:
    """The end of a repair that is given up, of a worker's."""
    return {"abort": True} if of is None else {"abort": True, "of": of}


def slots(first: int, last: int, of: int | None, row: tuple[str, int] | None,
          stamps: tuple[int, int] | None) -> SlotsRequest:
    """The slots from `first` to `last`, of a worker, of a row, with stamps from one to another."""
    request: SlotsRequest = {"slots": [first, last]}
    if of is not None:
        request["of"] = of
    if row is not None:
        request["row"] = list(row)
    if stamps is not None:
        request["stamps"] = list(stamps)
    return request


def changes(which: Literal["now", "next"], of: int | None, only: Literal["writes", "reads"] | None,
            after: int | None, most: int | None, asked: bool) -> ChangesRequest:
    """The answers that are others now, or will be after the repair: those to requests of a worker, or of a
    kind; and whether they are told with what was asked for."""
    request: ChangesRequest = {"changes": which}
    if of is not None:
        request["of"] = of
    if only is not None:
        request["only"] = only
    _bound(request, after, most)
    if asked:
        request["asked"] = True
    return request


def why(generation: int | None, after: int | None, most: int | None) -> WhyRequest:
    """Why the repair under way, or the one that closed a generation, has re-executed its slots."""
    request: WhyRequest = {"why": True}
    if generation is not None:
        request["in"] = generation
    _bound(request, after, most)
    return request


def diff(generation: int | None, after: tuple[str, int] | None, most: int | None) -> DiffRequest:
    """Which rows differ between the generations of the repair under way, or of the one that closed a
    generation."""
    request: DiffRequest = {"diff": True}
    if generation is not None:
        request["in"] = generation
    if after is not None:
        request["after"] = list(after)
    if most is not None:
        request["most"] = most
    return request


def pairs(where: Where) -> list[list[Value]]:
    """The conditions as a line has them."""
    if type(where) is dict or isinstance(where, Mapping):
        return [_condition(pair) for pair in where.items()]
    return [_condition(pair) for pair in where]


def _condition(pair: Iterable[Any]) -> list[Value]:
    condition = list(pair)
    if condition and type(condition[-1]) is Compared:
        condition[-1:] = condition[-1].how, condition[-1].value
    return condition


# Lines

_encoder: Any = json.encoder    # with `encode_basestring`, which some type checkers don't know of it
_quoted: Callable[[str], str] = _encoder.encode_basestring


def line(members: Mapping[str, object]) -> bytes:
    """A request as a line. Raises `TypeError` or `ValueError` for what JSON can't carry to the database:
    they name its place."""
    try:
        return (_text(members) + "\n").encode()
    except (TypeError, ValueError):
        _check(members, "$")
        raise


def _text(value: Any) -> str:
    kind = type(value)
    if kind is str:
        return _quoted(value)
    if kind is int:
        if -0x8000000000000000 <= value <= 0x7fffffffffffffff:
            return repr(value)
        raise ValueError("a number that does not fit 64 bits")
    if kind is list or kind is tuple:
        return "[" + ",".join([_text(item) for item in value]) + "]"
    if kind is dict:
        return "{" + ",".join([_quoted(name) + ":" + _text(item) for name, item in value.items()]) + "}"
    if kind is bool:
        return "true" if value else "false"
    return _text(_plain(value))


def _plain(value: Any) -> Any:
    """A value of a class that stands below those that JSON knows, as one of these."""
    for kind in (str, int, list, tuple):
        if isinstance(value, kind):
            return kind(value) if kind is not str else str.__str__(value)
    if isinstance(value, Mapping):
        return dict(value)
    raise TypeError(f"{type(value).__name__} is neither a whole number nor a text")


def _check(value: Any, path: str) -> None:
    """Names the place of what a line can't carry to the database."""
    if isinstance(value, bool):
        return
    if isinstance(value, str):
        try:
            value.encode()
        except UnicodeEncodeError:
            raise ValueError(f"{path}: a text that is not UTF-8") from None
    elif isinstance(value, int):
        if not -2**63 <= value < 2**63:
            raise ValueError(f"{path}: a number that does not fit 64 bits")
    elif isinstance(value, (list, tuple)):
        for index, item in enumerate(value):
            _check(item, f"{path}[{index}]")
    elif isinstance(value, Mapping):
        for name, item in value.items():
            if not isinstance(name, str):
                raise TypeError(f"{path}: a name that is a {type(name).__name__}")
            _check(name, path)
            _check(item, f"{path}.{name}")
    else:
        raise TypeError(f"{path}: {type(value).__name__} is neither a whole number nor a text")
