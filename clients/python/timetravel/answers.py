"""Answers, and how they are read from their lines.

`call` is the number of the request; that of the opening is 0. A session that starts again on its log numbers
the log's lines anew, so keep the slot of a write to find it again, and not its call.
"""

from __future__ import annotations

import json
from collections.abc import Callable, Mapping
from dataclasses import dataclass
from typing import Any, Literal, TypeVar, Union

from .errors import REFUSALS, Error, Fault, Lost, Refused
from .requests import Write
from .tables import Column, Row, Table, Value


@dataclass(frozen=True)
class Reply:
    """What one write did: "inserted", "duplicate", or "updated" or "deleted" with a count of rows."""
    kind: str
    count: int | None = None

    def __str__(self) -> str:
        return self.kind if self.count is None else f"{self.kind} {self.count}"


@dataclass(frozen=True)
class Written:
    """The slot of an action, and the replies to its writes. Of a whole action that has written nothing
    these are the replies up to the first write that had no effect: what each did before it was taken
    back."""
    call: int
    slot: int
    replies: list[Reply]

    @property
    def done(self) -> bool:
        """Whether a whole action was carried out: False where its last reply is "duplicate", "updated 0"
        or "deleted 0", and it has written nothing.

        It is told by the last reply alone, of whatever action. Of a single write it is therefore whether
        it had an effect; of a `do` that isn't whole, only whether the last of its writes had one.
        """
        return not self.replies or self.replies[-1].kind != "duplicate" and self.replies[-1].count != 0


@dataclass(frozen=True)
class Selected:
    """Rows by rising key at a time. `more` is None where no `most` was given."""
    call: int
    time: int
    rows: list[Row]
    more: bool | None = None


@dataclass(frozen=True)
class Previewed:
    """Rows as the repair has rebuilt them, with `done` slots done."""
    call: int
    done: int
    rows: list[Row]
    more: bool | None = None


@dataclass(frozen=True)
class Progress:
    """How many slots of a repair are done, how many are left, how many of those done were re-executed."""
    done: int
    left: int
    rerun: int


@dataclass(frozen=True)
class Stepped(Progress):
    """Where a repair is after `begin` or `step`."""
    call: int


@dataclass(frozen=True)
class Repair(Progress):
    """The repair under way, and the worker who began it."""
    worker: int


@dataclass(frozen=True)
class Switched:
    """The end of a repair: the generation that is now the current one, its slots, those re-executed."""
    call: int
    generation: int
    slots: int
    rerun: int


@dataclass(frozen=True)
class Status:
    """The current time and generation, the oldest generation that is kept, and the repair under way.
    What lies before the time `horizon` is forgotten."""
    call: int
    time: int
    generation: int
    oldest: int
    entries: int
    repair: Repair | None
    horizon: int = 0


@dataclass(frozen=True)
class Slot:
    """A slot of the current generation. `do` and `replies` are None where a repair has cancelled it;
    `asked` has the writes that were asked for, where a repair has cancelled or replaced them. Where the
    session has forgotten since, `asked` is None, and of a cancelled slot `do` and `replies` are empty.
    `whole` and `asked_whole` tell whether `do` and `asked` are whole; two actions may differ in this
    alone. `stamp` is the one that the write was sent with, and None where it had none."""
    slot: int
    worker: int
    do: list[Write] | None
    replies: list[Reply] | None
    asked: list[Write] | None = None
    whole: bool = False
    asked_whole: bool = False
    stamp: int | None = None


@dataclass(frozen=True)
class Slots:
    """Slots by rising number, and the current time."""
    call: int
    time: int
    slots: list[Slot]


@dataclass(frozen=True)
class ChangedWrite:
    """A write whose replies are others now. `after` is None where its slot is cancelled, or empty where the
    session has forgotten since. If it was `asked` for, `worker` and `do` have whose write it is and what its
    action was asked to do, and `whole` tells whether that is whole; otherwise these two are None."""
    call: int
    slot: int
    before: list[Reply]
    after: list[Reply] | None
    worker: int | None = None
    do: list[Write] | None = None
    whole: bool = False


@dataclass(frozen=True)
class ChangedSelect:
    """A select whose rows are others now. If it was `asked` for, `worker`, `table` and `where` have whose
    select it is and what it reads, and the rows have names of columns; otherwise these three are None, and
    the rows have no names."""
    call: int
    time: int
    before: list[Row]
    after: list[Row]
    worker: int | None = None
    table: str | None = None
    where: list[list[Value]] | None = None


@dataclass(frozen=True)
class Changes:
    """The changed replies by rising call. Records are kept of `first_call` and of later calls. `more` is
    None where no `most` was given."""
    call: int
    first_call: int
    changed: list[ChangedWrite | ChangedSelect]
    more: bool | None = None


@dataclass(frozen=True)
class Redone:
    """A slot that a repair has re-executed, and why: "edited"; "wrote", since it touched a row; "names",
    since one of its writes names the key of a row; "reads", since one reads the rows with a value in a
    column; "scans", since one reads all of a table. What is named got dirty with the slot `since`, which
    was re-executed, too. What a cause doesn't name is None."""
    slot: int
    because: Literal["edited", "wrote", "names", "reads", "scans"]
    table: str | None = None
    key: int | None = None
    column: str | None = None
    value: Value | None = None
    since: int | None = None


@dataclass(frozen=True)
class Causes:
    """The re-executed slots of a repair by rising number, of the `done` slots that it has done. `more` is
    None where no `most` was given."""
    call: int
    done: int
    redone: list[Redone]
    more: bool | None = None


@dataclass(frozen=True)
class Difference:
    """A row that differs by a repair: `before` is the row of this key without the repair, `after` the one
    with it, and None stands for no row."""
    table: str
    key: int
    before: Row | None
    after: Row | None


@dataclass(frozen=True)
class Differences:
    """The rows that differ after the `done` slots that a repair has done, in the order of the tables, and
    then by rising key. `more` is None where no `most` was given."""
    call: int
    done: int
    diff: list[Difference]
    more: bool | None = None


@dataclass(frozen=True)
class Trial:
    """What a repair would come to: how many slots it would do, and how many of these re-execute; the
    re-executed slots with their causes; the replies that it would change; and the rows that would differ.
    Of a dry run by `repair`, `call` is that of its beginning."""
    call: int
    slots: int
    rerun: int
    redone: list[Redone]
    changed: list[ChangedWrite | ChangedSelect]
    diff: list[Difference]


@dataclass(frozen=True)
class Tables:
    """The opening of this session, with every member."""
    call: int
    version: int
    tables: list[Table]
    keep: int
    records: int


Answer = Union[Written, Selected, Previewed, Stepped, Switched, Status, Slots, Changes, Tables, Causes,
               Differences, Trial]

# Lines

Members = dict[str, Any]    # of an answer, as JSON has them
AnswerType = TypeVar("AnswerType")
Decode = Callable[[Members], AnswerType]    # how the answers of a kind are read

_json = json.JSONDecoder().raw_decode


def members_of(line: bytes) -> Members:
    """The members of an answer. Raises `ValueError` where the line isn't an object of JSON."""
    text = line.decode()
    members, end = _json(text)
    if end != len(text) and text[end:].strip() or type(members) is not dict:
        raise ValueError("not an object")
    return members


def error_of(members: Members) -> Error | None:
    """What is to be raised in place of returning this answer."""
    if "fault" in members:
        fault = members["fault"]
        return Fault(fault["path"], fault["cause"], members.get("call", 0))
    if "refused" in members:
        cause = members["refused"]
        told = {name: value for name, value in members.items() if name not in ("call", "refused")}
        return REFUSALS.get(cause, Refused)(cause, members.get("call", 0), **told)
    if "lost" in members:
        return Lost(None, members["lost"])    # A server tells that its program has ended.
    return None


# A reply can't be changed, so one of a kind is enough.
_REPLIES = {kind: Reply(kind) for kind in ("inserted", "duplicate")}


def _reply(found: Any) -> Reply:
    if isinstance(found, str):
        return _REPLIES.get(found) or Reply(found)
    (kind, count), = found.items()
    return Reply(kind, count)


def _replies(found: list[Any]) -> list[Reply]:
    return [_reply(reply) for reply in found]


def written(found: Members) -> Written:
    return Written(found["call"], found["slot"], _replies(found["replies"]))


def selected(row: type[Row], found: Members) -> Selected:
    return Selected(found["call"], found["time"], list(map(row, found["rows"])), found.get("more"))


def previewed(row: type[Row], found: Members) -> Previewed:
    return Previewed(found["call"], found["done"], list(map(row, found["rows"])), found.get("more"))


def stepped(found: Members) -> Stepped:
    return Stepped(found["done"], found["left"], found["rerun"], found["call"])


def switched(found: Members) -> Switched:
    return Switched(found["call"], found["generation"], found["slots"], found["rerun"])


def status(found: Members) -> Status:
    repair = found["repair"]
    under_way = None if repair is None else Repair(repair["done"], repair["left"], repair["rerun"],
                                                   repair["worker"])
    return Status(found.get("call", 0), found["time"], found["generation"], found["oldest"],
                  found["entries"], under_way, found.get("horizon", 0))


def reads(found: Members) -> None:
    """The answer to a choice of where a connection reads, which only tells it again."""
    _ = found["reads"]


def slots(rows: Mapping[str, type[Row]], found: Members) -> Slots:
    return Slots(found["call"], found["time"], [_slot(rows, each) for each in found["slots"]])


def _slot(rows: Mapping[str, type[Row]], found: Members) -> Slot:
    replies = None if found["replies"] is None else _replies(found["replies"])
    return Slot(found["slot"], found["worker"], _writes(rows, found["do"]), replies,
                _writes(rows, found.get("asked")), found.get("whole", False), found.get("asked_whole", False),
                found.get("stamp"))


def _writes(rows: Mapping[str, type[Row]], found: list[Any] | None) -> list[Write] | None:
    for write in found or ():
        if "insert" in write:
            write["row"] = rows.get(write["insert"], Row)(write["row"])
    return found


def changes(rows: Mapping[str, type[Row]], found: Members) -> Changes:
    return Changes(found["call"], found["from"], [_changed(rows, each) for each in found["changed"]],
                   found.get("more"))


def _changed(rows: Mapping[str, type[Row]], found: Members) -> ChangedWrite | ChangedSelect:
    if "time" in found:
        row = rows.get(found.get("select", ""), Row)
        return ChangedSelect(found["call"], found["time"], list(map(row, found["before"])),
                             list(map(row, found["after"])), found.get("worker"), found.get("select"),
                             found.get("where"))
    after = None if found["after"] == "cancelled" else _replies(found["after"])
    return ChangedWrite(found["call"], found["slot"], _replies(found["before"]), after, found.get("worker"),
                        _writes(rows, found.get("do")), found.get("whole", False))


def causes(found: Members) -> Causes:
    return Causes(found["call"], found["done"], [_redone(each) for each in found["redone"]],
                  found.get("more"))


def _redone(found: Members) -> Redone:
    return Redone(found["slot"], found["because"], found.get("table"), found.get("key"), found.get("column"),
                  found.get("value"), found.get("since"))


def differences(rows: Mapping[str, type[Row]], found: Members) -> Differences:
    return Differences(found["call"], found["done"], [_difference(rows, each) for each in found["diff"]],
                       found.get("more"))


def _difference(rows: Mapping[str, type[Row]], found: Members) -> Difference:
    row, before, after = rows.get(found["table"], Row), found["before"], found["after"]
    return Difference(found["table"], found["key"], None if before is None else row(before),
                      None if after is None else row(after))


def trial(rows: Mapping[str, type[Row]], found: Members) -> Trial:
    return Trial(found["call"], found["slots"], found["rerun"], [_redone(each) for each in found["redone"]],
                 [_changed(rows, each) for each in found["changed"]],
                 [_difference(rows, each) for each in found["diff"]])


def tables(found: Members) -> Tables:
    return Tables(found["call"], found["version"], [_table(each) for each in found["tables"]],
                  found["keep"], found["records"])


def _table(found: Members) -> Table:
    return Table(found["name"], [Column(column["name"], column["kind"], column["partition"])
                                 for column in found["columns"]])
