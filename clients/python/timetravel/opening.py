"""What a session is opened with: by its tables rows are written and read."""

from __future__ import annotations

from collections.abc import Iterable, Mapping
from dataclasses import asdict
from functools import partial
from typing import Any

from . import answers, requests
from .answers import Changes, Decode, Differences, Previewed, Selected, Slots, Trial
from .stamps import Clock
from .tables import Row, Table, in_order, row_of


VERSION = 4    # of the lines that are sent
_WRITES = "insert", "update", "delete", "do"


class Opening:
    """The line that opens a session, the lines of its requests, and how their answers are read."""

    def __init__(self, tables: Iterable[Table | Mapping[str, Any]], keep: int | None,
                 records: int | None, clock: Clock | None, reads: str | None = None) -> None:
        declared = [asdict(table) if isinstance(table, Table) else dict(table) for table in tables]
        members: dict[str, object] = {"version": VERSION, "tables": declared}
        if keep is not None:
            members["keep"] = keep
        if records is not None:
            members["records"] = records
        self.line = requests.line(members)
        self.reads = None if reads is None else requests.line({"read": reads})    # a line before it
        self._clock = clock    # of the writes that aren't given a stamp
        self._beginners: set[object] = set()    # the workers who have begun a repair here
        self._rows: dict[str, type[Row]] = {}
        self._selected: dict[str, Decode[Selected]] = {}
        self._previewed: dict[str, Decode[Previewed]] = {}
        # How answers are read that have rows of several tables.
        self.slots: Decode[Slots] = partial(answers.slots, self._rows)
        self.changes: Decode[Changes] = partial(answers.changes, self._rows)
        self.differences: Decode[Differences] = partial(answers.differences, self._rows)
        self.trial: Decode[Trial] = partial(answers.trial, self._rows)
        self._of_tables: dict[str, Decode[Any]] = {
            "slots": self.slots, "changes": self.changes, "diff": self.differences, "would": self.trial}
        for table in declared:
            self._know(table)

    def _know(self, table: Mapping[str, Any]) -> None:
        """Knows a table by its name. One that is no table is for the program to refuse."""
        try:
            name, row = table["name"], row_of(tuple(str(column["name"]) for column in table["columns"]))
            self._rows[name] = row
        except (LookupError, TypeError):
            return
        self._selected[name] = partial(answers.selected, row)
        self._previewed[name] = partial(answers.previewed, row)

    def request(self, members: Mapping[str, Any], worker: int | None, if_time: int | None,
                stamp: int | None = None) -> bytes:
        """A request as a line. Raises `ValueError` or `TypeError` for what a line can't carry, and what the
        clock raises.

        What a worker who has begun a repair here asks of one is meant for this worker's. A write without a
        stamp gets one of the clock, where there is one.
        """
        if "insert" in members:
            if type(members.get("row")) is not list:
                members = self._write(members)
        elif "do" in members:
            members = self._action(members)
        elif "begin" in members:
            self._beginners.add(_worker(members, worker))
            members = self._edits("begin", members)
        elif "would" in members:
            members = self._edits("would", members)
        elif "of" not in members and ("step" in members or "finish" in members or "abort" in members):
            worker_of_it = _worker(members, worker)
            if worker_of_it in self._beginners:
                members = {**members, "of": worker_of_it}
        if "stamp" not in members:
            if stamp is None and self._clock is not None and any(kind in members for kind in _WRITES):
                stamp = self._clock()
            if stamp is not None:
                members = {**members, "stamp": stamp}
        if if_time is not None:
            members = {"if": if_time, **members}
        if worker is not None:
            members = {"worker": worker, **members}
        return requests.line(members)

    def _edits(self, kind: str, members: Mapping[str, Any]) -> Mapping[str, Any]:
        edits = members[kind]
        if not isinstance(edits, (list, tuple)):
            return members
        return {**members, kind: [self._edit(edit) for edit in edits]}

    def _action(self, members: Mapping[str, Any]) -> Mapping[str, Any]:
        writes = members["do"]
        if not isinstance(writes, (list, tuple)):
            return members
        return {**members, "do": [self._write(write) for write in writes]}

    def _edit(self, edit: Any) -> Any:
        by = edit.get("by") if isinstance(edit, Mapping) else None
        if not isinstance(by, Mapping):
            return edit
        return {**edit, "by": self._action(by) if "do" in by else self._write(by)}

    def _write(self, write: Any) -> Any:
        """A write whose row, where it names its columns, is a list of values."""
        row = write.get("row") if isinstance(write, Mapping) else None
        if not isinstance(row, Mapping) or "insert" not in write:
            return write
        table = write["insert"]
        if not isinstance(table, str) or table not in self._rows:
            raise ValueError(f"the session has no table {table}")
        return {**write, "row": in_order(table, self._rows[table].places, row)}

    def selected(self, table: str) -> Decode[Selected]:
        """How an answer to a select from this table is read."""
        return self._selected.get(table, _plainly_selected)

    def previewed(self, table: str) -> Decode[Previewed]:
        """How an answer to a preview of this table is read."""
        return self._previewed.get(table, _plainly_previewed)

    def decode(self, members: Mapping[str, Any]) -> Decode[Any]:
        """How an answer to this request is read. The kind of a request is the first of these it has."""
        for kind, decode in _DECODE.items():
            if kind in members:
                if kind == "select" and isinstance(members["select"], str):
                    return self.selected(members["select"])
                if kind == "preview" and isinstance(members["preview"], str):
                    return self.previewed(members["preview"])
                return self._of_tables.get(kind, decode)
        return _refused


def _worker(members: Mapping[str, Any], worker: int | None) -> int | None:
    """In whose name a request is made; None where that is no worker."""
    found = members.get("worker", 1 if worker is None else worker)
    return found if type(found) is int else None


def _refused(members: Mapping[str, Any]) -> Any:
    raise ValueError("an answer to what is no request")


_plainly_selected: Decode[Selected] = partial(answers.selected, Row)
_plainly_previewed: Decode[Previewed] = partial(answers.previewed, Row)

# The kinds of requests, in the order in which the program looks for them.
_DECODE: dict[str, Decode[Any]] = {
    "insert": answers.written, "update": answers.written, "delete": answers.written,
    "select": _plainly_selected, "preview": _plainly_previewed, "do": answers.written,
    "begin": answers.stepped, "step": answers.stepped, "finish": answers.switched,
    "abort": answers.status, "status": answers.status, "slots": partial(answers.slots, {}),
    "changes": partial(answers.changes, {}), "tables": answers.tables, "why": answers.causes,
    "diff": partial(answers.differences, {}), "would": partial(answers.trial, {}),
    "forget": answers.status}
