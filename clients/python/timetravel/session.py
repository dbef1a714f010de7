"""A session that waits for its answers, or gives futures of them."""

from __future__ import annotations

import math
import os
from collections.abc import Callable, Iterable, Iterator, Mapping, Sequence
from concurrent.futures import Future
from threading import Lock
from typing import Any, Literal, TypeVar, overload

from . import answers, requests
from .answers import (
    Causes, Changes, Decode, Differences, Previewed, Progress, Selected, Slot, Slots, Status, Stepped, Switched,
    Tables, Trial, Written)
from .channel import Channel
from .connection import Connection
from .errors import Closed, Error, Forked, NoAnswer, NotRepairing, Refused, RepairOfAnother
from .keeping import Keeping
from .opening import Opening
from .program import Program, of_log
from .requests import PAGE, SPAN, Change, Edit, NewRow, Where, Write
from .stamps import Clock
from .tables import Table, Value
from .told import Told
from .waiting import Deadline, SentFuture, Wait, Waiting, seconds_left

AnswerType = TypeVar("AnswerType")


class Session:
    """A database, in a program of its own or behind a socket. A context manager, which closes it at its
    end.

    Each method sends a request and waits for its answer. Every request takes the `worker` in whose name
    it is made (1 where it isn't given); `if_time`: where this isn't the current time, the request is
    refused as `Moved`; and `timeout`, the seconds that it may take, in place of the session's own
    (`math.inf` for any time). A write also takes a `stamp`, a count that `slots` tells and finds it by;
    without one it gets that of the session's `clock`, where there is one. `send` sends a request without
    waiting.

    Any request raises what isn't said of it again:

    - `ValueError` or `TypeError` for what a line can't carry to the database. It isn't sent. Nor is a write
      for which the `clock` raises something, which is raised.
    - `Fault` where the grammar or the tables don't allow it, and `OutOfMemory`. It has changed nothing.
    - `Moved`, with `if_time`. It has changed nothing.
    - `NoAnswer` where the answer doesn't come in time. The request may still be carried out.
    - `Lost` where the program has ended, `Disconnected` where the connection has: both are `Ended`.
    - `Vanished` where the session that this comes back to, since it was opened again here or started
      again behind the socket, tells an earlier time than it had told. Nothing is sent from then on.
    - `Closed` after `close`, and `Forked` in a child of the process that opened the session.
    """

    def __init__(self, tables: Iterable[Table | Mapping[str, Any]], *, keep: int | None = None,
                 records: int | None = None, log: str | os.PathLike[str] | None = None,
                 reopen: bool = False, keep_slots: int | None = None, clock: Clock | None = None,
                 command: Sequence[str] = ("timetravel", "session"), timeout: float | None = None) -> None:
        """Starts the program and opens the database.

        `keep` is how many closed generations stay readable, `records` of how many answers the session
        keeps a record for `changes`. `timeout` is how many seconds a method waits for its answer, and
        `close` for the program to end, which it is made to do after that; without it they wait for as
        long as the program runs.

        `log` is the path of a file in which the database is kept; what it has already is there, and
        `opened` tells how far that is. It has to be of the same tables and `keep`. With `reopen` a
        program that has ended is started again on its log by the next request; where the log isn't
        there any more, none is made, and the program ends (`Lost`). Whoever waits for an answer when the
        program ends gets `Lost` all the same: the request may be carried out or not. One that had
        `if_time` can be sent again with it.

        With `keep_slots` the session forgets what is old, so that it doesn't get full: after a write at
        least twice so many slots behind the horizon, up to the time of that write less `keep_slots`. The
        line for it is sent beside the requests, and nobody waits for its answer. Where it is refused, as
        during a repair or on a full disk, it is sent again some slots later. Of several clients of one
        session, one is given `keep_slots`.

        `clock` gives the stamps of writes, such as `milliseconds`. It is called once for each write that
        has no `stamp`, before that is sent, by the thread that sends it.

        Raises `NotStarted`, `Lost` where the program ends again, `AnotherOpening`, `Fault`,
        `OutOfMemory`, `NoAnswer`, and `ValueError` or `TypeError` for what a line can't carry.
        """
        if reopen and log is None:
            raise ValueError("only a session with a log can be opened again")

        def start(deadline: Deadline | None, is_again: bool, told: Told) -> Program:
            return Program(of_log(command, log, is_again), log is not None, told)

        self._open(start, Opening(tables, keep, records, clock), reopen, keep_slots, timeout)

    @classmethod
    def connect(cls, socket: str | os.PathLike[str], tables: Iterable[Table | Mapping[str, Any]], *,
                keep: int | None = None, records: int | None = None, reopen: bool = False,
                reads: Literal["log", "replica"] | None = None, keep_slots: int | None = None,
                clock: Clock | None = None, timeout: float | None = None) -> Session:
        """Connects to the Unix socket with this path, and opens the session there, or joins in: it has
        to be of the same tables and `keep`, and `opened` tells what is there.

        With `reopen` the next request connects again after the connection has ended. Whoever waits for
        an answer then gets `Disconnected` all the same. `timeout`, `keep_slots` and `clock` are as for a
        program. `close` ends this connection alone. `reads` is for a replica alone: whether reads go through
        the log, as they do where it isn't given, or are answered by this replica as it is.

        Raises `NotConnected`, `Disconnected`, `AnotherOpening`, `Fault`, `OutOfMemory`, `NoAnswer`, and
        `ValueError` or `TypeError` for what a line can't carry.
        """
        session = cls.__new__(cls)
        session._open(lambda deadline, _, told: Connection(socket, deadline, told),
                      Opening(tables, keep, records, clock, reads), reopen, keep_slots, timeout)
        return session

    def _open(self, make: Callable[[Deadline | None, bool, Told], Channel], opening: Opening, reopens: bool,
              keep_slots: int | None, timeout: float | None) -> None:
        self._make = make
        self._opening = opening
        self._reopens = reopens
        self._keeping = None if keep_slots is None else Keeping(keep_slots)
        self._timeout = timeout
        self._process = os.getpid()
        self._closed = False
        self._told = Told()
        self._sending = Lock()    # held while a line is sent, or the session is opened again
        self._channel = self._start(self._deadline(None), False)

    def _start(self, deadline: Deadline | None, is_again: bool) -> Channel:
        """Starts the program, or connects, and waits until the database is open."""
        channel = self._make(deadline, is_again, self._told)
        try:
            if self._opening.reads is not None:
                chosen: Wait[None] = Wait()
                channel.put(self._opening.reads, answers.reads, chosen, deadline)
                chosen.result(deadline)
            wait: Wait[Status] = Wait()
            channel.put(self._opening.line, answers.status, wait, deadline)
            self.opened: Status = wait.result(deadline)
            if self._keeping is not None:
                self._keeping.note(self.opened)
        except BaseException:
            end = self._deadline(None)
            channel.end_input(end)
            channel.join(end)
            raise
        return channel

    def __enter__(self) -> Session:
        return self

    def __exit__(self, *_: object) -> None:
        self.close()

    @property
    def exit_status(self) -> int | None:
        """The program's exit status; None while it runs, and for a connection."""
        return self._channel.exit_status if isinstance(self._channel, Program) else None

    def close(self) -> None:
        """Ends what is sent. All that was sent is answered; then the program ends, or this connection,
        and this waits for it. A session that is closed stays so. In a child of the process that opened
        the session, this does nothing. Raises nothing."""
        if os.getpid() != self._process:
            return
        self._closed = True
        deadline = self._deadline(None)
        if self._sending.acquire(timeout=seconds_left(deadline)):
            try:
                self._channel.end_input(deadline)
            finally:
                self._sending.release()
        else:
            self._channel.kill()
        self._channel.join(deadline)

    # Writes

    def insert(self, table: str, row: NewRow, *, worker: int | None = None, if_time: int | None = None,
               stamp: int | None = None, timeout: float | None = None) -> Written:
        """Inserts a row: its values in the columns' order, or a dict of all of them by their columns'
        names. Where the table has its key, the reply is "duplicate".

        Raises `ValueError` where a column is missing or unknown, `Full`, and what any request does.
        """
        return self._ask(requests.insert(table, row), answers.written, worker, if_time, timeout, stamp)

    @overload
    def update(self, table: str, change: Iterable[Change], where: Where, *, worker: int | None = None,
               if_time: int | None = None, stamp: int | None = None,
               timeout: float | None = None) -> Written: ...

    @overload
    def update(self, table: str, where: Where, /, *, set: Mapping[str, Value] = ...,
               add: Mapping[str, int] = ..., worker: int | None = None, if_time: int | None = None,
               stamp: int | None = None, timeout: float | None = None) -> Written: ...

    @overload
    def update(self, table: str, *, where: Where, set: Mapping[str, Value] = ...,
               add: Mapping[str, int] = ..., worker: int | None = None, if_time: int | None = None,
               stamp: int | None = None, timeout: float | None = None) -> Written: ...

    def update(self, table: str, change: Any = None, where: Any = None, *,
               set: Mapping[str, Value] | None = None, add: Mapping[str, int] | None = None,
               worker: int | None = None, if_time: int | None = None, stamp: int | None = None,
               timeout: float | None = None) -> Written:
        """Changes the rows that match: sets columns to values, adds numbers to columns. `where` is empty
        for every row.

            session.update("acct", {"id": 1}, set={"owner": "ann"}, add={"bal": -5})
            session.update("acct", [("set", "owner", "ann"), ("add", "bal", -5)], {"id": 1})
            session.update("acct", {"id": 1, "bal": at_least(5)}, add={"bal": -5})

        Raises `TypeError` where `where` or the changes are missing, `Full`, and what any request does.
        """
        make: Callable[..., Write] = requests.update    # whose overloads are those of this method
        request = make(table, change, where, set=set, add=add)
        return self._ask(request, answers.written, worker, if_time, timeout, stamp)

    def delete(self, table: str, where: Where, *, worker: int | None = None, if_time: int | None = None,
               stamp: int | None = None, timeout: float | None = None) -> Written:
        """Deletes the rows that match. `where` is empty for every row.

        Raises `Full`, and what any request does.
        """
        return self._ask(requests.delete(table, where), answers.written, worker, if_time, timeout, stamp)

    def do(self, writes: Iterable[Write], *, whole: bool = False, worker: int | None = None,
           if_time: int | None = None, stamp: int | None = None, timeout: float | None = None) -> Written:
        """Carries out up to 16 writes in order, as one slot at one time.

        Where they are `whole`, either each of them has an effect, or nothing is written; `done` of what
        is returned tells which. A write has no effect where it inserts a key that is there, or matches no
        row.

            sold = session.do([update("acct", where={"id": 1, "bal": at_least(8)}, add={"bal": -8}),
                               insert("acct", [2, "bob", 8])], whole=True)
            if not sold.done:
                ...    # Nothing was written: there is too little, or row 2 is there.

        Raises `Full`, and what any request does.
        """
        request = requests.do(writes, whole=whole)
        return self._ask(request, answers.written, worker, if_time, timeout, stamp)

    # Reads

    def select(self, table: str, where: Where = (), *, at: int | None = None,
               generation: int | None = None, after: int | None = None, most: int | None = None,
               worker: int | None = None, if_time: int | None = None,
               timeout: float | None = None) -> Selected:
        """The rows that match: now or at a time; of the current generation or of one that is kept;
        those with a key greater than `after`, and of these the first `most`.

            session.select("acct", {"owner": "ann", "bal": below(0)})
            session.select("acct", [("id", above(1)), ("id", below(9))])

        Raises `Later`, `Forgotten`, `NoGeneration`, and what any request does.
        """
        request = requests.select(table, where, at=at, generation=generation, after=after, most=most)
        return self._ask(request, self._opening.selected(table), worker, if_time, timeout)

    def pages(self, table: str, where: Where = (), *, at: int | None = None,
              generation: int | None = None, most: int = 1000, worker: int | None = None,
              timeout: float | None = None) -> Iterator[Selected]:
        """The rows that match, `most` at a time, all at one time of one generation.

        What is written meanwhile doesn't show, nor does a switch, as long as the generation is kept and
        the time isn't forgotten.
        A table without a matching row gives one page without rows. `timeout` is for each page.

        Raises what `select` does.
        """
        conditions = requests.pairs(where)
        if generation is None:
            status = self.status(worker=worker, timeout=timeout)
            generation = status.generation
            at = status.time if at is None else at
        after = None
        while True:
            page = self.select(table, conditions, at=at, generation=generation, after=after, most=most,
                               worker=worker, timeout=timeout)
            yield page
            if not page.more:
                return
            at, after = page.time, int(page.rows[-1][0])

    # Repairs

    @overload
    def repair(self, edits: Iterable[Edit], *, dry: Literal[False] = ..., step: int | None = ...,
               progress: Callable[[Progress], object] | None = ..., worker: int | None = ...,
               timeout: float | None = ...) -> Switched: ...

    @overload
    def repair(self, edits: Iterable[Edit], *, dry: Literal[True], step: int | None = ...,
               progress: Callable[[Progress], object] | None = ..., worker: int | None = ...,
               timeout: float | None = ...) -> Trial: ...

    @overload
    def repair(self, edits: Iterable[Edit], *, dry: bool, step: int | None = ...,
               progress: Callable[[Progress], object] | None = ..., worker: int | None = ...,
               timeout: float | None = ...) -> Switched | Trial: ...

    def repair(self, edits: Iterable[Edit], *, dry: bool = False, step: int | None = None,
               progress: Callable[[Progress], object] | None = None, worker: int | None = None,
               timeout: float | None = None) -> Switched | Trial:
        """A whole repair: begins it, does `step` slots at a time (100, or 1,000 of a dry run) until none is
        left, and makes the repaired data the current ones. Other requests are answered between the steps.
        Where the beginning is refused, nothing else is sent. What it asks is meant for a repair of this
        `worker` alone, so give each client that repairs one of its own.

        A `dry` run returns what the repair has come to, and aborts it: the current data stay. It reads that
        in pages, so it tells the same as `would`, and no other request waits long for it. In the history
        and in the log it is a repair that was given up.

        `progress` is called after each step. Where it raises something, or a request fails, or the waiting
        is interrupted, the repair is aborted, and that is raised. `timeout` is for each request.

        Raises what `begin`, `step` and `finish` do. After a `NoAnswer` of the beginning or of the end the
        repair may be under way, or done: `status` tells.
        """
        trial: Trial | None = None
        slots = step if step is not None else 1000 if dry else 100
        stepped = begun = self.begin(edits, worker=worker, timeout=timeout)
        try:
            while stepped.left > 0:
                stepped = self.step(slots, worker=worker, timeout=timeout)
                if progress is not None:
                    progress(stepped)
            if dry:
                trial = self._trial(begun.call, worker, timeout)
        except (NotRepairing, RepairOfAnother):
            raise    # Somebody else has ended it, and perhaps begun another.
        except BaseException:
            self._give_up(worker, timeout)
            raise
        try:
            if trial is None:
                return self.finish(worker=worker, timeout=timeout)
            self.abort(worker=worker, timeout=timeout)    # It is refused if the pages were of another's.
            return trial
        except (NotRepairing, RepairOfAnother):
            raise
        except Refused:
            self._give_up(worker, timeout)
            raise

    def _trial(self, call: int, worker: int | None, timeout: float | None) -> Trial:
        """What the repair under way has come to. Where it goes on meanwhile, this is read again."""
        while True:
            causes = self.why(most=PAGE, worker=worker, timeout=timeout)
            redone, done = causes.redone, causes.done
            while causes.more:
                causes = self.why(after=redone[-1].slot, most=PAGE, worker=worker, timeout=timeout)
                redone += causes.redone
            changed = [change for page in self.change_pages("next", worker=worker, timeout=timeout)
                       for change in page.changed]
            found = self.diff(most=PAGE, worker=worker, timeout=timeout)
            diff = found.diff
            while found.more:
                last = diff[-1].table, diff[-1].key
                found = self.diff(after=last, most=PAGE, worker=worker, timeout=timeout)
                diff += found.diff
            if found.done == done:
                return Trial(call, done, len(redone), redone, changed, diff)

    def _give_up(self, worker: int | None, timeout: float | None) -> None:
        """Aborts a repair because of an error that is about to be raised."""
        try:
            self.abort(worker=worker, timeout=timeout)
        except Error:
            pass    # What was to be raised tells more.

    def begin(self, edits: Iterable[Edit], *, worker: int | None = None, if_time: int | None = None,
              timeout: float | None = None) -> Stepped:
        """Begins a repair: see `cancel` and `replace`. From then on `step`, `finish` and `abort` by this
        `worker` are meant for a repair of this worker alone, also where this is refused; with `of` they
        are meant for another's. Those of a worker who has sent no `begin` are meant for whichever repair
        is under way.

        Raises `Repairing`, `NoSlot`, `EditedTwice`, `Full`, and what any request does.
        """
        return self._ask({"begin": list(edits)}, answers.stepped, worker, if_time, timeout)

    def step(self, slots: int = 1, *, of: int | None = None, worker: int | None = None,
             if_time: int | None = None, timeout: float | None = None) -> Stepped:
        """Does the next slots of the repair, or all that are left where those are fewer. It has to be one
        that the worker `of` has begun; `begin` tells what it is without.

        Raises `NotRepairing`, `RepairOfAnother`, and what any request does.
        """
        return self._ask(requests.step(slots, of), answers.stepped, worker, if_time, timeout)

    def preview(self, table: str, where: Where = (), *, after: int | None = None,
                most: int | None = None, worker: int | None = None, if_time: int | None = None,
                timeout: float | None = None) -> Previewed:
        """The rows that match, as the repair has rebuilt them so far.

        Raises `NotRepairing`, and what any request does.
        """
        request = requests.preview(table, where, after=after, most=most)
        return self._ask(request, self._opening.previewed(table), worker, if_time, timeout)

    def finish(self, *, of: int | None = None, worker: int | None = None, if_time: int | None = None,
               timeout: float | None = None) -> Switched:
        """Does all slots that are left, and makes the repaired data the current ones. `of` is as for
        `step`.

        Raises `NotRepairing`, `RepairOfAnother`, and what any request does.
        """
        return self._ask(requests.finish(of), answers.switched, worker, if_time, timeout)

    def abort(self, *, of: int | None = None, worker: int | None = None, if_time: int | None = None,
              timeout: float | None = None) -> Status:
        """Gives the repair up. The current data stay. `of` is as for `step`.

        Raises `NotRepairing`, `RepairOfAnother`, and what any request does.
        """
        return self._ask(requests.abort(of), answers.status, worker, if_time, timeout)

    # What is there, and what was

    def status(self, *, worker: int | None = None, if_time: int | None = None,
               timeout: float | None = None) -> Status:
        """The current time and generation, and the repair under way.

        Raises what any request does.
        """
        return self._ask({"status": True}, answers.status, worker, if_time, timeout)

    def slots(self, first: int, last: int, *, of: int | None = None,
              row: tuple[str, int] | None = None, stamps: tuple[int, int] | None = None,
              worker: int | None = None, if_time: int | None = None,
              timeout: float | None = None) -> Slots:
        """The slots from `first` to `last`, at most 10,000 of them. Of these, those of the worker `of`, those
        that changed a row, given as its table and its key, and those with a stamp from the first of `stamps`
        to the second.

        Raises what any request does.
        """
        request = requests.slots(first, last, of, row, stamps)
        return self._ask(request, self._opening.slots, worker, if_time, timeout)

    def find(self, *, of: int | None = None, row: tuple[str, int] | None = None,
             stamps: tuple[int, int] | None = None, worker: int | None = None,
             timeout: float | None = None) -> Iterator[Slot]:
        """The slots that aren't forgotten, up to the time at which the first one is asked for: those of the
        worker `of`, those that changed a row, and those with a stamp from one to another, as for `slots`.

            for slot in session.find(of=3, row=("acct", 1), stamps=(nine, ten)):
                print(slot.slot, slot.stamp, slot.do)

        It asks for 10,000 slots at a time, and other requests are answered in between; so where a repair
        ends meanwhile, the slots behind that are told as it has left them. `timeout` is for each request.

        Raises what any request does.
        """
        status = self.status(worker=worker, timeout=timeout)
        for first in range(status.horizon + 1, status.time + 1, SPAN):
            last = min(first + SPAN - 1, status.time)
            page = self.slots(first, last, of=of, row=row, stamps=stamps, worker=worker, timeout=timeout)
            yield from page.slots

    def changes(self, which: Literal["now", "next"] = "now", *, of: int | None = None,
                only: Literal["writes", "reads"] | None = None, after: int | None = None,
                most: int | None = None, asked: bool = False, worker: int | None = None,
                if_time: int | None = None, timeout: float | None = None) -> Changes:
        """The answers that would be others now; with "next" those that the repair will have changed. Of
        these, those to requests of the worker `of`, those `only` to writes or to reads, and those behind the
        call `after`, of which the first `most`. With `asked` each tells its worker, and what was asked for.
        The numbers of calls are those since the last start of the program, which numbers its log's lines
        anew.

        Raises `NotRepairing` with "next", and what any request does.
        """
        request = requests.changes(which, of, only, after, most, asked)
        return self._ask(request, self._opening.changes, worker, if_time, timeout)

    def change_pages(self, which: Literal["now", "next"] = "now", *, of: int | None = None,
                     only: Literal["writes", "reads"] | None = None, asked: bool = False, most: int = PAGE,
                     worker: int | None = None, timeout: float | None = None) -> Iterator[Changes]:
        """The changes, `most` at a time. Each page tells what is changed when it is read. `timeout` is for
        each page.

        Raises what `changes` does.
        """
        after = None
        while True:
            page = self.changes(which, of=of, only=only, after=after, most=most, asked=asked, worker=worker,
                                timeout=timeout)
            yield page
            if not page.more:
                return
            after = page.changed[-1].call

    def why(self, generation: int | None = None, *, after: int | None = None, most: int | None = None,
            worker: int | None = None, if_time: int | None = None, timeout: float | None = None) -> Causes:
        """Why the repair under way has re-executed slots, or the one that closed a generation that is kept:
        of the slots behind `after`, the first `most`.

        Raises `NotRepairing`, `NoGeneration` with a generation that isn't kept or is the current one, and
        what any request does.
        """
        return self._ask(requests.why(generation, after, most), answers.causes, worker, if_time, timeout)

    def diff(self, generation: int | None = None, *, after: tuple[str, int] | None = None,
             most: int | None = None, worker: int | None = None, if_time: int | None = None,
             timeout: float | None = None) -> Differences:
        """The rows that the repair under way has made others, as of the last slot that it has done; or those
        of the repair that closed a generation that is kept. Of the rows behind `after`, given as a table
        and a key, the first `most`.

        Raises `NotRepairing`, `NoGeneration` with a generation that isn't kept or is the current one, and
        what any request does.
        """
        return self._ask(requests.diff(generation, after, most), self._opening.differences, worker, if_time,
                         timeout)

    def would(self, edits: Iterable[Edit], *, worker: int | None = None, if_time: int | None = None,
              timeout: float | None = None) -> Trial:
        """What a repair with these edits would come to now. Nothing of it is kept.

        It is one request, which takes as long as the whole repair, while everybody waits: where there are
        many slots, `repair` with `dry=True` tells the same in pieces.

        Raises `Repairing`, `NoSlot`, `EditedTwice`, `Full`, and what any request does.
        """
        return self._ask({"would": list(edits)}, self._opening.trial, worker, if_time, timeout)

    def tables(self, *, worker: int | None = None, if_time: int | None = None,
               timeout: float | None = None) -> Tables:
        """What the session was opened with.

        Raises what any request does.
        """
        return self._ask({"tables": True}, answers.tables, worker, if_time, timeout)

    def forget(self, time: int, *, worker: int | None = None, if_time: int | None = None,
               timeout: float | None = None) -> Status:
        """Forgets what lies before a time, closed generations too, so that there is room again. The rows
        stay, and each slot behind this time can be read and repaired as before.

        Raises `Repairing`, `Later`, `Forgotten` where more is forgotten already, `LogFailed` where there
        is a log and it can't be made anew, and what any request does.
        """
        return self._ask({"forget": time}, answers.status, worker, if_time, timeout)

    # Without waiting

    @overload
    def send(self, request: Write | requests.DoRequest, *, worker: int | None = None,
             if_time: int | None = None, stamp: int | None = None,
             timeout: float | None = None) -> Future[Written]: ...

    @overload
    def send(self, request: requests.SelectRequest, *, worker: int | None = None,
             if_time: int | None = None, timeout: float | None = None) -> Future[Selected]: ...

    @overload
    def send(self, request: requests.PreviewRequest, *, worker: int | None = None,
             if_time: int | None = None, timeout: float | None = None) -> Future[Previewed]: ...

    @overload
    def send(self, request: requests.BeginRequest | requests.StepRequest, *, worker: int | None = None,
             if_time: int | None = None, timeout: float | None = None) -> Future[Stepped]: ...

    @overload
    def send(self, request: requests.FinishRequest, *, worker: int | None = None,
             if_time: int | None = None, timeout: float | None = None) -> Future[Switched]: ...

    @overload
    def send(self, request: requests.AbortRequest | requests.StatusRequest | requests.ForgetRequest, *,
             worker: int | None = None, if_time: int | None = None,
             timeout: float | None = None) -> Future[Status]: ...

    @overload
    def send(self, request: requests.SlotsRequest, *, worker: int | None = None,
             if_time: int | None = None, timeout: float | None = None) -> Future[Slots]: ...

    @overload
    def send(self, request: requests.ChangesRequest, *, worker: int | None = None,
             if_time: int | None = None, timeout: float | None = None) -> Future[Changes]: ...

    @overload
    def send(self, request: requests.WhyRequest, *, worker: int | None = None,
             if_time: int | None = None, timeout: float | None = None) -> Future[Causes]: ...

    @overload
    def send(self, request: requests.DiffRequest, *, worker: int | None = None,
             if_time: int | None = None, timeout: float | None = None) -> Future[Differences]: ...

    @overload
    def send(self, request: requests.WouldRequest, *, worker: int | None = None,
             if_time: int | None = None, timeout: float | None = None) -> Future[Trial]: ...

    @overload
    def send(self, request: requests.TablesRequest, *, worker: int | None = None,
             if_time: int | None = None, timeout: float | None = None) -> Future[Tables]: ...

    @overload
    def send(self, request: Mapping[str, object], *, worker: int | None = None,
             if_time: int | None = None, stamp: int | None = None,
             timeout: float | None = None) -> Future[Any]: ...

    def send(self, request: Any, *, worker: int | None = None, if_time: int | None = None,
             stamp: int | None = None, timeout: float | None = None) -> Future[Any]:
        """Sends a request, and returns a future of what the method of its kind returns or raises. The stamp
        is for a write alone.

        Many may be sent before the first answer is there. This waits only where the pipe is full, for
        the other side to read on, at most for the `timeout`. Don't wait for answers in a callback of a
        future: callbacks run in the thread that reads the answers.

        Raises `ValueError` or `TypeError`, `NoAnswer`, `Ended`, `Closed` and `Forked` as any request
        does; the future raises the rest.
        """
        line = self._opening.request(request, worker, if_time, stamp)
        future: Future[Any] = SentFuture()
        deadline = self._deadline(timeout)
        self._put(line, self._opening.decode(request), future, deadline)
        if self._keeping is not None:
            self._forget_old(self._keeping, deadline)
        return future

    def _ask(self, request: Mapping[str, Any], decode: Decode[AnswerType], worker: int | None,
             if_time: int | None, timeout: float | None, stamp: int | None = None) -> AnswerType:
        line = self._opening.request(request, worker, if_time, stamp)
        wait: Wait[AnswerType] = Wait()
        deadline = self._deadline(timeout)
        self._put(line, decode, wait, deadline)
        answer = wait.result(deadline)
        if self._keeping is not None:
            self._forget_old(self._keeping, deadline)
        return answer

    def _forget_old(self, keeping: Keeping, deadline: Deadline | None) -> None:
        """Sends the line that forgets old slots where it is time. The request before it is done, so no
        error of this one is raised."""
        line = keeping.next_line()
        if line is None:
            return
        try:
            self._put(line, answers.status, keeping, deadline)
        except BaseException as error:
            keeping.set_exception(error)
            if not isinstance(error, Error):
                raise

    def _deadline(self, timeout: float | None) -> Deadline | None:
        if timeout is None:
            timeout = self._timeout
        return None if timeout is None or timeout == math.inf else Deadline(timeout)

    def _put(self, line: bytes, decode: Decode[Any], waiting: Waiting, deadline: Deadline | None) -> None:
        if os.getpid() != self._process:
            raise Forked    # Before the lock is asked for, which nobody here would release.
        if self._keeping is not None:
            decode = self._keeping.noting(decode)
        if deadline is None:
            with self._sending:
                self._put_next(line, decode, waiting, None)
            return
        held: list[bool] = []
        try:
            # Without a step between at which a Ctrl-C could leave the lock locked.
            held.extend(map(self._sending.acquire, (True,), (deadline.left(),)))
            if not held[0]:
                raise NoAnswer(deadline.seconds)
            self._put_next(line, decode, waiting, deadline)
        finally:
            if held and held[0]:
                self._sending.release()

    def _put_next(self, line: bytes, decode: Decode[Any], waiting: Waiting,
                  deadline: Deadline | None) -> None:
        if self._closed:
            raise Closed
        vanished = self._told.vanished()
        if vanished is not None:
            raise vanished
        if self._reopens and self._channel.has_ended:
            self._channel.end_input(deadline)
            self._channel = self._start(deadline, True)
        self._channel.put(line, decode, waiting, deadline)
