"""A session for asyncio, without threads.

    async with timetravel.aio.Session([accounts]) as session:
        await session.insert("acct", {"id": 1, "owner": "ann", "bal": 10})

    session = await timetravel.aio.Session.connect("bank.sock", [accounts])
    ...
    await session.close()
"""

from __future__ import annotations

import asyncio
import inspect
import math
import os
from collections.abc import AsyncIterator, Awaitable, Callable, Generator, Iterable, Mapping, Sequence
from typing import Any, Literal, TypeVar, overload

from . import answers, program, requests
from .aio_channels import Connection, Program
from .answers import (
    Causes, Changes, Decode, Differences, Previewed, Progress, Selected, Slot, Slots, Status, Stepped, Switched,
    Tables, Trial, Written)
from .errors import Closed, Error, Forked, NoAnswer, NotRepairing, Refused, RepairOfAnother
from .keeping import Keeping
from .opening import Opening
from .requests import PAGE, SPAN, Change, Edit, NewRow, Where, Write
from .stamps import Clock
from .tables import Table, Value
from .told import Told

__all__ = ["Session"]

AnswerType = TypeVar("AnswerType")
Found = TypeVar("Found")


class Session:
    """A database, in a program of its own or behind a socket, for tasks of one event loop. It is opened
    by `async with` or by `await`, and is otherwise as `timetravel.Session`, also in what is raised.

    A task that is cancelled while it waits gives up its answer alone. Its request may be carried out.
    """

    def __init__(self, tables: Iterable[Table | Mapping[str, Any]], *, keep: int | None = None,
                 records: int | None = None, log: str | os.PathLike[str] | None = None,
                 reopen: bool = False, keep_slots: int | None = None, clock: Clock | None = None,
                 command: Sequence[str] = ("timetravel", "session"), timeout: float | None = None) -> None:
        """A session that starts the program once it is opened, with the same parameters as
        `timetravel.Session`. Raises `ValueError` or `TypeError` for what a line can't carry."""
        if reopen and log is None:
            raise ValueError("only a session with a log can be opened again")

        def make(is_again: bool, told: Told) -> Program:
            return Program(program.of_log(command, log, is_again), log is not None, told)

        self._prepare(make, Opening(tables, keep, records, clock), reopen, keep_slots, timeout)

    @classmethod
    def connect(cls, socket: str | os.PathLike[str], tables: Iterable[Table | Mapping[str, Any]], *,
                keep: int | None = None, records: int | None = None, reopen: bool = False,
                reads: Literal["log", "replica"] | None = None, keep_slots: int | None = None,
                clock: Clock | None = None, timeout: float | None = None) -> Session:
        """A session that connects to the socket with this path once it is opened, with the same
        parameters as `timetravel.Session.connect`. Raises `ValueError` or `TypeError` for what a line
        can't carry."""
        session = cls.__new__(cls)
        opening = Opening(tables, keep, records, clock, reads)
        session._prepare(lambda _, told: Connection(socket, told), opening, reopen, keep_slots, timeout)
        return session

    def _prepare(self, make: Callable[[bool, Told], Program | Connection], opening: Opening,
                 reopens: bool, keep_slots: int | None, timeout: float | None) -> None:
        self._make = make
        self._opening = opening
        self._reopens = reopens
        self._keeping = None if keep_slots is None else Keeping(keep_slots)
        self._timeout = timeout
        self._process = os.getpid()
        self._closed = False
        self._told = Told()
        self._starting = asyncio.Lock()
        self._channel: Program | Connection | None = None

    async def open(self) -> Session:
        """Starts the program or connects, and opens the database. A session that is open stays so.

        Raises `NotStarted`, `NotConnected`, `Ended`, `AnotherOpening`, `Fault`, `OutOfMemory`,
        `NoAnswer`, `Closed` after `close`, and `Forked`.
        """
        await self._within(self._timeout, self._current(True))
        return self

    def __await__(self) -> Generator[Any, None, Session]:
        return self.open().__await__()

    async def __aenter__(self) -> Session:
        return await self.open()

    async def __aexit__(self, *_: object) -> None:
        await self.close()

    @property
    def exit_status(self) -> int | None:
        """The program's exit status; None while it runs, and for a connection."""
        return self._channel.exit_status if isinstance(self._channel, Program) else None

    async def close(self) -> None:
        """Ends what is sent. All that was sent is answered; then the program ends, or this connection,
        and this waits for it. A session that is closed stays so. In a child of the process that opened
        the session, this does nothing. Raises nothing."""
        if os.getpid() != self._process:
            return
        self._closed = True
        if self._channel is not None:
            self._channel.end_input()
            await self._channel.join(self._timeout)

    # Writes

    async def insert(self, table: str, row: NewRow, *, worker: int | None = None,
                     if_time: int | None = None, stamp: int | None = None,
                     timeout: float | None = None) -> Written:
        """Inserts a row: its values in the columns' order, or a dict of all of them by their columns'
        names. Where the table has its key, the reply is "duplicate".

        Raises `ValueError` where a column is missing or unknown, `Full`, and what any request does.
        """
        return await self._ask(requests.insert(table, row), answers.written, worker, if_time, timeout, stamp)

    @overload
    async def update(self, table: str, change: Iterable[Change], where: Where, *,
                     worker: int | None = None, if_time: int | None = None, stamp: int | None = None,
                     timeout: float | None = None) -> Written: ...

    @overload
    async def update(self, table: str, where: Where, /, *, set: Mapping[str, Value] = ...,
                     add: Mapping[str, int] = ..., worker: int | None = None,
                     if_time: int | None = None, stamp: int | None = None,
                     timeout: float | None = None) -> Written: ...

    @overload
    async def update(self, table: str, *, where: Where, set: Mapping[str, Value] = ...,
                     add: Mapping[str, int] = ..., worker: int | None = None,
                     if_time: int | None = None, stamp: int | None = None,
                     timeout: float | None = None) -> Written: ...

    async def update(self, table: str, change: Any = None, where: Any = None, *,
                     set: Mapping[str, Value] | None = None, add: Mapping[str, int] | None = None,
                     worker: int | None = None, if_time: int | None = None, stamp: int | None = None,
                     timeout: float | None = None) -> Written:
        """Changes the rows that match: sets columns to values, adds numbers to columns. `where` is empty
        for every row.

        Raises `TypeError` where `where` or the changes are missing, `Full`, and what any request does.
        """
        make: Callable[..., Write] = requests.update    # whose overloads are those of this method
        request = make(table, change, where, set=set, add=add)
        return await self._ask(request, answers.written, worker, if_time, timeout, stamp)

    async def delete(self, table: str, where: Where, *, worker: int | None = None,
                     if_time: int | None = None, stamp: int | None = None,
                     timeout: float | None = None) -> Written:
        """Deletes the rows that match. `where` is empty for every row.

        Raises `Full`, and what any request does.
        """
        request = requests.delete(table, where)
        return await self._ask(request, answers.written, worker, if_time, timeout, stamp)

    async def do(self, writes: Iterable[Write], *, whole: bool = False, worker: int | None = None,
                 if_time: int | None = None, stamp: int | None = None,
                 timeout: float | None = None) -> Written:
        """Carries out up to 16 writes in order, as one slot at one time.

        Where they are `whole`, either each of them has an effect, or nothing is written; `done` of what
        is returned tells which. A write has no effect where it inserts a key that is there, or matches no
        row.

        Raises `Full`, and what any request does.
        """
        request = requests.do(writes, whole=whole)
        return await self._ask(request, answers.written, worker, if_time, timeout, stamp)

    # Reads

    async def select(self, table: str, where: Where = (), *, at: int | None = None,
                     generation: int | None = None, after: int | None = None, most: int | None = None,
                     worker: int | None = None, if_time: int | None = None,
                     timeout: float | None = None) -> Selected:
        """The rows that match: now or at a time; of the current generation or of one that is kept;
        those with a key greater than `after`, and of these the first `most`.

        Raises `Later`, `Forgotten`, `NoGeneration`, and what any request does.
        """
        request = requests.select(table, where, at=at, generation=generation, after=after, most=most)
        return await self._ask(request, self._opening.selected(table), worker, if_time, timeout)

    async def pages(self, table: str, where: Where = (), *, at: int | None = None,
                    generation: int | None = None, most: int = 1000, worker: int | None = None,
                    timeout: float | None = None) -> AsyncIterator[Selected]:
        """The rows that match, `most` at a time, all at one time of one generation, for `async for`.

        What is written meanwhile doesn't show, nor does a switch, as long as the generation is kept and
        the time isn't forgotten.
        A table without a matching row gives one page without rows. `timeout` is for each page.

        Raises what `select` does.
        """
        conditions = requests.pairs(where)
        if generation is None:
            status = await self.status(worker=worker, timeout=timeout)
            generation = status.generation
            at = status.time if at is None else at
        after = None
        while True:
            page = await self.select(table, conditions, at=at, generation=generation, after=after,
                                     most=most, worker=worker, timeout=timeout)
            yield page
            if not page.more:
                return
            at, after = page.time, int(page.rows[-1][0])

    # Repairs

    @overload
    async def repair(self, edits: Iterable[Edit], *, dry: Literal[False] = ..., step: int | None = ...,
                     progress: Callable[[Progress], object] | None = ..., worker: int | None = ...,
                     timeout: float | None = ...) -> Switched: ...

    @overload
    async def repair(self, edits: Iterable[Edit], *, dry: Literal[True], step: int | None = ...,
                     progress: Callable[[Progress], object] | None = ..., worker: int | None = ...,
                     timeout: float | None = ...) -> Trial: ...

    @overload
    async def repair(self, edits: Iterable[Edit], *, dry: bool, step: int | None = ...,
                     progress: Callable[[Progress], object] | None = ..., worker: int | None = ...,
                     timeout: float | None = ...) -> Switched | Trial: ...

    async def repair(self, edits: Iterable[Edit], *, dry: bool = False, step: int | None = None,
                     progress: Callable[[Progress], object] | None = None, worker: int | None = None,
                     timeout: float | None = None) -> Switched | Trial:
        """A whole repair, or a `dry` run, as `repair` of `timetravel.Session`; also in what it raises. What
        `progress` returns is awaited where it is something to await. A task that is cancelled aborts the
        repair.
        """
        trial: Trial | None = None
        slots = step if step is not None else 1000 if dry else 100
        stepped = begun = await self.begin(edits, worker=worker, timeout=timeout)
        try:
            while stepped.left > 0:
                stepped = await self.step(slots, worker=worker, timeout=timeout)
                told = None if progress is None else progress(stepped)
                if inspect.isawaitable(told):
                    await told
            if dry:
                trial = await self._trial(begun.call, worker, timeout)
        except (NotRepairing, RepairOfAnother):
            raise    # Somebody else has ended it, and perhaps begun another.
        except BaseException:
            await self._give_up(worker, timeout)
            raise
        try:
            if trial is None:
                return await self.finish(worker=worker, timeout=timeout)
            await self.abort(worker=worker, timeout=timeout)    # It is refused if the pages were of another's.
            return trial
        except (NotRepairing, RepairOfAnother):
            raise
        except Refused:
            await self._give_up(worker, timeout)
            raise

    async def _trial(self, call: int, worker: int | None, timeout: float | None) -> Trial:
        """What the repair under way has come to. Where it goes on meanwhile, this is read again."""
        while True:
            causes = await self.why(most=PAGE, worker=worker, timeout=timeout)
            redone, done = causes.redone, causes.done
            while causes.more:
                causes = await self.why(after=redone[-1].slot, most=PAGE, worker=worker, timeout=timeout)
                redone += causes.redone
            changed = [change async for page in self.change_pages("next", worker=worker, timeout=timeout)
                       for change in page.changed]
            found = await self.diff(most=PAGE, worker=worker, timeout=timeout)
            diff = found.diff
            while found.more:
                last = diff[-1].table, diff[-1].key
                found = await self.diff(after=last, most=PAGE, worker=worker, timeout=timeout)
                diff += found.diff
            if found.done == done:
                return Trial(call, done, len(redone), redone, changed, diff)

    async def _give_up(self, worker: int | None, timeout: float | None) -> None:
        """Aborts a repair because of an error that is about to be raised."""
        try:
            await self.abort(worker=worker, timeout=timeout)
        except Error:
            pass    # What was to be raised tells more.

    async def begin(self, edits: Iterable[Edit], *, worker: int | None = None,
                    if_time: int | None = None, timeout: float | None = None) -> Stepped:
        """Begins a repair: see `cancel` and `replace`. From then on `step`, `finish` and `abort` by this
        `worker` are meant for a repair of this worker alone, also where this is refused; with `of` they
        are meant for another's. Those of a worker who has sent no `begin` are meant for whichever repair
        is under way.

        Raises `Repairing`, `NoSlot`, `EditedTwice`, `Full`, and what any request does.
        """
        return await self._ask({"begin": list(edits)}, answers.stepped, worker, if_time, timeout)

    async def step(self, slots: int = 1, *, of: int | None = None, worker: int | None = None,
                   if_time: int | None = None, timeout: float | None = None) -> Stepped:
        """Does the next slots of the repair, or all that are left where those are fewer. It has to be one
        that the worker `of` has begun; `begin` tells what it is without.

        Raises `NotRepairing`, `RepairOfAnother`, and what any request does.
        """
        return await self._ask(requests.step(slots, of), answers.stepped, worker, if_time, timeout)

    async def preview(self, table: str, where: Where = (), *, after: int | None = None,
                      most: int | None = None, worker: int | None = None, if_time: int | None = None,
                      timeout: float | None = None) -> Previewed:
        """The rows that match, as the repair has rebuilt them so far.

        Raises `NotRepairing`, and what any request does.
        """
        request = requests.preview(table, where, after=after, most=most)
        return await self._ask(request, self._opening.previewed(table), worker, if_time, timeout)

    async def finish(self, *, of: int | None = None, worker: int | None = None,
                     if_time: int | None = None, timeout: float | None = None) -> Switched:
        """Does all slots that are left, and makes the repaired data the current ones. `of` is as for
        `step`.

        Raises `NotRepairing`, `RepairOfAnother`, and what any request does.
        """
        return await self._ask(requests.finish(of), answers.switched, worker, if_time, timeout)

    async def abort(self, *, of: int | None = None, worker: int | None = None,
                    if_time: int | None = None, timeout: float | None = None) -> Status:
        """Gives the repair up. The current data stay. `of` is as for `step`.

        Raises `NotRepairing`, `RepairOfAnother`, and what any request does.
        """
        return await self._ask(requests.abort(of), answers.status, worker, if_time, timeout)

    # What is there, and what was

    async def status(self, *, worker: int | None = None, if_time: int | None = None,
                     timeout: float | None = None) -> Status:
        """The current time and generation, and the repair under way.

        Raises what any request does.
        """
        return await self._ask({"status": True}, answers.status, worker, if_time, timeout)

    async def slots(self, first: int, last: int, *, of: int | None = None,
                    row: tuple[str, int] | None = None, stamps: tuple[int, int] | None = None,
                    worker: int | None = None, if_time: int | None = None,
                    timeout: float | None = None) -> Slots:
        """The slots from `first` to `last`, at most 10,000 of them. Of these, those of the worker `of`, those
        that changed a row, given as its table and its key, and those with a stamp from the first of `stamps`
        to the second.

        Raises what any request does.
        """
        request = requests.slots(first, last, of, row, stamps)
        return await self._ask(request, self._opening.slots, worker, if_time, timeout)

    async def find(self, *, of: int | None = None, row: tuple[str, int] | None = None,
                   stamps: tuple[int, int] | None = None, worker: int | None = None,
                   timeout: float | None = None) -> AsyncIterator[Slot]:
        """The slots that aren't forgotten, up to the time at which the first one is asked for, for `async for`:
        those of the worker `of`, those that changed a row, and those with a stamp from one to another, as for
        `slots`.

        It asks for 10,000 slots at a time, and other requests are answered in between; so where a repair
        ends meanwhile, the slots behind that are told as it has left them. `timeout` is for each request.

        Raises what any request does.
        """
        status = await self.status(worker=worker, timeout=timeout)
        for first in range(status.horizon + 1, status.time + 1, SPAN):
            last = min(first + SPAN - 1, status.time)
            page = await self.slots(first, last, of=of, row=row, stamps=stamps, worker=worker, timeout=timeout)
            for slot in page.slots:
                yield slot

    async def changes(self, which: Literal["now", "next"] = "now", *, of: int | None = None,
                      only: Literal["writes", "reads"] | None = None, after: int | None = None,
                      most: int | None = None, asked: bool = False, worker: int | None = None,
                      if_time: int | None = None, timeout: float | None = None) -> Changes:
        """The answers that would be others now; with "next" those that the repair will have changed. Of
        these, those to requests of the worker `of`, those `only` to writes or to reads, and those behind the
        call `after`, of which the first `most`. With `asked` each tells its worker, and what was asked for.
        The numbers of calls are those since the last start of the program, which numbers its log's lines
        anew.

        Raises `NotRepairing` with "next", and what any request does.
        """
        request = requests.changes(which, of, only, after, most, asked)
        return await self._ask(request, self._opening.changes, worker, if_time, timeout)

    async def change_pages(self, which: Literal["now", "next"] = "now", *, of: int | None = None,
                           only: Literal["writes", "reads"] | None = None, asked: bool = False,
                           most: int = PAGE, worker: int | None = None,
                           timeout: float | None = None) -> AsyncIterator[Changes]:
        """The changes, `most` at a time. Each page tells what is changed when it is read. `timeout` is for
        each page.

        Raises what `changes` does.
        """
        after = None
        while True:
            page = await self.changes(which, of=of, only=only, after=after, most=most, asked=asked,
                                      worker=worker, timeout=timeout)
            yield page
            if not page.more:
                return
            after = page.changed[-1].call

    async def why(self, generation: int | None = None, *, after: int | None = None, most: int | None = None,
                  worker: int | None = None, if_time: int | None = None,
                  timeout: float | None = None) -> Causes:
        """Why the repair under way has re-executed slots, or the one that closed a generation that is kept:
        of the slots behind `after`, the first `most`.

        Raises `NotRepairing`, `NoGeneration` with a generation that isn't kept or is the current one, and
        what any request does.
        """
        request = requests.why(generation, after, most)
        return await self._ask(request, answers.causes, worker, if_time, timeout)

    async def diff(self, generation: int | None = None, *, after: tuple[str, int] | None = None,
                   most: int | None = None, worker: int | None = None, if_time: int | None = None,
                   timeout: float | None = None) -> Differences:
        """The rows that the repair under way has made others, as of the last slot that it has done; or those
        of the repair that closed a generation that is kept. Of the rows behind `after`, given as a table
        and a key, the first `most`.

        Raises `NotRepairing`, `NoGeneration` with a generation that isn't kept or is the current one, and
        what any request does.
        """
        request = requests.diff(generation, after, most)
        return await self._ask(request, self._opening.differences, worker, if_time, timeout)

    async def would(self, edits: Iterable[Edit], *, worker: int | None = None, if_time: int | None = None,
                    timeout: float | None = None) -> Trial:
        """What a repair with these edits would come to now. Nothing of it is kept.

        It is one request, which takes as long as the whole repair, while everybody waits: where there are
        many slots, `repair` with `dry=True` tells the same in pieces.

        Raises `Repairing`, `NoSlot`, `EditedTwice`, `Full`, and what any request does.
        """
        return await self._ask({"would": list(edits)}, self._opening.trial, worker, if_time, timeout)

    async def tables(self, *, worker: int | None = None, if_time: int | None = None,
                     timeout: float | None = None) -> Tables:
        """What the session was opened with.

        Raises what any request does.
        """
        return await self._ask({"tables": True}, answers.tables, worker, if_time, timeout)

    async def forget(self, time: int, *, worker: int | None = None, if_time: int | None = None,
                     timeout: float | None = None) -> Status:
        """Forgets what lies before a time, closed generations too, so that there is room again. The rows
        stay, and each slot behind this time can be read and repaired as before.

        Raises `Repairing`, `Later`, `Forgotten` where more is forgotten already, `LogFailed` where there
        is a log and it can't be made anew, and what any request does.
        """
        return await self._ask({"forget": time}, answers.status, worker, if_time, timeout)

    # Without waiting

    @overload
    async def send(self, request: Write | requests.DoRequest, *, worker: int | None = None,
                   if_time: int | None = None, stamp: int | None = None, timeout: float | None = None
                   ) -> asyncio.Future[Written]: ...

    @overload
    async def send(self, request: requests.SelectRequest, *, worker: int | None = None,
                   if_time: int | None = None, timeout: float | None = None
                   ) -> asyncio.Future[Selected]: ...

    @overload
    async def send(self, request: requests.PreviewRequest, *, worker: int | None = None,
                   if_time: int | None = None, timeout: float | None = None
                   ) -> asyncio.Future[Previewed]: ...

    @overload
    async def send(self, request: requests.BeginRequest | requests.StepRequest, *,
                   worker: int | None = None, if_time: int | None = None,
                   timeout: float | None = None) -> asyncio.Future[Stepped]: ...

    @overload
    async def send(self, request: requests.FinishRequest, *, worker: int | None = None,
                   if_time: int | None = None, timeout: float | None = None
                   ) -> asyncio.Future[Switched]: ...

    @overload
    async def send(self, request: requests.AbortRequest | requests.StatusRequest | requests.ForgetRequest,
                   *, worker: int | None = None, if_time: int | None = None,
                   timeout: float | None = None) -> asyncio.Future[Status]: ...

    @overload
    async def send(self, request: requests.SlotsRequest, *, worker: int | None = None,
                   if_time: int | None = None, timeout: float | None = None
                   ) -> asyncio.Future[Slots]: ...

    @overload
    async def send(self, request: requests.ChangesRequest, *, worker: int | None = None,
                   if_time: int | None = None, timeout: float | None = None
                   ) -> asyncio.Future[Changes]: ...

    @overload
    async def send(self, request: requests.WhyRequest, *, worker: int | None = None,
                   if_time: int | None = None, timeout: float | None = None
                   ) -> asyncio.Future[Causes]: ...

    @overload
    async def send(self, request: requests.DiffRequest, *, worker: int | None = None,
                   if_time: int | None = None, timeout: float | None = None
                   ) -> asyncio.Future[Differences]: ...

    @overload
    async def send(self, request: requests.WouldRequest, *, worker: int | None = None,
                   if_time: int | None = None, timeout: float | None = None
                   ) -> asyncio.Future[Trial]: ...

    @overload
    async def send(self, request: requests.TablesRequest, *, worker: int | None = None,
                   if_time: int | None = None, timeout: float | None = None
                   ) -> asyncio.Future[Tables]: ...

    @overload
    async def send(self, request: Mapping[str, object], *, worker: int | None = None,
                   if_time: int | None = None, stamp: int | None = None, timeout: float | None = None
                   ) -> asyncio.Future[Any]: ...

    async def send(self, request: Any, *, worker: int | None = None, if_time: int | None = None,
                   stamp: int | None = None, timeout: float | None = None) -> asyncio.Future[Any]:
        """Sends a request, and returns a future of what the method of its kind returns or raises. The stamp
        is for a write alone.

        Many may be sent before the first answer is there. This waits only where the pipe is full, for
        the other side to read on, at most for the `timeout`.

        Raises `ValueError` or `TypeError`, `NoAnswer`, `Ended`, `Closed` and `Forked` as any request
        does; the future raises the rest.
        """
        line = self._opening.request(request, worker, if_time, stamp)
        future = await self._within(timeout, self._put(line, self._opening.decode(request)))
        self._forget_old()
        return future

    async def _ask(self, request: Mapping[str, Any], decode: Decode[AnswerType], worker: int | None,
                   if_time: int | None, timeout: float | None, stamp: int | None = None) -> AnswerType:
        line = self._opening.request(request, worker, if_time, stamp)
        answer = await self._within(timeout, self._exchange(line, decode))
        self._forget_old()
        return answer

    async def _exchange(self, line: bytes, decode: Decode[AnswerType]) -> AnswerType:
        return await (await self._put(line, decode))

    async def _put(self, line: bytes, decode: Decode[AnswerType]) -> asyncio.Future[AnswerType]:
        channel = await self._current(self._reopens)
        if self._keeping is not None:
            decode = self._keeping.noting(decode)
        return await channel.put(line, decode)

    def _forget_old(self) -> None:
        """Sends the line that forgets old slots where it is time, and there is room for it."""
        keeping, channel = self._keeping, self._channel
        if keeping is None or channel is None or not channel.takes_lines:
            return
        line = keeping.next_line()
        if line is not None:
            channel.put_now(line, keeping.noting(answers.status), keeping)

    async def _within(self, timeout: float | None, awaitable: Awaitable[Found]) -> Found:
        """What this gives within the seconds of a call, or of the session."""
        seconds = self._timeout if timeout is None else timeout
        if seconds is None or seconds == math.inf:
            return await awaitable
        try:
            return await asyncio.wait_for(awaitable, max(0.0, seconds))
        except asyncio.TimeoutError:
            raise NoAnswer(seconds) from None

    async def _current(self, starts: bool) -> Program | Connection:
        """The channel to a session that is open, which is started where that is to be."""
        if os.getpid() != self._process:
            raise Forked
        if self._closed:
            raise Closed
        vanished = self._told.vanished()
        if vanished is not None:
            raise vanished
        if self._channel is not None and not (starts and self._channel.has_ended):
            return self._channel
        if not starts:
            raise Closed("the session isn't open yet")
        async with self._starting:
            if self._channel is None or self._channel.has_ended:
                self._channel = await self._start()
            return self._channel

    async def _start(self) -> Program | Connection:
        channel = self._make(self._channel is not None, self._told)
        await channel.start()
        try:
            if self._opening.reads is not None:
                await (await channel.put(self._opening.reads, answers.reads))
            self.opened: Status = await (await channel.put(self._opening.line, answers.status))
            if self._keeping is not None:
                self._keeping.note(self.opened)
        except BaseException:
            channel.end_input()
            await channel.join(self._timeout)
            raise
        return channel
