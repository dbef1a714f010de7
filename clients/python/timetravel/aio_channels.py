"""Lines that go to a session, and its answers, for asyncio: over a program's pipes and over a socket."""

from __future__ import annotations

import asyncio
import os
import socket
from abc import ABC, abstractmethod
from collections.abc import Sequence
from typing import Any, TypeVar, cast

from . import program
from .answers import Decode
from .errors import Closed, Disconnected, Ended, Error, Lost, NotConnected
from .forks import close_in_children
from .told import Told
from .waiting import Cutter, Farewell, Waiters, WaitersByCall, WaitersInOrder, Waiting

AnswerType = TypeVar("AnswerType")


class _Wait:
    """The future of an answer, which isn't set where who waited has given up."""
    __slots__ = ("_future",)

    def __init__(self, future: asyncio.Future[Any]) -> None:
        self._future = future

    def set_result(self, result: Any, /) -> None:
        if not self._future.done():
            self._future.set_result(result)

    def set_exception(self, exception: Error, /) -> None:
        if not self._future.done():
            self._future.set_exception(exception)


class Channel(asyncio.Protocol, ABC):
    """Lines that go to a session, and who waits for the answers."""

    def __init__(self, waiters: Waiters) -> None:
        self.waiters = waiters
        self.has_ended = False
        self.is_closing = False    # no line follows
        self._loop = asyncio.get_running_loop()
        self._end: asyncio.Future[None] = self._loop.create_future()
        self._room: asyncio.Future[None] | None = None    # where the other side doesn't read as fast
        self._cutter = Cutter()
        self._said = ""
        self._writer: asyncio.WriteTransport
        self._ending: asyncio.Task[None] | None = None

    # What differs

    @abstractmethod
    async def _note_end(self) -> None:
        """Notes how it ended, once nothing more is read."""

    @abstractmethod
    def end_error(self) -> Ended:
        """The error of who still waits after the end."""

    @abstractmethod
    def end_input(self) -> None:
        """No line follows. Each that was sent is answered."""

    @abstractmethod
    def kill(self) -> None:
        """Brings the end at once."""

    @abstractmethod
    def close_in_child(self) -> None:
        """Closes this process's ends, and nothing else."""

    # What is the same

    @property
    def takes_lines(self) -> bool:
        """Whether a line can be sent without waiting for room."""
        return self._room is None and not self.has_ended and not self.is_closing

    async def put(self, line: bytes, decode: Decode[AnswerType]) -> asyncio.Future[AnswerType]:
        """Sends a line, as soon as there is room."""
        while self._room is not None:
            await asyncio.shield(self._room)
        if self.has_ended:
            raise self.end_error()
        if self.is_closing:
            raise Closed
        future: asyncio.Future[AnswerType] = self._loop.create_future()
        self.put_now(line, decode, _Wait(future))
        return future

    def put_now(self, line: bytes, decode: Decode[Any], waiting: Waiting) -> None:
        """Sends a line where there is room for it."""
        self.waiters.add(decode, waiting)
        self._writer.write(line)

    async def join(self, seconds: float | None) -> None:
        """Waits for the end, and brings it where it doesn't come in time."""
        await asyncio.wait([self._end], timeout=seconds)
        if not self._end.done():
            self.kill()
            await asyncio.wait([self._end])

    def data_received(self, data: bytes) -> None:
        line = b""
        try:
            for line in self._cutter.lines(data):
                self.waiters.hand_over(line)
        except Farewell as farewell:
            self._said = str(farewell)
            self.kill()
        except Exception as error:    # Whatever it is, those who wait have to be told.
            self._said = f"what came is no answer: {line[:200]!r}: {error!r}"
            self.kill()

    def connection_lost(self, error: Exception | None) -> None:
        if error is not None and not self._said:
            self._said = str(error)
        if self._ending is None:
            self._ending = self._loop.create_task(self._come_to_end())

    async def _come_to_end(self) -> None:
        try:
            await self._note_end()
        finally:
            self.has_ended = True
            self.resume_writing()
            self.waiters.wake_all(self.end_error)
            self._end.set_result(None)

    def pause_writing(self) -> None:
        if self._room is None and not self.has_ended:
            self._room = self._loop.create_future()

    def resume_writing(self) -> None:
        room, self._room = self._room, None
        if room is not None:
            room.set_result(None)


class _InputOf(asyncio.BaseProtocol):
    """The pipe to a program, whose channel is told when it is full."""

    def __init__(self, channel: Channel) -> None:
        self._channel = channel

    def pause_writing(self) -> None:
        self._channel.pause_writing()

    def resume_writing(self) -> None:
        self._channel.resume_writing()


class Program(Channel):
    """A session over the pipes of a program that was started for it."""

    def __init__(self, command: Sequence[str], has_log: bool, told: Told) -> None:
        super().__init__(WaitersByCall(told, has_log))
        self.exit_status: int | None = None
        self._standard_error = ""
        self._process = program.Process(command)
        close_in_children(self)

    def connection_made(self, transport: asyncio.BaseTransport) -> None:
        self._answers = transport

    async def start(self) -> None:
        connect_input, connect_output = self._loop.connect_write_pipe, self._loop.connect_read_pipe
        try:
            self._writer, _ = await connect_input(lambda: _InputOf(self), self._process.input)
            await connect_output(lambda: self, self._process.output)
        except BaseException:
            self._process.kill()
            self._process.wait()
            self._process.end_input()
            self._process.take_standard_error()
            raise

    async def _note_end(self) -> None:
        if not self._writer.is_closing():
            self._writer.abort()
        if self._said:
            self._process.kill()
        self.exit_status = await self._ended()
        self._standard_error = self._process.take_standard_error() + (f"{self._said}\n" if self._said else "")

    async def _ended(self) -> int:
        """Waits until the process has ended, and ends it where it doesn't. It has closed its output, so
        this takes no time as a rule."""
        late, pause = self._loop.time() + program.GRACE, 0.0
        while (status := self._process.poll()) is None:
            if self._loop.time() > late:
                self._process.kill()
            await asyncio.sleep(pause)
            pause = min(0.05, 2 * pause + 0.001)
        return status

    def end_error(self) -> Lost:
        return Lost(self.exit_status or 0, self._standard_error)

    def end_input(self) -> None:
        self.is_closing = True
        self._writer.close()

    def kill(self) -> None:
        self._process.kill()
        self._answers.close()

    def close_in_child(self) -> None:
        self._process.close_in_child()


class Connection(Channel):
    """A session behind a socket, which others use, too."""

    def __init__(self, path: str | os.PathLike[str], told: Told) -> None:
        super().__init__(WaitersInOrder(told))
        self._path = os.fspath(path)
        self._socket = socket.socket(socket.AF_UNIX, socket.SOCK_STREAM)
        close_in_children(self)

    async def start(self) -> None:
        try:
            self._socket.setblocking(False)
            await self._connect()
        except (OSError, ValueError) as error:
            self._socket.close()
            raise NotConnected(self._path) from error
        except BaseException:
            self._socket.close()
            raise
        await self._loop.create_unix_connection(lambda: self, sock=self._socket)

    def connection_made(self, transport: asyncio.BaseTransport) -> None:
        self._writer = cast(asyncio.Transport, transport)

    async def _connect(self) -> None:
        """Connects, where need be when the server has taken some of those who wait for it already."""
        while True:
            try:
                return self._socket.connect(self._path)
            except BlockingIOError:
                await asyncio.sleep(0.01)

    def data_received(self, data: bytes) -> None:
        super().data_received(data)
        if self.is_closing and not len(self.waiters):
            self._writer.close()

    async def _note_end(self) -> None:
        self._writer.close()

    def end_error(self) -> Disconnected:
        return Disconnected(self._path, self._said)

    def end_input(self) -> None:
        if self.is_closing:
            return
        self.is_closing = True
        if self.has_ended or not len(self.waiters):
            self._writer.close()
        else:
            self._writer.write_eof()    # The last answer brings the end.

    def kill(self) -> None:
        self._writer.abort()

    def close_in_child(self) -> None:
        self._socket.close()
