"""Who waits for answers, how long, and how each gets its own."""

from __future__ import annotations

import os
import threading
import time
from abc import ABC, abstractmethod
from collections.abc import Callable
from concurrent.futures import Future
from typing import Any, Generic, Protocol, TypeVar

from .answers import Decode, Members, error_of, members_of
from .errors import Error, Forked, NoAnswer
from .told import Told

AnswerType = TypeVar("AnswerType")


class Deadline:
    """The end of the time that a request may take."""
    __slots__ = ("seconds", "_time")

    def __init__(self, seconds: float) -> None:
        self.seconds = seconds
        self._time = time.monotonic() + seconds

    def left(self) -> float:
        """The seconds that are left, as the waiting functions take them."""
        return min(max(0.0, self._time - time.monotonic()), threading.TIMEOUT_MAX)


def seconds_left(deadline: Deadline | None) -> float:
    """The same for locks, for which no limit is -1."""
    return -1 if deadline is None else deadline.left()


class Waiting(Protocol):
    """Who waits for an answer."""

    def set_result(self, result: Any, /) -> None: ...

    def set_exception(self, exception: Error, /) -> None: ...


class Wait(Generic[AnswerType]):
    """The answer that a method waits for: as much of a future as it needs, which takes less time."""
    __slots__ = ("_lock", "_answer", "_error")

    def __init__(self) -> None:
        self._lock = threading.Lock()
        self._lock.acquire()
        self._error: Error | None = None

    def set_result(self, result: AnswerType, /) -> None:
        self._answer = result
        self._lock.release()

    def set_exception(self, exception: Error, /) -> None:
        self._error = exception
        self._lock.release()

    def result(self, deadline: Deadline | None) -> AnswerType:
        if deadline is None:
            self._lock.acquire()
        elif not self._lock.acquire(timeout=deadline.left()):
            raise NoAnswer(deadline.seconds)
        if self._error is not None:
            raise self._error
        return self._answer


class SentFuture(Future[AnswerType]):
    """The future of a request that was sent, which can't be cancelled. In a child of the process, where
    no answer comes, it raises `Forked`."""

    def __init__(self) -> None:
        super().__init__()
        self._process = os.getpid()
        self.set_running_or_notify_cancel()

    def result(self, timeout: float | None = None) -> AnswerType:
        self._refuse_a_child()
        return super().result(timeout)

    def exception(self, timeout: float | None = None) -> BaseException | None:
        self._refuse_a_child()
        return super().exception(timeout)

    def _refuse_a_child(self) -> None:
        if os.getpid() != self._process and not self.done():
            raise Forked


class Farewell(Exception):
    """The last line of a server that closes the connection, which says why."""


class Cutter:
    """Cuts what is read, piece by piece, into lines."""
    __slots__ = ("_begun",)

    def __init__(self) -> None:
        self._begun: list[bytes] = []    # a line whose end hasn't come

    def lines(self, data: bytes) -> list[bytes]:
        """The lines that are whole now."""
        *lines, rest = data.split(b"\n")
        if self._begun and lines:
            lines[0] = b"".join((*self._begun, lines[0]))
            self._begun.clear()
        if rest:
            self._begun.append(rest)
        return lines


class Waiters(ABC):
    """Who waits, by the numbers of their lines. Lines are numbered from the opening on, which has 0.

    A thread that sends adds who waits, and looks then whether the end has come; who reads the answers
    notes the end, and wakes then whoever waits. So nobody is forgotten, and no lock is needed: each step
    on a dict is one.
    """

    def __init__(self, told: Told) -> None:
        self._waiting: dict[int, tuple[Decode[Any], Waiting]] = {}
        self._told = told
        self.next_number = 0

    @abstractmethod
    def _number(self, members: Members) -> int:
        """The number of the line that this is the answer to."""

    def __len__(self) -> int:
        return len(self._waiting)

    def add(self, decode: Decode[Any], waiting: Waiting) -> None:
        """Adds who waits for the answer to the next line."""
        self._waiting[self.next_number] = (decode, waiting)
        self.next_number += 1

    def forget_last(self, number: int) -> None:
        """The line that was to be the last one isn't sent."""
        self._waiting.pop(number, None)
        self.next_number = number

    def hand_over(self, line: bytes) -> None:
        """Gives an answer to who waits for it. Raises an exception of any kind where it is no answer."""
        members = members_of(line)
        number = self._number(members)
        decode, waiting = self._waiting[number]
        error = self._told.look(members) or error_of(members)
        if error is None:
            answer = decode(members)
            del self._waiting[number]
            waiting.set_result(answer)
        else:
            del self._waiting[number]
            waiting.set_exception(error)

    def wake_all(self, error: Callable[[], Error]) -> None:
        """No answer comes any more."""
        for number in list(self._waiting):
            found = self._waiting.pop(number, None)
            if found is not None:
                found[1].set_exception(error())


class WaitersByCall(Waiters):
    """Those of a program that is alone with its lines: its answers have the numbers of its calls."""

    def __init__(self, told: Told, has_log: bool) -> None:
        super().__init__(told)
        # The call behind the opening. Calls are counted behind those of a log, so its answer tells.
        self._first_call = None if has_log else 1

    def _number(self, members: Members) -> int:
        call: int = members.setdefault("call", 0)
        if call == 0:
            return 0
        if self._first_call is None:
            self._first_call = call
        return call - self._first_call + 1


class WaitersInOrder(Waiters):
    """Those of a connection: the numbers of calls are those of all connections together, so answers
    belong to the lines by their order."""

    def __init__(self, told: Told) -> None:
        super().__init__(told)
        self._answered = 0

    def _number(self, members: Members) -> int:
        if "closed" in members:
            raise Farewell(members["closed"])
        number = self._answered
        if number in self._waiting:
            self._answered = number + 1
        return number
