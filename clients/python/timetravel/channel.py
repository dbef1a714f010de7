"""Lines that go to a session, and its answers: what a program's pipes and a socket have in common."""

from __future__ import annotations

import select
import threading
from abc import ABC, abstractmethod
from typing import Any

from .answers import Decode
from .errors import Ended, NoAnswer
from .forks import close_in_children
from .waiting import Cutter, Deadline, Farewell, Waiters, Waiting

LONG = 1_000_000    # in seconds or milliseconds as long as the system's own calls wait at a time


class Channel(ABC):
    """Lines that go to a session, who waits for the answers, and the thread that reads these."""

    def __init__(self, waiters: Waiters) -> None:
        self.waiters = waiters
        self._unsent = b""    # the rest of a line whose sender was interrupted; it goes before the next
        self._has_ended = False
        self._reader = threading.Thread(target=self._read, name="timetravel answers", daemon=True)

    # What differs

    @abstractmethod
    def descriptor(self) -> int:
        """The descriptor that is written to, and that doesn't block."""

    @abstractmethod
    def _send(self, data: bytes, sent: list[int]) -> None:
        """Writes some of the data, and appends their size to `sent`, without a step between at which a
        signal's handler could run: so it is known of each byte whether it was sent."""

    @abstractmethod
    def _receive(self) -> bytes:
        """What has come, or nothing at the end."""

    @abstractmethod
    def _reads_no_more(self) -> None:
        """The other side has ended its reading. Sees to it that the reading thread comes to the end."""

    @abstractmethod
    def _end(self, said: str) -> None:
        """Nothing more is read, since the end has come or what came is no answer. Notes why."""

    @abstractmethod
    def end_error(self) -> Ended:
        """The error of who still waits after the end."""

    @abstractmethod
    def end_input(self, deadline: Deadline | None) -> None:
        """No line follows. Each that was sent is answered."""

    @abstractmethod
    def kill(self) -> None:
        """Brings the end at once."""

    @abstractmethod
    def close_in_child(self) -> None:
        """Closes this process's ends, and nothing else."""

    # What is the same

    @property
    def has_ended(self) -> bool:
        return self._has_ended

    def put(self, line: bytes, decode: Decode[Any], waiting: Waiting, deadline: Deadline | None) -> None:
        """Sends a line. One call of this follows another."""
        if self._has_ended:
            raise self.end_error()
        data = self._unsent + line
        sent: list[int] = []
        number = self.waiters.next_number
        try:
            self.waiters.add(decode, waiting)
            self._send_all(data, sent, deadline)
            self._unsent = b""
        except NoAnswer:
            self._keep_unsent(number, data, line, sent)
            raise
        except OSError:
            self._reads_no_more()    # The reading thread wakes whoever waits, this one too.
        except BaseException:
            self._keep_unsent(number, data, line, sent)
            raise
        if self._has_ended:
            self.waiters.wake_all(self.end_error)

    def _send_all(self, data: bytes, sent: list[int], deadline: Deadline | None) -> None:
        done = 0
        while done < len(data):
            try:
                self._send(data[done:] if done else data, sent)
                done = sum(sent)
            except BlockingIOError:
                self._wait_for_room(deadline)

    def _wait_for_room(self, deadline: Deadline | None) -> None:
        poll = select.poll()
        poll.register(self.descriptor(), select.POLLOUT)
        poll.poll(None if deadline is None else min(deadline.left() * 1000, LONG))
        if deadline is not None and not deadline.left():
            raise NoAnswer(deadline.seconds)

    def _keep_unsent(self, number: int, data: bytes, line: bytes, sent: list[int]) -> None:
        """Keeps the rest of a line that is sent in part, and forgets a line that isn't sent at all."""
        rest = data[sum(sent):]
        if len(rest) >= len(line):
            rest = rest[:len(rest) - len(line)]
            self.waiters.forget_last(number)
        self._unsent = rest

    def send_rest(self, deadline: Deadline | None) -> None:
        """Sends what is left of a line that is sent in part, where there is one."""
        sent: list[int] = []
        try:
            self._send_all(self._unsent, sent, deadline)
        except NoAnswer:
            self.kill()
        except OSError:
            pass    # Nobody reads it.
        self._unsent = b""

    def start_reading(self) -> None:
        close_in_children(self)
        self._reader.start()

    def join(self, deadline: Deadline | None) -> None:
        """Waits for the end, and brings it where it doesn't come in time."""
        self._reader.join(None if deadline is None else deadline.left())
        if self._reader.is_alive():
            self.kill()
            self._reader.join()

    def _read(self) -> None:
        """The thread that reads the answers."""
        said, line, cutter = "", b"", Cutter()
        try:
            while data := self._receive():
                for line in cutter.lines(data):
                    self.waiters.hand_over(line)
        except (OSError, Farewell) as error:
            said = str(error)
        except Exception as error:    # Whatever it is, those who wait have to be told.
            said = f"what came is no answer: {line[:200]!r}: {error!r}"
        self._end(said)
        self._has_ended = True
        self.waiters.wake_all(self.end_error)
