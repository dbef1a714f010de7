"""A front that takes lines from many connections, and gives each its own answers.

It is one thread around `epoll`. In each turn it reads from the connections that have sent something, hands
all whole lines on together, and gives out the answers that are there. Answers come in the order of the
lines, so a queue of connections, each with a number of lines, tells whose they are.

No connection can stop another. It may have a bounded number of lines that aren't answered, and where its
answers wait, no more is read from it. What is written to a connection never blocks.
"""

from __future__ import annotations

import errno
import heapq
import select
import socket
from collections import deque
from collections.abc import Callable
from dataclasses import dataclass
from functools import partial
from itertools import count
from time import monotonic
from typing import Protocol, Union

from .lines import BLANK, Cutter
from .metrics import Metrics, kinds_of, without_blank

WINDOW = 256    # lines of a connection that aren't answered, beyond which no more are read
HIGH = 1 << 18    # bytes of answers that wait for a connection, beyond which no more is read from it
MOST_WAITING = 1 << 26    # and beyond which it is closed
PATIENCE = 60.0    # seconds for which answers may wait without progress
LARGE_PIECE = 1 << 18    # bytes to read at once from a program, or within a long line

IN, OUT = select.EPOLLIN, select.EPOLLOUT
_HUNG_UP = select.EPOLLHUP | select.EPOLLERR
_PIECE = 1 << 14    # bytes to read from a connection at once
_LINGER = 5.0    # seconds in which a connection that is closed may read that it is

_BRACE = ord("{")
_NOT_READ = b'{"closed":"the answers were not read in time"}\n'
_TOO_MANY = b'{"closed":"too many answers were not read"}\n'

Piece = Union[bytes, memoryview]


class Connection:
    """A client's connection."""

    __slots__ = ("socket", "number", "receive", "send", "cutter", "outgoing", "outgoing_size", "unanswered",
                 "mask", "held", "ended", "gone", "hung_up", "silent", "opened", "asking", "backlog", "moved")

    def __init__(self, sock: socket.socket) -> None:
        self.socket = sock
        self.number = sock.fileno()
        self.receive = sock.recv
        self.send = sock.send
        self.cutter = Cutter()
        self.outgoing: deque[Piece] = deque()    # answers that wait
        self.outgoing_size = 0
        self.unanswered = 0
        self.mask = IN
        self.held = False    # nothing is read for now, since too much waits
        self.ended = False    # all that will be read has been read
        self.gone = False    # closed by the front
        self.hung_up = False    # closed by the client
        self.silent = False    # answers are dropped
        self.opened = False    # its lines are requests
        self.asking = False    # its first line is being answered
        self.backlog: deque[bytes] = deque()    # lines behind the first one, until that is answered
        self.moved = 0.0    # when answers that wait were last taken


@dataclass
class Question:
    """A line of the front itself, whose answer `then` takes; perhaps for a connection's `line`."""
    connection: Connection | None
    line: bytes
    then: Callable[[bytes], None]


class Backend(Protocol):
    """What answers lines. It calls the front's `answered` with whole answers in the order of the lines,
    `block` when it can take no more for now, and `unblock` when it can again."""

    def take(self, lines: bytes) -> None:
        """Takes whole lines, at any time. It never blocks."""


class Front:
    """Takes lines from connections, and gives each its answers."""

    backend: Backend | None = None

    def __init__(self, listener: socket.socket, patience: float = PATIENCE) -> None:
        self.metrics = Metrics()
        self.patience = patience
        self.listener: socket.socket | None = listener
        self.connections: dict[int, Connection] = {}
        self.order: deque[Connection | Question] = deque()    # whose answers come next
        self._numbers: deque[int] = deque()    # and how many of each
        self._timed: deque[tuple[float, list[bytes]]] = deque()    # the same lines: arrival and kinds
        self.after: list[Callable[[], None]] = []    # what is to be done at the end of this turn
        self.blocked = False
        self.stopping = False
        self.now = monotonic()
        self._epoll = select.epoll()
        self._handlers: dict[int, Callable[[int], None]] = {}
        self._alarms: list[tuple[float, int, Callable[[], None]]] = []
        self._alarm_numbers = count()
        self._batch: list[bytes] = []    # lines of this turn
        self._paused: set[Connection] = set()    # not read because the backend is blocked
        self._slow: set[Connection] = set()    # those with answers that wait
        self._looking = False
        self.watch(listener.fileno(), IN, lambda _: self.after.append(self._accept))

    def first_line(self, connection: Connection, line: bytes) -> None:
        """Answers a line of a connection that isn't opened yet, or sets `asking` until it can."""
        raise NotImplementedError

    # The loop

    def watch(self, descriptor: int, mask: int, handler: Callable[[int], None]) -> None:
        self._handlers[descriptor] = handler
        self._epoll.register(descriptor, mask)

    def unwatch(self, descriptor: int) -> None:
        if self._handlers.pop(descriptor, None) is not None:
            self._epoll.unregister(descriptor)

    def at(self, when: float, alarm: Callable[[], None]) -> None:
        """Calls `alarm` at this time of the monotonic clock."""
        heapq.heappush(self._alarms, (when, next(self._alarm_numbers), alarm))

    def turn(self) -> None:
        """Waits until something is to be done, and does it."""
        wait = None
        if self.after:    # an action at the end of the last turn has left another
            wait = 0.0
        elif self._alarms:
            wait = max(0.0, self._alarms[0][0] - monotonic())
        events = self._epoll.poll(wait)
        self.now = monotonic()
        connections = self.connections
        for descriptor, what in events:
            connection = connections.get(descriptor)
            if connection is not None:
                if what == IN and not self.blocked:    # as nearly always
                    self._read(connection)
                else:
                    self._ready(connection, what)
            elif descriptor in self._handlers:
                self._handlers[descriptor](what)
        self._forward_batch()
        if self.after:
            after, self.after = self.after, []
            for action in after:
                action()
        while self._alarms and self._alarms[0][0] <= self.now:
            heapq.heappop(self._alarms)[2]()
        self._forward_batch()

    def _forward_batch(self) -> None:
        if self._batch and self.backend is not None:
            lines = self._batch[0] if len(self._batch) == 1 else b"".join(self._batch)
            self._batch.clear()
            self._timed.append((self.now, kinds_of(lines)))
            self.backend.take(lines)

    # Reading

    def _accept(self) -> None:
        for _ in range(64):
            if self.listener is None:
                return
            try:
                sock, _address = self.listener.accept()
            except BlockingIOError:
                return
            except OSError as error:
                if error.errno in (errno.EMFILE, errno.ENFILE, errno.ENOMEM, errno.ENOBUFS):
                    self.unwatch(self.listener.fileno())    # it would be ready again at once
                    self.at(self.now + 0.1, self._listen_again)
                    return
                continue    # this one has hung up already
            sock.setblocking(False)
            connection = Connection(sock)
            self.connections[connection.number] = connection
            self._epoll.register(connection.number, IN)
            self.metrics.accepted += 1

    def _listen_again(self) -> None:
        if self.listener is not None:
            self.watch(self.listener.fileno(), IN, lambda _: self.after.append(self._accept))

    def _ready(self, connection: Connection, what: int) -> None:
        if what & OUT:
            self._flush(connection)
            if connection.gone:
                return
        if what & _HUNG_UP:
            self._hang_up(connection)
        elif what & IN:
            if self.blocked:
                self._paused.add(connection)
                self._set_mask(connection, connection.mask & ~IN)
            else:
                self._read(connection)

    def _read(self, connection: Connection) -> None:
        begun = connection.cutter.begun
        try:
            data = connection.receive(_PIECE if begun <= _PIECE else LARGE_PIECE)
        except BlockingIOError:
            return
        except OSError:
            data = b""
        if connection.opened and not begun and data.endswith(b"\n"):
            self._forward(connection, data)
            if connection.unanswered >= WINDOW:
                self.settle(connection)
        else:
            self._arrived(connection, data)
            self.settle(connection)

    def _arrived(self, connection: Connection, data: bytes) -> None:
        if data:
            lines = connection.cutter.take(data)
        else:
            connection.ended = True
            lines = connection.cutter.finish()
        if not lines:
            return
        if connection.opened:
            self._forward(connection, lines)
        else:
            connection.backlog.extend(line for line in lines.split(b"\n") if line.strip(BLANK))
            self.first_lines(connection)

    def first_lines(self, connection: Connection) -> None:
        """Answers the lines of a connection until one has opened it or is being answered. Those behind the
        one that has opened it go on to the backend."""
        backlog = connection.backlog
        while backlog and not connection.opened and not connection.asking:
            self.first_line(connection, backlog.popleft())
        if backlog and connection.opened:
            lines = b"".join(line + b"\n" for line in backlog)
            backlog.clear()
            self._forward(connection, lines)
        self.settle(connection)

    def _forward(self, connection: Connection, lines: bytes) -> None:
        number = lines.count(b"\n")
        if lines[0] != _BRACE or (number > 1 and lines.count(b"\n{") != number - 1):
            lines, number = without_blank(lines)
        if number:
            connection.unanswered += number
            self.order.append(connection)
            self._numbers.append(number)
            self._batch.append(lines)

    def ask(self, connection: Connection | None, line: bytes, asked: bytes,
            then: Callable[[bytes], None]) -> None:
        """Asks the backend by the line `asked`, for a connection's `line`."""
        assert self.backend is not None
        if connection is not None:
            connection.asking = True
        self._forward_batch()    # what is before it
        self.order.append(Question(connection, line, then))
        self._numbers.append(1)
        self._timed.append((self.now, [b""]))
        self.backend.take(asked + b"\n")

    def _hang_up(self, connection: Connection) -> None:
        """The client has closed the connection. What it sent before is carried out."""
        self._silence(connection)
        connection.hung_up = True
        self._epoll.unregister(connection.number)
        if self.blocked and not connection.ended:
            self._paused.add(connection)
        else:
            self._read_rest(connection)

    def _read_rest(self, connection: Connection) -> None:
        while not connection.ended:
            try:
                data = connection.receive(LARGE_PIECE)
            except OSError:
                data = b""
            self._arrived(connection, data)
        self.settle(connection)

    def block(self) -> None:
        """Reads nothing from connections for now."""
        self.blocked = True

    def unblock(self) -> None:
        if not self.stopping:
            self.blocked = False
            paused, self._paused = self._paused, set()
            for connection in paused:
                if connection.hung_up:
                    self._read_rest(connection)
                else:
                    self.settle(connection)

    # Answering

    def answered(self, answers: bytes) -> None:
        """Gives out whole answers, each with its line feed, in the order of the lines."""
        number = answers.count(b"\n")
        self._measure_answers(answers, number)
        order, numbers = self.order, self._numbers
        lines: list[bytes] = []
        at = 0
        while at < number:
            whose, some = order[0], numbers[0]
            if some <= number - at:
                order.popleft()
                numbers.popleft()
            else:
                some = number - at
                numbers[0] -= some
            if some == number:
                piece = answers
            else:
                lines = lines or answers.splitlines(keepends=True)    # no other ends of lines are in them
                piece = lines[at] if some == 1 else b"".join(lines[at:at + some])
            at += some
            if isinstance(whose, Connection):
                self.give(whose, piece, some)
            else:
                whose.then(piece[:-1])

    def _measure_answers(self, answers: bytes, number: int) -> None:
        self.metrics.look(answers)
        now = monotonic()
        timed = self._timed
        while number:
            began, kinds = timed.popleft()
            if len(kinds) > number:
                timed.appendleft((began, kinds[number:]))
                kinds = kinds[:number]
            number -= len(kinds)
            self.metrics.answered(kinds, now - began)

    def give_up(self) -> list[tuple[Connection | Question, int]]:
        """Takes out whose lines aren't answered, and how many of each: the backend won't answer them."""
        taken = list(zip(self.order, self._numbers))
        self.order.clear()
        self._numbers.clear()
        self._timed.clear()
        self._batch.clear()
        return taken

    def give(self, connection: Connection, answers: bytes, number: int) -> None:
        """Gives a connection the answers of this number of its requests."""
        connection.unanswered -= number
        if connection.silent:
            return
        outgoing = connection.outgoing
        if not outgoing:
            try:
                sent = connection.send(answers)
            except BlockingIOError:
                sent = 0
            except OSError:
                self._silence(connection)
                self.settle(connection)
                return
            if sent == len(answers):
                if connection.held or connection.ended:
                    self.settle(connection)
                return
            connection.moved = self.now
            self._slow.add(connection)
            self._look_for_slow_ones()
            outgoing.append(memoryview(answers)[sent:])
            connection.outgoing_size = len(answers) - sent
        elif connection.outgoing_size > MOST_WAITING:    # one answer may be of any length
            self._expel(connection, _TOO_MANY, "too many answers")
            return
        else:
            outgoing.append(answers)
            connection.outgoing_size += len(answers)
        self.settle(connection)

    def say(self, connection: Connection, answer: bytes) -> None:
        """Gives a connection an answer to a line that isn't a request."""
        self.give(connection, answer + b"\n", 0)

    def _flush(self, connection: Connection) -> None:
        outgoing = connection.outgoing
        while outgoing:
            piece = outgoing[0]
            try:
                sent = connection.send(piece)
            except BlockingIOError:
                break
            except OSError:
                self._silence(connection)
                break
            connection.moved = self.now
            connection.outgoing_size -= sent
            if sent < len(piece):
                outgoing[0] = memoryview(piece)[sent:]
                break
            outgoing.popleft()
        if not outgoing:
            self._slow.discard(connection)
        self.settle(connection)

    def settle(self, connection: Connection) -> None:
        """Reads from a connection, writes to it, or closes it, as its state wants it."""
        if connection.gone:
            return
        if connection.held:
            connection.held = connection.unanswered >= WINDOW // 2 or connection.outgoing_size > HIGH // 2
        else:
            connection.held = connection.unanswered >= WINDOW or connection.outgoing_size > HIGH
        if connection.ended and not (connection.outgoing or connection.asking or connection.backlog):
            if connection.silent or not connection.unanswered:
                self.drop(connection)
                return
        reading = not (connection.held or connection.ended or connection.asking)
        self._set_mask(connection, (IN if reading else 0) | (OUT if connection.outgoing else 0))

    def _set_mask(self, connection: Connection, mask: int) -> None:
        if mask != connection.mask and not connection.hung_up:
            connection.mask = mask
            self._epoll.modify(connection.number, mask)

    def drop(self, connection: Connection) -> None:
        """Closes a connection. Answers of its lines that are still on their way are dropped."""
        if connection.gone:
            return
        self._silence(connection)
        connection.gone = True
        connection.backlog.clear()
        connection.cutter = Cutter()
        if not connection.hung_up:
            self._epoll.unregister(connection.number)
        del self.connections[connection.number]
        self._paused.discard(connection)
        connection.socket.close()

    def _silence(self, connection: Connection) -> None:
        connection.silent = True
        connection.outgoing.clear()
        connection.outgoing_size = 0
        self._slow.discard(connection)

    # Connections that don't read

    def _look_for_slow_ones(self) -> None:
        """While answers wait, looks now and then whether they go on."""
        if not self._looking and self._slow:
            self._looking = True
            self.at(self.now + min(1.0, self.patience / 4), self._close_slow_ones)

    def _close_slow_ones(self) -> None:
        self._looking = False
        for connection in [one for one in self._slow if self.now - one.moved > self.patience]:
            self._expel(connection, _NOT_READ, "answers not read")
        self._look_for_slow_ones()

    def _expel(self, connection: Connection, why: bytes, cause: str) -> None:
        """Closes a connection after the rest of the answer that has begun, and a line that says why, if it
        reads them soon."""
        self.metrics.closings[cause] += 1
        first = connection.outgoing[0]
        begun = isinstance(first, memoryview)
        rest = _first_line(first) if begun else b""
        self._silence(connection)
        connection.ended = True
        connection.backlog.clear()
        if self.stopping:
            self.drop(connection)
            return
        connection.outgoing.append(rest + why)
        connection.outgoing_size = len(rest) + len(why)
        self.at(self.now + _LINGER, partial(self.drop, connection))
        self.settle(connection)


def _first_line(piece: Piece) -> bytes:
    data = bytes(piece)
    return data[:data.index(b"\n") + 1]
