"""A replica: a session that is fed with etcd's log of entries, and serves clients as `serve` does.

Lines of clients go into the log of entries, and are answered when the replica's own session has carried
them out as a part of it. So all replicas' sessions get the same lines in the same order. Lines that only
read may go to this replica's session alone, where their connection has chosen so.
"""

from __future__ import annotations

import json
import os
import select
import socket
from collections import deque
from collections.abc import Callable, Iterator, Sequence
from dataclasses import dataclass
from functools import partial
from time import monotonic
from typing import Any

from .etcd import Access, Entries, Etcd
from .following import LONGEST, Follower, Found, Started
from .front import PATIENCE, Connection
from .joining import (
    MISSING_VERSION, Judge, flag, is_request, is_status, refusal, strictly, without_call, without_log)
from .lines import BLANK, Notifier, SocketError, handed_over, listen
from .metrics import command_log, kinds_of, one
from .positions import Forgetting, LogFile, PositionError, read_position
from .serving import (
    FIRST_PAUSE, LONGEST_PAUSE, MEASURING, STATUS, STOPPING, TRIES, Program, Server, Signals, complain,
    exit_status, how_ended)

BOUND = 10.0    # seconds after which a request is given up that etcd hasn't taken

_os: Any = os    # with `eventfd`, which some type checkers don't know of it
_LOOK = 0.25    # seconds between looks for requests that are to be given up
_FAILING = 2.0    # seconds for which etcd may fail before that is told
_NOTE = 1.0    # seconds between positions
_MOST_FED = 1 << 20    # bytes of entries that the session has to answer, beyond which it gets no further
_READS = {b"select", b"preview", b"status", b"slots", b"changes", b"tables", b"why", b"diff", b"would"}
_READ = b'"read"'
_MEMORY = b',"refused":"memory"}'
_NO_LOG = b',"refused":"log"}'
_NO_ETCD = b'{"lost":"etcd has not answered in time"}\n'
_TOO_LONG = b'{"refused":"too long for a replica","limit":%d}' % LONGEST
_NOT_JUDGED = b'{"refused":"memory"}'    # no program could be asked
_WRONG_READ = b'{"fault":{"path":"$.read","cause":"out of range"}}'


@dataclass
class LocalRead:
    """A line for this replica's session alone."""
    line: bytes
    then: Callable[[bytes], None]


@dataclass(eq=False)
class Part:
    """Lines of an entry that are fed together."""
    lines: bytes
    number: int    # how many lines
    own: int | None    # the number of the first one where they are requests of this replica
    next: int    # the first entry that isn't carried out as a whole behind them
    part: int    # and how many of its lines are
    forgets: int | None = None    # the time up to which the session is to forget: there is one line then


@dataclass
class Fed:
    """Lines of an entry that the session is to answer."""
    part: Part
    number: int    # how many lines
    own: int | None    # the number of the first one where they are requests of this replica


class Replica(Server):
    """A server whose lines go through etcd's log of entries."""

    def __init__(self, listener: socket.socket, command: Sequence[str], entries: Entries, *,
                 path: str | None = None, log: LogFile | None = None, bound: float = BOUND,
                 patience: float = PATIENCE, notifier: Notifier | None = None) -> None:
        super().__init__(listener, command, path=path, patience=patience, notifier=notifier)
        self._file = log
        self._bound = bound
        self._event: int = _os.eventfd(0, _os.EFD_NONBLOCK | _os.EFD_CLOEXEC)
        self._follower = Follower(entries, self._wake, log)
        self._run = 0    # which run of the session is fed
        self._is_open = False    # the session is open
        self._ignoring = False    # the session is being ended
        self._fed: deque[Fed | LocalRead] = deque()    # what the session has to answer
        self._fed_size = 0
        self._first_entry = b""    # the opening that is in etcd
        self._parts: deque[Part] = deque()    # of an entry, to be fed
        self._forgetting: Part | None = None    # the next one, before which the session is at rest
        self._refusals = 0    # in a row, of a session that couldn't make its log anew
        self._fed_next = 0    # the entry that comes next
        self._fed_part = 0    # and how many of its lines were fed
        self._answered_next = 0    # the first entry that isn't answered as a whole
        self._first_behind_log = 0    # the first entry that isn't in the log as a whole
        self._first_part = 0    # and how many of its lines were carried out
        self._floor: int | None = None    # the entry before which nothing may be read any more
        self._next_number = 1    # of the next request
        self._next_answer = 1    # of the first request that isn't answered
        self._arrivals: deque[list[float]] = deque()    # when these arrived, and how many did
        self._holding = False    # nothing further is to be fed for now
        self._at_rest: Callable[[], None] | None = None    # what is done when all that was fed is answered
        self._noted = 0
        self._proposing = False
        self._told_failing = False
        self._local: deque[LocalRead] = deque()    # reads that wait for the session
        self._joined: set[Connection] = set()    # connections whose opening was answered
        self._at_replica: set[Connection] = set()    # those that read here
        self._held: dict[Connection, bytes] = {}    # lines that wait for answers to those before them
        self.backend = self

    # Start and end

    def run(self) -> int:
        self.watch(self._event, select.EPOLLIN, self._woken)
        self._starting = True
        self.at(monotonic() + _LOOK, self._look_for_late)
        if self._file is not None:
            self.at(monotonic() + _NOTE, self._note_later)
        try:
            return super().run()
        finally:
            self._follower.stop()

    def _wake(self) -> None:
        _os.eventfd_write(self._event, 1)

    def _start_program(self) -> None:
        """Begins to feed a new session. The program is started once its log is ready for it."""
        self._is_open = self._ignoring = self._holding = False
        self._at_rest = self._forgetting = None
        self._fed.clear()
        self._parts.clear()
        self._fed_size = self._fed_next = self._fed_part = self._answered_next = 0
        self._run = self._follower.restart()

    def _start_session(self, next_entry: int, part: int) -> None:
        try:
            self._program = Program(self, self._command, self._session_ended, self._session_answered)
        except OSError as error:
            self._fail(f"cannot start {self._command[0]}: {error.strerror}")
            return
        self._first_behind_log, self._first_part = next_entry, part
        self.metrics.starts += 1

    def _session_ended(self, status: int) -> None:
        self._program = None
        if self._closed_input:
            self.status = self.status or exit_status(status)
            if status == 0 and not self._fed:
                self._note()
            self._stop_by = self.now + STOPPING
            self.at(self._stop_by + 0.01, lambda: None)
            return
        recovered = self._is_open and self._answered_next >= (self._floor or 0)
        self._failures = 0 if recovered else self._failures + 1
        if self._failures >= TRIES:
            self._fail(f"the session has ended with {how_ended(status)}")
            return
        complain(f"the session has ended with {how_ended(status)}, and is started again")
        self.unblock()    # the pipe that was full is gone
        self._begin_again()

    def _begin_again(self) -> None:
        self._floor = max(self._floor or 0, self._fed_next + (self._fed_part > 0))
        self._forgetting = self._at_rest = None
        self._holding = False
        self._parts.clear()    # they come again
        reads = [fed for fed in self._fed if isinstance(fed, LocalRead)]
        self._fed.clear()
        for read in reads:
            self._wait_to_read(read)
        self._starting = True
        self._is_open = False
        self._notify()
        pause = min(FIRST_PAUSE * 2 ** self._failures, LONGEST_PAUSE)
        self.at(self.now + pause, self._start_program)

    def _fail(self, why: str) -> None:
        """Ends, since it can't go on."""
        complain(why)
        self.status = 1
        self._done = True

    def _stop_if_idle(self) -> None:
        if self._program is None and self._closed_input:
            super()._stop_if_idle()
            return
        busy = self.order or self._waiting or self._local or self._held
        if busy or any(isinstance(fed, LocalRead) for fed in self._fed):
            return
        if self._program is None:
            self._done = True
        elif not self._closed_input:
            self._closed_input = True
            self._program.close_input()

    # Lines

    def take(self, lines: bytes) -> None:
        """Takes requests for the log of entries."""
        requests = list(enumerate(lines[:-1].split(b"\n"), self._next_number))
        self._next_number += len(requests)
        self._arrivals.append([self.now, len(requests)])
        self._follower.append(requests)

    def _forward(self, connection: Connection, lines: bytes) -> None:
        if len(lines) <= LONGEST and _READ not in lines:
            super()._forward(connection, lines)    # as nearly always
            return
        rest = deque(line for line in lines.split(b"\n") if line.strip(BLANK))
        plain = []
        while rest and not _is_special(rest[0]):
            plain.append(rest.popleft() + b"\n")
        if plain:
            super()._forward(connection, b"".join(plain))
        if rest:
            connection.opened = False    # until the front has answered the first of them
            connection.backlog.extend(rest)
            self.first_lines(connection)

    def first_line(self, connection: Connection, line: bytes) -> None:
        if connection.unanswered:
            connection.asking = True
            self._held[connection] = line
        elif len(line) > LONGEST:
            self._say(connection, _TOO_LONG)
        elif (reads := _reads(line)) is not None:
            self._choose(connection, reads)
        elif connection in self._joined:
            self._request(connection, line)
        else:
            self._unopened_line(connection, line)

    def give(self, connection: Connection, answers: bytes, number: int) -> None:
        super().give(connection, answers, number)
        if connection in self._held and not connection.unanswered:
            self.at(self.now, partial(self._go_on_with_held, connection))

    def _go_on_with_held(self, connection: Connection) -> None:
        line = self._held.pop(connection, None)
        if line is not None and not connection.gone:
            connection.asking = False
            connection.backlog.appendleft(line)
            self.first_lines(connection)

    def drop(self, connection: Connection) -> None:
        super().drop(connection)
        self._held.pop(connection, None)
        self._joined.discard(connection)
        self._at_replica.discard(connection)

    def _say(self, connection: Connection, answer: bytes) -> None:
        """Answers a line in place of the session."""
        self.say(connection, answer)
        self._set_opened(connection)

    def _set_opened(self, connection: Connection) -> None:
        """Lets the lines of a connection go to the log as they come, where nothing is in the way."""
        special = connection.backlog and _is_special(connection.backlog[0])
        connection.opened = (connection in self._joined and connection not in self._at_replica
                             and not special)

    def _choose(self, connection: Connection, reads: object) -> None:
        if reads == "replica":
            self._at_replica.add(connection)
        elif reads == "log":
            self._at_replica.discard(connection)
        else:
            self._say(connection, _WRONG_READ)
            return
        self._say(connection, b'{"reads":"%s"}' % str(reads).encode())

    def _request(self, connection: Connection, line: bytes) -> None:
        """Answers a request of a connection that reads at this replica, and asks one at a time."""
        kinds = kinds_of(line + b"\n")
        if kinds[0] in _READS:
            connection.asking = True
            self._read_here(line, partial(self._tell, connection, kinds, self.now))
        else:
            self.ask(connection, line, line, partial(self._tell, connection, kinds, self.now))

    def _tell(self, connection: Connection, kinds: list[bytes], began: float, answer: bytes) -> None:
        self.metrics.answered(kinds, monotonic() - began)
        connection.asking = False
        self.say(connection, answer)
        self.first_lines(connection)

    # Openings

    def _unopened_line(self, connection: Connection, line: bytes) -> None:
        value = strictly(line)
        joins = flag(value, "join")
        if flag(value, "metrics"):
            self._measure(connection)
        elif is_request(line) and not joins:
            self.metrics.faults += 1
            self._answer_first(connection, MISSING_VERSION)
        elif self._opening_line is None:
            if joins and self._follower.at_end:
                self.metrics.refusals["not open"] += 1
                self._answer_first(connection, refusal("not open"))
            else:
                self._wait_for_opening(connection, line, joins)
        elif joins or line == self._opening_line:
            self._join(connection)
        else:
            connection.asking = True
            self._read_here(line, partial(self._judged, connection))

    def _judged(self, connection: Connection, answer: bytes) -> None:
        """This replica's session has judged an opening, which is no entry."""
        self.metrics.look(answer)
        if is_status(answer) and connection not in self._at_replica:
            self._join(connection)
        else:
            self._answer_first(connection, without_call(answer))

    def _wait_for_opening(self, connection: Connection, line: bytes, joins: bool) -> None:
        connection.asking = True
        self._waiting.append((connection, line))
        self.at(self.now + self._bound, partial(self._give_up_opening, connection, line))
        if self._follower.at_end and not joins and not self._proposing:
            self._proposing = True
            judged = partial(self._proposed, connection, line)
            try:
                Judge(self, without_log(self._command), line, judged)
            except OSError:
                judged(b"")

    def _proposed(self, connection: Connection, line: bytes, answer: bytes) -> None:
        """A fresh program has judged an opening. One without a fault goes to the first entry."""
        if is_status(answer):
            self._follower.open(line)
            return
        self._proposing = False
        self._end_waiting(connection, line, answer or _NOT_JUDGED)
        self._release()

    def _give_up_opening(self, connection: Connection, line: bytes) -> None:
        self._end_waiting(connection, line, _NO_ETCD[:-1])

    def _end_waiting(self, connection: Connection, line: bytes, answer: bytes) -> None:
        if (connection, line) in self._waiting:
            self._waiting.remove((connection, line))
            if not connection.gone:
                self._answer_first(connection, answer)

    def _answer_first(self, connection: Connection, answer: bytes) -> None:
        if is_status(answer) and not connection.gone:
            self._joined.add(connection)
        connection.asking = False
        self._say(connection, answer)
        self.first_lines(connection)

    def _join(self, connection: Connection) -> None:
        """Answers by the status. Where the connection reads through the log, this does, too."""
        if connection in self._at_replica:
            connection.asking = True
            self._read_here(STATUS, partial(self._joined_by, connection))
        else:
            self.ask(connection, STATUS, STATUS, partial(self._joined_by, connection))

    def _joined_by(self, connection: Connection, answer: bytes) -> None:
        self._answer_first(connection, without_call(answer))

    # Feeding

    def _woken(self, _: int) -> None:
        _os.eventfd_read(self._event)
        self.after.append(self._feed)

    def _feed(self) -> None:
        """Feeds the session with what the follower has found, as far as there is room."""
        if self._follower.fatal:
            self._fail(self._follower.fatal)
            return
        while not self._holding and self._fed_size <= _MOST_FED and not self._closed_input:
            if self._parts:
                self._feed_part(self._parts.popleft())
                continue
            found = self._follower.found()
            if found is None:
                break
            if found.run != self._run:
                continue
            if isinstance(found, Started):
                self._start_session(found.number, found.part)
            elif self._program is not None:
                self._parts.extend(self._parts_of(found))
        if self._follower.at_end and not self._holding and not self._parts:
            self._reached_end()

    def _parts_of(self, entry: Found) -> Iterator[Part]:
        """What is fed of an entry, one part after the other. A line that forgets is fed alone where there
        is a log."""
        if entry.number == 0:
            self._first_entry = entry.lines.partition(b"\n")[0]
            yield Part(entry.lines, entry.requests, entry.own, max(1, self._first_behind_log),
                       self._first_part)
            return
        lines, done = entry.lines, 0
        if entry.number == self._first_behind_log and self._first_part:
            done = self._first_part
            lines = b"".join(_lines(lines)[done:])
        for piece, time in _alone(lines) if self._file is not None else ((lines, None),):
            own = None if entry.own is None else entry.own + done
            number = piece.count(b"\n")
            done += number
            whole = done >= entry.requests
            yield Part(piece, number, own, entry.number + whole, 0 if whole else done, time)

    def _feed_part(self, part: Part) -> None:
        if part.forgets is None:
            self._fed_next, self._fed_part = part.next, part.part
            self._put(part)
        else:
            self._forgetting = part
            self._rest(self._ask_before_forgetting)

    def _put(self, part: Part) -> None:
        assert self._program is not None
        self._fed.append(Fed(part, part.number, part.own))
        self._fed_size += len(part.lines)
        self._program.take(part.lines)

    def _reached_end(self) -> None:
        """The session has been fed with all that etcd had at a time after the replica's start."""
        if self._floor is None and self._fed_size <= _MOST_FED:
            self._floor = self._fed_next
        if self._floor is not None and self._fed_next >= self._floor:
            if self._starting and (self._is_open or not self._fed_next):
                self._starting = False
                self._notify()
            if self._opening_line is None and self._waiting and not self._proposing and not self._fed:
                self._release()
            self._read_waiting()

    def _session_answered(self, answers: bytes) -> None:
        """Takes whole answers of the session."""
        if self._ignoring:
            return
        number, at = answers.count(b"\n"), 0
        suspicious = _MEMORY in answers
        lines: list[bytes] = []    # they aren't needed while all are of entries of others
        while at < number:
            fed = self._fed[0]
            if suspicious or self._is_asked(fed):
                lines = lines or answers.splitlines(keepends=True)    # no other ends of lines are in them
            if isinstance(fed, LocalRead):
                self._fed.popleft()
                fed.then(lines[at][:-1])
                at += 1
                continue
            some = min(fed.number, number - at)
            if suspicious and any(line.endswith(_MEMORY + b"\n") for line in lines[at:at + some]):
                self._end_session_without_memory()
                return
            if fed.part.forgets is not None:
                if lines[at].endswith(_NO_LOG + b"\n"):
                    self._has_not_forgotten(fed)
                    at += 1
                    continue
                self._has_forgotten(fed.part)
            self._entry_answered(fed, some, lines[at:at + some])
            at += some
        self._feed()
        self._look_whether_at_rest()

    def _is_asked(self, fed: Fed | LocalRead) -> bool:
        """Whether what the session answers to this is to be looked at."""
        return (isinstance(fed, LocalRead) or fed.own is not None or fed.part.forgets is not None
                or not self._is_open)

    def _entry_answered(self, fed: Fed, some: int, lines: list[bytes]) -> None:
        """The session has answered this many lines of an entry: by `lines`, where they were asked for."""
        own = fed.own
        if some == fed.number:
            self._is_answered(fed)
            self._answered_next = fed.part.next
        else:
            fed.number -= some
            fed.own = None if own is None else own + some
        if not self._is_open:
            self._opening_answered(lines[0])
        elif own is not None:
            self._own_answered(own, lines)

    def _is_answered(self, fed: Fed) -> None:
        self._fed.popleft()
        self._fed_size -= len(fed.part.lines)

    def _own_answered(self, first: int, answers: list[bytes]) -> None:
        """Gives out the answers of this replica's requests from `first` on, but for those that have one."""
        answers = answers[max(0, self._next_answer - first):]
        if answers:
            self._count_answers(len(answers))
            self.answered(b"".join(answers))

    def _count_answers(self, number: int) -> None:
        self._next_answer += number
        while number:
            arrived = self._arrivals[0]
            taken = min(number, int(arrived[1]))
            arrived[1] -= taken
            number -= taken
            if not arrived[1]:
                self._arrivals.popleft()

    def _opening_answered(self, answer: bytes) -> None:
        if not is_status(answer):
            self._fail("the session doesn't take the opening that is in etcd: "
                       + answer[:1000].decode(errors="replace").rstrip())
            return
        self._is_open = True
        if self._opening_line is None:
            self._opening_line = self._first_entry
            self._proposing = False
            self._release()
        if self._follower.at_end:
            self._reached_end()

    def _end_session_without_memory(self) -> None:
        """The session has refused a line of the log for want of memory, and so isn't a replica any more."""
        complain("the session is out of memory, and is ended")
        self._ignoring = True
        assert self._program is not None
        self._program.kill()

    # Coming to rest, and forgetting

    def _rest(self, then: Callable[[], None]) -> None:
        """Feeds nothing further, and calls `then` once all that was fed is answered."""
        self._holding, self._at_rest = True, then
        self._look_whether_at_rest()

    def _look_whether_at_rest(self) -> None:
        if self._at_rest is not None and not self._fed_size:
            then, self._at_rest = self._at_rest, None
            then()

    def _ask_before_forgetting(self) -> None:
        """The session is to forget next. Its status tells which log it will make."""
        self._feed_read(LocalRead(STATUS, partial(self._note_before_forgetting, self._forgetting)))

    def _note_before_forgetting(self, part: Part | None, answer: bytes) -> None:
        if part is None or not self._may_forget(part):
            return
        status = json.loads(answer)
        if "time" not in status:
            self._end_session_without_memory()
            return
        assert part.forgets is not None
        if self._write_position(Forgetting(part.forgets, status["time"], status["generation"])):
            self._put(part)

    def _may_forget(self, part: Part) -> bool:
        """Whether this is still what the session is to be fed with next."""
        return (self._forgetting is part and self._program is not None and not self._ignoring
                and not self._closed_input)

    def _has_forgotten(self, part: Part) -> None:
        """The session has answered a line that forgets, and its log is perhaps a new one."""
        self._forgetting, self._refusals = None, 0
        self._holding = False
        self._fed_next, self._fed_part = part.next, part.part
        self._write_position(anew=True)

    def _has_not_forgotten(self, fed: Fed) -> None:
        """The session couldn't make its log anew. Others have forgotten, so it is asked again before it
        gets anything further; and where it can't after some tries, this replica ends."""
        self._is_answered(fed)
        assert self._file is not None
        self._refusals += 1
        if self._refusals >= TRIES:
            self._fail(f"the session can't make {self._file.path} anew, and so can't forget")
            return
        complain(f"the session can't make {self._file.path} anew to forget, and is asked again")
        pause = min(FIRST_PAUSE * 2 ** (self._refusals - 1), LONGEST_PAUSE)
        self.at(self.now + pause, partial(self._forget_again, fed.part))

    def _forget_again(self, part: Part) -> None:
        if self._may_forget(part):
            self._put(part)

    # Reads at this replica

    def _read_here(self, line: bytes, then: Callable[[bytes], None]) -> None:
        read = LocalRead(line, then)
        if self._local or not self._can_read():
            self._wait_to_read(read)
        else:
            self._feed_read(read)

    def _can_read(self) -> bool:
        """Whether the session is as far as whatever was answered by this replica."""
        return (self._floor is not None and self._fed_next >= self._floor and self._is_open
                and not self._ignoring and self._program is not None)

    def _feed_read(self, read: LocalRead) -> None:
        assert self._program is not None
        self._fed.append(read)
        self._program.take(read.line + b"\n")

    def _wait_to_read(self, read: LocalRead) -> None:
        self._local.append(read)
        self.at(self.now + self._bound, partial(self._give_up_read, read))

    def _read_waiting(self) -> None:
        while self._local and self._can_read():
            self._feed_read(self._local.popleft())

    def _give_up_read(self, read: LocalRead) -> None:
        if any(waiting is read for waiting in self._local):
            self._local = deque(waiting for waiting in self._local if waiting is not read)
            read.then(b'{"lost":"the replica is being fed"}')

    # Requests that etcd doesn't take

    def _look_for_late(self) -> None:
        """Answers requests that have waited too long for etcd. Those before them have been answered."""
        self.at(self.now + _LOOK, self._look_for_late)
        self._tell_of_etcd()
        failing = self._follower.failing and self.now - self._follower.failing_since > self._bound
        if not (self._follower.at_end or failing) or self._is_carrying_out():
            return
        late = 0
        for arrived, number in self._arrivals:
            if self.now - arrived <= self._bound:
                break
            late += int(number)
        if late:
            self._count_answers(late)
            self._follower.forget(self._next_answer)
            self.metrics.lost += late
            self.answered(_NO_ETCD * late)

    def _is_carrying_out(self) -> bool:
        """Whether the session is to answer requests of this replica that are in the log of entries."""
        parts = [*self._parts] if self._forgetting is None else [self._forgetting, *self._parts]
        return (any(isinstance(fed, Fed) and fed.own is not None for fed in self._fed)
                or any(part.own is not None for part in parts))

    def _tell_of_etcd(self) -> None:
        """Says on standard error when etcd has failed for a while, and when it is back."""
        failing = self._follower.failing
        if failing and not self._told_failing and self.now - self._follower.failing_since > _FAILING:
            self._told_failing = True
            complain(f"etcd doesn't answer: {failing}")
        elif not failing and self._told_failing:
            self._told_failing = False
            complain("etcd answers again")

    # Positions

    def _note_later(self) -> None:
        self.at(self.now + _NOTE, self._note_later)
        if self._is_open and not self._ignoring and not self._holding and self._fed_next > self._noted:
            self._rest(self._note)

    def _note(self) -> None:
        """Writes the position: the session has answered all that it was fed with."""
        self._holding = False
        self._write_position()
        if not self._closed_input:
            self._feed()

    def _write_position(self, forgetting: Forgetting | None = None, anew: bool = False) -> bool:
        """Writes the position of a session that is at rest. Ends where it can't, and tells whether it
        could."""
        if self._file is None or not self._is_open:
            return False
        try:
            self._file.note(self._fed_next, self._fed_part, forgetting, anew)
        except OSError as error:
            self._fail(f"cannot write {self._file.position_path}: {error.strerror}")
            return False
        self._noted = self._fed_next
        return True

    # Metrics

    def _measure(self, connection: Connection) -> None:
        connection.asking = True
        told = False

        def tell(answer: bytes) -> None:
            nonlocal told
            if not told:
                told = True
                status = answer if b'"time":' in answer[:64] else b"{}"
                self._tell_metrics(connection, json.loads(status))

        if self._is_open:
            self._read_here(STATUS, tell)
            self.at(self.now + MEASURING, lambda: tell(b"{}"))
        else:
            tell(b"{}")

    def _told(self, status: dict[str, object]) -> list[str]:
        return [
            *super()._told(status),
            *one("replica_etcd_up", "gauge", "1 where etcd answers.", int(not self._follower.failing)),
            *one("replica_entry", "gauge", "The entry that the session gets next.", self._fed_next),
            *one("replica_noted_entry", "gauge", "The entry of the position beside the log.",
                 self._noted if self._file is not None else None)]


def _reads(line: bytes) -> object:
    """What a line of the front says of where its connection reads, or `None` for another line."""
    if _READ not in line or len(line) > 200:
        return None
    value = strictly(line)
    return value["read"] if isinstance(value, dict) and value.keys() == {"read"} else None


def _lines(lines: bytes) -> list[bytes]:
    return [line + b"\n" for line in lines[:-1].split(b"\n")]    # a carriage return ends none


def _alone(lines: bytes) -> Iterator[tuple[bytes, int | None]]:
    """Lines of an entry in pieces: each that forgets alone, with the time up to which it does, and those
    between them together."""
    if b'"forget"' not in lines and b"\\" not in lines:    # as nearly always
        yield lines, None
        return
    between: list[bytes] = []
    for line in _lines(lines):
        time = _time_to_forget(line)
        if time is None:
            between.append(line)
            continue
        if between:
            yield b"".join(between), None
            between.clear()
        yield line, time
    if between:
        yield b"".join(between), None


def _time_to_forget(line: bytes) -> int | None:
    """The time up to which a line forgets, or `None` where it doesn't, or has a fault."""
    if b'"forget"' not in line and b"\\" not in line:    # a name may be written with escapes
        return None
    try:
        value = json.loads(line.decode())
    except (ValueError, RecursionError):
        return None
    time = value.get("forget") if isinstance(value, dict) else None
    return time if type(time) is int and time >= 0 else None


def _is_special(line: bytes) -> bool:
    """Whether the front itself answers a line."""
    return len(line) > LONGEST or _reads(line) is not None


# The commands

def replicate(path: str | None, command: Sequence[str], access: Access, prefix: str, *,
              bound: float = BOUND, patience: float = PATIENCE) -> int:
    """Serves a replica at `path`, or on the socket that systemd hands over; the exit status."""
    with Signals() as signals:
        try:
            entries = Entries(Etcd(access), prefix)
            log_path = command_log(command)
            log = LogFile(log_path) if log_path is not None else None
            notifier = Notifier(os.environ)
            listener = handed_over(os.environ)
            made = None    # the path that is to be removed at the end
            if listener is None:
                if path is None:
                    raise SocketError("no path is given, and no socket handed over")
                listener, made = listen(path), path
        except (SocketError, PositionError, OSError, ValueError) as error:
            complain(str(error))
            return 1
        replica = Replica(listener, command, entries, path=made, log=log, bound=bound, patience=patience,
                          notifier=notifier)
        signals.go_to(replica)
        return replica.run()


def compact(access: Access, prefix: str, positions: Sequence[str]) -> int:
    """Drops the entries that all of these positions are past, but for the first one, which has the
    opening, and the last one before the lowest of them. Tells how many these were."""
    end = min(read_position(path).entry for path in positions) - 1
    if end <= 1:
        return 0
    entries = Entries(Etcd(access), prefix)
    try:
        return entries.drop(1, end)
    finally:
        entries.close()
