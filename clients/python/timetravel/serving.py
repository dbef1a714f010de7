"""One session for many connections: a server whose front has the program of a session behind it.

What is written to the program never blocks either, so no connection stops another.
"""

from __future__ import annotations

import contextlib
import fcntl
import gc
import json
import os
import signal
import socket
import subprocess
import sys
from collections import deque
from collections.abc import Callable, Sequence
from functools import partial
from time import monotonic
from typing import Any

from .front import IN, LARGE_PIECE, OUT, PATIENCE, Connection, Front, Piece
from .joining import (
    MISSING_VERSION, RECORDS, flag, is_counted, is_request, is_status, refusal, strictly, without_call)
from .lines import Notifier, SocketError, handed_over, listen
from .metrics import command_log, log_bytes, memory, metric, of_requests, of_status, one

_PIPE_SIZE = 1 << 20    # bytes, so that the program has to wait less often
_LAST_PATIENCE = 5.0    # the patience while the server stops
STOPPING = 30.0    # seconds that connections have, once the session has ended, to read their answers
MEASURING = 2.0    # seconds that the session has to tell its status to whoever asks for metrics
_GRACE = 5.0    # seconds that a program has to end once it has closed its output
FIRST_PAUSE, LONGEST_PAUSE = 0.1, 5.0    # seconds before a session is started again
TRIES = 6    # starts in a row that answer nothing, after which it isn't

STATUS = b'{"status":true}'
_LOST = b'{"lost":"the session has ended"}\n'


class Program:
    """A program that answers lines over pipes: the backend of a front."""

    def __init__(self, front: Front, command: Sequence[str], ended: Callable[[int], None],
                 answered: Callable[[bytes], None] | None = None) -> None:
        """`answered` takes the answers in place of the front's."""
        self._front = front
        self._answered = answered or front.answered
        self._ended = ended
        self._process = subprocess.Popen(command, stdin=subprocess.PIPE, stdout=subprocess.PIPE, bufsize=0,
                                         start_new_session=True)
        assert self._process.stdin is not None and self._process.stdout is not None
        self._stdin, self._stdout = self._process.stdin, self._process.stdout
        self._waiting: deque[Piece] = deque()    # lines that the pipe hasn't taken
        self._begun: list[bytes] = []    # the beginning of an answer
        for pipe in (self._stdin, self._stdout):
            os.set_blocking(pipe.fileno(), False)
            with contextlib.suppress(OSError):    # the user's pipes have all the room they may have
                fcntl.fcntl(pipe.fileno(), fcntl.F_SETPIPE_SZ, _PIPE_SIZE)
        front.watch(self._stdout.fileno(), IN, lambda _: front.after.append(self._read))

    @property
    def process(self) -> int:
        return self._process.pid

    def take(self, lines: bytes) -> None:
        self._waiting.append(lines)
        if len(self._waiting) == 1 and not self._write():
            self._front.block()
            self._front.watch(self._stdin.fileno(), OUT, lambda _: self._go_on())

    def _write(self) -> bool:
        """Writes what waits, and tells whether the pipe has taken all."""
        waiting = self._waiting
        while waiting:
            piece = waiting[0]
            try:
                taken = os.write(self._stdin.fileno(), piece)
            except BlockingIOError:
                return False
            except OSError:    # it has ended, and its output will tell
                waiting.clear()
                break
            if taken < len(piece):
                waiting[0] = memoryview(piece)[taken:]
            else:
                waiting.popleft()
        return True

    def _go_on(self) -> None:
        if self._write():
            self._front.unwatch(self._stdin.fileno())
            self._front.unblock()

    def _read(self) -> None:
        try:
            data = os.read(self._stdout.fileno(), LARGE_PIECE)
        except BlockingIOError:
            return
        if not data:
            self._end()
            return
        end = data.rfind(b"\n") + 1
        if not end:
            self._begun.append(data)
            return
        rest = data[end:]
        answers = data[:end]
        if self._begun:
            answers = b"".join((*self._begun, answers))
            self._begun.clear()
        if rest:
            self._begun.append(rest)
        self._answered(answers)

    def close_input(self) -> None:
        """Says that no line follows. All have been taken."""
        self._stdin.close()

    def kill(self) -> None:
        self._process.kill()
        self._process.wait()

    def _end(self) -> None:
        self._front.unwatch(self._stdout.fileno())
        if not self._stdin.closed:
            self._front.unwatch(self._stdin.fileno())
            self._stdin.close()
        self._stdout.close()
        try:
            status = self._process.wait(_GRACE)
        except subprocess.TimeoutExpired:
            self._process.kill()
            status = self._process.wait()
        self._ended(status)


class Server(Front):
    """A front whose backend is the program of a session."""

    def __init__(self, listener: socket.socket, command: Sequence[str], *, path: str | None = None,
                 restart: bool = False, patience: float = PATIENCE, notifier: Notifier | None = None) -> None:
        super().__init__(listener, patience)
        self.status = 0
        self._command = list(command)
        self._log = command_log(command)
        self._restart = restart
        self._notifier = notifier or Notifier({})
        self._path = path
        self._made = identity(path) if path is not None else None
        self._program: Program | None = None
        self._is_open = False    # the session is known to be open, or was when it ended
        self._opening_line: bytes | None = None    # the first opening that the session has accepted
        self._starting = False    # the session isn't open again yet
        self._waiting: deque[tuple[Connection, bytes]] = deque()    # first lines that wait for its start
        self._answers_at_start = 0
        self._failures = 0    # starts in a row that have answered nothing
        self._closed_input = False
        self._stop_by = 0.0
        self._done = False
        self._signals = 0

    # Start and end

    def run(self) -> int:
        """Serves until it is stopped or the session ends; the exit status."""
        try:
            self._start_program()
        except OSError as error:
            complain(f"cannot start {self._command[0]}: {error.strerror}")
            self.status, self._done = 1, True
        else:
            self._notify("READY=1")
            self._show_life()
            gc.freeze()    # what was imported stays, and needn't be looked through again
        while not self._done:
            self.turn()
            if self.stopping:
                self._stop_if_idle()
        self._close_listener()
        for connection in list(self.connections.values()):
            self.drop(connection)
        if self._program is not None:
            self._program.kill()
        return self.status

    def signalled(self, number: int) -> None:
        """A signal to stop has come: the first stops, the second ends."""
        self._signals += 1
        if self._signals == 1:
            self.stop()
        else:
            self.status, self._done = 128 + number, True

    def stop(self) -> None:
        """Reads no more, answers what was read, and ends."""
        if self.stopping:
            return
        self._notifier.tell("STOPPING=1", "STATUS=stopping")
        self._close_listener()
        self.stopping = self.blocked = True
        self.patience = min(self.patience, _LAST_PATIENCE)
        if self._program is None:
            self._forget_waiting()
        for connection in list(self.connections.values()):
            connection.ended = True
            self.settle(connection)

    def _stop_if_idle(self) -> None:
        if self._program is None:
            if not self.connections or self.now > self._stop_by:
                self._done = True
            return
        busy = self.order or self._waiting
        if not busy and not self._closed_input:
            self._closed_input = True
            self._program.close_input()

    def _close_listener(self) -> None:
        if self.listener is None:
            return
        self.unwatch(self.listener.fileno())
        self.listener.close()
        self.listener = None
        if self._path is not None and identity(self._path) == self._made:
            os.unlink(self._path)

    def _start_program(self) -> None:
        command = existing(self._command) if self._is_open else self._command
        self._program = Program(self, command, self._program_ended)
        self.backend = self._program
        self.metrics.starts += 1
        self._answers_at_start = self._answers()
        if self._log is not None and not self._is_open:
            self.ask(None, b"", STATUS, self._told_at_start)

    def _answers(self) -> int:
        return sum(sum(times.counts) for times in self.metrics.times.values())

    def _program_ended(self, status: int) -> None:
        self._program = self.backend = None
        self._lose()
        self._stop_by = self.now + STOPPING
        self.at(self._stop_by + 0.01, lambda: None)
        if self._closed_input:
            self.status = exit_status(status)
            if status != 0:
                complain(f"the session has ended with {how_ended(status)}")
            return
        self._failures = 0 if self._answers() > self._answers_at_start else self._failures + 1
        if self._restart and not self.stopping and self._failures < TRIES:
            complain(f"the session has ended with {how_ended(status)}, and is started again")
            self._notify()
            self._start_later()
            return
        complain(f"the session has ended with {how_ended(status)}")
        self.status = exit_status(status) or 1
        self.stop()

    def _lose(self) -> None:
        """Tells each connection which of its requests the session has ended on. First lines wait."""
        for whose, number in self.give_up():
            if isinstance(whose, Connection):
                self.metrics.lost += number
                self.give(whose, _LOST * number, number)
            elif whose.connection is not None:
                self._waiting.append((whose.connection, whose.line))

    def _start_later(self) -> None:
        self._starting = True
        self.block()
        pause = min(FIRST_PAUSE * 2 ** self._failures, LONGEST_PAUSE)
        self.at(self.now + pause, self._start_again)

    def _start_again(self) -> None:
        if self.stopping:
            return
        try:
            self._start_program()
        except OSError as error:
            complain(f"cannot start {self._command[0]}: {error.strerror}")
            self._failures += 1
            if self._failures < TRIES:
                self._start_later()
            else:
                self.status = 1
                self.stop()
            return
        if self._opening_line is None:
            self._go_on()
        else:
            self.ask(None, b"", self._opening_line, self._reopened)

    def _told_at_start(self, answer: bytes) -> None:
        """A session whose log has lines answers a request before any opening."""
        if is_counted(answer):
            self._is_open = True
            self._notify()
        else:
            self._was_no_fault(answer)

    def _was_no_fault(self, answer: bytes) -> None:
        """A session that isn't open has faulted a line of the server itself."""
        self.metrics.faults -= answer.startswith(b'{"fault":')

    def _reopened(self, answer: bytes) -> None:
        if is_status(answer):
            self._go_on()
        else:
            complain("the session that was started again doesn't take its opening: "
                      + answer[:1000].decode(errors="replace"))
            self._starting = False
            self._forget_waiting()
            self.status = 1
            self.stop()

    def _go_on(self) -> None:
        self._starting = False
        self.unblock()
        self._release()
        self._notify()

    # systemd

    def _notify(self, *further: str) -> None:
        if self._starting:
            state = "the session is started again"
        elif not self._is_open:
            state = "waiting for an opening"
        else:
            state = "open"
        self._notifier.tell(*further, f"STATUS={state}")

    def _show_life(self) -> None:
        if self._notifier.every is not None:
            self._notifier.tell("WATCHDOG=1")
            self.at(monotonic() + self._notifier.every, self._show_life)

    # First lines

    def first_line(self, connection: Connection, line: bytes) -> None:
        value = strictly(line)
        if flag(value, "metrics"):
            self._measure(connection)
        elif self._starting:
            connection.asking = True
            self._waiting.append((connection, line))
        elif self._program is None:
            self.say(connection, _LOST[:-1])
        elif flag(value, "join"):
            self.ask(connection, line, STATUS, partial(self._status_told, connection))
        elif is_request(line):
            self.metrics.faults += 1
            self.say(connection, MISSING_VERSION)
        else:
            self.ask(connection, line, line, partial(self._opened, connection, line))

    def _answer_first(self, connection: Connection, answer: bytes) -> None:
        connection.asking = False
        connection.opened = is_status(answer)
        self.say(connection, answer)
        self.first_lines(connection)

    def _opened(self, connection: Connection, line: bytes, answer: bytes) -> None:
        """The session has judged an opening, or faulted what is none as a request."""
        if is_status(answer) and self._opening_line is None:
            self._opening_line, self._is_open = line, True
            self._notify()
        self._answer_first(connection, without_call(answer))

    def _status_told(self, connection: Connection, answer: bytes) -> None:
        if is_counted(answer):
            answer = without_call(answer)
        else:
            self._was_no_fault(answer)
            self.metrics.refusals["not open"] += 1
            answer = refusal("not open")
        self._answer_first(connection, answer)

    def _release(self) -> None:
        """Goes on with the first lines that waited."""
        waiting, self._waiting = self._waiting, deque()
        for connection, line in waiting:
            connection.asking = False
            if not connection.gone:
                connection.backlog.appendleft(line)
                self.first_lines(connection)

    def _forget_waiting(self) -> None:
        waiting, self._waiting = self._waiting, deque()
        for connection, _ in waiting:
            connection.asking = False
            connection.backlog.clear()
            self.settle(connection)

    # Metrics

    def _measure(self, connection: Connection) -> None:
        """Tells a connection the metrics: with the session's status, unless that takes long."""
        connection.asking = True
        told = False

        def tell(answer: bytes) -> None:
            nonlocal told
            if not told:
                told = True
                self._tell_metrics(connection, json.loads(answer))

        if not self._is_open or self._starting or self._program is None:
            tell(b"{}")
        else:
            self.ask(None, b"", STATUS, tell)
            self.at(self.now + MEASURING, lambda: tell(b"{}"))

    def _tell_metrics(self, connection: Connection, status: dict[str, Any]) -> None:
        text = "\n".join(self._told(status)) + "\n"
        connection.asking = False
        self.say(connection, json.dumps({"metrics": text}).encode())
        self.first_lines(connection)

    def _told(self, status: dict[str, Any]) -> list[str]:
        is_open = self._is_open and not self._starting
        told = list(one("open", "gauge", "1 where the session is open.", int(is_open)))
        if "time" in status:
            told += of_status(status)
        told += of_requests(self.metrics)
        told += one("connections", "gauge", "Connections that are there.", len(self.connections))
        told += one("unanswered", "gauge", "Lines that aren't answered yet.",
                    sum(connection.unanswered for connection in self.connections.values()))
        told += one("outgoing_bytes", "gauge", "Bytes of answers that wait for their connections.",
                    sum(connection.outgoing_size for connection in self.connections.values()))
        told += one("records_limit", "gauge", "Of how many answers the session keeps a record.",
                    self._records())
        told += one("log_bytes", "gauge", "Bytes of the log's lines.",
                    log_bytes(self._log) if self._log is not None else None)
        told += self._memory()
        return told

    def _records(self) -> int | None:
        if self._opening_line is None:
            return None
        value = strictly(self._opening_line)
        return value.get("records", RECORDS) if isinstance(value, dict) else None

    def _memory(self) -> list[str]:
        processes = {"server": memory("self")}
        if self._program is not None:
            processes["session"] = memory(self._program.process)
        found = [(name, taken) for name, taken in processes.items() if taken is not None]
        return [
            *metric("memory_bytes", "gauge", "Memory that a process takes.",
                    [("", {"process": name}, taken[0]) for name, taken in found]),
            *metric("memory_peak_bytes", "gauge", "The most memory that a process has taken.",
                    [("", {"process": name}, taken[1]) for name, taken in found])]


def identity(path: str) -> tuple[int, int] | None:
    try:
        found = os.lstat(path)
    except OSError:
        return None
    return found.st_dev, found.st_ino


def existing(command: Sequence[str]) -> list[str]:
    """The command of a session whose log is there, so that it makes none."""
    if "--log" not in command or "--existing" in command:
        return list(command)
    place = list(command).index("--log")
    return [*command[:place], "--existing", *command[place:]]


def exit_status(status: int) -> int:
    return 128 - status if status < 0 else status


def how_ended(status: int) -> str:
    return f"signal {-status}" if status < 0 else f"status {status}"


def complain(text: str) -> None:
    try:
        print(f"timetravel: {text}", file=sys.stderr, flush=True)
    except OSError:
        pass    # nobody reads it, and the connections matter more


def serve(path: str | None, command: Sequence[str], *, restart: bool = False,
          patience: float = PATIENCE) -> int:
    """Serves a session at `path`, or on the socket that systemd hands over; the exit status."""
    with Signals() as signals:    # first, so that no signal leaves a socket behind
        try:
            notifier = Notifier(os.environ)
            listener = handed_over(os.environ)
            made = None    # the path that is to be removed at the end
            if listener is None:
                if path is None:
                    raise SocketError("no path is given, and no socket handed over")
                listener, made = listen(path), path
        except SocketError as error:
            complain(str(error))
            return 1
        server = Server(listener, command, path=made, restart=restart, patience=patience, notifier=notifier)
        signals.go_to(server)
        return server.run()


class Signals:
    """While it lasts, signals to stop wait for a server's loop, and end nothing by themselves."""

    def __init__(self) -> None:
        self._reader, self._writer = socket.socketpair()
        for end in (self._reader, self._writer):
            end.setblocking(False)

    def __enter__(self) -> Signals:
        self._former_writer = signal.set_wakeup_fd(self._writer.fileno(), warn_on_full_buffer=False)
        self._former = {number: signal.signal(number, lambda *_: None)
                        for number in (signal.SIGTERM, signal.SIGINT)}
        return self

    def go_to(self, server: Server) -> None:
        def told(_: int) -> None:
            for number in self._reader.recv(4096):
                server.after.append(partial(server.signalled, number))
        server.watch(self._reader.fileno(), IN, told)

    def __exit__(self, *_: object) -> None:
        for number, handler in self._former.items():
            signal.signal(number, handler)
        signal.set_wakeup_fd(self._former_writer)
        self._reader.close()
        self._writer.close()
