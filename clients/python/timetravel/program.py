"""One run of the program, over its pipes."""

from __future__ import annotations

import os
import signal
import subprocess
import tempfile
from collections.abc import Sequence
from typing import IO

from .channel import Channel
from .errors import Lost, NotStarted
from .told import Told
from .waiting import Deadline, WaitersByCall

GRACE = 5.0    # seconds in which a program has to end once one of its pipes is closed
SAID = 65536    # bytes of its standard error that are kept, the last ones


def of_log(command: Sequence[str], log: str | os.PathLike[str] | None, is_there: bool) -> list[str]:
    """The command of a session with a log. Where that is there already, it isn't made."""
    if log is None:
        return [*command]
    return [*command, *(["--existing"] if is_there else []), "--log", os.fspath(log)]


class Process:
    """The program as a process with pipes."""

    def __init__(self, command: Sequence[str]) -> None:
        """Starts it. Raises `NotStarted`."""
        # Standard error goes to a file, so that nobody needs to read it for the program to go on.
        self._standard_error: IO[bytes] = tempfile.TemporaryFile(buffering=0)
        try:
            # In a process group of its own it doesn't get the Ctrl-C that is meant for the service.
            self._process = subprocess.Popen(
                list(command), bufsize=0, stdin=subprocess.PIPE, stdout=subprocess.PIPE,
                stderr=self._standard_error, start_new_session=True)
        except (OSError, IndexError, ValueError) as error:
            self._standard_error.close()
            raise NotStarted(command) from error
        assert self._process.stdin is not None and self._process.stdout is not None
        self.input, self.output = self._process.stdin, self._process.stdout
        os.set_blocking(self.input.fileno(), False)
        self.command = list(command)

    def poll(self) -> int | None:
        """Its exit status, or None while it runs."""
        return self._process.poll()

    def wait(self) -> int:
        """Waits until it has ended, and ends it where it doesn't."""
        try:
            return self._process.wait(GRACE)
        except subprocess.TimeoutExpired:
            self.kill()
            return self._process.wait()

    def kill(self) -> None:
        """Ends it at once, with whatever it has started."""
        try:
            if self._process.poll() is None:
                os.killpg(self._process.pid, signal.SIGKILL)
        except ProcessLookupError:
            pass    # It has just ended.

    def end_input(self) -> None:
        try:
            self.input.close()
        except OSError:
            pass    # It has ended before.

    def take_standard_error(self) -> str:
        """The end of what it wrote there. It has ended, and this is asked once."""
        size = os.fstat(self._standard_error.fileno()).st_size
        wrote = os.pread(self._standard_error.fileno(), SAID, max(0, size - SAID))
        self._standard_error.close()
        self.output.close()
        return wrote.decode(errors="replace")

    def close_in_child(self) -> None:
        for file in (self.input, self.output, self._standard_error):
            file.close()
        self._process.returncode = 0    # It is no child of this process, which can't wait for it.


class Program(Channel):
    """A session over the pipes of a program that was started for it."""

    def __init__(self, command: Sequence[str], has_log: bool, told: Told) -> None:
        """Starts the program. Raises `NotStarted`."""
        super().__init__(WaitersByCall(told, has_log))
        self.process = Process(command)
        self._input = self.process.input.fileno()
        self._output = self.process.output.fileno()
        self._status: int | None = None
        self._standard_error = ""
        self.start_reading()

    @property
    def exit_status(self) -> int | None:
        return self._status if self.has_ended else None

    def descriptor(self) -> int:
        return self._input

    def _send(self, data: bytes, sent: list[int]) -> None:
        sent.extend(map(os.write, (self._input,), (data,)))

    def _receive(self) -> bytes:
        return os.read(self._output, 65536)

    def _reads_no_more(self) -> None:
        self.process.wait()

    def _end(self, said: str) -> None:
        if said:
            self.process.kill()
        self._status = self.process.wait()
        self._standard_error = self.process.take_standard_error() + (f"{said}\n" if said else "")

    def end_error(self) -> Lost:
        return Lost(self._status or 0, self._standard_error)

    def end_input(self, deadline: Deadline | None) -> None:
        if not self.has_ended and self._unsent:
            self.send_rest(deadline)
        self.process.end_input()

    def kill(self) -> None:
        self.process.kill()

    def close_in_child(self) -> None:
        self.process.close_in_child()
