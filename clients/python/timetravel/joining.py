"""What the first lines of connections are: openings, which the session judges, and lines of the front."""

from __future__ import annotations

import json
import os
import subprocess
import tempfile
from collections.abc import Callable, Sequence
from time import monotonic
from typing import Any

from .front import IN, LARGE_PIECE, Front

RECORDS = 100_000    # of how many answers a session keeps a record, where its opening doesn't tell
MISSING_VERSION = b'{"fault":{"path":"$","cause":"missing member version"}}'    # of a request, as an opening
_JUDGING = 10.0    # seconds that a fresh program has to judge an opening


class _Doubtful(ValueError):
    """A line that Python may read otherwise than the program."""


def strictly(line: bytes) -> Any:
    """The JSON value of a line, or `None` where Python would read what the program may not."""
    try:
        return json.loads(line.decode(), object_pairs_hook=_distinct, parse_int=_whole, parse_float=_none,
                          parse_constant=_none)
    except (ValueError, RecursionError):
        return None


def _distinct(members: list[tuple[str, Any]]) -> dict[str, Any]:
    made = dict(members)
    if len(made) < len(members):
        raise _Doubtful
    return made


def _whole(digits: str) -> int:
    if digits.startswith("-"):
        raise _Doubtful
    return int(digits)


def _none(_: str) -> None:
    raise _Doubtful


def is_request(line: bytes) -> bool:
    """Whether a line is an object that is no opening, so that an open session would carry it out."""
    try:
        value = json.loads(line.decode(), object_pairs_hook=_distinct, parse_constant=_none)
    except (ValueError, RecursionError):
        return False    # the program faults it, whatever it is
    return isinstance(value, dict) and "version" not in value


def flag(value: Any, name: str) -> bool:
    """Whether a line is an object with this member alone, `true`."""
    return isinstance(value, dict) and value.keys() == {name} and value[name] is True


def refusal(cause: str) -> bytes:
    return json.dumps({"refused": cause}, separators=(",", ":")).encode()


def is_status(answer: bytes) -> bool:
    return answer.startswith(b'{"time":')


def is_counted(answer: bytes) -> bool:
    """Whether this is the answer to a request, and none to an opening."""
    return answer.startswith(b'{"call":')


def without_call(answer: bytes) -> bytes:
    return b"{" + answer.partition(b",")[2] if is_counted(answer) else answer


def without_log(command: Sequence[str]) -> list[str]:
    """The command of the same session without a log."""
    if "--log" not in command:
        return list(command)
    place = list(command).index("--log")
    return [word for word in (*command[:place], *command[place + 2:]) if word != "--existing"]


class Judge:
    """A fresh program that is asked what it answers to one opening, while no session is open that could be.
    It has no log, so nothing is kept."""

    def __init__(self, front: Front, command: Sequence[str], line: bytes,
                 judged: Callable[[bytes], None]) -> None:
        self._front = front
        self._judged = judged
        self._answer: list[bytes] = []
        with tempfile.TemporaryFile() as file:
            file.write(line + b"\n")
            file.seek(0)
            self._process = subprocess.Popen(command, stdin=file, stdout=subprocess.PIPE,
                                             stderr=subprocess.DEVNULL, bufsize=0, start_new_session=True)
        assert self._process.stdout is not None
        self._stdout = self._process.stdout
        os.set_blocking(self._stdout.fileno(), False)
        front.watch(self._stdout.fileno(), IN, lambda _: self._read())
        front.at(monotonic() + _JUDGING, self._give_up)

    def _read(self) -> None:
        try:
            data = os.read(self._stdout.fileno(), LARGE_PIECE)
        except BlockingIOError:
            return
        if data:
            self._answer.append(data)
            return
        self._front.unwatch(self._stdout.fileno())
        self._stdout.close()
        self._process.kill()    # it has nothing more to say
        self._process.wait()
        answer = b"".join(self._answer).partition(b"\n")[0]
        self._front.after.append(lambda: self._judged(answer))

    def _give_up(self) -> None:
        if self._process.returncode is None:
            self._process.kill()    # the end of its output follows
