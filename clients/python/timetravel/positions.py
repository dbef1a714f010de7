"""The log of a replica's session, and the position beside it, which tells up to which entry the log has
what was carried out.

A position is written while the session is at rest: then the log has exactly the lines that were carried
out of the entries before it. What a crash leaves in the log behind them is cut off at the next start, and
comes again out of the entries, once it is known that these have it.

A session that forgets makes its log anew. So a position is written right before such a request, which
tells what the new log would begin with, and another one right behind it. After a crash between the two
the log is the old one or the new one, and what it has tells which. The request is carried out again in
both cases: behind itself it changes nothing.
"""

from __future__ import annotations

import fcntl
import hashlib
import json
import os
import re
import shutil
import time
from collections.abc import Iterable, Iterator
from dataclasses import asdict, dataclass
from itertools import islice
from typing import Any

SUFFIX = ".position"
_PIECE = 1 << 20
_LOCKING = 10.0    # seconds that an earlier session has to end
_SLOT = re.compile(rb'\{"worker":\d+,"do":\[')    # how a line of a slot begins in a log that was made anew


class PositionError(Exception):
    """A log or a position that can't be used. Its text says why."""


@dataclass(frozen=True)
class Forgetting:
    """A request to forget that the session gets next, and its status before it."""
    to: int    # the time up to which it is to forget
    time: int
    generation: int


@dataclass(frozen=True)
class Position:
    """The first entry that isn't carried out as a whole, how many of its lines are, and the log's lines
    and bytes by then. With `forgetting` the next line is one that may have made the log anew since."""
    entry: int = 0
    lines: int = 0
    bytes: int = 0
    part: int = 0
    digest: str = ""    # of these bytes, by SHA-256; a position that was written before has none
    forgetting: Forgetting | None = None


def read_position(path: str) -> Position:
    """The position in a file. Raises `PositionError`, and `FileNotFoundError` where there is none."""
    with open(path, "rb") as file:
        data = file.read()
    try:
        members = json.loads(data)
        told = members.pop("forgetting", None)
        position = Position(**members, forgetting=None if told is None else Forgetting(**told))
        if not (_are_counts(position, "digest", "forgetting") and type(position.digest) is str
                and (told is None or _are_counts(position.forgetting))):
            raise ValueError
    except (ValueError, TypeError, AttributeError) as error:
        raise PositionError(f"{path} has no position") from error
    return position


def _are_counts(told: Any, *others: str) -> bool:
    """Whether all members but the others are counts."""
    return all(type(value) is int and value >= 0 for name, value in vars(told).items() if name not in others)


def write_position(path: str, position: Position) -> None:
    """Puts a position in the place of the last one, so that at each moment one of both is there."""
    _put(path, json.dumps(asdict(position)).encode() + b"\n")


def _put(path: str, data: bytes) -> None:
    with open(path + ".new", "wb") as file:
        file.write(data)
        file.flush()
        os.fsync(file.fileno())
    _rename(path + ".new", path)


def _rename(made: str, path: str) -> None:
    os.rename(made, path)
    folder = os.open(os.path.dirname(path) or ".", os.O_RDONLY | os.O_DIRECTORY)
    try:
        os.fsync(folder)
    finally:
        os.close(folder)


class LogFile:
    """A session's log, which one replica alone may have."""

    def __init__(self, path: str) -> None:
        """Raises `PositionError` where another replica has it."""
        self.path = path
        self.position_path = path + SUFFIX
        self.position = Position()
        self._tally = _Tally()    # of the log's lines by this position
        self._lock = open(path + ".replica", "wb")
        try:
            fcntl.flock(self._lock, fcntl.LOCK_EX | fcntl.LOCK_NB)
        except OSError as error:
            self._lock.close()
            raise PositionError(f"another replica has {path}") from error

    def close(self) -> None:
        """Lets another replica have the log."""
        self._lock.close()

    def read(self) -> list[bytes]:
        """Reads the position. Returns the lines of the log that are past it."""
        self._wait_for_earlier_session()
        try:
            position = read_position(self.position_path)
        except FileNotFoundError:
            if any(_logged(self.path, 0)):
                raise PositionError(f"{self.path} has lines, but {self.position_path} isn't there") from None
            position = Position()
            write_position(self.position_path, position)    # before the log has its first line
        self.position, self._tally = self._found(position)
        return list(_lines(self.path, self.position.bytes))

    def _found(self, position: Position) -> tuple[Position, _Tally]:
        """The position as it stands in this log, and the lines by then. They are other ones where the log
        was made anew by the request that the position tells of."""
        tally = _tally_of_bytes(self.path, position.bytes)
        if tally.agrees(position):
            return position, tally
        lines = self._lines_made_anew(position.forgetting)
        if lines is not None:
            tally = _tally_of_lines(self.path, lines)
            if tally.lines == lines:
                return tally.position(position.entry, position.part), tally
        raise PositionError(f"{self.path} hasn't the lines that {self.position_path} tells of")

    def _lines_made_anew(self, forgetting: Forgetting | None) -> int | None:
        """How many lines this log began with when this request had made it anew; or `None` where it is
        none that this request has made."""
        ground = _ground(self.path)
        if forgetting is None or ground is None:
            return None
        told, slots = (ground.get("time"), ground.get("generation")), ground.get("slots")
        if told != (forgetting.to, forgetting.generation) or type(slots) is not int or slots < 0:
            return None
        lines = 1 + slots + max(0, forgetting.time - forgetting.to)
        later = islice(_lines(self.path, 0), 1 + slots, lines)
        return lines if all(map(_SLOT.match, later)) else None

    def cut(self) -> None:
        """Cuts off what is past the position."""
        path = os.path.realpath(self.path)    # where it is a link, that stays
        made = path + ".cut"
        with open(path, "rb") as source, open(made, "wb") as target:
            shutil.copymode(path, made)
            left = self.position.bytes
            while left:
                piece = source.read(min(left, _PIECE))
                target.write(piece)
                left -= len(piece)
            target.flush()
            os.fsync(target.fileno())
        _rename(made, path)

    def note(self, entry: int, part: int = 0, forgetting: Forgetting | None = None,
             anew: bool = False) -> None:
        """Writes the position. The session is at rest, and has answered the lines of the entries below
        `entry`, and this many of that one's. `anew` says that it may have made its log anew since the last
        position."""
        tally = _Tally() if anew else self._tally.copy()
        for piece in _logged(self.path, tally.bytes):
            tally.add(piece)
        position = tally.position(entry, part, forgetting)
        write_position(self.position_path, position)
        self.position, self._tally = position, tally

    def _wait_for_earlier_session(self) -> None:
        """Waits until no session has the log. One outlives its replica that was killed, until it has
        answered what it was sent, and may put a new log in the place of the one that is looked at."""
        end = time.monotonic() + _LOCKING
        while os.path.exists(self.path):
            with open(self.path, "rb") as file:
                try:
                    fcntl.flock(file, fcntl.LOCK_EX | fcntl.LOCK_NB)
                    if os.path.samestat(os.fstat(file.fileno()), os.stat(self.path)):
                        return
                except BlockingIOError:
                    pass
            if time.monotonic() > end:
                raise PositionError(f"a session has {self.path}")
            time.sleep(0.05)


class _Tally:
    """Lines of a log, from its first one on, that were counted."""

    def __init__(self) -> None:
        self.lines = self.bytes = 0
        self._ends = True    # the last one is whole
        self._digest = hashlib.sha256()

    def copy(self) -> _Tally:
        made = _Tally()
        made.lines, made.bytes, made._ends = self.lines, self.bytes, self._ends
        made._digest = self._digest.copy()
        return made

    def add(self, piece: bytes) -> None:
        self.lines += piece.count(b"\n")
        self.bytes += len(piece)
        self._ends = piece.endswith(b"\n")
        self._digest.update(piece)

    def agrees(self, position: Position) -> bool:
        """Whether a position tells of these lines."""
        return (self._ends and (self.lines, self.bytes) == (position.lines, position.bytes)
                and position.digest in ("", self._digest.hexdigest()))

    def position(self, entry: int, part: int, forgetting: Forgetting | None = None) -> Position:
        """The position that tells of these lines."""
        return Position(entry, self.lines, self.bytes, part, self._digest.hexdigest(), forgetting)


def _tally_of_bytes(path: str, number: int) -> _Tally:
    """The log's first lines, up to this many bytes, or all where these are fewer."""
    tally = _Tally()
    for piece in _logged(path, 0):
        left = number - tally.bytes
        if not left:
            break
        tally.add(piece[:left])
    return tally


def _tally_of_lines(path: str, number: int) -> _Tally:
    """The log's first lines, as many as this, or all where these are fewer."""
    tally = _Tally()
    for piece in _logged(path, 0):
        left = number - tally.lines
        if left <= 0:
            break
        lines = piece.split(b"\n", left)
        tally.add(piece[:len(piece) - len(lines[left])] if len(lines) > left else piece)
    return tally


def _logged(path: str, start: int) -> Iterator[bytes]:
    """The log's whole lines from this byte on, in pieces of some of them."""
    try:
        file = open(path, "rb")
    except FileNotFoundError:
        return
    with file:
        file.seek(start)
        begun = b""
        while piece := file.read(_PIECE):
            text, zero, _ = piece.partition(b"\0")
            text = begun + text
            end = text.rfind(b"\n") + 1
            if end:
                yield text[:end]
            if zero:
                return
            begun = text[end:]


def _lines(path: str, start: int) -> Iterator[bytes]:
    """The log's whole lines from this byte on."""
    for piece in _logged(path, start):
        yield from piece[:-1].split(b"\n")


def _ground(path: str) -> dict[str, Any] | None:
    """What the first line of a log tells of its ground, or `None` where it has none."""
    try:
        ground = json.loads(next(_lines(path, 0), b"")).get("ground")
    except (ValueError, AttributeError, RecursionError):
        return None
    return ground if isinstance(ground, dict) else None


def behind(lines: Iterable[bytes], logged: list[bytes]) -> list[bytes]:
    """What is left of the logged lines once each was found, in their order, among these lines. Those
    between them are reads, and what was refused."""
    left = 0
    for line in lines:
        if left < len(logged) and line == logged[left]:
            left += 1
    return logged[left:]
