"""Lines over pipes and sockets: cutting them out of what arrives, Unix sockets to listen on, and a plain
conversation of lines for the commands that ask a server something."""

from __future__ import annotations

import fcntl
import os
import socket
import stat
import time
from collections.abc import MutableMapping

LONGEST = 16_777_216    # bytes of a line, without its line feed
BLANK = b" \t\r"    # what a line may be made of that isn't answered
_FIRST_HANDED = 3    # the first descriptor that systemd hands over
_LOCKING = 2.0    # seconds to wait for another server that makes its socket in the same folder


class SocketError(Exception):
    """A socket that can't be had. Its text says why."""


# Cutting

class Cutter:
    """Cuts what arrives, in pieces of any length, into whole lines.

    A line is held until its end has arrived. One that is longer than `LONGEST` bytes isn't: in its
    place stands another line that is too long, by one byte, so whoever reads it answers the same."""

    __slots__ = ("_pieces", "begun")

    def __init__(self) -> None:
        self._pieces: list[bytes] = []    # the beginning of a line whose end hasn't arrived
        self.begun = 0    # its bytes, also of those that aren't held

    def take(self, data: bytes) -> bytes:
        """The lines that end in `data`, each with its line feed."""
        end = data.rfind(b"\n") + 1
        if not end:
            self._hold(data)
            return b""
        rest = data[end:]
        lines = data[:end]
        if self.begun:
            lines = self._completed(lines)
        if rest:
            self._hold(rest)
        return lines

    def finish(self) -> bytes:
        """What has arrived behind the last line feed, as a line: nothing more will come."""
        return self.take(b"\n") if self.begun else b""

    def _hold(self, piece: bytes) -> None:
        self.begun += len(piece)
        if self.begun <= LONGEST:
            self._pieces.append(piece)
        else:
            self._pieces.clear()

    def _completed(self, lines: bytes) -> bytes:
        first = lines.index(b"\n")
        too_long = self.begun + first > LONGEST
        self._pieces.append(lines)
        completed = b"x" * (LONGEST + 1) + lines[first:] if too_long else b"".join(self._pieces)
        self._pieces.clear()
        self.begun = 0
        return completed


# Sockets

def listen(path: str) -> socket.socket:
    """A Unix socket at `path` that only its owner may connect to. One that a server has left behind is
    replaced; one that is in use, and any other file, is left, and a `SocketError` raised."""
    listener = socket.socket(socket.AF_UNIX, socket.SOCK_STREAM)
    folder = _locked_folder(path)
    mask = os.umask(0o177)    # so that it has its mode from the first moment on
    try:
        _remove_left_behind(path)
        listener.bind(path)
        listener.listen(1024)
    except OSError as error:
        listener.close()
        raise SocketError(f"cannot listen on {path}: {error.strerror or error}") from error
    except SocketError:
        listener.close()
        raise
    finally:
        os.umask(mask)
        if folder is not None:
            os.close(folder)
    listener.setblocking(False)
    return listener


def _locked_folder(path: str) -> int | None:
    """The folder of `path`, locked against other servers, so that no two replace the same socket; or
    `None` where it can't be locked in time."""
    try:
        folder = os.open(os.path.dirname(path) or ".", os.O_RDONLY | os.O_DIRECTORY | os.O_CLOEXEC)
    except OSError:
        return None
    end = time.monotonic() + _LOCKING
    while time.monotonic() < end:
        try:
            fcntl.flock(folder, fcntl.LOCK_EX | fcntl.LOCK_NB)
            return folder
        except OSError:
            time.sleep(0.01)
    os.close(folder)
    return None


def _remove_left_behind(path: str) -> None:
    try:
        found = os.lstat(path)
    except FileNotFoundError:
        return
    if not stat.S_ISSOCK(found.st_mode):
        raise SocketError(f"{path} is there, and is no socket")
    with socket.socket(socket.AF_UNIX, socket.SOCK_STREAM) as probe:
        probe.setblocking(False)
        try:
            probe.connect(path)
        except ConnectionRefusedError:
            os.unlink(path)
            return
        except FileNotFoundError:
            return
        except BlockingIOError:
            pass    # so many wait to be accepted that no further one may
        except OSError as error:
            raise SocketError(f"cannot use {path}: {error.strerror}") from error
    raise SocketError("the socket is in use")


def handed_over(environment: MutableMapping[str, str]) -> socket.socket | None:
    """The socket that systemd hands over, or `None`. What tells of it is taken out of `environment`."""
    process = environment.pop("LISTEN_PID", "")
    number = environment.pop("LISTEN_FDS", "")
    environment.pop("LISTEN_FDNAMES", None)
    if process != str(os.getpid()) or number in ("", "0"):
        return None
    if number != "1":
        raise SocketError(f"{number} sockets are handed over, and not one")
    try:
        listener = socket.socket(fileno=_FIRST_HANDED)
        family, kind = listener.family, listener.type
        listens = listener.getsockopt(socket.SOL_SOCKET, socket.SO_ACCEPTCONN)
    except OSError as error:
        raise SocketError(f"cannot use what is handed over: {error.strerror}") from error
    if family != socket.AF_UNIX or kind != socket.SOCK_STREAM or not listens:
        raise SocketError("what is handed over is no Unix socket that listens for connections")
    listener.set_inheritable(False)
    listener.setblocking(False)
    return listener


class Notifier:
    """Tells systemd, where it asked for it, what a service does."""

    def __init__(self, environment: MutableMapping[str, str]) -> None:
        address = environment.pop("NOTIFY_SOCKET", "")
        process = environment.pop("WATCHDOG_PID", "")
        microseconds = environment.pop("WATCHDOG_USEC", "")
        self._address = "\0" + address[1:] if address.startswith("@") else address
        self._socket = socket.socket(socket.AF_UNIX, socket.SOCK_DGRAM) if address else None
        watched = self._socket is not None and microseconds.isdecimal() and process in ("", str(os.getpid()))
        self.every = int(microseconds) / 2e6 if watched else None    # seconds between signs of life

    def tell(self, *told: str) -> None:
        if self._socket is None:
            return
        try:
            self._socket.sendto("\n".join(told).encode(), socket.MSG_DONTWAIT, self._address)
        except OSError:
            pass    # nobody listens, and nothing depends on it


# Asking

class Conversation:
    """A connection to a server, for one caller that waits for its answers."""

    def __init__(self, path: str, seconds: float | None = None) -> None:
        self._socket = socket.socket(socket.AF_UNIX, socket.SOCK_STREAM)
        self._socket.settimeout(seconds)
        try:
            self._socket.connect(path)
        except OSError as error:
            self._socket.close()
            raise SocketError(f"cannot connect to {path}: {error.strerror or error}") from error
        self._answers = self._socket.makefile("rb")

    def __enter__(self) -> Conversation:
        return self

    def __exit__(self, *_: object) -> None:
        self._answers.close()
        self._socket.close()

    def send(self, data: bytes) -> None:
        self._socket.sendall(data)

    def end(self) -> None:
        """Says that no line follows."""
        self._socket.shutdown(socket.SHUT_WR)

    def answer(self) -> bytes:
        """The next answer, without its line feed."""
        line = self._answers.readline()
        if not line.endswith(b"\n"):
            raise SocketError("the connection has ended without an answer")
        return line[:-1]

    def ask(self, line: bytes) -> bytes:
        self.send(line + b"\n")
        return self.answer()
