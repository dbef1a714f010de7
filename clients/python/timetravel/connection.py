"""One connection to a Unix socket, behind which a server forwards lines to a session for many."""

from __future__ import annotations

import os
import socket

from .channel import LONG, Channel
from .errors import Disconnected, NoAnswer, NotConnected
from .told import Told
from .waiting import Deadline, WaitersInOrder


def connected(path: str, deadline: Deadline | None) -> socket.socket:
    """A socket that is connected. Raises `NotConnected`, and `NoAnswer` where it takes too long."""
    made = socket.socket(socket.AF_UNIX, socket.SOCK_STREAM)
    try:
        made.settimeout(None if deadline is None else min(deadline.left(), LONG) or 1e-6)
        made.connect(path)
        made.settimeout(None)
    except TimeoutError:
        made.close()
        assert deadline is not None
        raise NoAnswer(deadline.seconds) from None
    except (OSError, ValueError) as error:
        made.close()
        raise NotConnected(path) from error
    except BaseException:
        made.close()
        raise
    return made


class Connection(Channel):
    """A session that others use, too. Its answers are numbered for all of them, so they are matched with
    the lines of this connection by their order."""

    def __init__(self, path: str | os.PathLike[str], deadline: Deadline | None, told: Told) -> None:
        """Connects. Raises `NotConnected`, and `NoAnswer` where it takes too long."""
        super().__init__(WaitersInOrder(told))
        self.path = os.fspath(path)
        self._socket = connected(self.path, deadline)
        self._is_closing = False
        self._said = ""
        self.start_reading()

    def descriptor(self) -> int:
        return self._socket.fileno()

    def _send(self, data: bytes, sent: list[int]) -> None:
        sent.extend(map(self._socket.send, (data,), (socket.MSG_DONTWAIT,)))

    def _receive(self) -> bytes:
        if self._is_closing and not len(self.waiters):
            return b""
        return self._socket.recv(65536)

    def _reads_no_more(self) -> None:
        self._shut(socket.SHUT_RD)    # What has come is read yet, and then the end.

    def _end(self, said: str) -> None:
        self._said = said
        self._socket.close()

    def end_error(self) -> Disconnected:
        return Disconnected(self.path, self._said)

    def end_input(self, deadline: Deadline | None) -> None:
        if self.has_ended:
            return
        if self._unsent:
            self.send_rest(deadline)
        self._is_closing = True
        self._shut(socket.SHUT_WR)
        if not len(self.waiters):
            self._shut(socket.SHUT_RD)    # Else the last answer brings the end.

    def kill(self) -> None:
        self._shut(socket.SHUT_RDWR)

    def close_in_child(self) -> None:
        self._socket.close()

    def _shut(self, how: int) -> None:
        try:
            self._socket.shutdown(how)
        except OSError:
            pass    # It has ended before.
