"""What can go wrong. All of these can be copied and pickled."""

from __future__ import annotations

import os
from collections.abc import Sequence
from typing import Any


class Error(Exception):
    """Whatever a session raises."""

    def __reduce__(self) -> tuple[Any, ...]:
        return _made_again, (type(self), self.args, self.__dict__.copy())


def _made_again(kind: type[Error], arguments: tuple[Any, ...], attributes: dict[str, Any]) -> Error:
    error = kind.__new__(kind)
    error.args = arguments
    error.__dict__.update(attributes)
    return error


class NotStarted(Error):
    """The program could not be started. `__cause__` is the error of the system."""

    def __init__(self, command: Sequence[str]) -> None:
        super().__init__(f"cannot start {command[0] if command else 'an empty command'}; "
                         'command=["PATH/timetravel", "session"] tells where the program is')
        self.command = list(command)


class NotConnected(Error):
    """There is no connection to be had to the socket at `path`. `__cause__` is the error of the system."""

    def __init__(self, path: str | os.PathLike[str]) -> None:
        self.path = os.fspath(path)
        super().__init__(f"cannot connect to {self.path}")


class Vanished(Error):
    """The session that this client has come back to isn't the one that it left: it tells an earlier `what`
    ("time", "slot" or "horizon"), `found`, than the client was told before, which is `told`. So requests that
    were answered aren't there.

    The log was moved away or cut, an older copy was put in its place, or its disk has lost what it had said
    to be safe. Look for the log that is missing before anything is written to this one. A client that has
    raised this sends nothing any more, and raises it again for each request; to go on with what is there,
    open another.
    """

    def __init__(self, what: str, found: int, told: int) -> None:
        super().__init__("the session is another one, or has lost what it had answered: "
                         f"it tells {what} {found}, and {told} was told before")
        self.what, self.found, self.told = what, found, told


class Closed(Error):
    """The session was closed before this request, or isn't open yet."""

    def __init__(self, text: str = "the session is closed") -> None:
        super().__init__(text)


class Forked(Error):
    """The session belongs to the parent of this process, and goes on there. A child opens its own."""

    def __init__(self) -> None:
        super().__init__("the session belongs to the process that opened it, and this is a child of it")


class Ended(Error):
    """What would have answered has ended: see `Lost` and `Disconnected`."""


class Lost(Ended):
    """The program has ended. Its database has ended with it, or is in its log, with each request that
    was answered, and perhaps with this one."""

    def __init__(self, status: int | None, standard_error: str) -> None:
        said = standard_error.strip()
        ended = "the program ended" if status is None else f"the program ended with status {status}"
        super().__init__(ended + (f": {said}" if said else ""))
        # Below zero: the number of the signal that ended it. None where it is behind a socket.
        self.status = status
        self.standard_error = standard_error


class Disconnected(Ended):
    """The connection has ended. The database goes on or not; each request that was answered was carried
    out, and perhaps this one. `said` is what came last where that was no answer, or what went wrong."""

    def __init__(self, path: str, said: str = "") -> None:
        super().__init__(f"the connection to {path} has ended" + (f": {said}" if said else ""))
        self.path, self.said = path, said


class NoAnswer(Error, TimeoutError):
    """No answer came within the `timeout`. The request may still be carried out."""

    def __init__(self, seconds: float) -> None:
        super().__init__(f"no answer within {seconds} seconds")
        self.seconds = seconds


class Fault(Error):
    """A request that the grammar or the tables don't allow. It has changed nothing."""

    def __init__(self, path: str, cause: str, call: int | None = None) -> None:
        super().__init__(f"{path}: {cause}")
        self.path, self.cause, self.call = path, cause, call


class Refused(Error):
    """A request that the database refuses as it is now. It has changed nothing."""

    def __init__(self, cause: str, call: int | None = None, **members: int) -> None:
        told = ", ".join(f"{name} {value}" for name, value in members.items())
        super().__init__(f"{cause} ({told})" if told else cause)
        self.cause, self.call = cause, call
        for name, value in members.items():
            setattr(self, name, value)


class Moved(Refused):
    """`if_time` isn't the current time."""
    now: int


class Later(Refused):
    """The time of a select, or of a forgetting, is later than `now`, the last time of its generation."""
    now: int


class Forgotten(Refused):
    """The time of a select, or of a forgetting, lies before `horizon`, up to which all is forgotten."""
    horizon: int


class NoGeneration(Refused):
    """The generation of a select isn't kept: those from `oldest` to `newest` are."""
    oldest: int
    newest: int


class NotRepairing(Refused):
    """No repair is under way."""


class RepairOfAnother(Refused):
    """The repair under way was begun by `worker`, and this is meant for one of another worker."""
    worker: int


class Repairing(Refused):
    """A repair is under way already."""


class NoSlot(Refused):
    """An edit is of `slot`, which isn't there."""
    slot: int


class EditedTwice(Refused):
    """Two edits are of `slot`."""
    slot: int


class Full(Refused):
    """The database has as many slots or entries as it takes, which is `limit`."""
    limit: int


class AnotherOpening(Refused):
    """The log, or the session behind the socket, is one with other tables, or with another `keep`."""


class OutOfMemory(Refused):
    """The program has no memory for this request; the database is as it was."""


class LogFailed(Refused):
    """The log couldn't be made anew, for example because its disk is full, so nothing is forgotten. The
    session goes on with the log as it was."""


REFUSALS: dict[str, type[Refused]] = {
    "moved": Moved, "later": Later, "forgotten": Forgotten, "no generation": NoGeneration,
    "not repairing": NotRepairing, "repair of another": RepairOfAnother, "repairing": Repairing,
    "no slot": NoSlot,
    "edited twice": EditedTwice, "full": Full, "another opening": AnotherOpening, "memory": OutOfMemory,
    "log": LogFailed}
