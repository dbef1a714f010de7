"""How far a session is, as a client was told, so that it knows the session again that it comes back to."""

from __future__ import annotations

from .errors import Vanished
from .answers import Members


class Told:
    """The latest time and horizon that a client was told. What a session answers comes in the order of its
    lines, and its time and its horizon never go back; so where they do, it is another one."""
    __slots__ = ("_time", "_horizon", "_vanished")

    def __init__(self) -> None:
        self._time = self._horizon = 0
        self._vanished: tuple[str, int, int] | None = None

    def vanished(self) -> Vanished | None:
        """What is to be raised from now on in place of sending anything."""
        return None if self._vanished is None else Vanished(*self._vanished)

    def look(self, members: Members) -> Vanished | None:
        """Looks at an answer, and tells what is to be raised in its place."""
        slot = members.get("slot")
        if slot is not None and "replies" in members:
            if slot <= self._time:
                self._vanish("slot", slot, self._time)
            else:
                self._time = slot
        else:
            self._look_at_rest(members)
        return self.vanished()

    def _look_at_rest(self, members: Members) -> None:
        if "entries" in members or "slots" in members:    # a status, slots, or the end of a repair
            time = members["time"] if "time" in members else members["slots"]
        elif members.get("refused") == "moved":
            time = members["now"]
        else:
            time = self._time    # a select may be of an earlier time
        if time < self._time:
            self._vanish("time", time, self._time)
        self._time = max(time, self._time)
        if "entries" in members or "horizon" in members:
            horizon = members.get("horizon", 0)
            if horizon < self._horizon:
                self._vanish("horizon", horizon, self._horizon)
            self._horizon = max(horizon, self._horizon)

    def _vanish(self, what: str, found: int, told: int) -> None:
        if self._vanished is None:
            self._vanished = what, found, told
