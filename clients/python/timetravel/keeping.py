"""When a session with `keep_slots` forgets, and up to which time."""

from __future__ import annotations

from threading import Lock

from . import requests
from .answers import Decode, Members, Status, Written
from .errors import Forgotten
from .waiting import AnswerType


class Keeping:
    """Looks at the answers that come, and tells when a line is to be sent that forgets old slots. It is
    who waits for the answer to that line, so nobody else does.

    It is time once a write has taken a slot twice as far behind the horizon as slots are to be kept.
    Where that line is refused, since a repair is under way, or somebody else has forgotten more, or the
    log can't be made anew, or for another cause, there is another one some slots later.
    """

    def __init__(self, slots: int) -> None:
        """Raises `ValueError` where no slot is to be kept."""
        if slots < 1:
            raise ValueError("keep_slots must be above 0")
        self._slots = slots
        self._slot = 0    # of the last write that was answered
        self._horizon = 0    # as far as it is known here
        self._again = 0    # the slot from which on to try again
        self._is_waiting = False    # a line isn't answered yet
        self._lock = Lock()

    def noting(self, decode: Decode[AnswerType]) -> Decode[AnswerType]:
        """The same way to read answers, by which this looks at them."""
        def read(found: Members) -> AnswerType:
            answer = decode(found)
            self.note(answer)
            return answer
        return read

    def note(self, answer: object) -> None:
        """Looks at an answer, also at that to the opening."""
        if isinstance(answer, Written):
            self._slot = answer.slot
        elif isinstance(answer, Status):
            self._horizon = answer.horizon
            self._again = 0    # what it was refused for may be over, and the database be another one

    def next_line(self) -> bytes | None:
        """The line that is to be sent now, or None. Who takes it sends it, or tells `set_exception`."""
        with self._lock:
            due = max(self._again, self._horizon + 2 * self._slots)
            if self._is_waiting or self._slot < due:
                return None
            self._is_waiting = True
            return requests.line({"forget": self._slot - self._slots})

    # As who waits for the answer

    def set_result(self, _: Status, /) -> None:
        self._is_waiting = False

    def set_exception(self, exception: BaseException, /) -> None:
        if isinstance(exception, Forgotten):
            self._horizon = exception.horizon
        self._again = self._slot + self._slots // 10 + 1
        self._is_waiting = False
