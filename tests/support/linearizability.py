"""A checker of histories: whether what clients were answered, and when, can be explained by requests that
were carried out one after the other, each between its call and its answer.

It is the search of Wing and Gong, with Lowe's memory of what was tried already. A request without an answer
may have been carried out at any time after its call, or never.
"""

from __future__ import annotations

from collections.abc import Callable, Hashable, Sequence
from dataclasses import dataclass
from typing import Any, Optional

Model = Callable[[Any, Any, Any], Optional[Hashable]]


@dataclass
class Operation:
    """A client's request: its call and its answer, and the times of both. Both are `None` without one."""
    call: Any
    called: float
    answer: Any = None
    answered: float | None = None


class _Event:
    """A call or an answer in the list of all, by time."""

    __slots__ = ("number", "match", "before", "behind")

    def __init__(self, number: int) -> None:
        self.number = number
        self.match: _Event | None = None    # the answer of a call
        self.before: _Event | None = None
        self.behind: _Event | None = None

    def take_out(self) -> None:
        assert self.before is not None
        self.before.behind = self.behind
        if self.behind is not None:
            self.behind.before = self.before

    def put_back(self) -> None:
        assert self.before is not None
        self.before.behind = self
        if self.behind is not None:
            self.behind.before = self


def linearizable(history: Sequence[Operation], model: Model, state: Hashable) -> bool:
    """Whether a history is one of this model. `model(state, call, answer)` is the state after a request that
    has this answer, or `None` where it can't have; the answer is `None` where it isn't known."""
    head, answers = _events(history)
    taken: list[tuple[_Event, Hashable]] = []
    done = 0    # a bit for each request that was carried out
    tried: set[tuple[int, Hashable]] = set()
    event = head.behind
    while answers:
        if event is not None and (event.match is not None or history[event.number].answered is None):
            operation = history[event.number]
            after = model(state, operation.call, operation.answer)
            bit = done | 1 << event.number
            if after is not None and (bit, after) not in tried:
                tried.add((bit, after))
                taken.append((event, state))
                state, done = after, bit
                _take(event)
                answers -= event.match is not None
                event = head.behind
            else:
                event = event.behind
            continue
        if not taken:
            return False
        event, state = taken.pop()    # the answer stands here, or all were tried: go back
        done &= ~(1 << event.number)
        _put_back(event)
        answers += event.match is not None
        event = event.behind
    return True


def _events(history: Sequence[Operation]) -> tuple[_Event, int]:
    timed: list[tuple[float, int, _Event]] = []
    for number, operation in enumerate(history):
        call = _Event(number)
        timed.append((operation.called, 0, call))
        if operation.answered is not None:
            call.match = _Event(number)
            timed.append((operation.answered, 1, call.match))
    timed.sort(key=lambda item: item[:2])
    head = last = _Event(-1)
    for _, _, event in timed:
        last.behind, event.before = event, last
        last = event
    return head, sum(operation.answered is not None for operation in history)


def _take(event: _Event) -> None:
    event.take_out()
    if event.match is not None:
        event.match.take_out()


def _put_back(event: _Event) -> None:
    if event.match is not None:
        event.match.put_back()
    event.put_back()
