"""Stamps of writes: what a service counts its writes by, most often the milliseconds of its clock."""

from __future__ import annotations

import time
from collections.abc import Callable

Clock = Callable[[], int]    # gives the stamp of a write that is about to be sent


def milliseconds() -> int:
    """The milliseconds since the year 1970 began, by the clock of this machine: a ready `clock`.

        Session([accounts], clock=milliseconds)
    """
    return time.time_ns() // 1_000_000
