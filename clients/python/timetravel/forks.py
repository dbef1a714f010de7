"""What a child of the process does with the sessions of its parent: it closes its ends, no more."""

from __future__ import annotations

import os
import weakref
from typing import Any, Protocol


class Forkable(Protocol):
    """What a child of the process has no part in."""

    def close_in_child(self) -> None: ...


_forkable: weakref.WeakSet[Any] = weakref.WeakSet()


def close_in_children(channel: Forkable) -> None:
    """Has a child close its ends of the channel, which goes on between the parent and the session: while
    a child holds an end, the other side doesn't see that the parent has closed its own."""
    _forkable.add(channel)


def _close_all_in_child() -> None:
    for channel in list(_forkable):
        channel.close_in_child()
    _forkable.clear()


os.register_at_fork(after_in_child=_close_all_in_child)
