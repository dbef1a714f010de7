"""Following etcd's log of entries, and appending to it, in a thread beside a replica's server.

An entry is a list of requests, each a line `ID REQUEST`. Requests that wait are put together into the next
entry, which is appended where nothing is in its place or behind it. No entry is tried before the one before
it is known: so where a request may already be in the entry that was tried last, it is found there by its id,
and is in no later one. And who hasn't read an entry that was dropped since never fills its place.
"""

from __future__ import annotations

import os
import threading
import time
from collections import deque
from collections.abc import Callable, Iterable, Sequence
from dataclasses import dataclass
from time import monotonic

from .etcd import COPY, PAGE, SET_BACK, Entries, EntriesGone, EtcdError
from .positions import LogFile, PositionError, behind

LONGEST = 1 << 20    # bytes of a request, and of all of an entry but the last one

_POLL = 0.05    # seconds between looks for entries of other replicas
_STALE = 1.0    # seconds after a missed look, after which there may be many entries, and it comes first
_PAUSE = 0.1    # seconds before a call that failed is tried again
_RIVALRY = 8    # entries of its own after which a replica takes itself to be the only one that appends
_LONGEST_YIELD = 0.02    # seconds
_LARGEST_PAGE = 128    # entries that are asked for at once where they are small
_SMALL_PAGE = 1 << 19    # bytes of a page that may be larger
_MOST_FOUND = 1 << 24    # bytes of entries that wait for the server

Request = tuple[int, bytes]    # its number and its line


@dataclass(frozen=True)
class Found:
    """An entry that is there. `own` is the number of its first request where it is of this replica."""
    run: int
    number: int
    lines: bytes
    requests: int    # how many lines these are
    own: int | None


@dataclass(frozen=True)
class Started:
    """The session can be started, and will be fed with the entries from this number on, the first of them
    without as many lines as `part`."""
    run: int
    number: int
    part: int


def encoded(name: bytes, requests: Iterable[Request]) -> bytes:
    return b"".join(b"%s-%d %s\n" % (name, number, line) for number, line in requests)


def decoded(value: bytes) -> list[tuple[bytes, bytes]]:
    """The ids and the lines of an entry. Raises `EntriesGone` for what is no entry."""
    *lines, rest = value.split(b"\n")
    cut = [line.partition(b" ") for line in lines]
    if rest or not cut or not all(space for _, space, _ in cut):
        raise EntriesGone(f"what is in etcd is no entry: {value[:100]!r}")
    return [(identity, line) for identity, _, line in cut]


def _without_ids(value: bytes) -> tuple[bytes, int]:
    """The lines of an entry, and how many they are. Raises `EntriesGone` for what is no entry."""
    *requests, rest = value.split(b"\n")
    lines = [request.partition(b" ")[2] for request in requests]
    if rest or not lines or not all(lines):
        raise EntriesGone(f"what is in etcd is no entry: {value[:100]!r}")
    lines.append(b"")
    return b"\n".join(lines), len(requests)


def _next_page(page: int, values: Sequence[bytes]) -> int:
    """How many entries to ask for behind a page with these."""
    if sum(map(len, values)) > _SMALL_PAGE:
        return PAGE
    return min(2 * page, _LARGEST_PAGE) if len(values) == page else page


class Follower:
    """The thread, and what it shares with the server's."""

    def __init__(self, entries: Entries, wake: Callable[[], None], log: LogFile | None = None) -> None:
        self.name = os.urandom(8).hex().encode()    # of this process's requests
        self.failing = ""    # why etcd doesn't answer
        self.failing_since = 0.0
        self.at_end = False    # there were no further entries when it looked last
        self.fatal = ""    # why it has ended
        self._entries = entries
        self._wake = wake
        self._log = log
        self._changed = threading.Condition()
        self._pending: deque[Request] = deque()    # requests that aren't known to be in an entry
        self._opening: Request | None = None
        self._found: deque[Found | Started] = deque()
        self._found_size = 0
        self._run = 0    # counts the starts of the session
        self._prepared = False
        self._next = 0    # the next entry
        self._behind = 0    # entries that the log has, between the first one and this one
        self._part = 0    # and lines of this one
        self._page = PAGE    # entries that are asked for at once
        self._rivalry = 0    # above 0 where others have appended lately
        self._yields = 0.0    # seconds to leave to others, and to look for entries, before it appends again
        self._look_at = 0.0    # when to look for entries of other replicas
        self._stopping = False
        self._thread = threading.Thread(target=self._follow, name="timetravel etcd", daemon=True)

    # The server's side

    def stop(self) -> None:
        with self._changed:
            self._stopping = True
            self._changed.notify()

    def restart(self) -> int:
        """Begins with the first entry, for a new session; the number of this run."""
        with self._changed:
            if not self._run:
                self._thread.start()
            self._run += 1
            self._prepared = self.at_end = False
            self._next = self._behind = 0
            self._found.clear()
            self._found_size = 0
            self._changed.notify()
            return self._run

    def append(self, requests: Iterable[Request]) -> None:
        with self._changed:
            self._pending.extend(requests)
            self._changed.notify()

    def open(self, line: bytes) -> None:
        """Puts this opening into the first entry, unless another one is there."""
        with self._changed:
            self._opening = (0, line)
            self._changed.notify()

    def forget(self, below: int) -> None:
        """Doesn't append the requests below this number any more. What was tried may yet be found."""
        with self._changed:
            self._forget(below)

    def found(self) -> Found | Started | None:
        with self._changed:
            if not self._found:
                return None
            found = self._found.popleft()
            if isinstance(found, Found):
                self._found_size -= len(found.lines)
                self._changed.notify()
            return found

    # The thread's side

    def _follow(self) -> None:
        while not self._stopping:
            try:
                self._step()
                self.failing = ""
                continue
            except EtcdError as error:
                if not self.failing:
                    self.failing_since = monotonic()
                self.failing = str(error)
                self._page = PAGE    # perhaps it was too much at once
            except (EntriesGone, PositionError) as error:
                self.fatal = str(error)
            except Exception as error:    # whatever it is, the server has to be told
                self.fatal = repr(error)
            self._wake()
            if self.fatal:
                break
            with self._changed:
                self._changed.wait(_PAUSE)
        self._entries.close()

    def _step(self) -> None:
        with self._changed:
            while self._found_size > _MOST_FOUND and not self._stopping:
                self._changed.wait()
            if self._stopping:
                return
            run, number, prepared = self._run, self._next, self._prepared
            batch = self._batch(number)
        if not prepared:
            self._prepare(run)
        elif self._behind and number == 0:
            values = self._entries.fetch(number, 1)
            if not values:
                raise EntriesGone("etcd has no entries, and the log has: " + SET_BACK)
            self._deliver(run, number, values, False)
        elif self._behind and number == 1:
            self._skip(run)
        elif batch and not self._yields:
            if monotonic() > self._look_at + _STALE:
                self._look(run, number)
            if (self._run, self._next, self.at_end) == (run, number, True):
                self._append_batch(run, number, batch)
        elif self.at_end and not self._yields and monotonic() < self._look_at:
            self._wait(run)
        else:
            self._look(run, number)

    def _append_batch(self, run: int, number: int, batch: list[Request]) -> None:
        began = monotonic()
        values = self._entries.append(number, encoded(self.name, batch))
        if self._is_contended(values):
            self._yields = min(monotonic() - began, _LONGEST_YIELD)
        self._deliver(run, number, values, len(values) < PAGE)

    def _look(self, run: int, number: int) -> None:
        time.sleep(self._yields)
        is_far_behind = self._page == _LARGEST_PAGE
        values = self._entries.fetch(number, self._page, is_far_behind)
        self._deliver(run, number, values, len(values) < self._page)
        self._page = _next_page(self._page, values)
        self._yields = 0.0

    def _is_contended(self, values: Sequence[bytes]) -> bool:
        """Whether to let others append before the next entry: this one is there, and others have appended
        lately. So those that came too late are first at the next one, and no replica keeps them from it."""
        own = values[0].startswith(self.name)
        self._rivalry = max(0, self._rivalry - 1) if own else _RIVALRY
        return own and self._rivalry > 0

    def _batch(self, number: int) -> list[Request]:
        """The requests of the next entry, where it is time to append one."""
        if not self.at_end:
            return []
        if number == 0:    # nothing can be asked of a database that isn't open
            return [self._opening] if self._opening is not None else []
        batch: list[Request] = []
        size = 0
        for request in self._pending:
            size += len(request[1]) + 64
            if batch and size > LONGEST:
                break
            batch.append(request)
        return batch

    def _wait(self, run: int) -> None:
        """Waits until it is time to look for entries of other replicas, or to append one."""
        with self._changed:
            if run == self._run and not self._stopping and not self._batch(self._next):
                self._changed.wait(max(0.0, self._look_at - monotonic()))

    def _deliver(self, run: int, number: int, values: Sequence[bytes], at_end: bool) -> None:
        found = [self._read(run, place, value) for place, value in enumerate(values, number)]
        with self._changed:
            if run != self._run:
                return
            for entry in found:
                if entry.own is not None:
                    self._forget(entry.own + entry.requests)
                self._found.append(entry)
                self._found_size += len(entry.lines)
            self._next = number + len(found)
            self._look_at = monotonic() + _POLL
            changed = bool(found) or at_end != self.at_end
            self.at_end = at_end
        if changed:
            self._wake()

    def _read(self, run: int, number: int, value: bytes) -> Found:
        lines, requests = _without_ids(value)
        name, _, rest = value.partition(b"-")
        own = int(rest[:rest.index(b" ")]) if name == self.name and number > 0 else None
        return Found(run, number, lines, requests, own)

    def _forget(self, below: int) -> None:
        while self._pending and self._pending[0][0] < below:
            self._pending.popleft()

    # Starting

    def _prepare(self, run: int) -> None:
        """Makes the log ready for a session. Its lines past its position are cut off, once it is known
        that they will come again."""
        number = part = 0
        if self._log is not None:
            past = self._log.read()
            number, part = self._log.position.entry, self._log.position.part
            if past:
                self._look_for(past, number, part)
                self._log.cut()
        with self._changed:
            if run == self._run:
                self._behind, self._part = number, part
                self._prepared = True
                self._found.append(Started(run, number, part))
        self._wake()

    def _look_for(self, past: list[bytes], number: int, part: int) -> None:
        while past:
            values = self._entries.fetch(number)
            if not values:
                raise PositionError(f"etcd hasn't the log's line {past[0][:200]!r}")
            for value in values:
                past = behind((line for _, line in decoded(value)[part:]), past)
                part = 0
            number += len(values)

    def _skip(self, run: int) -> None:
        """Goes on behind the entries that the log has. The last of them is never dropped."""
        last = self._behind if self._part else self._behind - 1
        if not self._entries.fetch(last, 1):
            raise EntriesGone(f"entry {last} is gone from etcd, and this replica hasn't read those behind "
                              f"it: {COPY}")
        with self._changed:
            if run == self._run:
                self._next = max(self._behind, 1)
                self._behind = 0
