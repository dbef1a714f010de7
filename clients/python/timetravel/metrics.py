"""What a server counts and measures, and how it is told to Prometheus.

The kinds of requests are found by one regular expression for all lines that arrive together, since this
is done for each line that is served."""

from __future__ import annotations

import json
import os
import re
from bisect import bisect_left
from collections import Counter, deque
from collections.abc import Iterable, Iterator, Mapping, Sequence
from itertools import repeat
from typing import Any

from .lines import BLANK

KINDS = ("insert", "update", "delete", "select", "preview", "do", "begin", "step", "finish", "abort",
         "status", "slots", "changes", "tables", "why", "diff", "would", "forget")
SLOTS, ENTRIES = 1_000_000, 4_000_000    # what a database has room for

_BOUNDS = (0.0001, 0.00025, 0.0005, 0.001, 0.0025, 0.005, 0.01, 0.025, 0.05, 0.1, 0.25, 0.5, 1.0, 2.5, 5.0,
           10.0)    # seconds
_RECENT = 1000    # how many of the last times the quantiles are of
_PARSED = 65536    # bytes of a line that is read as JSON to find its kind
_MEBIBYTE = 1 << 20
_OTHER = b"other"

# Each line, and its kind where it is the first member, or stands behind `worker` and `if`.
_LINES = re.compile(
    rb'(?:\{"(?:(?:worker|if)": ?\d+, ?")*(' + "|".join(KINDS).encode() + rb')"[^\n]*|[^\n]*)\n')
_REFUSED = re.compile(rb'"refused":"([^"]*)"')


# Recognising

def without_blank(lines: bytes) -> tuple[bytes, int]:
    """The lines that are answered, and how many these are."""
    answered = [line for line in lines.split(b"\n") if line.strip(BLANK)]
    return b"".join(line + b"\n" for line in answered), len(answered)


def kinds_of(lines: bytes) -> list[bytes]:
    """The kind of each line, none of which is blank."""
    kinds = _LINES.findall(lines)
    if b"" not in kinds:
        return kinds
    return [kind or _kind(line) for kind, line in zip(kinds, lines.split(b"\n"))]


def _kind(line: bytes) -> bytes:
    if len(line) > _PARSED:
        return _OTHER
    try:
        request = json.loads(line.decode())
    except (ValueError, RecursionError):
        return _OTHER
    if not isinstance(request, dict):
        return _OTHER
    return next((kind.encode() for kind in KINDS if kind in request), _OTHER)


# Counting

class Times:
    """How long the requests of one kind took."""

    __slots__ = ("counts", "total", "recent")

    def __init__(self) -> None:
        self.counts = [0] * (len(_BOUNDS) + 1)
        self.total = 0.0
        self.recent: deque[float] = deque(maxlen=_RECENT)

    def add(self, seconds: float, number: int) -> None:
        self.counts[bisect_left(_BOUNDS, seconds)] += number
        self.total += seconds * number
        if number == 1:
            self.recent.append(seconds)
        else:
            self.recent.extend(repeat(seconds, min(number, _RECENT)))

    def quantile(self, part: float) -> float:
        ordered = sorted(self.recent)
        return ordered[min(int(part * len(ordered)), len(ordered) - 1)]


class Metrics:
    """What a server has counted since it began."""

    def __init__(self) -> None:
        self.times: dict[bytes, Times] = {}
        self.refusals: Counter[str] = Counter()
        self.closings: Counter[str] = Counter()    # connections that the server has closed, by cause
        self.faults = self.lost = self.accepted = self.starts = 0

    def answered(self, kinds: list[bytes], seconds: float) -> None:
        """Requests of these kinds were answered this long after they had arrived. An empty one is none."""
        for kind, number in Counter(kinds).items():
            if kind:
                self._of(kind).add(seconds, number)

    def _of(self, kind: bytes) -> Times:
        times = self.times.get(kind)
        if times is None:
            times = self.times[kind] = Times()
        return times

    def look(self, answers: bytes) -> None:
        """Counts refusals and faults. A quote within a text of an answer has a backslash before it, so
        these bytes are members."""
        if b'"refused":"' in answers:
            self.refusals.update(cause.decode() for cause in _REFUSED.findall(answers))
        if b'"fault":{' in answers:
            self.faults += answers.count(b'"fault":{')


# Telling

Labels = Mapping[str, str]
Sample = tuple[str, Labels, float]


def metric(name: str, kind: str, told: str, samples: Iterable[Sample]) -> Iterator[str]:
    """The lines of one metric. Each sample has what is put behind the name, its labels and its value."""
    lines = [f"timetravel_{name}{suffix}{_labels(labels)} {_number(value)}"
             for suffix, labels, value in samples]
    if lines:
        yield f"# HELP timetravel_{name} {told}"
        yield f"# TYPE timetravel_{name} {kind}"
        yield from lines


def one(name: str, kind: str, told: str, value: float | None) -> Iterator[str]:
    """The lines of a metric with one value, or none where it isn't known."""
    return metric(name, kind, told, [] if value is None else [("", {}, value)])


def _labels(labels: Labels) -> str:
    def quoted(text: str) -> str:
        return text.replace("\\", "\\\\").replace('"', '\\"').replace("\n", "\\n")
    told = ",".join(f'{name}="{quoted(value)}"' for name, value in labels.items())
    return "{" + told + "}" if told else ""


def _number(value: float) -> str:
    return str(value) if isinstance(value, int) else f"{value:.9g}"


def of_requests(metrics: Metrics) -> Iterator[str]:
    """What was counted of requests and connections."""
    kinds = [(name.decode(), times) for name, times in sorted(metrics.times.items())]
    yield from metric("request_seconds", "histogram", "Time from a request's arrival to its answer, by kind.",
                      [sample for kind, times in kinds for sample in _histogram(kind, times)])
    yield from metric(
        "request_recent_seconds", "gauge", f"Quantiles of the last {_RECENT} of these times, by kind.",
        [("", {"kind": kind, "quantile": str(part)}, times.quantile(part))
         for kind, times in kinds for part in (0.5, 0.99)])
    yield from metric("refusals_total", "counter", "Requests and openings that were refused, by cause.",
                      [("", {"cause": cause}, number) for cause, number in sorted(metrics.refusals.items())])
    yield from one("faults_total", "counter", "Requests and openings that had a fault.", metrics.faults)
    yield from one("lost_total", "counter", "Requests that the session ended on.", metrics.lost)
    yield from one("connections_total", "counter", "Connections that were accepted.", metrics.accepted)
    yield from metric(
        "connections_closed_total", "counter", "Connections that the server has closed, by cause.",
        [("", {"cause": cause}, number) for cause, number in sorted(metrics.closings.items())])
    yield from one("session_starts_total", "counter", "How often the session's program was started.",
                   metrics.starts)


def _histogram(kind: str, times: Times) -> Iterator[Sample]:
    below = 0
    for bound, number in zip((*map(str, _BOUNDS), "+Inf"), times.counts):
        below += number
        yield "_bucket", {"kind": kind, "le": bound}, below
    yield "_sum", {"kind": kind}, times.total
    yield "_count", {"kind": kind}, below


def of_status(status: Mapping[str, Any]) -> Iterator[str]:
    """What the session's status tells."""
    yield from one("slots", "gauge", "Slots that were taken: the time.", status["time"])
    yield from one("slots_limit", "gauge", "Slots that a database has room for.", SLOTS)
    yield from one("horizon", "gauge", "The time before which all is forgotten.", status.get("horizon", 0))
    yield from one("entries", "gauge", "Entries of the history.", status["entries"])
    yield from one("entries_limit", "gauge", "Entries that a database has room for.", ENTRIES)
    yield from one("generation", "gauge", "The current generation.", status["generation"])
    yield from one("oldest_generation", "gauge", "The oldest generation that can be read.", status["oldest"])
    repair = status["repair"]
    yield from one("repairing", "gauge", "1 while a repair is under way.", int(repair is not None))
    if repair is not None:
        yield from metric("repair_slots", "gauge", "Slots of the repair under way: done, left, re-executed.",
                          [("", {"state": state}, repair[state]) for state in ("done", "left", "rerun")])


def of_rows(rows: Mapping[str, int]) -> Iterator[str]:
    """How many rows the tables have."""
    yield from metric("rows", "gauge", "Rows of each table.",
                      [("", {"table": table}, number) for table, number in rows.items()])


# Measuring

def memory(process: int | str) -> tuple[int, int] | None:
    """The bytes that a process takes of the memory, and the most it has taken."""
    try:
        with open(f"/proc/{process}/status", "rb") as file:
            told = {name: value for name, _, value in (line.partition(b":") for line in file)}
        return _kibibytes(told[b"VmRSS"]), _kibibytes(told[b"VmHWM"])
    except (OSError, KeyError, ValueError):
        return None


def _kibibytes(told: bytes) -> int:
    return int(told.split()[0]) * 1024


def log_bytes(path: str) -> int | None:
    """The bytes of a log's lines, without the bytes 0 behind them."""
    try:
        with open(path, "rb") as file:
            end = os.fstat(file.fileno()).st_size
            while end > 0:
                begin = max(0, end - _MEBIBYTE)
                file.seek(begin)
                lines = file.read(end - begin).rstrip(b"\0")
                if lines:
                    return begin + len(lines)
                end = begin
            return 0
    except OSError:
        return None


def command_log(command: Sequence[str]) -> str | None:
    """The file behind `--log` in a session's command."""
    for place, word in enumerate(command[:-1]):
        if word == "--log":
            return command[place + 1]
    return None
