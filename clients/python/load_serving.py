"""A load for `python3 -m timetravel serve`, beside the raw pipe to a session.

    python3 load_serving.py DIR/timetravel [SECONDS]

Each client is a process. Half of the requests are inserts, half selects by key, and each answer is checked.
Printed are requests a second, the median and 99th percentile of the times that clients waited, and the
part of the raw pipe's requests a second that this is.
"""

from __future__ import annotations

import os
import signal
import socket
import statistics
import struct
import subprocess
import sys
import tempfile
import threading
import time
from collections.abc import Callable, Sequence
from dataclasses import dataclass
from pathlib import Path

OPENING = (b'{"version":2,"tables":[{"name":"acct","columns":[{"name":"id","kind":"int"},'
           b'{"name":"owner","kind":"text","partition":true},{"name":"bal","kind":"int"}]}]}\n')
PACKAGE = Path(__file__).resolve().parent
TOGETHER = 100    # lines that a client sends at once
FLOOD = 2000    # lines that a flooding client sends at once
BOUND = 30.0    # seconds beyond a run's own after which it has failed

Send = Callable[[bytes], object]
Receive = Callable[[int], bytes]
Client = Callable[[Send, Receive, Sequence[tuple[bytes, bytes]], float], "tuple[int, list[float]]"]


@dataclass
class Measured:
    """What the clients of one kind saw: their requests a second, and their times in microseconds."""
    rate: float
    median: float
    high: float
    processor: float = 0.0    # the server's processor time for each request of all kinds, in microseconds


def requests(client: int, number: int) -> list[tuple[bytes, bytes]]:
    """Lines of a client, each with what its answer ends with."""
    made = []
    for key in range(client * 1_000_000, client * 1_000_000 + number // 2):
        made.append((b'{"insert":"acct","row":[%d,"ann",10]}\n' % key, b'"]}\n'))
        made.append((b'{"select":"acct","where":[["id",%d]]}\n' % key, b'"rows":[[%d,"ann",10]]}\n' % key))
    return made


# Clients. Each returns how many requests were answered, and how long it waited for each answer, or for
# the answers to each block of lines.

def waiting(send: Send, receive: Receive, lines: Sequence[tuple[bytes, bytes]],
            until: float) -> tuple[int, list[float]]:
    times: list[float] = []
    before = time.perf_counter()
    while True:
        for line, end in lines:
            send(line)
            answer = receive(65536)
            while not answer.endswith(b"\n"):
                answer += receive(65536)
            now = time.perf_counter()
            times.append(now - before)
            before = now
            check(answer, end)
            if now >= until:
                return len(times), times


def together(send: Send, receive: Receive, lines: Sequence[tuple[bytes, bytes]],
             until: float) -> tuple[int, list[float]]:
    blocks = [(b"".join(line for line, _ in lines[at:at + TOGETHER]), lines[at + TOGETHER - 1][1])
              for at in range(0, len(lines), TOGETHER)]
    times: list[float] = []
    before = time.perf_counter()
    while True:
        for block, end in blocks:
            send(block)
            left = TOGETHER
            while left:
                answers = received(receive, 65536)
                left -= answers.count(b"\n")
            now = time.perf_counter()
            times.append(now - before)
            before = now
            check(answers, end)
            if now >= until:
                return len(times) * TOGETHER, times


def flooding(send: Send, receive: Receive, lines: Sequence[tuple[bytes, bytes]],
             until: float) -> tuple[int, list[float]]:
    """Sends without waiting, and reads meanwhile."""
    block = b"".join(line for line, _ in lines[:FLOOD])
    sent = 0
    ended = False

    def feed() -> None:
        nonlocal sent, ended
        while time.perf_counter() < until:
            sent += FLOOD
            send(block)
        ended = True

    feeder = threading.Thread(target=feed)
    before = time.perf_counter()
    feeder.start()
    answered = 0
    while not (ended and answered == sent):
        answered += received(receive, 1 << 18).count(b"\n")
    feeder.join()
    return answered, [time.perf_counter() - before]


def received(receive: Receive, size: int) -> bytes:
    data = receive(size)
    if not data:
        raise SystemExit("the connection has ended")
    return data


def check(answer: bytes, end: bytes) -> None:
    if not answer.endswith(end):
        raise SystemExit(f"a wrong answer: {answer[-200:]!r}, and not {end!r}")


# Runs

def raw(program: str, client: Client, seconds: float) -> Measured:
    """One client on the pipes of the session itself."""
    process = subprocess.Popen([program, "session"], stdin=subprocess.PIPE, stdout=subprocess.PIPE, bufsize=0)
    assert process.stdin is not None and process.stdout is not None
    into, out = process.stdin.fileno(), process.stdout.fileno()
    os.write(into, OPENING)
    os.read(out, 65536)
    lines = requests(1, 20_000)
    before = time.perf_counter()
    number, times = client(lambda data: os.write(into, data), lambda size: os.read(out, size), lines,
                           before + seconds)
    measured = of_times(number / (time.perf_counter() - before), times)
    process.stdin.close()
    process.stdout.close()
    process.wait()
    return measured


def served(program: str, clients: Sequence[Client], seconds: float) -> dict[str, Measured]:
    """These clients at once, on a socket; what those of each kind saw."""
    with tempfile.TemporaryDirectory() as folder:
        path = f"{folder}/socket"
        server = subprocess.Popen(
            [sys.executable, "-m", "timetravel", "serve", path, "--", program, "session"], cwd=PACKAGE)
        children: list[tuple[int, int, str]] = []
        try:
            opener = connected(path)
            opener.sendall(OPENING)
            check(opener.recv(65536), b"}\n")
            begin = time.perf_counter() + 2.0 + 0.05 * len(clients)
            children = [(*forked(path, number + 1, client, begin, seconds), client.__name__)
                        for number, client in enumerate(clients)]
            signal.alarm(int(seconds + 6 + BOUND))    # ends this process: a run has stalled
            before = processor_time(server.pid)
            measured = collected(children, lambda: processor_time(server.pid) - before)
            signal.alarm(0)
            opener.close()
        finally:
            server.terminate()
            status = server.wait(BOUND)
        if status != 0:
            raise SystemExit(f"the server has ended with {status}")
        return measured


def connected(path: str) -> socket.socket:
    end = time.monotonic() + BOUND
    while True:
        connection = socket.socket(socket.AF_UNIX)
        try:
            connection.connect(path)
            return connection
        except OSError:
            connection.close()
            if time.monotonic() > end:
                raise
            time.sleep(0.01)


def forked(path: str, number: int, client: Client, begin: float, seconds: float) -> tuple[int, int]:
    """A client in a process of its own: its number, and the pipe that it tells its times on."""
    reader, writer = os.pipe()
    child = os.fork()
    if child:
        os.close(writer)
        return child, reader
    status = 1
    try:
        connection = connected(path)
        connection.sendall(OPENING)
        check(connection.recv(65536), b"}\n")
        lines = requests(number, 4000 if client is waiting else 20_000)
        time.sleep(max(0.0, begin - time.perf_counter()))
        before = time.perf_counter()
        done, times = client(connection.sendall, connection.recv, lines, before + seconds)
        after = time.perf_counter()
        with os.fdopen(writer, "wb") as pipe:
            pipe.write(struct.pack(f"3d{len(times)}d", done, before, after, *times))
        status = 0
    except SystemExit as error:
        print(error, file=sys.stderr)
    finally:
        os._exit(status)


def processor_time(process: int) -> float:
    """The seconds that a process has had of a processor."""
    told = Path(f"/proc/{process}/stat").read_text().rpartition(")")[2].split()
    return (int(told[11]) + int(told[12])) / os.sysconf("SC_CLK_TCK")


def collected(children: Sequence[tuple[int, int, str]],
              processor: Callable[[], float]) -> dict[str, Measured]:
    """What the clients of each kind saw, from the start of the first to the end of the last."""
    runs: dict[str, list[tuple[float, float, float]]] = {}
    times: dict[str, list[float]] = {}
    for child, reader, kind in children:
        with os.fdopen(reader, "rb") as pipe:
            told = pipe.read()
        os.waitpid(child, 0)
        if not told:
            raise SystemExit("a client has failed")
        done, before, after, *waited = struct.unpack(f"{len(told) // 8}d", told)
        runs.setdefault(kind, []).append((done, before, after))
        times.setdefault(kind, []).extend(waited)
    each = processor() / sum(done for seen in runs.values() for done, _, _ in seen) * 1e6
    measured = {}
    for kind, seen in runs.items():
        numbers, starts, ends = zip(*seen)
        measured[kind] = of_times(sum(numbers) / (max(ends) - min(starts)), times[kind])
        measured[kind].processor = each
    return measured


def of_times(rate: float, times: Sequence[float]) -> Measured:
    ordered = sorted(times)
    return Measured(rate, statistics.median(ordered) * 1e6, ordered[int(len(ordered) * 0.99)] * 1e6)


def show(label: str, measured: Measured, base: float | None = None) -> None:
    part = f"   server {measured.processor:>5.2f} us each" if measured.processor else ""
    part += f"   {measured.rate / base:.2f} of the raw pipe" if base else ""
    print(f"{label:<34}{measured.rate:>9,.0f}/s   median {measured.median:>8,.0f} us"
          f"   p99 {measured.high:>9,.0f} us{part}", flush=True)


def main() -> None:
    program = os.path.abspath(sys.argv[1])
    seconds = float(sys.argv[2]) if len(sys.argv) > 2 else 2.0
    for client, numbers, each in ((waiting, (1, 10, 50), "waiting"),
                                  (together, (4,), f"with {TOGETHER} lines each")):
        before = raw(program, client, seconds / 2)
        show(f"raw pipe, {each}", before)
        found = [(number, served(program, [client] * number, seconds)[client.__name__]) for number in numbers]
        after = raw(program, client, seconds / 2)
        show("raw pipe, again", after)
        for number, measured in found:
            show(f"{number} {each}", measured, max(before.rate, after.rate))
    for kind, measured in served(program, [waiting] * 10 + [flooding], seconds).items():
        show(f"10 waiting and 1 flooding: {kind}", measured)


if __name__ == "__main__":
    main()
