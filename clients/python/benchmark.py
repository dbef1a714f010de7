"""How long a request takes that waits for its answer, over the pipe alone and by the client.

    python3 benchmark.py DIR/timetravel            20,000 requests by each way
    python3 benchmark.py DIR/timetravel 100000     as many as this

One request is sent at a time, inserts and selects by key in turn. Printed are medians in microseconds.
"""

from __future__ import annotations

import asyncio
import json
import subprocess
import sys
import threading
import time
from collections.abc import Callable
from statistics import median

import timetravel
from timetravel import Column, Session, Table

TABLE = Table("acct", [Column("id", "int"), Column("owner", "text", partition=True), Column("bal", "int")])
OPENING = {"version": 4, "tables": [{"name": "acct", "columns": [
    {"name": "id", "kind": "int"}, {"name": "owner", "kind": "text", "partition": True},
    {"name": "bal", "kind": "int"}]}]}


def timed(count: int, ask: Callable[[int], object]) -> float:
    """The median of the microseconds that a request takes."""
    clock = time.perf_counter_ns
    took = []
    for number in range(count):
        start = clock()
        ask(number)
        took.append(clock() - start)
    return median(took) / 1000


def over_the_pipe(command: list[str], count: int) -> float:
    """Lines that are made beforehand, and answers that nobody decodes."""
    with subprocess.Popen(command, bufsize=0, stdin=subprocess.PIPE, stdout=subprocess.PIPE) as program:
        assert program.stdin is not None and program.stdout is not None
        write, read = program.stdin.write, program.stdout.read

        def line(number: int) -> bytes:
            if number % 2:
                return b'{"select":"acct","where":[["id",%d]]}\n' % (number - 1)
            return b'{"insert":"acct","row":[%d,"ann",10]}\n' % number

        lines = [line(number) for number in range(count)]

        def ask(number: int) -> None:
            write(lines[number])
            read(65536)

        write(json.dumps(OPENING).encode() + b"\n")
        read(65536)
        return timed(count, ask)


def by_the_client(command: list[str], count: int, timeout: float | None = None) -> float:
    with Session([TABLE], command=command, timeout=timeout) as session:
        def ask(number: int) -> object:
            if number % 2:
                return session.select("acct", {"id": number - 1})
            return session.insert("acct", [number, "ann", 10])

        return timed(count, ask)


def by_the_client_with_a_timeout(command: list[str], count: int) -> float:
    return by_the_client(command, count, 60)


def by_asyncio(command: list[str], count: int) -> float:
    async def measure() -> float:
        clock = time.perf_counter_ns
        took = []
        async with timetravel.aio.Session([TABLE], command=command) as session:
            for number in range(count):
                start = clock()
                if number % 2:
                    await session.select("acct", {"id": number - 1})
                else:
                    await session.insert("acct", [number, "ann", 10])
                took.append(clock() - start)
        return median(took) / 1000
    return asyncio.run(measure())


def by_eight_threads(command: list[str], count: int) -> float:
    """Requests a second, of eight threads that each wait for their answers."""
    with Session([TABLE], command=command) as session:
        def clerk(first: int) -> None:
            for number in range(first, count, 8):
                session.insert("acct", [number, "ann", 10])

        clerks = [threading.Thread(target=clerk, args=(first,)) for first in range(8)]
        start = time.perf_counter()
        for each in clerks:
            each.start()
        for each in clerks:
            each.join()
        return count / (time.perf_counter() - start)


def main() -> None:
    command = [sys.argv[1] if len(sys.argv) > 1 else "timetravel", "session"]
    count = int(sys.argv[2]) if len(sys.argv) > 2 else 20_000
    pipe = over_the_pipe(command, count)
    print(f"over the pipe alone:       {pipe:6.1f} µs")
    ways: dict[str, Callable[[list[str], int], float]] = {
        "by the client:": by_the_client, "by it, with a timeout:": by_the_client_with_a_timeout,
        "by asyncio:": by_asyncio}
    for name, measure in ways.items():
        took = measure(command, count)
        print(f"{name:26} {took:6.1f} µs, {took - pipe:.1f} over the pipe's")
    print(f"by eight threads:          {by_eight_threads(command, count):6.0f} requests a second")


if __name__ == "__main__":
    main()
