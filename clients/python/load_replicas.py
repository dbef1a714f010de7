"""Requests a second of a replica, beside what etcd's own puts reach at the same batching.

    python3 load_replicas.py DIR/timetravel [SECONDS]

It needs etcd, and stands in the checkout, whose tests start its members and the replica.
"""

from __future__ import annotations

import base64
import itertools
import json
import os
import sys
import tempfile
import threading
import time
from pathlib import Path

from timetravel.etcd import Entries, Etcd

sys.path.insert(0, str(Path(__file__).resolve().parents[2]))

from tests.support.clusters import Client, Cluster, ReplicaProcess, answers_of_one_session  # noqa: E402

OPENING = {"version": 2, "tables": [{"name": "acct", "columns": [
    {"name": "id", "kind": "int"}, {"name": "bal", "kind": "int"}]}]}
LINE = b'{"worker":%d,"insert":"acct","row":[%d,10]}'


def replica_rate(clients: list[Client], in_flight: int, seconds: float, keys: itertools.count[int]) -> float:
    """Requests a second where this many are under way, over as many connections at most."""
    used = clients[:min(in_flight, len(clients))]
    window = in_flight // len(used)
    counts = [0] * len(used)
    end = time.monotonic() + seconds

    def drive(place: int, client: Client) -> None:
        client.send(*(LINE % (place + 1, next(keys)) for _ in range(window)))
        while time.monotonic() < end:
            client.answer()
            counts[place] += 1
            client.send(LINE % (place + 1, next(keys)))
        for _ in range(window):
            client.answer()

    threads = [threading.Thread(target=drive, args=pair) for pair in enumerate(used)]
    for thread in threads:
        thread.start()
    for thread in threads:
        thread.join()
    return sum(counts) / seconds


def put_rate(etcd: Etcd, batch: float, seconds: float) -> float:
    """Requests a second where values of so many lines are put, one after the other."""
    line = b"0123456789abcdef-1000 " + LINE % (1, 100000) + b"\n"
    value = base64.b64encode(line * max(1, round(batch))).decode()
    end, number = time.monotonic() + seconds, 0
    while time.monotonic() < end:
        key = base64.b64encode(b"put/%020d" % number).decode()
        etcd.call("/v3/kv/put", {"key": key, "value": value})
        number += 1
    return number * max(1, round(batch)) / seconds


def main() -> None:
    program = os.path.abspath(sys.argv[1])
    seconds = float(sys.argv[2]) if len(sys.argv) > 2 else 3.0
    with tempfile.TemporaryDirectory() as folder:
        cluster = Cluster(folder, 3)
        cluster.wait()
        replica = ReplicaProcess(folder, "a", cluster.urls, session=[program]).start()
        again = ReplicaProcess(folder, "b", cluster.urls, session=[program])
        try:
            measure(cluster, replica, seconds)
            measure_start(cluster, replica, again, program)
        finally:
            replica.kill()
            again.kill()
            cluster.kill()


def measure(cluster: Cluster, replica: ReplicaProcess, seconds: float) -> None:
    clients = [Client(replica.socket, OPENING) for _ in range(50)]
    etcd, entries = Etcd(cluster.access), cluster.entries()
    keys = itertools.count()
    for in_flight in (1, 12, 200):
        before = number_of_entries(entries)
        rate = replica_rate(clients, in_flight, seconds, keys)
        batch = rate * seconds / max(1, number_of_entries(entries) - before)
        put = put_rate(etcd, batch, seconds)
        print(f"{in_flight:4} in flight: {rate:8.0f} requests a second, {batch:5.1f} an entry; "
              f"puts alone {put:8.0f}; {rate / put:.2f}", flush=True)


def number_of_entries(entries: Entries) -> int:
    low, high = 0, 1 << 24
    while low < high:
        middle = (low + high) // 2
        if entries.fetch(middle, 1):
            low = middle + 1
        else:
            high = middle
    return low


def measure_start(cluster: Cluster, replica: ReplicaProcess, again: ReplicaProcess, program: str) -> None:
    lines = cluster.lines()
    began = time.monotonic()
    answers_of_one_session(lines, program)
    alone = time.monotonic() - began
    status = Client(replica.socket, OPENING).opened
    began = time.monotonic()
    again.start()
    client = Client(again.socket, OPENING)
    fed = time.monotonic() - began
    assert client.opened["time"] == status["time"], json.dumps(client.opened)
    print(f"{len(lines)} lines: a session from a file {alone:.2f} s, a replica from etcd {fed:.2f} s")


if __name__ == "__main__":
    main()
