"""Connections that go wrong, and that disturb no other."""

from __future__ import annotations

import json
import os
import signal
import threading
import time

from tests.support.served import (
    ALL, BOUND, OPENING, STATUS, Client, Server, ServingCase, insert, metrics, until)


def stuck_client(server: Server) -> Client:
    """A client that sends without reading, for as long as it can."""
    client = server.client()
    client.socket.setblocking(False)
    for _ in range(60):
        try:
            client.socket.send(json.dumps(ALL).encode() + b"\n")
        except BlockingIOError:
            break
    return client


class Connections(ServingCase):

    def test_fifty_connections(self) -> None:
        server = self.serving("--timeout", "1")
        opener = server.client()
        opener.ask({"do": [insert(key, "z" * 1000) for key in range(16)]})
        stuck = [stuck_client(server) for _ in range(10)]
        results: list[bool] = []

        def work(number: int) -> None:
            client = clients[number]
            for step in range(100):
                key = 1000 * (number + 1) + step
                written = client.ask(insert(key, "ann"))
                found = client.ask({"select": "acct", "where": [["id", key]]})
                if written["replies"] != ["inserted"] or found["rows"] != [[key, "ann", 10]]:
                    return
            results.append(True)

        clients = [server.client() for _ in range(35)]
        threads = [threading.Thread(target=work, args=(number,)) for number in range(35)]
        for thread in threads:
            thread.start()
        for number in range(5):
            client = Client(server.path, OPENING)
            client.send(*[insert(100_000 + number)] * 50)
            client.socket.sendall(b'{"insert":"acc')
            client.close()
        for thread in threads:
            thread.join(BOUND)
        self.assertEqual(len(results), 35)
        for client in stuck:
            self.look_at_stuck(client)
        rows = opener.ask({"select": "acct", "where": [["owner", "ann"]]})["rows"]
        self.assertEqual(sum(row[0] >= 100_000 for row in rows), 5)
        self.assertEqual(sum(row[0] < 100_000 for row in rows), 3500)

    def look_at_stuck(self, client: Client) -> None:
        """It has its answers up to some of them, and perhaps a line that says why no further ones come."""
        client.socket.settimeout(BOUND)
        try:
            client.end()
        except OSError:
            pass    # it is closed already
        lines = client.rest()
        self.assertLessEqual(len(lines), 60)
        for line in lines:
            self.assertTrue(line.startswith((b'{"call":', b'{"closed":')), line[:80])

    def test_a_connection_that_does_not_read_is_told(self) -> None:
        server = self.serving("--timeout", "0.5")
        other = server.client()
        other.ask({"do": [insert(key, "z" * 1000) for key in range(16)]})
        client = server.client()
        sent = 200
        client.send(*[ALL] * sent)
        times = []
        end = time.monotonic() + 1.0
        while time.monotonic() < end:
            before = time.monotonic()
            other.ask(STATUS)
            times.append(time.monotonic() - before)
        self.assertLess(sorted(times)[len(times) // 2], 0.05)
        until(lambda: b"answers not read" in metrics(other.socket.getpeername()).encode(), "the closing")
        lines = client.rest()
        self.assertLess(len(lines), sent)
        self.assertEqual(json.loads(lines[-1]), {"closed": "the answers were not read in time"})
        for line in lines[:-1]:
            self.assertEqual(len(json.loads(line)["rows"]), 16)

    def test_a_connection_with_too_many_answers_is_told(self) -> None:
        server = self.serving()
        client, other = server.client(), server.client()
        for first in range(0, 480, 16):
            client.ask({"do": [insert(key, "z" * 1000) for key in range(first, first + 16)]})
        sent = 250
        client.send(*[ALL] * sent)    # 120 MiB of answers
        until(lambda: "too many answers" in metrics(server.path), "the closing")
        self.assertIn("time", other.ask(STATUS))
        lines = client.rest()
        self.assertLess(len(lines), sent)
        self.assertEqual(json.loads(lines[-1]), {"closed": "too many answers were not read"})

    def test_a_slow_reader_gets_all(self) -> None:
        server = self.serving("--timeout", "1")
        client = server.client()
        client.ask({"do": [insert(key, "z" * 1000) for key in range(16)]})
        number = 300
        sender = threading.Thread(target=lambda: client.send(*[ALL] * number))
        sender.start()
        found = 0
        while found < number:
            data = client.socket.recv(100_000)
            found += data.count(b"\n")
            time.sleep(0.01)
        sender.join(BOUND)
        self.assertEqual(found, number)

    def test_a_client_that_hangs_up_leaves_its_lines(self) -> None:
        server = self.serving()
        other = server.client()
        for number in range(50):
            with Client(server.path, OPENING) as client:
                client.send(*(insert(1000 * number + key) for key in range(40)))
        until(lambda: len(other.ask(ALL)["rows"]) == 2000, "the rows")

    def test_a_session_that_takes_nothing_for_a_while(self) -> None:
        server = self.serving()
        clients = [server.client() for _ in range(6)]
        session = server.session()
        os.kill(session, signal.SIGSTOP)
        try:
            padded = [json.dumps(insert(key)).encode() + b" " * 30_000 for key in range(6 * 6)]
            for number, client in enumerate(clients):    # more than the pipe takes, and all that sockets do
                client.send(*padded[6 * number:6 * number + 6])
            for client in clients[3:]:
                client.close()
            time.sleep(0.2)
        finally:
            os.kill(session, signal.SIGCONT)
        for client in clients[:3]:
            self.assertEqual([client.answer()["replies"] for _ in range(6)], [["inserted"]] * 6)
        until(lambda: len(clients[0].ask(ALL)["rows"]) == 36, "the lines of those that hung up")

    def test_a_client_killed_in_the_midst_of_a_request(self) -> None:
        server = self.serving()
        other = server.client()
        child = os.fork()
        if child == 0:
            client = Client(server.path, OPENING)
            client.send(insert(1), insert(2))
            client.socket.sendall(b'{"insert":"acct","row":[3,"an')
            os.kill(os.getpid(), signal.SIGKILL)
        os.waitpid(child, 0)
        until(lambda: other.ask(STATUS)["time"] == 2, "both writes")
        self.assertEqual(other.ask(ALL)["rows"], [[1, "ann", 10], [2, "ann", 10]])
