"""How a server ends, and what it does where its session ends."""

from __future__ import annotations

import contextlib
import fcntl
import json
import os
import signal
import struct
import termios
import threading
import time
from pathlib import Path

from tests.support.client_package import session_command
from tests.support.fixtures import program
from tests.support.served import (
    ALL, BOUND, EMPTY, LOST, OPENING, STATUS, Client, Server, ServingCase, command, connects, insert,
    logged, metrics, until)
from timetravel import Column, Lost, Session, Table, Vanished
from timetravel.serving import serve


def flood(client: Client, number: int) -> None:
    try:
        for key in range(number * 1_000_000, number * 1_000_000 + 200_000, 100):
            client.send(*(insert(key + step) for step in range(100)))
    except OSError:
        pass    # the server has stopped


class Inserter:
    """A client that inserts five rows at a time, and notes which were answered."""

    def __init__(self) -> None:
        self.answered: list[int] = []
        self.lost = 0

    def insert(self, path: str, key: int, stopped: threading.Event) -> None:
        with Client(path, OPENING) as client:
            while not stopped.is_set():
                client.send(*(insert(key + step) for step in range(5)))
                for step in range(5):
                    answer = client.answer()
                    if answer == LOST:
                        self.lost += 1
                    else:
                        assert answer["replies"] == ["inserted"], answer
                        self.answered.append(key + step)
                key += 5


def unread(client: Client) -> int:
    """How many bytes that a client has sent the server hasn't read."""
    return int(struct.unpack("i", fcntl.ioctl(client.socket, termios.TIOCOUTQ, b"\0" * 4))[0])


def waited(child: int) -> int:
    """How a child has ended, which is to be soon."""
    end = time.monotonic() + BOUND
    while True:
        found, status = os.waitpid(child, os.WNOHANG)
        if found:
            return os.waitstatus_to_exitcode(status)
        if time.monotonic() > end:
            os.kill(child, signal.SIGKILL)
            os.waitpid(child, 0)
            raise AssertionError("a server has stalled")
        time.sleep(0.001)


class Ends(ServingCase):

    def test_a_signal_while_requests_are_in_flight(self) -> None:
        for number in (signal.SIGTERM, signal.SIGINT):
            log = f"{self.folder}/log{number}"
            with Server(self.folder, command=session_command("--log", log)) as server:
                clients = [server.client() for _ in range(4)]
                senders = [threading.Thread(target=flood, args=(client, place))
                           for place, client in enumerate(clients)]
                for sender in senders:
                    sender.start()
                for client in clients:
                    client.answer()
                server.process.send_signal(number)
                answers = [json.loads(line) for client in clients for line in client.rest()]
                self.assertEqual(server.process.wait(BOUND), 0)
                for sender in senders:
                    sender.join(BOUND)
                self.assertFalse(os.path.exists(server.path))
            self.assertTrue(all(answer["replies"] == ["inserted"] for answer in answers))
            self.assertEqual(len(logged(log)) - 1, len(answers) + 4)

    def test_a_second_signal_ends_at_once(self) -> None:
        server = self.with_log()
        client = server.client()
        client.ask({"do": [insert(key, "z" * 1000) for key in range(16)]})
        client.send(*[ALL] * 100)    # whose answers nobody reads
        until(lambda: "timetravel_outgoing_bytes 0\n" not in metrics(server.path), "answers that wait")
        session = server.session()
        server.process.send_signal(signal.SIGTERM)
        until(lambda: not os.path.exists(server.path), "the first signal's effect")
        server.process.send_signal(signal.SIGTERM)
        self.assertEqual(server.process.wait(BOUND), 128 + signal.SIGTERM)
        self.assertFalse(os.path.exists(f"/proc/{session}"))

    def test_a_stop_does_not_wait_for_ever_for_one_that_does_not_read(self) -> None:
        server = self.serving("--timeout", "0.5")
        client = server.client()
        client.ask({"do": [insert(key, "z" * 1000) for key in range(16)]})
        client.send(*[ALL] * 100)
        self.assertEqual(server.stop(), 0)

    def test_hundreds_of_starts_and_ends(self) -> None:
        path = f"{self.folder}/socket"
        longest = 0.0
        for number in range(300):
            before = time.monotonic()
            child = os.fork()
            if child == 0:
                status = 99
                try:
                    status = serve(path, session_command())
                finally:
                    os._exit(status)
            try:
                self.start_and_end(path, number, child)
            except BaseException:
                with contextlib.suppress(ProcessLookupError):
                    os.kill(child, signal.SIGKILL)
                raise
            longest = max(longest, time.monotonic() - before)
        self.assertLess(longest, 10.0)

    def start_and_end(self, path: str, number: int, child: int) -> None:
        until(lambda: connects(path), "a connection")
        clients = [Client(path) for _ in range(3)]
        for client in clients:
            client.send(OPENING, *(insert(key) for key in range(number % 50)))
        for client in clients[:number % 4]:
            client.answer()
        os.kill(child, signal.SIGTERM)
        for client in clients:
            client.rest()
            client.close()
        self.assertEqual(waited(child), 0, f"start {number}")


class EndsOfTheSession(ServingCase):

    def test_the_session_killed(self) -> None:
        server = self.serving()
        client = server.client()
        session = server.session()
        os.kill(session, signal.SIGSTOP)
        client.send(*[STATUS] * 3)
        until(lambda: unread(client) == 0, "the lines")
        self.assertIn("timetravel_unanswered 3\n", metrics(server.path))
        os.kill(session, signal.SIGKILL)
        self.assertEqual([json.loads(line) for line in client.rest()], [LOST] * 3)
        self.assertEqual(server.process.wait(BOUND), 128 + signal.SIGKILL)
        self.assertEqual(server.said(), "timetravel: the session has ended with signal 9\n")
        self.assertFalse(os.path.exists(server.path))

    def test_the_session_killed_and_started_again(self) -> None:
        server = self.with_log("--restart")
        server.client()
        stopped = threading.Event()
        inserters = [Inserter() for _ in range(8)]
        threads = [threading.Thread(target=each.insert, args=(server.path, number * 1_000_000, stopped))
                   for number, each in enumerate(inserters)]
        for thread in threads:
            thread.start()
        for kills in range(13):
            before = sum(len(each.answered) for each in inserters)
            until(lambda: sum(len(each.answered) for each in inserters) > before + 200, "answers")
            if kills < 12:
                os.kill(server.session(), signal.SIGKILL)
                time.sleep(0.02)
        stopped.set()
        for thread in threads:
            thread.join(BOUND)
        with server.client({"join": True}) as client:
            kept = [row[0] for row in client.ask(ALL)["rows"]]
        wanted = {key for each in inserters for key in each.answered}
        lost = sum(each.lost for each in inserters)
        self.assertLessEqual(wanted, set(kept))
        self.assertLessEqual(len(kept), len(wanted) + lost)
        self.assertGreater(lost, 0)
        self.assertEqual(server.stop(), 0)
        self.assertEqual(server.said().count("started again"), 12)
        self.assertEqual(len(logged(self.log)) - 1, len(kept))

    def test_a_log_that_is_moved_away_is_not_made_anew(self) -> None:
        server = self.with_log("--restart")
        client = server.client()
        self.assertEqual(client.ask(insert(1))["slot"], 1)
        moved = f"{self.log}.moved"
        os.rename(self.log, moved)
        os.kill(server.session(), signal.SIGKILL)
        client.send(STATUS)
        until(lambda: "status 1, and is started again" in server.said(), "a start without a log")
        self.assertFalse(os.path.exists(self.log))
        os.rename(moved, self.log)
        answer = client.answer()    # lost, or of the session on the log that is back
        self.assertIn(answer.get("time"), (1, None))
        until(lambda: client.ask(insert(2)).get("slot") == 2, "the log that is back")

    def test_a_log_that_stays_away(self) -> None:
        server = self.with_log("--restart")
        server.client().ask(insert(1))
        os.unlink(self.log)
        os.kill(server.session(), signal.SIGKILL)
        self.assertEqual(server.process.wait(BOUND), 1)
        self.assertIn("there is no log", server.said())
        self.assertFalse(os.path.exists(self.log))

    def test_a_log_without_lines_is_made_again(self) -> None:
        """Nothing was answered that could be lost, so the session begins."""
        server = self.with_log("--restart")
        client = server.client(None)
        self.assertEqual(client.ask({"join": True}), {"refused": "not open"})
        os.kill(server.session(), signal.SIGKILL)
        until(lambda: client.ask({**OPENING, "version": 4}) == EMPTY, "a session")
        self.assertNotIn("no log", server.said())

    def test_a_session_that_has_gone_back(self) -> None:
        """A client that was connected all the time is told that what was answered is gone."""
        server = self.with_log("--restart")
        table = Table("acct", [Column("id", "int"), Column("owner", "text", True), Column("bal", "int")])
        with Session.connect(server.path, [table]) as session:
            for key in range(3):
                session.insert("acct", [key, "ann", 0])
            os.kill(server.session(), signal.SIGSTOP)
            lines = Path(self.log).read_bytes().split(b"\0")[0].splitlines(keepends=True)
            Path(self.log).write_bytes(b"".join(lines[:2]))
            os.kill(server.session(), signal.SIGKILL)
            with self.assertRaises(Vanished):
                while True:
                    with contextlib.suppress(Lost):
                        session.insert("acct", [9, "ann", 0])
            self.assertRaises(Vanished, session.status)

    def test_openings_while_the_session_starts_again(self) -> None:
        server = self.with_log("--restart")
        server.client().ask(insert(1))
        for _ in range(5):
            os.kill(server.session(), signal.SIGKILL)
            clients = [server.client(None) for _ in range(5)]
            for client in clients:
                client.send({"join": True}, ALL)
            for client in clients:
                self.assertEqual(client.answer()["time"], 1)
                self.assertEqual(client.answer()["rows"], [[1, "ann", 10]])

    def test_a_session_that_never_starts(self) -> None:
        Path(self.log).write_text("no line of a log\n")
        with self.with_log("--restart", ready=False) as server:
            self.assertEqual(server.process.wait(60), 1)
            self.assertIn("timetravel: the session has ended with status 1\n", server.said())
        self.assertEqual(Path(self.log).read_text().rstrip("\0"), "no line of a log\n")

    def test_restart_needs_a_log(self) -> None:
        done = command("serve", f"{self.folder}/socket", "--restart", "--", str(program()), "session")
        self.assertEqual(done.returncode, 2)
        self.assertIn(b"--restart needs a session with --log", done.stderr)
