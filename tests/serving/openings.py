"""Openings of one database by many connections."""

from __future__ import annotations

import json
import subprocess
import time

from tests.support.client_package import session_command
from tests.support.fixtures import program
from tests.support.served import (
    ALL, BOUND, EMPTY, OPENING, STATUS, TABLES, Client, Server, ServingCase, insert, metrics, until)
from timetravel.lines import LONGEST


def fresh(line: bytes) -> bytes:
    """What a fresh program answers to a line."""
    return subprocess.run(session_command(), input=line + b"\n", capture_output=True, timeout=BOUND).stdout


class Openings(ServingCase):

    def test_openings_of_one_database(self) -> None:
        server = self.serving()
        first = server.client()
        first.ask(insert(1))
        columns = [{"kind": "int", "name": "id", "partition": False}, *TABLES[0]["columns"][1:]]
        spelt = {"records": 5, "keep": 4, "tables": [{"columns": columns, "name": "acct"}], "version": 2}
        call = 1
        for opening in (OPENING, spelt, {**OPENING, "version": 3}, {**OPENING, "version": 4}, {"join": True}):
            client = server.client(opening)
            self.assertEqual(client.opened, {**EMPTY, "time": 1, "entries": 1})
            call += 2 if "join" in opening else 1    # that one is a request for the status
            self.assertEqual(client.ask(ALL), {"call": call, "time": 1, "rows": [[1, "ann", 10]]})
        self.assertEqual(first.ask({"tables": True})["records"], 100_000)    # those of the first opening

    def test_openings_behind_an_opening(self) -> None:
        """A connection that is open may send openings, which are answered in their place."""
        server = self.serving()
        client, other = server.client(), server.client()
        for _ in range(3):
            client.send(insert(1), OPENING, {**OPENING, "keep": 1}, {"version": 9}, STATUS)
            other.send(STATUS)
            self.assertIn("replies", client.answer())
            self.assertIsNone(client.answer()["repair"])
            self.assertEqual(client.answer(), {"refused": "another opening"})
            self.assertEqual(client.answer(), {"fault": {"path": "$.version", "cause": "out of range"}})
            self.assertIn("call", client.answer())
            self.assertIn("call", other.answer())

    def test_requests_of_a_connection_that_is_not_open_are_not_carried_out(self) -> None:
        server = self.serving()
        server.client()
        client = server.client(None)
        missing = {"fault": {"path": "$", "cause": "missing member version"}}
        client.send(insert(1), {**OPENING, "keep": 3}, insert(2), {"version": 7}, insert(3), {"join": False})
        self.assertEqual([client.answer() for _ in range(6)], [
            missing, {"refused": "another opening"}, missing,
            {"fault": {"path": "$.version", "cause": "out of range"}}, missing, missing])
        client.send(OPENING, ALL)
        self.assertEqual((client.answer()["time"], client.answer()["rows"]), (0, []))

    def test_another_opening(self) -> None:
        server = self.serving()
        server.client()
        client = server.client(None)
        for another in ({**OPENING, "keep": 3}, {"version": 2, "tables": []},
                        {**OPENING, "tables": TABLES + [{**TABLES[0], "name": "b"}]}):
            self.assertEqual(client.ask(another), {"refused": "another opening"})
        client.send({**OPENING, "keep": 3}, OPENING, STATUS)
        self.assertEqual(client.answer(), {"refused": "another opening"})
        self.assertEqual(client.answer(), EMPTY)
        self.assertIn("call", client.answer())

    def test_faulty_openings_get_the_faults_of_the_program(self) -> None:
        good = json.dumps(OPENING).encode()
        faulty = [b"[]", b"{", b"\xff", b'{"version":2}', b'{"version":2,"tables":[],"keep":17}',
                  b'{"version":2,"tables":[],"records":1000001}', b'{"version":2,"tables":[],"version":2}',
                  b'{"status":true}', b'{"join":false}', b'{"join":1}',
                  b'{"version":2,"tables":[],"workers":1}',
                  good.replace(b'"int"', b'"real"'), good.replace(b'"bal"', b'"id"'), good + b" 1",
                  good.replace(b"true", b"null"), b"\v", b"x" * (LONGEST + 1)]
        server = self.serving()
        before, after = server.client(None), server.client(None)
        for line in faulty:
            before.send(line)
            self.assertEqual(before.line(), fresh(line), line[:100])
        self.assertEqual(before.ask(OPENING), EMPTY)
        for line in faulty:
            after.send(line)
            self.assertEqual(after.line(), fresh(line), line[:100])
        after.send(*faulty[:3], OPENING, STATUS)
        self.assertEqual([after.line() for _ in range(3)], [fresh(line) for line in faulty[:3]])
        self.assertEqual(after.answer(), EMPTY)
        self.assertIn("call", after.answer())

    def test_many_openings_at_once(self) -> None:
        server = self.serving()
        clients = [server.client(None) for _ in range(20)]
        for number, client in enumerate(clients):
            faulty = [b"{"] if number % 2 else []
            client.send(*faulty, {**OPENING, "keep": 1} if number % 5 == 4 else OPENING, STATUS)
        answers = [[client.answer() for _ in range(3 if number % 2 else 2)]
                   for number, client in enumerate(clients)]
        kept = [answer[-1] for answer in answers]
        self.assertIn("call", kept[0])
        for number, answer in enumerate(answers):
            if number % 2:
                self.assertEqual(answer[0]["fault"]["cause"], "not JSON")
            if number % 5 == 4:
                self.assertEqual(answer[-2], {"refused": "another opening"})
            else:
                self.assertEqual((answer[-2], "call" in answer[-1]), (EMPTY, True))

    def test_another_opening_while_the_first_is_answered(self) -> None:
        server = self.serving(command=("sh", "-c", 'sleep 1; exec "$0" session', str(program())))
        first, second = server.client(None), server.client(None)
        first.send(OPENING)
        time.sleep(0.1)
        second.send({**OPENING, "keep": 1})
        self.assertEqual(first.answer(), EMPTY)
        self.assertEqual(second.answer(), {"refused": "another opening"})

    def test_nothing_to_join(self) -> None:
        server = self.serving()
        client = server.client(None)
        self.assertEqual(client.ask({"join": True}), {"refused": "not open"})
        self.assertEqual(client.ask(OPENING), EMPTY)

    def test_an_opener_that_hangs_up(self) -> None:
        server = self.serving()
        for _ in range(20):
            with Client(server.path) as client:
                client.send(OPENING, insert(1))
        self.assertIn("time", server.client().opened)
        until(lambda: len(server.client().ask(ALL)["rows"]) == 1, "the row")

    def test_a_log_that_has_lines(self) -> None:
        with Server(self.folder, command=session_command("--log", self.log)) as server:
            server.client().ask(insert(1))
        server = self.with_log()
        until(lambda: "timetravel_open 1\n" in metrics(server.path), "an open session, before any opening")
        joined = server.client({"join": True})
        self.assertEqual((joined.opened["time"], joined.ask(ALL)["rows"]), (1, [[1, "ann", 10]]))
        client = server.client(None)
        self.assertEqual(client.ask({**OPENING, "keep": 3}), {"refused": "another opening"})
        self.assertEqual(client.ask(OPENING)["time"], 1)
        self.assertEqual(client.ask({"slots": [1, 1]})["slots"][0]["replies"], ["inserted"])
