"""Requests at several replicas, and reads at one."""

from __future__ import annotations

import json
import os
import signal
import socket
from typing import Literal

from tests.support.client_package import needs_etcd
from tests.support.clusters import ALL, OPENING, ReplicaProcess, WithEtcd, insert
from timetravel import Column, Difference, Moved, NotRepairing, Session, Table, cancel
from timetravel.following import encoded

setUpModule = needs_etcd


class Requests(WithEtcd):
    def test_all_replicas_have_what_was_written_to_one(self) -> None:
        replicas = [self.replica(name) for name in "abc"]
        clients = [self.client(replica) for replica in replicas]
        for place, client in enumerate(clients):
            client.send(*(insert(place * 100 + key) for key in range(100)))
        for client in clients:
            for _ in range(100):
                self.assertEqual(client.answer()["replies"], ["inserted"])
        self.assert_same_rows(*clients)

    def test_lines_of_any_bytes_and_too_long_ones(self) -> None:
        client = self.client(self.replica())
        text = b'{"delete":"acct","where":[["id",%d]]}'
        room = (1 << 20) - len(text) + 2
        answers = client.ask_all(insert(1), b"\xff\xfe", text % 1 + b" " * 9,
                                 b'{"x":"' + b"y" * (1 << 20) + b'"}', b" " * room + text % 7, insert(2))
        self.assertEqual(answers[0]["replies"], ["inserted"])
        self.assertEqual(answers[1]["fault"]["cause"], "not JSON")
        self.assertEqual(answers[2]["replies"], [{"deleted": 1}])
        self.assertEqual(answers[3], {"refused": "too long for a replica", "limit": 1 << 20})
        self.assertIn(answers[4], [{"refused": "too long for a replica", "limit": 1 << 20}])
        self.assertEqual(answers[5]["replies"], ["inserted"])

    def test_entries_as_large_as_they_may_be(self) -> None:
        first = self.replica("a", bound=25.0)
        client = self.client(first)
        line = json.dumps({"delete": "acct", "where": [["id", 7]]}).encode()
        line += b" " * ((1 << 20) - len(line))
        answers = client.ask_all(*[line] * 40)
        self.assertEqual({answer["replies"][0]["deleted"] for answer in answers}, {0})
        second = self.client(self.replica("b"))    # which gets them in pages
        self.assertEqual(second.opened["time"], 40)

    def test_reads_at_the_replica(self) -> None:
        client = self.client(self.replica())
        lines = len(self.cluster.lines())
        answers = client.ask_all(insert(1), {"read": "replica"}, ALL, insert(2), ALL, ALL, insert(1),
                                 {"read": "log"}, ALL, {"read": "disk"}, insert(3))
        self.assertEqual([answer.get("rows") for answer in answers], [
            None, None, [[1, 10]], None, [[1, 10], [2, 10]], [[1, 10], [2, 10]], None, None,
            [[1, 10], [2, 10]], None, None])
        self.assertEqual(answers[1], {"reads": "replica"})
        self.assertEqual(answers[7], {"reads": "log"})
        self.assertEqual(answers[9]["fault"]["path"], "$.read")
        self.assertEqual(len(self.cluster.lines()) - lines, 5)    # four inserts and one select

    def test_many_choices_of_reads_in_one_go(self) -> None:
        client = self.client(self.replica())
        client.send(b"\n".join([b'{"read":"log"}', b'{"read":"replica"}', b'{"read":"log"}'] * 3000))
        self.assertEqual({client.answer()["reads"] for _ in range(9000)}, {"log", "replica"})
        self.assertEqual(client.ask(insert(1))["replies"], ["inserted"])

    def test_many_entries_at_the_start(self) -> None:
        entries = self.cluster.entries()
        self.addCleanup(entries.close)
        lines = [json.dumps(line).encode() for line in (OPENING, *map(insert, range(1500)))]
        for number, line in enumerate(lines):
            entries.append(number, encoded(b"another", [(number, line)]))
        client = self.client(self.replica())
        self.assertEqual(client.opened["time"], 1500)
        self.assertEqual(client.ask(insert(1500))["slot"], 1501)
        self.assertEqual(len(self.cluster.lines()), 1503)    # the status that joined, and that insert

    def test_a_client_of_the_package(self) -> None:
        replica = self.replica()
        tables = [Table("acct", [Column("id", "int"), Column("bal", "int")])]
        self.client(replica)
        with Session.connect(replica.socket, tables) as session:
            session.insert("acct", [1, 10])
            found = session.select("acct", {"id": 1})
            session.update("acct", [("add", "bal", -3)], {"id": 1}, if_time=found.time)
            self.assertEqual(session.select("acct").rows, [[1, 7]])
            with self.assertRaises(Moved):
                session.update("acct", [("add", "bal", -3)], {"id": 1}, if_time=found.time)
        with Session.connect(replica.socket, tables, reads="replica") as session:
            entries = len(self.cluster.lines())
            self.assertEqual(session.select("acct").rows, [[1, 7]])
            self.assertRaises(NotRepairing, session.why)
            self.assertRaises(NotRepairing, session.diff)
            self.assertEqual(session.would([cancel(2)]).diff, [Difference("acct", 1, [1, 7], [1, 10])])
            self.assertEqual(len(self.cluster.lines()), entries)    # None of these is in the log.
            session.update("acct", {"id": 1}, add={"bal": 1})
            self.assertEqual(session.select("acct").rows[0]["bal"], 8)
            tried = session.repair([cancel(2)], dry=True, worker=9)
            self.assertEqual(tried.diff, [Difference("acct", 1, [1, 8], [1, 11])])
            self.assertIsNone(session.status().repair)

    def test_stamps_are_the_same_at_all_replicas(self) -> None:
        """They are there after a start of a replica on its log, too."""
        replicas = [self.replica("a", log=True), self.replica("b")]
        for replica in replicas:
            self.client(replica)
        tables = [Table("acct", [Column("id", "int"), Column("bal", "int")])]
        stamps = iter(range(100, 200))
        with Session.connect(replicas[0].socket, tables, clock=lambda: next(stamps)) as session:
            for key in range(5):
                session.insert("acct", [key, 0], worker=key % 2 + 1)
            session.delete("acct", {"id": 1}, stamp=7)
            session.repair([cancel(3)])
        self.assert_found(tables, replicas)
        self.assertEqual(self.client(replicas[1]).ask({"forget": 1})["horizon"], 1)
        self.assert_found(tables, replicas, 2)
        replicas[0].send(signal.SIGTERM)
        self.assertEqual(self.ended(replicas[0]), 0)
        self.client(replicas[0].start())
        self.assert_found(tables, replicas, 2)

    def assert_found(self, tables: list[Table], replicas: list[ReplicaProcess], first: int = 1) -> None:
        """The slots from the first one on have their stamps at each replica."""
        stamps = {1: 100, 2: 101, 3: 102, 4: 103, 5: 104, 6: 7}
        wanted = [(slot, stamp) for slot, stamp in stamps.items() if slot >= first]
        ways: list[Literal["log", "replica"]] = ["log", "replica"]    # The first one waits for all that is written.
        for replica in replicas:
            for reads in ways:
                with Session.connect(replica.socket, tables, reads=reads) as session:
                    self.assertEqual([(slot.slot, slot.stamp) for slot in session.find()], wanted)
                    self.assertEqual([slot.slot for slot in session.find(of=2, stamps=(100, 103))], [2, 4])

    def test_a_socket_that_is_handed_over(self) -> None:
        path = os.path.join(self.folder, "handed.socket")
        with socket.socket(socket.AF_UNIX) as listener:
            listener.bind(path)
            listener.listen()
            number = listener.fileno()
            replica = ReplicaProcess(self.folder, "a", self.cluster.urls)
            replica.hand_over(number)
        self.addCleanup(self.end, replica)
        replica.socket = path
        self.assertEqual(self.client(replica).ask(insert(1))["replies"], ["inserted"])
        replica.send(signal.SIGTERM)
        self.assertEqual(self.ended(replica), 0)
        self.assertTrue(os.path.exists(path))
