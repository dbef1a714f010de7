"""Openings at several replicas."""

from __future__ import annotations

import json

from tests.support.client_package import needs_etcd
from tests.support.clusters import ALL, OPENING, WithEtcd, insert

setUpModule = needs_etcd

EMPTY = {"time": 0, "generation": 0, "oldest": 0, "entries": 0, "repair": None}


class Openings(WithEtcd):
    def test_openings(self) -> None:
        first, second = self.replica("a"), self.replica("b")
        clients = [self.client(replica, None) for replica in (first, second)]
        self.assertEqual(clients[0].ask({"join": True}), {"refused": "not open"})
        self.assertEqual(clients[0].ask({"version": 5}), {"fault": {"path": "$.version",
                                                                    "cause": "out of range"}})
        missing = {"fault": {"path": "$", "cause": "missing member version"}}
        self.assertEqual(clients[0].ask(insert(1)), missing)
        for client in clients:
            client.send(OPENING)
        self.assertEqual([client.answer() for client in clients], [EMPTY] * 2)
        other = {**OPENING, "keep": 2}
        self.assertEqual(self.client(second, other).opened, {"refused": "another opening"})
        self.assertEqual(self.client(second, {"join": True}).opened, EMPTY)
        for further in ({**OPENING, "records": 5}, {**OPENING, "version": 3}, {**OPENING, "version": 4}):
            self.assertEqual(self.client(second, further).opened, EMPTY)
        answers = self.client(second, None).ask_all(
            insert(1), {"version": 7}, {**OPENING, "tables": []}, OPENING, ALL)
        self.assertEqual(answers[:4], [missing, {"fault": {"path": "$.version", "cause": "out of range"}},
                                       {"refused": "another opening"}, EMPTY])
        openings = [line for line in self.cluster.lines() if b"version" in line]
        self.assertEqual(openings, [json.dumps(OPENING).encode()])

    def test_openings_of_connections_that_are_open(self) -> None:
        """They go through the log as every line, and are no requests."""
        clients = [self.client(self.replica(name)) for name in "ab"]
        for client in clients:
            answers = client.ask_all(OPENING, {**OPENING, "keep": 2}, {"version": 1}, insert(1), OPENING)
            self.assertEqual(answers[1:3], [{"refused": "another opening"},
                                            {"fault": {"path": "$.version", "cause": "out of range"}}])
            self.assertEqual(answers[4]["time"], answers[0]["time"] + 1)
            self.assertEqual(client.ask_all({"read": "replica"}, OPENING)[1], answers[4])
        self.assert_same_rows(*clients)

    def test_openings_of_connections_that_read_here(self) -> None:
        """They are no entries, and are answered while etcd is gone."""
        replica = self.replica()
        self.client(replica).ask(insert(1))
        lines = len(self.cluster.lines())
        self.cluster.kill()
        for opening in (OPENING, {**OPENING, "version": 4}, {"join": True}):
            client = self.client(replica, None)
            answers = client.ask_all({"read": "replica"}, {**OPENING, "keep": 3}, opening, ALL)
            self.assertEqual(answers[1], {"refused": "another opening"})
            self.assertEqual((answers[2]["time"], answers[3]["rows"]), (1, [[1, 10]]))
        self.cluster.members[0].start()
        self.cluster.wait()
        self.assertEqual(len(self.cluster.lines()), lines)

    def test_two_openings_at_once(self) -> None:
        clients = [self.client(self.replica(name), None) for name in "ab"]
        openings = [{**OPENING, "keep": keep} for keep in (1, 2)]
        for client, opening in zip(clients, openings):
            client.send(opening)
        answers = [client.answer() for client in clients]
        self.assertCountEqual(answers, [EMPTY, {"refused": "another opening"}])
        winner = openings[answers.index(EMPTY)]
        self.assertEqual(self.cluster.lines()[:1], [json.dumps(winner).encode()])
        loser = clients[1 - answers.index(EMPTY)]
        self.assertEqual(loser.ask(winner), EMPTY)
