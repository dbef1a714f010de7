"""An etcd that is gone, stopped, full or set back, or whose answers are lost.

REPLICA_STOPPED is for how many seconds members are stopped, one after the other (3).
"""

from __future__ import annotations

import base64
import json
import os
import signal
import time
from pathlib import Path

from tests.support.client_package import needs_etcd
from tests.support.clusters import ALL, OPENING, Cluster, Relay, WithEtcd, insert, until
from timetravel.etcd import Entries, EntriesGone, Etcd, EtcdError
from timetravel.replicas import compact

setUpModule = needs_etcd
EMPTY = {"time": 0, "generation": 0, "oldest": 0, "entries": 0, "repair": None}
LOST = {"lost": "etcd has not answered in time"}


class FailingEtcd(WithEtcd):
    def test_a_lost_answer_of_an_append(self) -> None:
        relay = Relay(self.cluster.members[0].port)
        self.addCleanup(relay.close)
        client = self.client(self.replica(urls=[relay.url]))
        for key in range(20):
            relay.to_drop = 1 + key % 3
            self.assertEqual(client.ask(insert(key))["replies"], ["inserted"])
        self.assertGreaterEqual(relay.dropped, 20)
        lines = self.cluster.lines()
        self.assertEqual([lines.count(json.dumps(insert(key)).encode()) for key in range(20)], [1] * 20)

    def test_etcd_gone_and_back(self) -> None:
        client = self.client(self.replica(bound=1.0))
        client.ask(insert(1))
        self.cluster.members[0].pause()
        began = time.monotonic()
        self.assertEqual(client.ask_all(insert(2), insert(3)), [LOST] * 2)
        self.assertLess(time.monotonic() - began, 5.0)
        self.assertEqual(client.ask({"read": "replica"}), {"reads": "replica"})
        self.assertEqual(client.ask(ALL)["rows"], [[1, 10]])
        self.cluster.members[0].go_on()
        until(lambda: "replies" in client.ask(insert(4)), "etcd takes requests again")
        lines = self.cluster.lines()
        self.assertLessEqual(max(lines.count(json.dumps(insert(key)).encode()) for key in (2, 3)), 1)
        self.assert_same_rows(client)

    def test_a_read_here_while_the_session_and_etcd_are_gone(self) -> None:
        for log in (False, True):
            with self.subTest(log=log):
                replica = self.replica(f"log{log}", bound=1.0, log=log)
                client = self.client(replica)
                client.ask_all(insert(1), {"read": "replica"})
                rows = client.ask(ALL)["rows"]
                self.assertTrue(replica.signal_session(signal.SIGSTOP))
                client.send(ALL)
                time.sleep(0.2)
                self.cluster.members[0].pause()
                self.assertTrue(replica.signal_session(signal.SIGKILL))
                joining = self.client(replica, None)
                self.assertEqual(joining.ask({"read": "replica"}), {"reads": "replica"})
                joining.send({"join": True})
                for one in (client, joining):
                    self.assertEqual(one.answer(), {"lost": "the replica is being fed"})
                self.cluster.members[0].go_on()
                until(lambda: client.ask(ALL).get("rows") == rows, "reads go on")

    def test_a_read_here_while_the_session_is_fed_again(self) -> None:
        """It isn't answered by fewer rows than were read here before."""
        relay = Relay(self.cluster.members[0].port)
        self.addCleanup(relay.close)
        replica = self.replica(urls=[relay.url], bound=1.0)
        client = self.client(replica)
        for key in range(40):    # an entry each
            client.ask(insert(key))
        client.ask({"read": "replica"})
        self.assertEqual(len(client.ask(ALL)["rows"]), 40)
        relay.tells_below = 10    # so the first page of them comes, and no other
        self.assertTrue(replica.signal_session(signal.SIGKILL))
        for _ in range(2):    # the second time it has the first entries
            self.assertEqual(client.ask(ALL), {"lost": "the replica is being fed"})
        relay.tells_below = None
        until(lambda: len(client.ask(ALL).get("rows", [])) == 40, "reads go on")

    def test_stopping_while_etcd_is_gone(self) -> None:
        replica = self.replica(bound=1.0, log=True)
        client = self.client(replica)
        client.ask(insert(1))
        self.cluster.members[0].pause()
        client.send(insert(2))
        time.sleep(0.2)
        replica.send(signal.SIGTERM)
        self.assertEqual(client.answer(), LOST)
        self.assertEqual(self.ended(replica), 0)
        self.cluster.members[0].go_on()
        self.assert_same_rows(self.client(replica.start()))

    def test_etcd_that_is_full(self) -> None:
        cluster = Cluster(self.folder, 1, ["--quota-backend-bytes", "4194304"], name="full")
        self.addCleanup(cluster.kill)
        cluster.wait()
        replica = self.replica(urls=cluster.urls, bound=2.0)
        client = self.client(replica)
        line = json.dumps({"delete": "acct", "where": []}).encode() + b" " * 900_000
        answers = [client.ask(line) for _ in range(8)]
        self.assertEqual(answers[-1], LOST)
        self.assertEqual(client.ask({"read": "replica"}), {"reads": "replica"})
        # A slow etcd takes some that were given up.
        taken = sum(line.startswith(b'{"delete"') for line in cluster.lines())
        self.assertGreaterEqual(taken, sum("slot" in answer for answer in answers))
        self.assertLess(taken, 8)
        until(lambda: client.ask({"status": True})["time"] == taken, "the session has what etcd took")
        until(lambda: "database space exceeded" in replica.complaints(), "a complaint")

    def test_etcd_that_is_not_there_at_the_start(self) -> None:
        self.cluster.members[0].kill()
        replica = self.replica(bound=0.5)
        self.assertEqual(self.client(replica).opened, LOST)
        self.cluster.members[0].start()
        until(lambda: self.client(replica).opened == EMPTY, "etcd takes the opening")

    def test_an_etcd_that_has_lost_entries(self) -> None:
        replica = self.replica()
        client = self.client(replica)
        client.ask(insert(1))
        entries = self.cluster.entries()
        entries.drop(0, 99)
        entries.close()
        client.send(insert(2))
        self.assertEqual(self.ended(replica), 1)
        self.assertIn("is gone from etcd", replica.complaints())


class EntriesOfEtcd(WithEtcd):
    def test_an_entry_that_is_there_is_not_changed(self) -> None:
        entries = self.cluster.entries("other")
        self.assertEqual(entries.append(0, b"a"), [b"a"])
        self.assertEqual(entries.append(0, b"b"), [b"a"])
        self.assertEqual(entries.append(1, b"b"), [b"b"])
        self.assertEqual(entries.append(0, b"c"), [b"a", b"b"])
        with self.assertRaises(EntriesGone):
            entries.append(7, b"c")
        self.assertEqual(entries.fetch(0), [b"a", b"b"])
        self.cluster.kill()
        with self.assertRaises(EtcdError):
            entries.fetch(0)

    def test_an_entry_that_was_dropped_is_not_put_again(self) -> None:
        entries, other = self.entries_of("other"), self.entries_of("other")
        for number in range(6):
            entries.append(number, b"%d" % number)
        self.assertEqual(other.fetch(0, 1), [b"0"])
        entries.drop(1, 4)
        for number in (1, 2, 3, 4):    # whoever knows the first entry, or one that was dropped since
            for each in (entries, other):
                with self.assertRaisesRegex(EntriesGone, "was dropped|is gone"):
                    if number < 4:
                        each.append(number, b"x")
                    else:
                        each.fetch(1)
        self.assertEqual(entries.append(4, b"x"), [b"4", b"5"])
        with self.assertRaisesRegex(EntriesGone, "was dropped .* copy the log and the position"):
            other.append(1, b"x")
        self.assertEqual(entries.append(6, b"6"), [b"6"])
        self.assertEqual(entries.fetch(4), [b"4", b"5", b"6"])

    def test_an_entry_whose_place_another_one_has_taken(self) -> None:
        """etcd was set back behind what this one has read, and others have gone on."""
        for way in ("read", "put"):
            entries, other = self.entries_of(way), self.entries_of(way)
            for number in range(3):
                other.append(number, b"%d" % number)
            if way == "read":
                entries.fetch(0)
            else:
                entries.fetch(0, 2)
                other.drop(2, 3)
                self.assertEqual(entries.append(2, b"2"), [b"2"])
            other.drop(2, 3)
            self.assertEqual(other.append(2, b"another"), [b"another"])
            with self.assertRaisesRegex(EntriesGone, "isn't the one that this replica has read"):
                entries.append(3, b"3")
            self.assertEqual(other.fetch(0), [b"0", b"1", b"another"])
            other.drop(2, 3)
            with self.assertRaisesRegex(EntriesGone, "entry 2 is gone from etcd"):
                entries.append(3, b"3")

    def test_a_replica_that_was_cut_off_while_entries_were_dropped(self) -> None:
        """It knows the opening alone, isn't named to compact, and comes back with requests that wait."""
        relay = Relay(self.cluster.members[0].port)
        self.addCleanup(relay.close)
        replicas = [self.replica("a", log=True), self.replica("b", log=True)]
        behind = self.replica("c", urls=[relay.url], log=True, bound=60.0)
        waiting = []
        for _ in range(4):
            client = self.client(behind, None)
            self.assertEqual(client.ask_all({"read": "replica"}, OPENING)[1], EMPTY)
            waiting.append(client)
        relay.is_cut = True
        clients = [self.client(replica) for replica in replicas]
        for key in range(30):
            clients[0].ask(insert(key))
        positions = [replica.log + ".position" for replica in replicas]
        for path in positions:
            until(lambda: json.loads(Path(path).read_bytes())["entry"] > 25, "a position")
        self.assertGreater(compact(self.cluster.access, "bank", positions), 20)
        before = self.left()
        for client in waiting:
            client.send(insert(777))
        time.sleep(0.5)
        relay.is_cut = False
        self.assertEqual(self.ended(behind), 1)
        self.assertIn("entry 1 was dropped from etcd", behind.complaints())
        self.assertIn("copy the log and the position of another replica", behind.complaints())
        self.assertEqual(self.left(), before)
        clients[1].ask(insert(30))
        self.assertEqual([len(client.ask(ALL)["rows"]) for client in clients], [31, 31])
        # So does its next start, and with a copy it goes on.
        self.assertEqual(self.ended(behind.start()), 1)
        for suffix in (".position", ""):
            Path(behind.log + suffix).write_bytes(Path(replicas[0].log + suffix).read_bytes())
        behind.start()
        self.assertEqual(len(self.client(behind).ask(ALL)["rows"]), 31)

    def entries_of(self, prefix: str) -> Entries:
        entries = self.cluster.entries(prefix)
        self.addCleanup(entries.close)
        return entries

    def left(self) -> list[str]:
        """The keys that are there."""
        etcd = Etcd(self.cluster.access)
        self.addCleanup(etcd.close)
        told = etcd.call("/v3/kv/range", {"key": base64.b64encode(b"bank/").decode(), "keys_only": True,
                                          "range_end": base64.b64encode(b"bank0").decode()})
        return [pair["key"] for pair in told["kvs"]]


class StoppedMembers(WithEtcd):
    members = 3

    def test_a_member_that_is_stopped(self) -> None:
        clients = [self.client(self.replica(name)) for name in "abc"]
        seconds = float(os.environ.get("REPLICA_STOPPED", "3"))
        for place, member in enumerate(self.cluster.members):
            member.pause()
            end, number = time.monotonic() + seconds / 3, 0
            while number < 10 or time.monotonic() < end:
                for key, client in enumerate(clients):
                    answer = client.ask(insert(100_000 * place + 10 * number + key))
                    self.assertEqual(answer.get("replies"), ["inserted"], answer)
                number += 1
            member.go_on()
        self.assert_same_rows(*clients)
