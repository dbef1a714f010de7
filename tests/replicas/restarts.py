"""Replicas and sessions that end and start again, and their logs."""

from __future__ import annotations

import json
import os
import signal
import sys
from pathlib import Path

from tests.support.client_package import needs_etcd
from tests.support.clusters import ALL, WithEtcd, insert, until
from tests.support.fixtures import program
from timetravel.replicas import compact

setUpModule = needs_etcd

# A session that answers, once, that it is out of memory where a line has the number 13.
WITHOUT_MEMORY = """
import os, subprocess, sys
program = subprocess.Popen(["{program}", *sys.argv[1:]], stdin=subprocess.PIPE, stdout=subprocess.PIPE)
flag = "{folder}/was_out_of_memory"
for line in sys.stdin.buffer:
    if b"[13," in line and not os.path.exists(flag):
        open(flag, "w").close()
        answer = b'{{"call":9,"refused":"memory"}}\\n'
    else:
        program.stdin.write(line)
        program.stdin.flush()
        answer = program.stdout.readline()
    sys.stdout.buffer.write(answer)
    sys.stdout.buffer.flush()
program.stdin.close()
program.wait()
"""


class Restarts(WithEtcd):
    def test_a_session_that_is_killed_is_fed_again(self) -> None:
        for log in (False, True):
            with self.subTest(log=log):
                replica = self.replica(f"log{log}", log=log)
                client = self.client(replica)
                for key in range(5):
                    client.ask(insert(100 * log + key))
                    self.assertTrue(replica.signal_session(signal.SIGKILL))
                    client.send(insert(100 * log + key + 50))
                    self.assertEqual(client.answer()["replies"], ["inserted"])
                client.send({"read": "replica"})
                self.assertEqual(client.answer(), {"reads": "replica"})
                self.assertTrue(replica.signal_session(signal.SIGKILL))
                self.assertEqual(len(client.ask(ALL)["rows"]), 10 + 10 * log)
                self.assert_same_rows(client)

    def test_a_replica_that_starts_again(self) -> None:
        for log in (False, True):
            with self.subTest(log=log):
                replica = self.replica(f"log{log}", log=log)
                client = self.client(replica)
                for number in (signal.SIGTERM, signal.SIGKILL):
                    client.ask_all(*(insert(key) for key in range(300)))
                    replica.send(number)
                    self.assertEqual(self.ended(replica), 0 if number == signal.SIGTERM else -number)
                    client = self.client(replica.start())
                    self.assert_same_rows(client)

    def test_stopping_answers_what_was_read(self) -> None:
        replica = self.replica(log=True)
        client = self.client(replica)
        client.send(*(insert(key) for key in range(200)))
        client.answer()
        replica.send(signal.SIGTERM)
        self.assertEqual([client.answer()["replies"] for _ in range(99)], [["inserted"]] * 99)
        self.assertEqual(self.ended(replica), 0)
        position = json.loads(Path(replica.log + ".position").read_bytes())
        self.assertEqual(position["entry"], len(self.entries()))

    def entries(self) -> list[bytes]:
        entries = self.cluster.entries()
        found: list[bytes] = []
        self.addCleanup(entries.close)
        while values := entries.fetch(len(found)):
            found += values
        return found

    def test_a_log_with_lines_that_etcd_has_not(self) -> None:
        replica = self.replica(log=True)
        self.client(replica).ask(insert(1))
        replica.send(signal.SIGTERM)
        self.ended(replica)
        data = Path(replica.log).read_bytes().rstrip(b"\0")
        Path(replica.log).write_bytes(data + json.dumps(insert(2)).encode() + b"\n")
        self.assertEqual(self.ended(replica.start()), 1)
        self.assertIn("etcd hasn't the log's line", replica.complaints())
        self.assertTrue(Path(replica.log).read_bytes().startswith(data + b"{"))

    def test_a_copied_log_and_compact(self) -> None:
        replica = self.replica("a", log=True)
        client = self.client(replica)
        for key in range(20):
            client.ask(insert(key))
        until(lambda: json.loads(Path(replica.log + ".position").read_bytes())["entry"] > 15, "a position")
        copy = os.path.join(self.folder, "b.log")
        Path(copy + ".position").write_bytes(Path(replica.log + ".position").read_bytes())
        for key in range(20, 30):
            client.ask(insert(key))
        Path(copy).write_bytes(Path(replica.log).read_bytes())
        dropped = compact(self.cluster.access, "bank", [replica.log + ".position", copy + ".position"])
        self.assertGreater(dropped, 10)
        self.assertEqual(compact(self.cluster.access, "bank", [copy + ".position"]), 0)
        second = self.replica("b", log=True)
        self.assertEqual(self.client(second).ask(ALL)["rows"], client.ask(ALL)["rows"])
        third = self.replica("c")    # has no log, and would need the entries that were dropped
        self.assertEqual(self.ended(third), 1)
        self.assertIn("entry 1 was dropped from etcd", third.complaints())

    def test_a_session_without_memory(self) -> None:
        stand_in = os.path.join(self.folder, "stand_in.py")
        Path(stand_in).write_text(WITHOUT_MEMORY.format(program=program(), folder=self.folder))
        replica = self.replica(session=[sys.executable, stand_in], log=True)
        client = self.client(replica)
        answers = client.ask_all(insert(1), insert(13), insert(2), ALL)
        self.assertEqual([answer.get("replies", answer.get("rows")) for answer in answers],
                         [["inserted"]] * 3 + [[[1, 10], [2, 10], [13, 10]]])
        self.assertTrue(os.path.exists(os.path.join(self.folder, "was_out_of_memory")))
        self.assertIn("out of memory", replica.complaints())
