"""Replicas that forget."""

from __future__ import annotations

import json
import os
import shutil
import signal
import sys
from pathlib import Path
from typing import Any

from tests.support.client_package import needs_etcd
from tests.support.clusters import (
    ALL, OPENING, ReplicaProcess, WithEtcd, answers_of_one_session, insert, until)
from tests.support.fixtures import program
from timetravel.following import encoded
from timetravel.replicas import compact

setUpModule = needs_etcd

# A session that is killed once, before a line or behind it; and its replica where that is told.
DYING = """
import os, signal, subprocess, sys
program, when, whose, flag, at = sys.argv[1:6]
held = subprocess.Popen([program, *sys.argv[6:]], stdin=subprocess.PIPE, stdout=subprocess.PIPE)
for line in sys.stdin.buffer:
    dies = line == at.encode() + b"\\n" and not os.path.exists(flag)
    if not dies or when == "behind":
        held.stdin.write(line)
        held.stdin.flush()
        answer = held.stdout.readline()
    if dies:
        open(flag, "w").close()
        held.kill()
        held.wait()
        if whose == "replica":
            os.kill(os.getppid(), signal.SIGKILL)
        os.kill(os.getpid(), signal.SIGKILL)
    sys.stdout.buffer.write(answer)
    sys.stdout.buffer.flush()
held.stdin.close()
held.wait()
"""

# A replica that is killed at a step: of what it writes from a line on that forgets up to a time.
DYING_REPLICA = """
import os, signal, sys
sys.path.insert(0, os.getcwd())
from timetravel import __main__, positions, replicas, serving
step, when, time = int(sys.argv[1]), sys.argv[2], int(sys.argv[3])
steps = None

def counted(call):
    def called(*given):
        global steps
        steps = None if steps is None else steps + 1
        if steps == step and when == "before":
            os.kill(os.getpid(), signal.SIGKILL)
        done = call(*given)
        if steps == step:
            os.kill(os.getpid(), signal.SIGKILL)
        return done
    return called

def begins(call):
    def called(*given):
        global steps
        steps = 0 if given[0]._forgetting.forgets == time else None
        return call(*given)
    return called

os.fsync, os.rename = counted(os.fsync), counted(os.rename)
serving.Program.take = counted(serving.Program.take)
replicas.Replica._ask_before_forgetting = begins(replicas.Replica._ask_before_forgetting)
sys.exit(__main__.main(sys.argv[4:]))
"""


class Forgetting(WithEtcd):
    def position(self, replica: ReplicaProcess) -> dict[str, Any]:
        return dict(json.loads(Path(replica.log + ".position").read_bytes()))

    def logged(self, replica: ReplicaProcess) -> list[Any]:
        data = Path(replica.log).read_bytes().partition(b"\0")[0]
        return [json.loads(line) for line in data.splitlines()]

    def test_all_forget(self) -> None:
        replicas = [self.replica("a", log=True), self.replica("b", log=True), self.replica("c")]
        clients = [self.client(replica) for replica in replicas]
        clients[0].ask_all(*(insert(key) for key in range(40)))
        self.assertEqual(clients[0].ask({"forget": 41})["refused"], "later")
        self.assertEqual(clients[1].ask({"forget": 30})["horizon"], 30)
        clients[2].ask_all(insert(40), {"begin": [{"cancel": 35}]}, insert(41), {"finish": True})
        past = {"select": "acct", "where": [], "at": 29}
        for client in clients:
            self.assertEqual(client.ask(past)["refused"], "forgotten")
            self.assertEqual(client.ask(ALL)["rows"], [[key, 10] for key in range(42) if key != 34])
        slots = {"slots": [1, 99]}
        told = [client.ask(slots)["slots"] for client in clients]
        self.assertEqual([entry["slot"] for entry in told[0]], [*range(31, 43)])
        self.assertEqual(told, [told[0]] * 3)
        # 30 rows are two slots of the ground, and ten slots stood behind it.
        for replica in replicas[:2]:
            logged = self.logged(replica)
            self.assertEqual(logged[0]["ground"], {"time": 30, "generation": 0, "slots": 2})
            sizes = [len(line.get("do", [])) for line in logged[1:]]
            self.assertEqual(sizes, [16, 14, *[1] * 10, 0, 0, 0, 0])
        for replica in replicas:
            replica.send(signal.SIGTERM)
            self.assertEqual(self.ended(replica), 0)
        for replica in replicas[:2]:
            self.assertEqual(self.position(replica)["lines"], 17)
        clients = [self.client(replica.start()) for replica in replicas]
        self.assertEqual([client.ask(slots)["slots"] for client in clients], [told[0]] * 3)
        self.assert_same_rows(*clients)

    def test_lines_of_one_entry_that_forget(self) -> None:
        entries = self.cluster.entries()
        self.addCleanup(entries.close)
        first = [OPENING, *map(insert, range(6))]
        together = [insert(6), ALL, {"forget": 3}, {"if": 9, "forget": 4}, {"forget": 5}, insert(7),
                    {"begin": []}, {"forget": 6}, {"abort": True}, {"forget": 5}, {"forget": 5}, insert(8)]
        for number, requests in enumerate([*([line] for line in first), together, [insert(9)]]):
            numbered = [(place, json.dumps(line).encode()) for place, line in enumerate(requests)]
            entries.append(number, encoded(b"another", numbered))
        ends = [ALL, {"slots": [1, 99]}, {"status": True}]
        lines = [*self.cluster.lines(), *(json.dumps(line).encode() for line in ends)]
        told = [json.loads(answer) for answer in answers_of_one_session(lines)[-len(ends):]]
        for log in (True, False):
            replica = self.replica(f"log{log}", log=log)
            for _ in range(2):
                client = self.client(replica)
                client.ask({"read": "replica"})
                for answer, wanted in zip(client.ask_all(*ends), told):
                    self.assertEqual({**answer, "call": 0}, {**wanted, "call": 0})
                replica.send(signal.SIGTERM)
                self.assertEqual(self.ended(replica), 0)
                replica.start()

    def test_a_session_that_dies_of_forgetting(self) -> None:
        """Before it, or behind it without an answer; and the replica with it or not."""
        stand_in = os.path.join(self.folder, "dying.py")
        Path(stand_in).write_text(DYING)
        watching = self.client(self.replica("watching"))
        for number, (when, whose) in enumerate((when, whose) for when in ("before", "behind")
                                               for whose in ("session", "replica")):
            with self.subTest(when=when, whose=whose):
                flag = os.path.join(self.folder, f"{when}.{whose}")
                time = 42 * number + 35
                session = [sys.executable, stand_in, str(program()), when, whose, flag,
                           json.dumps({"forget": time})]
                replica = self.replica(f"{when}.{whose}", log=True, session=session)
                client = self.client(replica)
                client.ask_all(*(insert(100 * number + key) for key in range(40)))
                client.send(insert(100 * number + 40), {"forget": time}, insert(100 * number + 41))
                if whose == "replica":
                    self.assertEqual(self.ended(replica), -signal.SIGKILL)
                    noted = self.position(replica)["forgetting"]
                    self.assertEqual(noted["to"], time)
                    client = self.client(replica.start())
                    until(lambda: "horizon" in client.ask({"status": True}), "it has forgotten")
                else:
                    answers = [client.answer() for _ in range(3)]
                    self.assertEqual([answer.get("horizon") for answer in answers], [None, time, None])
                self.assertTrue(os.path.exists(flag))
                self.assertEqual(self.logged(replica)[0]["ground"]["time"], time)
                self.assertEqual(self.position(replica)["forgetting"], None)
                self.assert_same_rows(client, watching)
                slots = {"slots": [1, 999]}
                self.assertEqual(client.ask(slots)["slots"], watching.ask(slots)["slots"])
                replica.send(signal.SIGTERM)
                self.assertEqual(self.ended(replica), 0)

    def test_a_replica_that_dies_around_a_forgetting(self) -> None:
        """Before each call that puts a line or a position somewhere, and right behind the line itself,
        which the session then carries out without a replica."""
        runner = os.path.join(self.folder, "runner.py")
        Path(runner).write_text(DYING_REPLICA)
        watching = self.client(self.replica("watching"))
        slots = {"slots": [1, 999]}
        for number, (step, when) in enumerate([*((step, "before") for step in range(1, 9)), (5, "behind")]):
            with self.subTest(step=step, when=when):
                key, time = 100 * number, 22 * number + 15
                package = [runner, str(step), when, str(time)]
                replica = self.replica(f"{step}.{when}", log=True, package=package)
                client = self.client(replica)
                client.ask_all(*(insert(key + some) for some in range(20)))
                client.send(insert(key + 20), {"forget": time}, insert(key + 21))
                self.assertEqual(self.ended(replica), -signal.SIGKILL)
                replica = self.replica(f"{step}.{when}", log=True)
                client = self.client(replica)
                until(lambda: client.ask({"status": True}).get("horizon") == time, "it has forgotten")
                until(lambda: client.ask(slots)["slots"] == watching.ask(slots)["slots"], "the same slots")
                self.assert_same_rows(client, watching)
                self.assertEqual(self.logged(replica)[0]["ground"]["time"], time)
                watching.ask_all(*[{"do": []}] * (22 * (number + 1) - client.ask({"status": True})["time"]))
                replica.send(signal.SIGTERM)
                self.assertEqual(self.ended(replica), 0)

    def test_a_log_that_can_not_be_made_anew(self) -> None:
        replica, other = self.replica("a", log=True), self.replica("b", log=True)
        client, elsewhere = self.client(replica), self.client(other)
        client.ask_all(*map(insert, range(9)))
        in_the_way = replica.log + ".new"
        os.mkdir(in_the_way)
        client.send({"forget": 5}, insert(9))
        until(lambda: "make " + replica.log in replica.complaints(), "a complaint")
        reading = self.client(replica, None)
        reading.ask({"read": "replica"})
        self.assertNotIn("horizon", reading.ask({"join": True}))
        until(lambda: "horizon" in elsewhere.ask({"status": True}), "the other one forgets")
        os.rmdir(in_the_way)
        self.assertEqual([client.answer().get("horizon") for _ in range(2)], [5, None])
        self.assert_same_rows(client, elsewhere)
        os.mkdir(in_the_way)
        client.send({"forget": 7})
        with self.assertRaises(OSError):    # and no refusal
            client.answer()
        self.assertEqual(self.ended(replica), 1)
        self.assertIn("and so can't forget", replica.complaints())
        os.rmdir(in_the_way)
        client = self.client(replica.start())
        self.assertEqual([one.ask({"status": True})["horizon"] for one in (client, elsewhere)], [7, 7])
        self.assert_same_rows(client, elsewhere)

    def test_a_position_that_can_not_be_written(self) -> None:
        replica = self.replica(log=True)
        client = self.client(replica)
        client.ask(insert(1))
        os.mkdir(replica.log + ".position.new")
        client.send({"forget": 1})
        self.assertEqual(self.ended(replica), 1)
        self.assertIn("cannot write " + replica.log + ".position", replica.complaints())
        os.rmdir(replica.log + ".position.new")
        client = self.client(replica.start())
        self.assertEqual(client.ask({"status": True})["horizon"], 1)

    def test_compact_behind_a_forgetting(self) -> None:
        replicas = [self.replica("a", log=True), self.replica("b", log=True)]
        clients = [self.client(replica) for replica in replicas]
        for key in range(20):
            clients[0].ask(insert(key))
        clients[0].ask({"forget": 20})
        for client, replica in zip(clients, replicas):
            client.ask(ALL)
            until(lambda: self.position(replica)["entry"] > 21, "a position")
        old = os.path.join(self.folder, "old.position")
        shutil.copy(replicas[0].log + ".position", old)
        positions = [replica.log + ".position" for replica in replicas]
        self.assertGreater(compact(self.cluster.access, "bank", positions), 18)
        for replica in replicas:
            replica.send(signal.SIGKILL)
            self.ended(replica)
        clients = [self.client(replica.start()) for replica in replicas]
        self.assertEqual([client.ask({"status": True})["horizon"] for client in clients], [20, 20])
        self.assertEqual([len(client.ask(ALL)["rows"]) for client in clients], [20, 20])
        # A new machine takes a position and a log of another one, and both have to be of one making.
        clients[0].ask_all(insert(20), {"forget": 21})
        for path, told in ((old, 1), (replicas[0].log + ".position", None)):
            shutil.copy(path, os.path.join(self.folder, "c.log.position"))
            shutil.copy(replicas[0].log, os.path.join(self.folder, "c.log"))
            third = self.replica("c", log=True)
            if told is None:
                self.assertEqual(len(self.client(third).ask(ALL)["rows"]), 21)
            else:
                self.assertEqual(self.ended(third), told)
                self.assertIn("hasn't the lines", third.complaints())

    def test_beginning_anew_under_another_prefix(self) -> None:
        """A log that was made anew goes on in an etcd that has its opening alone."""
        replica = self.replica("a", log=True)
        client = self.client(replica)
        client.ask_all(*map(insert, range(20)), {"forget": 15}, insert(20))
        before = client.ask({"slots": [1, 99]})["slots"]
        replica.send(signal.SIGTERM)
        self.ended(replica)
        entries = self.cluster.entries()
        self.addCleanup(entries.close)
        entries.drop(0, 99)
        first = self.replica("first")
        self.client(first)
        lines, size = len(self.logged(replica)), len(Path(replica.log).read_bytes().partition(b"\0")[0])
        Path(replica.log + ".position").write_text(json.dumps({"entry": 1, "lines": lines, "bytes": size}))
        self.assertEqual(self.client(replica.start()).ask({"slots": [1, 99]})["slots"], before)
