"""Replicas while members of etcd, replicas and sessions are killed and stopped.

REPLICA_ROUNDS is how many rounds of kills and stops there are (20), REPLICA_REQUESTS how many requests at
least are sent meanwhile (5000), and REPLICA_SEED what they depend on (1).
"""

from __future__ import annotations

import itertools
import json
import os
import random
import signal
import threading
import time
from typing import Any

from tests.support.client_package import needs_etcd
from tests.support.clusters import WithEtcd, answers_of_one_session, until
from tests.support.linearizability import Operation, linearizable
from tests.support.progress import progress
from tests.support.registers import REGISTERS, STORE, Asked, Caller, model, short, without_call
from timetravel.etcd import Access, Entries, Etcd, EtcdError

setUpModule = needs_etcd


class Kills(WithEtcd):
    members = 3

    def test_kills_and_stops(self) -> None:
        rounds = int(os.environ.get("REPLICA_ROUNDS", "20"))
        least = int(os.environ.get("REPLICA_REQUESTS", "5000"))
        seed = int(os.environ.get("REPLICA_SEED", "1"))
        self.dice = random.Random(seed)
        self.replicas = [self.replica("a"), self.replica("b", log=True), self.replica("c", log=True)]
        rows = [{"insert": "register", "row": [key, 0]} for key in range(REGISTERS)]
        first = {"worker": 1, "do": rows}
        self.assertEqual(self.client(self.replicas[0], STORE).ask(first)["slot"], 1)
        counter = itertools.count(100)
        callers = [Caller([replica.socket for replica in self.replicas], random.Random(f"{seed} {place}"),
                          lambda: next(counter)) for place in range(14)]
        stop = threading.Event()
        pause = 12 * rounds * 6 / least
        threads = [threading.Thread(target=self.call, args=(caller, stop, pause)) for caller in callers[:12]]
        threads.append(threading.Thread(target=callers[12].repair, args=(stop,)))
        threads.append(threading.Thread(target=callers[13].forget_old, args=(stop,)))
        for thread in threads:
            thread.start()
        try:
            for done in range(rounds):
                progress(done, rounds, "rounds of kills and stops")
                self.disturb()
            progress(rounds, rounds, "rounds of kills and stops")
            until(lambda: sum(len(caller.asked) for caller in callers) >= least, "enough requests",
                  max(60.0, least / 20))
            threads[12].join(20.0)
        finally:
            stop.set()
            for thread in threads:
                thread.join(40.0)
                self.assertFalse(thread.is_alive())
            for caller in callers:
                caller.forget()
        self.judge([asked for caller in callers for asked in caller.asked])

    def call(self, caller: Caller, stop: threading.Event, pause: float) -> None:
        while not stop.is_set():
            caller.act()
            time.sleep(caller.dice.random() * pause)

    # What is done to them

    def disturb(self) -> None:
        deeds = [self.kill_member, self.stop_member, self.kill_replica, self.stop_replica,
                 self.kill_session, self.stop_session]
        self.dice.shuffle(deeds)
        for deed in deeds:
            deed()
            time.sleep(self.dice.random() * 0.5)

    def kill_member(self) -> None:
        member = self.dice.choice(self.cluster.members)
        member.kill()
        time.sleep(self.dice.random())
        member.start()
        self.wait_for_member(member.url)

    def stop_member(self) -> None:
        member = self.dice.choice(self.cluster.members)
        member.pause()
        time.sleep(self.dice.random() * 2)
        member.go_on()
        self.wait_for_member(member.url)

    def wait_for_member(self, url: str) -> None:
        entries = Entries(Etcd(Access([url])), "bank")

        def answers() -> bool:
            try:
                return bool(entries.fetch(0, 1))
            except EtcdError:
                return False

        until(answers, f"{url} answers")
        entries.close()

    def kill_replica(self) -> None:
        replica = self.dice.choice(self.replicas)
        replica.kill()
        time.sleep(self.dice.random() * 0.5)
        replica.start()

    def stop_replica(self) -> None:
        replica = self.dice.choice(self.replicas)
        replica.pause()
        time.sleep(self.dice.random())
        replica.go_on()

    def kill_session(self) -> None:
        self.dice.choice(self.replicas).signal_session(signal.SIGKILL)

    def stop_session(self) -> None:
        replica = self.dice.choice(self.replicas)
        if replica.signal_session(signal.SIGSTOP):
            time.sleep(self.dice.random())
            replica.signal_session(signal.SIGCONT)

    # What has to be so

    def judge(self, asked: list[Asked]) -> None:
        answered = [one for one in asked if one.answer is not None]
        ends = self.ends()
        lines = self.cluster.lines()
        told = [json.loads(answer) for answer in answers_of_one_session([*lines, *ends])]
        self.judge_replicas(ends, told[-len(ends):])
        places: dict[bytes, int] = {}
        for place, line in enumerate(lines):
            if b'"worker"' in line:
                self.assertNotIn(line, places, "a request that is there twice")
                places[line] = place
        history = []
        for one in asked:
            found = places.get(one.line)
            if one.here:
                self.assertIsNone(found)
                continue
            if one.answer is not None:
                self.assertIsNotNone(found, f"answered, and not there: {one}")
                self.assertEqual(without_call(one.answer), without_call(told[found or 0]), one)
            if one.kind != "repair" and found is not None:
                call = (one.kind, one.key, one.value, one.if_time)
                history.append(Operation(call, one.called, short(one.kind, told[found]), one.answered))
        self.assertTrue(linearizable(history, model, (1, (0,) * REGISTERS)))
        self.judge_reads_here([one for one in answered if one.here], history)
        self.assertTrue(any(one.line.endswith(b'"finish": true}') for one in answered), "no repair")
        self.assertTrue(any("horizon" in (one.answer or {}) for one in answered), "nothing is forgotten")

    def ends(self) -> list[bytes]:
        """The lines that all replicas have to answer the same at the end."""
        status = self.client(self.replicas[0], STORE).ask({"status": True})
        return [json.dumps(request).encode() for request in (
            {"select": "register", "where": []}, {"select": "note", "where": []},
            {"slots": [1, status["time"]]}, {"status": True}, {"tables": True})]

    def judge_replicas(self, ends: list[bytes], told: list[dict[str, Any]]) -> None:
        for replica in self.replicas:
            client = self.client(replica, STORE)
            client.ask({"read": "replica"})
            until(lambda: without_call(client.ask({"status": True})) == without_call(told[3]), "the same")
            answers = client.ask_all(*ends)
            self.assertEqual([without_call(answer) for answer in answers],
                             [without_call(answer) for answer in told])

    def judge_reads_here(self, reads: list[Asked], history: list[Operation]) -> None:
        """Each is what the registers had at its time, and its time isn't before what was answered."""
        self.assertTrue(reads)
        values = {1: (0,) * REGISTERS}
        slots = {operation.answer[1]: operation for operation in history if operation.answer[0] == "slot"}
        for slot in range(2, len(slots) + 2):
            kind, key, value, _ = slots[slot].call
            before = values[slot - 1]
            values[slot] = before if kind == "note" else before[:key] + (value,) + before[key + 1:]
        for one in reads:
            assert one.answer is not None
            self.assertGreaterEqual(one.answer["time"], one.floor)
            self.assertEqual(one.answer["rows"][0][1], values[one.answer["time"]][one.key])
