"""The commands `call`, `status` and `metrics`, and sessions that forget."""

from __future__ import annotations

import json
import os
import signal
import subprocess

from tests.support.fixtures import program
from tests.support.served import ALL, BOUND, OPENING, ServingCase, command, insert, metrics, samples, until


class Commands(ServingCase):

    def test_call_and_status(self) -> None:
        server = self.serving()
        done = command("status", server.path)
        self.assertEqual((done.returncode, done.stderr), (1, b'timetravel: {"refused":"not open"}\n'))
        done = command("call", "--opening", json.dumps(OPENING), server.path, json.dumps(insert(1)))
        self.assertEqual((done.returncode, done.stdout), (0, b'{"call":1,"slot":1,"replies":["inserted"]}\n'))
        done = command("call", server.path, given=b'\n{"status":true}\n \n{"if":7,"status":true}')
        self.assertEqual(done.returncode, 1)
        self.assertEqual([sorted(json.loads(line))[0] for line in done.stdout.splitlines()], ["call", "call"])
        self.assertEqual(command("call", server.path, '{"select":"none"}').returncode, 1)
        done = command("status", server.path)
        self.assertEqual(done.returncode, 0)
        self.assertEqual(done.stdout.splitlines(), [
            b"time: 1 of 1000000", b"entries: 1 of 4000000", b"generation: 0", b"oldest generation: 0",
            b"repair: none"])
        told = ['{"forget":1}', '{"delete":"acct","where":[]}']
        self.assertEqual(command("call", server.path, *told).returncode, 0)
        self.assertEqual(command("status", server.path).stdout.splitlines()[:3], [
            b"time: 2", b"horizon: 1, with 1 slots behind it, of 1000000", b"entries: 2 of 4000000"])
        self.assertEqual(command("call", server.path, '{"forget":0}').returncode, 1)
        done = command("call", "--opening", json.dumps(OPENING, indent=1), server.path)
        self.assertEqual((done.returncode, done.stdout, done.stderr), (0, b"", b""))
        done = command("call", "--opening", " \n", server.path, "{}")
        self.assertEqual((done.returncode, done.stdout), (1, b""))
        self.assertIn(b"the opening is blank", done.stderr)
        done = command("call", f"{self.folder}/none", "{}")
        self.assertEqual(done.returncode, 1)
        self.assertIn(b"cannot connect", done.stderr)

    def test_metrics(self) -> None:
        server = self.with_log()
        self.assertEqual(samples(metrics(server.path))["timetravel_open"], 0)
        client = server.client()
        client.send(*(insert(key) for key in range(10)))
        client.send({"if": 3, "status": True}, {"abort": True}, b"{", {"do": []}, {"worker": 2, "do": []})
        client.send({"row": [1, '"refused":"x"', 1], "insert": "acct"}, {**ALL, "most": 100})
        client.send({"worker": 2, "forget": 14})
        for _ in range(18):
            client.answer()
        told = command("metrics", server.path, "--rows")
        self.assertEqual(told.returncode, 0)
        found = samples(told.stdout.decode())
        for name, value in {
                "timetravel_open": 1, "timetravel_slots": 13, "timetravel_entries": 13,
                "timetravel_slots_limit": 1_000_000, "timetravel_entries_limit": 4_000_000,
                "timetravel_generation": 0, "timetravel_repairing": 0, "timetravel_horizon": 0,
                'timetravel_request_seconds_count{kind="insert"}': 11,
                'timetravel_request_seconds_bucket{kind="insert",le="+Inf"}': 11,
                'timetravel_request_seconds_count{kind="do"}': 2,
                'timetravel_request_seconds_count{kind="forget"}': 1,
                'timetravel_request_seconds_count{kind="status"}': 1,
                'timetravel_request_seconds_count{kind="abort"}': 1,
                'timetravel_request_seconds_count{kind="other"}': 1,
                'timetravel_refusals_total{cause="moved"}': 1,
                'timetravel_refusals_total{cause="later"}': 1,
                'timetravel_refusals_total{cause="not repairing"}': 1,
                "timetravel_faults_total": 1, "timetravel_lost_total": 0,
                "timetravel_session_starts_total": 1,
                "timetravel_connections": 2, 'timetravel_rows{table="acct"}': 10,
                "timetravel_records_limit": 100_000}.items():
            self.assertEqual(found.get(name), value, name)
        self.assertNotIn('timetravel_refusals_total{cause="x"}', found)
        lines = subprocess.run([str(program()), "log", self.log], capture_output=True, timeout=BOUND).stdout
        self.assertEqual(found["timetravel_log_bytes"], len(lines))
        for name in ('timetravel_memory_bytes{process="session"}',
                     'timetravel_memory_peak_bytes{process="server"}',
                     'timetravel_request_recent_seconds{kind="insert",quantile="0.99"}'):
            self.assertGreater(found[name], 0)

    def test_a_session_that_forgets(self) -> None:
        server = self.serving()
        keeper, other = server.client(), server.client()
        keeper.send(*(insert(key) for key in range(10)), {"forget": 7})
        self.assertEqual([keeper.answer()["slot"] for _ in range(10)], list(range(1, 11)))
        status = {"time": 10, "generation": 0, "oldest": 0, "entries": 4, "repair": None, "horizon": 7}
        self.assertEqual({**keeper.answer(), "call": 0}, {"call": 0, **status})
        self.assertEqual(server.client().opened, status)
        self.assertEqual({**other.ask({**ALL, "at": 6}), "call": 0},
                         {"call": 0, "refused": "forgotten", "horizon": 7})
        self.assertEqual(len(other.ask({**ALL, "at": 7})["rows"]), 7)
        found = samples(metrics(server.path))
        self.assertEqual((found["timetravel_slots"], found["timetravel_horizon"]), (10, 7))

    def test_a_session_with_a_log_that_forgets(self) -> None:
        server = self.with_log("--restart")
        client = server.client()
        client.send(*(insert(key) for key in range(40)))
        self.assertEqual([client.answer()["slot"] for _ in range(40)], list(range(1, 41)))
        before = samples(metrics(server.path))["timetravel_log_bytes"]
        os.mkdir(self.log + ".new")
        self.assertEqual(client.ask({"forget": 40})["refused"], "log")
        os.rmdir(self.log + ".new")
        self.assertEqual(client.ask({"forget": 40})["horizon"], 40)
        client.ask(insert(40))
        found = samples(metrics(server.path))
        self.assertEqual(found['timetravel_refusals_total{cause="log"}'], 1)
        self.assertLess(found["timetravel_log_bytes"], before)
        os.kill(server.session(), signal.SIGKILL)
        until(lambda: server.client().opened.get("horizon") == 40, "the session is started again")
        self.assertEqual(len(server.client().ask(ALL)["rows"]), 41)
