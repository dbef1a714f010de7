"""Lines and their answers."""

from __future__ import annotations

import asyncio
import json
import os
import re
import signal
import stat
import threading
from pathlib import Path

from tests.support.served import (
    ALL, BOUND, EMPTY, OPENING, STATUS, Server, ServingCase, insert, metrics, samples, until)
from timetravel import Column, Difference, Progress, Session, Table, aio, cancel
from timetravel.lines import LONGEST


class Lines(ServingCase):

    def test_each_connection_gets_its_own_answers(self) -> None:
        server = self.serving()
        first, second = server.client(), server.client()
        self.assertEqual((first.opened, second.opened), (EMPTY, EMPTY))
        ours = json.dumps(insert(1)).encode() + b"\n"
        theirs = json.dumps({"select": "acct", "where": [["id", 77]]}).encode() + b"\n"
        for at in range(max(len(ours), len(theirs))):
            first.socket.sendall(ours[at:at + 1])
            second.socket.sendall(theirs[at:at + 1])
        self.assertEqual(first.answer()["replies"], ["inserted"])
        self.assertEqual(second.answer()["rows"], [])
        first.send(*(insert(key) for key in range(2, 1002)))
        second.send(*[STATUS] * 1000)
        self.assertEqual([first.answer()["replies"] for _ in range(1000)], [["inserted"]] * 1000)
        self.assertEqual(len([second.answer()["time"] for _ in range(1000)]), 1000)

    def test_a_mode_for_the_owner_alone(self) -> None:
        server = self.serving()
        self.assertEqual(stat.S_IMODE(os.stat(server.path).st_mode), 0o600)
        self.assertEqual(server.stop(), 0)
        self.assertFalse(os.path.exists(server.path))
        self.assertEqual(server.said(), "")

    def test_blank_lines_have_no_answers(self) -> None:
        server = self.serving()
        client = server.client(None)
        client.send(b"", b" \t\r", OPENING, b"", b" ", STATUS, b"\r", b"\t", {"tables": True}, b"\v", b"")
        self.assertEqual(client.answer(), EMPTY)
        self.assertEqual(client.answer()["time"], 0)
        self.assertEqual(client.answer()["keep"], 4)
        self.assertEqual(client.answer()["fault"], {"path": "$", "cause": "not JSON"})
        client.send(b"  ")
        self.assertEqual(server.client().ask(STATUS)["call"], 4)    # openings aren't counted
        self.assertEqual(client.ask(STATUS)["call"], 5)

    def test_the_last_line_needs_no_line_feed(self) -> None:
        server = self.serving()
        client = server.client(None)
        client.socket.sendall(json.dumps(OPENING).encode() + b'\n{"status":true}\n{"tables":true}')
        client.end()
        answers = [json.loads(line) for line in client.rest()]
        self.assertEqual(len(answers), 3)
        self.assertEqual(answers[2]["keep"], 4)
        opener = server.client(None)
        opener.socket.sendall(b'{"join":true}')
        opener.end()
        self.assertEqual([json.loads(line) for line in opener.rest()], [EMPTY])

    def test_a_connection_without_lines(self) -> None:
        server = self.serving()
        client = server.client(None)
        client.end()
        self.assertEqual(client.rest(), [])
        self.assertEqual(server.client().opened, EMPTY)

    def test_the_longest_line_and_one_byte_more(self) -> None:
        server = self.serving()
        client, other = server.client(), server.client()
        too_long = f"longer than {LONGEST} bytes"
        for extra, cause in ((0, None), (1, too_long), (100 << 20, too_long)):
            head = b'{"status":true'
            line = head + b" " * (LONGEST + extra - len(head) - 1) + b"}"
            sender = threading.Thread(target=client.send, args=(line,))
            sender.start()
            self.assertIn("time", other.ask(STATUS))    # it waits for none of it
            answer = client.answer()
            sender.join(BOUND)
            self.assertEqual(answer.get("fault", {}).get("cause"), cause)
        client.send(b" " * (LONGEST + 1))    # also a blank one
        self.assertEqual(client.answer()["fault"]["cause"], too_long)
        peak = Path(f"/proc/{server.process.pid}/status").read_text()
        kibibytes = int(re.search(r"VmHWM:\s+(\d+)", peak)[1])    # type: ignore[index]
        self.assertLess(kibibytes, 110 << 10)

    def test_an_answer_of_many_mebibytes(self) -> None:
        server = self.serving()
        client = server.client()
        number = 5000
        sender = threading.Thread(target=client.send, args=[insert(key, "y" * 1000) for key in range(number)])
        sender.start()
        for _ in range(number):
            self.assertEqual(client.answer()["replies"], ["inserted"])
        sender.join(BOUND)
        client.send(*[ALL] * 5)
        for _ in range(5):
            self.assertEqual(len(client.answer()["rows"]), number)

    def test_stamps_of_several_connections(self) -> None:
        """They are counted by the kind of the write, and are there after a start on the log."""
        server = self.with_log("--restart")
        plain = server.client()
        table = Table("acct", [Column("id", "int"), Column("owner", "text", True), Column("bal", "int")])
        stamps = iter(range(100, 200))
        with Session.connect(server.path, [table], clock=lambda: next(stamps), reopen=True) as session:
            session.insert("acct", [1, "ann", 0], worker=2)
            self.assertEqual(plain.ask({**insert(2), "stamp": 101})["slot"], 2)
            self.assertEqual(plain.ask({"delete": "acct", "where": [], "stamp": "x"})["fault"]["path"], "$.stamp")
            self.assertEqual(plain.ask(insert(3))["slot"], 3)
            session.delete("acct", {"id": 3}, stamp=7)
            asyncio.run(self.write_as_task(server, table))
            wanted = [(1, 100), (2, 101), (3, None), (4, 7), (5, 300)]
            self.assertEqual([(slot.slot, slot.stamp) for slot in session.find()], wanted)
            self.assertEqual([slot.slot for slot in session.find(of=1, stamps=(101, 300))], [2, 5])
            self.assertEqual([slot["slot"] for slot in plain.ask({"slots": [1, 9], "stamps": [7, 100]})["slots"]],
                             [1, 4])
            found = samples(metrics(server.path))
            self.assertEqual([found[f'timetravel_request_seconds_count{{kind="{kind}"}}']
                              for kind in ("insert", "delete", "do")], [3, 2, 1])
            os.kill(server.session(), signal.SIGKILL)
            until(lambda: server.client().opened.get("time") == 5, "the session is started again")
            self.assertEqual([(slot.slot, slot.stamp) for slot in session.find()], wanted)

    async def write_as_task(self, server: Server, table: Table) -> None:
        async with aio.Session.connect(server.path, [table], clock=lambda: 300) as session:
            await session.do([], whole=True)
            self.assertEqual([slot.slot async for slot in session.find(stamps=(300, 300))], [5])

    def test_a_dry_run_beside_a_writer(self) -> None:
        server = self.serving()
        writer = server.client()
        writer.send(*(insert(key) for key in range(20)))
        self.assertEqual([writer.answer()["slot"] for _ in range(20)], list(range(1, 21)))
        table = Table("acct", [Column("id", "int"), Column("owner", "text", True), Column("bal", "int")])
        written: list[int] = []

        def write(_: Progress) -> None:
            written.append(writer.ask(insert(100 + len(written)))["slot"])

        with Session.connect(server.path, [table]) as session:
            tried = session.repair([cancel(7)], dry=True, step=5, progress=write, worker=9)
            self.assertEqual(written, list(range(21, 21 + len(written))))    # Nobody waits for its end.
            self.assertEqual((tried.slots, tried.rerun), (written[-1] - 1, 1))
            self.assertEqual(tried.diff, [Difference("acct", 6, [6, "ann", 10], None)])
            self.assertEqual(session.would([cancel(7)]).diff, tried.diff)
            status = session.status()
            self.assertEqual((status.time, status.generation, status.repair), (written[-1], 0, None))
        found = samples(metrics(server.path))
        self.assertEqual([found[f'timetravel_request_seconds_count{{kind="{kind}"}}']
                          for kind in ("why", "diff", "would", "abort")], [1, 1, 1, 1])
