"""What a limit in time and a Ctrl-C leave behind, and requests without waiting."""

from __future__ import annotations

import contextlib
import math
import random
import signal
import threading
import time
import unittest.mock
from concurrent.futures import Future

from tests.support.client_package import session_command
from tests.support.stand_in import ACCT, INSERTED, ClientCase, StandInCase, told
from timetravel import Lost, NoAnswer, Session, Written, insert


class Timeouts(StandInCase):

    def test_each_call_has_its_own(self) -> None:
        with self.open(told() + [["read", 1], ["sleep", 0.3], ["write", INSERTED % (1, 1) + "\n"]],
                       timeout=30) as session:
            self.assert_raises(lambda: session.insert("acct", [1, "ann", 0], timeout=0.05), NoAnswer,
                               {"seconds": 0.05})

    def test_a_longer_one_than_the_session_has(self) -> None:
        for longer in (30, math.inf, 1e12):
            with self.open(told() + [["read", 1], ["sleep", 0.2], ["write", INSERTED % (1, 1) + "\n"]],
                           timeout=10) as session:
                session._timeout = 0.05
                self.assertEqual(session.insert("acct", [1, "ann", 0], timeout=longer).slot, 1)
                session._timeout = 10

    def test_every_method_takes_one(self) -> None:
        session = self.open(told())
        for ask in (lambda: session.insert("acct", [1, "ann", 0], timeout=0),
                    lambda: session.update("acct", {}, add={"bal": 1}, timeout=0),
                    lambda: session.delete("acct", {}, timeout=0), lambda: session.do([], timeout=0),
                    lambda: session.select("acct", timeout=0), lambda: next(session.pages("acct", timeout=0)),
                    lambda: session.begin([], timeout=0), lambda: session.step(timeout=-1),
                    lambda: session.preview("acct", timeout=0), lambda: session.finish(timeout=0),
                    lambda: session.abort(timeout=0), lambda: session.status(timeout=0),
                    lambda: session.slots(1, 2, timeout=0), lambda: session.changes(timeout=0),
                    lambda: session.why(timeout=0), lambda: session.diff(timeout=0),
                    lambda: session.would([], timeout=0), lambda: session.tables(timeout=0),
                    lambda: session.repair([], timeout=0), lambda: session.repair([], dry=True, timeout=0)):
            self.assertRaises(NoAnswer, ask)

    def test_a_program_that_does_not_open(self) -> None:
        self.assertRaises(NoAnswer, self.open, [["sleep", 60]], timeout=0.1)

    def test_a_pipe_that_is_full(self) -> None:
        """A line is sent in part or not at all when the time is over; the session goes on behind it."""
        many = 60
        answers = "".join(INSERTED % (call, call) + "\n" for call in range(1, many + 1))
        session = self.open(told() + [["sleep", 0.5], ["read", many], ["write", answers]])
        futures: list[Future[Written]] = []
        while session._channel.waiters.next_number <= many:    # A line that is sent in part counts.
            with contextlib.suppress(NoAnswer):
                futures.append(session.send(insert("acct", [1, "x" * 10000, 0]), timeout=0.05))
        slots = [future.result(30).slot for future in futures]
        self.assertEqual(slots, sorted(slots))
        session.close()
        length = len('{"insert":"acct","row":[1,"",0]}') + 10000
        self.assertEqual([len(line) for line in self.lines()[1:]], [length] * many)
        self.assertEqual(session.exit_status, 0)

    def test_others_wait_no_longer_than_their_own(self) -> None:
        session = self.open(told() + [["sleep", 60]])
        futures: list[Future[Written]] = []
        sender = threading.Thread(
            target=lambda: futures.append(session.send(insert("acct", [1, "x" * 1_000_000, 0]))))
        sender.start()
        while not session._sending.locked():
            time.sleep(0.001)
        self.assertRaises(NoAnswer, session.status, timeout=0.01)
        session._timeout = 0.5
        session.close()
        sender.join(30)
        self.assertEqual(session.exit_status, -9)
        self.assert_raises(futures[0].result, Lost, {"status": -9})


class Interrupts(StandInCase):
    """A Ctrl-C while a line is sent: whatever part of it is out, the session goes on."""

    def interrupted(self, session: Session, part: int) -> None:
        send = session._channel._send

        def break_off(data: bytes, sent: list[int]) -> None:
            if part:
                send(data[:part], sent)
            raise KeyboardInterrupt

        with unittest.mock.patch.object(session._channel, "_send", break_off):
            self.assertRaises(KeyboardInterrupt, session.insert, "acct", [1, "ann", 0])

    def test_before_a_line_is_sent(self) -> None:
        with self.open(told(INSERTED % (1, 1))) as session:
            self.interrupted(session, 0)
            self.assertEqual(session.insert("acct", [2, "bob", 0]).slot, 1)
        self.assertEqual(self.lines()[1:], ['{"insert":"acct","row":[2,"bob",0]}'])

    def test_within_a_line(self) -> None:
        with self.open(told(INSERTED % (1, 1), INSERTED % (2, 2), INSERTED % (3, 3))) as session:
            self.interrupted(session, 5)
            self.assertEqual(session.insert("acct", [2, "bob", 0]).slot, 2)
            self.interrupted(session, 35)
        self.assertEqual(self.lines()[1:], ['{"insert":"acct","row":[1,"ann",0]}',
                                            '{"insert":"acct","row":[2,"bob",0]}',
                                            '{"insert":"acct","row":[1,"ann",0]}'])
        self.assertEqual(session.exit_status, 0)

    def test_behind_a_line(self) -> None:
        with self.open(told(INSERTED % (1, 1), INSERTED % (2, 2))) as session:
            self.interrupted(session, 36)
            self.assertEqual(session.insert("acct", [2, "bob", 0]).slot, 2)

    def test_before_the_rest_of_another_line_is_sent(self) -> None:
        with self.open(told(INSERTED % (1, 1), INSERTED % (2, 2))) as session:
            self.interrupted(session, 5)
            self.interrupted(session, 4)
            self.assertEqual(session.insert("acct", [2, "bob", 0]).slot, 2)
        self.assertEqual(len(self.lines()), 3)


class Program(ClientCase):
    """Interrupts at any step of a request, with the program."""

    def test_many_interrupts(self) -> None:
        chance = random.Random(7)
        before = signal.signal(signal.SIGALRM, signal.default_int_handler)
        self.addCleanup(signal.signal, signal.SIGALRM, before)
        for timeout in (None, 30.0):
            with Session([ACCT], command=session_command(), timeout=timeout) as session:
                key = 0
                for _ in range(200):
                    with contextlib.suppress(KeyboardInterrupt):
                        signal.setitimer(signal.ITIMER_REAL, chance.uniform(0.00001, 0.0006))
                        while True:
                            key += 1
                            session.insert("acct", [key, "ann", key])
                            self.assertEqual(session.select("acct", {"id": key}).rows, [[key, "ann", key]])
                status = session.status()    # Nothing was sent twice, and each has its own answer.
                self.assertEqual(sum(len(page.rows) for page in session.pages("acct")), status.time)
            self.assertEqual(session.exit_status, 0)
