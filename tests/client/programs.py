"""Programs that aren't there, that die, that say something else, or that are slow."""

from __future__ import annotations

import threading
import time
import unittest.mock

from tests.support.client_package import session_command
from tests.support.stand_in import ACCT, INSERTED, ClientCase, StandInCase, told
from timetravel import Error, Lost, NoAnswer, NotStarted, OutOfMemory, Session, insert


class StandIn(StandInCase):

    def test_a_program_that_is_not_there(self) -> None:
        command = [str(self.folder / "nothing"), "session"]
        self.assert_raises(lambda: Session([ACCT], command=command), NotStarted, {"command": command})
        self.assertRaises(NotStarted, Session, [ACCT], command=[])

    def test_a_program_that_ends_before_it_is_open(self) -> None:
        self.assert_raises(lambda: self.open([["say", "no"], ["exit", 2]]), Lost,
                           {"status": 2, "standard_error": "no"})

    def test_a_program_that_answers_something_else(self) -> None:
        for answer in ("hello", "{}", "[1]", '{"call":7,"slot":1}', '{"call":1,"slot":1}', "\xff"):
            with self.subTest(answer):
                session = self.open(told(answer))
                with self.assertRaises(Lost) as caught:
                    session.insert("acct", [1, "ann", 0])
                self.assertIn("is no answer", caught.exception.standard_error)

    def test_a_program_that_says_something_before_it_is_asked(self) -> None:
        with self.assertRaisesRegex(Lost, "is no answer"):
            self.open([["write", "hello\n"], ["read", 1], ["sleep", 60]])

    def test_a_slow_program(self) -> None:
        steps = told() + [["read", 1], ["sleep", 1.0], ["write", INSERTED % (1, 1) + "\n"],
                          ["read", 1], ["write", INSERTED % (2, 2) + "\n"]]
        session = self.open(steps)
        session._timeout = 0.4    # of what follows: a start may take longer
        first = time.monotonic()
        self.assert_raises(lambda: session.insert("acct", [1, "ann", 0]), NoAnswer, {"seconds": 0.4})
        self.assertLess(time.monotonic() - first, 0.9)
        second = session.send(insert("acct", [2, "ann", 0]))    # Its answer is its own.
        self.assertEqual(second.result(10).call, 2)
        self.assertTrue(issubclass(NoAnswer, TimeoutError))

    def test_a_program_that_dies_wakes_everybody(self) -> None:
        steps = told(INSERTED % (1, 1)) + [
            ["read", 3], ["say", "timetravel: cannot write standard output\n"], ["exit", 4]]
        session = self.open(steps)
        session.insert("acct", [1, "ann", 0])
        futures = [session.send({"status": True}) for _ in range(3)]
        lost = {"status": 4, "standard_error": "timetravel: cannot write standard output\n"}
        for future in futures:
            self.assert_raises(future.result, Lost, lost)
        self.assert_raises(session.status, Lost, lost)
        self.assertEqual(session.exit_status, 4)

    def test_a_program_that_dies_while_it_is_sent_to(self) -> None:
        session = self.open(told() + [["read", 1], ["exit", 1]])
        futures = []
        with self.assertRaises(Lost):
            for _ in range(100000):
                futures.append(session.send(insert("acct", [1, "x" * 1000, 0])))
        for future in futures:
            self.assert_raises(future.result, Lost, {"status": 1})

    def test_a_program_that_dies_wakes_the_threads_that_wait(self) -> None:
        session = self.open(told() + [["read", 8], ["exit", 3]])
        lost: list[int | None] = []

        def clerk() -> None:
            try:
                session.status()
            except Lost as error:
                lost.append(error.status)

        clerks = [threading.Thread(target=clerk) for _ in range(8)]
        for each in clerks:
            each.start()
        for each in clerks:
            each.join(30)
        self.assertEqual(lost, [3] * 8)

    def test_a_program_that_dies_within_an_answer(self) -> None:
        session = self.open(told() + [["read", 1], ["write", '{"call":1,'], ["exit", 1]])
        self.assert_raises(session.status, Lost, {"status": 1, "standard_error": ""})

    def test_a_program_that_is_killed(self) -> None:
        session = self.open(told())
        future = session.send({"status": True})
        session._channel.kill()
        self.assert_raises(future.result, Lost, {"status": -9})

    def test_a_program_that_does_not_end_is_ended(self) -> None:
        session = self.open(told() + [["sleep", 60]])
        session._timeout = 0.4
        session.close()
        self.assertEqual(session.exit_status, -9)

    def test_a_program_that_reads_no_more_is_ended(self) -> None:
        session = self.open(told() + [["sleep", 60]])
        session._timeout = 0.4
        futures = []

        def clerk() -> None:
            while True:    # The pipe gets full, and this waits, until the program is ended.
                try:
                    futures.append(session.send(insert("acct", [1, "x" * 1000, 0])))
                except Error:
                    return

        sender = threading.Thread(target=clerk)
        sender.start()
        session.close()
        sender.join(30)
        self.assertFalse(sender.is_alive())
        self.assertEqual(session.exit_status, -9)
        for future in futures:
            self.assert_raises(lambda: future.result(0), Lost, {"status": -9})

    def test_a_program_that_closes_its_output_is_ended(self) -> None:
        with unittest.mock.patch("timetravel.program.GRACE", 0.2):
            session = self.open(told() + [["read", 1], ["close", None], ["sleep", 60]])
            with self.assertRaises(Lost):
                session.status()

    def test_much_on_standard_error(self) -> None:
        said = "x" * 200000
        session = self.open([["say", said]] + told('{"call":1,"refused":"memory"}') + [["exit", 3]])
        self.assertRaises(OutOfMemory, session.status)
        with self.assertRaises(Lost) as caught:
            while True:
                session.status()
        self.assertEqual(caught.exception.standard_error, "x" * 65536)


class Program(ClientCase):

    def test_a_program_that_is_killed(self) -> None:
        with Session([ACCT], command=session_command()) as session:
            session._channel.kill()
            self.assert_raises(session.status, Lost, {"status": -9})
