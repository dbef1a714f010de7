"""Sessions with a log, and those that start their program again."""

from __future__ import annotations

import json
from typing import Any

from tests.support.client_package import session_command
from tests.support.fixtures import temporary_folder
from tests.support.stand_in import ACCT, INSERTED, OPENED, ClientCase, StandInCase, Steps, told
from timetravel import AnotherOpening, Closed, LogFailed, Lost, Moved, Session, Status, insert


def command_of(session: Session) -> list[str]:
    """The command of the program that was started last."""
    channel: Any = session._channel
    return list(channel.process.command)


class StandIn(StandInCase):

    def test_a_log_is_named_to_the_program(self) -> None:
        path = self.folder / "bank.log"
        with self.open(told(), log=path) as session:
            self.assertEqual(command_of(session)[-3:], [str(self.folder / "log"), "--log", str(path)])
        self.assertRaises(ValueError, self.open, told(), reopen=True)

    def test_calls_are_counted_behind_those_of_a_log(self) -> None:
        answers = "".join(INSERTED % (call, call) + "\n" for call in range(8, 28))
        with self.open(told() + [["read", 20], ["write", answers]], log="bank.log") as session:
            futures = [session.send(insert("acct", [key, "ann", 0])) for key in range(20)]
            self.assertEqual([future.result().call for future in futures], list(range(8, 28)))

    def test_a_log_of_another_opening(self) -> None:
        steps: Steps = [["read", 1], ["write", '{"refused":"another opening"}\n']]
        self.assert_raises(lambda: self.open(steps, log="bank.log"), AnotherOpening,
                           {"cause": "another opening"})

    def test_a_program_that_dies_is_not_started_again(self) -> None:
        session = self.open(told() + [["read", 1], ["exit", 3]], log="bank.log")
        self.assertRaises(Lost, session.status)
        self.assertRaises(Lost, session.status)

    def test_a_program_that_dies_is_started_again_where_that_is_asked(self) -> None:
        steps = told(INSERTED % (1, 1)) + [["read", 3], ["exit", 4]]
        session = self.open(steps, log="bank.log", reopen=True)
        session.insert("acct", [1, "ann", 0])
        futures = [session.send({"status": True}) for _ in range(3)]
        for future in futures:
            self.assert_raises(future.result, Lost, {"status": 4})
        (self.folder / "steps").write_text(json.dumps([
            ["read", 1], ["write", OPENED.replace('"time":0', '"time":1') + "\n"],
            ["read", 1], ["write", INSERTED % (2, 2) + "\n"]]))
        self.assertEqual(session.insert("acct", [2, "ann", 0]).slot, 2)
        self.assertEqual(command_of(session)[-3:], ["--existing", "--log", "bank.log"])
        self.assertEqual(self.lines()[-1], '{"insert":"acct","row":[2,"ann",0]}')
        session.close()
        self.assertRaises(Closed, session.status)

    def test_a_program_that_is_started_again_and_does_not_open(self) -> None:
        session = self.open(told() + [["read", 1], ["exit", 4]], log="bank.log", reopen=True)
        self.assertRaises(Lost, session.status)
        (self.folder / "steps").write_text(json.dumps([["say", "timetravel: log: line 2\n"], ["exit", 1]]))
        for _ in range(2):
            self.assert_raises(session.status, Lost, {"status": 1})
        (self.folder / "steps").write_text(json.dumps(told(INSERTED % (5, 3))))
        self.assertEqual(session.insert("acct", [2, "ann", 0]).slot, 3)


class Program(ClientCase):

    def open(self, **options: Any) -> Session:
        session = Session([ACCT], command=session_command(), **options)
        self.addCleanup(session.close)
        return session

    def test_a_session_with_a_log(self) -> None:
        folder = temporary_folder(self)
        path = folder / "bank.log"
        with self.open(log=path) as session:
            session.insert("acct", [1, "ann", 10])
            self.assertRaises(Lost, self.open, log=path)    # It is in use.
        with self.open(log=path) as session:
            self.assertEqual(session.opened, Status(0, 1, 0, 0, 1, None))
            self.assertEqual(session.select("acct").rows, [[1, "ann", 10]])
            self.assertEqual(session.insert("acct", [2, "bob", 0]).call, 3)
        self.assertRaises(AnotherOpening, self.open, log=path, keep=0)
        with self.open(log=path) as session:
            self.assertEqual([slot.slot for slot in session.slots(1, 9).slots], [1, 2])

    def test_a_session_that_forgets_with_a_log(self) -> None:
        folder = temporary_folder(self)
        path, in_the_way = folder / "bank.log", folder / "bank.log.new"
        with self.open(log=path) as session:
            for key in range(40):
                session.insert("acct", [key, "ann", 0])
            in_the_way.mkdir()
            self.assertRaises(LogFailed, session.forget, 39)
            self.assertEqual(session.status().horizon, 0)
            in_the_way.rmdir()
            self.assertEqual(session.forget(39), Status(43, 40, 0, 0, 4, None, 39))
            self.assertEqual(session.insert("acct", [40, "ann", 0]).slot, 41)
        lines = path.read_bytes().split(b"\0")[0].splitlines()
        self.assertEqual(len(lines), 1 + 3 + 1 + 1)    # the opening, 39 rows, the slots 40 and 41
        with self.open(log=path, keep_slots=1) as session:
            self.assertEqual(session.opened, Status(0, 41, 0, 0, 5, None, 39))
            self.assertEqual([row["id"] for row in session.select("acct").rows], list(range(41)))
            in_the_way.mkdir()
            self.assertEqual(session.insert("acct", [41, "ann", 0]).slot, 42)    # and a line is refused
            self.assertEqual(session.status().horizon, 39)
            in_the_way.rmdir()
            session.insert("acct", [42, "ann", 0])
            self.assertEqual(session.status().horizon, 42)

    def test_a_session_that_is_opened_again(self) -> None:
        folder = temporary_folder(self)
        session = self.open(log=folder / "bank.log", reopen=True)
        for time_before in range(20):
            future = session.send(insert("acct", [time_before, "ann", 0]), worker=2, if_time=time_before)
            session._channel.kill()
            try:
                future.result()
            except Lost:    # It is sent again, and is there once.
                try:
                    session.insert("acct", [time_before, "ann", 0], worker=2, if_time=time_before)
                except Moved as moved:
                    self.assertEqual(moved.now, time_before + 1)
        self.assertEqual(len(session.select("acct").rows), 20)
        self.assertEqual(session.status().time, 20)
