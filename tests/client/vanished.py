"""A client that comes back to a session, which is another one than it left."""

from __future__ import annotations

import asyncio
import json
import pickle
from typing import Any

from tests.support.client_package import session_command
from tests.support.fixtures import temporary_folder
from tests.support.stand_in import ACCT, INSERTED, OPENED, ClientCase, ServerCase, StandInCase, told
from timetravel import Disconnected, Lost, Moved, Session, Vanished, aio, insert

STATUS = '{"call":%d,"time":%d,"generation":0,"oldest":0,"entries":9,"repair":null%s}'


def opened(time: int, horizon: int = 0) -> str:
    """The answer to an opening at this time."""
    return OPENED.replace('"time":0', f'"time":{time}').replace(
        "null", f'null,"horizon":{horizon}' if horizon else "null")


def started(status: str, *answers: str) -> list[list[Any]]:
    """The steps of a program that tells this status at its start, and then these answers."""
    steps: list[list[Any]] = []
    for answer in (status, *answers):
        steps += [["read", 1], ["write", answer + "\n"]]
    return steps


class Programs(StandInCase):

    def begin(self, *answers: str) -> Session:
        """A session whose program has given these answers and has ended then."""
        session = self.open(told(*answers) + [["read", 1], ["exit", 3]], log="bank.log", reopen=True)
        for answer in answers:
            request: Any = {"status": True}
            if "slot" in answer:
                request = insert("acct", [1, "ann", 0])
            try:
                session.send(request).result()
            except Moved:
                pass
        self.assertRaises(Lost, session.status)
        return session

    def start(self, steps: list[list[Any]]) -> None:
        """What the program does that is started next."""
        (self.folder / "steps").write_text(json.dumps(steps))

    def test_an_earlier_time(self) -> None:
        for answer in (INSERTED % (1, 7), STATUS % (1, 7, ""), '{"call":1,"refused":"moved","now":7}'):
            session = self.begin(answer)
            self.start(started(opened(6), INSERTED % (8, 8)))
            self.assert_raises(session.status, Vanished, {"what": "time", "found": 6, "told": 7})
            self.start(started(opened(9)))    # Nothing is sent any more.
            self.assert_raises(lambda: session.insert("acct", [1, "ann", 0]), Vanished, {"found": 6})
            self.assertEqual(len(self.lines()), 1)

    def test_the_same_time_or_a_later_one(self) -> None:
        for time in (7, 8):
            session = self.begin(INSERTED % (1, 7))
            self.start(started(opened(time), INSERTED % (8, time + 1)))
            self.assertEqual(session.insert("acct", [1, "ann", 0]).slot, time + 1)

    def test_an_earlier_horizon(self) -> None:
        session = self.begin(STATUS % (1, 7, ',"horizon":5'))
        self.start(started(opened(9, 4)))
        self.assert_raises(session.status, Vanished, {"what": "horizon", "found": 4, "told": 5})
        session = self.begin(STATUS % (1, 7, ',"horizon":5'))
        self.start(started(opened(7, 5), STATUS % (8, 9, ',"horizon":6')))
        self.assertEqual(session.status().horizon, 6)

    def test_a_log_that_is_gone(self) -> None:
        """The program says so, since it was told that there is one."""
        session = self.begin(INSERTED % (1, 7))
        self.start([["say", "timetravel: there is no log\n"], ["exit", 1]])
        for _ in range(2):
            self.assert_raises(session.status, Lost, {"status": 1})
        self.start(started(opened(7), INSERTED % (8, 8)))    # It was put back.
        self.assertEqual(session.insert("acct", [1, "ann", 0]).slot, 8)

    def test_what_is_told_of_it(self) -> None:
        error = pickle.loads(pickle.dumps(Vanished("time", 3, 5)))
        self.assertEqual((error.what, error.found, error.told), ("time", 3, 5))
        self.assertEqual(str(error), "the session is another one, or has lost what it had answered: "
                                     "it tells time 3, and 5 was told before")


class Connections(ServerCase):

    def test_a_session_that_was_started_again_behind_the_socket(self) -> None:
        for answer, what in ((INSERTED % (2, 4), "slot"), (STATUS % (2, 3, ""), "time"),
                             ('{"call":2,"refused":"moved","now":3}', "time"),
                             ('{"call":2,"time":3,"slots":[]}', "time")):
            self.serve(told(INSERTED % (1, 4), '{"lost":"the session has ended"}')
                       + [["read", 2], ["write", answer + "\n" + INSERTED % (3, 5) + "\n"]])
            session = self.connect()
            session.insert("acct", [1, "ann", 0])
            self.assertRaises(Lost, session.status)
            futures = [session.send(insert("acct", [1, "ann", 0])) for _ in range(2)]
            for future in futures:    # What was sent behind it gets no other answer.
                self.assert_raises(future.result, Vanished, {"what": what, "told": 4})
            self.assert_raises(session.status, Vanished, {"what": what})
            self.path = self.path.with_name(f"{len(self.path.name)}{what}{self.path.name}")

    def test_a_connection_that_is_made_again(self) -> None:
        self.serve(told(INSERTED % (1, 4)) + [["close", None]], started(opened(3)))
        session = self.connect(reopen=True)
        session.insert("acct", [1, "ann", 0])
        with self.assertRaises((Vanished, Disconnected)):
            session.status()
        self.assertRaises(Vanished, session.status)

    def test_with_asyncio(self) -> None:
        self.serve(told(INSERTED % (1, 4), STATUS % (2, 3, "")))

        async def main() -> None:
            async with aio.Session.connect(self.path, [ACCT]) as session:
                await session.insert("acct", [1, "ann", 0])
                for _ in range(2):
                    with self.assertRaises(Vanished):
                        await session.status()

        asyncio.run(main())


class Program(ClientCase):
    """The same with the program."""

    def setUp(self) -> None:
        self.path = temporary_folder(self) / "bank.log"
        self.session = Session([ACCT], log=self.path, reopen=True, command=session_command())
        self.addCleanup(self.session.close)
        for key in range(3):
            self.session.insert("acct", [key, "ann", 0])

    def kill(self) -> None:
        self.session._channel.kill()
        self.session._channel.join(None)

    def test_a_log_that_is_moved_away(self) -> None:
        self.kill()
        moved = self.path.rename(self.path.with_name("moved.log"))
        with self.assertRaisesRegex(Lost, "there is no log"):
            self.session.status()
        self.assertFalse(self.path.exists())
        moved.rename(self.path)
        self.assertEqual(self.session.insert("acct", [3, "ann", 0]).slot, 4)

    def test_an_older_copy(self) -> None:
        self.kill()
        lines = self.path.read_bytes().split(b"\0")[0].splitlines(keepends=True)
        self.path.write_bytes(b"".join(lines[:-1]))
        self.assert_raises(lambda: self.session.insert("acct", [3, "ann", 0]), Vanished,
                           {"what": "time", "found": 2, "told": 3})
        self.session.close()
        with Session([ACCT], log=self.path, command=session_command()) as another:
            self.assertEqual(another.opened.time, 2)
