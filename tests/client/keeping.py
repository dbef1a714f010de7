"""Sessions that keep some slots and forget the others: with the stand-in for the program, with the model
of sessions, and with the program itself."""

from __future__ import annotations

import asyncio
import sys
import unittest
from typing import Any

from tests.support.client_package import session_command
from tests.support.fixtures import ROOT
from tests.support.stand_in import ACCT, INSERTED, OPENING, ClientCase, ServerCase, StandInCase, told
from timetravel import Lost, Repairing, Session, Status, Value, aio, delete, insert, select, update

MODEL = ROOT / "tests" / "session_model.py"
INSERT = '{"insert":"acct","row":[1,"ann",0]}'
ROW: list[Value] = [1, "ann", 0]


def forgotten(call: int, time: int, horizon: int) -> str:
    return ('{"call":%d,"time":%d,"generation":0,"oldest":0,"entries":9,"repair":null,"horizon":%d}'
            % (call, time, horizon))


class StandIn(StandInCase):

    def test_a_write_far_behind_the_horizon(self) -> None:
        with self.open(told(INSERTED % (1, 5), INSERTED % (2, 6), forgotten(3, 6, 3), INSERTED % (4, 7),
                            INSERTED % (5, 9), forgotten(6, 9, 6)), keep_slots=3) as session:
            slots = [session.insert("acct", ROW).slot for _ in range(4)]
        self.assertEqual(slots, [5, 6, 7, 9])
        self.assertEqual(self.lines(), [OPENING, INSERT, INSERT, '{"forget":3}', INSERT, INSERT,
                                        '{"forget":6}'])

    def test_a_horizon_that_the_opening_tells(self) -> None:
        opened = forgotten(0, 15, 10).replace('"call":0,', "") + "\n"
        steps: list[list[Any]] = [["read", 1], ["write", opened]]
        steps += told('{"call":1,"time":15,"rows":[]}', INSERTED % (2, 16), forgotten(3, 16, 13))[2:]
        with self.open(steps, keep_slots=3) as session:
            self.assertEqual(session.opened, Status(0, 15, 0, 0, 9, None, 10))
            session.select("acct")
            session.insert("acct", ROW)
        self.assertEqual(self.lines()[2:], [INSERT, '{"forget":13}'])

    def test_a_horizon_that_a_forgetting_tells(self) -> None:
        with self.open(told(forgotten(1, 9, 8), INSERTED % (2, 10), INSERTED % (3, 14),
                            forgotten(4, 14, 11)), keep_slots=3) as session:
            session.forget(8)
            session.insert("acct", ROW)
            session.insert("acct", ROW)
        self.assertEqual(self.lines()[1:], ['{"forget":8}', INSERT, INSERT, '{"forget":11}'])

    def test_refusals_are_passed_over(self) -> None:
        for refused in ("repairing", "log", "memory"):
            with self.subTest(refused):
                with self.open(told(INSERTED % (1, 6), '{"call":2,"refused":"%s"}' % refused,
                                    INSERTED % (3, 7), forgotten(4, 7, 4)), keep_slots=3) as session:
                    session.insert("acct", ROW)
                    session.insert("acct", ROW)
                self.assertEqual(self.lines()[1:], [INSERT, '{"forget":3}', INSERT, '{"forget":4}'])

    def test_a_horizon_that_somebody_else_has_moved(self) -> None:
        with self.open(told(INSERTED % (1, 6), '{"call":2,"refused":"forgotten","horizon":5}',
                            INSERTED % (3, 10), INSERTED % (4, 11), forgotten(5, 11, 8)),
                       keep_slots=3) as session:
            for _ in range(3):
                session.insert("acct", ROW)
        self.assertEqual(self.lines()[1:], [INSERT, '{"forget":3}', INSERT, INSERT, '{"forget":8}'])

    def test_some_slots_pass_behind_a_refusal(self) -> None:
        with self.open(told(INSERTED % (1, 40), '{"call":2,"refused":"repairing"}', INSERTED % (3, 42),
                            INSERTED % (4, 43), forgotten(5, 43, 23)), keep_slots=20) as session:
            for _ in range(3):
                session.insert("acct", ROW)
        self.assertEqual(self.lines()[1:], [INSERT, '{"forget":20}', INSERT, INSERT, '{"forget":23}'])

    def test_nobody_waits_for_it(self) -> None:
        answers = "".join(answer + "\n" for answer in (forgotten(2, 6, 3), INSERTED % (3, 7)))
        with self.open(told(INSERTED % (1, 6)) + [["read", 2], ["write", answers]], keep_slots=3,
                       timeout=30) as session:
            session.insert("acct", ROW)
            self.assertEqual(session.insert("acct", ROW).slot, 7)

    def test_requests_that_are_sent(self) -> None:
        read = '{"call":2,"time":6,"rows":[]}'
        steps = told() + [["read", 1], ["wait", None], ["write", INSERTED % (1, 6) + "\n"]]
        with self.open(steps + told(read, forgotten(3, 6, 3))[2:], keep_slots=3) as session:
            written = session.send(insert("acct", ROW))
            self.go_on()    # The answer is there only now, so nothing was forgotten behind the insert.
            self.assertEqual(written.result().slot, 6)
            self.assertEqual(session.send(select("acct")).result().rows, [])
        self.assertEqual(self.lines()[1:], [INSERT, '{"select":"acct","where":[]}', '{"forget":3}'])

    def test_a_program_that_dies_of_it(self) -> None:
        with self.open(told(INSERTED % (1, 6)) + [["read", 1], ["exit", 3]], keep_slots=3) as session:
            self.assertEqual(session.insert("acct", ROW).slot, 6)
            self.assert_raises(lambda: [session.status() for _ in range(9)], Lost, {"status": 3})

    def test_no_slots(self) -> None:
        for slots in (0, -1):
            self.assertRaises(ValueError, self.open, told(), keep_slots=slots)
            self.assertRaises(ValueError, Session.connect, "socket", [ACCT], keep_slots=slots)
            self.assertRaises(ValueError, aio.Session, [ACCT], keep_slots=slots)

    def test_asyncio(self) -> None:
        async def main() -> None:
            steps = told(INSERTED % (1, 6), '{"call":2,"refused":"repairing"}', INSERTED % (3, 7),
                         forgotten(4, 7, 4), INSERTED % (5, 10), forgotten(6, 10, 7))
            async with aio.Session([ACCT], command=self.command(steps), keep_slots=3) as session:
                self.assertEqual((await session.insert("acct", ROW)).slot, 6)
                self.assertEqual((await session.insert("acct", ROW)).slot, 7)
                self.assertEqual((await (await session.send(insert("acct", ROW)))).slot, 10)

        asyncio.run(main())
        # That the last one was written is known only behind the next line that is sent.
        self.assertEqual(self.lines()[1:], [INSERT, '{"forget":3}', INSERT, '{"forget":4}', INSERT])


class Connections(ServerCase):

    def test_a_write_far_behind_the_horizon(self) -> None:
        server = self.serve(told(INSERTED % (31, 6), forgotten(34, 6, 3), INSERTED % (35, 7)))
        with self.connect(keep_slots=3) as session:
            self.assertEqual(session.insert("acct", ROW).slot, 6)
            self.assertEqual(session.insert("acct", ROW).slot, 7)
        self.assertTrue(server.ended[0].wait(30))
        self.assertEqual(server.lines[0], [OPENING, INSERT, '{"forget":3}', INSERT])


class Held(ClientCase):
    """Sessions that are held with a command."""

    def command(self) -> list[str]:
        raise NotImplementedError

    def test_slots_are_kept(self) -> None:
        with Session([ACCT], command=self.command(), keep_slots=10) as session:
            for key in range(100):
                session.insert("acct", [key, "ann", 0])
                session.update("acct", where={"id": key}, add={"bal": key})
                if key >= 5:
                    session.delete("acct", where={"id": key - 5})
                status = session.status()
                self.assertLess(status.time - status.horizon, 20)
                self.assertLessEqual(status.horizon, max(0, status.time - 10))
            self.assertEqual(session.select("acct").rows, [[key, "ann", key] for key in range(95, 100)])

    def test_a_repair_puts_it_off(self) -> None:
        with Session([ACCT], command=self.command(), keep_slots=10) as session:
            for _ in range(15):
                session.insert("acct", ROW)
            session.begin([])
            for _ in range(15):
                session.insert("acct", ROW)
            self.assertEqual(session.status().horizon, 0)
            self.assertRaises(Repairing, session.forget, 20)
            session.finish()
            for _ in range(3):
                session.insert("acct", ROW)
            self.assertGreaterEqual(session.status().horizon, 20)

    def test_many_in_flight(self) -> None:
        with Session([ACCT], command=self.command(), keep_slots=10) as session:
            futures = [session.send(write) for key in range(300) for write in (
                insert("acct", [key, "ann", 0]), update("acct", {"id": key}, add={"bal": 1}),
                delete("acct", {"id": key - 1}))]
            self.assertEqual([future.result().slot for future in futures], list(range(1, 901)))
            session.insert("acct", [-1, "ann", 0])
            status = session.status()
            self.assertGreater(status.horizon, 0)
            self.assertEqual(session.select("acct").rows, [[-1, "ann", 0], [299, "ann", 1]])

    def test_asyncio(self) -> None:
        async def main() -> None:
            async with aio.Session([ACCT], command=self.command(), keep_slots=10) as session:
                for first in range(0, 100, 10):
                    await asyncio.gather(*(session.insert("acct", [key, "ann", 0])
                                           for key in range(first, first + 10)))
                    await session.delete("acct", {})
                status = await session.status()
                self.assertEqual((status.time, (await session.select("acct")).rows), (110, []))
                self.assertLess(status.time - status.horizon, 40)

        asyncio.run(main())


class Model(Held):

    def command(self) -> list[str]:
        return [sys.executable, str(MODEL)]


class Program(Held):

    def command(self) -> list[str]:
        return session_command()


def load_tests(loader: unittest.TestLoader, _: Any, __: Any) -> unittest.TestSuite:
    cases = (StandIn, Connections, Model, Program)    # and not the class that these are made of
    return unittest.TestSuite(map(loader.loadTestsFromTestCase, cases))
