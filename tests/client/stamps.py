"""Stamps of writes, clocks that give them, and slots that are found by them: with the stand-in for the program
and for a server, with the model of sessions, and with the program itself."""

from __future__ import annotations

import asyncio
import sys
import time
import unittest
from collections.abc import Iterator
from typing import Any

from tests.support.client_package import session_command
from tests.support.fixtures import ROOT, temporary_folder
from tests.support.stand_in import ACCT, INSERTED, OPENING, ClientCase, ServerCase, StandInCase, told
from timetravel import (
    Session, Slot, Value, aio, cancel, delete, do, insert, milliseconds, select, update)

MODEL = ROOT / "tests" / "session_model.py"
INSERT = '{"insert":"acct","row":[1,"ann",0],"stamp":%d}'
ROW: list[Value] = [1, "ann", 0]


class Ticks:
    """A clock that goes on by one each time."""

    def __init__(self, first: int = 1) -> None:
        self.next = first

    def __call__(self) -> int:
        self.next += 1
        return self.next - 1


def failing() -> int:
    raise OSError("no clock")


class StandIn(StandInCase):

    def test_a_clock_stamps_the_writes_alone(self) -> None:
        answers = [INSERTED % (call, call) for call in range(1, 6)]
        others = ['{"call":6,"time":5,"rows":[]}', '{"call":7,"done":0,"left":5,"rerun":0}',
                  '{"call":8,"time":5,"slots":[]}', '{"call":9,"time":5,"rows":[]}', INSERTED % (10, 6)]
        clock = Ticks()
        with self.open(told(*answers, *others), clock=clock) as session:
            session.insert("acct", ROW)
            session.update("acct", {"id": 1}, add={"bal": 1}, worker=2)
            session.delete("acct", {}, if_time=2)
            session.do([insert("acct", ROW)], whole=True)
            session.send(do([])).result()
            session.select("acct")
            session.begin([cancel(1)])
            session.slots(1, 9)
            session.send(select("acct")).result()
            session.send({"delete": "acct", "where": []}).result()
        self.assertEqual(self.lines()[1:], [
            INSERT % 1,
            '{"worker":2,"update":"acct","change":[["add","bal",1]],"where":[["id",1]],"stamp":2}',
            '{"if":2,"delete":"acct","where":[],"stamp":3}',
            '{"do":[{"insert":"acct","row":[1,"ann",0]}],"whole":true,"stamp":4}',
            '{"do":[],"stamp":5}',
            '{"select":"acct","where":[]}', '{"begin":[{"cancel":1}]}', '{"slots":[1,9]}',
            '{"select":"acct","where":[]}',
            '{"delete":"acct","where":[],"stamp":6}'])
        self.assertEqual(clock.next, 7)

    def test_a_stamp_that_is_given_counts(self) -> None:
        clock = Ticks(70)
        with self.open(told(*(INSERTED % (call, call) for call in range(1, 5))), clock=clock) as session:
            session.insert("acct", ROW, stamp=0)
            session.send(insert("acct", ROW), stamp=5).result()
            session.send({"insert": "acct", "row": ROW, "stamp": 6}).result()
            session.insert("acct", ROW)
        self.assertEqual(self.lines()[1:], [INSERT % stamp for stamp in (0, 5, 6, 70)])
        self.assertEqual(clock.next, 71)

    def test_a_clock_that_gives_no_count(self) -> None:
        for clock, kind in ((failing, OSError), (time.time, TypeError), (lambda: 2**63, ValueError)):
            with self.open(told(INSERTED % (1, 1)), clock=clock) as session:
                self.assertRaises(kind, session.insert, "acct", ROW)
                self.assertRaises(kind, session.send, insert("acct", ROW))
                session.insert("acct", ROW, stamp=1)
            self.assertEqual(self.lines(), [OPENING, INSERT % 1])
            (self.folder / "log").unlink()

    def test_a_stamp_that_is_no_number(self) -> None:
        with self.open(told()) as session:
            self.assertRaises(TypeError, session.insert, "acct", ROW, stamp=1.5)
            self.assertRaises(ValueError, session.insert, "acct", ROW, stamp=2**63)
            self.assertRaises(ValueError, session.slots, 1, 9, stamps=(0, 2**63))
        self.assertEqual(self.lines(), [OPENING])

    def test_slots_are_found_page_by_page(self) -> None:
        slot = '{"slot":%d,"worker":3,"stamp":%d,"do":[],"replies":[]}'
        with self.open(told(
                '{"call":1,"time":25003,"generation":0,"oldest":0,"entries":9,"repair":null,"horizon":4}',
                '{"call":2,"time":25003,"slots":[' + slot % (5, 7) + "," + slot % (6, 7) + "]}",
                '{"call":3,"time":25009,"slots":[]}',
                '{"call":4,"time":25009,"slots":[' + slot % (25003, 8) + "]}")) as session:
            found = session.find(of=3, row=("acct", 1), stamps=(7, 9), worker=2)
            self.assertEqual(self.lines(), [OPENING])
            self.assertEqual(next(found), Slot(5, 3, [], [], stamp=7))
            self.assertEqual(len(self.lines()), 3)
            self.assertEqual([each.slot for each in found], [6, 25003])
        self.assertEqual(self.lines()[1:], ['{"worker":2,"status":true}'] + [
            '{"worker":2,"slots":[%d,%d],"of":3,"row":["acct",1],"stamps":[7,9]}' % pair
            for pair in ((5, 10004), (10005, 20004), (20005, 25003))])

    def test_nothing_is_found_where_nothing_is(self) -> None:
        with self.open(told('{"call":1,"time":0,"generation":0,"oldest":0,"entries":0,"repair":null}')) as session:
            self.assertEqual(list(session.find()), [])
        self.assertEqual(self.lines()[1:], ['{"status":true}'])

    def test_asyncio(self) -> None:
        async def main() -> None:
            steps = told(INSERTED % (1, 1), INSERTED % (2, 2), INSERTED % (3, 3), '{"call":4,"time":3,"rows":[]}',
                         '{"call":5,"time":3,"generation":0,"oldest":0,"entries":9,"repair":null}',
                         '{"call":6,"time":3,"slots":[{"slot":2,"worker":1,"stamp":9,"do":[],"replies":[]}]}')
            async with aio.Session([ACCT], command=self.command(steps), clock=Ticks()) as session:
                await session.insert("acct", ROW)
                await session.insert("acct", ROW, stamp=9)
                await (await session.send(insert("acct", ROW)))
                await session.select("acct")
                found = [slot async for slot in session.find(stamps=(9, 9))]
                self.assertEqual(found, [Slot(2, 1, [], [], stamp=9)])

        asyncio.run(main())
        self.assertEqual(self.lines()[1:], [
            INSERT % 1, INSERT % 9, INSERT % 2, '{"select":"acct","where":[]}', '{"status":true}',
            '{"slots":[1,3],"stamps":[9,9]}'])


class Connections(ServerCase):

    def test_a_clock(self) -> None:
        server = self.serve(told(INSERTED % (31, 6)))
        with self.connect(clock=Ticks(8)) as session:
            self.assertEqual(session.insert("acct", ROW).slot, 6)
        self.assertTrue(server.ended[0].wait(30))
        self.assertEqual(server.lines[0], [OPENING, INSERT % 8])

    def test_asyncio(self) -> None:
        async def main() -> None:
            async with aio.Session.connect(self.path, [ACCT], clock=Ticks(8)) as session:
                self.assertEqual((await session.insert("acct", ROW)).slot, 6)

        server = self.serve(told(INSERTED % (31, 6)))
        asyncio.run(main())
        self.assertTrue(server.ended[0].wait(30))
        self.assertEqual(server.lines[0], [OPENING, INSERT % 8])


class Held(ClientCase):
    """Sessions that are held with a command."""

    def command(self) -> list[str]:
        raise NotImplementedError

    def test_the_milliseconds_of_writes(self) -> None:
        begin = int(time.time() * 1000)
        with Session([ACCT], command=self.command(), clock=milliseconds) as session:
            for key in range(3):
                session.insert("acct", [key, "ann", 0])
            stamps = [slot.stamp for slot in session.slots(1, 3).slots]
            end = int(time.time() * 1000) + 1
            self.assertEqual([slot.slot for slot in session.find(stamps=(begin, end))], [1, 2, 3])
            self.assertEqual(list(session.find(stamps=(end, end + 1000))), [])
        numbers = [stamp for stamp in stamps if stamp is not None]
        self.assertEqual(sorted([begin, *numbers, end]), [begin, *stamps, end])

    def fill(self, session: Session) -> None:
        """200 actions, of which each fifth has no stamp, by the workers 1 to 3, to the rows 0 to 6."""
        for slot in range(1, 201):
            session.do([update("acct", {"id": slot % 7}, add={"bal": 1})] if slot > 7 else
                       [insert("acct", [slot % 7, "ann", 0])], worker=slot % 3 + 1,
                       stamp=slot * 10 if slot % 5 else None)

    def wanted(self, first: int, of: int | None, key: int | None, stamps: tuple[int, int] | None) -> list[int]:
        return [slot for slot in range(first, 201) if of in (None, slot % 3 + 1) and key in (None, slot % 7)
                and (stamps is None or slot % 5 and stamps[0] <= slot * 10 <= stamps[1])]

    def asked(self) -> Iterator[tuple[int | None, int | None, tuple[int, int] | None]]:
        for of in (None, 2, 9):
            for key in (None, 3, 7):
                for stamps in (None, (0, 9999), (455, 1000), (460, 460), (1000, 455)):
                    yield of, key, stamps

    def test_slots_are_found(self) -> None:
        with Session([ACCT], command=self.command()) as session:
            self.fill(session)
            for first, forgotten in ((1, None), (41, 40)):
                if forgotten is not None:
                    session.forget(forgotten)
                for of, key, stamps in self.asked():
                    with self.subTest(first=first, of=of, key=key, stamps=stamps):
                        found = list(session.find(of=of, row=None if key is None else ("acct", key), stamps=stamps))
                        self.assertEqual([slot.slot for slot in found], self.wanted(first, of, key, stamps))
                        self.assertEqual([slot.stamp for slot in found],
                                         [slot.slot * 10 if slot.slot % 5 else None for slot in found])

    def test_stamps_stay_over_a_repair(self) -> None:
        with Session([ACCT], command=self.command()) as session:
            self.fill(session)
            session.repair([cancel(6), cancel(101), cancel(105)])
            found = {slot.slot: slot for slot in session.find(stamps=(0, 9999))}
            self.assertEqual(sorted(found), self.wanted(1, None, None, (0, 9999)))
            self.assertEqual((found[101].do, found[101].stamp), (None, 1010))
            session.forget(5)
            self.assertEqual([slot.stamp for slot in session.slots(1, 7).slots], [60, 70])

    def test_asyncio(self) -> None:
        async def main() -> None:
            async with aio.Session([ACCT], command=self.command(), clock=Ticks()) as session:
                for key in range(10):
                    await session.insert("acct", [key, "ann", 0], worker=key % 2 + 1)
                await session.delete("acct", {"id": 1}, worker=2, stamp=5)
                found = [slot async for slot in session.find(of=2, row=("acct", 1), stamps=(2, 5))]
                self.assertEqual([(slot.slot, slot.stamp) for slot in found], [(2, 2), (11, 5)])

        asyncio.run(main())


class Model(Held):

    def command(self) -> list[str]:
        return [sys.executable, str(MODEL)]


class Program(Held):

    def command(self) -> list[str]:
        return session_command()

    def test_stamps_are_there_after_a_start(self) -> None:
        path = temporary_folder(self) / "bank.log"
        with Session([ACCT], command=self.command(), log=path) as session:
            self.fill(session)
            before = list(session.find())
        with Session([ACCT], command=self.command(), log=path) as session:
            self.assertEqual(list(session.find()), before)
            session.forget(100)
            self.assertEqual(list(session.find()), before[100:])
        with Session([ACCT], command=self.command(), log=path) as session:
            self.assertEqual(list(session.find()), before[100:])

    def test_slots_are_found_in_a_session_of_several_pages(self) -> None:
        with Session([ACCT], command=self.command(), clock=Ticks()) as session:
            futures = [session.send(delete("acct", {"id": 1}), worker=slot % 1000 + 1) for slot in range(1, 25_001)]
            futures[-1].result()
            self.assertEqual([slot.slot for slot in session.find(of=500)], list(range(499, 25_001, 1000)))
            self.assertEqual([slot.slot for slot in session.find(stamps=(9_999, 20_002))],
                             list(range(9_999, 20_003)))
            self.assertEqual(len(list(session.find())), 25_000)


def load_tests(loader: unittest.TestLoader, _: Any, __: Any) -> unittest.TestSuite:
    cases = (StandIn, Connections, Model, Program)    # and not the class that these are made of
    return unittest.TestSuite(map(loader.loadTestsFromTestCase, cases))
