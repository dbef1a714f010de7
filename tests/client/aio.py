"""Sessions for asyncio: over the stand-in's pipes, over a socket, and with the program."""

from __future__ import annotations

import asyncio
import json
import threading
from collections.abc import Coroutine
from typing import Any

from tests.client.conversations import CONVERSATION
from tests.client.repair import ABORTED, CAUSES, CHANGED, DIFFER, EDITED, GONE, STEPPED, SWITCHED
from tests.support.client_package import session_command
from tests.support.fixtures import temporary_folder
from tests.support.stand_in import (
    ACCT, INSERTED, OPENED, OPENING, ClientCase, ServerCase, StandInCase, Steps, told)
from timetravel import (
    AnotherOpening, ChangedWrite, Closed, Difference, Disconnected, Fault, Lost, NoAnswer, NotConnected,
    NotStarted, Progress, Redone, RepairOfAnother, Reply, Status, Stepped, Switched, Trial, aio, cancel, insert)


class Waiting:
    """A session whose methods wait, so that it can have the same conversation as the other one."""

    def __init__(self, session: aio.Session, loop: asyncio.AbstractEventLoop) -> None:
        self.session, self.loop = session, loop

    def __getattr__(self, name: str) -> Any:
        def ask(*given: Any, **named: Any) -> Any:
            found = self.loop.run_until_complete(getattr(self.session, name)(*given, **named))
            return Waiting.Future(found, self.loop) if name == "send" else found
        return ask

    class Future:
        def __init__(self, future: asyncio.Future[Any], loop: asyncio.AbstractEventLoop) -> None:
            self.future, self.loop = future, loop

        def result(self) -> Any:
            return self.loop.run_until_complete(self.future)


class AioCase(ClientCase):

    def run_limited(self, coroutine: Coroutine[Any, Any, None]) -> None:
        threads = threading.active_count()

        async def limited() -> None:
            await asyncio.wait_for(coroutine, 60)
            self.assertEqual(threading.active_count(), threads)

        asyncio.run(limited())

    def converse(self, session: aio.Session) -> None:
        loop = asyncio.new_event_loop()
        self.addCleanup(loop.close)
        waiting = Waiting(session, loop)
        waiting.open()
        for ask, line, _, wanted in CONVERSATION:
            with self.subTest(line):
                if isinstance(wanted, tuple):
                    self.assert_raises(lambda: ask(waiting), *wanted)
                else:
                    self.assertEqual(ask(waiting), wanted)
        waiting.close()

    async def assert_awaited(self, awaited: Any, kind: type[BaseException]) -> None:
        with self.assertRaises(kind):
            await awaited


class Programs(AioCase, StandInCase):

    def make(self, steps: Steps, **options: Any) -> aio.Session:
        return aio.Session([ACCT], command=self.command(steps), **options)

    def test_each_request_and_its_answer(self) -> None:
        session = self.make(told(*(answer for _, _, answer, _ in CONVERSATION)))
        self.converse(session)
        self.assertEqual(session.opened, Status(0, 0, 0, 0, 0, None))
        self.assertEqual(session.exit_status, 0)
        self.assertEqual(self.lines(), [OPENING] + [line for _, line, _, _ in CONVERSATION])

    def test_opening_by_await(self) -> None:
        async def main() -> None:
            session = self.make(told(INSERTED % (1, 1)))
            await self.assert_awaited(session.status(), Closed)
            self.assertIs(await session, session)
            self.assertIs(await session, session)    # It is open already.
            self.assertEqual((await session.insert("acct", {"bal": 0, "id": 1, "owner": "ann"})).slot, 1)
            self.assertIsNone(session.exit_status)
            await session.close()
            await session.close()
            self.assertEqual(session.exit_status, 0)
            await self.assert_awaited(session.status(), Closed)
            await self.assert_awaited(session.open(), Closed)

        self.run_limited(main())

    def test_more_in_flight_than_the_pipes_hold(self) -> None:
        async def main() -> None:
            async with self.make(told(*(INSERTED % (call, call) for call in range(1, 3001)))) as session:
                futures = [await session.send(insert("acct", [1, "x" * 1000, 0])) for _ in range(3000)]
                written = await asyncio.gather(*futures)
                self.assertEqual([each.slot for each in written], list(range(1, 3001)))

        self.run_limited(main())

    def test_tasks(self) -> None:
        async def main() -> None:
            async with self.make(told(*(INSERTED % (call, call) for call in range(1, 201)))) as session:
                written = await asyncio.gather(*(session.insert("acct", [1, "ann", 0]) for _ in range(200)))
                self.assertEqual([each.slot for each in written], list(range(1, 201)))

        self.run_limited(main())

    def test_a_program_that_dies(self) -> None:
        async def main() -> None:
            session = await self.make(told() + [["read", 3], ["say", "no memory\n"], ["exit", 3]])
            asked = await asyncio.gather(*(session.status() for _ in range(3)), return_exceptions=True)
            self.assertEqual([(type(each), str(each)) for each in asked],
                             [(Lost, "the program ended with status 3: no memory")] * 3)
            await self.assert_awaited(session.status(), Lost)
            self.assertEqual(session.exit_status, 3)
            await session.close()

        self.run_limited(main())

    def test_a_program_that_answers_something_else(self) -> None:
        async def main() -> None:
            for answer in ("hello", "{}", "[1]", '{"call":7,"slot":1}', "\xff"):
                session = await self.make(told(answer))
                with self.assertRaisesRegex(Lost, "is no answer"):
                    await session.status()
                await session.close()
            with self.assertRaisesRegex(Lost, "is no answer"):
                await self.make([["write", "hello\n"], ["read", 1], ["sleep", 60]])

        self.run_limited(main())

    def test_openings_that_are_not_accepted(self) -> None:
        async def main() -> None:
            steps: Steps = [["read", 1], ["write", '{"fault":{"path":"$","cause":"bad name"}}\n']]
            await self.assert_awaited(self.make(steps).open(), Fault)
            steps = [["read", 1], ["write", '{"refused":"another opening"}\n']]
            await self.assert_awaited(self.make(steps).open(), AnotherOpening)
            await self.assert_awaited(self.make([["exit", 2]]).open(), Lost)
            await self.assert_awaited(aio.Session([ACCT], command=["/nowhere/timetravel"]).open(), NotStarted)

        self.run_limited(main())

    def test_timeouts(self) -> None:
        async def main() -> None:
            steps = told() + [["read", 1], ["sleep", 0.3], ["write", INSERTED % (1, 1) + "\n"],
                              ["read", 1], ["write", INSERTED % (2, 2) + "\n"]]
            async with self.make(steps, timeout=30) as session:
                await self.assert_awaited(session.insert("acct", [1, "ann", 0], timeout=0.05), NoAnswer)
                self.assertEqual((await session.insert("acct", [2, "ann", 0])).slot, 2)    # its own
            async with self.make(told() + [["sleep", 60]]) as session:
                session._timeout = 0.3    # of what follows: a start may take longer
                await self.assert_awaited(session.status(), NoAnswer)
            self.assertEqual(session.exit_status, -9)
            await self.assert_awaited(self.make([["sleep", 60]], timeout=0.1).open(), NoAnswer)

        self.run_limited(main())

    def test_a_task_that_is_cancelled(self) -> None:
        async def main() -> None:
            answers = INSERTED % (1, 1) + "\n" + INSERTED % (2, 2) + "\n"
            async with self.make(told() + [["read", 2], ["write", answers]]) as session:
                first = asyncio.create_task(session.insert("acct", [1, "ann", 0]))
                await asyncio.sleep(0)
                await asyncio.sleep(0)
                first.cancel()
                self.assertEqual((await session.insert("acct", [2, "ann", 0])).slot, 2)
                await self.assert_awaited(first, asyncio.CancelledError)

        self.run_limited(main())

    def test_a_program_that_is_started_again(self) -> None:
        async def main() -> None:
            steps = told(INSERTED % (1, 1)) + [["read", 1], ["exit", 4]]
            async with self.make(steps, log="bank.log", reopen=True) as session:
                await session.insert("acct", [1, "ann", 0])
                await self.assert_awaited(session.status(), Lost)
                (self.folder / "steps").write_text(json.dumps([
                    ["read", 1], ["write", OPENED.replace('"time":0', '"time":1') + "\n"],
                    ["read", 1], ["write", INSERTED % (2, 2) + "\n"]]))
                self.assertEqual((await session.insert("acct", [2, "ann", 0])).slot, 2)
            self.assertRaises(ValueError, self.make, told(), reopen=True)

        self.run_limited(main())

    def test_pages(self) -> None:
        async def main() -> None:
            async with self.make(told(
                    '{"call":1,"time":7,"generation":2,"oldest":0,"entries":9,"repair":null}',
                    '{"call":2,"time":7,"rows":[[-3,"ann",1],[4,"ann",2]],"more":true}',
                    '{"call":3,"time":7,"rows":[[5,"ann",3]],"more":false}')) as session:
                keys = [[row["id"] for row in page.rows] async for page in session.pages("acct", most=2)]
                self.assertEqual(keys, [[-3, 4], [5]])

        self.run_limited(main())

    def test_a_repair(self) -> None:
        async def main() -> None:
            done: list[Progress] = []

            async def note(progress: Progress) -> None:
                done.append(progress)

            answers = [STEPPED % (1, 0, 5, 0), STEPPED % (2, 5, 0, 1), SWITCHED % (3, 5, 1),
                       STEPPED % (4, 0, 5, 0), STEPPED % (5, 2, 3, 1), ABORTED % 6]
            async with self.make(told(*answers)) as session:
                self.assertEqual(await session.repair([cancel(1)], progress=note), Switched(3, 1, 5, 1))
                self.assertEqual(done, [Stepped(5, 0, 1, 2)])
                await self.assert_awaited(session.repair([cancel(1)], progress=lambda _: 1 // 0),
                                          ZeroDivisionError)
            self.assertEqual(self.lines()[-1], '{"abort":true,"of":1}')

        self.run_limited(main())

    def test_changes_by_pages(self) -> None:
        async def main() -> None:
            change = '{"call":%d,"slot":1,"before":["inserted"],"after":"cancelled"}'
            async with self.make(told('{"call":1,"from":1,"changed":[' + change % 4 + '],"more":true}',
                                      '{"call":2,"from":1,"changed":[],"more":false}')) as session:
                found = [page.changed async for page in session.change_pages("next", most=1)]
                self.assertEqual(found, [[ChangedWrite(4, 1, [Reply("inserted")], None)], []])
            self.assertEqual(self.lines()[1:], [
                '{"changes":"next","most":1}', '{"changes":"next","after":4,"most":1}'])

        self.run_limited(main())

    def test_a_dry_run(self) -> None:
        async def main() -> None:
            answers = [STEPPED % (1, 5, 0, 3), CAUSES % (2, 5, ",".join([EDITED % 1, EDITED % 3]), "true"),
                       CAUSES % (3, 5, EDITED % 4, "false"), CHANGED % 4,
                       DIFFER % (5, 5, ",".join([GONE % (1, 1), GONE % (2, 2)]), "true"),
                       DIFFER % (6, 5, GONE % (7, 7), "false"), ABORTED % 7,
                       STEPPED % (8, 5, 0, 0), CAUSES % (9, 5, "", "false"), CHANGED % 10,
                       DIFFER % (11, 6, "", "false"), CAUSES % (12, 6, "", "false"), CHANGED % 13,
                       DIFFER % (14, 6, "", "false"), '{"call":15,"refused":"repair of another","worker":3}']
            async with self.make(told(*answers)) as session:
                tried = await session.repair([cancel(1), cancel(3), cancel(4)], dry=True, worker=9)
                self.assertEqual(tried, Trial(
                    1, 5, 3, [Redone(1, "edited"), Redone(3, "edited"), Redone(4, "edited")],
                    [ChangedWrite(4, 1, [Reply("inserted")], None)],
                    [Difference("acct", key, [key, "ann", 0], None) for key in (1, 2, 7)]))
                # Somebody else goes on with the next one, and ends it, and another begins.
                await self.assert_awaited(session.repair([], dry=True, worker=9), RepairOfAnother)
            self.assertEqual(self.lines()[2:8], [
                '{"worker":9,"why":true,"most":1000}', '{"worker":9,"why":true,"after":3,"most":1000}',
                '{"worker":9,"changes":"next","most":1000}', '{"worker":9,"diff":true,"most":1000}',
                '{"worker":9,"diff":true,"after":["acct",2],"most":1000}', '{"worker":9,"abort":true,"of":9}'])
            self.assertEqual(len(self.lines()), 16)

        self.run_limited(main())


class Connections(AioCase, ServerCase):

    def make(self, **options: Any) -> aio.Session:
        return aio.Session.connect(self.path, [ACCT], **options)

    def test_answers_are_matched_by_their_order(self) -> None:
        self.serve(told('{"call":40,"slot":8,"replies":["inserted"]}',
                        '{"call":90,"time":9,"rows":[[1,"ann",10]]}'))

        async def main() -> None:
            async with self.make() as session:
                self.assertEqual((await session.insert("acct", [1, "ann", 10])).call, 40)
                self.assertEqual((await session.select("acct")).rows[0]["bal"], 10)

        asyncio.run(main())

    def test_the_end_of_a_connection(self) -> None:
        self.serve(told() + [["read", 1], ["close", None]], told() + [["read", 1], ["close", None]],
                   told(INSERTED % (1, 1)))

        async def main() -> None:
            async with self.make() as session:
                await self.assert_awaited(session.status(), Disconnected)
                await self.assert_awaited(session.status(), Disconnected)
            async with self.make(reopen=True) as session:
                await self.assert_awaited(session.status(), Disconnected)
                self.assertEqual((await session.insert("acct", [1, "ann", 0])).slot, 1)

        asyncio.run(main())

    def test_closing_ends_this_connection_alone(self) -> None:
        server = self.serve(told(INSERTED % (1, 1)), told(INSERTED % (5, 5)))

        async def main() -> None:
            first, second = await self.make(), await self.make()
            future = await first.send(insert("acct", [1, "ann", 0]))
            await first.close()
            self.assertEqual((await future).slot, 1)    # What was sent is answered before the end.
            self.assertTrue(server.ended[0].wait(30))
            self.assertEqual((await second.insert("acct", [1, "ann", 0])).slot, 5)
            await second.close()

        asyncio.run(main())

    def test_sockets_that_are_not_there(self) -> None:
        async def main() -> None:
            await self.assert_awaited(self.make().open(), NotConnected)
            await self.assert_awaited(aio.Session.connect("x" * 200, [ACCT]).open(), NotConnected)

        asyncio.run(main())


class Program(AioCase):

    def make(self, **options: Any) -> aio.Session:
        return aio.Session([ACCT], command=session_command(), **options)

    def test_each_request_and_its_answer(self) -> None:
        session = self.make()
        self.converse(session)
        self.assertEqual(session.exit_status, 0)

    def test_a_log(self) -> None:
        async def main() -> None:
            path = temporary_folder(self) / "bank.log"
            async with self.make(log=path) as session:
                await session.insert("acct", [1, "ann", 10])
                await self.assert_awaited(self.make(log=path).open(), Lost)    # It is in use.
            async with self.make(log=path) as session:
                self.assertEqual(session.opened, Status(0, 1, 0, 0, 1, None))
                self.assertEqual((await session.select("acct")).rows, [[1, "ann", 10]])
            await self.assert_awaited(self.make(log=path, keep=0).open(), AnotherOpening)

        self.run_limited(main())
