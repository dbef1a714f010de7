"""Sessions and the children of their process: forks, and programs that are started later."""

from __future__ import annotations

import asyncio
import contextlib
import faulthandler
import gc
import os
import warnings
from collections.abc import Callable
from concurrent.futures import Future
from typing import Any

from tests.support.stand_in import ACCT, INSERTED, ClientCase, ServerCase, StandInCase, told
from timetravel import Forked, Session, aio, insert


class ForkCase(ClientCase):

    def in_child(self, check: Callable[[], object]) -> None:
        """Has a child of this process check something. It is ended where it takes too long."""
        with warnings.catch_warnings():
            warnings.simplefilter("ignore", DeprecationWarning)    # of forks beside threads
            child = os.fork()
        if child == 0:
            status = 1
            with contextlib.suppress(BaseException):
                faulthandler.dump_traceback_later(20, exit=True)
                check()
                status = 0
            os._exit(status)
        self.assertEqual(os.waitstatus_to_exitcode(os.waitpid(child, 0)[1]), 0)

    def check_child(self, session: Session, sent: Future[Any]) -> None:
        self.in_child(lambda: self.assertRaises(Forked, session.status))
        self.in_child(lambda: self.assertRaises(Forked, session.send, {"status": True}))
        self.in_child(lambda: self.assertRaises(Forked, sent.result))
        self.in_child(lambda: self.assertRaises(Forked, sent.exception))
        self.in_child(session.close)
        self.in_child(lambda: session.__exit__(None, None, None))
        self.in_child(gc.collect)

    def hold_child(self) -> tuple[int, int]:
        """A child that lives until the pipe to it is closed: its number and that pipe."""
        ending, end = os.pipe()
        with warnings.catch_warnings():
            warnings.simplefilter("ignore", DeprecationWarning)
            child = os.fork()
        if child == 0:
            os.close(end)
            os.read(ending, 1)
            os._exit(0)
        os.close(ending)
        return child, end


class ForksOfPrograms(ForkCase, StandInCase):

    def test_a_child_is_told_at_once(self) -> None:
        with self.open(told(INSERTED % (1, 1)) + [["read", 2], ["write", "".join(
                '{"call":%d,"time":1,"rows":[]}\n' % call for call in (2, 3))]]) as session:
            done = session.send(insert("acct", [1, "ann", 0]))
            self.assertEqual(done.result().slot, 1)
            sent = session.send({"select": "acct", "where": []})
            self.check_child(session, sent)
            self.in_child(lambda: self.assertEqual(done.result().slot, 1))
            self.assertEqual(session.select("acct").call, 3)    # The parent's session goes on.
            self.assertEqual(sent.result().call, 2)
        self.assertEqual(session.exit_status, 0)
        self.assertEqual(len(self.lines()), 4)    # No child has sent anything.

    def test_a_child_that_drops_the_session(self) -> None:
        sessions = [self.open(told(INSERTED % (1, 1)))]

        def drop() -> None:
            test: Any = self
            sessions.clear()
            test._cleanups.pop()    # It holds the session, too.
            gc.collect()

        self.in_child(drop)
        self.assertEqual(sessions[0].insert("acct", [1, "ann", 0]).slot, 1)

    def test_a_child_that_lives_on_does_not_hold_up_the_close(self) -> None:
        session = self.open(told())
        child, end = self.hold_child()
        session.close()    # The program sees the end of its input, although the child had a copy.
        os.close(end)
        os.waitpid(child, 0)
        self.assertEqual(session.exit_status, 0)

    def test_a_child_opens_its_own(self) -> None:
        session = self.open(told(INSERTED % (1, 1)))
        self.in_child(lambda: self.assertEqual(self.own_slot(), 1))
        self.assertEqual(session.insert("acct", [1, "ann", 0]).slot, 1)

    def own_slot(self) -> int:
        with self.open(told(INSERTED % (1, 1))) as own:
            return own.insert("acct", [1, "ann", 0]).slot

    def test_a_program_that_is_started_later_holds_no_pipe(self) -> None:
        first = self.open(told())
        second = self.open(told(INSERTED % (1, 1)))
        first.close()    # Its program sees the end of its input, although the second one goes on.
        self.assertEqual(first.exit_status, 0)
        self.assertEqual(second.insert("acct", [1, "ann", 0]).slot, 1)

    def test_a_session_for_asyncio(self) -> None:
        async def main() -> None:
            async with aio.Session([ACCT], command=self.command(told(INSERTED % (1, 1)))) as session:
                self.in_child(lambda: self.assertRaises(Forked, session.status().send, None))
                self.in_child(lambda: self.assertRaises(StopIteration, session.close().send, None))
                child, end = self.hold_child()
                self.assertEqual((await session.insert("acct", [1, "ann", 0])).slot, 1)
            os.close(end)
            os.waitpid(child, 0)
            self.assertEqual(session.exit_status, 0)

        asyncio.run(main())


class ForksOfConnections(ForkCase, ServerCase):

    def test_a_child_is_told_at_once(self) -> None:
        server = self.serve(told(INSERTED % (1, 1), INSERTED % (2, 2)))
        with self.connect() as session:
            sent = session.send(insert("acct", [1, "ann", 0]))
            sent.result()
            self.in_child(lambda: self.assertRaises(Forked, session.status))
            self.in_child(session.close)
            child, end = self.hold_child()
            self.assertEqual(session.insert("acct", [2, "ann", 0]).slot, 2)
        self.assertTrue(server.ended[0].wait(30))    # The child holds no copy of the connection.
        os.close(end)
        os.waitpid(child, 0)
