"""What is made of answers: refusals, faults and other exceptions, and whether a write was done."""

from __future__ import annotations

import copy
import pickle
from pathlib import Path

import timetravel
from tests.support.stand_in import ClientCase, StandInCase, Steps, told
from timetravel import (
    Fault, Full, LogFailed, Lost, Moved, NoAnswer, NotConnected, NotStarted, OutOfMemory, Refused, Reply,
    Written, errors)


class Answers(StandInCase):

    def test_openings_that_are_not_accepted(self) -> None:
        for answer, kind, attributes in (
                ('{"fault":{"path":"$.tables[0]","cause":"bad name"}}', Fault,
                 {"path": "$.tables[0]", "cause": "bad name"}),
                ('{"refused":"memory"}', OutOfMemory, {"cause": "memory"})):
            steps: Steps = [["read", 1], ["write", answer + "\n"]]
            self.assert_raises(lambda: self.open(steps), kind, attributes)

    def test_the_other_refusals(self) -> None:
        with self.open(told('{"call":1,"refused":"full","limit":4000000}',
                            '{"call":2,"refused":"memory"}',
                            '{"call":3,"refused":"something new","size":3}',
                            '{"call":4,"refused":"log"}')) as session:
            self.assert_raises(session.status, Full, {"limit": 4000000, "call": 1})
            self.assert_raises(session.status, OutOfMemory, {"cause": "memory", "call": 2})
            self.assert_raises(session.status, Refused, {"cause": "something new", "size": 3})
            self.assert_raises(lambda: session.forget(1), LogFailed, {"cause": "log", "call": 4})

    def test_texts_of_exceptions(self) -> None:
        self.assertEqual(str(Moved("moved", 1, now=4)), "moved (now 4)")
        self.assertEqual(str(Fault("$.row[0]", "wrong type")), "$.row[0]: wrong type")
        self.assertEqual(str(Lost(3, "no memory\n")), "the program ended with status 3: no memory")
        self.assertEqual(str(Reply("updated", 2)), "updated 2")
        self.assertEqual(str(Reply("inserted")), "inserted")

    def test_whether_an_action_was_carried_out(self) -> None:
        inserted, duplicate = Reply("inserted"), Reply("duplicate")
        for done in (inserted, Reply("updated", 1), Reply("deleted", 2)):
            self.assertIs(Written(1, 1, [done]).done, True)
            self.assertIs(Written(1, 1, [duplicate, done]).done, True)    # of a do that isn't whole
        for without in (duplicate, Reply("updated", 0), Reply("deleted", 0)):
            self.assertIs(Written(1, 1, [without]).done, False)
            self.assertIs(Written(1, 1, [inserted, without]).done, False)
        self.assertIs(Written(1, 1, []).done, True)


class Errors(ClientCase):

    def test_copies(self) -> None:
        examples: list[timetravel.Error] = [
            Fault("$.row[0]", "wrong type", 7), Refused("something new", 3, size=4),
            Lost(-9, "said\n"), Lost(None, "said"), timetravel.Disconnected("bank.sock", "said"),
            NotStarted(["none", "session"]), NotStarted([]), NotConnected("bank.sock"), NoAnswer(0.5),
            timetravel.Closed(), timetravel.Forked()]
        examples += [kind(cause, 5, now=4, limit=3) for cause, kind in errors.REFUSALS.items()]
        for error in examples:
            for copied in (pickle.loads(pickle.dumps(error)), copy.copy(error), copy.deepcopy(error)):
                with self.subTest(repr(error)):
                    self.assertIs(type(copied), type(error))
                    self.assertEqual((copied.args, copied.__dict__, str(copied)),
                                     (error.args, error.__dict__, str(error)))

    def test_a_copy_has_its_members(self) -> None:
        moved = pickle.loads(pickle.dumps(Moved("moved", 3, now=9)))
        self.assertEqual((moved.cause, moved.call, moved.now), ("moved", 3, 9))
        self.assertEqual(pickle.loads(pickle.dumps(Full("full", 1, limit=8))).limit, 8)

    def test_a_program_that_is_not_there(self) -> None:
        with self.assertRaisesRegex(NotStarted, "command="):
            timetravel.Session([], command=["/nowhere/timetravel", "session"])

    def test_names(self) -> None:
        for name in timetravel.__all__:
            self.assertTrue(hasattr(timetravel, name), name)
        self.assertEqual(timetravel.__version__, "0.1.0")
        folder = Path(timetravel.__file__).parent
        self.assertTrue((folder / "py.typed").exists())
