"""A repair as one call."""

from __future__ import annotations

from tests.support.client_package import session_command
from tests.support.stand_in import ACCT, ClientCase, StandInCase, told
from timetravel import (
    ChangedWrite, Difference, Full, Moved, NoSlot, NotRepairing, OutOfMemory, Progress, Redone,
    RepairOfAnother, Repairing, Reply, Session, Stepped, Switched, Trial, cancel, delete, insert, replace)

STEPPED = '{"call":%d,"done":%d,"left":%d,"rerun":%d}'
SWITCHED = '{"call":%d,"generation":1,"slots":%d,"rerun":%d}'
ABORTED = '{"call":%d,"time":5,"generation":0,"oldest":0,"entries":9,"repair":null}'
CAUSES = '{"call":%d,"done":%d,"redone":[%s],"more":%s}'
EDITED = '{"slot":%d,"because":"edited"}'
CHANGED = '{"call":%d,"from":1,"changed":[{"call":4,"slot":1,"before":["inserted"],"after":"cancelled"}]}'
DIFFER = '{"call":%d,"done":%d,"diff":[%s],"more":%s}'
GONE = '{"table":"acct","key":%d,"before":[%d,"ann",0],"after":null}'


class Repairs(StandInCase):

    def test_a_whole_repair(self) -> None:
        told_progress: list[Progress] = []
        with self.open(told(STEPPED % (1, 0, 5, 0), STEPPED % (2, 2, 3, 1), STEPPED % (3, 4, 2, 1),
                            STEPPED % (4, 6, 0, 2), SWITCHED % (5, 6, 2))) as session:
            switched = session.repair([cancel(1)], step=2, progress=told_progress.append, worker=9)
        self.assertEqual(switched, Switched(5, 1, 6, 2))
        self.assertEqual(told_progress, [Stepped(2, 3, 1, 2), Stepped(4, 2, 1, 3), Stepped(6, 0, 2, 4)])
        step = '{"worker":9,"step":2,"of":9}'
        self.assertEqual(self.lines()[1:], ['{"worker":9,"begin":[{"cancel":1}]}', step, step, step,
                                            '{"worker":9,"finish":true,"of":9}'])

    def test_nothing_to_do(self) -> None:
        with self.open(told(STEPPED % (1, 0, 0, 0), SWITCHED % (2, 0, 0))) as session:
            self.assertEqual(session.repair([]), Switched(2, 1, 0, 0))

    def test_a_begin_that_is_refused(self) -> None:
        with self.open(told('{"call":1,"refused":"no slot","slot":9}')) as session:
            self.assertRaises(NoSlot, session.repair, [cancel(9)])
        self.assertEqual(len(self.lines()), 2)    # There is nothing to abort.

    def test_a_callback_that_raises(self) -> None:
        for raised in (ZeroDivisionError, KeyboardInterrupt):
            def fail(_: Progress) -> None:
                raise raised

            with self.open(told(STEPPED % (1, 0, 5, 0), STEPPED % (2, 2, 3, 1), ABORTED % 3)) as session:
                self.assertRaises(raised, session.repair, [cancel(1)], progress=fail, worker=9)
            self.assertEqual(self.lines()[-1], '{"worker":9,"abort":true,"of":9}')

    def test_a_step_that_is_refused(self) -> None:
        for last in (ABORTED % 3, '{"call":3,"refused":"memory"}'):    # The abort may fail, too.
            full = '{"call":2,"refused":"full","limit":4}'
            with self.open(told(STEPPED % (1, 0, 5, 0), full, last)) as session:
                self.assertRaises(Full, session.repair, [cancel(1)])
            self.assertEqual(self.lines()[-2:], ['{"step":100,"of":1}', '{"abort":true,"of":1}'])

    def test_an_end_that_is_refused(self) -> None:
        with self.open(told(STEPPED % (1, 0, 0, 0), '{"call":2,"refused":"memory"}', ABORTED % 3)) as session:
            self.assertRaises(OutOfMemory, session.repair, [])
        self.assertEqual(self.lines()[-2:], ['{"finish":true,"of":1}', '{"abort":true,"of":1}'])

    def test_a_repair_that_somebody_else_has_ended(self) -> None:
        with self.open(told(STEPPED % (1, 0, 5, 0), '{"call":2,"refused":"not repairing"}')) as session:
            self.assertRaises(NotRepairing, session.repair, [cancel(1)])
        self.assertEqual(self.lines()[-1], '{"step":100,"of":1}')    # There is nothing to abort.

    def test_a_repair_that_somebody_else_has_ended_and_another_begun(self) -> None:
        another = '{"call":%d,"refused":"repair of another","worker":3}'
        for steps in ([another % 2], [STEPPED % (2, 5, 0, 1), another % 3]):
            with self.open(told(STEPPED % (1, 0, 5, 0), *steps)) as session:
                self.assert_raises(lambda: session.repair([cancel(1)], worker=9), RepairOfAnother,
                                   {"worker": 3, "cause": "repair of another"})
            self.assertEqual(len(self.lines()), 2 + len(steps))    # That one isn't aborted.

    def test_a_begin_and_its_end_that_are_sent_together(self) -> None:
        with self.open(told('{"call":1,"refused":"repairing"}',
                            '{"call":2,"refused":"repair of another","worker":3}')) as session:
            begun = session.send({"begin": []}, worker=9)
            ended = session.send({"finish": True}, worker=9)
            self.assertRaises(Repairing, begun.result)
            self.assertRaises(RepairOfAnother, ended.result)
        self.assertEqual(self.lines()[1:], ['{"worker":9,"begin":[]}', '{"worker":9,"finish":true,"of":9}'])


class DryRuns(StandInCase):
    """Repairs that are only tried."""

    def told_by(self, first: int, done: int) -> list[str]:
        """What is told by the requests behind the steps, from this call on."""
        return [CAUSES % (first, done, EDITED % 1, "false"), CHANGED % (first + 1),
                DIFFER % (first + 2, done, GONE % (1, 1), "false")]

    def trial(self, call: int, slots: int) -> Trial:
        return Trial(call, slots, 1, [Redone(1, "edited")], [ChangedWrite(4, 1, [Reply("inserted")], None)],
                     [Difference("acct", 1, [1, "ann", 0], None)])

    def test_a_whole_dry_run(self) -> None:
        told_progress: list[Progress] = []
        with self.open(told(STEPPED % (1, 0, 1500, 0), STEPPED % (2, 1000, 500, 1), STEPPED % (3, 1500, 0, 1),
                            *self.told_by(4, 1500), ABORTED % 7)) as session:
            tried = session.repair([cancel(1)], dry=True, progress=told_progress.append, worker=9)
            self.assertEqual(tried, self.trial(1, 1500))
            self.assertEqual(tried.diff[0].before["owner"], "ann")    # type: ignore[index]
        self.assertEqual(told_progress, [Stepped(1000, 500, 1, 2), Stepped(1500, 0, 1, 3)])
        step = '{"worker":9,"step":1000,"of":9}'
        self.assertEqual(self.lines()[1:], [
            '{"worker":9,"begin":[{"cancel":1}]}', step, step, '{"worker":9,"why":true,"most":1000}',
            '{"worker":9,"changes":"next","most":1000}', '{"worker":9,"diff":true,"most":1000}',
            '{"worker":9,"abort":true,"of":9}'])

    def test_a_trial_by_one_request_begins_no_repair(self) -> None:
        """So a worker who has asked for it goes on with whichever repair is under way."""
        tried = '{"call":1,"slots":5,"rerun":0,"redone":[],"changed":[],"diff":[]}'
        with self.open(told(tried, STEPPED % (2, 5, 0, 1))) as session:
            self.assertEqual(session.would([]), Trial(1, 5, 0, [], [], []))
            session.step(2)
        self.assertEqual(self.lines()[1:], ['{"would":[]}', '{"step":2}'])

    def test_steps_of_a_size(self) -> None:
        with self.open(told(STEPPED % (1, 0, 7, 0), STEPPED % (2, 7, 0, 1), *self.told_by(3, 7), ABORTED % 6,
                            STEPPED % (7, 7, 0, 0), SWITCHED % (8, 7, 0))) as session:
            self.assertEqual(session.repair([cancel(1)], dry=True, step=7), self.trial(1, 7))
            self.assertEqual(session.repair([], dry=False), Switched(8, 1, 7, 0))
        self.assertEqual(self.lines()[2], '{"step":7,"of":1}')

    def test_pages(self) -> None:
        with self.open(told(STEPPED % (1, 5, 0, 3),
                            CAUSES % (2, 5, ",".join([EDITED % 2, EDITED % 3]), "true"),
                            CAUSES % (3, 5, EDITED % 5, "false"), CHANGED % 4,
                            DIFFER % (5, 5, ",".join([GONE % (-9, -9), GONE % (-7, -7)]), "true"),
                            DIFFER % (6, 5, GONE % (8, 8), "true"),
                            DIFFER % (7, 5, "", "false"), ABORTED % 8)) as session:
            tried = session.repair([cancel(2), cancel(3), cancel(5)], dry=True)
        self.assertEqual((tried.slots, tried.rerun), (5, 3))
        self.assertEqual([redone.slot for redone in tried.redone], [2, 3, 5])
        self.assertEqual([found.key for found in tried.diff], [-9, -7, 8])
        self.assertEqual(self.lines()[2:-1], [
            '{"why":true,"most":1000}', '{"why":true,"after":3,"most":1000}', '{"changes":"next","most":1000}',
            '{"diff":true,"most":1000}', '{"diff":true,"after":["acct",-7],"most":1000}',
            '{"diff":true,"after":["acct",8],"most":1000}'])

    def test_a_begin_that_is_refused(self) -> None:
        with self.open(told('{"call":1,"refused":"repairing"}')) as session:
            self.assertRaises(Repairing, session.repair, [cancel(9)], dry=True)
        self.assertEqual(len(self.lines()), 2)

    def test_somebody_else_goes_on_with_it(self) -> None:
        """What is told is of one slot, the last one that is done."""
        with self.open(told(STEPPED % (1, 5, 0, 1), *self.told_by(2, 5)[:2], DIFFER % (4, 6, "", "false"),
                            *self.told_by(5, 6), ABORTED % 8)) as session:
            self.assertEqual(session.repair([cancel(1)], dry=True), self.trial(1, 6))

    def test_somebody_else_ends_it(self) -> None:
        gone = '{"call":%d,"refused":"not repairing"}'
        for answers in ([gone % 2], self.told_by(2, 5)[:1] + [gone % 3], self.told_by(2, 5) + [gone % 5]):
            with self.open(told(STEPPED % (1, 5, 0, 1), *answers)) as session:
                self.assertRaises(NotRepairing, session.repair, [cancel(1)], dry=True)
            self.assertEqual(len(self.lines()), 2 + len(answers))    # There is nothing to abort.

    def test_pages_of_the_repair_of_another(self) -> None:
        """Somebody else has ended it, and another has begun: nothing is told of that one."""
        another = '{"call":5,"refused":"repair of another","worker":3}'
        with self.open(told(STEPPED % (1, 5, 0, 1), *self.told_by(2, 5), another)) as session:
            self.assert_raises(lambda: session.repair([cancel(1)], dry=True, worker=9), RepairOfAnother,
                               {"worker": 3})
        self.assertEqual(self.lines()[-1], '{"worker":9,"abort":true,"of":9}')

    def test_a_page_that_is_refused(self) -> None:
        for refused in range(3):
            answers = self.told_by(2, 5)[:refused] + ['{"call":%d,"refused":"memory"}' % (2 + refused)]
            with self.open(told(STEPPED % (1, 5, 0, 1), *answers, ABORTED % (3 + refused))) as session:
                self.assertRaises(OutOfMemory, session.repair, [cancel(1)], dry=True)
            self.assertEqual(self.lines()[-1], '{"abort":true,"of":1}')
            self.assertEqual(len(self.lines()), 4 + refused)

    def test_an_abort_that_is_refused(self) -> None:
        with self.open(told(STEPPED % (1, 5, 0, 1), *self.told_by(2, 5), '{"call":5,"refused":"memory"}',
                            ABORTED % 6)) as session:
            self.assertRaises(OutOfMemory, session.repair, [cancel(1)], dry=True)
        self.assertEqual(self.lines()[-2:], ['{"abort":true,"of":1}'] * 2)

    def test_a_callback_that_raises(self) -> None:
        with self.open(told(STEPPED % (1, 0, 5, 0), STEPPED % (2, 2, 3, 1), ABORTED % 3)) as session:
            self.assertRaises(ZeroDivisionError, session.repair, [cancel(1)], dry=True,
                              progress=lambda _: 1 // 0)
        self.assertEqual(self.lines()[-1], '{"abort":true,"of":1}')


class Program(ClientCase):
    """The same with the program."""

    def test_dry_runs(self) -> None:
        """A dry run in pieces tells what one request tells, and what the repair then comes to."""
        with Session([ACCT], command=session_command()) as session:
            many = [session.send(insert("acct", [key, "ann" if key % 2 else "bob", 0])) for key in range(2500)]
            many[-1].result()
            bad = session.update("acct", {"owner": "ann"}, set={"owner": "eve"}, add={"bal": -1})
            session.delete("acct", {"owner": "ann"})
            edits = [cancel(bad.slot), replace(7, delete("acct", {"id": 2}))]
            found = session.select("acct")
            wanted = session.would(edits)
            self.assertEqual((wanted.slots, wanted.rerun), (2502, 3))
            self.assertEqual(len(wanted.diff), 1252)    # All of ann's, and the rows 2 and 6.
            entries = session.status().entries
            progress: list[int] = []
            tried = session.repair(edits, dry=True, progress=lambda told: progress.append(told.done))
            self.assertEqual((tried.slots, tried.rerun, tried.redone, tried.changed, tried.diff),
                             (wanted.slots, wanted.rerun, wanted.redone, wanted.changed, wanted.diff))
            self.assertEqual(progress, [1000, 2000, 2502])
            status = session.status()
            self.assertEqual((status.repair, status.generation, status.entries), (None, 0, entries + 2504))
            self.assertEqual(session.select("acct").rows, found.rows)
            self.assertRaises(NotRepairing, session.diff)
            session.repair(edits)
            self.assertEqual(session.diff(0).diff, wanted.diff)
            self.assertEqual(session.why(0).redone, wanted.redone)
            self.assertEqual(session.changes().changed[:-1], wanted.changed)    # The last is the second select.

    def test_repairs(self) -> None:
        with Session([ACCT], command=session_command()) as session:
            for future in [session.send(insert("acct", [key, "ann", 0])) for key in range(250)]:
                future.result()
            bad = session.update("acct", {"owner": "ann"}, set={"owner": "eve"}, add={"bal": -1})
            done: list[tuple[int, int]] = []
            with self.assertRaises(ZeroDivisionError):
                session.repair([cancel(bad.slot)], progress=lambda told: 1 // 0)
            self.assertIsNone(session.status().repair)
            self.assertEqual(session.status().generation, 0)
            switched = session.repair([cancel(bad.slot)],
                                      progress=lambda told: done.append((told.done, told.left)))
            self.assertEqual(done, [(100, 151), (200, 51), (251, 0)])
            self.assertEqual((switched.generation, switched.slots), (1, 251))
            rows = session.select("acct").rows
            self.assertEqual({(row["owner"], row["bal"]) for row in rows}, {("ann", 0)})
            self.assertRaises(Moved, session.insert, "acct", {"id": 999, "owner": "x", "bal": 0}, if_time=3)
