"""What is sent: openings, requests, and many of them at once."""

from __future__ import annotations

import threading

from tests.support.stand_in import ACCT, ACCT_LINE, INSERTED, StandInCase, told
from timetravel import Closed, Previewed, Selected, insert, preview, select


class Requests(StandInCase):

    def test_openings(self) -> None:
        plain = {"name": "note", "columns": [{"name": "k", "kind": "int"}]}
        with self.open(told(), tables=[plain, ACCT], keep=0, records=7):
            pass
        self.assertEqual(self.lines(), ['{"version":4,"tables":[{"name":"note","columns":'
                                        '[{"name":"k","kind":"int"}]},' + ACCT_LINE + '],'
                                        '"keep":0,"records":7}'])

    def test_what_json_cannot_carry_is_not_sent(self) -> None:
        with self.open(told('{"call":1,"slot":1,"replies":["inserted"]}')) as session:
            for bad in (2**63, -2**63 - 1, "\ud800"):
                self.assertRaises(ValueError, session.insert, "acct", [1, "ann", bad])
            for bad in (1.0, None, b"ann"):
                self.assertRaises(TypeError, session.insert, "acct", [1, "ann", bad])
            self.assertRaises(ValueError, session.select, "acct", at=2**64)
            self.assertRaises(TypeError, session.send, {1: True})
            session.insert("acct", [-2**63, 'a"b\\\n\u2028\x00é', 2**63 - 1])
        self.assertEqual((self.folder / "log").read_text().split("\n")[1:], [
            '{"insert":"acct","row":[-9223372036854775808,"a\\"b\\\\\\n\u2028\\u0000é",'
            '9223372036854775807]}', ""])

    def test_requests_for_sending(self) -> None:
        with self.open(told('{"call":1,"done":3,"rows":[]}', '{"call":2,"time":3,"rows":[]}')) as session:
            previewed = session.send(preview("acct", {"id": 1}), worker=2, if_time=3)
            selected = session.send(select("acct", at=3))
            self.assertEqual(previewed.result(), Previewed(1, 3, []))
            self.assertEqual(selected.result(), Selected(2, 3, []))
        self.assertEqual(self.lines()[1], '{"worker":2,"if":3,"preview":"acct","where":[["id",1]]}')

    def test_requests_in_flight_are_matched_by_their_numbers(self) -> None:
        answers = "".join(INSERTED % (21 - slot, slot) + "\n" for slot in range(1, 21))
        with self.open(told() + [["read", 20], ["write", answers]]) as session:
            futures = [session.send(insert("acct", [key, "ann", 0])) for key in range(1, 21)]
            self.assertEqual([future.result().call for future in futures], list(range(1, 21)))
            self.assertEqual([future.result().slot for future in futures], list(range(20, 0, -1)))

    def test_more_in_flight_than_the_pipes_hold(self) -> None:
        owner, many = "x" * 1000, 5000
        row = '{"call":%d,"time":0,"rows":[[1,"' + owner + '",0]]}'
        with self.open(told(*(row % call for call in range(1, many + 1)))) as session:
            futures = [session.send(select("acct", {"owner": owner})) for _ in range(many)]
            self.assertEqual(futures[-1].result().rows, [[1, owner, 0]])
            self.assertEqual([future.result().call for future in futures], list(range(1, many + 1)))

    def test_threads(self) -> None:
        with self.open(told(*(INSERTED % (call, call) for call in range(1, 201)))) as session:
            slots: list[int] = []

            def clerk() -> None:
                for _ in range(25):
                    slots.append(session.insert("acct", [1, "ann", 0]).slot)

            clerks = [threading.Thread(target=clerk) for _ in range(8)]
            for each in clerks:
                each.start()
            for each in clerks:
                each.join()
            self.assertEqual(sorted(slots), list(range(1, 201)))

    def test_what_is_sent_cannot_be_cancelled(self) -> None:
        with self.open(told(INSERTED % (1, 1))) as session:
            future = session.send(insert("acct", [1, "ann", 0]))
            self.assertFalse(future.cancel())

    def test_a_closed_session(self) -> None:
        session = self.open(told())
        session.close()
        session.close()
        self.assertRaises(Closed, session.status)
        self.assertEqual(session.exit_status, 0)

    def test_requests_while_the_session_is_closed(self) -> None:
        many = 200
        session = self.open(told(*(INSERTED % (call, call) for call in range(1, many + 1))))
        sent, refused = [], []

        def clerk() -> None:
            for _ in range(many // 4):
                try:
                    sent.append(session.send(insert("acct", [1, "ann", 0])))
                except Closed as error:
                    refused.append(error)

        clerks = [threading.Thread(target=clerk) for _ in range(4)]
        for each in clerks:
            each.start()
        session.close()
        for each in clerks:
            each.join()
        self.assertEqual(len(sent) + len(refused), many)
        self.assertEqual(session.exit_status, 0)
        self.assertEqual([future.exception(0) for future in sent], [None] * len(sent))

    def test_what_was_sent_is_answered_before_the_end(self) -> None:
        with self.open(told() + [["read", 1], ["sleep", 0.2], ["write", INSERTED % (1, 1) + "\n"]]
                       ) as session:
            future = session.send(insert("acct", [1, "ann", 0]))
        self.assertEqual(future.result(0).slot, 1)
