"""Sessions over a socket, with a stand-in for the server."""

from __future__ import annotations

import threading

from tests.support.stand_in import ACCT, INSERTED, OPENING, ServerCase, told
from timetravel import (
    AnotherOpening, Closed, Disconnected, Ended, Fault, Lost, Moved, NoAnswer, NotConnected, Session,
    Status, insert)

LATER = '{"time":7,"generation":1,"oldest":0,"entries":9,"repair":null}'


class Connections(ServerCase):

    def test_answers_are_matched_by_their_order(self) -> None:
        server = self.serve(told('{"call":40,"slot":8,"replies":["inserted"]}',
                                 '{"call":55,"refused":"moved","now":9}',
                                 '{"call":90,"time":9,"rows":[[1,"ann",10]]}'))
        with self.connect() as session:
            self.assertEqual(session.opened, Status(0, 0, 0, 0, 0, None))
            self.assertEqual(session.insert("acct", [1, "ann", 10]).call, 40)
            self.assert_raises(lambda: session.do([], if_time=3), Moved, {"now": 9, "call": 55})
            self.assertEqual(session.select("acct").rows[0]["bal"], 10)
            self.assertIsNone(session.exit_status)
        self.assertEqual(server.lines[0], [OPENING, '{"insert":"acct","row":[1,"ann",10]}',
                                           '{"if":3,"do":[]}', '{"select":"acct","where":[]}'])

    def test_a_session_that_is_open_already(self) -> None:
        self.serve([["read", 1], ["write", LATER + "\n"]])
        with self.connect() as session:
            self.assertEqual(session.opened.time, 7)

    def test_another_opening(self) -> None:
        server = self.serve([["read", 1], ["write", '{"refused":"another opening"}\n']])
        self.assert_raises(self.connect, AnotherOpening, {"cause": "another opening"})
        self.assertTrue(server.ended[0].wait(30))

    def test_a_faulty_opening(self) -> None:
        self.serve([["read", 1], ["write", '{"fault":{"path":"$.keep","cause":"out of range"}}\n']])
        self.assert_raises(lambda: self.connect(keep=99), Fault, {"path": "$.keep"})

    def test_many_in_flight_of_several_threads(self) -> None:
        self.serve(told(*(INSERTED % (1000 + slot, slot) for slot in range(1, 401))))
        slots: list[int] = []
        with self.connect() as session:
            def clerk() -> None:
                futures = [session.send(insert("acct", [1, "ann", 0])) for _ in range(50)]
                slots.extend(future.result().slot for future in futures)
                self.assertEqual(sorted(future.result().slot for future in futures),
                                 [future.result().slot for future in futures])

            clerks = [threading.Thread(target=clerk) for _ in range(8)]
            for each in clerks:
                each.start()
            for each in clerks:
                each.join()
        self.assertEqual(sorted(slots), list(range(1, 401)))

    def test_more_than_the_socket_holds(self) -> None:
        steps = told(*(INSERTED % (call, call) for call in range(1, 1500)))
        server = self.serve(steps[:2] + [["wait", None]] + steps[2:])
        session = self.connect()
        futures = []
        with self.assertRaises(NoAnswer):    # Nobody reads, and some line is sent in part, or not at all.
            while True:
                futures.append(session.send(insert("acct", [1, "x" * 1000, 0]), timeout=0.05))
        server.go_on.set()
        while len(futures) < 1400:
            futures.append(session.send(insert("acct", [1, "x" * 1000, 0])))
        slots = [future.result(30).slot for future in futures]
        self.assertEqual(slots, sorted(slots))

    def test_the_end_of_a_connection_wakes_everybody(self) -> None:
        self.serve(told() + [["read", 3], ["close", None]])
        session = self.connect()
        futures = [session.send({"status": True}) for _ in range(3)]
        for future in futures:
            self.assert_raises(future.result, Disconnected, {"path": str(self.path)})
        self.assert_raises(session.status, Disconnected, {"said": ""})
        self.assertTrue(issubclass(Disconnected, Ended) and issubclass(Lost, Ended))
        self.assertFalse(issubclass(Disconnected, Lost))

    def test_what_the_server_says_last(self) -> None:
        for reading in (0, 1):    # whether somebody waits or not
            with self.subTest(reading):
                self.serve(told() + [
                    ["read", reading], ["write", '{"closed":"it has not read"}\n'], ["close", None]])
                session = self.connect()
                with self.assertRaises(Disconnected) as caught:
                    while True:
                        session.status()
                self.assertEqual(caught.exception.said, "it has not read")
                self.path = self.path.with_name("another")

    def test_an_end_of_the_program_behind_the_socket(self) -> None:
        self.serve(told('{"lost":"the session has ended"}', INSERTED % (1, 4)))
        session = self.connect()
        self.assert_raises(session.status, Lost, {"status": None, "standard_error": "the session has ended"})
        self.assertEqual(session.insert("acct", [1, "ann", 0]).slot, 4)    # It was started again.

    def test_an_end_before_the_opening_is_answered(self) -> None:
        self.serve([["read", 1], ["close", None]])
        self.assertRaises(Disconnected, self.connect)

    def test_a_socket_that_is_not_there(self) -> None:
        self.assert_raises(self.connect, NotConnected, {"path": str(self.path)})
        self.assertRaises(NotConnected, Session.connect, "x" * 200, [ACCT])

    def test_closing_ends_this_connection_alone(self) -> None:
        server = self.serve(told(), told(INSERTED % (5, 5)))
        first, second = self.connect(), self.connect()
        first.close()
        first.close()
        self.assertTrue(server.ended[0].wait(30))
        self.assertFalse(server.ended[1].is_set())
        self.assertRaises(Closed, first.status)
        self.assertEqual(second.insert("acct", [1, "ann", 0]).slot, 5)

    def test_what_was_sent_is_answered_before_the_end(self) -> None:
        server = self.serve(told() + [["read", 1], ["wait", None], ["write", INSERTED % (1, 1) + "\n"]])
        session = self.connect()
        future = session.send(insert("acct", [1, "ann", 0]))
        closer = threading.Thread(target=session.close)
        closer.start()
        server.go_on.set()
        closer.join(30)
        self.assertEqual(future.result(0).slot, 1)

    def test_a_server_that_answers_no_more_and_a_close(self) -> None:
        server = self.serve(told() + [["read", 1], ["wait", None]])
        session = self.connect(timeout=0.2)
        future = session.send({"status": True})
        session.close()
        self.assert_raises(lambda: future.result(0), Disconnected, {})
        server.go_on.set()

    def test_an_answer_that_comes_too_late(self) -> None:
        answers = '{"call":8,' + LATER[1:] + "\n" + INSERTED % (9, 8) + "\n"
        server = self.serve(told() + [["read", 2], ["wait", None], ["write", answers]])
        session = self.connect()
        self.assert_raises(lambda: session.status(timeout=0.05), NoAnswer, {"seconds": 0.05})
        future = session.send(insert("acct", [1, "ann", 0]))
        server.go_on.set()
        self.assertEqual(future.result(30).slot, 8)    # Its answer is its own.

    def test_connecting_again(self) -> None:
        self.serve(told() + [["read", 1], ["close", None]], told(INSERTED % (5, 3)))
        session = self.connect(reopen=True)
        self.assertRaises(Disconnected, session.status)
        self.assertEqual(session.insert("acct", [1, "ann", 0]).slot, 3)
