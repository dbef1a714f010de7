"""The checker of histories that the test with kills and stops uses."""

from __future__ import annotations

import unittest

from tests.support.linearizability import Operation, linearizable
from tests.support.registers import model


class Histories(unittest.TestCase):
    def of(self, *operations: Operation) -> bool:
        return linearizable(operations, model, (0, (0,)))

    def test_what_is_and_what_is_not(self) -> None:
        write = Operation(("write", 0, 7, 0), 0.0, ("slot", 1), 1.0)
        for answer, called, expected in (((1, 7), 2.0, True), ((0, 0), 2.0, False), ((0, 0), 0.5, True),
                                         ((1, 7), 0.5, True), ((1, 0), 0.5, False)):
            with self.subTest(answer=answer, called=called):
                read = Operation(("read", 0, 0, 0), called, answer, 3.0)
                self.assertEqual(self.of(write, read), expected)

    def test_a_request_without_an_answer(self) -> None:
        write = Operation(("write", 0, 7, 0), 0.0, ("slot", 1))
        old = Operation(("read", 0, 0, 0), 2.0, (0, 0), 3.0)
        new = Operation(("read", 0, 0, 0), 4.0, (1, 7), 5.0)
        self.assertTrue(self.of(write, old, new))
        self.assertTrue(self.of(write, old))
        self.assertFalse(self.of(old, new))
        old.called, old.answered = 6.0, 7.0
        self.assertFalse(self.of(write, old, new))
