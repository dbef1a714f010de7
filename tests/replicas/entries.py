"""How requests stand in an entry of etcd, and lines that forget among others."""

from __future__ import annotations

import unittest

from timetravel.etcd import EntriesGone
from timetravel.following import decoded, encoded
from timetravel.positions import behind
from timetravel.replicas import _alone


class TextOfEntries(unittest.TestCase):
    def test_requests_of_an_entry(self) -> None:
        requests = [(7, b'{"status":true}'), (8, b"\xff no JSON")]
        self.assertEqual(decoded(encoded(b"ab", requests)),
                         [(b"ab-7", b'{"status":true}'), (b"ab-8", b"\xff no JSON")])

    def test_what_is_no_entry(self) -> None:
        for value in (b"", b"x", b"ab-1 x\ny", b"x\n"):
            with self.subTest(value), self.assertRaises(EntriesGone):
                decoded(value)

    def test_lines_that_are_found_again(self) -> None:
        lines = [b"read", b"a", b"refused", b"b", b"read", b"c"]
        self.assertEqual(behind(lines, [b"a", b"b"]), [])
        self.assertEqual(behind(lines, [b"a", b"c", b"d"]), [b"d"])
        self.assertEqual(behind(lines, [b"b", b"a"]), [b"a"])

    def test_lines_that_forget(self) -> None:
        plain = [b'{"select":"acct","where":[]}', b'{"forget":-1}', b'{"forget":true}', b'["forget"]',
                 b'{"forget":1.0}', b'{"forget":', b'{"x":"\\"forget\\""}', b'\xff"forget"']
        forget = [b'{"forget":7}', b'{"worker":2,"if":9,"forget":0}', b'{"\\u0066orget":3}',
                  b' {\r"forget"\t:\r 4 }\r']
        lines = b"".join(line + b"\n" for line in
                         (*plain[:3], forget[0], *plain[3:], forget[1], forget[2], plain[0], forget[3]))
        pieces = list(_alone(lines))
        self.assertEqual(b"".join(piece for piece, _ in pieces), lines)
        self.assertEqual([time for _, time in pieces], [None, 7, None, 0, 3, None, 4])
        self.assertEqual([piece.count(b"\n") for piece, _ in pieces], [3, 1, 5, 1, 1, 1, 1])
        self.assertEqual(list(_alone(b"a\nb\n")), [(b"a\nb\n", None)])
