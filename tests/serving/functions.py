"""The server's functions, without a server."""

from __future__ import annotations

import tempfile
import unittest
from pathlib import Path
from typing import Any
from unittest.mock import Mock

from timetravel.__main__ import _rows as rows_of_tables
from timetravel.joining import is_request
from timetravel.lines import LONGEST, Cutter, SocketError, listen
from timetravel.metrics import KINDS, kinds_of, log_bytes, without_blank
from timetravel.serving import existing


class Functions(unittest.TestCase):
    def test_lines_are_cut(self) -> None:
        data = b"one\n\ntwo\r\nthree and four\nfive"
        for size in range(1, len(data) + 1):
            cutter = Cutter()
            lines = b"".join(cutter.take(data[at:at + size]) for at in range(0, len(data), size))
            self.assertEqual((lines, cutter.begun), (data[:-4], 4))
            self.assertEqual(cutter.finish(), b"five\n")
            self.assertEqual(cutter.finish(), b"")

    def test_a_line_that_is_too_long_is_not_held(self) -> None:
        for length, held in ((LONGEST, LONGEST), (LONGEST + 1, LONGEST + 1), (3 * LONGEST, LONGEST + 1)):
            cutter = Cutter()
            piece = b" " * (1 << 16)
            for _ in range(length >> 16):
                self.assertEqual(cutter.take(piece), b"")
            lines = cutter.take(b" " * (length % (1 << 16)) + b"\nnext\nbeg")
            self.assertEqual(lines.index(b"\n"), held)
            self.assertEqual((lines[held:], cutter.finish()), (b"\nnext\n", b"beg\n"))

    def test_rows_that_are_not_told_end_the_metrics(self) -> None:
        tables, refused = b'{"call":1,"tables":[{"name":"acct"}]}', b'{"call":2,"refused":"memory"}'
        for answers in ([tables, refused], [refused]):
            conversation: Any = Mock(**{"ask.side_effect": answers})
            with self.assertRaisesRegex(SocketError, '"refused":"memory"'):
                rows_of_tables(conversation)

    def test_blank_lines_are_left_out(self) -> None:
        self.assertEqual(without_blank(b"\n \t\r\n{}\n\n\v\n\r\n"), (b"{}\n\v\n", 2))
        self.assertEqual(without_blank(b" \n"), (b"", 0))

    def test_kinds_are_found(self) -> None:
        lines = [b'{"%s":1}' % kind.encode() for kind in KINDS]
        lines += [b'{"worker":2,"if": 7, "do":[]}', b' {"row":["update"],"insert":"acct"}', b"[]", b"\xff",
                  b'{"select":"acct","do":1}', b"[" * 5000]
        self.assertEqual(kinds_of(b"".join(line + b"\n" for line in lines)),
                         [kind.encode() for kind in KINDS]
                         + [b"do", b"insert", b"other", b"other", b"select", b"other"])

    def test_requests_are_told_from_openings(self) -> None:
        for line in (b'{"status":true}', b'{"insert":"t","row":[-1,"x"],"worker":2}\r', b"{}",
                     b' {"Version":2}', b'{"select":"t","where":[["a",1.5]]}', b'{"join":true}',
                     b'{"\\u0076":2}'):
            self.assertTrue(is_request(line), line)
        for line in (b'{"version":2,"tables":[]}', b'{"insert":"t","row":[1],"version":null}', b"[]", b"7",
                     b"{", b"\xff", b'{"\\u0076ersion":4}', b'{"status":true,"status":true}', b'{"step":NaN}',
                     b'\xef\xbb\xbf{}', b'{"status":true} {}', b"[" * 100_000):
            self.assertFalse(is_request(line), line[:80])

    def test_the_command_of_a_log_that_is_there(self) -> None:
        self.assertEqual(existing(["timetravel", "session", "--log", "a"]),
                         ["timetravel", "session", "--existing", "--log", "a"])
        for command in (["timetravel", "session"], ["timetravel", "session", "--log", "a", "--existing"]):
            self.assertEqual(existing(command), command)

    def test_the_bytes_of_a_log(self) -> None:
        with tempfile.TemporaryDirectory() as folder:
            path = f"{folder}/log"
            self.assertIsNone(log_bytes(path))
            for lines, zeros in ((0, 0), (0, 5), (7, 0), (7, 3 << 20), ((1 << 20) + 1, (1 << 20) - 1)):
                Path(path).write_bytes(b"x" * lines + b"\0" * zeros)
                self.assertEqual(log_bytes(path), lines)

    def test_a_socket_is_not_made_twice(self) -> None:
        with tempfile.TemporaryDirectory() as folder:
            path = f"{folder}/socket"
            with listen(path):
                self.assertRaisesRegex(SocketError, "the socket is in use", listen, path)
            listen(path).close()
            self.assertRaisesRegex(SocketError, "too long", listen, f"{folder}/{'x' * 200}")
            self.assertRaisesRegex(SocketError, "No such file", listen, f"{folder}/none/socket")
