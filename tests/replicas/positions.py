"""How far a replica's log is, which its position tells."""

from __future__ import annotations

import json
import os
import unittest
from pathlib import Path

from tests.support.fixtures import temporary_folder
from timetravel.positions import Forgetting, LogFile, Position, PositionError, read_position, write_position


class Positions(unittest.TestCase):
    def setUp(self) -> None:
        self.path = str(temporary_folder(self) / "bank.log")

    def log(self, data: bytes, position: Position | None = None) -> LogFile:
        Path(self.path).write_bytes(data)
        if position is not None:
            write_position(self.path + ".position", position)
        log = LogFile(self.path)
        self.addCleanup(log.close)
        return log

    def test_lines_past_the_position_are_told_and_cut_off(self) -> None:
        log = self.log(b"one\ntwo\nthree\nfo\0\0\0", Position(5, 1, 4))
        self.assertEqual(log.read(), [b"two", b"three"])
        log.cut()
        self.assertEqual(Path(self.path).read_bytes(), b"one\n")
        self.assertEqual(log.read(), [])

    def test_a_position_counts_whole_lines(self) -> None:
        log = self.log(b"one\ntwo\nthr\0\0")
        with self.assertRaisesRegex(PositionError, "isn't there"):
            log.read()
        log.note(9)
        self.assertEqual(log.position, Position(9, 2, 8, 0, log.position.digest))
        self.assertEqual(log.read(), [])

    def test_a_position_counts_on(self) -> None:
        log = self.log(b"one\n\0", Position(5, 1, 4))
        log.read()
        Path(self.path).write_bytes(b"one\ntwo\nthr")
        log.note(6, 3)
        counted = log.position
        log.note(6, 3, anew=True)    # from the first line
        self.assertEqual(log.position, counted)
        self.assertEqual((counted.entry, counted.part, counted.lines, counted.bytes), (6, 3, 2, 8))
        self.assertEqual(read_position(self.path + ".position"), counted)
        self.assertEqual(log.read(), [])

    def test_what_is_no_position(self) -> None:
        path = self.path + ".position"
        position = Position(1, 2, 3, 4, "ab", Forgetting(5, 6, 7))
        write_position(path, position)
        self.assertEqual(read_position(path), position)
        told = json.loads(Path(path).read_bytes())
        faulty: list[dict[str, object]] = [
            {"entry": -1}, {"lines": "2"}, {"digest": 1}, {"part": None}, {"more": 1},
            {"forgetting": {"to": 5}}, {"forgetting": 5},
            {"forgetting": {"to": -1, "time": 6, "generation": 7}}]
        for members in faulty:
            with self.subTest(members), self.assertRaises(PositionError):
                Path(path).write_text(json.dumps({**told, **members}))
                read_position(path)
        Path(path).write_text("[]")
        self.assertRaises(PositionError, read_position, path)
        Path(path).write_text('{"entry": 5, "lines": 1, "bytes": 4}')    # as it was written before
        self.assertEqual(read_position(path), Position(5, 1, 4))

    # A log whose ground has two slots, that was made at time 5 when all before time 3 was forgotten.
    ANEW = (b'{"version":2,"ground":{"time":3,"generation":1,"slots":2}}\n'
            b'{"do":[1]}\n{"do":[2]}\n{"worker":1,"do":[4]}\n{"worker":1,"do":[5],"whole":true,"stamp":9}\n')

    def noted_before(self, forgetting: Forgetting | None) -> Position:
        """The position of a log with one line behind which the session forgets."""
        log = self.log(b"one\n")
        log.note(7, 2, forgetting)
        log.close()
        return log.position

    def test_a_log_that_was_made_anew(self) -> None:
        noted = self.noted_before(Forgetting(3, 5, 1))
        pasts: list[list[bytes]] = [[], [b"six", b"seven"]]
        for past in pasts:
            log = self.log(self.ANEW + b"".join(line + b"\n" for line in past) + b"eig\0\0", noted)
            self.assertEqual(log.read(), past)
            position = log.position
            self.assertEqual((position.entry, position.part, position.lines, position.bytes),
                             (7, 2, 5, len(self.ANEW)))
            self.assertIsNone(position.forgetting)
            self.assertEqual(read_position(self.path + ".position"), noted)
            log.cut()
            self.assertEqual(Path(self.path).read_bytes(), self.ANEW)
            self.assertEqual(log.read(), [])
            log.close()

    def test_a_log_that_was_not_made_anew_after_all(self) -> None:
        noted = self.noted_before(Forgetting(3, 5, 1))
        log = self.log(b"one\ntwo\n", noted)
        self.assertEqual(log.read(), [b"two"])
        self.assertEqual(log.position, noted)

    def test_a_log_that_was_made_anew_by_another_request(self) -> None:
        repair = self.ANEW.replace(b'{"worker":1,"do":[4]}', b'{"worker":1,"begin":[]}')
        for forgetting, data in ((None, self.ANEW), (Forgetting(2, 5, 1), self.ANEW),
                                 (Forgetting(3, 5, 2), self.ANEW), (Forgetting(3, 6, 1), self.ANEW),
                                 (Forgetting(3, 5, 1), repair)):
            with self.subTest(forgetting), self.assertRaisesRegex(PositionError, "hasn't the lines"):
                noted = self.noted_before(forgetting)
                log = self.log(data, noted)
                try:
                    log.read()
                finally:
                    log.close()

    def test_a_log_with_as_many_bytes_and_other_lines(self) -> None:
        log = self.log(b"two\n", self.noted_before(None))
        with self.assertRaisesRegex(PositionError, "hasn't the lines"):
            log.read()

    def test_a_log_behind_a_link(self) -> None:
        other = os.path.join(os.path.dirname(self.path), "other")
        Path(other).write_bytes(b"one\ntwo\n\0")
        os.chmod(other, 0o640)
        os.symlink(other, self.path)
        write_position(self.path + ".position", Position(5, 1, 4))
        log = LogFile(self.path)
        self.addCleanup(log.close)
        self.assertEqual(log.read(), [b"two"])
        log.cut()
        self.assertTrue(os.path.islink(self.path))
        self.assertEqual((Path(other).read_bytes(), os.stat(other).st_mode & 0o777), (b"one\n", 0o640))

    def test_a_log_that_is_shorter_or_another(self) -> None:
        for data in (b"", b"one\n", b"one, two\nthree"):
            with self.subTest(data), self.assertRaisesRegex(PositionError, "hasn't the lines"):
                log = self.log(data, Position(5, 2, 8))
                try:
                    log.read()
                finally:
                    log.close()

    def test_one_replica_has_a_log(self) -> None:
        first = self.log(b"")
        with self.assertRaisesRegex(PositionError, "another replica"):
            LogFile(self.path)
        self.assertEqual(first.read(), [])
