"""Sessions with a log on real disks that fail some writes: what was answered is there at the next start
but one, after a power failure.

There is a class for each kind of file system: `python3 -m unittest tests.disks.OnXfs`. A disk is a file behind
a loop device, and fails as tests/failing_disk.c has it. This needs root, loop devices, FUSE with its headers, a
C compiler and the makers of the file systems. It takes a minute.
"""
import json
import signal
import sys
import unittest
from typing import Callable, Optional, Sequence

from tests.support import fixtures
from tests.support.crashes import CrashCase
from tests.support.failing_disk import Disk, in_namespace, leave_out_where_impossible, server
from tests.support.held_session import Held
from tests.support.log_files import CANNOT_WRITE, OPENING, STATUS, data_of, insert, write

PAGE = 4096  # bytes of a page of the kernel, and of a block of these file systems
BAD = 'BADBADBAD'  # what no disk takes that is told to fail
BEHIND = 10  # requests behind a failure
FIRST = [insert(key) for key in range(1, 20)]
Trial = Callable[[Disk, str], int]  # on a file of a disk: how many requests were answered at last


def large(key: int) -> str:
    """A request of five pages, all of which hold the text that fails."""
    rows = [{'insert': 'acct', 'row': [1_000_000 + key * 16 + place, BAD * 110, 1]} for place in range(16)]
    return json.dumps({'do': rows}, separators=(',', ':'))


class OnADisk(CrashCase):
    """Each test has a new disk."""
    kind: str

    @classmethod
    def setUpClass(cls) -> None:
        super().setUpClass()
        leave_out_where_impossible(cls.kind)

    def try_on_a_disk(self, trial: Trial) -> None:
        """What a trial has answered is there behind a power failure."""
        def try_it(outside: int) -> None:
            with Disk(server(), self.new_folder(), self.kind, outside) as disk:
                file = f'{disk.files}/log'
                answered = trial(disk, file)
                disk.lose_power()
                there = self.time_of(file)
                self.assertGreaterEqual(there, answered,
                                        f'{answered - there} requests are lost: {answered} answered, {there} there')
        in_namespace(try_it)

    def time_of(self, file: str) -> int:
        """The time that a start tells."""
        status, answers, told = self.whole(file, [OPENING, STATUS])
        self.assert_same((status, len(answers)), (0, 2), f'no start behind a power failure: {told}')
        return int(json.loads(answers[1])['time'])

    def start(self, file: str, lines: Sequence[str] = (), settings: Optional[dict[str, str]] = None) -> Held:
        """A session that has answered these lines, each a write."""
        held = self.held(file, settings)
        try:
            answered = len(held.asked([OPENING, *lines]))
            if answered < 1 + len(lines):
                self.fail(f'a session on a whole disk answers {answered} lines, and ends: {held.end()}')
        except BaseException:
            held.kill()
            raise
        return held

    def fail_a_line(self, held: Held, line: str, disk: Disk, file: str, starts: int = 0) -> None:
        """The session gets a line that the disk fails, and ends; so do some starts, and then it is whole
        again."""
        disk.fail(BAD)
        answer = held.ask(line)
        status, _, told = held.end()
        self.assert_same((answer, status), (None, 4), f'a disk that fails: {told}')
        self.assert_that(told.startswith(CANNOT_WRITE), f'a disk that fails: {told}')
        for _ in range(starts):
            status, answers, told = self.whole(file, [OPENING, STATUS])
            self.assert_that(status in (0, 1, 4) and (status == 0) == (len(answers) == 2),
                            f'a start on a disk that fails: status {status}, {told!r}, {answers}')
        disk.heal()

    def go_on(self, file: str) -> int:
        """A start, and some requests behind it: how far they were answered."""
        with self.start(file, [insert(key, 'bob') for key in range(1001, 1001 + BEHIND)]) as held:
            answer = held.ask_value(STATUS)
            return int(answer['time']) if answer else -1

    def fail_in_a_page(self, disk: Disk, file: str, line: str, starts: int = 0) -> int:
        with self.start(file, FIRST) as held:
            self.fail_a_line(held, line, disk, file, starts)
        return self.go_on(file)

    # Tests

    def test_a_line_in_a_page_that_has_others(self) -> None:
        self.try_on_a_disk(lambda disk, file: self.fail_in_a_page(disk, file, insert(20, BAD * 3)))

    def test_a_line_in_a_page_of_its_own(self) -> None:
        """The lines before it end where a page ends."""
        def fail(disk: Disk, file: str) -> int:
            with self.start(file, FIRST) as held:
                size = len(data_of(file).split(b'\0')[0])
                line = insert(20, '')
                held.ask(line + ' ' * ((-size - len(line) - 1) % PAGE))
                self.fail_a_line(held, insert(21, BAD * 3), disk, file)
            return self.go_on(file)
        self.try_on_a_disk(fail)

    def test_a_line_of_some_pages(self) -> None:
        self.try_on_a_disk(lambda disk, file: self.fail_in_a_page(disk, file, large(1)))

    def test_a_line_of_some_pages_and_starts_while_it_fails(self) -> None:
        """As where something starts a session again each time that it ends."""
        self.try_on_a_disk(lambda disk, file: self.fail_in_a_page(disk, file, large(1), 3))

    def test_a_session_that_is_killed_between_a_write_and_its_sync(self) -> None:
        """What it had written fails when the system writes it, which nobody is told."""
        def kill(disk: Disk, file: str) -> int:
            self.whole(file, [OPENING, *(insert(key) for key in range(1, 6))])
            writing = self.call_of_a_writing(file)
            disk.fail(BAD)
            with self.start(file, (), self.with_calls(file, KILL_AT=writing)) as held:
                answer = held.ask(large(1))
                self.assert_same((answer, held.end().status), (None, -signal.SIGKILL), 'a session that is killed')
            disk.write_back()
            disk.heal()
            for _ in range(2):
                self.whole(file, [OPENING])  # which may tell that writing has failed
            return self.go_on(file)
        self.try_on_a_disk(kill)

    def call_of_a_writing(self, file: str) -> int:
        """The number of the call by which a session on a file, of which this tries a copy, writes a
        line."""
        copied = self.new_file()
        write(copied, data_of(file))
        calls = self.calls_of(self.one_by_one, [OPENING, large(1)], copied)
        return len(calls) - calls[::-1].index('pwrite log')

    def test_a_client_that_opens_its_session_again(self) -> None:
        """It does where the program has ended."""
        sys.path.insert(0, str(fixtures.ROOT / 'clients/python'))
        self.addCleanup(sys.path.remove, str(fixtures.ROOT / 'clients/python'))
        from timetravel import Lost, Session, insert as inserted

        def fail(disk: Disk, file: str) -> int:
            with Session(json.loads(OPENING)['tables'], log=file, reopen=True, timeout=60,
                         command=[self.program, 'session']) as session:
                for key in range(1, 12):
                    session.insert('acct', [key, 'ann', 1])
                disk.fail(BAD)
                with self.assertRaises(Lost, msg='the client is answered what the disk fails'):
                    session.do([inserted('acct', [key, BAD * 110, 1]) for key in range(100, 116)])
                disk.heal()
                for key in range(13, 13 + BEHIND):
                    session.insert('acct', [key, 'bob', 1])
                return int(session.status().time)
        self.try_on_a_disk(fail)


class OnExt4(OnADisk):
    kind = 'ext4'


class OnXfs(OnADisk):
    kind = 'xfs'


class OnBtrfs(OnADisk):
    kind = 'btrfs'


def load_tests(loader: unittest.TestLoader, _tests: unittest.TestSuite, _pattern: Optional[str]) -> unittest.TestSuite:
    """The tests of each kind."""
    return unittest.TestSuite(loader.loadTestsFromTestCase(kind) for kind in (OnExt4, OnXfs, OnBtrfs))
