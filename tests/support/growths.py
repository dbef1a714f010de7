"""Processes whose growths of memory are refused, by tests/refuse_growth.c, a shared object that stands before
the C library. Growths are counted from 1."""
import itertools
import os
import subprocess
import unittest
from concurrent.futures import ThreadPoolExecutor
from typing import Callable, Iterator, Mapping, Optional, Sequence

from tests.support import fixtures
from tests.support.cases import Answer
from tests.support.held_session import environment_with
from tests.support.log_files import MOST_FAILURES
from tests.support.shared_objects import shared_object

SECONDS = 300  # in which a process has to end; most take less than one
AT_ONCE = 32  # processes that are started before their answers are looked at
ALL = 10 ** 12  # the number of the last growth that is refused, where all from some on are
Wanted = Callable[[int, Answer], str]  # what is wanted at a growth, or '' where the answer may come


class HostileCase(unittest.TestCase):
    """Tests that run the program or built tests, some at a time."""
    program: str
    pool: ThreadPoolExecutor

    @classmethod
    def setUpClass(cls) -> None:
        cls.program = str(fixtures.program())
        cls.pool = ThreadPoolExecutor(os.cpu_count())
        cls.addClassCleanup(cls.pool.shutdown, cancel_futures=True)

    def setUp(self) -> None:
        self.folder = str(fixtures.temporary_folder(self))
        self.failed = 0

    def ran(self, words: Sequence[str], given: bytes, settings: Optional[Mapping[str, str]] = None,
            program: Optional[str] = None) -> Answer:
        """What a program answers, which is the one that is tested where none is named."""
        try:
            ran = subprocess.run([program or self.program, *words], input=given, capture_output=True,
                                 env=environment_with(settings), timeout=SECONDS)
        except subprocess.TimeoutExpired as error:
            return Answer(None, error.stdout or b'', error.stderr or b'')
        return Answer(ran.returncode, ran.stdout, ran.stderr)

    def assert_wanted(self, wanted: str, what: str, answer: Answer) -> None:
        """Nothing else is wanted than what is answered. Each is a subtest. Behind some that fail, no others are
        tried."""
        with self.subTest(what):
            if wanted:
                self.failed += 1
                self.fail(f'wanted:   {wanted}\nanswered: status {answer.status}, '
                          f'output ..{answer.output[-200:]!r}, error ..{answer.error[-200:]!r}')
        if self.failed == MOST_FAILURES:
            self.fail(f'{self.failed} answers are unlawful; the others are not tried')

    def assert_answer(self, answer: Answer, wanted: Answer, what: str) -> None:
        told = f'status {wanted.status}, output ..{wanted.output[-200:]!r}, error {wanted.error!r}'
        self.assert_wanted('' if answer == wanted else told, what, answer)


class GrowthCase(HostileCase):
    """Tests of growths that are refused. They are left out where there is no C compiler."""
    library: str

    @classmethod
    def setUpClass(cls) -> None:
        super().setUpClass()
        cls.library = shared_object('refuse_growth')

    def refused(self, words: Sequence[str], given: bytes, first: int, last: int,
                scenarios: Optional[str] = None) -> tuple[bool, Answer]:
        """A run in which the growths from first to last are refused: whether one was met, and the answer.
        In one of built tests those within marks are."""
        mark = f'{self.folder}/refused.{first}'
        settings = {'LD_PRELOAD': self.library, 'REFUSE_FROM': str(first), 'REFUSE_TO': str(last), 'REFUSED': mark}
        if scenarios:
            settings['BETWEEN_MARKS'] = '1'
        answer = self.ran(words, given, settings, scenarios)
        was_met = os.path.exists(mark)
        if was_met:
            os.remove(mark)
        return was_met, answer

    def refused_in_turn(self, words: Sequence[str], given: bytes, all_behind: bool,
                        scenarios: Optional[str] = None) -> Iterator[tuple[int, Answer]]:
        """Refuses each growth of a run in turn, or all from it on, until none is met: its number, and the
        answer."""
        def one(number: int) -> tuple[bool, Answer]:
            return self.refused(words, given, number, ALL if all_behind else number, scenarios)
        for some in itertools.count(1, AT_ONCE):
            numbers, is_met = range(some, some + AT_ONCE), True
            for number, (is_met, answer) in zip(numbers, [*self.pool.map(one, numbers)]):
                if is_met:
                    yield number, answer
            if not is_met:
                return

    def growths_of(self, words: Sequence[str], given: bytes) -> int:
        """How many growths a run has: it meets the refusal of each of them, and of no other one."""
        least, most = 0, 1
        while self.refused(words, given, most, most)[0]:
            least, most = most, most * 2
        while most - least > 1:
            middle = (least + most) // 2
            if self.refused(words, given, middle, middle)[0]:
                least = middle
            else:
                most = middle
        return least

    def refuse_growths(self, words: Sequence[str], name: str, given: bytes, wanted_once: Wanted,
                       wanted: Wanted) -> int:
        """Refuses each growth of a run or a session, once and with all behind it. How many the first are,
        which is more than none."""
        counts = []
        for all_behind in (False, True):
            count = 0
            for number, answer in self.refused_in_turn(words, given, all_behind):
                which = f'from growth {number} on' if all_behind else f'at growth {number}'
                told = (wanted if all_behind else wanted_once)(number, answer)
                self.assert_wanted(told, f'{" ".join(words)} of {name}, {which}', answer)
                count += 1
            counts.append(count)
        self.assertTrue(all(counts), f'{" ".join(words)} of {name}: {counts} growths are refused')
        return counts[0]
