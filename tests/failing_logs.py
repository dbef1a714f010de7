"""Sessions with a log on a disk that promises no more than it has to.

Each call of a session on its file, on the one that is made anew, and on their folder fails in turn, once
and for good, and is the last one in turn: whatever was answered is there at the next start and at the one
behind it, and behind a power failure after each of them. The calls fail by a shared object
(tests/tear_unsynced.c), which also keeps what a power failure leaves; a C compiler is needed. With
LOG_CALLS_STEP=10 each tenth trial is made, and each of a naming; without it all are, in a minute.
"""
import json
import os
import shutil
import signal
from typing import Any, NamedTuple, Optional, Sequence

from tests.support.crashes import FOR_GOOD, CrashCase, Setting
from tests.support.held_session import Ended
from tests.support.log_files import (
    CANNOT_ANSWER, CANNOT_READ, CANNOT_WRITE, IN_USE, OPENING, ROWS, Trial, data_of, insert, is_told)

STEP = int(os.environ.get('LOG_CALLS_STEP', 1))
FORGET = '{"forget":%d}'
# What a session is given behind the opening, on a log that has two requests or one more.
SESSION = [insert(101), insert(102), FORGET % 2, insert(103), FORGET % 4, FORGET % 4, insert(104)]
# How the log was left: where there is none; by a session that has ended; by one that was killed once it
# had answered, or between a write and its sync; by one whose sync has failed.
WAYS = ['none', 'ended', 'killed', 'written', 'failed']
# Calls that may be carried out and fail all the same.
DONE = ['open', 'write', 'pwrite', 'ftruncate', 'fallocate', 'fsync', 'fdatasync', 'rename', 'unlink',
        'flock', 'fchown', 'fchmod']
ON_THE_LOG = {f'{call} log' for call in ('write', 'pwrite', 'ftruncate', 'fallocate', 'fsync', 'fdatasync')}
AT_THE_START = {'rename', 'pwrite new', 'write new', 'fsync new', 'ftruncate new', *ON_THE_LOG}


class Left:
    """A log, its disk, and which requests were answered: `least`; `most` were sent."""

    def __init__(self, file: str, disk: str) -> None:
        self.file, self.disk, self.image = file, disk, f'{disk}/log'
        self.least = self.most = 0

    def count(self, answers: Sequence[str]) -> None:
        """Counts the requests that a session has answered, and one that it may have begun."""
        if answers:  # The opening tells what is there.
            self.least = max(self.least, json.loads(answers[0])['time'])
        self.least += sum('"inserted"' in answer for answer in answers)
        self.most = max(self.most, self.least + 1)


class Failure(NamedTuple):
    """A call of a session that fails, and perhaps all from it on; or that is carried out and fails."""
    way: str  # how the log was left
    calls: list[str]  # of the session where none fails
    call: int
    last: int
    is_done: bool
    seed: Optional[int]

    @property
    def name(self) -> str:
        return self.calls[self.call - 1]

    def __str__(self) -> str:
        how = ' but is done' if self.is_done else ' and all behind it' if self.last == FOR_GOOD else ''
        return f'log left {self.way}, call {self.call} fails{how}: {self.name}'

    def settings(self) -> dict[str, Setting]:
        """Those of the shared object."""
        settings: dict[str, Setting] = {'FAIL_FROM': self.call, 'FAIL_TO': self.last, 'FAIL_UNLINK': 1}
        if self.is_done:
            settings['FAIL_DONE'] = 1
        if self.seed is not None:
            settings['TEAR_SEED'] = self.seed
        return settings


class FailingLogs(CrashCase):
    usual: list[str]  # the calls of a session with three requests on a new log

    def setUp(self) -> None:
        super().setUp()
        self.usual = self.calls_on_disk(Left(self.new_file(), self.new_folder()),
                                        [OPENING, insert(1), insert(2), insert(3)])

    def on_disk(self, left: Left, **settings: Setting) -> dict[str, str]:
        return self.with_calls(left.file, DISK=left.disk, **settings)

    def calls_on_disk(self, left: Left, lines: Sequence[str]) -> list[str]:
        """The calls of a session on a log, in their order."""
        return self.calls_of(self.one_by_one, lines, left.file, DISK=left.disk)

    def calls_of_session(self, way: str) -> list[str]:
        """The calls of a session on a log that was left in a way."""
        calls = self.calls_on_disk(self.left(way), [OPENING, *SESSION])
        self.assertLessEqual({'open new', 'rename', 'fsync folder'}, {*calls}, 'calls that make a log anew')
        if way not in ('none', 'ended'):
            self.assertIn('rename', calls[:calls.index('write')], f'a start on a log left {way} makes it anew')
        return calls

    def left(self, way: str) -> Left:
        """A log that was left in a way."""
        left = Left(self.new_file(), self.new_folder())
        first = [OPENING, insert(1), insert(2)]
        if way == 'none':
            return left
        left.least = left.most = 2
        if way == 'ended':
            self.assert_ended_well(self.whole(left.file, first, self.on_disk(left)), 'a log to begin with')
            return left
        settings: dict[str, Setting] = {}
        if way == 'written':
            settings = {'KILL_AT': self.number_of('pwrite log')}
        elif way == 'failed':
            number = self.number_of('fdatasync log', 'fsync log')
            settings = {'FAIL_FROM': number, 'FAIL_TO': number}
        with self.held(left.file, self.on_disk(left, **settings)) as held:
            self.assert_same(len(held.asked(first)), len(first), f'a log to begin with: {way}')
            if way != 'killed':
                left.most, answer = 3, held.ask(insert(3))
                self.assert_same((answer, held.end().status), (None, 4 if way == 'failed' else -signal.SIGKILL), way)
        return left

    def number_of(self, *names: str) -> int:
        """The number of the call of one of these names that belongs to the third request on a new log."""
        answered = [place for place, call in enumerate(self.usual) if call == 'write']
        return next(place for place in range(answered[2], len(self.usual)) if self.usual[place] in names) + 1

    def some(self, what: str, trial: Trial, given: Sequence[tuple[str, str, Sequence[Any]]]) -> None:
        """Tries each that is given, or each of STEP and each of a naming: with a label, and the call's name."""
        tried = [(label, values) for place, (label, name, values) in enumerate(given)
                 if place % STEP == 0 or name == 'rename']
        self.each_in_threads(what, trial, tried)

    # Trials

    def test_a_start_while_another_one_makes_the_log_anew_finds_it_in_use(self) -> None:
        """It takes nothing away."""
        calls = self.calls_on_disk(self.left('killed'), [OPENING])
        for call in range(calls.index('flock log') + 1, calls.index('write') + 1):
            with self.subTest(f'a second start behind call {call}: {calls[call - 1]}'):
                self.start_behind(call)

    def start_behind(self, call: int) -> None:
        left = self.left('killed')
        with self.held(left.file, self.on_disk(left, STOP_AT=call)) as held:
            _, status = os.waitpid(held.process.pid, os.WUNTRACED)
            self.assert_that(os.WIFSTOPPED(status), f'status {status} of a start that is to be stopped')
            before = os.path.lexists(f'{left.file}.new')
            self.assert_cannot(self.whole(left.file, [OPENING, ROWS]), 1, IN_USE, left.file, 'a second start')
            self.assert_same(os.path.lexists(f'{left.file}.new'), before, 'whether there is a new log')
            held.process.send_signal(signal.SIGCONT)
            opened = held.ask_value(OPENING)
            self.assert_same((opened or {}).get('time'), 2, opened)
            self.assert_same(held.end().status, 0, 'the first start')
        self.assert_on_disk(left, 'the power fails')

    def test_a_session_that_is_killed_behind_a_call_loses_no_answered_request(self) -> None:
        given = []
        for way in WAYS:
            calls = self.calls_of_session(way)
            for call, name in enumerate(calls, 1):
                for seed in (None, call) if way in ('written', 'failed') else (None,):
                    torn = '' if seed is None else ' and torn'
                    given.append((f'log left {way}, killed{torn} behind call {call}: {name}', name, (way, call, seed)))
        self.some('sessions that are killed behind a call', self.kill_once, given)

    def kill_once(self, way: str, call: int, seed: Optional[int]) -> None:
        left = self.left(way)
        seeded: dict[str, Setting] = {} if seed is None else {'TEAR_SEED': seed}
        status, answers, told = self.one_by_one(left.file, [OPENING, *SESSION],
                                                self.on_disk(left, KILL_AT=call, **seeded))
        self.assert_same(status, -signal.SIGKILL, told)
        left.count(answers)
        self.assert_goes_on_from_disk(left)

    def test_a_call_that_fails_once_or_for_good_loses_no_answered_request(self) -> None:
        self.fail_all([(False, (0, FOR_GOOD))])

    def test_a_call_that_is_carried_out_and_fails_loses_no_answered_request(self) -> None:
        self.fail_all([(True, (0,))])

    def fail_all(self, kinds: Sequence[tuple[bool, Sequence[int]]]) -> None:
        """Each call fails, in the kinds of failures that are given."""
        given = []
        for way in WAYS:
            calls = self.calls_of_session(way)
            for call, name in enumerate(calls, 1):
                for is_done, lasts in kinds:
                    if is_done and name.split()[0] not in DONE:
                        continue
                    seed = call if (call % 2 == 1) != is_done else None
                    failures = [Failure(way, calls, call, max(call, last), is_done, seed) for last in lasts]
                    given += [(str(failure), name, (failure,)) for failure in failures]
        self.some('calls that fail', self.fail_once, given)

    def fail_once(self, failure: Failure) -> None:
        left, name, calls, call = self.left(failure.way), failure.name, failure.calls, failure.call
        before = data_of(left.file)
        ended = self.one_by_one(left.file, [OPENING, *SESSION], self.on_disk(left, **failure.settings()))
        left.count(ended.answers)
        is_answered = len(ended.answers) == len(SESSION) + 1
        is_at_the_end = call > len(calls) - calls[::-1].index('write') or name == 'write' and failure.is_done
        self.assert_that(is_answered if ended.status == 0 else not is_answered or is_at_the_end,
                        f'status {ended.status}, {ended.told!r}, answered: {ended.answers}')
        if call <= calls.index('write'):
            self.assert_failed_at_the_start(name, ended)
            was_named = 'rename' in calls[:call - 1] or name == 'rename' and failure.is_done
            if ended.status != 0 and failure.way != 'none' and not was_named:
                self.assert_not_begun(left.file, before, failure.way)
        else:
            self.assert_failed_in_a_session(failure, ended)
        self.assert_goes_on_from_disk(left)

    def assert_failed_at_the_start(self, name: str, ended: Ended) -> None:
        """It ends with no answer, but where what fails is about a file that it doesn't need."""
        status, answers, told = ended
        self.assert_that(status in (1, 4) and not answers or name in ('unlink', 'statx'),
                        f'at the start: status {status}, {told!r}, answered: {answers}')
        begins = {0: '', 1: CANNOT_READ, 4: CANNOT_WRITE}.get(status, ' ')
        self.assert_that(told.startswith(begins) or is_told(told, CANNOT_ANSWER, '') and answers == [],
                        f'at the start: status {status}, {told!r}')
        if name in AT_THE_START:
            self.assert_same(status, 4, f'at the start: {told!r}')

    def assert_failed_in_a_session(self, failure: Failure, ended: Ended) -> None:
        status, answers, told = ended
        name, is_for_good = failure.name, failure.last == FOR_GOOD
        refused = [answer for answer in answers if answer.endswith('"refused":"log"}')]
        shown = f'status {status}, {told!r}, answered: {answers}'
        if name == 'write':
            self.assert_that(status == 4 and is_told(told, CANNOT_ANSWER, ''), shown)
        elif name in ON_THE_LOG or name.endswith(' folder') or name == 'rename' and failure.is_done:
            self.assert_that(status == 4 and told.startswith(CANNOT_WRITE) and not refused, shown)
        elif name in ('unlink', 'statx'):
            self.assertIn(status, (0, 4), shown)
        elif not is_for_good:
            self.assert_that(status == 0 and refused or status == 4 and name == 'pread log', f'forgetting: {shown}')
        if is_for_good and name != 'unlink':
            self.assert_same(status, 4, f'for good: {shown}')

    # What is there

    def assert_not_begun(self, file: str, before: bytes, way: str) -> None:
        """A start that has failed has changed nothing, but for room behind the lines of an ended log."""
        after = data_of(file)
        if way != 'ended' or after.rstrip(b'\0') != before:
            self.assert_data(file, before, 'the log has changed')

    def assert_goes_on_from_disk(self, left: Left) -> None:
        """What was answered is there behind a power failure, at the next start, and at the one behind it; so
        is what these answer."""
        self.assert_on_disk(left, 'the power fails')
        with self.held(left.file, self.on_disk(left)) as held:
            opened = held.ask_value(OPENING)
            answers = held.asked([insert(key) for key in (201, 202)])
            if opened is None or len(answers) < 2:
                self.fail(f'the next start: {opened}, {answers}, {held.end()}')
        self.assert_that(left.least <= opened['time'] <= left.most,
                        f'the next start: wanted {left.least} to {left.most} requests, answered: {opened}')
        self.assert_no_new_log(left.file, 'the next start')
        left.least = left.most = opened['time'] + 2
        self.assert_on_disk(left, 'the power fails behind the next start')
        time = self.time_of(left.file, 'the start behind the next', self.on_disk(left))
        self.assert_same(time, left.least, 'the start behind the next: requests')
        self.assert_clean(left.file, 'the start behind the next')
        self.assert_data(left.image, data_of(left.file), 'an end that is not on the disk')
        self.assert_on_disk(left, 'the power fails at last')

    def assert_on_disk(self, left: Left, what: str) -> None:
        """What a power failure leaves has what was answered, and a start goes on there."""
        if not os.path.exists(left.image):
            self.assert_same(left.least, 0, f'{what}: there is no log; requests that were answered')
            return
        copied = self.new_file()
        shutil.copy(left.image, copied)
        time = self.time_of(copied, what)
        self.assert_that(left.least <= time <= left.most,
                        f'{what}: wanted {left.least} to {left.most} requests, there are {time}')
        self.assert_clean(copied, what)
        os.remove(copied)

    def time_of(self, file: str, what: str, settings: Optional[dict[str, str]] = None) -> int:
        """How many requests a start tells, which are whole and in order."""
        status, answers, told = self.whole(file, [OPENING, ROWS], settings)
        self.assert_same((status, len(answers)), (0, 2), f'{what}: {told!r}, {answers}')
        time, keys = json.loads(answers[0])['time'], [row[0] for row in json.loads(answers[1])['rows']]
        self.assert_same(len(keys), time, f'{what}: as many rows as requests, of {keys}')
        return int(time)
