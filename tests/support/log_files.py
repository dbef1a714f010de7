"""Sessions with a log: what they are given, what their files hold, and what they tell of these."""
import itertools
import os
import re
import subprocess
import unittest
from concurrent.futures import ThreadPoolExecutor
from typing import Any, Callable, Mapping, NamedTuple, Optional, Sequence

from tests.support import cases, fixtures
from tests.support.held_session import PATIENCE, Ended, Held, environment_with
from tests.support.progress import progress

OPENING = ('{"version":2,"tables":[{"name":"acct","columns":[{"name":"id","kind":"int"},'
           '{"name":"owner","kind":"text","partition":true},{"name":"bal","kind":"int"}]}]}')
OPENINGS = [OPENING.replace(':2,', f':{version},', 1) for version in (2, 3, 4)]
STATUS = '{"status":true}'
ROWS = '{"select":"acct","where":[]}'
SLOTS = '{"slots":[1,9]}'
WIDE = '{"insert":"acct","row":[%d,"' + 'x' * 1000 + '",0]}'
# How lines on standard error begin, or all of them. What concerns a file names it.
CANNOT_READ = 'timetravel: cannot read the log'
CANNOT_WRITE = 'timetravel: cannot write the log'
IN_USE = 'timetravel: the log is in use\n'
NO_LOG = 'timetravel: there is no log\n'
CANNOT_ANSWER = 'timetravel: cannot write standard output\n'
CAUSES = CANNOT_READ, CANNOT_WRITE, IN_USE, NO_LOG, CANNOT_ANSWER
MEBIBYTE = 1 << 20  # a log has room up to a multiple of it
MOST_FAILURES = 10  # of trials, behind which no others of theirs are tried
Trial = Callable[..., None]


def insert(key: int, owner: str = 'ann', blanks: int = 0) -> str:
    return '{"insert":"acct","row":[%d,"%s",1]%s}' % (key, owner, ' ' * blanks)


def text_of(lines: Sequence[str]) -> str:
    return ''.join(line + '\n' for line in lines)


def size_with_room(lines: Sequence[str]) -> int:
    """The bytes of a log with these lines while a session has it: there is always a byte 0 behind."""
    return (len(text_of(lines).encode()) // MEBIBYTE + 1) * MEBIBYTE


def is_clean(data: bytes) -> bool:
    """Whether bytes of a file are those that a session leaves that ends well, or none."""
    return not data or b'\0' not in data and data.endswith(b'\n')


def is_told(told: str, cause: str, file: str) -> bool:
    """Whether standard error is one line with a cause, which names a file; and what the system says of
    it, where a call has failed."""
    name = f': {re.escape(file)}'
    name = rf'{name}: .+ \(os error \d+\)' if cause in (CANNOT_READ, CANNOT_WRITE) else f'({name}.*)?'
    return re.fullmatch(f'{re.escape(cause.rstrip())}{name}\n', told) is not None


def is_told_of_line(told: str, number: int, file: str) -> bool:
    """Whether standard error is one line, which says that this line of a file is none of a log."""
    name = re.escape(file)
    return re.fullmatch(f'timetravel: log: ({name}: )?line {number}(: {name}.*)?\n', told) is not None


def are_told_of(lines: Sequence[str], file: str) -> bool:
    """Whether each of these lines on standard error tells of a file, and what the system says of it."""
    return all(re.fullmatch(rf'timetravel: .*{re.escape(file)}.*: .+ \(os error \d+\)', line)
               for line in lines)


def cause_of(told: str) -> str:
    """The cause in a line on standard error, or '' where it is none."""
    return next((cause for cause in CAUSES if told.startswith(cause.rstrip())), '')


def data_of(file: str) -> bytes:
    """What a file has, or nothing where there is none."""
    if not os.path.exists(file):
        return b''
    with open(file, 'rb') as it:
        return it.read()


def write(file: str, data: bytes) -> None:
    with open(file, 'wb') as it:
        it.write(data)


def lines_of_file(file: str) -> list[str]:
    with open(file) as it:
        return it.read().splitlines()


def logged(file: str) -> list[str]:
    """The lines of a file that count."""
    return data_of(file).split(b'\0')[0].decode().split('\n')[:-1]


class Numbered(NamedTuple):
    """What tells a file from the one that takes its name."""
    number: int
    mode: int
    owner: int
    group: int

    @classmethod
    def of(cls, told: os.stat_result) -> 'Numbered':
        return cls(told.st_ino, told.st_mode, told.st_uid, told.st_gid)


class LogCase(unittest.TestCase):
    """Tests with sessions that keep a log, and a folder for their files."""
    program: str
    folder: str

    @classmethod
    def setUpClass(cls) -> None:
        cls.program = str(fixtures.program())

    def setUp(self) -> None:
        self.folder = os.path.realpath(fixtures.temporary_folder(self))
        self._numbers = itertools.count(1)

    # Files and sessions

    def new_file(self) -> str:
        return f'{self.folder}/log{next(self._numbers)}'

    def new_folder(self) -> str:
        made = f'{self.folder}/folder{next(self._numbers)}'
        os.mkdir(made)
        return made

    def words(self, file: str, *options: str) -> list[str]:
        """The command of a session with its log in a file."""
        return [self.program, 'session', *options, '--log', file]

    def whole(self, file: str, lines: Sequence[str], settings: Optional[Mapping[str, str]] = None,
              options: Sequence[str] = (), **user: Any) -> Ended:
        """A session that is given all lines at once, at its end."""
        ended = subprocess.run(self.words(file, *options), input=text_of(lines).encode(), timeout=PATIENCE,
                               capture_output=True, env=environment_with(settings), **user)
        return Ended(ended.returncode, ended.stdout.decode().splitlines(), ended.stderr.decode())

    def one_by_one(self, file: str, lines: Sequence[str],
                   settings: Optional[Mapping[str, str]] = None) -> Ended:
        """A session that gets each line once the one before it is answered, as far as it answers, at its
        end."""
        with Held(self.words(file), settings) as held:
            answers = held.asked(lines)
            ended = held.end()
        return ended._replace(answers=answers)

    def held(self, file: str, settings: Optional[Mapping[str, str]] = None, **user: Any) -> Held:
        """A session that is given one line after another."""
        return Held(self.words(file), settings, **user)

    def killed(self, file: str, lines: Sequence[str],
               settings: Optional[Mapping[str, str]] = None) -> list[str]:
        """The answers of a session that is killed once it has answered these lines."""
        with self.held(file, settings) as held:
            answers = held.asked(lines)
            held.kill()
        return answers

    def leave_unclean(self, file: str, rest: bytes = b'\0') -> None:
        """Leaves a file as a session does that was killed, with these bytes behind its lines."""
        with open(file, 'ab') as it:
            it.write(rest)

    # Trials

    def each_in_threads(self, what: str, trial: Trial, given: Sequence[tuple[str, Sequence[Any]]]) -> None:
        """Tries all that is given, each with a label, some at a time. Each is a subtest. Says how far it is."""
        failed = 0
        progress(0, len(given), what)
        with ThreadPoolExecutor(os.cpu_count()) as threads:
            tried = [threads.submit(trial, *values) for _, values in given]
            try:
                for done, ((label, _), one) in enumerate(zip(given, tried), 1):
                    error = one.exception()
                    failed += error is not None
                    with self.subTest(label):
                        if error is not None:
                            raise error
                    if failed == MOST_FAILURES:
                        self.fail(f'{failed} of the first {done} of {len(given)} fail; the others are not tried')
                    progress(done, len(given), what)
            finally:
                threads.shutdown(cancel_futures=True)

    # What is answered and told

    def assert_same(self, found: object, wanted: object, what: object = '') -> None:
        """This is what is wanted."""
        if found != wanted:
            self.fail(f'{what}\nwanted:   {wanted!r:.2000}\nanswered: {found!r:.2000}'.lstrip())

    def assert_that(self, holds: object, what: object) -> None:
        """It holds; else `what` tells what is wanted, and what was found."""
        if not holds:
            self.fail(str(what))

    def assert_lines(self, found: Sequence[str], wanted: Sequence[str], what: str) -> None:
        """These are the lines that are wanted."""
        if [*found] != [*wanted]:
            self.fail('\n'.join([what, *cases.difference(text_of(wanted).encode(), text_of(found).encode(), 'lines')]))

    def assert_answers(self, given: Sequence[str], answers: Sequence[str], wanted: Sequence[str],
                       what: str) -> None:
        """These lines are answered as it is wanted."""
        pairs = itertools.zip_longest(given, wanted, answers)
        for number, (line, want, answer) in enumerate(pairs, 1):
            if answer != want:
                told = [f'{name}{cases.shown(text, other) if text is not None else None}' for name, text, other in (
                    ('given:    ', line, None), ('wanted:   ', want, answer), ('answered: ', answer, want))]
                self.fail('\n'.join([f'{what}: line {number} of {len(given)}', *told]))

    def assert_ended_well(self, ended: Ended, what: str) -> None:
        self.assert_same((ended.status, ended.told), (0, ''), what)

    def assert_cannot(self, ended: Ended, status: int, cause: str, file: str, what: str) -> None:
        """A session has answered nothing, and ends with a status and one line that tells why."""
        self.assert_same((ended.status, ended.answers), (status, []), f'{what}: {ended.told!r}')
        self.assert_that(is_told(ended.told, cause, file), f'{what}: {ended.told!r} of {file}')

    def assert_told_of_line(self, ended: Ended, number: int, file: str, what: str) -> None:
        """A session has answered nothing, since a line of a file is none of a log."""
        self.assert_same((ended.status, ended.answers), (1, []), f'{what}: {ended.told!r}')
        self.assert_that(is_told_of_line(ended.told, number, file), f'{what}: {ended.told!r}, line {number} of {file}')

    # What files hold

    def assert_data(self, file: str, wanted: bytes, what: str) -> None:
        """A file has these bytes."""
        found = data_of(file)
        if found != wanted:
            at = len(os.path.commonprefix([found, wanted]))
            self.fail(f'{what}: {file} has {len(found)} bytes, wanted are {len(wanted)}, and from byte {at} on '
                      f'{found[at:at + 80]!r} in place of {wanted[at:at + 80]!r}')

    def assert_room(self, file: str, lines: Sequence[str], what: str) -> None:
        """A file has these lines, and bytes 0 behind them, at least one."""
        self.assert_data(file, text_of(lines).encode().ljust(size_with_room(lines), b'\0'),
                         f'{what}: lines with room behind them')

    def assert_lines_alone(self, file: str, lines: Sequence[str], what: str) -> None:
        """A file has these lines and nothing else, as a session leaves it that has ended well."""
        self.assert_data(file, text_of(lines).encode(), f'{what}: lines alone')

    def assert_clean(self, file: str, what: str) -> None:
        """A file has whole lines alone, whichever they are."""
        data = data_of(file)
        self.assert_that(is_clean(data), f'{what}: a log of {len(data)} bytes has not ended: {data[-80:]!r}')

    def assert_unchanged(self, file: str, before: bytes, what: str) -> None:
        """A file that a session has refused is as it was; but a session that has ended well leaves no room
        in it, and the next start makes that first."""
        found = data_of(file)
        has_room = is_clean(before) and found.startswith(before) and not found[len(before):].strip(b'\0')
        if not has_room:
            self.assert_data(file, before, f'{what}: changed, though it was refused')

    def assert_another(self, file: str, before: Numbered, is_another: bool, what: str) -> None:
        """The name of a file is one of another file with the same permissions, or of the same file."""
        found = Numbered.of(os.stat(file))
        self.assert_same(found.number != before.number, is_another, f'{what}: whether it is another file')
        self.assert_same(found[1:], before[1:], f'{what}: mode, owner and group')

    def assert_no_new_log(self, file: str, what: str) -> None:
        """No log that was to take the place of this one is left."""
        self.assertFalse(os.path.lexists(f'{os.path.realpath(file)}.new'), f'{what}: a new log is left')

    def assert_shown(self, file: str, is_torn: bool, what: str) -> None:
        """`timetravel log` prints the lines of a file, tells how many, and leaves it as it is."""
        before, text = data_of(file), text_of(logged(file)).encode()
        torn = ', and a torn rest that counts for nothing' if is_torn else ''
        shown = subprocess.run([self.program, 'log', file], stdin=subprocess.DEVNULL, timeout=PATIENCE,
                               capture_output=True)
        told = f'timetravel: lines: {text.count(10)}, bytes: {len(text)}{torn}\n'
        self.assert_same((shown.returncode, shown.stderr.decode()), (0, told), f'{what}: timetravel log')
        self.assert_same(shown.stdout, text, f'{what}: timetravel log')
        self.assert_data(file, before, f'{what}: changed by timetravel log')

    def assert_goes_on(self, file: str, what: str) -> None:
        """A session on a file answers as one that was given its lines alone, also before an opening; and
        leaves these lines in it, and nothing else."""
        before = logged(file)
        questions = [SLOTS, STATUS, ROWS]
        given = [SLOTS, OPENING, STATUS, ROWS] if before else [OPENING, *questions]
        ended = self.whole(file, given)
        self.assert_ended_well(ended, f'{what}: the next start')
        wanted = self.whole(self.new_file(), [*(before or [OPENING]), *questions]).answers
        answers = [(line, answer) for line, answer in zip(given, ended.answers) if line != OPENING]
        self.assert_answers(questions, [answer for _, answer in answers], wanted[-len(questions):],
                            f'{what}: the next start on a log of {len(before)} lines')
        self.assert_lines_alone(file, before or [OPENING], f'{what}: the next start')
        self.assert_no_new_log(file, what)
        self.assert_shown(file, False, what)
