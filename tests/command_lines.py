"""Command lines: what faulty ones are told, help, the version, and standard streams that take or
give nothing.

  tests/help/     the help of each command, and of the program (timetravel)
"""
import subprocess
import unittest
from typing import Iterator, Optional

from tests.support.cases import Answer, Case, Word, check, failure
from tests.support.fixtures import ROOT, VERSION, launcher, program
from tests.support.methods import method_for_each
from tests.support.texts import text_of

UNREAD = b'unread\n'  # standard input of a command line that isn't carried out
ONCE = 'cannot be used multiple times'
NO_UTF8 = b'\xff'


def answers() -> Iterator[Case]:
    """Help and the version: status 0, on standard output only."""
    yield Case(['--help'], output=text_of('tests/help/timetravel').encode())
    for command in 'replay', 'run', 'session', 'log':
        yield Case([command, '--help'], output=text_of(f'tests/help/{command}').encode())
    yield Case(['--version'], output=f'timetravel {VERSION}\n'.encode())


# Command lines that can't be carried out

def faulty(words: str, wrong: str, usage: Optional[str] = None) -> Case:
    """A faulty command line of these words: status 2, and on standard error only what is wrong with
    it, with the usage if there is one."""
    return faulty_words(words.split(), wrong, usage)


def faulty_words(words: list[str], wrong: str, usage: Optional[str] = None) -> Case:
    told = f'\nUsage: timetravel {usage}\n' if usage else ''
    return Case(words, UNREAD, 2, b'', f"error: {wrong}\n{told}\nFor more information, try '--help'.\n".encode())


def unexpected(words: str, word: str, usage: str) -> Case:
    """A word that the command, with this usage, doesn't take."""
    return faulty(words, f"unexpected argument '{word}' found", usage)


def early(words: str, word: str, command: str) -> Case:
    """A word that stands before its command."""
    tip = f"  tip: '{command} {word}' exists"
    return faulty(words, f"unexpected argument '{word}' found\n\n{tip}", '<COMMAND>')


def bytes_in(*words: Word) -> Case:
    """A command line with a word that isn't UTF-8."""
    return Case(words, UNREAD, 2, b'', b'error: an argument is not text in UTF-8\n')


def faulty_values(command: str, option: str, low: int, high: int) -> Iterator[Case]:
    """An option that takes a number within bounds: no value, and faulty ones."""
    takes, bounds, usage = f"'{option} <N>'", f'{low}..={high}', f'{command} [OPTIONS]'
    yield faulty(f'{command} {option}', f'a value is required for {takes} but none was supplied')
    yield faulty(f'{command} {option}={low - 1}', f"invalid value '{low - 1}' for {takes}: {low - 1} is not in {bounds}")
    yield faulty(f'{command} {option} {high + 1}', f"invalid value '{high + 1}' for {takes}: {high + 1} is not in {bounds}")
    for value in '1.5', 'x':
        yield faulty(f'{command} {option} {value}',
                     f"invalid value '{value}' for {takes}: invalid digit found in string")
    yield faulty_words([command, option, ''], f"invalid value '' for {takes}: cannot parse integer from empty string")
    yield unexpected(f'{command} {option} -1', '-1', usage)
    yield faulty(f'{command} {option} 1 {option} 1', f'the argument {takes} {ONCE}', usage)


def faulty_flags(command: str, flag: str) -> Iterator[Case]:
    """An option that takes no value."""
    usage = f'{command} [OPTIONS]'
    yield unexpected(f'{command} {flag} now', 'now', usage)
    yield faulty(f'{command} {flag}=true', f"unexpected value 'true' for '{flag}' found; no more were expected",
                 f'{command} {flag}')
    yield faulty(f'{command} {flag} {flag}', f"the argument '{flag}' {ONCE}", usage)
    yield early(f'{flag} {command}', flag, command)


def faulty_programs() -> Iterator[Case]:
    yield faulty('', "'timetravel' requires a subcommand but one was not provided\n"
                 '  [subcommands: replay, run, session, log, help]', '<COMMAND>')
    yield faulty('fly', "unrecognized subcommand 'fly'", '<COMMAND>')


def faulty_runs(command: str) -> Iterator[Case]:
    """Command lines of replay or run."""
    usage = f'{command} [OPTIONS]'
    for word in '--quick', 'now', 'replay', 'run', 'session':
        yield unexpected(f'{command} {word}', word, usage)
    yield from faulty_values(command, '--batch', 1, 10_000)
    yield faulty(f'{command} --batch 0', "invalid value '0' for '--batch <N>': 0 is not in 1..=10000")
    yield unexpected(f'{command} --batch 16 now', 'now', usage)
    yield early(f'--batch 16 {command}', '--batch', command)
    for flag in '--closed', '--why', '--diff', '--json':
        yield from faulty_flags(command, flag)


def faulty_rounds() -> Iterator[Case]:
    yield from faulty_values('run', '--rounds', 0, 1000)
    yield unexpected('run --rounds 8 now', 'now', 'run [OPTIONS]')
    yield early('--rounds 8 run', '--rounds', 'run')
    yield unexpected('replay --rounds 1', '--rounds', 'replay [OPTIONS]')


def faulty_dry_runs() -> Iterator[Case]:
    yield from faulty_flags('replay', '--dry')
    yield unexpected('run --dry', '--dry', 'run [OPTIONS]')


def faulty_sessions() -> Iterator[Case]:
    usage = 'session [OPTIONS]'
    for word in ('--quick', 'now', '--batch', '--rounds', '--closed', '--why', '--diff', '--json', '--dry', '--version',
                 'session', 'replay'):
        yield unexpected(f'session {word}', word, usage)
    yield unexpected('session --batch 16', '--batch', usage)
    yield unexpected('session --rounds 8', '--rounds', usage)
    yield faulty('session --log', "a value is required for '--log <FILE>' but none was supplied")
    yield faulty('session --log a --log b', f"the argument '--log <FILE>' {ONCE}", usage)
    yield early('--log a session', '--log', 'session')
    yield unexpected('replay --log a', '--log', 'replay [OPTIONS]')
    yield faulty('session --existing', 'the following required arguments were not provided:\n  --log <FILE>', usage)
    yield faulty('session --log a --existing=true',
                 "unexpected value 'true' for '--existing' found; no more were expected", 'session --existing')
    yield faulty('session --existing --log a --existing', f"the argument '--existing' {ONCE}", usage)
    yield early('--existing session', '--existing', 'session')
    yield unexpected('replay --existing', '--existing', 'replay [OPTIONS]')


def faulty_logs() -> Iterator[Case]:
    usage = 'log <FILE>'
    yield faulty('log', 'the following required arguments were not provided:\n  <FILE>', usage)
    yield unexpected('log a b', 'b', usage)
    yield faulty('log --log a', "unexpected argument '--log' found\n\n  tip: to pass '--log' as a value, use '-- --log'",
                 usage)


def refused() -> Iterator[Case]:
    yield from faulty_programs()
    for command in 'replay', 'run':
        yield from faulty_runs(command)
    for some in faulty_rounds, faulty_dry_runs, faulty_sessions, faulty_logs:
        yield from some()


def words_of_bytes() -> Iterator[Case]:
    """Words that aren't UTF-8."""
    yield bytes_in(NO_UTF8)
    for command in 'replay', 'run', 'session', 'log':
        yield bytes_in(command, NO_UTF8)


def missing_logs() -> Iterator[Case]:
    """Logs in a folder that isn't there: status 1, nothing on standard output, and one line on
    standard error."""
    cause = 'No such file or directory (os error 2)'
    for words, error in [
            ('session --existing --log nowhere/bank.log', 'there is no log'),
            ('session --log nowhere/bank.log', f'cannot read the log: nowhere/bank.log: {cause}'),
            ('log nowhere/bank.log', f'cannot read the log: nowhere/bank.log: {cause}'),
            ('log nowhere/a\tb\x1b"é', f'cannot read the log: nowhere/a\\tb\\u001b"é: {cause}')]:
        yield Case(words.split(' '), UNREAD, 1, b'', f'timetravel: {error}\n'.encode())


def cases(is_unproved: bool = False) -> Iterator[Case]:
    """All cases of this part. An unproved build is given another word in the place of one that isn't
    UTF-8."""
    yield from answers()
    yield from refused()
    if not is_unproved:
        yield from words_of_bytes()
    yield from missing_logs()


@method_for_each(answers)
class Answers(unittest.TestCase):
    """Help and the version."""


@method_for_each(refused)
class Faulty(unittest.TestCase):
    """Command lines that can't be carried out, which leave standard input unread."""


@method_for_each(words_of_bytes)
class WordsOfBytes(unittest.TestCase):
    """Words that aren't UTF-8."""

    def test_program_itself(self) -> None:
        """The launcher isn't there to look at them."""
        check(self, bytes_in(NO_UTF8), program())


@method_for_each(missing_logs)
class MissingLogs(unittest.TestCase):
    """Logs that aren't there."""


class StandardStreams(unittest.TestCase):
    """Standard input that can't be read, here a folder, and standard output that takes nothing: each
    has its status, and one line on standard error."""

    def ends(self, case: Case, ran: 'subprocess.CompletedProcess[bytes]') -> None:
        told = failure(case, Answer(ran.returncode, ran.stdout or b'', ran.stderr))
        if told:
            self.fail(told)

    def test_input_that_cannot_be_read(self) -> None:
        for command in 'replay', 'run', 'session':
            with self.subTest(command):
                ran = subprocess.run(['sh', '-c', 'exec "$0" "$1" <tests', launcher(), command], cwd=ROOT,
                                     capture_output=True, check=False)
                self.ends(Case([command], status=1, error=b'timetravel: cannot read standard input\n',
                               label='standard input is a folder'), ran)

    def test_output_that_takes_nothing(self) -> None:
        for word in 'replay', 'run', 'session', '--help', '--version':
            with self.subTest(word), open(ROOT / 'examples/empty.json', 'rb') as given, open('/dev/full', 'wb') as full:
                ran = subprocess.run([launcher(), word], stdin=given, stdout=full, stderr=subprocess.PIPE,
                                     check=False)
                self.ends(Case([word], status=4, error=b'timetravel: cannot write standard output\n',
                               label='standard output is /dev/full'), ran)
