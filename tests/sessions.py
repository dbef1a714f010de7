"""Sessions, which the program holds: their answers, line by line.

  tests/sessions/NAME.lines      lines, with the answers that they must have in NAME.answers
  tests/sessions/faulty_openings, faulty_requests
                                 faults, each with the line that has it
  tests/sessions/limits          answers to lines that are as long and as deep as may be, and one more

Random sessions are answered as the small model of tests/session_model.py answers them. Live ones
keep their input open.
"""
import unittest
from typing import Any, Iterator

from tests import session_model
from tests.documents import ACCOUNTS
from tests.support.cases import Case, check
from tests.support.fixtures import ROOT, program
from tests.support.live import Live
from tests.support.methods import method_for_each
from tests.support.progress import progress
from tests.support.texts import blocks_of, copies, faults_of, nested, sevens, shown_by_help, text_of

RANDOM = range(1, 201)  # seeds
MODEL: Any = session_model
VERSIONS = 4, 3, 2
OPENED = '{"time":0,"generation":0,"oldest":0,"entries":0,"repair":null}\n'
STATUS = '{"status":true}\n'


def held(lines: str, answers: str, label: str) -> Case:
    return Case(['session'], lines.encode(), output=answers.encode(), label=label)


# Sessions with their answers

def sessions() -> Iterator[Case]:
    """Sessions of files, of the manual, and of help."""
    for path in sorted((ROOT / 'tests/sessions').glob('*.lines')):
        name = f'tests/sessions/{path.stem}'
        yield held(text_of(f'{name}.lines'), text_of(f'{name}.answers'), f'{name}.answers')
    blocks = blocks_of('docs/SESSION.md')
    parts = [pair for pair in zip(blocks, blocks[1:]) if pair[0].kind == 'json']
    yield held(''.join(lines.text for lines, _ in parts), ''.join(answers.text for _, answers in parts),
               'docs/SESSION.md')
    yield held(shown_by_help('{"version":4,"tables"'), text_of('tests/help.answers'), 'tests/help.answers')


def opening(version: int) -> str:
    return f'{{"version":{version},"tables":[{ACCOUNTS}]}}\n'


def called(number: int, answer: str) -> str:
    """The answer to the call of this number."""
    return f'{{"call":{number},{answer[1:]}'


# Faulty lines

def faulty_lines() -> Iterator[Case]:
    """Openings and requests with a fault each, of which none opens a session or changes anything,
    whatever version the opening tells."""
    openings, requests = (list(faults_of(f'tests/sessions/faulty_{kind}')) for kind in ('openings', 'requests'))
    for version in VERSIONS:
        yield held(''.join(f'{fault.parts[0]}\n' for fault in openings) + opening(version) + STATUS,
                   ''.join(fault.answer(None) for fault in openings) + OPENED + called(1, OPENED),
                   f'tests/sessions/faulty_openings, version {version}')
        yield held(opening(version) + ''.join(f'{fault.parts[0]}\n' for fault in requests) + STATUS,
                   OPENED + ''.join(fault.answer(number) for number, fault in enumerate(requests, 1))
                   + called(len(requests) + 1, OPENED), f'tests/sessions/faulty_requests, version {version}')


def odd_bytes() -> Iterator[Case]:
    """Bytes that are no text or no white space of JSON, before the session is open and then."""
    lines = [b'\0', b' \0', b'{"status":true}\0', b'\0{"status":true}', b'\xef\xbb\xbf{"status":true}', b'\xef\xbb\xbf',
             b'{"x":"\xff"}', b'\xff', b'{"x":"\xed\xa0\x80"}', b'{"status":true}\f', b'\v', b'\xc2\xa0', b'{\0,s\0,',
             b'{"status":\rtrue}\r}']
    text = b''.join(line + b'\n' for line in lines)
    fault = '{"fault":{"path":"$","cause":"not JSON"}}\n'
    answers = fault * len(lines) + OPENED + ''.join(called(number, fault) for number in range(1, len(lines) + 1))
    yield Case(['session'], text + opening(VERSIONS[-1]).encode() + text, output=answers.encode(), label='odd bytes')


def limits() -> Iterator[Case]:
    """Lines that are as long and as deep as may be, and one more."""
    tables, long = '{"name":"t#","columns":[{"name":"id","kind":"int"}]}', 'x' * 1024
    delete, equal = '{"delete":"acct","where":[["id",#]]}', '["id",#]'
    wide = copies(0, 31, '{"name":"c#","kind":"int"}') + '{"name":"c","kind":"int"}'
    lines = [
        f'{{"version":2,"tables":[{copies(0, 63, tables)}{ACCOUNTS}]}}',
        f'{{"version":2,"tables":[{{"name":"wide","columns":[{wide}]}}]}}',
        f'{{"version":2,"tables":[{copies(0, 62, tables)}{ACCOUNTS}]}}',
        nested(127),
        nested(128),
        f'{{"begin":[{sevens(10_000)}]}}',
        f'{{"begin":[{sevens(10_001)}]}}',
        f'{{"do":[{copies(1, 15, delete)}{{"delete":"acct","where":[]}}]}}',
        f'{{"do":[{copies(1, 16, delete)}{{"delete":"acct","where":[]}}]}}',
        f'{{"insert":"acct","row":[1,"{long}",0]}}',
        f'{{"insert":"acct","row":[2,"{long}x",0]}}',
        f'{{"update":"acct","change":[["set","owner","{long}x"],["set","id",1]],"where":[]}}',
        f'{{"select":"acct","where":[["owner","{long}x"]]}}',
        f'{{"select":"acct","where":[{copies(1, 31, equal)}["id",1]]}}',
        f'{{"select":"acct","where":[{copies(1, 32, equal)}["id",1]]}}',
        f'{{"would":[{sevens(10_000)}]}}',
        f'{{"would":[{sevens(10_001)}]}}',
    ]
    yield held(''.join(f'{line}\n' for line in lines), text_of('tests/sessions/limits'), 'tests/sessions/limits')


def blank_lines() -> Iterator[Case]:
    """A thousand blank lines, before the session is open and then."""
    blank = ''.join(' \t\r \t\r'[:number % 7] + '\n' for number in range(1000))
    yield held(blank + opening(VERSIONS[-1]) + blank + STATUS + blank, OPENED + called(1, OPENED), 'blank lines')


def faulty() -> Iterator[Case]:
    for some in faulty_lines, odd_bytes, limits, blank_lines:
        yield from some()


def cases() -> Iterator[Case]:
    """All cases of this part."""
    yield from sessions()
    yield from faulty()


@method_for_each(sessions)
class Sessions(unittest.TestCase):
    """Sessions with their answers."""


@method_for_each(faulty)
class FaultyLines(unittest.TestCase):
    """Faulty, odd, blank and long lines."""


class RandomSessions(unittest.TestCase):
    """Random sessions are answered as the model answers them, line by line."""

    def test_random_sessions(self) -> None:
        for number, seed in enumerate(RANDOM):
            progress(number, len(RANDOM), 'random sessions')
            with self.subTest(f'tests/session_model.py --random {seed}'):
                check(self, self.random_session(seed))
        progress(len(RANDOM), len(RANDOM), 'random sessions')

    def random_session(self, seed: int) -> Case:
        model = MODEL.Session()
        lines = [MODEL.text_of(line) for line in MODEL.Random(seed).lines(300)]
        answers = [model.answer(line.encode()) for line in lines]
        self.assertGreaterEqual(len(lines), 100, 'a short session')
        self.assertNotIn(None, answers, 'a line that the model leaves without an answer')
        return held(''.join(f'{line}\n' for line in lines), ''.join(f'{MODEL.text_of(answer)}\n' for answer in answers),
                    f'tests/session_model.py --random {seed}')


# Live sessions

TABLE = b'{"version":2,"tables":[{"name":"t","columns":[{"name":"k","kind":"int"}]}]}\n'
OPEN = OPENED.encode()


def insert(number: int) -> bytes:
    return b'{"insert":"t","row":[%d]}\n' % number


def inserted(number: int) -> bytes:
    return b'{"call":%d,"slot":%d,"replies":["inserted"]}\n' % (number, number)


class LiveSessions(unittest.TestCase):
    """Each answer is handed over before another line is waited for, a line in pieces is answered once
    its end is read, and an answer that can't be handed over ends the session."""

    def live(self) -> Live:
        return Live(self, program())

    def test_each_line_is_answered_before_another_one_is_sent(self) -> None:
        with self.live() as live:
            live.send(TABLE)
            live.answered(OPEN)
            for number in range(1, 101):
                live.send(insert(number))
                live.answered(inserted(number))
            live.ends_with(b'')

    def test_a_line_in_pieces_is_answered_at_its_end(self) -> None:
        with self.live() as live:
            for byte in TABLE:
                live.send(bytes([byte]))
            live.answered(OPEN)
            live.send(b'\n \n' + insert(1)[:7])
            live.answered(b'')
            live.send(insert(1)[7:-1])
            live.answered(b'')
            live.send(b'\r\n')
            live.answered(inserted(1))
            live.ends_with(b'')

    def test_whole_lines_are_answered_though_the_last_one_is_not_whole(self) -> None:
        with self.live() as live:
            live.send(TABLE + b''.join(map(insert, range(1, 1001))) + insert(1001)[:-1])
            live.answered(OPEN + b''.join(map(inserted, range(1, 1001))))
            live.ends_with(inserted(1001))

    def test_a_long_line_comes_in_pieces(self) -> None:
        with self.live() as live:
            live.send(TABLE)
            live.answered(OPEN)
            for _ in range(256):
                live.send(b' ' * 65_536)
            live.send(b'\n' + insert(1))
            live.answered(inserted(1))
            for _ in range(257):
                live.send(b'\t' * 65_536)
            live.send(b'\n' + insert(2))
            fault = b'"fault":{"path":"$","cause":"longer than 16777216 bytes"}'
            live.answered(b'{"call":2,%s}\n{"call":3,"slot":2,"replies":["inserted"]}\n' % fault)
            live.ends_with(b'')

    def test_openings_are_answered_at_any_time(self) -> None:
        with self.live() as live:
            live.send(TABLE)
            live.answered(OPEN)
            live.send(insert(1) + TABLE)
            live.answered(inserted(1) + OPEN.replace(b'0', b'1', 1).replace(b'"entries":0', b'"entries":1'))
            live.send(b'{"version":5')
            live.answered(b'')
            live.send(b'}\n')
            live.answered(b'{"fault":{"path":"$.version","cause":"out of range"}}\n')
            live.send(TABLE.replace(b'"t"', b'"u"'))
            live.answered(b'{"refused":"another opening"}\n')
            live.send(insert(2))
            live.answered(inserted(2))
            live.ends_with(b'')

    def test_nothing_is_sent(self) -> None:
        with self.live() as live:
            live.answered(b'')
            live.ends_with(b'')

    def test_nobody_takes_the_answers(self) -> None:
        with self.live() as live:
            live.send(TABLE)
            live.answered(OPEN)
            live.output.close()
            live.send(insert(1))
            live.process.wait(20)
            live.ends(4, b'timetravel: cannot write standard output\n')
