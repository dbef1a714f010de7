"""Cases: what the program is given, and what it has to answer."""
import difflib
import os
import subprocess
import tempfile
from dataclasses import dataclass
from pathlib import Path
from typing import Iterator, Optional, Sequence, Union
from unittest import TestCase

from tests.support.fixtures import ROOT, launcher

SECONDS = 600  # that an answer may take
MOST_LINES = 6  # of each text that a failure shows
MOST_CHARACTERS = 200  # of each of these lines
Word = Union[str, bytes]
Command = Union[Path, Sequence[Union[str, Path]]]  # a program, perhaps with words before the arguments
__unittest = True  # what a failure shows begins outside of this file


@dataclass(frozen=True)
class Case:
    """The arguments and standard input, and the status, standard output and standard error that are
    wanted. `label` says more, such as the file with the output that is wanted."""
    arguments: Sequence[Word]
    given: bytes = b''
    status: int = 0
    output: bytes = b''
    error: bytes = b''
    label: str = ''

    def __str__(self) -> str:
        return command_line(self.arguments) + (f' ({self.label})' if self.label else '')


@dataclass(frozen=True)
class Answer:
    """What a program has answered; `status` is None where it hasn't ended by itself."""
    status: Optional[int]
    output: bytes
    error: bytes
    unread: Optional[int] = None  # bytes of standard input, where that was looked at


def command_line(arguments: Sequence[Word]) -> str:
    """The command line, as it is shown."""
    return ' '.join(['timetravel', *map(word_of, arguments)])


def word_of(word: Word) -> str:
    """A word of a command line; one that is no plain text stands as in Python."""
    is_plain = isinstance(word, str) and word.isprintable() and word.strip() == word != ''
    return str(word) if is_plain else repr(word)


def answer_of(case: Case, command: Optional[Command] = None, folder: Path = ROOT) -> Answer:
    """What the launcher, or another command, answers to a case. Standard input is a file."""
    command = command or launcher()
    words = [command] if isinstance(command, Path) else command
    with tempfile.TemporaryFile() as given:
        given.write(case.given)
        given.seek(0)
        ran = subprocess.run([*words, *case.arguments], stdin=given, capture_output=True, cwd=folder,
                             timeout=SECONDS, check=False)
        unread = len(case.given) - os.lseek(given.fileno(), 0, os.SEEK_CUR)
        return Answer(ran.returncode, ran.stdout, ran.stderr, unread)


def cut(line: str) -> str:
    """A line, or its beginning and end."""
    if len(line) <= MOST_CHARACTERS:
        return line
    half = MOST_CHARACTERS // 2
    return f'{line[:half]} .. {line[-half:]} ({len(line)} characters)'


def lines_of(text: bytes) -> list[str]:
    """The lines of a text; an end of the text within a line is told."""
    lines = text.decode(errors='backslashreplace').split('\n')
    last = lines.pop()
    return lines + [last + ' [and no end of line]'] if last else lines


def beginning(text: bytes) -> list[str]:
    """The first lines of a text, as they are shown."""
    lines = lines_of(text)
    more = [f'.. ({len(lines)} lines)'] if len(lines) > MOST_LINES else []
    return [cut(line) for line in lines[:MOST_LINES]] + more


def shown(line: str, other: Optional[str]) -> str:
    """A line, which is cut where it is long: around the first character that another one differs in."""
    same = len(os.path.commonprefix([line, other or '']))
    if len(line) <= MOST_CHARACTERS or same < MOST_CHARACTERS // 2:
        return cut(line)
    begin = same - MOST_CHARACTERS // 4
    return f'(from character {begin + 1}) ..' + cut(line[begin:])


def difference(wanted: bytes, answered: bytes, what: str) -> Iterator[str]:
    """The lines of a unified difference, cut to a few around the first one that differs."""
    if wanted == answered:
        return
    texts = lines_of(wanted), lines_of(answered)
    pairs = zip(*texts)
    first = next((at for at, (one, other) in enumerate(pairs) if one != other), min(map(len, texts)))
    begin, end = max(first - 2, 0), first + MOST_LINES
    parts = [text[begin:end] for text in texts]
    others = [parts[1] + [''] * MOST_LINES, parts[0] + [''] * MOST_LINES]
    ours, theirs = ([shown(line, other) for line, other in zip(part, beside)]
                    for part, beside in zip(parts, others))
    yield f'{what}: differs from line {first + 1} on'
    yield from difflib.unified_diff(ours, theirs, f'wanted ({len(texts[0])} lines)',
                                    f'answered ({len(texts[1])} lines)', n=2, lineterm='')


def failure(case: Case, answer: Answer) -> Optional[str]:
    """What differs from what a case wants, if anything does."""
    told: list[str] = []
    if answer.status != case.status:
        told.append(f'status: wanted {case.status}, answered {answer.status}')
    told += difference(case.output, answer.output, 'standard output')
    told += difference(case.error, answer.error, 'standard error')
    if case.status == 2 and answer.unread is not None and answer.unread < len(case.given):
        told.append('it has read standard input, which a faulty command line leaves unread')
    if not told:
        return None
    return '\n'.join([str(case), 'given:', *('  ' + line for line in beginning(case.given)), *told])


def check(test: TestCase, case: Case, command: Optional[Command] = None) -> None:
    """The test fails unless the launcher, or another command, answers as the case wants."""
    told = failure(case, answer_of(case, command))
    if told:
        test.fail(told)
