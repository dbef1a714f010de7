"""Texts that cases are made of: of data files, of the manual's pages, and long ones."""
import re
from dataclasses import dataclass
from typing import Iterator, Optional

from tests.support.fixtures import ROOT

FENCE = re.compile(r'```(.*)')


@dataclass(frozen=True)
class Block:
    """A block of code of a page, with its kind, such as json."""
    kind: str
    text: str


@dataclass(frozen=True)
class Fault:
    """A line of a file of faults: the fault, and the parts of the text that has it."""
    place: str
    fault: str
    parts: list[str]

    def answer(self, call: Optional[int]) -> str:
        """The line with which a session answers, to the call of this number if it is open."""
        path, cause = self.fault.split(': ', 1)
        cause = re.sub(r'(["\\])', r'\\\1', cause)
        numbered = '' if call is None else f'"call":{call},'
        return f'{{{numbered}"fault":{{"path":"{path}","cause":"{cause}"}}}}\n'


def text_of(path: str) -> str:
    """The text of a file of the repository."""
    with open(ROOT / path, encoding='utf-8', newline='') as file:
        return file.read()


def blocks_of(page: str) -> list[Block]:
    """The blocks of code of a page, each with its line ends."""
    found: list[Block] = []
    kind, text = None, ''
    for line in text_of(page).splitlines(keepends=True):
        fence = FENCE.match(line)
        if fence and kind is None:
            kind, text = fence[1], ''
        elif fence and kind is not None:
            found.append(Block(kind, text))
            kind = None
        elif kind is not None:
            text += line
    return found


def shown_by_help(first: str) -> str:
    """What the help of the program shows: the lines from one that begins so to an empty one."""
    text = text_of('crates/tt_cli/src/command_line.rt')
    begin = text.index(f'\n  {first}') + 1
    return text[begin:text.index('\n\n', begin) + 2]


def faults_of(path: str, parts: int = 1) -> Iterator[Fault]:
    """The lines of a file of faults: a fault, a tab, and so many parts with a tab between them. Empty
    lines and those with # say more."""
    for number, line in enumerate(text_of(path).split('\n'), 1):
        if line and not line.startswith('#'):
            fault, *rest = line.split('\t', parts)
            yield Fault(f'{path}:{number}', fault, rest)


def copies(first: int, last: int, text: str) -> str:
    """Copies of a text, each with a comma behind it: # is its number, from the first to the last."""
    return ''.join(f'{text},'.replace('#', str(number)) for number in range(first, last + 1))


def sevens(count: int) -> str:
    """A list of so many numbers, without its brackets."""
    return ','.join(['7'] * count)


def nested(depth: int) -> str:
    """Lists within lists, so deep."""
    return '[' * depth + ']' * depth
