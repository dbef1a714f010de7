"""Sessions whose input stays open."""
import select
import subprocess
from pathlib import Path
from types import TracebackType
from typing import IO, Optional
from unittest import TestCase

from tests.support.cases import Answer, difference

SECONDS = 20  # that an answer may take
__unittest = True  # what a failure shows begins outside of this file


class Live:
    """A session whose input stays open until the end of the block."""

    def __init__(self, test: TestCase, program: Path) -> None:
        self.test = test
        self.process = subprocess.Popen([program, 'session'], stdin=subprocess.PIPE, stdout=subprocess.PIPE,
                                        stderr=subprocess.PIPE, bufsize=0)
        self.given, self.output, self.error = map(stream, [self.process.stdin, self.process.stdout,
                                                           self.process.stderr])

    def __enter__(self) -> 'Live':
        return self

    def __exit__(self, kind: Optional[type[BaseException]], value: Optional[BaseException],
                 traceback: Optional[TracebackType]) -> None:
        self.process.kill()
        self.process.wait()
        for one in self.given, self.output, self.error:
            one.close()

    def send(self, text: bytes) -> None:
        self.given.write(text)

    def is_silent(self, seconds: float) -> bool:
        return not select.select([self.output], [], [], seconds)[0]

    def answered(self, wanted: bytes) -> None:
        """The answers that come now are these, and no more."""
        found = b''
        while len(found) < len(wanted):
            if self.is_silent(SECONDS):
                break
            more = self.output.read(65_536)
            if not more:
                break
            found += more
        if not self.is_silent(0.05):
            found += self.output.read(65_536)
        self.is_same(Answer(None, wanted, b''), Answer(None, found, b''))

    def is_same(self, wanted: Answer, answer: Answer) -> None:
        told = [f'status: wanted {wanted.status}, answered {answer.status}'] if wanted.status != answer.status else []
        told += difference(wanted.output, answer.output, 'standard output')
        told += difference(wanted.error, answer.error, 'standard error')
        if told:
            self.test.fail('\n'.join(told))

    def ends(self, status: int, error: bytes) -> None:
        """It ends with this status, and this on standard error."""
        self.given.close()
        self.is_same(Answer(status, b'', error), Answer(self.process.wait(SECONDS), b'', self.error.read()))

    def ends_with(self, last: bytes) -> None:
        """The last answers come once the input has ended, and nothing else."""
        self.given.close()
        output, error = self.output.read(), self.error.read()
        self.is_same(Answer(0, last, b''), Answer(self.process.wait(SECONDS), output, error))


def stream(found: Optional[IO[bytes]]) -> IO[bytes]:
    assert found is not None
    return found
