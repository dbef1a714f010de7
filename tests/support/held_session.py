"""A session of the program that is given one line after another."""
import json
import os
import select
import subprocess
from types import TracebackType
from typing import Any, Mapping, NamedTuple, Optional, Sequence, Type

PATIENCE = 300  # seconds in which a session has to answer, or to end; most take less than one
PIECE = 1 << 16  # bytes that are read at once


class Ended(NamedTuple):
    """How a session has ended: its status, its answers, and what it says on standard error. The answers of
    a session that was held are those that nobody has taken."""
    status: int
    answers: list[str]
    told: str


def environment_with(settings: Optional[Mapping[str, str]]) -> dict[str, str]:
    """The variables of a process that has these, too."""
    return {**os.environ, **(settings or {})}


class Held:
    """It is a context manager, which kills the session where it hasn't ended. `user` is what
    `subprocess.Popen` takes to run it as somebody else."""

    def __init__(self, words: Sequence[str], settings: Optional[Mapping[str, str]] = None, **user: Any) -> None:
        self.process = subprocess.Popen(
            words, bufsize=0, stdin=subprocess.PIPE, stdout=subprocess.PIPE, stderr=subprocess.PIPE,
            env=environment_with(settings), **user)
        self._read = b''  # of the answers, as far as nobody has taken them
        self.ended: Optional[Ended] = None

    def send(self, *lines: str) -> None:
        """Gives it lines. One that has ended takes none, which its next answer tells."""
        assert self.process.stdin
        left = memoryview(''.join(line + '\n' for line in lines).encode())
        try:
            while left:
                left = left[os.write(self.process.stdin.fileno(), left):]
        except BrokenPipeError:
            pass

    def answer(self) -> Optional[str]:
        """Its next answer, or None where it has ended."""
        assert self.process.stdout
        output = self.process.stdout.fileno()
        while b'\n' not in self._read:
            if not select.select([output], [], [], PATIENCE)[0]:
                raise AssertionError(f'a session gives no answer in {PATIENCE} seconds')
            piece = os.read(output, PIECE)
            if not piece:
                return None
            self._read += piece
        line, _, self._read = self._read.partition(b'\n')
        return line.decode()

    def ask(self, line: str) -> Optional[str]:
        """The answer to a line, or None where there is none."""
        self.send(line)
        return self.answer()

    def asked(self, lines: Sequence[str]) -> list[str]:
        """The answers to lines, each of which it gets once the one before is answered, as far as it answers."""
        answers = []
        for line in lines:
            answer = self.ask(line)
            if answer is None:
                break
            answers.append(answer)
        return answers

    def ask_value(self, line: str) -> Any:
        """The answer to a line as a value of JSON, or None where there is none."""
        answer = self.ask(line)
        return None if answer is None else json.loads(answer)

    def end(self) -> Ended:
        """Ends its input, and waits until it has ended."""
        if self.ended is None:
            output, error = self.process.communicate(timeout=PATIENCE)
            self.ended = Ended(self.process.returncode, (self._read + output).decode().splitlines(), error.decode())
        return self.ended

    def kill(self) -> Ended:
        self.process.kill()
        return self.end()

    def __enter__(self) -> 'Held':
        return self

    def __exit__(self, kind: Optional[Type[BaseException]], error: Optional[BaseException],
                 trace: Optional[TracebackType]) -> None:
        if self.ended is None:
            self.kill()
