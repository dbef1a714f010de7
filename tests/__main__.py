"""Runs the suite: see tests/__init__.py.

  python3 -m tests [-k PATTERN].. [MODULE..]   all parts, or these: 'documents', 'client.rows'
  python3 -m tests --unproved                  the documents, sessions and command lines, answered by an unproved build

It tells each failure at once, and how far it is. The last lines are what was left out, and what it
wants; and how many tests there were, where each case of a test counts. The status is 1 where any
failed.
"""
import argparse
import re
import signal
import sys
import time
import unittest
from types import FrameType, TracebackType
from typing import Optional, Union

from tests import MODULES
from tests.support.progress import progress

Error = Union[tuple[type[BaseException], BaseException, TracebackType], tuple[None, None, None]]


class Result(unittest.TestResult):
    """Counts each case of a test, tells each failure at once, and how far it is."""

    def __init__(self, total: int) -> None:
        super().__init__()
        self.total = total
        self.cases = 0
        self.failed = 0
        self.cases_of_test = 0
        self.is_left_out = False
        self.left_out: dict[str, list[str]] = {}
        self.began = time.monotonic()
        self.seconds: dict[str, float] = {}
        progress(0, total, 'all tests')

    def startTest(self, test: unittest.TestCase) -> None:
        super().startTest(test)
        self.cases_of_test = 0
        self.is_left_out = False
        self.began = time.monotonic()

    def stopTest(self, test: unittest.TestCase) -> None:
        super().stopTest(test)
        self.cases += self.cases_of_test or int(not self.is_left_out)
        part = part_of(test)
        self.seconds[part] = self.seconds.get(part, 0) + time.monotonic() - self.began
        progress(self.testsRun, self.total, 'all tests')

    def tell(self, test: unittest.TestCase, error: Error) -> None:
        self.failed += 1
        kind, value, _ = error
        # What a comparison says stands for itself; of other errors the lines tell where they come from.
        is_plain = kind is not None and issubclass(kind, AssertionError) and str(value)
        text = str(value) if is_plain else self._exc_info_to_string(error, test)  # type: ignore[attr-defined]
        print(f'\nFAILED: {test.id()}\n{text.rstrip()}', file=sys.stderr, flush=True)

    def addSubTest(self, test: unittest.TestCase, subtest: unittest.TestCase, err: Optional[Error]) -> None:
        self.cases_of_test += 1
        if err is not None:
            self.failures.append((subtest, ''))
            self.tell(subtest, err)

    def addFailure(self, test: unittest.TestCase, err: Error) -> None:
        self.failures.append((test, ''))
        self.tell(test, err)

    def addError(self, test: unittest.TestCase, err: Error) -> None:
        self.errors.append((test, ''))
        self.tell(test, err)

    def addSkip(self, test: unittest.TestCase, reason: str) -> None:
        super().addSkip(test, reason)
        if not isinstance(test, unittest.TestCase):  # a whole class, of which no test begins
            self.cases += 1
        self.is_left_out = True
        self.left_out.setdefault(reason, []).append(part_of(test))


def part_of(test: unittest.TestCase) -> str:
    """The part that a test, or a whole class or module that was left out, belongs to."""
    found = re.search(r'\btests\.(\w+)', test.id())
    return found[1] if found else test.id()


def end(number: int, frame: Optional[FrameType]) -> None:
    """What ends the run ends what it has begun, and removes its folders."""
    raise KeyboardInterrupt(number)


def run(names: list[str], patterns: list[str]) -> int:
    loader = unittest.TestLoader()
    loader.testNamePatterns = [f'*{pattern}*' if '*' not in pattern else pattern for pattern in patterns] or None
    suite = loader.loadTestsFromNames([f'tests.{name}' for name in names])
    result = Result(suite.countTestCases())
    suite.run(result)
    for part, seconds in result.seconds.items():
        print(f'tests.{part}: {seconds:.0f} s', file=sys.stderr)
    for reason, parts in result.left_out.items():
        count = f'{len(parts)} test{"s" if len(parts) > 1 else ""}'
        print(f'left out: {count} of {", ".join(dict.fromkeys(parts))}, for want of {reason}')
    skipped = sum(map(len, result.left_out.values()))
    print(f'{result.cases} tests, {result.failed} failed, {skipped} left out')
    return 1 if result.failed or not result.cases + skipped else 0


def main() -> int:
    parser = argparse.ArgumentParser(prog='python3 -m tests', description=__doc__,
                                     formatter_class=argparse.RawDescriptionHelpFormatter)
    parser.add_argument('-k', dest='patterns', metavar='PATTERN', action='append', default=[],
                        help='only tests whose names contain this')
    parser.add_argument('--unproved', action='store_true', help='by an unproved build')
    parser.add_argument('modules', metavar='MODULE', nargs='*')
    words = parser.parse_args()
    # A shell that waits for this has it ignore interrupts, which some tests send.
    signal.signal(signal.SIGINT, signal.default_int_handler)
    for ends in signal.SIGTERM, signal.SIGHUP:
        signal.signal(ends, end)
    try:
        if words.unproved:
            from tests.support import unproved
            return unproved.run()
        return run(words.modules or MODULES, words.patterns)
    except KeyboardInterrupt as interrupt:
        number = interrupt.args[0] if interrupt.args else signal.SIGINT
        print('tests: interrupted', file=sys.stderr)
        return 128 + int(number)


if __name__ == '__main__':
    sys.exit(main())
