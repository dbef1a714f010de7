"""Test methods that are made of cases, so that each case has a name."""
import re
from typing import Callable, Iterable, TypeVar
from unittest import TestCase

from tests.support.cases import Case, check

__unittest = True  # what a failure shows begins outside of this file
Class = TypeVar('Class', bound=type[TestCase])


def name_of(case: Case) -> str:
    """The name of a case, of the file that its label begins with and of its arguments:
    tests/reports/intruder.report of `replay --batch 1` is intruder_replay_batch_1."""
    file = case.label.split(' ')[0].split('/')[-1].split('.')[0]
    words = [word if isinstance(word, str) else 'bytes' for word in case.arguments]
    return re.sub(r'\W+', '_', ' '.join([file, *words])).strip('_') or 'nothing'


def method_for_each(cases: Callable[[], Iterable[Case]]) -> Callable[[Class], Class]:
    """Gives a class a method test_NAME for each case, which checks what is answered to it. What has
    the name of another one gets a number."""

    def add_methods(to: Class) -> Class:
        for case in cases():
            def method(self: TestCase, case: Case = case) -> None:
                check(self, case)
            name = plain = f'test_{name_of(case)}'
            number = 1
            while hasattr(to, name):
                number += 1
                name = f'{plain}_{number}'
            method.__name__ = name
            method.__doc__ = None
            setattr(to, name, method)
        return to

    return add_methods
