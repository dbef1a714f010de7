"""How much a session takes: records of answers, of which those of selects have at most 1,000,000 rows together,
slots and entries.

That records are gone is told by `from` of `changes`. What a session answers is written down here, or told by
the model of tests/session_model.py.
"""
import json
import random
import unittest
from typing import Any, Callable, Iterator, NamedTuple
from unittest.mock import patch

from tests import session_model
from tests.support.cases import Case, answer_of, check

MODEL: Any = session_model
OPENING = {'version': 4, 'tables': [{'name': 't', 'columns': [{'name': 'k', 'kind': 'int'}]}]}
OPENED = '{"time":0,"generation":0,"oldest":0,"entries":0,"repair":null}'
SELECT = '{"select":"t","where":[]}'
CHANGES = '{"changes":"now","only":"writes"}'
STATUS = '{"status":true}'
MOST = 1_000_000  # rows of the records of selects
MOST_STEPS = 10_000  # that a line asks for


def do(first: int, last: int) -> str:
    """An action that inserts the keys from the first to the last."""
    return '{"do":[%s]}' % ','.join('{"insert":"t","row":[%d]}' % key for key in range(first, last + 1))


def inserted(call: int, slot: int, rows: int = 1) -> str:
    return '{"call":%d,"slot":%d,"replies":[%s]}' % (call, slot, ','.join(['"inserted"'] * rows))


def selected(call: int, time: int, rows: str) -> str:
    return '{"call":%d,"time":%d,"rows":[%s]}' % (call, time, rows)


def changed(call: int, first: int) -> str:
    return '{"call":%d,"from":%d,"changed":[]}' % (call, first)


def keys(first: int, last: int) -> str:
    return ','.join('[%d]' % key for key in range(first, last + 1))


def text_of(lines: list[str]) -> bytes:
    return ''.join(f'{line}\n' for line in lines).encode()


class Held(unittest.TestCase):
    def hold(self, given: list[tuple[str, str]], label: str, records: int = 100_000) -> None:
        """Requests, each with the answer that is wanted. The answers are long, so that a difference is told
        without a comparison of all lines."""
        lines, answers = zip(*given)
        opening = json.dumps({**OPENING, 'records': records})
        found = answer_of(Case(['session'], text_of([opening, *lines]), label=label))
        self.assertEqual((found.status, found.error), (0, b''))
        answered = found.output.decode().splitlines()
        self.assertEqual(len(answered), len(given) + 1)
        for answer, wanted in zip(answered, [OPENED, *answers]):
            if answer != wanted:
                self.fail(f'answered {answer[:200]} ({len(answer)} characters), '
                          f'wanted {wanted[:200]} ({len(wanted)} characters)')


class Records(Held):
    def test_of_600_selects_of_2000_rows_the_last_500_are_kept(self) -> None:
        rows = keys(1, 2000)
        self.hold([
            *(('{"insert":"t","row":[%d]}' % key, inserted(key, key)) for key in range(1, 2001)),
            *((SELECT, selected(call, 2000, rows)) for call in range(2001, 2601)),
            (CHANGES, changed(2601, 2101))], '600 selects')

    def test_a_select_of_as_many_rows_as_may_be_is_kept_and_one_of_more_is_not(self) -> None:
        """A select of 1,000,000 rows leaves what is kept before it if that has no rows. A second one leaves
        its own record alone, and one of a row more leaves none."""
        slots, rows = MOST // 16, keys(1, MOST)
        given = [(do(16 * slot - 15, 16 * slot), inserted(slot, slot, 16)) for slot in range(1, slots + 1)]
        given += [
            (SELECT, selected(slots + 1, slots, rows)), (CHANGES, changed(slots + 2, 1)),
            (SELECT, selected(slots + 3, slots, rows)), (CHANGES, changed(slots + 4, slots + 3)),
            (do(MOST + 1, MOST + 1), inserted(slots + 5, slots + 1)), (CHANGES, changed(slots + 6, slots + 3)),
            (SELECT, selected(slots + 7, slots + 1, f'{rows},[{MOST + 1}]')),
            (CHANGES, changed(slots + 8, slots + 8)),
            (do(-1, -1), inserted(slots + 9, slots + 2)), (CHANGES, changed(slots + 10, slots + 9))]
        self.hold(given, 'selects of 1,000,000 rows')

    def test_records_of_random_sessions_are_kept_as_the_model_says(self) -> None:
        for seed in range(1, 3):
            with self.subTest(f'session {seed}'):
                model, lines = MODEL.Session(), list(random_lines(random.Random(seed)))
                answers = [MODEL.text_of(model.answer(line.encode())) for line in lines]
                firsts = {json.loads(answer)['from'] for answer in answers if '"from":' in answer}
                self.assertGreater(len(firsts), 10, 'in which records go')
                check(self, Case(['session'], text_of(lines), output=text_of(answers), label=f'session {seed}'))


def random_lines(chance: random.Random) -> Iterator[str]:
    """Of 4,000 rows few and many are selected, and at times changed; twice something is forgotten."""
    yield json.dumps({**OPENING, 'records': chance.choice([260, 400, 100_000])})
    for first in range(1, 4000, 16):
        yield do(first, first + 15)
    time = 250
    for number in range(600):
        select = {'select': 't', 'where': chance.choice([[], [], [['k', '>', chance.choice([2000, 3999, 5000])]]]),
                  **chance.choice([{}, {}, {'at': chance.randint(248, time)}, {'most': 3000}])}
        if number % 25 == 24:
            yield CHANGES
        elif number in (300, 450):
            yield json.dumps({'forget': 248})
        elif number % 40 == 7:
            time += 1
            yield json.dumps({'delete': 't', 'where': [['k', chance.randint(1, 4000)]]})
        else:
            yield json.dumps(select)


# Slots and entries

class Limits(NamedTuple):
    """Of a database; and how many slots it gets where these aren't all that it may have."""
    slots: int
    entries: int
    some: int


PROGRAM, SMALL = Limits(1_000_000, 4_000_000, 10_000), Limits(50, 203, 11)


class Lines:
    """Lines of a session of actions without writes, with the answers that are wanted; how many slots and entries it
    has by then, and how many slots of them the repair under way has done."""

    def __init__(self, limits: Limits) -> None:
        self.limits = limits
        self.given: list[tuple[str, str]] = []
        self.slots = self.entries = self.generation = self.oldest = self.done = 0

    def ask(self, line: str, wanted: str) -> None:
        self.given.append((line, '{"call":%d,%s}' % (len(self.given) + 1, wanted)))

    def full_of_slots(self, line: str = '{"do":[]}') -> None:
        self.ask(line, f'"refused":"full","limit":{self.limits.slots}')

    def full_of_entries(self, line: str = '{"do":[]}') -> None:
        self.ask(line, f'"refused":"full","limit":{self.limits.entries}')

    def write(self, count: int) -> None:
        for _ in range(count):
            self.slots += 1
            self.ask('{"do":[]}', f'"slot":{self.slots},"replies":[]')
        self.entries += count

    def begin(self) -> None:
        self.entries, self.done = self.entries + 1, 0
        self.ask('{"begin":[]}', self.standing())

    def steps(self, count: int) -> None:
        while count:
            now = min(count, MOST_STEPS)
            self.done, self.entries, count = self.done + now, self.entries + now, count - now
            self.ask(f'{{"step":{now}}}', self.standing())

    def standing(self) -> str:
        return f'"done":{self.done},"left":{self.slots - self.done},"rerun":0'

    def finish(self) -> None:
        self.entries += self.slots - self.done + 1
        self.generation += 1
        self.ask('{"finish":true}', f'"generation":{self.generation},"slots":{self.slots},"rerun":0')

    def given_up(self, entries: int) -> None:
        """Repairs that are given up, which take these entries together."""
        while entries:
            most = self.slots + 2
            now = entries if entries <= most else min(most, entries - 2)  # none takes a single one
            self.begin()
            self.steps(now - 2)
            self.entries, entries = self.entries + 1, entries - now
            self.ask('{"abort":true}', self.status())

    def status(self) -> str:
        return (f'"time":{self.slots},"generation":{self.generation},"oldest":{self.oldest},'
                f'"entries":{self.entries},"repair":null')

    def forget(self) -> None:
        """Repairs alone are forgotten."""
        self.entries, self.oldest = self.slots, self.generation
        self.ask('{"forget":0}', self.status())

    def would(self) -> None:
        self.ask('{"would":[]}', f'"slots":{self.slots},"rerun":0,"redone":[],"changed":[],"diff":[]')


def all_slots(limits: Limits) -> Lines:
    """A database that has all slots has room for two whole repairs, and again once these are forgotten."""
    lines, beyond = Lines(limits), limits.slots + 1
    lines.write(limits.slots)
    lines.full_of_slots()
    lines.ask('{"do":[],"if":1}', f'"refused":"moved","now":{limits.slots}')
    lines.would()
    for _ in range(2):
        lines.begin()
        lines.full_of_slots('{"insert":"t","row":[1],"stamp":1}')
        lines.finish()
    lines.ask(STATUS, lines.status())
    for kind in ('begin', 'would'):
        lines.full_of_entries(f'{{"{kind}":[]}}')
        lines.ask(f'{{"{kind}":[{{"cancel":1}},{{"cancel":1}}]}}', '"refused":"edited twice","slot":1')
        lines.ask(f'{{"{kind}":[{{"cancel":{beyond}}}]}}', f'"refused":"no slot","slot":{beyond}')
    lines.full_of_slots()
    lines.forget()
    lines.would()
    lines.begin()
    lines.finish()
    return lines


def room_for_a_repair(limits: Limits) -> Lines:
    """A repair for which there is just room enough."""
    lines = Lines(limits)
    lines.write(limits.some)
    lines.given_up(limits.entries - 2 * limits.some - 2)
    lines.would()
    lines.begin()
    lines.full_of_entries()
    lines.finish()
    assert lines.entries == limits.entries
    lines.full_of_entries()
    lines.full_of_entries('{"begin":[]}')
    lines.full_of_entries('{"would":[]}')
    lines.ask(STATUS, lines.status())
    lines.forget()
    lines.would()
    lines.write(1)
    return lines


def no_room_for_a_repair(limits: Limits) -> Lines:
    """With one entry more there is no room for a repair, but for writes."""
    lines = Lines(limits)
    lines.write(limits.some)
    lines.given_up(limits.entries - 2 * limits.some - 1)
    lines.full_of_entries('{"would":[]}')
    lines.full_of_entries('{"begin":[]}')
    lines.write(limits.some + 1)
    lines.full_of_entries()
    lines.ask(STATUS, lines.status())
    return lines


def writes_in_a_repair(limits: Limits) -> Lines:
    """Each write takes two entries, of which one is for its step."""
    lines = Lines(limits)
    lines.write(limits.some)
    lines.given_up(limits.entries - 2 * limits.some - 7)
    lines.begin()
    lines.write(2)
    lines.full_of_entries()
    lines.steps(7)
    lines.full_of_entries()
    lines.finish()
    assert lines.entries == limits.entries - 1
    lines.write(1)
    lines.full_of_entries()
    lines.ask(STATUS, lines.status())
    return lines


class Full(Held):
    def test_slots_and_entries(self) -> None:
        for lines in LINES:
            with self.subTest(lines.__name__):
                self.hold(lines(PROGRAM).given, lines.__name__, records=0)

    def test_slots_and_entries_of_the_model(self) -> None:
        """It has smaller limits here."""
        with patch.multiple(session_model, MOST_SLOTS=SMALL.slots, MOST_ENTRIES=SMALL.entries):
            for lines in LINES:
                session = MODEL.Session()
                session.answer(json.dumps({**OPENING, 'records': 0}).encode())
                for number, (line, wanted) in enumerate(lines(SMALL).given, 1):
                    answer = MODEL.text_of(session.answer(line.encode()))
                    self.assertEqual(answer, wanted, f'{lines.__name__}: line {number}, {line}')


LINES: list[Callable[[Limits], Lines]] = [all_slots, room_for_a_repair, no_room_for_a_repair, writes_in_a_repair]
