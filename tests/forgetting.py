"""A random session that forgets, beside one that doesn't: both are given the same lines, and answer the
same, but for what is forgotten.

The session that keeps everything gets a status in the place of a forgetting. Behind the beginning of a
repair it takes the steps up to the horizon, which the other one takes with its beginning. It isn't asked for
what lies before the horizon, since the other one refuses that. So that calls have the same numbers, one of
the two is asked for its status where the other one alone is given a line. $FORGETTING_SESSIONS says how many
sessions are tried, where it isn't 200.
"""
import os
import unittest
from typing import Any, Callable, Optional, Protocol, Sequence

from tests import session_model
from tests.support import cases, fixtures
from tests.support.held_session import Held
from tests.support.progress import progress

SESSIONS, LINES, FORGETS = int(os.environ.get('FORGETTING_SESSIONS', 200)), 300, 3
OF_THE_MODEL = 20  # sessions that the model answers, too
STATUS = {'status': True}
STEPS = 10_000  # that a line may ask for
REFUSALS = {'select': ('no generation', 'forgotten'), 'why': ('no generation',), 'diff': ('no generation',),
            'begin': ('repairing', 'no slot'), 'would': ('repairing', 'no slot')}  # of what is gone
Answer = dict[str, Any]
Session: Any = session_model.Session
Random: Any = session_model.Random
text_of: Any = session_model.text_of


class Differs(Exception):
    """A line, the answer that was wanted to it, and the one that came."""

    def __init__(self, line: Any, wanted: Any, answer: Any) -> None:
        shown = [cases.shown(text_of(wanted), text_of(answer)), cases.shown(text_of(answer), text_of(wanted))]
        super().__init__(f'\ngiven:    {text_of(line)}\nwanted:   {shown[0]}\nanswered: {shown[1]}')


class Asked(Protocol):
    """What answers lines."""

    def ask(self, line: Any) -> Answer:
        ...

    def end(self) -> None:
        ...


class Model:
    """The model of tests/session_model.py."""

    def __init__(self) -> None:
        self.session: Any = Session()

    def ask(self, line: Any) -> Answer:
        answer: Answer = self.session.answer(text_of(line).encode())
        return answer

    def end(self) -> None:
        pass


class Program:
    """A session of the program."""

    def __init__(self) -> None:
        self.held = Held([str(fixtures.program()), 'session'])

    def ask(self, line: Any) -> Answer:
        answer: Optional[Answer] = self.held.ask_value(text_of(line))
        if answer is None:
            raise Differs(line, 'an answer', f'the end of the program: {self.held.end()}')
        return answer

    def end(self) -> None:
        self.held.kill()


def kind_of(line: Any) -> Optional[str]:
    if not isinstance(line, dict):
        return None
    if 'version' in line:
        return 'opening'
    return next((str(kind) for kind in session_model.KINDS if kind in line), None)


def is_accepted(answer: Answer) -> bool:
    return 'fault' not in answer and 'refused' not in answer


def is_refused_at_once(answer: Answer) -> bool:
    """Whether a line is refused whatever has been forgotten."""
    return 'fault' in answer or answer.get('refused') == 'moved'


def slots_edited(line: Any) -> set[int]:
    return {edit.get('cancel', edit.get('replace')) for edit in line.get('begin', line.get('would'))}


def action_of(entry: Answer) -> tuple[Any, bool]:
    """The writes that a slot makes, and whether they are whole."""
    return entry['do'], 'whole' in entry


def asked_of(entry: Answer) -> tuple[Any, bool]:
    return (entry['asked'], 'asked_whole' in entry) if 'asked' in entry else action_of(entry)


class Both:
    """A session that forgets, and one that keeps everything."""

    def __init__(self, make: Callable[[], Asked]) -> None:
        self.forgetful, self.keeping = make(), make()
        self.horizon = self.generation = 0  # the time and the generation at the last forgetting
        self.asked: dict[int, tuple[Any, bool]] = {}  # what slots were asked for, as the forgetful session knows
        self.emptied: set[int] = set()  # slots that were cancelled before a forgetting, and not edited since
        self.edited: set[int] = set()  # those that the repair under way edits

    def end(self) -> None:
        self.forgetful.end()
        self.keeping.end()

    def give(self, line: Any) -> None:
        """Gives a line to both. Changes are asked for as a whole, since a page of them depends on how many
        records there are."""
        kind = kind_of(line)
        if kind == 'changes':
            line = {name: value for name, value in line.items() if name != 'most'}
        answer = self.forgetful.ask(line)
        if is_refused_at_once(answer):
            wanted = self.keeping.ask(line)
        elif kind == 'forget':
            wanted = self.forgotten(line['forget'], self.keeping.ask(STATUS), answer)
        elif kind is not None and self.is_gone(kind, line):
            self.keeping.ask(STATUS)
            if answer.get('refused') in REFUSALS[kind]:
                return
            wanted = {'refused': REFUSALS[kind]}
        else:
            wanted = self.wanted(kind, line, self.keeping.ask(line), answer)
        if answer != wanted:
            raise Differs(line, wanted, answer)
        if kind == 'forget' and is_accepted(answer):
            self.forget(line['forget'], answer)

    def is_gone(self, kind: str, line: Any) -> bool:
        """Whether a line is about what lies before the horizon."""
        if kind in ('select', 'why', 'diff'):
            return bool(line.get('at', self.horizon) < self.horizon
                        or line.get('in', self.generation) < self.generation)
        return kind in ('begin', 'would') and any(0 < slot <= self.horizon for slot in slots_edited(line))

    # Forgetting

    def forgotten(self, time: int, status: Answer, answer: Answer) -> Answer:
        """The answer that is wanted to a forgetting."""
        refusals: list[tuple[Answer, bool]] = [
            ({'refused': 'repairing'}, status['repair'] is not None),
            ({'refused': 'later', 'now': status['time']}, time > status['time']),
            ({'refused': 'forgotten', 'horizon': self.horizon}, time < self.horizon)]
        for refusal, is_met in refusals:
            if is_met:
                return {'call': status['call'], **refusal}
        wanted = self.told(status, answer, time)
        return {**wanted, 'oldest': status['generation']}

    def told(self, status: Answer, answer: Answer, horizon: int) -> Answer:
        """The status of the forgetful session. Its entries are never more, and it keeps generations
        from the last forgetting on."""
        wanted = {**status, 'oldest': max(status['oldest'], self.generation),
                  'entries': min(answer.get('entries', 0), status['entries'])}
        return {**wanted, 'horizon': horizon} if horizon else wanted

    def forget(self, time: int, status: Answer) -> None:
        """Both go on behind a forgetting."""
        self.horizon, self.generation = time, status['generation']
        slots = self.keeping.ask({'slots': [time, time + 9_999]})['slots']
        self.forgetful.ask(STATUS)
        left = {entry['slot']: action_of(entry) for entry in slots if entry['slot'] > time}
        self.asked = {slot: (writes or [], is_whole) for slot, (writes, is_whole) in left.items()}
        self.emptied = {slot for slot, (writes, _) in left.items() if writes is None}

    # Other lines

    def wanted(self, kind: Optional[str], line: Any, kept: Answer, answer: Answer) -> Answer:
        """The answer that is wanted, where the other session has given this one."""
        if kept.get('refused') == 'no generation':
            return {**kept, 'oldest': max(kept['oldest'], self.generation)}
        if not is_accepted(kept):
            return kept
        if kind == 'begin':
            self.edited = slots_edited(line)
            return self.stepped_to_horizon(kept)
        if kind == 'finish':
            self.emptied -= self.edited
        if kind in ('finish', 'abort'):
            self.edited = set()
        if kind in ('status', 'abort', 'opening'):
            return self.told(kept, answer, self.horizon)
        if kind == 'slots':
            return {**kept, 'slots': self.slots(kept['slots'])}
        if kind == 'changes' and is_accepted(answer):
            edited = self.edited if line['changes'] == 'next' else set()
            return {**kept, 'from': answer['from'], 'changed': self.changed(kept, kept['from'], answer, edited)}
        if kind == 'would' and is_accepted(answer):
            return {**kept, 'changed': self.changed(kept, self.first_record(), answer, slots_edited(line))}
        return kept

    def stepped_to_horizon(self, begun: Answer) -> Answer:
        answer, left = begun, self.horizon
        while left:
            answer = self.keeping.ask({'step': min(left, STEPS)})
            self.forgetful.ask(STATUS)
            left -= min(left, STEPS)
        return {**answer, 'call': begun['call']}

    def slots(self, entries: Sequence[Answer]) -> list[Answer]:
        wanted = []
        for entry in entries:
            slot = entry['slot']
            asked = self.asked.get(slot, asked_of(entry))
            if slot in self.emptied:
                entry = {**entry, 'do': [], 'replies': []}
            entry.pop('asked', None)
            entry.pop('asked_whole', None)
            if asked != action_of(entry):
                entry['asked'] = asked[0]
                entry.update({'asked_whole': True} if asked[1] else {})
            if slot > self.horizon:
                wanted.append(entry)
        return wanted

    def as_asked(self, record: Answer) -> Answer:
        """A changed reply with what its write was asked for, as the forgetful session knows, if it is told."""
        if 'do' not in record or record['slot'] not in self.asked:
            return record
        writes, is_whole = self.asked[record['slot']]
        found = {name: value for name, value in record.items() if name != 'whole'}
        return {**found, 'do': writes, **({'whole': True} if is_whole else {})}

    def first_record(self) -> int:
        """The call of the first record of the session that keeps everything."""
        self.forgetful.ask(STATUS)
        return int(self.keeping.ask({'changes': 'now'})['from'])

    def changed(self, kept: Answer, first: int, answer: Answer, edited: set[int]) -> list[Answer]:
        """The changes that are wanted, in a generation with these slots edited. Since some records are gone,
        earlier ones may be kept than the other session's first one."""
        emptied = self.emptied - edited
        wanted = [record for record in answer['changed'] if record['call'] < first]
        for record in map(self.as_asked, kept['changed']):
            if record.get('slot') in emptied:
                record = {**record, 'after': []}
            is_kept = ('slot' not in record or record['slot'] > self.horizon
                       ) and ('time' not in record or record['time'] >= self.horizon)
            if is_kept and record['before'] != record['after']:
                wanted.append(record)
        return wanted


class Forgetting(unittest.TestCase):
    def hold(self, sessions: int, what: str, make: Callable[[], Asked]) -> None:
        """Holds the random sessions of the first seeds twice."""
        for seed in range(1, sessions + 1):
            progress(seed - 1, sessions, what)
            with self.subTest(f'session {seed}'):
                both = Both(make)
                self.addCleanup(both.end)
                for number, line in enumerate(Random(seed, FORGETS).lines(LINES), 1):
                    try:
                        both.give(line)
                    except Differs as differs:
                        self.fail(f'line {number} of random session {seed}{differs}')
                self.doCleanups()
        progress(sessions, sessions, what)

    def test_a_session_that_forgets_answers_as_one_that_does_not(self) -> None:
        self.hold(SESSIONS, 'sessions that forget', Program)

    def test_the_model_that_forgets_answers_as_one_that_does_not(self) -> None:
        self.hold(min(OF_THE_MODEL, SESSIONS), 'sessions of the model that forget', Model)
