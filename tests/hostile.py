"""Hostile use of the built program and libraries: documents that are cut off, the largest document, the
longest line, the widest object, and memory that runs out at each growth, of a run, a session or a call, and at
some of a session with a log.

Growths are refused by a shared object (tests/refuse_growth.c), for which a C compiler is needed. Those of calls
are within marks of the built tests of the crates CRATES, which ./test builds.
"""
import functools
import itertools
import os
from pathlib import Path
from typing import Iterator, NamedTuple, Optional, Sequence

from tests.support import cases, fixtures
from tests.support.cases import Answer
from tests.support.growths import ALL, GrowthCase, HostileCase, Wanted
from tests.support.lawful import (
    WANT_OF_MEMORY, Judged, Session, judged, options_of, read, reports_in_threads, told_at_start, wanted_of)
from tests.support.progress import progress

CRATES = ['tt_memory_tests', 'tt_program_memory_tests']
NOT_JSON = Answer(1, b'', b'timetravel: $: not JSON\n')
UNREADABLE = b'timetravel: cannot read the log'  # and why
LONGEST = 16_777_216  # bytes of a document, and of a line

# Those of which every proper prefix is tried.
SMALL = ['examples/first', 'examples/empty', 'examples/transfer',
         'tests/reports/delete_is_replaced_by_another',
         'tests/reports/write_to_a_row_under_repair',
         'tests/reports/escapes_in_a_row',
         'tests/reports/cancelled_insert_frees_its_key',
         'tests/reports/action_in_place_of_each_kind_of_write',
         'tests/reports/withdrawal_needs_a_balance']

# Those that are run with too little memory, with the options of NAME.options. Where it is known
# which reports may come in threads (`reports_in_threads`), they are run so, too.
RUN = ['examples/first', 'examples/transfer', 'examples/two_workers', 'examples/incident',
       'examples/intruder', 'examples/branches', 'tests/reports/closed_generation',
       'tests/reports/closed_generation_of_one_worker',
       'tests/reports/closed_without_a_repair', 'tests/reports/rows_that_compare',
       'tests/reports/causes_of_each_kind',
       'tests/reports/comparison_fixes_no_key',
       'tests/reports/whole_action_takes_two_updates_back',
       'tests/reports/whole_actions_during_a_repair']

# Sessions that are held with too little memory.
HELD = ['tests/sessions/incident_in_short', 'tests/sessions/repairs', 'tests/sessions/slots',
        'tests/sessions/closed_generations', 'tests/sessions/texts_and_numbers',
        'tests/sessions/comparisons', 'tests/sessions/whole_actions',
        'tests/sessions/openings_at_any_time', 'tests/sessions/whose_repair',
        'tests/sessions/forgetting', 'tests/sessions/forgetting_many_rows', 'tests/sessions/why_pages',
        'tests/sessions/diff_pages', 'tests/sessions/would', 'tests/sessions/changes_by_pages',
        'tests/sessions/stamps_forgetting']

# Those that are held with a log, too, and in about how many ways each.
ON_A_LOG, WAYS = ['tests/sessions/forgetting', 'tests/sessions/forgetting_many_rows',
                  'tests/sessions/stamps_forgetting'], 150

# In about how many ways a session of many lines is held with too little memory.
MANY_WAYS = 60

# The status of a scenario that grows where it shouldn't, and of one that keeps a block.
GREW, KEPT = 90, 91

# Tests that do so.
TOLD = {'memory::marks::a_growth_is_told': GREW, 'memory::marks::a_kept_block_is_told': KEPT}

# How many growths the calls of a test meet at most: to copy the rows of the large table would take
# thousands, and to copy what is changed in place more than twice as many as there are.
MOST_GROWTHS = {'memory::sharing::one_more_row_of_a_large_table': 100,
                'memory::advancing::events_in_place': 90}


class Documents(HostileCase):
    def test_the_beginning_of_a_document_is_no_json(self) -> None:
        """Each one that isn't the whole."""
        documents = {name: read(f'{name}.json').rstrip(b'\n') for name in SMALL}
        total, done = sum(map(len, documents.values())), 0
        for name, document in documents.items():
            ran = functools.partial(self.replayed_beginning, document)
            for length, answer in enumerate(self.pool.map(ran, range(len(document)))):
                progress(done, total, 'beginnings of documents')
                self.assert_answer(answer, NOT_JSON, f'the first {length} bytes of {name}')
                done += 1
        progress(total, total, 'beginnings of documents')

    def replayed_beginning(self, document: bytes, length: int) -> Answer:
        return self.ran(['replay'], document[:length])

    def test_a_document_that_is_not_utf_8_is_no_json(self) -> None:
        """Wherever the byte is."""
        document = read('examples/first.json')
        for odd in (document.replace(b'"ann"', b'"an\xff"', 1), b'\xff' + document,
                    b'\xef\xbb\xbf' + document, document.decode().encode('utf-16')):
            self.assert_answer(self.ran(['replay'], odd), NOT_JSON, f'a document {odd[:20]!r}..')

    def test_a_document_may_have_16_777_216_bytes_and_no_more(self) -> None:
        document = read('examples/empty.json').rstrip(b'\n')
        report = Answer(0, read('examples/empty.report'), b'')
        refusal = Answer(1, b'', b'timetravel: $: longer than %d bytes\n' % LONGEST)
        for command in ('replay', 'run'):
            self.assert_answer(self.ran([command], document.ljust(LONGEST)), report, f'{command} of {LONGEST} bytes')
            self.assert_answer(self.ran([command], document.ljust(LONGEST + 1)), refusal,
                               f'{command} of {LONGEST + 1} bytes')

    def test_a_line_may_have_16_777_216_bytes_and_no_more(self) -> None:
        """Also a blank one; a longer one is answered, in an open session as a request, whatever it is."""
        lines = []
        for line in (b'{"version":2,"tables":[]}', b'{"status":true}', b'{"version":4,"tables":[]}'):
            lines += [line.ljust(LONGEST + 1), line.ljust(LONGEST + 70_000, b'\t'),
                      b' ' * (LONGEST + 1), b'\r' * LONGEST, line.ljust(LONGEST)]
        answer = self.ran(['session'], b'\n'.join(lines))
        self.assert_wanted(wanted_of(lines, answer, 0), f'lines of {LONGEST} bytes and more', answer)

    def test_a_member_named_twice_is_found_among_a_million(self) -> None:
        """The last one as well as the first."""
        members = b','.join(b'"%d":0' % number for number in range(1_000_000))
        for number in (0, 999_999):
            answer = self.ran(['replay'], b'{%s,"%d":0}' % (members, number))
            refusal = Answer(1, b'', b'timetravel: $: member "%d" named twice\n' % number)
            self.assert_answer(answer, refusal, f'a million members, and "{number}" again')

    def test_a_line_of_4_megabytes_in_less_and_less_memory(self) -> None:
        """It is answered by its fault while there is enough, then by `memory`, and the next line is answered
        all the same; down to what the program needs."""
        lines = [b'{"version":2,"tables":[]}', b'{"%s":0}' % (b'x' * 4_000_000), b'{"status":true}']
        met: list[Optional[int]] = []
        for megabytes in (64, 48, 32, 24, 20, 16, 14, 12, 10, 8, 6):
            if self.ran_within(megabytes, ['--help'], b'').status != 0:
                break
            answer = self.ran_within(megabytes, ['session'], b'\n'.join(lines))
            is_lost = answer == WANT_OF_MEMORY
            wanted = '' if is_lost else wanted_of(lines, answer, 1)
            self.assert_wanted(wanted, f'a line of 4 MB in {megabytes} MB', answer)
            met.append(None if is_lost or wanted else len(judged(lines, answer).lost))
        self.assertLessEqual({0, 1}, {*met}, f'a fault, and then `memory`: lines that were lost, of {met}')

    def ran_within(self, megabytes: int, words: Sequence[str], given: bytes) -> Answer:
        command = f'ulimit -v {megabytes * 1024}; exec "$0" "$@"'
        return self.ran(['-c', command, self.program, *words], given, program='/bin/sh')


class Growths(GrowthCase):
    """Whole runs and sessions, each with all its growths refused in turn."""

    def test_a_run_that_lacks_memory_tells_so_or_prints_its_report(self) -> None:
        runs = list(itertools.product(RUN, ('replay', 'run')))
        for done, (name, command) in enumerate(runs):
            progress(done, len(runs), 'runs that lack memory')
            words, reports = [command, *options_of(name)], {read(f'{name}.report')}
            if command == 'run':
                reports = reports_in_threads(name)
            if reports:
                self.refuse_growths_of_run(words, name, reports)
        progress(len(runs), len(runs), 'runs that lack memory')

    def refuse_growths_of_run(self, words: Sequence[str], name: str, reports: set[bytes]) -> None:
        def is_report(answer: Answer) -> bool:
            return answer.status == 0 and answer.output in reports and answer.error == b''

        def wanted(_: int, answer: Answer) -> str:
            is_refused = (words[0] == 'run' and answer.status == 4 and answer.output == b''
                          and answer.error.startswith(b'timetravel: store: '))
            is_lawful = answer == WANT_OF_MEMORY or is_report(answer) or is_refused
            return '' if is_lawful else 'the report, or a want of memory'
        document = read(f'{name}.json')
        answer = self.ran(words, document)
        self.assert_wanted('' if is_report(answer) else 'the report', f'{" ".join(words)} of {name}', answer)
        self.refuse_growths(words, name, document, wanted, wanted)

    def test_a_session_without_lines_that_lacks_memory_ends(self) -> None:
        def ends(_: int, answer: Answer) -> str:
            return '' if answer in (Answer(0, b'', b''), WANT_OF_MEMORY) else 'an end, or a want of memory'
        self.refuse_growths(['session'], 'nothing', b'', ends, ends)

    def test_a_line_that_lacks_memory_is_answered_so_and_changes_nothing(self) -> None:
        """Only a growth before the first line, which a session without lines meets too, may end a
        session."""
        before = self.growths_of(['session'], b'')
        for done, name in enumerate(HELD):
            progress(done, len(HELD), 'sessions that lack memory')
            document = read(f'{name}.lines')
            lines = document.split(b'\n')

            def wanted(most: int) -> Wanted:
                def wanted_at(number: int, answer: Answer) -> str:
                    may_end = number <= before and answer == WANT_OF_MEMORY
                    return '' if may_end else wanted_of(lines, answer, most)
                return wanted_at
            found = self.refuse_growths(['session'], name, document, wanted(1), wanted(len(lines)))
            self.assertGreater(found, before, f'{name}: no growth for its lines is refused')
        progress(len(HELD), len(HELD), 'sessions that lack memory')

    def test_a_line_behind_many_that_lacks_memory_changes_nothing(self) -> None:
        """Behind more lines than a checkpoint of a session has entries, which is taken anew by then."""
        lines = [b'{"version":4,"tables":[{"name":"acct","columns":[{"name":"id","kind":"int"},'
                 b'{"name":"owner","kind":"text","partition":true}]}]}']
        lines += [b'{"insert":"acct","row":[%d,"o%d"]}' % (key, key % 40) for key in range(1_100)]
        lines += [b'{"begin":[{"cancel":7}]}', b'{"step":900}', b'{"insert":"acct","row":[7,"ann"]}',
                  b'{"finish":true}', b'{"select":"acct","where":[["owner","o7"]]}', b'{"status":true}']
        document = b'\n'.join(lines)
        growths = self.growths_of(['session'], document)
        for number in range(growths, 0, -(growths // MANY_WAYS)):
            progress(growths - number, growths, 'growths of a session of many lines')
            for last, most in ((number, 1), (ALL, len(lines))):
                was_met, answer = self.refused(['session'], document, number, last)
                self.assertTrue(was_met, f'growth {number} of {growths}')
                is_begin = answer == WANT_OF_MEMORY
                told = '' if is_begin else wanted_of(lines, answer, most)
                self.assert_wanted(told, f'a session of many lines, growths {number} to {last}', answer)
        progress(growths, growths, 'growths of a session of many lines')


class OnALog(NamedTuple):
    """A session on a new log: its answer, whether a new log is left beside it, and what the next start answers
    to the opening and a request for the status."""
    answer: Answer
    is_left: bool
    again: Answer


class GrowthsOnALog(GrowthCase):
    """The same with a log, at some growths alone, so that it takes a minute at most. What was answered is
    there at the next start, and no more; and no new log is left."""

    def test_a_session_on_a_log_without_lines_that_lacks_memory_leaves_it(self) -> None:
        for name in ON_A_LOG:
            opening = read(f'{name}.lines').split(b'\n')[0]
            for number, found in self.refused_on_a_log(opening, b'', 1, False):
                self.assert_on_a_log(f'session --log of nothing, at growth {number}', opening, [], 0, True, found)

    def test_a_line_that_lacks_memory_leaves_the_log_as_it_was(self) -> None:
        for name in ON_A_LOG:
            document = read(f'{name}.lines')
            lines = document.split(b'\n')
            before = [number for number, _ in self.refused_on_a_log(lines[0], b'', 1, False)]
            self.assertTrue(before, 'a session on a log that has no lines meets no growth')
            every = -(-self.growths_of(['session'], document) // WAYS)
            for all_behind, most in ((False, 1), (True, len(lines))):
                lost = []
                for number, found in self.refused_on_a_log(lines[0], document, every, all_behind):
                    progress(min(number // every, WAYS), WAYS + 1, f'sessions of {name} with a log that lack memory')
                    what = f'session --log of {name}, {"from" if all_behind else "at"} growth {number}'
                    lost += self.assert_on_a_log(what, lines[0], lines, most, number <= before[-1], found)
                self.assertTrue(any(b'"forget"' in line for line in lost),
                                f'session --log of {name}: no forgetting is refused, of {len(lost)} lines')

    def refused_on_a_log(self, opening: bytes, document: bytes, every: int,
                         all_behind: bool) -> Iterator[tuple[int, OnALog]]:
        """Sessions on a new file each, in which some growth is refused, or all from it on, until none is met:
        the number, and the session."""
        numbers = itertools.count(every if all_behind else 1, every)

        def one(number: int) -> tuple[bool, OnALog]:
            file = f'{self.folder}/log.{number}'
            words = ['session', '--log', file]
            was_met, answer = self.refused(words, document, number, ALL if all_behind else number)
            is_left = os.path.lexists(f'{file}.new')
            again = self.ran(words, opening + b'\n{"status":true}\n')
            if os.path.exists(file):
                os.remove(file)
            return was_met, OnALog(answer, is_left, again)
        while True:
            some, was_met = list(itertools.islice(numbers, 16)), True
            for number, (was_met, found) in zip(some, [*self.pool.map(one, some)]):
                if was_met:
                    yield number, found
            if not was_met:
                return

    def assert_on_a_log(self, what: str, opening: bytes, lines: Sequence[bytes], most: int, may_not_begin: bool,
                        held: OnALog) -> list[bytes]:
        """Checks a session with a log that has met a refusal. Its lines that are answered by `memory`, of
        which there may be `most`."""
        answer = held.answer
        is_unreadable = answer.status == 1 and not answer.output and answer.error.startswith(UNREADABLE)
        may_be_so = may_not_begin and (answer == WANT_OF_MEMORY or is_unreadable)
        found = Judged([], Session(), 0) if may_be_so else judged(lines, answer)
        told = '' if may_be_so else wanted_of(lines, answer, most)
        self.assert_wanted(told, what, answer)
        self.assert_wanted('no new log' if held.is_left else '', f'{what}: whether a new log is left', answer)
        if told:
            return []
        wanted = Answer(0, told_at_start(opening, found.session, found.logged), b'')
        self.assert_answer(held.again, wanted, f'{what}: the next start')
        return found.lost


class Calls(GrowthCase):
    """Tests of the crates, which mark the calls in which a growth is refused, those that take no memory, and
    the stretches that give every block back."""
    scenarios: dict[str, list[str]]  # the tests of each program of built tests, without those of TOLD
    seen: set[str]

    @classmethod
    def setUpClass(cls) -> None:
        super().setUpClass()
        built = {crate: fixtures.ROOT / f'crates/{crate}/out/{crate}_tests' for crate in CRATES}
        missing = [crate for crate, path in built.items() if not os.access(path, os.X_OK)]
        if missing:
            fixtures.left_out(f'the built tests of {" and ".join(missing)} (./test builds them)')
        cls.scenarios, cls.seen = {}, set()
        for path in built.values():
            names = cls.listed(str(path))
            cls.seen.update(names)
            cls.scenarios[str(path)] = [name for name in names if name not in TOLD]

    @staticmethod
    def listed(path: str) -> list[str]:
        """The names of the tests that a program lists."""
        lines = cases.answer_of(cases.Case(['--list']), Path(path)).output.decode().splitlines()
        names = [line[:-len(': test')] for line in lines if line.endswith(': test')]
        if not names:
            raise AssertionError(f'{path} lists no tests')
        return names

    def ended(self, path: str, name: str, control: str = '') -> Answer:
        """The answer of a scenario that grows where it shouldn't, or keeps a block, or that is taken to do so
        (the control of tests/refuse_growth.c)."""
        return self.ran([name], b'', {'LD_PRELOAD': self.library, 'BETWEEN_MARKS': '1', 'CONTROL': control}, path)

    def test_each_growth_within_calls_may_be_refused(self) -> None:
        """That the marks of a scenario are met is shown by what happens if a growth within its calls is taken
        as one where there should be none, or if a stretch without growths begins."""
        total, done = sum(map(len, self.scenarios.values())), 0
        for path, names in self.scenarios.items():
            of_all = 0
            for name in names:
                progress(done, total, 'scenarios of calls')
                of_all += self.refuse_growths_of_calls(path, name)
                done += 1
            self.assertTrue(of_all, f'{path}: no growth is refused')
        progress(total, total, 'scenarios of calls')

    def refuse_growths_of_calls(self, path: str, name: str) -> int:
        """How many growths of a scenario are refused."""
        refused = 0
        for number, answer in self.refused_in_turn([name], b'', False, path):
            wanted = '' if answer.status == 0 else 'status 0'
            self.assert_wanted(wanted, f'{name}, at growth {number} of its calls', answer)
            refused += 1
        answer = self.ended(path, name, 'growth' if refused else 'quiet')
        wanted = '' if answer.status == GREW else f'status {GREW}'
        self.assert_wanted(wanted, f'{name}: its marks should be met', answer)
        if name in MOST_GROWTHS:
            with self.subTest(name):
                self.assertIn(refused, range(2, MOST_GROWTHS[name] + 1), f'{name}: growths')
        return refused

    def test_growths_where_none_should_be_and_kept_blocks_are_told(self) -> None:
        for path in self.scenarios:
            for name, status in TOLD.items():
                if name in self.listed(path):
                    answer = self.ended(path, name)
                    self.assert_wanted(f'status {status}' if answer.status != status else '', name, answer)

    def test_kept_blocks_are_told(self) -> None:
        """By some tests of each program, which do so if a block is taken as kept."""
        for path, names in self.scenarios.items():
            statuses = []
            for name in names:
                answer = self.ended(path, name, 'block')
                wanted = '' if answer.status in (0, KEPT) else f'status 0 or {KEPT}'
                self.assert_wanted(wanted, f'{name}, if a block is taken as kept', answer)
                statuses.append(answer.status)
            self.assertIn(KEPT, statuses, f'{path}: no test tells of kept blocks')

    def test_each_test_that_is_named_here_is_there(self) -> None:
        self.assertLessEqual(TOLD.keys() | MOST_GROWTHS.keys(), self.seen)
