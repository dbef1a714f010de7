"""Documents, which the program runs: their reports, the faults of faulty ones, and how much time and
memory they take.

  tests/reports/, examples/   NAME.json with the report that it has, NAME.report. Options of the command
                              line stand in NAME.options. A document whose report is the same in every
                              order is run in threads, too; NAME.run has a line of options for each
                              further run in threads. NAME.why is the report with `--why`, NAME.diff
                              that with `--why --diff`, NAME.jsonl that with `--json --why --diff`,
                              and NAME.dry that of `replay` with `--dry --why --diff`
  tests/refused/              faults, each with the document that has it, or a part of it
"""
import resource
import subprocess
import sys
import unittest
from dataclasses import dataclass
from functools import partial
from pathlib import Path
from typing import Iterable, Iterator, Sequence

from tests.support.cases import Answer, Case, check
from tests.support.fixtures import ROOT, built_tests, left_out, other_program, program
from tests.support.methods import method_for_each
from tests.support.progress import progress
from tests.support.texts import blocks_of, copies, faults_of, sevens, shown_by_help, text_of

COMMANDS = ['replay', 'run']
TOLD = {'why': ['--why'], 'diff': ['--why', '--diff'], 'jsonl': ['--json', '--why', '--diff'],
        'dry': ['--dry', '--why', '--diff']}
ACCOUNTS = ('{"name":"acct","columns":[{"name":"id","kind":"int"},'
            '{"name":"owner","kind":"text","partition":true},{"name":"bal","kind":"int"}]}')


def reported(document: str, report: str, command: str, options: Sequence[str] = ()) -> Case:
    """The document of a file, and the file with its report."""
    return Case([command, *options], text_of(document).encode(), output=text_of(report).encode(), label=report)


# Documents with their reports

def has_one_order(document: str) -> bool:
    """Whether a run in threads always has the same report: where one worker makes all calls before
    the repair."""
    text = ''.join(text_of(document).split())
    return ('"workers":1,' in text or '"workers":1}' in text) and '"meanwhile"' not in text


def options_of(path: str) -> list[list[str]]:
    return [line.split() for line in text_of(path).splitlines()] if (ROOT / path).exists() else []


def documents() -> Iterator[Case]:
    for folder in 'examples', 'tests/reports':
        for path in sorted((ROOT / folder).glob('*.json')):
            name = f'{folder}/{path.stem}'
            document, report = f'{name}.json', f'{name}.report'
            options = options_of(f'{name}.options')[:1] or [[]]
            yield reported(document, report, 'replay', *options)
            if has_one_order(document):
                yield reported(document, report, 'run', *options)
            for words in options_of(f'{name}.run'):
                yield reported(document, report, 'run', words)
            for kind, words in TOLD.items():
                if (ROOT / f'{name}.{kind}').exists():
                    for command in COMMANDS if has_one_order(document) and kind != 'dry' else ['replay']:
                        further = [word for word in words if word not in options[0]]
                        yield reported(document, f'{name}.{kind}', command, [*options[0], *further])


def options() -> Iterator[Case]:
    """Numbers at the ends of their ranges, and numbers with a sign: the report of a document whose
    repair has no calls beside it is the same one."""
    name = 'tests/reports/each_kind_of_write_is_cancelled'
    for command in COMMANDS:
        for words in ['--batch', '1'], ['--batch=10000']:
            yield reported(f'{name}.json', f'{name}.report', command, words)
    for words in ['--rounds', '0'], ['--rounds=-0'], ['--rounds', '+7'], ['--rounds=1000', '--batch', '2']:
        yield reported(f'{name}.json', f'{name}.report', 'run', words)


def manual() -> Iterator[Case]:
    """The document that the manual begins with, and the one that help shows."""
    blocks = blocks_of('docs/DOCUMENT.md')
    document = next(block.text for block in blocks if block.kind == 'json')
    report = next(block.text for block in blocks if block.kind == '')
    for command in COMMANDS:
        yield Case([command], document.encode(), output=report.encode(), label='docs/DOCUMENT.md')
    for command in COMMANDS:
        yield Case([command], shown_by_help('{"version":3,\n').encode(), output=text_of('tests/help.report').encode(),
                   label='tests/help.report')


@method_for_each(documents)
class Documents(unittest.TestCase):
    """Documents of files with their reports."""


@method_for_each(options)
class Options(unittest.TestCase):
    """Options that change no report."""


@method_for_each(manual)
class Manual(unittest.TestCase):
    """Documents of the manual and of help."""


# Faulty documents

@dataclass(frozen=True)
class Refused:
    """A faulty document: status 1, nothing on standard output, and one line on standard error."""
    place: str
    document: str
    fault: str

    def case(self, command: str) -> Case:
        return Case([command], self.document.encode(), 1, b'', f'timetravel: {self.fault}\n'.encode(), self.place)


def refused_of(name: str, before: str = '', after: str = '') -> Iterator[Refused]:
    """The documents of a file of faults, whose parts stand between these two texts."""
    for line in faults_of(f'tests/refused/{name}'):
        yield Refused(line.place, before + line.parts[0] + after, line.fault)


def refused_calls(name: str, version: int) -> Iterator[Refused]:
    return refused_of(name, f'{{"version":{version},"workers":1,"tables":[{ACCOUNTS}],"calls":[', ']}')


def refused_repairs(name: str, version: int, calls: str) -> Iterator[Refused]:
    before = f'{{"version":{version},"workers":1,"tables":[{ACCOUNTS}],"calls":[{calls}],"repair":'
    return refused_of(name, before, '}')


def refused_in_short() -> Iterator[Refused]:
    """Faults of small documents."""
    yield from refused_of('documents')
    yield from refused_of('tables', '{"version":1,"workers":1,"calls":[],"tables":[', ']}')
    yield from refused_calls('calls', 1)
    yield from refused_calls('calls_in_version_3', 3)
    insert = '{"worker":1,"insert":"acct","row":[1,"ann",10]}'
    preview = '{"worker":1,"preview":"acct","where":[]}'
    yield from refused_repairs('repairs', 1, insert + ',{"worker":1,"select":"acct","where":[]},{"worker":1,'
                               '"update":"acct","change":[["add","bal",1]],"where":[["id",1]]},' + preview)
    yield from refused_repairs('repairs_in_version_2', 2, f'{insert},{preview},{{"worker":1,"do":[]}}')


def texts_around() -> dict[str, tuple[str, str]]:
    """What stands before and after the last item of each long list of tests/refused/last_items."""
    accounts = f'{{"version":2,"workers":1,"tables":[{ACCOUNTS}],"calls":['
    nothing = '{"worker":1,"do":[]}'
    calls = accounts + copies(1, 999, nothing) + nothing + '],"repair":{"edits":['
    columns = '"tables":[{"name":"wide","columns":[' + copies(0, 30, '{"name":"c#","kind":"int"}')
    wide = f'"workers":1,{columns}{{"name":"c31","kind":"text"}}]}}],"calls":[{{"worker":1,'
    row = f'{{"version":2,{wide}"insert":"wide","row":['
    where, compared = (f'{{"version":{version},{wide}"select":"wide","where":[' for version in (2, 3))
    change = f'{{"version":2,{wide}"update":"wide","where":[],"change":['
    empty = '{"version":2,"workers":1,"calls":[],'
    return {
        'calls': (accounts + copies(1, 999, '{"worker":1,"insert":"acct","row":[#,"ann",0]}'), ']}'),
        'most_calls': (accounts + copies(1, 99_999, nothing), ']}'),
        'do': (accounts + '{"worker":1,"do":[' + copies(1, 15, '{"delete":"acct","where":[["id",#]]}'), ']}]}'),
        'edits': (calls + copies(1, 999, '{"cancel":#}'), ']}}'),
        'meanwhile': (calls + '],"meanwhile":[' + copies(1, 999, nothing), ']}}'),
        'row': (row + copies(0, 30, '#'), ']}]}'),
        'long_row': (row + copies(0, 30, '#') + '"31",' + copies(32, 998, '#'), ']}]}'),
        'where': (where + copies(0, 30, '["c#",#]'), ']}]}'),
        'long_where': (where + copies(0, 998, '["c0",#]'), ']}]}'),
        'compared': (compared + copies(0, 30, '["c#","<=",#]'), ']}]}'),
        'long_compared': (compared + copies(0, 998, '["c0","!=",#]'), ']}]}'),
        'change': (change + copies(1, 30, '["set","c#",#]'), ']}]}'),
        'long_change': (change + copies(1, 999, '["add","c1",#]'), ']}]}'),
        'tables': (f'{empty}"tables":[' + copies(1, 63, '{"name":"t#","columns":[{"name":"id","kind":"int"}]}'), ']}'),
        'columns': (empty + columns, ']}]}'),
    }


def refused_last_items() -> Iterator[Refused]:
    """Faults at the last item of a long list."""
    around = texts_around()
    for line in faults_of('tests/refused/last_items', 2):
        before, after = around[line.parts[0]]
        yield Refused(line.place, before + line.parts[1].replace('LONG', 'x' * 1025, 1) + after, line.fault)


def refused_numbers() -> Iterator[Refused]:
    """As many calls, edits and calls made meanwhile as there may be, and one more; that there are too
    many comes before the items."""
    for most, path, before, after in [(100_000, '$.calls', '', ']}'),
                                      (10_000, '$.repair.edits', '],"repair":{"edits":[', ']}}'),
                                      (100_000, '$.repair.meanwhile', '],"repair":{"edits":[],"meanwhile":[', ']}}')]:
        begin = '{"version":1,"tables":[],"workers":1,"calls":[' + before
        yield Refused(f'{most} of {path}', begin + sevens(most) + after, f'{path}[0]: wrong type')
        yield Refused(f'{most + 1} of {path}', begin + sevens(most + 1) + after, f'{path}: out of range')


class FaultyDocuments(unittest.TestCase):
    """Faulty documents, which both commands refuse in the same way."""

    def refuses(self, refused: Iterable[Refused], what: str) -> None:
        documents_of_part = list(refused)
        for number, document in enumerate(documents_of_part):
            progress(number, len(documents_of_part), what)
            for command in COMMANDS:
                with self.subTest(f'{document.place}, {command}'):
                    check(self, document.case(command))
        progress(len(documents_of_part), len(documents_of_part), what)

    def test_refused_in_short(self) -> None:
        self.refuses(refused_in_short(), 'faulty documents')

    def test_refused_last_items(self) -> None:
        self.refuses(refused_last_items(), 'faults at the ends of long lists')

    def test_refused_numbers(self) -> None:
        self.refuses(refused_numbers(), 'lists that are too long')


# Long runs

def long_run(calls: int, rows: int, cancelled: int) -> tuple[str, str]:
    """A document of so many calls, and its report: that many rows are inserted, and each further call
    adds 1 to one of them. A repair cancels a call, unless that is 0, and redoes the writes from that
    one on that are to the same row."""
    document = ['{"version":1,"tables":[{"name":"acct","columns":[{"name":"id","kind":"int"},'
                '{"name":"bal","kind":"int"}]}],"workers":1,"calls":[']
    report = []
    for number in range(1, calls + 1):
        comma = ',' if number < calls else ']'
        if number <= rows:
            document.append(f'{{"worker":1,"insert":"acct","row":[{number},0]}}{comma}')
            report.append(f'call {number} worker 1 slot {number} inserted')
        else:
            document.append('{"worker":1,"update":"acct","change":[["add","bal",1]],'
                            f'"where":[["id",{number % rows + 1}]]}}{comma}')
            report.append(f'call {number} worker 1 slot {number} updated 1')
    if cancelled:
        document.append(f',"repair":{{"edits":[{{"cancel":{cancelled}}}]}}')
        report.append(f'repair generation 1 slots {calls} rerun {(calls - cancelled) // rows + 1}')
        report.append(f'changed call {cancelled} updated 1 -> cancelled')
    document.append('}')
    changes = {number: calls // rows - 1 for number in range(1, rows + 1)}
    if cancelled:
        changes[cancelled % rows + 1] -= 1
    report.append(' '.join([f'table acct rows {rows}', *(f'[{number},{count}]' for number, count in changes.items())]))
    report.append(f'end generation {1 if cancelled else 0} time {calls}')
    return '\n'.join(document) + '\n', '\n'.join(report) + '\n'


def long_runs() -> Iterator[Case]:
    for calls, rows, cancelled in (5_000, 5_000, 0), (100_000, 10, 0), (100_000, 10, 100_000):
        document, report = long_run(calls, rows, cancelled)
        label = f'{calls:,} calls, {rows:,} rows' + (f', call {cancelled:,} is cancelled' if cancelled else '')
        for command in COMMANDS:
            yield Case([command], document.encode(), output=report.encode(), label=label)


def long_session(count: int) -> Case:
    """A session of this number of inserts, which are sent at once, and of which no record is kept."""
    lines = ['{"version":2,"tables":[{"name":"t","columns":[{"name":"k","kind":"int"}]}],"records":0}']
    answers = ['{"time":0,"generation":0,"oldest":0,"entries":0,"repair":null}']
    for number in range(1, count + 1):
        lines.append(f'{{"insert":"t","row":[{number}]}}')
        answers.append(f'{{"call":{number},"slot":{number},"replies":["inserted"]}}')
    return Case(['session'], '\n'.join(lines + ['']).encode(), output='\n'.join(answers + ['']).encode(),
                label=f'{count:,} inserts')


def long_sessions() -> Iterator[Case]:
    yield long_session(10_000)
    yield long_session(100_000)


class LongRuns(unittest.TestCase):
    """Long runs and sessions, with the reports and answers that are computed for them."""

    def test_long_runs(self) -> None:
        for number, case in enumerate([*long_runs(), *long_sessions()]):
            progress(number, 8, 'long runs')
            with self.subTest(str(case)):
                check(self, case)
        progress(8, 8, 'long runs')


# Time and memory

def limited(bytes_of_memory: int) -> None:
    """Lets this process have so much memory."""
    resource.setrlimit(resource.RLIMIT_AS, (bytes_of_memory,) * 2)


def run_in(bytes_of_memory: int, command: Path, *words: str, given: bytes = b'') -> Answer:
    """What a program answers that has so much memory."""
    ran = subprocess.run([command, *words], input=given, capture_output=True, check=False,
                         preexec_fn=partial(limited, bytes_of_memory))
    return Answer(ran.returncode, ran.stdout, ran.stderr)


def has_help(megabytes: int) -> bool:
    """Whether this is enough for the program to print its help."""
    return run_in(megabytes << 20, program(), '--help').status == 0


class InBounds(unittest.TestCase):
    """What the built program takes. Another one, such as an unproved build, may take much memory before
    it begins, and is left out then."""
    MOST = 64  # megabytes for help

    def setUp(self) -> None:
        if other_program() and not has_help(self.MOST):
            left_out(f'a program that begins in {self.MOST} MB')


class Bounds(InBounds):
    """A run of 100,000 calls with a repair, and as many inserts in a session, take no more than so
    many seconds of a quiet core, and megabytes. What takes more walks, copies or keeps what it
    shouldn't."""
    SECONDS, MEGABYTES = 3, 200

    def answers_in_bounds(self, case: Case) -> None:
        check(self, case, [sys.executable, ROOT / 'tests/support/bounds.py', str(self.SECONDS), str(self.MEGABYTES),
                           program()])

    def test_long_runs(self) -> None:
        document, report = long_run(100_000, 10, 100_000)
        for command in COMMANDS:
            with self.subTest(command):
                self.answers_in_bounds(Case([command], document.encode(), output=report.encode(), label='100,000 calls'))

    def test_long_session(self) -> None:
        self.answers_in_bounds(long_session(100_000))


class LittleMemory(InBounds):
    """Less and less memory."""

    def test_faulty_document(self) -> None:
        """Status 1 and the line of its fault while there is enough, then status 3; down to what the
        program needs to print its help."""
        member = 'x' * 4_000_000
        document = f'{{"version":1,"tables":[],"workers":1,"calls":[],"{member}":0}}'.encode()
        enough = Answer(1, b'', f'timetravel: $: unknown member "{member}"\n'.encode())
        too_little = Answer(3, b'', b'timetravel: want of memory\n')
        found = []
        for megabytes in 64, 48, 32, 24, 20, 16, 14, 12, 10, 8, 6:
            if not has_help(megabytes):
                break
            with self.subTest(f'{megabytes} MB'):
                answer = run_in(megabytes << 20, program(), 'replay', given=document)
                found.append(answer)
                if answer not in (enough, too_little):
                    self.fail(f'timetravel replay in {megabytes} MB: status {answer.status}, {answer.output[:200]!r} and '
                              f'{answer.error[:200]!r}; wanted: status 1 or 3, and its line')
        if enough not in found or too_little not in found:
            self.fail('status 1 should come with enough memory, and status 3 with too little')


class Sharing(unittest.TestCase):
    def test_old_states_share_what_they_have_in_common(self) -> None:
        """5,000 of them fit into 100 MB only so."""
        name = 'db::sharing::many_states_share_what_they_have_in_common'
        answer = run_in(100_000 * 1024, built_tests('tt_db_tests'), name)
        if answer.status != 0:
            self.fail(f'{name} fails in 100 MB: {answer.output[-500:]!r} {answer.error[-500:]!r}')


def cases(by_one_command: bool) -> Iterator[Case]:
    """All cases of this part, with each faulty document for both commands, or for one, in turn."""
    for some in documents, options, manual, long_runs, long_sessions:
        yield from some()
    for some_refused in refused_in_short, refused_last_items, refused_numbers:
        for number, document in enumerate(some_refused()):
            for command in [COMMANDS[number % 2]] if by_one_command else COMMANDS:
                yield document.case(command)
