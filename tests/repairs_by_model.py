"""The reports of documents in the repository are those that the model of sessions tells: what calls are answered,
which slots a repair re-executes and why, which replies it changes, and which rows differ.

The model is given the lines of a session: the calls, the beginning of the repair, steps before each call that is
made meanwhile, and its end. So calls have other numbers there, and edits name slots. It runs no program: that this
prints the reports is tested by tests/documents.py.
"""
import json
import unittest
from pathlib import Path
from typing import Any, Iterator, Sequence

from tests import session_model
from tests.documents import TOLD, options_of
from tests.support.cases import difference
from tests.support.fixtures import ROOT

Session: Any = session_model.Session
text_of: Any = session_model.text_of
BATCH = 16  # steps before a call that is made meanwhile, if no option says otherwise
ALL_STEPS = 10_000
KINDS = ['report', 'why', 'diff', 'dry']  # of files with reports


class Replay:
    """What `replay` reports of a document with some options, by the model."""

    def __init__(self, document: Any, options: Sequence[str]) -> None:
        self.document, self.options = document, options
        self.session = Session()
        self.lines: list[str] = []
        self.numbers: dict[int, int] = {}  # those of the document's calls, by the session's
        self.slots: dict[int, int] = {}  # those of the document's calls
        self.ask({'version': 4, 'tables': document['tables']})

    def ask(self, line: Any) -> Any:
        return self.session.answer(json.dumps(line).encode())

    def report(self) -> str:
        repair = self.document.get('repair')
        for call in self.document['calls']:
            self.call(call)
        if repair is not None:
            self.repair(repair)
        if '--closed' in self.options:
            self.closed()
        tables = [f'table {name} {rows_told(self.rows(name)["rows"])}' for name in self.tables()]
        status = self.ask({'status': True})
        end = f'end generation {status["generation"]} time {status["time"]}'
        return ''.join(f'{line}\n' for line in [*self.lines, *tables, end])

    def tables(self) -> list[str]:
        return [table['name'] for table in self.document['tables']]

    def rows(self, table: str, **members: int) -> Any:
        return self.ask({'select': table, 'where': [], 'most': 100_000, **members})

    def call(self, call: Any) -> None:
        answer, number = self.ask(call), len(self.numbers) + 1
        self.numbers[answer['call']] = number
        if 'slot' in answer:
            self.slots[number] = answer['slot']
        self.lines.append(f'call {number} worker {call["worker"]} {answer_told(answer)}')

    def repair(self, repair: Any) -> None:
        self.ask({'begin': [self.edit(edit) for edit in repair['edits']]})
        for call in repair.get('meanwhile', []):
            self.ask({'step': self.batch()})
            self.call(call)
        while self.ask({'step': ALL_STEPS})['left']:
            pass
        told = {'redone': [redone_told(it) for it in self.ask({'why': True})['redone']],
                'diff': [diff_told(it) for it in self.ask({'diff': True})['diff']],
                'changed': [self.changed_told(it) for it in self.ask({'changes': 'next'})['changed']]}
        is_dry = '--dry' in self.options
        status = self.ask({'status': True})
        if is_dry:
            self.ask({'abort': True})
            self.lines.append(f'would rerun {status["repair"]["rerun"]} of {status["time"]} slots')
        else:
            switched = self.ask({'finish': True})
            self.lines.append('repair generation {generation} slots {slots} rerun {rerun}'.format(**switched))
            now = [self.changed_told(it) for it in self.ask({'changes': 'now'})['changed']]
            assert now == told['changed'], 'changes before and behind the switch'
        self.lines += told['redone'] if '--why' in self.options else []
        self.lines += [f'{"would change" if is_dry else "changed"} {it}' for it in told['changed']]
        self.lines += told['diff'] if '--diff' in self.options else []

    def edit(self, edit: Any) -> Any:
        """An edit that names the slot of a call."""
        return {name: value if name == 'by' else self.slots[value] for name, value in edit.items()}

    def batch(self) -> int:
        words = [*self.options, '--batch', str(BATCH)]
        return int(words[words.index('--batch') + 1])

    def changed_told(self, change: Any) -> str:
        tell = replies_told if 'slot' in change else rows_told
        after = 'cancelled' if change['after'] == 'cancelled' else tell(change['after'])
        return f'call {self.numbers[change["call"]]} {tell(change["before"])} -> {after}'

    def closed(self) -> None:
        status = self.ask({'status': True})
        for generation in range(status['oldest'], status['generation']):
            for name in self.tables():
                found = self.rows(name, **{'in': generation})
                self.lines.append(f'closed generation {generation} time {found["time"]} table {name} '
                                  f'{rows_told(found["rows"])}')


def answer_told(answer: Any) -> str:
    if 'refused' in answer:
        return f'refused {answer["refused"]}' + (f' than {answer["now"]}' if 'now' in answer else '')
    if 'rows' in answer:
        place = f'preview {answer["done"]}' if 'done' in answer else f'time {answer["time"]}'
        return f'{place} {rows_told(answer["rows"])}'
    return f'slot {answer["slot"]} {replies_told(answer["replies"])}'


def replies_told(replies: Sequence[Any]) -> str:
    words = [it if isinstance(it, str) else ' '.join(map(str, *it.items())) for it in replies]
    return ', '.join(words) or 'nothing'


def rows_told(rows: Sequence[Any]) -> str:
    return ' '.join([f'rows {len(rows)}', *map(text_of, rows)])


def redone_told(redone: Any) -> str:
    words = ['redone slot', redone['slot'], redone['because'], redone.get('table'), redone.get('key'),
             redone.get('column'), text_of(redone['value']) if 'value' in redone else None]
    since = f' since {redone["since"]}' if 'since' in redone else ''
    return ' '.join(str(word) for word in words if word is not None) + since


def diff_told(diff: Any) -> str:
    before, after = ('none' if row is None else text_of(row) for row in (diff['before'], diff['after']))
    return f'diff {diff["table"]} {diff["key"]} {before} -> {after}'


def reports() -> Iterator[tuple[Path, Path, list[str]]]:
    """Documents, each with a file that has its report with some options."""
    for folder in 'examples', 'tests/reports':
        for document in sorted((ROOT / folder).glob('*.json')):
            options = (options_of(f'{folder}/{document.stem}.options')[:1] or [[]])[0]
            for kind in KINDS:
                report = document.with_suffix(f'.{kind}')
                if report.exists():
                    yield document, report, [*options, *TOLD.get(kind, [])]


class Reports(unittest.TestCase):
    def test_reports_are_those_of_the_model(self) -> None:
        kinds = set()
        for document, report, options in reports():
            with self.subTest(str(report.relative_to(ROOT))):
                kinds.add(report.suffix)
                told = Replay(json.loads(document.read_text(encoding='utf-8')), options).report()
                stored = report.read_bytes()
                if told.encode() != stored:
                    self.fail('\n'.join(difference(stored, told.encode(), report.name)))
        self.assertEqual(kinds, {f'.{kind}' for kind in KINDS}, 'kinds of reports')
