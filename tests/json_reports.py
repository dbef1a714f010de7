"""Reports as JSON: each line is one object, and all of them say what the text says, line by line. This
translates them back, by itself.
"""
import json
import unittest
from typing import Any, Iterator

from tests.documents import documents
from tests.support.cases import Answer, Case, answer_of, failure
from tests.support.progress import progress

Value = Any  # of a member, as Python's reader gives it


def value_text(value: Value) -> str:
    """A value of a row: JSON has the escapes of the text."""
    return json.dumps(value, ensure_ascii=False)


def row_text(row: list[Value]) -> str:
    return f'[{",".join(map(value_text, row))}]'


def row_or_none(row: Value) -> str:
    return 'none' if row is None else row_text(row)


def rows_text(rows: list[Value]) -> str:
    return ' '.join([f'rows {len(rows)}', *map(row_text, rows)])


def reply_text(reply: Value) -> str:
    if isinstance(reply, str):
        return reply
    (kind, count), = reply.items()
    return f'{kind} {count}'


def replies_text(replies: list[Value]) -> str:
    return ', '.join(map(reply_text, replies)) or 'nothing'


def call_text(line: dict[str, Value]) -> str:
    """The line of a call."""
    number, worker = line.pop('call'), line.pop('worker')
    begin = f'call {number} worker {worker}'
    if 'refused' in line:
        cause = line.pop('refused')
        return f'{begin} refused {cause}' + (f' than {line.pop("now")}' if cause == 'later' else '')
    if 'slot' in line:
        return f'{begin} slot {line.pop("slot")} {replies_text(line.pop("replies"))}'
    if 'done' in line:
        return f'{begin} preview {line.pop("done")} {rows_text(line.pop("rows"))}'
    return f'{begin} time {line.pop("time")} {rows_text(line.pop("rows"))}'


def redone_text(line: dict[str, Value]) -> str:
    """The line of a slot that was re-executed."""
    words = ['redone slot', line.pop('slot'), line.pop('because')]
    words += [line.pop(name) for name in ('table', 'key', 'column') if name in line]
    words += [value_text(line.pop(name)) for name in ('value',) if name in line]
    words += [f'since {line.pop(name)}' for name in ('since',) if name in line]
    return ' '.join(map(str, words))


def changed_text(line: dict[str, Value], begin: str) -> str:
    """The line of a changed reply: of rows, where the call is a select, which has a time."""
    reply = rows_text if 'time' in line else replies_text
    line.pop('time' if 'time' in line else 'slot')
    before, after = line.pop('before'), line.pop('after')
    return f'{begin} {line.pop("call")} {reply(before)} -> {after if after == "cancelled" else reply(after)}'


def diff_text(line: dict[str, Value]) -> str:
    """The line of a row that differs."""
    row = f'{line.pop("table")} {line.pop("key")}'
    return f'diff {row} {row_or_none(line.pop("before"))} -> {row_or_none(line.pop("after"))}'


def table_text(line: dict[str, Value]) -> str:
    """The line of a table, also of a closed generation."""
    closed = f'closed generation {line.pop("closed")} time {line.pop("time")} ' if 'closed' in line else ''
    return f'{closed}table {line.pop("table")} {rows_text(line.pop("rows"))}'


def line_text(line: dict[str, Value], is_dry: bool) -> str:
    """A line, by the members that it has; these are taken out. A dry run tells what would be."""
    if 'worker' in line:
        return call_text(line)
    if 'because' in line:
        return redone_text(line)
    if 'call' in line:
        return changed_text(line, 'would change call' if is_dry else 'changed call')
    if 'key' in line:
        return diff_text(line)
    if 'table' in line:
        return table_text(line)
    if 'rerun' in line:
        rerun, slots = line.pop('rerun'), line.pop('slots')
        return (f'repair generation {line.pop("generation")} slots {slots} rerun {rerun}' if 'generation' in line
                else f'would rerun {rerun} of {slots} slots')
    return f'end generation {line.pop("generation")} time {line.pop("time")}'


def texts_of(report: str) -> Iterator[str]:
    """The lines of the text that says what a report of JSON lines says."""
    is_dry = False
    for text in report.splitlines():
        line = json.loads(text)
        if text != json.dumps(line, ensure_ascii=False, separators=(',', ':')):
            raise ValueError(f'not in its shortest form: {text}')
        is_dry = is_dry or ('rerun' in line and 'generation' not in line)
        yield line_text(line, is_dry)
        if line:
            raise ValueError(f'further members: {text}')


class JsonReports(unittest.TestCase):
    """The reports of all documents of files, with their options and `--json`."""

    def translates(self, case: Case) -> None:
        words = [*case.arguments, '--json']
        given = answer_of(Case(words, case.given))
        text = ''.join(f'{line}\n' for line in texts_of(given.output.decode()))
        told = failure(Case(words, case.given, case.status, case.output, case.error, case.label),
                       Answer(given.status, text.encode(), given.error))
        if told:
            self.fail(told)

    def test_say_what_the_text_says(self) -> None:
        cases = [case for case in documents() if '--json' not in case.arguments]
        for number, case in enumerate(cases):
            progress(number, len(cases), 'reports as JSON')
            with self.subTest(str(case)):
                self.translates(case)
        progress(len(cases), len(cases), 'reports as JSON')
