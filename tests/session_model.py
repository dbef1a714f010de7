#!/usr/bin/env python3
"""A small model of `timetravel session`, for tests: it answers the lines of standard input as
docs/SESSION.md says, by lists that it walks from the front, and shares no code with the program.

  tests/session_model.py < LINES          prints the answers
  tests/session_model.py --random SEED    prints the lines of a random session

It has memory for everything. The tests of tests/hostile.py tell it of each line that was answered by
`memory` (`Session.lose`).
"""
import json
import operator
import random
import re
import sys
from typing import NamedTuple

LONGEST = 16_777_216
VERSIONS = 2, 4  # of openings; all lines are read as of the last one
DEEPEST = 127
BLANK = re.compile(rb'[\t\r ]*\Z')
WRITES = ['insert', 'update', 'delete']
KINDS = ['insert', 'update', 'delete', 'select', 'preview', 'do', 'begin', 'step', 'finish',
         'abort', 'status', 'slots', 'changes', 'tables', 'why', 'diff', 'would', 'forget']
OF_REPAIRS = ['step', 'finish', 'abort']  # they may say whose repair they are for
MOST_WRITES = 16  # of an action
MOST_SLOTS, MOST_ENTRIES = 1_000_000, 4_000_000  # of a database and its history
MOST_ROWS = 1_000_000  # of all selects that a record is kept of
NOTHING = {'do': []}
COMPARISONS = {'=': operator.eq, '!=': operator.ne, '<': operator.lt, '<=': operator.le,
               '>': operator.gt, '>=': operator.ge}
SIGNS = list(COMPARISONS)


class Fault(Exception):
    def __init__(self, path, cause):
        super().__init__(path, cause)
        self.path, self.cause = path, cause


class Refusal(Exception):
    def __init__(self, cause, **members):
        super().__init__(cause)
        self.members = {'refused': cause, **members}


class Other:
    """A number that is neither a count nor an Int."""


def text_of(value):
    return json.dumps(value, ensure_ascii=False, separators=(',', ':'))


# JSON

def number(text):
    if text == '-0' or not -2 ** 63 <= int(text) < 2 ** 64:
        return Other()
    return int(text)


def real(text):
    if float(text) in (float('inf'), float('-inf')):
        raise ValueError
    return Other()


def refuse(text):
    raise ValueError


class Pairs(list):
    """An object as it stands in the text, a name perhaps twice."""


def depth_of(text):
    depth = deepest = 0
    for mark in re.findall(r'"(?:[^"\\]|\\.)*"|[][{}]', text, re.DOTALL):
        depth += (mark in '[{') - (mark in ']}')
        deepest = max(deepest, depth)
    return deepest


def value_of(line):
    if len(line) > LONGEST:
        raise Fault('$', f'longer than {LONGEST} bytes')
    try:
        text = line.decode()
        if text.startswith('\ufeff') or depth_of(text) > DEEPEST:
            raise ValueError
        value = json.loads(text, parse_int=number, parse_float=real, parse_constant=refuse,
                           object_pairs_hook=Pairs)
        json.dumps(flat(value), ensure_ascii=False).encode()  # a lone surrogate is no text
    except (ValueError, RecursionError):
        raise Fault('$', 'not JSON') from None
    return without_pairs('$', value)


def flat(value):
    if isinstance(value, Pairs):
        return [[name, flat(item)] for name, item in value]
    if isinstance(value, list):
        return [flat(item) for item in value]
    return None if isinstance(value, Other) else value


def without_pairs(path, value):
    """The value with objects as dictionaries. The first repeated name of the text is a fault."""
    if isinstance(value, Pairs):
        found = {}
        for name, item in value:
            if name in found:
                raise Fault(path, f'member {text_of(name)} named twice')
            found[name] = without_pairs(f'{path}.{name}', item)
        return found
    if isinstance(value, list):
        return [without_pairs(f'{path}[{at}]', item) for at, item in enumerate(value)]
    return value


# Values by their types

def wrong(path):
    return Fault(path, 'wrong type')


def out_of_range(path):
    return Fault(path, 'out of range')


def is_int(value):
    return isinstance(value, int) and not isinstance(value, bool) and value < 2 ** 63


def an_int(path, value):
    if not is_int(value):
        raise wrong(path)
    return value


def a_count(path, value, low=0, high=2 ** 64 - 1):
    if not isinstance(value, int) or isinstance(value, bool) or value < 0:
        raise wrong(path)
    if not low <= value <= high:
        raise out_of_range(path)
    return value


def a_worker(path, value):
    return a_count(path, value, 1, 2 ** 32 - 1)


def a_page(path, value):
    return a_count(path, value, 1, 100_000)


def a_text(path, value):
    if not isinstance(value, str):
        raise wrong(path)
    return value


def a_word(*words):
    def read(path, value):
        if a_text(path, value) not in words:
            raise out_of_range(path)
        return value
    return read


def a_value(path, value):
    if not is_int(value) and not isinstance(value, str):
        raise wrong(path)
    return value


def a_flag(path, value):
    if not isinstance(value, bool):
        raise wrong(path)
    return value


def true(path, value):
    if not a_flag(path, value):
        raise out_of_range(path)
    return True


def items(path, value, read, most=None, exactly=None):
    if not isinstance(value, list) or exactly is not None and len(value) != exactly:
        raise wrong(path)
    if most is not None and len(value) > most:
        raise out_of_range(path)
    return [read(f'{path}[{at}]', item) for at, item in enumerate(value)]


class Members:
    """An object whose members are read one after another."""

    def __init__(self, path, value):
        if not isinstance(value, dict):
            raise wrong(path)
        self.path, self.left = path, dict(value)

    def take(self, name, read):
        if name not in self.left:
            raise Fault(self.path, f'missing member {name}')
        return read(f'{self.path}.{name}', self.left.pop(name))

    def perhaps(self, name, read, usual=None):
        return self.take(name, read) if name in self.left else usual

    def kind(self, kinds):
        for kind in kinds:
            if kind in self.left:
                return kind
        raise Fault(self.path, 'missing one of ' + ', '.join(kinds))

    def end(self):
        if self.left:
            name = min(self.left, key=str.encode)
            raise Fault(self.path, f'unknown member {text_of(name)}')


# The grammar

def is_name(name):
    return re.fullmatch('[A-Za-z0-9_]{1,64}', name) is not None


def a_column(path, value):
    column = Members(path, value)
    name = column.take('name', a_text)
    kind = column.take('kind', a_text)
    if kind not in ('int', 'text'):
        raise out_of_range(f'{path}.kind')
    partition = column.perhaps('partition', a_flag, False)
    column.end()
    return {'name': name, 'kind': kind, 'partition': partition}


def tables_of(path, value):
    found = []

    def read(path, value):
        table = Members(path, value)
        name = table.take('name', a_text)
        columns = table.take('columns', lambda path, value: items(path, value, a_column))
        table.end()
        names = [column['name'] for column in columns]
        for cause, is_met in [
                ('bad name', not all(map(is_name, [name, *names]))),
                ('table named twice', any(name == other['name'] for other in found)),
                ('no columns', not columns),
                ('first column is not int', columns and columns[0]['kind'] != 'int'),
                ('column named twice', len(set(names)) < len(names)),
                ('too many tables or columns', len(found) == 64 or len(columns) > 32)]:
            if is_met:
                raise Fault(path, cause)
        found.append({'name': name, 'columns': columns})
    items(path, value, read)
    return found


def opening_of(value):
    opening = Members('$', value)
    opening.take('version', lambda path, value: a_count(path, value, *VERSIONS))
    tables = opening.take('tables', tables_of)
    keep = opening.perhaps('keep', lambda path, value: a_count(path, value, 0, 16), 4)
    records = opening.perhaps('records', lambda path, value: a_count(path, value, 0, 1_000_000),
                              100_000)
    opening.end()
    return tables, keep, records


class Grammar:
    """The grammar of requests over declared tables."""

    def __init__(self, tables):
        self.tables = tables

    def table(self, path, value):
        for table in self.tables:
            if table['name'] == a_text(path, value):
                return table
        raise Fault(path, 'no such table')

    def column(self, table):
        def read(path, value):
            names = [column['name'] for column in table['columns']]
            if a_text(path, value) not in names:
                raise Fault(path, 'no such column')
            return value
        return read

    def row(self, path, value):
        if not isinstance(value, list) or len(value) != 2:
            raise wrong(path)
        table = self.table(f'{path}[0]', value[0])
        return table['name'], an_int(f'{path}[1]', value[1])

    def where(self, table):
        def one(path, value):
            if not isinstance(value, list) or not 2 <= len(value) <= 3:
                raise wrong(path)
            name = self.column(table)(f'{path}[0]', value[0])
            if len(value) == 3 and a_text(f'{path}[1]', value[1]) not in SIGNS:
                raise out_of_range(f'{path}[1]')
            found = a_value(f'{path}[{len(value) - 1}]', value[-1])
            return [name, found] if value[1:-1] in ([], ['=']) else [name, value[1], found]
        return lambda path, value: items(path, value, one)

    def change(self, table):
        def one(path, value):
            if not isinstance(value, list) or len(value) != 3:
                raise wrong(path)
            word = a_text(f'{path}[0]', value[0])
            if word not in ('set', 'add'):
                raise out_of_range(f'{path}[0]')
            name = self.column(table)(f'{path}[1]', value[1])
            read = an_int if word == 'add' else a_value
            return [word, name, read(f'{path}[2]', value[2])]
        return lambda path, value: items(path, value, one)

    def write_of(self, members, kind):
        table = members.take(kind, self.table)
        write = {kind: table['name']}
        if kind == 'insert':
            write['row'] = members.take('row', lambda path, value: items(path, value, a_value))
        if kind == 'update':
            write['change'] = members.take('change', self.change(table))
        if kind != 'insert':
            write['where'] = members.take('where', self.where(table))
        return table, write

    def judge(self, path, table, statement):
        kinds = {column['name']: column['kind'] for column in table['columns']}
        row = statement.get('row', [])
        changes, where = statement.get('change', []), statement.get('where', [])
        pairs = list(zip(kinds, row)) if 'row' in statement else []
        pairs += [(name, value) for _, name, value in changes]
        pairs += [(condition[0], condition[-1]) for condition in where]
        changed = [name for _, name, _ in changes]
        for cause, is_met in [
                ('value of the wrong kind',
                 any((kinds[name] == 'int') != is_int(value) for name, value in pairs)),
                ('row of the wrong width', 'row' in statement and len(row) != len(kinds)),
                ('text too long', any(isinstance(value, str) and len(value.encode()) > 1024
                                      for value in [*row, *(value for _, value in pairs)])),
                ('key set by an update', next(iter(kinds)) in changed),
                ('column changed twice', len(set(changed)) < len(changed)),
                ('too many equalities', len(where) > 32)]:
            if is_met:
                raise Fault(path, cause)

    def do(self, path, value):
        def one(path, value):
            members = Members(path, value)
            table, write = self.write_of(members, members.kind(WRITES))
            members.end()
            self.judge(path, table, write)
            return write
        return items(path, value, one, most=MOST_WRITES)

    def action_of(self, members, kind):
        if kind == 'do':
            action = {'do': members.take('do', self.do)}
            if members.perhaps('whole', a_flag, False):
                action['whole'] = True
            return action, lambda: None
        table, write = self.write_of(members, kind)
        return {'do': [write]}, lambda: self.judge(members.path, table, write)

    def edit(self, path, value):
        edit = Members(path, value)
        kind = edit.kind(['cancel', 'replace'])
        slot, action = edit.take(kind, a_count), None

        def by(path, value):
            members = Members(path, value)
            action, judge = self.action_of(members, members.kind([*WRITES, 'do']))
            members.end()
            judge()
            return action
        if kind == 'replace':
            action = edit.take('by', by)
        edit.end()
        return slot, action

    def request_of(self, value):
        members = Members('$', value)
        asked = {'worker': members.perhaps('worker', a_worker, 1)}
        asked['if'] = members.perhaps('if', a_count)
        kind = asked['kind'] = members.kind(KINDS)
        judge = None
        if kind in [*WRITES, 'do']:
            asked['action'], judge = self.action_of(members, kind)
            asked['stamp'] = members.perhaps('stamp', a_count)
        elif kind in ('select', 'preview'):
            table = asked['table'] = members.take(kind, self.table)
            asked['where'] = members.take('where', self.where(table))
            if kind == 'select':
                asked['at'] = members.perhaps('at', a_count)
                asked['in'] = members.perhaps('in', a_count)
            asked['after'] = members.perhaps('after', an_int)
            asked['most'] = members.perhaps('most', a_page)

            def judge():
                self.judge('$', table, {'where': asked['where']})
        elif kind in ('begin', 'would'):
            asked['edits'] = members.take(
                kind, lambda path, value: items(path, value, self.edit, most=10_000))
        elif kind == 'step':
            asked['step'] = members.take('step', lambda path, value: a_count(path, value, 1, 10_000))
        elif kind == 'slots':
            first, last = members.take(
                'slots', lambda path, value: items(path, value, a_count, exactly=2))
            if last > first + 9_999:
                raise out_of_range('$.slots')
            asked['slots'] = first, last
            asked['of'] = members.perhaps('of', a_worker)
            asked['row'] = members.perhaps('row', self.row)
            asked['stamps'] = members.perhaps(
                'stamps', lambda path, value: items(path, value, a_count, exactly=2))
        elif kind == 'changes':
            asked['changes'] = members.take('changes', a_word('now', 'next'))
            asked['of'] = members.perhaps('of', a_worker)
            asked['only'] = members.perhaps('only', a_word('writes', 'reads'))
            asked['after'] = members.perhaps('after', a_count)
            asked['most'] = members.perhaps('most', a_page)
            asked['asked'] = members.perhaps('asked', a_flag, False)
        elif kind in ('why', 'diff'):
            members.take(kind, true)
            asked['in'] = members.perhaps('in', a_count)
            asked['after'] = members.perhaps('after', a_count if kind == 'why' else self.row)
            asked['most'] = members.perhaps('most', a_page)
        elif kind == 'forget':
            asked['forget'] = members.take('forget', a_count)
        else:
            members.take(kind, true)
        if kind in OF_REPAIRS:
            asked['of'] = members.perhaps('of', a_worker)
        members.end()
        if judge:
            judge()
        return asked


# The database: a generation is a list of slots, each an action, or None where it is cancelled. An
# action is the member `do` that it is printed as, and where it is whole the member `whole`.

class Generation:
    """Slots with their contents: contents[t] is {(table, key): row} after slot t. The repair that has
    closed it, if it is closed."""

    def __init__(self, tables, slots=()):
        self.tables, self.slots, self.replies, self.contents = tables, [], [], [{}]
        self.repair = None
        for action in slots:
            self.push(action)

    def push(self, action):
        content, replies, *_ = carried_out(self.tables, action or NOTHING, self.contents[-1])
        self.slots.append(action)
        self.contents.append(content)
        self.replies.append(None if action is None else replies)

    def rows(self, table, where, time):
        found = [row for (name, _), row in sorted(self.contents[time].items())
                 if name == table['name'] and is_match(table, where, row)]
        return found


def ground_of(tables, content):
    """The actions that insert the rows of a content, in the order of the tables and of the keys."""
    inserts = []
    for table in tables:
        keys = sorted(key for name, key in content if name == table['name'])
        inserts += [{'insert': table['name'], 'row': content[table['name'], key]} for key in keys]
    return [{'do': inserts[at:at + MOST_WRITES]} for at in range(0, len(inserts), MOST_WRITES)]


def is_match(table, where, row):
    names = [column['name'] for column in table['columns']]
    return all(holds(row[names.index(condition[0])], *condition[1:]) for condition in where)


def holds(found, *condition):
    """Whether a condition holds of what is found in its column: it is a value, or a sign and a value."""
    *sign, value = condition
    if isinstance(value, str):
        found, value = found.encode(), value.encode()
    return COMPARISONS[sign[0] if sign else '='](found, value)


def carried_out(tables, action, content):
    """The content after an action, its replies, the keys that it touched, and those that its writes
    matched in their turn. A whole action ends at its first write that has no effect, and then has
    written nothing."""
    before, content, replies, touched, matched = content, dict(content), [], set(), set()
    for write in action['do']:
        table, keys = table_of(tables, write), matched_by(tables, write, content)
        matched.update(keys)
        if 'insert' in write:
            keys = [key for key in keys if key not in content]
            replies.append('inserted' if keys else 'duplicate')
        else:
            replies.append({'deleted' if 'delete' in write else 'updated': len(keys)})
        for key in keys:
            if 'insert' in write:
                content[key] = write['row']
            elif 'delete' in write:
                del content[key]
            else:
                content[key] = changed(table, write['change'], content[key])
        touched.update(keys)
        if 'whole' in action and not keys:
            return before, replies, touched, matched
    return content, replies, touched, matched


def table_of(tables, write):
    name = next(write[kind] for kind in WRITES if kind in write)
    return next(table for table in tables if table['name'] == name)


def matched_by(tables, write, content):
    """The keys that a write matches; an insert matches that of its row."""
    table = table_of(tables, write)
    if 'insert' in write:
        return [(table['name'], write['row'][0])]
    return [key for key, row in content.items()
            if key[0] == table['name'] and is_match(table, write['where'], row)]


def changed(table, changes, row):
    names, row = [column['name'] for column in table['columns']], list(row)
    for word, name, value in changes:
        at = names.index(name)
        if word == 'add':
            value = max(-2 ** 63, min(2 ** 63 - 1, row[at] + value))
        row[at] = value
    return row


class Dirty(NamedTuple):
    """The rows (table, key) and the partitions (table, column, value) that are dirty."""
    rows: frozenset
    parts: frozenset


class Repair:
    """A repair under way, or one that has closed a generation: dirty[m] is what is dirty after slot m."""

    def __init__(self, current, edits, worker):
        self.current, self.edits, self.worker = current, dict(edits), worker
        self.next = Generation(current.tables)
        self.dirty, self.rerun = [Dirty(frozenset(), frozenset())], 0

    def done(self):
        return len(self.dirty) - 1

    def left(self):
        return len(self.current.slots) - self.done()

    def step(self):
        at, tables = self.done(), self.current.tables
        action = self.edits.get(at + 1, self.current.slots[at])
        before = self.next.contents[-1]
        self.next.push(action)
        dirty = self.dirty[-1]
        if at + 1 in self.edits or self.is_affected(at + 1, dirty):
            self.rerun += 1
            keys = self.touched(at + 1) | carried_out(tables, action or NOTHING, before)[3]
            parts = {part for key in keys for part in self.parts_with(key, before, self.next.contents[-1])}
            dirty = Dirty(dirty.rows | keys, dirty.parts | parts)
        self.dirty.append(dirty)

    def parts_with(self, key, *contents):
        """The partitions that get dirty with a row: that of its key, and those of what it is in some contents."""
        table = next(table for table in self.current.tables if table['name'] == key[0])
        yield key[0], table['columns'][0]['name'], key[1]
        for rows in contents:
            if key in rows:
                yield from parts_of(table, rows[key])

    def touched(self, slot):
        action = self.current.slots[slot - 1]
        return carried_out(self.current.tables, action or NOTHING, self.current.contents[slot - 1])[2]

    def is_affected(self, slot, dirty):
        """Whether a slot may be affected by what is dirty: a cancelled one isn't."""
        action = self.current.slots[slot - 1]
        if action is None:
            return False
        return bool(self.touched(slot) & dirty.rows) or any(
            self.row_named(write, dirty) is not None or not self.is_clear(write, dirty) for write in action['do'])

    def row_named(self, write, dirty):
        """The first dirty row whose key a write inserts, or has an equality with."""
        table = table_of(self.current.tables, write)
        keys = [value for column, value in equated(table, write) if column == table['columns'][0]['name']]
        return next(((table['name'], key) for key in keys if (table['name'], key) in dirty.rows), None)

    def reads(self, write):
        """The partitions that a write reads, in the order of its equalities."""
        table = table_of(self.current.tables, write)
        return [(table['name'], column, value) for column, value in equated(table, write)
                if column in partition_columns(table)]

    def is_clear(self, write, dirty):
        reads, name = self.reads(write), table_of(self.current.tables, write)['name']
        if reads:
            return any(read not in dirty.parts for read in reads)
        return all(key[0] != name for key in dirty.rows)

    # Differences, without a look at what is dirty

    def rows_that_differ(self):
        """The rows (table, key) that aren't the same in the two generations after the last slot done."""
        before, after = self.sides()
        return sorted((row for row in {*before, *after} if before.get(row) != after.get(row)), key=self.place_of)

    def difference(self, row):
        before, after = self.sides()
        return {'table': row[0], 'key': row[1], 'before': before.get(row), 'after': after.get(row)}

    def sides(self):
        return self.current.contents[self.done()], self.next.contents[self.done()]

    def place_of(self, row):
        """Rows stand in the order of the tables, and then of their keys."""
        return [table['name'] for table in self.current.tables].index(row[0]), row[1]

    # Causes

    def cause(self, slot):
        """Why a slot that is done was re-executed, or None where it wasn't: the members of an answer."""
        if slot in self.edits:
            return {'because': 'edited'}
        for since in range(1, slot):
            if self.dirty[since] is not self.dirty[since - 1] and self.is_affected(slot, self.dirty[since]):
                return {**self.cause_since(slot, since), 'since': since}
        return None

    def cause_since(self, slot, since):
        """The first of the causes that there are since a slot."""
        before, dirty = self.dirty[since - 1:since + 1]
        writes = self.current.slots[slot - 1]['do']
        for name, key in sorted(self.touched(slot) & dirty.rows, key=self.place_of):
            return {'because': 'wrote', 'table': name, 'key': key}
        for name, key in filter(None, [self.row_named(write, dirty) for write in writes]):
            return {'because': 'names', 'table': name, 'key': key}
        unclear = [write for write in writes if not self.is_clear(write, dirty)]
        for reads in filter(None, map(self.reads, unclear)):
            name, column, value = next(read for read in reads if read not in before.parts)
            return {'because': 'reads', 'table': name, 'column': column, 'value': value}
        return {'because': 'scans', 'table': table_of(self.current.tables, unclear[0])['name']}


def equated(table, write):
    """The columns that a write equates with a value, each with it. An insert does so with its key."""
    if 'insert' in write:
        return [(table['columns'][0]['name'], write['row'][0])]
    return [condition for condition in write['where'] if len(condition) == 2]


def partition_columns(table):
    return [column['name'] for at, column in enumerate(table['columns']) if at == 0 or column['partition']]


def parts_of(table, row):
    names = [column['name'] for column in table['columns']]
    return {(table['name'], name, row[names.index(name)]) for name in partition_columns(table)}


# The session

def is_passed_over(line):
    return len(line) <= LONGEST and BLANK.match(line) is not None


def is_opening(line):
    """Whether a line of an open session is an opening: a value with a member that no request has."""
    try:
        value = value_of(line)
    except Fault:
        return False
    return isinstance(value, dict) and 'version' in value


def is_from(stamps, stamp):
    low, high = stamps
    return stamp is not None and low <= stamp <= high


class Session:
    """A session tells slots, times and generations that only grow. Its lists begin with `ground`
    slots that insert what was there at the time `horizon`, and with the generation `before`."""

    def __init__(self):
        self.grammar = None
        self.was_opened = False  # by this process
        self.calls = self.horizon = self.ground = self.before = 0

    def answer(self, line):
        """The answer to a line, or None where it is passed over."""
        if is_passed_over(line):
            return None
        if self.grammar is None or is_opening(line):
            return self.answer_opening(line)
        self.calls += 1
        return {'call': self.calls, **self.answer_request(line)}

    def start_again(self):
        """Another process goes on, which takes its records from the first opening that it accepts."""
        self.was_opened = False

    def without_memory(self, line):
        """What the next line may be answered where there is no memory for it. An opening in an open
        session is a request where it isn't even kept, since nobody knows then what it is."""
        opened, request = {'refused': 'memory'}, {'call': self.calls + 1, 'refused': 'memory'}
        if self.grammar is None:
            return [opened]
        return [opened, request] if is_opening(line) else [request]

    def lose(self, answer):
        """Goes on behind a line for which there is no memory, and which is answered so."""
        self.calls += 'call' in answer

    def answer_opening(self, line):
        try:
            tables, keep, records = opening_of(value_of(line))
        except Fault as fault:
            return {'fault': {'path': fault.path, 'cause': fault.cause}}
        if self.grammar is None:
            self.open(tables, keep)
        elif (tables, keep) != (self.tables, self.keep):
            return {'refused': 'another opening'}
        if not self.was_opened:
            self.was_opened, self.most_records = True, records
            del self.records[:max(0, len(self.records) - records)]
        return self.status()

    def open(self, tables, keep):
        self.tables, self.keep, self.grammar = tables, keep, Grammar(tables)
        self.generations, self.repair, self.entries = [Generation(tables)], None, 0
        self.workers, self.stamps, self.asked, self.records = [], [], [], []

    def answer_request(self, line):
        try:
            asked = self.grammar.request_of(value_of(line))
        except Fault as fault:
            return {'fault': {'path': fault.path, 'cause': fault.cause}}
        try:
            if asked['if'] is not None and asked['if'] != self.now():
                raise Refusal('moved', now=self.now())
            kind = 'write' if 'action' in asked else asked['kind']
            return getattr(self, f'do_{kind}')(asked)
        except Refusal as refusal:
            return refusal.members

    def current(self):
        return self.generations[-1]

    def told(self, place):
        """A slot or a time of the lists, as it is told."""
        return place - self.ground + self.horizon

    def place(self, told):
        return told - self.horizon + self.ground

    def last(self, generation):
        """The last time of a generation."""
        return self.told(len(generation.slots))

    def now(self):
        return self.last(self.current())

    def newest(self):
        return self.before + len(self.generations) - 1

    def oldest(self):
        return max(self.before, self.newest() - self.keep)

    def standing(self):
        repair = self.repair
        return {'done': self.last(repair.next), 'left': repair.left(), 'rerun': repair.rerun}

    def status(self):
        return {'time': self.now(), 'generation': self.newest(), 'oldest': self.oldest(),
                'entries': self.entries, 'repair': self.under_way(),
                **({'horizon': self.horizon} if self.horizon else {})}

    def under_way(self):
        return self.repair and {**self.standing(), 'worker': self.repair.worker}

    def repairing(self, of=None):
        """The repair under way, which has to be one of this worker, if one is given."""
        if self.repair is None:
            raise Refusal('not repairing')
        if of not in (None, self.repair.worker):
            raise Refusal('repair of another', worker=self.repair.worker)
        return self.repair

    def record(self, asked, **record):
        self.records.append({'call': self.calls, 'worker': asked['worker'], **record})
        while len(self.records) > self.most_records or 'table' in record and self.rows_of_records() > MOST_ROWS:
            del self.records[0]

    def rows_of_records(self):
        return sum(len(record['before']) for record in self.records if 'table' in record)

    def do_write(self, asked):
        if len(self.current().slots) >= MOST_SLOTS:
            raise Refusal('full', limit=MOST_SLOTS)
        self.room_for(1 if self.repair is None else self.repair.left() + 3)
        self.current().push(asked['action'])
        self.entries += 1
        self.workers.append(asked['worker'])
        self.stamps.append(asked['stamp'])
        self.asked.append(asked['action'])
        replies = self.current().replies[-1]
        self.record(asked, slot=self.now(), before=replies)
        return {'slot': self.now(), 'replies': replies}

    def room_for(self, entries):
        """The history has room for so many entries. A repair that is under way needs room for a step of each
        slot that is left, and for the switch."""
        if self.entries + entries > MOST_ENTRIES:
            raise Refusal('full', limit=MOST_ENTRIES)

    def page(self, asked, rows):
        if asked['after'] is not None:
            rows = [row for row in rows if row[0] > asked['after']]
        return self.first_of('rows', rows, asked['most'])

    def first_of(self, name, entries, most):
        """The first of some entries, and whether there are more."""
        return {name: entries} if most is None else {name: entries[:most], 'more': len(entries) > most}

    def generation(self, number, last):
        """The generation of a number, of those that are kept up to a last one."""
        if not self.oldest() <= number <= last:
            raise Refusal('no generation', oldest=self.oldest(), newest=self.newest())
        return self.generations[number - self.before]

    def do_select(self, asked):
        newest = self.newest()
        generation = self.generation(newest if asked['in'] is None else asked['in'], newest)
        last = self.last(generation)
        time = last if asked['at'] is None else asked['at']
        if time > last:
            raise Refusal('later', now=last)
        self.not_forgotten(time)
        rows = generation.rows(asked['table'], asked['where'], self.place(time))
        if asked['in'] is None and asked['after'] is None and asked['most'] is None:
            self.record(asked, time=time, before=rows, table=asked['table'], where=asked['where'])
        return {'time': time, **self.page(asked, rows)}

    def do_preview(self, asked):
        repair = self.repairing()
        rows = repair.next.rows(asked['table'], asked['where'], repair.done())
        return {'done': self.last(repair.next), **self.page(asked, rows)}

    def repair_with(self, asked):
        """A repair with the edits that are asked for, before its first step."""
        if self.repair is not None:
            raise Refusal('repairing')
        slots = [slot for slot, _ in asked['edits']]
        for slot in slots:
            if not self.horizon < slot <= self.now():
                raise Refusal('no slot', slot=slot)
        for at, slot in enumerate(slots):
            if slot in slots[:at]:
                raise Refusal('edited twice', slot=slot)
        self.room_for(len(self.current().slots) + 2)
        edits = [(self.place(slot), action) for slot, action in asked['edits']]
        return Repair(self.current(), edits, asked['worker'])

    def do_begin(self, asked):
        self.repair = self.repair_with(asked)
        self.entries += 1
        self.steps(self.ground)
        return self.standing()

    def steps(self, count):
        for _ in range(min(count, self.repair.left())):
            self.repair.step()
            self.entries += 1

    def do_step(self, asked):
        self.repairing(asked['of'])
        self.steps(asked['step'])
        return self.standing()

    def do_finish(self, asked):
        repair = self.repairing(asked['of'])
        self.steps(repair.left())
        self.entries += 1
        self.current().repair = repair
        self.generations.append(repair.next)
        self.repair = None
        return {'generation': self.newest(), 'slots': self.now(), 'rerun': repair.rerun}

    def do_abort(self, asked):
        self.repairing(asked['of'])
        self.repair = None
        self.entries += 1
        return self.status()

    def do_status(self, asked):
        return self.status()

    def not_forgotten(self, time):
        if time < self.horizon:
            raise Refusal('forgotten', horizon=self.horizon)

    def do_forget(self, asked):
        time = asked['forget']
        if self.repair is not None:
            raise Refusal('repairing')
        if time > self.now():
            raise Refusal('later', now=self.now())
        self.not_forgotten(time)
        at, current, newest = self.place(time), self.current(), self.newest()
        ground = ground_of(self.tables, current.contents[at])
        self.asked = ground + [action or NOTHING for action in current.slots[at:]]
        self.workers = [0] * len(ground) + self.workers[at:]
        self.stamps = [None] * len(ground) + self.stamps[at:]
        self.generations, self.entries = [Generation(self.tables, self.asked)], len(self.asked)
        self.horizon, self.ground, self.before = time, len(ground), newest
        self.records = [record for record in self.records
                        if record.get('slot', time + 1) > time and record.get('time', time) >= time]
        return self.status()

    def do_tables(self, asked):
        return {'version': VERSIONS[-1], 'tables': self.tables, 'keep': self.keep,
                'records': self.most_records}

    def do_slots(self, asked):
        current, found = self.current(), []
        first, last = asked['slots']
        for slot in range(max(first, self.horizon + 1), min(last, self.now()) + 1):
            at, row = self.place(slot) - 1, asked['row']
            before, after = current.contents[at], current.contents[at + 1]
            if asked['of'] not in (None, self.workers[at]):
                continue
            if row is not None and before.get(row) == after.get(row):
                continue
            if asked['stamps'] is not None and not is_from(asked['stamps'], self.stamps[at]):
                continue
            action = current.slots[at]
            entry = {'slot': slot, 'worker': self.workers[at], **self.stamp(at), **(action or {'do': None}),
                     'replies': current.replies[at]}
            if action != self.asked[at]:
                names = {'do': 'asked', 'whole': 'asked_whole'}
                entry.update({names[name]: value for name, value in self.asked[at].items()})
            found.append(entry)
        return {'time': self.now(), 'slots': found}

    def stamp(self, at):
        """The member that tells the stamp of a place, if it has one."""
        return {} if self.stamps[at] is None else {'stamp': self.stamps[at]}

    def do_changes(self, asked):
        generation = self.repairing().next if asked['changes'] == 'next' else self.current()
        first = self.records[0]['call'] if self.records else self.calls
        records = [record for record in self.records if asked['of'] in (None, record['worker'])
                   and (asked['only'] is None or ('slot' in record) == (asked['only'] == 'writes'))
                   and (asked['after'] is None or record['call'] > asked['after'])]
        changed = self.changed(records, generation, asked['asked'])
        return {'from': first, **self.first_of('changed', changed, asked['most'])}

    def changed(self, records, generation, is_in_full=False):
        """The records whose answers would be others in a generation, so far as it has slots; with what was
        asked for, where they are to be told in full."""
        changes = []
        for record in records:
            place = 'slot' if 'slot' in record else 'time'
            at = self.place(record[place])
            if at > len(generation.slots):
                continue
            if place == 'slot':
                after = generation.replies[at - 1]
                after = 'cancelled' if after is None else after
            else:
                after = generation.rows(record['table'], record['where'], at)
            if after != record['before']:
                change = {place: record[place], 'before': record['before'], 'after': after}
                if is_in_full:
                    wanted = self.asked[at - 1] if place == 'slot' else {
                        'select': record['table']['name'], 'where': record['where']}
                    change = {'worker': record['worker'], **change, **wanted}
                changes.append({'call': record['call'], **change})
        return changes

    def repair_of(self, asked):
        """The repair that has closed the generation that is asked for, or the one under way."""
        if asked['in'] is None:
            return self.repairing()
        return self.generation(asked['in'], self.newest() - 1).repair

    def do_why(self, asked):
        repair = self.repair_of(asked)
        redone = [entry for entry in self.redone(repair) if entry['slot'] > (asked['after'] or 0)]
        return {'done': self.told(repair.done()), **self.first_of('redone', redone, asked['most'])}

    def do_diff(self, asked):
        repair = self.repair_of(asked)
        rows = repair.rows_that_differ()
        if asked['after'] is not None:
            rows = [row for row in rows if repair.place_of(row) > repair.place_of(asked['after'])]
        return {'done': self.told(repair.done()),
                **self.first_of('diff', [repair.difference(row) for row in rows], asked['most'])}

    def do_would(self, asked):
        repair = self.repair_with(asked)
        while repair.left():
            repair.step()
        return {'slots': self.now(), 'rerun': repair.rerun, 'redone': self.redone(repair),
                'changed': self.changed(self.records, repair.next),
                'diff': [repair.difference(row) for row in repair.rows_that_differ()]}

    def redone(self, repair):
        """The slots that a repair has re-executed, with their causes."""
        causes = [(self.told(slot), repair.cause(slot)) for slot in range(1, repair.done() + 1)]
        return [{'slot': slot, **self.told_cause(cause)} for slot, cause in causes if cause is not None]

    def told_cause(self, cause):
        return cause if 'since' not in cause else {**cause, 'since': self.told(cause['since'])}


# Random sessions

class Random:
    """The lines of a session, which forgets as often as is said, or as the seed says."""

    def __init__(self, seed, forgets=None):
        self.random = random.Random(seed)
        self.time = self.horizon = 0  # the horizon is perhaps less
        self.written = {}  # the actions of slots, so far as is known
        self.forgets = self.one_of(0, 1, 1, 3) if forgets is None else forgets
        self.has_many_rows = self.one_of(False, False, True)

    def most(self, few, many):
        return many if self.has_many_rows else few

    def one_of(self, *values):
        return self.random.choice(values)

    def key(self):
        return self.random.randint(1, self.most(6, 99))

    def owner(self):
        return self.one_of('ann', 'bob', 'eve', 'a"b\n')

    def where(self):
        conditions = [['id', self.key()], ['owner', self.owner()], ['bal', self.one_of(0, 5)],
                      ['kind', self.one_of(1, 2)]]
        found = self.random.sample(conditions, self.one_of(*[self.most(0, 1)] * 2, 1, 1, 1, 2))
        return self.compared(found + self.more_conditions(found))

    def more_conditions(self, found):
        """Now and then one more on the same column."""
        if not found or self.one_of(True, True, True, False):
            return []
        return [[found[0][0], self.owner() if found[0][0] == 'owner' else self.key()]]

    def compared(self, where):
        """Half of the conditions say how they compare."""
        return [[name, self.one_of(*SIGNS), value] if self.one_of(True, False) else [name, value]
                for name, value in where]

    def perhaps_faulty(self, where):
        if not where or self.one_of(*[True] * 15, False):
            return where
        name, value = where[0][0], where[0][-1]
        return [self.one_of([name, '==', value], [name, '<', None], [name, 7, value], [name, '>'],
                            [name, '<', value, value], [name, '<', value]), *where[1:]]

    def write(self):
        kind = self.one_of(*['insert'] * self.most(2, 9), 'update', 'update', 'update', 'delete')
        table = self.one_of('acct', 'acct', 'acct', 'note')
        if table == 'note':
            where = self.compared(self.one_of([], [['n', self.key()]]))
            return {'insert': {'insert': 'note', 'row': [self.key()]},
                    'update': {'update': 'note', 'change': [], 'where': where},
                    'delete': {'delete': 'note', 'where': where}}[kind]
        if kind == 'insert':
            return {'insert': 'acct', 'row': [self.key(), self.owner(), self.one_of(0, 5, 7),
                                              self.one_of(1, 2)]}
        if kind == 'delete':
            return {'delete': 'acct', 'where': self.where()}
        change = [['set', 'owner', self.owner()], [self.one_of('set', 'add'), 'bal',
                  self.one_of(0, 5, -3, 2 ** 63 - 1)], ['set', 'kind', self.one_of(1, 2)]]
        return {'update': 'acct', 'change': self.random.sample(change, self.one_of(0, 1, 1, 2)),
                'where': self.where()}

    def action(self):
        if self.one_of(True, True, False):
            return self.write()
        if self.one_of(True, False):
            return self.whole_action()
        return {'do': [self.write() for _ in range(self.one_of(0, 1, 2, self.most(3, 16)))]}

    def whole_action(self):
        """Often of writes that mostly have an effect, and perhaps one among them that mostly has none."""
        writes = [self.one_of(self.write, self.write_to_all)() for _ in range(self.one_of(0, 1, 2, 3, 4))]
        if self.one_of(True, False):
            without = {'delete': 'acct', 'where': [['id', 100], *self.where()]}
            writes.insert(self.one_of(0, len(writes) // 2, len(writes)), without)
        return {'do': writes, 'whole': self.one_of(*[True] * 7, False)}

    def write_to_all(self):
        key, low = self.key(), self.one_of(0, 1, 1, self.key())
        return self.one_of(
            {'insert': 'acct', 'row': [key + self.random.randint(0, 40), self.owner(), 5, 1]},
            {'update': 'acct', 'change': [['add', 'bal', self.one_of(1, -1, 2 ** 63 - 1)]],
             'where': [['id', '>', low]]},
            {'update': 'acct', 'change': [['set', 'owner', self.owner()]], 'where': []})

    def faulty_whole(self):
        write, value = self.write(), self.one_of(0, 1, None, 'true', [], {})
        faulty = self.one_of({'do': [write], 'whole': value}, {**write, 'whole': True},
                             {'do': [write, {**write, 'whole': True}], 'whole': True})
        return self.one_of(faulty, {'begin': [{'replace': self.time, 'by': faulty}]},
                           {'status': True, 'whole': True}, {'whole': True})

    def stamp(self):
        return self.one_of(0, 1, self.time, self.time, self.time + 1, 1000, 2 ** 63, 2 ** 64 - 1)

    def stamps(self):
        low = self.one_of(0, 0, self.horizon, self.time // 2, self.time)
        return [low, self.one_of(low, low + 2, low + 50, 999, 2 ** 64 - 1)]

    def faulty_stamp(self):
        """A stamp that is none, or where none may be."""
        write, value = self.write(), self.one_of(-1, None, '1', [1], {}, True, 1.5)
        whole = {'do': [write], 'whole': self.one_of(True, 1)}
        by = {'begin': [{'replace': self.time, 'by': {**write, 'stamp': 1}}]}
        return self.one_of(
            {**write, 'stamp': value}, {'do': [write], 'stamp': value}, {**whole, 'stamp': value},
            {'insert': 'acct', 'row': [1], 'stamp': value}, {'insert': 'acct', 'row': [1], 'stamp': 1},
            {**write, 'stamp': value, 'a': 1}, {**write, 'stamp': 1, 'a': 1}, {'do': [{**write, 'stamp': 1}]},
            by, {'would': by['begin']}, {'status': True, 'stamp': 1}, {'forget': 0, 'stamp': 1},
            {'select': 'acct', 'where': [], 'stamp': 1}, {'stamp': 1})

    def faulty_stamps(self):
        return {'slots': [1, 9], **self.one_of({}, {'of': 0}, {'row': ['acct']}, {'row': ['acct', 1]}),
                'stamps': self.one_of([1], [], [1, 2, 3], 1, None, [1, -1], ['1', 2], [None, 2], {}),
                **self.one_of({}, {}, {'a': 1})}

    def edit(self):
        least = self.one_of(*[self.horizon + 1] * 8, 1, 0)
        slot = self.random.randint(least, max(least, self.time + self.one_of(0, 0, 0, 1)))
        if slot in self.written and self.one_of(True, False, False):
            return {'replace': slot, 'by': self.as_whole_or_not(self.written[slot])}
        return self.one_of({'cancel': slot}, {'replace': slot, 'by': self.action()})

    def as_whole_or_not(self, action):
        """The same writes, mostly whole where they weren't, and the other way round."""
        writes = {'do': action['do'] if 'do' in action else [action]}
        return writes if 'whole' in action and self.one_of(True, True, False) else {**writes, 'whole': True}

    def some_time(self):
        return self.random.randint(self.one_of(0, self.horizon, self.horizon), self.time + 1)

    def forget(self):
        """Mostly up to a time that is there and isn't forgotten."""
        time = self.random.randint(self.horizon, self.time)
        time = self.one_of(time, time, time, self.time, max(0, self.time - 10), self.horizon, 0,
                           max(0, self.horizon - 1), self.time + 1)
        if time <= self.time:
            self.horizon = max(self.horizon, time)
        return {'forget': time}

    def of_worker(self):
        """Whose repair a line is for, mostly one that began some."""
        return self.one_of({}, {}, {'of': 1}, {'of': 2}, {'of': self.one_of(3, 3, 2 ** 32 - 1, 0, None)})

    def next_opening(self):
        """An opening in the midst, mostly of the tables that are there."""
        opening = {**self.opening, 'version': self.one_of(2, 3, 4), 'records': self.one_of(0, 3, 9)}
        if self.one_of(True, False):
            return opening
        tables = self.opening['tables']
        return self.one_of(
            {**opening, 'keep': self.one_of(0, 1, 4)}, {**opening, 'tables': tables[::-1]},
            {**opening, 'tables': tables[:1]}, {**opening, 'tables': []},
            {**opening, 'version': self.one_of(1, 5, '4', None)}, {'version': 4}, {'version': 2, 'status': True},
            {**opening, 'worker': 1}, {**opening, 'insert': 'acct'}, {'version': None, 'do': []},
            {'insert': 'note', 'row': [self.key()], 'version': 3})

    def page(self):
        return {**self.one_of({}, {}, {'after': self.key() - 1}),
                **self.one_of({}, {}, {'most': self.one_of(1, 2, 9)})}

    def why(self):
        """Mostly without a fault, of the repair under way or of one that closed a generation."""
        asked = {'why': True, **self.one_of({}, {'in': self.random.randint(0, 6)}),
                 **self.one_of({}, {}, {'after': self.some_time()}),
                 **self.one_of({}, {}, {'most': self.one_of(1, 2, 9)})}
        return self.one_of(*[asked] * 15, {**asked, **self.one_of(
            {'why': False}, {'why': 1}, {'in': -1}, {'after': -1}, {'after': None}, {'most': 0}, {'most': 100_001},
            {'of': 1}, {'at': 1})})

    def changes(self):
        asked = {'changes': self.one_of('now', 'next'), **self.one_of({}, {}, {'of': self.one_of(1, 2)}),
                 **self.one_of({}, {}, {'only': self.one_of('writes', 'reads')}),
                 **self.one_of({}, {}, {'after': self.random.randint(0, 2 * self.time)}),
                 **self.one_of({}, {}, {'most': self.one_of(1, 2, 9)}),
                 **self.one_of({}, {'asked': self.one_of(True, True, False)})}
        return self.one_of(*[asked] * 15, {**asked, **self.one_of(
            {'changes': 'then'}, {'changes': 1}, {'of': 0}, {'of': '1'}, {'only': 'both'}, {'only': True},
            {'after': -1}, {'after': ['acct', 1]}, {'most': 0}, {'most': 100_001}, {'asked': 1}, {'asked': None},
            {'in': 1}, {'at': 1})})

    def diff(self):
        """Mostly without a fault, and mostly of the repair under way."""
        asked = {'diff': True, **self.one_of({}, {}, {}, {'in': self.random.randint(0, 6)}),
                 **self.one_of({}, {}, {}, {'after': [self.one_of('acct', 'acct', 'note'), self.key() - 1]}),
                 **self.one_of({}, {'most': self.one_of(1, 2, 9)})}
        return self.one_of(*[asked] * 15, {**asked, **self.one_of(
            {'diff': False}, {'diff': 1}, {'in': -1}, {'after': self.key()}, {'after': ['acct']},
            {'after': ['acct', 1, 2]}, {'after': ['none', 1]}, {'after': [1, 'acct']}, {'after': ['note', 'x']},
            {'after': ['acct', None]}, {'most': 0}, {'most': 100_001}, {'of': 1}, {'row': ['acct', 1]})})

    def edits(self):
        return [self.edit() for _ in range(self.one_of(0, 1, 1, 2))]

    def would(self):
        asked = {'would': self.edits()}
        return self.one_of(*[asked] * 15, {**asked, **self.one_of(
            {'would': True}, {'would': {}}, {'would': [7]}, {'most': 1}, {'of': 1})})

    def request(self):
        kind = self.one_of(*['write'] * 6, 'select', 'select', 'preview', 'begin', 'begin',
                           *['step'] * 3, 'finish', 'finish', 'abort', 'status', 'slots', 'slots',
                           'changes', 'changes', 'why', 'why', 'why', 'diff', 'diff', 'diff', 'would', 'tables',
                           'opening', 'fault', *['forget'] * self.forgets)
        table, where = 'acct', self.where()
        if self.one_of(*[False] * 5, True):
            table, where = 'note', self.compared(self.one_of([], [['n', self.key()]]))
        where, first = self.perhaps_faulty(where), self.some_time()
        if kind == 'write':
            self.time += 1
            self.written[self.time] = self.action()
            return {**self.written[self.time], **self.one_of({}, {}, {'stamp': self.stamp()})}
        if kind == 'forget':
            return self.forget()
        if kind == 'select':
            return {'select': table, 'where': where,
                    **self.one_of({}, {}, {'at': self.some_time()}),
                    **self.one_of({}, {}, {'in': self.random.randint(0, 6)}), **self.page()}
        return {
            'preview': {'preview': table, 'where': where, **self.page()},
            'begin': {'begin': self.edits()},
            'step': {'step': self.one_of(1, 2, 5, 10_000), **self.of_worker()},
            'finish': {'finish': True, **self.of_worker()},
            'abort': self.one_of({'abort': True, **self.of_worker()}, {'status': True}, {'status': True}),
            'opening': self.next_opening(),
            'status': {'status': True},
            'slots': {'slots': [first, first + self.one_of(0, 3, 9_999)],
                      **self.one_of({}, {'of': self.one_of(1, 2)}),
                      **self.one_of({}, {'row': ['acct', self.key()]}),
                      **self.one_of({}, {'stamps': self.stamps()})},
            'changes': self.changes(),
            'why': self.why(),
            'diff': self.diff(),
            'would': self.would(),
            'tables': {'tables': True},
            'fault': self.one_of({'step': 0}, {'insert': 'acct', 'row': [1]}, {}, [], {'x': 1},
                                 {'forget': -1}, self.faulty_whole(), self.faulty_whole(),
                                 self.faulty_stamp(), self.faulty_stamp(), self.faulty_stamps()),
        }[kind]

    def lines(self, count):
        flags = [self.one_of(True, False) for _ in range(2)]
        acct = [{'name': 'id', 'kind': 'int'}, {'name': 'owner', 'kind': 'text',
                'partition': flags[0]}, {'name': 'bal', 'kind': 'int'},
                {'name': 'kind', 'kind': 'int', 'partition': flags[1]}]
        note = [{'name': 'n', 'kind': 'int'}]
        self.opening = {'version': self.one_of(2, 3, 4),
                        'tables': [{'name': 'acct', 'columns': acct}, {'name': 'note', 'columns': note}],
                        'keep': self.one_of(0, 1, 4), 'records': self.one_of(0, 3, 100_000)}
        yield self.opening
        for _ in range(count):
            time = self.time
            request = self.request()
            if isinstance(request, dict) and 'version' not in request:
                request.update(self.one_of({}, {}, {'worker': 2}))
                request.update(self.one_of(*[{}] * 16, {'if': time}, {'if': time + 1}))
                if request.get('if', time) != time:
                    self.time = time
            yield request


def main():
    if sys.argv[1:2] == ['--random']:
        for line in Random(int(sys.argv[2])).lines(300):
            print(text_of(line))
    elif len(sys.argv) > 1:
        print(__doc__, file=sys.stderr)
        return 2
    else:
        session = Session()
        for line in sys.stdin.buffer:
            answer = session.answer(line.removesuffix(b'\n'))
            if answer is not None:
                sys.stdout.buffer.write(text_of(answer).encode() + b'\n')
                sys.stdout.buffer.flush()
    return 0


if __name__ == '__main__':
    sys.exit(main())
