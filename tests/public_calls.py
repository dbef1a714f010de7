"""Public functions of the libraries of crates/ that nothing calls: no other crate, not the program,
and no other function of their own crate. A call in a test, a benchmark or an example doesn't count.

Those that are there for users of the libraries are left out: PROMISED lists them, besides
constructors, and `is_empty`, which Rust expects beside `len`. So are laws: functions without
arguments and with an empty body, which are there for their contracts. It reads only the text of the
files, which `rt fmt` has laid out, so a few calls of another type's method may pass for a call. A
library is a crate that another one stands on.

A call is a name before `(` or `::<`, or after `Type::`. It is a call of a method where the file
names the method's type or its crate; if several types have a method of that name, and the file says
what stands before the dot (`thing: Type`), that must name the type, too.
"""
import os
import re
import unittest
from collections import defaultdict
from dataclasses import dataclass, field
from typing import Iterator, Optional

from tests.support.fixtures import ROOT

BLOCK = re.compile(r'(pub )?(?:pub\(\w+\) )?(impl|trait)\b(.*)')
FUNCTION = re.compile(r'( {4})?(pub )?(?:pub\(\w+\) )?(?:const )?fn (\w+)(\(\)$)?')
ARGUMENTS = re.compile(r'<[^<>]*>')
NO_CODE = re.compile(r'//.*|^\s*(?:ghost\b|#!?\[|(?:pub )?(?:use|mod)\b).*'
                     r'|"(?:[^"\\]|\\.)*"|\bfn \w+')
DECLARED = re.compile(r'\b(\w+): ([^,;={.]*)(?!\.)')
ALIAS = re.compile(r'^(?:pub(?:\(\w+\))? )?type (\w+)[^=]*= (.*);')
CALL = re.compile(r'(?:\b(?P<type>\w+)(?:::<[^()]*>)?::|(?P<before>\b\w+)?(?P<dot>\.))?'
                  r'\b(?P<name>[a-z]\w*)(?:\(|::<|(?(type)|(?!)))')
NO_CALLER = re.compile(r'_(?:tests|bench|example)$')
FOR_USERS = re.compile(r'(?:new|with_\w+|from_\w+|is_empty)$')
PROMISED = {
    'tt_log': 'Lines::push Lines::append Lines::truncate Lines::clear Lines::byte_len '
              'UnreadLog::open UnreadLog::read UnreadLog::settle UnreadLog::device '
              'UnreadLog::into_device Log::hand_over Log::device Log::into_device',
    'tt_pages': 'Kept::kept PagedMap::get PagedMap::with PagedMap::without PagedMap::iter '
                'PagedMap::depth PagedLog::len PagedLog::get PagedLog::pushed PagedLog::replaced',
    'tt_values': 'Catalog::add Catalog::find Catalog::table Catalog::name Catalog::len '
                 'TableDef::find TableDef::of Column::int Column::text Column::partition Row::key '
                 'Row::copy Value::copy Write::copy Select::copy Equal::copy Change::copy '
                 'Equal::int Equal::text Equal::with Comparison::holds Action::whole Write::insert Write::update '
                 'Write::delete '
                 'check check_select matches changed',
    'tt_versions': 'Table::at Table::is_split Table::rows_at Table::written Table::split_back '
                   'Table::next_written Table::switched Table::aborted Table::differences',
    'tt_parts': 'parts_of reads_of Dirty::with_row Dirty::has_row Dirty::row_since '
                'Dirty::partition_since Dirty::table_since Dirty::clear_of',
    'tt_db': 'Limits::usual Limits::fits Db::apply Db::begin Db::step Db::abort Db::select Db::select_at Db::preview '
             'Db::catalog Db::now Db::generation Db::events Db::entry Db::slot Db::repair '
             'Db::cause Db::cause_in Db::diff Db::diff_in Db::diff_page Db::diff_page_in Db::tried '
             'Db::versions',
    'tt_store': 'Store::open Store::named Store::begin Store::abort Store::step Store::finish '
                'Store::refresh Store::close Worker::read Worker::read_at Worker::read_in '
                'Worker::preview Worker::number Worker::seen Worker::seen_entry Worker::made Worker::place '
                'Worker::progress Worker::cause Worker::cause_in Worker::diff Worker::diff_in '
                'Worker::diff_page Worker::diff_page_in Worker::tried Worker::write',
    'tt_records': 'changes changes_next',
    'tt_repair': 'repair',
    'tt_document': 'Document::from_value',
    'tt_workload': 'Options::fits read_document write_text run_alone text_of text_of_change',
    'tt_session': 'Session::answer ShortAnswer::write_to',
    'tt_lines': 'run_session',
    'tt_durable': 'run_logged_session',
    'tt_workers': 'run_workers text_of_report',
    'tt_cli': 'status_of command_of',
}


@dataclass
class Function:
    crate: str
    file: str
    owner: Optional[str]  # the type or trait that it is a method of
    name: str
    lines: range
    is_public: bool
    is_of_trait: bool

    def path(self) -> str:
        return f'{self.owner}::{self.name}' if self.owner else self.name

    def is_promised(self) -> bool:
        promised = PROMISED.get(self.crate, '').split()
        return bool(FOR_USERS.match(self.name)) or self.path() in promised


@dataclass
class Call:
    file: str
    line: int
    name: str
    type: Optional[str]  # what stands before `::`, or the type of `self` before a dot
    before: Optional[str]  # what stands before the dot
    has_dot: bool


@dataclass
class File:
    path: str
    crate: str
    lines: list[str]
    words: set[str] = field(default_factory=set)
    # The words of what a name is.
    types: defaultdict[str, set[str]] = field(default_factory=lambda: defaultdict(set))
    # Of each line: a type or trait, and which of them.
    owners: list[tuple[Optional[str], str]] = field(default_factory=list)

    def read(self) -> None:
        owner: tuple[Optional[str], str] = (None, '')
        for at, line in enumerate(self.lines):
            self.words.update(re.findall(r'\w+', line.split('//')[0]))
            for name, declared in DECLARED.findall(NO_CODE.sub('', line)):
                self.types[name].update(re.findall(r'\w+', declared))
            if found := BLOCK.match(line):
                owner = (self.name_of_block(at, found), (found[1] or '') + found[2])
            elif line == '}':
                owner = (None, '')
            self.owners.append(owner)

    def name_of_block(self, at: int, found: 're.Match[str]') -> Optional[str]:
        head: str = found[3]
        while '{' not in head:
            at += 1
            head += ' ' + self.lines[at]
        head = head.split('{')[0]
        while ARGUMENTS.search(head):
            head = ARGUMENTS.sub('', head)
        name = re.search(r'\w+', head.split(' for ')[-1].split(' where ')[0])
        return name[0] if name else None

    def functions(self) -> Iterator[Function]:
        for at, line in enumerate(self.lines):
            if found := FUNCTION.match(line):
                last = self.last_line(at, found[1] or '')
                owner, block = self.owners[at] if found[1] else (None, '')
                is_law = bool(found[4]) and self.lines[last].endswith('{}')
                yield Function(self.crate, self.path, owner, found[3], range(at, last + 1),
                               (bool(found[2]) or block == 'pub trait') and not is_law,
                               block.endswith('trait'))

    def last_line(self, at: int, indent: str) -> int:
        """The line that the function ends at that begins here."""
        has_begun = False
        while True:
            line = self.lines[at]
            if line == indent + '}' or not has_begun and line.endswith(('{}', ';')):
                return at
            has_begun = has_begun or line.endswith('{') and line[len(indent)] != ' '
            at += 1

    def calls(self) -> Iterator[Call]:
        for at, line in enumerate(self.lines):
            for found in CALL.finditer(NO_CODE.sub('', line)):
                type_before = found['type']
                if 'Self' == type_before or found['before'] == 'self':
                    type_before = self.owners[at][0]
                yield Call(self.path, at, found['name'], type_before, found['before'],
                           bool(found['dot']))


Files = dict[str, File]


def libraries_and_files() -> tuple[set[str], Files]:
    uses: dict[str, list[str]] = {}
    for line in (ROOT / 'crates.txt').read_text().splitlines():
        if found := re.match(r'([a-z]\w*)[^:]*:(.*)', line):
            uses[found[1]] = found[2].split()
    libraries = {library for used in uses.values() for library in used
                 if library in uses and not NO_CALLER.search(library)}
    files: Files = {}
    for crate in uses:
        for folder, _, names in os.walk(ROOT / f'crates/{crate}/src'):
            for name in names:
                with open(f'{folder}/{name}') as source:
                    file = File(f'{folder}/{name}', crate, source.read().split('\n'))
                file.read()
                files[file.path] = file
    return libraries, files


def resolve_aliases(files: Files) -> None:
    """Adds the words of a type's alias to what is declared by the alias."""
    aliases = {found[1]: found[2] for file in files.values() for line in file.lines if (found := ALIAS.match(line))}
    for file in files.values():
        for declared in file.types.values():
            for alias in declared & aliases.keys():
                declared.update(re.findall(r'\w+', aliases[alias]))


def is_call_of(call: Call, file: File, function: Function, is_only_one: bool) -> bool:
    """Whether a call in a file may be a call of this function."""
    if call.file == function.file and call.line in function.lines:
        return False
    names_crate = file.crate == function.crate or function.crate in file.words
    if not function.owner:
        return names_crate and not call.has_dot and (not call.type or call.type[0].islower())
    if call.type and not function.is_of_trait:
        return call.type == function.owner
    names_type = function.owner in file.words
    if not (call.type or call.has_dot) or not (names_crate or names_type):
        return False
    if is_only_one or function.is_of_trait:
        return True
    types = file.types.get(call.before or '')
    if types:
        return function.owner in types
    return names_type or file.crate != function.crate


def calls_by_name(files: Files) -> dict[str, list[Call]]:
    """The calls that count."""
    calls: dict[str, list[Call]] = {}
    for file in files.values():
        if not NO_CALLER.search(file.crate):
            for call in file.calls():
                calls.setdefault(call.name, []).append(call)
    return calls


def called_by_nothing() -> Iterator[str]:
    """The public functions that nothing calls."""
    libraries, files = libraries_and_files()
    resolve_aliases(files)
    functions = [function for file in files.values() for function in file.functions()]
    owners: defaultdict[str, set[Optional[str]]] = defaultdict(set)
    for function in functions:
        owners[function.name].add(function.owner)
    calls = calls_by_name(files)
    for function in functions:
        if not function.is_public or function.crate not in libraries or function.is_promised():
            continue
        is_only_one = len(owners[function.name]) == 1
        if not any(is_call_of(call, files[call.file], function, is_only_one)
                   for call in calls.get(function.name, [])):
            yield f'{function.crate}: {function.path()} is called by nothing'


class PublicCalls(unittest.TestCase):
    def test_each_public_function_is_called(self) -> None:
        """By a library, the program or another function, unless it is promised to users."""
        found = list(called_by_nothing())
        if found:
            self.fail('\n'.join(found))
