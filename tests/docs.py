"""The pages of this repository: the links, files, commands and symbols that they name, their examples,
their length and their words. CHANGELOG.md tells what was, so only its links are looked at.

docs/SPECIFICATION.md and the tables that docs/crates.py writes have to be as these scripts print them.
The manual's session, docs/SESSION.md, and its document, docs/DOCUMENT.md, are cases of tests.sessions
and tests.documents.
"""
import ast
import os
import re
import shlex
import subprocess
import sys
import unittest
from functools import lru_cache
from typing import Callable, Iterable, Iterator, Optional

from tests.support.cases import difference
from tests.support.docs_commands import wrong_commands
from tests.support.docs_names import OTHERS, missing_files, missing_links, missing_symbols
from tests.support.docs_pages import Code, Page, page_at, page_of, pages, pages_of_present
from tests.support.fixtures import ROOT, launcher, temporary_folder

MOST_LINES = {'README.md': 120, 'docs/SPECIFICATION.md': 400, 'docs/BUILDING.md': 250, 'docs/PERFORMANCE.md': 150,
              'CONTRIBUTING.md': 40, 'test': 80, 'build': 120}
NOT_OF_THE_PRESENT = re.compile(
    r'were wanted|was wanted|is missed|in the first build|took [0-9,]+ before|\bso many\b|\bsuch a\b'
    r'|is another one|\b20[0-9]{2}-[01][0-9]-[0-3][0-9]\b')
OPENING = re.compile(r'^\s*\{"version": ?([0-9]+)', re.MULTILINE)
PRINTED = re.compile(r'^ *print\(.*\) +# (.*)$', re.MULTILINE)
REPLAYED = re.compile(r'^\./timetravel ((?:replay|run)\b[^<]*)< *(\S+)', re.MULTILINE)
SECONDS = 120  # that an example may take, by an unproved build
Check = Callable[[Page], Iterable[str]]


def words_of_the_past(page: Page) -> Iterator[str]:
    """Words that tell what was, or how it came to be, where a page is to tell what is. That no slot `is
    missed` may be told."""
    in_block = {number for block in page.blocks for number in range(block.line, block.line + block.text.count('\n'))}
    for number, line in enumerate(page.lines, 1):
        for found in NOT_OF_THE_PRESENT.finditer('' if number in in_block else line):
            sentence = line[:found.start()].rpartition('. ')[2]
            if found[0] != 'is missed' or not re.search(r'\bno\b', sentence, re.IGNORECASE):
                yield f'{page.name}:{number}: "{found[0]}"'


@lru_cache(maxsize=None)
def newest_versions() -> tuple[int, int]:
    """The newest version of documents, and that of the openings of sessions."""
    text = (ROOT / 'crates/tt_grammar/specs/Version.antt').read_text(encoding='utf-8')
    numbers = {name: int(number) for number, name in re.findall(r'n == (\d+) then Some versions\.(\w+)', text)}
    newest = re.search(r'\nnewest_version = versions\.(\w+)', text)
    session = re.search(r'\nnewest_session_version = (\d+)', text)
    assert newest and session
    return numbers[newest[1]], int(session[1])


def older_versions(page: Page) -> Iterator[str]:
    """Documents and openings of sessions in examples that aren't of the newest version. What is told
    of an older version stands under a line with the word."""
    document, session = newest_versions()
    for block in page.blocks:
        wanted, what = (document, 'document') if '"calls"' in block.text else (session, 'session')
        for found in OPENING.finditer(block.text):
            if int(found[1]) != wanted and not re.search(r'\bversion', block.above):
                line = block.line + block.text.count('\n', 0, found.start())
                yield f'{page.name}:{line}: a {what} of version {found[1]}, and the newest is {wanted}'


def lines_of_no_report(page: Page) -> Iterator[str]:
    """Lines that stand under the name of an example, `examples/NAME.json`, and that its report hasn't."""
    for block in page.blocks:
        reports = [ROOT / f'examples/{name}.report' for name in re.findall(r'`examples/(\w+)\.json`', block.above)]
        if not block.kind and reports:
            lines = {line for path in reports for line in path.read_text(encoding='utf-8').splitlines()}
            yield from (page.at(block, f'no line of {reports[0].name}: {line}')
                        for line in block.text.splitlines() if line not in lines)


def faulty_python(page: Page) -> Iterator[str]:
    """Examples in Python that can't be read."""
    for block in page.blocks:
        if block.kind == 'python':
            try:
                ast.parse(block.text)
            except SyntaxError as error:
                yield page.at(block, f'its Python, in line {error.lineno}: {error.msg}')


def too_long(name: str, lines: int) -> Optional[str]:
    """What is told of a file with too many lines."""
    return f'{name} has {lines} lines, and may have {MOST_LINES[name]}' if lines > MOST_LINES[name] else None


class Pages(unittest.TestCase):

    def check(self, check: Check, among: Iterable[Page]) -> None:
        for page in among:
            with self.subTest(page.name):
                told = list(check(page))
                if told:
                    self.fail('\n'.join(['', *told]))

    def test_links(self) -> None:
        self.check(missing_links, pages())

    def test_files(self) -> None:
        self.check(missing_files, pages_of_present())

    def test_commands(self) -> None:
        self.check(wrong_commands, pages_of_present())

    def test_symbols(self) -> None:
        self.check(missing_symbols, pages_of_present())

    def test_words(self) -> None:
        self.check(words_of_the_past, pages_of_present())

    def test_versions(self) -> None:
        self.check(older_versions, pages_of_present())

    def test_reports(self) -> None:
        self.check(lines_of_no_report, pages_of_present())

    def test_python(self) -> None:
        self.check(faulty_python, pages_of_present())

    def test_names_from_elsewhere(self) -> None:
        """The names that needn't be in the code are on some page."""
        spans = (span.text for page in pages_of_present() for span in page.spans)
        self.assertEqual(OTHERS - {word for text in spans for word in re.findall(r'[\w.-]+', text)}, set())

    def test_lengths(self) -> None:
        for name in MOST_LINES:
            with self.subTest(name):
                told = too_long(name, (ROOT / name).read_text(encoding='utf-8').count('\n'))
                self.assertIsNone(told, told)


class WhatIsWrong(unittest.TestCase):
    """One wrong thing of each kind, in a page that isn't there: it has to be told."""

    WRONG: list[tuple[Check, str, str]] = [
        (missing_links, 'see [it](docs/NOTHING.md)', 'docs/NOTHING.md'),
        (missing_links, '![it](docs/nothing.svg)', 'docs/nothing.svg'),
        (missing_links, 'see [it](docs/SPECIFICATION.md#6-nothing)', '#6-nothing'),
        (missing_links, '# A heading\nsee [it](#another-heading)', '#another-heading'),
        (missing_files, 'in `crates/tt_db/src/nothing.rt`', 'crates/tt_db/src/nothing.rt'),
        (missing_files, 'in `crates/{tt_db,tt_nothing}/src`', 'crates/{tt_db,tt_nothing}/src'),
        (missing_files, 'in `src/nothing.rt` of `tt_db`', 'src/nothing.rt'),
        (missing_files, 'by `NOTHING.md`', 'NOTHING.md'),
        (wrong_commands, '`./build --instal DIR`', '--instal'),
        (wrong_commands, '```sh\n./bench --nothing    # a comment\n```', '--nothing'),
        (wrong_commands, '`timetravel session --logs FILE`', '--logs'),
        (wrong_commands, '`./timetravel replays < bank.json`', 'replays'),
        (wrong_commands, '`docs/nothing.py`', 'docs/nothing.py'),
        (wrong_commands, '`python3 -m timetravel serve s --restarts -- timetravel session --log l`', '--restarts'),
        (wrong_commands, '`python3 -m timetravel serve s -- timetravel session --logs l`', '--logs'),
        (wrong_commands, '`python3 -m timetravel serves`', 'serves'),
        (wrong_commands, '```ini\nExecStart=/usr/bin/timetravel session --logs l\n```', '--logs'),
        (wrong_commands, '```sh\npython3 nothing.py\n```', 'nothing.py'),
        (wrong_commands, '`python3 -m unittest tests.nothing -k it`', 'tests.nothing'),
        (wrong_commands, '`python3 -m tests nothing`', 'nothing'),
        (missing_symbols, 'by `Db::aply`', 'Db::aply'),
        (missing_symbols, 'by `tt_values::no_such_law`', 'tt_values::no_such_law'),
        (missing_symbols, 'by `run_nothing`', 'run_nothing'),
        (missing_symbols, 'by `session.nothings()`', 'nothings'),
        (missing_symbols, 'by `IsNoStatement`', 'IsNoStatement'),
        (missing_symbols, 'as `Nothingness`', 'Nothingness'),
        (words_of_the_past, 'It took 5,000 before.', 'took 5,000 before'),
        (words_of_the_past, 'On 2026-11-27 it ran.', '2026-11-27'),
        (words_of_the_past, 'No slot is missed. The goal is missed.', 'is missed'),
        (older_versions, '```json\n{"version":3,"tables":[]}\n{"status":true}\n```', 'session of version 3'),
        (older_versions, '```json\n{"version":1,\n"tables":[],"workers":1,"calls":[]}\n```', 'document of version 1'),
        (lines_of_no_report, 'In `examples/first.json`:\n\n```\ncall 1 nothing\n```', 'call 1 nothing'),
        (faulty_python, '```python\nwith Session() as session\n```', 'line 1'),
    ]

    def test_each_is_told(self) -> None:
        for check, text, wrong in self.WRONG:
            with self.subTest(wrong, check=check.__name__):
                told = list(check(page_of('README.md', text)))
                self.assertEqual(len(told), 1, told)
                self.assertIn(wrong, told[0])

    def test_too_many_lines_are_told(self) -> None:
        for name, most in MOST_LINES.items():
            self.assertIsNone(too_long(name, most))
            self.assertIsNotNone(too_long(name, most + 1))


class Scripts(unittest.TestCase):
    """Pages, and tables of pages, that scripts print."""

    def ran(self, *command: str) -> 'subprocess.CompletedProcess[bytes]':
        return subprocess.run([sys.executable, *command], cwd=ROOT, capture_output=True, timeout=SECONDS, check=False)

    def test_specification(self) -> None:
        printed = self.ran('docs/specification.py')
        self.assertEqual(printed.stderr.decode(), '')
        page = (ROOT / 'docs/SPECIFICATION.md').read_bytes()
        told = list(difference(printed.stdout, page, 'docs/SPECIFICATION.md beside what docs/specification.py prints'))
        if told:
            self.fail('\n'.join(['', *told]))

    def test_all_definitions(self) -> None:
        printed = self.ran('docs/definitions.py')
        self.assertEqual((printed.returncode, printed.stderr.decode()), (0, ''))

    def test_tables_of_crates(self) -> None:
        checked = self.ran('docs/crates.py', '--check')
        self.assertEqual((checked.returncode, (checked.stdout + checked.stderr).decode()), (0, ''))


class Examples(unittest.TestCase):
    """What examples print, as their pages show it."""

    def output_of_python(self, text: str) -> str:
        """What a program prints that finds the package, and timetravel on the path."""
        folder = temporary_folder(self)
        (folder / 'timetravel').symlink_to(launcher())
        (folder / 'example.py').write_text(text, encoding='utf-8')
        path = os.pathsep.join([str(folder), os.environ.get('PATH', '')])
        ran = subprocess.run([sys.executable, 'example.py'], cwd=folder, capture_output=True, timeout=SECONDS,
                             env={**os.environ, 'PATH': path, 'PYTHONPATH': str(ROOT / 'clients/python')}, check=False)
        return (ran.stdout + ran.stderr).decode()

    def check_python(self, name: str) -> None:
        """The first program of a page prints what stands in the block right below it, or behind its prints."""
        blocks = page_at(name).blocks
        at = next(at for at, block in enumerate(blocks) if block.kind == 'python')
        wanted = ''.join(f'{line}\n' for line in PRINTED.findall(blocks[at].text))
        end = blocks[at].line + blocks[at].text.count('\n')
        if at + 1 < len(blocks) and not blocks[at + 1].kind and blocks[at + 1].line <= end + 3:
            wanted = blocks[at + 1].text
        self.assertEqual(self.output_of_python(blocks[at].text), wanted)

    def test_readme_in_python(self) -> None:
        self.check_python('README.md')

    def test_readme_of_the_client(self) -> None:
        self.check_python('clients/python/README.md')

    def reports_of(self, block: Code) -> set[str]:
        """The lines that the commands of a block print that replay or run a document."""
        lines: set[str] = set()
        for words, document in REPLAYED.findall(block.text):
            with open(ROOT / document, 'rb') as given:
                ran = subprocess.run([launcher(), *shlex.split(words)], stdin=given, capture_output=True,
                                     timeout=SECONDS, check=True)
            lines.update(ran.stdout.decode().splitlines())
        return lines

    def told_elsewhere(self) -> set[str]:
        """The lines of the reports of examples, and of the answers of the manual."""
        lines = {line for path in (ROOT / 'examples').glob('*.report') for line in path.read_text('utf-8').splitlines()}
        answers = [block for block in page_at('docs/SESSION.md').blocks if not block.kind]
        return lines.union(*(block.text.splitlines() for block in answers))

    def test_lines_of_readme(self) -> None:
        """Each line of a block without a kind is printed by what stands above it: the first program,
        or a block of commands. Else it is a line of the report of an example or of the manual."""
        blocks = page_at('README.md').blocks
        shown = set[str]()
        for above, block in zip(blocks, blocks[1:]):
            if block.kind or above.kind == 'python':
                continue
            printed = self.reports_of(above) if above.kind == 'sh' else set[str]()
            shown |= printed
            lacking = [line for line in block.text.splitlines() if line not in (printed or self.told_elsewhere())]
            self.assertEqual(lacking, [], 'nothing prints these lines')
        self.assertTrue(shown, 'README.md should show lines of the report of a document')


if __name__ == '__main__':
    unittest.main()
