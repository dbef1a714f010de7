"""What pages name: links, files, and symbols of the code. Each function tells what isn't there."""
import builtins
import io
import keyword
import re
import tokenize
from functools import lru_cache
from itertools import chain
from pathlib import Path
from typing import Iterator, Optional

from tests.support.docs_pages import Code, Page, page_at
from tests.support.fixtures import ROOT

# Names that are none of this repository's, and where they are from.
FOREIGN = {
    'Rattle, its kit and its crates': 'ANTT.md indexmap serde_json',
    'the standard library of Rust and Rattle': 'Arc Vec Option std',
    'the standard library of C': 'GLIBC_TUNABLES',
    'systemd': 'SocketMode WatchdogSec',
    'what stands for any name': 'module',
}
FOREIGN_BEGINNINGS = ['etcd_']  # metrics of etcd itself
METRIC = 'timetravel_'  # stands before the name of each metric that is served
EXAMPLE_CRATES = ['crates/ledger/', 'crates/shop/']  # which docs/LIBRARY.md has its reader write
OTHERS = set(chain.from_iterable(names.split() for names in FOREIGN.values()))

WORD = re.compile(r'\w+')
FILE = re.compile(r'(?<![\w/.~$-])(?:\./)?'
                  r'((?:crates|docs|tests|examples|clients|src|specs|proofs)/[\w./*{},<>-]*[\w*/}>])')
PAGE_NAME = re.compile(r'(?<![\w/.-])[A-Z][A-Z_]+\.md\b')
SLASHES = re.compile(r'\S*/\S*')
PATH = re.compile(r'(?<![\w:])[A-Za-z_]\w*(?:::[A-Za-z_]\w*)+')
METHOD = re.compile(r'(?<![\w.])[Ss]ession\.([a-z]\w*)')
SYMBOL = re.compile(r'(?<![\w$-])(?:[A-Za-z]\w*_\w*|[A-Z][a-z0-9]+(?:[A-Z][a-z0-9]*)+)(?![\w-])')
TYPE_LINE = re.compile(r' *(?:pub(?:\(crate\))? )?(?:struct|enum|trait|type|impl|mod)\b')
DECLARED = re.compile(r'\b(?:fn|struct|enum|trait|const|def|class|mod) (\w+)|^(\w+) = ', re.MULTILINE)
ONE_WORD = re.compile(r'^[A-Z][a-z]{2,}$')
SOURCES = ['crates/*/src/**/*.rt', 'crates/*/specs/**/*.antt', 'crates/*/proofs/**/*.antt']
WRONG_NAMES = ROOT / 'tests/docs.py'  # it has names that aren't there
SCRIPTS = ['clients/python/**/*.py', 'tests/**/*.py', 'docs/*.py', 'bench', 'bench.py', 'benches/*.py']
OTHER_CODE = ['build', 'test', 'timetravel', 'crates.txt', 'tests/*.c', 'tests/*.sh', 'examples/*.json',
              'crates/*/must-fail/*', 'clients/python/pyproject.toml', 'crates/*/*.toml']


def missing_links(page: Page) -> Iterator[str]:
    """Links to files that aren't there, and to headings that their page hasn't."""
    for link in page.links:
        if re.match(r'[a-z]+:', link.text):
            continue
        path, _, anchor = link.text.partition('#')
        file = (page.folder() / path).resolve() if path else ROOT / page.name
        if not file.exists() or not file.is_relative_to(ROOT):
            yield page.at(link, f'a link to {path}, which isn\'t there')
        elif anchor and file.suffix == '.md':
            linked = page_at(str(file.relative_to(ROOT))) if path else page
            if anchor not in linked.anchors:
                yield page.at(link, f'a link to #{anchor}, which {linked.name} hasn\'t')


def codes_of(page: Page) -> Iterator[Code]:
    """The spans of code of a page, and the lines of its commands, also of units of systemd."""
    yield from page.spans
    for block in page.blocks:
        for at, line in enumerate(block.text.splitlines()):
            if block.kind == 'sh' or line.startswith('ExecStart='):
                yield Code(block.line + at, line.removeprefix('ExecStart='))


def patterns_of(path: str) -> list[str]:
    """Patterns that a path stands for, which may have {A,B}, <NAME> or NAME in it."""
    braces = re.search(r'\{([^{}]*)\}', path)
    if braces:
        return [pattern for word in braces[1].split(',')
                for pattern in patterns_of(path.replace(braces[0], word, 1))]
    return ['/'.join('*' if re.fullmatch(r'<\w+>|\.\.', part) else re.sub(r'\b[A-Z]{2,}\b(?!\.md)', '*', part)
                     for part in path.rstrip('/').split('/'))]


def is_file(page: Page, path: str) -> bool:
    """Whether there is such a file, at the root or beside the page; of `src/x.rt`, in some crate."""
    if '/out/' in f'{path}/' or any(path.startswith(crate) for crate in EXAMPLE_CRATES):
        return True
    below = [ROOT, page.folder()]
    if re.match(r'src/|specs/|proofs/', path):
        below = [page.folder()] if page.name.startswith('crates/') else list(ROOT.glob('crates/*'))
    return all(any(any(folder.glob(pattern)) for folder in below) for pattern in patterns_of(path))


def missing_files(page: Page) -> Iterator[str]:
    """Paths of files in code that aren't there."""
    for code in codes_of(page):
        for found in FILE.finditer(code.text):
            if not is_file(page, found[1]):
                yield page.at(code, f'`{found[1]}` isn\'t there')
        for name in PAGE_NAME.findall(code.text):
            beside = [ROOT / name, ROOT / 'docs' / name, page.folder() / name]
            if name not in OTHERS and not any(path.exists() for path in beside):
                yield page.at(code, f'`{name}` isn\'t there')


def code_of(path: Path) -> str:
    """The text of a source file without its comments."""
    text = path.read_text(encoding='utf-8', errors='replace')
    if path.suffix == '.rt':
        return re.sub(r'//.*', '', text)
    if path.suffix == '.antt':
        return re.sub(r'^ *-- .*', '', text, flags=re.MULTILINE)
    return text


def words_of_script(text: str) -> Iterator[str]:
    """The names of a script of Python, and the words of its strings that have no space."""
    for token in tokenize.generate_tokens(io.StringIO(text).readline):
        if token.type == tokenize.NAME or token.type == tokenize.STRING and ' ' not in token.string:
            yield from WORD.findall(token.string)


def files(patterns: list[str]) -> Iterator[Path]:
    return (path for pattern in patterns for path in ROOT.glob(pattern)
            if path.is_file() and 'out' not in path.relative_to(ROOT).parts)


@lru_cache(maxsize=None)
def words_of_file(path: Path) -> frozenset[str]:
    return frozenset(WORD.findall(code_of(path)))


@lru_cache(maxsize=None)
def words_of_crate(crate: str) -> frozenset[str]:
    """All words of the code and the specifications of a crate, and the names of its files."""
    paths = list(files([pattern.replace('*', crate, 1) for pattern in SOURCES]))
    return frozenset(chain([path.stem for path in paths], *map(words_of_file, paths)))


@lru_cache(maxsize=None)
def all_words() -> frozenset[str]:
    """All words of the code of this repository, and those of Python."""
    words = {*dir(builtins), *keyword.kwlist, *OTHERS}
    for path in files(SOURCES + OTHER_CODE):
        words.update(words_of_file(path), [path.stem])
    for path in files(SCRIPTS):
        if path == WRONG_NAMES:
            continue
        words.update(words_of_script(path.read_text(encoding='utf-8')), [path.stem])
    return frozenset(words | {path.name for path in ROOT.glob('crates/*')})


@lru_cache(maxsize=None)
def files_by_type() -> dict[str, set[Path]]:
    """The source files that declare a type or have something of it; and those of a module, by its name."""
    found: dict[str, set[Path]] = {}
    for path in files(SOURCES[:1]):
        lines = (line for line in code_of(path).splitlines() if TYPE_LINE.match(line))
        for name in chain([path.stem, path.parent.name], *map(WORD.findall, lines)):
            found.setdefault(name, set()).add(path)
    return found


def fault_of_path(path: str) -> Optional[str]:
    """What isn't there of a path such as `tt_values::laws` or `Db::apply`."""
    first, *rest = path.split('::')
    if first in OTHERS or first == 'crate':
        return None
    if first.startswith('tt_'):
        lacking = [word for word in rest if word not in words_of_crate(first)]
        return f'{first} has no {lacking[0]}' if lacking else None
    among = files_by_type().get(first)
    if not among:
        return f'there is no {first}'
    return None if any(rest[-1] in words_of_file(file) for file in among) else f'{first} has no {rest[-1]}'


def words_of_blocks(page: Page) -> set[str]:
    """Names that the code of a page declares, as an example of a program does."""
    return {word for block in page.blocks if block.kind in ('rust', 'python')
            for found in DECLARED.findall(block.text) for word in found}


def is_known(symbol: str) -> bool:
    """Whether a symbol is in the code, maybe behind the beginning that the code puts before it."""
    plain = symbol.removeprefix(METRIC)
    return plain in all_words() or any(plain.startswith(beginning) for beginning in FOREIGN_BEGINNINGS)


def missing_symbols(page: Page) -> Iterator[str]:
    """Names in spans of code that look like names of this repository's code and are none."""
    declared = words_of_blocks(page)
    for span in page.spans:
        text = SLASHES.sub(' ', span.text)
        for path in PATH.findall(text):
            fault = fault_of_path(path)
            if fault:
                yield page.at(span, f'`{path}`: {fault}')
        symbols = {*SYMBOL.findall(PATH.sub(' ', text)), *METHOD.findall(text), *ONE_WORD.findall(span.text)}
        for symbol in sorted(symbols - declared):
            if not is_known(symbol):
                yield page.at(span, f'`{symbol}` is no name of the code')
