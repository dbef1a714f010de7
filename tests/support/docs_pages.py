"""The pages of this repository: their blocks and spans of code, headings and links."""
import re
from dataclasses import dataclass, field
from functools import lru_cache
from pathlib import Path
from typing import Iterator

from tests.support.fixtures import ROOT

PAGES = ['*.md', 'docs/*.md', 'crates/*/README.md', 'clients/*/*.md', 'examples/*.md', 'tests/*.md']
FENCE = re.compile(r'```(\w*)')
SPAN = re.compile(r'(?<!`)(`+)(?!`)(.+?)(?<!`)\1(?!`)')
LINK = re.compile(r'!?\[[^\[\]]*\]\(([^()\s]*)\)|<(?:img|a)\s[^>]*(?:src|href)="([^"]*)"')
HEADING = re.compile(r'#{1,6} +(.*?)(?: +#+)?$')
LINK_WORDS = re.compile(r'\[([^\[\]]*)\]\([^()]*\)')


@dataclass(frozen=True)
class Code:
    """Code of a page, with the number of its first line: a block of a kind such as `sh`, with the line
    of text above it; or a span within a line, whose kind is empty."""
    line: int
    text: str
    kind: str = ''
    above: str = ''


@dataclass
class Page:
    """A page of Markdown. `name` is its path in the repository."""
    name: str
    lines: list[str]
    blocks: list[Code] = field(default_factory=list)
    spans: list[Code] = field(default_factory=list)
    links: list[Code] = field(default_factory=list)
    anchors: set[str] = field(default_factory=set)

    def at(self, code: Code, complaint: str) -> str:
        """What is told of a line of the page."""
        return f'{self.name}:{code.line}: {complaint}'

    def folder(self) -> Path:
        return (ROOT / self.name).parent


def slug_of(heading: str) -> str:
    """The anchor that a heading has on a page of GitHub."""
    words = LINK_WORDS.sub(r'\1', heading).replace('`', '').lower()
    return re.sub(r'[^\w\- ]', '', words).strip().replace(' ', '-')


def add_text(page: Page, number: int, line: str) -> None:
    """What a line outside of the blocks has: spans, links, and an anchor if it is a heading."""
    page.spans += [Code(number, found[2].strip()) for found in SPAN.finditer(line)]
    bare = SPAN.sub(lambda found: '`' * len(found[0]), line)
    page.links += [Code(number, found[1] or found[2] or '') for found in LINK.finditer(bare)]
    heading = HEADING.match(line)
    if heading:
        slug, same = slug_of(heading[1]), 0
        while slug + (f'-{same}' if same else '') in page.anchors:
            same += 1
        page.anchors.add(slug + (f'-{same}' if same else ''))
    page.anchors.update(re.findall(r'<a (?:name|id)="([^"]*)"', line))


def page_of(name: str, text: str) -> Page:
    """The page of this name, if it had this text."""
    page = Page(name, text.splitlines())
    above, kind, begin = '', '', 0
    block: list[str] = []
    for number, line in enumerate(page.lines, 1):
        fence = FENCE.match(line)
        if begin and fence:
            page.blocks.append(Code(begin + 1, '\n'.join(block) + '\n', kind, above))
            begin = 0
        elif begin:
            block.append(line)
        elif fence:
            begin, kind, block = number, fence[1], []
        else:
            above = line or above
            add_text(page, number, line)
    return page


@lru_cache(maxsize=None)
def page_at(name: str) -> Page:
    """A page of the repository."""
    return page_of(name, (ROOT / name).read_text(encoding='utf-8'))


def pages() -> Iterator[Page]:
    """All pages of the repository."""
    for pattern in PAGES:
        for path in sorted(ROOT.glob(pattern)):
            yield page_at(str(path.relative_to(ROOT)))


def pages_of_present() -> Iterator[Page]:
    """All pages but the one that tells what has changed, which has names that aren't there any more."""
    return (page for page in pages() if page.name != 'CHANGELOG.md')
