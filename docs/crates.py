#!/usr/bin/env python3
"""Writes the tables of crates into the pages that have them, and checks the drawing of the crates.

docs/ARCHITECTURE.md says what each crate is for, by the title of its README, and what it stands on,
by crates.txt. docs/BUILDING.md says how long its proof takes, and what a change in it costs. Each
table stands between two comments of its page.

  docs/crates.py            rewrites both tables
  docs/crates.py --check    prints what isn't as it should be, with status 1 if anything isn't: a
                            table, or docs/parts.svg, which shows the libraries and the program,
                            each above all that it stands on
"""
import re
import sys
from pathlib import Path

ROOT = Path(__file__).resolve().parent.parent
sys.path.insert(0, str(ROOT / 'tools'))

from minutes import NOT_MEASURED, PROOFS  # noqa: E402

DRAWING = 'docs/parts.svg'
BEGIN = '<!-- docs/crates.py writes this table -->'
END = '<!-- end of the table -->'
NOT_LIBRARIES = ('_tests', '_example', '_bench')


def text_of(path: str) -> str:
    """The text of a file of the repository."""
    return (ROOT / path).read_text(encoding='utf-8')


def crates() -> dict[str, list[str]]:
    """The crates in their order, lowest first, each with those of this repository that its line
    names."""
    lines = re.findall(r'^([a-z]\w*)[^:\n]*:(.*)$', text_of('crates.txt'), re.MULTILINE)
    names = {crate for crate, _ in lines}
    return {crate: [name for name in libraries.split() if name in names]
            for crate, libraries in lines}


def reached(crate: str, uses: dict[str, list[str]]) -> set[str]:
    """All crates that a crate stands on, also through others."""
    found: set[str] = set()
    for name in uses[crate]:
        found |= {name} | reached(name, uses)
    return found


def is_of_the_program(crate: str) -> bool:
    """Whether a crate is the program or one of its libraries."""
    return not crate.endswith(NOT_LIBRARIES)


def subject(crate: str) -> str:
    """What a crate is for, as the title of its README says it."""
    page = f'crates/{crate}/README.md'
    found = re.match(rf'# `{crate}`: (.+)\n', text_of(page))
    if not found:
        raise SystemExit(f"docs/crates.py: {page} should begin with '# `{crate}`: ..'")
    return found[1].replace('|', '\\|')


def row(*cells: object) -> str:
    """A row of a table."""
    return re.sub(r' +', ' ', f'| {" | ".join(map(str, cells))} |')


def table_of_crates(uses: dict[str, list[str]]) -> str:
    """What each crate is for, and which crates it stands on, without those that these stand on."""
    rows = ['| Crate | What it is for | Stands on |', '|---|---|---|']
    for crate, names in uses.items():
        through = {name for other in names for name in reached(other, uses)}
        listed = ', '.join(f'`{name}`' for name in names if name not in through)
        rows.append(row(f'`{crate}`', subject(crate), listed))
    return '\n'.join(rows)


def minutes_of(crate: str) -> float:
    """The minutes of one core for the proof of a crate and for its tests."""
    return sum(PROOFS.get(crate, (NOT_MEASURED, 0)))


def table_of_minutes(uses: dict[str, list[str]]) -> str:
    """How long the proof of each crate takes, and what a change in it costs."""
    rows = ['| Crate | Proof | Its tests | Wrong bodies | Crates above it | A change |',
            '|---|---|---|---|---|---|']
    for crate in uses:
        proof, tests = PROOFS.get(crate, ('', 0))
        edits = len(list((ROOT / 'crates' / crate).glob('must-fail/*.edit'))) or ''
        above = [other for other in uses if crate in reached(other, uses)]
        cost = sum(minutes_of(name) for name in [crate, *above])
        rows.append(row(f'`{crate}`', proof, tests or '', edits, len(above), f'{cost:.0f}'))
    in_all = sum(minutes_of(crate) for crate in uses)
    rows.append(row('all', '', '', '', '', f'{in_all:.0f}'))
    return '\n'.join(rows)


def with_table(page: str, table: str) -> tuple[str, str]:
    """The text of a page as it is, and as it is with this table between its comments."""
    text = text_of(page)
    before, begin, rest = text.partition(BEGIN)
    _, end, after = rest.partition(END)
    if not begin or not end:
        raise SystemExit(f'docs/crates.py: {page} should have {BEGIN} and {END}')
    return text, f'{before}{begin}\n\n{table}\n\n{end}{after}'


def faults_of_drawing(uses: dict[str, list[str]]) -> list[str]:
    """What isn't right in the drawing: its crates, or their heights."""
    heights = {name: int(height) for height, name
               in re.findall(r'<text x="\d+" y="(\d+)">(tt_\w+)</text>', text_of(DRAWING))}
    wanted = set(filter(is_of_the_program, uses))
    faults = [f'{DRAWING}: {name} should be drawn' for name in sorted(wanted - heights.keys())]
    faults += [f'{DRAWING}: {name} should not be drawn' for name in sorted(heights.keys() - wanted)]
    faults += [f'{DRAWING}: {crate} should stand above {name}'
               for crate in sorted(heights.keys() & wanted) for name in uses[crate]
               if heights[crate] >= heights.get(name, heights[crate] + 1)]
    return faults


def main() -> int:
    words = sys.argv[1:]
    if words not in ([], ['--check']):
        print(__doc__, file=sys.stderr)
        return 2
    uses = crates()
    faults = faults_of_drawing(uses)
    for page, table in (('docs/ARCHITECTURE.md', table_of_crates(uses)),
                        ('docs/BUILDING.md', table_of_minutes(uses))):
        text, wanted = with_table(page, table)
        if text == wanted:
            continue
        if words:
            faults.append(f'{page}: its table should be what docs/crates.py writes')
        else:
            (ROOT / page).write_text(wanted, encoding='utf-8')
    for fault in faults:
        print(fault)
    return 1 if faults else 0


if __name__ == '__main__':
    sys.exit(main())
