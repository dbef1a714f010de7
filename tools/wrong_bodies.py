#!/usr/bin/env python3
"""The wrong bodies, crates/*/must-fail/*.edit: which of them a run of ./test tries, and whether
each can be tried.

  tools/wrong_bodies.py             the groups, of about the same minutes, by their crates
  tools/wrong_bodies.py COMMIT      the group that the hash of this commit picks, and then the files
                                    of its wrong bodies, one a line
  tools/wrong_bodies.py --check     names those whose lines don't stand in their files once, with
                                    status 1 where there are any
"""
import re
import sys
from pathlib import Path
from typing import Iterable, Optional

from minutes import NOT_MEASURED, PROOFS, WRONG_BODY, WRONG_BODY_NOT_MEASURED

ROOT = Path(__file__).resolve().parents[1]
MOST = 20.0  # minutes of one core that a group takes, unless one wrong body alone takes more

Share = list[Path]  # wrong bodies of one crate


def wrong_bodies(crate: str) -> list[Path]:
    return sorted(ROOT.glob(f'crates/{crate}/must-fail/*.edit'))


def crate_of(edit: Path) -> str:
    return edit.parents[1].name


def minutes(share: Share) -> float:
    """About how long these take, with the proof of their crate that comes before them."""
    crate = crate_of(share[0])
    proof, _ = PROOFS.get(crate, (NOT_MEASURED, 0))
    return proof + len(share) * WRONG_BODY.get(crate, WRONG_BODY_NOT_MEASURED)


def shares(edits: Share) -> Iterable[Share]:
    """A crate's wrong bodies, in as few parts as there can be without a longer one than MOST."""
    for count in range(1, len(edits) + 1):
        found = [edits[part::count] for part in range(count)]
        if max(map(minutes, found)) <= MOST or count == len(edits):
            return found
    return []


def minutes_of(group: Iterable[Share]) -> float:
    return sum(map(minutes, group))


def groups() -> list[list[Share]]:
    """Each share, the longest first, goes to the group that is the shortest, of as few groups as
    there can be without a longer one than MOST."""
    crates = re.findall(r'^[a-z]\w*', (ROOT / 'crates.txt').read_text(), re.MULTILINE)
    all_shares = [share for crate in crates for share in shares(wrong_bodies(crate))]
    all_shares.sort(key=minutes, reverse=True)
    for count in range(1, len(all_shares) + 1):
        found: list[list[Share]] = [[] for _ in range(count)]
        for share in all_shares:
            min(found, key=minutes_of).append(share)
        if all(minutes_of(group) <= MOST for group in found):
            return found
    return [[share] for share in all_shares]


def names(group: list[Share]) -> str:
    """The crates of a group, each with the number of its wrong bodies where these aren't all."""
    told = []
    for share in group:
        crate = crate_of(share[0])
        in_all = len(wrong_bodies(crate))
        told.append(crate if len(share) == in_all else f'{crate} ({len(share)} of {in_all})')
    return ', '.join(told)


def cause(edit: Path) -> Optional[str]:
    """Why a wrong body can't be tried, if it can't."""
    crate, path, old = edit.parents[1], '', ''
    texts: dict[str, str] = {}
    for line in edit.read_text().split('\n'):
        if line.startswith('file: '):
            path = line.removeprefix('file: ').strip()
            if not (crate / path).is_file():
                return f'there is no {path}'
            texts.setdefault(path, (crate / path).read_text())
        elif line.startswith('old: '):
            old = line.removeprefix('old: ')
        elif line.startswith('new:'):
            if not path or not old or texts[path].count(old) != 1:
                return f'this should stand in {path} once: {old}'
            new = line.removeprefix('new:').removeprefix(' ')
            texts[path], old = texts[path].replace(old, new), ''
    changed = any(text != (crate / path).read_text() for path, text in texts.items())
    return None if changed else 'it changes nothing'


def check() -> int:
    found = [(edit, cause(edit)) for edit in wrong_bodies('*')]
    for edit, why in found:
        if why:
            print(f'{edit.relative_to(ROOT)}: {why}')
    return 1 if any(why for _, why in found) else 0


def main() -> int:
    words = sys.argv[1:]
    if words == ['--check']:
        return check()
    if len(words) > 1 or not all(re.fullmatch('[0-9a-f]{40,64}', word) for word in words):
        print(__doc__, file=sys.stderr)
        return 2
    found = groups()
    if not words:
        for number, group in enumerate(found, 1):
            print(f'{number}: {minutes_of(group):.0f} minutes: {names(group)}')
    elif found:
        picked = int(words[0], 16) % len(found)
        print(f'group {picked + 1} of {len(found)}: {names(found[picked])}')
        for share in found[picked]:
            for edit in share:
                print(edit.relative_to(ROOT))
    return 0


if __name__ == '__main__':
    sys.exit(main())
