"""Shared objects that stand before the C library, for the tests that make its calls fail."""
import functools
import os
import shutil
import subprocess
import tempfile
from typing import Iterator, Sequence

from tests.support import fixtures

FLAGS = ['-O1', '-shared', '-fPIC', '-fno-builtin', '-nostdlib']


def compilers() -> Iterator[str]:
    """The commands that may build C: the system's, and the kit's clang."""
    yield from filter(shutil.which, ('cc', 'gcc', 'clang'))
    rt = shutil.which('rt')
    if rt:
        page = subprocess.run([rt, 'doc'], capture_output=True, text=True).stdout.strip()
        clang = f'{os.path.dirname(page)}/toolchain/bin/clang'
        if shutil.which(clang):
            yield clang


def built(name: str, before: Sequence[str] = (), behind: Sequence[str] = ()) -> str:
    """What a compiler makes of tests/NAME.c, with these words before the file and behind it. Where there is
    no compiler the test is left out. Raises `AssertionError` where there is one and it makes nothing."""
    complaints = []
    made = f'{tempfile.mkdtemp(dir=fixtures.folder_of_run())}/{name}'
    for compiler in compilers():
        words = [compiler, *before, '-o', made, str(fixtures.ROOT / f'tests/{name}.c'), *behind]
        ended = subprocess.run(words, capture_output=True, text=True)
        if ended.returncode == 0:
            return made
        complaints.append(f'{" ".join(words)}\n{ended.stderr[:2000]}')
    if not complaints:
        fixtures.left_out('a C compiler')
    raise AssertionError('\n'.join(complaints))


@functools.lru_cache(maxsize=None)
def shared_object(name: str) -> str:
    """The shared object of tests/NAME.c."""
    return built(name, FLAGS)
