"""The types of the Python files, and what linters say of them and of the shell scripts. Each wants its
tool, and is left out where that isn't there."""
import re
import shutil
import subprocess
import tempfile
import unittest
from pathlib import Path
from typing import Iterator

from tests.support.fixtures import ROOT, folder_of_run, left_out

LEFT_OUT = {'.git', 'out', '__pycache__', '.mypy_cache', '.ruff_cache'}
PYTHON = re.compile(rb'#!.*\bpython')
SHELL = re.compile(rb'#!.*\b(?:ba)?sh\b|# shellcheck shell=')


def files(folder: Path = ROOT) -> Iterator[Path]:
    """The files of the repository, but for those that are built."""
    for path in sorted(folder.iterdir()):
        if path.name in LEFT_OUT or path.is_symlink():
            continue
        if path.is_dir():
            yield from files(path)
        else:
            yield path


def begins_with(path: Path, beginning: 're.Pattern[bytes]') -> bool:
    with open(path, 'rb') as file:
        return bool(beginning.match(file.read(80)))


def python_files() -> list[Path]:
    return [path for path in files() if path.suffix == '.py' or not path.suffix and begins_with(path, PYTHON)]


def shell_files() -> list[Path]:
    return [path for path in files() if path.suffix in ('.sh', '') and begins_with(path, SHELL)]


class Linters(unittest.TestCase):
    def is_clean(self, *words: object) -> None:
        ran = subprocess.run(list(map(str, words)), cwd=ROOT, capture_output=True, text=True, check=False)
        if ran.returncode:
            self.fail(f'{words[0]}:\n{ran.stdout[-4000:]}{ran.stderr[-1000:]}')

    def test_types(self) -> None:
        """The package of Python and tools/ have strict types."""
        if not shutil.which('mypy'):
            left_out('mypy')
        with tempfile.TemporaryDirectory(dir=folder_of_run()) as cache:
            for path in ROOT / 'clients/python/timetravel', *(ROOT / 'tools').glob('*.py'):
                with self.subTest(str(path.relative_to(ROOT))):
                    self.is_clean('mypy', '--strict', '--cache-dir', cache, path)

    def test_python(self) -> None:
        """No name is unknown, unused or hidden."""
        if shutil.which('ruff'):
            self.is_clean('ruff', 'check', '--no-cache', '--isolated', *python_files())
            return
        pyflakes = shutil.which('pyflakes3') or shutil.which('pyflakes')
        if not pyflakes:
            left_out('ruff or pyflakes')
        self.is_clean(pyflakes, *python_files())

    def test_shell(self) -> None:
        """Shell scripts. `-nt` isn't of POSIX, but each shell of Linux has it."""
        if not shutil.which('shellcheck'):
            left_out('shellcheck')
        self.is_clean('shellcheck', '-x', '-S', 'warning', '-e', 'SC3013', *shell_files())
