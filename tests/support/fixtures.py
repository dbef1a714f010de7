"""Where things are, and what a test needs to begin."""
import atexit
import os
import shutil
import tempfile
import unittest
from pathlib import Path
from typing import NoReturn, Optional

ROOT = Path(__file__).resolve().parents[2]
BUILT = ROOT / 'crates/tt_cli/out/tt_cli'
PROGRAM_VARIABLE = 'TIMETRAVEL_PROGRAM'
VERSION = '0.1.0'  # that the program prints
_folder_of_run: Optional[str] = None


def other_program() -> Optional[str]:
    """The program that $TIMETRAVEL_PROGRAM names, which is tested in place of the built one."""
    named = os.environ.get(PROGRAM_VARIABLE)
    return os.path.abspath(named) if named else None


def program() -> Path:
    """The built program, or the one that $TIMETRAVEL_PROGRAM names."""
    found = Path(other_program() or BUILT)
    if not os.access(found, os.X_OK):
        raise AssertionError(f'there is no {found}: run ./build first')
    return found


def launcher() -> Path:
    """./timetravel, or the program that $TIMETRAVEL_PROGRAM names."""
    program()
    return Path(other_program() or ROOT / 'timetravel')


def built_tests(crate: str) -> Path:
    """The built tests of a crate, such as tt_memory_tests, which ./test puts into its folder out/."""
    found = ROOT / f'crates/{crate}/out/{crate}_tests'
    if not os.access(found, os.X_OK):
        if other_program():
            left_out(f'the built tests of {crate} (run ./test first)')
        raise AssertionError(f'there is no {found}: run ./test first')
    return found


def left_out(what_is_missing: str) -> NoReturn:
    """Leaves the test out, since this isn't on the machine: 'etcd (Debian: etcd-server)'."""
    raise unittest.SkipTest(what_is_missing)


def folder_of_run() -> str:
    """The folder of all temporary folders of this run, which is removed with it."""
    global _folder_of_run
    if _folder_of_run is None:
        _folder_of_run = tempfile.mkdtemp(prefix='timetravel-tests-')
        atexit.register(remove_after, os.getpid(), _folder_of_run)
    return _folder_of_run


def remove_after(process: int, folder: str) -> None:
    """Removes a folder where the process ends that made it, and not where a fork of it does."""
    if os.getpid() == process:
        shutil.rmtree(folder, True)


def temporary_folder(test: unittest.TestCase) -> Path:
    """A new folder, which is removed after the test."""
    folder = tempfile.mkdtemp(dir=folder_of_run())
    test.addCleanup(shutil.rmtree, folder, True)
    return Path(folder)
