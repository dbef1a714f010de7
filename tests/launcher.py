"""The launcher ./timetravel, ./build where nothing is to be built, and the wrong bodies, which have to
fit the sources. Nothing is proved here."""
import os
import re
import shutil
import subprocess
import unittest
from pathlib import Path
from typing import Optional

from tests.support.cases import Case, check
from tests.support.fixtures import ROOT, VERSION, left_out, other_program, program, temporary_folder

TOLD_VERSION = f'timetravel {VERSION}\n'.encode()
NEWER = b'timetravel: the sources are newer than this program: ./build proves it anew\n'
NO_RT = b'the command rt is not on the path: see "What it needs" in docs/BUILDING.md\n'
NO_PART = re.compile(r'_(tests|example|bench)$')  # of the program


def crates() -> list[str]:
    return re.findall(r'^[a-z]\w*', (ROOT / 'crates.txt').read_text(), re.MULTILINE)


class Launched(unittest.TestCase):
    """A folder with the launcher, and with the program where it was built."""

    def setUp(self) -> None:
        self.folder = temporary_folder(self)
        self.launcher = self.folder / 'timetravel'
        shutil.copy2(ROOT / 'timetravel', self.launcher)

    def put_program(self) -> Path:
        built = self.folder / 'crates/tt_cli/out/tt_cli'
        built.parent.mkdir(parents=True)
        shutil.copy2(program(), built)
        return built

    def put_build(self) -> None:
        """What ./build needs besides the crates."""
        for name in 'build', 'crates.txt', 'HANDLES':
            shutil.copy2(ROOT / name, self.folder)
        shutil.copytree(ROOT / 'tools', self.folder / 'tools')

    def run_in(self, *words: str, path: Optional[str] = None) -> 'subprocess.CompletedProcess[bytes]':
        """What a command of the folder answers, with this PATH."""
        environment = {**os.environ, **({} if path is None else {'PATH': path})}
        return subprocess.run([self.folder / words[0], *words[1:]], capture_output=True, env=environment,
                              stdin=subprocess.DEVNULL, check=False)


class Launcher(Launched):
    def test_is_the_same_behind_a_link(self) -> None:
        self.put_program()
        link = temporary_folder(self) / 'link'
        link.symlink_to(self.launcher)
        check(self, Case(['--version'], output=TOLD_VERSION), link)

    def test_new_sources(self) -> None:
        """It tells of a source that is newer than the program, in the program and in any library and in
        no other crate, and answers all the same."""
        self.put_program()
        for crate in crates():
            with self.subTest(crate):
                source = self.folder / f'crates/{crate}/src/part/new.rt'
                source.parent.mkdir(parents=True)
                source.touch()
                error = b'' if NO_PART.search(crate) else NEWER
                check(self, Case(['--version'], output=TOLD_VERSION, error=error, label=f'a new source in {crate}'),
                      self.launcher)
                source.unlink()

    def test_holds_no_session_without_a_binary(self) -> None:
        for word in 'session', 'log':
            with self.subTest(word):
                error = f'timetravel: {word} needs the built program: run ./build\n'.encode()
                check(self, Case([word], status=5, error=error), self.launcher)

    def test_needs_rt_without_a_binary(self) -> None:
        ran = self.run_in('timetravel', '--version', path='/nonexistent')
        self.assertEqual((ran.returncode, ran.stdout, ran.stderr), (5, b'', b'timetravel: ' + NO_RT))


class Build(Launched):
    """./build in a folder whose program is built."""

    def test_installs_the_program(self) -> None:
        self.put_program()
        self.put_build()
        to = temporary_folder(self)
        ran = self.run_in('build', '--install', str(to))
        said = f'build: the program is proved and built\nbuild: installed {to}/timetravel and {to}/timetravel.bin\n'
        self.assertEqual((ran.returncode, ran.stdout, ran.stderr), (0, b'', said.encode()))
        self.assertEqual(sorted(os.listdir(to)), ['timetravel', 'timetravel.bin'])
        link = temporary_folder(self) / 'link'
        link.symlink_to(to / 'timetravel')
        for command in to / 'timetravel', link:
            check(self, Case(['--version'], output=TOLD_VERSION, label='installed'), command)

    def test_needs_rt_without_a_binary(self) -> None:
        self.put_build()
        ran = self.run_in('build', path=self.path_without_rt())
        self.assertEqual((ran.returncode, ran.stdout, ran.stderr), (5, b'', b'build: ' + NO_RT))

    def test_finds_nothing_to_do(self) -> None:
        """The built program is as new as the sources. Where it isn't, nothing is proved here either."""
        if other_program():
            left_out('the built program itself')
        program()
        ran = subprocess.run([ROOT / 'build'], capture_output=True, stdin=subprocess.DEVNULL, check=False,
                             env={**os.environ, 'PATH': self.path_without_rt()})
        self.assertEqual((ran.returncode, ran.stderr), (0, b'build: the program is proved and built\n'))

    def path_without_rt(self) -> str:
        """A folder with what ./build needs where it has nothing to do."""
        path = temporary_folder(self)
        for tool in 'bash', 'readlink', 'dirname', 'awk', 'sed', 'grep', 'find', 'cmp', 'rm':
            (path / tool).symlink_to(str(shutil.which(tool)))
        return str(path)


class WrongBodies(unittest.TestCase):
    def test_each_can_be_tried(self) -> None:
        """Also those that a run of ./test leaves out."""
        ran = subprocess.run([ROOT / 'tools/wrong_bodies.py', '--check'], capture_output=True, check=False)
        self.assertEqual((ran.returncode, ran.stdout + ran.stderr), (0, b''))
