"""What ./test and ./build do, in a small repository with a stand-in for the kit that proves nothing;
and how the answers of an unproved build are read."""
import os
import re
import signal
import subprocess
import sys
import unittest
from pathlib import Path

from tests.support import unproved
from tests.support.cases import Answer, Case
from tests.support.fixtures import ROOT, left_out
from tests.support.kit import CRATES, EDIT, PROGRAM, Kit

INTERRUPTS = {signal.SIGHUP: 129, signal.SIGINT: 130, signal.SIGTERM: 143}
ALL = ' '.join(CRATES)
KITS: list[dict[str, str]] = [{}, {'KIT_KEEPS': '1'}]

# What `rt try --cases` printed on six cases, of which 0005 printed without end and 0006 failed at once.
PRINTED = b'''== 0001
tea 1:05
== 0002
tea 1:05cake 0:10
== 0003
== 0004
'''
SAID = b'''said
case=0001 run=ended status=0 runners=1 proved=no
said
said
case=0002 run=ended status=0 runners=1 proved=no
case=0003 run=ended status=0 runners=1 proved=no
Error: Error { kind: InvalidData, message: "stream did not contain valid UTF-8" }
case=0004 run=ended status=1 runners=1 proved=no
the end of the program's standard output:
| no number in ""no number in ""
checked: no-answer: the program did not end within the time limit
case=0005 run=no-answer proved=no
cases=5 ended=4 fault=0 differs=0 no-answer=1 proved=no
'''


class UnprovedBuild(unittest.TestCase):
    """What `rt try --cases` prints is taken apart."""

    def test_answers(self) -> None:
        error = b'Error: Error { kind: InvalidData, message: "stream did not contain valid UTF-8" }\n'
        answers = unproved.answers_of(PRINTED, SAID)
        self.assertEqual(sorted(answers), ['0001', '0002', '0003', '0004', '0005'])
        self.assertEqual(answers['0001'], Answer(0, b'tea 1:05\n', b'said\n'))
        self.assertEqual(answers['0002'], Answer(0, b'tea 1:05cake 0:10\n', b'said\nsaid\n'))
        self.assertEqual(answers['0003'], Answer(0, b'', b''))
        self.assertEqual(answers['0004'], Answer(1, b'', error))
        self.assertIsNone(answers['0005'].status)

    def test_nothing_was_built(self) -> None:
        self.assertEqual(unproved.answers_of(b'', b'rt: it has a fault\n'), {})

    def test_files_of_a_case(self) -> None:
        folder = Kit(self).temporary
        unproved.write_case(folder, '0001', Case(['replay', '--batch', ''], b'given'))
        unproved.write_case(folder, '0002', Case([]))
        self.assertEqual({path.name: path.read_bytes() for path in folder.iterdir()},
                         {'0001': b'given', '0001.args': b'replay\n--batch\n\n', '0002': b'', '0002.args': b''})


class WrongBodies(unittest.TestCase):
    """Which wrong bodies a run of ./test tries."""

    def tool(self, *words: str, root: Path = ROOT) -> str:
        return subprocess.run([root / 'tools/wrong_bodies.py', *words], capture_output=True, text=True,
                              check=True).stdout

    def test_each_is_in_one_group(self) -> None:
        groups = self.tool().splitlines()
        found: list[str] = []
        for number, group in enumerate(groups):
            commit = f'{len(groups) * 10 ** 40 + number:040x}'
            first, *edits = self.tool(commit).splitlines()
            self.assertEqual(first, f'group {number + 1} of {len(groups)}: {group.split(": ")[2]}')
            crates = {edit.split('/')[1] for edit in edits}
            self.assertEqual(sorted(crates), sorted(re.findall(r'tt_\w+', group)))
            found += edits
        self.assertEqual(sorted(found), sorted(str(path.relative_to(ROOT))
                                               for path in ROOT.glob('crates/*/must-fail/*.edit')))

    def test_a_crate_of_many_is_in_several_groups(self) -> None:
        kit = Kit(self)
        for number in range(30):
            kit.write(f'repository/crates/low/must-fail/wrong_{number}.edit', EDIT)
        self.assertEqual(self.tool(root=kit.root).splitlines(), [
            '1: 14 minutes: low (16 of 31)', '2: 17 minutes: low (15 of 31), beside'])

    def test_one_that_does_not_fit_is_told(self) -> None:
        kit = Kit(self)
        self.assertEqual(self.tool('--check', root=kit.root), '')
        for text, cause in {'other\n': 'this should stand in src/lib.rt once: right',
                            'right right\n': 'this should stand in src/lib.rt once: right'}.items():
            kit.write('repository/crates/low/src/lib.rt', text)
            ran = subprocess.run([kit.root / 'tools/wrong_bodies.py', '--check'], capture_output=True, text=True,
                                 check=False)
            self.assertEqual((ran.returncode, ran.stdout), (1, f'crates/low/must-fail/wrong.edit: {cause}\n'))


class Gate(unittest.TestCase):
    """./test: a copy is proved, what was built is taken, and then the suite runs."""

    def setUp(self) -> None:
        self.kit = Kit(self)

    def ends(self, ran: 'subprocess.CompletedProcess[str]', status: int, last: str) -> None:
        self.assertEqual(ran.returncode, status, ran.stdout + ran.stderr)
        self.assertEqual(ran.stdout.splitlines()[-1], last, ran.stdout + ran.stderr)
        self.assertEqual(os.listdir(self.kit.temporary), [])

    def test_all_wrong_bodies(self) -> None:
        ran = self.kit.run('test', '--all')
        self.ends(ran, 0, '5 passed, 0 failed')
        self.assertEqual(self.kit.asked(), [f'ci of {ALL} with 2 wrong bodies'])
        for line in 'test: tries the wrong bodies of all crates', 'rt: middle proved', 'suite', \
                'test: 4 of 5 crates proved, 0 min':
            self.assertIn(line, ran.stdout.splitlines())

    def test_no_commit(self) -> None:
        ran = self.kit.run('test')
        self.ends(ran, 0, '5 passed, 0 failed')
        self.assertIn('of all crates, since nothing tells here which commit this is', ran.stdout)
        self.assertEqual(self.kit.asked(), [f'ci of {ALL} with 2 wrong bodies'])

    def test_commit_picks_a_group(self) -> None:
        commit = self.kit.commit()
        if not commit:
            left_out('git')
        (self.kit.root / 'tools/wrong_bodies.py').write_text(
            (ROOT / 'tools/wrong_bodies.py').read_text().replace('MOST = 20.0', 'MOST = 4.0'))
        ran = self.kit.run('test')
        self.ends(ran, 0, '5 passed, 0 failed')
        number = int(commit, 16) % 2
        self.assertIn(f'test: tries the wrong bodies that commit {commit[:12]} picks: group {number + 1} of 2: '
                      f'{["low", "beside"][number]}\n', ran.stdout)
        self.assertEqual(self.kit.asked(), [f'ci of {ALL} with 1 wrong bodies'])
        self.assertEqual(len(list(self.kit.root.glob('crates/*/must-fail/*'))), 2)

    def test_what_was_built_is_taken(self) -> None:
        self.kit.write('repository/crates/tt_cli/out/old', 'not copied')
        self.ends(self.kit.run('test'), 0, '5 passed, 0 failed')
        program = self.kit.root / 'crates/tt_cli/out/tt_cli'
        tests = self.kit.root / 'crates/low_tests/out/low_tests_tests'
        for built in program, tests:
            ran = subprocess.run([built], capture_output=True, text=True, check=True)
            self.assertEqual(ran.stdout, f'{built.name}\n')
        lines = ''.join(f'{crate}:{CRATES[crate]}\n' for crate in PROGRAM)
        self.assertEqual(Path(f'{program}.crates').read_text(), lines)
        # ./build finds nothing to do, unless a source is newer.
        self.kit.asked()
        self.assertEqual(self.kit.run('build').stderr, 'build: the program is proved and built\n')
        self.assertEqual(self.kit.asked(), [])

    def test_edit_meanwhile_makes_the_program_old(self) -> None:
        edited = str(self.kit.root / 'crates/low/src/lib.rt')
        for command in 'test', 'build':
            with self.subTest(command):
                self.assertEqual(self.kit.run(command, KIT_EDITS=edited).returncode, 0)
                self.assertIn('build: proving 3 crates', self.kit.run('build').stderr)
                os.utime(edited)

    def test_a_crate_is_not_proved(self) -> None:
        ran = self.kit.run('test', KIT_FAILS='middle')
        self.ends(ran, 1, '0 passed, 1 failed')
        self.assertIn('\ncrates/middle/src/lib.rt: not proved\n', ran.stdout)
        self.assertNotIn('suite', ran.stdout.splitlines())
        self.assertFalse((self.kit.root / 'crates/tt_cli/out').exists())

    def test_suite_fails(self) -> None:
        ran = self.kit.run('test', SUITE_STATUS='1')
        self.assertEqual(ran.returncode, 1)
        self.assertNotIn('passed', ran.stdout.splitlines()[-1])

    def test_command_lines(self) -> None:
        self.assertEqual(self.kit.run('test', '--fast').returncode, 2)
        self.assertEqual(self.kit.run('test', '--all', '--all').returncode, 2)
        helped = self.kit.run('test', '--help')
        self.assertEqual(helped.returncode, 0)
        self.assertIn('./test --unproved', helped.stdout)
        self.ends(self.kit.run('test', '--unproved'), 0, 'suite --unproved')
        self.ends(self.kit.run('test', '--unproved', SUITE_STATUS='1'), 1, 'suite --unproved')
        self.assertEqual(self.kit.asked(), [])

    def test_interrupts(self) -> None:
        for number, status in INTERRUPTS.items():
            with self.subTest(f'{number!r} while it proves'):
                self.assertEqual(self.kit.interrupted(number, 'test', KIT_WAITS='middle'), status)
            with self.subTest(f'{number!r} in the suite'):
                self.assertEqual(self.kit.interrupted(number, 'test', SUITE_WAITS='1'), status)
            with self.subTest(f'{number!r} in an unproved build'):
                self.assertEqual(self.kit.interrupted(number, 'test', '--unproved', SUITE_WAITS='1'), status)


class Build(unittest.TestCase):
    """./build, with kits that keep proofs and with one that doesn't."""

    def setUp(self) -> None:
        self.kit = Kit(self)
        self.program = self.kit.root / 'crates/tt_cli/out/tt_cli'

    def is_built(self, **variables: str) -> list[str]:
        """Builds the program. What it says comes back, and nothing is left but what was built."""
        ran = self.kit.run('build', **variables)
        self.assertEqual((ran.returncode, ran.stdout), (0, ''), ran.stderr)
        said = ran.stderr.splitlines()
        self.assertEqual(said[-1], 'build: the program is proved and built: ./timetravel')
        self.assertEqual(os.listdir(self.kit.temporary), [])
        self.assertEqual(sorted(os.listdir(self.program.parent)), ['tt_cli', 'tt_cli.crates'])
        return said

    def test_crates(self) -> None:
        self.assertEqual(self.kit.run('build', '--crates').stdout.split(), PROGRAM)

    def test_kit_that_keeps_nothing(self) -> None:
        said = self.is_built()
        self.assertEqual(self.kit.asked(), [f'ci of {" ".join(PROGRAM)} with 0 wrong bodies'])
        self.assertEqual([line for line in said if ' of 3 crates' in line],
                         ['build: low was proved before (1 of 3 crates, 0 min)',
                          'build: middle is proved (2 of 3 crates, 0 min)',
                          'build: tt_cli is proved (3 of 3 crates, 0 min)'])

    def test_kit_that_keeps_proofs(self) -> None:
        """One crate after the other, as soon as its libraries are kept, and then the whole."""
        if self.lanes() < 2:
            left_out('two processors and 7 GB of memory for each of two crates')
        said = self.is_built(KIT_KEEPS='1')
        of = f'of {" ".join(PROGRAM)} with 0 wrong bodies'
        self.assertEqual(self.kit.asked(), [f'ci low {of}', f'ci middle {of}', f'ci {of}'])
        self.assertEqual(len([line for line in said if ' of 3 crates' in line]), 3)
        # Where CI is true it carries out no such command.
        self.program.unlink()
        self.is_built(KIT_KEEPS='1', CI='true')
        self.assertEqual(self.kit.asked(), [f'ci {of}'])

    def lanes(self) -> int:
        ran = subprocess.run(['bash', '-c', '. tools/crates.sh; lanes_for_crates'], cwd=self.kit.root,
                             capture_output=True, check=True)
        return int(ran.stdout)

    def test_order_by_chain(self) -> None:
        """Those first that have the longest chain of others above them."""
        ran = subprocess.run(['bash', '-c', '. tools/crates.sh; crates_by_chain'], cwd=self.kit.root,
                             capture_output=True, text=True, check=True)
        self.assertEqual(ran.stdout.split(), PROGRAM)

    def test_new_sources(self) -> None:
        self.is_built()
        self.kit.asked()
        for change in 'HANDLES', 'crates/middle/src/lib.rt', 'crates/low/specs/a.antt':
            with self.subTest(change):
                self.assertEqual(self.kit.run('build').stderr, 'build: the program is proved and built\n')
                self.kit.write(f'repository/{change}', 'right\n')
                self.is_built()
                self.assertEqual(len(self.kit.asked()), 1)
        lines = (self.kit.root / 'crates.txt').read_text().replace('middle: low', 'middle: low beside')
        self.kit.write('repository/crates.txt', lines)
        os.utime(self.kit.root / 'crates.txt', (0, 0))
        self.is_built()
        self.assertEqual(self.kit.asked(), ['ci of low beside middle tt_cli with 0 wrong bodies'])

    def test_a_crate_is_not_proved(self) -> None:
        for keeps in KITS:
            with self.subTest(str(keeps)):
                ran = self.kit.run('build', KIT_FAILS='middle', **keeps)
                self.assertEqual((ran.returncode, ran.stdout), (5, ''))
                self.assertIn('crates/middle/src/lib.rt: not proved\n0 passed, 1 failed\n', ran.stderr)
                self.assertEqual(os.listdir(self.program.parent), ['build.log'])
                self.assertEqual(os.listdir(self.kit.temporary), [])

    def test_command_lines(self) -> None:
        usage = 'usage: ./build [--install DIR | --crates]\n'
        for words in ['--fast'], ['--install'], ['--crates', 'x'], ['--install', '.', '.']:
            ran = self.kit.run('build', *words)
            self.assertEqual((ran.returncode, ran.stdout, ran.stderr), (2, '', usage))
        ran = self.kit.run('build', '--install', 'nowhere')
        self.assertEqual((ran.returncode, ran.stderr), (2, 'build: nowhere is not a folder\n'))
        self.assertIn('./build --install DIR', self.kit.run('build', '--help').stdout)
        self.assertEqual(self.kit.asked(), [])

    def test_install(self) -> None:
        """A folder that is named from where ./build is called."""
        to = self.kit.temporary / 'bin'
        to.mkdir()
        self.assertEqual(self.kit.run('build', '--install', 'bin').returncode, 0)
        self.assertEqual(subprocess.run([to / 'timetravel'], capture_output=True, check=True).stdout, b'tt_cli\n')

    def test_interrupts(self) -> None:
        for number, status in INTERRUPTS.items():
            for keeps in KITS:
                with self.subTest(f'{number!r} {keeps}'):
                    self.assertEqual(self.kit.interrupted(number, 'build', KIT_WAITS='middle', **keeps), status)
                    self.assertEqual(os.listdir(self.program.parent), [])


class Runner(unittest.TestCase):
    """`python3 -m tests`: its status and last line."""

    def ends(self, *words: str) -> tuple[int, str]:
        ran = subprocess.run([sys.executable, '-m', 'tests', *words], cwd=ROOT, capture_output=True, text=True,
                             check=False)
        return ran.returncode, ran.stdout.splitlines()[-1]

    def test_all_pass(self) -> None:
        self.assertEqual(self.ends('-k', 'test_nothing_was_built', 'tools'), (0, '1 tests, 0 failed, 0 left out'))

    def test_no_such_part(self) -> None:
        self.assertEqual(self.ends('nothing'), (1, '1 tests, 1 failed, 0 left out'))

    def test_no_such_test(self) -> None:
        self.assertEqual(self.ends('-k', '/', 'tools'), (1, '0 tests, 0 failed, 0 left out'))
