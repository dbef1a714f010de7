"""A small repository with ./test, ./build and tools/, and a stand-in for the kit's `rt` that proves
nothing: it says what it was asked, and how far it is, and makes the files that would be built."""
import os
import shutil
import subprocess
import time
from pathlib import Path
from typing import Optional
from unittest import TestCase

from tests.support.fixtures import ROOT, temporary_folder

CRATES = {'low': '', 'beside': '', 'middle': ' low', 'tt_cli': ' middle clap', 'low_tests': ' low'}
PROGRAM = ['low', 'middle', 'tt_cli']
EDIT = 'file: src/lib.rt\nold: right\nnew: wrong\n'

# What it does is told by variables: KIT_LOG is the file for what it was asked; with KIT_KEEPS it keeps
# proofs; with KIT_FAILS it fails at this crate; with KIT_WAITS it waits there, until it is ended; with
# KIT_EDITS this file is edited meanwhile.
STAND_IN = r'''#!/usr/bin/env bash
if [ "$1" = help ]; then
  echo 'rt ci'
  [ -z "${KIT_KEEPS-}" ] || echo 'rt ci NAME'
  exit 0
fi
echo "$* of $(sed -n 's/:.*//p' crates.txt | tr '\n' ' ')with $(ls crates/*/must-fail 2>/dev/null | grep -c edit) wrong bodies" >>"$KIT_LOG"
[ "$TMPDIR" = "${PWD%/*}/temporary" ] && [ -d .git ] || exit 9
[ "$(stat -c %a "$TMPDIR" "${PWD%/*}" | tr '\n' ' ')" = '711 711 ' ] || exit 9
[ -z "${KIT_EDITS-}" ] || { sleep 0.1; touch "$KIT_EDITS"; sleep 0.1; }
crates=("${@:2}")
[ $# -gt 1 ] || mapfile -t crates < <(sed -n 's/:.*//p' crates.txt)
for crate in "${crates[@]}"; do
  if [ "$crate" = "${KIT_WAITS-}" ]; then
    echo "$$" >"$KIT_LOG.waits"
    exec sleep 100
  fi
  if [ "$crate" = "${KIT_FAILS-}" ]; then
    echo "$PWD/crates/$crate/src/lib.rt: not proved"
    echo '0 passed, 1 failed'
    exit 1
  fi
  case $crate in
    *_tests) echo "rt: $crate: its tests are proved" ;;
    low) echo "rt: $crate is kept: nothing has changed" ;;
    *) echo "rt: $crate proved" ;;
  esac
  if [ $# -eq 1 ] && [[ $crate = tt_cli || $crate = *_tests ]]; then
    mkdir -p "crates/$crate/out"
    name=$crate
    [[ $crate != *_tests ]] || name=${crate}_tests
    printf '#!/bin/sh\necho %s\n' "$name" >"crates/$crate/out/$name"
    chmod 755 "crates/$crate/out/$name"
  fi
done
[ $# -eq 1 ] || echo "rt: $2 passed, and that is kept"
echo "${#crates[@]} passed, 0 failed"
'''

SUITE = '''import os, sys, time
print('suite', *sys.argv[1:], flush=True)
if os.environ.get('SUITE_WAITS'):
    with open(os.environ['KIT_LOG'] + '.waits', 'w') as file:
        file.write(str(os.getpid()))
    time.sleep(100)
sys.exit(int(os.environ.get('SUITE_STATUS', '0')))
'''


class Kit:
    """The small repository, and commands that run in it."""

    def __init__(self, test: TestCase) -> None:
        self.test = test
        base = temporary_folder(test)
        self.root, self.temporary, self.path = base / 'repository', base / 'temporary', base / 'path'
        self.log = base / 'log'
        self.waits = Path(f'{self.log}.waits')
        for folder in self.temporary, self.path:
            folder.mkdir()
        self.write('path/rt', STAND_IN)
        (self.path / 'rt').chmod(0o755)
        self.write_repository()

    def write(self, path: str, text: str) -> None:
        to = self.root.parent / path
        to.parent.mkdir(parents=True, exist_ok=True)
        to.write_text(text)

    def write_repository(self) -> None:
        for crate in CRATES:
            self.write(f'repository/crates/{crate}/src/lib.rt', 'right\n')
        for crate in 'low', 'beside':
            self.write(f'repository/crates/{crate}/must-fail/wrong.edit', EDIT)
        lines = ''.join(f'{crate}:{libraries}\n' for crate, libraries in CRATES.items())
        self.write('repository/crates.txt', f'# Crates\n{lines}')
        self.write('repository/HANDLES', 'Handles allowed: none.\n')
        self.write('repository/tests/__init__.py', '')
        self.write('repository/tests/__main__.py', SUITE)
        for command in 'test', 'build':
            shutil.copy2(ROOT / command, self.root)
        shutil.copytree(ROOT / 'tools', self.root / 'tools')

    def environment(self, **variables: str) -> dict[str, str]:
        own = {name: value for name, value in os.environ.items()
               if not name.startswith(('GIT_', 'KIT_', 'SUITE_')) and name != 'CI'}
        return {**own, 'PATH': f'{self.path}:{os.environ["PATH"]}', 'TMPDIR': str(self.temporary),
                'KIT_LOG': str(self.log), **variables}

    def run(self, *words: str, **variables: str) -> 'subprocess.CompletedProcess[str]':
        """A command of the repository, called from another folder, with these variables."""
        return subprocess.run([self.root / words[0], *words[1:]], cwd=self.temporary, capture_output=True, text=True,
                              env=self.environment(**variables), stdin=subprocess.DEVNULL, timeout=60, check=False)

    def commit(self) -> Optional[str]:
        """Makes the repository a checkout, and tells the hash of its commit, where git is there."""
        if not shutil.which('git'):
            return None
        for words in ['init', '-q', '.'], ['add', '.'], ['-c', 'user.name=a', '-c', 'user.email=a@b', 'commit', '-qm', 'a']:
            subprocess.run(['git', *words], cwd=self.root, env=self.environment(), capture_output=True, check=True)
        return subprocess.run(['git', 'rev-parse', 'HEAD'], cwd=self.root, env=self.environment(), capture_output=True,
                              text=True, check=True).stdout.strip()

    def asked(self) -> list[str]:
        """What the stand-in was asked, each once."""
        asked = self.log.read_text().splitlines() if self.log.exists() else []
        self.log.unlink(missing_ok=True)
        return asked

    def interrupted(self, signal: int, *words: str, **variables: str) -> int:
        """The status of a command that gets this signal while something that it has begun waits, which
        is ended with it. Nothing is left of it."""
        self.waits.unlink(missing_ok=True)
        with subprocess.Popen([self.root / words[0], *words[1:]], env=self.environment(**variables),
                              stdin=subprocess.DEVNULL, stdout=subprocess.DEVNULL, stderr=subprocess.DEVNULL) as process:
            for _ in range(600):
                if self.waits.exists() and self.waits.read_text():
                    break
                time.sleep(0.05)
            waiting = int(self.waits.read_text())
            process.send_signal(signal)
            try:
                status = process.wait(30)
            except subprocess.TimeoutExpired:
                process.kill()
                raise
        with self.test.assertRaises(ProcessLookupError):
            os.kill(waiting, 0)
        self.test.assertEqual(os.listdir(self.temporary), [])
        return status
