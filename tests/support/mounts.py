"""File systems that a test mounts: in a mount namespace of its own, so that nothing is left of them when
the test ends, however it ends."""
import os
import shutil
import subprocess
from typing import Mapping, Sequence

from tests.support import fixtures
from tests.support.held_session import PATIENCE
from tests.support.log_files import text_of


def in_a_mount(script: str, program: str, mounted: str, beside: str,
               given: Mapping[str, Sequence[str]]) -> dict[str, str]:
    """Runs a script of the shell that mounts a file system, with the program ($1), the folder that gets the
    file system ($2) and one for files ($3), where lines are given to it. What the files there have at its
    end, by their names, and `ended`, the status of the script. The script makes the file `mounted`; where
    it can't the test is left out."""
    for name, lines in given.items():
        with open(f'{beside}/{name}', 'w') as it:
            it.write(text_of(lines))
    root = ['--map-root-user'] if os.geteuid() else []
    words = ['unshare', '--mount', *root, 'sh', '-c', script, 'sh', program, mounted, beside]
    if not shutil.which('unshare'):
        fixtures.left_out('unshare (Debian: util-linux)')
    ended = subprocess.run(words, capture_output=True, timeout=PATIENCE)
    if not os.path.exists(f'{beside}/mounted'):
        told = ended.stderr.decode().strip().splitlines()[:1]
        fixtures.left_out(': '.join(['a file system that can be mounted', *told]))
    found = {'ended': str(ended.returncode)}
    for name in os.listdir(beside):
        with open(f'{beside}/{name}', 'rb') as it:
            found[name] = it.read().decode()
    return found
