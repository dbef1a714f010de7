"""Disks that fail when they are told to (tests/failing_disk.c), and file systems on them.

All of it is mounted in a namespace that only the thread is in which does so, so that nothing is left when it
ends, however it ends: the file systems go with the namespace, the loop devices with the file systems, and
what serves a disk with the thread that has started it.
"""
import ctypes
import functools
import os
import shutil
import subprocess
import threading
import time
from types import TracebackType
from typing import Callable, Optional, Type

from tests.support import fixtures
from tests.support.shared_objects import built

SIZE = 320 << 20  # bytes of a disk, most of which are never written; xfs wants 300 MiB
MAKERS = {'ext4': ['mkfs.ext4', '-q', '-F', '-b', '4096'], 'xfs': ['mkfs.xfs', '-q', '-f'],
          'btrfs': ['mkfs.btrfs', '-q', '-f']}
PACKAGES = {'ext4': 'e2fsprogs', 'xfs': 'xfsprogs', 'btrfs': 'btrfs-progs'}
PATIENCE = 10  # seconds in which a disk has to be there, or a file system let go
CLONE_NEWNS, MS_REC, MS_PRIVATE = 0x20000, 0x4000, 0x40000


class Impossible(Exception):
    """Why no disk can be had here."""


def in_namespace(what: Callable[[int], None]) -> None:
    """Does something in a mount namespace of its own, and tells it the descriptor of the one that it has
    left. Raises what that raises, or `Impossible`."""
    raised: list[BaseException] = []

    def do() -> None:
        outside = os.open('/proc/self/ns/mnt', os.O_RDONLY)
        try:
            library = ctypes.CDLL(None, use_errno=True)
            if library.unshare(CLONE_NEWNS) or library.mount(None, b'/', None, MS_REC | MS_PRIVATE, None):
                raise Impossible(f'a mount namespace: {os.strerror(ctypes.get_errno())}')
            what(outside)
        except BaseException as error:
            raised.append(error)
        finally:
            os.close(outside)
    thread = threading.Thread(target=do, daemon=True)
    thread.start()
    thread.join()
    for error in raised:
        raise error


@functools.lru_cache(maxsize=None)
def server() -> str:
    """What serves a disk. Where it can't be built the test is left out."""
    try:
        flags = subprocess.run(['pkg-config', '--cflags', '--libs', 'fuse3'], capture_output=True,
                               text=True, check=True).stdout.split()
    except (OSError, subprocess.CalledProcessError):
        fixtures.left_out('fuse3 and pkg-config (Debian: libfuse3-dev)')
    return built('failing_disk', ['-O1'], flags)


def leave_out_where_impossible(kind: str) -> None:
    """Leaves the test out where there is no disk with a file system of this kind."""
    if os.geteuid() != 0:
        fixtures.left_out('root')
    for path in ('/dev/fuse', '/dev/loop-control'):
        if not os.path.exists(path):
            fixtures.left_out(path)
    for command, package in ((MAKERS[kind][0], PACKAGES[kind]), ('mount', 'mount'), ('umount', 'mount')):
        if not shutil.which(command):
            fixtures.left_out(f'{command} (Debian: {package})')
    made = server()

    def try_it(outside: int) -> None:
        folder = f'{fixtures.folder_of_run()}/{kind}'
        os.mkdir(folder)
        with Disk(made, folder, kind, outside):
            pass
        os.rmdir(folder)
    try:
        in_namespace(try_it)
    except Impossible as why:
        fixtures.left_out(f'{why}')


def run(*words: str) -> None:
    """Runs a command. Raises `Impossible` where it fails."""
    ended = subprocess.run(words, capture_output=True, text=True)
    if ended.returncode != 0:
        raise Impossible(f'`{" ".join(words[:3])} ..` that works: {ended.stderr.strip()[:200]}')


def is_true_in_time(asked: Callable[[], bool]) -> bool:
    """Whether something comes true."""
    end = time.monotonic() + PATIENCE
    while not asked():
        if time.monotonic() > end:
            return False
        time.sleep(0.02)
    return True


class Disk:
    """A new file system of a kind, on a disk of its own: `files` is where it is mounted. A context
    manager, which leaves nothing of it. Raises `Impossible`."""

    def __init__(self, server: str, folder: str, kind: str, outside: int) -> None:
        self.below, self.served, self.files = (f'{folder}/{name}' for name in ('below', 'served', 'files'))
        self.server, self.kind, self.outside = server, kind, outside
        self.process: Optional[subprocess.Popen[bytes]] = None

    def __enter__(self) -> 'Disk':
        try:
            self.make()
        except BaseException:
            self.remove()
            raise
        return self

    def __exit__(self, kind: Optional[Type[BaseException]], error: Optional[BaseException],
                 trace: Optional[TracebackType]) -> None:
        self.remove()

    def make(self) -> None:
        os.mkdir(self.served)
        os.mkdir(self.files)
        with open(self.below, 'wb') as it:
            it.truncate(SIZE)
        run(*MAKERS[self.kind], self.below)
        self.process = subprocess.Popen([self.server, self.below, self.served, str(self.outside)],
                                        stdout=subprocess.DEVNULL, stderr=subprocess.DEVNULL,
                                        pass_fds=(self.outside,))
        if not is_true_in_time(lambda: os.path.exists(f'{self.served}/disk')):
            raise Impossible('a file system of FUSE that can be mounted')
        run('mount', '-t', self.kind, '-o', 'loop', f'{self.served}/disk', self.files)

    def tell(self, command: str) -> None:
        with open(f'{self.served}/control', 'w') as it:
            it.write(command)

    def fail(self, text: str) -> None:
        """From this on each write fails whose bytes hold this text."""
        self.tell(f'fail {text}')

    def heal(self) -> None:
        self.tell('heal')

    def write_back(self) -> None:
        """Has the system write what it holds; whether that has failed is told to nobody."""
        subprocess.run(['sync', '-f', self.files], capture_output=True)

    def lose_power(self) -> None:
        """Has the file system as a power failure leaves it at this moment, on a disk that is whole. No
        process may have a file of it open."""
        self.tell('off')
        self.take_away()
        run('mount', '-t', self.kind, '-o', 'loop', self.below, self.files)

    def take_away(self) -> None:
        """Unmounts the file system, and ends what serves its disk."""
        if not is_true_in_time(self.is_unmounted):
            subprocess.run(['umount', '--lazy', self.files], capture_output=True)
        if self.process is not None:
            self.process.kill()
            self.process.wait()
            self.process = None
        subprocess.run(['umount', '--lazy', self.served], capture_output=True)

    def is_unmounted(self) -> bool:
        """Whether the file system is unmounted; it is no sooner than nobody has a file of it open."""
        if not os.path.ismount(self.files):
            return True
        return subprocess.run(['umount', self.files], capture_output=True).returncode == 0

    def remove(self) -> None:
        self.take_away()
        for folder in (self.files, self.served):
            if os.path.isdir(folder):
                os.rmdir(folder)
        if os.path.exists(self.below):
            os.unlink(self.below)
