#!/usr/bin/env python3
"""Runs a command that may take so much processor time and memory; standard input, standard output
and the status are its own.

  tests/support/bounds.py SECONDS MEGABYTES COMMAND..

Where it takes more, standard error says so and the status is 1. The seconds are those of a core on
which a loop of a million additions takes LOOP of them: where the loop takes longer, since the core
is slower or others use it too, the command may take as many times longer. The megabytes, of a
million bytes, are those of its pages that are in memory at once.
"""
import resource
import subprocess
import sys
import time

LOOP = 0.12


def loop_seconds() -> float:
    begun, total = time.process_time(), 0
    for number in range(1_000_000):
        total += number
    return time.process_time() - begun


def bound(seconds: int, megabytes: int) -> None:
    """Ends what goes far beyond its bounds."""
    resource.setrlimit(resource.RLIMIT_CPU, (10 * seconds, 10 * seconds))
    resource.setrlimit(resource.RLIMIT_AS, (2_000_000 * megabytes, 2_000_000 * megabytes))


def main() -> int:
    if len(sys.argv) < 4 or not all(word.isdigit() for word in sys.argv[1:3]):
        print(__doc__, file=sys.stderr)
        return 2
    seconds, megabytes = map(int, sys.argv[1:3])
    before = loop_seconds()
    ran = subprocess.run(sys.argv[3:], preexec_fn=lambda: bound(seconds, megabytes), check=False)
    taken = resource.getrusage(resource.RUSAGE_CHILDREN)
    slower = max(1, before / LOOP, loop_seconds() / LOOP)
    took, held = taken.ru_utime + taken.ru_stime, taken.ru_maxrss * 1024 / 1_000_000
    if took > seconds * slower or held > megabytes:
        print(f'{" ".join(sys.argv[3:])}: took {took:.2f} s and {held:.0f} MB, in place of at most '
              f'{seconds * slower:.2f} s and {megabytes} MB', file=sys.stderr)
        return 1
    return ran.returncode


if __name__ == '__main__':
    sys.exit(main())
