"""The Python package of this checkout, and what its tests need besides: sessions, and etcd."""

from __future__ import annotations

import shutil
import sys

from tests.support.fixtures import ROOT, left_out, program

PACKAGE = ROOT / "clients" / "python"
ETCD = shutil.which("etcd")


def use_package() -> None:
    """Has `import timetravel` find it."""
    if str(PACKAGE) not in sys.path:
        sys.path.insert(0, str(PACKAGE))


def session_command(*options: str) -> list[str]:
    """The command of a session of the program that is tested."""
    return [str(program()), "session", *options]


def needs_etcd() -> None:
    """Leaves out what needs etcd where there is none."""
    if ETCD is None:
        left_out("etcd (Debian: etcd-server)")
