"""`python3 -m timetravel replica`: one database on several machines, over etcd, which it needs (Debian:
etcd-server). With REPLICA_ROUNDS, REPLICA_REQUESTS, REPLICA_SEED and REPLICA_STOPPED they take longer or
shorter: see `kills.py` and `failing_etcd.py`."""

from __future__ import annotations

import unittest

from tests.support.client_package import ETCD, needs_etcd, use_package
from tests.support.loading import loader_of

use_package()
WITHOUT_ETCD = ["entries", "positions", "histories"]
WITH_ETCD = ["openings", "requests", "restarts", "failing_etcd", "forgetting", "access", "kills"]


class WithEtcd(unittest.TestCase):
    """Stands for all that needs etcd where there is none."""

    def test_replicas(self) -> None:
        needs_etcd()


def load_tests(loader: unittest.TestLoader, _: unittest.TestSuite, pattern: str | None) -> unittest.TestSuite:
    suite = loader_of(__name__, WITHOUT_ETCD)(loader, unittest.TestSuite(), pattern)
    if ETCD is None:
        suite.addTest(WithEtcd("test_replicas"))
        return suite
    return loader_of(__name__, WITH_ETCD)(loader, suite, pattern)
