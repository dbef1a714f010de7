"""`python3 -m timetravel serve`: one session of the program for many processes."""

from __future__ import annotations

from tests.support.client_package import use_package
from tests.support.loading import loader_of

use_package()
load_tests = loader_of(__name__)
