"""The Python package as a client: with a stand-in for the program or for a server, and with the program."""

from __future__ import annotations

from tests.support.client_package import use_package
from tests.support.loading import loader_of

use_package()
load_tests = loader_of(__name__)
