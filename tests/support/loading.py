"""How a package of tests is loaded: `load_tests = loader_of(__name__, ['requests', 'answers', ..])`."""
import pkgutil
import unittest
from importlib import import_module
from typing import Callable, Optional, Sequence

LoadTests = Callable[[unittest.TestLoader, unittest.TestSuite, Optional[str]], unittest.TestSuite]


def loader_of(package: str, modules: Optional[Sequence[str]] = None) -> LoadTests:
    """What `unittest` calls to load a package: its own tests, and then those of these modules, in
    this order. Where none are named, it is all modules of the package, by their names."""

    def load_tests(loader: unittest.TestLoader, own: unittest.TestSuite,
                   _pattern: Optional[str]) -> unittest.TestSuite:
        names = modules
        if names is None:
            path = import_module(package).__path__
            names = sorted(module.name for module in pkgutil.iter_modules(path) if module.name != '__main__')
        return unittest.TestSuite([own, *(loader.loadTestsFromName(f'{package}.{name}') for name in names)])

    return load_tests
