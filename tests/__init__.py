"""The tests. `python3 -m unittest` at the top runs the quick ones, and skips those whose program isn't built; -k
selects. Each test is also a program, as its first lines say: `python3 tests/serve.py`."""
import importlib
import unittest

# First the tests that need no program, then those that need one.
MODULES = ("room", "shared", "memory", "openapi", "coordinator", "metrics", "shapes", "locks", "page",
           "serve", "member", "operate", "services", "readme", "proxies", "gateway", "fair", "hostile")


def load_tests(loader: unittest.TestLoader, found: unittest.TestSuite, pattern: str | None) -> unittest.TestSuite:
    """Returns the tests of MODULES. unittest calls this for a package."""
    for name in MODULES:
        found.addTests(loader.loadTestsFromModule(importlib.import_module(f"tests.{name}")))
    return found
