"""What pytest needs to run the tests: `pytest tests` runs those that need no built program, and
`pytest tests --programs=DIR` those that need one too. DIR is a clone in which `rt ci` has run, or a folder with the
programs of a release; `--programs=unproved` compiles the programs without proving them. Tests that take minutes are
skipped unless --long is given. -k selects tests by name, as everywhere in pytest."""
import os

import pytest

from tools import checks, repo, units, unproved
from tools.gateway import Gateway
from tools.node import Group, Server

# The programs, by the classes that run them.
RUNNERS = {Server: "lra_node", Group: "lra_node", Gateway: "lra_gateway"}


def pytest_addoption(parser: pytest.Parser) -> None:
    """Adds the options that the docstring above names."""
    parser.addoption("--programs", metavar="DIR", help="the folder with the built programs, or `unproved`")
    parser.addoption("--long", action="store_true", help="also run the tests that take minutes")


def program_in(folder: str, name: str) -> str:
    """Returns the path of a program, in a clone in which `rt ci` has run or in a folder of programs."""
    built = repo.program(name, os.path.abspath(folder))
    return built if os.path.exists(built) else os.path.join(os.path.abspath(folder), name)


def pytest_configure(config: pytest.Config) -> None:
    """Says where the programs are. Without them the tests that need one are skipped."""
    folder = config.getoption("--programs")
    for kind, name in RUNNERS.items():
        if folder == "unproved":
            kind.program = unproved.compiled(name)
        else:
            kind.program = program_in(folder, name) if folder else f"{name} (give --programs=DIR)"
    checks.Checked.is_long = config.getoption("--long")


def pytest_generate_tests(metafunc: pytest.Metafunc) -> None:
    """Makes one test of each crate under tests/units."""
    if "unit_crate" in metafunc.fixturenames:
        metafunc.parametrize("unit_crate", units.names())
