"""The tests that need no proof: the crates under tests/units. A crate's files are named NAME/x.rt.txt, since no .rt
file may stand outside a listed crate. The first line of lib.rt.txt is '// Uses: LIBRARY ..', from which its line of
crates.txt is made."""
import os
import re
import tempfile
from collections.abc import Iterable

from tools import repo

UNITS = "tests/units"


def names() -> list[str]:
    """Returns the test crates, in order."""
    return [os.path.basename(path) for path in repo.files(f"{UNITS}/*")]


def texts(name: str) -> dict[str, str]:
    """Returns the files of a test crate, by the names of the .rt files that they become."""
    folder = f"{UNITS}/{name}/"
    paths = repo.files(f"{folder}**/*.rt.txt")
    return {path.removeprefix(folder).removesuffix(".txt"): repo.read(path) for path in paths}


def add(copy: str, name: str) -> int:
    """Puts a test crate into a copy of the repository, and returns how many tests it has."""
    found = texts(name)
    uses = re.match(r"// Uses: (.*)\n", found.get("lib.rt", ""))
    if not uses:
        raise SystemExit(f"{name}: its lib.rt.txt doesn't begin with a line '// Uses: LIBRARY ..'")
    repo.add_crate(copy, name, found, uses[1])
    return sum(len(re.findall(r"^\s*#\[test\]", text, re.M)) for text in found.values())


def copied(crates: Iterable[str]) -> tuple[tempfile.TemporaryDirectory, dict[str, int]]:
    """Returns a copy of the repository with some test crates, and how many tests each has."""
    folder = tempfile.TemporaryDirectory(prefix="units-")
    repo.copy_crates(folder.name)
    chosen = list(crates)
    for name in chosen:
        if os.path.isdir(f"{folder.name}/crates/{name}"):
            raise SystemExit(f"{name}: a library has this name")
    return folder, {name: add(folder.name, name) for name in chosen}
