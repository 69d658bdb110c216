#!/usr/bin/env python3
"""Proves some functions of a crate over whatever is built below it: `python3 tests/only.py CRATE FUNCTION..`. Each
FUNCTION is a path as a check prints it, or the end of one, such as `pulling::pull`. The first word that begins with --
and all words behind it go to `rattle check`, such as --allow-holes, --fix-imports or --jobs 1.

A library below the crate is used as built, from crates/NAME/out/rlib here or from the folders that BUILT names (such as
a clone in which `rt ci` runs), if it and all below it are built. Otherwise its sources are read, and only what the
functions call in it is proved. So a function can be tried minutes after an edit below it, before anything is built: a
function of wire_pulls over sources took one to four minutes, while the chain below it takes twenty. SOURCE names
libraries whose sources are read although they are built. This is no gate: it says nothing about the crate's other
functions. Exits with the status of the check."""
import os
import subprocess
import sys

sys.path.insert(0, os.path.dirname(os.path.dirname(os.path.abspath(__file__))))
from tools import prover, repo
from tools.repo import TOP


def main() -> int:
    libraries = repo.crates()
    if len(sys.argv) < 2 or sys.argv[1] not in libraries:
        print("usage: python3 tests/only.py CRATE FUNCTION..", file=sys.stderr)
        return 2
    name, rest = sys.argv[1], sys.argv[2:]
    end = next((i for i, word in enumerate(rest) if word.startswith("--")), len(rest))
    only = [word for function in rest[:end] for word in ("--only", function)]
    kit, places = repo.kit(), prover.places(repo.below(name, libraries), libraries)
    prover.tell_sources(places)
    words = [f"{kit}/bin/rattle", "check", *prover.words(kit, name, libraries, places), *rest[end:], *only]
    return subprocess.run(words, cwd=f"{TOP}/crates/{name}").returncode


if __name__ == "__main__":
    sys.exit(main())
