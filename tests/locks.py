#!/usr/bin/env python3
"""Checks that no thread takes a lock while it holds one: python3 tests/locks.py. Uses only the standard library.

A function takes a lock if it says `.lock(`, or calls a function that does. While a guard lives, from its `let` to the
function's end, nothing may be called that takes a lock. The receiver's last name says whose method is called: that of a
parameter or a field, or `self`. Calls on values of other names, such as a guard, are on plain state, and what a lock
protects has no lock itself. Exits with 1 if a function breaks the rule."""
import os
import re
import sys
import unittest

sys.path.insert(0, os.path.dirname(os.path.dirname(os.path.abspath(__file__))))
from tools import repo

CRATES = ("node_sockets", "node_threads", "node_metrics", "state_book", "node_server")
GUARD = re.compile(r"let (?:mut )?\(?(?:mut )?(\w+)[^=;{}]*=[^;{}]*?\.lock\([^;]*;", re.S)
CALL = re.compile(r"(?:(\w+)\s*\.\s*)?\b(\w+)\(")
HEAD = re.compile(r"\bimpl\b[^{;]*?(?:\bfor\s+)?(\w+)(?:<[^{;]*>)?\s*(?:where[^{]*)?\{|\bfn (\w+)|^\}", re.M)
FIELD = re.compile(r"\b(\w+): &?(?:'\w+ )?(?:mut )?(?:Arc<|Option<)?(\w+)")

# Functions by type ("" if they have none) and name.
Name = tuple[str, str]
Functions = dict[Name, str]


def bodies(text: str) -> Functions:
    """Returns each function's body."""
    text = re.sub(r"//[^\n]*|\"[^\"\n]*\"", "", text)
    found: Functions = {}
    owner, last = "", None
    for head in HEAD.finditer(text):
        if last:
            found[last[0]] = text[last[1] : head.start()]
            last = None
        if head[2]:
            last = ((owner, head[2]), head.end())
        else:
            owner = head[1] or ""
    if last:
        found[last[0]] = text[last[1] :]
    return found


def called(name: Name, body: str, functions: Functions, types: dict[str, str]) -> set[Name]:
    """Returns the functions of these crates that a body calls."""
    found = set()
    for receiver, method in CALL.findall(body):
        owner = name[0] if receiver == "self" else types.get(receiver, "?") if receiver else ""
        found.add((owner, method))
    return found & set(functions)


def lockers(functions: Functions, types: dict[str, str]) -> set[Name]:
    """Returns the functions that take a lock."""
    found = {name for name, body in functions.items() if ".lock(" in body}
    while more := {
        name for name, body in functions.items()
        if name not in found and called(name, body, functions, types) & found
    }:
        found |= more
    return found


def broken(functions: Functions, types: dict[str, str]) -> list[str]:
    """Returns a line for each call that may take a lock while its function holds one."""
    locking, found = lockers(functions, types), []
    for name, body in functions.items():
        for guard in GUARD.finditer(body):
            rest = re.split(rf"\bdrop\({guard[1]}\)", body[guard.end() :])[0]
            again = [(name[0], "lock")] if ".lock(" in rest else []
            takes = sorted(called(name, rest, functions, types) & locking) + again
            found += [f"{name[0]}::{name[1]} holds {guard[1]} and calls {other[1]}" for other in takes]
    return found


def all_functions() -> tuple[Functions, dict[str, str]]:
    """Returns the functions of the crates with threads, and the type of the fields and parameters of each name."""
    texts = [repo.read(path) for crate in CRATES for path in repo.sources(crate)]
    functions = {name: body for text in texts for name, body in bodies(text).items()}
    owners = {owner for owner, _ in functions if owner}
    types = {name: kind for text in texts for name, kind in FIELD.findall(text) if kind in owners}
    return functions, types


class TestLocks(unittest.TestCase):
    def test_rule(self) -> None:
        self.assertEqual([], broken(*all_functions()))

    def test_broken(self) -> None:
        text = """
impl Low {
    fn low(&self) { self.a.lock(rt); }
}
fn high(low: &Low) { let g = self.b.lock(rt); low.low(); }
fn free(low: &Low) { let g = self.b.lock(rt); drop(g); low.low(); }
"""
        self.assertEqual(["::high holds g and calls low"], broken(bodies(text), {"low": "Low"}))


def main() -> int:
    functions, types = all_functions()
    found = broken(functions, types)
    for line in found:
        print(line)
    count = sum(".lock(" in body for body in functions.values())
    print(f"{'FAILED' if found else 'ok'}: {count} functions lock, and none takes a lock while it holds one")
    return 1 if found else 0


if __name__ == "__main__":
    sys.exit(main())
