#!/usr/bin/env python3
"""Compares the lines that answer "out of memory" by hand with tests/memory.txt: python3 tests/memory.py. Uses only the
standard library.

No contract can say when memory is refused, so a body that gives this answer although there is memory is proved all the
same. Each line that gives it is listed with its function, and somebody has checked that the error that it passes on or
translates came from a refused allocation. Look at a new line before you list it: python3 tests/memory.py --write. Exits
with 1 if list and code differ."""
import os
import re
import sys
import unittest
from collections.abc import Iterator

sys.path.insert(0, os.path.dirname(os.path.dirname(os.path.abspath(__file__))))
from tools import repo

LIST = "tests/memory.txt"
ANSWER = re.compile(r"\bErr\((alloc::)?AllocError\)|::NoMemory\b|\bErr\(NoMemory\)")
COMMENT = re.compile(r"^\s*//|^\s*ghost use|^\s*(requires|ensures)\b")


def crates_with_code() -> Iterator[str]:
    """Yields the crates that have code other than tests."""
    for folder in repo.files("crates/*/src"):
        root = f"{folder}/lib.rt"
        text = repo.read(root) if os.path.exists(f"{repo.TOP}/{root}") else ""
        if not re.search(r"#\[cfg\(test\)\]\s*mod", text):
            yield folder.split("/")[1]


def answers() -> Iterator[str]:
    """Yields each line that gives this answer: its file, its function and its text."""
    for path in [path for crate in crates_with_code() for path in repo.sources(crate)]:
        function = "-"
        for line in repo.read(path).splitlines():
            head = repo.FUNCTION.match(line)
            function = head[2] if head else function
            if ANSWER.search(line) and not COMMENT.match(line):
                yield f"{path} {function}: {line.strip()}"


class TestList(unittest.TestCase):
    def test_is_of_the_code(self) -> None:
        self.assertEqual(sorted(answers()), sorted(repo.read(LIST).splitlines()))


def main() -> int:
    seen = list(answers())
    if sys.argv[1:] == ["--write"]:
        repo.write(LIST, "\n".join(seen) + "\n")
    listed = repo.read(LIST).splitlines()
    for line in [line for line in seen if line not in listed]:
        print(f"new: {line}")
    for line in [line for line in listed if line not in seen]:
        print(f"gone: {line}")
    same = sorted(seen) == sorted(listed)
    print(f"{'ok' if same else 'FAILED'}: {len(seen)} lines answer out of memory by hand")
    return 0 if same else 1


if __name__ == "__main__":
    sys.exit(main())
