"""Runs the tests that need no proof: `python3 tests/units.py`, or with names of folders under tests/units
(tools/units.py). It copies the repository's libraries and the test crates to a folder of their own, and `rt try --test`
builds and runs each crate with an address sanitizer; a test stops at an index out of bounds, an overflow or a failed
unwrap. This proves nothing about the tests; `rt ci` proves the libraries that they call. Exits with 0 if each test
passed, and with 1 if one failed or was cut off, or if a crate has none. Uses only the standard library."""
import os
import re
import subprocess
import sys
import time
import typing
from concurrent.futures import ThreadPoolExecutor

sys.path.insert(0, os.path.dirname(os.path.dirname(os.path.abspath(__file__))))
from tools import units

# How many seconds one test may run. The build checks each memory access, so it takes some five times as long as the
# gate's.
SECONDS = 900
# How many steps the interpreter may take. Only the build that checks each access counts, so the interpreter stops at
# once.
STEPS = 1
# The exit status of rt if a test was cut off.
CUT_OFF = 6


class Outcome(typing.NamedTuple):
    """How many of a crate's tests passed, and whether all did."""

    passed: int
    is_well: bool


def run_tests(copy: str, name: str, count: int) -> Outcome:
    """Runs the tests of a crate, and prints the result."""
    began = time.time()
    words = ["rt", "try", "--test", "--steps", str(STEPS), "--seconds", str(SECONDS)]
    ran = subprocess.run(words, cwd=f"{copy}/crates/{name}", stdin=subprocess.DEVNULL, stdout=subprocess.PIPE,
                         stderr=subprocess.STDOUT, text=True, errors="replace")
    result = re.search(r"^test result: ok\. (\d+) passed; 0 failed; 0 ignored", ran.stdout, re.M)
    passed = int(result[1]) if result else len(re.findall(r"^test .* \.\.\. ok$", ran.stdout, re.M))
    is_well = ran.returncode == 0 and result is not None and passed == count > 0
    why = "" if is_well else f"{ran.stdout.rstrip()}\n"
    end = "" if is_well else ": FAILED, and a test was cut off" if ran.returncode == CUT_OFF else ": FAILED"
    print(f"{why}{name}: {passed} of {count} tests passed, {time.time() - began:.0f} seconds{end}", flush=True)
    return Outcome(passed, is_well)


def test_crate(unit_crate: str) -> None:
    """Runs the tests of one crate, for pytest."""
    folder, counts = units.copied([unit_crate])
    with folder as copy:
        assert run_tests(copy, unit_crate, counts[unit_crate]).is_well


def main() -> int:
    names = sys.argv[1:] or units.names()
    folder, counts = units.copied(names)
    with folder as copy, ThreadPoolExecutor(os.cpu_count()) as pool:
        found = list(pool.map(lambda name: run_tests(copy, name, counts[name]), names))
    failed = [name for name, outcome in zip(names, found) if not outcome.is_well]
    why = f"; FAILED: {' '.join(failed)}" if failed else ""
    passed, count = sum(outcome.passed for outcome in found), sum(counts.values())
    print(f"{passed} of {count} tests passed in {len(names)} crates{why}")
    return 1 if failed else 0


if __name__ == "__main__":
    sys.exit(main())
