"""Compares the program of `benches/run.py journal`, which runs this, with the same statements by the C library, turn by
turn. journal.py PROGRAM"""
import os
import sqlite3
import statistics
import subprocess
import sys
import tempfile
import time
from collections.abc import Callable

TURNS, LRAS = 5, 256
LRA = "INSERT INTO lra (home, num, body) VALUES (?1, ?2, ?3) ON CONFLICT (home, num) DO UPDATE SET body = ?3"
FRONT = "INSERT INTO front (origin, held, purged) VALUES (?1, ?2, ?3)" \
        " ON CONFLICT (origin) DO UPDATE SET held = ?2, purged = ?3"
TABLES = ("CREATE TABLE front (origin INTEGER PRIMARY KEY, held INTEGER NOT NULL, purged INTEGER NOT NULL)",
          "CREATE TABLE lra (home INTEGER NOT NULL, num INTEGER NOT NULL, body BLOB NOT NULL, PRIMARY KEY (home, num))",
          "INSERT INTO front VALUES (0, 1, 1), (1, 0, 0), (2, 0, 0)")
ROWS = ("SELECT origin, held, purged FROM front ORDER BY origin", "SELECT home, num, body FROM lra ORDER BY home, num")


def ours(program: str, folder: str) -> dict[str, int]:
    """Returns what the program prints: microseconds by name."""
    words = subprocess.run([program], cwd=folder, capture_output=True, text=True, check=True).stdout.split()
    return {name: int(micros) for name, micros in zip(words[::2], words[1::2])}


def store(base: sqlite3.Connection, number: int, body: bytes, held: int) -> None:
    """Makes a commit like the program's."""
    base.execute("BEGIN")
    base.execute(LRA, (1, number, body))
    base.execute(FRONT, (1, held, 0))
    base.execute(FRONT, (2, 0, 0))
    base.execute("COMMIT")


def micros(act: Callable[[], object]) -> float:
    """Returns how many microseconds a call takes."""
    start = time.perf_counter()
    act()
    return (time.perf_counter() - start) * 1e6


def theirs(folder: str) -> dict[str, float]:
    """Returns the same by the C library: WAL, synchronous FULL, and rows as long as the program's."""
    with sqlite3.connect(f"{folder}/joins.db") as journal:
        bodies = [body for _, _, body in journal.execute(ROWS[1])]
    base = sqlite3.connect(f"{folder}/theirs.db", isolation_level=None)
    for line in ("PRAGMA journal_mode=WAL", "PRAGMA synchronous=FULL", *TABLES):
        base.execute(line)

    def begin() -> None:
        for number, body in enumerate(bodies, 1):
            store(base, number, body[:30], number)

    def join() -> None:
        for number, body in enumerate(bodies, 1):
            store(base, number, body, LRAS + number)

    def read() -> None:
        journal = sqlite3.connect(f"{folder}/opening.db")
        if [len(journal.execute(rows).fetchall()) for rows in ROWS] != [9, 8 * LRAS]:
            raise SystemExit("other rows")

    return {"begin": micros(begin) / LRAS, "join": micros(join) / LRAS, "open": micros(read)}


def main() -> int:
    if len(sys.argv) != 2:
        print(__doc__, file=sys.stderr)
        return 2
    ratios: dict[str, list[float]] = {"begin": [], "join": [], "open": []}
    for _ in range(TURNS):
        with tempfile.TemporaryDirectory(dir=".") as place:
            mine, other = ours(os.path.abspath(sys.argv[1]), place), theirs(place)
        for what, found in ratios.items():
            found.append(mine[what] / other[what])
            print(f"{what:5} {mine[what]:8,} us, by the C library {other[what]:8,.0f} us, ratio {found[-1]:.2f}",
                  flush=True)
    for what, found in ratios.items():
        print(f"{what:5} ratio {statistics.median(found):.2f}, of {TURNS} turns {min(found):.2f} to {max(found):.2f}")
    return 0


if __name__ == "__main__":
    sys.exit(main())
