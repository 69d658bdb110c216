"""Measures what the gate costs, crate by crate: `python3 tests/cost.py` runs `rt ci`, and `python3 tests/cost.py
--anew` measures what a machine pays that has kept nothing. Names of crates may follow. It prints what `rt ci` prints,
then a table in processor minutes, and exits with the status of `rt ci`. On a machine that does other work too the
figures are higher.

Twice a second it looks at the processes that `rt ci` has started (Linux, /proc), and records how much processor time
each has used. What a process uses after the last look is missing in its crate's row. It is part of the row `rest`,
which makes the sum exact."""
import os
import re
import resource
import subprocess
import sys
import time
import typing
from collections import defaultdict
from collections.abc import Callable, Iterator

sys.path.insert(0, os.path.dirname(os.path.dirname(os.path.abspath(__file__))))
from tools.repo import TOP

KINDS = ("proof", "second proof", "edits", "tests", "linking", "runs")
PAUSE = 0.5
TICKS = os.sysconf("SC_CLK_TCK")

# The crate that a process works for, and the kind of work.
Work = tuple[str, str]


class Process(typing.NamedTuple):
    """A process: its number, its start time, its parent, its seconds of processor time, and its command line."""

    number: int
    start: str
    parent: int
    seconds: float
    words: list[str]


def text_of(path: str) -> str:
    """Returns the content of a file in /proc, or an empty string if the process has ended."""
    try:
        with open(path, "rb") as file:
            return file.read().decode(errors="replace")
    except OSError:
        return ""


def link_of(path: str) -> str:
    """Returns where a link in /proc leads, or an empty string if the process has ended."""
    try:
        return os.readlink(path)
    except OSError:
        return ""


def processes() -> Iterator[Process]:
    """Yields each process."""
    for name in filter(str.isdigit, os.listdir("/proc")):
        text = text_of(f"/proc/{name}/stat")
        if text:
            fields = text.rpartition(")")[2].split()
            seconds = (int(fields[11]) + int(fields[12])) / TICKS
            yield Process(int(name), fields[19], int(fields[1]), seconds, text_of(f"/proc/{name}/cmdline").split("\0"))


def work_of(process: Process) -> Work | None:
    """Returns what a process does, or `None` if its command line doesn't show it."""
    words = process.words
    program = os.path.basename(words[0]) if words else ""
    if program == "rattle" and "--crate-name" in words:
        crate = words[words.index("--crate-name") + 1]
        kept = words[words.index("--incremental") + 1] if "--incremental" in words else ""
        if "rt-edit" in link_of(f"/proc/{process.number}/cwd"):
            return crate, "second proof" if kept.endswith("/seed") else "edits"
        return crate, "tests" if "--test" in words else "linking" if "--crate-checked" in words else "proof"
    if program == "rattle-link":
        return re.sub(r"_tests.*|\..*", "", os.path.basename(words[words.index("-o") + 1])), "linking"
    if re.fullmatch(r"lra_\w+?(_tests)?(\.\w+)?", program):
        return re.sub(r"_tests.*|\..*", "", program), "runs"
    return None


def descendants(root: int) -> Iterator[tuple[Process, Work | None]]:
    """Yields the descendants of a process, each with its work: that of its topmost ancestor with known work, or its
    own."""
    children: dict[int, list[Process]] = defaultdict(list)
    for process in processes():
        children[process.parent].append(process)
    left: list[tuple[Process, Work | None]] = [(child, None) for child in children[root]]
    while left:
        process, above = left.pop()
        work = above or work_of(process)
        yield process, work
        left += [(child, work) for child in children[process.number]]


def watch(root: int, is_over: Callable[[], bool]) -> dict[Work, float]:
    """Returns the seconds of processor time by work of a process and its descendants, up to its end."""
    last: dict[tuple[int, str], float] = {}
    works: dict[tuple[int, str], Work] = {}
    while not is_over():
        for process, work in descendants(root):
            key = process.number, process.start
            last[key] = process.seconds
            if work:
                works.setdefault(key, work)
        time.sleep(PAUSE)
    spent: dict[Work, float] = defaultdict(float)
    for key, work in works.items():
        spent[work] += last[key]
    return spent


def rows_of_costs(spent: dict[Work, float], whole: float) -> str:
    """Returns the rows of the crates, the most expensive first, and the sum."""
    crates: dict[str, dict[str, float]] = defaultdict(dict)
    for (crate, kind), seconds in spent.items():
        crates[crate][kind] = seconds
    lines = [f"| Crate | {' | '.join(KINDS)} | all |", "|---" * (len(KINDS) + 2) + "|"]
    for crate, its in sorted(crates.items(), key=lambda row: -sum(row[1].values())):
        cells = [f"{its[kind] / 60:.1f}" if its.get(kind, 0) >= 3 else "" for kind in KINDS]
        lines.append(f"| `{crate}` | {' | '.join(cells)} | {sum(its.values()) / 60:.1f} |")
    sums = [sum(its.get(kind, 0) for its in crates.values()) for kind in KINDS]
    lines.append(f"| rest | {' | ' * (len(KINDS) - 1)} | {(whole - sum(sums)) / 60:.1f} |")
    lines.append(f"| all | {' | '.join(f'{seconds / 60:.1f}' for seconds in sums)} | {whole / 60:.1f} |")
    return "\n".join(lines)


def main() -> int:
    began = time.time()
    gate = subprocess.Popen(["rt", "ci", *sys.argv[1:]], cwd=TOP)
    spent = watch(gate.pid, lambda: gate.poll() is not None)
    used = resource.getrusage(resource.RUSAGE_CHILDREN)
    minutes = (time.time() - began) / 60
    print(f"\nIn processor minutes; {minutes:.0f} minutes by the clock on {os.cpu_count()} processors:\n")
    print(rows_of_costs(spent, used.ru_utime + used.ru_stime))
    return gate.returncode


if __name__ == "__main__":
    sys.exit(main())
