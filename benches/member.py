#!/usr/bin/env python3
"""Measures members in processes of their own: python3 benches/member.py [PROGRAM]. It measures how soon another node
shows what one begins, how many LRAs a second go through one home with keep=0, and what copies=K costs with three
members. PROGRAM is crates/lra_node/out/lra_node. Takes two minutes; uses only the standard library."""
import multiprocessing
import os
import statistics
import sys
import tempfile
import time

sys.path.insert(0, os.path.dirname(os.path.dirname(os.path.abspath(__file__))))
from tools import checks, unproved
from tools.node import Group

# How many begins are looked for at the other node, how many seconds nothing is stored before each, how many seconds
# LRAs go through a home, and how many clients begin them.
BEGINS, QUIET, SECONDS, CLIENTS = 100, 0.3, 10, 8


def news(group: Group) -> None:
    """Measures from a begin at node 1, after some time without anything to store, until node 2 shows it: the median,
    and the 99th percentile."""
    late = []
    for _ in range(BEGINS):
        lra = group.begin(1)
        began = time.monotonic()
        while group.status(2, lra) != "Active":
            pass
        late.append(time.monotonic() - began)
        group.finish(1, lra)
        time.sleep(QUIET)
    late.sort()
    middle, most = 1000 * statistics.median(late), 1000 * late[BEGINS * 99 // 100 - 1]
    print(f"from a begin to its being shown by another process: {middle:.1f} ms, 99 of 100 within {most:.1f}")


def begin_and_close(group: Group, until: float, counts: multiprocessing.Queue) -> None:
    """Begins and closes LRAs until a moment. Reports how many, and how many begins were refused with E13."""
    done = full = 0
    while time.monotonic() < until:
        status, answer = group.ask(1, "POST", "/lra", {})
        if status == 201:
            group.finish(1, answer["lra"])
            done += 1
        else:
            full += 1
            time.sleep(0.01)
    counts.put((done, full))


def flow(group: Group, clients: int) -> None:
    """Runs this many clients that begin and close LRAs at one node, which purges at once, beside another node."""
    counts: multiprocessing.Queue = multiprocessing.Queue()
    given = group, time.monotonic() + SECONDS, counts
    processes = [multiprocessing.Process(target=begin_and_close, args=given) for _ in range(clients)]
    for process in processes:
        process.start()
    found = [counts.get() for _ in processes]
    for process in processes:
        process.join()
    rate, full = sum(done for done, _ in found) / SECONDS, sum(full for _, full in found)
    what = f"{rate:.0f} LRAs a second are begun, closed and purged at one home"
    print(f"{clients} clients: {what}; {full} begins were E13 and made again")


def begin_times(group: Group) -> str:
    """Measures how long a begin takes that comes at once after another's answer: the median, and the 99th
    percentile."""
    times = []
    for _ in range(2 * BEGINS):
        began = time.monotonic()
        lra = group.begin(1)
        times.append(1000 * (time.monotonic() - began))
        group.finish(1, lra)
    times.sort()
    return f"{statistics.median(times):.1f} ms, 99 of 100 within {times[len(times) * 99 // 100]:.1f}"


def copying(copies: int) -> None:
    """Measures what it costs that other nodes have what is answered."""
    with tempfile.TemporaryDirectory() as folder, Group(3, folder, "keep=0", f"copies={copies}") as group:
        group.start()
        while group.ask(1, "POST", "/lra", {})[0] != 201:
            time.sleep(0.1)
        print(f"copies={copies}: a begin takes {begin_times(group)}")
        flow(group, CLIENTS)
        group.end()


def main() -> int:
    if len(sys.argv) > 1:
        Group.program = unproved.program_of(sys.argv[1])
    checks.need(Group)
    with tempfile.TemporaryDirectory() as folder, Group(2, folder) as group:
        news(group.start())
        group.end()
    for clients in (1, CLIENTS):
        with tempfile.TemporaryDirectory() as folder, Group(2, folder, "keep=0") as group:
            flow(group.start(), clients)
            group.end()
    for copies in (0, 1, 2):
        copying(copies)
    return 0


if __name__ == "__main__":
    sys.exit(main())
