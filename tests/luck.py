#!/usr/bin/env python3
"""Gives members bad luck, and checks the results: python3 tests/luck.py [PROGRAM] [--rounds N] [TEST..].

A member starts over an older copy of its journal, beside others that start late, or behind a line that is slow or loses
the first attempts. A journal's file goes away, or an older one takes its place. A disk hangs. Clients read nothing,
send slowly, or send nothing. Participants' hosts hang. A name has an address that doesn't answer. Addresses lead to the
wrong node. PROGRAM is crates/lra_node/out/lra_node, or --unproved (tools/unproved.py). In restored, members start N
times, 10 by default. Each check prints a line. Exits with 1 if a check fails. Uses only the standard library; takes
some three minutes. hangs needs a C compiler and names needs root; they are skipped without."""
import contextlib
import glob
import os
import random
import re
import selectors
import shutil
import socket
import subprocess
import sys
import threading
import time
import typing
from collections.abc import Callable, Iterable

sys.path.insert(0, os.path.dirname(os.path.dirname(os.path.abspath(__file__))))
from tools import checks, unproved
from tools.node import SLOW, Group, Json, comes_to, exchange, limit_files, request
from tools.operated import Operated
from tools.participant import Participant
from tools.ports import HOST, free_row
from tools.relays import Relayed

PULL = b"POST /peer/pull HTTP/1.1\r\nHost: p\r\nContent-Length: 9\r\n\r\n\x01" + bytes(8)
# Holds every write to a disk as long as a file exists.
HOLDER = """
#define _GNU_SOURCE
#include <dlfcn.h>
#include <stdlib.h>
#include <unistd.h>
static void hold(void) { while (access(getenv("HELD_BY"), F_OK) == 0) usleep(10000); }
int fsync(int f) { hold(); return ((int (*)(int))dlsym(RTLD_NEXT, "fsync"))(f); }
int fdatasync(int f) { hold(); return ((int (*)(int))dlsym(RTLD_NEXT, "fdatasync"))(f); }
"""


def files_of(folder: str) -> list[str]:
    return glob.glob(f"{folder}/node-*.db*")


def copy(source: str, target: str) -> None:
    """Replaces the files of one journal by those of another."""
    os.makedirs(target, exist_ok=True)
    for file in files_of(target):
        os.remove(file)
    for file in files_of(source):
        shutil.copy(file, target)


def hanging_hosts(count: int) -> list[socket.socket]:
    """Returns hosts that accept a connection and never answer."""
    return [socket.create_server((HOST, 0), backlog=16) for _ in range(count)]


def silent_server(port: int) -> list[socket.socket]:
    """Returns a port at another loopback address whose queue is full, so that attempts to connect get no answer."""
    server = socket.socket()
    server.bind(("127.0.0.2", port))
    server.listen(0)
    lines = [socket.socket() for _ in range(4)]
    for line in lines:
        line.setblocking(False)
        line.connect_ex(("127.0.0.2", port))
    time.sleep(0.1)
    return [server, *lines]


class TestLuck(checks.Checked):
    needs = (Group,)
    # How often members start over an older journal.
    rounds = 10

    def members(self, count: int, *options: str) -> Operated:
        return self.group(count, *options, kind=Operated)

    def behind(self, count: int, *options: str) -> Relayed:
        return self.group(count, *options, kind=Relayed)

    def takes(self, group: Group, node: int, seconds: float = 30) -> str | None:
        """Begins an LRA at a node once it accepts commands, and returns the LRA, or `None` if the node doesn't accept
        any in time."""
        found: list[str] = []

        def begins() -> bool:
            with contextlib.suppress(OSError):
                status, body = request_json(group, node, "POST", "/lra")
                if status == 201:
                    found.append(body["lra"])
            return bool(found)

        return found[0] if comes_to(seconds, begins) else None

    # ---- restores

    def test_restored(self) -> None:
        """Three members start together, one of them over an older copy of its journal, in any order, behind a line that
        is slow or loses the first attempts."""
        group, dice = self.behind(3), random.Random(78)
        group.start()
        backup = f"{self.folder}/backup"
        twice, strange = [], []
        for turn in range(self.rounds):
            group.end(2)
            copy(f"{self.folder}/2", backup)
            group.start(2)
            known = [self.takes(group, 2) for _ in range(3)]
            self.check(f"round {turn}: all show what node 2 begins",
                       all(lra and group.all_come_to(lra, "Active") is not None for lra in known), known)
            group.kill(1, 2, 3)
            copy(backup, f"{self.folder}/2")
            for relay in group.relays:
                relay.delay, relay.lost = dice.choice((0, 0, 0.05, 0.15)), dice.choice((0, 0, 1, 2))
            for number in dice.sample((1, 2, 3), 3):
                group.run(number)
                time.sleep(dice.choice((0, 0.05, 0.15)))
            lra = self.takes(group, 2)
            for relay in group.relays:
                relay.delay, relay.lost = 0, 0
            for number in (1, 2, 3):
                comes_to(SLOW, lambda number=number: group.is_reached(number))
            if lra is None or lra in known:
                twice.append((turn, lra, known))
            if not comes_to(30, group.are_alike):
                strange.append((turn, [group.shown(node) for node in (1, 2, 3)]))
            for one in [lra, *known]:
                group.finish(2, one) if one else None
                comes_to(10, lambda one=one: group.purge(2, one)[0] in (204, 410))
        self.check(f"none of {self.rounds} starts over an older journal assigns a number twice", not twice, twice)
        self.check("all nodes show the same after each start", not strange, strange)

    def test_anew(self) -> None:
        """A member over an older journal that is started with `anew` waits for all others, however late they are.
        Without `anew` it waits as long as some node is known to have more of its facts."""
        group = self.members(3)
        group.start()
        group.end(2)
        backup = f"{self.folder}/backup"
        copy(f"{self.folder}/2", backup)
        group.start(2)
        known = [self.takes(group, 2) for _ in range(3)]
        self.check("all show what it begins",
                   all(lra and group.all_come_to(lra, "Active") is not None for lra in known), known)
        group.kill(1, 2, 3)
        copy(backup, f"{self.folder}/2")
        group.start(2, options=["anew"])
        time.sleep(2.5)
        self.check("alone it accepts no command", self.takes(group, 2, 1) is None)
        self.check("it gives the reason", group.told(2, "/ready") == (503, {"ready": False, "cause": "behind"}),
                   group.told(2, "/ready"))
        self.check("it answers reads", request_json(group, 2, "GET", "/lra")[0] == 200)
        began = time.monotonic()
        refused = [request_json(group, 2, "POST", "/lra")[0] for _ in range(8)]
        self.check("it refuses commands at once", refused == [503] * 8 and time.monotonic() - began < 2, refused)
        group.start(1)
        time.sleep(1.5)
        self.check("with one of the two others it accepts none either", self.takes(group, 2, 1) is None)
        group.start(3)
        lra = self.takes(group, 2)
        self.check("with both it begins an LRA with a new number", lra and lra not in known, (lra, known))
        self.check("all show the same", comes_to(30, group.are_alike))
        self.check("it is ready", comes_to(10, lambda: group.at(2, "/ready").status == 200))

    def test_together(self) -> None:
        """Three members start together under clients that retry, one of them over an older copy of its journal."""
        group = self.members(3)
        group.start()
        twice = []
        for turn in range(min(self.rounds, 5)):
            backup = f"{self.folder}/backup"
            for number in (1, 2, 3):
                self.takes(group, number)
            group.end(1)
            copy(f"{self.folder}/1", backup)
            group.start(1)
            known = [self.takes(group, 1) for _ in range(5)]
            self.check(f"round {turn}: all show what node 1 begins",
                       all(lra and group.all_come_to(lra, "Active") is not None for lra in known), known)
            group.kill(1, 2, 3)
            copy(backup, f"{self.folder}/1")
            clients = Retrying(group, 8)
            for number in (1, 2, 3):
                group.run(number)
            comes_to(SLOW, lambda: all(clients.begun[number] for number in (1, 2, 3)))
            clients.stop()
            again = set(known) & set(clients.begun[1])
            if again:
                twice.append((turn, again))
            self.check(f"round {turn}: it begins {len(clients.begun[1])} LRAs and shows those that it had begun",
                       comes_to(SLOW, lambda: all(group.status(1, lra or "") == "Active" for lra in known)), known)
            for number in (1, 2, 3):
                for lra in clients.begun[number] + (known if number == 1 else []):
                    group.finish(number, lra or "")
                    group.purge(number, lra or "")
        self.check("no number is assigned twice", not twice, twice)

    def test_starved(self) -> None:
        """Sixteen commands wait for other nodes that are down, while reads are made."""
        group = self.members(3)
        group.run(1)
        comes_to(SLOW, lambda: is_up(group.ports[0]))
        commands = [threading.Thread(target=self.takes_once, args=(group,)) for _ in range(16)]
        for command in commands:
            command.start()
        slowest = slowest_of(lambda: request(group.address(1), "GET", "/lra"), 0.7)
        for command in commands:
            command.join()
        self.check(f"a read takes at most {slowest:.2f} s", slowest < 0.5)

    def takes_once(self, group: Group) -> None:
        with contextlib.suppress(OSError, ValueError):
            request(group.address(1), "POST", "/lra")

    def test_claimed(self) -> None:
        """While a member starts, a pull claims that its node has more of the member's facts than there ever were."""
        group = self.members(3)
        group.run(1)
        comes_to(SLOW, lambda: is_up(group.ports[0]))
        body = b"\x03" + b"".join(count.to_bytes(8, "big") for count in (1 << 40, 0, 0))
        for query in (b"", b"?from=2&to=1"):
            pull = b"POST /peer/pull%b HTTP/1.1\r\nHost: p\r\nContent-Length: %d\r\n\r\n%b" % (query, len(body), body)
            exchange(group.address(1), pull)
        time.sleep(1.5)
        seen = group.told(1, "/ready")
        self.check("it waits for those facts", seen == (503, {"ready": False, "cause": "behind"}), seen)
        line = f"node 1: node 2 claims to have {1 << 40} facts of this node, more than the journal here has"
        told = comes_to(15, lambda: any(one.startswith(line) for one in group.lines(1)))
        self.check("it logs which node it waits for", told, group.log(1))
        group.start(2)
        self.check("it accepts a command once that node has answered", self.takes(group, 1) is not None, group.log(1))

    def failures(self, group: Operated, node: int) -> int:
        """Returns how often the journal of a node has failed."""
        return int(group.samples(node)[("lra_journal_failures_total",)])

    def test_owed(self) -> None:
        """A member starts over an older journal, with `anew`, while another node has received its newest facts but
        can't store them yet."""
        group = self.members(2)
        group.start()
        group.end(2)
        backup = f"{self.folder}/backup"
        copy(f"{self.folder}/2", backup)
        group.start(2)
        first = self.takes(group, 2)
        self.check("both show what it begins",
                   first and group.all_come_to(first, "Active", (1, 2)) is not None, first)
        limit_files(group.processes[1], 1)
        second = self.takes(group, 2)
        self.check("the other node can't store the next fact", comes_to(30, lambda: self.failures(group, 1) >= 3))
        group.kill(2)
        copy(backup, f"{self.folder}/2")
        before = self.failures(group, 1)
        self.check("it keeps the fact, and tries again", comes_to(30, lambda: self.failures(group, 1) >= before + 2))
        group.start(2, options=["anew"])
        time.sleep(0.2)
        seen = group.told(2, "/ready")
        self.check("it waits for the fact that the other received", seen == (503, {"ready": False, "cause": "behind"}),
                   seen)
        limit_files(group.processes[1], -1)
        lra = self.takes(group, 2)
        self.check("then it begins an LRA with a new number", lra and lra not in (first, second), (lra, first, second))
        self.check("it has taken back what it began", comes_to(30, lambda: {first, second} <= set(group.shown(2))),
                   group.shown(2))
        self.check("both show the same", comes_to(30, lambda: group.are_alike((1, 2))))

    # ---- disks

    def test_missing(self) -> None:
        """While a node runs, its journal's file goes away, and an older one takes its place."""
        group = self.members(1)
        group.start()
        group.end(1)
        folder, away, backup = f"{self.folder}/1", f"{self.folder}/away", f"{self.folder}/backup"
        copy(folder, backup)
        group.start(1)
        lras = [group.begin(1) for _ in range(3)]
        limit_files(group.processes[1], 1)
        shutil.move(folder, away)
        os.mkdir(folder)
        request_json(group, 1, "POST", "/lra")
        limit_files(group.processes[1], -1)
        line = "node 1: can't open its journal again yet: the file is gone"
        self.check("it logs that the file is gone", comes_to(10, lambda: line in group.lines(1)), group.log(1))
        time.sleep(1.5)
        self.check("it creates no file", os.listdir(folder) == [], os.listdir(folder))
        seen = request_json(group, 1, "POST", "/lra")
        self.check("it accepts no command", seen == (503, {"refused": "E19 Stopped"}), seen)
        copy(backup, folder)
        line = "node 1: can't open its journal again yet: the file has fewer facts than the one before"
        self.check("it doesn't use an older file", comes_to(10, lambda: line in group.lines(1)), group.log(1))
        shutil.rmtree(folder)
        shutil.move(away, folder)
        lra = self.takes(group, 1)
        self.check("with the file back it goes on", lra and lra not in lras, (lra, lras))
        shown = group.shown(1)
        self.check("it has everything that was answered", all(one in shown for one in lras), shown)
        self.same("it ends", [0], group.end(1))

    def test_hangs(self) -> None:
        """A disk hangs."""
        compiler = shutil.which("cc") or shutil.which("gcc")
        if not compiler:
            self.skipTest("no compiler for C")
        library, flag = f"{self.folder}/held.so", f"{self.folder}/held"
        subprocess.run([compiler, "-shared", "-fPIC", "-o", library, "-x", "c", "-", "-ldl"], input=HOLDER.encode(),
                       check=True)
        group = self.members(1)
        os.environ.update(LD_PRELOAD=library, HELD_BY=flag)
        try:
            group.start()
        finally:
            del os.environ["LD_PRELOAD"]
        group.begin(1)
        self.check("it is ready", comes_to(5, lambda: group.at(1, "/ready").status == 200))
        with open(flag, "w", encoding="utf-8"):
            pass
        waits = threading.Thread(target=lambda: request_json(group, 1, "POST", "/lra"), daemon=True)
        waits.start()
        time.sleep(0.5)
        if not waits.is_alive():
            self.skipTest("the preloaded library holds no write")
        seen = (503, {"ready": False, "cause": "disk"})
        self.check("it says that its disk hangs", comes_to(9, lambda: group.told(1, "/ready") == seen),
                   group.told(1, "/ready"))
        took = self.slowest_health(group)
        self.check(f"while reads wait for the disk, /health answers within {took:.1f} s", took < 3)
        hangs = re.compile(r"node 1: a call has waited \d+ s for the journal: the disk is slow, or hangs")
        self.check("it logs that", comes_to(5, lambda: any(map(hangs.fullmatch, group.lines(1)))), group.log(1))
        os.remove(flag)
        self.check("it goes on", comes_to(10, lambda: group.at(1, "/ready").status == 200))
        again = re.compile(r"node 1: the journal answers again, after \d+ s")
        self.check("it logs that", comes_to(5, lambda: any(map(again.fullmatch, group.lines(1)))), group.log(1))

    def slowest_health(self, group: Operated) -> float:
        """Returns the longest time that /health takes while four operators keep reading."""
        ended, times = threading.Event(), []

        def question() -> None:
            while not ended.is_set():
                with contextlib.suppress(OSError):
                    group.at(1, "/lras")

        threads = [threading.Thread(target=question, daemon=True) for _ in range(4)]
        for thread in threads:
            thread.start()
        for _ in range(6):
            time.sleep(0.3)
            began = time.monotonic()
            times.append(time.monotonic() - began if group.at(1, "/health").status == 200 else SLOW)
            if times[-1] > 5:
                break
        ended.set()
        return max(times)

    # ---- slow peers, clients and participants

    def test_readers(self) -> None:
        """Twenty-four clients read nothing of a long frame."""
        group, link = self.members(1), f"http://{HOST}:9/" + "c" * 100
        group.start()
        # (an unproved program takes minutes to fill a home)
        is_slow = "unproved" in Group.program
        for _ in range(8 if is_slow else 256):
            lra = group.begin(1)
            for _ in range(32):
                group.join(1, lra, compensate=link, complete=link, status=link, forget=link, after=link)
        lines = []
        for _ in range(24):
            line = socket.socket()
            line.setsockopt(socket.SOL_SOCKET, socket.SO_RCVBUF, 4096)
            line.connect(group.address(1))
            line.sendall(PULL)
            lines.append(line)
        slowest = slowest_of(lambda: group.ask(1, "GET", f"/lra/{lra}"), 12)
        self.check(f"beside 24 clients that read nothing of a frame, a read takes at most {slowest:.2f} s", slowest < 1)
        for line in lines:
            line.close()
        whole = exchange(group.address(1), PULL.replace(b"\r\n\r\n", b"\r\nConnection: close\r\n\r\n", 1))
        stated = int(re.search(rb"Content-Length: (\d+)", whole)[1])  # type: ignore[index]
        came = len(whole) - whole.index(b"\r\n\r\n") - 4
        is_so = stated == came and (is_slow or came > 4_000_000)
        self.check(f"a frame of {stated:,} bytes comes complete to a client that reads", is_so, came)

    def test_heads(self) -> None:
        """Twenty clients send long requests slowly, while others send complete ones of up to 16 KB."""
        group = self.members(1)
        group.start()
        lra = group.begin(1)
        slow = [socket.create_connection(group.address(1)) for _ in range(20)]
        ended = threading.Event()

        def trickle() -> None:
            head = b"GET /lra HTTP/1.1\r\nHost: x\r\nCookie: " + b"c" * 5000
            for at in range(0, len(head), 250):
                for line in slow:
                    with contextlib.suppress(OSError):
                        line.sendall(head[at : at + 250])
                if ended.wait(0.2):
                    return

        threading.Thread(target=trickle, daemon=True).start()
        time.sleep(0.3)
        for size in (5_000, 10_000, 16_000):
            cookie = b"Cookie: " + b"c" * size
            text = b"GET /lra/" + lra.encode() + b" HTTP/1.1\r\nHost: x\r\n" + cookie + b"\r\n\r\n"
            began, answers = time.monotonic(), []
            for _ in range(8):
                with contextlib.suppress(OSError):
                    answers.append(exchange(group.address(1), text)[:12])
            took = time.monotonic() - began
            is_so = answers == [b"HTTP/1.1 200"] * 8 and took < 2
            self.check(f"8 requests of {size:,} bytes are answered in {took:.2f} s", is_so, answers)
        ended.set()

    def test_hosts(self) -> None:
        """Ninety-six hosts hang."""
        group, part = self.members(1), self.participant()
        group.start()
        hosts = hanging_hosts(96)
        for first in range(0, 96, 32):
            lra = group.begin(1)
            for host in hosts[first : first + 32]:
                link = f"http://{HOST}:{host.getsockname()[1]}/c"
                group.join(1, lra, compensate=link, complete=link)
            group.finish(1, lra)
        time.sleep(1)
        lra = group.begin(1)
        for place in range(6):
            group.join(1, lra, compensate=part.url, complete=f"{part.url}/{place}")
        began = time.monotonic()
        group.finish(1, lra)
        called = comes_to(60, lambda: len(part.made(lra)) == 6)
        took = time.monotonic() - began
        self.check(f"beside 96 hosts that hang, six participants of another host are called in {took:.1f} s",
                   called and took < 15, part.made(lra))

    def test_silent(self) -> None:
        """Twenty-four connections to the operators' port send nothing, and then read nothing."""
        group = self.members(1)
        group.start()
        lines = [socket.create_connection((HOST, group.doors[0])) for _ in range(24)]
        slowest = slowest_of(lambda: group.at(1, "/health"), 2)
        self.check(f"beside 24 silent connections /health takes at most {slowest:.2f} s", slowest < 0.5)
        for line in lines:
            line.sendall(b"GET /metrics HTTP/1.1\r\nHost: localhost\r\n\r\n")
        slowest = slowest_of(lambda: group.at(1, "/metrics"), 2)
        self.check(f"beside 24 that don't read, /metrics takes at most {slowest:.2f} s", slowest < 0.5)

    def test_turned(self) -> None:
        """Ninety-six hosts refuse at once and later hang."""
        group, part = self.members(1), self.participant()
        group.start()
        refusing = Turning(96)
        self.addCleanup(refusing.close)
        first = group.begin(1)
        group.join(1, first, compensate=part.url, complete=part.url)
        group.finish(1, first)
        comes_to(SLOW, lambda: part.made(first))
        for at in range(0, 96, 32):
            lra = group.begin(1)
            for port in refusing.ports[at : at + 32]:
                link = f"http://{HOST}:{port}/c"
                group.join(1, lra, compensate=link, complete=link)
            group.finish(1, lra)
        comes_to(SLOW, lambda: refusing.calls >= 96)
        refusing.hangs = True
        time.sleep(2)
        self.check_calls(group, part, "96 hosts that refused at once and now hang", 6, 15)

    def test_slow_one(self) -> None:
        """Ten hosts hang, and another answers each call after 1.2 seconds."""
        group, part = self.members(1), self.participant(pause=1.2)
        group.start()
        hosts = hanging_hosts(10)
        lra = group.begin(1)
        for host in hosts:
            link = f"http://{HOST}:{host.getsockname()[1]}/c"
            group.join(1, lra, compensate=link, complete=link)
        group.finish(1, lra)
        time.sleep(12)
        self.check_calls(group, part, "ten hosts that hang", 4, 40)

    def check_calls(self, group: Group, part: Participant, what: str, count: int, limit: float) -> None:
        """Checks that a number of participants of one host are called in time beside others."""
        lra = group.begin(1)
        for place in range(count):
            group.join(1, lra, compensate=part.url, complete=f"{part.url}/{place}")
        began = time.monotonic()
        group.finish(1, lra)
        called = comes_to(2 * limit, lambda: len(part.made(lra)) == count)
        took = time.monotonic() - began
        self.check(f"beside {what}, {count} participants of another host are called in {took:.1f} s",
                   called and took < limit, part.made(lra))

    # ---- lines and names

    def test_line(self) -> None:
        """A long frame comes over a slow line."""
        group, link = self.behind(2), f"http://{HOST}:9/" + "c" * 100
        group.start(1)
        for _ in range(8):
            lra = group.begin(1)
            for _ in range(32):
                group.join(1, lra, compensate=link, complete=link, status=link)
        group.relays[0].rate = 6_000
        group.start(2)
        began = time.monotonic()
        took = group.comes_to(2, lra, "Active", SLOW)
        self.check(f"it is applied, after {took or 0:.0f} s", took is not None and time.monotonic() - began > 12, took)

    def test_names(self) -> None:
        """A name has two addresses, and the first doesn't answer."""
        if os.geteuid() or not shutil.which("unshare"):
            self.skipTest("this user may not have a hosts file of its own")
        part = self.participant()
        silent = silent_server(part.port)
        hosts = f"{self.folder}/hosts"
        with open(hosts, "w", encoding="utf-8") as file:
            file.write("127.0.0.1 localhost\n127.0.0.2 twofold\n127.0.0.1 twofold\n")
        port = free_row(1)[0]
        script = f"mount --bind {hosts} /etc/hosts && exec {Group.program} member 1 {self.folder} {HOST}:{port}"
        process = subprocess.Popen(["unshare", "-m", "sh", "-c", script], stdin=subprocess.PIPE,
                                   stderr=subprocess.PIPE)
        self.addCleanup(process.kill)
        comes_to(SLOW, lambda: process.poll() is not None or is_up(port))
        if process.poll() is not None:
            self.skipTest("this user may not mount a hosts file")
        lra = request((HOST, port), "POST", "/lra").json()["lra"]
        links = f'{{"compensate":"http://twofold:{part.port}/c"}}'
        request((HOST, port), "PUT", f"/lra/{lra}/join", links)
        began = time.monotonic()
        request((HOST, port), "PUT", f"/lra/{lra}/cancel")
        called = comes_to(20, lambda: bool(part.made(lra)))
        took = time.monotonic() - began
        self.check(f"the participant is called at the second address, after {took:.1f} s", called and took < 5, took)
        for line in silent:
            line.close()

    # ---- operators

    def test_told(self) -> None:
        """An operator's report for a listener counts at once, at whatever node it is made."""
        group, part = self.members(2, "keep=0"), self.participant(status=503)
        group.start()

        def waiting() -> str:
            lra = group.begin(1)
            group.join(1, lra, compensate=f"{part.url}/c", after=f"{part.url}/{lra}")
            part.answers["/c"] = 200
            group.finish(1, lra, "cancel")
            self.check("calls to the listener fail",
                       comes_to(20, lambda: any(call["lra"] == lra for call in group.calls(1))), group.calls(1))
            return lra

        for node in (1, 2):
            lra = waiting()
            time.sleep(3)
            seen = group.at(node, f"/lra/{lra}/member/1/told", "PUT").status
            self.check(f"node {node} accepts the report that the listener was notified", seen == 204, seen)
            took = time.monotonic()
            gone = comes_to(20, lambda: group.is_gone(1, lra))
            took = time.monotonic() - took
            self.check(f"its LRA is purged {took:.1f} s later", gone and took < 3, group.status(1, lra))
            time.sleep(1)
            called = len(part.made(lra))
            self.check("the listener isn't listed any more", not group.calls(1), group.calls(1))
            time.sleep(4)
            self.check("the listener isn't called again", len(part.made(lra)) == called, part.made(lra))

    def test_vain(self) -> None:
        """Metrics count the participants whose calls fail, whatever was reported for others."""
        group = self.members(1)
        group.start()
        gone = free_row(1)[0]
        lras = []
        for _ in range(9):
            lra = group.begin(1)
            for place in range(32):
                group.join(1, lra, compensate=f"http://{HOST}:{gone}/c", complete=f"http://{HOST}:{gone}/{place}")
            group.finish(1, lra)
            lras.append(lra)

        def vain() -> float:
            return group.samples(1)[("lra_callbacks_vain",)]

        self.check("calls to 288 participants fail", comes_to(60, lambda: vain() == 288), vain())
        self.check("256 of them are listed", len(group.calls(1)) == 256, len(group.calls(1)))
        report = '{"act":"complete","outcome":"done"}'
        for member in (1, 2, 3):
            request((HOST, group.doors[0]), "PUT", f"/lra/{lras[0]}/member/{member}/report", report)
        self.check("after three reports still 256 are listed",
                   comes_to(2, lambda: vain() == 285) and len(group.calls(1)) == 256,
                   (vain(), len(group.calls(1))))
        for lra in lras:
            for member in range(1, 33):
                request((HOST, group.doors[0]), "PUT", f"/lra/{lra}/member/{member}/report", report)
        self.check("after all reports no calls fail", comes_to(5, lambda: vain() == 0), vain())
        lra = group.begin(1)
        group.join(1, lra, compensate=f"http://{HOST}:{gone}/one")
        group.finish(1, lra, "cancel")
        self.check("one more failure is counted", comes_to(10, lambda: vain() == 1), vain())
        self.check("it is listed", [call["lra"] for call in group.calls(1)] == [lra], group.calls(1))

    def test_counts(self) -> None:
        """A sole node counts its facts, and counts only roots as purged."""
        group, part = self.members(1, "keep=0"), self.participant()
        group.start()
        root = group.begin(1)
        nested = [group.begin(1, parent=root) for _ in range(3)]
        for lra in nested:
            group.join(1, lra, compensate=f"{part.url}/c")
        group.finish(1, root, "cancel")
        self.check("the root is purged", comes_to(20, lambda: group.is_gone(1, root)), group.status(1, root))
        time.sleep(1)
        samples = group.samples(1)
        self.check("one root is counted", samples[("lra_swept_total", "came=gone")] == 1, samples)
        facts = {key: value for key, value in samples.items() if key[0] == "lra_front"}
        self.check("its facts are counted", sum(facts.values()) >= 9, facts)

    def test_foreign(self) -> None:
        """The operators' port is only for operators: it refuses a participant's link, a foreign page and a foreign host
        name."""
        group = self.members(1, "names=ops.example,lra1")
        part = self.participant(status=503)
        group.start()
        lra = group.begin(1)
        group.join(1, lra, compensate=f"{part.url}/c", after=f"http://{HOST}:{group.doors[0]}/lra/{lra}/member/1/told")
        part.answers["/c"] = 200
        group.finish(1, lra, "cancel")
        self.check("it is cancelled", group.comes_to(1, lra, "Cancelled") is not None)
        self.check("calls to a link that leads to the port fail",
                   comes_to(10, lambda: any(call["kind"] == "after" for call in group.calls(1))), group.calls(1))
        own = f"{HOST}:{group.doors[0]}"
        for fields, wanted in (
            ({"Host": "evil.example"}, 403),
            ({"Host": "evil.example", "Origin": "http://evil.example"}, 403),
            ({"Origin": "http://evil.example"}, 403),
            ({"Origin": "null"}, 403),
            ({"Long-Running-Action": "urn:uuid:" + lra}, 403),
            ({"long-running-action-ended": "urn:uuid:" + lra}, 403),
            ({}, 200),
            ({"Origin": f"http://{own}"}, 200),
            ({"Host": "localhost"}, 200),
            ({"Host": "[::1]:8170"}, 200),
            ({"Host": "10.0.0.2"}, 200),
            ({"Host": "OPS.example:8170"}, 200),
            ({"Host": "lra1"}, 200),
            ({"Host": "lra2"}, 403),
            ({"Origin": "https://ops.example"}, 200),
            ({"Origin": "https://OPS.example:8443"}, 200),
            ({"Origin": "https://ops.example.evil"}, 403),
            ({"Origin": "https://lra2"}, 403),
        ):
            seen = request((HOST, group.doors[0]), "GET", "/health", None, fields)
            self.check(f"a request with {fields} is answered {wanted}", seen.status == wanted, seen)
        seen = request((HOST, group.doors[0]), "POST", "/lra", "", {"Origin": "http://evil.example"})
        self.check("a foreign page begins no LRA", seen.status == 403 and len(group.shown(1)) == 1, seen)

    # ---- peers

    def test_peers(self) -> None:
        """Addresses lead to the node itself, to another number, or to another group's node."""
        group = self.group(3, "group=shop", kind=Misled)
        group.start()
        lra = group.begin(1)
        wanted = "node 1: node {} isn't at its address: another node answers there, or one of another group"
        self.check("its own address in another's place is logged",
                   comes_to(15, lambda: wanted.format(2) in group.lines(1)), group.log(1))
        self.check("node 3 receives facts of node 1", group.comes_to(3, lra, "Active") is not None)
        other = self.group_in("other", 3, "group=travel")
        other.addresses = [group.addresses[0], other.addresses[1], other.addresses[2]]
        other.start(2)
        line = "node 2: node 1 isn't at its address: another node answers there, or one of another group"
        self.check("a node of another group is logged", comes_to(15, lambda: line in other.lines(2)), other.log(2))
        self.check("nothing is taken from it", other.shown(2) == {}, other.shown(2))
        plain = self.group_in("plain", 3)
        plain.addresses = [group.addresses[0], plain.addresses[1], plain.addresses[2]]
        plain.start(2)
        heard = comes_to(15, lambda: line in plain.lines(2))
        self.check("a node without a group name logs it too", heard, plain.log(2))
        self.check("it gets nothing", plain.shown(2) == {}, plain.shown(2))
        unnamed, named = self.group_in("unnamed", 3), self.group_in("named", 3, "group=food")
        unnamed.start(1)
        named.addresses = [unnamed.addresses[0], named.addresses[1], named.addresses[2]]
        named.start(2)
        unnamed.begin(1)
        self.check("a node of a named group logs one without a group name",
                   comes_to(15, lambda: line in named.lines(2)), named.log(2))
        self.check("it takes nothing from it", named.shown(2) == {}, named.shown(2))

    def test_nameless(self) -> None:
        """A member that other machines can reach warns at its start unless its group has a name."""
        for number, words in enumerate(([], ["group=shop"])):
            group = self.group_in(f"nameless{number}", 2, f"listen=0.0.0.0:{free_row(1)[0]}", *words)
            group.ports = [int(group.options[0].rpartition(":")[2]), group.ports[1]]
            group.start(1)
            warns = comes_to(5, lambda: any("its group has no name" in one for one in group.lines(1)))
            self.same(f"the warning with {' '.join(words) or 'no name'}", not words, warns)

    def group_in(self, name: str, count: int, *options: str) -> Group:
        made = Group(count, self.folder_in(name), *options)
        self.addCleanup(made.__exit__)
        return made


class Retrying:
    """Clients that begin LRAs at each of three nodes, a number of them at each node, and retry when they are
    refused."""

    def __init__(self, group: Group, count: int) -> None:
        self.group, self.is_over = group, False
        self.begun: dict[int, list[str]] = {1: [], 2: [], 3: []}
        numbers = [number for number in self.begun for _ in range(count)]
        self.threads = [threading.Thread(target=self.play, args=(number,)) for number in numbers]
        for thread in self.threads:
            thread.start()

    def play(self, number: int) -> None:
        while not self.is_over and len(self.begun[number]) < 40:
            with contextlib.suppress(OSError, ValueError):
                answer = request(self.group.address(number), "POST", "/lra")
                if answer.status == 201:
                    self.begun[number].append(answer.json()["lra"])
                    continue
            time.sleep(0.001)

    def stop(self) -> None:
        self.is_over = True
        for thread in self.threads:
            thread.join()


class Turning:
    """Hosts that answer 503 at once, until they hang."""

    def __init__(self, count: int) -> None:
        self.hangs, self.calls, self.is_over = False, 0, False
        self.servers = [socket.create_server((HOST, 0), backlog=16) for _ in range(count)]
        self.ports = [server.getsockname()[1] for server in self.servers]
        self.lines: list[socket.socket] = []
        threading.Thread(target=self.serve, daemon=True).start()

    def serve(self) -> None:
        with selectors.DefaultSelector() as selector:
            for server in self.servers:
                selector.register(server, selectors.EVENT_READ)
            while not self.is_over:
                for key, _ in selector.select(0.1):
                    self.take(typing.cast(socket.socket, key.fileobj))

    def take(self, server: socket.socket) -> None:
        line = server.accept()[0]
        self.calls += 1
        if self.hangs:
            self.lines.append(line)
            return
        with contextlib.suppress(OSError), line:
            line.recv(4096)
            line.sendall(b"HTTP/1.1 503 Down\r\nContent-Length: 0\r\nConnection: close\r\n\r\n")

    def close(self) -> None:
        self.is_over = True
        for one in (*self.servers, *self.lines):
            one.close()


class Misled(Operated):
    """Members of which node 1 has its own address in the place of node 2's."""

    def addresses_for(self, number: int) -> list[str]:
        if number != 1:
            return self.addresses
        own = f"localhost:{self.ports[0]}"
        return [self.addresses[0], own, self.addresses[2]]

    def start(self, *numbers: int, options: Iterable[str] | None = None, word: str | None = None) -> typing.Self:
        return super().start(*(numbers or (1, 3)), options=options, word=word)


def request_json(group: Group, node: int, method: str, path: str) -> tuple[int, Json]:
    """Makes one request, and returns the status and the JSON of its answer, whatever it is."""
    answer = request(group.address(node), method, path)
    return answer.status, answer.json()


def slowest_of(ask: Callable[[], object], seconds: float) -> float:
    """Repeats a call for some seconds, and returns the longest time that it took."""
    slowest, end = 0.0, time.monotonic() + seconds
    while time.monotonic() < end:
        began = time.monotonic()
        ask()
        slowest = max(slowest, time.monotonic() - began)
        time.sleep(0.02)
    return slowest


def is_up(port: int) -> bool:
    with contextlib.suppress(OSError), socket.create_connection((HOST, port), 1):
        return True
    return False


def main() -> int:
    given = sys.argv[1:]
    if "--rounds" in given:
        at = given.index("--rounds")
        TestLuck.rounds = int(given[at + 1])
        del given[at : at + 2]
    words = checks.words_of(TestLuck)
    for word in given:
        if word not in words:
            Group.program = unproved.program_of(word)
    checks.need(Group)
    return checks.run(TestLuck, words=[word for word in given if word in words])


if __name__ == "__main__":
    sys.exit(main())
