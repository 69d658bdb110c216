#!/usr/bin/env python3
"""Treats the built server badly, and checks that it keeps what it answered: python3 tests/hostile.py [KILLS] [PROGRAM]
[TEST..].

The server is killed with kill -9 under load KILLS times, 100 by default. It meets a full disk, if this user may mount
one; journals that are read-only, torn or another node's; clients that are silent, slow or gone, send garbage, or flood
a node with pulls; changes of run beside half requests; 2,048 participants that complete at once; a hundred thousand
requests; and links to addresses that don't answer. PROGRAM is crates/lra_node/out/lra_node, which ./coordinator builds,
or --unproved (tools/unproved.py). Each check prints a line. Exits with 1 if a check fails. Uses only the standard
library; takes some ten minutes."""
import collections
import contextlib
import multiprocessing
import os
import random
import resource
import selectors
import shutil
import socket
import struct
import subprocess
import sys
import threading
import time
import typing
from collections.abc import Callable, Iterable

sys.path.insert(0, os.path.dirname(os.path.dirname(os.path.abspath(__file__))))
from tools import checks, unproved
from tools.bad import GARBAGE, connection, fill, is_closed, larger, slowest_page, small_disk
from tools.load import ENDED, GONE, Noted, Notes, links_of, lost, misled
from tools.node import Server, comes_to, exchange, home_of, memory_of, request
from tools.participant import Participant

NODES, NOBODY = 3, 65534
HOMES = range(1, NODES + 1)
# The last output of a server that refuses its first journal.
JOURNAL = "\njournal 1\n"
# What may be logged while a disk is full.
OF_DISK = {"E18 JournalFailed", "E19 Stopped", "can't open its journal again yet"}


def begin_until_gone(server: Server, node: int, part: Participant, noted: Notes) -> None:
    """Begins LRAs, joins and decides them at a node until the server is gone, and records what is answered."""
    with contextlib.suppress(*GONE):
        for _ in range(100):  # two clients share a home, which holds 256
            lra = server.begin(node)
            one = noted[lra] = Noted()
            for place in range(random.randrange(4)):
                one.members[place] = server.join(node, lra, **links_of(part, place))[1]["member"]
            one.word = random.choice(("close", "cancel", None))
            if one.word:
                one.is_decided = server.finish(node, lra, one.word) == 200


def under_load(server: Server, part: Participant, noted: Notes) -> list[threading.Thread]:
    """Starts two clients at each node, and waits until a random moment, at which the server is then killed."""
    given = [(server, node, part, noted) for node in (*HOMES, *HOMES)]
    threads = [threading.Thread(target=begin_until_gone, args=one) for one in given]
    for thread in threads:
        thread.start()
    wanted = random.randrange(1, 100)
    comes_to(10, lambda: len(noted) >= wanted)
    time.sleep(random.uniform(0, 0.05))
    return threads


def settle(server: Server) -> dict[str, str]:
    """Cancels what is still active, waits until everything has ended, and returns what each LRA shows."""
    for lra, status in server.shown_at_home().items():
        if status == "Active":
            server.finish(home_of(lra), lra, "cancel")
    comes_to(90, lambda: set(server.shown_at_home().values()) <= ENDED)
    return server.shown_at_home()


def end_of(text: bytes) -> int:
    """Returns the end of a file. In a log that is the end of the last frame with the header's salts, since older frames
    may stand behind it."""
    if text[:3] != b"\x37\x7f\x06":
        return len(text)
    frame = 24 + int.from_bytes(text[8:12])
    return next(at for at in range(32, len(text) + frame, frame) if text[at + 8:at + 16] != text[16:24])


def damage(path: str, count: int, how: str) -> None:
    """Cuts off the last bytes of a file, at most half of it, or overwrites them."""
    with open(path, "r+b") as file:
        end = end_of(file.read())
        count = min(count, end // 2)
        file.seek(end - count)
        if how == "cut off":
            file.truncate()
        else:
            file.write(bytes(count) if how == "zeros" else random.randbytes(count))


def reset(line: socket.socket) -> None:
    """Resets a connection."""
    line.setsockopt(socket.SOL_SOCKET, socket.SO_LINGER, struct.pack("ii", 1, 0))
    line.close()


def trickle(slow: Iterable[socket.socket]) -> None:
    """Sends a byte a second over each connection, until they are closed."""
    for byte in b"GET /lra HTTP/1.1\r\n":
        for line in slow:
            try:
                line.send(bytes([byte]))
            except OSError:
                return
        time.sleep(1)


def flood(address: tuple[str, int], seconds: float, clients: int) -> None:
    """Runs this many clients that each send a pull with a byte of garbage, again and again. Half of them wait for the
    answer."""
    poll, end = selectors.DefaultSelector(), time.monotonic() + seconds

    def connect(waits: int) -> None:
        line = socket.socket()
        line.setblocking(False)
        line.connect_ex(address)
        poll.register(line, selectors.EVENT_WRITE, waits)

    for i in range(clients):
        connect(i % 2)
    while time.monotonic() < end:
        for key, events in poll.select(0.5):
            line = typing.cast(socket.socket, key.fileobj)
            with contextlib.suppress(OSError):
                if events & selectors.EVENT_WRITE:
                    line.send(GARBAGE)
                    if key.data:
                        poll.modify(line, selectors.EVENT_READ, key.data)
                        continue
                else:
                    line.recv(512)
            poll.unregister(line)
            line.close()
            connect(key.data)


def halves(server: Server, until: float) -> None:
    """Keeps two connections that begin a request and send no more, and replaces those that are closed."""
    open_ones: list[socket.socket] = []
    while time.monotonic() < until:
        open_ones = [line for line in open_ones if not is_closed(line)]
        with contextlib.suppress(OSError):
            while len(open_ones) < 2:
                open_ones.append(connection(server, b"GET /lra HT"))
        time.sleep(0.05)


def beside_halves(server: Server, seconds: float) -> float:
    """Keeps two half requests for some seconds in the background, and returns when they end."""
    until = time.monotonic() + seconds
    threading.Thread(target=halves, args=(server, until), daemon=True).start()
    return until


def wait_of(server: Server, text: bytes) -> float:
    """Returns how long it takes until a request is completely answered."""
    began = time.monotonic()
    exchange(server.address(1), text)
    return time.monotonic() - began


def ask_on(address: tuple[str, int], lra: str, count: int, wrong: list[str]) -> None:
    """Requests a status a number of times, and records each wrong answer."""
    for _ in range(count):
        try:
            answer = request(address, "GET", f"/lra/{lra}")
            if answer.status != 200:
                wrong.append(answer.text)
        except OSError as error:
            wrong.append(repr(error))


class TestHostility(checks.Checked):
    needs = (Server,)
    takes = "some ten minutes"
    # How often the server is killed.
    kills = 100

    def answers(self, server: Server, what: str, most: float) -> None:
        """Checks that another client is answered meanwhile."""
        began = time.monotonic()
        status = server.ask(1, "GET", "/lra")[0]
        took = time.monotonic() - began
        self.check(f"{what} others are answered after {took:.2f} seconds", status == 200 and took < most, status)

    def ends(self, server: Server, what: Callable[[float], str], most: float) -> None:
        """Checks that the server ends soon."""
        began = time.monotonic()
        ended = server.end()
        took = time.monotonic() - began
        self.check(what(took), ended[0] == 0 and took < most, ended)

    def test_crowd(self) -> None:
        """Clients are silent, send garbage, disconnect, don't read, or are slow."""
        most = resource.getrlimit(resource.RLIMIT_NOFILE)[1]
        resource.setrlimit(resource.RLIMIT_NOFILE, (most, most))
        server = self.server(1).wait_until_up()
        fill(server, 250, 3)
        silent = [connection(server) for _ in range(min(4000, most - 200))]
        opened = time.monotonic()
        self.answers(server, f"beside {len(silent)} connections that send nothing", 10)
        for _ in range(200):
            connection(server, random.randbytes(2000)).close()
        self.answers(server, "after 200 that sent garbage", 5)
        for _ in range(200):
            reset(connection(server, b"GET /lra HTTP/1.1\r\nHo"))
        self.answers(server, "after 200 that were reset during a request", 5)
        pull = b"POST /peer/pull HTTP/1.1\r\nHost: peer\r\nContent-Length: 9\r\n\r\n\1" + bytes(8)
        unread = [connection(server, pull, 1) for _ in range(8)]
        self.answers(server, f"beside {len(unread)} that don't read their answers", 25)
        slow = [connection(server) for _ in range(8)]
        threading.Thread(target=trickle, args=(slow,), daemon=True).start()
        time.sleep(0.1)
        self.answers(server, f"beside {len(slow)} that send a byte a second", 15)
        self.check("the slow ones are closed", all(is_closed(line, time.monotonic() + 15) for line in slow))
        are_closed = all(is_closed(line, opened + 45) for line in silent)
        self.check("the silent ones are closed after half a minute", are_closed)
        ended = server.end()
        self.check("it ends when its input does, and logged nothing", ended == (0, ""), ended)

    def is_refused(self, what: str, folder: str, nodes: int = 1, user: int | None = None) -> None:
        """Checks that the server doesn't start with this journal, and leaves it unchanged."""
        with open(f"{folder}/node-1.db", "rb") as file:
            before = file.read()
            server = self.server(nodes, folder, user=user)
            server.is_up()
            ended = server.end()
            file.seek(0)
            is_so = ended[0] == 1 and ended[1].endswith(JOURNAL) and file.read() == before
        self.check(f"{what} is refused, and left unchanged", is_so, ended)

    def test_wrong_journals(self) -> None:
        """Journals that belong to another node, are no journals, or are read-only are refused."""
        own, pair, text = (self.folder_in(name) for name in ("own", "pair", "text"))
        for nodes, folder in ((1, own), (2, pair)):
            server = self.server(nodes, folder).wait_until_up()
            server.begin(nodes)
            server.end()
        for end in ("", "-wal"):
            os.replace(f"{pair}/node-2.db{end}", f"{pair}/node-1.db{end}")
        self.is_refused("another node's journal", pair, 2)
        with open(f"{text}/node-1.db", "w", encoding="utf-8") as file:
            file.write("This is no database. " * 1000)
        self.is_refused("a file that isn't a database", text)
        subprocess.run(["chmod", "-R", "a=rX", self.folder], check=True)
        self.is_refused("a read-only journal", own, user=NOBODY if os.getuid() == 0 else None)
        subprocess.run(["chmod", "-R", "u+w", self.folder], check=True)

    def shown_of(self, file: str, count: int, how: str) -> list[str] | tuple[int, str]:
        """Returns what a journal with this damage shows: its LRAs in order, or how the program ends."""
        copy = f"{self.folder}/{file} {count} {how}"
        shutil.copytree(f"{self.folder}/whole", copy)
        damage(f"{copy}/{file}", count, how)
        server = self.server(1, copy)
        if not server.is_up():
            return server.end()
        shown = sorted(server.shown())
        server.kill()
        return shown

    def test_torn(self) -> None:
        """The last pages of a journal that a kill -9 left are damaged."""
        server = self.server(1, self.folder_in("whole")).wait_until_up()
        begun = fill(server, 120, 3)
        server.kill()
        ways = [(count, how) for count in (1, 4096, 100_000) for how in ("cut off", "zeros", "garbage")]
        logs = [self.shown_of("node-1.db-wal", *way) for way in ways]
        # 24 pages, and each of four calls wrote at least one
        is_so = all(shown == begun[:len(shown)] and len(shown) >= len(begun) - 7 for shown in logs)
        lost_ones = len(begun) - min(map(len, logs))
        self.check(f"of {len(begun)} LRAs a torn log loses at most the last {lost_ones}", is_so, logs)
        bases = [self.shown_of("node-1.db", *way) for way in ways]
        count = sum(isinstance(shown, tuple) and shown[0] == 1 and shown[1].endswith(JOURNAL) for shown in bases)
        what = f"a torn database is refused ({count} of {len(bases)}), or repaired from its log"
        self.check(what, count + bases.count(begun) == len(bases), bases)

    def without_room(self, server: Server, lras: list[str]) -> None:
        """Checks the server while the disk is full: it runs, commands are refused, and reads are answered once the
        journal is open."""
        began, refused, slowest = time.monotonic(), [], 0.0
        while time.monotonic() < began + 10:
            refused.append(server.finish(1, random.choice(lras), "cancel"))
            asked = time.monotonic()
            is_answered = comes_to(20, lambda: server.ask(1, "GET", "/lra")[0] == 200)
            slowest = max(slowest, time.monotonic() - asked)
        what = f"while the disk is full {len(refused)} commands are refused"
        what += f", and reads answered within {slowest:.1f} seconds"
        is_so = server.is_running() and set(refused) == {503} and is_answered and slowest < 10
        self.check(what, is_so, (server.process.poll(), set(refused)))

    def test_full_disk(self) -> None:
        """A disk fills up under load, and later has room again."""
        disk = small_disk(self, "2m")
        server = self.server(1, disk).wait_until_up()
        overdue = server.begin(1, limit=5000)
        begun, began = fill(server, 256, 3), time.monotonic()
        self.without_room(server, begun)
        time.sleep(2)
        larger(disk)
        full = time.monotonic() - began
        is_well = comes_to(30, lambda: server.ask(1, "POST", "/lra", {})[0] == 201)
        took = time.monotonic() - began - full
        self.check(f"with room again it goes on by itself after {took:.1f} seconds", is_well and took < 10)
        self.check("what was answered is there", set(begun) <= set(server.shown()))
        is_over = comes_to(10, lambda: server.shown()[overdue] == "Cancelled")
        self.check("an LRA that was overdue meanwhile is cancelled", is_over, server.shown()[overdue])
        status, text = server.end()
        lines = text.splitlines()
        is_so = status == 0 and {line.split(": ")[1] for line in lines} <= OF_DISK and 0 < len(lines) <= full + 2
        self.check(f"it warned {len(lines)} times in {full:.0f} seconds, only of the disk", is_so, (status, text))

    def test_flooded(self) -> None:
        """1,500 clients send garbage as pulls, each of which counts as one of a run's sixteen, beside two half
        requests."""
        server, seconds = self.server(2).wait_until_up(), 20
        given = server.address(1), seconds, 500
        floods = [multiprocessing.Process(target=flood, args=given) for _ in range(3)]
        until = beside_halves(server, seconds)
        for one in floods:
            one.start()
        during = slowest_page(server, lambda: time.monotonic() >= until, 0.1)
        for one in floods:
            one.join()
        behind = time.monotonic() + 2
        after = slowest_page(server, lambda: time.monotonic() >= behind, 0.1)
        self.check(f"during a flood of pulls another client waits at most {during:.2f} seconds", during < 5)
        self.check(f"after it at most {after:.2f}", after < 5)
        self.ends(server, lambda took: f"it ends {took:.1f} seconds after its input", 15)

    def test_changes(self) -> None:
        """Runs change beside two half requests: a client that makes a request during a change waits for it. Sixteen
        pulls cause at least one change."""
        server = self.server(1).wait_until_up()
        until, longest = beside_halves(server, 10), []
        while time.monotonic() < until:
            waits = []
            for _ in range(16):
                wait_of(server, GARBAGE)
                waits.append(wait_of(server, b"GET /lra HTTP/1.1\r\nHost: h\r\n\r\n"))
            longest.append(max(waits))
        middle, worst = sorted(longest)[len(longest) // 2] * 1000, max(longest) * 1000
        what = f"half of {len(longest)} changes of run cost a client at most {middle:.1f} ms, the worst {worst:.1f}"
        self.check(what, middle < 10, middle)
        server.end()

    def test_crowded(self) -> None:
        """64 LRAs with 32 participants each complete at once, all at one host."""
        server, part = self.server(1).wait_until_up(), self.participant()
        lras = [server.begin(1) for _ in range(64)]
        for lra in lras:
            for place in range(32):
                server.join(1, lra, **links_of(part, place))
        began = time.monotonic()
        for lra in lras:
            server.finish(1, lra)
        times = []
        while time.monotonic() < began + 60 and set(server.shown().values()) != {"Closed"}:
            for lra in random.sample(lras, 8):
                asked = time.monotonic()
                server.status(1, lra)
                times.append(time.monotonic() - asked)
        took, slowest, most = time.monotonic() - began, max(times, default=0), memory_of(server.process)
        self.check(f"2,048 participants complete in {took:.1f} seconds", took < 30, took)
        self.check(f"it uses at most {most:.0f} MiB of memory meanwhile", most < 64, most)
        self.check(f"a status takes at most {slowest * 1000:.0f} ms meanwhile", slowest < 0.05, slowest)
        server.end()

    def test_many_runs(self) -> None:
        """Requests are made over some hundred runs."""
        server, count = self.server(1).wait_until_up(), 100_000
        lra = server.begin(1)
        with multiprocessing.Manager() as manager:
            wrong, began = manager.list(), time.monotonic()
            given = server.address(1), lra, count // 8, wrong
            clients = [multiprocessing.Process(target=ask_on, args=given) for _ in range(8)]
            for client in clients:
                client.start()
            for client in clients:
                client.join()
            rate = count / (time.monotonic() - began)
            what = f"{count:,} requests over some hundred runs, {rate:.0f} a second: each is answered"
            self.check(what, not wrong, list(wrong)[:5])
        server.end()

    def test_dead_addresses(self) -> None:
        """Participants have an address that nobody has: the program doesn't wait for these connections when it ends."""
        server = self.server(1).wait_until_up()
        for host in ("10.255.255.1", "192.0.2.1", "198.51.100.1", "203.0.113.1"):
            lra = server.begin(1)
            server.join(1, lra, compensate=f"http://{host}:81/c")
            server.finish(1, lra, "cancel")
        time.sleep(1)
        self.ends(server, lambda took: f"beside calls to dead addresses it ends after {took:.1f} seconds", 5)

    def killed(self, turn: int, part: Participant, bad: dict[str, list], counts: collections.Counter[str]) -> bool:
        """Kills the server once under load, and checks what is there afterwards. Returns whether it starts again."""
        noted: Notes = {}
        server = self.server(NODES)
        if turn % 5 == 4:  # also killed while it starts
            time.sleep(random.uniform(0, 0.05))
            server.kill()
            server = self.server(NODES)
        server.is_up()
        threads = under_load(server, part, noted)
        server.kill()
        for thread in threads:
            thread.join()
        server = self.server(NODES)
        if not server.is_up():
            bad["start"].append(server.end())
            return False
        bad["lost"] += lost(server, noted)
        ended = settle(server)
        bad["end"] += [(lra, status) for lra, status in ended.items() if status not in ENDED]
        bad["order"] += misled(part, noted, ended)
        is_looked_at = turn % 10 == 9 or turn == self.kills - 1
        if is_looked_at and not comes_to(30, lambda: all(server.shown(node) == ended for node in HOMES)):
            bad["agree"].append([server.shown(node) for node in HOMES])
        counts["begins"] += len(noted)
        counts["joins"] += sum(len(one.members) for one in noted.values())
        counts["decisions"] += sum(one.is_decided for one in noted.values())
        counts["calls"] += len(part.calls)
        for lra in ended:
            server.purge(home_of(lra), lra)
        part.calls.clear()
        server.kill()
        return True

    def test_kills(self) -> None:
        """The server is killed under load again and again, and nothing that was answered is lost."""
        part, counts = self.participant(), collections.Counter[str]()
        bad: dict[str, list] = {"start": [], "lost": [], "end": [], "order": [], "agree": []}
        for turn in range(self.kills):
            if not self.killed(turn, part, bad, counts):
                break
        self.check(f"killed {self.kills} times under load it starts again each time", not bad["start"], bad["start"])
        what = f"{counts['begins']} begins, {counts['joins']} joins and {counts['decisions']} decisions"
        self.check(f"{what} that were answered are there", not bad["lost"], bad["lost"][:5])
        self.check("all LRAs end", not bad["end"], bad["end"][:5])
        self.check(f"in {counts['calls']} calls all completed, or compensated last to first", not bad["order"],
                   bad["order"][:5])
        self.check("all nodes agree", not bad["agree"], bad["agree"][:1])


def main() -> int:
    words = checks.words_of(TestHostility)
    for word in sys.argv[1:]:
        if word.isdecimal():
            TestHostility.kills = int(word)
        elif word not in words:
            Server.program = unproved.program_of(word)
    checks.need(Server)
    return checks.run(TestHostility, words=[word for word in sys.argv[1:] if word in words])


if __name__ == "__main__":
    sys.exit(main())
