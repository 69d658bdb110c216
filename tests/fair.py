#!/usr/bin/env python3
"""Tests that no participant delays others, and that system failures don't end the server: python3 tests/fair.py
[PROGRAM] [TEST ..]. PROGRAM is crates/lra_node/out/lra_node, or --unproved (tools/unproved.py). Each check prints a
line with its figure. Exits with 1 if a check fails. Takes some six minutes. Uses only the standard library."""
import contextlib
import json
import os
import resource
import socket
import sqlite3
import subprocess
import sys
import threading
import time
from collections.abc import Callable, Iterable

sys.path.insert(0, os.path.dirname(os.path.dirname(os.path.abspath(__file__))))
from tools import checks, unproved
from tools.bad import GARBAGE, connection, fill, is_closed, is_over, larger, slowest_page, small_disk
from tools.node import Server, comes_to, end_input, exchange
from tools.participant import Participant
from tools.ports import HOST

# A request for a page, in two pieces.
IN_TWO = [b"GET /lra HT", b"TP/1.1\r\nHost: h\r\n\r\n"]


def fine(answers: Iterable[bytes]) -> int:
    """Returns how many answers are correct."""
    return sum(answer == b"HTTP/1.1 200 OK" for answer in answers)


def ended_with(server: Server, links: Iterable[str]) -> str:
    """Returns an LRA with these participants, which is closed."""
    lra = server.begin(1)
    for link in links:
        server.join(1, lra, compensate=link, complete=link)
    server.finish(1, lra)
    return lra


def called_after(server: Server, seconds: float) -> float | None:
    """Returns how long it takes until an honest participant, which answers at once, is called; or `None` if it isn't
    called in time."""
    honest, began = Participant(), time.monotonic()
    lra = ended_with(server, [f"{honest.url}/c"])
    is_called = comes_to(seconds, lambda: honest.calls)
    took = time.monotonic() - began
    return took if is_called and server.comes_to(1, lra, "Closed", 5) is not None else None


def first_line(server: Server, *pieces: bytes, pause: float = 0, node: int = 1) -> bytes:
    """Returns the first line of the answer to a request, or the error."""
    try:
        return exchange(server.address(node), *pieces, pause=pause).split(b"\r\n")[0]
    except OSError as error:
        return repr(error).encode()


class Others:
    """Threads that do something again and again, until they are stopped."""

    def __init__(self, *deeds: Callable[[], object]) -> None:
        self.over, self.counts = threading.Event(), [0] * len(deeds)
        self.threads = [threading.Thread(target=self.repeat, args=placed) for placed in enumerate(deeds)]
        for thread in self.threads:
            thread.start()

    def repeat(self, place: int, deed: Callable[[], object]) -> None:
        while not self.over.is_set():
            deed()
            self.counts[place] += 1

    def stop(self) -> int:
        """Stops the threads, and returns how often they did it."""
        self.over.set()
        for thread in self.threads:
            thread.join()
        return sum(self.counts)


def bad_pulls(server: Server) -> Others:
    """Starts two clients that send bad pulls."""
    return Others(*[lambda: first_line(server, GARBAGE)] * 2)


def frame_of(server: Server, pull: bytes, size: int, pause: float) -> tuple[int | None, int]:
    """Reads the answer to a pull slowly: this many bytes between pauses. Returns the length that it states for its
    body, and how much of the body came."""
    text = b""
    with connection(server, pull, 4096) as line:
        line.settimeout(20)
        with contextlib.suppress(OSError):
            while more := line.recv(size):
                text += more
                time.sleep(pause)
    head, _, body = text.partition(b"\r\n\r\n")
    stated = [int(line.split(b":")[1]) for line in head.split(b"\r\n") if line.lower().startswith(b"content-length")]
    return stated[0] if stated else None, len(body)


def held(server: Server, text: bytes) -> None:
    """Sends this text, and waits until the connection is closed."""
    with contextlib.suppress(OSError), socket.create_connection(server.address(1), timeout=10) as line:
        line.sendall(text)
        line.recv(100)


def full_pipe() -> tuple[int, int]:
    """Returns a full pipe: its end for reading and its end for writing."""
    reading, writing = os.pipe()
    os.set_blocking(writing, False)
    with contextlib.suppress(BlockingIOError):
        while True:
            os.write(writing, b"." * 4096)
    os.set_blocking(writing, True)
    return reading, writing


class TestFaults(checks.Checked):
    needs = (Server,)
    takes = "some six minutes"

    def disk(self) -> str:
        """Returns a disk of one MiB."""
        return small_disk(self, "1m")

    def grows(self, disk: str, server: Server) -> bool:
        """Makes the disk larger, and returns whether the server goes on."""
        larger(disk)
        return comes_to(15, lambda: server.is_running() and server.ask(1, "POST", "/lra", {})[0] == 201)

    def test_failing(self) -> None:
        """Two hosts answer 503 within half a second, for 416 participants."""
        server, hosts = self.server(1).wait_until_up(), [self.participant(status=503, pause=0.5) for _ in range(2)]
        for i in range(13):
            ended_with(server, [f"{hosts[(i + j) % 2].url}/c{j}" for j in range(32)])
        time.sleep(5)
        took = called_after(server, 60)
        what = f"beside two hosts that answer 503, with {13 * 32} participants, an honest one is called"
        self.check(f"{what} after {took and round(took, 1)} seconds", took is not None and took < 15)
        began = time.monotonic()
        server.ask(1, "GET", "/lra")
        took = time.monotonic() - began
        self.check(f"a read is answered after {took * 1000:.0f} ms", took < 2)
        server.end()

    def test_silent(self) -> None:
        """64 hosts accept connections and never answer."""
        server = self.server(1).wait_until_up()
        with socket.create_server(("0.0.0.0", 0), backlog=512) as deaf:
            port = deaf.getsockname()[1]
            for i in range(2):
                ended_with(server, [f"http://127.0.1.{1 + 32 * i + j}:{port}/c" for j in range(32)])
            for who in ("beside 64 hosts that never answer, an honest one is called", "the next honest one is called"):
                took = called_after(server, 60)
                self.check(f"{who} after {took and round(took, 1)} seconds", took is not None and took < 30)
            began = time.monotonic()
            ended = server.end()
            took = time.monotonic() - began
            self.check(f"the program ends after {took:.1f} seconds", ended[0] == 0 and took < 4, ended)

    def test_without_files(self) -> None:
        """The disk is full, and no file descriptor is left."""
        disk = self.disk()
        server = self.server(1, disk, preexec_fn=lambda: resource.setrlimit(resource.RLIMIT_NOFILE, (96, 96)))
        server.wait_until_up()
        silent: list[socket.socket] = []

        def connect() -> None:
            with contextlib.suppress(OSError):
                silent.append(socket.create_connection(server.address(1), timeout=1))
            time.sleep(0.005)

        crowd = Others(connect)
        try:
            fill(server, 256, 4)
            time.sleep(8)
        finally:
            crowd.stop()
        for line in silent:
            line.close()
        self.check("on a full disk without a free file descriptor it keeps running", server.is_running(),
                   server.process.poll())
        self.check("with room again it goes on", self.grows(disk, server))
        server.end()

    def looked_at(self, server: Server, journal: str) -> sqlite3.Connection | None:
        """Returns a journal that another process has begun to read while the server writes, or `None` if that doesn't
        succeed."""
        until = time.monotonic() + 20
        while time.monotonic() < until:
            server.ask(1, "POST", "/lra", {})
            database = sqlite3.connect(journal, timeout=0)
            try:
                database.execute("BEGIN")
                database.execute("SELECT count(*) FROM lra").fetchone()
                return database
            except sqlite3.Error:
                database.close()
        return None

    def test_looked_at(self) -> None:
        """Somebody looks at a journal with sqlite3 while the disk is full, and keeps it open for some seconds."""
        disk = self.disk()
        server = self.server(1, disk).wait_until_up()
        fill(server, 256, 4)
        looked = self.looked_at(server, f"{disk}/node-1.db")
        time.sleep(5)
        what = f"an operator's look at a full disk ({'got in' if looked else 'locked out'}) doesn't end the server"
        self.check(what, server.is_running(), server.process.poll())
        if looked:
            looked.close()
        self.check("with room again it goes on", self.grows(disk, server))
        server.end()

    def test_gone(self) -> None:
        """The folder is gone for a while after a write to a full disk failed, so the journal can't be opened again."""
        disk = self.disk()
        os.mkdir(f"{disk}/lra")
        server = self.server(1, f"{disk}/lra").wait_until_up()
        times, answers = [], set()
        fill(server, 256, 4)
        os.rename(f"{disk}/lra", f"{disk}/elsewhere")
        comes_to(20, lambda: server.ask(1, "POST", "/lra", {})[0] == 503 and server.ask(1, "GET", "/lra")[0] == 503)
        for _ in range(50):
            began = time.monotonic()
            status, answer = server.ask(1, "GET", "/lra")
            times.append(time.monotonic() - began)
            answers.add((status, answer.get("refused")))
            time.sleep(0.02)
        what = f"without its journal requests get 503 within {max(times) * 1000:.0f} ms"
        self.check(what, answers == {(503, "E19 Stopped")} and max(times) < 0.1, answers)
        os.rename(f"{disk}/elsewhere", f"{disk}/lra")
        self.check("with it requests are answered again", comes_to(5, lambda: server.ask(1, "GET", "/lra")[0] == 200))
        self.check("with room again it goes on", self.grows(disk, server))
        self.check("it ends when its input does", server.end()[0] == 0)

    def test_unread(self) -> None:
        """Standard error is a full pipe that nobody reads."""
        disk = self.disk()
        reading, writing = full_pipe()
        self.addCleanup(os.close, reading)
        self.addCleanup(os.close, writing)
        server = self.server(1, disk, stderr=writing).wait_until_up()
        fill(server, 256, 4)
        began = time.monotonic()
        answered = comes_to(20, lambda: server.ask(1, "GET", "/lra")[0] == 200)
        what = "with a full pipe as standard error, a read is answered after E18"
        self.check(f"{what} ({time.monotonic() - began:.1f} s)", answered)
        self.check("with room again it goes on", self.grows(disk, server))
        began = time.monotonic()
        end_input(server.process)
        try:
            status = server.process.wait(20)
        except subprocess.TimeoutExpired:
            status = None
        self.check(f"it ends when its input does ({time.monotonic() - began:.1f} s)", status == 0, status)

    def test_without_threads(self) -> None:
        """No thread can be started at some changes of run, because the user already has as many processes as it may."""
        if os.getuid() != 0:
            self.skipTest("only root may become another user")
        os.chmod(self.folder, 0o777)
        user = 64123
        server = self.server(1, user=user, preexec_fn=lambda: resource.setrlimit(resource.RLIMIT_NPROC, (16, 16)))
        if not server.is_up():
            self.check("it starts with 16 threads", False, server.end())
            return
        others = [subprocess.Popen(["sleep", "4"], user=user) for _ in range(8)]
        for _ in range(30):
            with contextlib.suppress(OSError), socket.create_connection(server.address(1), timeout=2) as line:
                line.sendall(b"POST /peer/pull HTTP/1.1\r\nHost: h\r\nContent-Length: 1\r\n\r\nx")
                line.recv(100)
        time.sleep(1)
        self.check("without threads for a run it keeps running", server.is_running(), server.process.poll())
        for other in others:
            other.wait()
        self.check("it goes on once there are threads again",
                   comes_to(10, lambda: server.ask(1, "POST", "/lra", {})[0] == 201))
        ended = server.end()
        self.check("it ends when its input does", ended[0] == 0, ended)

    def test_split(self) -> None:
        """Requests come in two pieces, beside two clients that send bad pulls, eleven of which end a run."""
        server = self.server(1).wait_until_up()
        lra = server.begin(1)
        body = json.dumps({"compensate": f"http://{HOST}:9/c"}).encode()
        head = f"PUT /lra/{lra}/join HTTP/1.1\r\nHost: h\r\nContent-Length: {len(body)}\r\n\r\n".encode()
        text = head + body + b"\r\n"  # (the last two bytes are no part of the request)
        others, answers, began = bad_pulls(server), [], time.monotonic()
        for turn in range(200):
            place = 1 + turn % len(text)
            pieces = [text[:place], text[place:]] if turn < 30 else IN_TWO
            answers.append(first_line(server, *pieces, pause=0.1))
        rate = others.stop() / (time.monotonic() - began)
        what = f"beside {rate:.0f} bad pulls a second, {fine(answers)} of 200 requests in two pieces are answered"
        self.check(what, fine(answers) == 200, set(answers))
        self.check("it ends when its input does", server.end()[0] == 0)

    def test_facts(self) -> None:
        """Requests come in two pieces at three nodes that store some twelve facts a second."""
        server = self.server(3).wait_until_up()
        answers: list[bytes] = []

        def store() -> None:
            server.finish(1, server.begin(1))
            time.sleep(0.12)

        def ask_in_two(node: int) -> None:
            answers.append(first_line(server, *IN_TWO, pause=0.1, node=node))

        others, began = Others(store, *[lambda node=node: ask_in_two(node) for node in (1, 2, 3)]), time.monotonic()
        while len(answers) < 600 and others.counts[0] < 250:
            time.sleep(0.1)
        others.stop()
        rate = 2 * others.counts[0] / (time.monotonic() - began)
        what = f"beside {rate:.0f} facts a second {fine(answers)} of {len(answers)} requests in two pieces are answered"
        self.check(what, fine(answers) == len(answers), set(answers))
        self.check("it ends when its input does", server.end()[0] == 0)

    def test_writers(self) -> None:
        """The disk is full, and four clients keep writing."""
        disk = self.disk()
        server = self.server(1, disk).wait_until_up()
        times: list[float] = []
        codes: dict[int, int] = {}
        fill(server, 256, 4)

        def write() -> None:
            server.ask(1, "POST", "/lra", {})
            time.sleep(0.05)

        others = Others(*[write] * 4)
        for _ in range(400):
            began = time.monotonic()
            status = server.ask(1, "GET", "/lra/00000000-0000-8001-8000-000000000001")[0]
            codes[status] = codes.get(status, 0) + 1
            if status == 200:
                times.append(time.monotonic() - began)
            time.sleep(0.05)
        others.stop()
        quick, slowest = sum(took < 0.1 for took in times), max(times, default=0) * 1000
        what = f"beside four clients that write to a full disk, {quick} of 400 statuses get 200 within 100 ms"
        self.check(f"{what}, the slowest after {slowest:.0f}", quick >= 396, codes)
        self.check("with room again it goes on", self.grows(disk, server))
        self.check("it ends when its input does", server.end()[0] == 0)

    def test_slow(self) -> None:
        """Forty clients send a byte now and then: they hold no worker."""
        server = self.server(1).wait_until_up()
        ones = [socket.create_connection(server.address(1)) for _ in range(40)]
        slowest = 0.0
        for byte in b"GET /lra HTTP/1.1\r\nHost":
            for one in ones:
                with contextlib.suppress(OSError):
                    one.send(bytes([byte]))
            asked = time.monotonic()
            server.ask(1, "GET", "/lra")
            slowest = max(slowest, time.monotonic() - asked)
            time.sleep(0.3)
        what = f"beside {len(ones)} clients that send 3 bytes a second, a page takes at most {slowest * 1000:.0f} ms"
        self.check(what, slowest < 0.5, slowest)
        self.check("those clients' connections are closed", comes_to(10, lambda: all(is_closed(one) for one in ones)))
        self.check("it ends when its input does", server.end()[0] == 0)

    def test_stalled(self) -> None:
        """Twenty-four clients send an invalid head, or the start of a long request, and then nothing, again and
        again."""
        server = self.server(1).wait_until_up()
        texts = [b"GE\0", b"GET / HTTP/1.1\r\nHo st: x"]
        texts.append(b"POST /lra HTTP/1.1\r\nHost: x\r\nContent-Length: 5000\r\n\r\n")
        others, until = Others(*[lambda text=text: held(server, text) for text in texts * 8]), time.monotonic() + 10
        slowest = slowest_page(server, lambda: time.monotonic() >= until, 0.05)
        what = f"beside {others.stop()} requests that stall, a page takes at most {slowest * 1000:.0f} ms"
        self.check(what, slowest < 1, slowest)
        self.check("it ends when its input does", server.end()[0] == 0)

    def test_frame(self) -> None:
        """One client pulls a long frame and reads it slowly, and four don't read theirs, beside two clients that send
        bad pulls."""
        server, link = self.server(1).wait_until_up(), f"http://{HOST}:9/" + "c" * 108
        for _ in range(64):
            lra = server.begin(1)
            for _ in range(32):
                self.assertEqual(server.join(1, lra, compensate=link, complete=link, status=link, forget=link)[0], 200)
        pull = b"POST /peer/pull HTTP/1.1\r\nHost: p\r\nContent-Length: 9\r\n\r\n\x01" + bytes(8)
        others = bad_pulls(server)
        unread = [connection(server, pull, 4096) for _ in range(4)]
        found: list[tuple[int | None, int]] = []
        began = time.monotonic()
        reading = threading.Thread(target=lambda: found.append(frame_of(server, pull, 16384, 0.02)))
        reading.start()
        slowest = slowest_page(server, lambda: not reading.is_alive(), 0.02)
        seconds = time.monotonic() - began
        rate = others.stop() / seconds
        stated, came = found[0]
        what = f"{came:,} of {stated:,} bytes of a frame come in {seconds:.1f} s to a client that reads slowly"
        self.check(f"beside {rate:.0f} bad pulls a second, {what}", stated == came, found)
        self.check(f"a page takes at most {slowest * 1000:.0f} ms meanwhile", slowest < 0.5, slowest)
        self.check("connections of clients that don't read are closed",
                   comes_to(15, lambda: all(is_over(line) for line in unread)))
        self.check("it ends when its input does", server.end()[0] == 0)


def main() -> int:
    words = checks.words_of(TestFaults)
    for word in sys.argv[1:]:
        if word not in words:
            Server.program = unproved.program_of(word)
    checks.need(Server)
    return checks.run(TestFaults, words=[word for word in sys.argv[1:] if word in words])


if __name__ == "__main__":
    sys.exit(main())
