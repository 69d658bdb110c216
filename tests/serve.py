#!/usr/bin/env python3
"""Tests the built server from outside: python3 tests/serve.py [PROGRAM]. Uses only the standard library; takes half a
minute.

PROGRAM is crates/lra_node/out/lra_node, which ./coordinator builds, or --unproved (tools/unproved.py). Each check
prints a line. Exits with 1 if a check fails."""
import contextlib
import json
import os
import shutil
import socket
import sqlite3
import subprocess
import sys
import threading
import time

sys.path.insert(0, os.path.dirname(os.path.dirname(os.path.abspath(__file__))))
from tools import checks, unproved
from tools.node import Server, comes_to, exchange
from tools.participant import Participant
from tools.ports import HOST, free_row
from tools.repo import TOP

JOURNALS = f"{TOP}/tests/data/journal-1"
# What a node logs if it can't open its journal.
NOT_OPENED = "node 1: can't open its journal: "
NO_FOLDER = f"{NOT_OPENED}the folder is missing, permission is denied, or no file descriptor is left\njournal 1\n"
CONTINUE = b"HTTP/1.1 100 Continue\r\n\r\n"
# Header fields that are refused, whatever body comes: the status, the HTTP version, and the lines.
REFUSED_FIELDS = (
    (400, "1.1", "Host: p", "Content-Length: +1"), (400, "1.1", "Host: p", "Content-Length: 0x9"),
    (400, "1.1", "Host: p", "Content-Length: 9, 9"), (400, "1.1", "Host: p", "Content-Length: 9 9"),
    (400, "1.1", "Host: p", "Content-Length: 9", "content-length: 9"),
    (400, "1.1", "Content-Length: 9"), (400, "1.1", "Host: p", "HOST: p", "Content-Length: 9"),
    (400, "1.0", "Host: p", "Host: q", "Content-Length: 9"),
    (501, "1.1", "Host: p", "Transfer-Encoding: chunked", "Content-Length: 9"),
    (501, "1.1", "Transfer-Encoding:", "Content-Length: +1"),
    (413, "1.1", "Host: p", "Content-Length: 65537"), (413, "1.1", "Host: p", "Content-Length: 18446744073709551625"),
)


def next_of(line: socket.socket, seconds: float) -> bytes:
    """Returns what comes next over a connection within some seconds, or nothing if it is closed or nothing comes."""
    line.settimeout(seconds)
    try:
        return line.recv(4096)
    except OSError:
        return b""


def head_with(version: str, *lines: str) -> bytes:
    return "\r\n".join((f"POST /lra HTTP/{version}", *lines, "", "")).encode()


class TestServer(checks.Checked):
    needs = (Server,)

    def test_three_nodes(self) -> None:
        """Sagas close and cancel, deadlines pass, and clients are slow; then the server starts over the same journals,
        and once more after a kill -9."""
        server, part = self.server(3).wait_until_up(), self.participant()
        lra = self.closes(server, part)
        trip = self.cancels(server, part)
        late = server.begin(1, limit=700)
        self.check("an LRA is cancelled at its deadline", server.comes_to(1, late, "Cancelled", 5) is not None,
                   server.status(1, late))
        foreign = server.begin(2)
        joined = comes_to(15, lambda: server.join(1, foreign, compensate=part.url)[0] == 421)
        self.check("another node's LRA can be joined only at its home", joined)
        self.holds_nobody_up(server)
        ended = server.end()
        self.check("it ends when its input does", ended == (0, ""), ended)
        self.starts_again(lra, trip)

    def closes(self, server: Server, part: Participant) -> str:
        """Plays an LRA that closes."""
        lra = server.begin(1)
        for name in ("flight", "hotel"):
            server.join(1, lra, compensate=f"{part.url}/{name}/c", complete=f"{part.url}/{name}/k")
        closed = server.finish(1, lra) == 200 and server.comes_to(1, lra, "Closed", 5) is not None
        self.check("an LRA closes when its participants have completed", closed, server.status(1, lra))
        self.check("both participants were called", sorted(part.paths()) == ["/flight/k", "/hotel/k"], part.calls)
        for node in (2, 3):
            shown = server.comes_to(node, lra, "Closed", 15) is not None
            self.check(f"node {node} shows it closed", shown, server.status(node, lra))
        return lra

    def cancels(self, server: Server, part: Participant) -> str:
        """Plays an LRA that is cancelled while one of its participants is down."""
        part.calls.clear()
        trip = server.begin(1)
        for name in ("flight", "hotel", "car"):
            server.join(1, trip, compensate=f"{part.url}/{name}/c")
        part.answers["/hotel/c"] = 503
        server.finish(1, trip, "cancel")
        time.sleep(1.5)
        again = part.paths().count("/hotel/c") >= 2 and server.status(1, trip) == "Cancelling"
        self.check("a participant that is down is called again", again, part.calls)
        part.answers.clear()
        back = server.comes_to(1, trip, "Cancelled", 10) is not None
        self.check("the LRA is compensated when that participant is back", back, server.status(1, trip))
        order = part.paths()
        self.check("participants compensate last to first", order[0] == "/car/c" and order[-1] == "/flight/c", order)
        return trip

    def holds_nobody_up(self, server: Server) -> None:
        """Checks that half a request, silent connections and a body that is too long delay no other client."""
        address = server.address(1)
        with contextlib.ExitStack() as open_ones:
            stopped = open_ones.enter_context(socket.create_connection(address))
            stopped.sendall(b"GET /lra HT")
            for _ in range(8):
                open_ones.enter_context(socket.create_connection(address))
            began = time.time()
            quick = server.ask(1, "GET", "/lra")[0] == 200 and time.time() - began < 1
            self.check("half a request and eight silent connections delay no other client", quick, time.time() - began)
            stopped.settimeout(9)
            closed = stopped.recv(10) == b"" and time.time() - began < 8
            self.check("half a request is closed after five seconds", closed, time.time() - began)
            long_body = open_ones.enter_context(socket.create_connection(address))
            with contextlib.suppress(OSError):
                long_body.sendall(b"POST /lra HTTP/1.1\r\nHost: p\r\nContent-Length: 70000\r\n\r\n" + b"a" * 70000)
            long_body.settimeout(5)
            self.check("a body that is too long is refused", long_body.recv(100).startswith(b"HTTP/1.1 413 "))

    def starts_again(self, lra: str, trip: str) -> None:
        """Starts the server over the same folder, and once more after a kill -9."""
        server = self.server(3).wait_until_up()
        shown = server.status(1, lra), server.status(1, trip)
        self.check("after a restart it shows what it showed before", shown == ("Closed", "Cancelled"), shown)
        began = server.begin(1)
        server.kill()
        server = self.server(3).wait_until_up()
        status = server.status(1, began)
        self.check("what was answered before a kill -9 is there", status == "Active", status)
        server.end()
        for node in (1, 2, 3):
            self.is_whole(f"{self.folder}/node-{node}.db", node)

    def test_listeners(self) -> None:
        """A participant that joined only for the end, or also for it, is notified once its LRA has ended for good, and
        a purge waits for that."""
        server, part = self.server(2).wait_until_up(), self.participant()
        part.answers = {"/mail": 503, "/hotel/a": 404}
        trip = server.begin(1)
        mail = server.join(1, trip, after=f"{part.url}/mail")
        self.check("a listener joins", mail[0] == 200, mail)
        server.join(1, trip, compensate=f"{part.url}/hotel/c", complete=f"{part.url}/hotel/k",
                    after=f"{part.url}/hotel/a")
        asked = server.join(1, trip, after=f"{part.url}/mail", status=f"{part.url}/s")
        refused = asked[0], asked[1].get("refused")
        self.check("a status link needs a compensate link", refused == (400, "E1 BadText"), asked)
        time.sleep(0.5)
        self.check("no listener is notified before the end", not part.ends(), part.ends())
        server.finish(1, trip)
        shown = server.comes_to(1, trip, "Closed", 5) is not None
        self.check("an LRA closes before its listeners are notified", shown, server.status(1, trip))
        self.check("both listeners are notified",
                   comes_to(5, lambda: {end.path for end in part.ends()} == {"/mail", "/hotel/a"}),
                   part.ends())
        right = {("PUT", path, f"urn:uuid:{trip}", "text/plain", b"Closed") for path in ("/mail", "/hotel/a")}
        heard = {(end.method, end.path, end.fields["Long-Running-Action-Ended"], end.fields.get("Content-Type"),
                  end.body) for end in part.ends()}
        self.check("the calls have the LRA and its status", heard == right, part.ends())
        purge = server.purge(1, trip)
        refused = purge[0], purge[1].get("refused")
        self.check("a purge waits while a listener hasn't answered", refused == (409, "E24 StillToTell 1.1 1"), purge)
        again = comes_to(10, lambda: [end.path for end in part.ends()].count("/mail") >= 3)
        self.check("listeners are notified again", again, part.ends())
        server.kill()
        part.answers = {"/hotel/a": 410}
        server = self.server(2).wait_until_up()
        purged = comes_to(10, lambda: server.purge(1, trip)[0] == 204)
        self.check("listeners are notified after a kill -9", purged, server.purge(1, trip))
        self.hear_of_both(server, part)
        ended = server.end()
        self.check("it ends", ended == (0, ""), ended)

    def hear_of_both(self, server: Server, part: Participant) -> None:
        """Cancels an LRA with another one that is closed inside it: all listeners are notified only of that end."""
        count = len(part.ends())
        dinner = server.begin(1)
        server.join(1, dinner, after=f"{part.url}/mail")
        table = server.begin(1, parent=dinner)
        server.join(1, table, compensate=f"{part.url}/table/c", after=f"{part.url}/table/a")
        server.finish(1, table)
        time.sleep(0.7)
        waits = server.status(1, table) == "Closed" and len(part.ends()) == count
        self.check("a nested LRA that is closed may still be cancelled: no listener is notified yet", waits,
                   part.ends()[count:])
        server.finish(1, dinner, "cancel")
        both = {("/mail", b"Cancelled"), ("/table/a", b"Cancelled")}
        heard = comes_to(10, lambda: {(end.path, end.body) for end in part.ends()[count:]} == both)
        self.check("all are notified that both were cancelled", heard, part.ends()[count:])
        of_table = [path for path in part.paths() if path.startswith("/table")]
        self.check("the participant was compensated before it was notified", of_table == ["/table/c", "/table/a"],
                   part.calls)
        time.sleep(1)
        self.check("each listener that answered was notified once", len(part.ends()) == count + 2, part.ends()[count:])

    def test_written_earlier(self) -> None:
        """Journals that an earlier program wrote (tests/data/journal-1) open and show what that program showed. Then
        they have version 2, and open again."""
        for node in (1, 2):
            shutil.copy(f"{JOURNALS}/node-{node}.db", self.folder)
        with open(f"{JOURNALS}/shown.json", encoding="utf-8") as file:
            rows = json.load(file)
        for version in (1, 2):
            server = self.server(2).wait_until_up()
            for row in rows:
                lra, node = row["lra"], row["node"]
                paths = {member: f"/lra/{lra}/member/{member}" for member in row.get("members", {})}
                members = {member: server.ask(node, "GET", path)[1].get("status") for member, path in paths.items()}
                seen = {"status": server.status(node, lra), "members": members}
                right = {"status": row.get("status", row.get("refused")), "members": row.get("members", {})}
                self.check(f"a journal of version {version}: node {node}, {row['what']}", seen == right, seen)
            ended = server.end()
            self.check("it ends", ended == (0, ""), ended)
            for node in (1, 2):
                with contextlib.closing(sqlite3.connect(f"{self.folder}/node-{node}.db")) as database:
                    front = database.execute("SELECT held, purged FROM front WHERE origin = 0").fetchall()
                self.check(f"the journal of node {node} has version 2 then", front == [(node, 2)], front)

    def test_hanging(self) -> None:
        """A participant accepts connections and never answers, in eight LRAs, beside one that answers."""
        server, part = self.server(1).wait_until_up(), self.participant()
        with socket.create_server((HOST, 0), backlog=64) as silent:
            links = [f"http://{HOST}:{silent.getsockname()[1]}/k"] * 8 + [f"{part.url}/k"]
            lras = [server.begin(1) for _ in links]
            for lra, link in zip(lras, links):
                server.join(1, lra, compensate=link, complete=link)
                server.finish(1, lra)
            began = time.time()
            is_called = comes_to(30, lambda: part.calls)
            took = time.time() - began
            self.check(f"a participant that hangs in eight LRAs delays no other (called after {took:.1f} seconds)",
                       is_called and took < 5, part.calls)
            shown = server.comes_to(1, lras[8], "Closed", 5) is not None
            self.check("the other's LRA is closed", shown, server.status(1, lras[8]))
            statuses = {server.status(1, lra) for lra in lras[:8]}
            self.check("the LRAs of the one that hangs are closing", statuses == {"Closing"}, statuses)
            began = time.time()
            ended = server.end()
            self.check("it ends while calls hang", ended == (0, "") and time.time() - began < 5, ended)

    def test_many(self) -> None:
        """Eight clients make thousands of requests, and the input ends during some."""
        server, asked = self.server(1).wait_until_up(), 5000
        lost: list[str] = []
        lra = server.begin(1)

        def client(count: int) -> None:
            for _ in range(count):
                try:
                    if server.ask(1, "GET", f"/lra/{lra}")[0] != 200:
                        lost.append("status")
                except OSError as error:
                    lost.append(repr(error))

        began = time.time()
        threads = [threading.Thread(target=client, args=(asked // 8,)) for _ in range(8)]
        for thread in threads:
            thread.start()
        for thread in threads:
            thread.join()
        took = time.time() - began
        self.check(f"{asked} requests over several runs, none lost ({asked / took:.0f} a second)", not lost, lost[:5])
        going = threading.Thread(target=client, args=(200,))
        going.start()
        time.sleep(0.1)
        ended = server.end()
        going.join()
        self.check("it ends when its input does, though requests are under way", ended == (0, ""), ended)

    def test_lengths(self) -> None:
        """Requests are about as long as the part that a node reads first (2 KiB), or as the longest head (16 KiB), in
        one piece and in two."""
        server = self.server(1).wait_until_up()
        start, end = b"GET /lra HTTP/1.1\r\nHost: p\r\nX-Padding: ", b"\r\n\r\n"
        for length in (2_047, 2_048, 2_049, 4_096, 16_383, 16_384, 16_385):
            request = start + b"a" * (length - len(start) - len(end)) + end
            wanted = b"HTTP/1.1 200 " if length <= 16_384 else b"HTTP/1.1 431 "
            for cut in (length, 1, 2_046, 2_048):
                pieces = [piece for piece in (request[:cut], request[cut:]) if piece]
                answer = exchange(server.address(1), *pieces, pause=0.02)
                what = f"{length:,} bytes, cut at {cut:,}: {wanted[9:12].decode()}"
                self.check(what, answer.startswith(wanted), answer[:80])
        ended = server.end()
        self.check("it ends when its input does", ended == (0, ""), ended)

    def is_told_soon(self, server: Server, what: str, wanted: bytes, *pieces: bytes, ends: bool = False) -> None:
        """Checks that a client that sends these pieces, and then nothing, gets this answer at once. It may shut down
        its side."""
        with socket.create_connection(server.address(1)) as line:
            for number, piece in enumerate(pieces):
                time.sleep(0.05 if number else 0)
                line.sendall(piece)
            if ends:
                line.shutdown(socket.SHUT_WR)
            began = time.monotonic()
            answer = next_of(line, 9)
            took = time.monotonic() - began
        self.check(f"{what}: {wanted[9:12].decode()} at once", answer.startswith(wanted) and took < 3,
                   (answer[:80], took))

    def test_refused_heads(self) -> None:
        """Heads that are refused whatever comes behind them are answered at once, even if the body that they state
        never comes, or they have no end."""
        server = self.server(1).wait_until_up()
        for code, version, *lines in REFUSED_FIELDS:
            head, wanted = head_with(version, *lines), f"HTTP/1.1 {code} ".encode()
            what = f"version {version}, {'; '.join(lines)}"
            self.is_told_soon(server, what, wanted, head)
            self.is_told_soon(server, f"{what}; in two pieces", wanted, head[:-7], head[-7:])
            self.is_told_soon(server, f"{what}; waiting for 100 Continue", wanted,
                              head[:-2] + b"Expect: 100-continue\r\n\r\n")
        bad = head_with("1.1", "Host: p", "X-Padding: " + "a" * 60, "Bad Name: x")[:-2]
        many = head_with("1.1", "Host: p", *["X: a"] * 64)[:-2]
        for what, wanted, text in (("a bad line", b"HTTP/1.1 400 ", bad), ("65 lines", b"HTTP/1.1 431 ", many)):
            for ends in (False, True):
                where = "and the client shuts down its side" if ends else "and nothing more comes"
                self.is_told_soon(server, f"{what}, {where}", wanted, text, ends=ends)
        for version, *lines in (("1.0", "Content-Length: 2"), ("1.1", "Host: p", "Content-Length: 002")):
            answer = exchange(server.address(1), head_with(version, *lines), b"{}", pause=0.2)
            self.check(f"version {version}, {'; '.join(lines)}: it waits for the body",
                       answer.startswith(b"HTTP/1.1 201 "), answer[:80])
        self.same("it ends when its input does", (0, ""), server.end())

    def test_slow_garbage(self) -> None:
        """Twelve clients send bad heads without an end, and then a byte now and then: they delay no other client."""
        server = self.server(1).wait_until_up()
        bad = head_with("1.1", "X-Padding: " + "a" * 60, "Bad Name: x")[:-2]
        ended = threading.Event()

        def trickle_garbage() -> None:
            lines: list[socket.socket] = []
            while not ended.wait(0.02):
                while len(lines) < 12:
                    lines.append(socket.create_connection(server.address(1)))
                    lines[-1].sendall(bad)
                for line in list(lines):
                    try:
                        line.send(b"x")
                    except OSError:
                        lines.remove(line)

        sender = threading.Thread(target=trickle_garbage)
        sender.start()
        time.sleep(0.5)
        times = []
        for _ in range(20):
            began = time.monotonic()
            server.ask(1, "GET", "/lra")
            times.append(time.monotonic() - began)
        ended.set()
        sender.join()
        self.check(f"a read takes at most {max(times):.2f} s", max(times) < 1, times)
        self.same("it ends when its input does", (0, ""), server.end())

    def test_expected(self) -> None:
        """Clients send a body only after 100 Continue."""
        server = self.server(1).wait_until_up()
        long_body = b'{"x":"' + b"a" * 20_000 + b'"}'
        for body in (b"{}", long_body):
            for word in ("Expect: 100-continue", "expect: 100-CONTINUE"):
                head = head_with("1.1", "Host: p", word, f"Content-Length: {len(body)}")
                for cut in (len(head), head.index(b"100-")):
                    self.is_led(server, f"{len(body):,} bytes, {word}, cut at {cut}", head, cut, body)
        for what, version, word in (("version 1.0", "1.0", "Expect: 100-continue"),
                                    ("another word", "1.1", "Expect: x")):
            with socket.create_connection(server.address(1)) as line:
                line.sendall(head_with(version, "Host: p", word, "Content-Length: 2"))
                seen = next_of(line, 0.5)
                self.same(f"{what}: nothing comes before the body", b"", seen)
                line.sendall(b"{}")
                self.check(f"{what}: then the answer", next_of(line, 9).startswith(b"HTTP/1.1 201 "))
        whole = head_with("1.1", "Host: p", "Expect: 100-continue", "Content-Length: 2") + b"{}"
        answer = exchange(server.address(1), whole)
        self.check("a body that comes with its head: only the answer", answer.startswith(b"HTTP/1.1 201 "), answer)
        self.same("it ends when its input does", (0, ""), server.end())

    def is_led(self, server: Server, what: str, head: bytes, cut: int, body: bytes) -> None:
        """Checks that a client that waits for 100 Continue receives it once, and then the answer."""
        with socket.create_connection(server.address(1)) as line:
            for piece in (head[:cut], head[cut:]):
                line.sendall(piece)
                time.sleep(0.05)
            seen = next_of(line, 3), next_of(line, 0.3)
            line.sendall(body)
            answer = b"".join(iter(lambda: next_of(line, 9), b""))
        is_so = seen == (CONTINUE, b"") and answer.startswith(b"HTTP/1.1 201 ") and b" 100 " not in answer
        self.check(f"{what}: 100 Continue once, and then the answer", is_so, (seen, answer[:80]))

    def end_of_one(self, nodes: int, folder: str, ports: list[int] | None = None) -> tuple[int, str]:
        """Returns how a server ends that ends by itself."""
        server = self.server(nodes, folder, ports=ports)
        server.process.wait(20)
        return server.end()

    def test_refusals(self) -> None:
        """With ports in use, missing folders, foreign journals or wrong arguments the program doesn't start."""
        ports = free_row(2)
        with socket.create_server((HOST, ports[1])):
            ended = self.end_of_one(2, self.folder, ports)
        wanted = 1, f"node 2: can't listen on port {ports[1]}: it is in use\nport {ports[1]}\n"
        self.check("a port in use", ended == wanted, ended)
        ended = self.end_of_one(1, f"{self.folder}/none")
        self.check("a missing folder", ended == (1, NO_FOLDER), ended)
        other = self.folder_in("other")
        for file in os.listdir(self.folder):
            if file.startswith("node-2.db"):
                shutil.copy(f"{self.folder}/{file}", f"{other}/node-1{file[6:]}")
        ended = self.end_of_one(2, other)
        is_told = ended[1].startswith(f"{NOT_OPENED}the row after ") and ended[1].endswith("\njournal 1\n")
        self.check("a journal of another node", ended[0] == 1 and is_told, ended)
        others: list[list[str]] = [[]]
        for nodes, port in (("9", "8070"), ("1", "80"), ("1", "65529"), ("01", "8070")):
            others.append(["serve", nodes, port, "."])
        for words in others:
            ran = subprocess.run([Server.program, *words], stdin=subprocess.DEVNULL, capture_output=True)
            is_usage = ran.returncode == 2 and ran.stderr.startswith(b"usage: ")
            self.check("wrong arguments: " + " ".join(words), is_usage, ran)


def main() -> int:
    if len(sys.argv) > 1:
        Server.program = unproved.program_of(sys.argv[1])
    checks.need(Server)
    return checks.run(TestServer)


if __name__ == "__main__":
    sys.exit(main())
