"""The body of benches/serve.sh."""
import json
import os
import re
import socket
import sqlite3
import statistics
import subprocess
import sys
import tempfile
import threading
import time
import typing
from collections.abc import Callable

sys.path.insert(0, os.path.dirname(os.path.dirname(os.path.abspath(__file__))))
from tools import checks, repo
from tools.homes import fill_homes
from tools.node import Server, exchange, memory_of, wait_for
from tools.ports import HOST

PORT = 18600
NGINX = 18610
PARTICIPANT = 18611
CLIENT_PARTICIPANT = 18612
LINK = f"http://{HOST}:{PARTICIPANT}/k"
# How many commits the life of an LRA with two participants takes: begin, two joins, close, two reports, purge.
LIFE = 7
# The configuration of an nginx that serves a file of the size of a status.
NGINX_FILE = """worker_processes auto; pid {folder}/nginx.pid; error_log {folder}/nginx.log; daemon off; user root;
events {{ worker_connections 1024; }}
http {{
    access_log off;
    keepalive_timeout 0;
    server {{ listen 127.0.0.1:{port}; root {folder}/www; }}
}}
"""


def started(nodes: int, folder: str) -> Server:
    """Starts a server at the ports of this script, with its journals in a folder of their own."""
    os.mkdir(folder)
    return Server(nodes, folder, range(PORT, PORT + nodes), stderr=None)


class Rate(typing.NamedTuple):
    """A rate per second, and the median and the 99th percentile of one call in milliseconds."""

    count: float
    middle: float
    late: float


def tell_rate(what: str, rate: Rate, clients: int) -> None:
    """Prints a line of the table."""
    count = f"{what:44} {clients} at a time {rate.count:9,.0f}/s"
    print(f"{count}   median {rate.middle:7.2f} ms   99% {rate.late:7.2f} ms", flush=True)


def many(clients: int, times: int, act: Callable[[], object]) -> tuple[list[float], float]:
    """Has this many threads each make a call this often. Returns the seconds of each call, and the calls per second."""
    spans: list[float] = []

    def run() -> None:
        for _ in range(times):
            start = time.perf_counter()
            act()
            spans.append(time.perf_counter() - start)

    threads = [threading.Thread(target=run) for _ in range(clients)]
    start = time.perf_counter()
    for thread in threads:
        thread.start()
    for thread in threads:
        thread.join()
    return spans, clients * times / (time.perf_counter() - start)


def commits(folder: str, clients: int, times: int) -> Rate:
    """Measures one-row commits by the C library: WAL, synchronous FULL, one connection for each client."""
    path = f"{folder}/commits.db"
    local = threading.local()

    def connect() -> sqlite3.Connection:
        base = sqlite3.connect(path, timeout=60, isolation_level=None)
        base.execute("PRAGMA journal_mode=WAL")
        base.execute("PRAGMA synchronous=FULL")
        return base

    connect().execute("CREATE TABLE IF NOT EXISTS t (a INTEGER PRIMARY KEY, b BLOB)")

    def act() -> None:
        if not hasattr(local, "base"):
            local.base = connect()
        local.base.execute("INSERT INTO t (b) VALUES (?)", (b"x" * 100,))

    spans, count = many(clients, times, act)
    each = sorted(spans)
    return Rate(count, statistics.median(each) * 1000, each[len(each) * 99 // 100] * 1000)


def bare(server: Server, method: str, path: str, node: int = 1, body: str = "") -> bytes:
    """Returns the bytes of one answer, over a plain socket: Python's http.client takes longer for a call than the
    server does."""
    while True:
        text = f"{method} {path} HTTP/1.1\r\nHost: p\r\nContent-Length: {len(body)}\r\n\r\n{body}"
        answer = exchange(server.address(node), text.encode())
        if b"E20" not in answer:
            return answer


def begun(server: Server) -> str:
    """Begins an LRA over a plain socket."""
    return repo.found(r"urn:uuid:([0-9a-f-]+)", bare(server, "POST", "/lra").decode())[1]


def built_client(folder: str) -> str:
    """Builds the client of client.c."""
    program = f"{folder}/client"
    subprocess.run(["cc", "-O2", "-pthread", "-o", program, f"{repo.TOP}/benches/client.c"], check=True)
    return program


def lras(client: str, clients: int, what: str) -> Rate:
    """Measures LRAs with the client of client.c: begun and closed, or whole lives."""
    words = [client, str(PORT), str(CLIENT_PARTICIPANT), str(clients), "240", what]  # a home holds 256
    said = subprocess.run(words, stdout=subprocess.PIPE, check=True, text=True).stdout
    return Rate(*map(float, said.split()))


class Measured(typing.NamedTuple):
    """Requests by ab: the rate per second, the median and the 99th percentile in milliseconds, and how many got another
    answer."""

    rate: float
    median: int
    late: int
    bad: int


def ab(url: str, clients: int, count: int) -> Measured:
    """Makes requests with ab, one connection each."""
    words = ["ab", "-q", "-n", str(count), "-c", str(clients), url]
    text = subprocess.run(words, capture_output=True, text=True, check=True).stdout
    median, late = (int(repo.found(rf"^\s*{percent}%\s+(\d+)", text, re.M)[1]) for percent in (50, 99))
    bad = sum(map(int, re.findall(r"(?:Failed requests|Non-2xx responses):\s+(\d+)", text)))
    return Measured(float(repo.found(r"Requests per second:\s+([\d.]+)", text)[1]), median, late, bad)


def statuses(server: Server, folder: str) -> None:
    """Measures statuses beside nginx, which serves a file of the same size."""
    lra = server.begin(1)
    os.mkdir(f"{folder}/www")
    repo.write(f"{folder}/www/lra", json.dumps({"lra": lra, "status": "Active"}, separators=(",", ":")))
    repo.write(f"{folder}/nginx.conf", NGINX_FILE.format(folder=folder, port=NGINX))
    nginx = subprocess.Popen(["nginx", "-c", f"{folder}/nginx.conf"])
    urls = {"GET of a status": f"http://{HOST}:{PORT}/lra/{lra}",
            "nginx, a file of the same size": f"http://{HOST}:{NGINX}/lra"}
    try:
        wait_for(NGINX)
        for clients in (1, 8):
            rates = []
            for what, url in urls.items():
                seen = ab(url, clients, 10_000)
                rates.append(seen.rate)
                rate = f"{what:44} {clients} at a time {seen.rate:9,.0f}/s"
                print(f"{rate}   median {seen.median:7} ms   99% {seen.late:7} ms   not 200: {seen.bad}", flush=True)
            print(f"  ratio {rates[0] / rates[1]:.2f}")
    finally:
        nginx.terminate()
        nginx.wait()


def durable(client: str, folder: str) -> None:
    """Measures begins and closes, and whole LRAs, beside commits of the C library."""
    kinds = {"pairs": ("a begin and a close (two commits)", 2), "lives": (f"a whole LRA ({LIFE} commits)", LIFE)}
    for kind, (what, of_one) in kinds.items():
        for clients in (1, 8):
            ours, theirs = lras(client, clients, kind), commits(folder, clients, 480 // clients)
            tell_rate(what, ours, clients)
            tell_rate("one-row commits of the C library", theirs, clients)
            print(f"  ratio of commits a second {ours.count * of_one / theirs.count:.2f}")


def takes_calls(called: list[float]) -> None:
    """Starts a participant over plain sockets that answers each call as done, and records when it came."""

    def run(listener: socket.socket) -> None:
        while True:
            connection = listener.accept()[0]
            called.append(time.perf_counter())
            with connection:
                connection.recv(65536)
                connection.sendall(b"HTTP/1.1 200 OK\r\nContent-Length: 0\r\n\r\n")

    listener = socket.create_server((HOST, PARTICIPANT))
    threading.Thread(target=run, args=(listener,), daemon=True).start()


def delays(server: Server, called: list[float]) -> None:
    """Measures the time from a close to the participant's call, and from a begin at node 1 until node 2 shows it."""
    to_call, to_other = [], []
    for _ in range(50):
        time.sleep(0.2)
        start = time.perf_counter()
        lra = begun(server)
        while not bare(server, "GET", f"/lra/{lra}", 2).startswith(b"HTTP/1.1 200 "):
            time.sleep(0.001)
        to_other.append(time.perf_counter() - start)
        server.join(1, lra, compensate=LINK, complete=LINK)
        time.sleep(0.2)
        called.clear()
        start = time.perf_counter()
        bare(server, "PUT", f"/lra/{lra}/close")
        while not called:
            time.sleep(0.001)
        to_call.append(called[0] - start)
    found = {"from a close to the participant's call": to_call, "from a begin to its being shown elsewhere": to_other}
    for what, spans in found.items():
        print(f"{what:44} median {statistics.median(spans) * 1000:7.1f} ms   longest {max(spans) * 1000:7.1f} ms",
              flush=True)


def full(server: Server, nodes: int) -> None:
    """Fills each home with 256 LRAs of 8 participants, and then makes one node change its run."""
    fill_homes(server, 8, {"compensate": f"http://{HOST}:9/c"})
    lra = server.ask(1, "GET", "/lra")[1]["lras"][0]["lra"]
    memory = memory_of(server.process, "VmRSS")
    print(f"resident memory, {nodes} full homes at {nodes} nodes {memory:22,.0f} MiB", flush=True)
    spans, _ = many(1, 4_000, lambda: server.ask(1, "GET", f"/lra/{lra}"))
    middle, most = statistics.median(spans) * 1000, max(spans) * 1000
    print(f"4,000 statuses over four runs at full homes: median {middle:.2f} ms, longest {most:.1f} ms", flush=True)


def main() -> int:
    if len(sys.argv) != 2:
        print("usage: benches/serve.sh [PROGRAM]", file=sys.stderr)
        return 2
    Server.program = os.path.abspath(sys.argv[1])
    checks.need(Server)
    called: list[float] = []
    takes_calls(called)
    with tempfile.TemporaryDirectory() as place:
        with started(1, f"{place}/a") as server:
            print(f"resident memory, 1 node with nothing {memory_of(server.process, 'VmRSS'):30,.0f} MiB", flush=True)
            durable(built_client(place), place)
            statuses(server, place)
            server.end()
        with started(2, f"{place}/b") as server:
            delays(server, called)
            server.end()
        with started(8, f"{place}/c") as server:
            full(server, 8)
            server.end()
    return 0


if __name__ == "__main__":
    sys.exit(main())
