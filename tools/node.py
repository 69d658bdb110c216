"""Running nodes of a coordinator: requests to them, what they show, and their processes."""
import contextlib
import http.client
import json
import os
import re
import resource
import socket
import subprocess
import time
import typing
import urllib.parse
from collections.abc import Callable, Iterable, Mapping, Sequence

from tools import repo
from tools.ports import HOST, free_row, is_open

Json = typing.Any
# How many seconds a node may take to start, to answer or to end. It is long because two nodes may share a slow
# processor with a compiler.
SLOW = 90
# What a node refuses with between two runs. Such a request is repeated.
BETWEEN_RUNS = ("E20",)


class Answer(typing.NamedTuple):
    """An answer: its status, its header fields, and its body as text."""

    status: int
    fields: dict[str, str]
    text: str

    def json(self) -> Json:
        return json.loads(self.text) if self.text else {}


def request(address: tuple[str, int], method: str, path: str, body: str | None = None,
            fields: Mapping[str, str] | None = None, inside: contextlib.AbstractContextManager | None = None) -> Answer:
    """Makes one request over a connection of its own. If `inside` is given, the connection is made in that context."""
    connection = http.client.HTTPConnection(*address, timeout=SLOW)
    try:
        with inside or contextlib.nullcontext():
            connection.connect()
        connection.request(method, path, body, dict(fields or {}))
        answer = connection.getresponse()
        return Answer(answer.status, dict(answer.getheaders()), answer.read().decode())
    finally:
        connection.close()


def fetch(url: str) -> Answer:
    """Returns the answer to a GET of a URL."""
    parts = urllib.parse.urlsplit(url)
    return request((parts.hostname or HOST, parts.port or 80), "GET",
                   urllib.parse.urlunsplit(("", "", *parts[2:4], "")))


def exchange(address: tuple[str, int], *pieces: bytes, pause: float = 0) -> bytes:
    """Sends the pieces of a request with pauses between them, and returns all bytes that come back until the peer
    closes."""
    with socket.create_connection(address, 30) as line:
        for number, piece in enumerate(pieces):
            time.sleep(pause if number else 0)
            line.sendall(piece)
        return b"".join(iter(lambda: line.recv(1 << 16), b""))


def ask(port: int, method: str, path: str, body: Json = None, again: Iterable[str] = BETWEEN_RUNS) -> tuple[int, Json]:
    """Makes one request with a JSON body, and returns the status and the JSON of its answer. A request that is refused
    with one of `again` is repeated."""
    while True:
        answer = request((HOST, port), method, path, None if body is None else json.dumps(body))
        if not (answer.status == 503 and any(word in answer.text for word in again)):
            return answer.status, answer.json()


def comes_to(seconds: float, is_so: Callable[[], object]) -> bool:
    """Waits until something is true, and returns whether it became true in time."""
    end = time.monotonic() + seconds
    while not is_so():
        if time.monotonic() > end:
            return False
        time.sleep(0.02)
    return True


def wait_for(port: int, seconds: float = 20) -> None:
    """Waits until something listens at a port."""
    if not comes_to(seconds, lambda: is_open(port)):
        raise SystemExit(f"nothing listens at port {port}")


def home_of(lra: str) -> int:
    """Returns the home node of an LRA. Its number stands in the id: 00000000-0000-8002-.. belongs to node 2."""
    return int(lra[15:18], 16)


def in_ms(seconds: float | None) -> str:
    return "never" if seconds is None else f"{1000 * seconds:.0f} ms"


def memory_of(process: subprocess.Popen, what: str = "VmHWM") -> float:
    """Returns the resident memory of a process in MiB: the present amount (VmRSS) or the peak (VmHWM)."""
    with open(f"/proc/{process.pid}/status", encoding="utf-8") as file:
        return int(repo.found(rf"{what}:\s+(\d+)", file.read())[1]) / 1024


def limit_files(process: subprocess.Popen, size: int) -> None:
    """Limits the size to which a process may write any file; -1 removes the limit."""
    hard = resource.prlimit(process.pid, resource.RLIMIT_FSIZE)[1]
    resource.prlimit(process.pid, resource.RLIMIT_FSIZE, (hard if size < 0 else size, hard))


def end_input(process: subprocess.Popen) -> None:
    """Closes the standard input of a process, which makes our programs end."""
    if process.stdin:
        process.stdin.close()


def without_starts(text: str) -> str:
    """Returns standard error without the lines that say where a node listens."""
    return re.sub(r"^\[INFO .*\] node \d: listens on [0-9.:\[\]]+\n", "", text, flags=re.M)


class Nodes:
    """Several nodes, numbered from 1, each at a port of its own. A client calls them and looks at what they show."""

    ports: Sequence[int]
    again: tuple[str, ...] = BETWEEN_RUNS

    def address(self, node: int) -> tuple[str, int]:
        """Returns the address at which a client reaches a node."""
        return HOST, self.ports[node - 1]

    def inside(self, node: int) -> contextlib.AbstractContextManager:
        """Returns the context in which a connection to a node is made (wire.py)."""
        return contextlib.nullcontext()

    def is_reached(self, node: int) -> bool:
        """Whether a node accepts connections."""
        return is_open(self.ports[node - 1])

    def ask(self, node: int, method: str, path: str, body: Json = None) -> tuple[int, Json]:
        """Makes one request, and returns its status and the JSON of its body. A request that meets the end of a run is
        repeated, for as long as a node may take to answer."""
        text, end = None if body is None else json.dumps(body), time.monotonic() + SLOW
        while True:
            answer = request(self.address(node), method, path, text, inside=self.inside(node))
            is_refused = answer.status == 503 and any(word in answer.text for word in self.again)
            if not is_refused or time.monotonic() > end:
                return answer.status, answer.json()

    def begin(self, node: int, **how: Json) -> str:
        return self.ask(node, "POST", "/lra", how)[1]["lra"]

    def join(self, node: int, lra: str, **links: str) -> tuple[int, Json]:
        return self.ask(node, "PUT", f"/lra/{lra}/join", links)

    def finish(self, node: int, lra: str, word: str = "close") -> int:
        return self.ask(node, "PUT", f"/lra/{lra}/{word}")[0]

    def purge(self, node: int, lra: str) -> tuple[int, Json]:
        return self.ask(node, "DELETE", f"/lra/{lra}")

    def status(self, node: int, lra: str) -> str | None:
        """Returns the status that a node shows of an LRA, or the error with which it refuses to."""
        answer = self.ask(node, "GET", f"/lra/{lra}")[1]
        return answer.get("status") or answer.get("refused")

    def is_gone(self, node: int, lra: str) -> bool:
        return self.status(node, lra) == "E3 NotHeld"

    def comes_to(self, node: int, lra: str, status: str, seconds: float = 30) -> float | None:
        """Returns after how many seconds a node shows this status, or `None` if it doesn't in time."""
        began = time.monotonic()
        return time.monotonic() - began if comes_to(seconds, lambda: self.status(node, lra) == status) else None

    def all_come_to(self, lra: str, status: str, nodes: Iterable[int] = (1, 2, 3)) -> float | None:
        """Returns after how many seconds all nodes show this status, or `None` if one doesn't in time."""
        times = [self.comes_to(node, lra, status) for node in nodes]
        return None if None in times else sum(time or 0 for time in times)

    def shown(self, node: int = 1) -> dict[str, str]:
        """Returns all LRAs that a node shows, with their statuses."""
        lras: dict[str, str] = {}
        after: str | None = ""
        while after is not None:
            page = self.ask(node, "GET", "/lra" + (after and f"?after={after}"))[1]
            lras.update((row["lra"], row["status"]) for row in page["lras"])
            after = page["next"]
        return lras

    def shown_at_home(self) -> dict[str, str]:
        """Returns all LRAs, each with the status that its home shows."""
        nodes = range(1, len(self.ports) + 1)
        return {lra: status for node in nodes for lra, status in self.shown(node).items() if home_of(lra) == node}

    def are_alike(self, nodes: Iterable[int] = (1, 2, 3)) -> bool:
        first, *others = [self.shown(node) for node in nodes]
        return all(other == first for other in others)


class Server(Nodes):
    """Nodes in one process, over one folder. As a context manager it kills the process on exit, unless that has
    ended."""

    program = repo.program("lra_node")

    def __init__(self, nodes: int, folder: str, ports: Sequence[int] | None = None, **how: typing.Any) -> None:
        self.ports = ports or free_row(nodes)
        words = [self.program, "serve", str(nodes), str(self.ports[0]), folder]
        how.setdefault("stderr", subprocess.PIPE)
        self.process = subprocess.Popen(words, stdin=subprocess.PIPE, **how)

    def __enter__(self) -> typing.Self:
        return self.wait_until_up()

    def __exit__(self, *_: object) -> None:
        self.kill()

    def is_running(self) -> bool:
        return self.process.poll() is None

    def is_up(self) -> bool:
        """Whether all nodes accept connections within a minute. False if the program has ended."""
        is_over = comes_to(60, lambda: not self.is_running() or all(map(is_open, self.ports)))
        return is_over and self.is_running()

    def wait_until_up(self) -> typing.Self:
        if not self.is_up():
            raise SystemExit(f"the server doesn't start: {self.end()}")
        return self

    def kill(self) -> None:
        if self.is_running():
            self.process.kill()
            self.process.communicate()

    def end(self) -> tuple[int, str]:
        """Closes standard input, and returns the exit status and standard error, without the lines that say where the
        nodes listen."""
        text = self.process.communicate(timeout=60)[1] or b""
        return self.process.returncode, without_starts(text.decode())


class Group(Nodes):
    """Members: nodes in processes of their own, each over a folder of its own."""

    program = repo.program("lra_node")
    again = ("E19", "E20", "E21")

    def __init__(self, count: int, folder: str, *options: str) -> None:
        self.ports = free_row(count)
        self.folder, self.options = folder, options
        self.addresses = [f"{HOST}:{port}" for port in self.ports]
        self.processes: dict[int, subprocess.Popen] = {}
        for number in range(1, count + 1):
            os.makedirs(f"{folder}/{number}", exist_ok=True)

    def __enter__(self) -> typing.Self:
        return self

    def __exit__(self, *_: object) -> None:
        self.kill(*[number for number, process in self.processes.items() if process.poll() is None])

    def addresses_for(self, number: int) -> list[str]:
        """Returns the addresses that a node is given for itself and its peers."""
        return self.addresses

    def run(self, number: int, options: Iterable[str] | None = None, word: str | None = None) -> None:
        """Starts a process for one node, or for the nodes that `word` names, and doesn't wait for it. As Python itself
        does, it ignores SIGXFSZ, so that a write beyond a file limit fails and doesn't kill the process."""
        given = self.options if options is None else options
        chosen, folder = word or str(number), f"{self.folder}/{number}"
        words = [self.program, "member", chosen, folder, *given, *self.addresses_for(number)]
        with open(f"{self.folder}/{number}.log", "ab") as log:
            self.processes[number] = subprocess.Popen(words, stdin=subprocess.PIPE, stderr=log, restore_signals=False)

    def start(self, *numbers: int, options: Iterable[str] | None = None, word: str | None = None) -> typing.Self:
        """Starts these nodes, or all if none is named, and waits until they accept connections."""
        chosen = numbers or range(1, len(self.ports) + 1)
        for number in chosen:
            self.run(number, options, word)
        for number in chosen:
            process = self.processes[number]
            comes_to(SLOW, lambda: process.poll() is not None or self.is_reached(number))
            if process.poll() is not None or not self.is_reached(number):
                raise SystemExit(f"node {number} doesn't start: {self.log(number)}")
        return self

    def whole_log(self, number: int) -> str:
        """Returns what a node logged on standard error."""
        with open(f"{self.folder}/{number}.log", encoding="utf-8") as file:
            return file.read()

    def log(self, number: int) -> str:
        return without_starts(self.whole_log(number))

    def lines(self, number: int) -> list[str]:
        """Returns the lines that a node logged, without the level and the code location."""
        return [re.sub(r"^\[WARN +\w+(?:::\w+)+\] ", "", line) for line in self.log(number).splitlines()]

    def kill(self, *numbers: int) -> None:
        for number in numbers:
            self.processes[number].kill()
        for number in numbers:
            self.processes[number].communicate()

    def end(self, *numbers: int) -> list[int]:
        """Closes the standard input of each node, and returns their exit statuses."""
        chosen = numbers or list(self.processes)
        for number in chosen:
            end_input(self.processes[number])
        return [self.processes[number].wait(SLOW) for number in chosen]
