"""Relays between members, which lose, delay, slow down or stop what passes through them, and members that connect
through them."""
import contextlib
import socket
import threading
import time
from collections.abc import Iterable

from tools.node import Group
from tools.operated import Operated
from tools.ports import HOST


class Relay:
    """Forwards connections to a port, each after a delay, and drops the first few. Answers pass at `rate` bytes a
    second. Each piece lags, both ways. While the relay is cut nothing passes and no connection ends; afterwards
    whatever came meanwhile passes. Some bytes of requests may be replaced."""

    def __init__(self, port: int, delay: float = 0, lost: int = 0, rate: float = 0) -> None:
        self.port, self.delay, self.lost, self.rate = port, delay, lost, rate
        self.lag: float = 0
        self.swap: tuple[bytes, bytes] | None = None
        self.passes = threading.Event()
        self.passes.set()
        self.listener = socket.create_server((HOST, 0), backlog=64)
        self.own = self.listener.getsockname()[1]
        threading.Thread(target=self.take, daemon=True).start()

    def take(self) -> None:
        with contextlib.suppress(OSError):
            while True:
                line = self.listener.accept()[0]
                if self.lost > 0:
                    self.lost -= 1
                    line.close()
                else:
                    threading.Thread(target=self.hand_on, args=(line,), daemon=True).start()

    def hand_on(self, line: socket.socket) -> None:
        time.sleep(self.delay)
        self.passes.wait()
        with contextlib.suppress(OSError), line, socket.create_connection((HOST, self.port), 30) as other:
            threading.Thread(target=self.ask, args=(line, other), daemon=True).start()
            self.answer(other, line)

    def ask(self, source: socket.socket, sink: socket.socket) -> None:
        """Forwards a request, up to its end."""
        with contextlib.suppress(OSError):
            while source.recv(1, socket.MSG_PEEK):
                self.wait()
                piece = source.recv(65536)
                sink.sendall(piece.replace(*self.swap) if self.swap else piece)
            sink.shutdown(socket.SHUT_WR)

    def answer(self, source: socket.socket, sink: socket.socket) -> None:
        """Forwards an answer, up to its end."""
        with contextlib.suppress(OSError):
            while source.recv(1, socket.MSG_PEEK):
                self.wait()
                piece = source.recv(1024 if self.rate else 65536)
                time.sleep(len(piece) / self.rate if self.rate else 0)
                sink.sendall(piece)
            sink.shutdown(socket.SHUT_WR)

    def wait(self) -> None:
        """Waits for the lag of a piece, and while the relay is cut."""
        time.sleep(self.lag)
        self.passes.wait()

    def close(self) -> None:
        self.listener.close()


class Relayed(Operated):
    """Members that reach each other through relays."""

    def __init__(self, count: int, folder: str, *options: str) -> None:
        super().__init__(count, folder, *options)
        self.relays = [Relay(port) for port in self.ports]
        self.addresses = [f"{HOST}:{relay.own}" for relay in self.relays]

    def run(self, number: int, options: Iterable[str] | None = None, word: str | None = None) -> None:
        given = self.options if options is None else options
        words = [f"listen={HOST}:{self.ports[number - 1]}", f"operate={HOST}:{self.doors[number - 1]}", *given]
        Group.run(self, number, words, word)


class Paired(Relayed):
    """Members with a relay for each pair of an asking and an asked node."""

    def __init__(self, count: int, folder: str, *options: str) -> None:
        super().__init__(count, folder, *options)
        numbers = range(1, count + 1)
        self.pairs = {(one, to): Relay(self.ports[to - 1]) for one in numbers for to in numbers if one != to}

    def addresses_for(self, number: int) -> list[str]:
        relays = [self.pairs.get((number, to + 1), relay) for to, relay in enumerate(self.relays)]
        return [f"{HOST}:{relay.own}" for relay in relays]

    def relays_of(self, number: int) -> list[Relay]:
        """Returns the relays through which a node asks peers, and peers ask it."""
        return [relay for pair, relay in self.pairs.items() if number in pair]

    def cut(self, number: int) -> None:
        """Cuts a node off from all others, both ways."""
        for relay in self.relays_of(number):
            relay.passes.clear()

    def heal(self) -> None:
        for relay in self.pairs.values():
            relay.passes.set()
