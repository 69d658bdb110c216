"""Ports of this machine: which are free, and which process listens there."""
import contextlib
import errno
import os
import socket
from collections.abc import Iterable, Iterator

HOST = "127.0.0.1"
# The range in which free ports are looked for. It lies below the ports that the system gives to clients.
FIRST, LAST = 20000, 32000
_next = FIRST + os.getpid() % 100 * 100


def is_open(port: int) -> bool:
    """Whether something accepts connections at a port."""
    with socket.socket() as probe:
        return probe.connect_ex((HOST, port)) == 0


def is_free(port: int) -> bool:
    """Whether a server could listen at a port. As with the coordinator, connections that are still closing don't
    count."""
    with socket.socket() as probe:
        probe.setsockopt(socket.SOL_SOCKET, socket.SO_REUSEADDR, 1)
        try:
            probe.bind((HOST, port))
        except OSError as error:
            return error.errno != errno.EADDRINUSE
    return True


def free_row(count: int) -> list[int]:
    """Returns this many free ports in a row, different ones each time."""
    global _next
    while True:
        row = list(range(_next, _next + count))
        _next = row[-1] + 1 if row[-1] + count < LAST else FIRST
        if all(map(is_free, row)):
            return row


def listening() -> Iterator[tuple[str, str]]:
    """Returns each TCP address at which something listens, as the kernel spells it, with its socket."""
    with open("/proc/net/tcp", encoding="ascii") as file:
        rows = [line.split() for line in file.readlines()[1:]]
    # In a row the second field is the address, the fourth the state (0A means listening), and the tenth the socket.
    return ((row[1], row[9]) for row in rows if row[3] == "0A")


def sockets_of(process: int) -> Iterator[str]:
    """Yields the names that /proc has for the open sockets and files of a process."""
    folder = f"/proc/{process}/fd"
    with contextlib.suppress(OSError):  # it has ended
        for name in os.listdir(folder):
            with contextlib.suppress(OSError):  # it was closed just now
                yield os.readlink(f"{folder}/{name}")


def listens_at(process: int, ports: Iterable[int]) -> bool:
    """Whether a process itself listens at all these ports of 127.0.0.1. A connection would only show that something
    answers there."""
    own = set(sockets_of(process))
    held = {address for address, number in listening() if f"socket:[{number}]" in own}
    return all(f"0100007F:{port:04X}" in held for port in ports)
