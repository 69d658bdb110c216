"""Members in network namespaces of their own, over a network that delays and loses packets. Needs root, /dev/net/tun
and `ip`, but not the kernel's netem. Nothing stays behind: a namespace goes with its last process and file."""
import contextlib
import ctypes
import fcntl
import heapq
import os
import random
import select
import socket
import struct
import subprocess
import threading
import time
import typing
from collections.abc import Iterable, Iterator

from tools.node import Group

LIBC = ctypes.CDLL(None, use_errno=True)
NEW_NET = 0x40000000
SET_TUN, PLAIN_TUN = 0x400454CA, 0x1001
PORT = 8070


def must(code: int) -> None:
    """Raises an error if a call of the C library failed."""
    if code:
        error = ctypes.get_errno()
        raise OSError(error, os.strerror(error))


def enter(namespace: int) -> None:
    """Makes this thread open its next sockets in a namespace."""
    must(LIBC.setns(namespace, NEW_NET))


def own_namespace() -> int:
    return os.open("/proc/thread-self/ns/net", os.O_RDONLY | os.O_CLOEXEC)


class Wire:
    """A number of namespaces, of which number I has the address 10.77.0.I, and a thread that forwards or drops the
    packets between them."""

    def __init__(self, count: int, delay: float, loss: float) -> None:
        self.delay, self.loss, self.dice, self.sent, self.lost = delay, loss, random.Random(60), 0, 0
        self.home = own_namespace()
        self.namespaces: dict[int, int] = {}
        # The nodes whose machine is lost: no packet leaves or reaches them.
        self.cut: set[int] = set()
        self.devices: dict[int, int] = {}
        for number in range(1, count + 1):
            self.add(number)
        self.wake = os.pipe()
        self.thread = threading.Thread(target=self.hand_on, daemon=True)
        self.thread.start()

    def add(self, number: int) -> None:
        try:
            must(LIBC.unshare(NEW_NET))
            self.namespaces[number] = own_namespace()
            self.devices[number] = os.open("/dev/net/tun", os.O_RDWR | os.O_CLOEXEC)
            fcntl.ioctl(self.devices[number], SET_TUN, struct.pack("16sH", b"wire", PLAIN_TUN))
            for words in ("link set lo up", f"addr add 10.77.0.{number}/24 dev wire", "link set wire up"):
                if subprocess.run(["ip", *words.split()], capture_output=True).returncode:
                    raise OSError(f"ip {words} fails")
        finally:
            enter(self.home)

    def hand_on(self) -> None:
        waiting: list[tuple[float, int, int, bytes]] = []
        count = 0
        while True:
            pause = max(0, waiting[0][0] - time.monotonic()) if waiting else None
            ready, _, _ = select.select([*self.devices.values(), self.wake[0]], [], [], pause)
            if self.wake[0] in ready:
                return
            for device in ready:
                packet = os.read(device, 65536)
                to = self.devices.get(packet[19]) if packet[0] >> 4 == 4 and packet[16:19] == b"\x0a\x4d\0" else None
                if to is None or self.cut & {packet[15], packet[19]}:
                    continue
                self.sent += 1
                if self.dice.random() < self.loss:
                    self.lost += 1
                else:
                    count += 1
                    heapq.heappush(waiting, (time.monotonic() + self.delay, count, to, packet))
            while waiting and waiting[0][0] <= time.monotonic():
                _, _, to, packet = heapq.heappop(waiting)
                os.write(to, packet)

    @contextlib.contextmanager
    def inside(self, number: int) -> Iterator[None]:
        enter(self.namespaces[number])
        try:
            yield
        finally:
            enter(self.home)

    def __enter__(self) -> typing.Self:
        return self

    def __exit__(self, *_: object) -> None:
        os.write(self.wake[1], b".")
        self.thread.join()
        for file in (self.home, *self.namespaces.values(), *self.devices.values(), *self.wake):
            os.close(file)


class GroupApart(Group):
    """Members that each have a namespace of their own, in which clients reach them."""

    def __init__(self, net: Wire, folder: str, *options: str) -> None:
        super().__init__(len(net.namespaces), folder, *options)
        self.net = net
        self.addresses = [f"10.77.0.{number}:{PORT}" for number in net.namespaces]

    def run(self, number: int, options: Iterable[str] | None = None, word: str | None = None) -> None:
        given = self.options if options is None else options
        with self.net.inside(number):
            super().run(number, (f"listen={self.addresses[number - 1]}", *given), word)

    def address(self, node: int) -> tuple[str, int]:
        return f"10.77.0.{node}", PORT

    def inside(self, node: int) -> contextlib.AbstractContextManager:
        return self.net.inside(node)

    def is_reached(self, node: int) -> bool:
        with self.inside(node), socket.socket() as probe:
            return probe.connect_ex(self.address(node)) == 0


class GroupNamed(GroupApart):
    """Members that find each other by name, such as lra2. A node may move to another namespace with its folder and its
    name, as when an orchestrator starts it on another machine over the same volume."""

    def __init__(self, net: Wire, folder: str, count: int, *options: str) -> None:
        Group.__init__(self, count, folder, *options)
        self.net, self.places = net, {number: number for number in range(1, count + 1)}
        self.addresses = [f"lra{number}:{PORT}" for number in self.places]
        self.write_names()
        # The program sees its own host names, in a mount namespace that ends with it.
        run = f"mount --bind {folder}/hosts /etc/hosts && exec {Group.program}"
        self.program = f"{folder}/named"
        with open(self.program, "w", encoding="utf-8") as file:
            file.write(f"#!/bin/sh\nexec unshare --mount sh -c '{run} \"$@\"' sh \"$@\"\n")
        os.chmod(self.program, 0o755)

    def write_names(self) -> None:
        """Writes where each name leads now. The file stays the same file."""
        with open(f"{self.folder}/hosts", "w", encoding="utf-8") as file:
            file.writelines(f"10.77.0.{place} lra{number}\n" for number, place in self.places.items())

    def move(self, node: int, place: int) -> None:
        """Makes a node's name lead to another namespace. The node is started there afterwards."""
        self.places[node] = place
        self.write_names()

    def run(self, number: int, options: Iterable[str] | None = None, word: str | None = None) -> None:
        given = self.options if options is None else options
        with self.inside(number):
            Group.run(self, number, (f"listen=10.77.0.{self.places[number]}:{PORT}", *given), word)

    def address(self, node: int) -> tuple[str, int]:
        return f"10.77.0.{self.places[node]}", PORT

    def inside(self, node: int) -> contextlib.AbstractContextManager:
        return self.net.inside(self.places[node])
