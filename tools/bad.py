"""What tests do to a server: they send it garbage, open strange connections, and give it disks that are too small."""
import contextlib
import math
import os
import shutil
import socket
import subprocess
import time
import unittest
from collections.abc import Callable

from tools.load import GONE
from tools.node import Server
from tools.ports import HOST

# A pull with a byte of garbage. It is answered with 400, and counts as one of a run's sixteen.
GARBAGE = b"POST /peer/pull HTTP/1.1\r\nHost: p\r\nContent-Length: 1\r\n\r\n\x09"
# A link at which nothing listens, as long as a realistic one may be.
LONG_LINK = f"http://{HOST}:9/" + "c" * 100


def connection(server: Server, text: bytes = b"", room: int | None = None) -> socket.socket:
    """Returns a connection to the first node over which `text` was sent, with a receive buffer of `room` bytes if that
    is given."""
    line = socket.socket()
    if room:
        line.setsockopt(socket.SOL_SOCKET, socket.SO_RCVBUF, room)
    line.connect(server.address(1))
    line.sendall(text)
    return line


def fill(server: Server, lras: int, joins: int) -> list[str]:
    """Begins LRAs at the first node, each with this many joins with long links, until a call isn't answered, and
    returns the LRAs whose begin was answered."""
    begun: list[str] = []
    with contextlib.suppress(KeyError, *GONE):
        while len(begun) < lras:
            begun.append(server.begin(1))
            for _ in range(joins):
                server.join(1, begun[-1], compensate=LONG_LINK)[1]["member"]
    return begun


def slowest_page(server: Server, is_over: Callable[[], bool], pause: float) -> float:
    """Requests a page again and again, with pauses between, and returns the longest time that one took; infinity if one
    was refused."""
    slowest = 0.0
    while not is_over():
        began = time.monotonic()
        code = server.ask(1, "GET", "/lra")[0]
        slowest = max(slowest, time.monotonic() - began if code == 200 else math.inf)
        time.sleep(pause)
    return slowest


def is_closed(line: socket.socket, until: float = 0) -> bool:
    """Whether a connection is closed without an answer, by the moment `until` if that is given."""
    line.settimeout(max(0.01, until - time.monotonic()))
    try:
        return line.recv(1) == b""
    except TimeoutError:
        return False
    except OSError:
        return True


def is_over(line: socket.socket) -> bool:
    """Whether nothing more comes over a connection, after what has come is read."""
    line.setblocking(False)
    try:
        while line.recv(65536):
            pass
        return True
    except BlockingIOError:
        return False
    except OSError:
        return True


def small_disk(test: unittest.TestCase, size: str) -> str:
    """Mounts a disk of this size in a test's folder until the test ends, and returns its path. Skips the test if this
    user may not mount one."""
    folder = getattr(test, "folder")
    disk = f"{folder}/disk"
    os.mkdir(disk)
    words = ["mount", "-t", "tmpfs", "-o", f"size={size}", "lra", disk]
    if not shutil.which("mount") or subprocess.run(words, stderr=subprocess.DEVNULL).returncode:
        test.skipTest("this user may not mount a small disk")
    test.addCleanup(unmount, disk)
    return disk


def unmount(disk: str) -> None:
    subprocess.run(["umount", disk], check=True)


def larger(disk: str) -> None:
    """Makes such a disk larger."""
    subprocess.run(["mount", "-o", "remount,size=64m", disk], check=True)
