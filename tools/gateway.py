"""A running gateway: its command line and its process."""
import os
import subprocess
import typing
from collections.abc import Sequence

from tools import repo
from tools.node import SLOW, Group, comes_to, end_input
from tools.operated import Operated
from tools.ports import HOST, free_row, is_open

# The key that all gateways use.
KEY = "00112233445566778899aabbccddeeff" * 2
KEY_NAME = "LRA_GATEWAY_KEY"


def doors_of(group: Operated) -> list[str]:
    """Returns the nodes of a group as a gateway takes them that asks each node."""
    return [f"{HOST}:{port}/{door}" for port, door in zip(group.ports, group.doors, strict=True)]


class Gateway:
    """A gateway for groups of nodes, each a list as `doors_of` returns it. Clients reach it at `port`, the nodes of the
    first group at `calls`, and the nodes of each further group one port higher. `options` are added to its command
    line."""

    program = repo.program("lra_gateway")

    def __init__(self, folder: str, groups: Sequence[Sequence[str]], options: Sequence[str] = (), base: str = "",
                 via: str = "") -> None:
        self.port, self.calls, *_ = free_row(1 + len(groups))
        self.folder, self.groups, self.options, self.via = folder, groups, list(options), via
        self.base = base or f"http://{HOST}:{self.port}"
        self.process: subprocess.Popen | None = None

    def __enter__(self) -> typing.Self:
        return self.start()

    def __exit__(self, *_: object) -> None:
        if self.is_running():
            self.kill()

    def words(self) -> list[str]:
        """Returns its command line."""
        calls = [f"calls={HOST}:{self.calls}", f"via={self.via}:{self.calls}"] if self.via else [f"calls={self.calls}"]
        return [f"listen={HOST}:{self.port}", f"base={self.base}", *calls, *self.options,
                *[f"group={','.join(nodes)}" for nodes in self.groups]]

    def path_of_log(self) -> str:
        return f"{self.folder}/gateway-{self.port}.log"

    def is_running(self) -> bool:
        return self.process is not None and self.process.poll() is None

    def run(self) -> None:
        """Starts the process, and doesn't wait for it."""
        with open(self.path_of_log(), "ab") as log:
            self.process = subprocess.Popen([self.program, *self.words()], stdin=subprocess.PIPE, stdout=log,
                                            stderr=log, env={**os.environ, KEY_NAME: KEY})

    def start(self) -> typing.Self:
        """Starts it, and waits until it accepts connections."""
        self.run()
        ports = [self.port, *(self.calls + place for place in range(len(self.groups)))]
        comes_to(SLOW, lambda: not self.is_running() or all(map(is_open, ports)))
        if not self.is_running() or not all(map(is_open, ports)):
            raise SystemExit(f"the gateway doesn't start: {self.log()}")
        return self

    def log(self) -> str:
        """Returns what it logged on standard error."""
        return repo.read(self.path_of_log())

    def kill(self) -> None:
        """Kills it with SIGKILL."""
        if self.process:
            self.process.kill()
            self.process.communicate()

    def again(self) -> None:
        """Kills it, and starts it again."""
        self.kill()
        self.start()

    def end(self) -> int | None:
        """Closes its standard input, and returns its exit status."""
        if not self.process:
            return None
        end_input(self.process)
        return self.process.wait(SLOW)
