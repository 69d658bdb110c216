#!/usr/bin/env python3
"""Measures what the gateway adds to each call of a service: python3 benches/gateway.py. One client makes calls to a
node, and then the same calls through a gateway beside it, with crates/lra_node/out/lra_node and
crates/lra_gateway/out/lra_gateway. Takes a minute; uses only the standard library."""
import contextlib
import os
import statistics
import sys
import tempfile
import time
import typing
from collections.abc import Callable

sys.path.insert(0, os.path.dirname(os.path.dirname(os.path.abspath(__file__))))
from tools import checks
from tools.gateway import Gateway, doors_of
from tools.narayana import Annotated, Client
from tools.node import Group
from tools.operated import Operated

# How many LRAs are begun, joined, closed and seen Closed in each way.
LRAS = 300
STEPS = ("a begin", "a join", "a status", "a close", "from a close to Closed")


class Times:
    """How long each step took, in milliseconds."""

    def __init__(self) -> None:
        self.all: dict[str, list[float]] = {step: [] for step in STEPS}

    def of(self, step: str, call: Callable[..., typing.Any], *words: typing.Any) -> typing.Any:
        """Makes a call, and records how long it took."""
        began = time.monotonic()
        result = call(*words)
        self.all[step].append(1000 * (time.monotonic() - began))
        return result

    def middle(self, step: str) -> float:
        return statistics.median(self.all[step])


def until_closed(status: Callable[[], object]) -> None:
    while status() != "Closed":
        pass


def at_a_node(group: Group, service: Annotated, times: Times) -> None:
    """Plays one LRA with a participant that completes, through a node's own interface."""
    lra = times.of("a begin", group.begin, 1)
    links = {"compensate": f"{service.base()}/compensate", "complete": f"{service.base()}/complete"}
    times.of("a join", lambda: group.join(1, lra, **links))
    times.of("a status", group.status, 1, lra)
    began = time.monotonic()
    times.of("a close", group.finish, 1, lra)
    until_closed(lambda: group.status(1, lra))
    times.all["from a close to Closed"].append(1000 * (time.monotonic() - began))


def by_the_gateway(client: Client, service: Annotated, times: Times) -> None:
    """Plays the same through the gateway, which doesn't wait for the end."""
    lra = times.of("a begin", client.start)
    times.of("a join", client.join, lra, service.link())
    times.of("a status", client.status, lra)
    began = time.monotonic()
    times.of("a close", client.end, lra)
    until_closed(lambda: client.status(lra))
    times.all["from a close to Closed"].append(1000 * (time.monotonic() - began))


def main() -> int:
    checks.need(Group, Gateway)
    own, other = Times(), Times()
    with tempfile.TemporaryDirectory() as folder, Operated(1, folder, "keep=0") as group, \
            contextlib.closing(Annotated(in_chunks=False)) as service, \
            Gateway(folder, [doors_of(group.start())], ["wait=0"]) as gateway:
        client = Client(gateway.port)
        for _ in range(LRAS):
            at_a_node(group, service, own)
            by_the_gateway(client, service, other)
    for step in STEPS:
        print(f"{step}: {own.middle(step):.2f} ms at the node, {other.middle(step):.2f} by the gateway")
    return 0


if __name__ == "__main__":
    sys.exit(main())
