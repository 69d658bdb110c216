#!/usr/bin/env python3
"""Tests the gateway from the side of services with LRA annotations: python3 tests/gateway.py [PROGRAM [MEMBER]]
[TEST..].

It starts three nodes, a gateway in front of them, and services that send what Narayana's client sends
(tools/narayana.py). PROGRAM is the gateway, crates/lra_gateway/out/lra_gateway, and MEMBER a node,
crates/lra_node/out/lra_node. --unproved may replace either, and alone replaces both, as tools/unproved.py compiles
them. Without a TEST it runs all tests, which takes some two minutes. Each check prints a line. Exits with 1 if a check
fails. Uses only the standard library."""
import concurrent.futures
import contextlib
import http.client
import itertools
import os
import re
import socket
import statistics
import subprocess
import sys
import tempfile
import threading
import time
import typing
import urllib.parse
from collections.abc import Callable, Iterator, Sequence

sys.path.insert(0, os.path.dirname(os.path.dirname(os.path.abspath(__file__))))
from tools import checks, repo, unproved
from tools.gateway import KEY, KEY_NAME, Gateway, doors_of
from tools.narayana import (Annotated, Client, Context, Declined, answer_over, code_of, head_of, insist, invoke, quoted,
                            uid_of)
from tools.node import SLOW, Answer, Group, Json, comes_to, end_input, home_of
from tools.operated import Operated
from tools.participant import Reply, chunks_of
from tools.ports import HOST, free_row, is_open
from tools.version import build_said

# Nodes purge nothing during these tests, and calls are answered at their end, however slow the machine is.
KEEP, PATIENT = "keep=60000", ("wait=20000", "again=60000")
FULL = ("compensate", "complete", "status", "forget", "after", "leave")
NONE = "00000000-0000-8001-8000-0000000fffff"
OTHERS = "http://other:8080/lra-coordinator/0_ffff7f000001_9edb_65f0c1_2"
# Answers of participants that can't compensate, and answers to a compensate call that don't count as done.
FAILED: tuple[Reply, ...] = (409, (200, b"FailedToCompensate"), (200, b"\"FailedToCompensate\""),
                             (409, b"FailedToCompensate"))
ODD: tuple[Reply, ...] = ((200, b"Completed"), (200, b"Active"), 404, 500, 302, 412, (200, b"x" * 70_000))
# What a Java client sends that would prefer HTTP/2.
UPGRADE = ("Connection: Upgrade, HTTP2-Settings", "Upgrade: h2c", "HTTP2-Settings: AAMAAABkAAQAAP__")


class Rough:
    """A participant that answers each call with the next of some texts, and closes the connection. It repeats the last
    text."""

    def __init__(self, *answers: bytes, host: str = HOST) -> None:
        self.answers, self.count = answers, 0
        family = socket.AF_INET6 if ":" in host else socket.AF_INET
        self.listener = socket.create_server((host, 0), family=family, backlog=64)
        self.port = self.listener.getsockname()[1]
        self.url = f"http://{HOST}:{self.port}"
        threading.Thread(target=self.take, daemon=True).start()

    def take(self) -> None:
        with contextlib.suppress(OSError):
            while True:
                line = self.listener.accept()[0]
                with contextlib.suppress(OSError), line:
                    read_head(line)
                    self.count += 1
                    line.sendall(self.answers[min(self.count, len(self.answers)) - 1])

    def close(self) -> None:
        self.listener.close()


def read_head(line: socket.socket) -> bytes:
    """Reads the head that comes over a connection, or as much of it as comes."""
    head = b""
    while not head.endswith(b"\r\n\r\n") and (byte := line.recv(1)):
        head += byte
    return head


def link_to(url: str, word: str = "compensate") -> str:
    """Returns a link that is as short as possible."""
    return f"<{url}>; rel=\"{word}\""


def own_address() -> str | None:
    """Returns an address of this machine other than the loopback address, if it has one."""
    with socket.socket(socket.AF_INET, socket.SOCK_DGRAM) as probe:
        try:
            probe.connect(("198.51.100.1", 9))
        except OSError:
            return None
        found = probe.getsockname()[0]
    return None if found.startswith("127.") else found


def asked_at(address: tuple[str, int], method: str, target: str, *fields: str) -> int:
    """Sends a request that a node might send, and returns the status of the answer, or 0 if the connection is closed
    without one."""
    lines = [f"{method} {target} HTTP/1.1", f"Host: {address[0]}:{address[1]}", *fields, "Content-Length: 0",
             "Connection: close", "", ""]
    try:
        with socket.create_connection(address, SLOW) as line:
            line.sendall("\r\n".join(lines).encode())
            return answer_over(line, method).status
    except (OSError, http.client.HTTPException):
        return 0


def with_node(carried: str) -> tuple[tuple[str, int], str]:
    """Returns the address that a node calls for a carried link, and the request target."""
    parts = urllib.parse.urlsplit(carried)
    return (parts.hostname or "", parts.port or 80), urllib.parse.urlunsplit(("", "", *parts[2:4], ""))


def seconds_of(call: Callable[..., object], *words: typing.Any) -> float:
    """Returns how long a call takes."""
    began = time.monotonic()
    call(*words)
    return time.monotonic() - began


@contextlib.contextmanager
def beside(call: Callable[[], object]) -> Iterator[None]:
    """Makes a call in the background, and waits for its end."""
    with concurrent.futures.ThreadPoolExecutor() as pool:
        future = pool.submit(call)
        yield
        future.result()


class TestGateway(checks.Checked):
    needs = (Group, Gateway)
    takes = "some two minutes"
    # Three nodes that all tests share.
    nodes: Operated

    @classmethod
    def setUpClass(cls) -> None:
        super().setUpClass()
        folder = cls.enterClassContext(tempfile.TemporaryDirectory())
        cls.nodes = cls.enterClassContext(Operated(3, folder, KEEP))

    # ---- fixtures

    def members(self) -> Operated:
        """Returns the nodes, and starts those that aren't running."""
        running = [number for number, process in self.nodes.processes.items() if process.poll() is None]
        away = [number for number in (1, 2, 3) if number not in running]
        return self.nodes.start(*away) if away else self.nodes

    def front(self, groups: Sequence[Sequence[str]], *options: str, base: str = "", via: str = "") -> Gateway:
        """Makes a gateway that isn't started yet. It is killed when the test ends."""
        made = Gateway(self.folder, groups, options, base, via)
        self.addCleanup(made.__exit__)
        return made

    def up(self, *options: str, via: str = "") -> Client:
        """Starts a gateway in front of the nodes, and returns its client. Without options it waits for the end of an
        LRA as long as that may take."""
        self.gateway = self.front([doors_of(self.members())], *(options or PATIENT), via=via).start()
        self.client = Client(self.gateway.port)
        return self.client

    def service(self, *words: str, **how: typing.Any) -> Annotated:
        made = Annotated(*words, **how)
        self.addCleanup(made.close)
        return made

    def rough(self, *answers: bytes, host: str = HOST) -> Rough:
        made = Rough(*answers, host=host)
        self.addCleanup(made.close)
        return made

    def joined(self, *services: Annotated, parent: str = "") -> str:
        """Begins an LRA that these services join, in this order."""
        lra = self.client.start(parent)
        for service in services:
            self.client.join(lra, service.link())
        return lra

    def is_shown(self, lra: str, status: str, what: str = "it ends") -> None:
        came = self.client.comes_to(lra, status)
        self.check(f"{what}: {status}", came, came or self.client.status(lra))

    def is_declined(self, what: str, code: int, call: Callable[..., object], *words: typing.Any) -> None:
        self.same(what, code, code_of(call, *words))

    def record(self, lra: str) -> Json:
        """Returns what the home of an LRA shows operators of it."""
        return self.nodes.record(home_of(lra_of(lra)), lra_of(lra))

    def carried(self, lra: str, word: str = "compensate") -> str:
        """Returns the link that the node has in place of the first participant's own link."""
        return self.record(lra)["members"][0]["links"][word]

    # ---- what a filter does

    def test_required(self) -> None:
        """A method that needs an LRA begins one, joins it, and closes it."""
        client, trip, seen = self.up(), self.service(), []

        def book(context: Context) -> int:
            seen.append(context)
            self.same("the LRA's status within the method", "Active", client.status(context.lra))
            return 200

        self.same("the method's status", 200, invoke(client, "REQUIRED", trip, book))
        lra, recovery = seen[0]
        self.is_shown(lra, "Closed")
        self.same("the calls", [("PUT", "/trip/complete?method=jakarta.ws.rs.PUT")], trip.made(lra))
        fields = trip.calls[0].fields
        self.same("the id as it was given", lra, fields["Long-Running-Action"])
        self.same("the recovery URL as it was given", recovery, fields["Long-Running-Action-Recovery"])
        self.same("no parent", None, fields["Long-Running-Action-Parent"])
        self.same("a length and no body", ("0", b""), (fields["Content-Length"], trip.calls[0].body))
        self.same("the host", f"{HOST}:{trip.port}", fields["Host"])
        self.check("it doesn't ask to close the connection", fields["Connection"] is None, fields["Connection"])

    def test_answers(self) -> None:
        """Each call gets its answer, with its header fields."""
        client, trip = self.up(), self.service()
        begun = client.send("POST", "start?ClientID=a&TimeLimit=0&ParentLRA=", "")
        lra = begun.text
        self.same("a start", (201, lra, lra), (begun.status, begun.fields.get("Location"),
                                               begun.fields.get("Long-Running-Action")))
        self.check("an id", re.fullmatch(rf"{re.escape(client.root())}/[0-9a-f-]{{36}}", lra), lra)
        joined = client.send("PUT", f"{uid_of(lra)}?TimeLimit=0", trip.link(), f"Link: {trip.link()}")
        recovery = joined.text
        self.same("a join", (200, recovery, recovery), (joined.status, joined.fields.get("Location"),
                                                        joined.fields.get("Long-Running-Action-Recovery")))
        self.same("where it is recovered", f"{client.root()}/recovery/{uid_of(lra)}/1", recovery)
        status = client.send("GET", f"{uid_of(lra)}/status")
        self.same("a status", (200, "Active"), (status.status, status.text))
        self.check("as text", status.fields.get("Content-Type", "").startswith("text/plain"), status.fields)
        ended = client.send("PUT", f"{uid_of(lra)}/close", "")
        self.same("a close", (200, "Closed"), (ended.status, ended.text))
        self.same("a second close", (200, "Closed"), self.ended(lra))
        self.is_declined("a cancel after the close", 412, client.end, lra, "cancel")
        self.is_declined("a leave", 412, client.leave, lra, trip.link())
        with client.connect() as line:
            line.sendall(head_of("GET", f"/lra-coordinator/{uid_of(lra)}/status", "x"))
            first = answer_over(line)
            if first.fields.get("Connection", "").lower() == "close":
                self.check("it closes the connection as it says", line.recv(1) == b"")
            else:
                line.sendall(head_of("GET", f"/lra-coordinator/{uid_of(lra)}/status", "x"))
                self.same("it takes a second request", 200, answer_over(line).status)

    def ended(self, lra: str, word: str = "close") -> tuple[int, str]:
        answer = self.client.send("PUT", f"{uid_of(lra)}/{word}", "")
        return answer.status, answer.text

    def test_chain(self) -> None:
        """A method calls another service's method within its LRA: both complete, or both compensate, the last to join
        first."""
        client, one, two = self.up(), self.service(), self.service()
        seen: list[str] = []

        def inner(context: Context) -> int:
            seen.append(context.lra)
            return 200

        def outer(kind: str, code: int) -> Callable[[Context], int]:
            def method(context: Context) -> int:
                seen.append(context.lra)
                invoke(client, kind, two, inner, context.lra, ends=False)
                return code

            return method

        invoke(client, "REQUIRED", one, outer("REQUIRED", 200))
        self.check("one LRA", seen[0] == seen[1], seen)
        self.is_shown(seen[0], "Closed")
        self.same("both complete", (1, 1), (len(one.of("complete")), len(two.of("complete"))))
        two.say("compensate", (200, b"Compensated"))
        self.same("a method that fails", 500, invoke(client, "REQUIRED", one, outer("MANDATORY", 500)))
        self.is_shown(seen[2], "Cancelled")
        first, last = one.of("compensate"), two.of("compensate")
        self.same("both compensate", (1, 1), (len(first), len(last)))
        self.check("the last to join compensates first", last[0].at < first[0].at)

    def test_types(self) -> None:
        """Methods work with each type of LRA."""
        client, one, two = self.up(), self.service(), self.service()
        seen: list[str] = []
        self.same("MANDATORY without an LRA", 412, invoke(client, "MANDATORY", one, lambda _: 200))

        def inner(context: Context) -> int:
            seen.append(context.lra)
            return 200

        def outer(context: Context) -> int:
            seen.append(context.lra)
            invoke(client, "REQUIRES_NEW", two, inner, context.lra)
            return 500

        invoke(client, "REQUIRED", one, outer)
        self.check("a new LRA", seen[0] != seen[1], seen)
        self.is_shown(seen[0], "Cancelled")
        self.is_shown(seen[1], "Closed", "the new LRA")
        self.same("the new LRA isn't compensated", [], two.of("compensate"))
        self.same("NEVER within an LRA", 412, invoke(client, "NEVER", one, lambda _: 200, seen[0]))
        self.same("SUPPORTS without an LRA", 200, invoke(client, "SUPPORTS", one, lambda _: 200))
        self.same("NESTED without an LRA begins one", 200, invoke(client, "NESTED", two, inner))
        self.is_shown(seen[2], "Closed")

    def test_nested(self) -> None:
        """A nested LRA that closed is compensated with its parent, and only then its listener is notified of the
        end."""
        client, one = self.up(), self.service()
        two = self.service("compensate", "complete", "forget", "after")
        seen: list[str] = []

        def inner(context: Context) -> int:
            seen.append(context.lra)
            return 200

        def outer(context: Context) -> int:
            seen.append(context.lra)
            invoke(client, "NESTED", two, inner, context.lra)
            self.is_shown(seen[1], "Closed", "the nested LRA")
            self.same("the call names the parent", context.lra,
                      two.of("complete")[0].fields["Long-Running-Action-Parent"])
            self.same("the listener isn't notified yet", [], two.of("after"))
            return 500

        invoke(client, "REQUIRED", one, outer)
        for lra in seen:
            self.is_shown(lra, "Cancelled")
        self.same("it is compensated by its own id", [seen[1]], [call.lra for call in two.of("compensate")])
        self.check("the listener is notified", two.is_called("after"))
        ended = two.of("after")[0]
        self.same("what it is notified of", (b"Cancelled", seen[1]),
                  (ended.body, ended.fields["Long-Running-Action-Ended"]))
        parent = client.start()
        child = self.joined(two, parent=parent)
        self.same("a nested LRA is at its parent's home", home_of(uid_of(parent)), home_of(uid_of(child)))
        client.end(child)
        self.is_shown(child, "Closed", "another nested LRA")
        self.same("forget waits for the root", [], two.of("forget"))
        client.end(parent)
        self.check("forget is called after the root's end", two.is_called("forget"))
        self.same("the method of forget", "DELETE", two.of("forget")[0].method)

    # ---- what participants answer

    def test_busy(self) -> None:
        """A participant that is still busy is asked for its status, or called again."""
        client = self.up("wait=0")
        one, two = self.service("compensate", "complete", "status"), self.service("compensate", "complete", "status")
        three = self.service()
        one.say("compensate", 202)
        one.say("status", (200, b"Compensating"), (200, b"\"Compensated\""))
        two.say("complete", (200, b"Completing"))
        two.say("status", 202, (200, b"Completed"))
        three.say("complete", 202, 200)
        lras = [self.joined(service) for service in (one, two, three)]
        for lra, word in zip(lras, ("cancel", "close", "close"), strict=True):
            client.end(lra, word)
        self.is_shown(lras[0], "Cancelled", "202, and its status later")
        self.same("compensate is called once", 1, len(one.of("compensate")))
        self.same("then the status is requested", ["GET"] * 2, [call.method for call in one.of("status")])
        self.is_shown(lras[1], "Closed", "200 and Completing")
        self.same("the status is requested until it is done", (1, 2), (len(two.of("complete")), len(two.of("status"))))
        self.is_shown(lras[2], "Closed", "202 without a status link")
        self.same("complete is called again", 2, len(three.of("complete")))

    def test_failed(self) -> None:
        """A participant that reports failure isn't called again, and the LRA shows the failure."""
        client = self.up()
        for reply in FAILED:
            trip = self.service("compensate", "forget")
            trip.say("compensate", reply)
            lra = self.joined(trip)
            client.end(lra, "cancel")
            self.is_shown(lra, "FailedToCancel", f"{reply}")
            self.check("forget is called", trip.is_called("forget"))
            self.same("compensate is called once", 1, len(trip.of("compensate")))
        trip = self.service()
        trip.say("complete", (200, b"FailedToComplete"))
        lra = self.joined(trip)
        client.end(lra)
        self.is_shown(lra, "FailedToClose", "a complete that fails")
        self.check("the failed call is in the log", f"{trip.base()}/complete" in self.gateway.log(),
                   self.gateway.log())

    def test_odd(self) -> None:
        """After an answer that doesn't count as done, the participant is called again."""
        client = self.up("wait=0")
        services = []
        for reply in ODD:
            trip = self.service()
            trip.say("compensate", reply, 410)
            lra = self.joined(trip)
            client.end(lra, "cancel")
            services.append((reply, trip, lra))
        for reply, trip, lra in services:
            self.is_shown(lra, "Cancelled", f"{str(reply)[:30]}, then 410")
            self.same("two calls", 2, len(trip.of("compensate")))

    def test_cut(self) -> None:
        """An answer that is cut off, or whose end is unknown, doesn't count as done."""
        client, head = self.up("wait=0"), b"HTTP/1.1 200 OK\r\n"
        cut = (head + b"\r\nCompe", head + b"\r\n", head + b"Transfer-Encoding: chunked\r\n\r\n5\r\nCompe\r\n",
               head + b"Transfer-Encoding: chunked\r\n\r\n", head + b"Content-Length: 9\r\n\r\nabc",
               b"HTTP/1.1 20", b"")
        last = head + b"Transfer-Encoding: chunked\r\n\r\n12\r\nFailedToCompensate\r\n0\r\n\r\n"
        roughs = []
        for answer in cut:
            rough = self.rough(answer, last)
            lra = client.start()
            client.join(lra, f"<{rough.url}/c>; rel=compensate")
            client.end(lra, "cancel")
            roughs.append((answer, rough, lra))
        for answer, rough, lra in roughs:
            self.is_shown(lra, "FailedToCancel", f"{answer!r}, then a failure in chunks")
            self.same("two calls", 2, rough.count)

    def test_chunks(self) -> None:
        """An answer in chunks counts: with and without a body, behind an interim answer, and with extensions and
        trailers."""
        client, head = self.up(), b"HTTP/1.1 200 OK\r\nTransfer-Encoding: chunked\r\n\r\n"
        answers = (head + b"0\r\n\r\n", head + chunks_of(b"all is well"),
                   b"HTTP/1.1 100 Continue\r\n\r\n" + head + b"0\r\n\r\n",
                   head + b"B;a=\"b\"\r\nCompensated\r\n0\r\nTrailer: x\r\n\r\n")
        for answer in answers:
            rough = self.rough(answer)
            lra = client.start()
            client.join(lra, link_to(f"{rough.url}/c"))
            self.same(f"{answer[17:]!r}", "Cancelled", client.end(lra, "cancel"))
            self.same("one call", 1, rough.count)

    def test_gone(self) -> None:
        """A participant that is down is called again until it is back. Participants at a host name and at an IPv6
        address are called."""
        client, trip = self.up("wait=0"), self.service()
        lra = self.joined(trip)
        trip.close()
        client.end(lra)
        home = home_of(uid_of(lra))
        self.check("the call fails with 502",
                   comes_to(SLOW, lambda: "502" in [c["came"] for c in self.nodes.calls(home)]),
                   self.nodes.calls(home))
        self.same("the LRA waits", "Closing", client.status(lra))
        trip.open()
        self.is_shown(lra, "Closed", "with the participant back")
        done = b"HTTP/1.1 204 No Content\r\n\r\n"
        for host, name in ((HOST, "localhost"), ("::1", "[::1]")):
            try:
                rough = self.rough(done, host=host)
            except OSError:
                continue  # there is no IPv6
            lra = client.start()
            client.join(lra, link_to(f"http://{name}:{rough.port}/c"))
            client.end(lra, "cancel")
            self.is_shown(lra, "Cancelled", name)
            self.same("one call", 1, rough.count)

    def test_after(self) -> None:
        """A listener is notified of the end, again after an error, and isn't a participant."""
        client, one, two = self.up(), self.service("after"), self.service()
        one.say("after", 500, 200)
        lra = self.joined(one, two)
        client.end(lra)
        self.check("it is notified again", one.is_called("after", 2))
        call = one.of("after")[1]
        self.same("what it is notified of", (b"Closed", lra), (call.body, call.fields["Long-Running-Action-Ended"]))
        self.same("as text", "text/plain", call.fields["Content-Type"])
        self.same("the call has no LRA as its context", None, call.fields["Long-Running-Action"])

    # ---- what services ask

    def test_leave(self) -> None:
        """A participant that left isn't called."""
        client, one, two = self.up(), self.service("compensate", "complete", "leave"), self.service()
        lra = self.joined(one, two)
        client.leave(lra, one.link())
        client.end(lra)
        self.is_shown(lra, "Closed")
        self.same("the participant that left isn't called", [], one.calls)
        self.same("the one that stayed is called", 1, len(two.of("complete")))
        self.is_declined("a late leave", 412, client.leave, lra, two.link())
        other = client.start()
        self.is_declined("a leave of a service that never joined", 400, client.leave, other, two.link())

    def test_limit(self) -> None:
        """The time limit of a start works, and so does the gateway's own limit if none is requested."""
        client, trip = self.up("limit=600000"), self.service()
        lra = client.start(limit=2000)
        client.join(lra, trip.link())
        self.is_shown(lra, "Cancelled", "after its limit")
        self.same("it is compensated", 1, len(trip.of("compensate")))
        self.is_declined("a close after the limit", 412, client.end, lra)
        deadline = self.record(client.start())["deadline"]
        self.check("a limit by default", deadline and abs(deadline / 1000 - time.time() - 600) < 60, deadline)
        for limit in ("x", "-1", "1.5", "9" * 30):
            answer = client.send("POST", f"start?ClientID=a&TimeLimit={limit}", "")
            self.same(f"an invalid limit: {limit}", 400, answer.status)

    def test_again(self) -> None:
        """A join with the same compensate link counts as the first one. Calls that are too late or name no LRA are
        declined."""
        client, one, two = self.up(), self.service(), self.service()
        lra = client.start()
        first = client.join(lra, one.link())
        self.same("a second join", first, client.join(lra, one.link()))
        self.same("the same join 32 times more", {first}, {client.join(lra, one.link()) for _ in range(32)})
        self.check("another service's join is another", client.join(lra, two.link()) != first)
        client.end(lra, "cancel")
        self.is_shown(lra, "Cancelled")
        self.same("one call each", (1, 1), (len(one.of("compensate")), len(two.of("compensate"))))
        self.same("a second cancel succeeds too", (200, "Cancelled"), self.ended(lra, "cancel"))
        self.is_declined("a close after the cancel", 412, client.end, lra)
        self.is_declined("the same join, too late", 412, client.join, lra, one.link())
        self.is_declined("a new join, too late", 412, client.join, lra, self.service().link())
        self.is_declined("the status of no LRA", 404, client.status, NONE)
        self.is_declined("a close of no LRA", 404, client.end, NONE)
        self.is_declined("a join of no LRA", 404, client.join, NONE, one.link())
        self.is_declined("an LRA of a node that doesn't exist", 404, client.status, NONE.replace("8001", "8008"))
        self.is_declined("another coordinator's parent", 404, client.start, OTHERS)
        self.is_declined("a parent that doesn't exist", 404, client.start, f"{client.root()}/{NONE}")

    def test_ids(self) -> None:
        """An id is accepted in a path in each way that a client may write it."""
        client = self.up()
        lra = client.start()
        uid = uid_of(lra)
        for text in (uid, uid.upper(), quoted(lra), quoted(quoted(lra)), f"urn:uuid:{uid}", f"{uid}?ParentLRA=x"):
            path, _, query = text.partition("?")
            answer = client.send("GET", f"{path}/status" + (query and f"?{query}"))
            self.same(text, (200, "Active"), (answer.status, answer.text))
        self.same("a nested LRA, by an id that is escaped twice", 201,
                  client.send("POST", f"start?ClientID=a&ParentLRA={quoted(quoted(lra))}", "").status)
        self.same("a close by the id's own path", 200,
                  client.send("PUT", f"{urllib.parse.urlsplit(lra).path}/close", "").status)

    def test_links(self) -> None:
        """Some link texts can be carried, and others are refused."""
        client, trip = self.up(), self.service()
        lra = client.start()
        bad = ("<https://h/c>; rel=\"compensate\"", "<http://u@h/c>; rel=compensate", "nothing", "", "<>; rel=after",
               "<http://h/c#f>; rel=compensate", "<http://h/k>; rel=\"complete\"", "<h/c>; rel=compensate",
               "<http://h/c?a\\b>; rel=compensate", "<http://h/c>; rel=\"leave\"")
        for link in bad:
            self.is_declined(f"an invalid link: {link}", 400, client.join, lra, link)
        base = trip.base()
        good = (f"<{base}/compensate>;rel=compensate,<{base}/complete>;rel=complete", base)
        self.same("links without quotes, and a plain URL, are the same join", 1,
                  len({client.join(lra, link) for link in good}))
        client.end(lra)
        self.is_shown(lra, "Closed")
        self.same("it completes", 1, len(trip.of("complete")))
        other = client.start()
        old = f"<{base}/x/compensate?method=javax.ws.rs.PUT>; rel=\"compensate\"; title=\"a, b\"; type=\"text/plain\""
        client.join(other, old)
        client.end(other, "cancel")
        self.same("a query as older clients write it", "/trip/x/compensate?method=javax.ws.rs.PUT",
                  trip.of("compensate")[0].path)

    def lengthened(self, host: str, count: int) -> str:
        return f"<http://{host}/{'x' * count}?method=jakarta.ws.rs.PUT>; rel=\"compensate\""

    def over(self, answer: Answer) -> int:
        """Returns by how many bytes a link is too long, as the answer says, or -1."""
        said = re.findall(r"\b(\d+) bytes?\b", answer.text)
        return int(said[0]) if answer.status == 400 and said else -1

    def test_long(self) -> None:
        """A link that is too long is refused, with the number of excess bytes; shortened by that many it fits."""
        client, trip = self.up(), self.service()
        lra, host = client.start(), f"{HOST}:{trip.port}"
        answer = client.send("PUT", uid_of(lra), self.lengthened(host, 140))
        over = self.over(answer)
        self.check("the answer says by how much", 0 < over < 140, (answer.status, answer.text))
        self.check("the answer names the link", f"http://{host}/xxx" in answer.text, answer.text)
        rest = self.over(client.send("PUT", uid_of(lra), self.lengthened(host, 140 - over + 1)))
        self.same("shortened by one byte less, it is one too long", 1, rest)
        client.join(lra, self.lengthened(host, 140 - over))
        room = len(host) + 1 + 140 - over
        self.check(f"shortened by that many it fits: HOST:PORT/PATH has {room} bytes", room >= 83, room)
        client.end(lra, "cancel")
        self.same("the participant is called", [f"/{'x' * (140 - over)}?method=jakarta.ws.rs.PUT"], trip.paths())

    def test_short(self) -> None:
        """A name that the configuration gives to a link's front makes room."""
        trip = self.service(root="/lra-participant/com.example.booking.reservations.BookingResource.of.the.travels")
        named = trip.base().removeprefix("http://")
        client = self.up(f"short=t={named}", f"short=u={HOST}:1/other")
        lra = client.start()
        client.join(lra, trip.link())
        target = with_node(self.carried(lra))[1]
        self.check("the link is carried with the name", target.endswith("/~t/compensate"), target)
        client.end(lra, "cancel")
        self.is_shown(lra, "Cancelled")
        self.same("the participant is called at its own link",
                  [("PUT", f"{trip.root}/compensate?method=jakarta.ws.rs.PUT")],
                  trip.made(lra))
        plain = self.front([doors_of(self.nodes)]).start()
        other = Client(plain.port)
        answer = other.send("PUT", uid_of(other.start()), trip.link())
        self.check("without the name it is too long", self.over(answer) > 0, (answer.status, answer.text))

    def test_questions(self) -> None:
        """An LRA's data, lists, participants' links, and a purge are answered as Narayana's coordinator answers
        them."""
        client, trip = self.up(), self.service()
        lra = client.start()
        info = client.send("GET", uid_of(lra), None, "Accept: application/json")
        self.same("its data", (200, lra, "Active", False), data_of(info))
        self.check("it is listed as active", comes_to(SLOW, lambda: self.lists("?Status=Active", lra)))
        self.check("also at the other path", self.lists("/?Status=Active", lra) and self.lists("", lra))
        self.check("but not as closed", not self.lists("?Status=Closed", lra))
        self.same("a wrong status", 400, client.send("GET", "/lra-coordinator?Status=Wrong").status)
        recovery = client.join(lra, trip.link())
        path = urllib.parse.urlsplit(recovery).path
        told = client.send("GET", path)
        url = f"<{trip.base()}/compensate?method=jakarta.ws.rs.PUT>"
        self.check("a participant's own links", told.status == 200 and url in told.text, told)
        self.same("a participant that doesn't exist", 404, client.send("GET", path.removesuffix("1") + "9").status)
        self.same("its links can't be changed", 501, client.send("PUT", path, trip.link()).status)
        trip.say("compensate", 500)
        client.end(lra, "cancel")
        self.check("it is recovering", comes_to(SLOW, lambda: self.lists("/recovery", lra)))
        self.same("a recovering LRA isn't purged", 412, client.send("DELETE", f"recovery/{uid_of(lra)}").status)
        trip.say("compensate", 409)
        self.is_shown(lra, "FailedToCancel")
        self.check("it is listed as failed", comes_to(SLOW, lambda: self.lists("/recovery/failed", lra)))
        self.same("its data after the failure", (200, lra, "FailedToCancel", True),
                  data_of(client.send("GET", uid_of(lra))))
        self.same("a purge", 204, client.send("DELETE", f"recovery/{uid_of(lra)}").status)
        self.is_declined("after the purge it is gone", 404, client.status, lra)

    def lists(self, query: str, lra: str) -> bool:
        """Whether a list contains an LRA."""
        answer = self.client.send("GET", f"/lra-coordinator{query}", None, "Accept: application/json")
        return lra in [row["lraId"] for row in answer.json()]

    def test_paths(self) -> None:
        """Unknown paths and methods are refused."""
        client = self.up()
        uid = uid_of(client.start())
        for path in ("/", "/lra", "/lra-coordinators/start", f"/{uid}/status", f"/lra-coordinator/{uid}/x",
                     f"/lra-coordinator/{uid}/close/x", "/lra-coordinator/x/status",
                     f"/lra-coordinator/nested/{uid}/status"):
            self.same(f"unknown path: {path}", 404, client.send("GET", path).status)
        for method, path in (("PATCH", uid), ("DELETE", uid), ("POST", f"{uid}/close"), ("GET", f"{uid}/close"),
                             ("PUT", f"{uid}/status"), ("GET", f"{uid}/remove"), ("PUT", "/lra-coordinator"),
                             ("POST", "recovery")):
            body = "" if method in ("PUT", "POST", "PATCH") else None
            self.same(f"method not allowed: {method} {path}", 405, client.send(method, path, body).status)
        self.same("renewing a limit isn't implemented", 501, client.send("PUT", f"{uid}/renew?TimeLimit=5", "").status)
        self.same("a malformed request", b"HTTP/1.1 400", self.said(b"nonsense\r\n\r\n")[:12])
        self.same("a request that is too long", b"HTTP/1.1 4", self.said(b"GET / HTTP/1.1\r\nA: " + b"a" * 20_000)[:10])

    def said(self, text: bytes) -> bytes:
        """Sends these bytes, and returns what comes back first."""
        with self.client.connect() as line, contextlib.suppress(ConnectionError):
            line.sendall(text)
            return line.recv(4096)
        return b""

    # ---- how requests arrive

    def test_framing(self) -> None:
        """A body may come in chunks, in pieces, or behind an interim answer."""
        client, trip = self.up(), self.service()
        lra = client.start()
        path, host = f"/lra-coordinator/{uid_of(lra)}?TimeLimit=0", f"{HOST}:{client.port}"
        for fields in ((f"Link: {trip.link()}",), ()):
            head = head_of("PUT", path, host, ("Content-Type: text/plain", *fields, "Transfer-Encoding: chunked"))
            with client.connect() as line:
                for piece in (head, chunks_of(trip.link().encode())):
                    line.sendall(piece)
                    time.sleep(0.1)
                answer = answer_over(line, "PUT")
            self.same("a join in chunks", 200, answer.status)
        self.same("joins in chunks count as one", 1, len(self.record(lra)["members"]))
        text = head_of("PUT", f"/lra-coordinator/{uid_of(lra)}/status", host)
        with client.connect() as line:
            for byte in text.replace(b"PUT", b"GET"):
                line.sendall(bytes([byte]))
            self.same("a request byte by byte", 200, answer_over(line).status)
        other = self.service()
        body = other.link().encode()
        with client.connect() as line:
            line.sendall(head_of("PUT", path, host, ("Content-Type: text/plain", "Expect: 100-continue"), len(body)))
            line.settimeout(3)  # as long as Apache's client waits
            try:
                interim = read_head(line)[:12].decode()
            except TimeoutError:
                interim = "nothing"
            line.settimeout(SLOW)
            line.sendall(body)
            answer = answer_over(line, "PUT")
        self.check(f"a client that waits for 100 Continue receives {interim}", interim in ("HTTP/1.1 100", "nothing"),
                   answer)
        self.same("it joins", 200, answer.status)
        client.end(lra)
        self.same("both are called", (1, 1), (len(trip.of("complete")), len(other.of("complete"))))

    def test_upgrade(self) -> None:
        """A client like Camel's saga works: it would prefer HTTP/2, reads Location, uses the id as it stands, and
        writes links without quotes."""
        client, trip = self.up(), self.service(root="")
        begun = client.send("POST", "start", "", *UPGRADE)
        self.same("a start", 201, begun.status)
        lra = begun.fields["Location"]
        query = "Camel-Saga-Compensate=direct://undo&id=1"
        link = f"<{trip.url}/compensate?{query}>; rel=compensate,<{trip.url}/complete>; rel=complete"
        path = urllib.parse.urlsplit(lra).path
        head = head_of("PUT", path, "x", (f"Link: {link}", *UPGRADE, "Transfer-Encoding: chunked"))
        with client.connect() as line:
            line.sendall(head + chunks_of(link.encode()))
            self.same("a join", 200, answer_over(line, "PUT").status)
        self.same("a cancel", (200, "Cancelled"), self.ended(lra, "cancel"))
        self.same("its participant's call", [f"/compensate?{query}"], trip.paths())

    def test_silent(self) -> None:
        """Clients that send nothing, or only half of a request, delay no others."""
        client, trip = self.up(), self.service()
        host = f"{HOST}:{client.port}"
        half = head_of("PUT", f"/lra-coordinator/{NONE}?TimeLimit=0", host, (), 100)
        # (on a machine that is busy both are slow even without such clients)
        starts = [seconds_of(client.start) for _ in range(3)]
        closes = [seconds_of(client.end, self.joined(trip)) for _ in range(3)]
        to_start, to_close = (max(2, 4 * statistics.median(times)) for times in (starts, closes))
        for what, texts in (("silent", (b"",)), ("in the middle of a head", (half[:60],)),
                            ("behind a head", (half + b"x",)), ("of both", (b"", half[:60]))):
            lines = [client.connect() for _ in range(64) for _ in texts]
            for line, text in zip(lines, itertools.cycle(texts), strict=False):
                line.sendall(text)
            time.sleep(0.2)
            took = seconds_of(client.start)
            self.check(f"beside {len(lines)} that are {what} a start takes {took:.2f} s", took < to_start, to_start)
            lra = self.joined(trip)
            took = seconds_of(client.end, lra)
            self.check(f"beside them a close takes {took:.2f} s", took < to_close, to_close)
            for line in lines:
                line.close()

    # ---- who may call whom

    def test_forged(self) -> None:
        """A node's call is forwarded only for the LRA, the act and the link that were sealed."""
        client, trip = self.up(), self.service()
        lra, other = self.joined(trip), client.start()
        self.same("the participant's own host is shown", trip.url, self.own_links(lra))
        address, target = with_node(self.carried(lra))
        complete = with_node(self.carried(lra, "complete"))[1]
        self.check("the carried link's host is a loopback address", re.match(r"127\.\d+\.\d+\.\d+$", address[0]),
                   address)
        seal = target.split("/")[1]
        forged = [target + "x", target.replace("/trip/", "/trap/"), target.replace(seal, seal[:1] + "AAAAAAAA"),
                  target.replace(seal, complete.split("/")[1][:1] + seal[1:]), target.replace(seal, seal.lower()),
                  target.replace(seal, ""), "/", f"/{seal}", f"/{seal}/", "/c//127.0.0.1:1/x", target[:20],
                  f"http://{HOST}:{trip.port}/trip/compensate", "*"]
        field = f"Long-Running-Action: urn:uuid:{uid_of(lra)}"
        for text in forged:
            self.same(f"forged: {text}", 403, asked_at(address, "PUT", text, field))
        for text in (f"Long-Running-Action: urn:uuid:{uid_of(other)}", f"Long-Running-Action-Ended: {other}",
                     "Long-Running-Action: x", "X: y"):
            self.same(f"replayed with {text}", 403, asked_at(address, "PUT", target, text))
        for method in ("GET", "DELETE", "POST"):
            self.same(f"replayed by {method}", 403, asked_at(address, method, target, field))
        self.same("no participant was called", [], trip.calls)
        self.same("the link itself", 200, asked_at(address, "PUT", target, field))
        self.same("the link itself reaches the participant", 1, len(trip.of("compensate")))
        here = own_address()
        if here:
            self.check("from another address it doesn't",
                       asked_at((here, address[1]), "PUT", target, field) in (0, 403))
            self.same("no further call was made", 1, len(trip.calls))

    def own_links(self, lra: str) -> str:
        """Returns the host of the participant that a recovery URL shows."""
        told = self.client.send("GET", f"recovery/{uid_of(lra)}/1").text
        return told[1:].partition("/trip")[0]

    def test_allowed(self) -> None:
        """Participants may be at the configured hosts, and at no others."""
        trip, other = self.service(), self.service()
        client = self.up(f"allow=lra.example,{HOST}:{trip.port}")
        lra = self.joined(trip)
        self.is_declined("another port", 400, client.join, lra, other.link())
        self.is_declined("another host", 400, client.join, lra, link_to(f"http://localhost:{trip.port}/c"))
        client.join(lra, link_to("http://lra.example:8080/c"))
        client.leave(lra, link_to("http://lra.example:8080/c"))
        client.end(lra)
        self.is_shown(lra, "Closed")

    def test_via(self) -> None:
        """Nodes may reach the gateway by a host name."""
        client, trip = self.up(via="localhost"), self.service()
        lra = self.joined(trip)
        address, target = with_node(self.carried(lra))
        self.same("the name is in the carried links", ("localhost", self.gateway.calls), address)
        self.same("a close", (200, "Closed"), self.ended(lra))
        field = f"Long-Running-Action: urn:uuid:{uid_of(client.start())}"
        self.same("forged", 403, asked_at(address, "PUT", target, field))

    # ---- times

    def test_waits(self) -> None:
        """A close or cancel waits for the end as long as configured, or a second by default."""
        client, trip = self.up("again=8000"), self.service()
        for word, status in (("close", "Closed"), ("cancel", "Cancelled")):
            # (five tries, since a slow machine may need longer than a second)
            is_so = any(self.ended(self.joined(trip), word) == (200, status) for _ in range(5))
            self.check(f"a {word} is answered once the LRA has ended", is_so)
        trip.say("complete", 500)
        lra = self.joined(trip)
        began = time.monotonic()
        self.same("a close that doesn't end", (200, "Closing"), self.ended(lra))
        took = time.monotonic() - began
        self.check(f"is answered after {took:.1f} s", 0.9 < took < 5)
        trip.say("complete", 200)
        self.is_shown(lra, "Closed")
        brief = self.front([doors_of(self.nodes)], "wait=0").start()
        trip.pause = 4
        lra = self.joined(trip)
        took = seconds_of(Client(brief.port).end, lra)
        self.check(f"with wait=0 it is answered after {took:.2f} s", took < 3)
        self.is_shown(lra, "Closed")

    def test_hung(self) -> None:
        """Participants that take longer than a node waits delay no others, and are called again."""
        client, slow = self.up("wait=0"), [self.service(pause=10.5) for _ in range(3)]
        good, held = self.service(), [self.joined(trip) for trip in slow]
        alone = self.closes_in(good)
        for lra in held:
            client.end(lra)
        self.check("each is called", all(trip.is_called("complete") for trip in slow))
        time.sleep(0.1)
        for trip in slow:
            trip.pause = 0
        took, until = [], time.monotonic() + 3
        while time.monotonic() < until and len(took) < 9:
            took.append(self.closes_in(good))
        what = f"beside them {len(took)} LRAs of another service close within {max(took):.1f} s, alone in {alone:.1f}"
        self.check(what, max(took) < max(3, 4 * alone))
        for lra in held:
            self.is_shown(lra, "Closed")
        self.same("each was called once more", [2] * 3, [len(trip.of("complete")) for trip in slow])

    def closes_in(self, trip: Annotated) -> float:
        """Returns how long an LRA takes to close that a service has joined."""
        lra = self.joined(trip)
        began = time.monotonic()
        self.client.end(lra)
        self.client.comes_to(lra, "Closed")
        return time.monotonic() - began

    def test_crowd(self) -> None:
        """Eight threads begin and end twenty-four LRAs."""
        client, trip = self.up(), self.service()

        def one(code: int) -> str:
            # (a start may get no answer in time from a busy node, and is then repeated)
            lra = insist(client.start)
            client.join(lra, trip.link())
            client.end(lra, "cancel" if code == 500 else "close")
            return lra

        codes = [500 if place % 3 == 0 else 200 for place in range(24)]
        began = time.monotonic()
        with concurrent.futures.ThreadPoolExecutor(8) as pool:
            lras = list(pool.map(one, codes))
        took = time.monotonic() - began
        statuses = ["Cancelled" if code == 500 else "Closed" for code in codes]
        ends = [client.comes_to(lra, status) for lra, status in zip(lras, statuses, strict=True)]
        self.check(f"all end as expected, in {took:.1f} s", all(ends), ends)
        self.same("each has its own id", 24, len(set(lras)))
        self.same("one call each", (16, 8), (len(trip.of("complete")), len(trip.of("compensate"))))
        self.same("LRAs of all homes", {1, 2, 3}, {home_of(uid_of(lra)) for lra in lras})

    def test_cost(self) -> None:
        """The gateway adds little to a call, and no call takes long."""
        client, trip = self.up(), self.service()
        lra = client.start()
        home, uid = home_of(uid_of(lra)), uid_of(lra)
        direct = [seconds_of(self.nodes.ask, home, "GET", f"/lra/{uid}") for _ in range(40)]
        behind = [seconds_of(client.status, lra) for _ in range(40)]
        there, here = in_median(direct), in_median(behind)
        self.check(f"a status takes {there:.2f} ms at its node, {here:.2f} ms at the gateway", here < 20 * there + 50)
        rows: list[tuple[float, float, float]] = []
        for _ in range(12):
            began = time.monotonic()
            one = client.start()
            begun = time.monotonic()
            client.join(one, trip.link())
            rows.append((begun - began, time.monotonic() - begun, seconds_of(client.end, one)))
        start, join, close = (in_median(column) for column in zip(*rows, strict=True))
        what = f"a start {start:.1f} ms, a join {join:.1f} ms, a close {close:.1f} ms"
        self.check(what, max(start, join, close) < 10_000)

    # ---- kills

    def test_kills(self) -> None:
        """The gateway is killed between calls, and while a participant answers."""
        client, trip, other = self.up("wait=0"), self.service(*FULL), self.service(*FULL)
        lra = client.start()
        recovery = client.join(lra, trip.link())
        self.gateway.again()
        self.same("the join before the kill is known", recovery, client.join(lra, trip.link()))
        client.join(lra, other.link())
        self.gateway.again()
        client.leave(lra, other.link())
        trip.pause = 1.5
        client.end(lra)
        self.check("a participant is called", trip.is_called("complete"))
        self.gateway.kill()
        trip.pause = 0
        time.sleep(0.3)
        self.gateway.start()
        self.is_shown(lra, "Closed")
        self.check("its complete was called twice at most", len(trip.of("complete")) in (1, 2), trip.paths())
        self.check("it is notified of the end", trip.is_called("after"))
        self.same("the participant that left isn't called", [], other.calls)

    def test_home(self) -> None:
        """After a node is killed, reads and begins go to others, and a close waits until the node is back."""
        client, trip = self.up("again=80000"), self.service()
        lra = self.joined(trip)
        home = home_of(uid_of(lra))
        self.check("the others know it", self.nodes.all_come_to(uid_of(lra), "Active") is not None)
        self.nodes.kill(home)
        self.same("its status while its home is away", "Active", client.status(lra))
        self.check("begins go to others", home not in [home_of(uid_of(client.start())) for _ in range(4)])

        def come_back() -> None:
            time.sleep(1)
            self.nodes.start(home)

        with beside(come_back):
            began = time.monotonic()
            ended = client.end(lra)
            took = time.monotonic() - began
        self.check(f"a close waited {took:.1f} s for it", ended in ("Closing", "Closed") and took > 0.9, ended)
        self.is_shown(lra, "Closed")
        trip.pause = 1.5
        lra = self.joined(trip)
        with contextlib.suppress(Declined):
            client.end(lra)
        self.check("a participant is called", trip.is_called("complete", 2))
        self.nodes.kill(home_of(uid_of(lra)))
        trip.pause = 0
        self.nodes.start(home_of(uid_of(lra)))
        self.is_shown(lra, "Closed", "its home was killed in the middle of a call")

    def test_storm(self) -> None:
        """The gateway and nodes are killed again and again under load, and no LRA is lost."""
        client, trip, over = self.up("wait=1000"), self.service(), threading.Event()
        trip.pause = 0.1
        kills = [0, 0]

        def kill_both() -> None:
            while not over.wait(0.8):
                self.gateway.again()
                kills[0] += 1
                if kills[0] % 3 == 0:
                    node = kills[0] // 3 % 3 + 1
                    self.nodes.kill(node)
                    time.sleep(0.2)
                    self.nodes.start(node)
                    kills[1] += 1

        def work() -> list[str]:
            ended, until = [], time.monotonic() + 10
            while time.monotonic() < until:
                lra = insist(client.start, "", 120_000)
                insist(client.join, lra, trip.link())
                insist(client.end, lra)
                ended.append(lra)
            return ended

        with concurrent.futures.ThreadPoolExecutor(4) as pool, beside(kill_both):
            try:
                lras = [lra for one in [pool.submit(work) for _ in range(4)] for lra in one.result()]
            finally:
                over.set()
        self.check(f"{len(lras)} LRAs were closed beside {kills[0]} kills of the gateway and {kills[1]} of nodes",
                   len(lras) >= 4 and min(kills) > 0)
        lost = [lra for lra in lras if not client.comes_to(lra, "Closed")]
        self.check("each becomes Closed", not lost, lost)
        done = {call.lra for call in trip.of("complete")}
        self.check("each participant was called to complete", done >= set(lras), set(lras) - done)
        wrong = {call.lra for call in trip.of("compensate")} & set(lras)
        self.check("none was called to compensate", not wrong, wrong)

    def test_ends(self) -> None:
        """The gateway ends when its input does, whatever it is doing, and no call is lost by that."""
        client, slow = self.up(), self.service(pause=6)
        lra, lines = self.joined(slow), [client.connect() for _ in range(8)]
        with beside(lambda: no_answer(client.end, lra)):
            self.check("a participant is called", slow.is_called("complete"))
            took = seconds_of(self.gateway.end)
            self.same("its exit status", 0, self.gateway.end())
            self.check(f"it ends after {took:.1f} s", took < 5, took)
        slow.pause = 0
        for line in lines:
            line.close()
        self.gateway.start()
        self.is_shown(lra, "Closed")

    # ---- several groups, several gateways

    def test_groups(self) -> None:
        """Two groups work behind one gateway."""
        others = Operated(2, self.folder, KEEP)
        self.addCleanup(others.__exit__)
        others.start()
        self.gateway = self.front([doors_of(self.members()), doors_of(others)], *PATIENT).start()
        self.client = client = Client(self.gateway.port)
        trip = self.service("compensate", "complete", "after")
        lras = [client.start() for _ in range(12)]
        first, second = [lra for lra in lras if "." not in uid_of(lra)], [lra for lra in lras if lra.endswith(".2")]
        self.check("LRAs of both are begun", first and second and len(first) + len(second) == 12, lras)
        self.same("at all nodes of both", ({1, 2, 3}, {1, 2}),
                  tuple({home_of(lra_of(lra)) for lra in some} for some in (first, second)))
        self.check("each is listed under its own id", comes_to(SLOW, lambda: all(self.lists("", lra) for lra in lras)))
        for lra, word, status in ((first[0], "close", "Closed"), (second[0], "close", "Closed"),
                                  (first[1], "cancel", "Cancelled"), (second[1], "cancel", "Cancelled")):
            recovery = client.join(lra, trip.link())
            self.check("a recovery URL of its own", f"/recovery/{uid_of(lra)}/" in recovery, recovery)
            self.same("a second join", recovery, client.join(lra, trip.link()))
            self.same(f"{lra[-4:]}: a {word}", (200, status), self.ended(lra, word))
            calls = [call for call in trip.calls if call.lra == lra]
            self.same("its participant is called with its id", 1, len([call for call in calls if not call.is_end]))
            self.check("its participant is notified of its end",
                       comes_to(SLOW, lambda lra=lra: [call for call in trip.ends() if call.lra == lra]))
        parent = second[2]
        child = client.start(parent)
        self.check("an LRA nested in the second group belongs to it", child.endswith(".2"), child)
        client.join(child, trip.link())
        client.end(child)
        call = next(call for call in trip.calls if call.lra == child)
        self.same("the call names its parent", parent, call.fields["Long-Running-Action-Parent"])
        self.same("a close of the parent", (200, "Closed"), self.ended(parent))
        self.is_declined("a group that doesn't exist", 404, client.status, f"{first[2]}.3")
        self.replay(first[2], others)

    def replay(self, lra: str, others: Operated) -> None:
        """A link of the first group is refused at the second group's port, for an LRA with the same number."""
        trip = self.service()
        self.client.join(lra, trip.link())
        (host, port), target = with_node(self.carried(lra))
        field = f"Long-Running-Action: urn:uuid:{lra_of(lra)}"
        self.same("a link of one group at the other's port", 403, asked_at((host, port + 1), "PUT", target, field))
        self.same("no participant is called", [], trip.calls)

    def test_beside(self) -> None:
        """With a gateway beside each node, each gateway takes calls for any home."""
        gateways = [self.front([[]], "wait=8000", "again=20000") for _ in range(3)]
        doors = doors_of(self.members())
        for place, gateway in enumerate(gateways):
            gateway.base = gateways[0].base
            gateway.groups = [[doors[one] if one == place else f"{HOST}:{gateways[one].port}" for one in range(3)]]
        for gateway in gateways:
            gateway.start()
        clients = [Client(gateway.port) for gateway in gateways]
        self.client = clients[0]
        self.any_home(clients)
        lras = [client.start() for client in clients for _ in range(3)]
        self.same("LRAs of all homes are begun", {1, 2, 3}, {home_of(uid_of(lra)) for lra in lras})
        self.one_away(gateways, clients, {home_of(uid_of(lra)): lra for lra in lras})

    def any_home(self, clients: list[Client]) -> None:
        for home in (1, 2, 3):
            for number, client in enumerate(clients, 1):
                at = f"home {home} at gateway {number}"
                trip, other = self.service("compensate", "complete", "after"), self.service()
                lra = self.begun_at_home(clients, home)
                recovery = client.join(lra, trip.link())
                self.check(f"{at}: a join", recovery.startswith(self.gateway_root()), recovery)
                self.same(f"{at}: the same join at another gateway", recovery,
                          clients[number % 3].join(lra, trip.link()))
                client.join(lra, other.link())
                client.leave(lra, other.link())
                self.same(f"{at}: a status", "Active", client.status(lra))
                self.same(f"{at}: its data", (200, lra, "Active", False), data_of(client.send("GET", uid_of(lra))))
                told = client.send("GET", urllib.parse.urlsplit(recovery).path)
                self.check(f"{at}: a participant's links", trip.base() in told.text, told)
                child = client.start(lra)
                self.same(f"{at}: a nested LRA", home, home_of(uid_of(child)))
                client.end(child)
                self.same(f"{at}: a close", "Closed", client.end(lra))
                self.same("one that joined is called, one that left isn't", (1, 0),
                          (len(trip.of("complete")), len(other.calls)))
                self.check("it is notified of the end", trip.is_called("after"))
                self.is_declined(f"{at}: a cancel after the close", 412, client.end, lra, "cancel")

    def gateway_root(self) -> str:
        return f"{self.client.root()}/recovery/"

    def begun_at_home(self, clients: list[Client], home: int) -> str:
        """Begins an LRA of a home. The gateway beside that home begins some there."""
        for turn in range(9):
            lra = clients[(home - 1 + turn) % 3].start()
            if home_of(uid_of(lra)) == home:
                return lra
        raise AssertionError(f"no LRA of home {home} was begun")

    def one_away(self, gateways: list[Gateway], clients: list[Client], lras: dict[int, str]) -> None:
        """Calls go on while a gateway is down, and while a node is."""
        lra, trip = lras[3], self.service()
        self.check("all nodes know it", self.nodes.all_come_to(uid_of(lra), "Active") is not None)
        gateways[2].kill()
        self.same("a status while the gateway beside its home is down", "Active", clients[0].status(lra))
        self.same("begins at the other gateways", [0, 0], [code_of(client.start) for client in clients[:2]])

        def come_back() -> None:
            time.sleep(0.5)
            gateways[2].start()

        with beside(come_back):
            clients[0].join(lra, trip.link())
        self.same("a join waited for the gateway", 1, len(self.record(lra)["members"]))
        self.nodes.kill(1)
        begun = [code_of(clients[0].start) for _ in range(2)]
        self.same("begins at a gateway whose own node is down", [0, 0], begun)
        self.nodes.start(1)
        self.same("a close", "Closed", clients[1].end(lra))

    # ---- the program

    def test_words(self) -> None:
        """Wrong arguments, an invalid key and a port in use are refused, and the program ends when its input does."""
        nodes = ",".join(doors_of(self.nodes))
        gateway = self.front([doors_of(self.nodes)])
        good = gateway.words()
        listen, base, calls, group = good
        many = f"group={','.join([nodes] * 3)}"
        address = f"calls={HOST}:{gateway.calls}"
        first, port = "listen=IP:PORT: has to be the first word", "without via= it has to be a PORT"
        url = "URL has to begin with http:// or https:// and a host"
        door = "has to be HOST:PORT or HOST:PORT/PORT, with commas between several"
        wrong: tuple[tuple[Sequence[str], str], ...] = (
            ((), first), (good[1:], first), (good[:3], "group=HOST:PORT: has to be given"),
            ((base, listen, calls, group), first), ((*good, "more=1"), "more=1: no such option"),
            ((*good, HOST), f"{HOST}: no such option"), ((listen, *good), "base=URL: has to be the second word"),
            ((listen, "base=lra", calls, group), f"base=lra: {url}"),
            ((listen, "base=http://", calls, group), f"base=http://: {url}"),
            ((listen, base, "calls=0", group), f"calls=0: {port}"),
            ((listen, base, "calls=65536", group), f"calls=65536: {port}"),
            ((listen, base, address, group), f"{address}: {port}"),
            ((listen, base, calls, "limit=x", group), "limit=x: MS has to be a number of milliseconds"),
            ((listen, base, calls, "again=1", "wait=1", group), "wait=1: given twice, or not in the order below"),
            ((listen, base, calls, "short=t", group), "short=t: has to be NAME=HOST:PORT/PATH, NAME being 1 to 16 "
                                                      "letters, digits, hyphens and underscores"),
            ((listen, base, calls, "short=t=h", "short=t=i", group),
             "short=t=i: each short form needs a NAME of its own"),
            ((listen, base, calls, "group="), f"group=: {door}"),
            ((listen, base, calls, "group=h"), f"group=h: {door}"),
            ((*good, *[f"group={nodes}"] * 8), f"group={nodes}: a gateway has at most 8 groups"),
            ((listen, base, calls, many), f"{many}: a group has at most 8 nodes"), (("--help",), first),
            (("--version", *good), first))
        for words, said in wrong:
            status, text = ended(gateway, words)
            is_so = status == 2 and text.startswith(f"lra_gateway: {said}\nusage: LRA_GATEWAY_KEY=HEX lra_gateway ")
            self.check(f"wrong arguments: {' '.join(words)[:100]}", is_so, (status, text[-200:]))
        for key in (None, "", KEY[:62], KEY + "00", KEY[:63] + "g"):
            status, text = ended(gateway, good, key)
            is_so = status == 2 and text.startswith(f"lra_gateway: {KEY_NAME} has to be 64 hexadecimal digits\nusage: ")
            self.check(f"an invalid key: {key}", is_so, (status, text[-200:]))
        with socket.create_server((HOST, gateway.port)):
            self.same("a port in use", 1, ended(gateway, good)[0])
        whole = (listen, f"{base}/", calls, "limit=1", "wait=2", "again=3", "allow=h,i:80", "short=a=h:80/p",
                 "short=b=i:1/q", f"group={nodes}", "group=h:80/81,i:80")
        self.same("all options", (0, False), has_usage(ended(gateway, whole)))
        version = 0, build_said().line("lra_gateway")
        self.same("the version, without a key", version, ended(gateway, ["--version"], None))
        gateway.start()
        self.same("its exit status", 0, gateway.end())
        self.check("its port is free afterwards", not is_open(gateway.port))

    def test_page(self) -> None:
        """The lines of docs/GATEWAY.md that start a node and a gateway work."""
        node, door, listen, calls = free_row(4)
        script = started_by_page(self.folder, node, door, listen, calls) + "status=$?\nkill $!\nexit $status\n"
        variables = {name: text for name, text in os.environ.items() if name != KEY_NAME}
        with subprocess.Popen(["sh", "-c", script], stdin=subprocess.PIPE, stderr=subprocess.DEVNULL,
                              env=variables) as shell:
            self.addCleanup(shell.kill)
            self.check("both listen", comes_to(SLOW, lambda: all(map(is_open, (node, door, listen, calls)))))
            client, trip = Client(listen), self.service()
            seen: list[str] = []

            def book(context: Context) -> int:
                seen.append(context.lra)
                return 200

            self.same("a method's status", 200, invoke(client, "REQUIRED", trip, book))
            self.check("its LRA becomes Closed", client.comes_to(seen[0], "Closed"))
            self.same("its participant was called", [("PUT", "/trip/complete?method=jakarta.ws.rs.PUT")],
                      trip.made(seen[0]))
            end_input(shell)
            self.same("the gateway ends when its input does", 0, shell.wait(SLOW))


def started_by_page(folder: str, node: int, door: int, listen: int, calls: int) -> str:
    """Returns the lines of docs/GATEWAY.md that start a node and a gateway, with this folder and these ports."""
    lines = repo.found(r"\n## Start it\n(?:.*\n)*?\n((?:    .*\n)+)", repo.read("docs/GATEWAY.md"))[1]
    for old, new in (("lra_node", Group.program), ("lra_gateway", Gateway.program), ("/var/lib/lra", folder),
                     (":8170", f":{door}"), ("/8170", f"/{door}"), (":8070", f":{node}"),
                     ("calls=8071", f"calls={calls}"), ("//lra:8080", f"//{HOST}:{listen}"), (":8080", f":{listen}")):
        if old not in lines:
            raise AssertionError(f"the page has no {old}: {lines}")
        lines = lines.replace(old, new)
    return lines


def no_answer(call: Callable[..., object], *words: typing.Any) -> None:
    """Makes a call that may fail because nothing answers any more."""
    with contextlib.suppress(Declined, OSError, http.client.HTTPException):
        call(*words)


def has_usage(ended: tuple[int, str]) -> tuple[int, bool]:
    return ended[0], "usage" in ended[1]


def ended(gateway: Gateway, words: Sequence[str], key: str | None = KEY) -> tuple[int, str]:
    """Runs the program with these arguments and an empty input, and returns its exit status and what it prints."""
    variables = {name: text for name, text in os.environ.items() if name != KEY_NAME}
    if key is not None:
        variables[KEY_NAME] = key
    ran = subprocess.run([gateway.program, *words], stdin=subprocess.DEVNULL, capture_output=True, text=True,
                         timeout=SLOW, env=variables)
    return ran.returncode, ran.stdout + ran.stderr


def lra_of(lra: str) -> str:
    """Returns the id by which nodes know an LRA: without its group."""
    return uid_of(lra)[:36]


def data_of(answer: Answer) -> tuple[int, str, str, bool]:
    """Returns what an answer with data says of an LRA."""
    data = answer.json()
    return answer.status, data["lraId"], data["status"], data["recovering"]


def in_median(seconds: Sequence[float]) -> float:
    """Returns the median in milliseconds."""
    return 1000 * statistics.median(seconds)


def main() -> int:
    given, words = sys.argv[1:], checks.words_of(TestGateway)
    programs = list(itertools.takewhile(lambda word: word not in words, given))
    both = programs * 2 if programs == ["--unproved"] else programs
    for kind, name, word in zip((Gateway, Group), ("lra_gateway", "lra_node"), both):
        kind.program = unproved.program_of(word, name)
    checks.need(Group, Gateway)
    return checks.run(TestGateway, words=given[len(programs):])


if __name__ == "__main__":
    sys.exit(main())
