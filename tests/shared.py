#!/usr/bin/env python3
"""Tests the code that the Python programs share: python3 tests/shared.py. It needs no built program. Exits with 1 if a
test fails. Uses only the standard library."""
import contextlib
import io
import os
import socket
import sys
import tarfile
import time
import unittest
import unittest.mock
from email.message import Message

sys.path.insert(0, os.path.dirname(os.path.dirname(os.path.abspath(__file__))))
from tools import checks, cuts, packages, repo, unproved
from tools.load import Noted, misled
from tools.narayana import Annotated, Client, head_of, method_in, uid_of
from tools.node import ask, comes_to, exchange, home_of, without_starts
from tools.page import squeeze
from tools.participant import Participant, Reply, chunks_of
from tools.ports import HOST, free_row, is_free, is_open, listens_at
from tools.version import constant

LRA = "00000000-0000-8002-8000-000000000001"


class Busy(Participant):
    """A participant that is between two runs when it is asked the first two times."""

    def answer(self, path: str, lra: str, fields: Message, body: bytes) -> Reply:
        return (503, b'{"refused":"E20 RunFull"}') if len(self.calls) < 2 else (200, b'{"a":1}')


class TestRepo(checks.Checked):
    def test_crates(self) -> None:
        """Libraries come before those that use them, each once."""
        repo.write(f"{self.folder}/crates.txt", "# a: b\nlow: uuid\nmiddle: low  # why\nhigh: low middle url\n")
        crates = repo.crates(self.folder)
        self.same("crates are in order", ["low", "middle", "high"], list(crates))
        self.same("the crates below one", ["low", "middle"], repo.below("high", crates))

    def test_heads(self) -> None:
        """The heads of functions are found, and calls aren't taken for heads."""
        heads = ["fn one(", "    pub fn two<T>(", "pub(crate) const fn three("]
        matches = [repo.FUNCTION.match(head) for head in heads]
        self.same("heads", ["one", "two", "three"], [match and match[2] for match in matches])
        self.check("a call isn't a head", not repo.FUNCTION.match("    one(fn two"))

    def test_copy(self) -> None:
        """A copy has the code of all crates and of an added one, and no proofs."""
        repo.copy_crates(self.folder)
        crate = repo.add_crate(self.folder, "added", {"a/b.rt": "text"}, "state_ids")
        self.same("the added file", "text", repo.read(f"{crate}/src/a/b.rt"))
        self.same("what the added crate uses", ["state_ids"], repo.crates(self.folder)["added"])
        self.check("there are no proofs", not os.path.exists(f"{self.folder}/crates/state_ids/proofs"))

    def test_found(self) -> None:
        self.same("what was found", "b", repo.found("a(.)", "xab")[1])
        with self.assertRaises(SystemExit):
            repo.found("a", "b")

    def test_squeeze(self) -> None:
        """Strings are left as they are."""
        page = '<style>a { b: c; }</style>\n<script>\n  // no\n  let a = "b  = c";\n</script>'
        self.same("a page", '<style>a{b:c;}</style>\n<script>\nlet a="b  = c";\n</script>', squeeze(page))


class TestPorts(checks.Checked):
    def test_ports(self) -> None:
        """Rows of ports are free and different each time, and a listener holds its port."""
        first, second = free_row(3), free_row(3)
        self.check("two rows of ports", first == list(range(first[0], first[0] + 3)) and not set(first) & set(second))
        with socket.create_server((HOST, first[0])):
            self.check("a port in use", is_open(first[0]) and not is_free(first[0]))
            self.check("this process listens at it", listens_at(os.getpid(), first[:1]))
            self.check("but not at the next port", not listens_at(os.getpid(), first[:2]))
        self.check("a free port", not is_open(first[1]) and is_free(first[1]))

    def test_comes_to(self) -> None:
        """It looks at least once, and not for much longer than the given time."""
        began = time.monotonic()
        self.check("a true condition", comes_to(0, lambda: True))
        self.check("a false condition", not comes_to(0.1, lambda: False) and time.monotonic() - began < 5)

    def test_running(self) -> None:
        self.same("no program runs there", None, unproved.running_in(self.folder))


class TestNode(checks.Checked):
    def test_participant(self) -> None:
        """A participant answers as configured, and records the calls that came."""
        part = Participant(status=202)
        part.answers = {"/a": 404, "/b": (200, b"[1]")}
        self.same("answers go by the path", [(404, {}), (200, [1]), (202, {})],
                  [ask(part.port, "PUT", path) for path in ("/a", "/b", "/c")])
        exchange((HOST, part.port), f"PUT /e HTTP/1.1\r\nLong-Running-Action-Ended: urn:uuid:{LRA}\r\n\r\n".encode())
        self.same("the paths of all calls", ["/a", "/b", "/c", "/e"], part.paths())
        self.same("the calls that report an end", ["/e"], [call.path for call in part.ends()])
        self.same("the calls of an LRA", [("PUT", "/e")], part.made(LRA))
        self.check("when", part.time_of("/a", 404) is not None and part.time_of("/a", 200) is None)
        part.close()
        self.check("closed", not is_open(part.port))
        part.open()
        self.same("open again", (404, {}), ask(part.port, "GET", "/a"))
        part.close()

    def test_annotated(self) -> None:
        """A service answers as scripted, in chunks, and gives links; a client's requests look like those of Narayana's
        client."""
        service = Annotated("compensate", "forget", root="/a")
        service.say("compensate", 503, (200, b"Compensated"))
        client = Client(service.port)
        answers = [client.send("PUT", f"/a/compensate?method=x&n={n}", "") for n in range(3)]
        self.same("answers go by the script", [(503, ""), (200, "Compensated"), (200, "Compensated")],
                  [(answer.status, answer.text) for answer in answers])
        self.same("in chunks", "chunked", answers[1].fields.get("Transfer-Encoding"))
        self.same("its calls", 3, len(service.of("compensate")))
        self.same("a text in chunks", b"3\r\nCom\r\n2\r\npe\r\n0\r\n\r\n", chunks_of(b"Compe"))
        link = '<{}/a/forget?method=javax.ws.rs.DELETE>; rel="forget"; title="forget URI"; type="text/plain"'
        self.same("a link", link.format(service.url), service.link("javax").split(",")[1])
        self.same("a method", "forget", method_in("/a/forget?method=/x"))
        self.same("an id", f"{LRA}.2", uid_of(f"http://h/lra-coordinator/{LRA}.2?ParentLRA=http://h/x"))
        head = (b"PUT /a HTTP/1.1\r\nNarayana-LRA-API-version: 1.0\r\nLink: <x>\r\nContent-Length: 0\r\nHost: h\r\n"
                b"Connection: Keep-Alive\r\n")
        self.same("a head", head, head_of("PUT", "/a", "h", ("Link: <x>",), 0)[:len(head)])
        service.close()

    def test_ask(self) -> None:
        """A node that is between two runs is asked again."""
        busy = Busy()
        self.same("the answer", (200, {"a": 1}), ask(busy.port, "GET", "/"))
        self.same("questions", 3, len(busy.calls))
        self.same("no repetition if none is wanted", (200, {"a": 1}), ask(busy.port, "GET", "/", again=()))
        busy.close()

    def test_texts(self) -> None:
        self.same("a home", 2, home_of(LRA))
        log = "[INFO  node_server::program] node 1: listens on 127.0.0.1:8070\nnode 1: a warning\n"
        self.same("standard error without those lines", "node 1: a warning\n", without_starts(log))

    def test_misled(self) -> None:
        """Compensations must come last to first; a call that is repeated at once counts once."""
        part, one = Participant(), Noted()
        one.members = {0: 1, 1: 2}
        for order, is_so in (((1, 1, 0), True), ((0, 1), False), ((1,), False)):
            part.calls.clear()
            for place in order:
                part.hear("PUT", f"/cancel/{place}", fields_of(LRA), b"")
            found = list(misled(part, {LRA: one}, {LRA: "Cancelled"}))
            self.check(f"calls to {order}", (not found) == is_so, found)
        part.close()


def fields_of(lra: str) -> Message:
    """Returns the fields of a call for an LRA."""
    fields = Message()
    fields["Long-Running-Action"] = f"urn:uuid:{lra}"
    return fields


class TestPackages(checks.Checked):
    def test_archive(self) -> None:
        """An archive is the same in whatever order its files are given, and doesn't reveal who made it."""
        release = packages.Release("1.2.3", 1_000_000, {}, {})
        files = {"bin/b": packages.Member(b"b", 0o755), "a": packages.Member(b"a")}
        for name, given in (("one", files), ("two", dict(reversed(files.items())))):
            packages.write_archive(f"{self.folder}/{name}", given, "top", release)
        one, two = (packages.bytes_at(f"{self.folder}/{name}") for name in ("one", "two"))
        self.check("the same bytes", one == two)
        with tarfile.open(f"{self.folder}/one") as tar:
            seen = [(entry.name, entry.mode, entry.mtime, entry.uname) for entry in tar]
        names = [("top", 0o755), ("top/a", 0o644), ("top/bin", 0o755), ("top/bin/b", 0o755)]
        self.same("its files", [(*each, release.time, "root") for each in names], seen)

    def test_version(self) -> None:
        """Places where a package of a version is named are found, and constants that take one line or two."""
        text = "lra-coordinator_0.9.0_amd64.deb lra-coordinator:1.2.30 VERSION=2.0.0 lra-coordinator_VERSION 9.9.9"
        self.same("versions", ["0.9.0", "1.2.30", "2.0.0"], [found for _, found in cuts.NAMED.findall(text)])
        source = 'pub const VERSION: &str = "1.2.3-dev";\npub const KIT: &str =\n    "kit";\n'
        self.same("constants", ["1.2.3-dev", "kit"], [constant(name, source)[2] for name in ("VERSION", "KIT")])


class TestChecks(unittest.TestCase):
    def test_run(self) -> None:
        """A failed check fails the run, but the test goes on; a test that can't go on fails the run too."""

        class Failing(checks.Checked):
            def test_check(self) -> None:
                self.check("this fails", False, "seen")
                self.check("this is looked at all the same", True)

            def test_raise(self) -> None:
                raise SystemExit("it can't go on")

            def test_skip(self) -> None:
                self.skipTest("why")

        with contextlib.redirect_stdout(io.StringIO()) as out, unittest.mock.patch.object(checks.Checked, "is_told"):
            statuses = [checks.run(Failing, words=[word]) for word in ("check", "raise", "skip")]
        self.assertEqual(statuses, [1, 1, 0])
        lines = ["FAILED  this fails: seen", "ok      this is looked at all the same", "skipped skip: why", "1 failed"]
        for line in lines:
            self.assertIn(f"{line}\n", out.getvalue())
        self.assertIn("FAILED  raise: ", out.getvalue())


if __name__ == "__main__":
    sys.exit(checks.run(TestRepo, TestPorts, TestNode, TestPackages, TestChecks))
