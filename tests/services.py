#!/usr/bin/env python3
"""Tests the participants of demo/ in each language that is installed: python3 tests/services.py [PROGRAM].

Each joins an LRA with all links, is called to complete, and is notified of the end; and joins another, which it
compensates. Then it tests what docs/HTTP.md says of the lengths that Node.js and Java state, and frequent mistakes: an
answer without a length, a misspelt member, a link that is too long or uses https, an LRA that nobody ends. PROGRAM is
crates/lra_node/out/lra_node, or --unproved (tools/unproved.py). Each check prints a line. Exits with 1 if a check
fails. Uses only the standard library."""
import contextlib
import http.client
import os
import shutil
import subprocess
import sys
import tempfile

sys.path.insert(0, os.path.dirname(os.path.dirname(os.path.abspath(__file__))))
from tools import checks, repo, unproved
from tools.node import Server, comes_to
from tools.ports import HOST, free_row, is_open
from tools.repo import TOP


# Services whose paths are each answered in another of the ways that an author may choose.
NODE = """
require("http").createServer((request, response) => {
  if (request.url === "/head") { response.writeHead(200); response.end(); }
  else if (request.url === "/head-length") { response.writeHead(200, {"Content-Length": 0}); response.end(); }
  else if (request.url === "/end") { response.statusCode = 200; response.end(); }
  else { response.write("x"); response.end(); }
}).listen(Number(process.argv[1]), "127.0.0.1");
"""
JAVA = """
import com.sun.net.httpserver.HttpServer;
import java.net.InetSocketAddress;
class Lengths {
    public static void main(String[] args) throws Exception {
        HttpServer server = HttpServer.create(new InetSocketAddress("127.0.0.1", Integer.parseInt(args[0])), 0);
        server.createContext("/", exchange -> {
            exchange.sendResponseHeaders(200, exchange.getRequestURI().getPath().equals("/none") ? -1 : 0);
            exchange.close();
        });
        server.start();
    }
}
"""
# Services that state no length in their first two answers, but do so later. They print each call.
MENDED_NODE = """
let calls = 0;
require("http").createServer((request, response) => {
  console.log(request.url);
  calls += 1;
  if (calls < 3) response.writeHead(200); else response.statusCode = 200;
  response.end();
}).listen(Number(process.argv[1]), "127.0.0.1");
"""
MENDED_JAVA = """
import com.sun.net.httpserver.HttpServer;
import java.net.InetSocketAddress;
class Mended {
    static int calls = 0;
    public static void main(String[] args) throws Exception {
        HttpServer server = HttpServer.create(new InetSocketAddress("127.0.0.1", Integer.parseInt(args[0])), 0);
        server.createContext("/", exchange -> {
            System.out.println(exchange.getRequestURI());
            calls += 1;
            exchange.sendResponseHeaders(200, calls < 3 ? 0 : -1);
            exchange.close();
        });
        server.start();
    }
}
"""
MENDED_PYTHON = """
import http.server, sys
class Handler(http.server.BaseHTTPRequestHandler):
    calls = 0
    def do_PUT(self):
        print(self.path, flush=True)
        Handler.calls += 1
        self.send_response(200)
        if Handler.calls >= 3:
            self.send_header("Content-Length", "0")
        self.end_headers()
http.server.HTTPServer(("127.0.0.1", int(sys.argv[1])), Handler).serve_forever()
"""


def states_length(port: int, path: str) -> bool:
    """Whether an answer states a length, so that it counts."""
    with contextlib.closing(http.client.HTTPConnection(HOST, port, timeout=10)) as connection:
        connection.request("PUT", path, headers={"Connection": "close"})
        response = connection.getresponse()
        response.read()
        return response.headers["Content-Length"] is not None and response.headers["Transfer-Encoding"] is None


class TestServices(checks.Checked):
    needs = (Server,)

    def states(self, command: list[str], name: str, wanted: dict[str, bool]) -> None:
        """Checks which answers of a service state a length."""
        if not shutil.which(command[0]):
            self.skipTest(f"{command[0]} isn't installed")
        port = free_row(1)[0]
        service = subprocess.Popen([*command, str(port)], stdin=subprocess.DEVNULL)
        try:
            self.check(f"{name} listens", comes_to(60, lambda: is_open(port)))
            seen = {path: states_length(port, path) for path in wanted}
        finally:
            service.kill()
            service.wait()
        self.check(f"{name} states a length exactly where the page says so", seen == wanted, seen)

    def ends(self, server: Server, url: str, word: str) -> tuple[str, str | None]:
        """Lets a participant join an LRA, and ends that. Returns the LRA's id, and what is shown of it once it is
        purged."""
        lra = server.begin(1, limit=600_000)
        server.join(1, lra,
                    **{name: f"{url}/{name}" for name in ("complete", "compensate", "status", "forget", "after")})
        server.finish(1, lra, word)
        shown = {"close": "Closed", "cancel": "Cancelled"}[word]
        comes_to(20, lambda: server.status(1, lra) == shown and server.purge(1, lra)[0] == 204)
        return lra, server.status(1, lra)

    def is_called(self, command: str, file: str) -> None:
        if not shutil.which(command):
            self.skipTest(f"{command} isn't installed")
        server, port = self.server(1).wait_until_up(), free_row(1)[0]
        with tempfile.TemporaryFile("w+") as out:
            service = subprocess.Popen([command, f"{TOP}/demo/{file}", str(port)], stdout=out, stdin=subprocess.DEVNULL)
            try:
                self.check(f"{file} listens", comes_to(60, lambda: is_open(port)))
                closed, first = self.ends(server, f"http://{HOST}:{port}", "close")
                cancelled, second = self.ends(server, f"http://{HOST}:{port}", "cancel")
            finally:
                service.kill()
                service.wait()
            out.seek(0)
            lines = set(out.read().splitlines())
        wanted = {f"PUT /complete urn:uuid:{closed}", f"PUT /compensate urn:uuid:{cancelled}"}
        wanted |= {"PUT /after  Closed", "PUT /after  Cancelled"}
        is_so = lines == wanted and first == second == "E3 NotHeld"
        self.check(f"{file} is called, and then all is purged", is_so, (lines, first, second))
        ended = server.end()
        self.check("nothing is logged", ended == (0, ""), ended)

    def test_python(self) -> None:
        self.is_called("python3", "participant.py")

    def test_node_js(self) -> None:
        self.is_called("node", "participant.js")

    def test_java(self) -> None:
        self.is_called("java", "Participant.java")

    def test_lengths_of_node_js(self) -> None:
        self.states(["node", "-e", NODE], "Node.js",
                    {"/head": False, "/head-length": True, "/end": True, "/write": False})

    def test_lengths_of_java(self) -> None:
        with tempfile.TemporaryDirectory() as folder:
            repo.write(f"{folder}/Lengths.java", JAVA)
            self.states(["java", f"{folder}/Lengths.java"], "Java", {"/none": True, "/zero": False})

    def is_mended(self, command: list[str], name: str) -> None:
        """A service is called again until it states the length of its answer; then its LRA ends."""
        if not shutil.which(command[0]):
            self.skipTest(f"{command[0]} isn't installed")
        server, port = self.server(1).wait_until_up(), free_row(1)[0]
        with tempfile.TemporaryFile("w+") as out:
            service = subprocess.Popen([*command, str(port)], stdout=out, stdin=subprocess.DEVNULL,
                                       stderr=subprocess.DEVNULL)
            try:
                self.check(f"{name} listens", comes_to(60, lambda: is_open(port)))
                lra = server.begin(1)
                server.join(1, lra, complete=f"http://{HOST}:{port}/confirm", compensate=f"http://{HOST}:{port}/cancel")
                server.finish(1, lra)
                ends = server.comes_to(1, lra, "Closed")
            finally:
                service.kill()
                service.wait()
            out.seek(0)
            calls = out.read().split()
        self.check(f"{name} is called until it states a length", ends is not None and calls == ["/confirm"] * 3, calls)
        server.end()

    def test_mended_node_js(self) -> None:
        self.is_mended(["node", "-e", MENDED_NODE], "Node.js")

    def test_mended_java(self) -> None:
        with tempfile.TemporaryDirectory() as folder:
            repo.write(f"{folder}/Mended.java", MENDED_JAVA)
            self.is_mended(["java", f"{folder}/Mended.java"], "Java")

    def test_mended_python(self) -> None:
        self.is_mended([sys.executable, "-c", MENDED_PYTHON], "Python")

    def test_misspelt(self) -> None:
        """A misspelt member is ignored, as the page says in bold, and a correctly spelt one counts."""
        server, part = self.server(1).wait_until_up(), self.participant()
        misspelt, limited = server.begin(1, timeLimit=5000), server.begin(1, limit=5000)
        for lra, word in ((misspelt, "confirm"), (limited, "complete")):
            joined = server.join(1, lra, **{word: f"{part.url}/{word}"}, compensate=f"{part.url}/cancel")[0]
            self.check(f"a join with {word}", joined == 200, joined)
        self.check("at its limit an LRA is cancelled", server.comes_to(1, limited, "Cancelled") is not None)
        self.check("a misspelt limit isn't a limit", server.status(1, misspelt) == "Active")
        server.finish(1, misspelt)
        self.check("a misspelt link isn't called", server.comes_to(1, misspelt, "Closed") is not None
                   and part.paths() == ["/cancel"], part.paths())
        self.check("nothing is logged", server.end() == (0, ""))

    def test_links(self) -> None:
        """A link that is too long or uses https is refused, and a shorter one at http isn't."""
        server = self.server(1).wait_until_up()
        lra, start = server.begin(1), "http://booking.travel.svc.cluster.local:8080/"
        seen = {link: server.join(1, lra, compensate=link) for link in
                (start.ljust(135, "a"), start.ljust(128, "a"), "https://booking/cancel", start.ljust(127, "a"))}
        refused = [(status, answer.get("refused")) for status, answer in seen.values()]
        self.check("three links are refused, and one isn't", refused == [(400, "E1 BadText")] * 3 + [(200, None)],
                   refused)
        self.check("no refused join made a member", list(seen.values())[-1][1]["member"] == 1, seen)
        server.end()


def main() -> int:
    if len(sys.argv) > 1:
        Server.program = unproved.program_of(sys.argv[1])
    checks.need(Server)
    return checks.run(TestServices)


if __name__ == "__main__":
    sys.exit(main())
