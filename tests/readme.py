#!/usr/bin/env python3
"""Runs the examples in README, docs/FORMATS.md and docs/HTTP.md, and compares the results: python3 tests/readme.py
[PROGRAM]. Uses only the standard library.

PROGRAM is crates/lra_node/out/lra_node, which ./coordinator builds, or --unproved (tools/unproved.py). Each script
table in FORMATS runs through `lra_node script N`. The curl lines run in one shell against `lra_node serve` with the
numbers from README, beside the participant that README starts. The calls that HTTP.md shows byte by byte are sent.
Exits with 1 if any result differs. The ports of README, 8070 to 8072 and 9001, have to be free."""
import os
import re
import select
import subprocess
import sys
from collections.abc import Iterator

sys.path.insert(0, os.path.dirname(os.path.dirname(os.path.abspath(__file__))))
from tools import checks, repo, unproved
from tools.node import Server, exchange, wait_for
from tools.quick import printed_by, quick_start

# A line of a script, and what it prints.
Row = tuple[str, str]


def scripts() -> Iterator[tuple[int, list[Row]]]:
    """Yields each script of FORMATS: how many nodes it has, and its lines with what they print."""
    for part in re.split(r"(?=With `script \d`)", repo.read("docs/FORMATS.md"))[1:]:
        rows = re.findall(r"^\| `(.+?)` \| `(.+?)` \|$", part.split("\n## ")[0], re.M)
        yield int(part[len("With `script ")]), rows


def whole(message: str) -> str:
    """Returns a message with the empty line behind its head, if it has no body."""
    return message if "{" in message.split("\r\n")[-1] else f"{message}\r\n"


class TestPages(checks.Checked):
    needs = (Server,)

    def test_scripts(self) -> None:
        for nodes, rows in scripts():
            words, given = [Server.program, "script", str(nodes)], "".join(f"{line}\n" for line, _ in rows)
            ran = subprocess.run(words, input=given, capture_output=True, text=True)
            printed = ran.stdout.split("\n")[:-1]
            for (line, wanted), seen in zip(rows, printed + [""] * len(rows)):
                self.same(line, wanted, seen)
            ended = len(printed), ran.returncode
            self.same(f"script {nodes} prints {len(rows)} lines, and exits with 0", (len(rows), 0), ended)

    def test_quick_start(self) -> None:
        start = quick_start()
        server = self.server(start.nodes, ports=range(start.port, start.port + start.nodes), stderr=None)
        participant = subprocess.Popen(start.command, cwd=repo.TOP, stdout=subprocess.PIPE, text=True)
        shell = subprocess.Popen(["sh"], stdin=subprocess.PIPE, stdout=subprocess.PIPE, text=True, bufsize=1)
        assert participant.stdout
        try:
            server.wait_until_up()
            wait_for(9001)
            for line, wanted in start.steps:
                if line:
                    self.same(line, wanted or "", printed_by(shell, line, wanted or ""))
                    continue
                is_told = select.select([participant.stdout], [], [], 20)[0]
                seen = participant.stdout.readline().strip() if is_told else "nothing"
                self.same("the participant's line", wanted, seen)
        finally:
            shell.communicate()
            participant.kill()
            more = participant.communicate()[0]
        self.same("the participant is called once", "", more)
        self.same("the server ends when its input does", 0, server.end()[0])

    def test_calls(self) -> None:
        """The requests of HTTP.md get their answers, in order."""
        part = repo.found(r"## Each call, byte by byte\n(.*?)\n## ", repo.read("docs/HTTP.md"), re.S)[1]
        blocks = [block.replace("\n", "\r\n") for block in re.findall(r"^```\n(.*?)\n```$", part, re.M | re.S)]
        server = self.server(2, ports=(8070, 8071), stderr=None).wait_until_up()
        for request, wanted in zip(blocks[::2], blocks[1::2]):
            answer = exchange(server.address(1), whole(request).encode()).decode()
            self.same(request.split(" HTTP")[0], whole(wanted), answer)
        server.end()


def main() -> int:
    if len(sys.argv) > 1:
        Server.program = unproved.program_of(sys.argv[1])
    checks.need(Server)
    return checks.run(TestPages)


if __name__ == "__main__":
    sys.exit(main())
