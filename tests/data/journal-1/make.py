"""Made the files beside it, with the program of 26 November 2026, whose journals had version 1: `make.py PROGRAM
FOLDER`. They are the journals of two nodes with LRAs of each kind, node-1.db and node-2.db, and shown.json, which has
what the nodes showed of them at the end. tests/serve.py opens copies of them and compares. A program whose journals
have another version can't make them again."""
import contextlib
import json
import os
import shutil
import sqlite3
import sys
import tempfile
import time

sys.path.insert(0, os.path.abspath(os.path.join(os.path.dirname(os.path.abspath(__file__)), "..", "..", "..")))
from tools import repo
from tools.node import Json, Server, comes_to
from tools.participant import Participant

# What each LRA shows at the end.
WANTED = {"active": "Active", "nested": "Closed", "closed": "Closed", "closing": "Closing",
          "failed to close": "FailedToClose", "cancelled": "Cancelled", "cancelling": "Cancelling",
          "failed to cancel": "FailedToCancel", "of node 2": "Active"}
# What participants answer; others are down.
ANSWERS = {"/c1/complete": 202, "/d1/complete": 409, "/d2/complete": 200, "/e1/compensate": 200, "/e2/compensate": 200,
           "/g1/compensate": 409, "/g1/forget": 204}


class Maker:
    """Makes LRAs at two nodes, and keeps their ids by their kinds."""

    def __init__(self, server: Server, part: Participant) -> None:
        self.server, self.url = server, part.url
        self.lras: dict[str, str] = {}

    def begin(self, what: str, node: int = 1, **how: Json) -> str:
        self.lras[what] = self.server.begin(node, **how)
        return self.lras[what]

    def join(self, lra: str, name: str, *words: str, node: int = 1) -> int:
        links = {word: f"{self.url}/{name}/{word}" for word in ("compensate", *words)}
        return self.server.join(node, lra, **links)[1]["member"]

    def make(self) -> None:
        """Makes LRAs of each kind."""
        # An LRA with participants with each kind of links, one that left, and a nested LRA that was closed.
        active = self.begin("active", limit=4_000_000_000_000)
        self.join(active, "a1")
        self.join(active, "a2", "complete", "status", "forget")
        left = self.join(active, "a3", "complete")
        self.server.ask(1, "PUT", f"/lra/{active}/member/{left}/leave")
        nested = self.begin("nested", parent=active)
        self.join(nested, "a4")
        self.server.finish(1, nested)
        # An LRA that closes at once.
        closed = self.begin("closed")
        self.join(closed, "b1")
        self.server.finish(1, closed)
        # An LRA of which one participant is busy and one is down.
        closing = self.begin("closing")
        self.join(closing, "c1", "complete", "status")
        self.join(closing, "c2", "complete")
        self.server.finish(1, closing)
        # An LRA with a participant that must still be called to forget.
        failed = self.begin("failed to close")
        self.join(failed, "d1", "complete", "forget")
        self.join(failed, "d2", "complete", "forget")
        self.server.finish(1, failed)
        self.make_cancelled()
        # An LRA of node 2.
        self.join(self.begin("of node 2", 2), "h1", "complete", node=2)

    def make_cancelled(self) -> None:
        cancelled = self.begin("cancelled")
        self.join(cancelled, "e1")
        self.join(cancelled, "e2", "status")
        self.server.finish(1, cancelled, "cancel")
        # An LRA whose first participant to compensate is down.
        cancelling = self.begin("cancelling")
        self.join(cancelling, "f1")
        self.join(cancelling, "f2", "complete")
        self.server.finish(1, cancelling, "cancel")
        # An LRA whose participant was called to forget.
        lost = self.begin("failed to cancel")
        self.join(lost, "g1", "forget")
        self.server.finish(1, lost, "cancel")

    def members(self, node: int, lra: str) -> dict[int, str]:
        """Returns what a node shows of an LRA's participants."""
        answers = {member: self.server.ask(node, "GET", f"/lra/{lra}/member/{member}") for member in range(1, 5)}
        return {member: answer["status"] for member, (code, answer) in answers.items() if code == 200}

    def shown(self) -> list[Json]:
        """Returns what both nodes show, once that is as wanted."""
        for node in (1, 2):
            for name, lra in self.lras.items():
                if self.server.comes_to(node, lra, WANTED[name], 20) is None:
                    raise SystemExit(f"node {node}, {name}: {self.server.status(node, lra)}")
        report = {"act": "complete", "outcome": "busy"}
        self.server.ask(2, "PUT", f"/lra/{self.lras['closing']}/member/2/report", report)
        time.sleep(3)  # until the report at node 2 reaches node 1
        return [{"node": node, "what": name, "lra": lra, "status": self.server.status(node, lra),
                 "members": self.members(node, lra)} for node in (1, 2) for name, lra in self.lras.items()]


def main() -> int:
    if len(sys.argv) != 3:
        print(__doc__, file=sys.stderr)
        return 2
    Server.program, out = os.path.abspath(sys.argv[1]), sys.argv[2]
    part = Participant(18990, 503)
    part.answers = dict(ANSWERS)
    with tempfile.TemporaryDirectory() as folder, Server(2, folder) as server:
        maker = Maker(server, part)
        maker.make()
        purged = server.begin(1)
        server.finish(1, purged)
        comes_to(20, lambda: server.purge(1, purged)[0] == 204)
        shown = maker.shown()
        shown.append({"node": 1, "what": "purged", "lra": purged, "refused": server.status(1, purged)})
        print(server.end())
        os.makedirs(out, exist_ok=True)
        for node in (1, 2):
            with contextlib.closing(sqlite3.connect(f"{folder}/node-{node}.db")) as database:
                database.execute("PRAGMA wal_checkpoint(TRUNCATE)")
                print(node, database.execute("SELECT * FROM front ORDER BY origin").fetchall())
            shutil.copy(f"{folder}/node-{node}.db", f"{out}/node-{node}.db")
        repo.write(os.path.abspath(f"{out}/shown.json"), json.dumps(shown, indent=1) + "\n")
    return 0


if __name__ == "__main__":
    sys.exit(main())
