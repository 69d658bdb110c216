"""A mock of the operators' port: what a node might hold, and how it answers for that."""
import contextlib
import http.server
import json
import random
import re
import threading
import time
from collections.abc import Iterator

from tools import metrics, repo
from tools.node import Json, home_of
from tools.page import PAGE
from tools.participant import QuietServer
from tools.ports import HOST

HOSTS = ["hotel:8080", "flight:8080", "payment:9000", "order:8080", "car.rental.example:8081"]
ENDED = {"Closed", "FailedToClose", "Cancelled", "FailedToCancel"}
# How often made-up LRAs get each status, if it is free to choose.
OFTEN = {"Active": 20, "Closed": 60, "Cancelled": 20, "Closing": 2, "Cancelling": 2}
# The most LRAs that a home holds.
MOST = 256
# The statuses of participants that go with the status of their LRA: that of the first participant, and of the others.
SHOWS = {
    "Active": ("Active", "Active"),
    "Closing": ("Completing", "Completed"),
    "Closed": ("Completed", "Completed"),
    "FailedToClose": ("FailedToComplete", "Completed"),
    "Cancelling": ("Compensating", "Compensating"),
    "Cancelled": ("Compensated", "Compensated"),
    "FailedToCancel": ("FailedToCompensate", "Compensated"),
}
DONE = {"complete": "Completed", "compensate": "Compensated"}
FAILED = {"complete": "FailedToComplete", "compensate": "FailedToCompensate"}


def id_of(home: int, number: int) -> str:
    return f"00000000-0000-8{home:03x}-8000-{number:012x}"


class World:
    """A node's made-up state: a number of LRAs of several homes, the first of which is this node's."""

    def __init__(self, count: int) -> None:
        self.dice, self.count, self.born = random.Random(count), count, time.time()
        self.nodes = 1 if count == 1 else 3 if count < 600 else 8
        self.lras: dict[str, Json] = {}
        self.vain: list[Json] = []
        self.ready: Json = {"ready": True}
        self.refuses: str | None = None
        self.is_stopped = False
        self.asked: list[tuple[float, str, str, bytes]] = []
        self.numbers = dict.fromkeys(range(1, self.nodes + 1), 0)
        # How many seconds ago each peer was last pulled from, and how many LRAs this node's home takes.
        self.pulled = dict.fromkeys(range(2, self.nodes + 1), 1)
        self.most = MOST
        wanted = self.first_statuses()
        while len(self.lras) < count:
            status = wanted.pop(0) if wanted else self.dice.choices(list(OFTEN), list(OFTEN.values()))[0]
            free = [home for home, number in self.numbers.items() if number < MOST]
            self.grow(1 if len(self.lras) < 5 else self.dice.choice(free), None, status)
        self.call()

    def first_statuses(self) -> list[str]:
        """Returns statuses of which there must be some."""
        if self.count == 1:
            return ["Cancelling"]
        failed = ["FailedToClose", "FailedToCancel"] * (1 + self.count // 500)
        return ["Cancelling", "Closing", "Cancelling", "Closed", *["Closing"] * (self.count // 64), *failed]

    def grow(self, home: int, parent: str | None, status: str) -> str:
        """Makes up an LRA, with its members and the LRAs nested in it."""
        self.numbers[home] += 1
        lra = id_of(home, self.numbers[home])
        members: list[Json] = []
        decision = None if status == "Active" or parent else "cancel" if "Cancel" in status else "close"
        self.lras[lra] = {"lra": lra, "status": status, "parent": parent, "deadline": None, "members": members,
                          "decision": decision}
        if status == "Active" and self.dice.random() < 0.6:
            self.lras[lra]["deadline"] = int((self.born + self.dice.randrange(30, 7200)) * 1000)
        for number in range(1, self.dice.randrange(2, 6)):
            has_room = self.depth(lra) < 4 and len(self.lras) < self.count and self.numbers[home] < MOST
            if self.dice.random() < 0.18 and has_room:
                below = status.replace("FailedToClose", "Closed").replace("FailedToCancel", "Cancelled")
                nested = self.grow(home, lra, "Closed" if status == "Active" else below)
                members.append({"member": number, "kind": "lra", "lra": nested})
            elif self.dice.random() < 0.08 and number > 1:
                members.append({"member": number, "kind": "left"})
            else:
                members.append(self.participant(number, status, not any(map(is_participant, members))))
        if not any(map(is_participant, members)):
            members.append(self.participant(len(members) + 1, status, True))
        return lra

    def depth(self, lra: str) -> int:
        """Returns an LRA's level in its tree: 1 for a root."""
        parent = self.lras[lra]["parent"]
        return 1 if parent is None else 1 + self.depth(parent)

    def participant(self, number: int, status: str, is_first: bool) -> Json:
        host, shows = self.dice.choice(HOSTS), SHOWS[status][0 if is_first else 1]
        links = {"compensate": f"http://{host}/cancel", "complete": f"http://{host}/confirm", "status": None,
                 "forget": None, "after": None}
        for name in ("status", "forget", "after"):
            if self.dice.random() < 0.3:
                links[name] = f"http://{host}/{name}"
        outcome = "done" if shows in DONE.values() else "failed" if shows in FAILED.values() else None
        is_close = shows.startswith(("Compl", "FailedToCompl"))
        return {"member": number, "kind": "participant", "status": shows, "links": links,
                "completed": outcome if is_close else None, "compensated": outcome if not is_close else None,
                "forgotten": False, "told": status in ENDED and links["after"] is not None}

    def call(self) -> None:
        """Makes up home 1's unanswered calls: to participants of its ending LRAs, and to a listener of one that has
        ended."""
        since = 4000.0
        for lra, one in self.lras.items():
            if home_of(lra) != 1 or len(self.vain) > 40:
                continue
            for member in filter(is_participant, one["members"]):
                kind = {"Completing": "complete", "Compensating": "compensate"}.get(member["status"])
                if not kind and self.may_listen(one):
                    kind, member["told"] = "after", False
                    member["links"]["after"] = "http://mail:8025/ended"
                if kind:
                    since *= 0.62
                    came = ["no connection", "503", "no whole answer", "404"][len(self.vain) % 4]
                    self.vain.append({"lra": lra, "member": member["member"], "kind": kind,
                                      "link": member["links"][kind], "times": int(since / 30) + 2,
                                      "since": round(since), "came": came})
                    break

    def may_listen(self, one: Json) -> bool:
        """Whether a listener of an LRA may be the one whose call is unanswered."""
        is_ended_root = one["status"] == "Closed" and not one["parent"]
        return is_ended_root and len(self.lras) > 1 and not any(call["kind"] == "after" for call in self.vain)

    def calls(self) -> list[Json]:
        gone = time.time() - self.born
        listed = []
        for place, call in enumerate(self.vain):
            due = None if place % 5 == 4 else 30 - int(gone + 7 * place) % 30
            listed.append(dict(call, since=round(call["since"] + gone), times=call["times"] + int(gone / 30), next=due))
        return sorted(listed, key=lambda call: -call["since"])[:256]

    def counts(self) -> str:
        """Returns the answer to /metrics: the counts of this node's home, and of the nodes that it pulls from."""
        shown = [one["status"] for lra, one in self.lras.items() if home_of(lra) == 1]
        return metrics.example({
            "lra_pulled_seconds": [({"from": str(node)}, seconds) for node, seconds in self.pulled.items()],
            "lra_held": [({"status": status}, shown.count(status)) for status in metrics.STATUS.split("|")],
            "lra_held_limit": [({}, self.most)],
        })

    def purge(self, one: Json) -> str:
        """Returns the answer to a purge."""
        name = f"{home_of(one['lra'])}.{int(one['lra'][24:], 16)}"
        if home_of(one["lra"]) != 1:
            return f"E4 NotHome {home_of(one['lra'])}"
        if one["parent"]:
            return "E9 NotRoot"
        if one["status"] not in ENDED:
            return f"E8 NotEnded {one['status']}"
        listeners = [member for member in filter(is_participant, one["members"]) if member["links"]["after"]]
        waits = next((member["member"] for member in listeners if not member["told"]), None)
        return f"E24 StillToTell {name} {waits}" if waits else "due"

    def shown(self, lra: str) -> tuple[int, Json | None]:
        one = self.lras.get(lra)
        if not re.fullmatch(r"[0-9a-f]{8}-([0-9a-f]{4}-){3}[0-9a-f]{12}", lra):
            return 400, {"refused": "E1 BadText"}
        if not one:
            return 410, {"refused": "E3 NotHeld"}
        names = ("lra", "status", "parent", "deadline", "decision", "purge", "members")
        return 200, {name: one[name] if name != "purge" else self.purge(one) for name in names}

    def page(self, query: str, roots: bool) -> tuple[int, Json]:
        found = re.fullmatch(r"(?:after=([0-9a-f-]{36}))?&?(?:status=(\w+))?", query)
        if not found:
            return 400, {"refused": "E1 BadText"}
        after, status = found.groups()
        beyond = [lra for lra in sorted(self.lras) if not after or lra > after]
        looked = [self.lras[lra] for lra in beyond[:64]]
        listed = [one for one in looked if status in (None, one["status"]) and not (roots and one["parent"])]
        rows = [{"lra": one["lra"], "status": one["status"], "parent": one["parent"], "members": len(one["members"]),
                 "deadline": one["deadline"]} for one in listed]
        return 200, {"lras": rows, "next": looked[-1]["lra"] if len(beyond) > 64 else None}

    def command(self, method: str, path: str, body: bytes) -> tuple[int, Json | None]:
        if self.refuses:
            return 409, {"refused": self.refuses}
        if method == "PUT" and path.endswith("/cancel"):
            return self.cancelled(path.split("/")[2])
        found = re.fullmatch(r"/lra/([0-9a-f-]{36})(?:/member/(\d+)/(report|forgot|told))?", path)
        one = self.lras.get(found[1]) if found else None
        if not found or not one or (method == "DELETE") == bool(found[3]):
            return 404, {"refused": "NoPath"}
        if method == "DELETE":
            return self.purged(one)
        member = next(member for member in one["members"] if member["member"] == int(found[2]))
        if found[3] == "report":
            report = json.loads(body)
            member["completed" if report["act"] == "complete" else "compensated"] = report["outcome"]
            member["status"] = {"done": DONE, "failed": FAILED}[report["outcome"]][report["act"]]
        else:
            member["forgotten" if found[3] == "forgot" else "told"] = True
        self.vain = [call for call in self.vain if (call["lra"], call["member"]) != (one["lra"], member["member"])]
        return 204, None

    def cancelled(self, lra: str) -> tuple[int, Json | None]:
        """Returns the answer to a cancel, and does it if it is allowed."""
        one = self.lras[lra]
        if home_of(lra) != 1:
            return 421, {"refused": f"E4 NotHome {home_of(lra)}"}
        if one["status"] != "Active":
            return 412, {"refused": f"E6 NotActive {one['status']}"}
        one["status"], one["decision"] = "Cancelling", "cancel"
        for member in filter(is_participant, one["members"]):
            member["status"] = "Compensating"
        return 200, {"lra": lra, "status": "Cancelling"}

    def purged(self, one: Json) -> tuple[int, Json | None]:
        """Returns the answer to a purge, and does it if it is allowed."""
        answer = self.purge(one)
        if answer != "due":
            return 421 if answer.startswith("E4") else 409, {"refused": answer}
        del self.lras[one["lra"]]
        return 204, None


def is_participant(member: Json) -> bool:
    return member["kind"] == "participant"


class Port(http.server.BaseHTTPRequestHandler):
    world: World
    page = repo.read(PAGE).encode()
    protocol_version = "HTTP/1.1"

    def give(self, code: int, body: bytes, kind: str) -> None:
        self.send_response(code)
        if code != 204:
            self.send_header("Content-Type", kind)
            self.send_header("Content-Length", str(len(body)))
        self.send_header("Connection", "close")
        self.end_headers()
        self.wfile.write(body)

    def answer(self) -> None:
        path, _, query = self.path.partition("?")
        body = self.rfile.read(int(self.headers.get("Content-Length") or 0))
        self.world.asked.append((time.monotonic(), self.command, self.path, body))
        if self.command == "GET" and path == "/":
            return self.give(200, self.page, "text/html; charset=utf-8")
        if self.command == "GET" and path == "/metrics":
            return self.give(200, self.world.counts().encode(), "text/plain; version=0.0.4; charset=utf-8")
        code, text = self.route(path, query, body)
        self.give(code, b"" if text is None else json.dumps(text, separators=(",", ":")).encode(), "application/json")

    def route(self, path: str, query: str, body: bytes) -> tuple[int, Json | None]:
        world = self.world
        if self.command != "GET":
            return world.command(self.command, path, body)
        if world.is_stopped and path not in ("/health", "/ready"):
            return 503, {"refused": "E19 Stopped"}
        if path in ("/lras", "/roots"):
            return world.page(query, path == "/roots")
        if path.startswith("/lra/"):
            return world.shown(path[5:])
        plain = {"/calls": {"calls": world.calls()}, "/health": {"node": 1, "nodes": world.nodes}}
        if path == "/ready":
            return 200 if world.ready["ready"] else 503, world.ready
        return (200, plain[path]) if path in plain else (404, {"refused": "NoPath"})

    do_GET = do_PUT = do_DELETE = do_POST = answer

    def log_message(self, *words: object) -> None:
        pass


@contextlib.contextmanager
def serves(count: int, port: int = 0) -> Iterator[tuple[World, str]]:
    world = World(count)
    server = QuietServer((HOST, port), type("ThisPort", (Port,), {"world": world}))
    threading.Thread(target=server.serve_forever, daemon=True).start()
    try:
        yield world, f"http://{HOST}:{server.server_address[1]}/"
    finally:
        server.shutdown()
        server.server_close()
