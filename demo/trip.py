#!/usr/bin/env python3
"""Five services book trips with a coordinator of three nodes, which this starts: python3 demo/trip.py [PROGRAM]

PROGRAM is crates/lra_node/out/lra_node, which ./coordinator builds, or --unproved (tools/unproved.py). A trip is an
LRA. The order begins it and calls hotel, flight and payment over HTTP. Each of them joins it, and the coordinator calls
each when the trip ends. The mail joins to be notified of what became of it. Exits with 1 if anything differs from what
is expected. Uses only the standard library; takes a few seconds."""
import io
import json
import os
import signal
import sys
import tempfile
import threading
import time
from collections.abc import Iterable
from email.message import Message

sys.path.insert(0, os.path.dirname(os.path.dirname(os.path.abspath(__file__))))
from tools import unproved
from tools.node import HOST, Json, Server, comes_to, home_of, request
from tools.participant import Participant, Reply
from tools.ports import free_row

DONE = {"complete": "Completed", "compensate": "Compensated", "forget": "Forgotten"}
ALL = ("order", "hotel", "flight", "payment")


def call(method: str, port: int, path: str, body: Json = None, lra: str = "",
         wants: Iterable[int] = (200, 201, 204)) -> Json:
    """Makes one request, and returns the JSON of its answer. A node between two runs answers E20, and is asked
    again."""
    fields = {"Long-Running-Action": f"urn:uuid:{lra}"} if lra else {}
    for _ in range(100):
        answer = request((HOST, port), method, path, json.dumps(body) if body else None, fields)
        if answer.status in wants:
            return answer.json()
        if "E20 RunFull" not in answer.text:
            break
        time.sleep(0.02)
    raise RuntimeError(f"{method} {path} at port {port} was answered with {answer.status} {answer.text}")


class Service(Participant):
    """A participant with a port of its own. It keeps a state for each LRA, and accepts repeated calls."""

    def __init__(self, name: str, port: int, travel: "Travel") -> None:
        self.name, self.travel = name, travel
        self.states: dict[str, str] = {}
        super().__init__(port)

    def answer(self, path: str, lra: str, fields: Message, body: bytes) -> Reply:
        where = " for the stay" if "Long-Running-Action-Parent" in fields else ""
        code, text = self.book(lra, **json.loads(body or "{}")) if path == "/book" else self.act(path[1:], lra, where)
        return code, text.encode()

    def book(self, lra: str, stay: str | None = None, card: str | None = None) -> tuple[int, str]:
        """Answers the order with a code and a text. For a stay the hotel begins an LRA inside the trip, and closes
        it."""
        if stay:
            own = self.travel.begin(3, "Its stay", stay, parent=lra)
            self.book(own)
            self.travel.book(own, "payment")
            self.travel.listen(own)
            self.travel.at_home("PUT", own, "/close")
            return 200, json.dumps(own)
        links = {name: f"{self.url}/{name}" for name in ("complete", "compensate", "status", "forget")}
        self.states[lra] = "Active"
        joined = self.travel.at_home("PUT", lra, "/join", links)
        if card:
            self.travel.at_home("PUT", lra, f"/member/{joined['member']}/leave")
        return 402 if card else 200, ""

    def act(self, act: str, lra: str, where: str) -> tuple[int, str]:
        """Answers the coordinator with a code and a text. The hotel needs time to compensate, and has done so when it
        is asked again. A service that was asked to compensate ignores a complete that comes late."""
        with self.travel.lock:
            was = self.states[lra]
            if act == "complete" and was.startswith("Compensat"):
                return 200, was
            is_busy = act == "compensate" and self.name == "hotel" and not was.startswith("Compensat")
            now = "Compensating" if is_busy else "Compensated" if was == "Compensating" else DONE.get(act, was)
            self.states[lra] = now
            if now != was:
                verb = "needs time to compensate" if is_busy else "forgets" if act == "forget" else f"is {now.lower()}"
                self.travel.calls.append(f"{self.name} {verb}{where}")
        return 202 if is_busy else 200, now


class Listener(Participant):
    """Is notified of what each LRA became, and accepts repeated calls."""

    def __init__(self, port: int) -> None:
        self.heard: dict[str, str] = {}
        self.known: dict[str, str] = {}
        super().__init__(port)

    def answer(self, path: str, lra: str, fields: Message, body: bytes) -> Reply:
        status = body.decode()
        if self.known.get(lra) != status:
            self.known[lra] = self.heard[lra] = status
        return 200


class Travel:
    """A coordinator of three nodes, and the scenes. Its process ends when its standard input does, and so also when
    this program is killed."""

    def __init__(self, folder: str) -> None:
        *self.ports, first, _, _, _, last = free_row(8)
        self.folder = folder
        self.titles: dict[str, str] = {}
        self.ends: dict[str, str] = {}
        self.lock = threading.Lock()
        self.calls: list[str] = []  # what the coordinator called the services for
        self.mail = Listener(last)
        self.services = {name: Service(name, port, self) for port, name in enumerate(ALL, first)}
        self.start()

    def start(self) -> None:
        self.server = Server(3, self.folder, self.ports, stderr=None, start_new_session=True)
        if not self.server.is_up():
            raise SystemExit("WRONG: the coordinator didn't start.")

    def at_home(self, method: str, lra: str, tail: str = "", body: Json = None) -> Json:
        """Makes a request to the LRA's home."""
        return call(method, self.ports[home_of(lra) - 1], f"/lra/{lra}{tail}", body)

    def begin(self, node: int, title: str, end: str, parent: str | None = None) -> str:
        lra = call("POST", self.ports[node - 1], "/lra", {"parent": parent})["lra"]
        self.titles[lra], self.ends[lra] = title, end
        return lra

    def book(self, lra: str, name: str, wants: Iterable[int] = (200,), **wish: str) -> Json:
        return call("POST", self.services[name].port, "/book", wish, lra, wants)

    def trip(self, title: str, node: int, end: str, *names: str) -> str:
        """Lets the order begin a trip and join it first, so that it is the last to be compensated. Then the named
        services join."""
        print(f"\n{title}\n  The order begins a trip at node {node}.")
        trip = self.begin(node, title, end)
        for name in ("order", *names):
            self.book(trip, name)
            print(f"  The {name} joins.")
        self.listen(trip)
        print("  The mail listens.")
        return trip

    def listen(self, lra: str) -> None:
        self.at_home("PUT", lra, "/join", {"after": f"{self.mail.url}/mail"})

    def decide(self, trip: str, word: str) -> None:
        self.at_home("PUT", trip, f"/{word}")
        print(f"  The order {word}s the trip.")

    def becomes(self, lra: str, status: str, *calls: str, what: str = "trip", in_order: bool = False,
                mails: Iterable[str] = ()) -> None:
        """Waits until the LRA shows the status and the services have been called like this, and prints both.
        Compensations come in order. The mail is notified of what each LRA of `mails` became, in any order."""
        wanted = {one: self.ends[one] for one in mails}
        comes_to(30, lambda: self.at_home("GET", lra)["status"] == status and len(self.calls) >= len(calls)
                 and len(self.mail.heard) >= len(wanted))
        shown = self.at_home("GET", lra)["status"]
        with self.lock:
            came, self.calls = tuple(self.calls), []
        came = came if in_order else tuple(sorted(came, key=(calls + came).index))
        for line in (*came, f"{what} is {shown}"):
            print(f"  The {line}.")
        heard, self.mail.heard = self.mail.heard, {}
        for one in wanted:
            name = "stay" if self.titles[one] == "Its stay" else "trip"
            print(f"  The mail hears that the {name} is {heard.get(one, 'not ended')}.")
        if (came, shown) != (calls, status) or heard != wanted:
            must = f"{', '.join(calls)}, {what} is {status}, and the mail hears of {len(wanted)} LRAs"
            raise SystemExit(f"WRONG: expected: {must}.")

    def booked(self) -> None:
        trip = self.trip("A trip that is booked", 1, "Closed", "hotel", "flight", "payment")
        self.decide(trip, "close")
        self.becomes(trip, "Closed", *(f"{name} is completed" for name in ALL), mails=[trip])

    def refused(self) -> None:
        trip = self.trip("A trip whose payment fails", 2, "Cancelled", "hotel", "flight")
        self.book(trip, "payment", (402,), card="refused")
        print("  The payment joins, finds that the card is refused, and leaves.")
        self.decide(trip, "cancel")
        self.becomes(trip, "Cancelled", "flight is compensated", "hotel needs time to compensate",
                     "hotel is compensated", "order is compensated", in_order=True, mails=[trip])

    def nested(self, word: str, end: str, *calls: str) -> None:
        trip = self.trip(f"A trip with a stay, {'booked' if end == 'Closed' else 'cancelled'}", 3, end, "flight")
        stay = self.book(trip, "hotel", stay=end)
        print("  The hotel begins a stay, an LRA inside the trip.\n  Hotel and payment join it, and the mail listens.\n"
              "  The hotel closes the stay.")
        self.becomes(stay, "Closed", "hotel is completed for the stay", "payment is completed for the stay",
                     what="stay")
        self.book(trip, "payment")
        print("  The payment joins the trip.")
        self.decide(trip, word)
        self.becomes(trip, end, *calls, in_order=word == "cancel", mails=[stay, trip])
        self.becomes(stay, end, what="stay")

    def down(self) -> None:
        trip = self.trip("A trip whose flight is down when it ends", 2, "Closed", "hotel", "flight", "payment")
        self.services["flight"].close()
        print("  The flight is down: its port is closed.")
        self.decide(trip, "close")
        self.becomes(trip, "Closing", *(f"{name} is completed" for name in ALL if name != "flight"))
        time.sleep(1)
        self.services["flight"].open()
        print("  The flight is back.")
        self.becomes(trip, "Closed", "flight is completed", mails=[trip])

    def killed(self) -> None:
        trip = self.trip("A trip whose coordinator is killed", 1, "Closed", "hotel", "flight", "payment")
        self.server.kill()
        print("  The coordinator is killed with kill -9.")
        self.start()
        print("  The coordinator starts again on the same folder.")
        self.becomes(trip, "Active")
        self.decide(trip, "close")
        self.becomes(trip, "Closed", *(f"{name} is completed" for name in ALL), mails=[trip])

    def agree(self) -> None:
        """Asks every node for every LRA. Each node has learned of all of them within a few seconds."""
        nodes = (1, 2, 3)
        print("\nThe three nodes are asked for every LRA")
        is_so = comes_to(30, lambda: all(self.server.shown(node) == self.ends for node in nodes))
        is_so = is_so and not self.calls and not self.mail.heard
        shown = [self.server.shown(node) for node in nodes]
        for lra, title in self.titles.items():
            print(f"  {title}: {', '.join(lras.get(lra, 'not there') for lras in shown)}.")
        if not is_so or self.server.end()[0] != 0:
            ends = ", ".join(self.ends.values())
            raise SystemExit(f"WRONG: expected {ends}, no calls but those above, and exit status 0.")
        print("\nAll is as it must be.")

    def play(self) -> None:
        """Plays all scenes, and then asks each node."""
        self.booked()
        self.refused()
        self.nested("close", "Closed", "order is completed", "flight is completed", "payment is completed",
                    "hotel forgets for the stay", "payment forgets for the stay")
        self.nested("cancel", "Cancelled", "payment is compensated", "payment is compensated for the stay",
                    "hotel needs time to compensate for the stay", "hotel is compensated for the stay",
                    "flight is compensated", "order is compensated")
        self.down()
        self.killed()
        self.agree()


def main() -> None:
    if len(sys.argv) > 1:
        Server.program = unproved.program_of(sys.argv[1])
    if not os.access(Server.program, os.X_OK):
        raise SystemExit(f"{Server.program} isn't built: ./coordinator builds it.")
    if isinstance(sys.stdout, io.TextIOWrapper):
        sys.stdout.reconfigure(line_buffering=True)
    for number in (signal.SIGINT, signal.SIGTERM, signal.SIGHUP):
        signal.signal(number, lambda came, _: sys.exit(128 + came))
    with tempfile.TemporaryDirectory() as folder:
        travel = Travel(folder)
        try:
            travel.play()
        finally:
            travel.server.kill()


if __name__ == "__main__":
    main()
