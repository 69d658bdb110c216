"""A load of LRAs on nodes that may be killed. It records what was answered for each LRA, and finds what was then
lost."""
import contextlib
import http.client
import random
import threading
import time
from collections.abc import Callable, Iterator

from tools.node import Group, Nodes, home_of
from tools.participant import Participant

SHOWS = {"close": ("Closing", "Closed"), "cancel": ("Cancelling", "Cancelled"), None: ()}
ENDED = {"Closed", "Cancelled"}
# The errors of a request to a node that is killed.
GONE = (OSError, http.client.HTTPException)


class Noted:
    """What was answered for an LRA: its participants, in the order of their joins, and which of them reports by itself;
    the decision, and whether it was answered; whether an outcome was reported for the participant that reports."""

    def __init__(self) -> None:
        self.members: dict[int, int] = {}
        self.reports: int | None = None
        self.word: str | None = None
        self.is_decided = self.is_told = False

    def may_show(self) -> tuple[str, ...]:
        return SHOWS[self.word] if self.is_decided else (*SHOWS[self.word], "Active")

    def every_member(self) -> list[int]:
        return [*self.members.values(), *([self.reports] if self.reports else [])]


Notes = dict[str, Noted]


def links_of(part: Participant, place: int) -> dict[str, str]:
    """Returns the links of the participant at this place in the order of joins."""
    return {"compensate": f"{part.url}/cancel/{place}", "complete": f"{part.url}/close/{place}"}


def lost(nodes: Nodes, noted: Notes) -> Iterator[tuple]:
    """Yields what was answered and isn't there."""
    shown = nodes.shown_at_home()
    for lra, one in noted.items():
        if shown.get(lra) not in one.may_show():
            yield lra, one.word, one.is_decided, shown.get(lra)
        for member in one.every_member():
            if nodes.ask(home_of(lra), "GET", f"/lra/{lra}/member/{member}")[0] != 200:
                yield lra, "member", member


def misled(part: Participant, noted: Notes, ended: dict[str, str]) -> Iterator[tuple]:
    """Yields LRAs whose participants weren't called as required: all to complete, or last to first to compensate. A
    call that is repeated at once counts once."""
    for lra, one in noted.items():
        word = "cancel" if ended.get(lra) == "Cancelled" else "close"
        every = [path for _, path in part.made(lra) if path.startswith(f"/{word}/")]
        places = [int(path.rpartition("/")[2]) for i, path in enumerate(every) if i == 0 or every[i - 1] != path]
        if not set(one.members) <= set(places) or word == "cancel" and places != sorted(set(places), reverse=True):
            yield lra, word, sorted(one.members), places


def tell(group: Group, node: int, lra: str, one: Noted) -> None:
    """Reports an outcome at a node that has received the LRA's end, which then ends the LRA. Tries for a while."""
    body = {"act": "complete" if one.word == "close" else "compensate", "outcome": "done"}
    for _ in range(40):
        if group.ask(node, "PUT", f"/lra/{lra}/member/{one.reports}/report", body)[0] == 204:
            one.is_told = True
            return
        time.sleep(0.03)


class Load:
    """Six clients, two at each of three nodes, that begin LRAs, join and decide them, until they are stopped or their
    node is gone. They record what is answered."""

    def __init__(self, group: Group, dice: random.Random, part: Callable[[int], Participant]) -> None:
        self.group, self.stops = group, threading.Event()
        self.noted: Notes = {}
        self.threads = []
        for i in range(6):
            node = 1 + i % 3
            given = node, part(node), random.Random(dice.random())
            self.threads.append(threading.Thread(target=self.play, args=given))
        for thread in self.threads:
            thread.start()

    def stop(self) -> None:
        self.stops.set()
        for thread in self.threads:
            thread.join()

    def play(self, node: int, part: Participant, dice: random.Random) -> None:
        with contextlib.suppress(*GONE):
            for _ in range(50):
                if self.stops.is_set():
                    return
                self.play_one(node, part, dice)

    def play_one(self, node: int, part: Participant, dice: random.Random) -> None:
        """Plays one LRA. Some have a participant whose outcome is reported at some node."""
        lra = self.group.begin(node)
        one = self.noted[lra] = Noted()
        for place in range(dice.randrange(4)):
            if place == 1 and dice.random() < 0.7:
                slow = f"{part.url}/slow"
                one.reports = self.group.join(node, lra, complete=slow, compensate=slow)[1]["member"]
            else:
                one.members[place] = self.group.join(node, lra, **links_of(part, place))[1]["member"]
        one.word = dice.choice(("close", "cancel", "cancel", None))
        if one.word:
            one.is_decided = self.group.finish(node, lra, one.word) == 200
        if one.is_decided and one.reports:
            with contextlib.suppress(*GONE):  # that node is killed: perhaps nothing was reported
                tell(self.group, dice.choice((1, 2, 3)), lra, one)

    def told(self) -> set[str]:
        """Returns the LRAs for which an outcome was reported."""
        return {lra for lra, one in self.noted.items() if one.is_told}
