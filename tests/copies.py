#!/usr/bin/env python3
"""Tests members that answer only what other nodes have stored, and whose machine is lost for good, with its disk:
python3 tests/copies.py [PROGRAM] [--rounds N] [--patience MS] [--copies K] [TEST..].

PROGRAM is crates/lra_node/out/lra_node, or --unproved (tools/unproved.py). A TEST is one of lost, decided, heard, back,
crowded, parted, slow, full, old, behind, restarted, forged, stranger, late, strict, anew, twice and alone; without one
it runs all tests, which takes some ten minutes. In lost, one of three nodes is killed with kill -9 under load, its
folder is emptied, and a member with its number starts anew: N times (3 by default), each node in turn, with copies=0, 1
and 2, or only with K. With copies=0 it only counts what is lost. Each check prints a line. Exits with 1 if a check
fails. Uses only the standard library."""
import contextlib
import itertools
import os
import random
import shutil
import signal
import statistics
import subprocess
import sys
import threading
import time
import typing
from collections.abc import Callable
from email.message import Message

sys.path.insert(0, os.path.dirname(os.path.dirname(os.path.abspath(__file__))))
from tools import checks, unproved
from tools.load import GONE, SHOWS
from tools.node import SLOW, Group, Json, comes_to, exchange, home_of, limit_files, request
from tools.operated import Operated
from tools.participant import Participant, Reply
from tools.relays import Paired

# How many seconds pass without anything being stored before a machine is lost while a participant is being called.
QUIET = 1.5
# The metrics that say whether answers are no longer held for copies, how many answers wait, and how many pulls are
# held.
SHORT, WAITING, HELD = ("lra_copies_short",), ("lra_answers_waiting",), ("lra_pulls_held",)


class Kept:
    """What was answered for an LRA: its participants and its decision."""

    def __init__(self) -> None:
        self.members: list[int] = []
        self.word: str | None = None
        self.is_decided = False

    def facts(self) -> int:
        return 1 + len(self.members) + self.is_decided


class Late(Participant):
    """Answers a call to complete only once it may go on: either with 202, and is still busy when its status is
    requested, or with 200."""

    def __init__(self, code: int) -> None:
        self.code, self.is_called, self.goes_on = code, threading.Event(), threading.Event()
        super().__init__()

    def answer(self, path: str, lra: str, fields: Message, body: bytes) -> Reply:
        if path.endswith("/complete") and not self.goes_on.is_set():
            self.is_called.set()
            self.goes_on.wait(SLOW)
            return self.code
        return (200, b"Completing") if path.endswith("/status") else 200


class Halting(Participant):
    """Stops a process when it is called, and then answers 200."""

    def __init__(self, process: subprocess.Popen) -> None:
        self.process = process
        super().__init__()

    def answer(self, path: str, lra: str, fields: Message, body: bytes) -> Reply:
        self.process.send_signal(signal.SIGSTOP)
        return 200


class AtOnce:
    """Calls that are made at the same time, each in a thread, and when each of them began and ended."""

    def __init__(self, *calls: Callable[[], object]) -> None:
        self.spans = [(0.0, 0.0)] * len(calls)
        self.threads = [threading.Thread(target=self.make, args=given) for given in enumerate(calls)]
        for thread in self.threads:
            thread.start()

    def make(self, place: int, call: Callable[[], object]) -> None:
        began = time.monotonic()
        call()
        self.spans[place] = began, time.monotonic()

    def join(self) -> list[tuple[float, float]]:
        for thread in self.threads:
            thread.join()
        return self.spans


class Older(Paired):
    """Members that hold no pulls: each asks as an older version does."""

    def __init__(self, count: int, folder: str, *options: str) -> None:
        super().__init__(count, folder, *options)
        for relay in self.pairs.values():
            relay.swap = b"?wait=", b"?from="


class Clients:
    """Clients that begin LRAs at a node, join and decide them, until they are stopped. They record what is answered,
    how long each answer took, and with what a node refused. After a closed connection they go on with another."""

    def __init__(self, group: Group, home: int, count: int, link: str, limit: int = 10_000,
                 pause: float = 0.01) -> None:
        self.group, self.home, self.link, self.limit, self.pause = group, home, link, limit, pause
        self.noted: dict[str, Kept] = {}
        self.times: list[float] = []
        self.refused: list[str] = []
        self.stops = threading.Event()
        self.threads = [threading.Thread(target=self.play, args=(random.Random(i),)) for i in range(count)]
        for thread in self.threads:
            thread.start()

    def ask(self, method: str, path: str, body: Json = None) -> tuple[int, Json]:
        began = time.monotonic()
        status, answer = self.group.ask(self.home, method, path, body)
        self.times.append(time.monotonic() - began)
        if status == 503:
            self.refused.append(answer.get("refused"))
        return status, answer

    def play(self, dice: random.Random) -> None:
        for _ in range(self.limit):
            if self.stops.is_set():
                return
            with contextlib.suppress(*GONE, TypeError, ValueError):
                self.play_one(dice)
            time.sleep(self.pause)

    def play_one(self, dice: random.Random) -> None:
        status, answer = self.ask("POST", "/lra", {})
        if status != 201:
            time.sleep(0.02)
            return
        lra = answer["lra"]
        one = self.noted[lra] = Kept()
        for _ in range(dice.randrange(3)):
            links = {"compensate": f"{self.link}/cancel", "complete": f"{self.link}/close"}
            status, answer = self.ask("PUT", f"/lra/{lra}/join", links)
            if status == 200:
                one.members.append(answer["member"])
        one.word = dice.choice(("close", "cancel", "close", None))
        if one.word:
            one.is_decided = self.ask("PUT", f"/lra/{lra}/{one.word}")[0] == 200

    def facts(self) -> int:
        return sum(one.facts() for one in list(self.noted.values()))

    def stop(self) -> None:
        self.stops.set()
        for thread in self.threads:
            thread.join()

    def took(self) -> str:
        times = [1000 * took for took in sorted(self.times)] or [0]
        return f"median {statistics.median(times):.1f} ms, 99th percentile {times[len(times) * 99 // 100]:.1f}"


def gone_at(group: Group, noted: dict[str, Kept]) -> list[tuple]:
    """Returns what was answered and isn't there at its home."""
    wrong: list[tuple] = []
    for lra, one in noted.items():
        home = home_of(lra)
        status = group.status(home, lra)
        if status is None or status.startswith("E"):
            wrong.append((lra, "begin", status))
            continue
        if one.is_decided and status not in SHOWS[one.word]:
            wrong.append((lra, one.word, status))
        for member in one.members:
            if group.ask(home, "GET", f"/lra/{lra}/member/{member}")[0] != 200:
                wrong.append((lra, "member", member))
    return wrong


def turned_at(group: Group, part: Participant) -> list[tuple]:
    """Returns the calls to complete or to compensate whose LRA doesn't show that decision at its home."""
    calls = {(call.lra, call.path.strip("/")) for call in list(part.calls)}
    shown = {lra: group.status(home_of(lra), lra) for lra, _ in calls}
    return [(lra, word, shown[lra]) for lra, word in calls if shown[lra] not in SHOWS[word]]


def lose(group: Group, number: int) -> None:
    """Kills a node and empties its folder, as if its machine were lost."""
    group.kill(number)
    shutil.rmtree(f"{group.folder}/{number}")
    os.makedirs(f"{group.folder}/{number}")


def begins(group: Group, number: int) -> bool:
    """Whether a begin is answered with 201. False if there is no answer."""
    with contextlib.suppress(*GONE):
        return request(group.address(number), "POST", "/lra").status == 201
    return False


def refuses(group: Group, number: int) -> tuple[int, bool]:
    """Returns the status of a begin, and whether it is refused with E19."""
    answer = request(group.address(number), "POST", "/lra")
    return answer.status, "E19" in answer.text


def begin_takes(group: Group) -> float:
    """Returns the median of how many seconds a begin at node 1 takes, over nine begins."""
    return statistics.median(timed(lambda: group.begin(1)) for _ in range(9))


def told_to(group: Operated) -> list[float]:
    """Returns how many facts of node 1 each of both others has acknowledged."""
    seen = group.samples(1)
    return [seen[("lra_told", f"by={number}")] for number in (2, 3)]


def timed(call: Callable[[], object]) -> float:
    """Returns for how many seconds a call goes on."""
    began = time.monotonic()
    call()
    return time.monotonic() - began


class TestCopies(checks.Checked):
    needs = (Group,)
    # How often a machine is lost, and how long answers wait. The latter is long because an unproved build is slow.
    rounds = 3
    patience = 1000
    # The number of copies, if it is given.
    copies: int | None = None

    def words(self, copies: int, *more: str) -> list[str]:
        return [f"copies={copies}", f"patience={self.patience}", *more] if copies else list(more)

    def started(self, kind: type[Group], copies: int, *more: str) -> typing.Any:
        """Starts three members in a folder of their own, each of which accepts a begin."""
        folder = self.folder_in(f"group{len(os.listdir(self.folder))}")
        group = kind(3, folder, *self.words(copies, *more))
        self.addCleanup(group.__exit__)
        group.start()
        comes_to(SLOW, lambda: all(begins(group, node) for node in (1, 2, 3)))
        return group

    def counts(self, *usual: int) -> tuple[int, ...]:
        return usual if self.copies is None else (self.copies,)

    def test_lost(self) -> None:
        """A machine is lost under load."""
        for copies in self.counts(0, 1, 2):
            found = [self.lost_once(Group, copies, turn) for turn in range(self.rounds)]
            facts, wrong, twice, turned = (sum(counts) for counts in zip(*found, strict=True))
            if copies:
                self.check(f"copies={copies}: none of {facts} facts that were answered is lost", wrong == 0, found)
            else:
                print(f"        copies=0: of {facts} facts {wrong} are lost, {twice} numbers are assigned twice, and"
                      f" {turned} calls were for a decision that is lost", flush=True)

    def lost_once(self, kind: type[Group], copies: int, turn: int) -> tuple[int, int, int, int]:
        """Loses a node under load. Returns how many facts were answered, how many of them are lost, how many numbers
        are assigned twice, and how many calls were for a decision that is lost."""
        number = 1 + (turn + 1) % 3
        group, part = self.started(kind, copies), self.participant()
        # They begin at most 150 LRAs, so that the home has places left: nothing is purged.
        clients, amid = Clients(group, number, 6, part.url, 25), random.randrange(20, 100)
        beside = [Clients(group, other, 1, part.url, 60) for other in (1, 2, 3) if other != number]
        begun = comes_to(SLOW, lambda: len(clients.noted) > amid)
        lose(group, number)
        for one in (clients, *beside):
            one.stop()
        group.start(number, options=self.words(copies, *(["anew"] if copies else [])))
        goes_on = comes_to(SLOW, lambda: begins(group, number))
        told, facts = f"copies={copies}, turn {turn + 1}, node {number}", clients.facts()
        self.check(f"{told}: it goes on", begun and goes_on, group.log(number))
        twice = {group.begin(number) for _ in range(20)} & set(clients.noted)
        wrong = [gone for one in (clients, *beside) for gone in gone_at(group, one.noted)]
        turned = turned_at(group, part)
        if copies:
            self.check(f"{told}: no number is assigned twice", not twice, twice)
            self.check(f"{told}: {facts} facts, answers after {clients.took()}", not wrong, wrong[:20])
            self.check(f"{told}: each of {len(part.calls)} calls was for a decision that is kept",
                       part.calls and not turned, turned)
            self.check(f"{told}: all nodes are alike", comes_to(SLOW, group.are_alike))
        group.__exit__()
        return facts, len(wrong), len(twice), len(turned)

    def test_decided(self) -> None:
        """A machine is lost at the moment when a participant is called to complete."""
        for copies in self.counts(0, 1):
            found = [self.decided_once(copies, turn) for turn in range(self.rounds)]
            if copies:
                closes = all(status in SHOWS["close"] for status in found)
                self.check(f"copies={copies}: the LRA closes whose participant was called to complete", closes, found)
            else:
                told = ", ".join(map(str, found))
                print(f"        copies=0: a participant was called to complete, and the LRA shows {told}", flush=True)

    def decided_once(self, copies: int, turn: int) -> str | None:
        with Group(3, self.folder_in(f"decided{copies}-{turn}"), *self.words(copies)) as group:
            group.start()
            comes_to(SLOW, lambda: begins(group, 2))
            part = self.participant()
            lra = group.begin(2)
            group.join(2, lra, compensate=f"{part.url}/cancel", complete=f"{part.url}/close")
            time.sleep(QUIET)
            process, heard, hear = group.processes[2], threading.Event(), part.hear

            def kill(*call: object) -> object:
                with contextlib.suppress(ProcessLookupError):
                    os.kill(process.pid, signal.SIGKILL)
                heard.set()
                return hear(*call)  # type: ignore[arg-type]

            part.hear = kill  # type: ignore[assignment, method-assign]
            with contextlib.suppress(*GONE, ValueError):
                group.finish(2, lra)
            heard.wait(SLOW)
            part.hear = hear  # type: ignore[method-assign]
            lose(group, 2)
            group.start(2, options=self.words(copies, *(["anew"] if copies else [])))
            comes_to(SLOW, lambda: begins(group, 2))
            return group.status(2, lra)

    def test_heard(self) -> None:
        """A participant whose answer was received isn't called again, though a list of duties that was made before
        waits for copies."""
        for code in (202, 200):
            self.held_once(code)
        for copies in self.counts(1, 2):
            self.loaded_once(copies)

    def held_once(self, code: int) -> None:
        """A participant answers while a list that names it waits for a machine that hangs."""
        folder = self.folder_in(f"held{code}")
        group = Operated(2, folder, "copies=1", f"patience={20 * self.patience}")
        self.addCleanup(group.__exit__)
        group.start()
        comes_to(SLOW, lambda: all(begins(group, node) for node in (1, 2)))
        first, second = Late(code), Halting(group.processes[2])
        self.addCleanup(first.close)
        self.addCleanup(second.close)
        lra = group.begin(1)
        for part in (first, second):
            links = {"compensate": f"{part.url}/compensate", "complete": f"{part.url}/complete"}
            group.join(1, lra, status=f"{part.url}/status", **links)
        group.finish(1, lra)
        first.is_called.wait(SLOW)
        comes_to(SLOW, lambda: second.calls)
        # A call times out after ten seconds, so it must be answered sooner than that.
        time.sleep(3)
        first.goes_on.set()
        time.sleep(3)
        group.processes[2].send_signal(signal.SIGCONT)
        comes_to(SLOW, lambda: (202 == code and "/status" in first.paths()) or group.status(1, lra) == "Closed")
        time.sleep(self.patience / 1000)
        told = [path for path in first.paths() if path == "/complete"]
        self.same(f"a participant that answered {code} while a list waited is called to complete once", 1, len(told))

    def loaded_once(self, copies: int) -> None:
        """Sixteen clients close LRAs of four participants each, at one node, without any fault."""
        group, part = self.started(Group, copies), self.participant()

        def client() -> None:
            for _ in range(8):
                lra = group.begin(1)
                for place in range(4):
                    path = f"{part.url}/{lra}/{place}"
                    group.join(1, lra, compensate=path, complete=path)
                group.finish(1, lra)

        threads = [threading.Thread(target=client) for _ in range(16)]
        for thread in threads:
            thread.start()
        for thread in threads:
            thread.join()
        comes_to(SLOW, lambda: len(set(part.paths())) == 512)
        time.sleep(2)
        again = len(part.paths()) - len(set(part.paths()))
        self.check(f"copies={copies}: none of 512 participants that answered 200 is called again",
                   len(set(part.paths())) == 512 and not again, (len(set(part.paths())), again))

    def test_back(self) -> None:
        """What a member over an empty folder took back waits for copies just as new facts do."""
        group = self.group(3, *self.words(2, "strict")).start()
        comes_to(SLOW, lambda: all(begins(group, node) for node in (1, 2, 3)))
        part = self.participant(status=503)
        lra = group.begin(1)
        group.join(1, lra, compensate=part.url, complete=part.url)
        group.kill(3)

        def asked(method: str, path: str) -> int | None:
            with contextlib.suppress(*GONE):
                return request(group.address(1), method, path).status
            return None

        self.same("a close that only one of the two others has isn't acknowledged", None,
                  asked("PUT", f"/lra/{lra}/close"))
        lose(group, 1)
        group.start(1, options=[*self.words(2, "strict"), "anew"])
        time.sleep(2 * self.patience / 1000)
        seen = [asked("GET", f"/lra/{lra}") for _ in range(3)]
        self.check("after it was taken back it isn't shown either", 200 not in seen, seen)
        group.start(3)
        shows = comes_to(SLOW, lambda: group.status(1, lra) == "Closing")
        self.check("it is shown once the third node has it too", shows, group.log(1))

    def test_crowded(self) -> None:
        """Clients of a full home begin and ask, while its node is killed and started again: the others still
        acknowledge."""
        group = self.group(3, *self.words(1, "strict"), kind=Operated).start()
        comes_to(SLOW, lambda: all(begins(group, node) for node in (1, 2, 3)))
        ended = threading.Event()
        while group.ask(1, "POST", "/lra")[0] == 201:
            pass

        def client(method: str) -> None:
            while not ended.is_set():
                with contextlib.suppress(*GONE):
                    request(group.address(1), method, "/lra")

        threads = [threading.Thread(target=client, args=(method,)) for method in ("POST", "GET") * 4]
        for thread in threads:
            thread.start()
        time.sleep(1)
        group.kill(1)
        group.start(1)
        comes_to(SLOW, lambda: group.at(1, "/ready").status == 200)
        looks = []
        for _ in range(10):
            time.sleep(1)
            looks.append(int(group.samples(1)[SHORT]))
        ended.set()
        for thread in threads:
            thread.join()
        self.check(f"it lacks copies at {sum(looks)} of 10 looks", sum(looks) <= 1, looks)

    def test_stranger(self) -> None:
        """In a group with a name, a pull that doesn't state the name acknowledges nothing, and gets no frame."""
        group = self.group(3, "group=shop", *self.words(1, "strict")).start()
        comes_to(SLOW, lambda: all(begins(group, node) for node in (1, 2, 3)))
        for number in (2, 3):
            group.processes[number].send_signal(signal.SIGSTOP)
        answers: list[bytes] = []
        begin = b"POST /lra HTTP/1.1\r\nHost: p\r\nContent-Length: 0\r\n\r\n"
        thread = threading.Thread(target=lambda: answers.append(exchange(group.address(1), begin)))
        thread.start()
        body = b"\x03" + b"".join(count.to_bytes(8, "big") for count in (3, 0, 0))
        for query in (b"", b"?from=2&to=1", b"?from=2&to=1&group=other"):
            pull = b"POST /peer/pull%b HTTP/1.1\r\nHost: p\r\nContent-Length: %d\r\n\r\n%b" % (query, len(body), body)
            answer = exchange(group.address(1), pull)
            told = f"a pull with {query.decode() or 'no query'} is refused"
            self.check(told, answer.startswith(b"HTTP/1.1 421"), answer)
        thread.join(SLOW)
        self.same("it acknowledges nothing", [b""], answers)
        for number in (2, 3):
            group.processes[number].send_signal(signal.SIGCONT)

    def test_parted(self) -> None:
        """A node is cut off from both others under load. It answers late and refuses nothing. With the word strict it
        acknowledges nothing, and the others go on."""
        for words in ([], ["strict"]):
            group, part = self.started(Paired, 1, *words), self.participant()
            group.again = ("E20", "E21")
            sides = [Clients(group, node, 2, part.url, pause=self.patience / 10_000) for node in (1, 2, 3)]
            comes_to(SLOW, lambda: all(len(one.noted) > 3 for one in sides))
            group.cut(1)
            if words:
                self.is_shut(group, sides)
            else:
                self.is_late(group, sides)
            self.check("neither of the others lacks copies", [group.samples(node)[SHORT] for node in (2, 3)] == [0, 0])
            group.heal()
            healed = comes_to(SLOW, lambda: begins(group, 1) and group.samples(1)[SHORT] == 0)
            self.check("after the repair it waits for copies again", healed, group.log(1))
            refused = [word for one in sides[len(words):] for word in one.refused]
            self.same("only a strict node that is cut off refused anything", [], refused)
            self.is_kept(group, part, sides)
            group.__exit__()

    def is_late(self, group: Operated, sides: list[Clients]) -> None:
        """Checks that node 1 begins to answer late, and that all go on."""

        def late() -> bool:
            seen = group.samples(1)
            return seen[SHORT] == 1 and seen[("lra_answers_waited_total", "came=late")] > 0

        self.check("while cut off it answers late", comes_to(SLOW, late), group.log(1))
        self.go_on("all go on", sides)

    def is_shut(self, group: Operated, sides: list[Clients]) -> None:
        """Checks that node 1 begins to refuse commands and acknowledges nothing after it was cut off, while the others
        go on."""
        time.sleep(self.patience / 2000)
        before = sides[0].facts()

        def is_refused() -> bool:
            with contextlib.suppress(*GONE):
                return refuses(group, 1) == (503, True)
            return False

        self.check("while cut off it refuses commands", comes_to(SLOW, is_refused), group.log(1))
        self.same("it gives the reason", (503, {"ready": False, "cause": "copies"}), group.told(1, "/ready"))
        self.go_on("the others go on", sides[1:])
        self.same("it acknowledged nothing", before, sides[0].facts())

    def go_on(self, what: str, sides: list[Clients]) -> None:
        """Checks that clients still get answers."""
        before = [one.facts() for one in sides]
        goes = comes_to(SLOW, lambda: all(one.facts() > had + 5 for one, had in zip(sides, before, strict=True)))
        self.check(what, goes, (before, [one.facts() for one in sides]))

    def is_kept(self, group: Group, part: Participant, sides: list[Clients]) -> None:
        """Stops the clients, and checks that all answered facts are there, and that no call was for a lost decision."""
        for one in sides:
            one.stop()
        alike = comes_to(SLOW, group.are_alike)
        wrong = [gone for one in sides for gone in gone_at(group, one.noted)] + turned_at(group, part)
        facts = sum(one.facts() for one in sides)
        self.check(f"none of {facts} facts that were answered, and of {len(part.calls)} calls, is lost",
                   facts and part.calls and not wrong, wrong[:20])
        self.check("all nodes are alike", alike)

    def test_slow(self) -> None:
        """One of the others is behind a line that lags: with copies=1 nothing waits for it; with copies=2 each answer
        does, but no worker. Then it is behind a narrow line."""
        for copies in self.counts(1, 2):
            group, told = self.started(Paired, copies), f"copies={copies}"
            quick = begin_takes(group)
            lag = min(max(0.1, 3 * quick), self.patience / 6000)
            for relay in group.relays_of(3):
                relay.lag = lag
            group.begin(1)
            self.is_in_time(group, copies, lag, quick)
            if copies == 1:
                self.waits_for_none(group, max(lag, 3 * quick))
            else:
                self.holds_nobody(group, max(lag, 3 * quick))
            self.check(f"{told}: it doesn't lack copies", group.samples(1)[SHORT] == 0)
            for relay in group.relays_of(3):
                relay.lag, relay.rate = 0, 0
            self.check(f"{told}: all nodes are alike", comes_to(SLOW, group.are_alike))
            group.__exit__()

    def is_in_time(self, group: Operated, copies: int, lag: float, quick: float) -> None:
        """Checks that an answer comes once two nodes, or all three, have what it shows."""
        times: list[float] = []
        seen: list[list[float]] = []
        for _ in range(9):
            times.append(timed(lambda: group.begin(1)))
            seen.append(told_to(group))
        took, told = statistics.median(times), f"copies={copies}"
        most, least = (max(lag, 3 * quick), 0) if copies == 1 else (4 * lag + 3 * quick, 2 * lag)
        what = f"{told}: with a lag of {1000 * lag:.0f} ms an answer takes {1000 * took:.0f} ms"
        self.check(f"{what}, without {1000 * quick:.0f}", least <= took < most, times)
        steps = {after[0] - before[0] for before, after in itertools.pairwise(seen)}
        self.check(f"{told}: by then the second node has what it shows", steps == {1}, seen)
        is_so = [second > third if copies == 1 else second == third for second, third in seen]
        self.check(f"{told}: the third node {'lacks' if copies == 1 else 'has'} it", all(is_so), seen)

    def holds_nobody(self, group: Operated, most: float) -> None:
        """Checks that more answers wait than there are workers, and that another answer is still given."""
        begun = AtOnce(*[lambda: group.begin(1)] * 12)
        waiting = comes_to(SLOW, lambda: group.samples(1)[WAITING] > 4)
        other = timed(lambda: request(group.address(1), "GET", "/nowhere"))
        begun.join()
        self.check(f"more answers wait than there are workers, and another takes {1000 * other:.0f} ms",
                   waiting and other < 2 * most, other)

    def waits_for_none(self, group: Operated, most: float) -> None:
        """Checks that nothing waits for a long frame that one of the others receives slowly."""
        for relay in group.relays_of(3):
            relay.lag, relay.rate = 0, 500
        lra, link = group.begin(1), "http://127.0.0.1:9/" + "c" * 100
        for _ in range(9):
            group.join(1, lra, compensate=link, complete=link, status=link)
        took, last = begin_takes(group), group.begin(1)
        is_behind = last not in group.shown(3)
        self.check(f"while the third receives a long frame, an answer takes {1000 * took:.0f} ms",
                   is_behind and took < most, (is_behind, took))

    def test_full(self) -> None:
        """The disk of one of the others is full: it acknowledges nothing until there is room again."""
        for copies in self.counts(1, 2):
            group, told = self.started(Operated, copies), f"copies={copies}"
            self.check(f"{told}: both others have acknowledged the same",
                       comes_to(SLOW, lambda: len(set(told_to(group))) == 1))
            before = told_to(group)
            limit_files(group.processes[3], 1)
            self.is_full(group, copies, before)
            limit_files(group.processes[3], -1)
            back = comes_to(SLOW, lambda: begins(group, 1) and group.samples(1)[SHORT] == 0)
            self.check(f"{told}: with room again it doesn't lack copies", back, group.log(1))
            counted = comes_to(SLOW, lambda: len(set(told_to(group))) == 1)
            self.check(f"{told}: the third acknowledges again", counted, told_to(group))
            self.check(f"{told}: all nodes are alike", comes_to(SLOW, group.are_alike))
            group.__exit__()

    def is_full(self, group: Operated, copies: int, before: list[float]) -> None:
        """Checks that node 3 acknowledges nothing, and which answers wait for that."""
        limit, told = self.patience / 1000, f"copies={copies}"
        first = timed(lambda: group.begin(1))
        then = begin_takes(group)
        heard = comes_to(SLOW, lambda: told_to(group)[0] >= before[0] + 10)
        seen = told_to(group)
        self.check(f"{told}: a full disk acknowledges nothing", heard and seen[1] == before[1], (before, seen))
        self.check(f"{told}: the first answer takes {1000 * first:.0f} ms, later ones {1000 * then:.0f}",
                   (limit <= first < 3 * limit if copies == 2 else first < limit / 2) and then < limit / 2, first)
        self.same(f"{told}: whether it lacks copies", copies == 2, group.samples(1)[SHORT] == 1)

    def test_old(self) -> None:
        """Members that hold no pulls, like older versions, still answer, and what they answered is kept."""
        group = self.started(Older, 1)
        took = begin_takes(group)
        self.check(f"an answer takes {1000 * took:.0f} ms", took < self.patience / 4000, took)
        self.check("no node lacks copies", [group.samples(node)[SHORT] for node in (1, 2, 3)] == [0, 0, 0])
        none = comes_to(SLOW, lambda: [group.samples(node)[HELD] for node in (1, 2, 3)] == [0, 0, 0])
        self.check("no pull is held", none)
        group.__exit__()
        for turn in range(self.rounds):
            self.lost_once(Older, 1, turn)

    def test_behind(self) -> None:
        """The other machines hang: answers wait for the patience, all at the same time, and then none waits any
        more."""
        limit = 3 * self.patience / 1000
        group = self.group(3, "copies=1", f"patience={3 * self.patience}", kind=Operated).start()
        comes_to(SLOW, lambda: begins(group, 1))
        known = group.begin(1)
        group.finish(1, known)
        quick = timed(lambda: group.begin(1))
        self.check(f"an answer with copies comes soon ({1000 * quick:.0f} ms)", quick < limit / 3, quick)
        for number in (2, 3):
            group.processes[number].send_signal(signal.SIGSTOP)
        self.all_wait(group, known, limit)
        then = timed(lambda: group.begin(1))
        self.check(f"then no answer waits ({1000 * then:.0f} ms)", then < limit / 3, then)
        self.check("its metrics say so", group.samples(1)[SHORT] == 1)
        warns = comes_to(5, lambda: "before 1 other node had stored what they show" in group.log(1))
        self.check("it logs a warning", warns, group.log(1))
        for number in (2, 3):
            group.processes[number].send_signal(signal.SIGCONT)
        back = comes_to(SLOW, lambda: begins(group, 1) and group.samples(1)[SHORT] == 0)
        self.check("with the others back it waits for copies again", back)
        self.check("it logs that", comes_to(5, lambda: "copied to 1 other node again" in group.log(1)), group.log(1))

    def all_wait(self, group: Operated, known: str, limit: float) -> None:
        """Checks that answers of node 1 wait for the patience from the first one on, that an operator's wait for a
        second, and that no worker waits. A close of an ended LRA is refused."""
        began = time.monotonic()
        begun = AtOnce(*[lambda: group.begin(1)] * 8)
        comes_to(limit, lambda: group.samples(1)[WAITING] == 8)
        seen, asked_at = group.samples(1)[WAITING], time.monotonic() - began
        asked = AtOnce(lambda: group.status(1, known), lambda: group.ask(1, "GET", "/lra"),
                       lambda: group.finish(1, known), lambda: group.at(1, "/lras"))
        code: list[int] = []
        other = timed(lambda: code.append(request(group.address(1), "GET", "/nowhere").status))
        *questions, operators = asked.join()
        ends = [end - began for _, end in (*begun.join(), *questions)]
        self.check(f"8 answers wait after {asked_at:.1f} s", seen == 8 and asked_at < limit / 2, seen)
        what = f"they, a status, a page and a refusal wait for the patience ({min(ends):.1f} to {max(ends):.1f} s)"
        self.check(what, limit <= min(ends) and max(ends) < 2 * limit, ends)
        took = operators[1] - operators[0]
        self.check(f"an operator's answer waits for a second ({took:.1f})", 1 <= took < limit - asked_at, took)
        is_quick = code == [404] and other < limit / 3
        self.check(f"no worker waits: another answer takes {1000 * other:.0f} ms", is_quick)

    def test_restarted(self) -> None:
        """A node that is killed while an answer waits shows nothing of it after its next start, and calls no
        participant for it, until the others have it or the patience is over."""
        limit = 4 * self.patience / 1000
        group = self.group(3, "copies=1", f"patience={4 * self.patience}", kind=Operated).start()
        comes_to(SLOW, lambda: begins(group, 1))
        part = self.participant()
        lra = group.begin(1)
        group.join(1, lra, compensate=f"{part.url}/cancel", complete=f"{part.url}/close")
        for number in (2, 3):
            group.processes[number].send_signal(signal.SIGSTOP)
        answered: list[int] = []

        def close() -> None:
            with contextlib.suppress(*GONE, ValueError):
                answered.append(group.finish(1, lra))

        thread = threading.Thread(target=close)
        thread.start()
        waits = comes_to(limit, lambda: group.samples(1)[WAITING] == 1)
        group.kill(1)
        thread.join()
        self.check("the answer waits, and isn't given", waits and not answered, answered)
        group.run(1)
        comes_to(SLOW, lambda: group.is_reached(1))
        up = time.monotonic()
        took = timed(lambda: group.status(1, lra))
        called = [call.at - up for call in part.calls]
        for number in (2, 3):
            group.processes[number].send_signal(signal.SIGCONT)
        self.check(f"after the restart what it shows waits too, for {took:.1f} s after it listens",
                   0.75 * limit < took < 2 * limit, took)
        self.check("no participant was called before that", not called or min(called) > 0.75 * limit, called)
        self.check("the LRA ends", comes_to(SLOW, lambda: group.status(1, lra) == "Closed"), group.log(1))

    def test_forged(self) -> None:
        """A pull that claims facts that never existed stops no node."""
        group = self.group(3, *self.words(1)).start()
        comes_to(SLOW, lambda: all(begins(group, node) for node in (1, 2, 3)))
        body = b"\x03" + b"".join(count.to_bytes(8, "big") for count in (10_000, 0, 0))
        answer = exchange(group.address(1), b"POST /peer/pull?from=2&to=1 HTTP/1.1\r\nHost: p\r\nContent-Length: "
                 b"%d\r\n\r\n%b" % (len(body), body))
        self.check("a forged pull is answered", answer.startswith(b"HTTP/1.1 200"), answer[:80])
        self.same("it stops no node", (201, False), refuses(group, 1))

    def test_late(self) -> None:
        """With copies=2 and one machine down participants are called all the same."""
        group = self.group(3, *self.words(2)).start()
        comes_to(SLOW, lambda: begins(group, 1))
        part = self.participant()
        lra = group.begin(1)
        group.join(1, lra, compensate=f"{part.url}/cancel", complete=f"{part.url}/close")
        group.kill(3)
        thread = threading.Thread(target=group.finish, args=(1, lra))
        thread.start()
        time.sleep(self.patience / 4000)
        was_called = part.made(lra)
        thread.join()
        self.check("a participant isn't called at once", not was_called, was_called)
        self.check("later it is called without the third node", comes_to(SLOW, lambda: part.made(lra)), group.log(1))
        group.start(3)
        self.check("the third node shows the end", group.comes_to(3, lra, "Closed") is not None)

    def test_strict(self) -> None:
        """With the word strict nothing is applied while too few nodes have what is stored."""
        group = self.group(2, *self.words(1, "strict"), kind=Operated).start()
        self.check("it accepts a begin", comes_to(SLOW, lambda: begins(group, 1)), group.log(1))
        group.kill(2)
        answer: object = None
        with contextlib.suppress(*GONE):
            answer = request(group.address(1), "POST", "/lra")
        self.check("a begin that was already applied isn't acknowledged", answer is None, answer)
        self.same("then commands are refused", (503, True), refuses(group, 1))
        self.same("it gives the reason", (503, {"ready": False, "cause": "copies"}), group.told(1, "/ready"))
        group.start(2)
        self.check("commands are accepted once the other node is back", comes_to(SLOW, lambda: begins(group, 1)))

    def test_anew(self) -> None:
        """A member over an empty folder takes its facts back, and accepts commands only when it may."""
        group = self.group(3, "copies=1").start()
        comes_to(SLOW, lambda: begins(group, 2))
        had = [group.begin(2) for _ in range(5)]
        lose(group, 2)
        group.start(2)
        time.sleep(3)
        self.same("without the word anew it accepts no command", (503, True), refuses(group, 2))
        shown = request(group.address(2), "GET", f"/lra/{had[0]}").status
        self.same("it doesn't call an LRA unknown", 503, shown)
        self.check("it logs the reason", "with the word anew" in group.log(2), group.log(2))
        group.kill(2, 3)
        group.start(2, options=["copies=1", "anew"])
        back = comes_to(SLOW, lambda: all(group.status(2, lra) == "Active" for lra in had))
        self.check("with the word it shows what it took back", back, group.log(2))
        self.same("it accepts no command until it has pulled from all others", (503, True), refuses(group, 2))
        group.start(3)
        self.check("then it accepts a begin", comes_to(SLOW, lambda: begins(group, 2)), group.log(2))
        self.check("the begun LRA has a new number", group.begin(2) not in had)

    def test_twice(self) -> None:
        """If two processes have the same number, one that learns of more facts than it made itself stops accepting
        commands."""
        group = self.group(3, *self.words(1)).start()
        comes_to(SLOW, lambda: all(begins(group, node) for node in (1, 2, 3)))
        other = self.folder_in("other")
        group.kill(1)
        for file in os.listdir(f"{group.folder}/1"):
            shutil.copy(f"{group.folder}/1/{file}", other)
        group.start(1)
        second = Group(3, self.folder_in("second"), *self.words(1))
        second.ports = [second.ports[0], *group.ports[1:]]
        second.addresses = [second.addresses[0], *group.addresses[1:]]
        shutil.copytree(other, f"{second.folder}/1", dirs_exist_ok=True)
        with second:
            second.start(1)
            comes_to(SLOW, lambda: begins(group, 1) or begins(second, 1))

            def is_seen() -> bool:
                begins(group, 1)
                begins(second, 1)
                return any("two processes may run as this node" in one.log(1) for one in (group, second))

            self.check("one of them logs that another process assigns its numbers", comes_to(SLOW, is_seen),
                       (group.log(1), second.log(1)))
            stops = comes_to(SLOW, lambda: (503, True) in (refuses(group, 1), refuses(second, 1)))
            self.check("it accepts no more commands", stops)

    def test_alone(self) -> None:
        """Arguments that need copies, or a process with only one node, are refused otherwise."""
        group = self.group(3)
        for words in (["strict"], ["patience=1"], ["copies=3"], ["copies=1", "copies=1"], ["strict", "copies=1"]):
            group.run(1, words)
            self.same(f"{' '.join(words)} is refused", 2, group.processes[1].wait(SLOW))
        group.run(1, ["copies=1"], word="1-2")
        self.same("two nodes in one process have no copies", 2, group.processes[1].wait(SLOW))


# The options that say how often a test does something, or how.
COUNTS = {"--rounds": "rounds", "--patience": "patience", "--copies": "copies"}


def main() -> int:
    given = sys.argv[1:]
    for option, name in COUNTS.items():
        if option in given:
            at = given.index(option)
            setattr(TestCopies, name, int(given[at + 1]))
            del given[at : at + 2]
    words = checks.words_of(TestCopies)
    for word in given:
        if word not in words:
            Group.program = unproved.program_of(word)
    checks.need(Group)
    return checks.run(TestCopies, words=[word for word in given if word in words])


if __name__ == "__main__":
    sys.exit(main())
