#!/usr/bin/env python3
"""Tests members of a group from outside: python3 tests/member.py [PROGRAM] [--kills N] [--lras N] [TEST..].

PROGRAM is crates/lra_node/out/lra_node, or --unproved (tools/unproved.py). A TEST is one of version, words, three,
some, older, strange, kills, swept, flow, full, misspelt, moved, apart and elsewhere; without one it runs all tests,
which takes some two minutes. The test kills kills a node, or all nodes, with kill -9 N times, 10 by default. --lras N
says how many LRAs go through a home in flow, 2,000 by default. misspelt and moved also need lra_node, and apart and
elsewhere need root; tests are skipped if what they need is missing. Each check prints a line. Exits with 1 if a check
fails. Uses only the standard library."""
import concurrent.futures
import glob
import os
import random
import re
import shutil
import socket
import subprocess
import sys
import threading
import time
from collections.abc import Iterable

sys.path.insert(0, os.path.dirname(os.path.dirname(os.path.abspath(__file__))))
from tools import checks, repo, unproved, wire
from tools.load import ENDED, Load, lost, misled
from tools.node import SLOW, Group, Json, Server, comes_to, end_input, home_of, in_ms, request
from tools.participant import Participant
from tools.ports import HOST, free_row, is_open, listening
from tools.version import build_said

USAGE = b"usage: lra_node member I|I-J DIR [listen=IP:PORT] [operate=IP:PORT] [names=NAME,..] [keep=MS] " \
        b"[keep-failed=MS] [group=NAME] [copies=K] [patience=MS] [strict] [anew] HOST:PORT.. | " \
        b"lra_node member --version\n"
NO_FOLDER = b"node 2: can't open its journal: the folder is missing, permission is denied, or no file descriptor " \
            b"is left\njournal 2\n"
# LRAs with their statuses.
Shown = dict[str, str]
# Bodies that members refuse, although a node of lra_node accepts some of them: of a begin, of a join and of a report;
# and the reason.
WRONG_BEGINS = [
    ('{"timeLimit":5000}', "timeLimit is not known here"),
    ('{"limit":5000,"client id":"x"}', "a member is not known here"),
    (f'{{"{"n" * 33}":1}}', "a member is not known here"),
    ('{"limit":"5"}', "limit is no number of milliseconds"),
    ('{"limit":18446744073709551615}', "limit is too long"),
    ('{"parent":"x"}', "parent is no id"),
    ("[]", "the body is no JSON object"),
    ("limit=5", "the body is no JSON object"),
]
WRONG_JOINS = [
    ('{"compensate":"http://h/c","compleet":"http://h/k"}', "compleet is not known here"),
    ('{"compensate":1}', "compensate is no text"),
    ('{"complete":"http://h/k"}', "neither compensate nor after is given"),
    ('{"after":"http://h/a","status":"http://h/s"}', "compensate is not given"),
    ('{"compensate":"https://h/c"}', "compensate is no http URL of at most 127 bytes"),
    ("", "the body is no JSON object"),
]
WRONG_REPORTS = [
    ('{"act":"compensate","outcome":"done","Outcome":"failed"}', "Outcome is not known here"),
    ('{"act":"completed","outcome":"done"}', "act is neither complete nor compensate"),
    ('{"act":"complete"}', "outcome is none of busy, done and failed"),
]
EIGHT = [f"h:{number}" for number in range(1, 9)]
# What the program says of wrong arguments, where it says the same of several.
NODES = "I has to be a number from 1 to 8, and I-J two of them in order"
NAMES = "NAME has to be letters, digits, dots, underscores and hyphens"
GROUP = "NAME has to be 1 to 64 letters, digits, dots, underscores and hyphens"
TIME = "MS has to be a number of milliseconds"
ORDER = "given twice, or not in the order below"
PORTS = "the last node's port would be above 65535"
LONG = "g" * 65
# Arguments that the program doesn't accept, with what it says of the first that is wrong; DIR stands for a folder.
OTHER_WORDS: list[tuple[str, str]] = [
    ("", "I or I-J: has to be given"),
    ("1", "DIR: has to be given"),
    ("1 DIR", "HOST:PORT: has to be given"),
    ("--version 1", f"--version: {NODES}"),
    ("-version", f"-version: {NODES}"),
    ("--version1", f"--version1: {NODES}"),
    ("0 DIR h:1", f"0: {NODES}"),
    ("2 DIR h:1", "2: HOST:PORT has to be given for each node"),
    ("01 DIR h:1", f"01: {NODES}"),
    (f"9 DIR {' '.join(EIGHT)} h:9", f"9: {NODES}"),
    (f"1 DIR {' '.join(EIGHT)} h:9", "h:9: a group has at most 8 nodes"),
    ("1 DIR h", "h: has to be HOST:PORT"),
    ("1 DIR h:0", "h:0: has to be HOST:PORT"),
    ("1 DIR h:65536", "h:65536: has to be HOST:PORT"),
    ("1 DIR :1", ":1: has to be HOST:PORT"),
    ("1 DIR ::1:1", "::1:1: has to be HOST:PORT"),
    ("1 DIR [h]:1", "[h]:1: has to be HOST:PORT"),
    ("1 DIR [::1:1", "[::1:1: has to be HOST:PORT"),
    ("1 DIR h:1 h:1", "h:1: each node needs an address of its own"),
    ("1 DIR listen=h:1 h:1", "listen=h:1: has to be IP:PORT"),
    ("1 DIR listen=127.0.0.1:1 listen=127.0.0.1:1 h:1", f"listen=127.0.0.1:1: {ORDER}"),
    ("1 DIR operate= h:1", "operate=: has to be IP:PORT"),
    ("1 DIR operate=8170 h:1", "operate=8170: has to be IP:PORT"),
    ("1 DIR operate=h:1 h:1", "operate=h:1: has to be IP:PORT"),
    ("1 DIR operate=127.0.0.1:0 h:1", "operate=127.0.0.1:0: has to be IP:PORT"),
    ("1 DIR operate=127.0.0.1:65536 h:1", "operate=127.0.0.1:65536: has to be IP:PORT"),
    ("1 DIR operate=127.0.0.1:1 operate=127.0.0.1:1 h:1", f"operate=127.0.0.1:1: {ORDER}"),
    ("1 DIR operate=127.0.0.1:1 listen=127.0.0.1:2 h:1", f"listen=127.0.0.1:2: {ORDER}"),
    ("1 DIR keep=1 operate=127.0.0.1:1 h:1", f"operate=127.0.0.1:1: {ORDER}"),
    ("1-2 DIR operate=127.0.0.1:65535 h:1 h:2", f"operate=127.0.0.1:65535: {PORTS}"),
    ("2-3 DIR operate=[::1]:65535 keep=1 h:1 h:2 h:3", f"operate=[::1]:65535: {PORTS}"),
    ("1 DIR keep=x h:1", f"keep=x: {TIME}"),
    ("1 DIR keep=01 h:1", f"keep=01: {TIME}"),
    ("1 DIR keep=18446744073709551616 h:1", f"keep=18446744073709551616: {TIME}"),
    ("1 DIR keep=1 keep=1 h:1", f"keep=1: {ORDER}"),
    ("1 DIR keep=1 listen=127.0.0.1:1 h:1", f"listen=127.0.0.1:1: {ORDER}"),
    ("1 DIR keep-failed= h:1", f"keep-failed=: {TIME}"),
    ("1 DIR keep-failed=-1 h:1", f"keep-failed=-1: {TIME}"),
    ("1 DIR keep-failed=1 keep=1 h:1", f"keep=1: {ORDER}"),
    ("1 DIR keep=1 keep-failed=1 keep-failed=1 h:1", f"keep-failed=1: {ORDER}"),
    ("1 DIR keep-other=1 h:1", "keep-other=1: no such option"),
    ("3 DIR listn=127.0.0.1:1 h:1", "listn=127.0.0.1:1: no such option"),
    ("1 DIR names= h:1", f"names=: {NAMES}"),
    ("1 DIR names=a_b! h:1", f"names=a_b!: {NAMES}"),
    ("1 DIR names=a:1 h:1", f"names=a:1: {NAMES}"),
    ("1 DIR names=a names=b h:1", f"names=b: {ORDER}"),
    ("1 DIR names=a operate=127.0.0.1:1 h:1", f"operate=127.0.0.1:1: {ORDER}"),
    ("1 DIR keep=1 names=a h:1", f"names=a: {ORDER}"),
    ("1 DIR group= h:1", f"group=: {GROUP}"),
    ("1 DIR group=a,b h:1", f"group=a,b: {GROUP}"),
    (f"1 DIR group={LONG} h:1", f"group={LONG}: {GROUP}"),
    ("1 DIR group=a group=a h:1", f"group=a: {ORDER}"),
    ("1 DIR group=a keep=1 h:1", f"keep=1: {ORDER}"),
    ("1 DIR copies= h:1 h:2", "copies=: K has to be a number"),
    ("1 DIR copies=2 h:1 h:2", "copies=2: K has to be less than the number of nodes"),
    ("1 DIR copies=1 h:1", "copies=1: K has to be less than the number of nodes"),
    ("1 DIR copies=1 group=a h:1 h:2", f"group=a: {ORDER}"),
    ("1-2 DIR copies=1 h:1 h:2 h:3", "copies=1: not allowed with several nodes"),
    ("1 DIR patience=1 h:1 h:2", "patience=1: needs copies=K"),
    ("1 DIR copies=1 patience=x h:1 h:2", f"patience=x: {TIME}"),
    ("1 DIR patience=1 copies=1 h:1 h:2", f"copies=1: {ORDER}"),
    ("1 DIR strict h:1 h:2", "strict: needs copies=K"),
    ("1 DIR strict copies=1 h:1 h:2", f"copies=1: {ORDER}"),
    ("1 DIR copies=1 anew strict h:1 h:2", f"strict: {ORDER}"),
    ("1 DIR anew= h:1", "anew=: no such option"),
    ("1 DIR anew anew h:1", f"anew: {ORDER}"),
    ("1 DIR anew group=a h:1", f"group=a: {ORDER}"),
    ("1 DIR h:1 anew", f"anew: {ORDER}"),
    ("1 DIR anew", "HOST:PORT: has to be given"),
    ("1 DIR h:1 keep=1", f"keep=1: {ORDER}"),
    ("2-1 DIR h:1 h:2", f"2-1: {NODES}"),
    ("1-3 DIR h:1 h:2", "1-3: HOST:PORT has to be given for each node"),
    ("1- DIR h:1 h:2", f"1-: {NODES}"),
    ("1-2 DIR listen=127.0.0.1:1 h:1 h:2", "listen=127.0.0.1:1: not allowed with several nodes"),
]


def begun_at_once(group: Group, node: int) -> tuple[str, float]:
    """Starts a node, and begins an LRA there as soon as it accepts a connection. Returns the LRA, and how long the
    answer took."""
    group.run(node)
    end = time.monotonic() + SLOW
    while time.monotonic() < end:
        asked = time.monotonic()
        try:
            return group.begin(node), time.monotonic() - asked
        except ConnectionRefusedError:
            time.sleep(0.002)
    raise SystemExit(f"node {node} doesn't start: {group.log(node)}")


def serve_bytes(listener: socket.socket, answers: list[bytes]) -> None:
    """Answers each connection with the next of some byte strings, whatever it asks, until the listener is closed."""
    i = 0
    while True:
        try:
            connection, _ = listener.accept()
        except OSError:
            return
        with connection:
            connection.settimeout(1)
            try:
                connection.recv(65536)
                connection.sendall(answers[i % len(answers)])
            except OSError:
                pass
        i += 1


def with_length(body: bytes, length: int | None = None) -> bytes:
    """Returns an answer that states a length."""
    stated = len(body) if length is None else length
    return f"HTTP/1.1 200 OK\r\nContent-Length: {stated}\r\nConnection: close\r\n\r\n".encode() + body


def slow_participant(port: int = 0) -> Participant:
    """Makes a server of participants. Those at /slow answer 503, since they report their outcomes by themselves."""
    part = Participant(port)
    part.answers["/slow"] = 503
    return part


def killed_once(group: Group, which: tuple[int, ...], dice: random.Random) -> tuple[str, dict[str, object]]:
    """Kills nodes under load, starts them again, and checks what is there. Returns what the load was, and what is
    wrong."""
    part = slow_participant()
    load = Load(group, dice, lambda _: part)
    comes_to(SLOW, lambda: len(load.noted) > 9)
    time.sleep(dice.uniform(0, 0.5))
    group.kill(*which)
    time.sleep(dice.choice((0, 0.3)))
    group.start(*which)
    time.sleep(0.2)
    load.stop()
    wrong: dict[str, object] = {"lost": list(lost(group, load.noted))}
    told = load.told()
    for lra, status in group.shown_at_home().items():
        if status == "Active":
            group.finish(home_of(lra), lra, "cancel")
    comes_to(SLOW, lambda: all(group.shown_at_home()[lra] in ENDED for lra in told))
    wrong["unheard"] = [lra for lra, status in group.shown_at_home().items() if lra in told and status not in ENDED]
    part.answers["/slow"] = 200
    comes_to(SLOW, lambda: set(group.shown_at_home().values()) <= ENDED)
    ended = group.shown_at_home()
    wrong["not alike"] = not comes_to(SLOW, group.are_alike)
    wrong["misled"] = list(misled(part, load.noted, ended))
    wrong["not ended"] = sorted(set(ended.values()) - ENDED)
    part.close()
    return f"{len(load.noted)} LRAs, {len(told)} outcomes reported", {what: seen for what,
                                                                      seen in wrong.items() if seen}


def purge_all(group: Group) -> dict[str, str]:
    """Purges all LRAs, and returns those that are still there."""
    with concurrent.futures.ThreadPoolExecutor(6) as pool:
        list(pool.map(lambda lra: group.purge(home_of(lra), lra), group.shown_at_home()))
    return group.shown_at_home()


class Flow:
    """LRAs that go through a home, which may be full."""

    def __init__(self, group: Group) -> None:
        self.group, self.part = group, Participant()
        self.refusals: list[str | None] = []

    def begin(self, body: Json) -> str:
        """Begins an LRA, as soon as there is room."""
        while True:
            code, answer = self.group.ask(1, "POST", "/lra", body)
            if code == 201:
                return answer["lra"]
            self.refusals.append(answer.get("refused"))
            time.sleep(0.02)

    def one(self, i: int) -> tuple[str, int]:
        """Begins and closes an LRA. One in ten has a participant and a listener, and one in ten has another LRA nested
        in it."""
        lra, url = self.begin({}), self.part.url
        if i % 10 == 1:
            self.group.join(1, lra, compensate=f"{url}/c", complete=f"{url}/k", after=f"{url}/a")
        if i % 10 == 2:
            nested = self.begin({"parent": lra})
            self.group.join(1, nested, compensate=f"{url}/c", forget=f"{url}/f")
            self.group.finish(1, nested)
        return lra, self.group.finish(1, lra)


def move(files: Iterable[str], folder: str) -> None:
    os.makedirs(folder, exist_ok=True)
    for file in files:
        shutil.move(file, folder)


class Strange(Group):
    """Seven nodes, of which only 1, 2 and 7 are members. Node 4 has a name that doesn't resolve, and node 7 is
    configured as the first of two nodes."""

    def __init__(self, count: int, folder: str, *options: str) -> None:
        super().__init__(count, folder, *options)
        self.addresses[3] = "no-such-host.invalid:1"

    def addresses_for(self, number: int) -> list[str]:
        return [self.addresses[6], self.addresses[0]] if number == 7 else self.addresses


class TestMembers(checks.Checked):
    needs = (Group,)
    # How often nodes are killed, and how many LRAs go through a home.
    kills = 10
    lras = 2000

    def test_words(self) -> None:
        """Wrong arguments, missing folders and ports in use are refused, and a node listens where it should."""
        others = [(given.split(), said) for given, said in OTHER_WORDS]
        others += [(["1", "DIR", "names=a b", "h:1"], f"names=a b: {NAMES}"), (["", "DIR", "h:1"], f": {NODES}")]
        for given, said in others:
            ran = self.run_with(*[word.replace("DIR", self.folder) for word in given])
            wanted = 2, b"", f"lra_node: {said}\n".encode() + USAGE
            self.check(f"other arguments: {' '.join(given)}", (ran.returncode, ran.stdout, ran.stderr) == wanted, ran)
        own, other, third, fourth = free_row(4)
        with socket.create_server(("127.0.0.1", own)):
            ran = self.run_with("1", self.folder, f"h:{own}")
        wanted = 1, f"node 1: can't listen on port {own}: it is in use\nport {own}\n".encode()
        self.check("a port in use", (ran.returncode, ran.stderr) == wanted, ran)
        # The last node may have the last port for operators.
        for given in (
            ["2", "DIR/none", "h:1", f"h:{other}"],
            ["2-3", "DIR/none", "operate=127.0.0.1:65534", "h:1", "h:2", "h:3"],
            ["2", "DIR/none", "operate=[::1]:65535", "h:1", "h:2"],
            ["2", "DIR/none", "names=lra2,lra-2.example_1", f"group={'g' * 64}", "anew", "h:1", "anew.h:2"],
        ):
            ran = self.run_with(*[word.replace("DIR", self.folder) for word in given])
            self.check(f"a missing folder: {' '.join(given)}", (ran.returncode, ran.stderr) == (1, NO_FOLDER),
                       ran)
        # The commands on the page are accepted: only the folder is missing.
        lines = re.findall(r"^    lra_node member (.*)$", repo.read("docs/OPERATING.md"), re.M)
        self.check("the page has three commands", len(lines) == 3, lines)
        for line in lines:
            ran = self.run_with(*line.replace("/var/lib/lra", f"{self.folder}/none").split())
            is_so = ran.returncode == 1 and b"the folder is missing" in ran.stderr
            self.check(f"OPERATING: lra_node member {line}", is_so, ran)
        every = ["keep=0", "keep-failed=18446744073709551615"]
        with self.node("1", self.folder, f"listen=0.0.0.0:{third}", *every, f"elsewhere:{fourth}") as node:
            self.check("it listens at the configured address",
                       comes_to(SLOW, lambda: is_open(third)) and not is_open(fourth))
            end_input(node)
            self.check("it ends when its input does", node.wait(SLOW) == 0)
        with self.node("1", self.folder, f"elsewhere:{fourth}"):
            self.check("by default it listens on the loopback interface", comes_to(SLOW, lambda: is_open(fourth)))
            listens = [address for address, _ in listening() if address.endswith(f":{fourth:04X}")]
            self.check("it listens nowhere else", listens == [f"0100007F:{fourth:04X}"], listens)

    def test_version(self) -> None:
        """The program prints which build it is."""
        ran = self.run_with("--version")
        wanted = 0, build_said().line("lra_node").encode(), b""
        self.check("the version", (ran.returncode, ran.stdout, ran.stderr) == wanted, ran)
        # (an unproved program is run by a script, which has no other name)
        if "unproved" not in Group.program:
            old = f"{self.folder}/lra_member"
            os.symlink(os.path.abspath(Group.program), old)
            ran = subprocess.run([old, "--version"], stdin=subprocess.DEVNULL, capture_output=True)
            self.check("a link with the old name runs members", (ran.returncode, ran.stdout, ran.stderr) == wanted, ran)

    def run_with(self, *words: str) -> subprocess.CompletedProcess:
        """Runs the program with arguments with which it exits by itself."""
        return subprocess.run([Group.program, "member", *words], stdin=subprocess.DEVNULL, capture_output=True)

    def node(self, *words: str) -> subprocess.Popen:
        """Starts a member, which runs until its input ends."""
        return subprocess.Popen([Group.program, "member", *words], stdin=subprocess.PIPE)

    def test_three(self) -> None:
        """Three members share what each begins, accept reports at each node, and go on while a node is down for a
        while."""
        group, part = self.group(3).start(), self.participant()
        late = []
        for i in range(12):
            time.sleep(0.2)
            home = 1 + i % 3
            lra = group.begin(home)
            late.append(group.all_come_to(lra, "Active") or SLOW)
        what = f"{in_ms(max(late))} at most, median {in_ms(sorted(late)[6])}"
        self.check(f"what a node begins is shown by both others ({what})", max(late) < 5, late)
        lra = group.begin(1)
        group.all_come_to(lra, "Active")
        group.join(1, lra, compensate=f"{part.url}/c", complete=f"{part.url}/k")
        self.check("it closes", group.finish(1, lra) == 200)
        self.check("its participant is called", comes_to(30, lambda: part.made(lra) == [("PUT", "/k")]), part.made(lra))
        self.check("all nodes show it closed", group.all_come_to(lra, "Closed") is not None)
        foreign = group.join(3, lra, compensate=part.url)
        self.check("another node's LRA can be joined only at its home",
                   (foreign[0], foreign[1].get("refused")) == (421, "E4 NotHome 1"), foreign)
        trip = self.reported(group)
        self.is_down(group, {lra: "Closed", trip: "Cancelled"})
        ended = group.end()
        self.check("all end when their input does", ended == [0, 0, 0], ended)
        self.check("node 2 logs nothing", group.log(2) == "", group.log(2))
        for number in (1, 2, 3):
            self.is_whole(f"{self.folder}/{number}/node-{number}.db", number)

    def reported(self, group: Group) -> str:
        """Reports an outcome at each node, and returns the last LRA for which one was reported."""
        part = slow_participant()
        for node in (1, 2, 3):
            trip = group.begin(1)
            group.join(1, trip, compensate=f"{part.url}/slow")
            group.finish(1, trip, "cancel")
            self.check(f"node {node} shows it cancelling", group.comes_to(node, trip, "Cancelling") is not None)
            told = group.ask(node, "PUT", f"/lra/{trip}/member/1/report", {"act": "compensate", "outcome": "done"})
            self.check(f"an outcome is reported at node {node}", told[0] == 204, told)
            took = group.all_come_to(trip, "Cancelled")
            self.check(f"all show it cancelled ({in_ms(took)})", took is not None, group.status(1, trip))
        return trip

    def is_down(self, group: Group, known: Shown) -> None:
        """Node 2 is killed, and comes back."""
        group.kill(2)
        missed = [group.begin(1) for _ in range(5)] + [group.begin(3)]
        self.check("with node 2 killed the others agree",
                   all(group.all_come_to(lra, "Active", (1, 3)) is not None for lra in missed))
        for node in (1, 3):
            is_told = comes_to(60, lambda: f"node {node}: node 2 can't be reached" in group.lines(node))
            self.check(f"node {node} logs that node 2 can't be reached", is_told, group.log(node))
        group.start(2)
        times = [group.comes_to(2, lra, "Active") for lra in missed]
        self.check(f"started again, node 2 shows what it missed ({in_ms(times[0])})", None not in times)
        shown = {lra: group.status(2, lra) for lra in known}
        self.check("node 2 shows what it knew before", shown == known, shown)
        mine = group.begin(2)
        self.check("the others show what it begins then", group.all_come_to(mine, "Active", (1, 3)) is not None)
        for node in (1, 3):
            wanted = [f"node {node}: node 2 can't be reached", f"node {node}: node 2 answers again"]
            comes_to(60, lambda: len(group.lines(node)) >= 2)
            self.check(f"node {node} logs that it answers again, and nothing else", group.lines(node) == wanted,
                       group.log(node))

    def test_some(self) -> None:
        """Two nodes in one process work together with a third in another process."""
        group = self.group(3)
        group.start(1, word="1-2").start(3)
        for home in (1, 2, 3):
            late = []
            for _ in range(3):
                time.sleep(0.2)
                lra = group.begin(home)
                late.append(group.all_come_to(lra, "Active") or SLOW)
            self.check(f"all show what node {home} begins ({in_ms(max(late))})", max(late) < 5, late)
        group.kill(1)
        group.start(1, word="1-2")
        self.check("after a kill -9 both show the LRA", group.status(1, lra) == group.status(2, lra) == "Active")
        mine = group.begin(2)
        self.check("both go on", group.all_come_to(mine, "Active") is not None)
        ended = group.end()
        self.check("both processes end", ended == [0, 0], ended)

    def test_older(self) -> None:
        """A node that is started over an older copy of its journal takes its own facts back before it executes its
        first command. It waits at most a second for that, so an attempt in which this machine was slower is
        repeated."""
        group = self.group(3).start()
        first = group.begin(2)
        self.check("all know what node 2 begins", group.all_come_to(first, "Active") is not None)
        group.end(2)
        shutil.copytree(f"{self.folder}/2", f"{self.folder}/copy")
        group.start(2)
        later = [group.begin(2) for _ in range(3)]
        self.check("all know what it begins after a restart",
                   all(group.all_come_to(lra, "Active") is not None for lra in later))
        known = {first, *later}
        for _ in range(5):
            group.end(2)
            shutil.rmtree(f"{self.folder}/2")
            shutil.copytree(f"{self.folder}/copy", f"{self.folder}/2")
            os.remove(f"{self.folder}/2.log")
            new, took = begun_at_once(group, 2)
            if took < 0.9:
                break
            print(f"        this machine was slow: the first begin took {in_ms(took)}", flush=True)
            # (What no other node has yet is lost with the next copy, and its number may be given again.)
            group.all_come_to(new, "Active")
            known.add(new)
        if took >= 0.9:
            group.end()
            self.skipTest("this machine is too slow for the rest")
        self.check(f"over an older journal an LRA that is begun at once gets a new number ({in_ms(took)})",
                   new not in known,
                   (new, known))
        line = "node 2: node %d has more facts of this node: the journal here is an older copy"
        seen = comes_to(30, lambda: any(line % node in group.lines(2) for node in (1, 3)))
        self.check("it logs that its journal is older", seen, group.log(2))
        self.check("it has taken back what the others knew",
                   all(group.comes_to(2, lra, "Active") is not None for lra in known))
        self.check("all show the new LRA", group.all_come_to(new, "Active") is not None)
        self.check("all are alike", comes_to(30, group.are_alike), [group.shown(node) for node in (1, 2, 3)])
        lines = group.lines(2)
        self.check("it logs nothing else, and nothing twice",
                   set(lines) <= {line % 1, line % 3} and len(lines) == len(set(lines)),
                   group.log(2))
        ended = group.end()
        self.check("all end", ended == [0, 0, 0], ended)

    def test_strange(self) -> None:
        """Two nodes work although other addresses are strange: one accepts connections and never answers, one doesn't
        resolve, one answers with other bytes, one doesn't speak HTTP, and one is configured with another number of
        nodes."""
        group, random_bytes = self.group(7, kind=Strange), random.Random(60).randbytes
        bodies = (b"", b"\0" * 64, b"<html></html>", random_bytes(200), random_bytes(60_000))
        others = [with_length(body) for body in bodies]
        others += [with_length(random_bytes(20), 90), with_length(b"", 10**12), with_length(b"", -1)]
        garbage = [b"", random_bytes(500), b"A" * 200_000, b"HTTP/1.1 200 OK\r\n", b"\r\n" * 50]
        garbage += [b"HTTP/1.1 99999 OK\r\n\r\n", random_bytes(20_000)]
        listeners = [socket.create_server((HOST, group.ports[number - 1]), backlog=64) for number in (3, 5, 6)]
        for listener, answers in zip(listeners[1:], (others, garbage)):
            threading.Thread(target=serve_bytes, args=(listener, answers), daemon=True).start()
        group.run(7, word="1")
        group.start(1, 2)
        is_begun = comes_to(SLOW, lambda: is_open(group.ports[6])) and group.begin(7).startswith("0000")
        self.check("a node that is configured with two nodes begins an LRA", is_begun)
        begun, late = [], []
        for _ in range(10):
            time.sleep(0.2)
            begun.append(group.begin(1))
            late.append(group.comes_to(2, begun[-1], "Active") or SLOW)
        self.check(f"the strange ones delay no other node ({in_ms(max(late))} at most)", max(late) < 5, late)
        misled = "isn't at its address: another node answers there, or one of another group"
        how = {**dict.fromkeys((3, 5, 6), "doesn't answer with a frame"), 4: "can't be reached", 7: misled}
        for node in (1, 2):
            wanted = {f"node {node}: node {other} {what}" for other, what in how.items()}
            is_told = comes_to(SLOW, lambda: set(group.lines(node)) >= wanted)
            self.check(f"node {node} logs each of them, and nothing else",
                       is_told and sorted(group.lines(node)) == sorted(wanted), group.log(node))
        is_told = comes_to(30, lambda: group.lines(7) == [f"node 1: node 2 {misled}"])
        self.check("so does the node that is configured with two nodes", is_told, group.log(7))
        self.check("nothing is taken from the strange ones",
                   [group.shown(node) for node in (1, 2)] == [dict.fromkeys(begun, "Active")] * 2, group.shown(1))
        self.check("the node that is configured with two nodes takes nothing", len(group.shown(7)) == 1, group.shown(7))
        began = time.monotonic()
        ended = group.end()
        self.check(f"all end in spite of them ({time.monotonic() - began:.1f} s)", ended == [0, 0, 0], ended)
        for listener in listeners:
            listener.close()

    def test_kills(self) -> None:
        """Nodes are killed under load, one or all, again and again: nothing that was answered is lost, and at the end
        all nodes are alike."""
        group, dice = self.group(3).start(), random.Random(60)
        for i in range(self.kills):
            which = ((1,), (2,), (1, 2, 3), (3,), (1, 3))[i % 5]
            what, wrong = killed_once(group, which, dice)
            kill = f"kill {i + 1} of {self.kills}, of {' and '.join(map(str, which))}"
            self.check(f"{kill}: nothing is lost, all are alike ({what})", not wrong, wrong)
            left = purge_all(group)
            is_purged = not left and comes_to(SLOW, lambda: not any(map(group.shown, (1, 2, 3))))
            self.check("everything is purged at all nodes", is_purged, left)
        ended = group.end()
        self.check("all end", ended == [0, 0, 0], ended)
        for number in (1, 2, 3):
            self.is_whole(f"{self.folder}/{number}/node-{number}.db", number)

    def is_purged_when_told(self, group: Group, part: Participant) -> None:
        """An LRA whose listener isn't notified yet stays, and goes as soon as it is. Purges are tried 0, 1, 3, 7 and 15
        seconds after the end, and the pauses between calls to the listener are as long."""
        part.answers["/never"] = 503
        waits = group.begin(1)
        group.join(1, waits, after=f"{part.url}/never")
        group.finish(1, waits)
        comes_to(SLOW, lambda: len(part.made(waits)) >= 5)  # some four seconds
        self.check("an LRA whose listener isn't notified yet stays", group.status(1, waits) == "Closed",
                   group.status(1, waits))
        part.answers["/never"] = 200
        gone = comes_to(SLOW, lambda: group.is_gone(1, waits))
        took = time.monotonic() - (part.time_of("/never", 200) or 0)
        self.check(f"it goes as soon as the listener is notified ({in_ms(took)})", gone and took < 3, took)

    def test_swept(self) -> None:
        """Some ended LRAs are purged by themselves, and others stay."""
        group, part = self.group(3, "keep=0").start(), self.participant()
        part.answers["/fails"] = 409
        failed, going_on, root = group.begin(1), group.begin(1), group.begin(1)
        group.join(1, failed, compensate=f"{part.url}/fails")
        group.finish(1, failed, "cancel")
        self.check("one LRA fails", group.all_come_to(failed, "FailedToCancel") is not None, group.status(1, failed))
        nested = group.begin(1, parent=root)
        group.finish(1, nested)
        self.check("one LRA is closed inside another", group.comes_to(1, nested, "Closed") is not None,
                   group.status(1, nested))
        self.is_purged_when_told(group, part)
        lone = group.begin(1)
        group.finish(1, lone)
        self.check("a closed LRA goes, at all nodes", group.all_come_to(lone, "E3 NotHeld") is not None,
                   group.status(1, lone))
        statuses = [group.status(1, lra) for lra in (failed, going_on, root, nested)]
        self.check("LRAs that failed, are active or are nested stay",
                   statuses == ["FailedToCancel", "Active", "Active", "Closed"], statuses)
        group.finish(1, root)
        self.check("a nested LRA goes with its root",
                   all(group.all_come_to(lra, "E3 NotHeld") is not None for lra in (root, nested)))
        group.end(1)
        group.start(1, options=("keep-failed=300",))
        self.check("with only keep-failed, a failed LRA goes", group.all_come_to(failed, "E3 NotHeld") is not None,
                   group.status(1, failed))
        self.goes_at_its_time(group)
        left = comes_to(30, lambda: [group.shown(node) for node in (1, 2, 3)] == [{going_on: "Active"}] * 3)
        self.check("only the active LRA is left", left, [group.shown(node) for node in (1, 2, 3)])
        ended = group.end()
        self.check("all end", ended == [0, 0, 0], ended)

    def test_kept(self) -> None:
        """A nested LRA that failed keeps its whole tree, though the root ended well."""
        group, part = self.group(3, "keep=300", "keep-failed=5000").start(), self.participant()
        part.answers["/fails"] = 409
        root = group.begin(1)
        nested = group.begin(1, parent=root)
        group.join(1, nested, compensate=f"{part.url}/fails")
        group.join(1, root, complete=f"{part.url}/done")
        group.finish(1, nested, "cancel")
        self.check("the nested LRA fails", group.all_come_to(nested, "FailedToCancel") is not None,
                   group.status(1, nested))
        began = time.monotonic()
        group.finish(1, root)
        self.check("the root is closed", group.comes_to(1, root, "Closed") is not None, group.status(1, root))
        lone = group.begin(1)
        group.finish(1, lone)
        self.check("a closed LRA goes", group.comes_to(1, lone, "E3 NotHeld") is not None, group.status(1, lone))
        time.sleep(1)
        statuses = [group.status(1, lra) for lra in (root, nested)]
        self.check("the tree with the failure stays", statuses == ["Closed", "FailedToCancel"], statuses)
        gone = comes_to(SLOW, lambda: group.is_gone(1, root) and group.is_gone(1, nested))
        took = time.monotonic() - began
        self.check(f"it goes once the time for failed LRAs is over ({took:.1f} s)", gone and took > 5, statuses)
        ended = group.end()
        self.check("all end", ended == [0, 0, 0], ended)

    def goes_at_its_time(self, group: Group) -> None:
        """Nothing is purged without the option, and the retention time of an ended LRA begins again with a restart."""
        lone = group.begin(1)
        group.finish(1, lone)
        group.end(1)
        group.start(1, options=())
        time.sleep(1)
        self.check("without the option a closed LRA isn't purged", group.status(1, lone) == "Closed")
        group.end(1)
        group.start(1, options=("keep=3000",))
        time.sleep(1.5)
        group.kill(1)
        started = time.monotonic()
        group.start(1, options=("keep=3000",))
        self.check("an ended LRA is there after a kill -9", group.status(1, lone) == "Closed")
        gone = comes_to(SLOW, lambda: group.is_gone(1, lone))
        took = time.monotonic() - started
        self.check(f"its retention time begins again ({took:.1f} s)", gone and took > 3, group.status(1, lone))

    def test_flow(self) -> None:
        """Many more LRAs than a home can hold go through it."""
        group, count = self.group(3, "keep=0").start(), self.lras
        flow = Flow(group)
        began = time.monotonic()
        with concurrent.futures.ThreadPoolExecutor(8) as pool:
            done = list(pool.map(flow.one, range(count)))
        took, refusals = time.monotonic() - began, flow.refusals
        what = f"{count:,} LRAs go through a home of 256 ({took:.1f} s, E13 {len(refusals)} times)"
        self.check(what, {code for _, code in done} == {200}, done[:3])
        self.check("LRAs were refused only because the home was full", set(refusals) <= {"E13 LrasFull"}, set(refusals))
        self.check("each has a number of its own", len({lra for lra, _ in done}) == count)
        are_gone = comes_to(SLOW, lambda: not any(map(group.shown, (1, 2, 3))))
        self.check("all are purged, at all nodes", are_gone, group.shown(1))
        # (a call that is cut off at the end of a run is made twice)
        told = [len({call.lra for call in flow.part.calls if call.path == path}) for path in ("/k", "/a", "/f")]
        self.check("each participant and listener was called", told == [count // 10] * 3, told)
        ended = group.end()
        self.check("all end", ended == [0, 0, 0], ended)

    def test_full(self) -> None:
        """A home that fills up logs each step once."""
        group = self.group(1).start()
        wanted: list[str] = []
        for count, line in (
            (192, "node 1: holds 192 LRAs of its own, of 256 that it may"),
            (231, "node 1: holds 231 LRAs of its own, of 256 that it may"),
            (257, "node 1: refused to begin an LRA (E13): it holds 256, the most that a node may"),
        ):
            held = len(group.shown(1))
            time.sleep(1.5)
            self.check(f"with {held} LRAs nothing more is logged", group.lines(1) == wanted, group.log(1))
            codes = [group.ask(1, "POST", "/lra", {})[0] for _ in range(count - held)]
            self.check(f"number {count} is begun" if count < 257 else "number 257 isn't begun",
                       codes[-1] == (201 if count < 257 else 503), codes)
            wanted.append(line)
            self.check(f"it logs: {line}", comes_to(30, lambda: group.lines(1) == wanted), group.log(1))
        for _ in range(3):
            group.ask(1, "POST", "/lra", {})
        time.sleep(2.5)
        self.check("it logs each line once", group.lines(1) == wanted, group.log(1))
        ended = group.end()
        self.check("it ends", ended == [0], ended)

    def test_misspelt(self) -> None:
        """A member refuses wrong bodies, says why, and does nothing; lra_node ignores members that it doesn't know."""
        group, part = self.group(1).start(), slow_participant()
        self.refuses(group, "/lra", "POST", WRONG_BEGINS)
        self.check("no LRA is begun", group.shown(1) == {}, group.shown(1))
        lra = group.begin(1, limit=600000, parent=None)
        self.refuses(group, f"/lra/{lra}/join", "PUT", WRONG_JOINS)
        joined = group.join(1, lra, compensate=f"{part.url}/slow", complete=f"{part.url}/slow")
        self.check("the first to join is participant 1", joined[1].get("member") == 1, joined)
        group.finish(1, lra, "cancel")
        self.refuses(group, f"/lra/{lra}/member/1/report", "PUT", WRONG_REPORTS)
        self.check("nothing is reported", group.status(1, lra) == "Cancelling", group.status(1, lra))
        told = group.ask(1, "PUT", f"/lra/{lra}/member/1/report", {"act": "compensate", "outcome": "done"})
        self.check("a correct report is accepted", told == (204, {}) and group.comes_to(1, lra, "Cancelled"), told)
        other = group.ask(1, "PUT", "/lra/x/join", {"compleet": 1})
        self.check("for a wrong id it gives no reason", other == (400, {"refused": "E1 BadText"}), other)
        ended = group.end()
        self.check("it ends", ended == [0], ended)
        if not os.access(Server.program, os.X_OK):
            self.skipTest(f"{Server.program} isn't there")
        self.passes_over()

    def refuses(self, group: Group, path: str, method: str, wrong: list[tuple[str, str]]) -> None:
        """Each body is refused, with the reason."""
        for body, why in wrong:
            answer = request(group.address(1), method, path, body)
            wanted = 400, f'{{"refused":"E1 BadText","why":"{why}"}}'
            self.same(f"{method} {path.split('/')[-1]} {body}", wanted, (answer.status, answer.text))

    def passes_over(self) -> None:
        """A node of lra_node accepts unknown members in a begin and a join."""
        server = self.server(1, self.folder_in("one")).wait_until_up()
        begun = server.ask(1, "POST", "/lra", {"timeLimit": 5000})
        self.check("lra_node ignores timeLimit", begun[0] == 201, begun)
        links = {"compensate": "http://h/c", "compleet": "http://h/k"}
        joined = server.ask(1, "PUT", f"/lra/{begun[1]['lra']}/join", links)
        self.check("it ignores compleet", joined[0] == 200, joined)
        refused = server.ask(1, "POST", "/lra", {"limit": "5"})
        self.check("it gives no reason", refused == (400, {"refused": "E1 BadText"}), refused)
        ended = server.end()
        self.check("it ends too", ended == (0, ""), ended)

    def test_moved(self) -> None:
        """Journals that lra_node made are moved to members, file by file, and back."""
        if not os.access(Server.program, os.X_OK):
            self.skipTest(f"{Server.program} isn't there")
        group, part, one = self.group(3), slow_participant(), self.folder_in("one")
        server = self.server(3, one, ports=group.ports).wait_until_up()
        lras = {}
        for node in (1, 2, 3):
            lras[node] = [group.begin(node) for _ in range(3)]
            group.join(node, lras[node][0], compensate=f"{part.url}/slow", complete=f"{part.url}/k")
            group.finish(node, lras[node][1])
            group.finish(node, lras[node][0], "cancel")
        alike = comes_to(30, group.are_alike)
        shown = group.shown(1)
        is_so = alike and sorted(shown.values()) == ["Active"] * 3 + ["Cancelling"] * 3 + ["Closed"] * 3
        self.check("lra_node has nine LRAs", is_so, shown)
        ended = server.end()
        self.check("it ends", ended == (0, ""), ended)
        for node in (1, 2, 3):
            move(glob.glob(f"{one}/node-{node}.db*"), f"{self.folder}/{node}")
        self.check("all its files are moved", os.listdir(one) == [], os.listdir(one))
        shown = self.goes_on(group, part, shown, lras)
        for node in (1, 2, 3):
            move(glob.glob(f"{self.folder}/{node}/*"), one)
        server = self.server(3, one, ports=group.ports).wait_until_up()
        self.check("lra_node shows the same again", [group.shown(node) for node in (1, 2, 3)] == [shown] * 3,
                   group.shown(1))
        mine = group.begin(2)
        self.check("it goes on", mine not in shown and group.all_come_to(mine, "Active") is not None)
        ended = server.end()
        self.check("it ends again", ended == (0, ""), ended)

    def goes_on(self, group: Group, part: Participant, shown: Shown, lras: dict[int, list[str]]) -> Shown:
        """Members go on with what is shown, and end. Returns what they show then."""
        group.start()
        self.check("three members show the same", [group.shown(node) for node in (1, 2, 3)] == [shown] * 3,
                   group.shown(1))
        part.answers["/slow"] = 200
        are_called = all(group.all_come_to(lras[node][0], "Cancelled") is not None for node in (1, 2, 3))
        self.check("they call the participants that it had to call", are_called)
        for node in (1, 2, 3):
            new = group.begin(node)
            is_so = new not in shown and group.all_come_to(new, "Active") is not None
            self.check(f"what node {node} begins is new, and all show it", is_so)
            self.check("an older LRA can be closed", group.finish(node, lras[node][2]) == 200)
        alike = comes_to(30, group.are_alike)
        shown = group.shown(1)
        is_so = alike and sorted(shown.values()) == ["Active"] * 3 + ["Cancelled"] * 3 + ["Closed"] * 6
        self.check("all are alike", is_so, shown)
        ended = group.end()
        self.check("all end", (ended, [group.log(node) for node in (1, 2, 3)]) == ([0, 0, 0], [""] * 3), ended)
        return shown

    def test_apart(self) -> None:
        """Three members work in network namespaces of their own, over a network with 50 ms of delay that loses one
        packet in twenty."""
        try:
            net = wire.Wire(3, delay=0.05, loss=0.05)
        except OSError as error:
            self.skipTest(str(error))
        with net, wire.GroupApart(net, self.folder) as group:

            def part_beside(node: int) -> Participant:
                with net.inside(node):
                    return slow_participant()

            load = Load(group.start(), random.Random(60), part_beside)
            time.sleep(8)
            load.stop()
            began = time.monotonic()
            alike = comes_to(SLOW, group.are_alike)
            took = time.monotonic() - began
            what = f"all are alike {took:.1f} s after {len(load.noted)} LRAs"
            what += f", with {len(load.told())} outcomes reported at some node"
            self.check(what, alike and took < 10, took)
            gone = list(lost(group, load.noted))
            self.check("nothing that was answered is lost", not gone, gone)
            self.check(f"of {net.sent:,} packets {net.lost:,} were lost", net.lost > 0)
            ended = group.end()
            self.check("all end", ended == [0, 0, 0], ended)

    def test_elsewhere(self) -> None:
        """A machine is lost under load, and its node is started on another one over the same volume."""
        try:
            net = wire.Wire(4, delay=0.001, loss=0)
        except OSError as error:
            self.skipTest(str(error))
        with net, wire.GroupNamed(net, self.folder, 3) as group:
            parts = {}
            for place in net.namespaces:
                with net.inside(place):
                    parts[place] = slow_participant(parts[2].port if place == 4 else 0)
            load = Load(group.start(), random.Random(81), lambda node: parts[node])
            time.sleep(4)
            lra = group.begin(2)
            group.join(2, lra, complete=f"{parts[2].url}/close/0", compensate=f"{parts[2].url}/cancel/0")
            net.cut.add(2)
            group.kill(2)
            load.stop()
            time.sleep(5)
            began = time.monotonic()
            group.move(2, 4)
            group.start(2)
            listens = time.monotonic() - began
            group.finish(2, lra)
            enters = time.monotonic() - began
            heard = group.comes_to(1, lra, "Closed")
            took = time.monotonic() - began
            what = f"it listens after {in_ms(listens)}, executes a command by {in_ms(enters)}"
            self.check(f"{what}, and node 1 shows the LRA closed by {in_ms(took)}", heard is not None and took < 10)
            self.check("all are alike", comes_to(SLOW, group.are_alike))
            gone = list(lost(group, load.noted))
            self.check(f"of {len(load.noted)} LRAs nothing that was answered is lost", not gone, gone)
            ended = group.end()
            self.check("all end", ended == [0, 0, 0], ended)


# The options that say how often a test does something.
COUNTS = {"--kills": "kills", "--lras": "lras"}


def main() -> int:
    given = sys.argv[1:]
    for option, name in COUNTS.items():
        if option in given:
            at = given.index(option)
            setattr(TestMembers, name, int(given[at + 1]))
            del given[at : at + 2]
    words = checks.words_of(TestMembers)
    for word in given:
        if word not in words:
            Group.program = unproved.program_of(word)
            if word == "--unproved":
                Server.program = unproved.program_of(word)
    checks.need(Group)
    return checks.run(TestMembers, words=[word for word in given if word in words])


if __name__ == "__main__":
    sys.exit(main())
