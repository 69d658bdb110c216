#!/usr/bin/env python3
"""Tests the operators' port from outside: python3 tests/operate.py [PROGRAM] [TEST..].

PROGRAM is crates/lra_node/out/lra_node, or --unproved (tools/unproved.py). A TEST is one of paths, records, stuck,
dead, page, metrics, states, ready, early, disk, slow, long, silent, files and cost; without one it runs all tests,
which takes some four minutes. Each check prints a line. Exits with 1 if a check fails. Uses only the standard
library."""
import json
import os
import re
import resource
import socket
import subprocess
import sys
import threading
import time

sys.path.insert(0, os.path.dirname(os.path.dirname(os.path.abspath(__file__))))
from tools import checks, metrics, repo, unproved
from tools.node import SLOW, Group, Json, comes_to
from tools.operated import Operated
from tools.ports import HOST, free_row, is_open
from tools.version import build_said

LAST = "00000000-0000-8008-8000-ffffffffffff"
UNKNOWN = LAST.replace("8008", "8001")
BAD = "{\"refused\":\"E1 BadText\"}"
# Queries with wrong syntax, besides those that name an LRA.
BAD_QUERIES = ("after=x", "status=Ended", "status=", "x=1", "")


def listed(lra: str, status: str, members: int = 0, parent: str | None = None) -> Json:
    """Returns an LRA as a list has it."""
    return {"lra": lra, "status": status, "parent": parent, "members": members, "deadline": None}


def gone_link() -> str:
    """Returns a link at which nothing listens."""
    return f"http://{HOST}:{free_row(1)[0]}/gone"


def commands_of_page() -> list[tuple[str, Json]]:
    """Returns the commands at the operators' port that docs/OPERATING.md gives, each with the answer that it shows."""
    chapter = repo.found(r"\n## The operators' port\n(.*?)\n## ", repo.read("docs/OPERATING.md"), re.S)[1]
    found = re.findall(r"^    (curl .*)\n(?:    # (\{.*\})$)?", chapter, re.M)
    return [(command, json.loads(shown.replace("[..]", "[]")) if shown else None) for command, shown in found]


def has_form(shown: Json, seen: Json) -> bool:
    """Whether an answer has only members that a page shows, and its lists have rows of the shown form."""
    if isinstance(shown, dict) and isinstance(seen, dict):
        return seen.keys() <= shown.keys() and all(has_form(shown[key], value) for key, value in seen.items())
    if isinstance(shown, list) and isinstance(seen, list):
        return not shown or all(has_form(shown[0], row) for row in seen)
    return not isinstance(seen, dict | list)


class TestOperators(checks.Checked):
    needs = (Group,)

    def operated(self, count: int, *options: str) -> Operated:
        return self.group(count, *options, kind=Operated)

    def are_shaped(self, group: Operated) -> None:
        wrong = group.strange_shapes(1)
        self.check("each answer matches operate.json", not wrong, wrong)

    def test_paths(self) -> None:
        """Each path answers, unknown paths are refused, and the client interface is available."""
        group = self.operated(2).start()
        line = f"node 1: listens for operators on 127.0.0.1:{group.doors[0]}"
        self.check("it logs where it listens", comes_to(SLOW, lambda: line in group.whole_log(1)))
        self.check("health", group.told(1, "/health") == (200, {"node": 1, "nodes": 2}))
        self.check("ready", comes_to(SLOW, lambda: group.told(1, "/ready") == (200, {"ready": True})))
        page = group.at(1, "/")
        is_html = page.fields["Content-Type"] == "text/html; charset=utf-8" and page.fields["X-Frame-Options"] == "DENY"
        is_whole = page.text.startswith("<!doctype html>") and len(page.text) > 10_000
        self.check("the page", page.status == 200 and is_html and is_whole, page.fields)
        self.check("no failing calls", group.told(1, "/calls") == (200, {"calls": []}))
        self.check("no LRAs", group.told(1, "/lras") == (200, {"lras": [], "next": None}))
        one, two = group.begin(1), group.begin(2)
        group.all_come_to(one, "Active", (1, 2))
        group.all_come_to(two, "Active", (1, 2))
        nested = group.begin(1, parent=one)
        group.all_come_to(nested, "Active", (1, 2))
        rows = [listed(one, "Active", 1), listed(nested, "Active", 0, one), listed(two, "Active")]
        for node in (1, 2):
            self.check(f"node {node} lists all", group.all_of(node, "/lras") == rows, group.all_of(node, "/lras"))
            self.check(f"node {node} lists the roots", group.all_of(node, "/roots") == [rows[0], rows[2]])
        self.check("a list after an LRA",
                   group.told(1, f"/lras?after={one}") == (200, {"lras": rows[1:], "next": None}))
        self.check("a list of a status",
                   group.told(1, "/roots?status=Active") == (200, {"lras": [rows[0], rows[2]], "next": None}))
        self.check("a list of another status",
                   group.told(1, "/lras?status=Closed") == (200, {"lras": [], "next": None}))
        self.check("a list after an LRA, of a status",
                   group.told(1, f"/lras?after={one}&status=Active") == (200, {"lras": rows[1:], "next": None}))
        self.refuses(group, one)
        self.check("a method that the interface doesn't have", group.at(1, f"/lra/{one}", "POST").status == 405)
        self.check("a begin", group.told(1, "/lra", "POST")[0] == 201)
        self.check("a close",
                   group.told(1, f"/lra/{nested}/close", "PUT") == (200, {"lra": nested, "status": "Closed"}))
        self.check("a purge",
                   group.told(1, f"/lra/{nested}", "DELETE") == (409, {"refused": "E9 NotRoot"}))
        self.are_shaped(group)
        self.check("it ends", group.end() == [0, 0])

    def refuses(self, group: Operated, one: str) -> None:
        """Invalid queries, ids and members, and unknown paths, are refused."""
        for query in (*BAD_QUERIES, f"status=Active&after={one}", f"after={one}&status=x", f"after={one}&"):
            seen = group.refused(1, f"/lras?{query}")
            self.check(f"a query with wrong syntax: {query}", seen == (400, BAD), seen)
        for path in ("/lra/x", "/lra/00000000-0000-8001-8000-00000000000g"):
            self.check(f"an invalid id: {path}", group.refused(1, path) == (400, BAD))
        for path in (f"/lra/{one}/member/0/forgot", f"/lra/{one}/member/33/told", "/lra/x/member/1/told"):
            self.check(f"an invalid member: {path}", group.refused(1, path, "PUT") == (400, BAD))
        seen = group.told(1, f"/lra/{UNKNOWN}")
        self.check("an unknown LRA", seen == (404, {"refused": "E2 UnknownLra"}), seen)
        of_member = f"/lra/{one}/member/1/told/"
        others = (("GET", "/none"), ("POST", "/health"), ("PUT", "/roots"), ("PUT", of_member), ("DELETE", "/"))
        for method, path in others:
            seen = group.told(1, path, method)
            self.check(f"an unknown path: {method} {path}", seen == (404, {"refused": "NoPath"}), seen)

    def test_records(self) -> None:
        """A record shows everything that is held of an LRA: members of each kind, what is known of them, and the answer
        that a purge would get."""
        group, part = self.operated(2).start(), self.participant()
        lra = group.begin(1)
        group.join(1, lra, compensate=f"{part.url}/c?a=\\b", complete=f"{part.url}/k", after=f"{part.url}/a")
        nested = group.begin(1, parent=lra)
        group.join(1, lra, compensate=f"{part.url}/x")
        group.ask(1, "PUT", f"/lra/{lra}/member/3/leave")
        links: Json = {"compensate": f"{part.url}/c?a=\\b", "complete": f"{part.url}/k", "status": None, "forget": None,
                 "after": f"{part.url}/a"}
        member: Json = {"member": 1, "kind": "participant", "status": "Active", "links": links, "completed": None,
                  "compensated": None, "forgotten": False, "told": False}
        members = [member, {"member": 2, "kind": "lra", "lra": nested}, {"member": 3, "kind": "left"}]
        whole: Json = {"lra": lra, "status": "Active", "parent": None, "deadline": None, "decision": None,
                 "purge": "E8 NotEnded Active", "members": members}
        self.check("an active LRA", group.told(1, f"/lra/{lra}") == (200, whole), group.told(1, f"/lra/{lra}"))
        there = {**whole, "purge": "E4 NotHome 1"}
        self.check("the same at another node", comes_to(SLOW, lambda: group.told(2, f"/lra/{lra}") == (200, there)),
                   group.told(2, f"/lra/{lra}"))
        inside = {**whole, "lra": nested, "parent": lra, "purge": "E9 NotRoot", "members": []}
        self.check("a nested LRA", group.record(1, nested) == inside)
        group.finish(1, lra)
        done = {**member, "status": "Completed", "completed": "done", "told": True}
        ended = {**whole, "status": "Closed", "decision": "close", "purge": "due", "members": [done, *members[1:]]}
        self.check("a closed LRA", comes_to(SLOW, lambda: group.told(1, f"/lra/{lra}") == (200, ended)),
                   group.told(1, f"/lra/{lra}"))
        limited = group.begin(1, limit=600_000)
        deadline = group.record(1, limited)["deadline"]
        self.check("a deadline", abs(deadline / 1000 - time.time() - 600) < 60, deadline)
        self.are_shaped(group)
        is_purged = group.at(1, f"/lra/{lra}", "DELETE").status == 204
        self.check("a purged LRA", is_purged and group.told(1, f"/lra/{lra}") == (410, {"refused": "E3 NotHeld"}))
        group.end()

    def test_stuck(self) -> None:
        """Failing calls are listed, with the participant, the act, the link, how often and since when they failed, and
        the last answer."""
        group, part = self.operated(2).start(), self.participant()
        gone = gone_link()
        part.answers["/busy"] = 503
        lra = group.begin(1)
        group.join(1, lra, compensate=gone)
        group.join(1, lra, compensate=f"{part.url}/busy")
        group.finish(1, lra, "cancel")
        calls: list[Json] = []

        def is_called() -> bool:
            calls[:] = group.calls(1)
            return len(calls) == 1 and calls[0]["times"] >= 3

        self.check("calls to the last to join fail", comes_to(SLOW, is_called), calls)
        one = calls[0]
        seen = one["lra"], one["member"], one["kind"], one["link"], one["came"]
        wanted = lra, 2, "compensate", f"{part.url}/busy", "503"
        self.check("its act, link and last answer are shown", seen == wanted, one)
        self.check("the beginning and the next call are shown",
                   0 <= one["since"] < SLOW and (one["next"] is None or 0 <= one["next"] <= 30), one)
        samples = group.samples(1)
        again = samples[("lra_callbacks_total", "heard=again", "kind=compensate")]
        self.check("the metrics count it", samples[("lra_callbacks_vain",)] == 1 and again >= 3, samples)
        self.check("the other node calls no participant", group.calls(2) == [])
        part.answers["/busy"] = 200
        self.check("once it answers, calls to the next one fail",
                   comes_to(SLOW, lambda: [call["member"] for call in group.calls(1)] == [1]),
                   group.calls(1))
        one = group.calls(1)[0]
        self.check("the next one can't be reached", (one["link"], one["came"]) == (gone, "no connection"), one)
        group.ask(2, "PUT", f"/lra/{lra}/member/1/report", {"act": "compensate", "outcome": "failed"})
        self.check("a report ends the calls", comes_to(SLOW, lambda: group.calls(1) == []),
                   group.calls(1))
        self.check("the LRA shows the failure",
                   comes_to(SLOW, lambda: group.record(1, lra)["status"] == "FailedToCancel"))
        group.end()

    def test_dead(self) -> None:
        """A participant's forget link and a listener are gone for good."""
        group = self.operated(2).start()
        gone = gone_link()
        part = self.participant()
        part.answers["/c"] = 409
        lra = group.begin(1)
        group.join(1, lra, compensate=f"{part.url}/c", forget=gone, after=gone)
        self.check("before it ends no report is accepted",
                   group.told(1, f"/lra/{lra}/member/1/forgot", "PUT")[0] == 409)
        group.finish(1, lra, "cancel")
        self.check("the LRA fails", comes_to(SLOW, lambda: group.record(1, lra)["status"] == "FailedToCancel"))
        self.check("a purge waits for the forget",
                   group.record(1, lra)["purge"].startswith("E10 StillToForget"),
                   group.told(1, f"/lra/{lra}"))
        self.check("a purge is refused", group.at(1, f"/lra/{lra}", "DELETE").status == 409)
        self.check("an operator reports that it forgot",
                   group.at(1, f"/lra/{lra}/member/1/forgot", "PUT").status == 204)
        self.check("then a purge waits for the listener",
                   group.record(1, lra)["purge"].startswith("E24 StillToTell"), group.told(1, f"/lra/{lra}"))
        self.check("an operator reports that it was notified",
                   group.at(1, f"/lra/{lra}/member/1/told", "PUT").status == 204)
        self.check("then a purge is due", group.record(1, lra)["purge"] == "due")
        failed = ("lra_held", "status=FailedToCancel")
        self.check("the failed LRA is counted as held", comes_to(SLOW, lambda: group.samples(1)[failed] == 1),
                   group.samples(1))
        told = "node 1: LRAs of its own that failed to close or to cancel: 1"
        self.check("the log says that an LRA failed",
                   comes_to(SLOW, lambda: told in group.whole_log(1)), group.whole_log(1))
        log = group.whole_log(1)
        for what in ("has forgotten", "was notified of the end"):
            self.check(f"the log says which participant {what}",
                       f"node 1: an operator says that /lra/{lra}/member/1 {what}" in log,
                       log)
        self.check("an unknown participant",
                   group.told(1, f"/lra/{lra}/member/2/told", "PUT") == (404, {"refused": "E5 UnknownMember"}))
        self.check("a purge", group.at(1, f"/lra/{lra}", "DELETE").status == 204)
        self.check("only after the purge it isn't counted any more",
                   comes_to(SLOW, lambda: group.samples(1)[failed] == 0), group.samples(1))
        self.check("no calls fail any more",
                   comes_to(SLOW, lambda: group.calls(1) == []), group.calls(1))
        group.end()

    def test_page(self) -> None:
        """The commands of docs/OPERATING.md work, as they stand there except for ports and ids."""
        group = self.operated(2).start()
        part = self.participant()
        part.answers["/c"] = 409
        stuck, failed = group.begin(1), group.begin(1)
        group.join(1, stuck, compensate=gone_link())
        group.join(1, failed, compensate=f"{part.url}/c", forget=gone_link(), after=gone_link())
        for lra in (stuck, failed):
            group.finish(1, lra, "cancel")
        self.check("one LRA fails", comes_to(SLOW, lambda: group.record(1, failed)["status"] == "FailedToCancel"))
        self.check("calls to a participant fail", comes_to(SLOW, lambda: len(group.calls(1)) > 0))
        commands = commands_of_page()
        self.check("the page has seven commands", len(commands) == 7, commands)
        for command, shown in commands:
            lra = stuck if command.endswith("/report") else failed
            line = command.replace(":8170", f":{group.doors[0]}").replace("/ID/", f"/{lra}/")
            ran = subprocess.run(["sh", "-c", f"{line} -s -w '\\n%{{http_code}}'"], capture_output=True, text=True)
            body, _, code = ran.stdout.rpartition("\n")
            is_so = code == "204" if shown is None else code == "200" and has_form(shown, json.loads(body))
            self.check(command, is_so, ran.stdout + ran.stderr)
        said = f"node 1: an operator says that /lra/{stuck}/member/1 failed to compensate"
        self.check("the report is logged", said in group.whole_log(1), group.whole_log(1))
        group.end()

    def test_metrics(self) -> None:
        """Metrics count what happens."""
        group = self.operated(2, "keep=0").start()
        for node in (1, 2):
            wrong = metrics.problems(group.at(node, "/metrics").text)
            self.check(f"node {node}'s metrics are complete", not wrong, wrong)
        fields = group.at(1, "/metrics").fields
        self.check("metrics have their content type", fields["Content-Type"] == "text/plain; version=0.0.4", fields)
        lras = [group.begin(1) for _ in range(5)]
        group.ask(1, "GET", f"/lra/{UNKNOWN}")
        group.finish(1, lras[0])
        group.join(1, lras[1], compensate="http://127.0.0.1:1/x")
        group.finish(1, lras[1], "cancel")
        self.check("an ended LRA is purged",
                   comes_to(SLOW, lambda: group.samples(1)[("lra_swept_total", "came=gone")] == 1))
        group.begin(1)
        wanted = {
            ("lra_calls_total", "call=begin"): 6, ("lra_calls_total", "call=close"): 1,
            ("lra_calls_total", "call=cancel"): 1, ("lra_refused_total", "refusal=E2"): 1,
            ("lra_refused_total", "refusal=E13"): 0,
            ("lra_held", "status=Active"): 4, ("lra_held", "status=Cancelling"): 1, ("lra_held", "status=Closed"): 0,
            ("lra_held_limit",): 256, ("lra_up",): 1, ("lra_ready",): 1, ("lra_swept_total", "came=gone"): 1,
            ("lra_journal_failures_total",): 0, ("lra_front", "of=1"): 10, ("lra_callbacks_due",): 1,
        }
        shown: Samples = {}

        def are_so() -> bool:
            shown.update(group.samples(1))
            return all(shown[key] == value for key, value in wanted.items())

        self.check("everything that happened is counted", comes_to(SLOW, are_so),
                   {key: shown.get(key) for key, value in wanted.items() if shown.get(key) != value})
        pulls = sum(shown[("lra_pulls_total", f"came={came}", "from=2")] for came in ("new", "nothing"))
        self.check("connections are counted", shown[("lra_connections_total",)] > 10)
        self.check("pulls are counted by node", pulls > 0 and shown[("lra_pulled_seconds", "from=2")] < SLOW)
        labels = sorted(f"{key}={value}" for key, value in build_said()._asdict().items())
        self.check("the build is shown", shown.get(("lra_build_info", *labels)) == 1, labels)
        self.check("the start time is shown", abs(shown[("lra_start_seconds",)] - time.time()) < 10 * SLOW)
        group.kill(2)
        self.check("failed pulls from a node that is down are counted",
                   comes_to(SLOW, lambda: group.samples(1)[("lra_pulls_total", "came=failed", "from=2")] > 0))
        group.end(1)

    def test_states(self) -> None:
        """The log and the metrics for the alerts show what an operator has to see: a call that has failed for a minute,
        an LRA that failed, and a home that is nine tenths full."""
        group, part, gone = self.operated(1).start(), self.participant(), gone_link()
        part.answers["/c"] = 409
        stuck, failed = group.begin(1), group.begin(1)
        group.join(1, stuck, compensate=gone)
        group.join(1, failed, compensate=f"{part.url}/c")
        for lra in (stuck, failed):
            group.finish(1, lra, "cancel")
        for _ in range(230):
            group.begin(1)
        call = f"/lra/{stuck}/member/1 \\(compensate\\) at {gone.split('/')[2]}"
        for what, line in (
            ("a full home", r"node 1: holds 23\d LRAs of its own, of 256 that it may"),
            ("a failing call", rf"node 1: {call} failed \d+ calls in \d+ s: no connection"),
            ("a failure", "node 1: LRAs of its own that failed to close or to cancel: 1"),
        ):
            told = comes_to(120, lambda line=line: any(re.fullmatch(line, one) for one in group.lines(1)))
            self.check(f"{what} is in the log", told, group.lines(1))
        samples = group.samples(1)
        held = sum(value for key, value in samples.items() if key[0] == "lra_held")
        seen = (samples[("lra_callbacks_oldest_seconds",)] > 59, samples[("lra_held", "status=FailedToCancel")],
                held > 0.9 * samples[("lra_held_limit",)])
        self.same("the metrics show all three", (True, 1, True), seen)
        group.end()

    def test_ready(self) -> None:
        """/ready gives the reason while no other node has been heard from."""
        group = self.operated(2)
        group.start(2)
        group.kill(2)
        group.run(1)
        seen: set[tuple[int, str | None]] = set()

        def is_seen() -> bool:
            try:
                status, answer = group.told(1, "/ready")
            except OSError:
                return False
            seen.add((status, answer.get("cause")))
            return status == 200

        self.check("it becomes ready", comes_to(SLOW, is_seen), seen)
        self.check("until then it gives the reason, if it answers at all", seen <= {(200, None), (503, "behind")}, seen)
        group.end(1)

    def test_early(self) -> None:
        """Until the other nodes are heard from, a command at the operators' port is refused at once, but a read is
        answered."""
        group = self.operated(2)
        group.start(1, 2)
        group.kill(1, 2)
        group.start(1, options=["anew"])
        behind = (503, {"ready": False, "cause": "behind"})
        self.check("it waits for the other node", comes_to(SLOW, lambda: group.told(1, "/ready") == behind))
        began = time.monotonic()
        listed = group.at(1, "/lras").status
        self.check("a read is answered", listed == 200 and time.monotonic() - began < 0.7, listed)
        began = time.monotonic()
        seen = {group.refused(1, "/lra", "POST") for _ in range(4)}
        took = time.monotonic() - began
        wanted = {(503, "{\"refused\":\"E19 Stopped\"}")}
        self.check(f"four commands are refused in {took:.1f} s", seen == wanted and took < 4, seen)
        group.start(2)
        self.check("a command is accepted once the other node is heard from",
                   comes_to(SLOW, lambda: group.told(1, "/lra", "POST")[0] == 201))
        group.end()

    def test_disk(self) -> None:
        """A node whose journal can't grow reports that from a refused write until a write succeeds, and goes on by
        itself."""
        group = self.operated(1).start()
        pid, limit = group.processes[1].pid, resource.RLIMIT_FSIZE
        group.begin(1)
        resource.prlimit(pid, limit, (1, resource.RLIM_INFINITY))
        self.check("a write is refused", comes_to(SLOW, lambda: group.told(1, "/lra", "POST")[0] == 503))
        causes = {(group.told(1, "/ready")[0], group.told(1, "/ready")[1].get("cause")) for _ in range(40)}
        self.check("it isn't ready", causes == {(503, "journal")}, causes)
        time.sleep(2)
        self.check("after the pause it isn't ready either",
                   group.told(1, "/ready") == (503, {"ready": False, "cause": "journal"}))
        self.check("the metrics show that", group.samples(1)[("lra_ready",)] == 0)
        resource.prlimit(pid, limit, (resource.RLIM_INFINITY, resource.RLIM_INFINITY))
        self.check("it goes on by itself", comes_to(SLOW, lambda: group.told(1, "/lra", "POST")[0] == 201))
        self.check("it is ready", group.told(1, "/ready") == (200, {"ready": True}))
        self.check("it ends", group.end() == [0])

    def test_slow(self) -> None:
        """Operators that are slow, silent or many delay no client, and a client's flood delays no operator for long."""
        group = self.operated(1).start()
        silent = [socket.create_connection((HOST, group.doors[0])) for _ in range(20)]
        began = time.monotonic()
        group.begin(1)
        self.check("clients don't wait for silent operators", time.monotonic() - began < 5)
        began = time.monotonic()
        code, took = group.at(1, "/health").status, time.monotonic() - began
        self.check("another operator doesn't wait either", code == 200 and took < 5, (code, took))
        for one in silent:
            one.close()
        flood = [socket.create_connection((HOST, group.ports[0])) for _ in range(200)]
        for one in flood:
            one.send(b"POST /lra HTTP/1.1\r\nHost: x\r\nContent-Length: 9\r\n\r\n")
        began = time.monotonic()
        codes = [group.at(1, path).status for path in ("/health", "/lras")]
        took = time.monotonic() - began
        self.check("a flood of half requests delays no operator", codes == [200, 200] and took < 10, (codes, took))
        for one in flood:
            one.close()
        parts = socket.create_connection((HOST, group.doors[0]))
        parts.sendall(b"GET /health HTTP/1.1\r\nHo")
        time.sleep(0.3)
        parts.sendall(b"st: localhost\r\n\r\n")
        parts.settimeout(SLOW)
        self.check("a request in parts is answered", parts.recv(4096).startswith(b"HTTP/1.1 200"), "")
        parts.close()
        self.check("it ends", group.end() == [0])

    def health_in(self, group: Operated, count: int) -> float:
        """Returns the longest time that /health takes in this many requests; probes would wait for five seconds."""
        times = []
        for _ in range(count):
            began = time.monotonic()
            times.append(time.monotonic() - began if group.at(1, "/health").status == 200 else SLOW)
        return max(times)

    def opened(self) -> Operated:
        """Starts a node whose operators' port accepts connections."""
        group = self.operated(1).start()
        self.check("it listens", comes_to(SLOW, lambda: is_open(group.doors[0])))
        return group

    def begun_doors(self, group: Operated, text: bytes, count: int = 24) -> list[socket.socket]:
        """Opens this many connections to the operators' port, and sends this text over each."""
        lines = [socket.create_connection((HOST, group.doors[0])) for _ in range(count)]
        for line in lines:
            line.sendall(text)
        return lines

    def test_long(self) -> None:
        """Operators state a long body, or send a bad head without an end, and then nothing."""
        group = self.opened()
        host = b"POST /lra HTTP/1.1\r\nHost: localhost\r\n"
        for what, code, name, text in (
            ("a long body", 413, "BodyTooLong", b"Content-Length: 20000\r\n\r\n"),
            ("a long body that waits for 100 Continue", 413, "BodyTooLong",
             b"Content-Length: 65536\r\nExpect: 100-continue\r\n\r\n"),
            ("a bad head without an end", 400, "BadHead", b"X-Padding: " + b"a" * 60 + b"\r\nBad Name: x\r\n"),
            ("a head that is too long", 431, "HeadTooLong", b"X-Padding: " + b"a" * 17_000),
        ):
            lines = self.begun_doors(group, host + text)
            took = self.health_in(group, 1)
            self.check(f"{what}: beside 24 of them /health answers after {took:.1f} s", took < 3, took)
            heard = set()
            for line in lines:
                line.settimeout(SLOW)
                answer = line.recv(4096)
                heard.add((answer[:12], answer.rpartition(b"\r\n\r\n")[2]))
                line.close()
            wanted = {(f"HTTP/1.1 {code}".encode(), f"{{\"refused\":\"{name}\"}}".encode())}
            self.same(f"{what}: each is refused", wanted, heard)
        self.check("it ends", group.end() == [0])

    def test_silent(self) -> None:
        """New connections that send nothing keep coming to the operators' port."""
        soft, most = resource.getrlimit(resource.RLIMIT_NOFILE)
        resource.setrlimit(resource.RLIMIT_NOFILE, (most, most))
        self.addCleanup(resource.setrlimit, resource.RLIMIT_NOFILE, (soft, most))
        group = self.opened()
        ended, made = threading.Event(), [0]

        def come() -> None:
            lines: list[socket.socket] = []
            while not ended.wait(0.002):
                line = socket.socket()
                line.setblocking(False)
                line.connect_ex((HOST, group.doors[0]))
                lines.append(line)
                made[0] += 1
                if len(lines) > 1_500:
                    lines.pop(0).close()

        threads = [threading.Thread(target=come) for _ in range(2)]
        for thread in threads:
            thread.start()
        time.sleep(4)
        began, before = time.monotonic(), made[0]
        took = self.health_in(group, 8)
        rate = (made[0] - before) / (time.monotonic() - began)
        ended.set()
        for thread in threads:
            thread.join()
        self.check(f"beside {rate:.0f} new connections a second /health answers within {took:.1f} s", took < 1.5, took)
        self.check("it ends", group.end() == [0])

    def test_files(self) -> None:
        """Clients' silent connections take the last file descriptor, but each operator is answered."""
        group, most = self.opened(), 64
        process = group.processes[1]
        resource.prlimit(process.pid, resource.RLIMIT_NOFILE, (most, most))

        def files() -> int:
            return len(os.listdir(f"/proc/{process.pid}/fd"))

        lines = []
        for _ in range(100):
            lines.append(socket.create_connection((HOST, group.ports[0])))
            time.sleep(0.02)
        self.check("no file descriptor is left", files() >= most - 2, files())
        heard = []
        for _ in range(20):
            try:
                heard.append(group.at(1, "/health").status)
            except OSError as error:
                heard.append(type(error).__name__)
            time.sleep(0.1)
        self.same("20 of 20 requests for /health are answered", [200] * 20, heard)
        for line in lines:
            line.close()
        self.check("clients are answered again", comes_to(SLOW, lambda: group.ask(1, "GET", "/lra")[0] == 200))
        self.check("it ends", group.end() == [0])

    def test_cost(self) -> None:
        """A scrape each second, with the requests of the page, costs a client's status requests little at a full
        home."""
        group = self.operated(2).start()
        lras = [group.begin(1) for _ in range(250)]
        group.all_come_to(lras[-1], "Active", (1, 2))

        def rate(seconds: float) -> float:
            count, until = 0, time.monotonic() + seconds
            while time.monotonic() < until:
                group.ask(1, "GET", f"/lra/{lras[count % 250]}")
                count += 1
            return count / seconds

        stop = threading.Event()

        def scrape() -> None:
            while not stop.wait(1):
                for node in (1, 2):
                    group.at(node, "/metrics")
                    group.at(node, "/calls")
                    group.all_of(node, "/lras")

        rate(1)
        pairs = []
        for _ in range(3):
            stop.clear()
            before = rate(3)
            thread = threading.Thread(target=scrape)
            thread.start()
            beside = rate(3)
            stop.set()
            thread.join()
            pairs.append((before, beside))
        best = max(beside / before for before, beside in pairs)
        what = f"{pairs[0][0]:.0f} a second without, {pairs[0][1]:.0f} with; {100 * (1 - best):.0f} % less at best"
        self.check(f"scrapes cost a status little: {what}", best > 0.8, pairs)
        group.end()


def main() -> int:
    given, words = sys.argv[1:], checks.words_of(TestOperators)
    if given and given[0] not in words:
        Group.program, given = unproved.program_of(given[0]), given[1:]
    checks.need(Group)
    return checks.run(TestOperators, words=given)


if __name__ == "__main__":
    sys.exit(main())
