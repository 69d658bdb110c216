#!/usr/bin/env python3
"""Tests the reader of a node's metrics (tools/metrics.py), or reads a node's. Uses only the standard library.

python3 tests/metrics.py tests the reader, and checks that demo/grafana.json and demo/alerts.yaml name only metrics and
labels that exist. python3 tests/metrics.py http://127.0.0.1:PORT/metrics reads a node's answer to GET /metrics, and
reports what is wrong with it. Exits with 1 if something is wrong."""
import json
import math
import os
import re
import shutil
import subprocess
import sys
import unittest

sys.path.insert(0, os.path.dirname(os.path.dirname(os.path.abspath(__file__))))
from tools import repo
from tools.metrics import METRICS, Wrong, example, problems, samples
from tools.node import fetch


def used_names(text: str) -> set[str]:
    return set(re.findall(r"\blra_\w+", text))


def used_labels(text: str) -> set[str]:
    """Returns the labels that a query has in braces or behind by or without, or that a legend shows."""
    inside = " ".join(re.findall(r"lra_\w+{([^}]*)}", text.replace('\\"', '"')))
    listed = " ".join(re.findall(r"\b(?:by|without|on|ignoring)\s*\(([\w, ]*)\)", text))
    shown = re.findall(r"{{\s*(\w+)\s*}}", text)
    return {*re.findall(r"(\w+)\s*[=!]~?", inside), *re.findall(r"\w+", listed), *shown}


GOOD = """# HELP lra_up Whether the node runs.
# TYPE lra_up gauge
lra_up{node="1"} 1
# HELP lra_calls_total Calls, with \\\\ and \\n.
# TYPE lra_calls_total counter
lra_calls_total{node="1",call="begin"} 12
lra_calls_total{node="1",call="a\\"b\\\\c\\nd"} 1.5e3
"""
HEAD = "# HELP a x\n# TYPE a gauge\n"
BAD = {
    "no newline at the end": HEAD + "a 1",
    "a bad name": "# HELP 1a x\n# TYPE 1a gauge\n1a 1\n",
    "a bad name of a sample": HEAD + "a-b 1\n",
    "no TYPE": "# HELP a x\na 1\n",
    "no HELP": "# TYPE a gauge\na 1\n",
    "TYPE behind the samples": "# HELP a x\na 1\n# TYPE a gauge\n",
    "neither": "a 1\n",
    "no sample": HEAD,
    "a second TYPE": HEAD + "# TYPE a gauge\na 1\n",
    "a second HELP": HEAD + "# HELP a y\na 1\n",
    "another type": "# HELP a x\n# TYPE a number\na 1\n",
    "a sample outside its block": HEAD + "a{b=\"1\"} 1\n" + HEAD.replace(" a ", " c ") + "c 1\na{b=\"2\"} 1\n",
    "a block that is cut": HEAD + HEAD.replace(" a ", " c ") + "c 1\na 1\n",
    "the same sample twice": HEAD + "a 1\na 2\n",
    "the same labels in another order": HEAD + 'a{b="1",c="2"} 1\na{c="2",b="1"} 1\n',
    "a label twice": HEAD + 'a{b="1",b="2"} 1\n',
    "a bad label": HEAD + 'a{1b="1"} 1\n',
    "a label of Prometheus's own": HEAD + 'a{__name__="1"} 1\n',
    "a bad escape": HEAD + 'a{b="\\t"} 1\n',
    "a bad escape in HELP": "# HELP a \\t\n# TYPE a gauge\na 1\n",
    "a quote that isn't escaped": HEAD + 'a{b="x"y"} 1\n',
    "no end of labels": HEAD + 'a{b="x" 1\n',
    "no value": HEAD + "a\n",
    "a value that is none": HEAD + "a one\n",
    "a value with an underscore": HEAD + "a 1_000\n",
    "infinity in other words": HEAD + "a infinity\n",
    "two spaces": HEAD + "a  1\n",
    "a space behind": HEAD + "a 1 \n",
    "CR": HEAD + "a 1\r\n",
    "a counter that is negative": HEAD.replace("gauge", "counter") + "a -1\n",
    "a counter that is no number": HEAD.replace("gauge", "counter") + "a NaN\n",
    "a TYPE with a tab": "# HELP a x\n#\tTYPE a gauge\na 1\n",
}


class TestReader(unittest.TestCase):
    def test_good(self) -> None:
        self.assertEqual(samples(GOOD), {"lra_up": [({"node": "1"}, 1)], "lra_calls_total": [
            ({"node": "1", "call": "begin"}, 12), ({"node": "1", "call": 'a"b\\c\nd'}, 1500)]})
        self.assertEqual(samples(""), {})
        self.assertEqual(samples("# a comment\n\n" + HEAD + "a -1.5\n"), {"a": [({}, -1.5)]})
        self.assertEqual(samples(HEAD + "a +Inf\n")["a"][0][1], math.inf)
        self.assertTrue(math.isnan(samples(HEAD + "a NaN\n")["a"][0][1]))

    def test_bad(self) -> None:
        for what, text in BAD.items():
            with self.subTest(what), self.assertRaises(Wrong):
                samples(text)

    def test_problems(self) -> None:
        text = example()
        self.assertEqual(problems(text), [])
        others = ["lra_line isn't in the list", "lra_queue is missing"]
        self.assertEqual(problems(text.replace("lra_queue", "lra_line")), others)
        self.assertEqual(len(problems(text.replace('"E13"', '"E25"'))), 1)
        self.assertEqual(len(problems(text.replace("TYPE lra_ready gauge", "TYPE lra_ready counter"))), 1)
        without = text.replace('lra_held{node="1",status="Active"} 1\n', "")
        self.assertEqual(problems(without), ["lra_held doesn't have all seven statuses"])
        self.assertEqual(len(problems(text[:-1])), 1)


class TestUse(unittest.TestCase):
    """The dashboard of Grafana and the alerts of Prometheus may name only metrics and labels that exist."""

    known = {"node", "job", "instance"} | {label for _, labels in METRICS.values() for label in labels}

    def text(self, name: str) -> str:
        return repo.read(f"demo/{name}")

    def test_names(self) -> None:
        for name in ("grafana.json", "alerts.yaml"):
            with self.subTest(name):
                self.assertEqual(used_names(self.text(name)) - METRICS.keys(), set())
                self.assertEqual(used_labels(self.text(name)) - self.known - {"datasource"}, set())

    def test_finds_others(self) -> None:
        self.assertEqual(used_names("rate(lra_gone_total[5m])"), {"lra_gone_total"})
        self.assertEqual(used_labels('sum by (a, b) (lra_up{c=~"x",d!="y"}) {{e}}'), {"a", "b", "c", "d", "e"})

    def test_dashboard(self) -> None:
        board = json.loads(self.text("grafana.json"))
        panels = [panel for panel in board["panels"] if panel["type"] != "row"]
        self.assertEqual(len({panel["id"] for panel in board["panels"]}), len(board["panels"]))
        for panel in panels:
            with self.subTest(panel["title"]):
                self.assertEqual(panel["datasource"]["uid"], "${datasource}")
                self.assertTrue(panel["targets"] and all(used_names(target["expr"]) for target in panel["targets"]))
                place = panel["gridPos"]
                self.assertLessEqual(place["x"] + place["w"], 24)
        shown = used_names(json.dumps(panels))
        self.assertEqual(METRICS.keys() - shown - {"lra_up", "lra_start_seconds"}, set(), "each metric is shown")

    def test_alerts(self) -> None:
        rules = re.split(r"^ *- alert: ", self.text("alerts.yaml"), flags=re.M)[1:]
        self.assertEqual(len(rules), 6)
        for rule in rules:
            with self.subTest(rule.split("\n")[0]):
                for word in ("expr:", "for:", "severity:", "summary:", "description:"):
                    self.assertIn(word, rule)

    @unittest.skipUnless(shutil.which("promtool"), "there is no promtool")
    def test_alerts_fire(self) -> None:
        words = ["promtool", "test", "rules", f"{repo.TOP}/tests/alerts.yaml"]
        tried = subprocess.run(words, capture_output=True, text=True, check=False)
        self.assertEqual(tried.returncode, 0, tried.stdout + tried.stderr)


def look_at_node(url: str) -> int:
    """Reads a node's metrics, prints what is wrong with them, and returns the exit status."""
    answer = fetch(url)
    kind, text = answer.fields.get("Content-Type", ""), answer.text
    wrong = problems(text) + ([] if kind.startswith("text/plain; version=0.0.4") else [f"Content-Type is {kind}"])
    count = sum(map(len, samples(text).values())) if not wrong else 0
    print("\n".join(wrong) or f"{len(samples(text))} metrics, {count} values, all as expected")
    return 1 if wrong else 0


def main() -> int:
    if len(sys.argv) == 2 and sys.argv[1].startswith("http"):
        return look_at_node(sys.argv[1])
    unittest.main()
    return 0


if __name__ == "__main__":
    sys.exit(main())
