#!/usr/bin/env python3
"""Compares answers of the operators' port with docs/operate.json (tools/shapes.py). Uses only the standard library.

python3 tests/shapes.py checks that the file is complete: each reference leads somewhere, each schema is used, and each
example matches. python3 tests/shapes.py http://127.0.0.1:PORT makes all requests to a node that change nothing, and
compares the answers. Exits with 1 if something differs."""
import json
import os
import re
import sys
import unittest

sys.path.insert(0, os.path.dirname(os.path.dirname(os.path.abspath(__file__))))
from tools import repo
from tools.node import Json
from tools.shapes import compare, differences, follow, operate


def of_components(text: Json) -> list[str]:
    """Returns the parts of the file that are used but missing, or there but unused."""
    used = set(re.findall(r'"#/components/(\w+/\w+)"', json.dumps(text)))
    given = {f"{kind}/{name}" for kind, names in text["components"].items() for name in names}
    return [f"{name} is {'used but missing' if name in used else 'there but unused'}" for name in used ^ given]


def of_call(text: Json, path: str, verb: str, call: Json) -> list[str]:
    """Returns where a call's parameters aren't those of its path, and where an example doesn't match its schema."""
    parameters = [follow(text, one) for one in call.get("parameters", [])]
    named = {one["name"] for one in parameters if one["in"] == "path"}
    wrong = [] if named == set(re.findall(r"{(\w+)}", path)) else [f"{verb} {path} has the parameters {named}"]
    for code, response in call["responses"].items():
        content = follow(text, response).get("content", {}).get("application/json", {})
        if "example" in content:
            wrong += differences(text, content["schema"], content["example"], f"the example of {verb} {path} {code}")
    return wrong


def paths_and_methods(text: Json) -> set[tuple[str, str]]:
    """Returns each path and method of a file."""
    return {(path, verb) for path, verbs in text["paths"].items() for verb in verbs}


def beside_the_interface(text: Json) -> list[str]:
    """Returns where the file differs from docs/openapi.json, for what both have."""
    other = json.loads(repo.read("docs/openapi.json"))
    both = paths_and_methods(other) & paths_and_methods(text)
    wrong = [] if both == {("/lra/{id}", "get")} else [f"both files have {sorted(both)}"]
    schemas, others = text["components"]["schemas"], other["components"]["schemas"]
    same = ("LraStatus", "MemberStatus", "Id")
    return wrong + [f"{name} differs from docs/openapi.json" for name in same if others[name] != schemas[name]]


def look_at_file() -> list[str]:
    """Returns a line for each thing that is wrong with the file."""
    text = operate()
    calls = [of_call(text, path, verb, call) for path, verbs in text["paths"].items() for verb, call in verbs.items()]
    return [*of_components(text), *(line for wrong in calls for line in wrong), *beside_the_interface(text)]


class TestFile(unittest.TestCase):
    def test_is_whole(self) -> None:
        self.assertEqual(look_at_file(), [])


def main() -> int:
    wrong = compare(sys.argv[1].rstrip("/")) if len(sys.argv) == 2 else look_at_file()
    print("\n".join(wrong) or "all as expected")
    return 1 if wrong else 0


if __name__ == "__main__":
    sys.exit(main())
