#!/usr/bin/env python3
"""Compares docs/openapi.json with the code: python3 tests/openapi.py. Uses only the standard library.

The paths and methods must be the same in that file and in the code's table (wire_api/src/path.rt, table.rt), and so
must the names of statuses, acts and outcomes, as state_ids prints them. Exits with 1 if they differ."""
import json
import os
import re
import sys

sys.path.insert(0, os.path.dirname(os.path.dirname(os.path.abspath(__file__))))
from tools import checks, repo


def calls_of_code() -> set[tuple[str, str]]:
    """Returns each path and method of the table."""
    places = re.findall(r'router\.insert\("([^"]+)", Endpoint::(\w+)\)', repo.read("crates/wire_api/src/path.rt"))
    verbs = re.findall(r"\(Endpoint::(\w+), TableMethod::(\w+)\) => Some", repo.read("crates/wire_api/src/table.rt"))
    return {(path, verb.lower()) for path, place in places for of, verb in verbs if of == place}


def words_of_code(kind: str, file: str) -> set[str]:
    """Returns the names that the code has for a type's values."""
    return set(re.findall(rf'{kind}::\w+ => "(\w+)"', repo.read(f"crates/state_ids/src/{file}.rt")))


class TestInterface(checks.Checked):
    def alike(self, what: str, code: set, page: set) -> None:
        self.check(what, code == page, f"\n  only in the code: {sorted(code - page)}"
                                       f"\n  only in openapi.json: {sorted(page - code)}")

    def setUp(self) -> None:
        super().setUp()
        self.page = json.loads(repo.read("docs/openapi.json"))

    def test_paths(self) -> None:
        calls = {(path, verb) for path, verbs in self.page["paths"].items() for verb in verbs}
        self.alike("paths and methods", calls_of_code(), calls)

    def test_words(self) -> None:
        schemas = self.page["components"]["schemas"]
        report = schemas["Report"]["properties"]
        self.alike("statuses of LRAs", words_of_code("LraStatus", "status"), set(schemas["LraStatus"]["enum"]))
        members = set(schemas["MemberStatus"]["enum"])
        self.alike("statuses of participants", words_of_code("MemberStatus", "status"), members)
        self.alike("acts", words_of_code("Act", "outcome"), set(report["act"]["enum"]))
        self.alike("outcomes", words_of_code("Outcome", "outcome"), set(report["outcome"]["enum"]))

    def test_schemas(self) -> None:
        used = set(re.findall(r'"#/components/schemas/(\w+)"', repo.read("docs/openapi.json")))
        self.alike("each schema is used", used, set(self.page["components"]["schemas"]))

    def test_parameters(self) -> None:
        given = self.page["components"]["parameters"]
        for path, verbs in self.page["paths"].items():
            for verb, call in verbs.items():
                references = [one["$ref"] for one in call.get("parameters", []) if "$ref" in one]
                named = {given[reference.split("/")[-1]]["name"] for reference in references}
                self.alike(f"the parameters of {verb} {path}", set(re.findall(r"{(\w+)}", path)), named)


if __name__ == "__main__":
    sys.exit(checks.run(TestInterface))
