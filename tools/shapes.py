"""Compares answers of the operators' port with docs/operate.json."""
import functools
import json
import re

from tools import repo
from tools.node import Json, fetch

TYPES: dict[str, type] = {"object": dict, "array": list, "string": str, "integer": int, "boolean": bool}


def operate() -> Json:
    """Returns the content of docs/operate.json."""
    return json.loads(repo.read("docs/operate.json"))


def follow(text: Json, part: Json) -> Json:
    """Returns what a reference leads to; anything else is returned as it is."""
    while "$ref" in part:
        words = part["$ref"].removeprefix("#/").split("/")
        part = functools.reduce(lambda above, word: above[word], words, text)
    return part


def differences(text: Json, schema: Json, value: Json, place: str = "") -> list[str]:
    """Returns a line for each place where a value doesn't match its schema."""
    schema, place = follow(text, schema), place or "the answer"
    if "oneOf" in schema:
        fits = [not differences(text, choice, value, place) for choice in schema["oneOf"]]
        return [] if sum(fits) == 1 else [f"{place} matches {sum(fits)} of {len(fits)} choices: {value}"]
    if value is None and schema.get("nullable"):
        return []
    if not isinstance(value, TYPES[schema["type"]]) or schema["type"] == "integer" and isinstance(value, bool):
        return [f"{place} isn't of type {schema['type']}: {value}"]
    wrong = bounds(schema, value, place)
    if isinstance(value, dict):
        given = schema.get("properties", {})
        wrong += [f"{place} has no {key}" for key in schema.get("required", []) if key not in value]
        if schema.get("additionalProperties") is False:
            wrong += [f"{place} has {key}" for key in value if key not in given]
        if [key for key in given if key in value] != [key for key in value if key in given]:
            wrong.append(f"{place} has its members in another order: {', '.join(value)}")
        for key in value.keys() & given.keys():
            wrong += differences(text, given[key], value[key], f"{place}.{key}")
    if isinstance(value, list):
        for number, item in enumerate(value):
            wrong += differences(text, schema["items"], item, f"{place}[{number}]")
    return wrong


def bounds(schema: Json, value: Json, place: str) -> list[str]:
    """Returns a line for each limit of its schema that a value breaks."""
    wrong = []
    if "enum" in schema and value not in schema["enum"]:
        wrong.append(f"{place} is {value}")
    if isinstance(value, str) and not re.search(schema.get("pattern", ""), value):
        wrong.append(f"{place} is {value}")
    if isinstance(value, int) and not schema.get("minimum", value) <= value <= schema.get("maximum", value):
        wrong.append(f"{place} is {value}")
    most = "maxItems" if isinstance(value, list) else "maxLength"
    if isinstance(value, (str, list)) and len(value) > schema.get(most, len(value)):
        wrong.append(f"{place} is too long: {len(value)}")
    return wrong


def of_answer(text: Json, path: str, verb: str, code: int, value: Json) -> list[str]:
    """Returns where an answer with a JSON body doesn't match the file. The path is spelled as in the file."""
    response = follow(text, text["paths"][path][verb]["responses"].get(str(code), {}))
    if "application/json" not in response.get("content", {}):
        return [f"{verb} {path} has no answer {code} with a body"]
    return differences(text, response["content"]["application/json"]["schema"], value, f"{verb} {path} {code}")


def fetched(url: str) -> tuple[int, Json]:
    """Requests a URL, and returns the status and the JSON of the answer."""
    answer = fetch(url)
    return answer.status, answer.json()


def compare(node: str) -> list[str]:
    """Makes all requests to a node that change nothing, also for the first LRAs with their members. Returns what
    doesn't match docs/operate.json."""
    text, wrong, ids = operate(), [], list[str]()
    for path in ("/health", "/ready", "/calls"):
        wrong += of_answer(text, path, "get", *fetched(node + path))
    behind = "after=00000000-0000-8001-8000-000000000001"
    for path in ("/lras", "/roots", "/lras?status=Closed", f"/lras?{behind}&status=Active", "/lras?what"):
        code, page = fetched(node + path)
        wrong += of_answer(text, path.split("?")[0], "get", code, page)
        ids += [row["lra"] for row in page.get("lras", [])]
    for lra in [*dict.fromkeys(ids), "00000000-0000-8001-8000-0000ffffffff", "x"]:
        wrong += of_answer(text, "/lra/{id}", "get", *fetched(f"{node}/lra/{lra}"))
    return wrong
