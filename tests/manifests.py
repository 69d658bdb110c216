#!/usr/bin/env python3
"""Compares deploy/kubernetes.yaml with Kubernetes' own models: /usr/bin/python3 tests/manifests.py. It needs Debian's
python3-kubernetes. It prints a line for each field that isn't in a model, that is missing, or that has the wrong type.
Exits with 1 if there is one."""
import os
import re
import sys
import typing
from collections.abc import Iterator

TOP = os.path.dirname(os.path.dirname(os.path.abspath(__file__)))
PLAIN = {"str": str, "int": int, "bool": bool}


def misfits_of(models: typing.Any, kind: str, value: typing.Any, where: str) -> Iterator[str]:
    """Yields where a value doesn't match its model."""
    many = re.fullmatch(r"(list|dict)[\[(](?:str, )?(.*)[\])]", kind)
    if many:
        items = value.items() if many[1] == "dict" else enumerate(value)
        for key, item in items:
            yield from misfits_of(models, many[2], item, f"{where}.{key}")
    elif kind in PLAIN:
        if not isinstance(value, PLAIN[kind]):
            yield f"{where} is {value!r}, and has to be of type {kind}"
    elif kind != "object":
        yield from misfits_in(models, getattr(models, kind), value, where)


def misfits_in(models: typing.Any, model: typing.Any, value: dict[str, typing.Any], where: str) -> Iterator[str]:
    """Yields where an object's fields don't match its model."""
    names = {written: name for name, written in model.attribute_map.items()}
    yield from (f"{where}.{key} isn't in the model" for key in value.keys() - names.keys())
    given = {names[key]: item for key, item in value.items() if key in names}
    try:
        # The model refuses an object that lacks a required field.
        model(**given)
    except ValueError as error:
        yield f"{where}: {error}"
    for name, item in given.items():
        yield from misfits_of(models, model.openapi_types[name], item, f"{where}.{model.attribute_map[name]}")


def main() -> int:
    import kubernetes.client
    import yaml
    with open(f"{TOP}/deploy/kubernetes.yaml", encoding="utf-8") as file:
        objects = list(yaml.safe_load_all(file))
    found = [line for each in objects for line in
             misfits_of(kubernetes.client, f"V1{each['kind']}", each, f"{each['kind']} {each['metadata']['name']}")]
    print("\n".join([*found, f"{len(objects)} objects, {len(found)} failed"]))
    return 1 if found else 0


if __name__ == "__main__":
    sys.exit(main())
