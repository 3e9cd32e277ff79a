"""docs/openapi.yaml as a program reads it: which operation a request has, and whether it and its reply fit.

Stands on Debian's python3-yaml and python3-jsonschema.
"""

from __future__ import annotations

import json
import re
import urllib.parse
from collections.abc import Iterator
from typing import Any, NamedTuple

from packages import need

need("jsonschema", "yaml")

import jsonschema
import yaml
from messages import Asked, Came

JSON = "application/json"
Schema = dict[str, Any]


class Operation(NamedTuple):
    method: str
    path: str
    """With the path of the server's address before it."""
    form: re.Pattern[str]
    said: Schema
    """What the file says of it."""

    def name(self) -> str:
        return str(self.said["operationId"])

    def parameters(self) -> list[str]:
        """The names of the query's parameters."""
        return [it["name"] for it in self.said.get("parameters", ()) if it["in"] == "query"]


def operation_of(method: str, path: str, said: Schema) -> Operation:
    return Operation(method.upper(), path, re.compile(re.sub("{([a-z]+)}", r"(?P<\1>[^/]+)", path)), said)


def path_of(target: str) -> str:
    return target.partition("?")[0].removesuffix(".json")


def parameters_of(target: str) -> dict[str, str]:
    """The first value of each name of a query, percent-decoded; a plus stays one."""
    found: dict[str, str] = {}
    for part in target.partition("?")[2].split("&"):
        name, _, value = part.partition("=")
        found.setdefault(urllib.parse.unquote(name), urllib.parse.unquote(value))
    return found


def value_of(schema: Schema, text: str) -> Any:
    """The value that a text of a path or a query has, or the text where it has none of that type."""
    if schema["type"] == "array":
        return [value_of(schema["items"], part) for part in text.split(",")]
    if schema["type"] == "integer" and re.fullmatch("[0-9]{1,19}", text):
        return int(text)
    return {"true": True, "false": False}.get(text, text) if schema["type"] == "boolean" else text


def distinct_items(validator: Any, schema: Schema, value: Any, _: Schema) -> Iterator[Any]:
    """The faults of a list's items, equal ones looked at once."""
    seen: set[str] = set()
    for place, item in enumerate(value if isinstance(value, list) else ()):
        text = json.dumps(item)
        if text not in seen:
            seen.add(text)
            yield from validator.descend(item, schema, path=place)


# A schema of OpenAPI 3.0 is one of JSON Schema's draft 4, but for members that say nothing about a value.
Validator: Any = jsonschema.validators.extend(jsonschema.Draft4Validator, {"items": distinct_items})


class Description:
    """The file as it is written, and with what its references mean in their place."""

    def __init__(self, path: str) -> None:
        with open(path, encoding="utf-8") as file:
            self.written: Schema = yaml.load(file, yaml.CSafeLoader)
        self.meant: dict[str, Any] = {}
        self.responses: Schema = self.inlined(self.written["components"]["responses"])
        base = urllib.parse.urlsplit(self.written["servers"][0]["url"]).path
        paths: Schema = self.inlined(self.written["paths"])
        self.operations = [operation_of(method, base + path, said) for path, item in paths.items() for method, said in item.items()]

    def inlined(self, it: Any) -> Any:
        """The same with what each reference means in its place; no schema of the file contains itself."""
        if isinstance(it, list):
            return [self.inlined(part) for part in it]
        if not isinstance(it, dict):
            return it
        if "$ref" not in it:
            return {name: self.inlined(part) for name, part in it.items()}
        where = it["$ref"]
        if where not in self.meant:
            found: Any = self.written
            for name in where.removeprefix("#/").split("/"):
                found = found[name]
            self.meant[where] = self.inlined(found)
        return self.meant[where]

    def on_path(self, target: str) -> list[Operation]:
        """The operations on the path of a target; a part without braces goes before a braced one."""
        found = [it for it in self.operations if it.form.fullmatch(path_of(target))]
        first = min((it.path.replace("{", "~") for it in found), default="")
        return [it for it in found if it.path.replace("{", "~") == first]

    def operation(self, asked: Asked) -> Operation | None:
        return next((it for it in self.on_path(asked.target) if it.method == asked.method), None)

    def described(self, asked: Asked) -> dict[str, Schema]:
        """The responses that may come, by their status. A request that can't be read has those of any operation."""
        operation = self.operation(asked) if asked.method else self.operations[0]
        if operation:
            return dict(operation.said["responses"])
        return {"405": self.responses["WrongMethod"]} if self.on_path(asked.target) else {"404": self.responses["NoPath"]}

    def reply_fault(self, asked: Asked, came: Came) -> str:
        """Why a reply isn't one that is described, or nothing."""
        response = self.described(asked).get(str(came.status))
        if response is None:
            return f"status {came.status}"
        if came.fields.keys() - {"connection"} != {"content-type", "content-length"}:
            return f"fields {came.fields}"
        media = response["content"].get(came.fields["content-type"])
        return fault(media["schema"], came.read()) if media else f"type {came.fields['content-type']}"

    def request_fault(self, operation: Operation, asked: Asked) -> str:
        """Why a request isn't one that is described, or nothing."""
        found = operation.form.fullmatch(path_of(asked.target))
        given = {"path": found.groupdict() if found else {}, "query": parameters_of(asked.target)}
        for it in operation.said.get("parameters", ()):
            text = given[it["in"]].get(it["name"])
            if text is None and it["required"]:
                return f"{it['name']} is missing"
            if text is not None and (why := fault(it["schema"], value_of(it["schema"], text))):
                return f"{it['name']}: {why}"
        body = operation.said.get("requestBody")
        return body_fault(body, asked.body) if body and (asked.body or body["required"]) else ""

    def examples(self) -> Iterator[tuple[str, Schema, Any]]:
        """Each example of the file with its schema and where it stands."""

        def inside(it: Any, where: str) -> Iterator[tuple[str, Schema, Any]]:
            parts = enumerate(it) if isinstance(it, list) else it.items() if isinstance(it, dict) else ()
            for name, part in parts:
                if name == "example":
                    yield where, self.inlined(it.get("schema", it)), part
                else:
                    yield from inside(part, f"{where}/{name}")

        return inside(self.written, "")


def fault(schema: Schema, value: Any) -> str:
    """Why a value doesn't fit a schema, or nothing."""
    error = next(Validator(schema).iter_errors(value), None)
    return "" if error is None else f"{'/'.join(map(str, error.absolute_path))}: {error.message[:200]}"


def body_fault(described: Schema, body: bytes) -> str:
    try:
        value = json.loads(body)
    except ValueError as why:
        return str(why)
    return fault(described["content"][JSON]["schema"], value)
