"""What examples/check holds docs/openapi.yaml against: the specification, the table of routes, and the sessions of rows."""

from __future__ import annotations

import collections
import functools
import json
import os
import re
import subprocess
import tempfile
from collections.abc import Iterable
from concurrent.futures import ProcessPoolExecutor
from itertools import repeat
from typing import NamedTuple

from packages import need

need("jsonschema", "yaml")

import jsonschema
from described import Description, Operation, fault
from messages import Asked, Came, replies_of, requests_of
from session_rows import Row, row_of, rows_of

# What isn't brought about here: it takes a machine without memory.
UNSEEN = {"memory"}
# A session as in a row, whose last request asks for a box with more nodes than it may have.
NODES = '{"osmChange":[{"create":[$8334,({"type":"node","id":-#,"lat7":5,"lon7":6})]}]}'
CROWDED = "\n".join(
    ["a box with 50,004 nodes"]
    + [f"alice PUT changeset/create\nalice POST changeset/{number}/upload {NODES}" for number in range(1, 7)]
    + ["nobody GET map?bbox=0,0,0.1,0.1"]
)
TOO_MANY = {"error": "map_nodes", "limit": 50000, "nodes": 50004}
METHODS = {"get_call": "GET", "put_call": "PUT", "post_call": "POST", "delete_call": "DELETE"}


class Unfit(Exception):
    """What doesn't fit."""


@functools.cache
def description(top: str) -> Description:
    return Description(os.path.join(top, "docs", "openapi.yaml"))


def specification(top: str, schema: str) -> str:
    with open(schema, encoding="utf-8") as file:
        rules = jsonschema.Draft4Validator(json.load(file))
    written = description(top).written
    for error in rules.iter_errors(written):
        raise Unfit(f"{'/'.join(map(str, error.absolute_path))}: {error.message[:300]}")
    return f"OpenAPI {written['openapi']} by the specification's own schema"


def source(top: str, name: str) -> str:
    with open(os.path.join(top, "crates", "route_table", "src", name), encoding="utf-8") as file:
        return file.read()


def table(top: str) -> set[tuple[str, str]]:
    """The methods and paths of crates/route_table, as its source has them."""
    paths = re.findall(r'\(\s*"(/api/[^"]*)",\s*Resource::(\w+)', source(top, "resources.rt"))
    parts = re.split(r"\nfn (\w+)", source(top, "calls.rt"))
    methods = collections.defaultdict(set)
    for name, body in zip(parts[1::2], parts[2::2], strict=True):
        for resource in re.findall(r"Resource::(\w+)", body) if name in METHODS else ():
            methods[resource].add(METHODS[name])
    return {(method, path) for path, resource in paths for method in methods[resource]}


def routes(top: str) -> str:
    operations = description(top).operations
    here, there = {(it.method, it.path) for it in operations}, table(top)
    if here != there or not there:
        raise Unfit(f"only in the file: {sorted(here - there)}; only in route_table: {sorted(there - here)}")
    if len({it.name() for it in operations}) != len(operations):
        raise Unfit("two operations have one name")
    named = {name for it in operations for name in it.parameters()}
    if named != set(re.findall(r'"(\w+)"', source(top, "calls.rt"))):
        raise Unfit(f"other parameters than route_table has: {sorted(named)}")
    return f"{len(operations)} operations on {len({it.path for it in operations})} paths and {len(named)} parameters, those of route_table"


def examples(top: str) -> str:
    found = list(description(top).examples())
    for where, schema, value in found:
        if why := fault(schema, value):
            raise Unfit(f"the example of {where}: {why}")
    return f"{len(found)} examples fit"


def answered(program: str, row: Row) -> bytes:
    """What the program answers to all that a row sends, with the clock at the row's first moment."""
    with tempfile.NamedTemporaryFile() as users:
        users.write(row.users)
        users.flush()
        words = [program, "pipe", "--users", users.name, "--at", str(row.moment())]
        return subprocess.run(words, input=row.sent, capture_output=True, timeout=60, check=False).stdout


class Found(NamedTuple):
    """Which operations were answered with 200, which errors came, and how many replies there were."""

    operations: set[str]
    errors: set[str]
    replies: int


def accepted_fault(described: Description, operation: Operation | None, request: Asked) -> str:
    """Why a request that was answered with 200 isn't one that is described, or nothing."""
    return described.request_fault(operation, request) if operation else "there is no such operation"


def refused_fault(operation: Operation | None, reply: Came) -> str:
    """Why a refusal names a parameter that the operation hasn't, or nothing."""
    name = reply.read().get("name", "")
    return f"it has no parameter {name}" if operation and name and name not in operation.parameters() else ""


def look_at(described: Description, name: str, request: Asked, reply: Came) -> Found:
    """Looks at a request and its reply."""
    operation, is_done = described.operation(request), reply.status == 200
    why = described.reply_fault(request, reply)
    why = why or (accepted_fault(described, operation, request) if is_done else refused_fault(operation, reply))
    if why:
        what = f"{request.method} {request.target[:100]} is answered {reply.status} {reply.body[:200]!r}"
        raise Unfit(f"row {name}: {what}: {why}")
    return Found({operation.name()} if operation and is_done else set(), set() if is_done else {reply.read()["error"]}, 1)


def together(parts: Iterable[Found]) -> Found:
    made = Found(set(), set(), 0)
    for it in parts:
        made = Found(made.operations | it.operations, made.errors | it.errors, made.replies + it.replies)
    return made


def look(described: Description, row: Row, replies: bytes) -> Found:
    """Looks at a row's requests with these replies."""
    asked, came = list(requests_of(row.sent)), list(replies_of(replies))
    if len(came) > len(asked):
        raise Unfit(f"row {row.name}: more replies than requests")
    return together(look_at(described, row.name, *pair) for pair in zip(asked, came, strict=False))


def played(top: str, program: str, row: Row) -> Found:
    """Has the program answer a row, and looks at what came. Where the row has its own clock, also at what it wants."""
    described, replies = description(top), answered(program, row)
    if row.moments:
        look(described, row, row.wanted)
    elif replies != row.wanted:
        raise Unfit(f"row {row.name}: other replies than it wants: {replies[:300]!r}")
    return look(described, row, replies)


def crowded(top: str, program: str) -> Found:
    """Looks at the refusal of a box with too many nodes."""
    row = row_of(CROWDED)
    *_, request = requests_of(row.sent)
    *_, reply = replies_of(answered(program, row))
    if reply.read() != TOO_MANY:
        raise Unfit(f"{row.name}: {reply.status} {reply.body[:200]!r}")
    return look_at(description(top), row.name, request, reply)


def unseen(described: Description, found: Found) -> str:
    """Which operations and errors of the file never came, past those that can't."""
    schemas = described.written["components"]["schemas"]
    errors = {it["properties"]["error"]["enum"][0] for name, it in schemas.items() if name.endswith("Error")}
    names = {it.name() for it in described.operations}
    return ", ".join(sorted(names - found.operations) + sorted(errors - found.errors - UNSEEN))


def sessions(top: str, program: str) -> str:
    rows = [it for it in rows_of(os.path.join(top, "crates", "session_rows", "stdin")) if it.is_session()]
    rows.sort(key=lambda row: -len(row.sent) - len(row.wanted))
    with ProcessPoolExecutor() as pool:
        last = pool.submit(crowded, top, program)
        found = together(pool.map(played, repeat(top), repeat(program), rows))
        count, found = found.replies, together((found, last.result()))
    if never := unseen(description(top), found):
        raise Unfit(f"never answered: {never}")
    return (
        f"{len(rows)} sessions, {count:,} replies; each fits, and so does each request that was accepted; "
        f"each operation was answered with 200, and each error came but {', '.join(UNSEEN)}"
    )
