"""Requests and replies of HTTP/1.1, as they stand in bytes one behind the other."""

from __future__ import annotations

import json
import re
from collections.abc import Iterator
from typing import Any, NamedTuple

# The most bytes of a head.
HEAD_LIMIT = 16_384
# A method is a token of RFC 9110, section 5.6.2; the server reads two versions.
REQUEST_LINE = re.compile(r"[!#$%&'*+.^_`|~0-9A-Za-z-]+ [^ ]+ HTTP/1\.[01]")


class Asked(NamedTuple):
    """A request; method and target are empty where its first line can't be read, or its head is too long."""

    method: str
    target: str
    body: bytes


class Came(NamedTuple):
    status: int
    fields: dict[str, str]
    body: bytes

    def read(self) -> Any:
        return json.loads(self.body)


def head_of(data: bytes) -> tuple[list[str], bytes]:
    """The lines of the first head, each ended by LF with or without CR, and what stands behind it."""
    head, *rest = re.split(rb"\r?\n\r?\n", data.lstrip(b"\r\n"), maxsplit=1)
    return re.split(r"\r?\n", head.decode("latin-1")), b"".join(rest)


def fields_of(lines: list[str]) -> dict[str, str]:
    parts = (line.partition(":") for line in lines)
    return {name.lower(): value.strip(" \t") for name, colon, value in parts if colon}


def requests_of(data: bytes) -> Iterator[Asked]:
    while data:
        whole = len(data)
        (first, *lines), data = head_of(data)
        words, length = first.split(" "), fields_of(lines).get("content-length", "")
        count = int(length) if length.isdigit() else 0
        is_read = whole - len(data) <= HEAD_LIMIT and REQUEST_LINE.fullmatch(first)
        method, target = words[:2] if is_read else ("", "")
        yield Asked(method, target, data[:count])
        data = data[count:]


def replies_of(data: bytes) -> Iterator[Came]:
    while data:
        (first, *lines), data = head_of(data)
        fields = fields_of(lines)
        count = int(fields["content-length"])
        yield Came(int(first.split(" ")[1]), fields, data[:count])
        data = data[count:]
