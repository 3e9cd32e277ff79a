"""What a reader of a change, of an element or of a changeset's tags finds, and the server's JSON of it."""

from __future__ import annotations

import json
from collections.abc import Iterator
from typing import Any, NamedTuple

from .refusals import Operations

ENCODER = json.JSONEncoder(ensure_ascii=False, separators=(",", ":"))


class Begun(NamedTuple):
    """A block of a change begins."""

    action: str


class Ended(NamedTuple):
    """The block ends."""

    if_unused: bool = False


Rows = list[dict[str, Any]]
"""Elements of the block that began last, in the server's form: those that are there at once."""
Found = Begun | Rows | Ended


def change_of(found: Iterator[Found | None], operations: Operations) -> Iterator[str]:
    """The server's JSON of a change, piece by piece; notes the operations. Where None is found a turn may end."""
    yield '{"osmChange":['
    block, comma, action, start = "", "", "", 0
    for it in found:
        if isinstance(it, list):
            operations.add(it)
            yield comma + ENCODER.encode(it)[1:-1]
            comma = ","
        elif it is None:
            yield ""
        elif isinstance(it, Begun):
            yield f'{block}{{"{it.action}":['
            block, comma, action, start = ",", "", it.action, len(operations.ids)
        else:
            operations.end_block(start, action, it.if_unused)
            yield '],"if-unused":true}' if it.if_unused else "]}"
    yield "]}"
