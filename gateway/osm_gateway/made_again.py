"""The answer to a change of elements, made again from what its changeset has: the rows of the download that are its operations'."""

from __future__ import annotations

from collections.abc import Callable, Iterator
from dataclasses import dataclass, field
from typing import Any

from .call import events_of
from .changes import ENCODER
from .refusals import Operations
from .rows import Element
from .spool import Spool
from .walk import Sort

PLACES = 100
"""Places of a download at which the operations are looked for, where somebody else has written there too."""
Row = dict[str, Any]
Acts = Iterator[tuple[str, Row]]
"""Actions, each with its element in the server's form."""


def operations_of(change: Spool) -> Acts:
    """Those of a change as it was sent to the server, or of a changeset's download."""
    for sort, path, value in events_of(change):
        if len(path) == 4 and path[0] == "osmChange" and sort is Sort.VALUE:
            yield path[2], value


@dataclass(frozen=True)
class Made:
    """What came of an operation; without a new version where it was skipped."""

    action: str
    kind: str
    old_id: int
    new_id: int
    version: int | None

    def row(self, versions: dict[tuple[str, int], int]) -> Row:
        """A row of the diff result; `versions` has those of what was skipped."""
        row: Row = {"type": self.kind, "old_id": self.old_id}
        version = self.version if self.version is not None else versions[self.kind, self.new_id]
        if self.action != "delete" or self.version is None:
            row |= {"new_id": self.new_id, "new_version": version}
        return row


@dataclass
class Attempt:
    """Takes the rows from some place on to be what the operations made, until one can't be."""

    rest: Acts
    may_skip: Callable[[int], bool]
    """Whether the operation with that number, from 1 on, is a deletion that is skipped where it can't be done."""
    made: list[Made] = field(default_factory=list)
    ids: dict[tuple[str, int], int] = field(default_factory=dict)
    is_right: bool = True
    is_ended: bool = False

    def take(self, action: str, row: Row) -> None:
        """The next row; once the operations have ended it is somebody else's."""
        for wanted, operation in self.rest:
            if self.fits(wanted, operation, action, row):
                if wanted == "create":
                    self.ids[operation["type"], operation.get("id", 0)] = row["id"]
                self.made.append(Made(wanted, row["type"], operation.get("id", 0), row["id"], row["version"]))
                return
            if not self.skip(operation):
                self.is_right = False
                return
        self.is_ended = True

    def end(self) -> bool:
        """No row comes any more: whether these were all."""
        self.is_right = self.is_right and all(self.skip(operation) for _, operation in self.rest)
        return self.is_right

    def skip(self, operation: Row) -> bool:
        if not self.may_skip(len(self.made) + 1):
            return False
        number = self.number(operation["type"], operation["id"])
        self.made.append(Made("delete", operation["type"], operation["id"], number, None))
        return True

    # ---- whether a row is what an operation makes

    def number(self, kind: str, number: int) -> int:
        return self.ids.get((kind, number), number) if number < 0 else number

    def fits(self, wanted: str, operation: Row, action: str, row: Row) -> bool:
        if wanted != action or operation["type"] != row["type"]:
            return False
        if wanted != "create":
            number = self.number(operation["type"], operation["id"])
            if (row["id"], row["version"]) != (number, operation["version"] + 1):
                return False
        return wanted == "delete" or self.content(operation) == content(row)

    def content(self, it: Row) -> Row:
        """What an operation says of its element, with the numbers that its placeholders were given."""
        row = content(it)
        if "nodes" in row:
            row["nodes"] = [self.number("node", ref) for ref in row["nodes"]]
        if "members" in row:
            row["members"] = [{**member, "ref": self.number(member["type"], member["ref"])} for member in row["members"]]
        return row


def content(it: Row | Element) -> Row:
    row: Row = {name: it[name] for name in ("lat7", "lon7", "nodes") if name in it}  # type: ignore[literal-required]
    if "members" in it:
        row["members"] = [{"type": member["type"], "ref": member["ref"], "role": member.get("role", "")} for member in it["members"]]
    return row | {"tags": it.get("tags", {})}


@dataclass
class Search:
    """Looks for the operations among the rows of a download behind the first `before` ones."""

    begin: Callable[[], Acts]
    operations: Operations
    before: int
    rows: int = 0
    """How many there are in all."""
    tried: int = 0
    found: list[list[Made]] = field(default_factory=list)

    def exact(self, download: Spool) -> Iterator[str]:
        """In turns: whether all rows behind `before` are what the operations made, as where nobody else has written there."""
        attempt = self.attempt()
        for self.rows, (action, row) in enumerate(operations_of(download), 1):
            if self.rows > self.before:
                attempt.take(action, row)
                if attempt.is_ended or not attempt.is_right:
                    return
            yield ""
        self.keep(attempt, attempt.end())

    def anywhere(self, download: Spool) -> Iterator[str]:
        """In turns: each place behind `before` from where on the rows are what the operations made, up to so many places."""
        attempts: list[Attempt] = []
        for self.rows, (action, row) in enumerate(operations_of(download), 1):
            if self.rows > self.before and not self.is_too_much:
                attempts.append(self.attempt())
                self.tried += 1
            for attempt in attempts:
                attempt.take(action, row)
                self.keep(attempt, attempt.is_ended)
            attempts = [it for it in attempts if it.is_right and not it.is_ended]
            yield ""
        for attempt in attempts:
            self.keep(attempt, attempt.end())

    def attempt(self) -> Attempt:
        return Attempt(self.begin(), self.operations.may_skip)

    def keep(self, attempt: Attempt, is_whole: bool) -> None:
        """Deletions that were all skipped leave no row, so nothing tells that they were done."""
        if is_whole and any(it.version is not None for it in attempt.made):
            self.found.append(attempt.made)

    @property
    def is_too_much(self) -> bool:
        return self.tried >= PLACES


def diff_result(made: list[Made], versions: dict[tuple[str, int], int]) -> Iterator[str]:
    """The server's diff result."""
    yield '{"diffResult":['
    comma = ""
    for it in made:
        yield comma + ENCODER.encode(it.row(versions))
        comma = ","
    yield '],"version":"0.6"}'
