"""A JSON text read in pieces: lists that are opened are told item by item, so that no more than an item is in memory at once."""

from __future__ import annotations

import json
import re
from collections.abc import Callable, Iterator
from enum import Enum, auto
from typing import Any, NamedTuple

from .rows import ACTIONS, KINDS

Path = tuple[str, ...]
"""The members from the outermost value on; an item of a list is `*`."""

SPACE = re.compile(r"[ \t\r\n]*")
HEADS = re.compile(rf'(\{{\s*"type"\s*:\s*")({"|".join(KINDS)})("\s*,\s*"[^"\\]*"\s*:)')
"""How an item begins whose first member is its kind: the second one tells an element of a change from a member of a relation."""
HEAD = re.compile(r'\{\s*"[^"\\]*"\s*:')
"""How any other one does: `{"changeset":` of an element of the server, where a member of a relation has `{"ref":`."""
EXPONENT = 3
"""Characters from which on a part of a number behind its whole digits is read as such: a point and a digit, or `e-5`."""
AHEAD = 1 << 15
"""Characters that are there before an item isn't taken as it stands: its end may not have come."""
BLOCK = re.compile(rf'\{{\s*"(?:{"|".join(ACTIONS)}|if-unused)"')
"""How a block of a change begins, which may have any number of elements."""


class Sort(Enum):
    OPENED = auto()
    VALUE = auto()
    CLOSED = auto()
    ROWS = auto()
    """Several items of a list, taken as they stand."""
    ITEMS = auto()
    """Several items of a list, as values."""


class Event(NamedTuple):
    sort: Sort
    path: Path
    value: Any = None


class NotJson(ValueError):
    """The text isn't JSON, or a value of it is too long."""


def no_number(text: str) -> Any:
    raise NotJson(f"{text} is no number")



Rows = Callable[[str, int], tuple[list[Any], int]]
"""Takes the items of a list that stand at a place of a text in a form that it knows, and tells where the last one ends."""


class Walk:
    """Reads the text that an iterator gives piece by piece.

    `opened` has the paths whose lists or objects are opened. `longest` is the most characters that a value may have, or 0. `rows` takes
    the items of the lists of elements, as many as it can. The items of the paths in `together` are told several at once.
    """

    def __init__(
        self, pieces: Iterator[str], opened: frozenset[Path], longest: int = 0, parse_float: Any = None, rows: Rows | None = None,
        together: frozenset[Path] = frozenset(),
    ) -> None:  # fmt: skip
        self.pieces, self.opened, self.longest, self.rows, self.together = pieces, opened, longest, rows, together
        self.scan = json.JSONDecoder(parse_float=parse_float, parse_constant=no_number).raw_decode
        self.text, self.place, self.ended, self.is_tried, self.is_read = "", 0, False, False, False
        self.gap = ""
        """The space behind the comma before an item, which others of its list have too."""

    def events(self) -> Iterator[Event]:
        yield from self.value(())
        if self.next_character():
            raise NotJson("something follows the value")

    # ---- the text

    def more(self, least: int = 1) -> bool:
        """Whether at least so many characters more are there now."""
        parts, came = [self.text[self.place :]], 0
        while came < least and not self.ended:
            piece = next(self.pieces, None)
            if piece is None:
                self.ended = True
            else:
                parts.append(piece)
                came += len(piece)
        self.text, self.place, self.is_tried = "".join(parts), 0, False
        return came >= least

    def next_character(self) -> str:
        """The next one that is no space, where the place then is; empty at the end."""
        while True:
            match = SPACE.match(self.text, self.place)
            self.place = match.end() if match else self.place
            if self.place < len(self.text):
                return self.text[self.place]
            if not self.more():
                return ""

    def take(self, wanted: str) -> str:
        found = self.next_character()
        if not found or found not in wanted:
            raise NotJson(f"where {' or '.join(wanted)} should be, {found or 'the end'} is")
        self.place += 1
        return found

    def may_go_on(self, end: int) -> bool:
        """Whether the value that ends there may be a number whose rest hasn't come: `48.` and `5e-` have been read as 48 and 5."""
        return end == len(self.text) or (self.text[end] in ".eE" and len(self.text) - end < EXPONENT)

    def whole(self) -> Any:
        """A value that isn't opened."""
        self.next_character()
        while True:
            try:
                value, end = self.scan(self.text, self.place)
                if self.ended or not self.may_go_on(end):
                    self.place = end
                    return value
            except json.JSONDecodeError as why:
                if self.ended:
                    raise NotJson(str(why)) from None
            except RecursionError:
                raise NotJson("its values lie too deep in each other") from None
            except NotJson:
                raise
            except ValueError as why:
                raise NotJson(str(why)) from None
            held = len(self.text) - self.place
            if 0 < self.longest < held:
                raise NotJson(f"a value has more than {self.longest} characters")
            # Twice as much before the next try, so that a long value isn't read again for each piece.
            self.more(max(held, 1))

    # ---- values

    def value(self, path: Path) -> Iterator[Event]:
        first = self.next_character()
        if first not in ("[", "{") or path not in self.opened:
            yield Event(Sort.VALUE, path, self.whole())
            return
        self.place += 1
        yield Event(Sort.OPENED, path)
        yield from self.items((*path, "*")) if first == "[" else self.members(path)
        yield Event(Sort.CLOSED, path)

    def items(self, path: Path) -> Iterator[Event]:
        if self.next_character() == "]":
            self.place += 1
            return
        plain, rows = path not in self.opened, self.rows if path in ELEMENTS else None
        while True:
            if rows:
                yield from self.taken(rows, path)
            elif path in self.together:
                yield from self.told_together(path)
            elif plain:
                for value in self.several():
                    yield Event(Sort.VALUE, path, value)
            else:
                yield from self.value(path)
            if self.take(",]") == "]":
                return
            self.look_behind_comma()

    def taken(self, rows: Rows, path: Path) -> Iterator[Event]:
        """The next items as they stand. Where the next one can't be taken it is read, and where the one before couldn't either, several."""
        self.next_character()
        found, end = rows(self.text, self.place)
        if not found and len(self.text) - self.place < AHEAD and self.more():
            found, end = rows(self.text, self.place)
        if found:
            self.place, self.is_read = end, False
            yield Event(Sort.ROWS, path, found)
            return
        for value in self.several() if self.is_read else [self.whole()]:
            yield Event(Sort.VALUE, path, value)
        self.is_read = True

    def look_behind_comma(self) -> None:
        """Keeps the space there, where it has come whole."""
        found = SPACE.match(self.text, self.place)
        if found and found.end() < len(self.text):
            self.gap = found[0]

    def told_together(self, path: Path) -> Iterator[Event]:
        """The next items. Of blocks and elements in one list elements alone are read whole, since a block may be long."""
        if path not in self.opened:
            yield Event(Sort.ITEMS, path, self.several())
            return
        self.next_character()
        place = self.place
        values = [] if BLOCK.match(self.text, place) else self.whole_ones()
        if values and all(type(it) is dict and it.keys().isdisjoint(ACTIONS) for it in values):
            yield Event(Sort.ITEMS, path, values)
            return
        if values:  # one of them is a block, and none is read twice for it in this text
            self.place, self.is_tried = place, True
        yield from self.value(path)

    def several(self) -> list[Any]:
        """The next items of a list, as many objects as are there whole, or one."""
        return self.whole_ones() or [self.whole()]

    def whole_ones(self) -> list[Any]:
        """The next items of a list, as many objects as are there whole, or none.

        What ends before a `},{` is whole where it is a list of JSON: a place within a value would leave something open. The one that is
        tried begins as this item does, so that it isn't one of a list within; and where it isn't whole none is tried in this text again.
        """
        if self.next_character() == "{" and not self.is_tried:
            until = self.place + AHEAD
            end = max(self.text.rfind(f"}},{self.gap}{head}", self.place, until) for head in self.heads()) + 1
            try:
                values, read = self.scan(f"[{self.text[self.place : end]}]") if end else ((), 0)
                if end and read == end - self.place + 2:
                    self.place = end
                    return list(values)
            except (ValueError, RecursionError):
                pass  # item by item, up to the one that can't be read
            self.is_tried = True
        return []

    def heads(self) -> list[str]:
        """What items begin with that are like the next one: up to its first value, or to the second where the first is a kind."""
        found = HEADS.match(self.text, self.place)
        if found:
            return [f"{found[1]}{kind}{found[3]}" for kind in KINDS]
        one = HEAD.match(self.text, self.place)
        return [one[0]] if one else ["{"]

    def members(self, path: Path) -> Iterator[Event]:
        if self.next_character() == "}":
            self.place += 1
            return
        while True:
            if self.next_character() != '"':
                raise NotJson("where a member's name should be, none is")
            name = self.whole()
            self.take(":")
            yield from self.value((*path, name))
            if self.take(",}") == "}":
                return


ELEMENTS: frozenset[Path] = frozenset({("elements", "*")} | {("osmChange", "*", action, "*") for action in ACTIONS})
"""The elements of a reply."""
OPENED: frozenset[Path] = frozenset(
    {(), ("elements",), ("changesets",), ("diffResult",), ("osmChange",), ("osmChange", "*")}
    | {("osmChange", "*", action) for action in ACTIONS}
    | {("note",), ("note", "comments"), ("notes",), ("notes", "*"), ("notes", "*", "comments")}
)
"""What is opened of a reply of the server, and of a change in OSM's JSON."""
