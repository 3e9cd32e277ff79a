"""OSM's XML of changes, elements and changesets, read in pieces and never kept whole.

A document with a DOCTYPE is refused: no tool of OSM writes one, and its entities could grow without end.
"""

from __future__ import annotations

from collections.abc import Iterator
from typing import Any
from xml.parsers import expat

from .changes import Begun, Ended, Found
from .refusals import Refused
from .rows import ACTIONS, KINDS
from .xml_elements import Attributes, Reading, start_of

DEEPEST = 16
LONGEST_TAG = 1 << 18
"""Bytes of a single tag or comment, far more than one with limits has."""


class Reader:
    """Feeds a parser and keeps what it found until somebody takes it; `path` has the names of what is open."""

    def __init__(self, model: str) -> None:
        self.model, self.path, self.fed = model, list[str](), 0
        self.found: list[Any] = []
        self.parser = expat.ParserCreate()
        self.parser.buffer_text = True
        self.parser.StartElementHandler, self.parser.EndElementHandler = self.start, self.end
        self.parser.StartDoctypeDeclHandler = self.doctype

    def refuse(self, why: str) -> Refused:
        return Refused(400, f"Cannot parse valid {self.model} from xml string. {why}")

    def doctype(self, *_: object) -> None:
        raise self.refuse("A document with a DOCTYPE isn't read")

    def start(self, name: str, attributes: Attributes) -> None:
        self.path.append(name)
        if len(self.path) > DEEPEST:
            raise self.refuse("Its elements lie too deep in each other")
        self.opened(name, attributes)

    def end(self, name: str) -> None:
        self.closed(name)
        self.path.pop()

    def opened(self, name: str, attributes: Attributes) -> None:
        raise NotImplementedError

    def closed(self, name: str) -> None:
        raise NotImplementedError

    def read(self, pieces: Iterator[bytes]) -> Iterator[Any]:
        """What is found, as it is found, and None behind each piece, so that turns can end where nothing is found."""
        for piece in pieces:
            self.parse(piece, False)
            yield from self.taken()
            yield None
        self.parse(b"", True)
        yield from self.taken()

    def taken(self) -> list[Any]:
        found, self.found = self.found, []
        return found

    def parse(self, piece: bytes, last: bool) -> None:
        try:
            self.parser.Parse(piece, last)
        except expat.ExpatError as why:
            raise self.refuse(f"{expat.ErrorString(why.code)} in line {why.lineno}") from None
        except (ValueError, LookupError) as why:
            raise self.refuse(f"Its encoding can't be read: {why}") from None
        self.fed += len(piece)
        if not last and self.fed - max(self.parser.CurrentByteIndex, 0) > LONGEST_TAG:
            raise self.refuse(f"A tag has more than {LONGEST_TAG} bytes")


class ChangeReader(Reader):
    """An osmChange: blocks, and the operations in them."""

    def __init__(self) -> None:
        super().__init__("OsmChange")
        self.action, self.if_unused = "", False
        self.reading: Reading | None = None
        self.found: list[Found] = []

    def start(self, name: str, attributes: Attributes) -> None:
        """What lies in an element is most of a change, and takes a shorter way."""
        path = self.path
        if len(path) == 3 and self.reading:
            path.append(name)
            self.reading.child(name, attributes)
        else:
            super().start(name, attributes)

    def end(self, name: str) -> None:
        if len(self.path) > 3:
            self.path.pop()
        else:
            super().end(name)

    def opened(self, name: str, attributes: Attributes) -> None:
        depth = len(self.path)
        if depth == 1 and name != "osmChange":
            raise Refused(400, "Document element should be 'osmChange'.")
        if depth == 2:
            if name not in ACTIONS:
                raise Refused(400, f"Unknown action {name}, choices are create, modify, delete")
            self.action, self.if_unused = name, name == "delete" and "if-unused" in attributes
            self.found.append(Begun(name))
        elif depth == 3:
            if name not in KINDS:
                raise Refused(400, f"Unknown element type {name}, choices are node, way, relation")
            self.reading = start_of(name, attributes, self.action, alone=False)

    def closed(self, _: str) -> None:
        if len(self.path) == 3 and self.reading:
            row, self.reading = self.reading.whole(), None
            last = self.found[-1] if self.found else None
            if isinstance(last, list):
                last.append(row)
            else:
                self.found.append([row])
        elif len(self.path) == 2:
            self.found.append(Ended(self.if_unused))


class ElementReader(Reader):
    """The one element of an osm document."""

    def __init__(self, kind: str, action: str) -> None:
        super().__init__(kind)
        self.kind, self.action = kind, action
        self.reading: Reading | None = None

    def opened(self, name: str, attributes: Attributes) -> None:
        depth = len(self.path)
        if depth == 1 and name != "osm":
            raise self.refuse("Document element should be 'osm'.")
        if depth == 2 and name == self.kind:
            if self.reading:
                raise self.refuse(f"There is more than one {name}, a change may have several")
            self.reading = start_of(name, attributes, self.action, alone=True)
        elif depth == 3 and self.reading and self.path[1] == self.kind:
            self.reading.child(name, attributes)

    def closed(self, _: str) -> None:
        if len(self.path) == 1:
            if not self.reading:
                raise self.refuse(f"XML doesn't contain an osm/{self.kind} element.")
            self.found.append(self.reading.whole())


class TagsReader(Reader):
    """The tags of the one changeset of an osm document."""

    def __init__(self) -> None:
        super().__init__("changeset")
        self.reading: Reading | None = None

    def opened(self, name: str, attributes: Attributes) -> None:
        depth = len(self.path)
        if depth == 1 and name != "osm":
            raise self.refuse("Document element should be 'osm'.")
        if depth == 2 and name == "changeset":
            if self.reading:
                raise self.refuse("There is more than one changeset")
            self.reading = Reading("changeset", attributes, "modify", {})
        elif depth == 3 and name == "tag" and self.reading and self.path[1] == "changeset":
            self.reading.child(name, attributes)

    def closed(self, _: str) -> None:
        if len(self.path) == 1:
            if not self.reading:
                raise self.refuse("XML doesn't contain an osm/changeset element.")
            self.found.append(self.reading.whole())
