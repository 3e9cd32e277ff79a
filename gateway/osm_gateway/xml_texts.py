"""Texts in XML: what has to be escaped, and what no XML can hold."""

from __future__ import annotations

import re
from collections.abc import Callable

REPLACEMENT = "\ufffd"
SPECIAL = re.compile("[^\x20-\x21\x23-\x25\x27-\x3b\x3d\x3f-\ud7ff\ue000-\ufffd\U00010000-\U0010ffff]")
"""What doesn't stand for itself in an attribute: a tab or a line's end would be read as a space."""
ESCAPES = {"&": "&amp;", "<": "&lt;", ">": "&gt;", '"': "&quot;", "\t": "&#9;", "\n": "&#10;", "\r": "&#13;"}


KEPT, TAGS_KEPT, SHORT = 20_000, 2_000, 64
"""Texts and tags that are kept as they stand in XML, and the most characters of one: many elements have the same ones."""


class Known(dict[str, str]):
    """Texts with what they are in XML; one that isn't there yet is written."""

    def __init__(self, write: Callable[[str], str]) -> None:
        super().__init__()
        self.write = write

    def __missing__(self, text: str) -> str:
        return self.write(text)


class Texts:
    """Writes texts as they stand in XML, and counts the characters that it can't hold: these are U+FFFD."""

    def __init__(self) -> None:
        self.lost = 0
        self.known = Known(self.written)
        self.tags: dict[str, str] = {}
        """All tags of an element, as they stand in the server's reply, with what they are in XML."""

    def one(self, found: re.Match[str]) -> str:
        escape = ESCAPES.get(found[0])
        if escape is None:
            self.lost += 1
            return REPLACEMENT
        return escape

    def written(self, text: str) -> str:
        lost = self.lost
        it = SPECIAL.sub(self.one, text)
        if self.lost == lost and len(text) <= SHORT:
            if len(self.known) >= KEPT:
                self.known.clear()
            self.known[text] = it
        return it

    def keep_tags(self, text: str, it: str) -> None:
        if len(text) <= SHORT:
            if len(self.tags) >= TAGS_KEPT:
                self.tags.clear()
            self.tags[text] = it

    def __call__(self, text: str) -> str:
        return self.known[text]

    def attributes(self, **values: str | int | bool | None) -> str:
        """` name="value"` for each that isn't None."""
        return "".join(f' {name}="{self.shown(value)}"' for name, value in values.items() if value is not None)

    def shown(self, value: str | int | bool) -> str:
        if isinstance(value, bool):
            return "true" if value else "false"
        return self(value) if isinstance(value, str) else str(value)
