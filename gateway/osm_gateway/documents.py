"""Replies of the server as whole documents, in pieces: what the walk over a reply tells, written as XML or JSON."""

from __future__ import annotations

from collections.abc import Callable, Iterable, Iterator
from typing import Any, NamedTuple, cast

from . import json_write, xml_write
from .rows import Comment, Note
from .walk import Event, Path, Sort
from .xml_texts import Texts

Events = Iterator[Event]
Pieces = Iterator[str]


def rows(events: Events, member: str) -> Iterator[Any]:
    """The items of the list that is that member."""
    path = (member, "*")
    return (event.value for event in events if event.path == path and event.sort is Sort.VALUE)


# ---- notes, whose comments the server writes before the rest of them

ONE: Path = ("note",)
SOME: Path = ("notes", "*")


def heads(events: Events, base: Path) -> Iterator[Note | None]:
    """Each note without its comments, and None for what is passed over on the way."""
    row: dict[str, Any] = {}
    for sort, path, value in events:
        if path == base and sort is Sort.CLOSED:
            yield cast(Note, row)
            row = {}
        elif path[:-1] == base and sort is Sort.VALUE:
            row[path[-1]] = value
        yield None


class NoteForm(NamedTuple):
    """How a note is written: what stands before its comments, one of these, what stands between two, and at the end."""

    start: Callable[[Note], str]
    comment: Callable[[Comment], str]
    comma: str
    end: Callable[[Note], str]


def notes(events: Events, base: Path, wanted: list[Note | None], form: NoteForm) -> Pieces:
    """The notes with their comments; `wanted` has the heads of all in their order, with None for one that is left out."""
    place, comma, between = -1, "", ""
    for sort, path, value in events:
        if path == base and sort is Sort.OPENED:
            place, comma = place + 1, ""
        head = wanted[place] if place >= 0 else None
        if head is None:
            yield ""
        elif path == base and sort is Sort.OPENED:
            yield between + form.start(head)
            between = form.comma and form.comma + "\n"
        elif path == (*base, "comments", "*"):
            yield comma + form.comment(value)
            comma = form.comma
        elif path == base:
            yield form.end(head)


# ---- XML


def xml_elements(texts: Texts, sort: Sort, value: Any) -> Iterable[str]:
    return (xml_write.plain(texts, value),) if sort is Sort.ROWS else xml_write.element(texts, value)


def elements_xml(events: Events, texts: Texts, bounded: bool = True) -> Pieces:
    yield xml_write.opened("osm")
    for sort, path, value in events:
        if path == ("elements", "*"):
            yield from xml_elements(texts, sort, value)
        elif path == ("bounds",) and bounded:
            yield xml_write.bounds(value)
    yield xml_write.closed("osm")


def download_xml(events: Events, texts: Texts) -> Pieces:
    yield xml_write.opened("osmChange")
    for sort, path, value in events:
        if len(path) == 4:
            yield from xml_elements(texts, sort, value)
        elif len(path) == 3 and sort is not Sort.VALUE:
            yield f"<{'/' if sort is Sort.CLOSED else ''}{path[2]}>\n"
    yield xml_write.closed("osmChange")


def done_xml(events: Events) -> Pieces:
    yield xml_write.opened("diffResult")
    yield from map(xml_write.done, rows(events, "diffResult"))
    yield xml_write.closed("diffResult")


def listed_xml(items: Iterator[Any], write: Callable[[Any], str]) -> Pieces:
    """Changesets, users or notes in an osm document."""
    yield xml_write.opened("osm")
    yield from map(write, items)
    yield xml_write.closed("osm")


# ---- JSON


def json_elements(sort: Sort, value: Any) -> Iterable[str]:
    return (json_write.plain(value),) if sort is Sort.ROWS else json_write.element(value)


def parted(items: Iterator[Iterator[str]]) -> Pieces:
    """The items with commas between them."""
    comma = ""
    for item in items:
        yield comma
        yield from item
        comma = ",\n"


def elements_json(events: Events) -> Pieces:
    yield json_write.head()
    comma = ',"elements":[\n'
    for sort, path, value in events:
        if path == ("elements", "*"):
            yield comma
            yield from json_elements(sort, value)
            comma = ",\n"
        elif path == ("bounds",):
            yield f',"bounds":{json_write.bounds(value)}'
    yield ("" if comma == ",\n" else comma) + "\n]}\n"


def download_json(events: Events) -> Pieces:
    yield f'{json_write.head()},"osmChange":[\n'
    block = row = ""
    for sort, path, value in events:
        if len(path) == 4:
            yield row
            yield from json_elements(sort, value)
            row = ",\n"
        elif len(path) == 3 and sort is Sort.OPENED:
            yield f'{block}{{"{path[2]}":['
            block, row = ",\n", ""
        elif len(path) == 3 and sort is Sort.CLOSED:
            yield "]}"
    yield "\n]}\n"


def done_json(events: Events) -> Pieces:
    return listed_json("diffResult", rows(events, "diffResult"), json_write.done)


def listed_json(name: str, items: Iterator[Any], write: Callable[[Any], str]) -> Pieces:
    yield f'{json_write.head()},"{name}":[\n'
    yield from parted(iter((write(item),)) for item in items)
    yield "\n]}\n"
