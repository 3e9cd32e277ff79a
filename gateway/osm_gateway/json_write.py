"""Rows of the server as OSM's JSON, in degrees. Texts stand as they are, since JSON can hold them all."""

from __future__ import annotations

from collections.abc import Iterable, Iterator, Sequence
from json.encoder import encode_basestring as text_of  # type: ignore[attr-defined]
from typing import Any

from .changes import ENCODER
from .degrees import degrees_in, degrees_of
from .discussions import Remark
from .people import User
from .plain_rows import Fields, is_each_once, members_of, tags_of
from .rows import SLICE, Box, Changeset, Comment, Counts, Done, Element, MemberFields, Note, Whole, edges, member_fields
from .times import utc
from .xml_write import BEGINNING, GENERATOR, note_rows, paragraph

licence = ""
"""Members that each document has besides; set once, at the start."""


def head() -> str:
    return f'{{"version":"0.6","generator":"{GENERATOR}"{licence}'


value_of = ENCODER.encode


def document(**members: str) -> str:
    """A whole reply, of members that are JSON."""
    return head() + "".join(f',"{name}":{value}' for name, value in members.items()) + "}\n"


def start(kind: str, number: Whole, place: str, timestamp: str, version: Whole, changeset: Whole, user: str, uid: Whole) -> str:
    """What an element begins with, `place` being where it lies."""
    return (
        f'{{"type":"{kind}","id":{number}{place},"timestamp":"{timestamp}","version":{version},"changeset":{changeset},'
        f'"user":{text_of(user)},"uid":{uid}'
    )


def several(rows: Iterable[MemberFields]) -> str:
    return ",".join([f'{{"type":"{kind}","ref":{ref},"role":{text_of(role)}}}' for ref, role, kind in rows])


def plain(rows: list[Fields]) -> str:
    """Elements as they stand in the server's reply."""
    written = []
    for changeset, number, lat, lon, refs, parts, has, timestamp, kind, uid, user, version, _ in rows:
        place = f',"lat":{degrees_in(lat)},"lon":{degrees_in(lon)}' if lat else ""
        more = f',"nodes":[{refs}]' if refs else f',"members":[{several(members_of(parts))}]' if parts else ""
        if has:
            more += f',"tags":{tags(has)}'
        written.append(f"{start(kind, number, place, timestamp, version, changeset, user, uid)}{more}}}")
    return ",\n".join(written)


def tags(text: str) -> str:
    return f"{{{text}}}" if is_each_once(text.split('"')[1::4]) else value_of(tags_of(text))


def element(it: Element) -> Iterator[str]:
    place = f',"lat":{degrees_of(it["lat7"])},"lon":{degrees_of(it["lon7"])}' if "lat7" in it else ""
    more = f',"redaction":{it["redaction"]}' if "redaction" in it else ""
    if not it["visible"]:
        more += ',"visible":false'
    if "nodes" in it:
        more += ',"nodes":[' + ",".join(map(str, it["nodes"])) + "]"
    yield start(it["type"], it["id"], place, it["timestamp"], it["version"], it["changeset"], it["user"], it["uid"]) + more
    if "members" in it:
        yield from members(it)
    yield f',"tags":{value_of(it["tags"])}}}' if it.get("tags") else "}"


def members(it: Element) -> Iterator[str]:
    rows = it["members"]
    yield ',"members":['
    for place in range(0, len(rows), SLICE):
        yield ("," if place else "") + several(map(member_fields, rows[place : place + SLICE]))
    yield "]"


def bounds(it: Box) -> str:
    return "{" + ",".join(f'"{side}":{degrees_of(units)}' for side, units in edges(it).items()) + "}"


def changeset(it: Changeset, comments: int = 0, talk: Sequence[Remark] | None = None) -> str:
    names = ("id", "created_at", "open", "changes_count", "closed_at")
    rows = [f'"{name}":{value_of(it[name])}' for name in names if name in it]  # type: ignore[literal-required]
    rows += [f'"comments_count":{comments}']
    rows += [f'"{side[:3]}_{side[3:]}":{degrees_of(units)}' for side, units in edges(it).items()]
    rows += [f'"uid":{it["uid"]}', f'"user":{text_of(it["user"])}', f'"tags":{value_of(it["tags"])}']
    if talk is not None:
        said = [{"id": row.id, "visible": row.visible, "date": row.date, "uid": row.uid, "user": row.user, "text": row.text} for row in talk]
        rows += [f'"comments":{value_of(said)}']
    return "{" + ",".join(rows) + "}"


def done(it: Done) -> str:
    return value_of(it)


def user(it: User, counts: Counts, mine: bool) -> str:
    row: dict[str, Any] = {"id": it.id, "display_name": it.name, "account_created": BEGINNING, "description": ""}
    row |= {"roles": ["moderator"] if it.moderator else []}
    row |= {"changesets": {"count": counts.changesets}} if counts.changesets is not None else {}
    blocks = {"received": counts.received} | ({"issued": counts.issued} if it.moderator else {})
    row |= {"traces": {"count": 0}, "blocks": {name: {"count": all_, "active": active} for name, (all_, active) in blocks.items()}}
    if mine:
        row |= {"languages": ["en"], "messages": {"received": {"count": 0, "unread": 0}, "sent": {"count": 0}}}
    return value_of(row)


def note_start(it: Note, site: str) -> str:
    """What stands before the comments of a note."""
    rows = note_rows(it, site, "closed_at")
    place = f'{{"type":"Point","coordinates":[{degrees_of(it["lon7"])},{degrees_of(it["lat7"])}]}}'
    return f'{{"type":"Feature","geometry":{place},"properties":{value_of(rows)[:-1]},"comments":['


def comment(it: Comment) -> str:
    return value_of({**it, "date": utc(it["date"]), "html": paragraph(it["text"])})


NOTE_END = "]}}"
