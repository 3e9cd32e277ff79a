"""Rows of the server as OSM's XML. Each function gives pieces, so that an element with many members is written in several."""

from __future__ import annotations

from collections.abc import Iterable, Iterator, Sequence

from .degrees import degrees_in, degrees_of
from .discussions import Remark
from .people import User
from .plain_rows import Fields, is_each_once, members_of, tags_of
from .rows import SLICE, Box, Changeset, Comment, Counts, Done, Element, MemberFields, Note, Whole, edges, member_fields
from .times import utc
from .xml_texts import Texts

GENERATOR = "Hegunsap"
BEGINNING = "1970-01-01T00:00:00Z"
HEAD = '<?xml version="1.0" encoding="UTF-8"?>\n'
TAG = '  <tag k="%s" v="%s"/>\n'

licence = ""
"""Attributes that each document has besides (--copyright, --attribution, --license); set once, at the start."""


def opened(name: str) -> str:
    return f'{HEAD}<{name} version="0.6" generator="{GENERATOR}"{licence}>\n'


def closed(name: str) -> str:
    return f"</{name}>\n"


def tags(texts: Texts, it: dict[str, str]) -> str:
    known = texts.known
    return "".join([f'  <tag k="{known[key]}" v="{known[value]}"/>\n' for key, value in it.items()])


def nodes(refs: str) -> str:
    """Nodes of a way, as numbers with commas between them."""
    between = '"/>\n  <nd ref="'
    return f'  <nd ref="{refs.replace(",", between)}"/>\n'


def members(texts: Texts, rows: Iterable[MemberFields]) -> str:
    known = texts.known
    return "".join([f'  <member type="{kind}" ref="{ref}" role="{known[role]}"/>\n' for ref, role, kind in rows])


def start(
    texts: Texts, kind: str, number: Whole, version: Whole, changeset: Whole, timestamp: str, user: str, uid: Whole, visible: str = "true"
) -> str:  # fmt: skip
    """What each element begins with, up to where it lies."""
    return (
        f'<{kind} id="{number}" visible="{visible}" version="{version}" changeset="{changeset}" timestamp="{timestamp}" '
        f'user="{texts.known[user]}" uid="{uid}"'
    )


def plain(texts: Texts, rows: list[Fields]) -> str:
    """Elements as they stand in the server's reply."""
    written, known_tags = [], texts.tags
    for changeset, number, lat, lon, refs, parts, has, timestamp, kind, uid, user, version, _ in rows:
        place = f' lat="{degrees_in(lat)}" lon="{degrees_in(lon)}"' if lat else ""
        inner = nodes(refs) if refs else members(texts, members_of(parts)) if parts else ""
        if has:
            inner += known_tags.get(has) or plain_tags(texts, has)
        end = f">\n{inner}</{kind}>\n" if inner else "/>\n"
        written.append(f"{start(texts, kind, number, version, changeset, timestamp, user, uid)}{place}{end}")
    return "".join(written)


def plain_tags(texts: Texts, text: str) -> str:
    """Tags as they stand in the server's reply."""
    parts = text.replace("&", "&amp;").replace("<", "&lt;").replace(">", "&gt;").split('"')
    is_plain = is_each_once(parts[1::4])
    it = TAG * (len(parts) // 4) % tuple(parts[1::2]) if is_plain else tags(texts, tags_of(text))
    texts.keep_tags(text, it)
    return it


def start_of(texts: Texts, it: Element) -> str:
    """The start of an element's tag, without its end."""
    more = f' redaction="{it["redaction"]}"' if "redaction" in it else ""
    if "lat7" in it:
        more += f' lat="{degrees_of(it["lat7"])}" lon="{degrees_of(it["lon7"])}"'
    visible = "true" if it["visible"] else "false"
    return start(texts, it["type"], it["id"], it["version"], it["changeset"], it["timestamp"], it["user"], it["uid"], visible) + more


def element(texts: Texts, it: Element) -> Iterable[str]:
    rows = it.get("members") or ()
    if len(rows) > SLICE:
        return sliced(texts, it)
    refs, has = it.get("nodes"), it.get("tags")
    inner = nodes(",".join(map(str, refs))) if refs else members(texts, map(member_fields, rows)) if rows else ""
    if has:
        inner += tags(texts, has)
    return (f"{start_of(texts, it)}>\n{inner}</{it['type']}>\n" if inner else f"{start_of(texts, it)}/>\n",)


def sliced(texts: Texts, it: Element) -> Iterator[str]:
    """A relation with many members, in several pieces."""
    yield f"{start_of(texts, it)}>\n"
    rows = it["members"]
    for place in range(0, len(rows), SLICE):
        yield members(texts, map(member_fields, rows[place : place + SLICE]))
    yield f"{tags(texts, it.get('tags', {}))}</{it['type']}>\n"


def bounds(it: Box) -> str:
    return "<bounds" + "".join(f' {side}="{degrees_of(units)}"' for side, units in edges(it).items()) + "/>\n"


def changeset(texts: Texts, it: Changeset, comments: int = 0, talk: Sequence[Remark] | None = None) -> str:
    """With so many comments, and these where they are asked for."""
    fields = texts.attributes(
        id=it["id"], created_at=it["created_at"], closed_at=it.get("closed_at"), open=it["open"], user=it["user"], uid=it["uid"]
    )
    fields += "".join(f' {side[:3]}_{side[3:]}="{degrees_of(units)}"' for side, units in edges(it).items())
    fields += texts.attributes(comments_count=comments, changes_count=it["changes_count"])
    return f"<changeset{fields}>\n{tags(texts, it['tags'])}{discussion(texts, talk) if talk is not None else ''}</changeset>\n"


def discussion(texts: Texts, talk: Sequence[Remark]) -> str:
    rows = [
        f"    <comment{texts.attributes(id=it.id, visible=it.visible, date=it.date, uid=it.uid, user=it.user)}><text>{texts(it.text)}</text></comment>\n"
        for it in talk
    ]
    return f"  <discussion>\n{''.join(rows)}  </discussion>\n" if rows else "  <discussion/>\n"


def done(it: Done) -> str:
    rest = "".join(f' {name}="{it[name]}"' for name in ("old_id", "new_id", "new_version") if name in it)  # type: ignore[literal-required]
    return f"<{it['type']}{rest}/>\n"


def user(texts: Texts, it: User, counts: Counts, mine: bool) -> str:
    """What is known of a user. JOSM can't do without a moment at which the account was made, and nobody knows it."""
    roles = "<roles><moderator/></roles>" if it.moderator else "<roles/>"
    changesets = f'<changesets count="{counts.changesets}"/>' if counts.changesets is not None else ""
    blocks = {"received": counts.received} | ({"issued": counts.issued} if it.moderator else {})
    shown = "".join(f'<{name} count="{all_}" active="{active}"/>' for name, (all_, active) in blocks.items())
    rest = f'{roles}{changesets}<traces count="0"/><blocks>{shown}</blocks>'
    if mine:
        rest += '<languages><lang>en</lang></languages><messages><received count="0" unread="0"/><sent count="0"/></messages>'
    return f"<user{texts.attributes(id=it.id, display_name=it.name, account_created=BEGINNING)}><description/>{rest}</user>\n"


# ---- notes


def inner(texts: Texts, name: str, it: str | int) -> str:
    return f"<{name}>{texts(str(it))}</{name}>"


def paragraph(text: str) -> str:
    """A comment's text as HTML."""
    return "<p>" + text.replace("&", "&amp;").replace("<", "&lt;").replace(">", "&gt;") + "</p>"


def comment(texts: Texts, it: Comment) -> str:
    who = "".join(inner(texts, name, it[name]) for name in ("uid", "user") if name in it)  # type: ignore[literal-required]
    said = inner(texts, "action", it["action"]) + inner(texts, "text", it["text"]) + inner(texts, "html", paragraph(it["text"]))
    return f"<comment>{inner(texts, 'date', utc(it['date']))}{who}{said}</comment>\n"


def note_rows(it: Note, site: str, closing: str) -> dict[str, str | int]:
    """What a note has besides its place and its comments, with that name for when it was closed."""
    here = f"{site}/api/0.6/notes/{it['id']}"
    rows: dict[str, str | int] = {"id": it["id"], "url": here}
    rows |= {f"{call}_url": f"{here}/{call}" for call in (("comment", "close") if it["status"] == "open" else ("reopen",))}
    rows |= {"date_created": utc(it["date_created"]), "status": it["status"]}
    return rows | ({closing: utc(it["closed_at"])} if "closed_at" in it else {})


def note_start(texts: Texts, it: Note, site: str) -> str:
    """What stands before the comments of a note."""
    rows = note_rows(it, site, "date_closed")
    place = f'<note lon="{degrees_of(it["lon7"])}" lat="{degrees_of(it["lat7"])}">'
    return f"{place}{''.join(inner(texts, name, value) for name, value in rows.items())}<comments>"


NOTE_END = "</comments></note>\n"
