#!/usr/bin/python3
"""Drawn documents in pieces: gateway/tests/fuzz.py [--seed N] [--cases N] [--seconds S] [--case N]

What the gateway reads in pieces is held against Python's own readers on the whole: changes in JSON and in XML against `json` and
`xml.etree`, packed bodies against `gzip` and `zlib`, replies of the server against what they were written of. Half of the documents are
damaged. A damaged one is refused by name, or is read as the whole says; where it is cut never matters. Case N of a seed is always the
same one, and `--case N` draws it alone.
"""

from __future__ import annotations

import argparse
import gzip
import json
import random
import re
import sys
import time
import xml.etree.ElementTree as ET
import zlib
from collections import Counter
from collections.abc import Callable, Iterator
from decimal import ROUND_HALF_UP, Decimal, InvalidOperation, localcontext
from functools import partial
from typing import Any

import forms
from behind import want
from osm_gateway import documents, json_read
from osm_gateway.call import events_of
from osm_gateway.changes import change_of
from osm_gateway.plain_rows import rows_at
from osm_gateway.refusals import Operations, Refused
from osm_gateway.spool import PIECE, Coding, Spool
from osm_gateway.walk import OPENED, NotJson, Rows, Walk
from osm_gateway.xml_read import ChangeReader
from osm_gateway.xml_texts import Texts
from serving import Wrong, trial_status

SEED, SECONDS = 20261130, 60.0
MOST = (1 << 63) - 1
Row = dict[str, Any]
TEXTS = ("", "a", "name", "é", "ß\u0301", "\U0001f333", "<&>\"'", "a b", "\\", "\\u0041", "]]>", "48.5", "{}[],:", "\u2028", "x" * 40, "null")


class Invalid(Exception):
    """The document says nothing that can be read."""


# ---- what is drawn


class Drawn:
    def __init__(self, seed: int, number: int) -> None:
        self.draw = random.Random(f"{seed}/{number}")

    def number(self, negative: bool = False) -> int:
        it = self.draw.choice((1, 2, 9, 10, 48, 999, 1_000_000, MOST, self.draw.randint(1, 10**9)))
        return -it if negative else it

    def decimal(self, most: int) -> str:
        """As JSON and XML both have it: with a point, an exponent, both or neither."""
        whole, places = self.draw.randint(0, most), self.draw.choice((0, 0, 1, 2, 7, 9, 15))
        text = str(whole) + (f".{self.draw.randint(0, 10**places - 1):0{places}}" if places else "")
        text += self.draw.choice(("", "", "", f"e{self.draw.choice(('', '-', '+'))}{self.draw.randint(0, 9)}", "E-7", "e0"))
        return self.draw.choice(("", "-")) + text

    def text(self) -> str:
        return "".join(self.draw.choice(TEXTS) for _ in range(self.draw.choice((0, 1, 1, 2, 3))))

    def tags(self) -> dict[str, str]:
        return {self.text(): self.text() for _ in range(self.draw.choice((0, 0, 1, 2, 5)))}

    def element(self, action: str) -> Row:
        """Decimals as texts."""
        kind = self.draw.choice(forms.KINDS)
        row: Row = {"type": kind, "id": self.number(self.draw.random() < 0.5), "changeset": self.number()}
        if action != "create":
            row["version"] = self.number()
        if action != "delete" or self.draw.random() < 0.2:
            row["tags"] = self.tags()
            if kind == "node":
                row["lat"], row["lon"] = self.decimal(89), self.decimal(179)
            elif kind == "way":
                row["nodes"] = [self.number(self.draw.random() < 0.3) for _ in range(self.draw.choice((0, 1, 2, 9)))]
            else:
                row["members"] = [{"type": self.draw.choice(forms.KINDS), "ref": self.number(), "role": self.text()} for _ in range(self.draw.choice((0, 1, 4)))]
        return row

    def blocks(self) -> list[tuple[str, bool, list[Row]]]:
        """Actions, each with whether it may be skipped, and elements."""
        actions = [self.draw.choice(forms.ACTIONS) for _ in range(self.draw.choice((0, 1, 1, 2, 3)))]
        return [(it, it == "delete" and self.draw.random() < 0.5, [self.element(it) for _ in range(self.draw.choice((0, 1, 1, 3)))]) for it in actions]

    def cuts(self, data: Any) -> list[Any]:
        """The same in pieces, some of nothing."""
        count = self.draw.choice((0, 1, 2, 8, len(data) if len(data) < 300 else 30))
        places = sorted(self.draw.randint(0, len(data)) for _ in range(count))
        if self.draw.random() < 0.1:
            places = list(range(1, len(data)))
        return [data[start:end] for start, end in zip([0, *places], [*places, len(data)])]

    def damaged(self, data: bytes) -> bytes:
        for _ in range(self.draw.choice((1, 1, 1, 2, 5))):
            place = self.draw.randint(0, len(data))
            some = self.draw.choice((b"", b"0", b".", b"e", b"-", b'"', b"'", b"\\", b"{", b"]", b"<", b">", b"&", b"/", b"\0", b"\xff", b"\xc3", b" ", b"true", b"<!--", b"NaN"))
            kind = self.draw.choice(("insert", "take", "replace", "cut", "swap"))
            if kind == "cut" and self.draw.random() < 0.5:
                data = data[:place]
            elif kind == "swap":
                other = self.draw.randint(0, len(data))
                data = data[:place] + data[other : other + 9] + data[place + 9 :]
            else:
                data = data[:place] + (some if kind != "take" else b"") + data[place + (kind != "insert") * self.draw.choice((1, 1, 4)) :]
        return data


# ---- JSON


def json_text(it: Drawn, value: Any, path: str = "") -> str:
    """JSON in some style: spaces, escapes, decimals as they are."""
    space: Callable[[], str] = lambda: it.draw.choice(("", "", "", " ", "\n", "\t ", "\r\n"))  # noqa: E731
    if isinstance(value, dict):
        return "{" + space() + ("," + space()).join(f"{json_text(it, k)}{space()}:{space()}{json_text(it, v, k)}" for k, v in value.items()) + space() + "}"
    if isinstance(value, list):
        return "[" + space() + (space() + ",").join(json_text(it, v) for v in value) + space() + "]"
    if path in ("lat", "lon"):
        return str(value)
    return json.dumps(value, ensure_ascii=it.draw.random() < 0.3)


def json_change(it: Drawn, blocks: list[tuple[str, bool, list[Row]]]) -> str:
    """By actions, or, as cgimap writes them, elements that each say their own."""
    rows: list[Row] = []
    for action, unused, elements in blocks:
        if it.draw.random() < 0.3:
            rows += [{**row, "action": action, **({"if-unused": True} if unused else {})} for row in elements]
        else:
            rows.append({action: elements, **({"if-unused": True} if unused else {})})
    more = {"generator": it.text()} if it.draw.random() < 0.3 else {}
    return it.draw.choice(("", " ", "\n")) + json_text(it, {"version": "0.6", **more, "osmChange": rows}) + it.draw.choice(("", "\n"))


def whole_number(it: Any) -> int:
    if type(it) is not int or abs(it) > MOST:
        raise Invalid
    return it


def units(text: str) -> int:
    """Degrees in units, by halves away from zero."""
    if len(text) > 100 or not re.fullmatch(r"[+-]?([0-9]+\.?[0-9]*|\.[0-9]+)([eE][+-]?[0-9]{1,3})?", text):
        raise Invalid
    try:
        with localcontext() as context:
            context.prec = 300
            found = int((Decimal(text) * 10**7).quantize(Decimal(1), ROUND_HALF_UP)) if abs(Decimal(text)) < 10**20 else 10**27
    except InvalidOperation:
        raise Invalid from None
    if abs(found) > 10**12:
        raise Invalid
    return found


class Decimals(str):
    """A number of JSON that isn't whole, as it stands."""


def json_place(it: Any) -> int:
    if type(it) not in (int, Decimals):
        raise Invalid
    return units(str(it))


def json_row(it: Any, action: str) -> Row:
    if not isinstance(it, dict) or it.get("type") not in forms.KINDS:
        raise Invalid
    row: Row = {"type": it["type"]} | {name: whole_number(it[name]) for name in ("id", "changeset", "version") if name in it}
    if action == "delete":
        return row
    if it["type"] == "node":
        row |= {"lat7": json_place(it.get("lat")), "lon7": json_place(it.get("lon"))}
    elif it["type"] == "way":
        if not isinstance(it.get("nodes"), list):
            raise Invalid
        row["nodes"] = [whole_number(ref) for ref in it["nodes"]]
    else:
        members = it.get("members")
        if not isinstance(members, list) or not all(isinstance(m, dict) and m.get("type") in forms.KINDS and isinstance(m.get("role", ""), str) and
                                                    not isinstance(m.get("role", ""), Decimals) for m in members):  # fmt: skip
            raise Invalid
        row["members"] = [{"type": m["type"], "ref": whole_number(m.get("ref")), "role": m.get("role", "")} for m in members]
    if "tags" in it:
        if not isinstance(it["tags"], dict) or any(type(value) is not str for value in it["tags"].values()):
            raise Invalid
        row["tags"] = it["tags"]
    return row


def once_each(pairs: list[tuple[str, Any]]) -> Row:
    """Of a member that is named twice which one counts depends on where it stands."""
    if len({name for name, _ in pairs}) < len(pairs):
        raise Twice
    return dict(pairs)


class Twice(Exception):
    pass


def no_constant(text: str) -> Any:
    raise Invalid(text)


def json_wanted(data: bytes) -> Any:
    """The server's change, of the whole document."""
    try:
        it = json.loads(data.decode("utf-8"), parse_float=Decimals, parse_constant=no_constant, object_pairs_hook=once_each)
    except (ValueError, RecursionError):
        raise Invalid from None
    if not isinstance(it, dict) or not isinstance(it.get("osmChange"), list):
        raise Invalid
    blocks: list[Row] = []
    for block in it["osmChange"]:
        if not isinstance(block, dict):
            raise Invalid
        named = [name for name in block if name in forms.ACTIONS]
        if len(named) > 1 or named and not isinstance(block[named[0]], list) or not named and block.get("action") not in forms.ACTIONS:
            raise Invalid
        action = named[0] if named else block["action"]
        unused = block.get("if-unused", False) if action == "delete" else False
        if type(unused) is not bool:
            raise Invalid
        rows = [json_row(row, action) for row in (block[action] if named else [block])]
        blocks.append({action: rows, **({"if-unused": True} if unused else {})})
    try:
        json.dumps(blocks, ensure_ascii=False).encode("utf-8")
    except UnicodeError:
        raise Invalid from None  # half of a pair of surrogates, which is no character
    return joined({"osmChange": blocks})


# ---- XML


def quoted(it: Drawn, text: str) -> str:
    quote = it.draw.choice("\"'")
    text = text.replace("&", "&amp;").replace("<", "&lt;").replace(quote, "&quot;" if quote == '"' else "&apos;")
    text = re.sub("[\t\n\r]", lambda found: f"&#{ord(found[0])};", text)
    if text and it.draw.random() < 0.1:
        place = it.draw.randrange(len(text))
        if text[place] not in "&;" and "&" not in text:
            text = f"{text[:place]}&#x{ord(text[place]):x};{text[place + 1 :]}"
    return quote + text + quote


def xml_element(it: Drawn, row: Row) -> str:
    space: Callable[[], str] = lambda: it.draw.choice((" ", " ", "\n", "\t "))  # noqa: E731
    fields = [(name, str(row[name])) for name in ("id", "changeset", "version", "lat", "lon") if name in row]
    it.draw.shuffle(fields)
    head = row["type"] + "".join(f"{space()}{name}={quoted(it, value)}" for name, value in fields)
    inner = [f"<nd ref={quoted(it, str(ref))}/>" for ref in row.get("nodes", ())]
    inner += [f"<member type={quoted(it, m['type'])} ref={quoted(it, str(m['ref']))} role={quoted(it, m['role'])}/>" for m in row.get("members", ())]
    inner += [f"<tag k={quoted(it, k)} v={quoted(it, v)}/>" for k, v in row.get("tags", {}).items()]
    inner = [it.draw.choice(("", "", "", "\n", "<!-- < & > -->", "<?x y?>")) + part for part in inner]
    return f"<{head}>{''.join(inner)}</{row['type']}>" if inner or it.draw.random() < 0.2 else f"<{head}/>"


def xml_change(it: Drawn, blocks: list[tuple[str, bool, list[Row]]]) -> bytes:
    body = "".join(
        f"<{action}{' if-unused=' + quoted(it, it.text()) if unused else ''}>{''.join(xml_element(it, row) for row in rows)}</{action}>"
        for action, unused, rows in blocks
    )
    coding = it.draw.choice(("utf-8", "utf-8", "utf-8", "utf-8-sig", "utf-16", "us-ascii", "iso-8859-1"))
    named = {"utf-8-sig": "UTF-8", "utf-16": "UTF-16"}.get(coding, coding)
    head = f"<?xml version='1.0' encoding='{named}'?>" if coding not in ("utf-8", "utf-8-sig") or it.draw.random() < 0.5 else ""
    return f"{head}<osmChange version='0.6'>{body}</osmChange>\n".encode(coding, "xmlcharrefreplace")


def xml_number(text: str | None) -> int:
    if text is None or not re.fullmatch("[+-]?[0-9]{1,19}", text) or abs(int(text)) > MOST:
        raise Invalid
    return int(text)


def xml_row(it: ET.Element, action: str) -> Row:
    row: Row = {"type": it.tag, "id": xml_number(it.get("id")), "changeset": xml_number(it.get("changeset"))}
    if action != "create":
        row["version"] = xml_number(it.get("version"))
    tags: dict[str, str] = {}
    for tag in it.findall("tag"):
        key, value = tag.get("k"), tag.get("v")
        if key is None or value is None or key in tags:
            raise Invalid
        tags[key] = value
    if action == "delete":
        return row
    if it.tag == "node":
        row |= {f"{name}7": units((it.get(name) or "x").strip(" \t\r\n")) for name in ("lat", "lon")}
    elif it.tag == "way":
        row["nodes"] = [xml_number(nd.get("ref")) for nd in it.findall("nd")]
    else:
        row["members"] = [{"type": m.get("type", "").lower(), "ref": xml_number(m.get("ref")), "role": m.get("role", "")} for m in it.findall("member")]
        if any(m["type"] not in forms.KINDS for m in row["members"]):
            raise Invalid
    return row | {"tags": tags}


def depth(it: ET.Element) -> int:
    return 1 + max(map(depth, it), default=0)


def xml_wanted(data: bytes) -> Any:
    try:
        root = ET.fromstring(data)
    except (ET.ParseError, ValueError, LookupError):
        raise Invalid from None
    if b"<!DOCTYPE" in data or root.tag != "osmChange" or depth(root) > 16:
        raise Invalid
    blocks = []
    for block in root:
        if block.tag not in forms.ACTIONS or any(it.tag not in forms.KINDS for it in block):
            raise Invalid
        read: Row = {block.tag: [xml_row(it, block.tag) for it in block]}
        blocks.append(read | ({"if-unused": True} if block.tag == "delete" and "if-unused" in block.attrib else {}))
    return joined({"osmChange": blocks})


# ---- what the gateway makes of it


def joined(change: Any) -> Any:
    """With blocks of one action behind each other as one: which elements stand in one may depend on where the document is cut."""
    blocks: list[Row] = []
    for block in change["osmChange"]:
        action = next(name for name in forms.ACTIONS if name in block)
        if blocks and blocks[-1].keys() == block.keys():
            blocks[-1][action] += block[action]
        else:
            blocks.append(block)
    return {"osmChange": blocks}


def sent(found: Iterator[Any]) -> Any:
    """What the server gets, or Invalid."""
    try:
        return joined(json.loads("".join(change_of(found, Operations())).encode("utf-8")))
    except (Refused, UnicodeError) as why:
        if isinstance(why, Refused) and why.status != 400:
            raise Wrong(f"the status of a refusal is {why.status}: {why.text}") from None
        raise Invalid(str(why)) from None


def json_read_of(pieces: list[bytes]) -> Any:
    spool = Spool()
    for piece in pieces:
        spool.write(piece)
    texts = [it.decode("utf-8") for it in pieces] if all(map(is_whole, pieces)) else spool.texts()
    try:
        return sent(json_read.change(iter(texts)))
    except UnicodeDecodeError:
        raise Invalid from None
    finally:
        spool.close()


def is_whole(piece: bytes) -> bool:
    try:
        piece.decode("utf-8")
        return True
    except UnicodeDecodeError:
        return False


def text_cuts(it: Drawn, data: bytes) -> list[bytes]:
    """Cut between characters where it is text, so that the reader gets the pieces as they are."""
    try:
        return [part.encode() for part in it.cuts(data.decode("utf-8"))]
    except UnicodeDecodeError:
        return it.cuts(data)


def xml_read_of(pieces: list[bytes]) -> Any:
    return sent(ChangeReader().read(iter(pieces)))


def outcome(do: Callable[[], Any]) -> Any:
    try:
        return do()
    except Invalid:
        return "refused"


def judged(it: Drawn, data: bytes, wanted: Callable[[bytes], Any], read: Callable[[list[bytes]], Any], cuts: Callable[[], list[bytes]]) -> str:
    """The outcome is that of the whole, and the same wherever the document is cut."""
    found = outcome(lambda: read([data]))
    for _ in range(2):
        pieces = cuts()
        want(outcome(lambda: read(pieces)), found, f"{data!r} in pieces {pieces!r}")  # noqa: B023
    try:
        want(found, outcome(lambda: wanted(data)), f"{data!r}")
    except Twice:
        return "either way"
    return "refused" if found == "refused" else "read"


# ---- cases


def of_json(it: Drawn) -> str:
    data = json_change(it, it.blocks()).encode("utf-8")
    if it.draw.random() < 0.5:
        data = it.damaged(data)
    return judged(it, data, json_wanted, json_read_of, lambda: text_cuts(it, data))


def of_many(it: Drawn) -> str:
    """Some hundred elements, so that several are read at once, in one style, with some in it that aren't in that."""
    action = it.draw.choice(forms.ACTIONS)
    rows = [it.element(action) for _ in range(it.draw.choice((20, 100, 300)))]
    for row in rows:
        row |= {name: it.draw.choice(("48.1", "-0.5", "11.1234567", "0", "-12.123456785", "5.0E-4", "1e1")) for name in ("lat", "lon") if name in row}
    blocks: list[Row] = [{action: rows}]
    if it.draw.random() < 0.6:
        blocks = [{"type": row["type"], "action": action, **row} for row in rows]
        for _ in range(it.draw.choice((0, 0, 1, 3))):
            others: list[Row] = [{"action": "delete"}, {"if-unused": it.draw.choice((True, False, 1))}, {"action": "x"}, {"create": []}, {"nodes": [[]]}]
            at = it.draw.choice(blocks)
            at |= it.draw.choice(others)
        ends: list[list[Any]] = [[], [], [5], [{}], [{"create": []}], [{"delete": [it.element("delete")], "if-unused": True}]]
        place = it.draw.randint(0, len(blocks))
        blocks[place:place] = it.draw.choice(ends)
    item, name = it.draw.choice((",", ", ", ",\n  ", "\r\n,")), it.draw.choice((":", ": ", " :"))
    text = json.dumps({"osmChange": blocks}, ensure_ascii=it.draw.random() < 0.5, separators=(item, name))
    for key in ("lat", "lon"):
        text = re.sub(f'"{key}"{name}"([^"]*)"', lambda found: found[0].replace(f'"{found[1]}"', found[1]), text)  # noqa: B023
    data = text.encode("utf-8")
    if it.draw.random() < 0.3:
        data = it.damaged(data)
    return judged(it, data, json_wanted, json_read_of, lambda: text_cuts(it, data) if it.draw.random() < 0.5 else at_pieces(it, data))


def at_pieces(it: Drawn, data: bytes) -> list[bytes]:
    """In pieces of one length."""
    length = it.draw.choice((500, 5_000, PIECE))
    return [data[place : place + length] for place in range(0, len(data), length)]


def of_xml(it: Drawn) -> str:
    data = xml_change(it, it.blocks())
    if it.draw.random() < 0.5:
        data = it.damaged(data)
    return judged(it, data, xml_wanted, xml_read_of, lambda: it.cuts(data))


def of_edge(it: Drawn) -> str:
    """A document whose bytes lie around the edge of a piece as it is read from a body, each of them once at the edge."""
    as_json = it.draw.random() < 0.6
    blocks = [("create", False, [it.element("create")])]
    data = json_change(it, blocks).encode() if as_json else xml_change(it, blocks).replace(b"<?xml", b"<?xml", 1)
    wanted = outcome(lambda: (json_wanted if as_json else xml_wanted)(data))
    place = it.draw.randint(1, len(data) - 1)
    if as_json:
        start = data.index(b"{")
        padded = data[: start + 1] + b" " * (PIECE - place) + data[start + 1 :]
    else:
        inner = data.rfind("</osmChange>".encode("utf-16-le" if data[:2] == b"\xff\xfe" else "utf-8"))
        if data[:2] == b"\xff\xfe":
            return "read"
        # In front of the blocks, so that these lie at the edge.
        inner = data.index(b">", data.index(b"<osmChange")) + 1
        padded = data[:inner] + b" " * (PIECE - place) + data[inner:]
    spool = Spool()
    spool.write(padded)
    found = outcome(lambda: sent(json_read.change(spool.texts()) if as_json else ChangeReader().read(spool.pieces())))
    spool.close()
    want(found, wanted, f"{data!r} with the byte {place} at the edge of a piece")
    return "refused" if found == "refused" else "read"


def of_number(it: Drawn) -> str:
    """Numbers and words of JSON, cut at every two places."""
    text = "[" + ",".join(it.draw.choice((it.decimal(99), str(it.number()), "true", "null", '"48."', "1e", "-", "2.", "01", "NaN", "-Infinity", "+1"))
                          for _ in range(it.draw.choice((1, 2)))) + "]"  # fmt: skip

    def walked(pieces: list[str]) -> Any:
        try:
            return [event.value for event in Walk(iter(pieces), frozenset({()}), 0, str).events() if event.path == ("*",)]
        except NotJson:
            return "refused"

    try:
        wanted = json.loads(text, parse_float=str, parse_constant=no_constant)
    except (ValueError, Invalid):
        wanted = "refused"
    for place in range(len(text) + 1):
        second = it.draw.randint(place, len(text))
        want(walked([text[:place], text[place:second], text[second:]]), wanted, f"{text} cut at {place} and {second}")
    return "refused" if wanted == "refused" else "read"


def undone(pieces: list[bytes], name: str) -> Any:
    coding, found = Coding(name), b""
    try:
        for piece in pieces:
            for part in coding.undone(piece):
                found += part
    except ValueError:
        return "refused"
    return found if coding.is_whole() else "refused"


def of_coding(it: Drawn) -> str:
    body = b"".join(it.draw.choice((b"", b"a" * 70_000, bytes(range(256)), it.text().encode())) for _ in range(it.draw.choice((1, 2, 4))))
    name = it.draw.choice(("gzip", "gzip", "deflate"))
    members = it.cuts(body)[:50]
    body = b"".join(members) if name == "gzip" else body
    data = b"".join(gzip.compress(part, it.draw.choice((0, 1, 9)), mtime=0) for part in members) if name == "gzip" else zlib.compress(body, it.draw.choice((0, 9)))
    wanted: Any = body
    if it.draw.random() < 0.5:
        data = it.damaged(data)
        wanted = outcome(lambda: coding_wanted(data, name))
    for _ in range(2):
        pieces = it.cuts(data)
        want(undone(pieces, name), wanted, f"{name} {data[:300]!r} of {len(data)} in pieces of {[len(piece) for piece in pieces][:50]}")
    return "refused" if wanted == "refused" else "read"


def coding_wanted(data: bytes, name: str) -> bytes:
    """What Python makes of the whole; it passes over zeros behind gzip and anything behind zlib, which belongs to no format."""
    try:
        wanted = gzip.decompress(data) if name == "gzip" and data else zlib.decompress(data)
        rest = data
        while rest:
            inflate = zlib.decompressobj(31 if name == "gzip" else 15)
            inflate.decompress(rest)
            rest = inflate.unused_data
            if not inflate.eof or rest and name == "deflate":
                raise Invalid
        return wanted
    except (OSError, EOFError, zlib.error):
        raise Invalid from None


def of_reply(it: Drawn) -> str:
    """Elements as the server writes them, out as XML and as JSON."""
    rows: list[Row] = []
    for _ in range(it.draw.choice((0, 1, 3))):
        row = it.element("create")
        for name in ("lat", "lon"):
            if name in row:
                row[f"{name}7"] = it.draw.randint(-900_000_000, 900_000_000)
                del row[name]
        rows.append({**row, "id": it.number(), "version": it.number(), "timestamp": "2026-11-30T08:00:00Z", "uid": 1, "user": it.text(), "visible": True})
    wanted = {"elements": rows, "version": "0.6"}
    # In the order of their names as the server has them, so that rows are taken as they stand.
    text = json.dumps(wanted, ensure_ascii=it.draw.random() < 0.5, separators=(",", ":"), sort_keys=it.draw.random() < 0.7)
    spool = Spool()
    spool.write(text.encode())
    ways: list[Rows | None] = [None, rows_at]
    way = it.draw.choice(ways)
    events: Callable[[], documents.Events] = (  # noqa: E731
        lambda: Walk(iter(it.cuts(text)), OPENED, rows=way).events() if it.draw.random() < 0.8 else events_of(spool, rows=way)
    )
    want(forms.json_document_of("".join(documents.elements_json(events())).encode()), wanted, f"{text} as JSON")
    want(forms.document_of("".join(documents.elements_xml(events(), Texts())).encode()), wanted, f"{text} as XML")
    spool.close()
    return "read"


CASES: tuple[Callable[[Drawn], str], ...] = (of_json, of_json, of_many, of_xml, of_xml, of_edge, of_number, of_coding, of_reply)


def play(seed: int, number: int, counts: Counter[str]) -> None:
    case = CASES[number % len(CASES)]
    try:
        counts[f"{case.__name__.removeprefix('of_')} {case(Drawn(seed, number))}"] += 1
    except Exception as why:
        raise Wrong(f"case {number} of the seed {seed}: {type(why).__name__}: {why}") from why


def played(seed: int, cases: int, seconds: float) -> str:
    counts, until, number = Counter[str](), time.monotonic() + seconds, 0
    while number < cases and time.monotonic() < until:
        play(seed, number, counts)
        number += 1
    rest = ", ".join(f"{name} {count:,}" for name, count in sorted(counts.items()))
    return f"{number:,} cases by the seed {seed}: {rest}"


def run(_: str) -> str:
    return played(SEED, sys.maxsize, SECONDS)


def tried(words: argparse.Namespace) -> None:
    if words.case is not None:
        play(words.seed, words.case, Counter())
    print(played(words.seed, words.cases if words.case is None else 0, words.seconds))


def main() -> int:
    parser = argparse.ArgumentParser(usage=(__doc__ or "").split("\n\n")[0].partition(": ")[2])
    parser.add_argument("--seed", type=int, default=SEED)
    parser.add_argument("--cases", type=int, default=100_000)
    parser.add_argument("--seconds", type=float, default=float("inf"))
    parser.add_argument("--case", type=int)
    words = parser.parse_args()
    return trial_status(partial(tried, words))


if __name__ == "__main__":
    sys.exit(main())
