"""The server's JSON as OSM's XML and JSON and back, written for the tests alone: nothing of the gateway stands in it."""

from __future__ import annotations

import json
import re
import xml.etree.ElementTree as ET
from decimal import Decimal
from typing import Any

KINDS = ("node", "way", "relation")
ACTIONS = ("create", "modify", "delete")
NOT_XML = re.compile("[^\t\n\r\x20-\ud7ff\ue000-\ufffd\U00010000-\U0010ffff]")
Row = dict[str, Any]


def degrees(units: int) -> str:
    return f"{Decimal(units) / 10**7:f}"


def units(text: str) -> int:
    value = Decimal(text) * 10**7
    assert value == value.to_integral_value(), text
    return int(value)


def fit(it: Any) -> Any:
    """A value with U+FFFD for what no XML can hold."""
    if isinstance(it, str):
        return NOT_XML.sub("\ufffd", it)
    if isinstance(it, dict):
        return {fit(name): fit(value) for name, value in it.items()}
    return [fit(item) for item in it] if isinstance(it, list) else it


def fits(it: Any) -> bool:
    return json.dumps(fit(it)) == json.dumps(it)


# ---- to XML


def add_tags(parent: ET.Element, tags: dict[str, str]) -> None:
    for key, value in tags.items():
        ET.SubElement(parent, "tag", k=key, v=value)


def add_element(parent: ET.Element, row: Row) -> None:
    fields = {name: str(row[name]) for name in ("id", "version", "changeset") if name in row}
    if "lat7" in row:
        fields |= {"lat": degrees(row["lat7"]), "lon": degrees(row["lon7"])}
    it = ET.SubElement(parent, row["type"], fields)
    for ref in row.get("nodes", ()):
        ET.SubElement(it, "nd", ref=str(ref))
    for member in row.get("members", ()):
        ET.SubElement(it, "member", type=member["type"], ref=str(member["ref"]), role=member.get("role", ""))
    add_tags(it, row.get("tags", {}))


def written(root: ET.Element) -> bytes:
    """With the characters escaped that attributes would lose otherwise."""
    text: bytes = ET.tostring(root, encoding="utf-8")
    return text.replace(b"\r", b"&#13;")


def element_xml(row: Row) -> bytes:
    root = ET.Element("osm")
    add_element(root, row)
    return written(root)


def changeset_xml(body: Row) -> bytes:
    root = ET.Element("osm")
    add_tags(ET.SubElement(root, "changeset"), body.get("tags", {}))
    return written(root)


def change_xml(blocks: list[Row]) -> bytes:
    root = ET.Element("osmChange", version="0.6")
    for block in blocks:
        action = next(name for name in ACTIONS if name in block)
        it = ET.SubElement(root, action, {"if-unused": "true"} if block.get("if-unused") else {})
        for row in block[action]:
            add_element(it, row)
    return written(root)


# ---- from XML


def tags_of(it: ET.Element) -> dict[str, str]:
    return {tag.attrib["k"]: tag.attrib["v"] for tag in it.findall("tag")}


def element_of(it: ET.Element) -> Row:
    visible = it.attrib["visible"] == "true"
    row: Row = {"type": it.tag, "visible": visible, "timestamp": it.attrib["timestamp"], "user": it.attrib["user"]}
    row |= {name: int(it.attrib[name]) for name in ("id", "version", "changeset", "uid", "redaction") if name in it.attrib}
    if not visible:
        return row
    row["tags"] = tags_of(it)
    if it.tag == "node":
        row |= {"lat7": units(it.attrib["lat"]), "lon7": units(it.attrib["lon"])}
    elif it.tag == "way":
        row["nodes"] = [int(nd.attrib["ref"]) for nd in it.findall("nd")]
    else:
        members = it.findall("member")
        row["members"] = [{"type": m.attrib["type"], "ref": int(m.attrib["ref"]), "role": m.attrib["role"]} for m in members]
    return row


def changeset_of(it: ET.Element) -> Row:
    row: Row = {name: it.attrib[name] for name in ("created_at", "closed_at", "user") if name in it.attrib}
    row |= {name: int(it.attrib[name]) for name in ("id", "uid", "changes_count")}
    row |= {f"{name.replace('_', '')}7": units(it.attrib[name]) for name in ("min_lat", "min_lon", "max_lat", "max_lon") if name in it.attrib}
    return row | {"open": it.attrib["open"] == "true", "tags": tags_of(it)}


def document_of(text: bytes, single: bool = False) -> Row:
    """What a document of XML says, in the server's form."""
    root = ET.fromstring(text)
    assert root.attrib["version"] == "0.6"
    if root.tag == "diffResult":
        rows: list[Row] = [{"type": it.tag, **{name: int(value) for name, value in it.attrib.items()}} for it in root]
        return {"diffResult": rows, "version": "0.6"}
    if root.tag == "osmChange":
        return {"osmChange": [{block.tag: [element_of(it) for it in block]} for block in root], "version": "0.6"}
    changesets = [changeset_of(it) for it in root.findall("changeset")]
    if single:
        return {"changeset": changesets[0], "version": "0.6"}
    if changesets:
        return {"changesets": changesets, "version": "0.6"}
    found: Row = {"elements": [element_of(it) for it in root if it.tag in KINDS], "version": "0.6"}
    bounds = root.find("bounds")
    if bounds is not None:
        found["bounds"] = {f"{name}7": units(value) for name, value in bounds.attrib.items()}
    return found


# ---- to JSON in degrees, and back


class Plain(float):
    """A decimal that is written as it stands."""

    def __new__(cls, text: str) -> Plain:
        it = super().__new__(cls, float(text))
        it.text = text
        return it

    text: str

    def __repr__(self) -> str:
        return self.text


def json_element(row: Row) -> Row:
    """The element with degrees; decimals as they are, by a float that is never computed with."""
    more = {name[:3]: Plain(f"{Decimal(row[name]) / 10**7:.7f}") for name in ("lat7", "lon7") if name in row}
    return {name: value for name, value in row.items() if name not in ("lat7", "lon7")} | more


def json_body(it: Any) -> bytes:
    return json.dumps(it, ensure_ascii=False).encode()


def element_back(row: Row) -> Row:
    row = dict(row)
    row.setdefault("visible", True)
    for name in ("lat", "lon"):
        if name in row:
            row[f"{name}7"] = units(row.pop(name))
    if row["visible"]:
        row.setdefault("tags", {})
    return row


def json_document_of(text: bytes) -> Row:
    """What a document of JSON says, in the server's form."""
    it: Row = json.loads(text, parse_float=str)
    assert it.pop("generator") == "Hegunsap" and it["version"] == "0.6"
    if "elements" in it:
        it["elements"] = [element_back(row) for row in it["elements"]]
    if "osmChange" in it:
        it["osmChange"] = [{name: [element_back(row) for row in rows] for name, rows in block.items()} for block in it["osmChange"]]
    for row in [*it.get("changesets", []), *([it["changeset"]] if "changeset" in it else [])]:
        assert row.pop("comments_count") == 0
        for name in ("min_lat", "min_lon", "max_lat", "max_lon"):
            if name in row:
                row[f"{name.replace('_', '')}7"] = units(row.pop(name))
    if "bounds" in it:
        it["bounds"] = {f"{name}7": units(value) for name, value in it["bounds"].items()}
    return it
