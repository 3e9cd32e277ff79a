"""Drawn elements through the gateway and back, by a seed: texts of all planes, places at the edges, long ways and relations."""

from __future__ import annotations

import random
import xml.etree.ElementTree as ET

import forms
from behind import ALICE, Gateway, Site, want

SEED, ROUNDS, EACH = 20261129, 12, 40
EDGES7 = {"lat7": 900_000_000, "lon7": 1_800_000_000}
RANGES = ((0x20, 0x7E), (0xA0, 0x24F), (0x370, 0x5FF), (0x900, 0x97F), (0x4E00, 0x4FFF), (0xAC00, 0xAFFF), (0xE000, 0xE0FF), (0xFFF0, 0xFFFD),
          (0x1F300, 0x1F5FF), (0x20000, 0x200FF), (0x10FF00, 0x10FFFF), (0x202A, 0x202E), (0x300, 0x36F), (0x80, 0x9F))  # fmt: skip
SINGLE = "\t\n\r&<>\"'\u2028\u0085\ufeff\\;=%+"


class Drawn:
    def __init__(self, seed: int) -> None:
        self.draw = random.Random(seed)

    def text(self, least: int) -> str:
        length = self.draw.choice((least, 1, 3, 20, 255))
        made = []
        for _ in range(length):
            low, high = self.draw.choice(RANGES)
            made.append(self.draw.choice(SINGLE) if self.draw.random() < 0.15 else chr(self.draw.randint(low, high)))
        return "".join(made)

    def tags(self) -> dict[str, str]:
        return {self.text(1): self.text(0) for _ in range(self.draw.choice((0, 0, 1, 2, 8)))}

    def place(self, name: str) -> int:
        most = EDGES7[name]
        return self.draw.choice((0, 1, -1, most, -most, most - 1, 1 - most, 9_999_999, -10_000_000, *(self.draw.randint(-most, most) for _ in range(9))))

    def node(self) -> forms.Row:
        return {"type": "node", "lat7": self.place("lat7"), "lon7": self.place("lon7"), "tags": self.tags()}

    def way(self, nodes: list[int]) -> forms.Row:
        refs = [self.draw.choice(nodes) for _ in range(self.draw.choice((1, 2, 5, 30, 2000)))]
        return {"type": "way", "nodes": refs, "tags": self.tags()}

    def relation(self, nodes: list[int]) -> forms.Row:
        count = self.draw.choice((0, 1, 3, 1500))
        members = [{"type": "node", "ref": self.draw.choice(nodes), "role": self.text(0) if count < 10 else "x<y"} for _ in range(count)]
        return {"type": "relation", "members": members, "tags": self.tags()}

    def upload(self) -> list[forms.Row]:
        """Creations with placeholders, which later ones name."""
        nodes = [-1 - number for number in range(EACH)]
        rows = [{"id": number, **self.node()} for number in nodes]
        rows += [{"id": -1 - number, **self.way(nodes)} for number in range(EACH // 8)]
        return rows + [{"id": -1 - number, **self.relation(nodes)} for number in range(EACH // 8)]


def named(row: forms.Row, ids: dict[tuple[str, int], int]) -> forms.Row:
    """The row with the ids that its placeholders were given."""
    row = {**row, "id": ids[row["type"], row["id"]]}
    if "nodes" in row:
        row["nodes"] = [ids["node", ref] for ref in row["nodes"]]
    if "members" in row:
        row["members"] = [{**it, "ref": ids[it["type"], it["ref"]]} for it in row["members"]]
    return row


def content(row: forms.Row) -> forms.Row:
    return {name: row[name] for name in ("type", "id", "lat7", "lon7", "nodes", "members", "tags") if name in row}


def uploaded(gateway: Gateway, changeset: int, rows: list[forms.Row], as_json: bool) -> dict[tuple[str, int], int]:
    blocks = [{"create": [{**row, "changeset": changeset} for row in rows]}]
    if as_json:
        degrees = [{"create": [forms.json_element(row) for row in blocks[0]["create"]]}]
        body = forms.json_body({"version": "0.6", "osmChange": degrees})
        done = gateway.well("POST", f"changeset/{changeset}/upload.json", body, ALICE, Content_Type="application/json")
        found = forms.json_document_of(done.encode())
    else:
        found = forms.document_of(gateway.well("POST", f"changeset/{changeset}/upload", forms.change_xml(blocks), ALICE).encode())
    return {(it["type"], it["old_id"]): it["new_id"] for it in found["diffResult"]}


def compare(gateway: Gateway, rows: list[forms.Row]) -> None:
    for kind in forms.KINDS:
        mine = {row["id"]: row for row in rows if row["type"] == kind}
        path = f"{kind}s?{kind}s={','.join(map(str, mine))}"
        for found in (
            forms.document_of(gateway.well("GET", path).encode()),
            forms.json_document_of(gateway.well("GET", path.replace("?", ".json?")).encode()),
        ):
            for row in found["elements"]:
                want(content(row), mine[row["id"]], f"{kind} {row['id']}")
            want(len(found["elements"]), len(mine), f"{kind}s that came back")


def run(program: str) -> str:
    drawn, count = Drawn(SEED), 0
    with Site(program) as gateway:
        changeset = gateway.changeset()
        for number in range(ROUNDS):
            rows = drawn.upload()
            ids = uploaded(gateway, changeset, rows, as_json=number % 2 == 1)
            compare(gateway, [named(row, ids) for row in rows])
            count += len(rows)
        download = gateway.well("GET", f"changeset/{changeset}/download").encode()
        want(len(list(ET.fromstring(download))), count, "blocks of the download")
        same = forms.document_of(download), forms.json_document_of(gateway.well("GET", f"changeset/{changeset}/download.json").encode())
        want(same[0], same[1], "the download as XML and as JSON")
    return f"{count} elements by the seed {SEED}, in as XML and as JSON, out as both"
