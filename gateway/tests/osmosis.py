"""osmosis reads a made-up town by `--read-api`, and osmium reads what comes out: both have to be the town. osmosis uploads changes too."""

from __future__ import annotations

import gzip
import json
import os
import subprocess
import tempfile
from typing import Any

from behind import BOB, TOP, Gateway, Site, want
from serving import Wrong

Row = dict[str, Any]
EXAMPLES = os.path.join(TOP, "examples")
BOX = {"left": "-30.0005", "bottom": "44.9995", "right": "-29.99", "top": "45.01"}


def command(*words: str) -> str:
    """What it writes; of examples/ with a user's token."""
    environment = os.environ | {"HEGUNSAP_TOKEN": "alicetoken"}
    done = subprocess.run(words, capture_output=True, text=True, timeout=300, check=False, env=environment)
    if done.returncode:
        raise Wrong(f"{words[0]} ended with status {done.returncode}: {done.stdout[-800:]}{done.stderr[-1500:]}")
    return done.stdout


def opl(path: str) -> list[str]:
    """The elements of a file, a line each, in osmium's own form and order."""
    sorted_path = f"{path}.sorted.opl"
    command("osmium", "sort", "--overwrite", "-o", sorted_path, path)
    with open(sorted_path, encoding="utf-8") as file:
        return file.read().splitlines()


def loaded(gateway: Gateway, folder: str, server: int) -> None:
    """A small town, by the importer of examples/, straight to the server."""
    town = f"{folder}/town.osm.pbf"
    command(f"{EXAMPLES}/town.py", "--blocks", "4", town)
    command(f"{EXAMPLES}/import_osm.py", "--server", f"http://127.0.0.1:{server}", "--links", "2", town)


def run(program: str) -> str:
    with tempfile.TemporaryDirectory() as folder, Site(program) as gateway:
        loaded(gateway, folder, gateway.server)
        box = ",".join(BOX.values())
        by_gateway, by_osmosis = f"{folder}/gateway.osm", f"{folder}/osmosis.osm"
        text = gateway.well("GET", f"map?bbox={box}")
        with open(by_gateway, "w", encoding="utf-8") as file:
            file.write(text)
        edges = [f"{side}={value}" for side, value in BOX.items()]
        url = f"url=http://127.0.0.1:{gateway.port}/api/0.6"
        command("osmosis", "-q", "--read-api", *edges, url, "--write-xml", by_osmosis)
        rows = opl(by_gateway)
        want(opl(by_osmosis), rows, "what osmosis read")
        if len(rows) < 400:
            raise Wrong(f"the town has {len(rows)} elements alone")
        packed = gateway.api("GET", f"map?bbox={box}", Accept_Encoding="gzip")
        want((packed.fields["Content-Encoding"], gzip.decompress(packed.body).decode()), ("gzip", text), "the map in gzip")
        want(gateway.api("GET", f"map?bbox={box}", Accept_Encoding="deflate").fields["Content-Encoding"], None, "deflate")
        changes = checked(gateway, folder, len(rows))
        uploads(gateway, folder)
    version = command("osmium", "--version").split("\n", 1)[0].split()[-1]
    osmosis = command("dpkg-query", "-W", "-f", "${Version}", "osmosis")
    told = f"osmosis {osmosis} reads {len(rows)} elements as they are, osmium {version} too, and {changes} changes of downloads"
    return f"{told}; osmosis uploads creations, changes and deletions, and ends where one is refused"


def uploaded(gateway: Gateway, folder: str, changes: str) -> Row | None:
    """The changeset that osmosis made of these, or None where it was refused and osmosis ended with it."""
    path = f"{folder}/changes.osc"
    with open(path, "w", encoding="utf-8") as file:
        file.write(f"<osmChange version='0.6'>{changes}</osmChange>")
    words = ["--upload-xml-change", f"server=http://127.0.0.1:{gateway.port}/api/0.6", "user=bob", "password=bobtoken"]
    try:
        command("osmosis", "-q", "--read-xml-change", path, *words)
    except Wrong:
        return None
    rows: list[Row] = json.loads(gateway.well("GET", "changesets.json?display_name=bob&limit=1"))["changesets"]
    return rows[0]


def element(kind: str, fields: str, inner: str = "") -> str:
    """With what osmosis asks of an element and doesn't send on as its own."""
    return f"<{kind} timestamp='2026-01-01T00:00:00Z' uid='7' user='x' changeset='7' {fields}>{inner}</{kind}>"


def uploads(gateway: Gateway, folder: str) -> None:
    tag = "<tag k='name' v='&lt;&amp;&gt;&quot; ü'/>"
    nodes = element("node", "id='-1' version='1' lat='0.25' lon='-0.5'", tag) + element("node", "id='-2' version='1' lat='0.2500001' lon='-0.5'")
    way = element("way", "id='-3' version='1'", "<nd ref='-1'/><nd ref='-2'/>")
    made = uploaded(gateway, folder, f"<create>{nodes}{way}</create>")
    want(made and (made["changes_count"], made["open"], made["tags"]["created_by"]), (3, False, "Osmosis"), "what osmosis created")
    found: list[Row] = json.loads(gateway.well("GET", "map.json?bbox=-0.51,0.24,-0.49,0.26"))["elements"]
    first, second, street = sorted(found, key=lambda it: (it["type"], it["id"]))
    want((first["tags"], first["lat"], street["nodes"]), ({"name": '<&>" ü'}, 0.25, [first["id"], second["id"]]), "its elements")
    changed = element("node", f"id='{first['id']}' version='1' lat='0.26' lon='-0.5'")
    gone = element("way", f"id='{street['id']}' version='1'") + element("node", f"id='{second['id']}' version='1' lat='0' lon='0'")
    made = uploaded(gateway, folder, f"<modify>{changed}</modify><delete>{gone}</delete>")
    want(made and made["changes_count"], 3, "what osmosis changed and deleted")
    want([gateway.api("GET", f"{it['type']}/{it['id']}").status for it in (first, second, street)], [200, 410, 410], "what is left")
    want(uploaded(gateway, folder, f"<modify>{changed}</modify>"), None, "a version of before")


def checked(gateway: Gateway, folder: str, least: int) -> int:
    """What osmium says of the map and of a changeset's download."""
    info: Any = command("osmium", "fileinfo", "-e", "-g", "data.count.nodes", f"{folder}/gateway.osm")
    if not 0 < int(info) < least:
        raise Wrong(f"osmium counts {info} nodes of {least} elements")
    command("osmium", "check-refs", f"{folder}/gateway.osm")
    changeset = gateway.changeset(BOB)
    body = f'<osmChange><create><node id="-1" changeset="{changeset}" lat="0.5" lon="0.5"/></create></osmChange>'
    gateway.well("POST", f"changeset/{changeset}/upload", body, BOB)
    with open(f"{folder}/one.osc", "w", encoding="utf-8") as file:
        file.write(gateway.well("GET", f"changeset/{changeset}/download"))
    with open(f"{folder}/first.osc", "w", encoding="utf-8") as file:
        file.write(gateway.well("GET", "changeset/1/download"))
    counts = [int(command("osmium", "fileinfo", "-e", "-g", "data.count.nodes", f"{folder}/{name}.osc")) for name in ("one", "first")]
    want(counts[0], 1, "nodes of a download")
    return sum(counts)
