#!/usr/bin/python3
"""Whether others read what export_osm.py writes: examples/read_by_others.py [--program ./osm] [NAME ..]

A made-up town is loaded, and a box of it written; then each of these programs of Debian has to read the file: osmconvert
counts its elements, tilemaker makes vector tiles by its rules for OpenMapTiles, which take no file without a box in its
head, mkgmap behind its splitter makes a map for Garmin's devices, routino finds a way along a street, and so does pgRouting
in what osm2pgrouting fills of its XML. Status 0 where all is as it must be. Needs Debian's osmctools, tilemaker, mkgmap,
mkgmap-splitter, routino, osm2pgrouting, postgresql-15-pgrouting, python3-pyosmium, python3-tqdm.
"""

from __future__ import annotations

import argparse
import glob
import os
import re
import sqlite3
import subprocess
import sys
import tempfile
from collections import Counter
from contextlib import closing
from functools import partial

import cluster
import osm_file
import serving
from cluster import Cluster
from export_osm import degrees
from map_client import KINDS, Element, Key
from round_trip import SMALL_BOX, USERS, importing, run, url
from serving import Server, Wrong, trial_status

RULES = "/usr/share/doc/tilemaker/examples"
ROUTINO = "/usr/share/routino"
Map = dict[Key, Element]


def run_in(folder: str, *words: str) -> str:
    """What a command in its own folder tells."""
    os.makedirs(folder, exist_ok=True)
    done = subprocess.run(words, capture_output=True, text=True, timeout=300, check=False, cwd=folder)
    if done.returncode:
        raise Wrong(f"{words[0]} ended with status {done.returncode}: {done.stdout[-500:]}{done.stderr[-500:]}")
    return done.stdout + done.stderr


def osmconvert(path: str, elements: Map, folder: str) -> str:
    told = dict(re.findall(r"^(\w+s): (\d+)$", run_in(folder, "osmconvert", path, "--out-statistics"), re.MULTILINE))
    counts = Counter(f"{kind}s" for kind, _ in elements)
    if {name: int(told[name]) for name in counts} != counts:
        raise Wrong(f"osmconvert counts {told}, and there are {counts}")
    return ", ".join(f"{counts[f'{kind}s']} {kind}s" for kind in KINDS)


def tilemaker(path: str, _: Map, folder: str) -> str:
    rules = ["--config", f"{RULES}/config-openmaptiles.json", "--process", f"{RULES}/process-openmaptiles.lua"]
    run_in(folder, "tilemaker", "--input", path, "--output", "tiles.mbtiles", *rules)
    with closing(sqlite3.connect(os.path.join(folder, "tiles.mbtiles"))) as tiles:
        count: int = tiles.execute("SELECT count(*) FROM tiles").fetchone()[0]
    if not count:
        raise Wrong("tilemaker makes no tile")
    return f"{count} tiles"


def mkgmap(path: str, _: Map, folder: str) -> str:
    run_in(folder, "mkgmap-splitter", path)
    told = run_in(folder, "mkgmap", *sorted(glob.glob(f"{folder}/6*.osm.pbf")))
    if "Number of MapFailedExceptions: 0" not in told or not os.path.getsize(f"{folder}/osmmap.img"):
        raise Wrong(f"mkgmap says {told[-500:]}")
    return f"an index and {len(glob.glob(f'{folder}/6*.img'))} map"


def routino(path: str, elements: Map, folder: str) -> str:
    """From one end of a street to the other."""
    run_in(folder, "planetsplitter", "--dir=.", f"--tagging={ROUTINO}/tagging.xml", path)
    street = next(it["nodes"] for it in elements.values() if it["tags"].get("highway") == "residential")
    places: list[str] = []
    for end, node in enumerate((street[0], street[-1]), 1):
        it = elements["node", node]
        places += [f"--lat{end}={degrees(it['lat7'])}", f"--lon{end}={degrees(it['lon7'])}"]
    rules = [f"--{name}={ROUTINO}/{name}.xml" for name in ("profiles", "translations")]
    run_in(folder, "routino-router", "--dir=.", "--transport=foot", "--shortest", "--output-text", *rules, *places)
    with open(os.path.join(folder, "shortest.txt"), encoding="utf-8") as file:
        rows = [line.split("\t") for line in file if not line.startswith("#")]
    if len(rows) < 2:
        raise Wrong("routino finds no way")
    return f"a way of {len(rows)} rows"


def osm2pgrouting(path: str, elements: Map, folder: str) -> str:
    """From one end of a street to the other, over the table that it fills; it reads XML alone."""
    os.makedirs(folder)
    text = os.path.join(folder, "box.osm")
    osm_file.write(text, elements.values())
    street = next(it["nodes"] for it in elements.values() if it["tags"].get("highway") == "residential")
    with tempfile.TemporaryDirectory() as place, Cluster(place) as database:
        database.ask("create extension pgrouting")
        rules = "/usr/share/osm2pgrouting/mapconfig.xml"
        cluster.run(["osm2pgrouting", "--file", text, "--conf", rules, "--dbname", "osm", "--username", "postgres", "--host", database.folder, "--clean"])
        ends = [database.ask(f"select id from ways_vertices_pgr where osm_id = {node}") for node in (street[0], street[-1])]
        rows = database.ask(f"select edge from pgr_dijkstra('select gid as id, source, target, length_m as cost from ways', {ends[0]}, {ends[1]}, false)")
        count = database.ask("select count(*) from ways").strip()
    if len(rows.split()) < 2:
        raise Wrong("pgRouting finds no way")
    return f"{count} rows of ways, and a way of {len(rows.split())}"


PROGRAMS = {it.__name__: it for it in (osmconvert, tilemaker, mkgmap, routino, osm2pgrouting)}


def tried(words: argparse.Namespace) -> None:
    with tempfile.TemporaryDirectory() as folder, Server(words.program, 4, USERS) as server:
        town, path = (os.path.join(folder, name) for name in ("town.osm.pbf", "box.osm.pbf"))
        run("town.py", "--blocks", "6", town)
        run("import_osm.py", *importing(server.port, town))
        run("export_osm.py", "--server", url(server.port), f"--box={SMALL_BOX}", path)
        elements = osm_file.read(path)
        for name in words.names or PROGRAMS:
            print(f"{name}: {PROGRAMS[name](path, elements, os.path.join(folder, name))}", flush=True)


def main() -> int:
    parser = argparse.ArgumentParser(usage=(__doc__ or "").split("\n\n")[0].partition(": ")[2])
    parser.add_argument("--program", default=serving.OSM)
    parser.add_argument("names", nargs="*", choices=[[], *PROGRAMS], default=[], metavar="NAME")
    return trial_status(partial(tried, parser.parse_args()))


if __name__ == "__main__":
    sys.exit(main())
