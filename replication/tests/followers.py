"""OpenStreetMap's own programs as followers of a folder of replication: each is begun with a file and brought up to date."""

from __future__ import annotations

import http.server
import os
import shutil
import socketserver
import threading
from collections.abc import Sequence
from functools import partial

from cluster import Cluster, Failed, run


class Quiet(http.server.SimpleHTTPRequestHandler):
    def log_message(self, format: str, *args: object) -> None:
        pass


class Files:
    """A folder as http files on a free port of the loopback, until the end of a `with`."""

    def __init__(self, folder: str) -> None:
        self.server = socketserver.ThreadingTCPServer(("127.0.0.1", 0), partial(Quiet, directory=folder))
        self.server.daemon_threads = True
        self.url = f"http://127.0.0.1:{self.server.server_address[1]}"
        threading.Thread(target=self.server.serve_forever, daemon=True).start()

    def __enter__(self) -> Files:
        return self

    def __exit__(self, *_: object) -> None:
        self.server.shutdown()
        self.server.server_close()


def by_pyosmium(base: str, out: str) -> None:
    """`pyosmium-up-to-date`, by what the file's head says; 1 is its status where there may be more."""
    shutil.copy(base, out)
    run(["pyosmium-up-to-date", "-vv", out], statuses=(0, 1))


def by_osmosis(base: str, out: str, url: str, state: str, folder: str) -> None:
    """`--read-replication-interval` from the state that the file was made at, then `--apply-change`."""
    os.makedirs(folder)
    shutil.copy(state, os.path.join(folder, "state.txt"))
    with open(os.path.join(folder, "configuration.txt"), "w", encoding="utf-8") as file:
        file.write(f"baseUrl={url}\nmaxInterval=0\n")
    changes = os.path.join(folder, "changes.osc.gz")
    run(["osmosis", "-q", "--read-replication-interval", f"workingDirectory={folder}", "--simplify-change", "--write-xml-change", changes])
    run(["osmosis", "-q", "--read-xml-change", changes, "--read-pbf", base, "--apply-change", "--write-pbf", out, "omitmetadata=false"])


def by_osmupdate(base: str, out: str, url: str, folder: str) -> None:
    """`osmupdate` finds its place by the moment of the file, and has osmconvert apply what is newer."""
    os.makedirs(folder)
    run(["osmupdate", "--sporadic", f"--base-url={url}", f"--tempfiles={folder}/part", base, out], folder=folder)


class Database(Cluster):
    """With the tables of osm2pgsql."""

    def load(self, file: str, prefix: str) -> None:
        words = ["-d", "osm", "-H", self.folder, "-U", "postgres", "--prefix", prefix, "-C", "50", "--number-processes", "1"]
        run(["osm2pgsql", *words, "--create", "--slim", "--hstore-all", "--extra-attributes", file])

    def follow(self, command: str, *words: str, more: Sequence[str] = ()) -> None:
        """A command of osm2pgsql-replication."""
        whose = ["-d", "osm", "-H", self.folder, "-U", "postgres", "--prefix", "planet_osm"]
        run(["osm2pgsql-replication", command, *whose, *words, *(["--", *more] if more else [])])

    def status(self) -> str:
        """What `osm2pgsql-replication status` tells, as JSON."""
        words = ["-q", "-d", "osm", "-H", self.folder, "-U", "postgres", "--prefix", "planet_osm", "--json"]
        return run(["osm2pgsql-replication", "status", *words])

    def rows(self, table: str) -> list[str]:
        return sorted(self.ask(f"select t::text from {table} t").splitlines())


TABLES = ("point", "line", "polygon", "roads", "nodes", "ways", "rels")


def by_osm2pgsql(base: str, wanted: str, folder: str) -> dict[str, int]:
    """Loads the file, follows by osm2pgsql-replication, and compares each table with those of a fresh import; tells of their rows."""
    with Database(folder) as database:
        database.load(base, "planet_osm")
        database.follow("init", "--osm-file", base)
        database.follow("update", more=["-C", "50", "--number-processes", "1", "--hstore-all", "--extra-attributes"])
        database.load(wanted, "fresh")
        counts = {}
        for table in TABLES:
            found, right = database.rows(f"planet_osm_{table}"), database.rows(f"fresh_{table}")
            if found != right:
                wrong = sorted(set(found) ^ set(right))[:4]
                raise Failed(f"table planet_osm_{table}: {len(found)} rows in place of {len(right)}, as {wrong}")
            counts[table] = len(found)
        return counts
