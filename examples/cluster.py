"""A cluster of PostgreSQL of a trial's own, with PostGIS, and the programs that work on it."""

from __future__ import annotations

import os
import pwd
import subprocess
from collections.abc import Sequence
from typing import Self

from serving import Wrong

POSTGRES = "/usr/lib/postgresql/15/bin"


class Failed(Wrong):
    """A program ended with another status than 0."""


def run(words: Sequence[str], statuses: Sequence[int] = (0,), user: str = "", folder: str | None = None) -> str:
    before = ["runuser", "-u", user, "--"] if user and os.geteuid() == 0 else []
    done = subprocess.run([*before, *words], capture_output=True, text=True, timeout=300, check=False, cwd=folder)
    if done.returncode not in statuses:
        raise Failed(f"{' '.join(words)} ended with status {done.returncode}: {done.stdout[-800:]}{done.stderr[-1500:]}")
    return done.stdout


class Cluster:
    """Until the end of a `with`; of the user postgres where this is root."""

    def __init__(self, folder: str) -> None:
        self.folder = os.path.join(folder, "postgres")
        os.makedirs(self.folder)
        if os.geteuid() == 0:
            os.chmod(folder, 0o711)
            os.chown(self.folder, pwd.getpwnam("postgres").pw_uid, -1)
        self.data = os.path.join(self.folder, "data")

    def postgres(self, name: str, *words: str) -> str:
        return run([os.path.join(POSTGRES, name), *words], user="postgres", folder=self.folder)

    def __enter__(self) -> Self:
        self.postgres("initdb", "-D", self.data, "-A", "trust", "-U", "postgres")
        options = f"-c listen_addresses='' -c unix_socket_directories='{self.folder}' -c fsync=off"
        self.postgres("pg_ctl", "-D", self.data, "-o", options, "-l", os.path.join(self.folder, "log"), "-w", "start")
        self.ask("create database osm", "postgres")
        self.ask("create extension postgis; create extension hstore")
        return self

    def __exit__(self, *_: object) -> None:
        self.postgres("pg_ctl", "-D", self.data, "-m", "immediate", "stop")

    def ask(self, query: str, database: str = "osm") -> str:
        return self.postgres("psql", "-h", self.folder, "-U", "postgres", "-d", database, "-v", "ON_ERROR_STOP=1", "-Atqc", query)
