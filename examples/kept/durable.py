#!/usr/bin/env python3
"""What keeping costs: examples/kept/durable.py [--program ./osm] [--links 1,8,64] [--seconds 3] [--disk FOLDER]
    [--beside postgresql,copy]

Needs wrk and strace; PostgreSQL for what is measured beside (Debian's packages wrk, strace, postgresql). All
files are made in a new folder of FOLDER, whose disk is the one that is told of.

- uploads of ten new nodes and a way over them, a second, with a worker for each link: without a journal, with
  one, and by PostgreSQL, which commits the same eleven rows in one statement by pgbench; with one and a copy of
  it, whose keeper is on the same machine and disk; and the syncs that the kernel is asked for, for each upload;
- how long 99 of 100 GETs of a node take on two links while two others upload, without a journal and with one;
- how long a sync takes that follows a write of 2 kB.
"""

from __future__ import annotations

import argparse
import os
import signal
import subprocess
import sys
import tempfile
import time

HERE = os.path.dirname(os.path.abspath(__file__))
sys.path[:0] = [os.path.dirname(HERE), os.path.join(os.path.dirname(HERE), "fleet")]

import load  # noqa: E402
import serving  # noqa: E402
from keeper_run import KeeperRun  # noqa: E402
from serving import Server  # noqa: E402

NAMES = {"postgresql": "PostgreSQL", "copy": "with a copy too"}
SYNCS = ["strace", "-f", "--seccomp-bpf", "-q", "-c", "-e", "trace=fsync,fdatasync"]


class Costs(load.Bench):
    """Loads on a server that keeps a journal, and on one that keeps none."""

    def server(self, workers: int, journal: str = "", program: str = "") -> Server:
        kept = ("--journal", self.path(journal)) if journal else ()
        return Server(program or self.it.program, workers, load.USERS, command=("serve", *kept))

    def path(self, name: str) -> str:
        return os.path.join(self.folder, name)

    def uploads(self, links: int, journal: str = "") -> load.Run:
        with self.server(links, journal) as server:
            self.fill(server.port)
            run = load.load(server.pid, self.words(server.port, load.UPLOAD, links))
        if journal:
            os.remove(self.path(journal))
        return run

    def copied(self, links: int) -> load.Run:
        """With a keeper of the journal's copy."""
        keeper = KeeperRun(self.path("copy"), begins=False)
        try:
            with self.server(links, f"copied.journal+tcp://127.0.0.1:{keeper.port}") as server:
                self.fill(server.port)
                return load.load(server.pid, self.words(server.port, load.UPLOAD, links))
        finally:
            keeper.stop()
            os.remove(self.path("copied.journal"))
            os.remove(self.path("copy"))

    def syncs(self, links: int) -> float:
        """Syncs for each upload, counted by strace, which stops the program at nothing else."""
        counts = self.path("syncs")
        script = self.file("counted", f'#!/bin/sh\nexec {" ".join(SYNCS)} -o {counts} "{self.it.program}" "$@"\n')
        os.chmod(script, 0o755)
        with self.server(links, "counted.journal", script) as server:
            self.fill(server.port)
            run = load.load(server.pid, self.words(server.port, load.UPLOAD, links))
            os.kill(server.pid, signal.SIGTERM)
            server.process.wait()
        os.remove(self.path("counted.journal"))
        with open(counts) as file:
            total = next(line for line in file if line.rstrip().endswith("total"))
        # Each of the requests that fill the map was kept by itself, by one sync.
        return (int(total.split()[3]) - (load.CHANGESETS + 2)) / run.requests

    def reads(self, journal: str = "") -> tuple[load.Run, load.Run]:
        with self.server(4, journal) as server:
            self.fill(server.port)
            with subprocess.Popen(self.words(server.port, load.UPLOAD, 2), stdout=subprocess.PIPE, text=True) as upload:
                beside = load.load(server.pid, load.wrk(server.port, load.GETS["a node"], 2, self.it.uploads))
                uploads = load.told(upload.communicate()[0])
        if journal:
            os.remove(self.path(journal))
        return beside, uploads

    def one_sync(self) -> float:
        """Microseconds of a sync behind a write at the end, the middle one of a thousand."""
        times = []
        with open(self.path("sync"), "wb", buffering=0) as file:
            for _ in range(1000):
                file.write(bytes(2000))
                before = time.perf_counter()
                os.fdatasync(file.fileno())
                times.append(time.perf_counter() - before)
        return sorted(times)[500] * 1e6

    def costs(self) -> None:
        print(f"A sync behind a write of 2 kB takes {self.one_sync():,.0f} us.\n")
        names = ["without a journal", "with one", *(NAMES[it] for it in NAMES if it in self.it.beside)]
        print("| links |", " | ".join(names), "| syncs for an upload |")
        print("|---" * (len(names) + 2) + "|")
        for links in self.it.links:
            runs = [self.uploads(links), self.uploads(links, "loaded.journal")]
            if "postgresql" in self.it.beside:
                self.postgresql(links)
                runs.append(self.runs["PostgreSQL", links, load.UPLOAD])
            if "copy" in self.it.beside:
                runs.append(self.copied(links))
            print(f"| {links} |", " | ".join(map(str, runs)), f"| {self.syncs(links):.2f} |", flush=True)
        print()
        for name, journal in (("Without a journal", ""), ("With one", "read.journal")):
            beside, uploads = self.reads(journal)
            print(
                f"{name} 99 of 100 GETs of a node on two links are answered within {beside.slowest:,.0f} us "
                f"({beside.rate:,.0f} a second), while two others send {uploads.rate:,.0f} uploads a second."
            )


def main() -> None:
    parser = argparse.ArgumentParser(usage=(__doc__ or "").split("\n\n")[0].partition(": ")[2])
    parser.add_argument("--program", default=serving.OSM)
    parser.add_argument("--links", default=[1, 8, 64], type=lambda text: [int(it) for it in text.split(",")])
    parser.add_argument("--seconds", default=3, type=int)
    parser.add_argument("--disk", default=None)
    parser.add_argument("--beside", default=["postgresql"], type=lambda text: text.split(",") if text else [])
    it = parser.parse_args()
    it.uploads, it.workers = it.seconds, it.links
    with tempfile.TemporaryDirectory(dir=it.disk) as folder:
        Costs(it, folder).costs()


if __name__ == "__main__":
    main()
