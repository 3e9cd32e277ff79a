#!/usr/bin/env python3
"""Figures under load: examples/load.py [--program ./osm] [--workers 1,4] [--seconds 5] [--uploads 3]
    [--beside rust,nginx,postgresql]

Needs wrk and strace; rustc, nginx and PostgreSQL for what is measured beside (Debian's packages wrk, strace,
nginx-light, postgresql). Everything goes over the loopback, for `seconds` each, uploads for `uploads`
seconds, since they fill memory. Prints tables for docs/FIGURES.md. A link of wrk for each worker.

- a node, ten nodes and the map of 200 nodes, about 40 kB: GETs of the same; nginx and the plain server of
  baseline/ answer the very bodies that the program gave, nginx from files, the plain server from memory;
- an upload of ten new nodes and a way over them; PostgreSQL does one statement with the same eleven rows,
  committed to the disk, by pgbench.
"""

from __future__ import annotations

import argparse
import glob
import os
import re
import shutil
import signal
import subprocess
import sys
import tempfile
import time
from typing import NamedTuple

import serving
from serving import Link, Server, connect, family, free_port, request, takes_links, wait_for_answer

TOKEN = "alicetoken"
USERS = f"1 {TOKEN} user alice\n"
HERE = os.path.dirname(os.path.abspath(__file__))
GETS = {
    "a node": "node/1",
    "ten nodes": "nodes?nodes=1,2,3,4,5,6,7,8,9,10",
    "a map of 40 kB": "map?bbox=11.5,48.1,11.6,48.2",
}
UPLOAD = "an upload of 11"
CHANGESETS = 600
LUA = """
local threads = 0
function setup(thread) thread:set("number", threads); threads = threads + 1 end
function init(args)
  math.randomseed(number + 1)
  at, left, turn, bodies = tonumber(args[1]) + number * tonumber(args[2]), 900, 0, {}
  for k = 1, 500 do
    local parts = {}
    for i = 1, 10 do
      parts[i] = string.format('{"type":"node","id":-%d,"lat7":%d,"lon7":%d}', i, 480000000 + math.random(1000000), 110000000 + math.random(1000000))
    end
    parts[11] = '{"type":"way","id":-1,"nodes":[-1,-2,-3,-4,-5,-6,-7,-8,-9,-10]}'
    bodies[k] = '{"osmChange":[{"create":[' .. table.concat(parts, ",") .. ']}]}'
  end
end
function request()
  if left == 0 then at, left = at + 1, 900 end
  left, turn = left - 1, turn % 500 + 1
  return wrk.format("POST", "/api/0.6/changeset/" .. at .. "/upload", {["Authorization"] = "Bearer alicetoken"}, bodies[turn])
end
"""
NGINX = """
%s worker_processes %d; daemon off; pid nginx.pid; error_log stderr crit;
events { worker_connections 1024; }
http {
  access_log off; default_type application/json; keepalive_requests 1000; tcp_nodelay on; sendfile on;
  open_file_cache max=100; open_file_cache_valid 1h;
  client_body_temp_path t; proxy_temp_path t; fastcgi_temp_path t; uwsgi_temp_path t; scgi_temp_path t;
  server { listen 127.0.0.1:%d; %s }
}
"""
SCHEMA = """
create table nodes (id bigserial primary key, version int, changeset bigint, lat7 int, lon7 int);
create table ways (id bigserial primary key, version int, changeset bigint, nodes bigint[]);
"""
INSERT = (
    "with made as (insert into nodes (version, changeset, lat7, lon7) values "
    + ",".join("(1, 1, 480000000 + random() * 1000000, 110000000 + random() * 1000000)" for _ in range(10))
    + " returning id) insert into ways (version, changeset, nodes) select 1, 1, array_agg(id) from made;\n"
)


class Run(NamedTuple):
    """What came of a load: requests, those of them that weren't answered with 200, and times in microseconds."""

    requests: int
    refused: int
    rate: float
    user: float = 0
    system: float = 0
    slowest: float = 0

    def __str__(self) -> str:
        wrong = f" ({self.refused} refused)" if self.refused else ""
        return f"{self.rate:,.0f}{wrong}; {self.user:.1f} + {self.system:.1f}"


def seconds(pid: int) -> tuple[float, float]:
    """The processor time of a process, its children and those that ended."""
    sums = [0.0, 0.0]
    for it in family(pid):
        with open(f"/proc/{it}/stat") as file:
            fields = [int(field) for field in file.read().rpartition(")")[2].split()[11:15]]
        for i in (0, 1):
            sums[i] += (fields[i] + fields[i + 2]) / serving.TICKS
    return sums[0], sums[1]


def micros(text: str) -> float:
    number, unit = re.fullmatch(r"([\d.]+)(us|ms|s|m)", text).groups()  # type: ignore[union-attr]
    return float(number) * {"us": 1, "ms": 1e3, "s": 1e6, "m": 6e7}[unit]


def threads_for(links: int) -> int:
    return max(1, min(links // 2, os.cpu_count() or 1))


def wrk(port: int, path: str, links: int, time_s: int, *more: str) -> list[str]:
    url = f"http://127.0.0.1:{port}/api/0.6/{path}"
    return ["wrk", f"-t{threads_for(links)}", f"-c{links}", f"-d{time_s}s", "--latency", *more[:2], url, *more[2:]]


def uploads_in_quarter(port: int, folder: str, place: int, links: int, time_s: int) -> Run:
    """Uploads for so long, in that quarter of the changesets."""
    script, share = os.path.join(folder, "upload.lua"), CHANGESETS // 4
    with open(script, "w", encoding="utf-8") as file:
        file.write(LUA)
    line = wrk(port, "", links, time_s, "-s", script, str(1 + place * share), str(share // threads_for(links)))
    return told(subprocess.run(line, capture_output=True, text=True, check=True).stdout)


def told(text: str) -> Run:
    found = re.search(r"(\d+) requests in", text), re.search(r"Requests/sec: +([\d.]+)", text), re.search(r" 99% +(\S+)", text)
    refused = re.search(r"Non-2xx or 3xx responses: (\d+)", text)
    errors = re.search(r"Socket errors: .*", text)
    if errors:
        print(errors.group(), file=sys.stderr)
    count, rate, slowest = (it.group(1) for it in found if it)
    return Run(int(count), int(refused.group(1)) if refused else 0, float(rate), slowest=micros(slowest))


def load(pid: int, words: list[str]) -> Run:
    before = seconds(pid)
    run = told(subprocess.run(words, capture_output=True, text=True, check=True).stdout)
    after = seconds(pid)
    user, system = ((after[i] - before[i]) * 1e6 / max(run.requests, 1) for i in (0, 1))
    return run._replace(user=user, system=system)


def calls(pid: int, words: list[str], folder: str) -> float:
    """System calls a request, while strace counts them."""
    path = os.path.join(folder, "strace")
    attached = [word for it in family(pid) for word in ("-p", str(it))]
    with subprocess.Popen(["strace", "-c", "-f", "-q", "-o", path, *attached], stderr=subprocess.DEVNULL) as strace:
        time.sleep(1)
        run = told(subprocess.run(words, capture_output=True, text=True, check=True).stdout)
        strace.send_signal(signal.SIGINT)
    with open(path) as file:
        total = next(line for line in file if line.rstrip().endswith("total"))
    return int(total.split()[3]) / max(run.requests, 1)


class Bench:
    def __init__(self, it: argparse.Namespace, folder: str) -> None:
        self.it, self.folder = it, folder
        self.bodies: dict[str, str] = {}
        self.script = self.file("upload.lua", LUA)
        self.runs: dict[tuple[str, int, str], Run] = {}
        self.calls: dict[tuple[str, str], float] = {}

    def file(self, name: str, text: str) -> str:
        path = os.path.join(self.folder, name)
        with open(path, "w") as file:
            file.write(text)
        return path

    def words(self, port: int, what: str, links: int, half: int = 0) -> list[str]:
        """The load; uploads go to one half of the changesets, of which each of wrk's threads has its share."""
        if what == UPLOAD:
            first, share = 2 + half * CHANGESETS // 2, CHANGESETS // 2 // threads_for(links)
            return wrk(port, "", links, self.it.uploads, "-s", self.script, str(first), str(share))
        return wrk(port, GETS[what], links, self.it.seconds)

    def measure(self, name: str, pid: int, port: int, workers: int, what: list[str]) -> None:
        for it in what:
            words = self.words(port, it, workers)
            self.runs[name, workers, it] = load(pid, words)
            print(name, workers, it, self.runs[name, workers, it], file=sys.stderr)
            if workers == min(self.it.workers):
                self.calls[name, it] = calls(pid, self.words(port, it, workers, 1), self.folder)

    # ---- the program

    def fill(self, port: int, gap: int = 5000) -> None:
        """The nodes that are read, and changesets for uploads from number 2 on."""
        link = Link(port, TOKEN)
        link.ask("PUT", "changeset/create")
        nodes = [{"type": "node", "id": -i, "lat7": 481000000 + i * gap, "lon7": 115000000 + i * gap} for i in range(1, 201)]
        link.ask("POST", "changeset/1/upload", {"osmChange": [{"create": nodes}]})
        for _ in range(CHANGESETS):
            link.ask("PUT", "changeset/create")
        self.bodies = {path: link.ask("GET", path).body.decode() for path in GETS.values()}
        link.close()

    def program(self, workers: int) -> None:
        with Server(self.it.program, workers, USERS) as server:
            self.fill(server.port)
            self.measure("Hegunsap", server.pid, server.port, workers, [*GETS, UPLOAD])
            print(f"Hegunsap holds {server.megabytes():.0f} MB", file=sys.stderr)

    def beside_an_upload(self, workers: int) -> str:
        """The slowest of a hundred GETs on all links but one, alone and while that one uploads."""
        with Server(self.it.program, workers, USERS) as server:
            self.fill(server.port)
            read = wrk(server.port, GETS["a node"], workers - 1, self.it.uploads)
            alone = load(server.pid, read)
            with subprocess.Popen(self.words(server.port, UPLOAD, 1), stdout=subprocess.PIPE, text=True) as upload:
                beside = load(server.pid, read)
                uploads = told(upload.communicate()[0])
        return (
            f"99 of 100 GETs of a node on {workers - 1} links are answered within {alone.slowest:.0f} us, "
            f"and within {beside.slowest:.0f} us while a link sends {uploads.rate:,.0f} uploads a second."
        )

    def idle(self) -> str:
        with Server(self.it.program, 64, USERS) as server:
            streams = [connect(server.port) for _ in range(64)]
            for stream in streams:
                stream.sendall(request("GET", "node/1"))
                stream.recv(1000)
            held = server.megabytes()
            for stream in streams:
                stream.close()
        return f"64 workers with an idle link each hold {held:.1f} MB."

    # ---- what is measured beside it

    def started(self, words: list[str], port: int) -> subprocess.Popen[bytes]:
        process = subprocess.Popen(words, cwd=self.folder)
        wait_for_answer(words[0], process, lambda: takes_links(port))
        return process

    def rust(self, workers: int) -> None:
        program = os.path.join(self.folder, "baseline")
        if not os.path.exists(program):
            source = os.path.join(HERE, "baseline", "server.rs")
            subprocess.run(["rustc", "--edition", "2021", "-O", "-o", program, source], check=True)
        replies = self.file("replies", "".join(f"/api/0.6/{path} {body}\n" for path, body in self.bodies.items()))
        port = free_port()
        process = self.started([program, f"127.0.0.1:{port}", str(workers), replies], port)
        self.measure("plain Rust", process.pid, port, workers, [*GETS, UPLOAD])
        process.terminate()
        process.wait()

    def nginx(self, workers: int) -> None:
        places = ""
        for i, (path, body) in enumerate(self.bodies.items()):
            places += f"location = /api/0.6/{path.partition('?')[0]} {{ alias {self.file(f'body{i}', body)}; }} "
        port = free_port()
        conf = self.file("nginx.conf", NGINX % ("user root;" if os.geteuid() == 0 else "", workers, port, places))
        process = self.started(["nginx", "-p", self.folder, "-c", conf], port)
        self.measure("nginx", process.pid, port, workers, list(GETS))
        process.terminate()
        process.wait()

    def postgresql(self, workers: int) -> None:
        tools = sorted(glob.glob("/usr/lib/postgresql/*/bin"))[-1]
        data = os.path.join(self.folder, "postgres")
        user = ["setpriv", "--reuid=postgres", "--regid=postgres", "--clear-groups"] if os.geteuid() == 0 else []
        where = ["-h", data, "-U", "postgres"]
        if not os.path.exists(data):
            os.chmod(self.folder, 0o755)
            os.mkdir(data)
            if user:
                shutil.chown(data, "postgres")
            subprocess.run([*user, f"{tools}/initdb", "-D", f"{data}/data", "-U", "postgres", "-A", "trust"], check=True, stdout=subprocess.DEVNULL)
        start = [*user, f"{tools}/postgres", "-D", f"{data}/data", "-k", data, "-c", "listen_addresses="]
        process = subprocess.Popen(start, stderr=subprocess.DEVNULL)
        ready = [f"{tools}/pg_isready", *where]
        wait_for_answer("PostgreSQL", process, lambda: not subprocess.run(ready, stdout=subprocess.DEVNULL).returncode)
        subprocess.run(["psql", "-q", *where, "-c", "drop table if exists nodes, ways;" + SCHEMA], check=True, stderr=subprocess.DEVNULL)
        before = seconds(process.pid)
        words = ["pgbench", "-n", "-M", "prepared", "-f", self.file("insert.sql", INSERT), "-T", str(self.it.seconds)]
        words += ["-c", str(workers), "-j", str(workers), *where, "postgres"]
        text = subprocess.run(words, capture_output=True, text=True, check=True).stdout
        time.sleep(0.2)
        count = int(re.search(r"actually processed: (\d+)", text).group(1))  # type: ignore[union-attr]
        user_s, system_s = ((b - a) * 1e6 / count for a, b in zip(before, seconds(process.pid)))
        rate = float(re.search(r"tps = ([\d.]+)", text).group(1))  # type: ignore[union-attr]
        self.runs["PostgreSQL", workers, UPLOAD] = Run(count, 0, rate, user_s, system_s)
        process.send_signal(signal.SIGINT)
        process.wait()

    # ---- all of it

    def tell(self) -> None:
        names = list(dict.fromkeys(name for name, _, _ in self.runs))
        print("Requests a second; microseconds of processor time a request, of the program itself + of the kernel:\n")
        print("| what | workers and links |", " | ".join(names), "|")
        print("|---" * (len(names) + 2) + "|")
        for what in (*GETS, UPLOAD):
            for workers in self.it.workers:
                cells = [str(self.runs.get((name, workers, what), "")) for name in names]
                print(f"| {what} | {workers} |", " | ".join(cells), "|")
        print(f"\nSystem calls a request, with workers and links: {min(self.it.workers)}; those of new links among them:\n")
        names = list(dict.fromkeys(name for name, _ in self.calls))
        print("| what |", " | ".join(names), "|")
        print("|---" * (len(names) + 1) + "|")
        for what in (*GETS, UPLOAD):
            cells = [f"{self.calls[name, what]:.2f}" if (name, what) in self.calls else "" for name in names]
            print(f"| {what} |", " | ".join(cells), "|")

    def all(self) -> None:
        for workers in self.it.workers:
            self.program(workers)
            for name in self.it.beside:
                getattr(self, name)(workers)
        self.tell()
        if max(self.it.workers) > 1:
            print("\n" + self.beside_an_upload(max(self.it.workers)))
        print("\n" + self.idle())


def main() -> None:
    parser = argparse.ArgumentParser(usage=(__doc__ or "").split("\n\n")[0].partition(": ")[2])
    parser.add_argument("--program", default=serving.OSM)
    parser.add_argument("--workers", default=[1, 4], type=lambda text: [int(it) for it in text.split(",")])
    parser.add_argument("--seconds", default=5, type=int)
    parser.add_argument("--uploads", default=3, type=int)
    parser.add_argument("--beside", default=["rust", "nginx", "postgresql"], type=lambda text: text.split(",") if text else [])
    with tempfile.TemporaryDirectory() as folder:
        Bench(parser.parse_args(), folder).all()


if __name__ == "__main__":
    main()
