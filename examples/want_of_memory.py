#!/usr/bin/env python3
"""Want of memory: examples/want_of_memory.py [--program crates/osm/out/osm] [--parts measure,export,replay,pipe,file,hub,serve]
    [--first 1] [--last 0] [--step 1] [--jobs 3] [--lasting]

Refuses the Nth request for memory of the program, one N a run, for each N from `first` on, up to `last` or to the
last that a run makes. refuse_memory.c is compiled with cc and preloaded, so PROGRAM is the program itself.
`lasting` refuses all requests behind the Nth too.

measure  the generated load of seed 1, with 2 sessions and 20 uploads, at one desk over a book
export   the journal of that load; replay reads it
pipe     every call and every refusal on one link, each sent once the reply before it came
file     the same from a file, all at once
hub      the same load as `measure`, by two links of `serve`, so by two sessions of one hub, in order
serve    every call, by two links in turn

A request that is refused for want of memory, or whose link ended, is asked again, but not in `file` and `hub`.
All other replies must then be those of a run without refusal, byte for byte (of `serve` but for moments); or,
where the refused request is a command that this run accepts, those of a run without refusal in which it is sent
twice: then it was kept. In `file` this holds of the replies before the first 503. In `hub` the entries and the refused
replies are all replies, or one more. Each run must end within 10 seconds with a documented status, and no reply
may be cut. Status 0 where all of it holds, 1 where something doesn't.
"""

from __future__ import annotations

import argparse
import collections
import multiprocessing
import os
import re
import signal
import socket
import subprocess
import sys
import tempfile
import time
from collections.abc import Callable, Iterator
from contextlib import contextmanager
from typing import Any, NamedTuple

from serving import Lost, Replies, Reply, Wrong, connect, free_port, request

HERE = os.path.dirname(os.path.abspath(__file__))
USERS = b"1 alicetoken user alice\n2 bobtoken moderator bob\n"
LOAD = ["--seed", "1", "--sessions", "2", "--uploads", "20"]
WAIT = 10.0
NO_MEMORY = 5
MOMENTS = re.compile(rb'"(\w+_at|timestamp)":"[^"]*"')
# What a piece of the feed tells of the moment, and of the session of the worker whose turn it was.
ENTERED = re.compile(rb'"(at|session)":\d+')


# ---- what is sent


def call(line: str) -> bytes:
    """The request of a line `WHO METHOD PATH BODY`, as docs/API.md has them."""
    who, method, path, *body = line.split(" ", 3)
    return request(method, path, {"nobody": ""}.get(who, f"{who}token"), body[0].encode() if body else None)


def calls() -> Iterator[bytes]:
    """Every call once: the session at the end of docs/API.md."""
    with open(os.path.join(HERE, "..", "docs", "API.md"), encoding="utf-8") as file:
        lines = file.read().rpartition("```\n")[0].rpartition("```\n")[2].splitlines()
    return map(call, lines[::2])


def created(element: str) -> str:
    return 'alice POST changeset/2/upload {"osmChange":[{"create":[%s]}]}' % element


def node(members: str = "") -> str:
    return '{"type":"node","id":-1,"lat7":481400000,"lon7":115400000%s}' % members


REFUSED = [
    "alice PUT changeset/create",
    "nobody GET nowhere",
    "alice POST node/1",
    "nobody GET node/x",
    "nobody GET map",
    "alice PUT changeset/create <osm/>",
    "nobody PUT changeset/create",
    "stranger GET node/1",
    'alice POST redactions {"title":"private"}',
    "alice PUT changeset/create {",
    'alice POST changeset/2/upload {"osmChange":[{"create":[],"delete":[]}]}',
    created('{"type":"node","id":1,"lat7":1,"lon7":1}'),
    created(f"{node()},{node()}"),
    created('{"type":"way","id":-1,"nodes":[-5]}'),
    'alice POST changeset/2/upload {"osmChange":[{"modify":[{"type":"node","id":1,"lat7":1,"lon7":1}]}]}',
    created(node(',"tags":{"":"x"}')),
    created(node(',"tags":{"a":"%s"}' % ("x" * 256))),
    created('{"type":"way","id":-1,"nodes":[]}'),
    created('{"type":"way","id":-1,"nodes":[%s]}' % ",".join(["1"] * 2001)),
    created('{"type":"relation","id":-1,"members":[{"type":"node","ref":1,"role":"%s"}]}' % ("x" * 256)),
    created('{"type":"node","id":-1,"lat7":900000001,"lon7":1}'),
    created(node(',"changeset":3')),
    'alice POST changeset/77/upload {"osmChange":[]}',
    'bob POST changeset/2/upload {"osmChange":[]}',
    'alice POST changeset/1/upload {"osmChange":[]}',
    "nobody GET node/77",
    "nobody GET node/1/77",
    "nobody GET node/1/1",
    "bob POST node/1/1/redact?redaction=77",
    "bob POST node/1/2/redact?redaction=1",
    "nobody GET map?bbox=0,0,10,10",
    created(node(',"tags":{"natural":"tree","note":"\\u00e9\\n"}') + ',{"type":"way","id":-1,"nodes":[-1,1]}'),
    'alice DELETE node/3 {"changeset":2,"version":1}',
    'alice DELETE node/2 {"changeset":2,"version":2}',
    'alice PUT node/1 {"changeset":2,"version":1,"lat7":1,"lon7":1}',
    'alice PUT way/create {"changeset":2,"nodes":[77]}',
    'alice POST changeset/2/upload {"osmChange":[{"delete":[{"type":"node","id":3,"version":1}],"if-unused":true}]}',
    "nobody GET changesets?open=true&bbox=11,48,12,49",
    "nobody GET changeset/2/download",
]
CODED = b"GET /api/0.6/node/1 HTTP/1.1\r\nTransfer-Encoding: chunked\r\n\r\n"


def load() -> list[bytes]:
    """The load of seed 1 with two sessions and twenty uploads, as the program makes it. Both send in turn."""
    made, number = [], 1
    for user in (1, 2):
        made.append(b"PUT /api/0.6/changeset/create HTTP/1.1\r\nAuthorization: Bearer t%d\r\n\r\n" % user)
    for i in range(20):
        nodes = ""
        for place in range(1, 11):
            number = (number * 6364136223846793005 + 1442695040888963407) % 2**64
            lat7, lon7 = 480_000_000 + (number >> 40) % 1_000_000, 110_000_000 + (number >> 20) % 1_000_000
            nodes += '{"type":"node","id":-%d,"lat7":%d,"lon7":%d},' % (place, lat7, lon7)
        way = '{"type":"way","id":-1,"nodes":[-1,-2,-3,-4,-5,-6,-7,-8,-9,-10]}'
        body = ('{"osmChange":[{"create":[%s%s]}]}' % (nodes, way)).encode()
        head = b"POST /api/0.6/changeset/%d/upload HTTP/1.1\r\nAuthorization: Bearer t%d\r\nContent-Length: %d\r\n\r\n"
        made.append(head % (i % 2 + 1, i % 2 + 1, len(body)) + body)
    return made


# ---- the program, with a request for memory refused


class OneThread(Exception):
    """One thread serves both links, one after the other."""


class Setting(NamedTuple):
    program: str
    folder: str
    lasting: bool


class Part:
    """One way of using the program."""

    def __init__(self, it: Setting) -> None:
        self.it, self.reached = it, False

    @contextmanager
    def started(self, at: int, words: list[str], **streams: Any) -> Iterator[subprocess.Popen[bytes]]:
        """The program with the request of that number refused, none where it is 0. It doesn't outlive the block."""
        told, tells = os.pipe()
        names = {"LD_PRELOAD": f"{self.it.folder}/refuse.so", "REFUSE_AT": str(at), "REFUSE_TELL": str(tells)}
        names.update({"REFUSE_ALL": ""} if self.it.lasting else {})
        process = subprocess.Popen([self.it.program, *words], env={**os.environ, **names}, pass_fds=[tells], **streams)
        os.close(tells)
        try:
            yield process
        finally:
            process.kill()
            process.wait()
            if at:
                self.reached = os.read(told, 1) == b"r"
            os.close(told)

    def run(self, at: int) -> tuple[bool, str]:
        """Whether the run made so many requests for memory, and what came of it."""
        try:
            what = self.outcome(at)
        except Wrong as why:
            what = f"wrong: {why}"
        except OneThread:
            what = "a thread wasn't started: a link waits until the other one ends, and is then answered"
        except (TimeoutError, subprocess.TimeoutExpired):
            what = "wrong: nothing for 10 s"
        return self.reached, what

    def outcome(self, at: int) -> str:
        raise NotImplementedError


def status_of(process: subprocess.Popen[bytes]) -> int:
    status = process.wait(WAIT)
    if status < 0:
        raise Wrong(f"it was ended by {signal.Signals(-status).name}")
    return status


class Alone(Part):
    """A command that reads all that it reads before it writes: status 0 with its whole output, or 5 with none."""

    words: list[str]
    read = "empty"

    def __init__(self, it: Setting) -> None:
        super().__init__(it)
        self.usual = self.output_of(0)

    def output_of(self, at: int) -> tuple[int, bytes]:
        with open(f"{self.it.folder}/{self.read}", "rb") as file:
            with self.started(at, self.words, stdin=file, stdout=subprocess.PIPE) as process:
                output, _ = process.communicate(timeout=WAIT)
                return status_of(process), output

    def outcome(self, at: int) -> str:
        status, output = self.output_of(at)
        if (status, output) == self.usual:
            return f"status {status}, all as usual"
        if status == NO_MEMORY and not output:
            return "status 5, nothing written"
        return self.other(status, output)

    def other(self, status: int, output: bytes) -> str:
        raise Wrong(f"status {status}, {output[:200]!r}")


class Export(Alone):
    words = ["export", *LOAD]


class Replay(Alone):
    words = ["replay"]
    read = "journal"


class Measure(Alone):
    words = ["measure", *LOAD]

    def other(self, status: int, output: bytes) -> str:
        told = dict(line.split(" ", 1) for line in output.decode().splitlines())
        sum_of = int(told.get("entries", -1)) + int(told.get("refused", -1))
        if status != 0 or sum_of != 22:
            raise Wrong(f"status {status}, {output!r}")
        return "status 0, replies refused, and entries and these are all replies"


# ---- requests and their replies


class Told(NamedTuple):
    """The last reply to each request, None where its link ended without one, and how requests were refused for
    want of memory."""

    replies: list[Reply | None]
    refused: dict[int, str]


def refusal(reply: Reply | None) -> str:
    if reply is None:
        return "link ended without a reply"
    return ("503 with close" if reply.closes else "503") if reply.status == 503 else ""


def ways_of(told: Told) -> str:
    return ", ".join(sorted(set(told.refused.values())))


def converse(ask: Callable[[int, bytes], Reply | None], asked: list[bytes], again: bool, twice: int) -> Told:
    """Asks one after the other; again what was refused for want of memory, where that is said, and that of the
    number `twice`. `ask` raises Lost where nothing more can be asked."""
    told = Told([], {})
    try:
        for i, one in enumerate(asked):
            reply = ask(i, one)
            if refusal(reply):
                told.refused[i] = refusal(reply)
            if i == twice or (again and refusal(reply)):
                reply = ask(i, one)
            told.replies.append(reply)
    except Lost:
        pass
    return told


def plain(reply: Reply) -> tuple[int, bytes, bool]:
    return reply.status, ENTERED.sub(rb'"\1":0', MOMENTS.sub(rb'"\1":""', reply.body)), reply.closes


def differing(told: Told, usual: Told) -> int | None:
    """The first request whose reply is neither as usual nor one for want of memory."""
    for i, (reply, other) in enumerate(zip(told.replies, usual.replies)):
        if reply and other and reply.status != 503 and plain(reply) != plain(other):
            return i
    return None


def next_of(stream: socket.socket, replies: Replies, asked: bytes) -> Reply | None:
    """The reply to a request, None where the link ends without one."""
    try:
        stream.sendall(asked)
        return replies.next()
    except TimeoutError:
        raise
    except (OSError, Lost):
        nothing_held(replies)
        return None


def nothing_held(replies: Replies) -> None:
    if replies.held:
        raise Wrong(f"a reply is cut, or was not asked for: {replies.held[:100]!r}")


class Talk(Part):
    """Requests that are each sent once the reply before it came."""

    asked: list[bytes]
    words: list[str]

    def __init__(self, it: Setting) -> None:
        super().__init__(it)
        self.usual, self.usual_status = self.talk(0, False)

    def talk(self, at: int, again: bool, twice: int = -1) -> tuple[Told, int | None]:
        """What came, and the status, None where the program runs on."""
        raise NotImplementedError

    def outcome(self, at: int) -> str:
        told, status = self.talk(at, True)
        whole = len(told.replies) == len(self.asked)
        if status != NO_MEMORY and (status != self.usual_status or not whole):
            raise Wrong(f"status {status} after {len(told.replies)} replies")
        if not any(told.replies) and status == NO_MEMORY:
            return "status 5 before any reply"
        end = "" if status != NO_MEMORY else ", status 5 at the end" if whole else ", status 5"
        return self.what_of(at, told, whole) + end

    def what_of(self, at: int, told: Told, whole: bool) -> str:
        how = ways_of(told)
        if self.it.lasting:
            return how or "nothing refused"
        if (wrong := differing(told, self.usual)) is not None:
            return self.kept(at, told, wrong)
        return f"{how}, asked again, then all as usual" if how and whole else how or "all as usual"

    def kept(self, at: int, told: Told, wrong: int) -> str:
        """What was refused is an accepted command, and all is as where nothing is refused and that is asked twice."""
        refused = next(iter(told.refused), 0)
        other, _ = self.talk(0, False, refused)
        usual = self.usual.replies[refused]
        is_command = not self.asked[refused].startswith(b"GET") and usual and usual.status == 200
        if not is_command or len(told.refused) != 1 or differing(told, other) is not None:
            raise Wrong(f"reply {wrong} is {told.replies[wrong]}, and refused were {told.refused}")
        return f"{ways_of(told)}, and the command was kept, once and whole"


class Pipe(Talk):
    asked = [*calls(), *map(call, REFUSED), CODED]

    def talk(self, at: int, again: bool, twice: int = -1) -> tuple[Told, int | None]:
        ours, its = socket.socketpair()
        words = ["pipe", "--at", "1700000000", "--users", f"{self.it.folder}/users"]
        with ours, self.started(at, words, stdin=its, stdout=its) as process:
            its.close()
            ours.settimeout(WAIT)
            replies = Replies(ours)
            told = converse(lambda _, asked: self.ask(ours, replies, asked), self.asked, again, twice)
            ours.shutdown(socket.SHUT_WR)
            if next_of(ours, replies, b""):
                raise Wrong("more replies than requests")
            return told, status_of(process)

    def ask(self, stream: socket.socket, replies: Replies, asked: bytes) -> Reply:
        reply = next_of(stream, replies, asked)
        if reply is None:
            raise Lost("the one link")
        return reply


class File(Alone):
    """The requests of `pipe` from a file, without waiting for replies."""

    read = "requests"

    def __init__(self, it: Setting) -> None:
        self.words = ["pipe", "--at", "1700000000", "--users", f"{it.folder}/users"]
        super().__init__(it)

    def other(self, status: int, output: bytes) -> str:
        replies, usual = replies_in(output), replies_in(self.usual[1])
        whole = len(replies) == len(usual)
        before = next((i for i, reply in enumerate(replies) if reply.status == 503), len(replies))
        if replies[:before] != usual[:before] or (status != NO_MEMORY and (status != self.usual[0] or not whole)):
            raise Wrong(f"status {status}, {len(replies)} replies, {before} of them before a 503")
        return f"status {status}, {'all' if whole else 'fewer'} replies, {'503 among them' if before < len(replies) else 'no 503'}"


def replies_in(output: bytes) -> list[Reply]:
    replies, told = Replies(None, output), []
    try:
        while True:
            told.append(replies.next())
    except Lost:
        nothing_held(replies)
    return told


class Way:
    """A link that is kept, and made anew where it ended."""

    def __init__(self, port: int) -> None:
        self.port = port
        self.begin()

    def begin(self) -> None:
        try:
            self.stream = connect(self.port, WAIT)
        except ConnectionError as why:
            raise Lost("nobody takes links") from why
        self.replies = Replies(self.stream)

    def ask(self, asked: bytes) -> Reply | None:
        if self.stream.fileno() < 0:
            self.begin()
        reply = next_of(self.stream, self.replies, asked)
        if reply is None or reply.closes:
            self.stream.close()
        return reply


class Serve(Talk):
    asked = list(calls())
    users = "users"

    def talk(self, at: int, again: bool, twice: int = -1) -> tuple[Told, int | None]:
        port = free_port()
        words = ["serve", "--users", f"{self.it.folder}/{self.users}", "--listen", f"127.0.0.1:{port}", "--workers", "2"]
        with self.started(at, words) as process:
            first = first_way(port, process)
            if first is None:
                return Told([], {}), status_of(process)
            self.told = Told([], {})
            try:
                told = self.served(port, first, again, twice)
            except Lost:
                return self.told, status_of(process)
            except TimeoutError as why:
                raise self.waited(process, why) from None
            return told, process.poll() if len(told.replies) == len(self.asked) else status_of(process)

    def served(self, port: int, first: Way, again: bool, twice: int = -1) -> Told:
        """The requests, by this link and another one in turn; then the workers are seen to answer."""
        ways = self.ways = [first, Way(port)]
        self.told = converse(lambda i, asked: ways[i % 2].ask(asked), self.asked, again, twice)
        self.look(ways)
        for way in ways:
            way.stream.close()
        if not self.it.lasting:
            workers_answer(port)
        return self.told

    def waited(self, process: subprocess.Popen[bytes], why: TimeoutError) -> Exception:
        """What it is that nothing came on the second link. It isn't wrong where one thread serves both links."""
        first, second = self.ways
        if len(os.listdir(f"/proc/{process.pid}/task")) != 1 or first.stream.fileno() < 0:
            return why
        first.stream.close()
        return OneThread() if second.replies.next() else why

    def look(self, ways: list[Way]) -> None:
        """What else is asked before the links are closed."""


def first_way(port: int, process: subprocess.Popen[bytes]) -> Way | None:
    """A link to the server once it takes them, None where it ends before."""
    until = time.monotonic() + WAIT
    while process.poll() is None:
        try:
            return Way(port)
        except Lost:
            if time.monotonic() > until:
                raise Wrong("it doesn't listen") from None
            time.sleep(0.001)
    return None


def workers_answer(port: int) -> None:
    """Both workers answer, each on a new link, at the latest when they are asked again."""
    ways = [Way(port), Way(port)]
    for way in ways:
        replies = [way.ask(request("GET", "changesets")) for _ in range(2)]
        if not any(reply and reply.status == 200 for reply in replies):
            raise Wrong(f"a worker no longer answers: {replies}")
    for way in ways:
        way.stream.close()


class Hub(Serve):
    """The load on a hub. Entries and refused replies are all replies, or one more where one that was refused for
    want of memory was kept."""

    asked = load()
    users = "load_users"

    def outcome(self, at: int) -> str:
        told, status = self.talk(at, False)
        if status == NO_MEMORY and not any(told.replies):
            return "status 5 before any reply"
        if status is not None:
            raise Wrong(f"status {status} after {len(told.replies)} replies")
        if self.it.lasting:
            return ways_of(told)
        refused = sum(not reply or reply.status != 200 for reply in told.replies)
        how = f"; {ways_of(told)}" if told.refused else ""
        more = self.entries + refused - len(self.asked)
        if more not in (0, 1) or (more and not told.refused):
            raise Wrong(f"{self.entries} entries and {refused} refused, {told.refused}")
        return f"entries and refused replies are all replies{' and one more' if more else ''}{how}"

    def look(self, ways: list[Way]) -> None:
        """Counts the entries: each upload that was accepted has eleven versions in its changeset."""
        self.entries = 0
        for number in (1, 2):
            asked = request("GET", f"changeset/{number}/download")
            reply = next((it for _ in range(3) if (it := ways[0].ask(asked)) and not refusal(it)), None)
            if reply and reply.status == 200:
                self.entries += 1 + len(reply.read()["osmChange"]) // 11


# ---- all runs


PARTS: dict[str, type[Part]] = {
    "measure": Measure,
    "export": Export,
    "replay": Replay,
    "pipe": Pipe,
    "file": File,
    "hub": Hub,
    "serve": Serve,
}
chosen: Part


def choose(part: Part) -> None:
    global chosen
    chosen = part


def run(at: int) -> tuple[int, bool, str]:
    return at, *chosen.run(at)


def all_runs(name: str, setting: Setting, it: argparse.Namespace) -> int:
    """Runs a part for each N, and tells how often what came of it. How many were wrong."""
    counts: dict[str, list[int]] = collections.defaultdict(list)
    began, first, goes_on = time.monotonic(), it.first, True
    part = PARTS[name](setting)
    with multiprocessing.Pool(it.jobs, choose, (part,)) as pool:
        while goes_on and (not it.last or first <= it.last):
            after = first + 64 * it.step
            for at, reached, what in pool.map(run, range(first, min(after, it.last + 1) if it.last else after, it.step), 4):
                goes_on &= reached
                if reached:
                    counts[what].append(at)
            first = after
    total = sum(map(len, counts.values()))
    last = max((at for ats in counts.values() for at in ats), default=0)
    print(f"{name}: {total} runs, N to {last}, {time.monotonic() - began:.0f} s")
    for what, ats in sorted(counts.items(), key=lambda it: -len(it[1])):
        print(f"  {len(ats):6} {what}; N = {', '.join(map(str, ats[:3]))}{' ..' if len(ats) > 3 else ''}", flush=True)
    return sum(len(ats) for what, ats in counts.items() if what.startswith("wrong"))


def prepare(program: str, folder: str) -> None:
    """The library that refuses, the users, and the journal of the load."""
    subprocess.run(["cc", "-shared", "-fPIC", "-O2", f"{HERE}/refuse_memory.c", "-o", f"{folder}/refuse.so"], check=True)
    journal = subprocess.run([program, "export", *LOAD], check=True, stdout=subprocess.PIPE).stdout
    made = {"users": USERS, "load_users": b"1 t1 user m1\n2 t2 user m2\n", "empty": b"", "journal": journal, "requests": b"".join(Pipe.asked)}
    for name, data in made.items():
        with open(f"{folder}/{name}", "wb") as file:
            file.write(data)


def main() -> int:
    parser = argparse.ArgumentParser(usage=(__doc__ or "").split("\n\n")[0].partition(": ")[2])
    parser.add_argument("--program", default=os.path.join(HERE, "..", "crates", "osm", "out", "osm"))
    parser.add_argument("--parts", default=",".join(PARTS))
    parser.add_argument("--lasting", action="store_true")
    for name, usual in (("first", 1), ("last", 0), ("step", 1), ("jobs", 3)):
        parser.add_argument(f"--{name}", type=int, default=usual)
    it = parser.parse_args()
    with tempfile.TemporaryDirectory() as folder:
        prepare(it.program, folder)
        setting = Setting(it.program, folder, it.lasting)
        wrong = sum(all_runs(name, setting, it) for name in it.parts.split(","))
    print(f"{wrong} wrong")
    return 1 if wrong else 0


if __name__ == "__main__":
    sys.exit(main())
