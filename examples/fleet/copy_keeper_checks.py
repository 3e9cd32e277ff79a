#!/usr/bin/python3
"""Plays servers to a copy's keeper: examples/fleet/copy_keeper_checks.py [--only NAME] [--kills 20] [--drawn 5000] [--seed 1]

Each check starts copy_keeper.py on a free port of the loopback, with a file in a folder of its own, and sends what a server sends, or
should not. Status 0 where each comes out right.
"""

from __future__ import annotations

import argparse
import fcntl
import os
import random
import signal
import socket
import subprocess
import sys
import tempfile
import time
from collections.abc import Callable
from functools import partial

import scripts
from copy_drawn import HEADER, killed, taken
from keeper_run import DONE, GREETING, REFUSED, SECONDS, KeeperRun, Player, cut, greeting, number, room, words_of, write
from serving import Wrong, trial_status

TEXT = HEADER + b'{"at":1}\n\n{"at":2}\n{"at":3}\n\n'
FILE = TEXT + bytes(500)
MUCH = (1 << 64) - 1
SLOW = 0.3  # seconds of a sync that is made slow
SLOWED = f"import os, time; sync = os.fdatasync; os.fdatasync = lambda file: (time.sleep({SLOW}), sync(file))[1]"
FAILED = "import os\ndef fail(file): raise OSError(5, 'Input/output error')\nos.fdatasync = fail"
WHOLE = f"{FAILED}\nsyncs = [os.fsync, os.fsync]\nos.fsync = lambda file: (syncs.pop() if syncs else fail)(file)"  # behind those of a start
LIMITED = "import resource; resource.setrlimit(resource.RLIMIT_FSIZE, (4096, 4096))"
HURRIED = "import copy_keeper; copy_keeper.GREET = 0.3; copy_keeper.Link.read.__defaults__ = (0.3,)"


def put(folder: str, data: bytes | None) -> str:
    """The path of a copy that has these bytes, or of none."""
    path = os.path.join(folder, "copy")
    if os.path.exists(path):
        os.remove(path)
    if data is not None:
        with open(path, "wb") as file:
            file.write(data)
    return path


def same(path: str, wanted: bytes, what: str) -> None:
    with open(path, "rb") as file:
        found = file.read()
    if found != wanted:
        raise Wrong(f"{what}: the copy has {len(found)} bytes, {found[-40:]!r} last, and not {len(wanted)}, {wanted[-40:]!r} last")


def takes(folder: str, own: bytes | None, file: bytes, what: str) -> None:
    path = put(folder, own)
    keeper = KeeperRun(path)
    with Player(keeper.port) as player:
        player.begin(file)
        same(path, file, what)
    keeper.stop()


def refuses(folder: str, own: bytes, file: bytes, what: str) -> None:
    """Nothing is changed, and a server that has what the copy has is taken behind it."""
    path = put(folder, own)
    keeper = KeeperRun(path)
    with Player(keeper.port) as player:
        player.want(REFUSED, (greeting(file),), what)
        player.closed()
        same(path, own, what)
    if own.startswith(HEADER):
        with Player(keeper.port) as player:
            player.begin(own)
    keeper.stop()
    same(path, own, what)


# ---- which files are taken


def nothing(folder: str) -> str:
    large = HEADER + b'{"at":4}\n\n' * 3_000_000
    for own, what in ((None, "no copy"), (b"", "an empty copy"), (bytes(99), "zeros")):
        takes(folder, own, FILE, what)
    takes(folder, None, large, "a large file")
    return f"a copy is begun, the largest of {len(large)} bytes"


def beginning(folder: str) -> str:
    rests = (b"", b"{", b'{"at":2', b'{"at":\0}\n\n{}\n', b"\0" * 300, b"#" * 99, b'\0"at":2}\n{"at":3}')
    rests += (b'{"at":2}\n{"at":3}\n\n' + bytes(9999),)
    for rest in rests:
        takes(folder, HEADER + b'{"at":1}\n\n' + rest, FILE, f"a beginning, and {rest[:20]!r}")
    takes(folder, FILE, FILE, "the same file")
    return f"text that is a beginning, with {len(rests)} rests behind it, becomes the whole file"


def others(folder: str) -> str:
    foreign = (b"mine", b"\0mine\n", b"osm-journal 2", b"osm\0journal 2\n" + TEXT)
    longer = (TEXT + b"{}\n", TEXT + b"\n", FILE[:-500] + b'{"at":4}\n\n' + bytes(900))
    other = (TEXT.replace(b"1", b"7"), b"osm-notes-journal 1\n", TEXT.replace(b"}\n\n", b"}\n", 1))
    for own in foreign + longer + other:
        refuses(folder, own, FILE, f"a copy that has {own[-20:]!r} last")
    refuses(folder, FILE, FILE[: len(HEADER) + 12], "a server that has less")
    refuses(folder, FILE, b"", "a server that has nothing")
    told = f"{len(foreign)} files of somebody, {len(longer)} longer texts, {len(other)} others"
    return f"{told} and 2 servers that have less: nothing is changed"


def unbegun(folder: str) -> str:
    """Without --begin a copy that has no changes takes up none; a new server's file it takes, and one with changes goes on."""
    owns = (None, b"", bytes(99), HEADER, HEADER + bytes(300))
    for own in owns:
        path = put(folder, own)
        keeper = KeeperRun(path, begins=False)
        with Player(keeper.port) as player:
            player.want(REFUSED, (greeting(FILE),), f"a copy that has {own!r}")
            player.closed()
            same(path, own or b"", "a server with changes")
        with Player(keeper.port) as player:
            player.begin(HEADER + bytes(500))
            player.want(DONE, (write(len(HEADER), b'{"at":1}\n\n'),), "a new server")
        keeper.stop()
        keeper = KeeperRun(path, begins=False)
        with Player(keeper.port) as player:
            player.begin(FILE)
            same(path, FILE, "a copy that has begun")
        keeper.stop()
    return f"{len(owns)} copies without changes: a server that has some is refused, and a new one taken"


def drawn_files(folder: str, words: argparse.Namespace) -> str:
    return taken(folder, words.seed, words.drawn)


# ---- calls


def calls(folder: str) -> str:
    path = put(folder, None)
    keeper, end = KeeperRun(path), len(TEXT)
    with Player(keeper.port) as player:
        player.begin(FILE)
        steps = (
            (write(end, b"{}\n\n"), TEXT + b"{}\n\n" + bytes(496)),
            (room(len(FILE), 300_000), TEXT + b"{}\n\n" + bytes(300_496)),
            (cut(end + 9), TEXT + b"{}\n\n" + bytes(5)),
            (write(end + 4, b"12345"), TEXT + b"{}\n\n12345"),
            (write(end + 9, b""), TEXT + b"{}\n\n12345"),
            (room(end + 9, 0), TEXT + b"{}\n\n12345"),
            (cut(end + 9), TEXT + b"{}\n\n12345"),
            (cut(0), b""),
            (room(0, 30_000_000), bytes(30_000_000)),
            (write(5, b"x" * 29_999_995), bytes(5) + b"x" * 29_999_995),
        )
        for call, wanted in steps:
            player.want(DONE, (call,), f"{call[:17]!r}")
            same(path, wanted, f"{call[:17]!r}")
    keeper.stop()
    return f"{len(steps)} calls are done and answered"


def at_once(folder: str) -> str:
    """In one packet, and each byte by itself; few syncs serve many calls."""
    path, count, end = put(folder, None), 300, len(TEXT)
    keeper = KeeperRun(path, before=SLOWED)
    many = [room(len(FILE), 5000), *(write(end + 9 * it, b"%09d" % it) for it in range(count)), cut(end + 9 * count)]
    wanted = TEXT + b"".join(b"%09d" % it for it in range(count))
    with Player(keeper.port) as player:
        player.begin(FILE)
        start = time.monotonic()
        player.want(DONE * len(many), many, "many calls at once")
        took = time.monotonic() - start
        same(path, wanted, "many calls at once")
        if not SLOW <= took < SLOW * count / 10:
            raise Wrong(f"{len(many)} calls in one packet took {took:.2f} s, where a sync takes {SLOW}")
        start = time.monotonic()
        for it in write(0, b"one by one"):
            player.send(bytes((it,)))
        if player.answers(1) != DONE or time.monotonic() - start < SLOW:
            raise Wrong("a call that comes byte by byte isn't answered behind a sync")
        same(path, b"one by one" + wanted[10:], "a call that comes byte by byte")
    keeper.stop()
    return f"{len(many)} calls in one packet took {took:.2f} s, where a sync takes {SLOW}"


def out_of_place(folder: str) -> str:
    end = len(FILE)
    wrong = (
        write(end - 1, b"ab"), write(end + 1, b""), write(MUCH, b"a"), b"W" + number(MUCH) + number(MUCH), b"W" + number(0) + number(MUCH),
        room(end - 1, 5), room(end + 1, 5), room(end, MUCH), room(MUCH, 1), cut(end + 1), cut(MUCH), b"X", b"\0", b"w" + bytes(16), b"+",
    )  # fmt: skip
    for call in wrong:
        path = put(folder, None)
        keeper = KeeperRun(path)
        with Player(keeper.port) as player:
            player.begin(FILE)
            came = player.ask(write(0, b"O"), call, write(1, b"never"))
            if came != DONE + REFUSED:
                raise Wrong(f"{call[:17]!r} is answered {came!r}")
            player.closed()
            same(path, b"O" + FILE[1:], f"{call[:17]!r}")
        keeper.stop()
    return f"{len(wrong)} calls are refused, and nothing of them or behind them is done"


# ---- links that end, and others


def gone(folder: str, words: argparse.Namespace) -> str:
    """In the middle of a call: the next server finds nothing of it. In the middle of a file: it finds a beginning."""
    path, drawn = put(folder, None), random.Random(words.seed)
    keeper = KeeperRun(path)
    torn = [call[:at] for call in (write(3, b"torn"), room(len(FILE), 9), cut(7)) for at in range(len(call))]
    torn += [write(0, bytes(400))[:-1]]
    for it in torn:
        with Player(keeper.port) as player:
            player.begin(FILE)
            player.send(it)
        same(path, FILE, f"a server that is gone behind {it[:20]!r}")
    large = FILE[:-500] + b'{"at":4}\n\n' * 500_000
    for count in sorted(drawn.randrange(len(large)) for _ in range(9)):
        with Player(keeper.port) as player:
            player.send(greeting(large)[: 24 + count])
    with Player(keeper.port) as player:
        player.begin(large)
        same(path, large, "servers that are gone in the middle of a file")
    keeper.stop()
    return f"{len(torn)} in the middle of a call, and 9 in the middle of a file"


def second_server(folder: str) -> str:
    path = put(folder, None)
    keeper = KeeperRun(path)
    with Player(keeper.port) as first:
        first.begin(FILE)
        for _ in range(3):
            with Player(keeper.port) as second:
                try:
                    came = second.ask(greeting(FILE + b"{}\n"))
                except ConnectionError:
                    came = b""
                if came not in (b"", REFUSED):
                    raise Wrong(f"a second server is answered {came!r}")
            first.want(DONE, (write(0, b"O"),), "the first server")
        same(path, b"O" + FILE[1:], "the first server")
    with Player(keeper.port) as second:
        second.begin(b"O" + FILE[1:])
    keeper.stop()
    return "it is refused while one is served, and taken afterwards"


def greetings(folder: str) -> str:
    path = put(folder, FILE)
    keeper = KeeperRun(path)
    for it in (b"GET / HTTP/1.1\r\n\r\n", b"hegunsap-copy-2\n" + number(0), b"hegunsap-copy-1 " + bytes(99), bytes(16)):
        with Player(keeper.port) as player:
            player.want(REFUSED, (it,), f"{it[:16]!r}")
            player.closed()
    for it in (b"", b"GET", GREETING, GREETING + bytes(7)):
        with Player(keeper.port) as player:
            player.send(it)
    with Player(keeper.port) as player:
        player.begin(FILE)
    keeper.stop()
    keeper = KeeperRun(path, before=HURRIED)
    for it in (b"", GREETING, greeting(FILE)[:-1], greeting(FILE) + b"W"):
        with Player(keeper.port) as player:
            player.send(it)
            if player.answers(9) not in (b"", DONE):
                raise Wrong(f"a link that is silent behind {it[:20]!r} is answered")
    with Player(keeper.port) as player:
        player.begin(FILE)
        time.sleep(1)
        player.want(DONE, (cut(len(FILE)),), "a server that is silent between two calls")
    keeper.stop()
    same(path, FILE, "greetings")
    return "4 others are refused, and silent links let go, but between two calls"


# ---- the file, the disk and signals


def locked(folder: str) -> str:
    path = put(folder, None)
    keeper = KeeperRun(path)
    with Player(keeper.port) as player:
        player.begin(FILE)
        done = subprocess.run(words_of(path), capture_output=True, text=True, timeout=SECONDS, check=False)
        if done.returncode != 1 or "is open by another keeper or by a server" not in done.stderr:
            raise Wrong(f"a second keeper ends with status {done.returncode}: {done.stderr}")
        with open(path, "r+b") as file:
            try:
                fcntl.flock(file, fcntl.LOCK_EX | fcntl.LOCK_NB)
                raise Wrong("the file isn't locked")
            except BlockingIOError:
                pass
        player.want(DONE, (cut(len(FILE)),), "a server behind that")
    keeper.stop()
    with open(path, "r+b") as file:
        fcntl.flock(file, fcntl.LOCK_EX | fcntl.LOCK_NB)
        done = subprocess.run(words_of(path), capture_output=True, text=True, timeout=SECONDS, check=False)
        if done.returncode != 1:
            raise Wrong(f"on a locked file a keeper ends with status {done.returncode}")
    same(path, FILE, "a second keeper")
    return "no second keeper, and no lock from elsewhere"


def unfit(folder: str) -> str:
    fifo = os.path.join(folder, "fifo")
    os.mkfifo(fifo)
    with socket.create_server(("127.0.0.1", 0)) as other:
        lists = [(words_of(it), 1) for it in (folder, fifo, os.devnull, os.path.join(folder, "none", "copy"))]
        lists += [(words_of(put(folder, None), other.getsockname()[1]), 1)]
        lists += [([*words_of(put(folder, None))[:-1], it], 2) for it in ("127.0.0.1", "7011", "127.0.0.1:", "127.0.0.1:99999", "a:b")]
        for words, wanted in lists:
            done = subprocess.run(words, capture_output=True, text=True, timeout=SECONDS, check=False)
            if done.returncode != wanted or not done.stderr or "Traceback" in done.stderr:
                raise Wrong(f"{words[2:]} ends with status {done.returncode}: {done.stderr}")
    return f"{len(lists)} paths and addresses that can't be"


def disk(folder: str) -> str:
    """What fails is answered so, and ends the keeper; the next one reads what there is."""

    def moves(path: str) -> None:
        os.rename(path, path + ".moved")

    def stays(_: str) -> None:
        pass

    fails = (
        ("a sync", FAILED, FILE, stays, [cut(len(FILE))] * 3),
        ("a full disk", LIMITED, FILE, stays, [room(len(FILE), 9000), write(0, b"O")]),
        ("a sync at the beginning", FAILED, b"", stays, []),
        ("a sync of what is there", WHOLE, FILE, stays, []),
        ("a file that is moved", "", FILE, moves, [write(0, FILE[:1])]),
    )
    for what, before, own, change, after in fails:
        path = put(folder, own)
        keeper = KeeperRun(path, before=before)
        with Player(keeper.port) as player:
            if after:
                player.begin(FILE)
            change(path)
            player.want(REFUSED, after or (greeting(FILE),), what)
            player.closed()
        if keeper.end(SECONDS) != 1 or len(keeper.said) < 2 or "Traceback" in "".join(keeper.said):
            raise Wrong(f"{what}: {keeper.said}")
        keeper = KeeperRun(path)
        with Player(keeper.port) as player:
            player.begin(FILE)
            same(path, FILE, f"behind {what}")
        keeper.stop()
    return f"{', '.join(it[0] for it in fails)}: told to the server, status 1, and taken up by the next keeper"


def signals(folder: str) -> str:
    path = put(folder, None)
    for by in (signal.SIGTERM, signal.SIGINT):
        KeeperRun(path).stop(by)
        keeper = KeeperRun(path, before=SLOWED)
        with Player(keeper.port) as player:
            player.begin(FILE)
            player.send(write(0, FILE[:9]))
            time.sleep(SLOW / 2)
            keeper.stop(by)
            if player.answers(2) != DONE:
                raise Wrong("a call that was begun before the signal isn't answered")
            player.closed()
    same(path, FILE, "signals")
    return "SIGTERM and SIGINT end it with status 0, behind what was begun"


def kills(folder: str, words: argparse.Namespace) -> str:
    return killed(folder, words.seed, words.kills)


def main() -> int:
    parser = argparse.ArgumentParser(usage=scripts.usage(__doc__))
    parser.add_argument("--only", metavar="NAME", help="one check")
    parser.add_argument("--kills", type=int, default=20)
    parser.add_argument("--drawn", type=int, default=5000)
    parser.add_argument("--seed", type=int, default=1)
    words = parser.parse_args()
    checks: tuple[Callable[[str], str], ...] = (
        nothing, beginning, others, unbegun, partial(drawn_files, words=words), calls, at_once, out_of_place, partial(gone, words=words),
        second_server, greetings, locked, unfit, disk, signals, partial(kills, words=words),
    )  # fmt: skip
    statuses = [play(it) for it in checks if words.only in (None, name_of(it))]
    print(f"{len(statuses)} checks; {sum(statuses)} wrong")
    return 1 if sum(statuses) or not statuses else 0


def name_of(check: Callable[[str], str]) -> str:
    return getattr(check, "func", check).__name__.replace("_", " ")


def play(check: Callable[[str], str]) -> int:
    def told() -> None:
        with tempfile.TemporaryDirectory() as folder:
            try:
                print(f"{name_of(check)}: {check(folder)}", flush=True)
            finally:
                KeeperRun.kill_all()

    return trial_status(told, name_of(check))


if __name__ == "__main__":
    sys.exit(main())
