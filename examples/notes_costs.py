#!/usr/bin/env python3
"""What a search for notes costs, and a comment: examples/notes_costs.py [--program PROGRAM] [--notes 1000000] [--searches 200]
    [--text 100]

Opens so many notes at drawn positions of five degrees by five, from four links, and then searches boxes of several sizes in the middle of
them on one link. Prints how many notes a second were opened, the memory that the server holds at last, and how long a search takes. Then
it writes comments of so many characters to one note until it is full, prints what the 10th, 100th, 1,000th, 5,000th and 10,000th take,
and sees that the next one is refused, that the note can be closed and that it stays so.
"""

from __future__ import annotations

import argparse
import math
import os
import random
import threading
import time

from serving import OSM, Link, Replies, Server, boxes, connect, request, timed

USERS = "1 alicetoken user alice\n"
LINKS = 4
EDGE = 50_000_000
"""Five degrees, in units of 1e-7 degrees."""
BATCH = 1000
FULL = 10_000
"""The most comments of a note."""
TOLD = (10, 100, 1_000, 5_000, FULL)


def open_notes(port: int, seed: int, count: int) -> None:
    """Opens so many notes, a thousand on each link, whose requests are sent at once."""
    drawn = random.Random(seed)
    for first in range(0, count, BATCH):
        few = min(BATCH, count - first)
        notes = ({"lat7": drawn.randint(0, EDGE), "lon7": drawn.randint(0, EDGE), "text": "gate"} for _ in range(few))
        stream = connect(port)
        sender = threading.Thread(target=stream.sendall, args=(b"".join(request("POST", "notes", body=note) for note in notes),))
        sender.start()
        replies = Replies(stream)
        if any(replies.next().status != 200 for _ in range(few)):
            raise SystemExit("a note was refused")
        sender.join()
        stream.close()


def fill(link: Link, text: int) -> None:
    """Comments on a new note until it is full. A reply has all its comments."""
    note = link.ask("POST", "notes", {"lat7": 0, "lon7": 0, "text": "x"}).read()["note"]["id"]
    begun = time.perf_counter()
    for number in range(2, FULL + 1):
        before = time.perf_counter()
        reply = link.ask("POST", f"notes/{note}/comment", {"text": "x" * text})
        took = time.perf_counter() - before
        if reply.status != 200:
            raise SystemExit(f"comment {number}: {reply.status} {reply.body.decode()[:200]}")
        if number in TOLD:
            all_took = time.perf_counter() - begun
            print(f"comment {number:,}: {took * 1e3:.1f} ms, a reply of {len(reply.body):,} bytes; {all_took:.1f} s so far")
    full = {"error": "note_full", "id": note, "limit": FULL}
    for call, body, wanted in (("comment", {"text": "x"}, full), ("close", None, None), ("reopen", {"text": "x"}, full)):
        reply = link.ask("POST", f"notes/{note}/{call}", body)
        if reply.status != (200 if wanted is None else 409) or wanted not in (None, reply.read()):
            raise SystemExit(f"{call} of a full note: {reply.status} {reply.body.decode()[:200]}")
    print("then a comment is refused, the note is closed, and it stays closed")


def side_of(notes: int, wanted: int) -> int:
    """The side of a square with so many notes on average."""
    return round(EDGE * math.sqrt(wanted / notes))


def main() -> None:
    parser = argparse.ArgumentParser(description=(__doc__ or "").split("\n")[0])
    parser.add_argument("--program", default=OSM)
    parser.add_argument("--notes", type=int, default=1_000_000)
    parser.add_argument("--searches", type=int, default=200)
    parser.add_argument("--text", type=int, default=100)
    words = parser.parse_args()
    with Server(os.path.abspath(words.program), LINKS, USERS, command=("serve-notes",)) as server:
        before = time.perf_counter()
        openers = [threading.Thread(target=open_notes, args=(server.port, seed, words.notes // LINKS)) for seed in range(LINKS)]
        for it in openers:
            it.start()
        for it in openers:
            it.join()
        taken = time.perf_counter() - before
        print(f"{words.notes:,} notes opened, {words.notes / taken:,.0f} a second; the server holds {server.megabytes():,.0f} MiB")
        link = Link(server.port)
        for wanted in (1, 100, 10_000, words.notes // 4, words.notes):
            times = words.searches if wanted <= 10_000 else max(1, words.searches // 20)
            paths = (f"notes?bbox={box}" for box in boxes(EDGE, side_of(words.notes, wanted), times))
            print(f"a square of {wanted:,} notes on average: {timed(link, paths, 'notes')}")
        link.close()
        writer = Link(server.port, "alicetoken")
        fill(writer, words.text)
        writer.close()


if __name__ == "__main__":
    main()
