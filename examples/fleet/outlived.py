#!/usr/bin/python3
"""Has a mirror take over from a server that is gone for good, with changes through the gateway: examples/fleet/outlived.py
    [--program PROGRAM] [--mirror PROGRAM] [--engine postgresql] [--rounds 3] [--seconds 2] [--pause 0.02] [--seed 1]

As takeover.py, but the eight links create nodes through `gateway/run --confirmed-by 1` in front of the server and its three mirrors, which
answers a change only once a mirror has it. So each node that was answered has to be at the new server, with its place, whatever was killed:
the server alone, the carriers before it, or the engine with it. Status 0 where that holds.
"""

from __future__ import annotations

import argparse
import http.client
import os
import sys
import tempfile
import threading
import time
from contextlib import ExitStack
from functools import partial

from running import HERE, Process, answers, url
from serving import Link, Unanswered, Wrong, free_port, trial_status, wait_for_answer
from takeover import KINDS, LINKS, Trial, words_of

GATEWAY = os.path.join(HERE, "..", "..", "gateway", "run")
CONFIRM_SECONDS = 2
HEADERS = {"Authorization": "Bearer alicetoken", "Content-Type": "text/xml"}
LATITUDE7 = 481_000_000


class Creations(threading.Thread):
    """Nodes one after another, until one isn't answered with 200."""

    def __init__(self, gateway: int, pause: float) -> None:
        super().__init__(daemon=True)
        self.gateway, self.pause = gateway, pause
        self.answered: list[int] = []
        self.last = 0
        """The status of the one that ended it."""
        self.start()

    def create(self, what: str, document: str) -> int:
        """The new id, or 0."""
        link = http.client.HTTPConnection("127.0.0.1", self.gateway, timeout=60)
        try:
            link.request("PUT", f"/api/0.6/{what}/create", f"<osm>{document}</osm>", HEADERS)
            reply = link.getresponse()
            text, self.last = reply.read().decode(), reply.status
        finally:
            link.close()
        return int(text) if self.last == 200 else 0

    def run(self) -> None:
        changeset = self.create("changeset", "<changeset/>")
        while changeset:
            place = f'lat="48.1{len(self.answered):06}" lon="11.5"'
            node = self.create("node", f'<node changeset="{changeset}" {place}/>')
            if not node:
                return
            self.answered.append(node)
            time.sleep(self.pause)

    def lost(self, port: int) -> list[int]:
        """Those that were answered and aren't there as they were made."""
        link, lost = Link(port, kept=900), []
        for place, node in enumerate(self.answered):
            reply = link.ask("GET", f"node/{node}")
            if reply.status != 200 or reply.read()["elements"][0]["lat7"] != LATITUDE7 + place:
                lost.append(node)
        link.close()
        return lost


def begin_gateway(trial: Trial, stack: ExitStack) -> int:
    port = free_port()
    mirrors = ",".join(url(it.port) for it in trial.mirrors)
    words = ["--server", url(trial.port), "--mirrors", mirrors, "--confirmed-by", "1", "--confirm-seconds", str(CONFIRM_SECONDS)]
    process = Process([GATEWAY, *words, "--users", trial.users, "--links", "8", "--listen", f"127.0.0.1:{port}", "--quiet"])
    stack.callback(process.kill)
    try:
        wait_for_answer("the gateway", process.process, lambda: answers(port), 60)
    except Unanswered as why:
        raise Wrong(f"{why}: {process.said}") from None
    return port


def take_over(trial: Trial, gateway: int, kind: str) -> int:
    """How many changes were answered."""
    creations = [Creations(gateway, trial.words.pause) for _ in range(LINKS)]
    trial.break_down(kind)
    for thread in creations:
        thread.join(60)
    os.rename(trial.journal, trial.journal + ".gone")
    promoted = trial.promote("" if kind == KINDS[2] else trial.engine.url, True)
    trial.end_server, trial.wait_for_server = promoted.process.kill, promoted.process.wait
    trial.journal = promoted.heir.journal
    lost = [node for thread in creations for node in thread.lost(trial.port)]
    answered = sum(len(it.answered) for it in creations)
    if lost:
        raise Wrong(f"{kind}: {len(lost)} of {answered} answered changes are lost: {lost[:10]}")
    trial.go_on(kind, promoted.heir, True)
    trial.level()
    ends = ", ".join(sorted({str(it.last) for it in creations}))
    print(f"{kind}: none of {answered} answered changes is lost; the last ones got {ends}", flush=True)
    return answered


def rounds(words: argparse.Namespace) -> None:
    with tempfile.TemporaryDirectory() as folder, ExitStack() as stack:
        trial = Trial(words, folder, stack)
        trial.level()
        gateway = begin_gateway(trial, stack)
        answered = sum(take_over(trial, gateway, KINDS[place % 3]) for place in range(words.rounds))
    if answered < words.rounds * LINKS:
        raise Wrong(f"only {answered} changes were answered")
    print(f"none of {answered} answered changes is lost in {words.rounds} takeovers")


def main() -> int:
    return trial_status(partial(rounds, words_of(__doc__, 3)))


if __name__ == "__main__":
    sys.exit(main())
