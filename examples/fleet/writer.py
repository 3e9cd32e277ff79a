#!/usr/bin/python3
"""Brings a server's pieces into the engine: examples/fleet/writer.py --server URL --token-file FILE --engine redis://127.0.0.1:6380

Goes on behind the last piece that the engine has, until it is ended. It asks the server for the piece that comes next each 10 milliseconds
on a kept link, and for more at once where there is more. Status 3 where the server has another journal than the engine, since it was
started anew: then nothing is added. With --new a new journal is begun in the engine; mirrors and carriers have to be started anew for it.
"""

from __future__ import annotations

import argparse
import sys
import time

import scripts
from engine import Behind, Engine, EngineLost, open_engine
from feed import Feed
from kept_link import Lost
from shown import Number, Shown, add_metrics

SHOWN_EACH = 1.0  # seconds between two times that numbers are written
PAUSE = 0.01  # seconds between two questions where there is nothing new


class Writer:
    def __init__(self, words: argparse.Namespace) -> None:
        self.server, self.token, self.engine, self.is_trusted = words.server, words.token, words.engine, words.trust_engine
        self.shown, self.shown_at = Shown("writer", words.metrics), 0.0
        self.trouble = scripts.Trouble("writer")

    def show(self, number: int) -> None:
        """How many pieces the engine has, for whoever watches the fleet."""
        if time.monotonic() - self.shown_at >= SHOWN_EACH:
            self.shown_at = time.monotonic()
            self.shown.write([Number("engine_changes", "The number of the last piece that the engine has.", number)])

    def run(self, is_new: bool) -> None:
        while True:
            try:
                engine = open_engine(self.engine)
                try:
                    engine.check_keeping(self.is_trusted)
                    name = engine.journal()
                    if not name or is_new:
                        name, is_new = engine.begin(name), False
                    self.write(engine, name)
                except Behind:
                    pass  # another writer was faster; both go on
                finally:
                    engine.close()
            except EngineLost as why:
                self.trouble.tell(why)
                time.sleep(scripts.AGAIN)

    def write(self, engine: Engine, name: str) -> None:
        feed = Feed(self.server, self.token, engine.ends(name))
        while True:
            number = feed.taken.number
            self.show(number)
            try:
                pieces = feed.next_pieces()
                self.trouble.end()
            except Lost as why:
                self.trouble.tell(why)
                time.sleep(scripts.AGAIN)
                continue
            if pieces:
                engine.add(name, number, pieces)
            else:
                time.sleep(PAUSE)


def main() -> int:
    parser = argparse.ArgumentParser(usage=scripts.usage(__doc__))
    parser.add_argument("--server", required=True)
    scripts.add_engine(parser)
    scripts.add_token(parser)
    parser.add_argument("--new", action="store_true", help="begin a new journal in the engine")
    parser.add_argument("--trust-engine", action="store_true", help="one that doesn't tell so has additions on the disk before it answers")
    add_metrics(parser)
    words = parser.parse_args()
    return scripts.run("writer", lambda: Writer(words).run(words.new))


if __name__ == "__main__":
    sys.exit(main())
