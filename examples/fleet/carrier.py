#!/usr/bin/python3
"""Brings a mirror the engine's pieces: examples/fleet/carrier.py --mirror URL --token-file FILE --engine redis://127.0.0.1:6380
    [--level-every 1]

Waits at the engine for news, and goes on until it is ended. Which piece comes next the mirror says, so nothing is kept here; a mirror that
was started anew gets all of them. Once it has what the engine has it is told that it is level, and again each --level-every seconds as
long as it has: a mirror of --until-level SECONDS answers reads from then on, and needs to hear it well within these seconds. The token is a
moderator's at the mirror. Status 3 where the mirror has another journal than the engine, or the engine has begun a new one: then nothing
is brought.
"""

from __future__ import annotations

import argparse
import sys
import time
from dataclasses import dataclass

import scripts
from engine import MOST, Engine, EngineLost, open_engine
from feed import OtherJournal, Taken, next_window
from kept_link import Lost
from mirror import Mirror

WAIT = 1.0  # seconds at the engine, before it looks after the mirror and after the journal


@dataclass(frozen=True, slots=True)
class Journal:
    """One journal of an engine, as the pieces that a mirror is given."""

    engine: Engine
    name: str

    def ends(self) -> Taken:
        return self.engine.ends(self.name)

    def piece(self, number: int) -> bytes:
        found = self.engine.piece(self.name, number)
        if found is None:
            raise EngineLost(f"it has no piece {number}")
        return found

    def after(self, number: int, most: int) -> list[bytes]:
        return self.engine.after(self.name, number, most, WAIT)

    def is_current(self) -> bool:
        return self.engine.journal() == self.name


class Carrier:
    def __init__(self, mirror: str, token: str, engine: str, level_every: float) -> None:
        self.mirror, self.token, self.engine, self.level_every = mirror, token, engine, level_every
        self.name, self.window = "", 1
        self.trouble = scripts.Trouble("carrier")

    def run(self) -> None:
        while True:
            try:
                engine = open_engine(self.engine)
                try:
                    self.carry(self.journal_of(engine))
                finally:
                    engine.close()
            except EngineLost as why:
                self.trouble.tell(why)
                time.sleep(scripts.AGAIN)

    def journal_of(self, engine: Engine) -> Journal:
        """The current one, which has to be the one of before."""
        while not (name := engine.journal()):
            self.trouble.tell("the engine has no journal yet")
            time.sleep(scripts.AGAIN)
        if self.name not in ("", name):
            raise self.anew()
        self.name = name
        return Journal(engine, name)

    def carry(self, journal: Journal) -> None:
        mirror = Mirror(self.mirror, self.token, journal)
        try:
            while True:
                try:
                    self.step(journal, mirror)
                    self.trouble.end()
                except Lost as why:
                    self.trouble.tell(why)
                    mirror.close()
                    time.sleep(scripts.AGAIN)
        finally:
            mirror.close()

    def step(self, journal: Journal, mirror: Mirror) -> None:
        mirror.begin()
        asked = self.window
        if pieces := journal.after(mirror.number, asked):
            self.window = next_window(asked, pieces, MOST)
            mirror.take(pieces)
            # Fewer than were asked for: that was all.
            if len(pieces) < asked:
                mirror.level(self.level_every)
            return
        if not journal.is_current():
            raise self.anew()
        if not mirror.level(self.level_every):
            mirror.look()

    def anew(self) -> OtherJournal:
        return OtherJournal(f"the engine has begun another journal than {self.mirror} has: start the mirror anew, and then this")


def main() -> int:
    parser = argparse.ArgumentParser(usage=scripts.usage(__doc__))
    parser.add_argument("--mirror", required=True)
    scripts.add_engine(parser)
    scripts.add_token(parser)
    parser.add_argument("--level-every", type=float, default=WAIT, metavar="SECONDS", help="how often the mirror is told that it is level")
    words = parser.parse_args()
    if words.level_every < 0:
        parser.error("--level-every is 0 at least")
    return scripts.run("carrier", Carrier(words.mirror, words.token, words.engine, words.level_every).run)


if __name__ == "__main__":
    sys.exit(main())
