"""What the programs of this folder share: where links and feeds are found, what they say, and with which status they end."""

from __future__ import annotations

import argparse
import os
import sys
import time
from collections.abc import Callable

HERE = os.path.dirname(os.path.abspath(__file__))
sys.path.insert(1, os.path.join(HERE, "..", "..", "replication"))

from feed import OtherJournal, Unusable
from given_token import add_token

__all__ = ["AGAIN", "Trouble", "add_engine", "add_token", "run", "say", "unwritten", "usage"]
AGAIN = 0.1  # seconds before one who doesn't answer is asked again


class Trouble:
    """Says once what doesn't go on, and once that it goes on again."""

    def __init__(self, name: str, again: str = "it is asked again") -> None:
        self.name, self.again, self.text, self.since = name, again, "", 0.0

    def tell(self, why: object) -> None:
        if not self.text:
            self.since = time.monotonic()
        if str(why) != self.text:
            self.text = str(why)
            say(self.name, f"{why}; {self.again}")

    def end(self) -> None:
        if self.text:
            say(self.name, f"goes on after {time.monotonic() - self.since:.1f} s")
            self.text = ""


def unwritten(why: OSError, path: str) -> str:
    return f"{why.filename or path} can't be written: {why.strerror}"


def say(name: str, text: object) -> None:
    print(f"{name}: {text}", file=sys.stderr, flush=True)


def usage(doc: str | None) -> str:
    return (doc or "").split("\n\n")[0].partition(": ")[2]


def add_engine(parser: argparse.ArgumentParser) -> None:
    """By a word, or by the environment where its password is in it."""
    engine = os.environ.get("HEGUNSAP_ENGINE", "")
    text = "without it HEGUNSAP_ENGINE of the environment names it"
    parser.add_argument("--engine", required=not engine, default=engine, metavar="URL", help=text)


def run(name: str, work: Callable[[], None]) -> int:
    """1 where it can't be gone on with, as on a full disk, and 3 where there is another journal."""
    try:
        work()
    except (OtherJournal, Unusable, OSError) as why:
        say(name, why)
        return 3 if isinstance(why, OtherJournal) else 1
    except KeyboardInterrupt:
        return 130
    return 0
