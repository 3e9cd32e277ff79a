"""Numbers for Prometheus, as a file that its node exporter reads (--collector.textfile.directory)."""

from __future__ import annotations

import argparse
import os
import sys
from collections.abc import Iterable
from typing import Any, NamedTuple

sys.path.append(os.path.join(os.path.dirname(os.path.abspath(__file__)), ".."))

import scripts
from packages import need


class Number(NamedTuple):
    name: str
    what: str
    value: float
    mirror: str = ""
    """Whose it is, where there are several."""


def write_whole(path: str, data: bytes) -> None:
    """No reader finds a part of it, whichever user it is."""
    with open(path + ".new", "wb") as file:
        file.write(data)
    os.chmod(path + ".new", 0o644)
    os.replace(path + ".new", path)


class Shown:
    """A file of numbers, where one is named. Where it can't be written that is told, and its program goes on."""

    def __init__(self, name: str, path: str | None) -> None:
        self.path, self.trouble = path, scripts.Trouble(name, "it is written again")

    def write(self, numbers: Iterable[Number]) -> None:
        if self.path is None:
            return
        try:
            write_numbers(self.path, numbers)
            self.trouble.end()
        except OSError as why:
            self.trouble.tell(scripts.unwritten(why, self.path))


def write_numbers(path: str, numbers: Iterable[Number]) -> None:
    need("prometheus_client")
    from prometheus_client import CollectorRegistry, Gauge, generate_latest

    registry = CollectorRegistry()
    gauges: dict[str, Any] = {}
    for it in numbers:
        if it.name not in gauges:
            gauges[it.name] = Gauge(it.name, it.what, ["mirror"] if it.mirror else [], registry=registry)
        (gauges[it.name].labels(it.mirror) if it.mirror else gauges[it.name]).set(it.value)
    write_whole(path, generate_latest(registry))


def add_metrics(parser: argparse.ArgumentParser) -> None:
    parser.add_argument("--metrics", metavar="FILE", help="where numbers are written each second, as numbers.prom for Prometheus' node exporter")
