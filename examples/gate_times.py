#!/usr/bin/python3
"""Tells where the gate's time goes: examples/gate_times.py [--every SECONDS] [--top N] [COMMAND ..]

Runs `rt ci`, or the COMMAND, at the top of the repository, and looks each second at the checks that run in it and in copies that it
makes. For each crate it tells the processor minutes of its proof and of its wrong bodies, and when the proof began and ended, in
minutes from the start; then the chain of crates, each standing on the one before, that took longest. Some kits keep what an earlier
run proved: a crate that was kept has no row, and `rt ci --anew` tells of all there. The status is the command's.
"""

from __future__ import annotations

import argparse
import os
import subprocess
import sys
import time
from dataclasses import dataclass, field

TOP = os.path.dirname(os.path.dirname(os.path.abspath(__file__)))
TICKS = os.sysconf("SC_CLK_TCK")


@dataclass
class Check:
    """One process of the prover: its crate, whether it proves that crate as it stands, and its seconds."""

    crate: str
    proves: bool
    first: float
    last: float
    processor: float


@dataclass
class Crate:
    """What was seen of a crate, in seconds."""

    proof: float = 0.0
    bodies: float = 0.0
    begun: float = field(default=float("inf"))
    ended: float = 0.0

    def wall(self) -> float:
        return max(0.0, self.ended - self.begun)


def text_of(path: str) -> str:
    with open(path, encoding="utf-8", errors="replace") as file:
        return file.read()


def word_after(words: list[str], name: str) -> str:
    return words[words.index(name) + 1] if name in words[:-1] else ""


def processor_of(process: str) -> float:
    """The seconds that a process itself has used."""
    fields = text_of(f"/proc/{process}/stat").rsplit(")", 1)[1].split()
    return (int(fields[11]) + int(fields[12])) / TICKS


def descends(process: str, run: int) -> bool:
    """Whether a process was started by the run, or by one that was."""
    while process not in ("0", "1"):
        if process == str(run):
            return True
        process = text_of(f"/proc/{process}/stat").rsplit(")", 1)[1].split()[1]
    return False


def look(run: int, checks: dict[tuple[str, str], Check], now: float) -> None:
    """Notes each check of the run that there is now, by its process and its crate."""
    for process in os.listdir("/proc"):
        try:
            words = text_of(f"/proc/{process}/cmdline").split("\0") if process.isdigit() else []
            crate = word_after(words, "--crate-name")
            if not crate or os.path.basename(words[0]) != "rattle" or not descends(process, run):
                continue
            folder = os.readlink(f"/proc/{process}/cwd")
            used = processor_of(process)
        except OSError:
            continue
        check = checks.setdefault((process, crate), Check(crate, folder == f"{TOP}/crates/{crate}", now, now, used))
        check.last, check.processor = now, max(check.processor, used)


def crates_of(checks: dict[tuple[str, str], Check]) -> dict[str, Crate]:
    crates: dict[str, Crate] = {}
    for check in checks.values():
        crate = crates.setdefault(check.crate, Crate())
        if check.proves:
            crate.proof += check.processor
            crate.begun, crate.ended = min(crate.begun, check.first), max(crate.ended, check.last)
        else:
            crate.bodies += check.processor
    return crates


def below() -> dict[str, list[str]]:
    """What each crate stands on, as crates.txt has it."""
    lines = [line.split("#")[0] for line in text_of(f"{TOP}/crates.txt").splitlines()]
    pairs = [line.split(":") for line in lines if ":" in line]
    return {name.split()[0]: words.split() for name, words in pairs}


def longest(crates: dict[str, Crate]) -> list[str]:
    """The chain of crates whose proofs took longest, the lowest first."""
    lower = below()
    best: dict[str, list[str]] = {}

    def chain(name: str) -> list[str]:
        if name not in best:
            chains = [chain(it) for it in lower.get(name, []) if it in lower]
            under: list[str] = max(chains, key=length, default=[])
            best[name] = [*under, name]
        return best[name]

    def length(names: list[str]) -> float:
        return sum(crates[it].wall() for it in names if it in crates)

    return max((chain(name) for name in lower), key=length, default=[])


def tell(crates: dict[str, Crate], most: int) -> None:
    print("| crate | proof, processor minutes | wrong bodies | from, to |\n|---|---|---|---|")
    ranked = sorted(crates.items(), key=lambda it: -(it[1].proof + it[1].bodies))
    for name, it in ranked[:most]:
        span = f"{it.begun / 60:.0f}, {it.ended / 60:.0f}" if it.ended else ""
        print(f"| {name} | {it.proof / 60:.1f} | {it.bodies / 60:.1f} | {span} |")
    proofs, bodies = sum(it.proof for it in crates.values()), sum(it.bodies for it in crates.values())
    print(f"| together | {proofs / 60:.0f} | {bodies / 60:.0f} | |")
    chain = longest(crates)
    told = ", ".join(f"{name} {crates[name].wall() / 60:.1f}" for name in chain if name in crates)
    print(f"\nThe longest chain, in minutes by the clock: {told}")


def watch(command: list[str], every: float) -> tuple[int, dict[str, Crate], float]:
    checks: dict[tuple[str, str], Check] = {}
    start = time.monotonic()
    with subprocess.Popen(command, cwd=TOP) as run:
        while run.poll() is None:
            look(run.pid, checks, time.monotonic() - start)
            time.sleep(every)
        return run.returncode, crates_of(checks), time.monotonic() - start


def main() -> int:
    parser = argparse.ArgumentParser(description="Where the gate's time goes.")
    parser.add_argument("--every", type=float, default=1.0, metavar="SECONDS")
    parser.add_argument("--top", type=int, default=1000, metavar="N", help="rows, the dearest crates first")
    parser.add_argument("command", nargs=argparse.REMAINDER)
    words = parser.parse_args()
    status, crates, seconds = watch(words.command or ["rt", "ci"], words.every)
    tell(crates, words.top)
    print(f"\n{seconds / 60:.0f} minutes by the clock, on {len(os.sched_getaffinity(0))} processors")
    return status


if __name__ == "__main__":
    sys.exit(main())
