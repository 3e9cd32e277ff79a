#!/usr/bin/python3
"""replication/run, killed at a step of its writing: killed.py N WORDS..  ends with the Nth step half done, or as the words end.

Each opening, writing, bringing to the disk, cutting and renaming of a file is a step, and each folder that is made.
"""

from __future__ import annotations

import io
import os
import runpy
import signal
import sys
from typing import Any

HERE = os.path.dirname(os.path.abspath(__file__))
TOP = os.path.dirname(HERE)
sys.path.insert(0, TOP)

import folder
import kept_journal
from from_gateway import folders


class Steps:
    """Stands for the module `os` in the module that writes, and counts what is done."""

    def __init__(self, last: int) -> None:
        self.last, self.count = last, 0

    def step(self) -> None:
        self.count += 1
        if self.count == self.last:
            os.kill(os.getpid(), signal.SIGKILL)

    def __getattr__(self, name: str) -> Any:
        return getattr(os, name)

    def fsync(self, descriptor: int) -> None:
        self.step()
        os.fsync(descriptor)

    def replace(self, source: str, target: str) -> None:
        self.step()
        os.replace(source, target)

    def ftruncate(self, descriptor: int, length: int) -> None:
        self.step()
        os.ftruncate(descriptor, length)

    def mkdir(self, path: str) -> None:
        self.step()
        os.mkdir(path)

    def open_file(self, path: str, mode: str = "r", **more: Any) -> Any:
        if mode != "wb":
            return open(path, mode, **more)
        self.step()
        return Halves(self, path)


class Halves(io.FileIO):
    """A new file whose bytes are written in two halves, with the step between."""

    def __init__(self, steps: Steps, path: str) -> None:
        super().__init__(path, "w")
        self.steps = steps

    def write(self, data: Any) -> int:
        super().write(data[: len(data) // 2])
        self.steps.step()
        return super().write(data[len(data) // 2 :])


if __name__ == "__main__":
    steps = Steps(int(sys.argv[1]))
    for module in (folder, folders, kept_journal):
        setattr(module, "os", steps)
    setattr(folder, "open", steps.open_file)
    sys.argv[:] = [os.path.join(TOP, "run"), *sys.argv[2:]]
    runpy.run_path(sys.argv[0], run_name="__main__")
