"""For each reader two moments which a mirror has to be level with: that of its last write, and that at which the server answered it last.

They are kept by a hash of the reader, so two readers may share them: then one is sent to the server without need, and nothing else.
The clock is the same for all processes.
"""

from __future__ import annotations

import time
import zlib

from .processes import Columns

PLACES = 1 << 16
WRITTEN, SEEN = 0, 1


def place_of(reader: str) -> int:
    return zlib.crc32(reader.encode("utf-8", "surrogatepass")) % PLACES


class Floors(Columns):
    def __init__(self, processes: int) -> None:
        super().__init__(2 * PLACES, processes)

    def raise_to_now(self, reader: str, which: int) -> None:
        self.own[2 * place_of(reader) + which] = time.monotonic()

    def of(self, reader: str, which: int) -> float:
        place = 2 * place_of(reader) + which
        return max(column[place] for column in self.all)
