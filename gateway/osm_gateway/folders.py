"""Folders on the disk."""

from __future__ import annotations

import os


def sync_folder(path: str) -> None:
    """Brings the names of a folder to the disk, as those of files that were renamed into it."""
    folder = os.open(path, os.O_RDONLY | os.O_DIRECTORY | os.O_CLOEXEC)
    try:
        os.fsync(folder)
    finally:
        os.close(folder)
