"""Moments: as the interface writes them, and as OSM shows them."""

from __future__ import annotations

from datetime import datetime, timezone


def utc(moment: str) -> str:
    """The form in which OSM shows times of notes and in its refusals."""
    return moment.replace("T", " ").replace("Z", " UTC")


def moment_of(text: str) -> datetime:
    """A moment as ISO 8601 or as OSM shows it, in UTC where it doesn't say; ValueError where it is none."""
    it = datetime.fromisoformat(text.strip().removesuffix(" UTC"))
    return it if it.tzinfo else it.replace(tzinfo=timezone.utc)


def moment_text(seconds: int) -> str:
    """Seconds since 1970 as the interface writes moments."""
    return datetime.fromtimestamp(seconds, timezone.utc).strftime("%Y-%m-%dT%H:%M:%SZ")
