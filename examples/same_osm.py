#!/usr/bin/python3
"""Whether two files have the same map: examples/same_osm.py [--clipped] FILE FILE

Ids, versions, users and stamps aside: elements are told apart by what they are, by what they list in which order and
role, and by what lists them. So a crossing that two ways share isn't the same as two nodes at one place. With --clipped
references to elements that a file hasn't don't count. Needs Debian's python3-pyosmium. Status 0 where they are the same,
1 where they differ.
"""

from __future__ import annotations

import argparse
import sys
from collections import Counter
from hashlib import blake2b

import osm_file
from map_client import KINDS, Element, Key, references

Colours = dict[Key, bytes]


def mix(*parts: object) -> bytes:
    return blake2b(repr(parts).encode(), digest_size=12).digest()


def links(element: Element) -> list[tuple[Key, str]]:
    """What an element lists, with the roles of members."""
    roles = [member["role"] for member in element.get("members", ())] or [""] * len(element.get("nodes", ()))
    return list(zip(references(element), roles, strict=True))


def first_colours(elements: dict[Key, Element]) -> Colours:
    """What each element is by itself."""
    return {
        name: mix(name[0], it.get("lat7"), it.get("lon7"), sorted(it.get("tags", {}).items())) for name, it in elements.items()
    }


def refined(colours: Colours, lists: dict[Key, list[tuple[Key, str]]]) -> Colours:
    """Colours that tell more: of what is listed, and of what lists it at which place."""
    users: dict[Key, list[tuple[bytes, int, str]]] = {}
    for name, listed in lists.items():
        for place, (ref, role) in enumerate(listed):
            users.setdefault(ref, []).append((colours[name], place, role))
    return {
        name: mix(colour, [(colours.get(ref), ref[0], role) for ref, role in lists[name]], sorted(users.get(name, ())))
        for name, colour in colours.items()
    }


def colours_of(maps: list[dict[Key, Element]], is_clipped: bool) -> list[Colours]:
    """The colours of maps, refined until in none of them more elements are told apart, and as often in each."""
    lists = [{name: [it for it in links(one) if not is_clipped or it[0] in some] for name, one in some.items()} for some in maps]
    colours = [first_colours(it) for it in maps]
    while True:
        finer = [refined(*it) for it in zip(colours, lists, strict=True)]
        if [len(set(it.values())) for it in finer] == [len(set(it.values())) for it in colours]:
            return finer
        colours = finer


def alone(maps: list[dict[Key, Element]], is_clipped: bool) -> list[Counter[str]]:
    """Of two maps how many elements of each kind the other one hasn't."""
    counts = [Counter((name[0], colour) for name, colour in it.items()) for it in colours_of(maps, is_clipped)]
    left = [counts[i] - counts[1 - i] for i in (0, 1)]
    return [Counter(kind for kind, _ in it.elements()) for it in left]


def main() -> int:
    parser = argparse.ArgumentParser(usage=(__doc__ or "").split("\n\n")[0].partition(": ")[2])
    parser.add_argument("--clipped", action="store_true")
    parser.add_argument("files", nargs=2, metavar="FILE")
    it = parser.parse_args()
    maps = [osm_file.read(path) for path in it.files]
    one, other = alone(maps, it.clipped)
    for kind in KINDS:
        counts = [sum(name[0] == kind for name in some) for some in maps]
        print(f"{kind}s: {counts[0]} and {counts[1]}, of which {one[kind]} and {other[kind]} aren't in the other file")
    return 1 if one or other else 0


if __name__ == "__main__":
    sys.exit(main())
