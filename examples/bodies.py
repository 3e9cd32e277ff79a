#!/usr/bin/env python3
"""Writes bodies that are hard to read or to take, one file each: bodies.py FOLDER

All but the first are as long as a body may be, 33,554,432 bytes or a little less.
"""

from __future__ import annotations

import itertools
import os
import sys
from collections.abc import Callable

LIMIT = 33554432
CREATE = '{"osmChange":[{"create":[', ']}]}'
NODE = '{"type":"node","id":-1,"lat7":1,"lon7":1,"tags":{%s}}'


def filled(head: str, item: str, tail: str) -> str:
    """The item as often as there is room for it."""
    count = (LIMIT - len(head) - len(tail) + 1) // (len(item) + 1)
    return head + ",".join([item] * count) + tail


def ordinary() -> str:
    """39,086 nodes with two tags each, 5 MB."""
    node = (
        '{"type":"node","id":-%d,"changeset":1,"lat7":481400000,"lon7":115400000,'
        '"tags":{"highway":"bus_stop","name":"Marienplatz"}}'
    )
    return CREATE[0] + ",".join(node % (i + 1) for i in range(39086)) + CREATE[1]


def tagged_node() -> str:
    """One node with as many tags as there is room for."""
    letters = [chr(c) for c in range(0x23, 0x7F) if c != 0x5C]
    names = ("".join(t) for n in range(1, 6) for t in itertools.product(letters, repeat=n))
    head, tail = (CREATE[0] + NODE + CREATE[1]).split("%s")
    left = LIMIT - len(head) - len(tail)
    tags = []
    for name in names:
        tag = '"%s":"x"' % name
        left -= len(tag) + 1
        if left < 0:
            break
        tags.append(tag)
    return head + ",".join(tags) + tail


def nodes_with_tags(tags: str) -> str:
    """10,000 nodes, as many as a changeset takes, with the same tags."""
    return CREATE[0] + ",".join(['{"type":"node","id":-%d,"lat7":1,"lon7":1,"tags":{%s}}' % (i, tags) for i in range(1, 10001)]) + CREATE[1]


def short_tags() -> str:
    """As many tags as leave room for 10,000 nodes: a key of one or two bytes, and no value."""
    letters = [chr(c) for c in range(0x23, 0x7F) if c != 0x5C]
    names = letters + ["".join(two) for two in itertools.product(letters, repeat=2)]
    return ",".join('"%s":""' % name for name in names[:420])


def ways_over_one_node() -> str:
    """Ways of 2,000 nodes each, all of them the node before."""
    way = '{"type":"way","id":-%d,"nodes":[' + ",".join(["-1"] * 2000) + "]}"
    node = '{"type":"node","id":-1,"lat7":1,"lon7":1}'
    count = (LIMIT - 200) // (len(way) + 5)
    return CREATE[0] + ",".join([node] + [way % (i + 1) for i in range(count)]) + CREATE[1]


def relations_over_one_node() -> str:
    """Relations of 32,000 members each, all of them the node before."""
    member = '{"type":"node","ref":-1}'
    relation = '{"type":"relation","id":-%d,"members":[' + ",".join([member] * 32000) + "]}"
    node = '{"type":"node","id":-1,"lat7":1,"lon7":1}'
    count = (LIMIT - 200) // (len(relation) + 5)
    return CREATE[0] + ",".join([node] + [relation % (i + 1) for i in range(count)]) + CREATE[1]


def skipped_deletions() -> str:
    """Deletions of a deleted way, each of which is skipped and counts nothing."""
    head, item = '{"osmChange":[{"if-unused":true,"delete":[', '{"type":"way","id":1,"version":2}'
    return filled(head, item, CREATE[1])


def longest_tags() -> str:
    return ",".join('"%s":"%s"' % (c * 255, c * 255) for c in "abcdef")


# Those that a map with the node 1 and the deleted way 1 takes.
ACCEPTED: dict[str, Callable[[], str]] = {
    "white_space": lambda: CREATE[0] + '{"type":"node","id":-1,"lat7":1,"lon7":1}' + CREATE[1] + " " * (LIMIT - 100),
    "nodes_with_longest_tags": lambda: nodes_with_tags(longest_tags()),
    "nodes_with_short_tags": lambda: nodes_with_tags(short_tags()),
    "ways_over_one_node": ways_over_one_node,
    "relations_over_one_node": relations_over_one_node,
    "skipped_deletions": skipped_deletions,
}
PAIRS = ",".join('"%s":"%s"' % (a, b) for a, b in zip("acegikmoqs", "bdfhjlnprt"))
WAY = '{"type":"way","id":-1,"nodes":[', "]}"
RELATION = '{"type":"relation","id":-1,"members":[', "]}"
BODIES: dict[str, Callable[[], str]] = {
    "ordinary": ordinary,
    "arrays": lambda: filled(CREATE[0], "[]", CREATE[1]),
    "objects": lambda: filled(CREATE[0], "{}", CREATE[1]),
    "numbers": lambda: filled(CREATE[0], "1", CREATE[1]),
    "nested": lambda: filled(CREATE[0], "[" * 120 + "]" * 120, CREATE[1]),
    "members_of_one_name": lambda: filled('{"osmChange":[{', '"a":0', "}]}"),
    "one_text": lambda: CREATE[0] + '"' + "a" * (LIMIT - 40) + '"' + CREATE[1],
    "texts_with_escapes": lambda: filled(CREATE[0], r'"\n"', CREATE[1]),
    "way_of_many_nodes": lambda: filled(CREATE[0] + WAY[0], "1", WAY[1] + CREATE[1]),
    "ways_of_2000_nodes": lambda: filled(CREATE[0], ",".join(map(str, range(-1, -2001, -1))).join(WAY), CREATE[1]),
    "condition_behind_deletions": lambda: filled('{"osmChange":[{"delete":[', '{"type":"way","id":1}', '],"if-unused":true}]}'),
    "relation_with_roles": lambda: filled(CREATE[0] + RELATION[0], '{"type":"way","ref":1,"role":"a"}', RELATION[1] + CREATE[1]),
    "nodes_with_ten_tags": lambda: filled(CREATE[0], NODE % PAIRS, CREATE[1]),
    "node_with_many_tags": tagged_node,
    **ACCEPTED,
}


def main() -> None:
    folder = sys.argv[1]
    os.makedirs(folder, exist_ok=True)
    for name, body in ((name, make()) for name, make in BODIES.items()):
        assert len(body) <= LIMIT
        with open(os.path.join(folder, name + ".json"), "w", encoding="utf-8") as out:
            out.write(body)


if __name__ == "__main__":
    main()
