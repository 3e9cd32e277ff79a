"""Versions of elements as a file of changes, as OpenStreetMap's programs read them: osmChange in XML, packed by gzip."""

from __future__ import annotations

import zlib
from collections.abc import Iterable, Iterator
from typing import Any

from from_gateway import Texts, degrees_of

Element = dict[str, Any]
TEXTS = Texts()


def attribute(name: str, value: object) -> str:
    return f' {name}="{TEXTS(str(value))}"'


def action_of(element: Element) -> str:
    if not element["visible"]:
        return "delete"
    return "create" if element["version"] == 1 else "modify"


def inner_lines(element: Element) -> Iterator[str]:
    for ref in element.get("nodes", ()):
        yield f'      <nd ref="{ref}"/>\n'
    for member in element.get("members", ()):
        yield f'      <member type="{member["type"]}" ref="{member["ref"]}"{attribute("role", member["role"])}/>\n'
    yield from tag_lines(element.get("tags", {}), "      ")


def tag_lines(tags: dict[str, str], indent: str) -> Iterator[str]:
    # Two keys may be the same once they are fit for XML; then the first one counts.
    fit = {attribute("k", key): value for key, value in reversed(tags.items())}
    for key, value in reversed(fit.items()):
        yield f"{indent}<tag{key}{attribute('v', value)}/>\n"


def lines(element: Element) -> Iterator[str]:
    """A version, with its kind, id, version, who made it and when, and where it is visible its content."""
    head = "".join(attribute(name, element[name]) for name in ("id", "version", "timestamp", "changeset", "uid", "user"))
    if "lat7" in element:
        head += f' lat="{degrees_of(element["lat7"])}" lon="{degrees_of(element["lon7"])}"'
    inner = "".join(inner_lines(element))
    kind = element["type"]
    yield f"    <{kind}{head}>\n{inner}    </{kind}>\n" if inner else f"    <{kind}{head}/>\n"


def text_of(elements: Iterable[Element]) -> Iterator[str]:
    return text_of_blocks((action_of(element), text) for element in elements for text in lines(element))


def text_of_blocks(blocks: Iterable[tuple[str, str]]) -> Iterator[str]:
    """The whole text of versions that are written already, each with its action: in their order, neighbours of one action together."""
    yield '<?xml version="1.0" encoding="UTF-8"?>\n<osmChange version="0.6" generator="hegunsap">\n'
    action = ""
    for its_action, text in blocks:
        if its_action != action:
            yield (f"  </{action}>\n" if action else "") + f"  <{its_action}>\n"
            action = its_action
        yield text
    yield (f"  </{action}>\n" if action else "") + "</osmChange>\n"


def packed(texts: Iterable[str]) -> Iterator[bytes]:
    """A file of a text, part by part: the same for the same text, whenever it is written."""
    packer = zlib.compressobj(wbits=31)  # gzip's form, without a time
    for text in texts:
        if part := packer.compress(text.encode()):
            yield part
    yield packer.flush()
