"""Feeds of RSS 2.0."""

from __future__ import annotations

from collections.abc import Iterable
from datetime import datetime
from email.utils import format_datetime
from typing import NamedTuple

from aiohttp import web

from .times import moment_of
from .xml_texts import Texts

MOST = 100
"""Items of a feed."""


class Item(NamedTuple):
    title: str
    link: str
    text: str
    date: str
    more: str = ""
    """Elements of XML."""


def moment(text: str) -> str:
    """A moment as RSS has it (RFC 5322)."""
    it: datetime = moment_of(text)
    return format_datetime(it)


def document(title: str, link: str, items: Iterable[Item]) -> str:
    texts = Texts()
    rows = "".join(
        f'<item>\n<title>{texts(it.title)}</title>\n<link>{texts(it.link)}</link>\n<guid>{texts(it.link)}</guid>\n'
        f"<description>{texts(it.text)}</description>\n<pubDate>{moment(it.date)}</pubDate>\n{it.more}</item>\n"
        for it in items
    )  # fmt: skip
    head = f"<title>{texts(title)}</title>\n<link>{texts(link)}</link>\n<description>{texts(title)}</description>\n"
    geo = 'xmlns:geo="http://www.w3.org/2003/01/geo/wgs84_pos#" xmlns:georss="http://www.georss.org/georss"'
    return f'<?xml version="1.0" encoding="UTF-8"?>\n<rss version="2.0" {geo}>\n<channel>\n{head}{rows}</channel>\n</rss>\n'


def answer(title: str, link: str, items: Iterable[Item]) -> web.Response:
    return web.Response(text=document(title, link, items), content_type="application/rss+xml", charset="utf-8")
