"""Notes as RSS and as GPX: what stands before the comments of a note, each of these, and what stands behind them."""

from __future__ import annotations

from .degrees import degrees_of
from .documents import NoteForm
from .feeds import moment
from .rows import Comment, Note
from .xml_texts import Texts
from .xml_write import GENERATOR, HEAD

RSS = (
    f'{HEAD}<rss version="2.0" xmlns:geo="http://www.w3.org/2003/01/geo/wgs84_pos#" xmlns:georss="http://www.georss.org/georss">\n'
    "<channel>\n<title>Notes</title>\n<description>Notes on the map</description>\n"
)  # fmt: skip
RSS_END = "</channel>\n</rss>\n"
GPX = f'{HEAD}<gpx version="1.1" creator="{GENERATOR}" xmlns="http://www.topografix.com/GPX/1/1">\n'
GPX_END = "</gpx>\n"


def said(texts: Texts, it: Comment) -> str:
    """A comment in a line or more of plain text."""
    return texts(f"{it['date']} {it.get('user', 'somebody')} {it['action']} it: {it['text']}\n")


def rss(texts: Texts, site: str) -> NoteForm:
    def start(it: Note) -> str:
        here = f"{site}/note/{it['id']}"
        return f"<item>\n<title>Note {it['id']}, {it['status']}</title>\n<link>{texts(here)}</link>\n<guid>{texts(here)}</guid>\n<description>"

    def end(it: Note) -> str:
        lat, lon = degrees_of(it["lat7"]), degrees_of(it["lon7"])
        place = f"<geo:lat>{lat}</geo:lat>\n<geo:long>{lon}</geo:long>\n<georss:point>{lat} {lon}</georss:point>\n"
        return f"</description>\n<pubDate>{moment(it['date_created'])}</pubDate>\n{place}</item>\n"

    return NoteForm(start, lambda it: said(texts, it), "", end)


def gpx(texts: Texts, site: str) -> NoteForm:
    def start(it: Note) -> str:
        place = f'lat="{degrees_of(it["lat7"])}" lon="{degrees_of(it["lon7"])}"'
        return f"<wpt {place}>\n<time>{it['date_created']}</time>\n<name>Note: {it['id']}</name>\n<desc>"

    def end(it: Note) -> str:
        return f'</desc>\n<link href="{texts(site)}/note/{it["id"]}"/>\n<type>{it["status"]}</type>\n</wpt>\n'

    return NoteForm(start, lambda it: said(texts, it), "", end)
