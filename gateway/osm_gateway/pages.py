"""Pages that the gateway writes itself: forms for OAuth, and what is said where there is no page."""

from __future__ import annotations

import os
from collections.abc import Callable, Iterable
from html import escape

from aiohttp import web

from .people import User

CSP = "default-src 'none'; style-src 'self'; img-src 'self' data:; base-uri 'none'; frame-ancestors 'none'; form-action 'self'"

Doing = Callable[[User, dict[str, str]], None]
"""What a form is sent for, by whom, with its fields."""
FOLDER = os.path.join(os.path.dirname(os.path.dirname(os.path.abspath(__file__))), "page")
HEAD = """<!DOCTYPE html>
<html lang="en">
<head>
<meta charset="utf-8">
<meta name="viewport" content="width=device-width, initial-scale=1">
<link rel="icon" href="data:,">
"""
"""What each page begins with."""


def of_file(name: str) -> str:
    """A page whose file has what comes behind that."""
    with open(os.path.join(FOLDER, name), encoding="utf-8") as file:
        return HEAD + file.read()


def page(title: str, *parts: str, status: int = 200, form_action: str = "") -> web.Response:
    """Parts are HTML; whoever writes them escapes what they are made of. `form_action` is where a form's reply may lead besides."""
    text = (
        f'{HEAD}<title>{escape(title)}</title>\n<link rel="stylesheet" href="/page/form.css">\n</head>\n'
        f"<body>\n<main>\n<h1>{escape(title)}</h1>\n{''.join(parts)}</main>\n</body>\n</html>\n"
    )
    reply = web.Response(status=status, text=text, content_type="text/html", charset="utf-8")
    reply.headers["Content-Security-Policy"] = f"{CSP} {form_action}".rstrip()
    reply.headers["Referrer-Policy"] = "same-origin"
    reply.headers["Cache-Control"] = "no-store"
    return reply


def paragraph(text: str, sort: str = "") -> str:
    return f"<p{f' class={sort}' if sort else ''}>{escape(text)}</p>\n"


def listed(rows: Iterable[str]) -> str:
    return "<ul>\n" + "".join(f"<li>{escape(row)}</li>\n" for row in rows) + "</ul>\n"


def entry(label: str, name: str, value: str = "", kind: str = "text", more: str = "") -> str:
    return f'<label>{escape(label)} <input type="{kind}" name="{name}" value="{escape(value)}" {more}></label>\n'


def who(name: str = "") -> str:
    """Two fields: a user's name and token."""
    return entry("Name", "name", name, more='autocomplete="username" required') + entry(
        "Token", "token", kind="password", more='autocomplete="current-password" required'
    )


def button(name: str, value: str, label: str, unchecked: bool = False) -> str:
    return f'<button name="{name}" value="{escape(value)}"{" formnovalidate" if unchecked else ""}>{escape(label)}</button>\n'


def hidden(name: str, value: str) -> str:
    return f'<input type="hidden" name="{name}" value="{escape(value)}">\n'


def table(heads: Iterable[str], rows: Iterable[Iterable[str]]) -> str:
    """Cells are HTML, as parts of a page are."""
    lines = "".join(f"<tr>{''.join(f'<td>{cell}</td>' for cell in row)}</tr>\n" for row in rows)
    return f"<table>\n<tr>{''.join(f'<th>{escape(head)}</th>' for head in heads)}</tr>\n{lines}</table>\n"


def form(*parts: str) -> str:
    """To the address of the page itself, with its parameters."""
    return f'<form method="post">\n{"".join(parts)}</form>\n'
