"""The token of a user, from a file or from the environment: among the words of a program every user of the machine could read it."""

from __future__ import annotations

import argparse
import os
import re

VARIABLE = "HEGUNSAP_TOKEN"


class TokenFile(argparse.Action):
    """The token that a file has in its one line."""

    def __call__(self, parser: argparse.ArgumentParser, namespace: argparse.Namespace, path: object, option: str | None = None) -> None:
        try:
            with open(str(path), encoding="ascii", errors="replace") as file:
                namespace.token = checked(parser, str(path), file.read().strip())
        except OSError as why:
            parser.error(f"{path}: {why.strerror}")


def checked(parser: argparse.ArgumentParser, source: str, token: str) -> str:
    if not re.fullmatch("[!-~]+", token):
        parser.error(f"{source} has to have one token and nothing else")
    return token


def add_token(parser: argparse.ArgumentParser, needed: bool = True) -> None:
    """Reads it as `token`, empty where it isn't needed and nobody gives one."""
    token = os.environ.get(VARIABLE, "")
    if token:
        checked(parser, VARIABLE, token)
    parser.allow_abbrev = False  # a word --token would be taken for --token-file
    text = f"with the token in one line; without it {VARIABLE} of the environment has the token"
    parser.add_argument("--token-file", action=TokenFile, dest="token", required=needed and not token, default=token, metavar="FILE", help=text)
