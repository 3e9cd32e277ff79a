"""What the gateway tells: a line in the common log form for each request, and lines of its own on the standard error."""

from __future__ import annotations

import logging
import os
import re
import sys
import time
import traceback

from aiohttp import web
from aiohttp.abc import AbstractAccessLogger
from aiohttp.http_exceptions import HttpProcessingError

UNSHOWN = re.compile(r'[^\x20\x21\x23-\x5b\x5d-\x7e]')


def shown(text: str) -> str:
    """A text with what could be taken for the end of a field or of a line as \\xHH, byte by byte."""
    return UNSHOWN.sub(lambda it: "".join(f"\\x{byte:02x}" for byte in it[0].encode("utf-8", "surrogatepass")), text)


def tell(line: str) -> None:
    # By one write: that of the line's end would come behind the text of another process.
    sys.stderr.write(f"gateway: {line}\n")
    sys.stderr.flush()


def where(why: BaseException) -> str:
    """What failed and where, in a line."""
    frames = traceback.extract_tb(why.__traceback__)
    place = f" ({os.path.basename(frames[-1].filename)}:{frames[-1].lineno}, in {frames[-1].name})" if frames else ""
    return f"{type(why).__name__}: {shown(str(why))[:300]}{place}"


class Faults(logging.Handler):
    """What aiohttp tells of, in a line: bytes that are no request of HTTP, links that ended, and what failed and where."""

    def emit(self, record: logging.LogRecord) -> None:
        why = record.exc_info[1] if record.exc_info else None
        if isinstance(why, HttpProcessingError):
            tell(f"no request of HTTP: {shown(str(why))[:200]}")
        else:
            tell(f"{shown(record.getMessage())[:300]}{f': {where(why)}' if why else ''}")


def hear_faults() -> None:
    logger = logging.getLogger("aiohttp")
    logger.addHandler(Faults())
    logger.propagate = False


def moment() -> str:
    now = time.time()
    months = "Jan Feb Mar Apr May Jun Jul Aug Sep Oct Nov Dec".split()
    it = time.gmtime(now)
    return f"{it.tm_mday:02}/{months[it.tm_mon - 1]}/{it.tm_year}:{it.tm_hour:02}:{it.tm_min:02}:{it.tm_sec:02} +0000"


class CommonLog(AbstractAccessLogger):
    """HOST - USER [TIME] "REQUEST" STATUS BYTES"""

    @staticmethod
    def sink() -> logging.Logger:
        """Its lines go to the standard output."""
        sink = logging.getLogger("gateway.log")
        sink.addHandler(logging.StreamHandler(sys.stdout))
        sink.setLevel(logging.INFO)
        return sink

    def log(self, request: web.BaseRequest, response: web.StreamResponse, time: float) -> None:  # noqa: ARG002
        version, message = request.version, request._message  # the line as it came, also of a request that no call has
        # Codes and secrets stand there in the query of OAuth.
        path = message.path.partition("?")[0] if message.path.startswith("/oauth2/") else message.path
        asked = shown(f"{request.method} {path} HTTP/{version.major}.{version.minor}")
        user = shown(request.get("user") or "-").replace(" ", "_")
        # A reply that was cut off may not have had its whole head.
        length = max(response.body_length - request["head"], 0) if "head" in request else response.content_length or 0
        self.logger.info('%s - %s [%s] "%s" %s %s', request.remote or "-", user, moment(), asked, response.status, length)
