"""What a caller is told, as a status of HTTP or a code that closes a socket."""

import asyncio
import logging
import time

from aiohttp import web

from . import metrics
from .devices import Forbidden, Outdated, TooMuch
from .heads import BadMessage
from .history import Busy
from .node import Damaged, NodeFailed
from .stores import Absent, Elsewhere, Fenced, StoreDown
from .tokens import BadToken

log = logging.getLogger("realm_service")
GENERATION = "Realm-Generation"
RESTART, LATER, TOO_BIG = 1012, 1013, 1009  # of RFC 6455's registry; the others are 4000 and the status of HTTP


class Refused(Exception):
    def __init__(self, status: int, why: str, code: int = 0, generation: int = 0):
        super().__init__(why)
        self.status, self.code, self.generation = status, code or 4000 + status, generation


KINDS: tuple[tuple[type[BaseException], int, int], ...] = (
    (BadMessage, 400, 0), (BadToken, 401, 0), (Forbidden, 403, 0), (Absent, 404, 0), (Outdated, 410, 0), (TooMuch, 413, 0),
    (Busy, 503, LATER), (StoreDown, 503, LATER), (NodeFailed, 503, LATER), (Fenced, 503, RESTART), (Elsewhere, 503, RESTART), (Damaged, 500, 0),
    (asyncio.TimeoutError, 503, LATER),
)
TRY_AGAIN = "the worker or its store doesn't answer as yet: try again"
WORDS: dict[type[BaseException], str] = {
    asyncio.TimeoutError: "the history is at work on a long message: try again later, and send less at once",
    Fenced: "the history has moved to another worker: try again",
    Elsewhere: "another worker has the history: try again",
    StoreDown: TRY_AGAIN,
    NodeFailed: TRY_AGAIN,
    Absent: "there is no such history, and the token may not make it",
}


class _Noted:
    """Says why workers and stores don't answer, to the log and not to callers, at most once a second."""

    at = 0.0

    def __call__(self, error: BaseException) -> None:
        if isinstance(error, (Elsewhere, StoreDown, NodeFailed)) and time.monotonic() - self.at >= 1:
            self.at = time.monotonic()
            log.warning("callers are to try again: %s", error)


_noted = _Noted()


def refusal_of(error: BaseException) -> Refused:
    """What a caller is told of it. What has no name here is a fault of the service, and is logged."""
    if isinstance(error, Refused):
        return error
    _noted(error)
    for kind, status, code in KINDS:
        if isinstance(error, kind):
            generation = error.ours if isinstance(error, Outdated) else 0
            return Refused(status, WORDS.get(kind) or str(error) or kind.__name__, code, generation)
    log.error("a message failed", exc_info=error)
    return Refused(500, "failed")


def response_of(error: BaseException) -> web.Response:
    """The same as an answer of HTTP."""
    refusal = refusal_of(error)
    metrics.REFUSED.labels(str(refusal.status)).inc()
    headers = {}
    if refusal.status in (429, 503):
        headers["Retry-After"] = "1"
    if refusal.status == 401:
        headers["WWW-Authenticate"] = "Bearer"
    if refusal.generation:
        headers[GENERATION] = str(refusal.generation)
    return web.Response(status=refusal.status, text=f"{refusal}\n", headers=headers)
