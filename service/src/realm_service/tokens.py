"""Who a token speaks for: JSON web tokens, by a secret or by public keys of the configuration.

Claims: `sub`, the user; `exp`; `realm`, the histories: {"family-7": "write", "news-*": "read", "*": "rule"}, where in place of a level there
may be {"level": "read", "tables": ["notes"]}; and, if the token is of one device alone, `device`, its uuid."""

import dataclasses
import fnmatch
import functools
import json
import time
import typing
import uuid

import jwt

from .devices import Caller

LEVELS = ("read", "write", "rule")
ALGORITHMS = {"EC": "ES256", "OKP": "EdDSA", "RSA": "RS256"}  # the algorithm comes from the key, and never from the token
KEPT = 10_000  # tokens whose signatures aren't looked at again


class BadToken(Exception):
    """No token, or one that doesn't hold (any more)."""


@dataclasses.dataclass(frozen=True)
class _Grant:
    """What a token gives in histories of a pattern."""

    pattern: str
    level: int
    tables: frozenset[str] | None


@dataclasses.dataclass(frozen=True)
class _Claims:
    user: str
    until: float
    device: bytes | None
    grants: tuple[_Grant, ...]


def _grant(pattern: str, given: typing.Any) -> _Grant:
    level = given["level"] if isinstance(given, dict) else given
    tables = frozenset(given["tables"]) if isinstance(given, dict) and "tables" in given else None
    if tables is not None and not (tables and all(isinstance(it, str) for it in tables)):
        raise ValueError("tables are names")
    return _Grant(pattern, LEVELS.index(level), tables)


class Tokens:
    """Of a secret, or of a JWKS."""

    def __init__(self, secret: str | None = None, jwks: str | None = None, audience: str = "", issuer: str = ""):
        self.audience, self.issuer, self.secret = audience or None, issuer or None, secret
        self.keys: dict[str | None, tuple[typing.Any, str]] = {None: (secret, "HS256")}
        if jwks is not None:
            keys = jwt.PyJWKSet(json.loads(jwks)["keys"]).keys
            self.keys = {key.key_id: (key.key, ALGORITHMS[key.key_type or ""]) for key in keys}
        self._decoded = functools.lru_cache(KEPT)(self._decode)

    def _decode(self, token: str) -> _Claims:
        try:
            kid = None if self.secret else jwt.get_unverified_header(token).get("kid")
            key, algorithm = self.keys[kid]
            required = {"require": ["exp", "sub"]}
            claims = jwt.decode(token, key, algorithms=[algorithm], audience=self.audience, issuer=self.issuer, options=required)
            device = uuid.UUID(claims["device"]).bytes if "device" in claims else None
            grants = tuple(_grant(*it) for it in claims["realm"].items())
            return _Claims(_user(claims["sub"]), float(claims["exp"]), device, grants)
        except (jwt.PyJWTError, KeyError, ValueError, TypeError, AttributeError, OverflowError, RecursionError) as error:
            raise BadToken(f"the token doesn't hold: {error}") from error

    def caller(self, token: str, history: str) -> tuple[Caller | None, float]:
        """Who asks, what it may do there (None: nothing), and until when. Of several patterns that fit the highest level counts."""
        claims = self._decoded(token)
        if claims.until <= time.time():
            raise BadToken("the token has expired")
        fitting = [it for it in claims.grants if fnmatch.fnmatchcase(history, it.pattern)]
        if not fitting:
            return None, claims.until
        best = max(fitting, key=lambda it: (it.level, it.tables is None))
        return Caller(claims.user, best.level >= 1, best.level == 2, claims.device, best.tables), claims.until

    def made(self, user: str, realm: dict[str, typing.Any], seconds: float, device: str | None = None) -> str:
        """A token, where there is a secret."""
        claims = {"sub": _user(user), "exp": int(time.time() + seconds), "realm": realm}
        optional = {"device": device, "aud": self.audience, "iss": self.issuer}
        claims |= {name: it for name, it in optional.items() if it is not None}
        return jwt.encode(claims, self.secret or "", "HS256")


def _user(given: object) -> str:
    """A user is a text of one line, since a store keeps it in one."""
    if not isinstance(given, str) or not given or len(given) > 200 or not given.isprintable():
        raise ValueError("sub is a text of 1 to 200 printable characters")
    return given
