"""The configuration: a TOML file, of which each key has a default. docs/SERVICE.md, "Configuration", is its table."""

import dataclasses
import os
import secrets
import tomllib
import typing

EVERYWHERE = ("0.0.0.0", "[::]")  # nobody's address
FOLDER = "realm_histories"  # of the caller's folder, where no configuration names another one


class BadConfig(Exception):
    """A section, key or value that isn't one: its text says which."""


@dataclasses.dataclass
class ServiceConfig:
    listen: str = "127.0.0.1:8480"
    address: str = ""  # where other workers reach this one; http:// and `listen` where it isn't given
    create: bool = True  # whether a user who may write makes a history by its first message


@dataclasses.dataclass
class StoreConfig:
    kind: str = "files"  # or sqlite, postgres
    folder: str = FOLDER  # of files
    path: str = ""  # of sqlite
    dsn: str = ""  # of postgres
    lease_seconds: float = 3.0
    writers: int = 2  # connections that append


@dataclasses.dataclass
class TokensConfig:
    secret_file: str = ""  # of HS256
    jwks_file: str = ""  # public keys of ES256, RS256 and EdDSA
    audience: str = ""
    issuer: str = ""


@dataclasses.dataclass
class HistoriesConfig:
    idle_seconds: float = 60.0
    open_bytes: int = 1 << 30  # of memory for nodes, as estimated from their journals
    threads: int = 32  # in which nodes work
    waiting: int = 1024  # messages of one history
    user_devices: int = 50  # of one user in one history
    merge_pairs: int = 20_000_000  # changes of one Upload, times the entries that they haven't seen


@dataclasses.dataclass
class LimitsConfig:
    message_bytes: int = 17 << 20  # one changeset may have 16 MiB
    message_seconds: float = 30.0
    requests_per_second: float = 200.0  # of one user
    bytes_per_second: float = 32e6  # of one user
    connections: int = 10_000
    user_connections: int = 100
    in_flight_bytes: int = 256 << 20


@dataclasses.dataclass
class Config:
    service: ServiceConfig = dataclasses.field(default_factory=ServiceConfig)
    store: StoreConfig = dataclasses.field(default_factory=StoreConfig)
    tokens: TokensConfig = dataclasses.field(default_factory=TokensConfig)
    histories: HistoriesConfig = dataclasses.field(default_factory=HistoriesConfig)
    limits: LimitsConfig = dataclasses.field(default_factory=LimitsConfig)


def _section(kind: type, name: str, given: object) -> typing.Any:
    if not isinstance(given, dict):
        raise BadConfig(f"[{name}] is a table")
    fields = {it.name: type(it.default) for it in dataclasses.fields(kind)}
    for key, value in given.items():
        if key not in fields:
            raise BadConfig(f"[{name}] has no key {key}; its keys are {', '.join(fields)}")
        wanted: tuple[type, ...] = (int, float) if fields[key] is float else (fields[key],)
        if not isinstance(value, wanted) or isinstance(value, bool) != (bool in wanted):
            raise BadConfig(f"[{name}] {key} is of type {fields[key].__name__}")
        if fields[key] in (int, float) and not value > 0:
            raise BadConfig(f"[{name}] {key} is above 0")
    return kind(**given)


def parsed(given: dict[str, object]) -> Config:
    """The configuration of a TOML table; raises BadConfig."""
    kinds = {"service": ServiceConfig, "store": StoreConfig, "tokens": TokensConfig, "histories": HistoriesConfig, "limits": LimitsConfig}
    for name in given:
        if name not in kinds:
            raise BadConfig(f"no section [{name}]; the sections are {', '.join(kinds)}")
    return checked(Config(**{name: _section(kind, name, given.get(name, {})) for name, kind in kinds.items()}))


def checked(config: Config) -> Config:
    """The same; raises BadConfig where parts of it don't fit."""
    if config.store.kind not in ("files", "sqlite", "postgres"):
        raise BadConfig("[store] kind is files, sqlite or postgres")
    if {"sqlite": config.store.path, "postgres": config.store.dsn}.get(config.store.kind) == "":
        raise BadConfig(f"[store] of kind {config.store.kind} needs {'path' if config.store.kind == 'sqlite' else 'dsn'}")
    host, _, port = config.service.listen.rpartition(":")
    if not host or not port.isdecimal() or not 0 < int(port) < 65536:
        raise BadConfig("[service] listen is HOST:PORT")
    if config.store.kind == "postgres" and host in EVERYWHERE and not config.service.address:
        raise BadConfig("[service] address is missing: where other workers reach this one, which listens everywhere")
    if config.tokens.secret_file and config.tokens.jwks_file:
        raise BadConfig("[tokens] has a secret_file or a jwks_file, and not both")
    return config


def read(path: str | None) -> Config:
    """The configuration of a file, or the default; raises BadConfig."""
    if path is None:
        return Config()
    try:
        with open(path, "rb") as file:
            return parsed(tomllib.load(file))
    except (OSError, tomllib.TOMLDecodeError) as error:
        raise BadConfig(f"{path}: {error}") from error


def secret_path(config: Config) -> str:
    """Where the secret of tokens stands. Without a configuration of tokens it is made beside the histories."""
    if config.tokens.secret_file:
        return config.tokens.secret_file
    beside = config.store.folder if config.store.kind == "files" else os.path.dirname(config.store.path)
    return os.path.join(beside or ".", "secret")


def secret(config: Config) -> str:
    """The secret of tokens, which is made at the first start where no file is named; raises BadConfig."""
    path = secret_path(config)
    if not config.tokens.secret_file and config.store.kind == "postgres":
        raise BadConfig("[tokens] names a secret_file or a jwks_file, which all workers have")
    if not config.tokens.secret_file and not os.path.exists(path):
        os.makedirs(os.path.dirname(path) or ".", mode=0o700, exist_ok=True)
        file = os.open(path, os.O_WRONLY | os.O_CREAT | os.O_EXCL, 0o600)
        with os.fdopen(file, "w", encoding="ascii") as made:
            made.write(secrets.token_urlsafe(48) + "\n")
    try:
        with open(path, encoding="utf-8") as file_:
            text = file_.read().strip()
    except OSError as error:
        raise BadConfig(f"the secret of tokens: {error}") from error
    if len(text) < 32:
        raise BadConfig(f"{path}: the secret of tokens has fewer than 32 characters")
    return text
