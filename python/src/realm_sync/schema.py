"""The schema, declared once as classes: each class of objects is a frozen dataclass, and its annotations are the columns.

    @table("items")
    class Item:
        id: UUID                                  # the first field is the key: an int, a str or a UUID
        title: str
        done: bool
        quantity: Counter                         # devices add to it while they are apart, and all additions count
        tags: frozenset[str]
        steps: tuple[str, ...]
        prices: Mapping[str, int]
        due: datetime | None
        shelf: Annotated[UUID | None, link("shelves")]
"""

from __future__ import annotations

import dataclasses
import datetime
import types
import typing
import uuid
from collections.abc import Callable, Mapping
from typing import TYPE_CHECKING, Any, NewType, TypeVar

from .errors import ColumnName, InvalidValue
from .talk import column_words

T = TypeVar("T")
Key = int | str | uuid.UUID
Counter = NewType("Counter", int)
KINDS: dict[Any, str] = {int: "Int", bool: "Bool", str: "Text", bytes: "Bytes", datetime.datetime: "Time", uuid.UUID: "Uuid"}
EPOCH = datetime.datetime(1970, 1, 1, tzinfo=datetime.timezone.utc)


@dataclasses.dataclass(frozen=True)
class link:
    """The annotation of a column that names an object of that table by its key."""

    table: str


@dataclasses.dataclass(frozen=True)
class Column:
    table: str
    name: str
    kind: str
    shape: str
    nullable: bool
    target: str | None
    is_counter: bool

    @property
    def where(self) -> ColumnName:
        """Its name for errors."""
        return ColumnName(self.table, self.name)

    def definition(self) -> dict[str, Any]:
        return {"kind": self.kind, "nullable": self.nullable, "shape": self.shape, **({"target": self.target} if self.target else {})}

    def words(self) -> str:
        return column_words(self.kind, self.nullable, self.shape, self.target)


@dataclasses.dataclass(frozen=True)
class TableForm:
    name: str
    type: type[Any]
    key: str
    key_kind: str
    columns: dict[str, Column]

    @property
    def key_name(self) -> ColumnName:
        """Its key's name for errors."""
        return ColumnName(self.name, self.key)


class SchemaError(TypeError):
    """A class that declares no table."""


def _parts(annotation: Any) -> tuple[Any, bool, str | None]:
    """The type of an annotation, whether None may stand there, and to which table it links."""
    target = None
    if typing.get_origin(annotation) is typing.Annotated:
        annotation, *extra = typing.get_args(annotation)
        target = next((it.table for it in extra if isinstance(it, link)), None)
    options = typing.get_args(annotation) if typing.get_origin(annotation) in (typing.Union, types.UnionType) else (annotation,)
    plain = [it for it in options if it is not type(None)]
    if len(plain) != 1:
        raise SchemaError(f"{annotation} is no type of a column")
    return plain[0], len(plain) < len(options), target


def _column(table_: str, name: str, annotation: Any) -> Column:
    kind, nullable, target = _parts(annotation)
    shape, origin, inner = "One", typing.get_origin(kind), typing.get_args(kind)
    if origin is tuple and len(inner) == 2 and inner[1] is ...:
        shape, element = "List", inner[0]
    elif origin is frozenset:
        shape, element = "Set", inner[0]
    elif origin in (Mapping, dict) and inner[0] is str:
        shape, element = "Dict", inner[1]
    if shape != "One":
        kind, nullable, inner_target = _parts(element)
        target = target or inner_target
    is_counter = kind is Counter
    found = "Link" if target else KINDS.get(int if is_counter else kind)
    if found is None:
        raise SchemaError(f"{name}: {annotation} is no type of a column")
    if target:
        nullable = shape == "One"
    return Column(table_, name, found, shape, nullable, target, is_counter)


def form_of(type_: type[Any]) -> TableForm:
    """The table that a class declares."""
    form: TableForm | None = type_.__dict__.get("__table__")
    if form is None:
        raise SchemaError(f"{type_.__name__} is no table: declare it with @table")
    return form


if TYPE_CHECKING:
    from typing_extensions import dataclass_transform
else:

    def dataclass_transform(**_):
        return lambda it: it


@dataclass_transform(frozen_default=True, kw_only_default=True)
def table(name: str) -> Callable[[type[T]], type[T]]:
    """Declares a class of objects: it becomes a frozen dataclass."""

    def declare(type_: type[T]) -> type[T]:
        made = dataclasses.dataclass(frozen=True, kw_only=True)(type_)
        hints = typing.get_type_hints(made, include_extras=True)
        names = list(hints)
        key_kind = KINDS.get(hints[names[0]])
        if key_kind not in ("Int", "Text", "Uuid"):
            raise SchemaError(f"{name}: the key {names[0]} is an int, a str or a UUID")
        columns = {it: _column(name, it, hints[it]) for it in names[1:]}
        for it in (name, *columns):
            if not 1 <= len(it.encode()) <= 63:
                raise SchemaError(f"the name {it!r} has not 1 to 63 bytes")
        made.__table__ = TableForm(name, made, names[0], key_kind, columns)  # type: ignore[attr-defined]
        return made

    return declare


# ---- values between code and the core's JSON


def key_json(where: ColumnName, kind: str, value: Any) -> Any:
    if kind == "Uuid":
        try:
            return {"uuid": str(value if isinstance(value, uuid.UUID) else uuid.UUID(value))}
        except (TypeError, ValueError, AttributeError):
            raise InvalidValue(f"{where}: {value!r} is no uuid", where) from None
    if kind == "Int" and (not isinstance(value, int) or isinstance(value, bool)) or kind == "Text" and not isinstance(value, str):
        raise InvalidValue(f"{where}: {value!r} is no key of {kind}", where)
    if kind == "Int" and not -(2**63) <= value < 2**63:
        raise InvalidValue(f"{where}: {value} has more than 64 bits", where)
    if kind == "Text" and len(whole_text(where, value).encode()) > 255:
        raise InvalidValue(f"{where}: a text key has at most 255 bytes", where)
    return value


def plain_key(form: TableForm, value: Any) -> Any:
    """A key as objects have it: that of a table of UUIDs may be asked for as a text."""
    if form.key_kind == "Uuid" and isinstance(value, str):
        return read_key(key_json(form.key_name, form.key_kind, value))
    return value


def whole_text(where: ColumnName, value: str) -> str:
    """A text, unless it has half a character, which UTF-8 doesn't have."""
    try:
        value.encode()
    except UnicodeEncodeError:
        raise InvalidValue(f"{where}: the text has half a character", where) from None
    return value


def read_key(value: Any) -> Any:
    return uuid.UUID(value["uuid"]) if isinstance(value, dict) else value


def value_json(column: Column, key_kinds: Mapping[str, str], it: Any) -> Any:
    value: Any = it
    if value is None:
        if not column.nullable:
            raise InvalidValue(f"{column.where} is not nullable", column.where)
        return None
    kind: str = column.kind
    if kind == "Link":
        return {"link": column.target, "key": key_json(column.where, key_kinds[column.target or ""], value)}
    want: type[Any] = {"Int": int, "Bool": bool, "Text": str, "Bytes": bytes, "Time": datetime.datetime, "Uuid": uuid.UUID}[kind]
    if not isinstance(value, want) or kind == "Int" and isinstance(value, bool):
        raise InvalidValue(f"{column.where}: {value!r} is no {kind}", column.where)
    if kind == "Int" and not -(2**63) <= value < 2**63:
        raise InvalidValue(f"{column.where}: {value} has more than 64 bits", column.where)
    if kind == "Text":
        return whole_text(column.where, value)
    if kind == "Bytes":
        return {"bytes": value.hex()}
    if kind == "Uuid":
        return {"uuid": str(value)}
    if kind == "Time":
        if value.utcoffset() is None:
            raise InvalidValue(f"{column.where}: {value!r} has no time zone", column.where)
        past = value - EPOCH
        micros = (past.days * 86400 + past.seconds) * 1_000_000 + past.microseconds
        secs = abs(micros) // 1_000_000 * (1 if micros >= 0 else -1)
        return {"secs": secs, "nanos": (micros - secs * 1_000_000) * 1000}
    return value


def _moment(secs: int, nanos: int) -> datetime.datetime:
    """A moment beyond the years of a datetime, of another program, reads as the first or the last one."""
    try:
        return EPOCH + datetime.timedelta(seconds=secs, microseconds=nanos // 1000)
    except OverflowError:
        most = datetime.datetime.max if secs > 0 else datetime.datetime.min
        return most.replace(tzinfo=datetime.timezone.utc)


def _read_one(column: Column, value: Any) -> Any:
    if value is None:
        return None
    match column.kind:
        case "Bytes":
            return bytes.fromhex(value["bytes"])
        case "Time":
            return _moment(value["secs"], value["nanos"])
        case "Uuid":
            return uuid.UUID(value["uuid"])
        case "Link":
            return read_key(value["key"])
        case _:
            return value


def read_cell(column: Column, cell: Any) -> Any:
    match column.shape:
        case "One":
            return _read_one(column, cell)
        case "List":
            return tuple(_read_one(column, it) for it in cell)
        case "Set":
            return frozenset(_read_one(column, it) for it in cell)
        case _:
            return types.MappingProxyType({at: _read_one(column, it) for at, it in cell.items()})


def read_element(column: Column, value: Any) -> Any:
    """An element of a cell, or the value of a cell of one value, as code reads it."""
    return _read_one(column, value)
