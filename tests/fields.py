"""Fields of tables: as they are printed, as a stream has them, and what a row of them weighs."""
import json
from typing import NamedTuple

import streams

UNITS = {"s": 0, "ms": 1, "us": 2, "ns": 3}
LISTS = {"list": streams.LIST, "large_list": streams.LARGE_LIST, "fixed_list": streams.FIXED_LIST}
CODES = {"null": streams.NULL, "bool": streams.BOOL, "utf8": streams.UTF8, "large_utf8": streams.LARGE_UTF8, "binary": streams.BINARY,
         "large_binary": streams.LARGE_BINARY, "fixed_binary": streams.FIXED_BINARY, "struct": streams.STRUCT, **LISTS}
TEXTS, BINARIES = ("utf8", "large_utf8"), ("binary", "large_binary", "fixed_binary")
NUMBERS = (*streams.INTEGERS, "date_day", "date_ms", *(f"timestamp_{unit}" for unit in UNITS))
MOST_WEIGHT = 16777216


class Kind(NamedTuple):
    """The type of a field by its name, the size of a fixed binary or list, the item of a list or the fields of a struct, the zone of a timestamp, and the type
    of the indices of a dictionary, which is empty if there is none."""
    name: str
    size: int = 0
    parts: tuple = ()
    zone: str = ""
    index: str = ""


class Field(NamedTuple):
    name: str
    kind: Kind
    nullable: bool = False


def is_nested(kind):
    return kind.name in LISTS or kind.name == "struct"


def range_of(kind):
    """The least and the greatest integer of a type."""
    name = {"date_day": "int32"}.get(kind.name, kind.name if kind.name in streams.INTEGERS else "int64")
    bits, signed = streams.INTEGERS[name]
    return (-(1 << bits - 1), (1 << bits - 1) - 1) if signed else (0, (1 << bits) - 1)


def plain_text(kind):
    """The type without its dictionary."""
    parts = ",".join(map(printed, kind.parts))
    if kind.name == "fixed_list":
        return f"fixed_list({kind.size},{parts})"
    if is_nested(kind):
        return f"{kind.name}<{parts}>"
    if kind.name == "fixed_binary":
        return f"fixed_binary({kind.size})"
    return f"{kind.name}({json.dumps(kind.zone)})" if kind.zone else kind.name


def printed(field):
    """As `schema` prints a field."""
    text = plain_text(field.kind)
    text = f"dict<{field.kind.index},{text}>" if field.kind.index else text
    return f"{json.dumps(field.name, ensure_ascii=False)}:{text}{'?' * field.nullable}"


def code_and_table(kind):
    name = kind.name
    if name in streams.INTEGERS:
        return streams.INT, streams.integer(name)
    if name.startswith("date_"):
        return streams.DATE, streams.Table((2, int(name == "date_ms")))
    if name.startswith("timestamp_"):
        unit = (2, UNITS[name.removeprefix("timestamp_")])
        return streams.TIMESTAMP, streams.Table(unit, streams.Text(kind.zone)) if kind.zone else streams.Table(unit)
    return CODES[name], streams.Table((4, kind.size)) if name in ("fixed_binary", "fixed_list") else streams.Table()


def encoded(field, numbers):
    """The field of a stream; `numbers` gives the ids of dictionaries."""
    code, table = code_and_table(field.kind)
    dictionary = streams.Table((8, next(numbers)), streams.integer(field.kind.index), (1, 0), (2, 0)) if field.kind.index else None
    return streams.field(field.name, field.nullable, code, table, [encoded(part, numbers) for part in field.kind.parts], dictionary)


def stream_of(fields):
    """A stream of these fields without rows."""
    numbers = iter(range(len(fields) * 1000))
    return streams.schema([encoded(field, numbers) for field in fields]) + streams.END


def least_weight(kind):
    """What the null of a type weighs: as much as its least value."""
    if kind.name == "fixed_binary":
        return 1 + kind.size
    if kind.name == "fixed_list":
        return 1 + kind.size * least_weight(kind.parts[0].kind)
    return 1 + (sum(least_weight(part.kind) for part in kind.parts) if kind.name == "struct" else 0)
