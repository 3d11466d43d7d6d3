"""Drawn tables, and drawn texts of CSV and JSON Lines for them with a fault at a drawn place."""
import json
from typing import NamedTuple

from fields import BINARIES, LISTS, NUMBERS, TEXTS, Field, Kind, range_of
from text_rules import MARK, refused_in_csv, refused_in_lines

PLAIN_NAMES = ("a", "b", "id", "size", "value", "city", "key", "x", "y", "item", "p", "q")
ODD_NAMES = ("a.x", "p.x", "p.y[0]", 'q"r', '"', "two words", "l[0]", "", "t\tab", "esc\x1b", "line\nend", "return\r", "é", "日本", "zero\u200bwidth",
             "n" * 100, "n" * 101, "é" * 50, "é" * 51, "x,y", "back\\slash", "semi;colon", "right\u202eleft", "row\u2028end", "t`ick", "name. The", "😀",
             "\u00a0", "del\x7f")
FLAT = ("bool", "utf8", "large_utf8", "binary", "large_binary", "fixed_binary", *NUMBERS)
INDICES = ("int8", "uint8", "int16", "uint16", "int32", "uint32", "int64", "uint64")
WORDS = ("", "x", "Rome", "New York", "a,b", 'say "hi"', "é", "one\ntwo", "one\r\ntwo", "tab\t", "null", "NA", "-", "0", "true", "`", "; x", "longer " * 9,
         "x" * 120)
NUMBERS_WRONG = ("x", "1.5", "+5", " 2", "2 ", "1e3", "2024-01-01", "0x10", "", "-", "--1", "1_000", "NULL", "true", "1" * 30, "-" + "9" * 120, "٣", "1\x1b",
                 "²", "`1`", "1. ", "18446744073709551616", "9223372036854775808", "-9223372036854775809")
HEX_WRONG = ("0g", "0", "abc", "zz", "00 ", "0x00", "é", "0\t", "G0")
WRONG_NAMES = (b"z", b"A", b"\xff", b"\x1f\x8b\x08", "\ufeffx".encode("utf-16-le"), "\ufeffx".encode("utf-16-be"), b"a;b", b"a\tb", MARK + b"a", b"n" * 101)
JSON_WRONG = ("1", "-1", "1.5", "1.0", "1e2", "-0", "18446744073709551616", "-9223372036854775809", "300", "-129", "70000", "4294967296", '"x"', '"12"', '""',
              "true", "false", "null", "[]", "[1]", "{}", '{"a":1}', "1e400", "[[[[]]]]", '"0g"', '"00"', '"000000"', '"\\ud800"', '"\\udc00x"', "NaN",
              "[null]", "1" * 400)
LINES_WRONG = ("1", "null", '"x"', "true", "[]", "{}", "x", "[", "{", "]", "[1,]", "{'a':1}", "{a:1}", "[1] [2]", "\ufeff[1]", "[1\x00]", '["\t"]', "[\t]",
               '["\x1b"]', '["x\r"]', "\u2028", "[" * 127 + "]" * 127, "[" * 128 + "]" * 128, "[" * 2000, "[1e999]", "-", "[01]", "[.5]", "/", '{"a":1,}',
               "[1]// x", "[tru]")


class DrawnText(NamedTuple):
    words: list
    given: bytes
    facts: object


def draw_name(pick):
    return pick.choice(ODD_NAMES if pick.random() < 0.3 else PLAIN_NAMES)


def draw_flat(pick):
    name = pick.choice(FLAT)
    size = pick.randrange(5) if name == "fixed_binary" else 0
    zone = pick.choice(("", "UTC", "Europe/Rome")) if name.startswith("timestamp") else ""
    return Kind(name, size, (), zone, pick.choice(INDICES) if pick.random() < 0.15 else "")


def draw_kind(pick, depth):
    if depth == 0 or pick.random() < 0.6:
        return Kind("null") if pick.random() < 0.04 else draw_flat(pick)
    if pick.random() < 0.5:
        return Kind("struct", 0, tuple(draw_fields(pick, pick.randrange(1, 4), depth - 1)))
    name = pick.choice(list(LISTS))
    item = Field("item" if pick.random() < 0.9 else draw_name(pick), draw_kind(pick, depth - 1), pick.random() < 0.5)
    return Kind(name, pick.randrange(1, 4) if name == "fixed_list" else 0, (item,))


def draw_fields(pick, number, depth):
    """Fields with names that differ, but for one in ten: it has the name of another, or one as a part of that has."""
    fields = []
    while len(fields) < number:
        name = draw_name(pick)
        if fields and pick.random() < 0.1:
            name = pick.choice(fields).name + pick.choice(("", "", ".x"))
        elif name in [field.name for field in fields]:
            continue
        kind = draw_kind(pick, depth)
        fields.append(Field(name, kind, kind.name == "null" or pick.random() < 0.4))
    return fields


# ---- CSV


def right_text(pick, kind):
    """The text of a value that a type takes."""
    if kind.name in NUMBERS:
        least, most = range_of(kind)
        return str(pick.choice((least, most, 0, pick.randint(least, most)))).encode()
    if kind.name in BINARIES:
        size = kind.size if kind.name == "fixed_binary" else pick.randrange(4)
        return pick.randbytes(size).hex().encode()
    return pick.choice(WORDS).encode() if kind.name in TEXTS else pick.choice((b"true", b"false"))


def wrong_text(pick, kind):
    """A text that a type may refuse."""
    if pick.random() < 0.1:
        return pick.choice((b"\xff", b"x\xc3", b"\x1b[1m", "\u200b".encode(), b""))
    if kind.name in NUMBERS:
        least, most = range_of(kind)
        beyond = (least - 1, most + 1, least - pick.randrange(1, 1000), most * pick.randrange(2, 99))
        return str(pick.choice(beyond)).encode() if pick.random() < 0.5 else pick.choice(NUMBERS_WRONG).encode()
    if kind.name in BINARIES:
        return pick.choice((*HEX_WRONG, "00" * (kind.size + 1), "00" * kind.size + "0")).encode()
    return pick.choice(("True", "FALSE", "1", "yes", "", "true ", "null")).encode()


def quoted(pick, text):
    """A field as CSV has it: in quotation marks where it must be, or elsewhere too."""
    must = set(text) & set(b',\r\n"') or not text and pick.random() < 0.3
    return b'"' + text.replace(b'"', b'""') + b'"' if must or pick.random() < 0.2 else text


def record_of(pick, fields, null):
    texts = []
    for field in fields:
        is_null = field.nullable and (field.kind.name == "null" or pick.random() < 0.3)
        texts.append(null if is_null else right_text(pick, field.kind))
    return texts


def put_wrong_record(pick, fields, texts):
    """Makes a record wrong in its width or in a field."""
    choice, place = pick.random(), pick.randrange(len(texts))
    if choice < 0.1:
        texts.pop(place)
    elif choice < 0.2:
        texts.insert(place, b"7")
    else:
        texts[place] = wrong_text(pick, fields[place].kind)


def put_wrong_header(pick, names):
    choice, place = pick.random(), pick.randrange(len(names))
    if choice < 0.2:
        names.pop(place)
    elif choice < 0.35:
        names.insert(place, pick.choice(ODD_NAMES).encode())
    elif choice < 0.6:
        pick.shuffle(names)
    elif choice < 0.9:
        names[place] = pick.choice((*WRONG_NAMES, names[place] + b" ", names[place][:-1], names[place] + b"\x1b"))
    else:
        separator = pick.choice((b";", b"\t"))
        names[:] = [separator.join(names)]


def csv_of(pick, records, is_open):
    """The text of records, with empty lines between some of them; with a quotation mark that is not closed if asked for."""
    end, parts = pick.choice((b"\n", b"\n", b"\r\n", b"\r")), []
    for number, record in enumerate(records):
        fields = [quoted(pick, text) for text in record]
        if is_open and fields and number == len(records) // 2:
            fields[pick.randrange(len(fields))] = b'"x'
        parts.append(b",".join(fields) if fields != [b""] else b'""')
        parts.append(end * (1 if pick.random() < 0.85 else pick.randrange(2, 4)))
    text = b"".join(parts)
    return (MARK if pick.random() < 0.1 else b"") + (end if pick.random() < 0.05 else b"") + (text if pick.random() < 0.7 else text.removesuffix(end))


def draw_csv(pick, fields):
    """A text that a table of these fields refuses, with the place, and the words after those of the table."""
    while True:
        null = b"" if pick.random() < 0.6 else pick.choice((b"NA", b"null", b"-", b"0"))
        names = [field.name.encode() for field in fields]
        records = [record_of(pick, fields, null) for _ in range(pick.randrange(1, 7))]
        choice = pick.random()
        if choice < 0.2 and names:
            put_wrong_header(pick, names)
        else:
            put_wrong_record(pick, fields, records[pick.randrange(len(records))])
        text = b"" if choice > 0.99 else csv_of(pick, [names, *records], 0.2 < choice < 0.25)
        if refused := refused_in_csv(fields, text, null):
            return DrawnText(["--as", "csv", f"--null={null.decode()}"] if null or pick.random() < 0.2 else ["--as", "csv"], text, refused)


# ---- JSON Lines


class Spot(NamedTuple):
    """A place in a value: the list in which it stands, where, and the field that it is for."""
    within: list
    place: int
    field: Field


class Raw(str):
    """A value as it is written."""


class Object(list):
    """Names and values, each a list of two."""


def right_value(pick, field, spots):
    kind = field.kind
    if field.nullable and (kind.name == "null" or pick.random() < 0.2):
        return None
    if kind.name == "struct":
        return row_value(pick, kind.parts, spots)
    if kind.name in LISTS:
        size, items = kind.size if kind.name == "fixed_list" else pick.randrange(4), []
        for place in range(size):
            items.append(None)
            spots.append(Spot(items, place, kind.parts[0]))
            items[place] = right_value(pick, kind.parts[0], spots)
        return items
    text = right_text(pick, kind).decode()
    return text if kind.name in (*TEXTS, *BINARIES) else Raw(text)


def row_value(pick, fields, spots):
    """A row or a struct, by place or by name; some of what may be null is left out."""
    if pick.random() < 0.4 or len({field.name for field in fields}) < len(fields) and pick.random() < 0.8:
        values = []
        for place, field in enumerate(fields):
            values.append(None)
            spots.append(Spot(values, place, field))
            values[place] = right_value(pick, field, spots)
        return values
    members = Object()
    for field in pick.sample(fields, len(fields)):
        if not field.nullable or pick.random() < 0.7:
            members.append([field.name, None])
            spots.append(Spot(members[-1], 1, field))
            members[-1][1] = right_value(pick, field, spots)
    return members


def written(pick, value):
    """A value as JSON, with spaces in some places."""
    space = " " if pick.random() < 0.05 else ""
    if isinstance(value, Raw):
        return str(value)
    if isinstance(value, Object):
        is_ascii = pick.random() < 0.3
        return "{" + f",{space}".join(f"{json.dumps(name, ensure_ascii=is_ascii)}:{space}{written(pick, part)}" for name, part in value) + "}"
    if isinstance(value, list):
        return f"[{space}" + f",{space}".join(written(pick, part) for part in value) + "]"
    return json.dumps(value, ensure_ascii=pick.random() < 0.3)


def put_wrong_members(pick, value):
    """A row or a struct with a name too many or too few."""
    if pick.random() < 0.5 and value:
        value.pop(pick.randrange(len(value)))
        return
    added = [draw_name(pick), Raw("1")] if isinstance(value, Object) else Raw("1")
    value.insert(pick.randrange(len(value) + 1), added)


def wrong_value(pick, kind):
    if pick.random() < 0.5 and kind.name in (*NUMBERS, *BINARIES, *TEXTS, "bool"):
        text = wrong_text(pick, kind).decode(errors="replace")
        return Raw(text) if kind.name in NUMBERS and text.lstrip("-").isascii() and text.lstrip("-").isdigit() else text
    return Raw(pick.choice(JSON_WRONG))


def wrong_line(pick, fields):
    """A line with a value that is wrong in a drawn place, or with one that is none."""
    spots = []
    row = row_value(pick, fields, spots)
    choice, parts = pick.random(), [row, *(part for part in (spot.within[spot.place] for spot in spots) if isinstance(part, list))]
    if choice < 0.15 or not spots:
        put_wrong_members(pick, pick.choice(parts))
    elif choice < 0.85:
        spot = pick.choice(spots)
        spot.within[spot.place] = wrong_value(pick, spot.field.kind)
    text = written(pick, row)
    if choice < 0.85:
        return text.encode()
    return spoiled(pick, text) if choice < 0.95 else pick.choice(LINES_WRONG).encode()


def spoiled(pick, text):
    """A line that is cut, in another encoding, or has a byte too many."""
    line, place = text.encode(), pick.randrange(len(text.encode()) + 1)
    within = [line[:place] + added + line[place:] for added in (b"\xff", b"\x1b", b"\t", b",")]
    before = [added + line for added in (MARK, b"\x1f\x8b\x08", line)]
    return pick.choice((*within, *before, line[:place], line + b"x", text.encode("utf-16"), b"\xfe\xff" + text.encode("utf-16-be")))


def lines_of(pick, lines):
    end, parts = pick.choice((b"\n", b"\n", b"\r\n")), []
    for line in lines:
        parts += [pick.choice((b"", b" ", b"\t", b"\r", b" \t ")) + b"\n"] if pick.random() < 0.15 else []
        parts.append(line.replace(b"\n", b"") + end)
    return b"".join(parts) if pick.random() < 0.7 else b"".join(parts).removesuffix(end)


def draw_lines(pick, fields):
    """A text that a table of these fields refuses, with the place."""
    while True:
        lines = [written(pick, row_value(pick, fields, [])).encode() for _ in range(pick.randrange(5))]
        lines.insert(pick.randrange(len(lines) + 1), wrong_line(pick, fields))
        text = lines_of(pick, lines)
        if refused := refused_in_lines(fields, text):
            return DrawnText(["--as", "jsonl"], text, refused)
