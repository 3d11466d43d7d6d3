"""What of a text of CSV or JSON Lines is refused for a table, by the rules of the pages (docs/using.md, docs/definitions/texts.md) and none of the program."""
import json
import re
import unicodedata

from fields import BINARIES, LISTS, MOST_WEIGHT, NUMBERS, TEXTS, Kind, is_nested, least_weight, printed, range_of

MARK = b"\xef\xbb\xbf"
GZIP, UTF_16 = b"\x1f\x8b", (b"\xff\xfe", b"\xfe\xff")
LINE_END = re.compile(rb"\r\n|\r|\n")
MOST_SHOWN, MOST_DEPTH = 100, 127
NAMES = dict(pair.split() for pair in (
    "X1 Header", "X2 Width", "X3 NotUtf8", "X4 NotANumber", "X5 OutOfRange", "X6 NotABool", "X7 NotHex", "X8 NullMismatch", "X9 Nested", "X10 Json",
    "X11 UnknownName", "X12 MissingName", "X13 AmbiguousNames", "X14 FixedWidth", "X15 TooHeavy", "X16 DictionaryFull", "X17 WrongKind"))


class Facts:
    """What is true of a refused place. Of what is not given nothing is true, so that each claim about it is false."""

    def __init__(self, code="", **given):
        self.code = code
        self.__dict__.update(given)

    def __getattr__(self, name):
        return None

    def also(self, **given):
        self.__dict__.update(given)
        return self


def is_visible(text):
    """Whether a text has no character that controls, is invisible or ends a line."""
    return not {"Cc", "Cf", "Zl", "Zp"} & set(map(unicodedata.category, text))


def shown(text):
    """The text, if a terminal is shown it: it is not long, is UTF-8, and is visible."""
    text = text.encode() if isinstance(text, str) else text
    return text.decode() if len(text) <= MOST_SHOWN and is_utf_8(text) and is_visible(text.decode()) else None


def typed_integer(text):
    return int(text) if re.fullmatch(rb"-?[0-9]+", text) else None


def code_of_bytes(kind, text):
    """Why the text of bytes is refused, if it is."""
    if len(text) % 2 or not re.fullmatch(rb"[0-9a-fA-F]*", text):
        return "X7"
    return "X14" if kind.name == "fixed_binary" and len(text) != 2 * kind.size else None


def code_of_field(field, text, null):
    """Why the text of a field of CSV is refused, if it is."""
    kind = field.kind
    if field.nullable and text == null:
        return None
    if kind.name in NUMBERS:
        number, (least, most) = typed_integer(text), range_of(kind)
        return "X4" if number is None else None if least <= number <= most else "X5"
    if kind.name in BINARIES:
        return code_of_bytes(kind, text)
    if kind.name in TEXTS:
        return None if is_utf_8(text) else "X3"
    return {"null": "X8", "bool": None if text in (b"true", b"false") else "X6"}[kind.name]


def is_utf_8(text):
    try:
        return text.decode() is not None
    except UnicodeDecodeError:
        return False


# ---- CSV


def quoted_at(text, at):
    """What a quoted field has, and where what follows it begins."""
    parts, at = [], at + 1
    while True:
        end = text.find(b'"', at)
        if end < 0:
            return b"".join([*parts, text[at:]]), len(text)
        parts.append(text[at:end])
        if text[end + 1:end + 2] != b'"':
            return b"".join(parts), end + 1
        parts.append(b'"')
        at = end + 2


def field_at(text, at):
    """A field, and where it ends."""
    quoted, start = quoted_at(text, at) if text[at:at + 1] == b'"' else (b"", at)
    rest = re.compile(rb"[^,\r\n]*").match(text, start)
    return quoted + rest[0], rest.end()


def records_of(text):
    """The records of a CSV text: the line on which each begins, and its fields."""
    text, at, records = text.removeprefix(MARK), 0, []
    line = 1
    while at < len(text):
        if end := LINE_END.match(text, at):
            at, line = end.end(), line + 1
            continue
        start, fields = at, []
        while True:
            field, at = field_at(text, at)
            fields.append(field)
            if text[at:at + 1] != b",":
                break
            at += 1
        records.append((line, fields))
        line += len(LINE_END.findall(text[start:at]))
    return records


def refused_header(fields, names):
    for name, field in zip(names, fields):
        if name != field.name.encode():
            return Facts("X1", number=0, found=name, wanted=field.name)
    return Facts("X1", number=0, names=len(names), width=len(fields)) if len(names) != len(fields) else None


def refused_record(fields, texts, null):
    if len(texts) != len(fields):
        return Facts("X2", parts=len(texts), width=len(fields))
    for field, text in zip(fields, texts):
        if code := code_of_field(field, text, null):
            return Facts(code, field=field, name=field.name, text=text)
    weight = 1 + sum(least_weight(field.kind) if field.nullable and text == null else 1 + len(text) for field, text in zip(fields, texts))
    return Facts("X15") if weight > MOST_WEIGHT else None


def refused_in_csv(fields, text, null):
    """The first refused place of a CSV text, or None."""
    for field in fields:
        if is_nested(field.kind):
            return Facts("X9", number=0, nested=field.name, form="csv")
    records = records_of(text)
    header = refused_header(fields, records[0][1] if records else [])
    if header:
        return header.also(form="csv")
    for number, (line, texts) in enumerate(records[1:], 1):
        if refused := refused_record(fields, texts, null):
            return refused.also(form="csv", number=number, begins=line)
    return None


# ---- JSON Lines


class Members(list):
    """The names and values of an object, as they are written."""


class Number(str):
    """The text of a number."""


def number_of(text):
    if float(text) in (float("inf"), float("-inf")):
        raise ValueError("no float holds it")
    return Number(text)


def no_constant(text):
    raise ValueError(text)


DECODER = json.JSONDecoder(object_pairs_hook=Members, parse_int=number_of, parse_float=number_of, parse_constant=no_constant)


def parts_of(value):
    return [part for _, part in value] if isinstance(value, Members) else value if isinstance(value, list) else []


def depth_of(value):
    return 1 + max(map(depth_of, parts_of(value)), default=0) if isinstance(value, list) else 0


def has_half_a_pair(value):
    """Whether a string or a name has half of a surrogate pair."""
    texts = [name for name, _ in value] if isinstance(value, Members) else [value] if isinstance(value, str) else []
    return any("\ud800" <= letter <= "\udfff" for text in texts for letter in text) or any(map(has_half_a_pair, parts_of(value)))


def value_of(line):
    """The value of a line, or why it is none."""
    if not is_utf_8(line):
        return None, "X3"
    try:
        value = DECODER.decode(line.decode())
    except (ValueError, RecursionError):
        return None, "X10"
    return value, "X10" if depth_of(value) > MOST_DEPTH or has_half_a_pair(value) else None


def code_of_number(kind, value):
    is_integer = isinstance(value, Number) and re.fullmatch(r"-?[0-9]+", value) and value != "-0" and -(1 << 63) <= int(value) < 1 << 64
    least, most = range_of(kind)
    return "X4" if not is_integer else None if least <= int(value) <= most else "X5"


def code_of_flat(kind, value):
    """Why a value that is no null is refused for a type without parts, if it is."""
    is_text = isinstance(value, str) and not isinstance(value, Number)
    if kind.name in NUMBERS:
        return code_of_number(kind, value)
    if kind.name in (*TEXTS, *BINARIES) and not is_text:
        return "X17"
    if kind.name in BINARIES:
        return code_of_bytes(kind, value.encode())
    return {"null": "X8", "bool": None if isinstance(value, bool) else "X6"}.get(kind.name)


def refused_items(kind, value, path):
    item = kind.parts[0]
    if not isinstance(value, list) or isinstance(value, Members):
        return Facts("X17", reason="value")
    if kind.name == "fixed_list" and len(value) != kind.size:
        return Facts("X2", reason="count", path=path, items=len(value), size=kind.size)
    for place, part in enumerate(value):
        if refused := refused_cell(item, part, f"{path}[{place}]"):
            return refused
    return None


def refused_cell(field, value, path):
    """The first refused place in the value of a field, or None."""
    kind, here = field.kind, {"reason": "value", "path": path, "field": field}
    if value is None:
        return None if field.nullable else Facts("X8", **here)
    if is_nested(kind):
        refused = refused_row(kind.parts, value, path) if kind.name == "struct" else refused_items(kind, value, path)
        return refused.also(**here) if refused and refused.path is None else refused
    code = code_of_flat(kind, value)
    return Facts(code, **here) if code else None


def below(path, name):
    return name if path is None else f"{path}.{name}"


def refused_names(fields, value, path):
    """A name that two fields have, or the first name of an object, in the order of their bytes, that is no field's."""
    names = [field.name for field in fields]
    for place, name in enumerate(names):
        if name in names[place + 1:]:
            return Facts("X13", reason="repeated", path=below(path, name), is_top=path is None)
    for name in sorted((name for name, _ in value), key=str.encode):
        if name not in names:
            return Facts("X11", reason="unknown", path=below(path, name), is_top=path is None)
    return None


def refused_members(fields, value, path):
    members = dict(value)
    for field in fields:
        here = below(path, field.name)
        if field.name not in members and not field.nullable:
            return Facts("X12", reason="missing", path=here)
        if refused := refused_cell(field, members.get(field.name), here):
            return refused
    return None


def refused_row(fields, value, path):
    """Of a row, which has no path, or of a struct."""
    if isinstance(value, Members):
        return refused_names(fields, value, path) or refused_members(fields, value, path)
    if not isinstance(value, list):
        return Facts("X17", reason="value")
    if len(value) != len(fields):
        counts = {"parts": len(value), "width": len(fields)} if path is None else {"items": len(value), "size": len(fields)}
        return Facts("X2", reason="count", path=path, is_row=path is None, **counts)
    for field, part in zip(fields, value):
        if refused := refused_cell(field, part, below(path, field.name)):
            return refused
    return None


def values_in(fields, value):
    """The values of a row or a struct by place."""
    members = dict(value) if isinstance(value, Members) else None
    return [members.get(field.name) for field in fields] if members is not None else value


def weight_of(kind, value):
    if value is None:
        return least_weight(kind)
    if kind.name in LISTS:
        return 1 + sum(weight_of(kind.parts[0].kind, part) for part in value)
    if kind.name == "struct":
        return 1 + sum(weight_of(field.kind, part) for field, part in zip(kind.parts, values_in(kind.parts, value)))
    return 1 + (len(value.encode()) if kind.name in TEXTS else len(value) // 2 if kind.name in BINARIES else 0)


def entries_of(kind, value):
    """The distinct values of each column with a dictionary, by its place among the fields and those below them."""
    if kind.index:
        yield (), value
    elif value is not None and kind.name in LISTS:
        for part in value:
            yield from (((0, *place), entry) for place, entry in entries_of(kind.parts[0].kind, part))
    elif value is not None and kind.name == "struct":
        for number, (field, part) in enumerate(zip(kind.parts, values_in(kind.parts, value))):
            yield from (((number, *place), entry) for place, entry in entries_of(field.kind, part))


def index_at(kind, place):
    for number in place:
        kind = kind.parts[number].kind
    return kind.index


def overfills(kind, value):
    """Whether a column has more values in a row than the indices of its dictionary name."""
    entries = {}
    for place, entry in entries_of(kind, value):
        if entry is not None:
            entries.setdefault(place, set()).add(entry)
    return any(len(found) > 1 + range_of(Kind(index_at(kind, place)))[1] for place, found in entries.items())


def refused_whole(fields, value):
    """What is refused of a row whose cells are all right."""
    values = values_in(fields, value)
    if 1 + sum(weight_of(field.kind, part) for field, part in zip(fields, values)) > MOST_WEIGHT:
        return Facts("X15")
    return Facts("X16") if any(overfills(field.kind, part) for field, part in zip(fields, values)) else None


def refused_line(fields, line):
    value, code = value_of(line)
    if code:
        return Facts(code)
    return refused_row(fields, value, None) or refused_whole(fields, value)


def refused_in_lines(fields, text):
    """The first refused place of JSON Lines, or None."""
    lines = [line for line in text.split(b"\n") if line.strip(b" \t\r")]
    for number, line in enumerate(lines, 1):
        if refused := refused_line(fields, line):
            return refused.also(form="jsonl", number=number, line=line)
    return None


# ---- what a place has to show


def of_a_field(facts):
    """The claims about the type of the field at a place."""
    claims = {"X5": ["holds"], "X8": ["there"], "X14": ["there"], "X17": ["there"]}.get(facts.code, [])
    return claims if facts.field and shown(printed(facts.field)) is not None else []


def claims_of_csv(facts):
    """The forms of the sentences that are due, in their order."""
    begins = ["begins"] if facts.begins and facts.begins != facts.number + 1 else []
    if facts.code == "X9":
        return ["nested"] if shown(facts.nested) is not None else []
    if facts.found is not None:
        first = [] if shown(facts.wanted) is None else ["other_name"] if shown(facts.found) is None else ["header_names"]
        return first + form_of_name(facts.found)
    if facts.names is not None:
        return ["header_counts"] if facts.names else ["no_header"]
    if facts.parts is not None:
        return ["record_counts", *begins]
    # A row that is too heavy has no refused part, so that nothing more is said of its place.
    if facts.field is None:
        return []
    if shown(facts.name) is None:
        return [*begins, *of_a_field(facts)]
    named = "field" if shown(facts.text) is None else "field_text" if facts.text else "field_empty"
    return [named, *begins, *of_a_field(facts)]


def form_of_name(name):
    tests = (("name_gzip", name.startswith(GZIP)), ("name_utf_16", name.startswith(UTF_16)), ("header_tab", b"\t" in name), ("header_semicolon", b";" in name))
    return [form for form, holds in tests if holds][:1]


def form_of_line(line):
    tests = (("line_gzip", line.startswith(GZIP)), ("line_mark", line.startswith(MARK)), ("line_utf_16", line.startswith(UTF_16)))
    return [form for form, holds in tests if holds][:1]


def claims_of_line(facts):
    line = (["line"] if shown(facts.line) is not None else []) + form_of_line(facts.line)
    if facts.is_row:
        return [*line, "record_counts"]
    if facts.path is None or shown(facts.path) is None:
        return line + of_a_field(facts)
    is_top = facts.is_top
    forms = {"value": "field", "missing": "missing", "unknown": "no_column" if is_top else "no_field", "repeated": "two_columns" if is_top else "two_fields",
             "count": "items"}
    return [*line, forms[facts.reason], *of_a_field(facts)]
