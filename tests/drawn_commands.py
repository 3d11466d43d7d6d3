"""Drawn command lines that name something wrong: a column, a condition, a table, a field, a number of sectors; and drawn streams."""
import re
from typing import NamedTuple

import drawn_texts
import streams
from advice_forms import MOST_LISTED, TYPES, nearest
from fields import BINARIES, NUMBERS, Field, Kind, encoded, is_nested, printed, stream_of
from text_rules import MOST_SHOWN, NAMES, Facts, claims_of_csv, claims_of_line, is_visible, refused_in_csv, refused_in_lines, shown, typed_integer

OPERATORS = ("=", "!=", "<", "<=", ">", ">=")
CREATABLE = re.compile(r"[^ :,<>()?\"]+")
LITERALS = ("x", "", "1", "-5", "2024-01-01", "'x'", "true", "TRUE", "0g", "00ff", "18446744073709551615", "18446744073709551616", "-9223372036854775809",
            "1.5", "null", " 1", "x and b = 2", "\x1b", "9" * 101, "`", "é")
TABLE_NAMES = ("t", "log", "daily", "iso.8601", "a-b", "A_1", "z" * 64, "0", "-", "...")
BAD_NAMES = ("", "a b", "é", "z" * 65, "a/b", "a\x1b", "a:b", "`", "x" * 120, "a\u200bb", "a,b")
WORDS_OF_TYPES = ("string", "text", "int", "integer", "bigint", "boolean", "bytes", "date", "datetime", "timestamp", "float", "double", "decimal", "int9",
                  "in32", "uint46", "Utf8", "utf-8", "bol", "nul", "int128", "timestamp_m", "large_utf", "time", "uuid", "x", "")
WRONG_TYPES = ("list<float>", "struct<x:int8,>", "fixed_binary(01)", "dict<utf8,int8>", "dict<int8,list<int8>>", "int8??", "timestamp_s()", "list<int8",
               "list<>", "int8)", "fixed_list(2)", "utf8 ", "dict<int8>", "\"a\"", "fixed_binary(x)", "struct<int8>", "list<int8>x")
LACKING = ("list", "large_list", "fixed_list", "struct", "dict", "fixed_binary")
# Types that no table has: their codes, tables and names.
NOT_HELD = ((3, streams.Table((2, 2)), "FloatingPoint"), (3, streams.Table((2, 1)), "FloatingPoint"), (7, streams.Table((4, 10), (4, 2)), "Decimal"),
            (9, streams.Table((2, 1), (4, 32)), "Time"), (18, streams.Table((2, 1)), "Duration"), (11, streams.Table((2, 1)), "Interval"))


class Draw(NamedTuple):
    """A command that is refused: its words and input, the line of its refusal, what is true of its place, the forms of the sentences that are due, its word if
    the code has several, and in which way it is run if not as usual."""
    words: list
    given: bytes
    line: str
    facts: object
    due: list
    word: str = ""
    way: str = ""


def of_text(store, name, drawn):
    """An append of a text to a table of a store."""
    facts = drawn.facts
    due = (claims_of_csv if facts.form == "csv" else claims_of_line)(facts)
    return Draw(["append", store, name, *drawn.words], drawn.given, f"{facts.code} {NAMES[facts.code]} {facts.number}", facts, due)


def draw_text(pick, stores):
    name, fields = pick.choice(list(stores.tables.items()))
    drawn = (drawn_texts.draw_csv if pick.random() < 0.5 else drawn_texts.draw_lines)(pick, fields)
    return of_text(stores.path, name, drawn)


def draw_text_in_script(pick, stores):
    """A line of a script that appends a text that is refused, behind lines that are right."""
    text, before = draw_text(pick, stores), pick.choice(([], ["create fresh a:int8"], ["create fresh a:int8", "drop fresh"]))
    words = [word for given in text.words[3:] for word in (given.split("=", 1) if given.startswith("--null=") else [given])]
    path, script = stores.fresh(), stores.fresh()
    line = " ".join('"' + word.replace('"', '""') + '"' for word in ["append", text.words[2], path, *words])
    if "\n" in line:
        return draw_text_in_script(pick, stores)
    for name, content in ((path, text.given), (script, "".join(f"{line}\n" for line in [*before, line]).encode())):
        with open(name, "wb") as file:
            file.write(content)
    facts = Facts(text.facts.code, line=line.encode(), number=text.facts.number)
    due = (["line"] if shown(line) is not None else []) + ["record_of_file" if facts.number else "whole_file"]
    return Draw(["apply", stores.path, script], b"", f"T1 Line {len(before) + 1} {text.line}", facts, due)


def draw_large_row(pick, stores):
    """A row that is too heavy, or has more values than the indices of its dictionary name."""
    name = pick.choice(list(stores.large))
    form = pick.choice(("csv", "jsonl")) if name == "heavy" else "jsonl"
    if name == "heavy":
        given = pick.choice((b"h\n\"\"\n", b"\nh\r\n\r\n\"\"", b'"h"\n""\n""')) if form == "csv" else pick.choice((b"[null]", b"{}\n", b'\n{"h":null}'))
    else:
        given = "\n".join(str([list(range(pick.choice((3, 128, size))))]) for size in (128, 300, 300)).encode()
    refused = refused_in_csv(stores.large[name], given, b"") if form == "csv" else refused_in_lines(stores.large[name], given)
    return of_text(stores.full, name, drawn_texts.DrawnText(["--as", form], given, refused)) if refused else draw_large_row(pick, stores)


# ---- queries


def parsed(condition):
    """The name, the operator and the literal of a condition, as far as it has them, and whether it has the form of one."""
    name, space, rest = condition.partition(" ")
    operator, more, literal = rest.partition(" ")
    is_right = bool(space) and (rest in ("is null", "is not null") or operator in OPERATORS and bool(more))
    return name, operator if space else None, literal if more else None, is_right


def is_value(kind, literal):
    if kind.name in NUMBERS:
        number = typed_integer(literal.encode())
        return number is not None and -(1 << 63) <= number < 1 << 64
    if kind.name in BINARIES:
        return len(literal.encode()) % 2 == 0 and re.fullmatch(r"[0-9a-fA-F]*", literal) is not None
    return kind.name != "bool" or literal in ("true", "false")


def refused_name(fields, role, word, name):
    """A name that no column has, or two."""
    facts = Facts("Q1", role=role, word=word, asked=name, columns=fields)
    nested = [field.name for field in fields if is_nested(field.kind) and name.startswith((field.name + ".", field.name + "["))]
    if nested and name not in [field.name for field in fields]:
        return facts.also(about=["whole_column"] if shown(nested[0]) is not None else [])
    return facts.also(about=["columns"] if all(shown(field.name) is not None for field in fields[:MOST_LISTED]) else [])


def refused_form(condition):
    name, operator, literal, _ = parsed(condition)
    facts = Facts("Q2", role="condition", word=condition, condition=condition, operator=operator, literal=literal)
    if operator is None:
        return facts.also(about=["no_space"])
    known = {"": "no_operator", "is": "no_null_test", **{text: "no_literal" for text in OPERATORS}}
    return facts.also(about=[known[operator]] if operator in known else ["operator"] if shown(operator) is not None else [])


def refused_condition(fields, condition):
    name, operator, literal, _ = parsed(condition)
    found = [field for field in fields if field.name == name]
    if len(found) != 1:
        return refused_name(fields, "condition", condition, name)
    if operator == "is":
        return None
    if is_nested(found[0].kind) or found[0].kind.name == "null":
        return Facts("Q3", role="condition", word=condition, about=[])
    if is_value(found[0].kind, literal):
        return None
    about = ["literal"] if shown(literal) is not None and shown(printed(found[0])) is not None else []
    return Facts("Q2", role="condition", word=condition, literal=literal, field=found[0], about=about)


def refused_query(fields, columns, conditions, is_objects):
    """The first refused part of a query, or None: forms of conditions, then columns, then conditions, and last whether rows can be objects."""
    for condition in conditions:
        if not parsed(condition)[3]:
            return refused_form(condition)
    names = [field.name for field in fields]
    chosen = columns.split(",") if columns is not None else []
    for place, name in enumerate(chosen):
        if names.count(name) != 1 or name in chosen[:place]:
            return refused_name(fields, "column", name, name)
    for condition in conditions:
        if refused := refused_condition(fields, condition):
            return refused
    again = [name for place, name in enumerate(names) if name in names[:place]]
    if is_objects and columns is None and again:
        # Of names that no terminal is shown none is told.
        if (name := next((name for name in again if len(name.encode()) <= MOST_SHOWN), None)) is None:
            return Facts("Q1")
        return refused_name(fields, "column", name, again[0])
    return None


def draw_column(pick, fields):
    name = pick.choice(fields).name
    choice = pick.random()
    if choice < 0.5:
        return name
    return pick.choice((name + ".x", name + "[0]", name + "x", name[:-1], name.upper(), "zz", "", '"' + name + '"', "a.x", "p.x", "l", "\x1b", "n" * 120, "`"))


def draw_condition(pick, fields):
    name, operator = draw_column(pick, fields), pick.choice(OPERATORS)
    if pick.random() < 0.75:
        return f"{name} {operator} {pick.choice(LITERALS)}"
    return pick.choice((f"{name}{operator}1", f"{name} {operator}", f"{name} {operator}1", f"{name}  {operator} 1", f"{name} == 1", f"{name} is NULL",
                        f"{name} is", f"{name} IS NULL", f"{name} is  null", f"{name} is null ", f"{name} like x", f"{name}", "", " ", f"{name} \x1b 1",
                        f"{name} {'o' * 101} 1", f"{name} <> 1", f"{name} is null", f"{name} is not null"))


def draw_query(pick, stores):
    while True:
        name, fields = pick.choice(list(stores.tables.items()))
        conditions = [draw_condition(pick, fields) for _ in range(pick.randrange(3))]
        columns = ",".join(draw_column(pick, fields) for _ in range(pick.randrange(1, 4))) if pick.random() < 0.4 else None
        is_objects, is_saved = pick.random() < 0.3, pick.random() < 0.2
        if refused := refused_query(fields, columns, conditions, is_objects and not is_saved):
            break
    words = ["query", stores.path, name, *([f"--columns={columns}"] if columns is not None else [])]
    words += ["--save", "saved"] if is_saved else ["--objects"] if is_objects else []
    line = {"Q1": "Q1 UnknownColumn", "Q2": "Q2 BadCondition", "Q3": "Q3 NotComparable"}[refused.code]
    due = [f"word_{refused.role}", *refused.about] if refused.word is not None and is_visible(refused.word) else []
    # The form of a condition is tested before the store is opened.
    is_by_store = is_saved and all(parsed(condition)[3] for condition in conditions)
    return Draw([*words, "--", *conditions], b"", f"S12 Query {line}" if is_by_store else line, refused, due)


# ---- tables


def due_of_name(name, *about):
    return ["word_name", *about] if is_visible(name) else []


def draw_unknown_table(pick, stores):
    name = pick.choice([name for name in (*TABLE_NAMES, *BAD_NAMES, "t00", "T0", "t-1") if name not in stores.tables and not name.startswith("-")])
    given = b""
    if (command := pick.choice(("drop", "rename", "schema", "export", "salvage", "query", "append", "text"))) == "text":
        words, given = ["append", stores.path, name, "--as", pick.choice(("csv", "jsonl"))], b"a\n1\n"
    elif command == "append":
        words, given = ["append", stores.path, name], stream_of([Field("a", Kind("int8"))])
    else:
        words = [command, stores.path, name, *(["new"] if command == "rename" else [])]
    about = "tables" if stores.tables else "no_tables"
    return Draw(words, given, "S1 NoTable", Facts("S1", role="name", word=name, tables=list(stores.tables)), due_of_name(name, about))


def of_new_name(pick, stores, name, old):
    """A command that makes a table of this name, or gives it to another one."""
    makes = [(["create", stores.path, name, "a:int8"], b""), (["query", stores.path, old, "--save", name], b""), (["rename", stores.path, old, name], b"")]
    return pick.choice(makes)


def draw_taken_name(pick, stores):
    name, old = pick.sample(list(stores.tables), 2)
    words, given = of_new_name(pick, stores, name, old)
    return Draw(words, given, "S2 NameTaken", Facts("S2", role="name", word=name), due_of_name(name))


def draw_bad_name(pick, stores):
    name, old = pick.choice(BAD_NAMES), pick.choice(list(stores.tables))
    words, given = pick.choice((of_new_name(pick, stores, name, old), (["import", stores.path, name], stream_of([]))))
    return Draw(words, given, "S3 BadName", Facts("S3", role="name", word=name), due_of_name(name))


# ---- fields of `create`


def wrong_field(pick):
    """A text that is no field, and what is true of it."""
    name, choice = pick.choice([name for name in (*drawn_texts.PLAIN_NAMES, "é", "a.x", "t\tab", "n" * 50)]), pick.random()
    if choice < 0.15:
        text = pick.choice((name, name + "=int8", "int8", ""))
        return text, Facts(field_text=text), ["no_colon"]
    if choice < 0.3:
        text = pick.choice((f"{name} b:int8", ":int8", f"{name},b:utf8", f'"{name}":int8', f"{name}?:bool", f"{name}(1):null?"))
        return text, Facts(is_name_bad=True), ["bad_name"]
    if choice < 0.45:
        kind = pick.choice(LACKING)
        return f"{name}:{kind}{pick.choice(('', '?'))}", Facts(type_name=kind, has_no_parts=True), ["lacks_parts"]
    if choice < 0.6:
        return f"{name}:{pick.choice(WRONG_TYPES)}", Facts(is_type_bad=True), ["wrong_type"]
    kind = pick.choice(WORDS_OF_TYPES) if pick.random() < 0.5 else misspelt(pick, pick.choice(TYPES))
    if not re.fullmatch(r"\w*", kind, re.ASCII):
        return f"{name}:{kind}", Facts(is_type_bad=True), ["wrong_type"]
    if kind in LACKING:
        return f"{name}:{kind}", Facts(type_name=kind, has_no_parts=True), ["lacks_parts"]
    return f"{name}:{kind}{pick.choice(('', '?'))}", Facts(type_name=kind), ["did_you_mean" if nearest(kind) else "unknown_type"]


def misspelt(pick, word):
    """A word that no type has, a few letters away from one."""
    while word in TYPES:
        for _ in range(pick.randrange(1, 4)):
            place = pick.randrange(len(word) + 1)
            word = word[:place] + pick.choice(("", "x", "_", "1", "t")) + word[place + pick.randrange(2):]
    return word


def draw_fields_refused(pick, stores):
    texts = [f"{name}:{pick.choice(TYPES)}?" for name in pick.sample(drawn_texts.PLAIN_NAMES, pick.randrange(4))]
    place = pick.randrange(len(texts) + 1)
    if pick.random() < 0.15:
        past = pick.choice(("a:fixed_binary(2147483648)", "a:fixed_list(99999999999,int8)", "a:" + "list<" * 32 + "int8" + ">" * 32))
        return Draw(["create", stores.path, "new", "--", *texts[:place], past, *texts[place:]], b"", "P2 Limit", Facts("P2"), [])
    text, facts, about = wrong_field(pick)
    texts[place:place] = [text]
    facts.also(code="P1", role="field", word=text)
    return Draw(["create", stores.path, "new", "--", *texts], b"", f"P1 BadText {place + 1}", facts, ["word_field", *about] if is_visible(text) else [])


# ---- streams


def words_of_stream(pick, stores):
    """The words of a command that reads a stream, and what comes before its fault."""
    table = pick.choice(list(stores.tables))
    return pick.choice(((["recode"], ""), (["import", stores.path, "new"], "S5 Import "), (["append", stores.path, table], "S5 Import ")))


def with_field(pick, fields, made):
    """A stream of these fields, with one more at a drawn place."""
    place, numbers = pick.randrange(len(fields) + 1), iter(range(10000))
    tables = [encoded(field, numbers) for field in fields]
    return streams.schema([*tables[:place], made, *tables[place:]]) + streams.END


def draw_type_not_held(pick, stores):
    words, front = words_of_stream(pick, stores)
    name, (code, table, told) = drawn_texts.draw_name(pick), pick.choice(NOT_HELD)
    made = streams.field(name, pick.random() < 0.5, code, table)
    if pick.random() < 0.3:
        made = streams.field(name, True, streams.STRUCT, streams.Table(), [streams.field("x", True, 2, streams.integer("int8")), made])
    given = with_field(pick, pick.choice(list(stores.tables.values())), made)
    return Draw(words, given, f"{front}F12 TypeNotHeld {told}", Facts("F12", name=name), ["field"] if shown(name) is not None else [])


def draw_bad_parameter(pick, stores):
    words, front = words_of_stream(pick, stores)
    name = drawn_texts.draw_name(pick)
    made = streams.field(name, True, streams.INT, streams.Table((4, pick.choice((0, 7, 24, 128))), (1, 1)))
    given = with_field(pick, pick.choice(list(stores.tables.values())), made)
    return Draw(words, given, f"{front}F13 BadParameter", Facts("F13", name=name), ["field"] if shown(name) is not None else [])


def draw_broken_stream(pick, stores):
    words, front = words_of_stream(pick, stores)
    whole = stream_of(pick.choice(list(stores.tables.values())))
    given, line = pick.choice((
        (b"", "F9 NoSchema"), (streams.END, "F9 NoSchema"), (whole[:pick.randrange(1, len(whole) - 8)], "F1 Truncated"), (whole + b"x", "F29 AfterEnd"),
        (b"ARROW1\0\0" + whole, "F2 NoContinuation"), (b"id,value\n1,2\n", "F2 NoContinuation"), (whole[:-8] + whole, "F10 SecondSchema"),
        (b"\xff\xff\xff\xff\xff\xff\xff\xff", "F3 MetadataSize"),
    ))
    return Draw(words, given, front + line, Facts(line.split()[0], given=given), ["empty"] if not given else [])


def other_fields(pick, fields):
    """Fields that differ from these in their number, or in one place, if one could be changed."""
    fields, place = list(fields), pick.randrange(len(fields))
    field, choice = fields[place], pick.random()
    if choice < 0.15:
        fields.pop(place)
    elif choice < 0.3:
        fields.insert(place, Field(drawn_texts.draw_name(pick), Kind("int8"), True))
    elif choice < 0.5:
        fields[place] = field._replace(name=drawn_texts.draw_name(pick))
    elif choice < 0.75:
        fields[place] = field._replace(nullable=not field.nullable)
    else:
        fields[place] = field._replace(kind=drawn_texts.draw_kind(pick, 1))
    return fields


def without_dictionaries(field):
    parts = tuple(map(without_dictionaries, field.kind.parts))
    return field._replace(kind=field.kind._replace(index="", parts=parts))


def draw_other_schema(pick, stores):
    """A stream whose fields differ from those of the table, in more than their dictionaries."""
    while True:
        name, fields = pick.choice(list(stores.tables.items()))
        found = other_fields(pick, fields)
        if list(map(without_dictionaries, found)) != list(map(without_dictionaries, fields)):
            break
    facts = Facts("S4", fields=len(found), width=len(fields))
    other = next((pair for pair in zip(found, fields) if without_dictionaries(pair[0]) != without_dictionaries(pair[1])), None)
    if other is None:
        due = ["field_counts"]
    else:
        facts.also(other=other, name=other[0].name)
        texts = [shown(printed(field)) for field in other]
        due = ["other_field"] if None not in texts else ["unshown_field"] if texts[1] is not None else ["field"] if shown(other[0].name) is not None else []
    return Draw(["append", stores.path, name], stream_of(found), "S4 SchemaMismatch", facts, due)
