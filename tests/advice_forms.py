"""The sentences that the second line of a refusal may have: each has a form, and a judge that says whether it is true of a refused place."""
import os
import re

from fields import is_nested, printed, range_of
from text_rules import GZIP, MARK, UTF_16

PAGE = os.path.join(os.path.dirname(os.path.abspath(__file__)), "..", "docs", "refusals.md")
MOST_LISTED, MOST_EDITS, SECTOR = 20, 2, 512
TYPES = ("null bool int8 int16 int32 int64 uint8 uint16 uint32 uint64 utf8 large_utf8 binary large_binary date_day date_ms "
         "timestamp_s timestamp_ms timestamp_us timestamp_ns").split()
# Types that other systems name so, as far as they are drawn.
MEANT = {"string": {"utf8"}, "text": {"utf8"}, "str": {"utf8"}, "varchar": {"utf8"}, "int": {"int64"}, "integer": {"int64"}, "bigint": {"int64"},
         "long": {"int64"}, "boolean": {"bool"}, "bytes": {"binary"}, "blob": {"binary"}, "date": {"date_day"}, "datetime": {"timestamp_us"},
         "timestamp": {"timestamp_us"}, "smallint": {"int16"}, "tinyint": {"int8"}, "int128": {"int64"},
         "uint128": {"uint64"}, "uint": {"uint64"}, "short": {"int16"}, "date32": {"date_day"}, "date64": {"date_ms"}}


def edits(one, other):
    """The least number of letters that are put in, taken out or changed to make the one word the other."""
    row = list(range(len(other) + 1))
    for place, letter in enumerate(one, 1):
        before, row[0] = row[0], place
        for column, wanted in enumerate(other, 1):
            before, row[column] = row[column], min(row[column] + 1, row[column - 1] + 1, before + (letter != wanted))
    return row[-1]


def nearest(name):
    """The types that a word may have been meant to be."""
    if name in MEANT:
        return MEANT[name]
    least = min(edits(name, known) for known in TYPES)
    return {known for known in TYPES if edits(name, known) == least} if least <= MOST_EDITS and least < len(name.encode()) else set()


def listed(names):
    """The list of what there is, as far as it is shown."""
    rest = len(names) - MOST_LISTED
    return ", ".join(names[:MOST_LISTED]) + (f" and {rest} more" if rest > 0 else "")


def counted(number, noun):
    return f"{number} {noun}{'' if number == 1 else 's'}"


def are_counts(text, number, noun, width):
    return number is not None and text == f"{counted(number, noun)}, and the table {counted(width, 'column')}"


def is_shown_as(text, given):
    return given is not None and text.encode() == (given.encode() if isinstance(given, str) else given)


def is_range(facts, text, least, most):
    return facts.field is not None and text == printed(facts.field) and (int(least), int(most)) == range_of(facts.field.kind)


def is_below(facts, name):
    """Whether a column with parts has this name, and the refused name is that of a part of it, and of no column."""
    columns = facts.columns or ()
    is_column = any(field.name == facts.asked for field in columns)
    has_parts = any(field.name == name and is_nested(field.kind) for field in columns)
    return not is_column and has_parts and (facts.asked or "").startswith((name + ".", name + "["))


def is_count_of_items(facts, path, found, wanted):
    return path == facts.path and facts.items is not None and found == counted(facts.items, "item") and int(wanted) == facts.size


def is_header(facts, found, wanted):
    return is_shown_as(found, facts.found) and wanted == facts.wanted


def is_no_regular_file(facts, path):
    return path == facts.path and facts.is_no_file is True and not os.path.isdir(path)


def is_literal(facts, text, field):
    return text == facts.literal and facts.field is not None and field == printed(facts.field)


def is_other_field(facts, found, wanted):
    """Whether the stream has the one field in place of the other. One that is not shown is none."""
    return facts.other is not None and wanted == printed(facts.other[1]) and found in (None, printed(facts.other[0]))


def is_made_with(facts, path, length, sectors, whole):
    is_size = facts.made_with is not None and int(whole) == SECTOR * facts.made_with
    return is_size and path == facts.path and int(length) == os.stat(path).st_size and int(sectors) == facts.made_with


def is_bound(facts):
    """Whether a line begins or ends a list of lines."""
    return facts.line in (b"begin", b"commit")


def refused_as(role):
    return lambda facts, text: facts.role == role and text == facts.word


def because(reason):
    return lambda facts, path: facts.reason == reason and path == facts.path


# For each form what it says, and its judge: it is called with what is true of the place, and with what stands in the parentheses.
FORMS = {
    # Words of the command line.
    "word_name": (r"The name `(.*)` is refused\. ", refused_as("name")),
    "word_field": (r"The field `(.*)` is refused\. ", refused_as("field")),
    "word_condition": (r"The condition `(.*)` is refused\. ", refused_as("condition")),
    "word_column": (r"The column `(.*)` is refused\. ", refused_as("column")),
    "word_file": (r"The file `(.*)` is refused\. ", refused_as("file")),
    "sectors": (r"The number of sectors `(\d+)` is refused\. ", lambda facts, number: int(number) == facts.sectors),
    "tables": (r"Tables: (.*)\. ", lambda facts, names: bool(facts.tables) and names == listed(sorted(facts.tables, key=str.encode))),
    "no_tables": (r"The store has no tables\. ", lambda facts: facts.tables == []),
    "columns": (r"Columns: (.*)\. ", lambda facts, names: facts.columns is not None and names == listed([field.name for field in facts.columns])),
    "whole_column": (r"Only the whole column `(.*)` can be named, not a part of it\. ", is_below),
    # Field texts.
    "no_colon": (r"It has no colon before a type\. ", lambda facts: facts.field_text is not None and ":" not in facts.field_text),
    "bad_name": (r"Its name is not that of a field\. ", lambda facts: facts.is_name_bad is True),
    "did_you_mean": (r"The type `(.*)` is unknown; did you mean `(.*)`\? ", lambda facts, name, near: name == facts.type_name and near in nearest(name)),
    "unknown_type": (r"The type `(.*)` is unknown\. ", lambda facts, name: name == facts.type_name and name not in TYPES and not nearest(name)),
    "lacks_parts": (r"The type `(.*)` lacks what it is made of\. ", lambda facts, name: name == facts.type_name and facts.has_no_parts is True),
    "wrong_type": (r"Its type is unknown or has a wrong form\. ", lambda facts: facts.is_type_bad is True),
    # Conditions.
    "no_space": (r"It has no space before an operator\. ", lambda facts: facts.condition is not None and " " not in facts.condition),
    "no_operator": (r"It has no operator after the first space\. ", lambda facts: facts.operator == ""),
    "no_literal": (r"It has no space after its operator\. ", lambda facts: facts.operator in ("=", "!=", "<", "<=", ">", ">=") and facts.literal is None),
    "no_null_test": (r"It ends neither in `is null` nor in `is not null`\. ",
                     lambda facts: facts.operator == "is" and not facts.condition.endswith((" is null", " is not null"))),
    "operator": (r"`(.*)` is not an operator\. ", lambda facts, text: text == facts.operator and text not in ("=", "!=", "<", "<=", ">", ">=", "is")),
    "literal": (r"`(.*)` is not a value of `(.*)`\. ", is_literal),
    # Texts of CSV.
    "nested": (r"The column `(.*)` is a list or a struct\. ", lambda facts, name: name == facts.nested),
    "header_names": (r"The header names `(.*)` where the table has `(.*)`\. ", is_header),
    "other_name": (r"The header has another name where the table has `(.*)`\. ", lambda facts, wanted: facts.found is not None and wanted == facts.wanted),
    "header_counts": (r"The header has (.*)\. ", lambda facts, text: are_counts(text, facts.names, "name", facts.width)),
    "no_header": (r"The input has no header\. ", lambda facts: facts.names == 0),
    "name_gzip": (r"A name begins as a file that gzip has compressed: `gzip -dc` gives its text\. ", lambda facts: (facts.found or b"").startswith(GZIP)),
    "name_utf_16": (r"A name begins with the byte order mark of UTF-16, but must be UTF-8\. ", lambda facts: (facts.found or b"").startswith(UTF_16)),
    "header_tab": (r"The header has a tab, but only commas separate names\. ", lambda facts: b"\t" in (facts.found or b"")),
    "header_semicolon": (r"The header has a semicolon, but only commas separate names\. ", lambda facts: b";" in (facts.found or b"")),
    "field_text": (r"The text `(.*)` of field `(.*)` is refused\. ", lambda facts, text, name: is_shown_as(text, facts.text) and name == facts.name),
    "field_empty": (r"The field `(.*)` is empty\. ", lambda facts, name: facts.text == b"" and name == facts.name),
    "field": (r"The field `(.*)` is refused\. ", lambda facts, name: name == (facts.name if facts.path is None else facts.path)),
    "begins": (r"Record (\d+) begins on line (\d+)\. ", lambda facts, number, line: (int(number), int(line)) == (facts.number, facts.begins)),
    # Both texts.
    "record_counts": (r"The record has (.*)\. ", lambda facts, text: are_counts(text, facts.parts, "field", facts.width)),
    "holds": (r"`(.*)` holds (-?\d+) to (-?\d+)\. ", is_range),
    "there": (r"The table has `(.*)` there\. ", lambda facts, text: facts.field is not None and text == printed(facts.field)),
    # Lines.
    "line": (r"The line `(.*)` is refused\. ", lambda facts, text: is_shown_as(text, facts.line)),
    "line_gzip": (r"The line begins as a file that gzip has compressed: `gzip -dc` gives its text\. ", lambda facts: (facts.line or b"").startswith(GZIP)),
    "line_mark": (r"The line begins with a byte order mark\. ", lambda facts: (facts.line or b"").startswith(MARK)),
    "line_utf_16": (r"The line begins with the byte order mark of UTF-16, but must be UTF-8\. ", lambda facts: (facts.line or b"").startswith(UTF_16)),
    "line_return": (r"The line ends with a carriage return: `tr -d '\\r'` removes those of the script\. ", lambda facts: (facts.line or b"").endswith(b"\r")),
    "option_name": (r"An option stands in place of the name of a table: if it is a name, write `--` before the names\. ", lambda facts: facts.is_option_name is True),
    "list": (r"Each `begin` needs its `commit` behind it, before another `begin` and the end of the script\. ", lambda facts: is_bound(facts) and not facts.is_applied),
    "one_commit": (r"Leave `begin` and `commit` out: all lines of the script are one commit\. ", lambda facts: is_bound(facts) and facts.is_applied is True),
    "record_of_file": (r"Record (\d+) of the file of the line is refused\. ", lambda facts, number: int(number) == facts.number),
    "whole_file": (r"The file of the line is refused as a whole\. ", lambda facts: facts.number == 0),
    "line_cut": (r"The last line has no line feed at its end: the script may be cut off\. ", lambda facts: facts.is_cut_off is True),
    "missing": (r"The name `(.*)` is missing\. ", because("missing")),
    "no_column": (r"The name `(.*)` is no column\. ", because("unknown")),
    "no_field": (r"The name `(.*)` is no field\. ", because("unknown")),
    "two_columns": (r"Two columns have the name `(.*)`\. ", because("repeated")),
    "two_fields": (r"Two fields have the name `(.*)`\. ", because("repeated")),
    "items": (r"The field `(.*)` has (\d+ items?) instead of (\d+)\. ", is_count_of_items),
    # Streams.
    "empty": (r"The input is empty\. ", lambda facts: facts.given == b""),
    "other_field": (r"The input has `(.*)` where the table has `(.*)`\. ", is_other_field),
    "unshown_field": (r"The input has another field where the table has `(.*)`\. ", lambda facts, wanted: is_other_field(facts, None, wanted)),
    "field_counts": (r"The input has (.*)\. ", lambda facts, text: are_counts(text, facts.fields, "field", facts.width)),
    "unread_input": (r"The input cannot be read: (.*)\. ", lambda facts, reason: reason == facts.unread),
    "unwritten_output": (r"The output cannot be written: (.*)\. ", lambda facts, reason: reason == facts.unwritten),
    # Files and tables.
    "empty_script": (r"The file `(.*)` is empty\. ", lambda facts, path: path == facts.path and os.stat(path).st_size == 0),
    "named_with_return": (r"The file `(.*)` is named with a carriage return at its end: `tr -d '\\r'` removes those of the script\. ",
                          lambda facts, path: path == facts.path and facts.has_return is True),
    "locked": (r"The file `(.*)` is locked by another program\. ", lambda facts, path: path == facts.path and facts.is_locked is True),
    "exists": (r"The file `(.*)` exists already\. ", lambda facts, path: path == facts.path and os.path.lexists(path)),
    "folder": (r"The file `(.*)` is a folder\. ", lambda facts, path: path == facts.path and os.path.isdir(path)),
    "not_regular": (r"The file `(.*)` is not a regular file\. ", is_no_regular_file),
    "length": (r"The file `(.*)` has (\d+) bytes\. ", lambda facts, path, length: path == facts.path and int(length) == os.stat(path).st_size),
    "other_length": (r"The file `(.*)` has (\d+) bytes, but its store was made with (\d+) sectors \((\d+) bytes\)\. ", is_made_with),
    "later_version": (r"The file `(.*)` is a store of version (\d+), which this program does not know\. ",
                      lambda facts, path, version: path == facts.path and int(version) == facts.version),
    "unopened": (r"The file `(.*)` cannot be opened: (.*)\. ", lambda facts, path, reason: (path, reason) == (facts.path, facts.unopened)),
    "unmade": (r"The file `(.*)` cannot be made: (.*)\. ", lambda facts, path, reason: (path, reason) == (facts.path, facts.unmade)),
    "unread_file": (r"The file `(.*)` cannot be read: (.*)\. ", lambda facts, path, reason: (path, reason) == (facts.path, facts.unread)),
    "unread_table": (r"The table `(.*)` cannot be read\. ", lambda facts, name: name in (facts.damaged or ())),
}
STARTS = {name: re.match(r"[^(\\]*", form)[0] for name, (form, _) in FORMS.items()}
COMPILED = {name: re.compile(form, re.DOTALL) for name, (form, _) in FORMS.items()}


def is_empty_number(facts):
    return facts.form == "csv" and facts.text == b""


def is_line(facts):
    return facts.form == "jsonl"


def has_control(facts):
    return bool(re.search(rb"[\x00-\x0c\x0e-\x1f]", facts.line or b""))


# Of codes with several sentences on what to do: how a sentence begins, and when it is the right one. The first that fits is.
TO_DO = {
    "X2": [("Give an item for each column", is_line), ("Fix the record", lambda facts: True)],
    "X4": [("Give an integer. An empty field", is_empty_number), ("Write digits, within 64 bits.", lambda facts: True)],
    "X10": [("Fix the line, which has a control character", has_control), ("Fix the line. `jq", lambda facts: True)],
    "X15": [("Give shorter texts", is_line), ("Fix the record", lambda facts: True)],
    "C1": [("Use a later version", lambda facts: facts.version is not None), ("Give the file of a store.", lambda facts: True)],
    "C3": [("Give 16 to 4194304 sectors.", lambda facts: facts.sectors is not None),
           ("Use an earlier copy of the file. Or give a copy", lambda facts: facts.made_with is not None), ("Use an earlier copy", lambda facts: True)],
    "G1": [("Check the input:", lambda facts: facts.unread is not None and facts.path is None), ("The command is done", lambda facts: facts.is_done is True),
           ("Check the output, and", lambda facts: facts.unwritten is not None), ("Wait until", lambda facts: facts.is_locked is True),
           ("Give a path where nothing is", lambda facts: facts.exists is True), ("Check the path: its folder", lambda facts: facts.unmade is not None),
           ("Check the path, and your rights", lambda facts: facts.unopened is not None), ("Check that it is a file", lambda facts: facts.unread is not None),
           ("Give the file of a store, or a disk", lambda facts: facts.is_no_file is True), ("Check the path, your rights", lambda facts: True)],
    "G2": [("Give 16 to 4194304 sectors.", lambda facts: facts.sectors is not None),
           ("Give the file of a store, or a disk", lambda facts: facts.is_no_file is True),
           ("If this is the new file", lambda facts: facts.made_with is not None and os.stat(facts.path).st_size == SECTOR * facts.made_with + 1),
           ("Use an earlier copy of the file. Or", lambda facts: facts.made_with is not None), ("Give the file of a store. If", lambda facts: True)],
}


def read_page():
    """What the page says of each code, and the word of each."""
    with open(PAGE, encoding="utf-8") as file:
        page, listed_words = file.read().split("## Words for scripts\n")
    items = {code: " ".join(text.split()) for code, text in re.findall(r"^- ([A-Z]\d+) \w+(.*?)(?=^- |^## |\Z)", page, re.M | re.S)}
    for code in ("F3", "F13"):
        items[code] += " " + " ".join(page.split("\n## F:")[1].split("\n- F1 ")[0].split())
    return items, dict(re.findall(r"\b([A-Z]\d+) `([a-z0-9-]+)`", listed_words))


ITEMS, WORDS = read_page()


def is_to_do(facts, text):
    """Whether a sentence on what to do is on the page for this code, and right for the place."""
    if not text or f" {text}" not in f" {ITEMS[facts.code]}":
        return False
    starts = TO_DO.get(facts.code)
    return starts is None or text.startswith(next(start for start, is_right in starts if is_right(facts)))


def readings(text):
    """Each way to read the sentences of a line: their forms with what stands in the parentheses, and what is left at the end."""
    yield [], text
    for name, start in STARTS.items():
        if not text.startswith(start):
            continue
        for end in re.finditer(r"[.?] ", text):
            if found := COMPILED[name].fullmatch(text, 0, end.end()):
                for others, rest in readings(text[end.end():]):
                    yield [(name, found.groups()), *others], rest


def wrong_in(facts, claims, rest, due):
    """What is false in a reading of a line, or is missing in it."""
    wrong = [f"false: {name}{given}" for name, given in claims if not FORMS[name][1](facts, *given)]
    if [name for name, _ in claims] != due:
        wrong.append(f"says {[name for name, _ in claims]}, not {due}")
    return wrong if is_to_do(facts, rest) else [*wrong, f"no sentence for it: {rest!r}"]


def judged(facts, second, word, due):
    """What is wrong with the second line of a refusal, in its best reading."""
    told_word, colon, text = second.partition(": ")
    wrong = min((wrong_in(facts, claims, rest, due) for claims, rest in sorted(readings(text), key=lambda reading: -len(reading[0]))), key=len)
    return wrong if (told_word, colon) == (word, ": ") else [f"the word {told_word!r}, not {word!r}", *wrong]
