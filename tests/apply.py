#!/usr/bin/env python3
"""apply.py PROGRAM: scripts whose lines are applied as one commit, on real files. A script that is done makes one commit, however many lines it has; one that is
refused, at each of its lines in turn, leaves the bytes of the store as they were. What a stop leaves is asked in tests/killed.py and tests/power_cuts.py. A text
is read for the schema that its table has at its line. Prints how long 100 appends in one script take, beside one append; each difference; and last 'N
passed, M failed'."""
import fcntl
import json
import os
import random
import shutil
import struct
import subprocess
import sys
import tempfile
import time

sys.dont_write_bytecode = True
import streams
from disks import Disk, synced
from running import Answers

answers = Answers.of_arguments(__doc__)
compare, run = answers.compare, answers.run
DONE = (0, b"ok\n", b"")
COLUMN = [("a", "int32", False)]
SECTORS = "4096"
TABLES = 100


def stream(*values):
    return streams.stream(COLUMN, [[list(values)]])


# The streams that scripts name. The tables of the store are t, of the rows 7 and -1, and u, of none.
FILES = {
    "one": stream(1), "two": stream(2), "none": stream(), "rows of my own": stream(5, 6), 'a "b"': stream(9), "wide": streams.stream([("a", "int64", False)], [[[1]]]),
    "text": b"a\n1\n", "cut": stream(1, 2)[:-20],
    # Without the end-of-stream marker.
    "open": stream(3, 4)[:-8],
    # Texts.
    "csv": b"a\n5\n6\n", "jsonl": b'[5]\n{"a":6}\n', "header": b"a\n", "two columns": b'n,s\n1,x\nNA,\n', "pairs": b'[1,"x"]\n\n{"s":"y"}\n', "large numbers": b"a\n5000000000\n",
    "dates": b"d,t\n2026-12-01,2026-12-01T12:00:00Z\n", "date lines": b'["2026-12-01",null]\n', "numbers": b"d,t\n20788,1796126400\n", "other rows": b"a\n8\n",
    "no number": b"a\n5\nx\n", "wide row": b"a\n5\n\n6,7\n", "no header": b"b\n5\n", "no json": b"[5]\n[\n", "null": b"[5]\n[null]\n", "empty": b"",
}
BEFORE = {"t": [7, -1], "u": []}


def put(path, content):
    with open(path, "wb") as file:
        file.write(content)


def content(path):
    with open(path, "rb") as file:
        return file.read()


def a_store():
    """A store in a file of its own, which is made anew each time."""
    if not os.path.exists("base"):
        for words, given in ((["format", "base", SECTORS], b""), (["import", "base", "t"], stream(7, -1)), (["create", "base", "u", "a:int32"], b"")):
            compare(words, run(words, given), DONE)
    shutil.copyfile("base", "store")
    return "store"


def epoch(store):
    return json.loads(run(["info", store, "--json"])[1])["epoch"]


def tables(store):
    """The rows of each table."""
    names = [line.rsplit(" ", 1)[0] for line in run(["tables", store])[1].decode().splitlines()]
    return {name: [json.loads(line)[0] for line in run(["query", "--", store, name])[1].splitlines()] for name in names}


def script_of(lines):
    return "".join(line + "\n" for line in lines).encode()


def applied(lines, *options):
    return run(["apply", "store", "-", *options], script_of(lines))


DELETED = ['save t kept "a >= 0"', "drop t", "rename kept t"]
# Ten lines, each of which needs those before it.
TEN = [
    "import v one", "append v two", "create w a:int32", "append w two", 'save t kept "a >= 0"', "drop t", "rename kept t", "rename u x", "import u one", "drop x",
]
SCRIPTS = (
    ("rows are deleted", DELETED, {"t": [7], "u": []}),
    ("three tables are replaced", ["import t one", "import u two", "import v one"], {"t": [1], "u": [2], "v": [1]}),
    ("a schema is changed", ["drop u", "create u a:int64 b:utf8?", "append t one"], {"t": [7, -1, 1], "u": []}),
    ("two tables change their names", ["rename t x", "rename u t", "rename x u"], {"t": [], "u": [7, -1]}),
    ("appends to what a line before made", ["create v a:int32", "append v one", "append v two", "append t two"], {"t": [7, -1, 2], "u": [], "v": [1, 2]}),
    ("a table that no longer is", ["import v one", "drop v"], BEFORE),
    ("a table that is saved whole", ["save t v", "save t w --columns a --", "save t x --columns a -- \"a < 0\" \"a > -9\""], {**BEFORE, "v": [7, -1], "w": [7, -1], "x": [-1]}),
    ("a limit", ["save t v --limit 1", "save t w --limit 0 --", 'save t x --limit 1 --columns a -- "a < 0"', "save t y --columns a --limit 018446744073709551615"],
     {**BEFORE, "v": [7], "w": [], "x": [-1], "y": [7, -1]}),
    ("a table without rows is read", ["create v a:int32", "save v w", "import x none", "save x y"], {**BEFORE, "v": [], "w": [], "x": [], "y": []}),
    ("rows of lines before are saved", ["import v one", "save v w", "append u two", "save u x", "append t one", 'save t y "a < 7"'],
     {"t": [7, -1, 1], "u": [2], "v": [1], "w": [1], "x": [2], "y": [-1, 1]}),
    ("rows of lines before, under another name", ["append t one", "rename t x", "append x two", "save x w", "append w one", 'save w y "a > 0"', "drop w"],
     {"u": [], "x": [7, -1, 1, 2], "y": [7, 1, 2, 1]}),
    ("words in quotation marks", ['"append" "u" "rows of my own"', 'import v "a ""b"""'], {"t": [7, -1], "u": [5, 6], "v": [9]}),
    ("ten lines", TEN, {"t": [7], "u": [1], "v": [1, 2], "w": [2]}),
    ("names behind two hyphens", ["create -- --x a:int32", "append -- --x csv --as csv", "append -- --x two", 'save -- --x --y --columns a -- "a > 5"', "import -- --z one", "rename -- t -", "drop -- --x", "rename -- --z --"],
     {"-": [7, -1], "u": [], "--y": [6], "--": [1]}),
    ("streams that have their end", ["import v one --complete", "append t two --complete", "append -- u two --complete"], {"t": [7, -1, 2], "u": [2], "v": [1]}),
    ("streams without their end", ["import v open", "append t open", "append u open --as stream"], {"t": [7, -1, 3, 4], "u": [3, 4], "v": [3, 4]}),
    ("names with one hyphen", ["rename t -x", "save -x -"], {"-x": [7, -1], "-": [7, -1], "u": []}),
)


# Lines that append texts, and the rows of a table after them.
PAIRS = 'create v n:int32? s:utf8?'
DAYS = "create v d:date_day t:timestamp_s(UTC)?"
TEXTS = (
    ("a table that a line before made", [PAIRS, 'append v "two columns" --as csv --null NA'], "v", [[1, "x"], [None, ""]]),
    ("an empty field is null", ["create v n:utf8? s:utf8?", 'append v "two columns" --as csv'], "v", [["1", "x"], ["NA", None]]),
    ("an empty word for null", ["create v n:utf8? s:utf8?", 'append v "two columns" --null "" --as csv'], "v", [["1", "x"], ["NA", None]]),
    ("JSON Lines", [PAIRS, "append v pairs --as jsonl"], "v", [[1, "x"], [None, "y"]]),
    ("JSON Lines, where no text means null", [PAIRS, "append v pairs --null x --as jsonl"], "v", [[1, "x"], [None, "y"]]),
    ("a table under another name", ["rename t x", "append x jsonl --as jsonl"], "x", [[7], [-1], [5], [6]]),
    ("another schema", ["import t wide", 'append t "large numbers" --as csv'], "t", [[1], [5000000000]]),
    ("another schema under the name", ["append t csv --as csv", "rename t x", "create t n:int32? s:utf8?", "append t pairs --as jsonl"], "t", [[1, "x"], [None, "y"]]),
    ("rows that are saved", ["append t csv --as csv", 'save t w "a > 5"', 'append w "other rows" --as csv'], "w", [[7], [6], [8]]),
    ("two texts and a stream", ["append t csv --as csv", "append t one", "append t jsonl --as jsonl"], "t", [[7], [-1], [5], [6], [1], [5], [6]]),
    ("a text without rows", ["append u header --as csv", "append u empty --as jsonl"], "u", []),
    ("dates as people write them", [DAYS, "append v dates --as csv --dates iso"], "v", [[20788, 1796126400]]),
    ("options in another order", [DAYS, "append v dates --dates iso --null - --as csv"], "v", [[20788, 1796126400]]),
    ("dates in JSON Lines", [DAYS, 'append v "date lines" --dates iso --as jsonl'], "v", [[20788, None]]),
    ("dates as numbers", [DAYS, "append v numbers --as csv --dates number"], "v", [[20788, 1796126400]]),
    ("each line has its own options", [DAYS, "append v dates --as csv --dates iso", "append v numbers --as csv"], "v", [[20788, 1796126400]] * 2),
    ("each line has its own null", ["create v a:utf8?", "append v csv --as csv --null 5", "append v csv --as csv", "append v csv --null 6 --as csv"], "v",
     [[None], ["6"], ["5"], ["6"], ["5"], [None]]),
    ("a stream, by its word", ["append t one --as stream"], "t", [[7], [-1], [1]]),
    ("a stream, with options of texts", ["append t one --null x", "append t two --dates iso", "append t one --null x --dates number --as stream"], "t", [[7], [-1], [1], [2], [1]]),
    ("a text for null in a column without nulls", ["append u csv --as csv --null 5"], "u", [[5], [6]]),
    ("words in quotation marks", ['"append" "t" "csv" "--as" "csv"'], "t", [[7], [-1], [5], [6]]),
)


def rows_of(store, name):
    return [json.loads(line) for line in run(["query", "--", store, name])[1].splitlines()]


def texts_that_are_appended():
    for what, lines, name, wanted in TEXTS:
        store = a_store()
        before = epoch(store)
        compare(what, applied(lines), DONE)
        compare(f"{what}: the rows", rows_of(store, name), wanted)
        compare(f"{what}: one commit", epoch(store), before + 1)
        compare(f"{what}: check", run(["check", store]), DONE)


# The options of a line, and those of the command that does the same.
FORMS = (("csv", "--as csv"), ("jsonl", "--as jsonl"), ("two columns", "--as csv --null NA"), ("pairs", "--as jsonl"), ("dates", "--dates iso --as csv"), ("date lines", "--as jsonl --dates iso"))


def texts_as_the_command():
    """A line appends the rows that the command appends, and is refused where that is."""
    fields = ["a:int32?", "n:int32? s:utf8?", "d:date_day t:timestamp_s(UTC)?", "a:utf8", "n:int64 s:utf8"]
    for name, options in FORMS:
        for columns in fields:
            a_store()
            given = run(["append", "other", "v", *options.split()], FILES[name]) if run(["create", a_copy(), "v", *columns.split()]) == DONE else None
            done = applied([f"create v {columns}", f'append v "{name}" {options}'])
            refusal = given[2].replace(b"refused ", b"refused T1 Line 2 ")
            compare(f"{name} {options} for {columns}", done, (given[0], given[1], refusal))
            if done == DONE:
                compare(f"{name} {options} for {columns}: the table", run(["export", "store", "v"]), run(["export", "other", "v"]))


def a_copy():
    shutil.copyfile("base", "other")
    return "other"


def scripts_that_are_done():
    for what, lines, wanted in SCRIPTS:
        store = a_store()
        before = epoch(store)
        compare(what, applied(lines), DONE)
        compare(f"{what}: the tables", tables(store), wanted)
        compare(f"{what}: one commit", epoch(store), before + 1)
        compare(f"{what}: check", run(["check", store]), DONE)
    store = a_store()
    made = content(store)
    compare("a script without lines", applied([]), (1, b"", b"refused G3 BadScript 1\n"))
    compare("a script without lines: the bytes", content(store), made)


def scripts_in_files():
    """A script in a file is as one that is read from the standard input, which it leaves alone."""
    put("script", script_of(DELETED))
    made = []
    for words, given in ((["apply", "store", "-"], script_of(DELETED)), (["apply", "store", "script"], b"no line"), (["apply", "--", "store", "script"], b"no line")):
        a_store()
        compare(words, run(words, given), DONE)
        made.append(content("store"))
    compare("the bytes of the stores", [made[0] == other for other in made], [True] * 3)
    a_store()
    put("-", script_of(["drop t"]))
    compare("a script in a file with the name -", run(["apply", "store", "./-"], b"no line"), DONE)
    compare("its tables", tables("store"), {"u": []})


def refused(what, lines, line, *options, status=1):
    """A refusal that leaves the store as it was, in each byte."""
    store = a_store()
    before = content(store)
    compare(what, applied(lines, *options), (status, b"", f"refused {line}\n".encode()))
    compare(f"{what}: nothing has changed", content(store) == before, True)


REFUSALS = (
    ("drop x", "S1 NoTable"), ("rename x y", "S1 NoTable"), ("append x one", "S1 NoTable"), ("save x y", "S1 NoTable"), ("create t a:int32", "S2 NameTaken"),
    ("rename t u", "S2 NameTaken"), ("save t u", "S2 NameTaken"), ("create a/b a:int32", "S3 BadName"), ("import a/b one", "S3 BadName"), ("append t wide", "S4 SchemaMismatch"),
    ("import t text", "S5 Import F2 NoContinuation"), ("append t cut", "S5 Import F1 Truncated"), ("import t cut --complete", "S5 Import F1 Truncated"), ('save t y "b = 1"', "S12 Query Q1 UnknownColumn"), ("save t y --columns b", "S12 Query Q1 UnknownColumn"),
    ('save t y "a = x"', "S12 Query Q2 BadCondition"),
)


def lines_that_are_refused():
    for line, refusal in REFUSALS:
        refused(f"the first line is {line}", [line, *TEN], f"T1 Line 1 {refusal}")
        refused(f"the last line is {line}", ["append t one", line], f"T1 Line 2 {refusal}")
    for place in range(len(TEN) + 1):
        refused(f"line {place + 1} of eleven", [*TEN[:place], "drop none", *TEN[place:]], f"T1 Line {place + 1} S1 NoTable")
    refused("the first of two", ["drop t", "drop t", "drop x"], "T1 Line 2 S1 NoTable")
    refused("a line that a later one makes good", ["append v one", "create v a:int32"], "T1 Line 1 S1 NoTable")
    refused("a line sees what the one before it did", ["drop t", "append t one"], "T1 Line 2 S1 NoTable")


REFUSED_TEXTS = (
    ('append u "no number" --as csv', "X4 NotANumber 2"), ('append u "wide row" --as csv', "X2 Width 2"), ('append u "no header" --as csv', "X1 Header 0"),
    ('append u "no json" --as jsonl', "X10 Json 2"), ("append u empty --as csv", "X1 Header 0"), ('append u "large numbers" --as csv', "X5 OutOfRange 1"), ("append u null --as jsonl", "X8 NullMismatch 2"),
    ("append u one --as csv", "X1 Header 0"), ("append x csv --as csv", "S1 NoTable"), ("append a/b jsonl --as jsonl", "S1 NoTable"), ("append u csv", "S5 Import F2 NoContinuation"),
)


def texts_that_are_refused():
    for line, refusal in REFUSED_TEXTS:
        refused(f"the first line is {line}", [line, *TEN], f"T1 Line 1 {refusal}")
        refused(f"the last line is {line}", ["append t one", "append t csv --as csv", line], f"T1 Line 3 {refusal}")
    for place in range(len(TEN) + 1):
        # There is no table u between the lines that rename it and make it anew.
        name = "x" if place == TEN.index("import u one") else "u"
        lines = [*TEN[:place], f'append {name} "no number" --as csv', *TEN[place:]]
        refused(f"a refused text in line {place + 1}", lines, f"T1 Line {place + 1} X4 NotANumber 2")
        refused(f"a right text, and a refused line {place + 2}", [*TEN[:place], f"append {name} csv --as csv", "drop none", *TEN[place:]], f"T1 Line {place + 2} S1 NoTable")
    refused("the first of two texts", ["append u csv --as csv", 'append u "no header" --as csv', 'append u "no json" --as jsonl'], "T1 Line 2 X1 Header 0")
    refused("a table that a line before dropped", ["drop u", "append u csv --as csv"], "T1 Line 2 S1 NoTable")
    refused("a table that a later line makes", ["append v csv --as csv", "create v a:int32"], "T1 Line 1 S1 NoTable")
    refused("the schema of the line", ["append u csv --as csv", "drop u", "create u b:int32", "append u csv --as csv"], "T1 Line 4 X1 Header 0")
    refused("dates of the line before", [DAYS, "append v dates --as csv --dates iso", "append v dates --as csv"], "T1 Line 3 X4 NotANumber 1")


NO_OPTIONS = (
    "--as", "--as xml", "--as CSV", '--as ""', "--as csv --as csv", "--as csv --as jsonl", "--as csv --null", "--as csv --null a --null a", "--as csv --dates", "--as csv --dates days",
    "--dates iso --as csv --dates iso", "--as csv x", "x --as csv", "--as csv --complete", "--complete --as stream", "--complete --complete", "--complete x", "--new", "--as csv --null=x", "--as=csv", "-- --as csv", "--as csv --", "--dates x", "--null x y",
    "--as stream --as stream", "--as stream --dates x", "--as csv --null a --dates iso --as csv", "--null a --null b --null c --null d",
)
# Where a name was forgotten, an option stands in its place.
NO_NAMES = (
    "save t --columns", "save t --columns --limit 1", "save t --limit 1", "save --columns t", "save --columns a -- v", "save t --", 'save t -- "a >= 0"', "create --like a:int32", "create --x a:int32",
    "import --new one", "append --as csv", "append --as csv --as csv", "rename --x y", "rename t --x", "rename t --", "drop --x", 'drop "--x"', "drop --", "save -- t", "rename -- t", "drop -- t u", "-- drop t", "drop -- -- t",
)
NO_LIMITS = (
    "--limit", "--limit x", "--limit +1", "--limit -1", "--limit 1.0", '--limit ""', "--limit 18446744073709551616", "--limit -- 1", "--limit 1 --limit 1", "--columns a --columns a",
    "--limit 1 --columns a --limit 1", "-- --limit 1", '"a >= 0" --limit 1',
)


def scripts_that_are_none():
    """They are refused before the store is opened: here it is no store."""
    for what, script, line in (
        ("no line", b"", "G3 BadScript 1"), ("an empty line", b"drop t\n\ndrop u\n", "G3 BadScript 2"), ("two spaces", b"drop  t\n", "G3 BadScript 1"), ("another word", b"drop t\ndelete t\n", "G3 BadScript 2"),
        ("a word too many", b"drop t u\n", "G3 BadScript 1"), ("a mark that is not closed", b'drop "t\n', "G3 BadScript 1"), ("no text", b"drop \xff\n", "G3 BadScript 1"),
        ("a field text that is none", b"create v a\n", "G3 BadScript 1"), ("a condition that is none", b"save t v a\n", "G3 BadScript 1"),
        ("a compaction", b"drop t\ncompact\n", "G3 BadScript 2"), ("an upgrade", b"upgrade\n", "G3 BadScript 1"), ("an opening", b"drop t\ndrop u\nreopen\nx\n", "G3 BadScript 3"),
        ("a list", b"drop t\nbegin\ndrop u\ncommit\n", "G3 BadScript 2"), ("the end of a list", b"commit\n", "G3 BadScript 1"),
        *((f"words {words} of an append", f"drop u\nappend t csv {words}\n".encode(), "G3 BadScript 2") for words in NO_OPTIONS),
        ("a text that is not there", b"append t missing --as csv\n", "G1 Io"), ("a folder for a text", b"drop u\nappend t . --as jsonl\n", "G1 Io"),
        *((f"words {words} of a save", f"drop u\nsave t v {words}\n".encode(), "G3 BadScript 2") for words in NO_LIMITS),
        ("a last line without its end", b"drop t\ndrop u", "G3 BadScript 2"), ("a line that may be cut off", b"drop t", "G3 BadScript 1"),
        ("a line that may be cut off behind a bad one", b"x\ndrop t", "G3 BadScript 1"), ("a last line cut off before a file is missed", b"import v missing", "G3 BadScript 1"),
        *((f"the line {line}", f"drop u\n{line}\n".encode(), "G3 BadScript 2") for line in NO_NAMES),
        *((f"the line {line}", f"drop u\n{line}\n".encode(), "F30 NoEnd") for line in ("import v open --complete", "append t open --complete", "append t empty --complete")),
        *((f"the line {line}", f"drop u\n{line}\n".encode(), "G3 BadScript 2") for line in ("import v one --complete x", "import v one --new", "create v --complete", "drop t --complete")),
        ("a query", b"query t\n", "G3 BadScript 1"), ("an invalid line behind a file that is not there", b"import v missing\nx\n", "G3 BadScript 2"),
        ("a file that is not there", b"drop t\nimport v missing\n", "G1 Io"), ("an option for a file", b"import v --complete\n", "G1 Io"), ("a folder", b"append t .\n", "G1 Io"),
    ):
        put("other", bytes(8192))
        compare(what, run(["apply", "other", "-"], script), (1, b"", f"refused {line}\n".encode()))
        compare(f"{what}: the bytes", content("other"), bytes(8192))
    for words in (["other", "missing"], ["other", "."], ["missing", "missing"]):
        compare(words, run(["apply", *words]), (1, b"", b"refused G1 Io\n"))
    compare("no store", run(["apply", "other", "-"], script_of(DELETED)), (1, b"", b"refused C1 NotAStore\n"))
    compare("no file", run(["apply", "missing", "-"], script_of(DELETED)), (1, b"", b"refused G1 Io\n"))
    compare("no file is made", os.path.exists("missing"), False)


def command_lines():
    a_store()
    for words in ([], ["store"], ["store", "-", "more"], ["store", "-", "--as", "csv"], ["store", "-", "--new"], ["store", "-", "--wait", "--wait"]):
        status, output, said = run(["apply", *words])
        compare(f"words {words}", (status, output, said != b""), (2, b"", True))
    compare("the tables", tables("store"), BEFORE)


def too_large_together():
    """What all lines write must fit at once; one of them alone does."""
    put("large", streams.stream(COLUMN, [[list(range(1500))]]))
    compare("a small store", run(["format", "small", "32"]), DONE)
    before = content("small")
    status, output, said = run(["apply", "small", "-"], script_of(["import a large", "import b large", "import c large"]))
    compare("three tables, with room for one", (status, output, b" S8 NoRoom" in said), (1, b"", True))
    compare("three tables: nothing has changed", content("small") == before, True)
    compare("a table that a later line drops takes no room", run(["apply", "small", "-"], script_of(["import a large", "import b large", "drop b", "import c large", "drop c"])), DONE)
    compare("the tables", run(["tables", "small"]), (0, b"a 1500\n", b""))


def heavy(rows):
    """A stream of a column whose rows all are one string of 16,000 bytes in a dictionary: each weighs 16,002, and the catalogue does not bound their weight."""
    encoding = streams.Table((8, 0), streams.integer("int8"))
    column = streams.field("s", False, 5, streams.Table(), encoding=encoding)
    string = streams.entries(0, 1, [(1, 0)], [b"", struct.pack("<2i", 0, 16_000), 16_000 * b"x"])
    return streams.schema([column]) + string + streams.rows(rows, [(rows, 0)], [b"", bytes(rows)]) + streams.END


# The files of lines, and the rows of each.
HEAVY = {"half": 8000, "quarter": 4000, "little": 300, "nothing": 0}
MOST_ROWS = 268_435_456 // 16_002


def ends_of_heavy(lines):
    """The rows of the tables that these lines leave, or how the first of them that is refused is."""
    rows = {"a": 0, "b": 8000}
    for number, line in enumerate(lines, 1):
        command, name, *more = line.split(" ")
        if command == "import":
            rows[name] = HEAVY[more[0]]
        elif name not in rows:
            return f"refused T1 Line {number} S1 NoTable"
        elif command == "append" and rows[name] + HEAVY[more[0]] > MOST_ROWS:
            return f"refused T1 Line {number} S7 TooMany Weight"
        elif command == "append":
            rows[name] += HEAVY[more[0]]
        elif command == "drop":
            del rows[name]
        elif more[0] in rows:
            return f"refused T1 Line {number} S2 NameTaken"
        else:
            rows[more[0]] = rows.pop(name)
    return rows


def a_heavy_line(drawn):
    name = drawn.choice("aaab")
    command = drawn.choice(["append"] * 12 + ["import", "rename", "drop"])
    if command == "rename":
        return f"rename {name} {drawn.choice('abc')}"
    return f"drop {name}" if command == "drop" else f"{command} {name} {drawn.choice([*HEAVY])}"


def tables_that_get_too_heavy():
    """A table of strings in a dictionary is weighed, and each line of a list sees what those before it have added: the line that is one too many is refused, as
    the command is. What was weighed is not taken for another table, for one of another name, or for one that replaced it."""
    for name, rows in HEAVY.items():
        put(name, heavy(rows))
    compare("a store", run(["format", "heavy", "8192"]), DONE)
    compare("its tables", run(["apply", "heavy", "-"], script_of(["import a nothing", "import b half"])), DONE)
    drawn = random.Random(16)
    told = set()
    for _ in range(120):
        lines = [a_heavy_line(drawn) for _ in range(drawn.randrange(2, 12))]
        shutil.copyfile("heavy", "store")
        ends = ends_of_heavy(lines)
        status, output, said = applied(lines)
        if isinstance(ends, str):
            told.add(ends.split(" ", 4)[4])
            compare(f"{lines}", (status, output, said.decode()), (1, b"", f"{ends}\n"))
            lines = []
            ends = ends_of_heavy(lines)
        else:
            compare(f"{lines}", (status, output, said), DONE)
        listed = "".join(f"{name} {rows}\n" for name, rows in sorted(ends.items()))
        compare(f"the tables after {lines}", run(["tables", "store"]), (0, listed.encode(), b""))
    compare("what was refused", told, {"S1 NoTable", "S2 NameTaken", "S7 TooMany Weight"})


def locks():
    """A script takes the lock as each command that changes a store does, and waits for it with --wait."""
    store = a_store()
    for kind in (fcntl.LOCK_EX, fcntl.LOCK_SH):
        with open(store, "rb") as file:
            fcntl.flock(file, kind)
            compare("a store that is locked", applied(DELETED), (1, b"", b"refused G1 Io\n"))
            running = subprocess.Popen([answers.program, "apply", store, "-", "--wait"], stdin=subprocess.PIPE, stdout=subprocess.PIPE, stderr=subprocess.PIPE)
            running.stdin.write(script_of(["append u one"]))
            running.stdin.close()
            time.sleep(0.3)
            compare("one that waits", running.poll(), None)
        compare("one that has waited", (running.wait(timeout=60), running.stdout.read(), running.stderr.read()), DONE)
    compare("the tables", tables(store), {"t": [7, -1], "u": [1, 1]})


def syncs_of(store, words, script):
    """How often a command asks the disk to write what it was given."""
    disk = Disk(answers.program)
    disk.put(synced(content(store)))
    status, said, calls = disk.run(words, script)
    compare(words, (status, said), (0, b"ok\n"))
    return sum(call.kind in "sS" for call in calls)


def seconds_of(words, script):
    took = []
    for _ in range(5):
        shutil.copyfile("many", "timed")
        began = time.monotonic()
        compare(words, run(words, script), DONE)
        took.append(time.monotonic() - began)
    return min(took)


def many_appends():
    """To 100 tables at once: as many syncs as a script of one append makes."""
    compare("a store", run(["format", "many", "8192"]), DONE)
    names = [f"table_{number}" for number in range(TABLES)]
    compare("its tables", run(["apply", "many", "-"], script_of([f"create {name} a:int32" for name in names])), DONE)
    one = os.path.abspath("one")
    script = script_of([f'append {name} "{one}"' for name in names])
    one_line = script_of([f'append {names[0]} "{one}"'])
    compare("the syncs of a script, and of one line of it", syncs_of("many", ["apply", "STORE", "-"], script), syncs_of("many", ["apply", "STORE", "-"], one_line))
    all_of_them = seconds_of(["apply", "timed", "-"], script)
    compare("the rows", run(["tables", "timed"])[1], b"".join(sorted(f"{name} 1\n".encode() for name in names)))
    alone = seconds_of(["apply", "timed", "-"], one_line)
    print(f"{TABLES} appends of a row in one script take {1000 * all_of_them:.1f} ms, one {1000 * alone:.1f} ms.")


with tempfile.TemporaryDirectory() as room:
    os.chdir(room)
    for name, given in FILES.items():
        put(name, given)
    answers.play(
        scripts_that_are_done, texts_that_are_appended, texts_as_the_command, scripts_in_files, lines_that_are_refused, texts_that_are_refused,
        scripts_that_are_none, command_lines, too_large_together, tables_that_get_too_heavy, locks,
        many_appends,
    )
    os.chdir("/")
sys.exit(answers.tell("apply"))
