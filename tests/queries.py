#!/usr/bin/env python3
"""queries.py PROGRAM: rows that are appended from texts, and queries that are printed or saved, on real files; and inputs of each kind that are too long.
Prints each difference, and last 'N passed, M failed'."""
import operator
import os
import struct
import subprocess
import sys
import tempfile

sys.dont_write_bytecode = True
from running import Answers
from streams import BINARY, END, INTEGERS, LARGE_BINARY, LARGE_UTF8, UTF8, Table, arrays_batch, bits, field, integer, numbers, schema

answers = Answers.of_arguments(__doc__)
compare, run = answers.compare, answers.run
DONE = (0, b"ok\n", b"")
# The words after the table of `append`.
CSV, JSON = ["--as", "csv"], ["--as", "jsonl"]
# Each of these field texts is a table's, so that `t0` has the first ones; then what the text is, the text, and the rows or the refusal.
TEXTS = [
    (["a:int32"], CSV, b"a\n007\n-0\n", [b"[7]", b"[0]"]),
    (["a:int32"], CSV, b"\xef\xbb\xbf\"a\"\r\n-1\r\n", [b"[-1]"]),
    (["a:int32"], CSV, b"a", []),
    (["a:int32"], CSV, b"a\n+5\n", "X4 NotANumber 1"),
    (["a:int32"], CSV, b"a\n1\n2\n1.5\n", "X4 NotANumber 3"),
    (["a:int32"], CSV, b"", "X1 Header 0"),
    (["a:int32"], CSV, b"b\n7\n", "X1 Header 0"),
    (["a:int32"], CSV, b"a,a\n7\n", "X1 Header 0"),
    (["a:uint8"], CSV, b"a\n-5\n", "X5 OutOfRange 1"),
    (["a:uint64"], CSV, b"a\n18446744073709551615\n", [b"[18446744073709551615]"]),
    (["a:uint64"], CSV, b"a\n18446744073709551616\n", "X5 OutOfRange 1"),
    (["a:bool"], CSV, b"a\ntrue\nfalse\n", [b"[true]", b"[false]"]),
    (["a:bool"], CSV, b"a\nTrue\n", "X6 NotABool 1"),
    (["a:binary"], CSV, b"a\n0A0b\n", [b'["0a0b"]']),
    (["a:binary"], CSV, b"a\n0g\n", "X7 NotHex 1"),
    (["a:fixed_binary(2)"], CSV, b"a\n0aff\n", [b'["0aff"]']),
    (["a:fixed_binary(2)"], CSV, b"a\n0a\n", "X14 FixedWidth 1"),
    (["a:utf8"], CSV, b"a\n\xff\n", "X3 NotUtf8 1"),
    (["a:utf8"], CSV, 'a\n" é ""x"", "\n'.encode(), ['[" é \\"x\\", "]'.encode()]),
    (["a:null?"], CSV, b'a\n""\n', [b"[null]"]),
    (["a:null?"], CSV, b"a\n1\n", "X8 NullMismatch 1"),
    (["a:utf8"], [*CSV, "--null", "NA"], b"a\nNA\n", [b'["NA"]']),
    (["a:utf8?"], [*CSV, "--null", "NA"], b'a\nNA\n""\n', [b"[null]", b'[""]']),
    (["a:int32", "b:int32"], CSV, b"a,b\n1\n", "X2 Width 1"),
    (["a:int32?", "s:utf8"], CSV, b"a,s\n1,x\n,\n", [b'[1,"x"]', b'[null,""]']),
    (["a:list<int8>"], CSV, b"a\n", "X9 Nested 0"),
    (["a:int32?", "s:utf8"], [*JSON, "--null", "x"], b'{"s":"x","a":1}\n\n \t\r\n[null,""]', [b'[1,"x"]', b'[null,""]']),
    (["a:int32?", "s:utf8"], JSON, b'{"a":7}\n', "X12 MissingName 1"),
    (["a:int32?", "s:utf8"], JSON, b'\n["",""]\n', "X4 NotANumber 1"),
    (["a:int32?", "s:utf8"], JSON, b'[1,"x"]\n[1]\n', "X2 Width 2"),
    (["b:int8"], JSON, b"[128]\n", "X5 OutOfRange 1"),
    (["a:int32"], JSON, b"[1.5]\n", "X4 NotANumber 1"),
    (["a:int32"], JSON, b'{"a":1,"z":2}\n', "X11 UnknownName 1"),
    (["a:int32"], JSON, b"[null]\n", "X8 NullMismatch 1"),
    (["a:int32"], JSON, b"[1]\n[2\n", "X10 Json 2"),
    (["a:int32"], JSON, b"[1]\n\xff\n", "X3 NotUtf8 2"),
    (["a:int32"], JSON, b"7\n", "X17 WrongKind 1"),
    (["a:bool"], JSON, b"[1]\n", "X6 NotABool 1"),
    (["a:binary"], JSON, b'["0A0b"]\n', [b'["0a0b"]']),
    (["a:binary"], JSON, b'["0"]\n', "X7 NotHex 1"),
    (["a:fixed_binary(2)"], JSON, b'["0a"]\n', "X14 FixedWidth 1"),
    (["p:struct<x:int8>", "q:utf8"], JSON, b"[[1],2]\n", "X17 WrongKind 1"),
    (["p:struct<x:int8>", "q:utf8"], JSON, b'{"q":"","p":{"x":1}}\n[[2],"b"]\n', [b'[[1],""]', b'[[2],"b"]']),
    (["a:fixed_list(2,int8?)"], JSON, b"[[1,null]]\n", [b"[[1,null]]"]),
    (["a:fixed_list(2,int8?)"], JSON, b"[[1]]\n", "X2 Width 1"),
    (["a:int32", "a:int32"], JSON, b"{}\n", "X13 AmbiguousNames 1"),
    (["a:int32", "a:int32"], JSON, b"[1,2]\n", [b"[1,2]"]),
    (["a:list<dict<int8,utf8>>"], JSON, str([str(n) for n in range(128)]).replace("'", '"').join("[]").encode(), 1),
    (["a:list<dict<int8,utf8>>"], JSON, str([str(n) for n in range(129)]).replace("'", '"').join("[]").encode(), "X16 DictionaryFull 1"),
    (["a:list<fixed_list(2147483647,null?)?>"], JSON, b"[[]]", [b"[[]]"]),
    (["a:list<fixed_list(2147483647,null?)?>"], JSON, b"[[null]]", "X15 TooHeavy 1"),
    (["a:" + "fixed_list(2147483647," * 31 + "null?" + ")?" * 31], JSON, b"[null]", "X15 TooHeavy 1"),
    (["a:utf8"], CSV, b"a\n" + b"x" * 16777214, 1),
    (["a:utf8"], CSV, b"a\n" + b"x" * 16777215, "X15 TooHeavy 1"),
    (["a:utf8"], JSON, b'["%s"]' % (b"x" * 16777215), "X15 TooHeavy 1"),
    (["a:fixed_binary(16777000)?"], CSV, b"a\n" + b'""\n' * 17, "S7 TooMany Weight"),
    # Pieces of two, two and one of the rows: a store of 65,536 sectors has room for the first two pieces.
    (["a:fixed_binary(8000000)?"], CSV, b"a\n" + b'""\n' * 5, "S8 NoRoom 15626"),
]
# The table t has `a:int32?` and `s:utf8`, and these rows: a query of it, and the lines or the refusal.
ROWS = b'[1,"x"]\n[null,""]\n[3,"y"]\n'
QUERIES = [
    ([], ROWS),
    (["a >= 1", "--columns", "s,a"], b'["x",1]\n["y",3]\n'),
    (["--limit", "0"], b""),
    (["--limit", "02"], ROWS[:18]),
    (["--limit", "18446744073709551615"], ROWS),
    (["s = "], b'[null,""]\n'),
    (["a != 1"], b'[3,"y"]\n'),
    (["a is null"], b'[null,""]\n'),
    (["a is not null", "s < y"], b'[1,"x"]\n'),
    (["a <= 1", "a > 1"], b""),
    (["a = -9223372036854775808", "--columns=a"], b""),
    (["a < 18446744073709551615", "--columns=a"], b"[1]\n[3]\n"),
    (["a < 18446744073709551616"], "Q2 BadCondition"),
    (["a  = 1"], "Q2 BadCondition"),
    (["a == 1"], "Q2 BadCondition"),
    (["a"], "Q2 BadCondition"),
    ([""], "Q2 BadCondition"),
    (["a = x"], "Q2 BadCondition"),
    (["a = "], "Q2 BadCondition"),
    (["b = 1"], "Q1 UnknownColumn"),
    (["b = x", "a = x"], "Q1 UnknownColumn"),
    (["--columns", "a,a"], "Q1 UnknownColumn"),
    (["--columns", ""], "Q1 UnknownColumn"),
    (["--columns", "a,"], "Q1 UnknownColumn"),
    (["--columns", "b", "a = x"], "Q1 UnknownColumn"),
]
# The same rows as objects by the names of the columns.
OBJECTS = [
    ([], b'{"a":1,"s":"x"}\n{"a":null,"s":""}\n{"a":3,"s":"y"}\n'),
    (["a >= 1", "--columns", "s,a"], b'{"s":"x","a":1}\n{"s":"y","a":3}\n'),
    (["--columns", "s", "--limit", "1"], b'{"s":"x"}\n'),
    (["--limit", "0"], b""),
    (["b = x"], "Q1 UnknownColumn"),
    (["a = x"], "Q2 BadCondition"),
]
# Names of columns, and what each is in a line (RFC 8259, section 7).
NAMES = [
    ("", b'""'), ('"', b'"\\""'), ("\\", b'"\\\\"'), ("/", b'"/"'), ("\n", b'"\\n"'), ("\x01", b'"\\u0001"'), ("\x7f", b'"\x7f"'), ("a b,c", b'"a b,c"'), ("é", '"é"'.encode()), ("Ａ\U0001f600", '"Ａ\U0001f600"'.encode()),
]
# Comparisons of the language, and the rows of the batches of a large table: whole blocks of 64 bytes, with rows left over, and no block at all.
OPERATORS = {"=": operator.eq, "!=": operator.ne, "<": operator.lt, "<=": operator.le, ">": operator.gt, ">=": operator.ge}
BATCHES = 203, 64, 7
# Types of strings and binaries: the code of each, and the letter of its offsets. Values of them: none, fronts of one another, and as long as one another.
CONTENTS = {"utf8": (UTF8, "i"), "large_utf8": (LARGE_UTF8, "q"), "binary": (BINARY, "i"), "large_binary": (LARGE_BINARY, "q")}
VALUES = [b"", b"a", b"ab", b"abc", b"abd", b"b", "é".encode(), b"abcdefgh" * 5, b"abcdefgh" * 5 + b"i", b"abcdefgh" * 4 + b"abcdefgi"]


def refusal(line):
    return 1, b"", f"refused {line}\n".encode()


def refused(what, words, line, given=b""):
    compare(what, run(words, given), refusal(line))


def content(path):
    with open(path, "rb") as file:
        return file.read()


def from_texts(path):
    """Rows, and each refusal of a text, which leaves the bytes of the store as they were. A number of rows is that of one row of much text."""
    for number, (fields, form, text, wanted) in enumerate(TEXTS):
        name = f"t{number}"
        what = f"{fields} {form} {text[:40]}"
        compare(f"{name} is made", run(["create", path, name, *fields]), DONE)
        made = content(path)
        if isinstance(wanted, str):
            refused(what, ["append", path, name, *form], wanted, text)
            compare(f"{what} changes nothing", content(path) == made, True)
        else:
            compare(what, run(["append", path, name, *form], text), DONE)
            status, lines, said = run(["query", path, name])
            compare(f"{what}: rows", (status, lines.count(b"\n") if isinstance(wanted, int) else lines.splitlines(), said), (0, wanted, b""))
        compare(f"{name} is dropped", run(["drop", path, name]), DONE)


def one_after_the_other(path):
    """Rows go after those that are there, whatever they are given as."""
    compare("a table", run(["create", path, "t", "a:int32?", "s:utf8"]), DONE)
    compare("CSV", run(["append", path, "t", *CSV], b"a,s\n1,x\n,\n"), DONE)
    compare("two rows", run(["tables", path]), (0, b"t 2\n", b""))
    compare("JSON Lines", run(["append", path, "t", *JSON], b'{"s":"y","a":3}'), DONE)
    compare("no rows", run(["append", path, "t", *JSON]), DONE)
    compare("three rows", run(["query", path, "t"]), (0, ROWS, b""))
    stream = run(["export", path, "t"])[1]
    compare("a table of its stream", run(["import", path, "u"], stream), DONE)
    compare("the rows of a stream", run(["append", path, "u", "--as", "stream", "--null", "x"], stream), DONE)
    compare("six rows", run(["query", path, "u"]), (0, ROWS + ROWS, b""))
    compare("it goes", run(["drop", path, "u"]), DONE)


def queries(path):
    made = content(path)
    for words, wanted in QUERIES:
        compare(f"query {words}", run(["query", path, "t", *words]), refusal(wanted) if isinstance(wanted, str) else (0, wanted, b""))
    refused("a query of no table", ["query", path, "v", "b = 1"], "S1 NoTable")
    compare("queries change nothing", content(path) == made, True)
    os.chmod(path, 0o444)
    compare("a store that may only be read", run(["query", path, "t"]), (0, ROWS, b""))
    os.chmod(path, 0o644)


def objects(path):
    """Rows as objects by the names of their columns, which have to differ."""
    made = content(path)
    for words, wanted in OBJECTS:
        for given in (["--objects", *words], [*words, "--objects"]):
            compare(f"query {given}", run(["query", path, "t", *given]), refusal(wanted) if isinstance(wanted, str) else (0, wanted, b""))
    for words in (["--objects", "--save", "w"], ["--save", "w", "--objects"], ["--objects", "--objects"], ["--objects=true"]):
        status, output, said = run(["query", path, "t", *words])
        compare(f"wrong words {words}", (status, output, said != b""), (2, b"", True))
    compare("objects change nothing", content(path) == made, True)
    fields = ["u:uint64", "i:int64", "p:struct<x:int8>", "l:list<utf8>", "b:binary", "z:bool?"]
    compare("a table of nested types", run(["create", path, "all", *fields]), DONE)
    compare("its row", run(["append", path, "all", *JSON], b'[18446744073709551615,-9223372036854775808,[1],["v"],"0A",null]'), DONE)
    wanted = b'{"u":18446744073709551615,"i":-9223372036854775808,"p":[1],"l":["v"],"b":"0a","z":null}\n'
    compare("values are printed as in arrays", run(["query", path, "all", "--objects"]), (0, wanted, b""))
    compare("it goes", run(["drop", path, "all"]), DONE)


def named_columns(path):
    """Names of each kind, no column at all, and names that occur twice."""
    int8 = integer("int8")
    names = [name for name, _ in NAMES]
    for what, columns, wanted in (
        ("names of each kind", names, b"{" + b",".join(name + b":%d" % place for place, (_, name) in enumerate(NAMES)) + b"}\n"),
        ("no column", [], b"{}\n"),
        ("a name that occurs twice", ["a", "b", "a"], "Q1 UnknownColumn"),
        ("an empty name that occurs twice", ["", "", "b"], "Q1 UnknownColumn"),
    ):
        stream = schema([field(name, False, 2, int8) for name in columns]) + arrays_batch(1, [(0, b"", numbers("int8", [place])) for place in range(len(columns))]) + END
        compare(what, run(["import", path, "named"], stream), DONE)
        compare(f"{what}: an object", run(["query", path, "named", "--objects"]), refusal(wanted) if isinstance(wanted, str) else (0, wanted, b""))
        compare(f"{what}: an array", run(["query", path, "named"]), (0, b"[%s]\n" % b",".join(b"%d" % place for place in range(len(columns))), b""))
        if "b" in columns:
            compare(f"{what}: another one", run(["query", path, "named", "--objects", "--columns", "b"]), (0, b'{"b":%d}\n' % columns.index("b"), b""))
            refused(f"{what}: a condition comes before it", ["query", path, "named", "b = x", "--objects"], "Q2 BadCondition")
            refused(f"{what}: no row", ["query", path, "named", "--objects", "--limit", "0"], "Q1 UnknownColumn")
    compare("it goes", run(["drop", path, "named"]), DONE)


def not_compared(path):
    fields = ["l:list<int8>", "p:struct<x:int8>", "n:null?", "f:fixed_binary(2)", "b:bool"]
    compare("a table of all types", run(["create", path, "all", *fields]), DONE)
    compare("its rows", run(["append", path, "all", *JSON], b'[[1],[2],null,"0a0b",true]\n[[],[3],null,"ff00",false]\n'), DONE)
    for word, wanted in (
        ("l = 1", "Q3 NotComparable"), ("p = x", "Q3 NotComparable"), ("n = ", "Q3 NotComparable"), ("f = 0", "Q2 BadCondition"), ("b = 1", "Q2 BadCondition"),
        ("f < F0", b'[[1],[2],null,"0a0b",true]\n'), ("b < true", b'[[],[3],null,"ff00",false]\n'), ("l is null", b""), ("p.x = 1", "Q1 UnknownColumn"),
    ):
        compare(f"query {word}", run(["query", path, "all", word]), refusal(wanted) if isinstance(wanted, str) else (0, wanted, b""))
    compare("it goes", run(["drop", path, "all"]), DONE)


def range_of(kind):
    bits, signed = INTEGERS[kind]
    return (-1 << bits - 1, (1 << bits - 1) - 1) if signed else (0, (1 << bits) - 1)


def columns_of_integers():
    """A column for each width and sign, dates and timestamps, each with and without nulls: name, field and kind of number."""
    types = [(kind, 2, integer(kind), kind) for kind in INTEGERS]
    types += [("days", 8, Table((2, 0)), "int32"), ("dates", 8, Table((2, 1)), "int64"), ("times", 10, Table((2, 2), None), "int64")]
    for word, code, table, kind in types:
        for nullable in (False, True):
            name = word + "?" * nullable
            yield name, field(name, nullable, code, table), kind


def values_of(kind, rows, is_nullable, step):
    """The least and greatest numbers, and some between, each several times; every third is a null, under which there is a number all the same."""
    least, most = range_of(kind)
    known = [least, least + 1, 0, 1, 5, most - 1, most, (least + most) // 3]
    given = [known[(row * 5 + row // 8 + step) % len(known)] for row in range(rows)]
    return given, [not (is_nullable and (row + step) % 3 == 0) for row in range(rows)]


def many_rows(path):
    """Each comparison of a table that is kept in record batches, whose integers are compared 64 bytes at once."""
    columns, rows, parts = list(columns_of_integers()), {}, []
    parts.append(schema([field("row", False, 2, integer("int32")), *(made for _, made, _ in columns)]))
    first = 0
    for step, count in enumerate(BATCHES):
        arrays = [(0, b"", numbers("int32", range(first, first + count)))]
        for name, _, kind in columns:
            given, there = values_of(kind, count, name.endswith("?"), step)
            rows.setdefault(name, []).extend(number if is_there else None for number, is_there in zip(given, there))
            arrays.append((there.count(False), b"" if all(there) else bits(there), numbers(kind, given)))
        parts.append(arrays_batch(count, arrays))
        first += count
    compare("a large table", run(["import", path, "large"], b"".join(parts) + END), DONE)
    for name, _, kind in columns:
        least, most = range_of(kind)
        literals = [literal for literal in (least - 1, least, 5, most, most + 1) if -(1 << 63) <= literal < 1 << 64]
        for literal in literals:
            for word, holds in OPERATORS.items():
                wanted = b"".join(b"[%d]\n" % row for row, number in enumerate(rows[name]) if number is not None and holds(number, literal))
                compare(f"{name} {word} {literal}", run(["query", path, "large", f"{name} {word} {literal}", "--columns", "row"]) == (0, wanted, b""), True)
    for words, wanted in (
        (["int8? > 0", "uint16 != 5", "times? <= 5"], lambda row: all(rows[name][row] is not None for name in ("int8?", "times?"))
            and rows["int8?"][row] > 0 and rows["uint16"][row] != 5 and rows["times?"][row] <= 5),
        (["int64? is null", "uint8 = 255"], lambda row: rows["int64?"][row] is None and rows["uint8"][row] == 255),
    ):
        lines = b"".join(b"[%d]\n" % row for row in range(first) if wanted(row))
        compare(f"{words}", run(["query", path, "large", *words, "--columns", "row"]) == (0, lines, b"") and lines != b"", True)
    compare("it goes", run(["drop", path, "large"]), DONE)


def contents_array(letter, values, there):
    """Offsets that begin after some bytes, and the bytes of all values, also of those that are null."""
    places = [3]
    for value in values:
        places.append(places[-1] + len(value))
    return there.count(False), b"" if all(there) else bits(there), struct.pack(f"<{len(places)}{letter}", *places), b"aaa" + b"".join(values)


def many_texts(path):
    """Each comparison of strings and binaries that are kept in record batches, and the tests for nulls."""
    columns = []
    for word, (code, letter) in CONTENTS.items():
        columns += [(name, field(name, name.endswith("?"), code, Table()), letter) for name in (word, word + "?")]
    rows, parts = {}, [schema([field("row", False, 2, integer("int32")), *(made for _, made, _ in columns)])]
    first = 0
    for step, count in enumerate(BATCHES):
        arrays = [(0, b"", numbers("int32", range(first, first + count)))]
        for name, _, letter in columns:
            given = [VALUES[(row * 3 + row // 7 + step) % len(VALUES)] for row in range(count)]
            there = [not (name.endswith("?") and (row + step) % 3 == 0) for row in range(count)]
            rows.setdefault(name, []).extend(value if is_there else None for value, is_there in zip(given, there))
            arrays.append(contents_array(letter, given, there))
        parts.append(arrays_batch(count, arrays))
        first += count
    compare("a large table of texts", run(["import", path, "texts"], b"".join(parts) + END), DONE)

    def asked(condition, name, holds):
        wanted = b"".join(b"[%d]\n" % row for row, value in enumerate(rows[name]) if holds(value))
        compare(condition, run(["query", path, "texts", condition, "--columns", "row"]) == (0, wanted, b""), True)

    for name, _, _ in columns:
        for literal in (b"", b"ab", b"abc", b"abcd", "é".encode(), b"abcdefgh" * 5, b"abcdefgh" * 4 + b"abcdefgi", b"z"):
            text = literal.hex() if "binary" in name else literal.decode()
            for word, holds in OPERATORS.items():
                asked(f"{name} {word} {text}", name, lambda value: value is not None and holds(value, literal))
        asked(f"{name} is null", name, lambda value: value is None)
        asked(f"{name} is not null", name, lambda value: value is not None)
    compare("it goes", run(["drop", path, "texts"]), DONE)


def saved(path):
    """What is selected as a table of its own: the tests of the query come first, and then those of the name."""
    made = content(path)
    for words, line in (
        (["v", "--save", "w"], "S1 NoTable"), (["t", "b = 1", "--save", "t"], "S12 Query Q1 UnknownColumn"), (["t", "a = x", "--save", "a b"], "S12 Query Q2 BadCondition"),
        (["t", "--save", "a b"], "S3 BadName"), (["t", "--save", ""], "S3 BadName"), (["t", "--save", "t"], "S2 NameTaken"), (["t", "a  = 1", "--save", "w"], "Q2 BadCondition"),
    ):
        refused(f"query {words}", ["query", path, *words], line)
        compare(f"query {words} changes nothing", content(path) == made, True)
    compare("a table of a query", run(["query", path, "t", "a >= 1", "--columns", "s,a", "--save", "w"]), DONE)
    compare("its rows", run(["query", path, "w"]), (0, b'["x",1]\n["y",3]\n', b""))
    compare("its fields", run(["schema", path, "w"]), (0, b'"s":utf8\n"a":int32?\n', b""))
    compare("no rows are saved", run(["query", path, "t", "--limit", "0", "--save", "none"]), DONE)
    compare("the tables", run(["tables", path]), (0, b"none 0\nt 3\nw 2\n", b""))
    compare("all can be read", run(["check", path]), DONE)


def order(room, path):
    """A shape is reported before the store is opened, and that there is no table before the input is read."""
    refused("a shape, and no store", ["query", path + "s", "t", "a"], "Q2 BadCondition")
    refused("no store", ["query", path + "s", "t", "a = 1"], "G1 Io")
    reads, writes = os.pipe()
    for words, line in ((["append", path, "v", *CSV], b"S1 NoTable"), (["append", path + "s", "t", *JSON], b"G1 Io"), (["query", path, "v"], b"S1 NoTable")):
        done = subprocess.run([answers.program, *words], stdin=reads, capture_output=True, timeout=60)
        compare(f"{words} with an open input", (done.returncode, done.stderr), (1, b"refused " + line + b"\n"))
    os.close(reads)
    os.close(writes)
    for words in (
        ["query"], ["query", path], ["query", path, "t", "--limit", "+5"], ["query", path, "t", "--limit", "-1"], ["query", path, "t", "--limit", ""], ["query", path, "t", "--limit", "many"],
        ["query", path, "t", "--limit", "18446744073709551616"], ["query", path, "t", "--columns"], ["query", path, "t", "--columns", "a", "--columns", "s"], ["query", path, "t", "--save"],
        ["append", path, "t", "--as", "xml"], ["append", path, "t", "--as", "csv", "--null"], ["append", path, "t", "more"],
    ):
        status, output, said = run(words)
        compare(f"wrong words {words}", (status, output, said != b""), (2, b"", True))
    compare("help of query", (lambda told: (told[0], b"Example: arrowstore query" in told[1], told[2]))(run(["query", "--help"])), (0, True, b""))


def no_output(path):
    """An output that takes nothing: rows that were appended stay, and nothing is printed. A reader that goes away in the middle."""
    line = b"refused G1 Io\n"
    with open("/dev/full", "wb") as full:
        for words, given in ((["query", path, "t"], b""), (["append", path, "w", *JSON], b'["z",5]'), (["query", path, "t", "--save", "x"], b"")):
            done = subprocess.run([answers.program, *words], input=given, stdout=full, stderr=subprocess.PIPE, timeout=60)
            compare(f"{words} to a full disk", (done.returncode, done.stderr), (1, line))
    compare("they are done", run(["tables", path]), (0, b"none 0\nt 3\nw 3\nx 3\n", b""))
    many = b"a\n" + b"".join(b"%d\n" % n for n in range(100000))
    compare("a table", run(["create", path, "many", "a:int32"]), DONE)
    compare("many rows", run(["append", path, "many", *CSV], many), DONE)
    lines = b"".join(b"[%d]\n" % n for n in range(100000))
    compare("they are read again", run(["query", path, "many"]) == (0, lines, b""), True)
    compare("some of them", run(["query", path, "many", "a >= 99998", "a != 99999"]), (0, b"[99998]\n", b""))
    shell = '{ "$0" query "$1" many; echo $? >&2; } | true'
    done = subprocess.run(["sh", "-c", shell, answers.program, path], capture_output=True, timeout=60)
    compare("a reader that went away", (done.stdout, done.stderr), (b"", b"1\n"))
    compare("input that can't be read", subprocess.run(["sh", "-c", '"$0" append "$1" many --as csv <&-', answers.program, path], capture_output=True, timeout=60).stderr, line)


def closed_streams(room):
    """A program that is started without its standard streams: the store's file does not stand in for them."""
    path, other = os.path.join(room, "closed"), os.path.join(room, "open")
    for store in (path, other):
        compare("format", run(["format", store, "16"]), DONE)
    line = b"refused G1 Io\n"
    for words, closed, wanted in (
        ("create STORE t a:int32", ">&-", (1, b"", line)), ("append STORE t --as jsonl", "<&-", (1, b"", line)), ("append STORE t", "<&-", (1, b"", line)),
        ("append STORE t --as jsonl", "", DONE),
        ("import STORE u", "<&-", (1, b"", line)), ("query STORE t", ">&-", (1, b"", line)), ("tables STORE", ">&-", (1, b"", line)), ("export STORE t", ">&-", (1, b"", line)),
        ("query STORE t --save u", ">&- 2>&-", (1, b"", b"")), ("rename STORE u v", "<&- >&- 2>&-", (1, b"", b"")), ("drop STORE none", "2>&-", (1, b"", b"")),
        ("drop STORE v", "<&- 2>&-", (0, b"ok\n", b"")), ("create STORE w b:utf8?", "<&-", DONE), ("check STORE", "<&- 2>&-", (0, b"ok\n", b"")),
    ):
        shell = f'"$0" {words.replace("STORE", chr(34) + "$1" + chr(34))} {closed}'
        done = subprocess.run(["sh", "-c", shell, answers.program, path], input=b"[7]", capture_output=True, timeout=60)
        compare(f"{words} {closed}", (done.returncode, done.stdout, done.stderr), wanted)
        if "<&-" not in closed or not words.startswith(("append", "import")):
            run(words.replace("STORE", other).split(), b"[7]")
        compare(f"{words} {closed}: the store", content(path) == content(other), True)


def long_input(path):
    """Zeros: as many as an input may have, and one more, as a text and as a stream. Takes 2.1 GB of memory."""
    made = content(path)
    for words, count, line in (
        ('append "$1" many --as jsonl', 2147483647, "X10 Json 1"), ('append "$1" many --as jsonl', 2147483648, "S7 TooMany Bytes"),
        ('append "$1" many', 2147483648, "S7 TooMany Bytes"), ('import "$1" many', 2147483648, "S7 TooMany Bytes"),
    ):
        shell = f'head -c {count} /dev/zero | "$0" {words}'
        done = subprocess.run(["sh", "-c", shell, answers.program, path], capture_output=True, timeout=120)
        compare(f"{words} of {count} bytes", (done.returncode, done.stdout, done.stderr), refusal(line))
    compare("long input changes nothing", content(path) == made, True)


with tempfile.TemporaryDirectory() as room:
    store, small = os.path.join(room, "store"), os.path.join(room, "small")
    compare("format", run(["format", store, "65536"]), DONE)
    compare("format", run(["format", small, "4096"]), DONE)
    answers.play(
        (from_texts, store),
        # One store.
        [
            (one_after_the_other, small), (queries, small), (objects, small), (named_columns, small), (not_compared, small), (many_rows, small),
            (many_texts, small), (saved, small), (order, room, small), (no_output, small),
        ],
        (closed_streams, room), (long_input, small),
    )
sys.exit(answers.tell("queries"))
