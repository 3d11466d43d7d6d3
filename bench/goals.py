#!/usr/bin/env python3
"""goals.py PROGRAM [WORD..]: times the work for which docs/performance.md names goals, and says which goals are met.

Each row is timed beside what its goal names. Appends: a row beside a `rename` of its table, a tenth of the table beside
`cat` of it, a stream whose fields have pairs beside one without, columns under another encoding beside the same under
their own. A table of 50 MB: `import`, `export`, `check` and a `query` that keeps few rows beside `cat` of its stream.
CSV of 10 MB beside the same in version 1. `recode` of columns with dictionaries, of mixed columns and of structs with
nulls beside `cat`, of 2,040 columns under a dictionary that each batch replaces beside texts on one buffer. Stores have
version 2 unless the row says 1. The column C says how many times `cat` a plain C program takes (recode_coded.c) that
tests and writes the same.

The times are those of the processor, in user and system code: the median of five runs, or of fewer long ones, each
beside a run of what is compared. The files are in memory (/dev/shm), where there is such a folder. With words only the
rows whose names have one of them are measured. A benchmark: a missed goal is said, and nothing fails."""
import os
import random
import statistics
import subprocess
import sys
import tempfile

sys.dont_write_bytecode = True
from measuring import CAT, compiled, cost, parser_of, quiet, script, streams, write_again, write_coded, write_integers

PAIRS = 5
# After pairs of runs that took so long no more are run.
MOST_SECONDS = 10
ROWS = 65_536
dictionaries, recode, shapes = (script(name) for name in ("dictionaries", "recode", "shapes"))


class Measuring:
    """What is measured, with the files of all rows in one folder."""

    def __init__(self, program, room, words):
        self.program, self.room, self.words = program, room, words

    def path(self, name):
        return os.path.join(self.room, name)

    def is_wanted(self, *names):
        return not self.words or any(word in name for word in self.words for name in names)

    def new_store(self, size, version="2"):
        """A store with room for these bytes."""
        store = self.path("store")
        if os.path.exists(store):
            os.remove(store)
        quiet([self.program, "format", store, str(size // 512), "--format-version", version])
        return store

    def medians(self, run, plain):
        found = [(run(), plain())]
        while len(found) < PAIRS and sum(map(sum, found)) < MOST_SECONDS:
            found.append((run(), plain()))
        return [statistics.median(pair[place] for pair in found) for place in (0, 1)]

    def row(self, what, run, beside, plain, goal=None, limit=None):
        """Measures a row of the table and prints it, if it is wanted."""
        if not self.is_wanted(what):
            return
        seconds, compared = self.medians(run, plain)
        times = seconds / compared if compared else float("inf")
        verdict = "" if goal is None else "met" if round(times, 1) <= goal else "missed"
        of_c = f"{limit() / compared:.1f}" if limit and compared else ""
        print(f"{what:60} {seconds:7.3f} {compared:7.3f} {times:6.1f} {goal or '':>5} {verdict:6} {of_c:>5}  {beside}", flush=True)

    def running(self, *words, given=os.devnull):
        return lambda: cost([self.program, *words], given)[0]


def reading(path):
    return lambda: cost([CAT], path)[0]


def shape_of(benchmark, name):
    return next(shape for shape in benchmark.SHAPES if shape.name == name)


# ---- appends

def write_three(path, rows):
    """Rows of two int32 and an int64."""
    kinds, each = ("int32", "int32", "int64"), min(ROWS, rows)
    fields = [streams.field(name, False, streams.INT, streams.integer(kind)) for name, kind in zip("abc", kinds)]
    batch = streams.record_batch(each, [random.Random(1).randbytes(each * streams.INTEGERS[kind][0] // 8) for kind in kinds])
    write_again(path, rows // each * len(batch), fields, batch)


def of_appends(to):
    a_row, a_tenth = "append of a row to 72 MB", "append of a tenth of 72 MB, version "
    if not to.is_wanted(a_row, a_tenth + "1", a_tenth + "2"):
        return
    much, tenth, one = (to.path(name) for name in ("much", "tenth", "one"))
    for path, rows in ((much, 4_500_000), (tenth, 450_000), (one, 1)):
        write_three(path, rows)
    for version, goal in (("2", 4), ("1", None)):
        store = to.new_store(3 * os.path.getsize(much), version)
        quiet([to.program, "import", store, "t"], much)
        renames = [to.running("rename", store, *names) for names in (("t", "u"), ("u", "t"))]
        if version == "2":
            to.row(a_row, to.running("append", store, "t", given=one), "a rename of that table",
                   lambda: sum(rename() for rename in renames) / 2, 2)
        to.row(a_tenth + version, to.running("append", store, "t", given=tenth), "cat of the tenth", reading(tenth), goal)
    os.remove(much)


def write_pairs(path, pairs):
    """20 MB of integers under a field with these keys and values."""
    custom = streams.Tables([streams.Table(streams.Text(key), streams.Text(value)) for key, value in pairs])
    field = streams.Table(streams.Text("c0"), (1, 0), (1, streams.INT), streams.integer("int32"), None, streams.Tables([]), custom)
    write_again(path, 20_000_000, [field], streams.record_batch(ROWS, [random.Random(1).randbytes(4 * ROWS)]))


def write_plain(path):
    """A record batch of ten columns of the texts that `write_coded` writes under dictionaries."""
    pick, buffers = random.Random(1), []
    for _ in range(10):
        texts = [b"text number %d" % pick.randrange(1000) for _ in range(ROWS)]
        buffers += [b"", dictionaries.offsets(dictionaries.ends_of(map(len, texts))), b"".join(texts)]
    batch = streams.rows(ROWS, [(ROWS, 0)] * 10, buffers)
    write_again(path, len(batch), [streams.field(f"c{place}", False, streams.UTF8, streams.Table()) for place in range(10)], batch)


def write_texts(path, kind):
    """A record batch of ten columns of texts, with a dictionary or without."""
    if kind == "utf8":
        write_plain(path)
    else:
        write_coded(path, 11 * ROWS * streams.INTEGERS[kind][0] // 8, kind, 1000)


ENCODINGS = (("int32", "int16"), ("int16", "int32"), ("utf8", "int32"), ("utf8", "int16"), ("int32", "utf8"))


def named(kind):
    return "plain texts" if kind == "utf8" else f"a dictionary of {kind}"


def of_encodings(to):
    """Each append goes to a table that is made anew, without rows."""
    given, other = to.path("given"), to.path("other")

    def appending(path, *fields):
        store = to.path("store")

        def run():
            quiet([to.program, "create", store, "t", *fields])
            seconds = cost([to.program, "append", store, "t"], path)[0]
            quiet([to.program, "drop", store, "t"])
            return seconds
        return run

    to.new_store(300_000_000)
    pairs = "append of a field with a key/value pair"
    if to.is_wanted(pairs):
        write_pairs(given, [("key", "value")])
        write_pairs(other, [])
        to.row(pairs, appending(given, "c0:int32"), "the same without it", appending(other, "c0:int32"), 1.2)
    for kind, under in ENCODINGS:
        what = f"append of {named(kind)} to {named(under)}"
        if to.is_wanted(what):
            write_texts(given, kind)
            fields = {name: [f"c{place}:utf8" if name == "utf8" else f"c{place}:dict<{name},utf8>" for place in range(10)]
                      for name in (kind, under)}
            to.row(what, appending(given, *fields[under]), f"to {named(kind)}", appending(given, *fields[kind]), 1.5)


# ---- a table of 50 MB, and texts

# A command, its words, and how many times `cat` it may take.
COMMANDS = [("export", ["t"], 7), ("query", ["t", "a = 7", "--limit", "1000"], 5.5), ("check", [], 5.5)]


def of_table(to):
    stream = to.path("stream")
    write_integers(stream, 50_000_000, 100)
    for version in ("2", "1"):
        def importing():
            return cost([to.program, "import", to.new_store(3 * os.path.getsize(stream), version), "t"], stream)[0]

        end = f"of 50 MB, version {version}"
        if to.is_wanted(*(f"{word} {end}" for word, *_ in COMMANDS)):
            importing()
        to.row(f"import {end}", importing, "cat of its stream", reading(stream), 7 if version == "2" else None)
        for word, more, goal in COMMANDS:
            to.row(f"{word} {end}", to.running(word, to.path("store"), *more), "cat of its stream", reading(stream),
                   goal if version == "2" else None)
    os.remove(stream)


def of_texts(to):
    what, text, fields = "CSV of 10 MB, version 2", to.path("text"), ["a:int64", "b:int32?", "s:utf8"]
    if not to.is_wanted(what):
        return
    pick = random.Random(1)
    with open(text, "w", encoding="ascii") as out:
        out.write("a,b,s\n")
        while out.tell() < 10_000_000:
            out.write("".join(f"{pick.randrange(10**9)},{pick.randrange(10**5)},text {pick.randrange(1000)}\n" for _ in range(1000)))

    def reading_into(version):
        store = to.new_store(60_000_000, version)
        quiet([to.program, "create", store, "t", *fields])
        return cost([to.program, "append", store, "t", "--as", "csv"], text)[0]

    to.row(what, lambda: reading_into("2"), "the same, version 1", lambda: reading_into("1"), 1.6)


# ---- streams

# Of a column with a dictionary, how many times `cat` it may take.
CODED = {"int32": 3, "int32, 10,000 entries": 7, "int32, 100,000 entries": 9, "int32, replaced before each batch": 4}


def of_dictionaries(to):
    """Beside `cat`, and beside a C program that is written for this one form."""
    stream, small, front = (to.path(name) for name in ("stream", "small", "front"))
    plain_c = compiled("recode_coded", to.room)
    for name, goal in CODED.items():
        what, shape = f"recode of a dictionary, {name}", shape_of(dictionaries, name)
        if not to.is_wanted(what):
            continue
        dictionaries.write_stream(small, shape._replace(before=dictionaries.once(), named=dictionaries.ENTRIES))
        with open(small, "rb") as given, open(front, "wb") as taken:
            subprocess.run([to.program, "recode"], stdin=given, stdout=taken, check=True)
        dictionaries.write_stream(stream, shape, shape.size)
        to.row(what, to.running("recode", given=stream), "cat", reading(stream), goal,
               lambda: statistics.median(cost([plain_c, front], stream)[0] for _ in range(PAIRS)))


def of_columns(to):
    stream, texts, many = to.path("stream"), to.path("texts"), "recode of 2,040 columns under one dictionary, 6 MB"
    for kind, what, goal in (("20 mixed", "20 mixed columns", 2.7), ("struct, nulls", "structs with nulls", 3.5)):
        if to.is_wanted(f"recode of {what}"):
            recode.write_apart(stream, 50, shape_of(recode, kind))
            to.row(f"recode of {what}", to.running("recode", given=stream), "cat", reading(stream), goal)
    if to.is_wanted(many):
        dictionaries.write_stream(stream, shape_of(dictionaries, "2,040 columns of int8, replaced each 100 rows"), 6_000_000)
        shapes.write_stream(texts, shape_of(shapes, shapes.TEXTS), "1")
        to.row(many, to.running("recode", given=stream), shapes.TEXTS, to.running("recode", given=texts), 1.5)


def main():
    given = parser_of(__doc__, has_shapes=True).parse_args()
    print(f"{'work':60} {'s':>7} {'beside':>7} {'times':>6} {'goal':>5} {'':6} {'C':>5}  what is beside it")
    with tempfile.TemporaryDirectory(dir="/dev/shm" if os.path.isdir("/dev/shm") else None) as room:
        to = Measuring(given.program, room, given.words)
        for part in (of_appends, of_encodings, of_table, of_texts, of_dictionaries, of_columns):
            part(to)


if __name__ == "__main__":
    main()
