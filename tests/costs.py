#!/usr/bin/env python3
"""costs.py PROGRAM [--keep] [CASE ..]: counts the instructions of commands on about 1 MB each, of streams, texts and stores, and compares them.

kept      with those of `tests/costs_kept.json`: more than 1.1 times as many are wrong, and the line names the function that takes most of what is more.
          --keep keeps what is counted now, also where that is less.
growth    with those of half of the input. The last part of a case's name says what grows: rows, columns, batches, reads of a pipe, segments, tables,
          lines of a script or sectors. Twice the input may take 2.1 times as many. Nothing is subtracted. The append of a row to eight times the table may take 1.1 times as many.

A case is WHAT-GROWTH or WHAT-VERSION-GROWTH, as `import-2-rows`, where * stands for any letters. Valgrind counts, so that the numbers are the same on a busy
machine; it takes each byte that one instruction copies or fills for an instruction. Without valgrind the script says so, and passes.
Prints each difference, and last 'N passed, M failed'."""
import datetime
import functools
import json
import os
import random
import re
import resource
import shutil
import subprocess
import sys
import tempfile
from collections import Counter, namedtuple
from concurrent.futures import ProcessPoolExecutor

sys.dont_write_bytecode = True
import kept_stores
import streams
from running import Answers, chosen_of, parser_of
from shared_buffers import BOOLEANS, NO_TABLE, Type, coded, coded_texts, contents, dictionary, dictionary_of_texts
from shared_buffers import fixed_list_of, integer, list_of, shared_rows, struct_of, with_nulls

KEPT = os.path.join(os.path.dirname(os.path.abspath(__file__)), "costs_kept.json")
# What a case may take beside its kept figure, and beside half of the input: where that is known to grow with the square of the input, more.
MOST_OF_KEPT, MOST_OF_HALF, MOST_OF_SQUARE = 1.1, 2.1, 4.2
# A function is kept that takes one instruction in so many.
PART_OF_FUNCTION = 100
BATCHES = 16
READ = 4096
EPOCH = datetime.datetime(1970, 1, 1)
VERSIONS = ("1", "2")
COLUMNS = 1_000

# A case: what makes its run from a folder and an amount, that amount, the smaller one beside it, and how many times as many instructions it may take.
Case = namedtuple("Case", "make amount less most")
# A run: the words of the command, the file of its input, and whether that is given through a pipe, of which each read takes little.
Run = namedtuple("Run", "words given piped", defaults=(os.devnull, False))


# ---- streams

INTEGERS, TEXTS = integer("int32"), contents(streams.UTF8, 16)
ROW = [INTEGERS, TEXTS]
MIXED = [with_nulls(INTEGERS, -10), integer("int64"), TEXTS, with_nulls(TEXTS, -10), BOOLEANS]


def required(kind, entries):
    """Texts with a dictionary, of which none may be null."""
    encoding = streams.Table((8, 0), streams.integer(kind))
    return Type(lambda name: streams.field(name, False, streams.UTF8, NO_TABLE, (), encoding), coded_texts(kind, entries).make)


def batch_of(types, rows):
    """A record batch, drawn anew in the same way each time."""
    pick = random.Random(1)
    arrays = [kind.make(rows, pick) for kind in types]
    return streams.rows(rows, [node for array in arrays for node in array.nodes], [buffer for array in arrays for buffer in array.buffers])


def nothing(number):
    """What comes before a batch of columns without dictionaries."""
    return b""


def stream_of(types, batches, batch, before=nothing):
    fields = [kind.field(f"c{place}") for place, kind in enumerate(types)]
    return b"".join([streams.schema(fields), *(before(number) + batch for number in range(batches)), streams.END])


def stream_of_rows(types, rows, before=nothing):
    return stream_of(types, BATCHES, batch_of(types, rows // BATCHES), before)


def stream_of_batches(types, rows, batches, before=nothing):
    return stream_of(types, batches, batch_of(types, rows), before)


def first_of_texts(entries):
    """The dictionary of all batches."""
    return lambda number: b"" if number else dictionary_of_texts(entries)


def other_texts(number):
    """Another dictionary before each batch."""
    return dictionary_of_texts(100, 100 * number)


def more_texts(number):
    return dictionary_of_texts(5 if number else 100, 100 + 5 * number if number else 0, number > 0)


def columns_under_one_dictionary(columns, batches=4):
    """Columns that share their indices and a dictionary, which each batch replaces, of which one entry is another one."""
    coded_numbers = coded("int8", 100)
    array = coded_numbers.make(100, random.Random(1))
    batch = shared_rows(100, array.nodes * columns, array.buffers * columns)
    return stream_of([coded_numbers] * columns, batches, batch, lambda number: dictionary(100, number))


# The types of the columns, how many rows a stream has, or each batch, what comes before a batch, and how many batches there are.
Shape = namedtuple("Shape", "types rows before batches", defaults=(nothing, BATCHES))
# What grows by its rows. The first ones take so few instructions for a byte that they have 4 MB: with 1 MB the start of the program would hide how the rest
# grows.
SHAPES = {
    "integers": Shape([INTEGERS], 960_000),
    "integers_and_nulls": Shape([with_nulls(INTEGERS, -10)], 960_000),
    "texts": Shape([TEXTS], 320_000),
    "texts_and_nulls": Shape([with_nulls(TEXTS, -10)], 320_000),
    "mixed": Shape(MIXED, 100_000),
    "lists": Shape([list_of(INTEGERS, 8)], 200_000),
    "fixed_lists": Shape([fixed_list_of(INTEGERS, 4)], 240_000),
    "structs": Shape([with_nulls(struct_of((1, with_nulls(INTEGERS, -10)), (1, TEXTS)), -10)], 60_000),
    "dictionary": Shape([required("int32", 100)], 240_000, first_of_texts(100)),
    "dictionary_and_nulls": Shape([with_nulls(coded_texts("int32", 100), -10)], 240_000, first_of_texts(100)),
    "dictionary_of_10000": Shape([required("int32", 10_000)], 240_000, first_of_texts(10_000)),
    "short_indices": Shape([required("int8", 100)], 480_000, first_of_texts(100)),
}
# What grows by its batches.
BATCHED = {
    "short_batches": Shape([INTEGERS], 100, batches=1_600),
    "dictionary_replaced": Shape([required("int32", 100)], 4_000, other_texts, 60),
}


# ---- texts

def flat(pick):
    return [pick.randrange(10**9), pick.randrange(10**5), f"text {pick.randrange(1000)}"]


def quoted(pick):
    return [*flat(pick)[:2], f'"text ""{pick.randrange(1000)}"", quoted"']


def coded_row(pick):
    return [pick.randrange(10**6), f"entry {pick.randrange(100)}"]


def nested(pick):
    return [pick.randrange(10**6), [pick.randrange(10**5) for _ in range(pick.randrange(6))], {"x": pick.randrange(100), "s": f"text {pick.randrange(1000)}"}]


def dated_numbers(pick):
    """An integer, a day, and milliseconds."""
    return [pick.randrange(10**9), pick.randrange(25_000), pick.randrange(2 * 10**12)]


def dated(pick):
    """The same as people write it."""
    number, day, time = dated_numbers(pick)
    return [number, (EPOCH + datetime.timedelta(day)).isoformat()[:10], (EPOCH + datetime.timedelta(milliseconds=time)).isoformat(timespec="milliseconds") + "Z"]


def with_a_name_twice(pick):
    """Such objects are read row by row."""
    return '{"a":1,"a":%d,"b":%d,"s":"%s"}\n' % tuple(flat(pick))


def csv_text(names, rows):
    return "".join(",".join(map(str, row)) + "\n" for row in [names, *rows])


def objects(names, rows):
    return "".join(json.dumps(dict(zip(names, row)), separators=(",", ":")) + "\n" for row in rows)


def arrays(names, rows):
    return "".join(json.dumps(row, separators=(",", ":")) + "\n" for row in rows)


FLAT, CODED = ["a:int64", "b:int32?", "s:utf8"], ["a:int32", "d:dict<int32,utf8>?"]
DATED, ISO = ["a:int64", "d:date_day?", "t:timestamp_ms(UTC)"], ("--dates", "iso")
# The form of the input, its fields, what makes a row, what makes the text, how many rows are 1 MB, and the options.
Form = namedtuple("Form", "form fields row text rows options", defaults=((),))
FORMS = {
    "csv": Form("csv", FLAT, flat, csv_text, 38_000),
    "csv_quoted": Form("csv", FLAT, quoted, csv_text, 25_000),
    "csv_coded": Form("csv", CODED, coded_row, csv_text, 60_000),
    "csv_dates": Form("csv", DATED, dated, csv_text, 22_000, ISO),
    "csv_dates_as_numbers": Form("csv", DATED, dated_numbers, csv_text, 22_000),
    "jsonl": Form("jsonl", FLAT, flat, objects, 22_000),
    "jsonl_arrays": Form("jsonl", FLAT, flat, arrays, 35_000),
    "jsonl_coded": Form("jsonl", CODED, coded_row, objects, 32_000),
    "jsonl_dates": Form("jsonl", DATED, dated, objects, 16_000, ISO),
    "jsonl_dates_as_numbers": Form("jsonl", DATED, dated_numbers, objects, 16_000),
    "jsonl_nested": Form("jsonl", ["a:int32", "l:list<int32?>?", "p:struct<x:int32?,s:utf8>?"], nested, objects, 14_000),
    "jsonl_row_by_row": Form("jsonl", FLAT, with_a_name_twice, lambda names, rows: "".join(rows), 2_000),
}


# ---- stores

class Folder:
    """Where the files of one run are: what the commands before it have made, which are not counted."""

    def __init__(self, program, path, version):
        self.program, self.path, self.version = program, path, version
        self.store = os.path.join(path, "store")

    def file(self, name, content):
        path = os.path.join(self.path, name)
        with open(path, "wb") as out:
            out.write(content)
        return path

    def run(self, word, *words, given=os.devnull):
        with open(given, "rb") as source:
            subprocess.run([self.program, word, self.store, *words], stdin=source, stdout=subprocess.DEVNULL, check=True)

    def format(self, size):
        """A store with room for four times these bytes."""
        self.run("format", str(4 * size // 512 + 64), "--format-version", self.version)

    def hold(self, stream, *names):
        """A store of tables of this stream, whose file it gives."""
        given = self.file("stream", stream)
        self.format(len(stream) * max(1, len(names)))
        for name in names:
            self.run("import", name, given=given)
        return given

    def lay(self, image):
        """A store that no command has made."""
        self.file("store", image)
        if self.version == "2":
            self.run("upgrade")


def rows_of_two(rows):
    return stream_of_rows(ROW, rows)


def columns_of_integers(columns):
    return stream_of([INTEGERS] * columns, 1, batch_of([INTEGERS] * columns, 240))


def importing(stream):
    def make(folder, amount):
        return Run(["import", folder.store, "t"], folder.hold(stream(amount)))
    return make


def appending(stream):
    """An append of as much as the table has."""
    def make(folder, amount):
        return Run(["append", folder.store, "t"], folder.hold(stream(amount), "t"))
    return make


def on_a_table(stream, word, *words):
    def make(folder, amount):
        folder.hold(stream(amount), "t")
        return Run([word, folder.store, *words])
    return make


def compacting_rows(folder, amount):
    """The first two of three tables were dropped, and the last one is moved forward, as a whole."""
    folder.hold(rows_of_two(amount), "r", "s", "t")
    folder.run("drop", "r")
    folder.run("drop", "s")
    return Run(["compact", folder.store])


def appending_a_row(folder, amount):
    """16 columns, so that the list of segments is short."""
    wide = [integer("int64")] * 16
    folder.hold(stream_of_rows(wide, amount), "t")
    return Run(["append", folder.store, "t"], folder.file("row", stream_of(wide, 1, batch_of(wide, 1))))


def reading_text(form):
    """An append of a text to an empty table."""
    names = [field.split(":")[0] for field in form.fields]

    def make(folder, amount):
        pick = random.Random(1)
        given = folder.file("text", form.text(names, [form.row(pick) for _ in range(amount)]).encode())
        folder.format(os.path.getsize(given))
        folder.run("create", "t", *form.fields)
        return Run(["append", folder.store, "t", "--as", form.form, *form.options], given)
    return make


def reading_columns(form, text):
    def make(folder, amount):
        names, pick = [f"c{place}" for place in range(amount)], random.Random(1)
        given = folder.file("text", text(names, [[pick.randrange(1000) for _ in names] for _ in range(50)]).encode())
        folder.format(4 * os.path.getsize(given))
        folder.run("create", "t", *(f"{name}:int32" for name in names))
        return Run(["append", folder.store, "t", "--as", form], given)
    return make


def laid_tables(count):
    """Tables of a row each."""
    segment = streams.stream(kept_stores.ONE, [[[7]]])
    table = kept_stores.Table(kept_stores.ONE, [[7]], 1)
    places = [b"".join(kept_stores.number(part, 8) for part in (2 + place, 1, len(segment), 1)) for place in range(count)]
    entries = [kept_stores.entry_text(f"t{place:04}", table, at) for place, at in enumerate(places)]
    front = segment.ljust(kept_stores.SECTOR, b"\0") * count
    return kept_stores.laid(6 * count + 64, 2, front, kept_stores.number(count, 4) + b"".join(entries))


def laid_segments(count):
    """A table whose segments have a row each."""
    return kept_stores.laid_segments(6 * count + 64, {"t0000": kept_stores.Table(kept_stores.ONE, [list(range(count))], count)})


def laid_by_turns(count):
    """The same table, of whose segments each second one lies in the second half, so that they are not listed in the order of their places."""
    table = kept_stores.Table(kept_stores.ONE, [list(range(count))], count)
    return kept_stores.laid_segments(6 * count + 64, {"t0000": table}, lambda place: place % 2 * (count // 2) + place // 2)


def on_laid(image, word, *words):
    def make(folder, amount):
        folder.lay(image(amount))
        return Run([word, folder.store, *words])
    return make


def appending_to_laid(image):
    """An append of a row, which reads a table of less than 1 MiB."""
    def make(folder, amount):
        folder.lay(image(amount))
        return Run(["append", folder.store, "t0000"], folder.file("row", streams.stream(kept_stores.ONE, [[[7]]])))
    return make


def applying(table_of):
    """A script of so many appends of a row, each to the table of its number."""
    def make(folder, lines):
        row = folder.file("row", streams.stream(kept_stores.ONE, [[[7]]]))
        names = sorted({table_of(number) for number in range(lines)})
        script = "".join(f"create {name} a:int32?\n" for name in names) + f"append {{}} {row}\n" * lines
        folder.format(512 * 8 * lines)
        return Run(["apply", folder.store, folder.file("script", script.format(*map(table_of, range(lines))).encode())])
    return make


def copying_laid(image):
    def make(folder, amount):
        folder.lay(image(amount))
        return Run(["copy", folder.store, os.path.join(folder.path, "new"), str(6 * amount + 64)])
    return make


def copying_rows(folder, amount):
    size = os.path.getsize(folder.hold(rows_of_two(amount), "t"))
    return Run(["copy", folder.store, os.path.join(folder.path, "new"), str(2 * size // 512)])


def hold_apart(folder, amount):
    """A table of which no two segments are the same, since of such ones an archive has one."""
    text = folder.file("text", b"a,s\n" + b"".join(b"%d,text %d\n" % (number, number % 1000) for number in range(amount)))
    folder.format(32 * amount)
    folder.run("create", "t", "a:int32", "s:utf8")
    folder.run("append", "t", "--as", "csv", given=text)


def sending(folder, amount):
    hold_apart(folder, amount)
    return Run(["send", folder.store])


def receiving(folder, amount):
    """Into the store from which the table was dropped, so that all of it is received."""
    hold_apart(folder, amount)
    archive = folder.file("archive", subprocess.run([folder.program, "send", folder.store], capture_output=True, check=True).stdout)
    folder.run("drop", "t")
    return Run(["receive", folder.store], archive)


def recoding(stream, piped=False):
    return lambda folder, amount: Run(["recode"], folder.file("stream", stream(amount)), piped)


def recoding_batches(shape):
    return recoding(functools.partial(stream_of_batches, shape.types, shape.rows, before=shape.before))


# ---- the cases

def growing(make, amount):
    return Case(make, amount, amount // 2, MOST_OF_HALF)


def of_streams():
    for name, shape in SHAPES.items():
        yield f"recode_{name}-rows", growing(recoding(functools.partial(stream_of_rows, shape.types, before=shape.before)), shape.rows)
    for name, shape in BATCHED.items():
        yield f"recode_{name}-batches", growing(recoding_batches(shape), shape.batches)
    # Before each batch all entries that there are then are weighed, so that a part of this grows with the square of the input.
    yield "recode_dictionary_that_grows-batches", Case(recoding_batches(Shape([required("int32", 100)], 4_000, more_texts)), 60, 30, MOST_OF_SQUARE)
    # For each batch all batches of its piece are visited again, and after 16 of them the rows one by one.
    yield "recode_columns_of_a_dictionary-batches", Case(recoding(functools.partial(columns_under_one_dictionary, 10)), 28, 14, MOST_OF_SQUARE)
    yield "recode_integers-columns", growing(recoding(columns_of_integers), COLUMNS)
    yield "recode_dictionary-columns", growing(recoding(columns_under_one_dictionary), 400)
    yield "recode_texts-reads", growing(recoding(functools.partial(stream_of_rows, [TEXTS]), True), 320_000)


def of_texts():
    for name, form in FORMS.items():
        yield f"append_{name}-1-rows", growing(reading_text(form), form.rows)
    yield "append_csv-1-columns", growing(reading_columns("csv", csv_text), COLUMNS)
    yield "append_jsonl-1-columns", growing(reading_columns("jsonl", objects), COLUMNS)


FEW = "c0 < -2000000000"
# What is done with a table of rows, and with one of many columns.
OF_ROWS = {
    "export": ("export", "t"),
    "check": ("check",),
    "salvage": ("salvage", "t"),
    "query_few": ("query", "t", FEW),
    "query_texts": ("query", "t", "c1 = aaa"),
    "query_all": ("query", "t"),
    "query_saved": ("query", "t", FEW, "--save", "u"),
}
OF_COLUMNS = {"export": ("export", "t"), "check": ("check",), "query": ("query", "t", FEW, "--columns", "c0")}


def of_rows(version):
    """What is done with a table of full segments, by fours, since four are digested at once: of 1 MB, or of 4 MB where few instructions are taken for a byte.
    Half of the table that is appended to has more than 1 MiB, up to which a table is read."""
    rows = {"1": 64 * 4_096, "2": 16 * 4_096}[version]
    yield f"import-{version}-rows", growing(importing(rows_of_two), rows)
    yield f"append-{version}-rows", growing(appending(rows_of_two), 200_000)
    yield f"append_a_row-{version}-rows", Case(appending_a_row, 8 * 8_500, 8_500, 1.1)
    yield f"compact-{version}-rows", growing(compacting_rows, rows)
    yield f"copy-{version}-rows", growing(copying_rows, rows)
    yield f"send-{version}-rows", growing(sending, rows)
    yield f"receive-{version}-rows", growing(receiving, rows)
    for name, words in OF_ROWS.items():
        yield f"{name}-{version}-rows", growing(on_a_table(rows_of_two, *words), rows)


def of_stores():
    for version in VERSIONS:
        yield from of_rows(version)
    yield "upgrade-1-rows", growing(on_a_table(rows_of_two, "upgrade"), 16 * 4_096)
    yield "import-2-batches", growing(importing(lambda batches: stream_of(ROW, batches, batch_of(ROW, 100))), 700)
    yield "import-2-columns", growing(importing(columns_of_integers), COLUMNS)
    for name, words in OF_COLUMNS.items():
        yield f"{name}-2-columns", growing(on_a_table(columns_of_integers, *words), COLUMNS)
    yield "format-2-sectors", growing(lambda folder, amount: Run(["format", folder.store, str(amount)]), 2_000)


# What is done with many segments, or with many tables: what reads them, and what reads only their list.
READING = {"check": ("check",), "export": ("export", "t0000"), "query": ("query", "t0000", "a = 7")}
LISTING = {
    "info": ("info",),
    "tables": ("tables",),
    "schema": ("schema", "t0000"),
    "drop": ("drop", "t0000"),
    "rename": ("rename", "t0000", "u"),
    "create": ("create", "v", "a:int32"),
}


def of_many(kind, image, read, listed):
    for name, words in READING.items():
        yield f"{name}-2-{kind}", growing(on_laid(image, *words), read)
    for name, words in LISTING.items():
        yield f"{name}-2-{kind}", growing(on_laid(image, *words), listed)
    # Each table is found by its name, so that a part of this grows with the square of their number.
    yield f"have-2-{kind}", Case(on_laid(image, "have"), listed, listed // 2, MOST_OF_SQUARE)
    yield f"append-2-{kind}", growing(appending_to_laid(image), read)
    yield f"upgrade-1-{kind}", growing(on_laid(image, "upgrade"), read)


def of_laid():
    yield from of_many("segments", laid_segments, 500, 2_000)
    yield from of_many("tables", laid_tables, 250, 1_000)
    yield "copy-2-segments", growing(copying_laid(laid_segments), 500)
    yield "apply_to_a_table-2-lines", growing(applying(lambda number: "t"), 2_000)
    yield "apply_to_each_table-2-lines", growing(applying(lambda number: f"t{number:04}"), 100)
    yield "tables_by_turns-2-segments", growing(on_laid(laid_by_turns, "tables"), 2_000)
    yield "compact-2-tables", growing(on_laid(laid_tables, "compact"), 1_000)
    # Each step goes through the list again, so that a part of these grows with the square of the input.
    yield "compact-2-segments", Case(on_laid(laid_segments, "compact"), 200, 100, MOST_OF_SQUARE)
    yield "copy-2-tables", Case(copying_laid(laid_tables), 250, 125, MOST_OF_SQUARE)


CASES = {name: case for cases in (of_streams(), of_texts(), of_stores(), of_laid()) for name, case in cases}


# ---- counting

def functions_of(path, program):
    """How many instructions each function takes by itself, of what callgrind has written. All of another library are one function: what its parts are called
    differs from machine to machine."""
    counts, names, library, function, is_call = Counter(), {}, "", "", False
    with open(path, encoding="utf-8") as lines:
        for line in lines:
            found = re.match(r"(c?)(ob|fn)=(\(\d+\))(?: (.*))?", line)
            if found:
                called, kind, number, name = found.groups()
                name = names.setdefault((kind, number), name)
                if not called and kind == "ob":
                    library = name
                elif not called:
                    function = name
            elif line.startswith("calls="):
                is_call = True
            elif re.match(r"[+*\d-]", line):
                if not is_call:
                    own = library == program
                    counts[re.sub(r"::<#[0-9a-f]+>|'\d+$", "", function) if own else os.path.basename(library)] += int(line.split()[1])
                is_call = False
    return counts


def give_read_by_read(path, taker):
    """The pipe has room for what one read takes, and no more."""
    with open(path, "rb") as source, taker:
        while taken := source.read(READ):
            taker.write(taken)


def count(program, make, amount, version):
    """The instructions of each function in one run."""
    with tempfile.TemporaryDirectory() as path:
        run, counts = make(Folder(program, path, version), amount), os.path.join(path, "counts")
        valgrind = [shutil.which("valgrind"), "--tool=callgrind", "--quiet", "--vgdb=no", "--dump-line=no", f"--callgrind-out-file={counts}"]
        with open(run.given, "rb") as given:
            child = subprocess.Popen([*valgrind, program, *run.words], stdin=subprocess.PIPE if run.piped else given, stdout=subprocess.DEVNULL,
                                     stderr=subprocess.PIPE, bufsize=0, pipesize=READ, env={})
        if run.piped:
            give_read_by_read(run.given, child.stdin)
        said = child.stderr.read()
        if child.wait():
            raise subprocess.CalledProcessError(child.returncode, run.words, stderr=said)
        return functions_of(counts, program)


def counted(program, name):
    """The counts of a case, whole and with less."""
    case, version = CASES[name], "1" if "-1-" in name else "2"
    return [count(program, case.make, amount, version) for amount in (case.amount, case.less)]


# ---- comparing

def grown_most(more, less):
    return max(more, key=lambda function: more[function] - less[function])


def against_kept(name, whole, kept):
    """What is wrong with the cost of a case; nothing if all is right."""
    if name not in kept:
        return f"{name}: no figure is kept; --keep keeps what is counted"
    total, before = whole.total(), kept[name]["instructions"]
    if total <= MOST_OF_KEPT * before:
        return None
    functions = Counter(kept[name]["functions"])
    function = grown_most(whole, functions)
    return (f"{name}: {total:,} instructions, {total / before:.2f} times the {before:,} that are kept; most of what is more is in {function}, "
            f"{functions[function]:,} before and {whole[function]:,} now")


def against_less(name, whole, part):
    """What is wrong with how the cost of a case grows; nothing if all is right."""
    case = CASES[name]
    times, ratio = case.amount // case.less, whole.total() / part.total()
    if ratio <= case.most:
        return None
    function = grown_most(whole, Counter({function: round(case.most * number) for function, number in part.items()}))
    return (f"{name}: {times} times the {name.split('-')[-1]} take {ratio:.2f} times the instructions, and {case.most} are allowed; "
            f"most of what is more is in {function}, {part[function]:,} and {whole[function]:,}")


def figure(whole):
    total = whole.total()
    return {"instructions": total, "functions": {name: number for name, number in whole.most_common() if number * PART_OF_FUNCTION >= total}}


def keep(kept):
    """Writes the figures of all cases that there are."""
    with open(KEPT, "w", encoding="utf-8") as out:
        json.dump({name: kept[name] for name in CASES if name in kept}, out, indent=1)
        out.write("\n")


def judge(answers, name, whole, part, kept):
    for wrong in (against_kept(name, whole, kept), against_less(name, whole, part)):
        if wrong:
            answers.wrong.append(wrong)
        else:
            answers.passed += 1


def play(answers, chosen, processes, kept, is_keeping):
    """Counts these cases, and judges each; the new figures go into those that are kept."""
    with ProcessPoolExecutor(processes) as pool:
        for name, counting in [(name, pool.submit(counted, answers.program, name)) for name in chosen]:
            try:
                whole, part = counting.result()
            except subprocess.CalledProcessError as failure:
                answers.wrong.append(f"{name}: {failure}, {failure.stderr}")
                continue
            if is_keeping:
                print(f"{name}: {whole.total():,} instructions, {whole.total() / part.total():.2f} times those of the smaller input", flush=True)
                kept[name] = figure(whole)
                keep(kept)
            judge(answers, name, whole, part, kept)
    used = sum(sum(resource.getrusage(who)[:2]) for who in (resource.RUSAGE_SELF, resource.RUSAGE_CHILDREN))
    print(f"{len(chosen)} cases, in {used:.0f} seconds of processor time")


def main():
    parser = parser_of(__doc__)
    parser.add_argument("--keep", action="store_true", help="keep what is counted now")
    parser.add_argument("--processes", type=int, default=os.cpu_count(), help="how many cases are counted at once")
    given = parser.parse_intermixed_args()
    chosen = chosen_of(CASES, given)
    if shutil.which("valgrind") is None:
        print("costs: skipped, since there is no valgrind to count instructions")
        return 0
    answers = Answers(os.path.realpath(given.program))
    with open(KEPT, encoding="utf-8") as lines:
        kept = json.load(lines)
    if not given.keep:
        answers.compare("figures that are kept of no case", sorted(kept.keys() - CASES.keys()), [])
    play(answers, chosen, given.processes, kept, given.keep)
    return answers.tell("costs")


if __name__ == "__main__":
    sys.exit(main())
