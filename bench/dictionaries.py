#!/usr/bin/env python3
"""dictionaries.py PROGRAM [--times] [WORD..]: counts the instructions of `PROGRAM recode` on streams of columns with dictionaries, and prints a table.

The columns allow no nulls unless the shape says so. Of each shape: the megabytes of the stream and of what is written, and how many instructions there are for
a byte of the stream and for a slot. With words only the shapes whose names have one of them are run. valgrind counts, so that the numbers are the same on a
busy machine; it takes each byte that one instruction copies or fills for an instruction. With --times the streams have about 8 MB, or 1 to 3 MB where a table
would be too heavy, and the times are measured beside `cat`: those of the processor, in user and system code, the medians of nine runs, each beside one of
`cat`. A benchmark: nothing is compared with a limit."""
import os
import random
import re
import shutil
import statistics
import subprocess
import sys
import tempfile
from collections import namedtuple

sys.dont_write_bytecode = True
from measuring import CAT, cost, is_chosen, parser_of, ratio, streams
from shared_buffers import ends_of, offsets, shared_rows

PICK = random.Random(1)
NO_TABLE = streams.Table()
ENTRIES = 100
SLOTS = 131_072
BATCHES_OF_MANY = 12
# Where times are measured.
BYTES = 8_000_000
RUNS = 9


# Each gives the dictionary batch before the record batch of this number.
def once(count=ENTRIES, size=0, nulls=0, has_bitmap=False):
    """Texts of at least `size` bytes, and after them some nulls."""
    return lambda number: b"" if number else texts(count, "entry", size, nulls, has_bitmap)


def changing(number):
    return texts(ENTRIES, f"of batch {number}")


def growing(number):
    return texts(5, f"of batch {number}", is_delta=True) if number else texts(ENTRIES, "entry")


def changing_numbers(number):
    """Numbers, all but one of them those of the batch before."""
    values = streams.numbers("int32", range(number, number + ENTRIES))
    return streams.entries(0, ENTRIES, [(ENTRIES, 0)], [b"", values])


def of_a_byte(number):
    return b"" if number else entries([bytes([27 + place]) for place in range(ENTRIES)])


def numbers_once(number):
    return b"" if number else changing_numbers(0)


def texts(count, word, size=0, nulls=0, has_bitmap=False, is_delta=False):
    made = [f"{word} {place}".encode().ljust(size, b".") for place in range(count)] + [b""] * nulls
    there = streams.bits([True] * count + [False] * nulls) if nulls or has_bitmap else b""
    return entries(made, nulls, there, is_delta)


def entries(made, nulls=0, there=b"", is_delta=False):
    """The dictionary batch of these texts, of which the last are nulls."""
    return streams.entries(0, len(made), [(len(made), nulls)], [there, offsets(ends_of(map(len, made))), b"".join(made)], is_delta)


# A shape: the type of the indices, what comes before a batch, how many entries the slots name, the rows of a batch, the columns, which share the bytes of their
# indices, whether they allow nulls, the code and the table of the type of their values, how many bytes a stream has whose time is measured, and whether all
# slots are null.
Shape = namedtuple("Shape", "name kind before named rows columns nullable code type size are_null",
                   defaults=(ENTRIES, 32_768, 1, False, streams.UTF8, NO_TABLE, BYTES, False))

SHAPES = [
    Shape("int32", "int32", once()),
    Shape("int32, nulls allowed", "int32", once(), nullable=True),
    Shape("int32, all of them nulls", "int32", once(), nullable=True, are_null=True),
    Shape("int32, batches of 100 rows", "int32", once(), rows=100),
    Shape("int32, 10,000 entries", "int32", once(10_000), 10_000),
    Shape("int32, 100,000 entries", "int32", once(100_000), 100_000),
    Shape("int32, replaced before each batch", "int32", changing),
    Shape("int32, entries of a byte", "int32", of_a_byte),
    Shape("int32, entries of 1,000 bytes", "int32", once(size=1_000), rows=8_192, size=1_000_000),
    Shape("int32, entries with a bitmap", "int32", once(has_bitmap=True)),
    Shape("int32, a null entry that no slot names", "int32", once(nulls=1)),
    Shape("int32, a delta before each batch", "int32", growing, rows=8_192),
    *(Shape(f"{kind}", kind, once()) for kind in ("int8", "uint8", "int16", "uint16", "uint32", "int64", "uint64")),
    Shape("2,040 columns of int8", "int8", numbers_once, 100, 100, 2_040, code=streams.INT, type=streams.integer("int32"), size=1_000_000),
    Shape("2,040 columns of int8, replaced each 100 rows", "int8", changing_numbers, 100, 100, 2_040, code=streams.INT, type=streams.integer("int32"),
          size=3_000_000),
]


def write_stream(path, shape, size=0):
    """Writes record batches of about `SLOTS` slots, more in many columns, or of this many bytes, and returns how many slots these are."""
    encoding = streams.Table((8, 0), streams.integer(shape.kind))
    fields = [streams.field(f"c{place}", shape.nullable, shape.code, shape.type, (), encoding) for place in range(shape.columns)]
    batches = SLOTS // shape.rows if shape.columns == 1 else BATCHES_OF_MANY
    nulls, there = (shape.rows, bytes(-(-shape.rows // 8))) if shape.are_null else (0, b"")
    with open(path, "wb") as out:
        out.write(streams.schema(fields))
        number = 0
        while out.tell() < size if size else number < batches:
            indices = streams.numbers(shape.kind, PICK.choices(range(shape.named), k=shape.rows))
            out.write(shape.before(number))
            out.write(shared_rows(shape.rows, [(shape.rows, nulls)] * shape.columns, [there, indices] * shape.columns))
            number += 1
        out.write(streams.END)
    return number * shape.rows * shape.columns


def instructions(program, path, to):
    """How many instructions a run takes that writes to this file."""
    with open(path, "rb") as given, open(to, "wb") as taken:
        words = ["valgrind", "--tool=callgrind", "--callgrind-out-file=/dev/null", program, "recode"]
        ran = subprocess.run(words, stdin=given, stdout=taken, stderr=subprocess.PIPE, text=True, check=True)
    return int(re.search(r"Collected : (\d+)", ran.stderr).group(1))


def counts(program, shape, path, own):
    """The line of a shape: its instructions."""
    slots = write_stream(path, shape)
    count = instructions(program, path, own)
    size, out = os.path.getsize(path), os.path.getsize(own)
    return f"{size / 1e6:6.2f} {out / 1e6:6.2f} {count / size:10.1f} {count / slots:10.1f}"


def times(program, shape, path, own):
    """The line of a shape: its seconds, in turn with those of `cat`, and the most megabytes that were resident."""
    write_stream(path, shape, shape.size)
    with open(path, "rb") as given, open(own, "wb") as taken:
        subprocess.run([program, "recode"], stdin=given, stdout=taken, check=True)
    runs = [(cost([program, "recode"], path), cost([CAT], path)) for _ in range(RUNS)]
    seconds, plain = (statistics.median(run[place][0] for run in runs) for place in (0, 1))
    peak = max(run[0][1] for run in runs)
    return f"{os.path.getsize(path) / 1e6:6.2f} {os.path.getsize(own) / 1e6:6.2f} {seconds:8.3f} {plain:7.4f} {ratio(seconds, plain):>6} {peak:8.1f}"


def main():
    parser = parser_of(__doc__, has_shapes=True)
    parser.add_argument("--times", action="store_true", help="measure times")
    given = parser.parse_intermixed_args()
    program, is_timed = given.program, given.times
    if not is_timed and not shutil.which("valgrind"):
        sys.exit("valgrind is needed")
    head = f"{'s':>8} {'cat s':>7} {'ratio':>6} {'peak MB':>8}" if is_timed else f"{'for a byte':>10} {'for a slot':>10}"
    print(f"{'shape':48} {'MB':>6} {'out':>6} {head}")
    with tempfile.TemporaryDirectory() as room:
        path, own = os.path.join(room, "stream.arrows"), os.path.join(room, "own.arrows")
        for shape in SHAPES:
            if is_chosen(shape.name, given.words):
                line = (times if is_timed else counts)(program, shape, path, own)
                print(f"{shape.name:48} {line}", flush=True)


if __name__ == "__main__":
    main()
