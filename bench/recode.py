#!/usr/bin/env python3
"""recode.py PROGRAM [WORD..] [--megabytes N..]: times `PROGRAM recode` beside `cat` on the same bytes, and prints a table.

Streams of 1, 10 and 100 MB unless other sizes are given: of one int32 column in record batches of 65,536, 4,096 and 100 rows, of int32 with a null in ten,
of texts of 8 to 24 bytes, of 20 int32 columns, of 20 columns of mixed types, of texts with a dictionary of a hundred and indices of int32 and of int8, of
one with 10,000 or 100,000 entries, of one that each batch replaces, of such columns that allow no nulls, also with a null among the entries that no slot
names, of structs, lists and fixed lists, and of such columns, texts and binaries with a null in ten at every level; and the streams that the program writes
of the texts and of the dictionary of a hundred. A stream that would weigh more than a table may is shorter. The times are those of the processor, in user and
system code, the least of three runs; peak is the most memory that was resident. `out` is how many megabytes were written: of a dictionary with many entries
each piece of 4,096 rows has those that it names. With words only the shapes whose names have one of them are run. A benchmark: nothing is compared with a
limit."""
import multiprocessing
import os
import random
import struct
import subprocess
import sys
import tempfile
from collections import namedtuple

sys.dont_write_bytecode = True
from measuring import CAT, is_chosen, least, parser_of, ratio, streams

PICK = random.Random(1)
NO_TABLE = streams.Table()
ENTRIES = 100
FOUR = streams.Table((4, 4))


# Each makes the nodes and the buffers of an array of this many slots.
def integers(slots):
    return [(slots, 0)], [b"", PICK.randbytes(4 * slots)]


def with_nulls(slots):
    there = [PICK.random() >= 0.1 for _ in range(slots)]
    return [(slots, there.count(False))], [streams.bits(there), b"".join(PICK.randbytes(4) if valid else bytes(4) for valid in there)]


def offsets(sizes):
    ends = [0]
    for size in sizes:
        ends.append(ends[-1] + size)
    return ends[-1], struct.pack(f"<{len(ends)}i", *ends)


def texts(slots):
    end, made = offsets([PICK.randrange(8, 25) for _ in range(slots)])
    return [(slots, 0)], [b"", made, bytes(PICK.choices(b"abcdefgh ", k=end))]


def texts_with_nulls(slots):
    there = [PICK.random() >= 0.1 for _ in range(slots)]
    end, made = offsets([PICK.randrange(8, 25) if valid else 0 for valid in there])
    return [(slots, there.count(False))], [streams.bits(there), made, bytes(PICK.choices(b"abcdefgh ", k=end))]


def struct_of(*parts):
    def make(slots):
        nodes, buffers = [(slots, 0)], [b""]
        for part in parts:
            own_nodes, own_buffers = part(slots)
            nodes, buffers = nodes + own_nodes, buffers + own_buffers
        return nodes, buffers
    return make


def list_of(item):
    def make(slots):
        end, made = offsets([PICK.randrange(0, 9) for _ in range(slots)])
        nodes, buffers = item(end)
        return [(slots, 0)] + nodes, [b"", made] + buffers
    return make


def lists_with_nulls(item):
    def make(slots):
        there = [PICK.random() >= 0.1 for _ in range(slots)]
        end, made = offsets([PICK.randrange(0, 9) if valid else 0 for valid in there])
        nodes, buffers = item(end)
        return [(slots, there.count(False))] + nodes, [streams.bits(there), made] + buffers
    return make


def nulled(part):
    """The same slots, of which a tenth are null, whatever is below them."""
    def make(slots):
        nodes, buffers = part(slots)
        there = [PICK.random() >= 0.1 for _ in range(slots)]
        return [(slots, there.count(False))] + nodes[1:], [streams.bits(there)] + buffers[1:]
    return make


def fixed_list_of(size, item):
    def make(slots):
        nodes, buffers = item(size * slots)
        return [(slots, 0)] + nodes, [b""] + buffers
    return make


def integer(name):
    return streams.field(name, True, 2, streams.integer("int32"))


def text(name):
    return streams.field(name, True, 5, NO_TABLE)


def binary(name):
    return streams.field(name, True, 4, NO_TABLE)


def indices_of(kind, count=ENTRIES):
    def make(slots):
        return [(slots, 0)], [b"", streams.numbers(kind, [PICK.randrange(count) for _ in range(slots)])]
    return make


def numbers_of(kind):
    size = streams.INTEGERS[kind][0] // 8
    return lambda slots: ([(slots, 0)], [b"", PICK.randbytes(size * slots)])


def booleans(slots):
    return [(slots, 0)], [b"", PICK.randbytes((slots + 7) // 8)]


def text_with_dictionary(name, kind, nullable=True):
    """A column of texts with a dictionary, whose indices are of this type."""
    return streams.field(name, nullable, 5, NO_TABLE, (), streams.Table((8, 0), streams.integer(kind)))


def entries(count=ENTRIES, word="entry", nulls=0):
    """The dictionary batch of some texts, and after them of some nulls."""
    made = [f"{word} {place}".encode() for place in range(count)] + [b""] * nulls
    _, ends = offsets(map(len, made))
    there = streams.bits([True] * count + [False] * nulls) if nulls else b""
    return streams.entries(0, count + nulls, [(count + nulls, nulls)], [there, ends, b"".join(made)])


def other_entries():
    return entries(word="other")


def nested(code, children, type_table=NO_TABLE):
    return streams.field("c", True, code, type_table, children)


def of_integers(kind):
    return lambda name: streams.field(name, True, 2, streams.integer(kind))


def boolean(name):
    return streams.field(name, True, 6, NO_TABLE)


# Of 20 columns four each are of one type.
MIXED = [(integer, with_nulls), (of_integers("int64"), numbers_of("int64")), (text, texts), (text, texts_with_nulls), (boolean, booleans)] * 4
MIXED_FIELDS = [field(f"c{place}") for place, (field, _) in enumerate(MIXED)]
MIXED_ARRAYS = [make for _, make in MIXED]

# A column with a dictionary that allows no nulls.
REQUIRED = [text_with_dictionary("c", "int32", False)]

# Its name, the fields, their arrays, the rows of a batch, what makes the dictionary batches, which come before the record batches in turn, and the most
# megabytes that a table may weigh.
Shape = namedtuple("Shape", "name fields arrays rows dictionaries most", defaults=((), 100))

SHAPES = [
    Shape("int32", [integer("c")], [integers], 65536),
    Shape("int32", [integer("c")], [integers], 4096),
    Shape("int32", [integer("c")], [integers], 100),
    Shape("int32, nulls", [integer("c")], [with_nulls], 65536),
    Shape("utf8", [text("c")], [texts], 65536),
    Shape("20 of int32", [integer(f"c{place}") for place in range(20)], [integers] * 20, 65536),
    Shape("20 mixed", MIXED_FIELDS, MIXED_ARRAYS, 65536),
    Shape("20 mixed", MIXED_FIELDS, MIXED_ARRAYS, 100),
    Shape("dictionary", [text_with_dictionary("c", "int32")], [indices_of("int32")], 65536, (entries,)),
    Shape("dict, replaced", [text_with_dictionary("c", "int32")], [indices_of("int32")], 65536, (entries, other_entries) * 250),
    Shape("dict, 10,000", [text_with_dictionary("c", "int32")], [indices_of("int32", 10_000)], 65536, (lambda: entries(10_000),), most=30),
    Shape("dict, 100,000", [text_with_dictionary("c", "int32")], [indices_of("int32", 100_000)], 65536, (lambda: entries(100_000),), most=30),
    Shape("dict, no nulls", REQUIRED, [indices_of("int32")], 65536, (entries,)),
    Shape("dict, null entry", REQUIRED, [indices_of("int32")], 65536, (lambda: entries(nulls=1),), most=30),
    Shape("replaced, no nulls", REQUIRED, [indices_of("int32")], 65536, (entries, other_entries) * 250),
    Shape("10,000, no nulls", REQUIRED, [indices_of("int32", 10_000)], 65536, (lambda: entries(10_000),), most=30),
    Shape("100,000, no nulls", REQUIRED, [indices_of("int32", 100_000)], 65536, (lambda: entries(100_000),), most=30),
    Shape("int8 indices", [text_with_dictionary("c", "int8")], [indices_of("int8")], 65536, (entries,), most=10),
    Shape("struct", [nested(13, [integer("a"), text("b")])], [struct_of(with_nulls, texts)], 16384),
    Shape("list", [nested(12, [integer("item")])], [list_of(integers)], 16384),
    Shape("fixed list", [nested(16, [integer("item")], FOUR)], [fixed_list_of(4, integers)], 16384),
    Shape("utf8, nulls", [text("c")], [texts_with_nulls], 65536),
    Shape("binary, nulls", [binary("c")], [texts_with_nulls], 65536),
    Shape("utf8 in nulls", [text("c")], [nulled(texts)], 65536),
    Shape("struct, nulls", [nested(13, [integer("a"), text("b")])], [nulled(struct_of(with_nulls, texts_with_nulls))], 16384),
    Shape("list, nulls", [nested(12, [integer("item")])], [lists_with_nulls(with_nulls)], 16384),
    Shape("list, structs", [nested(12, [nested(13, [integer("a"), integer("b")])])], [lists_with_nulls(nulled(struct_of(with_nulls, with_nulls)))], 16384),
    Shape("struct, fixed", [nested(13, [nested(16, [integer("item")], FOUR)])], [nulled(struct_of(nulled(fixed_list_of(4, with_nulls))))], 16384),
]


# Of these the stream that the program writes is measured too.
RECODED = ("utf8", "dictionary")


def batch_of(shape):
    nodes, buffers = [], []
    for array in shape.arrays:
        own_nodes, own_buffers = array(shape.rows)
        nodes, buffers = nodes + own_nodes, buffers + own_buffers
    return streams.rows(shape.rows, nodes, buffers)


def write_stream(path, megabytes, shape):
    """Writes the same record batch again and again, at least once."""
    batch, before = batch_of(shape), [make() for make in shape.dictionaries]
    with open(path, "wb") as out:
        out.write(streams.schema(shape.fields))
        written = 0
        while not written or out.tell() + len(batch) <= megabytes * 1_000_000:
            out.write((before[written] if written < len(before) else b"") + batch)
            written += 1
        out.write(streams.END)


def write_apart(*given):
    """In a process of its own, since what this one ever held counts as memory of the programs that it starts."""
    child = multiprocessing.Process(target=write_stream, args=given)
    child.start()
    child.join()
    if child.exitcode:
        sys.exit("no stream was written")


def write_recoded(program, path, to):
    """Writes what the program makes of a stream."""
    with open(path, "rb") as given, open(to, "wb") as taken:
        subprocess.run([program, "recode"], stdin=given, stdout=taken, check=True)


def measure(program, path, name, rows, written):
    """Prints the line of a stream, of which the program writes the other one."""
    seconds, peak = least([program, "recode"], path)
    plain, _ = least([CAT], path)
    size, out = os.path.getsize(path) / 1e6, os.path.getsize(written) / 1e6
    rate = f"{size / seconds:.0f}" if seconds else "-"
    print(f"{name:18} {rows:12} {size:6.1f} {out:6.1f} {seconds:9.3f} {rate:>6} {plain:7.3f} {ratio(seconds, plain):>6} {peak:8.1f}", flush=True)


def main():
    parser = parser_of(__doc__, has_shapes=True)
    parser.add_argument("--megabytes", type=int, nargs="+", default=[1, 10, 100], help="how large the streams are")
    given = parser.parse_intermixed_args()
    program, sizes = given.program, given.megabytes
    print(f"{'columns':18} {'rows a batch':>12} {'MB':>6} {'out':>6} {'recode s':>9} {'MB/s':>6} {'cat s':>7} {'ratio':>6} {'peak MB':>8}")
    with tempfile.TemporaryDirectory() as room:
        path, own = os.path.join(room, "stream.arrows"), os.path.join(room, "own.arrows")
        for shape in SHAPES:
            if not is_chosen(shape.name, given.words):
                continue
            for megabytes in sorted({min(size, shape.most) for size in sizes}):
                write_apart(path, megabytes, shape)
                write_recoded(program, path, own)
                measure(program, path, shape.name, shape.rows, own)
                if shape.name in RECODED:
                    measure(program, own, f"{shape.name}, own", 4096, own)


if __name__ == "__main__":
    main()
