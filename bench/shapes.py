#!/usr/bin/env python3
"""shapes.py PROGRAM [WORD..] [--seed SEED]: times `PROGRAM recode` on small streams that mean much, and prints a table.

Columns and fields share their buffers, as the format allows, so that few bytes mean nearly as much as a table may weigh. Of each shape: the megabytes of the
stream, what it weighs, the seconds of the processor, how many times those of `cat` these are, how many times those of columns of texts on one buffer of as
much weight, and the same of the most memory that was resident. With words only the shapes whose names have one of them are run, and the texts first. What is
in the arrays is chosen by the seed. A benchmark: nothing is compared with a limit, and what is refused is said."""
import os
import random
import resource
import sys
import tempfile
from collections import namedtuple

sys.dont_write_bytecode = True
from measuring import CAT, is_chosen, least, parser_of, streams
from shared_buffers import BOOLEANS, NULLS, coded, coded_texts, contents, dictionary, dictionary_of_texts
from shared_buffers import fixed_list_of, integer, list_of, shared_rows, struct_of, with_nulls

MOST_WEIGHT = 268_435_456
MOST_FIELDS = 2_047
TEXTS = "texts on one buffer"

# A shape: this many columns of a type on the same buffers, the rows of a batch (0: all of them), and what comes before a batch by its number.
Shape = namedtuple("Shape", "name columns type rows before", defaults=(0, lambda number: b""))


def below_struct(name, count, part, period=2):
    return Shape(name, 1, with_nulls(struct_of((count, part)), period))


def once(make, entries):
    return lambda number: b"" if number else make(entries)


def changing(entries):
    """Another dictionary before each batch."""
    return lambda number: dictionary(entries, number)


def growing(entries):
    return lambda number: dictionary(entries, number * entries, number > 0)


EMPTY_TEXTS = contents(streams.UTF8, 0)
HALF_MIXED = struct_of((1_023, NULLS), (1_023, BOOLEANS))

SHAPES = [
    Shape(TEXTS, MOST_FIELDS, EMPTY_TEXTS),
    Shape("nulls and booleans below a struct, each second null", 1, with_nulls(HALF_MIXED, 2)),
    Shape("dictionary of int8 indices, replaced each 3,000 rows", 2_040, coded("int8", 100), 3_000, changing(100)),
    Shape("dictionary of int8 indices, replaced each 100 rows", 2_040, coded("int8", 100), 100, changing(100)),
    Shape("nulls and booleans below a struct, each 64th null", 1, with_nulls(HALF_MIXED, -64)),
    Shape("nulls and booleans below a struct", 1, HALF_MIXED),
    below_struct("int8 below a struct, each second null", 2_046, integer("int8")),
    below_struct("int64 below a struct, each third null", 2_046, integer("int64"), -3),
    below_struct("empty texts below a struct, each second null", 2_046, EMPTY_TEXTS),
    below_struct("texts below a struct, each second null", 1_000, contents(streams.UTF8, 4)),
    below_struct("large texts below a struct, each fifth", 1_000, contents(streams.LARGE_UTF8, 4, True), 5),
    below_struct("binaries with nulls below a struct, each second null", 1_000, with_nulls(contents(streams.BINARY, 4), 3)),
    below_struct("lists below a struct, each second null", 1_023, list_of(integer("int8"), 2)),
    below_struct("fixed lists below a struct, each second null", 1_023, fixed_list_of(integer("int8"), 2)),
    below_struct("structs below a struct, each second null", 1_023, with_nulls(struct_of((1, integer("int8"))), 3)),
    below_struct("int8 indices below a struct, each second null", 2_000, coded("int8", 100))._replace(before=once(dictionary, 100)),
    Shape("a struct of booleans in lists", 1, list_of(with_nulls(struct_of((2_040, BOOLEANS)), 2), 2)),
    Shape("a struct of texts in fixed lists", 1, with_nulls(fixed_list_of(with_nulls(struct_of((2_040, EMPTY_TEXTS)), 2), 2), 3)),
    Shape("booleans, each second null", MOST_FIELDS, with_nulls(BOOLEANS, 2)),
    Shape("int32, each second null over other bytes", MOST_FIELDS, with_nulls(integer("int32"), 2)),
    Shape("texts, each second null", 1_000, with_nulls(contents(streams.UTF8, 4), 2)),
    Shape("lists, each second null", 1_023, with_nulls(list_of(BOOLEANS, 2), 2)),
    Shape("empty texts in batches of a row", MOST_FIELDS, EMPTY_TEXTS, 1),
    Shape("dictionary of int8 indices", 2_040, coded("int8", 100), 0, once(dictionary, 100)),
    Shape("dictionary of int16 indices, replaced each 1,000 rows", 2_040, coded("int16", 1_000), 1_000, changing(1_000)),
    Shape("dictionary of int8 indices that grows each 3,000 rows", 2_040, coded("int8", 4), 3_000, growing(4)),
    Shape("dictionary of int32 indices, replaced each 3,000 rows", 2_040, coded("int32", 100), 3_000, changing(100)),
    Shape("dictionary of 100 texts", 1, coded_texts("int32", 100), 65_536, once(dictionary_of_texts, 100)),
    Shape("dictionary of 10,000 texts", 1, coded_texts("int32", 10_000), 65_536, once(dictionary_of_texts, 10_000)),
    Shape("dictionary of 100,000 texts", 1, coded_texts("int32", 100_000), 65_536, once(dictionary_of_texts, 100_000)),
]
# Shapes that would be very long in the stream, and so mean a part of the most.
PARTS = {"empty texts in batches of a row": 200} | {shape.name: 4 for shape in SHAPES if "0 texts" in shape.name}
PARTS |= {shape.name: 7 for shape in SHAPES if "replaced" in shape.name or "grows" in shape.name}


def write_stream(path, shape, seed):
    """Writes the stream, and gives what it weighs."""
    pick = random.Random(f"{seed} {shape.name}")
    room = MOST_WEIGHT // PARTS.get(shape.name, 1)
    sample = sum(shape.type.make(1_024, pick).weights) / 1_024
    rows = int(room * 0.97 / (1 + shape.columns * sample))
    each, weight = min(shape.rows or rows, rows), 0
    array = shape.type.make(each, pick)
    batch = shared_rows(each, array.nodes * shape.columns, array.buffers * shape.columns)
    with open(path, "wb") as out:
        out.write(streams.schema([shape.type.field("c") for _ in range(shape.columns)]))
        for number in range(max(1, rows // each)):
            out.write(shape.before(number) + batch)
            weight += each + shape.columns * sum(array.weights)
        out.write(streams.END)
    return weight


def measure(program, path):
    """The seconds and megabytes of a run, or why it is refused."""
    try:
        return least([program, "recode"], path)
    except SystemExit:
        return None


def main():
    parser = parser_of(__doc__, has_shapes=True)
    parser.add_argument("--seed", default="1", help="what is in the arrays")
    given = parser.parse_intermixed_args()
    program, seed = given.program, given.seed
    resource.setrlimit(resource.RLIMIT_CORE, (0, 0))
    print(f"{'shape':54} {'MB':>6} {'weight':>7} {'s':>7} {'cat s':>6} {'x cat':>6} {'x texts':>7} {'peak MB':>8} {'x texts':>7}")
    texts = None
    with tempfile.TemporaryDirectory() as room:
        path = os.path.join(room, "stream.arrows")
        for shape in SHAPES:
            if shape.name != TEXTS and not is_chosen(shape.name, given.words):
                continue
            weight = write_stream(path, shape, seed)
            size = os.path.getsize(path) / 1e6
            found = measure(program, path)
            if found is None:
                print(f"{shape.name:54} {size:6.2f} {weight / 1e6:6.1f}M refused", flush=True)
                continue
            plain, _ = least([CAT], path)
            seconds, peak = found
            own = seconds / weight, peak / weight
            texts = texts or own
            times = f"{seconds / plain:.0f}" if plain else "-"
            print(f"{shape.name:54} {size:6.2f} {weight / 1e6:6.1f}M {seconds:7.2f} {plain:6.3f} {times:>6} {own[0] / texts[0]:7.2f} {peak:8.1f} {own[1] / texts[1]:7.2f}", flush=True)


if __name__ == "__main__":
    main()
