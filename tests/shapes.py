#!/usr/bin/env python3
"""shapes.py PROGRAM [CASE..] [--seeds SEED..]: small streams that mean large tables, as columns and fields share their buffers, drawn at random from each
seed. What is written, printed and stored is compared with the arrays that went in, and the peak of memory with the bytes that are read and written. Then
the same with one thing wrong, at a slot that is visible and at one that is not. Prints each difference, and last 'N passed, M failed'."""
import json
import os
import random
import re
import struct
import sys
import tempfile
from collections import namedtuple

sys.dont_write_bytecode = True
import streams
from running import Answers, name_from, parser_of
from shared_buffers import BOOLEANS, NO_TABLE, NULLS, Array, Type
from shared_buffers import coded, coded_texts, contents, dictionary, ends_of, fixed_list_of, integer, leaf, list_of, numbers_of, offsets, shared_rows, struct_of
from shared_buffers import with_nulls, with_validity

USUAL_SEED = "1"
parser = parser_of(__doc__)
parser.add_argument("--seeds", nargs="+", default=[USUAL_SEED], help="what decides the draws")
given = parser.parse_intermixed_args()
answers = Answers(given.program)
answers.given = given
compare, measured = answers.compare, answers.measured
DONE = (0, b"ok\n", b"")
# What each stream weighs, about; the most rows and batches; how many characters of lines are compared at once.
LEAST_WEIGHT, MOST_WEIGHT, MOST_ROWS, MOST_BATCHES, MOST_LINES = 1_000_000, 2_000_000, 12_000, 24, 1_000_000
ROWS_OF_PIECE = 4_096
# A run may need this many times the bytes that it reads and writes, without dictionaries and with them, and this many bytes besides. Of four seeds the worst
# shapes took 0.95 and 5 times their bytes beyond 12 MB, the latter 2,000 columns whose dictionaries are replaced.
TIMES, TIMES_WITH_DICTIONARIES, BESIDES = 2, 8, 24_000_000
WORDS = ["", "", "a", "é", '"', "\\", "\n", "\x01", "\x7f", "日本", "\U0001f600", "plain text"]
NO_TEXT = b"\xff\xc0\x80"


# ---- types

def words(code, large=False, first=0):
    """Texts or binaries, after this many bytes that none has. Those that are not visible are not UTF-8."""
    is_text = code in (streams.UTF8, streams.LARGE_UTF8)

    def make(slots, pick, visible=None):
        chosen = [pick.choice(WORDS) for _ in range(slots)]
        given = [word.encode() if visible is None or visible[i] else NO_TEXT for i, word in enumerate(chosen)]
        ends = ends_of([len(content) for content in given], first)

        def lines(names):
            return [json.dumps(word, ensure_ascii=False) if is_text else f'"{word.encode().hex()}"' for word in chosen]
        data = b"\xff" * first + b"".join(given)
        return Array([(slots, 0)], [b"", offsets(ends, large), data], [1 + len(word.encode()) for word in chosen], 1, lines)
    return Type(lambda name: streams.field(name, True, code, NO_TABLE), make)


def fixed_binary(width):
    def printed(slots, buffers):
        return [f'"{buffers[1][width * i:width * i + width].hex()}"' for i in range(slots)]
    return leaf(streams.FIXED_BINARY, streams.Table((4, width)), lambda slots, pick: [b"", pick.randbytes(width * slots)], printed, 1 + width)


LEAVES = {
    "nulls": NULLS,
    "booleans": BOOLEANS,
    **{kind: integer(kind) for kind in ("int8", "uint16", "int64", "uint64")},
    "days": numbers_of("int32", streams.DATE, streams.Table((2, 0))),
    "timestamps": numbers_of("int64", streams.TIMESTAMP, streams.Table((2, 3), streams.Text("UTC"))),
    "fixed binaries": fixed_binary(3),
    "empty texts": contents(streams.UTF8, 0),
    "texts": words(streams.UTF8, first=5),
    "large texts": words(streams.LARGE_UTF8, True, 2),
    "binaries": words(streams.BINARY),
    "large binaries": words(streams.LARGE_BINARY, True, 1),
}
MASKS = {
    **{f"{'all but ' if period > 0 else ''}each {abs(period)}th": period for period in (-2, -3, 3, -7, 7, -64, 64)},
    "all": lambda place: False,
    "none": lambda place: True,
    "runs": lambda place: place % 96 < 41,
}


def masked(inner, mask):
    """With these nulls, unless it is a type of nulls alone or there is no mask."""
    if inner is NULLS or mask is None:
        return inner
    return with_nulls(inner, mask) if isinstance(mask, int) else with_validity(inner, mask)


def draw_mask(pick):
    return pick.choice(list(MASKS))


# ---- dictionaries: what comes before a batch of this number, and the JSON of the entries that are in effect in it

def numbers_once(entries):
    return lambda number: (b"" if number else dictionary(entries), [str(entry) for entry in range(entries)])


def numbers_replaced(entries):
    return lambda number: (dictionary(entries, 3 * number), [str(entry) for entry in range(3 * number, 3 * number + entries)])


def numbers_grown(entries):
    """A delta before each batch but the first one."""
    return lambda number: (dictionary(entries, number * entries, number > 0), [str(entry) for entry in range((number + 1) * entries)])


def text_entries(first, entries, is_delta=False):
    """Each eleventh entry is null, and over bytes that are no text. Others occur twice, or are empty."""
    names = [None if entry % 11 == 5 else "" if entry % 13 == 1 else f"é{entry // 2}" for entry in range(first, first + entries)]
    given = [NO_TEXT if name is None else name.encode() for name in names]
    buffers = [streams.bits([name is not None for name in names]), offsets(ends_of([len(content) for content in given])), b"".join(given)]
    return streams.entries(0, entries, [(entries, names.count(None))], buffers, is_delta), [json.dumps(name, ensure_ascii=False) for name in names]


def texts_replaced(entries):
    return lambda number: text_entries(number, entries)


def texts_grown(entries):
    def before(number):
        return text_entries(number * entries, entries, number > 0)[0], text_entries(0, (number + 1) * entries)[1]
    return before


# Each with a type for the batch of this number, and its dictionaries.
CODED = {
    "int8 indices": (lambda number: coded("int8", 100, hidden=-1), numbers_once(100)),
    "int8 indices, replaced": (lambda number: coded("int8", 100, hidden=127), numbers_replaced(100)),
    "int8 indices, grown": (lambda number: coded("int8", 4 * (number + 1), hidden=-128), numbers_grown(4)),
    "uint16 indices, replaced": (lambda number: coded("uint16", 700, hidden=65_535), numbers_replaced(700)),
    "int16 indices, grown": (lambda number: coded("int16", 90 * (number + 1), hidden=-2), numbers_grown(90)),
    "int32 indices of texts, replaced": (lambda number: coded_texts("int32", 150, hidden=1 << 30), texts_replaced(150)),
    "uint8 indices of texts, grown": (lambda number: coded_texts("uint8", min(5 * number + 5, 250), hidden=255), texts_grown(5)),
    "uint32 indices of texts, grown": (lambda number: coded_texts("uint32", 50 * (number + 1), hidden=(1 << 32) - 1), texts_grown(50)),
}

# ---- shapes: columns of a type on the same buffers, of which each batch has at most so many rows, and dictionaries

Shape = namedtuple("Shape", "name columns type_at rows before coded", defaults=(lambda number: (b"", []), 0))
# How many columns, how many fields of the innermost type all of them have, and what makes the type of a column.
Holder = namedtuple("Holder", "columns fields held")


def columns(count, outer, inner):
    return Holder(count, count, lambda part: masked(part, inner))


def below_structs(count, outer, inner):
    return Holder(1, count, lambda part: masked(struct_of((count, masked(part, inner))), outer))


def below_structs_of_structs(count, outer, inner):
    each = count // 4
    return Holder(1, 4 * each, lambda part: masked(struct_of((4, masked(struct_of((each, masked(part, inner))), inner))), outer))


def below_lists(count, outer, inner):
    return Holder(1, count, lambda part: masked(list_of(struct_of((count, masked(part, inner))), 2, first=3), outer))


def below_large_lists(count, outer, inner):
    each = count // 2
    return Holder(2, 2 * each, lambda part: masked(list_of(masked(struct_of((each, masked(part, inner))), inner), 3, True), outer))


def below_fixed_lists(count, outer, inner):
    return Holder(1, count, lambda part: masked(fixed_list_of(masked(struct_of((count, masked(part, inner))), outer), 2), inner))


def in_columns_of_lists(count, outer, inner):
    return Holder(count // 2, count // 2, lambda part: masked(list_of(masked(part, inner), 3, first=1), outer))


def in_columns_of_fixed_lists(count, outer, inner):
    return Holder(count // 2, count // 2, lambda part: masked(fixed_list_of(masked(part, inner), 3), outer))


HOLDERS = [columns, below_structs, below_structs_of_structs, below_lists, below_large_lists, below_fixed_lists, in_columns_of_lists, in_columns_of_fixed_lists]


def drawn_shapes(pick):
    """Each type in some of what may hold it, and each dictionary in others, with nulls, counts and lengths of batches that are drawn."""
    kinds = {name: (lambda number, part=part: part, None) for name, part in LEAVES.items()} | CODED
    for kind, (part_at, before) in kinds.items():
        for make in pick.sample(HOLDERS, 3 if before else 2):
            count, outer, inner = pick.choice([8, 300, 2_000]), draw_mask(pick), draw_mask(pick)
            holder = make(count, MASKS[outer], MASKS[inner])
            rows = pick.choice([1, 90, 1_500] if before else [1, 700, 5_000])
            name = f"{count} of {kind} {make.__name__.replace('_', ' ')}, null {outer} and {inner}, batches of {rows}"
            shape = Shape(name, holder.columns, lambda number, held=holder.held, part_at=part_at: held(part_at(number)), rows)
            yield shape._replace(before=before, coded=holder.fields) if before else shape
    mixed = struct_of((300, masked(BOOLEANS, 3)), (0, NULLS), (200, masked(words(streams.UTF8), -3)), (500, NULLS), (1, struct_of()))
    yield Shape("a struct of parts of several types", 1, lambda number: masked(mixed, -2), 700)
    yield Shape("the numbers of rows alone", 0, lambda number: NULLS, 5_000)


# ---- streams

# The bytes, the JSON of a column in each row, how many batches a dictionary comes before, and whether rows alone decide where it is cut.
Made = namedtuple("Made", "stream lines is_cut_by_rows")


def row_array(first, length):
    return streams.numbers("int32", range(first, first + length))


def made_of(shape, seed, weight):
    """The stream of a shape, with the number of each row in a column before the others."""
    pick = random.Random(f"{seed} {shape.name}")
    sample = sum(shape.type_at(0).make(64, pick).weights) / 64
    length = min(int(weight / (2 + shape.columns * sample)) + 1, MOST_ROWS, MOST_BATCHES * shape.rows)
    each = min(shape.rows, length)
    fields = [streams.field("row", False, streams.INT, streams.integer("int32"))]
    parts = [streams.schema(fields + [shape.type_at(0).field(f"c{place}") for place in range(shape.columns)])]
    lines, all_names = [], set()
    for number, first in enumerate(range(0, length, each)):
        count = min(each, length - first)
        array = shape.type_at(number).make(count, pick)
        before, names = shape.before(number)
        nodes, buffers = [(count, 0)] + array.nodes * shape.columns, [b"", row_array(first, count)] + array.buffers * shape.columns
        parts.append(before + shared_rows(count, nodes, buffers))
        lines += array.lines(names)
        all_names.update(names)
    return Made(b"".join(parts) + streams.END, lines, len(all_names) <= 128)


def slot(metadata, table, number):
    """Where the content of a slot is (docs/formats.md, section 3)."""
    vtable = table - struct.unpack_from("<i", metadata, table)[0]
    return table + struct.unpack_from("<H", metadata, vtable + 4 + 2 * number)[0]


def messages_of(stream):
    """Of each message the type of its header and, of a record batch, the rows; last what is left of the stream."""
    place = 0
    while stream[place:place + 4] == streams.CONTINUATION and stream[place + 4:place + 8] != bytes(4):
        size = struct.unpack_from("<i", stream, place + 4)[0]
        metadata = stream[place + 8:place + 8 + size]
        root = struct.unpack_from("<I", metadata)[0]
        kind, header = metadata[slot(metadata, root, 1)], slot(metadata, root, 2)
        header += struct.unpack_from("<I", metadata, header)[0]
        yield kind, struct.unpack_from("<q", metadata, slot(metadata, header, 0))[0] if kind == 3 else 0
        place += 8 + size + struct.unpack_from("<q", metadata, slot(metadata, root, 3))[0]
    yield 0, stream[place:]


def is_canonical(shape, made, stream):
    """Whether the messages are a schema, and for each piece its dictionaries and as many rows as may be; and the end."""
    (first, _), *between, (_, end) = messages_of(stream)
    pieces = re.findall(r"(2*)3", "".join(str(kind) for kind, _ in between))
    lengths, total = [rows for kind, rows in between if kind == 3], len(made.lines)
    whole, rest = divmod(total, ROWS_OF_PIECE)
    cut = [ROWS_OF_PIECE] * whole + [rest] * (rest > 0)
    is_cut = lengths == cut if made.is_cut_by_rows else sum(lengths) == total and all(0 < rows <= ROWS_OF_PIECE for rows in lengths)
    return first == 1 and end == streams.END and is_cut and all(len(before) == shape.coded for before in pieces) and between[-1:] != [] and between[-1][0] == 3


# ---- runs

def keeps_to_memory(what, shape, peak, size):
    times = TIMES_WITH_DICTIONARIES if shape.coded else TIMES
    compare(f"{shape.name}: {what}: {peak} bytes of memory for {size}", peak <= times * size + BESIDES, True)


def queried(what, words, path, wanted):
    found = answers.run(["query", path, "t", *words])
    compare(f"{what}: query {words}", found, (0, "".join(wanted).encode(), b""))


def queries(shape, made, pick, path):
    """All columns or two of them; from the first row and up to the last."""
    lines, total = made.lines, len(made.lines)
    some = [f"c{place}" for place in pick.sample(range(shape.columns), min(2, shape.columns))]
    for count, words in ((shape.columns, []), (len(some), ["--columns", ",".join(["row", *some])])):
        most = max(1, min(total, int(MOST_LINES / (12 + (1 + count) * max(map(len, lines))))))
        wanted = [f"[{','.join([str(row)] + [lines[row]] * count)}]\n" for row in [*range(most), *range(total - most, total)]]
        queried(shape.name, [*words, "--limit", str(most)], path, wanted[:most])
        queried(shape.name, [f"row >= {total - most}", *words], path, wanted[most:])


def one_shape(shape, seed, room):
    pick = random.Random(f"{seed} {shape.name} queries")
    made = made_of(shape, seed, pick.randrange(LEAST_WEIGHT, MOST_WEIGHT))
    given, again, path = (os.path.join(room, name) for name in ("given", "again", "store"))
    with open(given, "wb") as out:
        out.write(made.stream)
    status, written, said, peak = measured(["recode"], given)
    compare(f"{shape.name}: recode", (status, said), (0, b""))
    compare(f"{shape.name}: the messages that are written", is_canonical(shape, made, written), True)
    keeps_to_memory("recode", shape, peak, len(made.stream) + len(written))
    with open(again, "wb") as out:
        out.write(written)
    status, twice, said, peak = measured(["recode"], again)
    compare(f"{shape.name}: recode of that", (status, twice == written, said), (0, True, b""))
    keeps_to_memory("recode of that", shape, peak, 2 * len(written))
    compare(f"{shape.name}: a store", answers.run(["format", path, "65536"]), DONE)
    compare(f"{shape.name}: import", answers.run(["import", path, "t"], made.stream), DONE)
    compare(f"{shape.name}: tables", answers.run(["tables", path]), (0, b"t %d\n" % len(made.lines), b""))
    status, exported, said, peak = measured(["export", path, "t"], os.devnull)
    compare(f"{shape.name}: export", (status, exported == written, said), (0, True, b""))
    keeps_to_memory("export", shape, peak, 2 * len(written))
    queries(shape, made, pick, path)
    os.remove(path)


# ---- one thing wrong

# What is wrong, what refuses it where it is visible, and where it is not (None: nothing does), the type, what makes it wrong at a slot, and the least that
# the slot must weigh. A fault of slots is put below the nulls of its column, one of a buffer or a count into the whole column. Last its dictionaries.
Fault = namedtuple("Fault", "name visible hidden part spoil least is_of_slots before", defaults=(1, True, lambda number: (b"", [])))


def put(array, number, place, content):
    """The same array with other bytes at a place of a buffer."""
    buffers = list(array.buffers)
    buffers[number] = buffers[number][:place] + content + buffers[number][place + len(content):]
    return array._replace(buffers=buffers)


def no_utf8(array, place, width=4):
    begin = int.from_bytes(array.buffers[1][width * place:width * place + width], "little")
    return put(array, 2, begin, b"\xff")


def no_entry(kind, index):
    content = streams.numbers(kind, [index])
    return lambda array, place: put(array, 1, len(content) * place, content)


def back(array, place):
    """The offset at a place is past the next one."""
    after = struct.unpack_from("<i", array.buffers[1], 4 * place + 4)[0]
    return put(array, 1, 4 * place, struct.pack("<i", after + 1))


def miscounted(by):
    return lambda array, place: array._replace(nodes=[(array.nodes[0][0], array.nodes[0][1] + by), *array.nodes[1:]])


def shorter(number):
    return lambda array, place: array._replace(buffers=[buffer[:-1] if i == number else buffer for i, buffer in enumerate(array.buffers)])


def null_at(array, place):
    slots, _ = array.nodes[0]
    return array._replace(nodes=[(slots, 1), *array.nodes[1:]], buffers=[streams.bits([i != place for i in range(slots)]), *array.buffers[1:]])


def fewer_items(array, place):
    """The part of a struct, or the items of a fixed list, have a slot less than they must."""
    return array._replace(nodes=[array.nodes[0], (array.nodes[1][0] - 1, array.nodes[1][1]), *array.nodes[2:]])


REQUIRED = integer("int16")._replace(field=lambda name: streams.field(name, False, streams.INT, streams.integer("int16")))
FAULTS = [
    Fault("a text that is not UTF-8", "F15 NotUtf8", None, contents(streams.UTF8, 4), no_utf8, 2),
    Fault("a large text that is not UTF-8", "F15 NotUtf8", None, contents(streams.LARGE_UTF8, 4, True), lambda array, place: no_utf8(array, place, 8), 2),
    Fault("an index of 8 bits past the dictionary", "F26 DictionaryIndex", None, coded("int8", 100), no_entry("int8", 100), before=numbers_once(100)),
    Fault("a negative index of 16 bits", "F26 DictionaryIndex", None, coded("int16", 100), no_entry("int16", -1), before=numbers_once(100)),
    Fault("the greatest index of 32 bits", "F26 DictionaryIndex", None, coded("uint32", 100), no_entry("uint32", (1 << 32) - 1), before=numbers_once(100)),
    Fault("a null where none may be", "F23 NullForbidden", None, REQUIRED, null_at),
    Fault("an offset of texts that goes back", "F22 Offsets", "F22 Offsets", contents(streams.UTF8, 4), back),
    Fault("an offset of lists that goes back", "F22 Offsets", "F22 Offsets", list_of(BOOLEANS, 2), back),
    Fault("texts without their last byte", "F22 Offsets", "F22 Offsets", contents(streams.BINARY, 4), shorter(2)),
    Fault("offsets without their last byte", "F19 BufferShort", "F19 BufferShort", words(streams.UTF8), shorter(1)),
    Fault("numbers without their last byte", "F19 BufferShort", "F19 BufferShort", integer("int64"), shorter(1), 1, False),
    Fault("indices without their last byte", "F19 BufferShort", "F19 BufferShort", coded("int32", 100), shorter(1), 1, False, numbers_once(100)),
    Fault("a validity bitmap without its last byte", "F19 BufferShort", "F19 BufferShort", BOOLEANS, shorter(0), 1, False),
    Fault("a null too many in the count", "F21 NullCount", "F21 NullCount", integer("int8"), miscounted(1), 1, False),
    Fault("a null too few in the count", "F21 NullCount", "F21 NullCount", words(streams.BINARY), miscounted(-1), 1, False),
    Fault("a part of a struct with a slot less", "F20 RowCount", "F20 RowCount", struct_of((1, BOOLEANS)), fewer_items, 1, False),
    Fault("items of fixed lists with one less", "F20 RowCount", "F20 RowCount", fixed_list_of(BOOLEANS, 2), fewer_items, 1, False),
]


def spoiled(fault, is_visible, mask):
    """The type of a fault, and whether it is wrong at a slot: the first one that is visible, or hidden."""
    def wrong(inner):
        def make(slots, pick, visible=None):
            array = inner.make(slots, pick, visible)
            fit = [i for i in range(slots) if (visible is None or visible[i]) == is_visible and array.weights[i] >= fault.least]
            return fault.spoil(array, fit[len(fit) // 2]) if fit else array
        return Type(inner.field, make)
    if fault.part is REQUIRED:
        return wrong(fault.part)
    return masked(wrong(fault.part), mask) if fault.is_of_slots else wrong(masked(fault.part, mask))


def one_fault(fault, make, pick, seed, room):
    count, outer, inner = pick.choice([8, 300, 1_000]), pick.choice([-2, -3]), pick.choice([5, -5])
    holder = make(count, outer, None)
    name = f"{fault.name}, {make.__name__.replace('_', ' ')}"

    def stream(part):
        shape = Shape(name, holder.columns, lambda number: holder.held(part), 300, fault.before)
        return made_of(shape, seed, 300_000).stream
    right = fault.part if fault.part is REQUIRED else masked(fault.part, inner)
    undisturbed = answers.run(["recode"], stream(right))
    compare(f"{name}: without it", (undisturbed[0], undisturbed[2]), (0, b""))
    for is_visible, line in ((True, fault.visible), (False, fault.hidden)):
        if line:
            answers.refused(f"{name}, visible {is_visible}", stream(spoiled(fault, is_visible, inner)), line)
        else:
            compare(f"{name}, hidden", answers.run(["recode"], stream(spoiled(fault, is_visible, inner))) == undisturbed, True)


def cases(seed, room):
    """Of a seed, by names that begin with it where it is not the usual one."""
    pick, before = random.Random(seed), [seed] * (seed != USUAL_SEED)
    yield from [(name_from(*before, shape.name), one_shape, shape, seed, room) for shape in drawn_shapes(pick)]
    for fault in FAULTS:
        for make in pick.sample(HOLDERS[1:], 2):
            draws = random.Random(f"{seed} {fault.name} {make.__name__}")
            yield name_from(*before, fault.name, make.__name__), one_fault, fault, make, draws, seed, room


with tempfile.TemporaryDirectory() as room:
    answers.play(*(case for seed in given.seeds for case in cases(seed, room)))
sys.exit(answers.tell("shapes"))
