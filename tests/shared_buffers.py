"""Arrays of each kind of type, chosen at random, and columns and fields that share their buffers, as the format allows: few bytes mean much."""
import struct
from collections import namedtuple

import streams

NO_TABLE = streams.Table()

# A type: its field of a name, and what makes an array of this many slots, of which these are visible (None: all of them).
Type = namedtuple("Type", "field make")
# An array: its nodes and buffers, what each slot weighs, what a null weighs, and what gives the JSON of each slot, of the JSON of the dictionary's entries.
Array = namedtuple("Array", "nodes buffers weights of_null lines")


def leaf(code, type_table, buffers_of, printed, weight=1):
    def make(slots, pick, visible=None):
        buffers = buffers_of(slots, pick)
        return Array([(slots, slots if code == streams.NULL else 0)], buffers, [weight] * slots, weight, lambda names: printed(slots, buffers))
    return Type(lambda name: streams.field(name, True, code, type_table), make)


def numbers_of(kind, code, type_table):
    size = streams.INTEGERS[kind][0] // 8

    def printed(slots, buffers):
        return [str(number) for number in struct.unpack(f"<{slots}{streams.LETTERS[streams.INTEGERS[kind]]}", buffers[1])]
    return leaf(code, type_table, lambda slots, pick: [b"", pick.randbytes(size * slots)], printed)


def integer(kind):
    return numbers_of(kind, streams.INT, streams.integer(kind))


def printed_bits(slots, buffers):
    return ["true" if buffers[1][i // 8] >> i % 8 & 1 else "false" for i in range(slots)]


NULLS = leaf(streams.NULL, NO_TABLE, lambda slots, pick: [], lambda slots, buffers: ["null"] * slots)
BOOLEANS = leaf(streams.BOOL, NO_TABLE, lambda slots, pick: [b"", pick.randbytes((slots + 7) // 8)], printed_bits)


def ends_of(lengths, first=0):
    """Where each begins that has one of these lengths, and where the last one ends."""
    ends = [first]
    for length in lengths:
        ends.append(ends[-1] + length)
    return ends


def offsets(ends, large=False):
    return struct.pack(f"<{len(ends)}{'q' if large else 'i'}", *ends)


def contents(code, length, large=False):
    """Texts or binaries of up to this many bytes."""
    letter = "a" if code in (streams.UTF8, streams.LARGE_UTF8) else "61"

    def make(slots, pick, visible=None):
        ends = ends_of([pick.randrange(length + 1) if length else 0 for _ in range(slots)])
        weights = [1 + ends[i + 1] - ends[i] for i in range(slots)]

        def lines(names):
            return ['"' + letter * (weight - 1) + '"' for weight in weights]
        return Array([(slots, 0)], [b"", offsets(ends, large), b"a" * ends[-1]], weights, 1, lines)
    return Type(lambda name: streams.field(name, True, code, NO_TABLE), make)


def with_validity(inner, is_valid):
    """The same type, of which the slots at some places are valid, and all others null."""
    def make(slots, pick, visible=None):
        there = [is_valid(i) for i in range(slots)]
        array = inner.make(slots, pick, there if visible is None else [a and b for a, b in zip(visible, there)])
        weights = [w if valid else array.of_null for w, valid in zip(array.weights, there)]

        def lines(names):
            return [line if valid else "null" for line, valid in zip(array.lines(names), there)]
        return Array([(slots, slots - sum(there)), *array.nodes[1:]], [streams.bits(there), *array.buffers[1:]], weights, array.of_null, lines)
    return Type(inner.field, make)


def with_nulls(inner, period):
    """The same type, of which each slot but those at a period is null, or where the period is negative each slot at it."""
    return with_validity(inner, lambda place: (place % abs(period) == 0) == (period > 0))


def struct_of(*parts):
    """Pairs of a count and a type: the fields of one pair share their buffers."""
    def field(name):
        return streams.field(name, True, streams.STRUCT, NO_TABLE, [part.field("f") for count, part in parts for _ in range(count)])

    def make(slots, pick, visible=None):
        nodes, buffers, weights, of_null, arrays = [(slots, 0)], [b""], [1] * slots, 1, []
        for count, part in parts:
            array = part.make(slots, pick, visible)
            nodes, buffers = nodes + array.nodes * count, buffers + array.buffers * count
            weights = [w + count * own for w, own in zip(weights, array.weights)]
            of_null += count * array.of_null
            arrays.append((count, array))

        def lines(names):
            columns = [[",".join([line] * count) for line in array.lines(names)] for count, array in arrays if count]
            return ["[" + ",".join(row) + "]" for row in zip(*columns)] if columns else ["[]"] * slots
        return Array(nodes, buffers, weights, of_null, lines)
    return Type(field, make)


def items_between(array, ends, names):
    lines = array.lines(names)
    return ["[" + ",".join(lines[begin:end]) + "]" for begin, end in zip(ends, ends[1:])]


def visible_items(visible, ends, slots):
    """Which items are visible: those of the visible lists among these."""
    if visible is None and ends[0] == 0 and ends[-1] == slots:
        return None
    found = [False] * slots
    for place, (begin, end) in enumerate(zip(ends, ends[1:])):
        if visible is None or visible[place]:
            found[begin:end] = [True] * (end - begin)
    return found


def list_of(item, most, large=False, first=0):
    """Lists of up to this many items, after this many that no list has."""
    def make(slots, pick, visible=None):
        ends = ends_of([pick.randrange(most + 1) for _ in range(slots)], first)
        array = item.make(ends[-1], pick, visible_items(visible, ends, ends[-1]))
        weights = [1 + sum(array.weights[ends[i]:ends[i + 1]]) for i in range(slots)]
        return Array([(slots, 0), *array.nodes], [b"", offsets(ends, large), *array.buffers], weights, 1, lambda names: items_between(array, ends, names))
    code = streams.LARGE_LIST if large else streams.LIST
    return Type(lambda name: streams.field(name, True, code, NO_TABLE, [item.field("item")]), make)


def fixed_list_of(item, size):
    def make(slots, pick, visible=None):
        ends = [size * i for i in range(slots + 1)]
        array = item.make(size * slots, pick, visible_items(visible, ends, size * slots))
        weights = [1 + sum(array.weights[size * i:size * (i + 1)]) for i in range(slots)]
        return Array([(slots, 0), *array.nodes], [b"", *array.buffers], weights, 1 + size * array.of_null, lambda names: items_between(array, ends, names))
    return Type(lambda name: streams.field(name, True, streams.FIXED_LIST, streams.Table((4, size)), [item.field("item")]), make)


def coded(kind, entries, code=streams.INT, type_table=streams.integer("int32"), weight=1, hidden=None):
    """Values in the dictionary 0, with indices of this type among this many entries, or this index in each slot that is not visible."""
    def make(slots, pick, visible=None):
        named = [pick.randrange(entries) for _ in range(slots)]
        given = [index if hidden is None or visible is None or visible[i] else hidden for i, index in enumerate(named)]
        return Array([(slots, 0)], [b"", streams.numbers(kind, given)], [weight] * slots, weight, lambda names: [names[index] for index in named])
    encoding = streams.Table((8, 0), streams.integer(kind))
    return Type(lambda name: streams.field(name, True, code, type_table, (), encoding), make)


def dictionary(entries, change=0, is_delta=False):
    """The batch of a dictionary of such numbers, which differ from those of another change."""
    numbers = streams.numbers("int32", range(change, change + entries))
    return streams.entries(0, entries, [(entries, 0)], [b"", numbers], is_delta)


def coded_texts(kind, entries, **more):
    """The same of texts of six bytes."""
    return coded(kind, entries, streams.UTF8, NO_TABLE, 7, **more)


def dictionary_of_texts(entries, change=0, is_delta=False):
    made = b"".join(b"%06d" % place for place in range(change, change + entries))
    return streams.entries(0, entries, [(entries, 0)], [b"", offsets(range(0, 6 * entries + 1, 6)), made], is_delta)


def shared_rows(length, nodes, buffers):
    """A record batch in which buffers of the same bytes are kept once."""
    body, places, known = bytearray(), [], {}
    for buffer in buffers:
        if buffer not in known:
            known[buffer] = len(body)
            body += buffer
            streams.fill(body, 8)
        places.append((known[buffer], len(buffer)))
    header = streams.Table((8, length), streams.Pairs(nodes), streams.Pairs(places))
    return streams.message(3, header, bytes(body))
