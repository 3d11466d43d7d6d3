"""Streams of each kind of type, whose arrays are worked out by hand from the Arrow columnar format ("Physical Memory Layout"). Each is written as its table
is."""
import struct

from streams import BINARY, BOOL, DATE, END, FIXED_BINARY, FIXED_LIST, INT, LARGE_BINARY, LARGE_LIST, LARGE_UTF8, LIST, NULL, STRUCT, TIMESTAMP, UTF8
from streams import Table, Text, arrays_batch, entries, field, integer, numbers, rows, schema, stream

NONE = Table()
INT32 = integer("int32")
# The units of dates and of timestamps.
DAY, MILLISECOND, SECOND, NANOSECOND = 0, 1, 0, 3
DAYS = field("d", False, DATE, Table((2, DAY)))
ZONED = field("d", False, TIMESTAMP, Table((2, SECOND), Text("UTC")))


def offsets(*ends):
    return struct.pack(f"<{len(ends)}i", *ends)


def large_offsets(*ends):
    return struct.pack(f"<{len(ends)}q", *ends)


def texts(given):
    """The offsets and the bytes of texts."""
    ends, all_bytes = [0], b"".join(given)
    for text in given:
        ends.append(ends[-1] + len(text))
    return offsets(*ends), all_bytes


# A number and a null.
WORKED = stream([("a", "int32", True)], [[[1, None]]])


def three_texts(last):
    """An empty text, a null and this one."""
    return schema([field("s", True, UTF8, NONE)]) + arrays_batch(3, [(1, b"\x05", *texts([b"", b"", last.encode()]))]) + END


# What is null has zeros or nothing, and all below it is null: what it is, its column, length, nodes, buffers and body.
KINDS = [
    ("nulls", field("a", True, NULL, NONE), 3, [(3, 3)], [], ""),
    ("booleans, the second null", field("a", True, BOOL, NONE), 4, [(4, 1)], [b"\x0d", b"\x09"], "0d00000000000000 0900000000000000"),
    ("two bytes each, the first null", field("a", True, FIXED_BINARY, Table((4, 2))), 2, [(2, 1)], [b"\x02", b"\0\0\x0a\xff"],
     "0200000000000000 00000aff00000000"),
    ("texts, the second null", field("s", True, UTF8, NONE), 3, [(3, 1)], [b"\x05", offsets(0, 0, 0, 6), "héllo".encode()],
     "0500000000000000 00000000000000000000000006000000 68c3a96c6c6f0000"),
    ("bytes", field("a", False, BINARY, NONE), 2, [(2, 0)], [b"", offsets(0, 1, 1), b"\xff"], "000000000100000001000000 00000000 ff00000000000000"),
    ("lists [1, null], null and []", field("a", True, LIST, NONE, [field("item", True, INT, INT32)]), 3, [(3, 1), (2, 1)],
     [b"\x05", offsets(0, 2, 2, 2), b"\x01", numbers("int32", [1, 0])],
     "0500000000000000 00000000020000000200000002000000 0100000000000000 0100000000000000"),
    ("structs null and [5]", field("a", True, STRUCT, NONE, [field("x", False, INT, integer("int16"))]), 2, [(2, 1), (2, 1)],
     [b"\x02", b"\x02", b"\0\0\x05\0"], "0200000000000000 0200000000000000 0000050000000000"),
    ("lists of two, [1, 2] and null", field("a", True, FIXED_LIST, Table((4, 2)), [field("item", False, INT, integer("int8"))]), 2, [(2, 1), (4, 2)],
     [b"\x01", b"\x03", b"\x01\x02\0\0"], "0100000000000000 0300000000000000 0102000000000000"),
    ("large texts, the second null", field("a", True, LARGE_UTF8, NONE), 2, [(2, 1)], [b"\x01", large_offsets(0, 1, 1), b"a"],
     "0100000000000000 000000000000000001000000000000000100000000000000 6100000000000000"),
    ("large bytes", field("a", False, LARGE_BINARY, NONE), 1, [(1, 0)], [b"", large_offsets(0, 1), b"\xff"], "00000000000000000100000000000000 ff00000000000000"),
    ("large lists [5] and []", field("a", False, LARGE_LIST, NONE, [field("item", False, INT, integer("int8"))]), 2, [(2, 0), (1, 0)],
     [b"", large_offsets(0, 1, 1), b"", b"\x05"], "000000000000000001000000000000000100000000000000 0500000000000000"),
    ("days", DAYS, 2, [(2, 0)], [b"", numbers("int32", [0, -1])], "00000000ffffffff"),
    ("dates in milliseconds", field("d", False, DATE, Table((2, MILLISECOND))), 1, [(1, 0)], [b"", numbers("int64", [-2])], "feffffffffffffff"),
    ("seconds of a timezone", ZONED, 2, [(2, 0)], [b"", numbers("int64", [0, 1])], "00000000000000000100000000000000"),
    ("nanoseconds, the second null", field("d", True, TIMESTAMP, Table((2, NANOSECOND))), 2, [(2, 1)], [b"\x01", numbers("int64", [-1, 0])],
     "0100000000000000 ffffffffffffffff0000000000000000"),
]


def written_kinds():
    """Of each kind what it is, the stream, its record batch and the body of that."""
    for what, column, length, nodes, buffers, body in KINDS:
        batch = rows(length, nodes, buffers)
        yield what, schema([column]) + batch + END, batch, bytes.fromhex(body)


def encoding(kind, number=0):
    return Table((8, number), integer(kind), (1, 0), (2, 0))


def coded_front(kind="int8"):
    """The schema of a column of texts whose dictionary has indices of this kind."""
    return schema([field("a", True, UTF8, NONE, encoding=encoding(kind))])


def names_batch(names, is_delta=False, number=0):
    """A dictionary batch of texts."""
    return entries(number, len(names), [(len(names), 0)], [b"", *texts(names)], is_delta)


def coded_batch(indices, bits=b"", nulls=0, kind="int8"):
    """A record batch of indices into texts."""
    return rows(len(indices), [(len(indices), nulls)], [bits, numbers(kind, indices)])


def coded(names, indices, is_delta=False):
    return names_batch(names, is_delta) + coded_batch(indices)


def worked_dictionary(kind="int8"):
    """The texts b, a, b and a null, which are written as they are."""
    return coded_front(kind) + names_batch([b"b", b"a"]) + coded_batch([0, 1, 0, 0], b"\x07", 1, kind) + END


# A dictionary that a delta adds to, and what it is written as.
GROWN = coded_front() + coded([b"x"], [0]) + coded([b"y"], [0], is_delta=True) + END, coded_front() + coded([b"x"], [0, 0]) + END
