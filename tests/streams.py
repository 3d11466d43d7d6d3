"""Streams in the Apache Arrow IPC streaming format, written from the format's description alone.

Little-endian, metadata version V5. Each message is laid out front to back: a table after
its vtable, inline slots in slot order, then what they refer to in slot order. This is also the order of the canonical
stream, so with batches of 4,096 rows the program gives such a stream back unchanged.
"""
import itertools
import struct

CONTINUATION = b"\xff\xff\xff\xff"
END = CONTINUATION + bytes(4)
INTEGERS = {f"{sign}int{bits}": (bits, sign == "") for sign in ("", "u") for bits in (8, 16, 32, 64)}
LETTERS = {(8, True): "b", (16, True): "h", (32, True): "i", (64, True): "q",
           (8, False): "B", (16, False): "H", (32, False): "I", (64, False): "Q"}
# Codes of the union Type in Schema.fbs.
NULL, INT, FLOAT, BINARY, UTF8, BOOL, DATE, TIME, TIMESTAMP = 1, 2, 3, 4, 5, 6, 8, 9, 10
LIST, STRUCT, FIXED_BINARY, FIXED_LIST, MAP, LARGE_BINARY, LARGE_UTF8, LARGE_LIST = 12, 13, 15, 16, 17, 19, 20, 21


def fill(out, step):
    out += bytes(-len(out) % step)


class Table:
    """Slots are (width, number) for a scalar, something with `lay` for a reference, or None where absent."""

    def __init__(self, *slots):
        self.slots = slots

    def lay(self, out):
        vtable = 4 + 2 * len(self.slots)
        out += bytes(-(len(out) + vtable) % 8)
        inline, places = bytearray(4), []
        for slot in self.slots:
            if slot is None:
                places.append(0)
                continue
            width, number = slot if isinstance(slot, tuple) else (4, 0)
            fill(inline, width)
            places.append(len(inline))
            inline += number.to_bytes(width, "little")
        fill(inline, 4)
        out += struct.pack(f"<HH{len(places)}H", vtable, len(inline), *places)
        start = len(out)
        out += inline
        out[start:start + 4] = struct.pack("<i", vtable)
        for slot, place in zip(self.slots, places):
            if slot is not None and not isinstance(slot, tuple):
                refer(out, start + place, slot.lay(out))
        return start


def refer(out, place, target):
    out[place:place + 4] = struct.pack("<I", target - place)


class Text:
    def __init__(self, text):
        self.bytes = text.encode()

    def lay(self, out):
        fill(out, 4)
        start = len(out)
        out += struct.pack("<I", len(self.bytes)) + self.bytes + b"\0"
        return start


class Tables:
    """A vector of references."""

    def __init__(self, tables):
        self.tables = tables

    def lay(self, out):
        fill(out, 4)
        start = len(out)
        out += struct.pack("<I", len(self.tables)) + bytes(4 * len(self.tables))
        for index, table in enumerate(self.tables):
            refer(out, start + 4 + 4 * index, table.lay(out))
        return start


class Pairs:
    """A vector of structs of two 64-bit numbers: field nodes or buffers."""

    def __init__(self, pairs):
        self.pairs = pairs

    def lay(self, out):
        out += bytes(-(len(out) + 4) % 8)
        start = len(out)
        out += struct.pack("<I", len(self.pairs))
        out += struct.pack(f"<{2 * len(self.pairs)}q", *itertools.chain.from_iterable(self.pairs))
        return start


def message(header_type, header, body=b"", more=0):
    """Continuation, size of the metadata, metadata, body (Message.fbs: version V5 is 4). The body has so many more bytes, which are not among those given."""
    metadata = bytearray(4)
    root = Table((2, 4), (1, header_type), header, (8, len(body) + more)).lay(metadata)
    fill(metadata, 8)
    metadata[0:4] = struct.pack("<I", root)
    return CONTINUATION + struct.pack("<i", len(metadata)) + bytes(metadata) + body


def field(name, nullable, code, type_table, children=(), encoding=None):
    """A field; `code` is that of the union Type in Schema.fbs."""
    return Table(Text(name), (1, int(nullable)), (1, code), type_table, encoding, Tables(list(children)))


def integer(kind):
    bits, signed = INTEGERS[kind]
    return Table((4, bits), (1, int(signed)))


def schema(fields):
    return message(1, Table((2, 0), Tables(fields)))


def batch(length, nodes, buffers):
    """The table of a record batch, and its body. `nodes` are lengths and null counts."""
    body, places = bytearray(), []
    for buffer in buffers:
        places.append((len(body), len(buffer)))
        body += buffer
        fill(body, 8)
    return Table((8, length), Pairs(nodes), Pairs(places)), bytes(body)


def rows(length, nodes, buffers):
    """A record batch of any types."""
    return message(3, *batch(length, nodes, buffers))


def entries(number, length, nodes, buffers, is_delta=False):
    """A dictionary batch of this id."""
    header, body = batch(length, nodes, buffers)
    return message(2, Table((8, number), header, (1, int(is_delta))), body)


def arrays_batch(length, arrays):
    """`arrays` are the null count, the validity bitmap and the other buffers of each column: the bytes of its numbers, or offsets and texts."""
    nodes = [(length, nulls) for nulls, *_ in arrays]
    return rows(length, nodes, [buffer for array in arrays for buffer in array[1:]])


def record_batch(length, bodies):
    """`bodies` are the bytes of each column's numbers, none of them null."""
    return arrays_batch(length, [(0, b"", numbers) for numbers in bodies])


def numbers(kind, values):
    return struct.pack(f"<{len(values)}{LETTERS[INTEGERS[kind]]}", *values)


def bits(flags):
    """A bit for each flag, the first one the lowest of the first byte."""
    out = bytearray((len(flags) + 7) // 8)
    for place, flag in enumerate(flags):
        out[place // 8] |= flag << place % 8
    return bytes(out)


def array(kind, values):
    """A null is None: its number is zero. A column without one has no validity bitmap."""
    there = [value is not None for value in values]
    return there.count(False), b"" if all(there) else bits(there), numbers(kind, [value or 0 for value in values])


def stream(columns, batches):
    """`columns` are (name, type, nullable), as ("a", "int32", False); `batches` are lists of the columns' values."""
    parts = [schema([field(name, nullable, 2, integer(kind)) for name, kind, nullable in columns])]
    for values in batches:
        arrays = [array(kind, column) for (_, kind, _), column in zip(columns, values)]
        parts.append(arrays_batch(len(values[0]), arrays))
    return b"".join(parts) + END
