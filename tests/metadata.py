#!/usr/bin/env python3
"""metadata.py PROGRAM: metadata as other writers may write it, which must be read, and metadata that must be refused: tables
out of bounds, named again and again, too deep, and schemas that fail one of their tests. Runs the built program on
streams with each, and compares its answers. Prints each difference, and last 'N passed, M failed'."""
import struct
import sys

sys.dont_write_bytecode = True
import streams
from running import Answers
from streams import DATE, FLOAT, LARGE_LIST, LIST, MAP, STRUCT, TIME, TIMESTAMP, Table, Tables, Text, refer

answers = Answers.of_arguments(__doc__)
STREAM = streams.stream([("a", "int32", False)], [])
ROWS = [("a", "int32", False), ("bc", "uint8", True)]
VALUES = [[7, -1, 5], [1, 2, 255]]
BATCH = streams.record_batch(3, [streams.numbers(kind, column) for (_, kind, _), column in zip(ROWS, VALUES)])
NESTED = Table()


# ---- other spellings

class LateTable(Table):
    """Its vtable is after it, at any alignment, with filling between its slots."""

    def lay(self, out):
        out += b"\xaa" * 3
        start, places, inline = len(out), [], bytearray(4)
        for slot in self.slots:
            inline += b"\xbb"
            places.append(0 if slot is None else len(inline))
            if slot is not None:
                width, number = slot if isinstance(slot, tuple) else (4, 0)
                inline += number.to_bytes(width, "little")
        out += inline + b"\xcc" * 5
        out[start:start + 4] = struct.pack("<i", start - len(out))
        out += struct.pack(f"<HH{len(places)}H", 4 + 2 * len(places), len(inline), *places)
        for slot, place in zip(self.slots, places):
            if slot is not None and not isinstance(slot, tuple):
                refer(out, start + place, slot.lay(out))
        return start


class SharingTable(Table):
    """Its vtable is that of the first table which has the same, wherever that is."""

    def lay(self, out):
        vtable = 4 + 2 * len(self.slots)
        start = super().lay(out)
        first = out.find(out[start - vtable:start])
        out[start:start + 4] = struct.pack("<i", start - first)
        if first != start - vtable:
            out[start - vtable:start] = b"\xdd" * vtable
        return start


def columns(table, absent=None):
    """The fields of ROWS as tables of this kind."""
    def int_of(kind):
        bits, signed = streams.INTEGERS[kind]
        return table((4, bits), (1, int(signed)))
    return [table(Text(name), (1, int(nullable)), (1, 2), int_of(kind), None, absent or Tables([])) for name, kind, nullable in ROWS]


def other_spellings():
    wanted = streams.stream(ROWS, [VALUES])
    for what, table in (("vtables after their tables", LateTable), ("shared vtables", SharingTable)):
        schema = streams.message(1, table((2, 0), Tables(columns(table))))
        answers.accepted(what, schema + BATCH + streams.END, wanted)
    no_children = streams.schema(columns(Table, absent=(4, 0)))
    answers.accepted("a reference of 0 for children", no_children + BATCH + streams.END, wanted)
    no_name = streams.schema([Table((4, 0), None, (1, 2), streams.integer("int32"), None, Tables([]))])
    answers.accepted("a reference of 0 for a name", no_name + streams.END, streams.stream([("", "int32", False)], []))
    answers.refused("a reference of 0 for the header", streams.message(1, (4, 0)), "F4 FlatBounds")
    answers.refused("no header", streams.message(1, None), "F4 FlatBounds")


# ---- the Message table

def message(version=4, header_type=1, header=Table(), body_length=0):
    metadata = bytearray(4)
    root = Table((2, version), (1, header_type), header, (8, body_length)).lay(metadata)
    metadata[0:4] = struct.pack("<I", root)
    return framed(metadata)


def framed(metadata):
    return streams.CONTINUATION + struct.pack("<i", len(metadata)) + bytes(metadata)


def fronts():
    for version in (0, 3, 5, 0x404):
        answers.refused(f"version {version}", message(version=version), "F6 MetadataVersion")
    for header_type in (0, 4, 255):
        answers.refused(f"header type {header_type}", message(header_type=header_type), "F7 HeaderKind")
    for length in (1 << 63, (1 << 64) - 1):
        answers.refused(f"a body of {length} bytes", message(body_length=length), "F8 BodyLength")
    answers.refused("a body that is cut", message(body_length=1), "F1 Truncated")
    for size in (-1, -(1 << 31), 16777217):
        answers.refused(f"metadata of {size} bytes", streams.CONTINUATION + struct.pack("<i", size), "F3 MetadataSize")
    answers.refused("the most metadata, cut", streams.CONTINUATION + struct.pack("<i", 16777216), "F1 Truncated")
    for what, metadata in (("no bytes for the root offset", bytes(3)), ("a root past the end", b"\x08\0\0\0" + bytes(4)),
                           ("a vtable before the first byte", b"\x04\0\0\0\x05\0\0\0"), ("a vtable past the end", b"\x04\0\0\0\xf0\xff\xff\xff"),
                           *((f"a vtable of {size} bytes", b"\x08\0\0\0" + bytes([size, 0, 0, 0]) + b"\x04\0\0\0") for size in (0, 2, 3, 5, 7, 10, 12, 14))):
        answers.refused(what, framed(metadata), "F4 FlatBounds")
    whole = streams.schema(columns(Table))
    size = len(whole) - 8
    for length in (*range(1, 36), *range(36, size - 8, 8)):
        answers.refused(f"{length} of {size} bytes of metadata", framed(whole[8:8 + length]), "F4 FlatBounds")


# ---- how many tables, and how deep

class Twice:
    """A vector that names one table twice."""

    def __init__(self, table):
        self.table = table

    def lay(self, out):
        streams.fill(out, 4)
        start = len(out)
        out += struct.pack("<I", 2) + bytes(8)
        place = self.table.lay(out)
        refer(out, start + 4, place)
        refer(out, start + 8, place)
        return start


def nested(levels, code, children):
    """A field with this many levels, whose children are in this kind of vector."""
    found = Table(Text("a"), (1, 1), (1, 1), NESTED, None, Tables([]))
    for _ in range(levels - 1):
        found = Table(Text("a"), (1, 1), (1, code), NESTED, None, children(found))
    return streams.schema([found])


def budgets():
    answers.refused("20 levels of structs that name a table twice", nested(21, STRUCT, Twice), "F5 FlatBudget")
    single = lambda child: Tables([child])
    answers.refused("33 levels", nested(33, LIST, single), "F14 SchemaLimit")
    answers.refused("38 levels", nested(38, LIST, single), "F14 SchemaLimit")
    answers.refused("39 levels", nested(39, LIST, single), "F5 FlatBudget")
    plain = Table(None, None, (1, 1))
    for count, line in ((19998, "F14 SchemaLimit"), (19999, "F5 FlatBudget")):
        answers.refused(f"{count} fields", streams.schema([plain] * count), line)


# ---- the tests of a schema

def raw_text(given):
    found = Text("")
    found.bytes = given
    return found


def column(name=Text("a"), code=2, type_table=None, dictionary=None, children=(), pairs=None):
    return Table(name, (1, 0), (1, code), type_table or streams.integer("int32"), dictionary, Tables(list(children)), pairs)


def encoding(number, index=None):
    return Table((8, number), index)


def schemas():
    def refused(what, line, fields, endianness=0, pairs=None):
        answers.refused(what, streams.message(1, Table((2, endianness), Tables(fields), pairs)) + streams.END, line)

    def compared(what, given, line):
        if line:
            answers.refused(what, given, line)
        else:
            answers.accepted(what, given, given)

    whole = [("a", "int32", False)] * 2048
    answers.accepted("2,048 fields", streams.stream(whole, []), streams.stream(whole, []))
    refused("2,049 fields", "F14 SchemaLimit", [column()] * 2049)
    refused("big-endian before a float column", "F11 BigEndian", [column(code=FLOAT)], endianness=1)
    refused("a float column", "F12 TypeNotHeld FloatingPoint", [column(code=FLOAT)])
    refused("a column of times", "F12 TypeNotHeld Time", [column(code=TIME)])
    refused("a code that there is not", "F12 TypeNotHeld Unknown", [column(code=27)])
    inside = column(code=STRUCT, children=[column(), column(code=FLOAT)])
    refused("the first in preorder", "F12 TypeNotHeld FloatingPoint", [inside, column(code=MAP)])
    refused("a type that is not held before a bad width", "F12 TypeNotHeld Map", [column(type_table=Table((4, 24))), column(code=MAP)])
    refused("no type", "F13 BadParameter", [column(code=0)])
    for bits in (0, 24, 128):
        refused(f"integers of {bits} bits", "F13 BadParameter", [column(type_table=Table((4, bits)))])
    for what, code, unit in (("dates", DATE, 2), ("dates", DATE, 0xffff), ("timestamps", TIMESTAMP, 4), ("timestamps", TIMESTAMP, 0xffff)):
        refused(f"{what} of unit {unit}", "F13 BadParameter", [column(code=code, type_table=Table((2, unit)))])
    refused("a list of nothing", "F13 BadParameter", [column(code=LIST)])
    refused("a large list of nothing", "F13 BadParameter", [column(code=LARGE_LIST)])
    refused("an integer with a child", "F13 BadParameter", [column(children=[column()])])
    refused("an index of 24 bits", "F13 BadParameter", [column(dictionary=encoding(1, Table((4, 24))))])
    pair = Table(Text("k"), Text("v"))
    refused("4,097 pairs", "F14 SchemaLimit", [column()], pairs=Tables([pair] * 4097))
    for count, line in ((4095, None), (4096, "F14 SchemaLimit")):
        given = streams.message(1, Table((2, 0), Tables([column(pairs=Tables([pair]))]), Tables([pair] * count))) + streams.END
        compared(f"{count} pairs and one of the column", given, line)
    for length, line in ((4194303, None), (4194304, "F14 SchemaLimit")):
        zone = streams.field("a", False, TIMESTAMP, Table((2, 0), Text("a" * length)))
        compared(f"a name of one byte and a timezone of {length}", streams.schema([zone]) + streams.END, line)
    for code, line in ((streams.NULL, None), (STRUCT, "F27 DictionaryOfNested")):
        coded = streams.field("a", False, code, NESTED, encoding=Table((8, 0), streams.integer("int8"), (1, 0), (2, 0)))
        compared(f"a dictionary of the type {code}", streams.schema([coded]) + streams.END, line)
    refused("a long name that is no text", "F14 SchemaLimit", [column(name=raw_text(b"\xff" * 4194305))])
    refused("a name that is no text", "F15 NotUtf8", [column(name=raw_text(b"a\xff"))])
    refused("a timezone that is no text", "F15 NotUtf8", [column(code=TIMESTAMP, type_table=Table((2, 0), raw_text(b"\xff")))])
    refused("a key that is no text", "F15 NotUtf8", [column()], pairs=Tables([Table(raw_text(b"\xc0\x80"), Text("v"))]))
    refused("one dictionary of two types", "F24 DictionaryId", [column(dictionary=encoding(1)), column(type_table=streams.integer("int64"), dictionary=encoding(1))])
    zones = [column(code=TIMESTAMP, type_table=Table((2, 0), Text(zone)), dictionary=encoding(1)) for zone in ("UTC", "GMT")]
    refused("one dictionary of two timezones", "F24 DictionaryId", zones)
    refused("a dictionary of structs", "F27 DictionaryOfNested", [column(code=STRUCT, dictionary=encoding(1))])
    refused("a dictionary of large lists", "F27 DictionaryOfNested", [column(code=LARGE_LIST, children=[column()], dictionary=encoding(1))])


def order():
    answers.refused("a batch first", BATCH + STREAM, "F9 NoSchema")
    answers.refused("two schemas", streams.schema([]) + STREAM, "F10 SecondSchema")
    answers.refused("a second schema that is bad", STREAM[:-8] + message(header=(4, 0)), "F10 SecondSchema")
    dictionary = streams.message(2, Table((8, 7), Table((8, 0), streams.Pairs([]), streams.Pairs([]))))
    answers.refused("a dictionary that no field has", STREAM[:-8] + dictionary, "F24 DictionaryId")
    answers.refused("a dictionary batch without data", STREAM[:-8] + streams.message(2, Table((8, 7))), "F4 FlatBounds")


answers.play(other_spellings, fronts, budgets, schemas, order)
sys.exit(answers.tell("metadata"))
