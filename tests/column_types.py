#!/usr/bin/env python3
"""column_types.py PROGRAM: streams of each kind of type, worked out by hand, of dictionaries, and of the greatest weights. Runs the built
program on each, and compares its output and its standard error. Prints each difference, and last 'N passed, M failed'."""
import sys

sys.dont_write_bytecode = True
import worked
from running import Answers
from streams import BOOL, DATE, END, FIXED_LIST, INT, LIST, NULL, STRUCT, TIMESTAMP, UTF8
from streams import Pairs, Table, Tables, Text, entries, field, integer, message, numbers, rows, schema
from worked import INT32, NONE, coded, coded_batch, coded_front, encoding, names_batch, offsets, texts

answers = Answers.of_arguments(__doc__)


def written_types():
    """Each is given back as it is."""
    for what, given, batch, body in worked.written_kinds():
        answers.compare(f"the body of {what}", batch.endswith(body), True)
        answers.accepted(what, given, given)
    paired = message(1, Table((2, 0), Tables([field("a", True, INT, INT32)]), Tables([Table(Text("k"), Text("v"))])))
    for what, given, length in (("a pair", paired, 208), ("days", schema([worked.DAYS]), 144), ("a timezone", schema([worked.ZONED]), 160)):
        answers.compare(f"the length of a schema with {what}", len(given), length)
        answers.accepted(f"a schema with {what}", given + END, given + END)


def other_spellings():
    """What other writers may give is read, and written in the one way."""
    front = schema([field("a", True, INT, INT32)])
    one_and_two = numbers("int32", [1, 2])
    wanted = front + rows(2, [(2, 0)], [b"", one_and_two]) + END
    for first, line in ((b"\x03", None), (b"\x01", "F21 NullCount")):
        given = front + message(3, Table((8, 2), Pairs([(2, 0)]), Pairs([(0, 64), (64, 64)])), first.ljust(64, b"\0") + one_and_two.ljust(64, b"\0")) + END
        if line:
            answers.refused("64 bytes of validity, of which one bit is not set", given, line)
        else:
            answers.accepted("64 bytes for each buffer", given, wanted)
    front = schema([field("a", True, STRUCT, NONE, [field("x", False, INT, integer("int8"))])])
    wanted = front + rows(1, [(1, 1), (1, 1)], [b"\0", b"\0", b"\0"]) + END
    for what, validity, nulls, line in (("a null", b"\0", 1, None), ("a struct", b"", 0, "F23 NullForbidden")):
        given = front + rows(1, [(1, nulls), (1, 1)], [validity, b"\0", b"\x07"]) + END
        if line:
            answers.refused(f"a forbidden null below {what}", given, line)
        else:
            answers.accepted(f"a forbidden null below {what}", given, wanted)
    front = schema([field("a", True, LIST, NONE, [field("item", True, NULL, NONE)])])
    for length, line in ((16777216, None), (16777217, "F20 RowCount")):
        given = front + rows(0, [(0, 0), (length, length)], [b"", b""]) + END
        if line:
            answers.refused(f"{length} nulls that no list shows", given, line)
        else:
            answers.accepted(f"{length} nulls that no list shows", given, front + END)
    front = schema([field("a", True, NULL, NONE)])
    answers.refused("2^60 nulls", front + rows(1 << 60, [(1 << 60, 0)], []) + END, "F20 RowCount")
    for what, code, given, wanted in (
        ("no unit of dates is milliseconds", DATE, NONE, Table((2, worked.MILLISECOND))),
        ("no unit of timestamps is seconds", TIMESTAMP, NONE, Table((2, worked.SECOND))),
        ("an empty timezone is none", TIMESTAMP, Table((2, worked.SECOND), Text("")), Table((2, worked.SECOND))),
    ):
        batch = rows(1, [(1, 0)], [b"", numbers("int64", [-1])]) + END
        answers.accepted(what, schema([field("d", False, code, given)]) + batch, schema([field("d", False, code, wanted)]) + batch)


def dictionaries():
    """Texts in the order first seen: each batch of rows has a dictionary of its own."""
    front = coded_front()
    for kind in ("int8", "int32"):
        given = worked.worked_dictionary(kind)
        answers.accepted(f"b, a, b and null under indices of {kind}", given, given)
    for what, parts, wanted in (
        ("in place of another one", [coded([b"x"], [0]), coded([b"y"], [0])], coded([b"x", b"y"], [0, 1])),
        ("after one in place of another", [coded([b"x"], [0]), coded([b"y"], [0]), coded([b"z"], [1, 0], is_delta=True)], coded([b"x", b"y", b"z"], [0, 1, 2, 1])),
        ("after one without texts", [coded([], []), coded([b"x"], [0], is_delta=True)], coded([b"x"], [0])),
    ):
        answers.accepted(f"a dictionary {what}", front + b"".join(parts) + END, front + wanted + END)
    answers.accepted("a dictionary after another one", *worked.GROWN)
    names = [b"%d" % number for number in range(129)]
    given = front + coded(names[:100], range(100)) + coded(names[100:], range(29)) + END
    wanted = front + coded(names[:128], range(128)) + coded(names[128:], [0]) + END
    answers.accepted("129 texts under indices of 8 bits", given, wanted)


def bad_dictionaries():
    """A dictionary comes after rows without one, of which none shows an entry. What names no entry, and a dictionary that has no place, is refused."""
    front, names, worked_rows = coded_front(), [b"b", b"a"], coded_batch([0, 1, 0, 0], b"\x07", 1)
    nulls = coded_batch([7], b"\0", 1)
    answers.accepted("nulls alone", front + nulls + END, front + names_batch([]) + coded_batch([0], b"\0", 1) + END)
    for what, parts, line in (
        ("no dictionary", [worked_rows], "F26 DictionaryIndex"),
        ("a delta of no dictionary", [names_batch(names, is_delta=True), worked_rows], "F25 DeltaWithoutBase"),
        ("a dictionary of another id", [names_batch(names, number=1), worked_rows], "F24 DictionaryId"),
        ("an index before the dictionary", [nulls, coded_batch([0]), names_batch(names)], "F26 DictionaryIndex"),
        ("a negative index", [nulls, names_batch(names), coded_batch([-1])], "F26 DictionaryIndex"),
        ("an index past the entries", [nulls, names_batch(names), coded_batch([2])], "F26 DictionaryIndex"),
    ):
        answers.refused(what, front + b"".join(parts) + END, line)


def weights():
    """A piece and a row weigh 16,777,216 at the most; a text weighs 1 and its bytes, and a row 1 more."""
    front = schema([field("a", False, UTF8, NONE)])
    text = b"a" * 8388606
    three = rows(3, [(3, 0)], [b"", *texts([text] * 3)])
    pieces = rows(2, [(2, 0)], [b"", *texts([text] * 2)]) + rows(1, [(1, 0)], [b"", *texts([text])])
    answers.accepted("three texts of which two are a piece", front + three + END, front + pieces + END)
    front = schema([field("a", False, LIST, NONE, [field("item", False, UTF8, NONE, encoding=encoding("int8"))])])
    dictionary = names_batch([b"a" * 8000000])
    for times, line in ((2, None), (3, "F28 TooHeavy")):
        given = front + dictionary + rows(1, [(1, 0), (times, 0)], [b"", offsets(0, times), b"", bytes(times)]) + END
        if line:
            answers.refused(f"a long text {times} times in a row", given, line)
        else:
            answers.accepted(f"a long text {times} times in a row", given, given)


def null_fixed_lists(count, size, items=0):
    """A row with a list of this many nulls, each of which would be a list of this size; below them are this many items."""
    item = field("item", True, FIXED_LIST, Table((4, size)), [field("item", True, NULL, NONE)])
    no_bits = bytes((min(count, 16777216) + 7) // 8)
    batch = rows(1, [(1, 0), (count, count), (items, items)], [b"", offsets(0, count), no_bits])
    return schema([field("a", False, LIST, NONE, [item])]) + batch + END


def one_buffer(count, length):
    """So many columns of zeros of 8 bits, all in the same bytes."""
    front = schema([field("a", False, INT, integer("int8"))] * count)
    return front, message(3, Table((8, length), Pairs([(length, 0)] * count), Pairs([(0, 0), (0, length)] * count)), bytes(length))


def coded_on_one_buffer(count, length):
    """So many columns of indices of 8 bits, all in the same bytes and of one dictionary; and what is written: each piece has a dictionary for each column."""
    def columns(number):
        return [field("a", False, INT, INT32, encoding=encoding("int8", number(place))) for place in range(count)]
    names = numbers("int32", [7, 5])
    batch = message(3, Table((8, length), Pairs([(length, 0)] * count), Pairs([(0, 0), (0, length)] * count)), bytes([1, 0]) * (length // 2))
    given = schema(columns(lambda place: 0)) + entries(0, 2, [(2, 0)], [b"", names]) + batch + END
    dictionaries = b"".join(entries(place, 2, [(2, 0)], [b"", numbers("int32", [5, 7])]) for place in range(count))
    piece = dictionaries + rows(4096, [(4096, 0)] * count, [b"", bytes([0, 1]) * 2048] * count)
    return given, schema(columns(lambda place: place)) + piece * (length // 4096) + END


def beside_nulls(count, length):
    """A struct of which each second one is null, of this many columns of nulls and one of empty texts."""
    parts = [field("n", True, NULL, NONE)] * count + [field("t", True, UTF8, NONE)]
    is_there = bytes([0x55]) * (length // 8)
    nodes = [(length, length // 2)] + [(length, length)] * count
    given = rows(length, [*nodes, (length, 0)], [is_there, b"", offsets(*[0] * (length + 1)), b""])
    wanted = rows(length, [*nodes, (length, length // 2)], [is_there, is_there, offsets(*[0] * (length + 1)), b""])
    front = schema([field("a", True, STRUCT, NONE, parts)])
    return front + given + END, front + wanted + END


def required_beside_nulls(count, length):
    """A struct of which each second one is null, of this many columns of nulls and a boolean that allows none."""
    parts = [field("n", True, NULL, NONE)] * count + [field("b", False, BOOL, NONE)]
    nodes = [(length, length // 2)] + [(length, length)] * count + [(length, 0)]
    return schema([field("a", True, STRUCT, NONE, parts)]) + rows(length, nodes, [bytes([0x55]) * (length // 8), b"", bytes(length // 8)]) + END


def hostile_shapes():
    """Few bytes that mean much, or say that they do: each is answered within the limit of a run."""
    for count, size, items, line in (
        (16777214, 0, 0, None), (16777215, 0, 0, "F28 TooHeavy"), (0, 2147483647, 0, None), (1, 2147483647, 0, "F20 RowCount"),
        (1, 2147483647, 2147483647, "F20 RowCount"), (2147483647, 0, 0, "F20 RowCount"),
    ):
        given = null_fixed_lists(count, size, items)
        if line:
            answers.refused(f"{count} null lists of size {size}", given, line)
        else:
            answers.accepted(f"{count} null lists of size {size}", given, given)
    front, batch = one_buffer(2047, 32768)
    wanted = front + rows(4096, [(4096, 0)] * 2047, [b"", bytes(4096)] * 2047) * 8 + END
    answers.compare("2,047 columns on one buffer", answers.run(["recode"], front + batch + END) == (0, wanted, b""), True)
    answers.refused("too many rows of them", b"".join(one_buffer(2047, 131073)) + END, "F28 TooHeavy")
    given, wanted = coded_on_one_buffer(2047, 32768)
    answers.compare("2,047 columns of indices of 8 bits on one buffer", answers.run(["recode"], given) == (0, wanted, b""), True)
    answers.accepted("2,046 nulls beside a text", *beside_nulls(2046, 4096))
    answers.refused("2,046 nulls beside a boolean", required_beside_nulls(2046, 16777216), "F28 TooHeavy")


answers.play(written_types, other_spellings, dictionaries, bad_dictionaries, weights, hostile_shapes)
sys.exit(answers.tell("column types"))
