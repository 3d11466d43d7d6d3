#!/usr/bin/env python3
"""images_open.py PROGRAM: opens the stores of tests/images, which an earlier program wrote when a catalogue was one list at any size, and checks everything
that they hold; then again after each kind of change, on a copy, and after an upgrade, of which each write and each sync fails in turn. Last come stores
that are made here: of as many tables and as many segments as there may be, of 1,000 tables of ten segments, and with a list of over a megabyte.
Prints each difference, and last 'N passed, M failed'."""
import errno
import gzip
import os
import sys
import tempfile

sys.dont_write_bytecode = True
import refusals
import streams
from kept_stores import ONE, PAIR, SECTOR, STORES, Table, after, after_all, command, laid_segments, list_size, schema_lines, stream_of, table_lines
from running import Answers

answers = Answers.of_arguments(__doc__)
compare, run = answers.compare, answers.run
IMAGES = os.path.join(os.path.dirname(os.path.abspath(__file__)), "images")
DONE = (0, b"ok\n", b"")
# So many tables are looked at one by one.
SAMPLE = 20


def put(path, content):
    with open(path, "wb") as file:
        file.write(content)


def content(path):
    with open(path, "rb") as file:
        return file.read()


def unpacked(store):
    with gzip.open(os.path.join(IMAGES, f"{store.name}.gz")) as file:
        return file.read()


def ruling(made):
    """Of the greater commit the epoch, and the bytes and the kind of its catalogue."""
    number = lambda place, size: int.from_bytes(made[place:place + size], "little")
    return max((number(sector + 8, 8), number(sector + 32, 8), number(sector + 52, 4)) for sector in (0, SECTOR))


def look(what, path, tables):
    """All that the program shows of a store."""
    compare(f"{what}: its tables", run(["tables", path]), (0, table_lines(tables), b""))
    compare(f"{what}: all can be read", run(["check", path]), DONE)
    for name in sorted(tables)[::len(tables) // SAMPLE + 1]:
        compare(f"{what}: the schema of {name}", run(["schema", path, name]), (0, schema_lines(tables[name]), b""))
        compare(f"{what}: the stream of {name}", run(["export", path, name]), (0, stream_of(tables[name]), b""))


def changes(store, tables):
    """One of each kind, and the one that was stopped."""
    first = sorted(tables)[0]
    yield "create", "w", ONE
    yield "import", first, PAIR, [[1, 2], [None, -3]]
    yield "append", first, [[9, 8] for _ in tables[first].columns]
    yield "rename", first, "zz"
    yield "drop", first
    if store.stopped:
        yield store.stopped


def change(what, path, step, tables):
    """The tables after it."""
    compare(f"{what}: {step[:2]}", run(*command(path, step, tables)), DONE)
    changed = after(tables, step)
    compare(f"{what}: {step[:2]}: the kind of its catalogue", ruling(content(path))[2], int(list_size(changed) > SECTOR))
    return changed


def opens(room, store):
    """A store that is kept: looked at, and changed in each way."""
    path, made, tables = os.path.join(room, store.name), unpacked(store), after_all(store.steps)
    compare(f"{store.name}: its ruling commit", ruling(made), (len(store.steps) + 1, list_size(tables), 0))
    put(path, made)
    look(store.name, path, tables)
    compare(f"{store.name}: its bytes stay", content(path), made)
    for step in changes(store, tables):
        put(path, made)
        look(f"{store.name} after {step[:2]}", path, change(store.name, path, step, tables))


def version(path):
    """That of a store's format, as `info` prints it."""
    return run(["info", path])[1].split(b"\n")[0]


def fails_to_upgrade(room, store, tables):
    """Each write and each sync of the file fails in turn: the tables stay, in the one version or the other."""
    path, left_at = os.path.join(room, "old"), os.path.join(room, "left")
    put(path, unpacked(store))
    undisturbed, runs = refusals.each_change_failed([answers.program, "upgrade", path], b"", errno.EIO, refusals.on_a_copy(path))
    compare(f"{store.name}: an upgrade of a copy", undisturbed[:3], DONE)
    compare(f"{store.name}: writes and syncs of an upgrade", len(runs) >= 4, True)
    for number, (status, output, line, left) in enumerate(runs, 1):
        what = f"{store.name}: an upgrade whose write or sync {number} fails"
        compare(what, (status, output, line in (b"refused S9 Device\n", b"refused C4 Device\n")), (1, b"", True))
        put(left_at, left)
        compare(f"{what}: its version", version(left_at) in (b"format_version 1", b"format_version 2"), True)
        look(what, left_at, tables)


def upgrades(room, store):
    """A store that is kept gets its digests, once."""
    path, tables = os.path.join(room, f"{store.name}_upgraded"), after_all(store.steps)
    put(path, unpacked(store))
    compare(f"{store.name}: its version", version(path), b"format_version 1")
    compare(f"{store.name}: an upgrade", run(["upgrade", path]), DONE)
    compare(f"{store.name}: its version after an upgrade", version(path), b"format_version 2")
    look(f"{store.name} after an upgrade", path, tables)
    made = content(path)
    compare(f"{store.name}: an upgrade once more", run(["upgrade", path]), DONE)
    compare(f"{store.name}: its bytes stay after an upgrade once more", content(path) == made, True)
    if len(tables) <= SAMPLE:
        fails_to_upgrade(room, store, tables)


def as_many_tables_as_may_be(room):
    """Those of the thousand and 24 more; there is no place for another one."""
    [store] = [store for store in STORES if store.name == "1000_tables"]
    path, tables = os.path.join(room, "most"), after_all(store.steps)
    put(path, unpacked(store))
    for place in range(24):
        tables = change("1,024 tables", path, ("create", f"more_{place}", ONE), tables)
    look("1,024 tables", path, tables)
    made = content(path)
    compare("1,025 tables", run(["create", path, "another", "a:int32"]), (1, b"", b"refused S7 TooMany Tables\n"))
    compare("1,025 tables: the bytes stay", content(path), made)
    look("1,023 tables", path, change("1,024 tables", path, ("drop", "more_3"), tables))


def a_list_of_a_megabyte(room):
    """Tables of as many columns as there may be."""
    path, tables = os.path.join(room, "megabyte"), {}
    columns = [(f"column_{place}", "int32", True) for place in range(2048)]
    compare("a store for a megabyte", run(["format", path, "16384"]), DONE)
    while list_size(tables) <= 1 << 20:
        tables = change("a megabyte", path, ("create", f"wide_{len(tables)}", columns), tables)
    look("a megabyte", path, tables)
    tables = change("a megabyte", path, ("append", "wide_1", [[place] for place in range(2048)]), tables)
    look("a megabyte with a row", path, tables)
    look("a megabyte less one", path, change("a megabyte", path, ("drop", "wide_0"), tables))


def lines_of(rows):
    """What `tables` prints of tables with these numbers of rows."""
    return "".join(f"{name} {count}\n" for name, count in sorted(rows.items())).encode()


def a_thousand_tables_of_ten_segments(room):
    """Rows without a column, of which a segment has 4,096. The store is opened, listed and changed."""
    path, rows = os.path.join(room, "thousand"), {f"t{place:04}": 40_960 for place in range(1000)}
    compare("a store for 1,000 tables", run(["format", path, "16384"]), DONE)
    without_columns = streams.schema([]) + streams.rows(40_960, [], []) + streams.END
    for name in rows:
        compare(f"ten segments of {name}", run(["import", path, name], without_columns), DONE)
    compare("10,000 segments: the tables", run(["tables", path]), (0, lines_of(rows), b""))
    shown = run(["info", path])[1].split(b"\n")
    compare("10,000 segments: what is counted", shown[-5:-3], [b"tables 1000", b"segments 10000"])
    one_row = streams.schema([]) + streams.rows(1, [], []) + streams.END
    for words, given, changed in (
        (["append", path, "t0500"], one_row, {"t0500": 40_961}), (["create", path, "w"], b"", {"w": 0}),
        (["import", path, "t0007"], one_row, {"t0007": 1}),
    ):
        compare(f"10,000 segments: {words[0]}", run(words, given), DONE)
        rows |= changed
        compare(f"10,000 segments after {words[0]}", run(["tables", path]), (0, lines_of(rows), b""))
    compare("10,000 segments: drop", run(["drop", path, "t0999"]), DONE)
    del rows["t0999"]
    compare("10,000 segments after drop", run(["tables", path]), (0, lines_of(rows), b""))
    compare("10,000 segments: all can be read", run(["check", path]), DONE)


def as_many_segments_as_may_be(room):
    """A table of 65,536 segments of a row each, as the format's page lays them: no other row has a place, and everything else works."""
    path, count = os.path.join(room, "segments"), 1 << 16
    tables = {"t": Table(ONE, [list(range(count))], count)}
    made = laid_segments(80_000, tables)
    put(path, made)
    look("65,536 segments", path, tables)
    compare("65,537 segments", run(["append", path, "t"], stream_of(Table(ONE, [[7]], 1))), (1, b"", b"refused S7 TooMany Segments\n"))
    compare("a new table's segment", run(["import", path, "u"], stream_of(Table(ONE, [[7]], 1))), (1, b"", b"refused S7 TooMany Segments\n"))
    compare("65,537 segments: the bytes stay", content(path) == made, True)
    tables = change("65,536 segments", path, ("create", "u", PAIR), tables)
    tables = change("65,536 segments", path, ("rename", "t", "v"), tables)
    look("65,536 segments under another name", path, tables)
    tables = change("65,536 segments", path, ("import", "v", ONE, [[1, None, 3]]), tables)
    look("65,536 segments were replaced", path, change("one segment", path, ("append", "u", [[1, 2], [3, 4]]), tables))


with tempfile.TemporaryDirectory() as room:
    kept = [case for store in STORES for case in ((f"opens-{store.name}", opens, room, store), (f"upgrades-{store.name}", upgrades, room, store))]
    many = as_many_tables_as_may_be, as_many_segments_as_may_be, a_thousand_tables_of_ten_segments, a_list_of_a_megabyte
    answers.play(*kept, *((case, room) for case in many))
sys.exit(answers.tell("images"))
