#!/usr/bin/env python3
"""sizes.py PROGRAM [PART ..]: as much as may be, and one more. A body that gives up above some size meets each clause if it says that memory is missing.

tables     1,024 tables, each with a segment: opened, listed, upgraded, copied, read, and changed into pages.
segments   65,536 segments of one table, the last of them appended: read, filtered, exported, salvaged, upgraded, copied.
memory     65,536 segments, and the greatest weight of a table, on a device in memory that is opened again.
weights    a row and a segment of the greatest weight.
inputs     a stream of 2,147,483,647 bytes; streams and texts of 200 MB, and a text of over a million rows into a dictionary.
names      a name of 64 letters; stores of the fewest sectors, and of more than there may be.

Prints each difference, and last 'N passed, M failed'."""
import os
import resource
import sys
import tempfile

sys.dont_write_bytecode = True
import disks
import streams
from kept_stores import ONE, Table, laid_segments, stream_of, table_lines
from running import Answers

answers = Answers.of_arguments(__doc__, patience=600)
compare, run = answers.compare, answers.run
DONE = (0, b"ok\n", b"")
# docs/formats.md, section 8.
TABLES, SEGMENTS = 1024, 65_536
ROW_WEIGHT = PIECE_WEIGHT = BATCH_ROWS = 16_777_216
INPUT, MEGABYTES = 2_147_483_647, 200_000_000
WITHOUT_COLUMNS = streams.schema([])
TEXTS = streams.schema([streams.field("a", False, streams.UTF8, streams.Table())])
ONE_ROW = WITHOUT_COLUMNS + streams.record_batch(1, []) + streams.END


def refused(what, words, line, given=b""):
    compare(what, run(words, given), (1, b"", f"refused {line}\n".encode()))


def done(what, words, given=b""):
    compare(what, run(words, given), DONE)


def put(path, *parts):
    with open(path, "wb") as file:
        for part in parts:
            file.write(part)


def counted(path):
    """What `info` says of the version, the tables and the segments."""
    told = dict(line.split() for line in run(["info", path])[1].decode().splitlines())
    return tuple(int(told[name]) for name in ("format_version", "tables", "segments"))


def is_as(what, path, tables, segments, version):
    """The store has these tables, in so many segments; all of them can be read."""
    compare(f"{what}: version, tables, segments", counted(path), (version, len(tables), segments))
    compare(f"{what}: its tables", run(["tables", path]), (0, table_lines(tables), b""))
    done(f"{what}: all can be read", ["check", path])


def has_rows(what, path, name, table, query, found):
    """A table read in each way."""
    compare(f"{what}: exported", run(["export", path, name]), (0, stream_of(table), b""))
    compare(f"{what}: filtered", run(["query", path, name, query]), (0, found, b""))
    status, output, _ = run(["salvage", path, name])
    compare(f"{what}: salvaged", (status, run(["recode"], output)[1] == stream_of(table)), (0, True))


def as_many_tables(room):
    path, copy = (os.path.join(room, name) for name in ("tables", "copy"))
    tables = {f"t{place}": Table(ONE, [[place]], 1) for place in range(TABLES)}
    put(path, laid_segments(8192, tables))
    is_as("1,024 tables", path, tables, TABLES, 1)
    for what, words, given in (("create", ["one_more", "a:int32"], b""), ("import", ["one_more"], ONE_ROW), ("query", ["t7", "--save", "one_more"], b"")):
        refused(f"1,025 tables by {what}", [what, path, *words], "S7 TooMany Tables", given)
    done("1,024 tables upgraded", ["upgrade", path])
    is_as("1,024 tables upgraded", path, tables, TABLES, 2)
    done("1,024 tables copied", ["copy", path, copy, "8192"])
    is_as("1,024 tables copied", copy, tables, TABLES, 2)
    for place in (0, 999, 1000, TABLES - 1):
        has_rows(f"table {place} of 1,024", copy, f"t{place}", tables[f"t{place}"], f"a = {place}", b"[%d]\n" % place)
    # A rename writes all pages of a list that had none: their root has over 30,000 bytes.
    done("one of 1,024 renamed", ["rename", path, "t500", "u500"])
    tables["u500"] = tables.pop("t500")
    is_as("one of 1,024 renamed", path, tables, TABLES, 2)
    done("one of 1,024 dropped", ["drop", path, "u500"])
    done("the last of 1,024", ["create", path, "last", "a:int32?"])
    refused("1,025 tables again", ["create", path, "one_more", "a:int32?"], "S7 TooMany Tables")


def as_many_segments(room):
    path, copy = (os.path.join(room, name) for name in ("segments", "fewer"))
    before, after = (Table(ONE, [list(range(count))], count) for count in (SEGMENTS - 1, SEGMENTS))
    put(path, laid_segments(90_000, {"t": before}))
    is_as("65,535 segments", path, {"t": before}, SEGMENTS - 1, 1)
    last, another = (streams.stream(ONE, [[[value]]]) for value in (SEGMENTS - 1, SEGMENTS))
    done("the last segment", ["append", path, "t"], last)
    is_as("65,536 segments", path, {"t": after}, SEGMENTS, 1)
    for words in (["append", path, "t"], ["import", path, "u"]):
        refused(f"65,537 segments by {words[0]}", words, "S7 TooMany Segments", another)
    refused("65,537 segments by query", ["query", path, "t", "a = 65535", "--save", "u"], "S7 TooMany Segments")
    has_rows("65,536 segments", path, "t", after, "a >= 65535", b"[65535]\n")
    done("65,536 segments upgraded", ["upgrade", path])
    is_as("65,536 segments upgraded", path, {"t": after}, SEGMENTS, 2)
    refused("65,537 segments in version 2", ["append", path, "t"], "S7 TooMany Segments", another)
    has_rows("65,536 segments with digests", path, "t", after, "a < 1", b"[0]\n")
    done("65,536 segments copied", ["copy", path, copy, "8192"])
    is_as("65,536 segments as 16", copy, {"t": Table(ONE, after.values, 16)}, 16, 2)


def segments_in_memory(room):
    """All rows that a table may have, and so all segments, on a device that `replay` opens again, with pages of 4 MB."""
    most, one, script = (os.path.join(room, name) for name in ("most", "one", "script"))
    put(most, WITHOUT_COLUMNS, streams.record_batch(BATCH_ROWS, []) * 16, streams.END)
    put(one, ONE_ROW)
    for version in ("1", "2"):
        lines = [f"import t {most}", "reopen", f"append t {one}", f"import u {one}", "upgrade", "reopen", "rename t v", "reopen", "drop v", f"import u {one}"]
        put(script, "".join(f"{line}\n" for line in lines).encode())
        wanted = ["ok", "ok", "refused S7 TooMany Weight", "refused S7 TooMany Segments", "ok", "ok", "ok", "ok", "ok", "ok", "after:", "u 1"]
        compare(f"268,435,456 rows in version {version}", run(["replay", script, "--sectors", "131072", "--format-version", version]),
                (0, "".join(f"{line}\n" for line in wanted).encode(), b""))


def texts(sizes):
    """A stream of texts of these numbers of bytes, in one batch."""
    offsets = [0]
    for size in sizes:
        offsets.append(offsets[-1] + size)
    body = (0, b"", b"".join(offset.to_bytes(4, "little") for offset in offsets), b"x" * offsets[-1])
    return TEXTS + streams.arrays_batch(len(sizes), [body]) + streams.END


def weights(room):
    """Each row weighs two and its bytes."""
    path = os.path.join(room, "weights")
    done("a store for weights", ["format", path, "140000"])
    for what, sizes, segments in (
        ("the heaviest row", [ROW_WEIGHT - 2], 1), ("the heaviest segment", [8_000_000, PIECE_WEIGHT - 8_000_004], 1),
        ("one more than a segment", [8_000_000, PIECE_WEIGHT - 8_000_003], 2),
    ):
        given = texts(sizes)
        done(what, ["import", path, "t"], given)
        compare(f"{what}: segments", counted(path)[2], segments)
        compare(f"{what}: all can be read", run(["check", path]), DONE)
        wanted = run(["recode"], given)
        compare(f"{what}: recoded", wanted[0::2], (0, b""))
        for words in (["export"], ["salvage"]):
            status, output, _ = run([*words, path, "t"])
            compare(f"{what}: {words[0]}", (status, run(["recode"], output) == wanted), (0, True))
        compare(f"{what}: printed", len(run(["query", path, "t"])[1]), sum(sizes) + 5 * len(sizes))
        done(f"{what}: a row more", ["append", path, "t"], texts([1]))
        compare(f"{what}: a row more: all can be read", run(["check", path]), DONE)
    refused("too heavy a row", ["import", path, "t"], "S5 Import F28 TooHeavy", texts([ROW_WEIGHT - 1]))
    refused("too heavy a row of a text", ["append", path, "t", "--as", "csv"], "X15 TooHeavy 1", b"a\n" + b"x" * (ROW_WEIGHT - 1) + b"\n")
    done("the heaviest row of a text", ["append", path, "t", "--as", "csv"], b"a\n" + b"x" * (ROW_WEIGHT - 2) + b"\n")


def longest_stream(path, size):
    """A row without columns, whose message has a body of so many bytes that the stream has this size. The body takes no space on the disk."""
    header = streams.batch(1, [], [])[0]
    front = len(WITHOUT_COLUMNS + streams.message(3, header))
    put(path, WITHOUT_COLUMNS, streams.message(3, header, more=size - front))
    os.truncate(path, size)


def from_file(words, path):
    return answers.measured(words, path)[:3]


def inputs(room):
    path, given = (os.path.join(room, name) for name in ("inputs", "given"))
    done("a store for inputs", ["format", path, "450000"])
    longest_stream(given, INPUT)
    compare("the longest stream", from_file(["import", path, "t"], given), DONE)
    compare("the longest stream: its row", run(["tables", path]), (0, b"t 1\n", b""))
    longest_stream(given, INPUT + 1)
    compare("too long a stream", from_file(["import", path, "t"], given), (1, b"", b"refused S7 TooMany Bytes\n"))

    count = MEGABYTES // 1000
    offsets = b"".join((1000 * place).to_bytes(4, "little") for place in range(1001))
    batch = streams.arrays_batch(1000, [(0, b"", offsets, b"x" * 1_000_000)])
    put(given, TEXTS, batch * (count // 1000), streams.END)
    compare("a stream of 200 MB", from_file(["import", path, "t"], given), DONE)
    compare("a stream of 200 MB recoded", from_file(["recode"], given)[0::2], (0, b""))
    compare("a stream of 200 MB: all can be read", run(["check", path]), DONE)
    for form, first, line in (("csv", b"a\n", b"x" * 999 + b"\n"), ("jsonl", b"", b'{"a":"%s"}\n' % (b"x" * 991))):
        done(f"a table for 200 MB of {form}", ["import", path, "t"], TEXTS + streams.END)
        put(given, first, line * count)
        compare(f"200 MB of {form}", from_file(["append", path, "t", "--as", form], given), DONE)
        compare(f"200 MB of {form}: its rows", run(["tables", path]), (0, b"t %d\n" % count, b""))
        compare(f"200 MB of {form}: all can be read", run(["check", path]), DONE)
    os.remove(path)
    many_rows(room, given)


def many_rows(room, given):
    """Rows of a text into a dictionary are kept together until its end."""
    path, count = os.path.join(room, "many"), 1_000_001
    encoding = streams.Table((8, 0), streams.integer("int32"))
    named = streams.schema([streams.field("a", True, streams.UTF8, streams.Table(), encoding=encoding)])
    done("a store for many rows", ["format", path, "65536"])
    done("a table with a dictionary", ["import", path, "d"], named + streams.END)
    put(given, b"a\n", b"yes\nno\n" * (count // 2), b"yes\n")
    compare("over a million rows of CSV", from_file(["append", path, "d", "--as", "csv"], given), DONE)
    done("a table with a list", ["create", path, "n", "a:list<int32>"])
    put(given, b"[[7]]\n" * count)
    compare("over a million lines of JSON", from_file(["append", path, "n", "--as", "jsonl"], given), DONE)
    compare("over a million rows: the tables", run(["tables", path]), (0, b"d %d\nn %d\n" % (count, count), b""))
    compare("over a million rows: all can be read", run(["check", path]), DONE)


def names(room):
    path = os.path.join(room, "names")
    refused("a store of 15 sectors", ["format", path, "15"], "G2 BadSize")
    refused("a store of 4,194,305 sectors", ["format", path, "4194305"], "G2 BadSize")
    done("a store of 16 sectors", ["format", path, "16"])
    done("a name of 64 letters", ["create", path, 64 * "n", "a:int32"])
    refused("a name of 65 letters", ["create", path, 65 * "n", "a:int32"], "S3 BadName")
    compare("a name of 64 letters: the tables", run(["tables", path]), (0, b"n" * 64 + b" 0\n", b""))


def play(part):
    with tempfile.TemporaryDirectory(dir=disks.MEMORY) as room:
        part(room)


PARTS = {"tables": as_many_tables, "segments": as_many_segments, "memory": segments_in_memory, "weights": weights, "inputs": inputs, "names": names}
answers.play(*((name, play, part) for name, part in PARTS.items()))
used = sum(sum(resource.getrusage(who)[:2]) for who in (resource.RUSAGE_SELF, resource.RUSAGE_CHILDREN))
print(f"{used:.0f} seconds of processor time")
sys.exit(answers.tell("sizes"))
