#!/usr/bin/env python3
"""store.py PROGRAM BENCH [--megabytes N] [--folder FOLDER]: times commands of a store on a file, beside the same work, and prints a table.

An import of a stream of one int32 column beside writing the same bytes with two data syncs (`dd`, then `sync --data`), each into a new file of the same
length, and over what such a run wrote; an append of as much; a command that need not read the table; an export beside `cat` of what was exported; the query
that keeps one row in a hundred beside `cat`, all of these in both versions of the format; a check, an append of a tenth, a query of texts that keeps few
rows and one that prints all, also as objects, of a table of integers and texts, beside `cat` of its stream; an append of ten columns with dictionaries and
indices of 16 bits beside one of as many rows and indices of 32 bits; an export of five times as much in pieces, by the program BENCH (crates/bench); a
small command, and the list, of a store of 1,000 tables, and how many calls the small command makes of the system; a compaction of a store of 1,000 tables,
each with ten appended segments of a row, beside its reads, writes, seeks and syncs by themselves (which play_calls.c makes again on a copy), and one of a
store that is compact. The times are those of the processor, in user and system code, the least of three runs; of a compaction, where syncs count, those
that passed in one run, and of an append one run. The files are in memory (/dev/shm), where there is such a folder, or in FOLDER. A benchmark: nothing is
compared with a limit."""
import os
import shutil
import subprocess
import sys
import tempfile
import time

sys.dont_write_bytecode = True
from measuring import CAT, RUNS, compiled, cost, least, parser_of, quiet, ratio, write_coded, write_integers, write_texts

TABLES = 1000
APPENDED = 10


def row(what, seconds, beside, plain):
    print(f"{what:28} {seconds * 1000:10.1f} ms   {beside:28} {plain * 1000:10.1f} ms   ratio {ratio(seconds, plain)}", flush=True)


def least_of_pairs(prepare, words, stream, between):
    """The least seconds of some runs into what was prepared anew, and of as many over what such a run left, and the most megabytes."""
    new, over = [], []
    for _ in range(RUNS):
        prepare()
        new.append(cost(words, stream))
        between()
        over.append(cost(words, stream))
    return min(new)[0], min(over)[0], max(peak for _, peak in new + over)


def of_much(program, room, megabytes, version):
    print(f"version {version}")
    stream, store, plain = (os.path.join(room, name) for name in ("stream", "store", "plain"))
    write_integers(stream, megabytes * 1_000_000, 100)
    size = os.path.getsize(stream)
    sectors = 3 * size // 512

    def new_file():
        with open(plain, "wb") as out:
            out.truncate(512 * sectors)

    def new_store():
        if os.path.exists(store):
            os.remove(store)
        quiet([program, "format", store, str(sectors), "--format-version", version])

    copying = [shutil.which("sh"), "-c", 'dd of="$0" bs=1M conv=notrunc,fdatasync status=none && sync --data "$0"', plain]
    writing, writing_over, _ = least_of_pairs(new_file, copying, stream, lambda: None)
    os.remove(plain)
    importing, importing_over, peak_of_import = least_of_pairs(
        new_store, [program, "import", store, "t"], stream, lambda: quiet([program, "drop", store, "t"]))
    row(f"import of {size / 1e6:.0f} MB", importing, "writing and two data syncs", writing)
    row("over what an import wrote", importing_over, "the same over what it wrote", writing_over)
    exporting, peak = least([program, "export", store, "t"])
    with open(stream, "wb") as out:
        subprocess.run([program, "export", store, "t"], stdout=out, check=True)
    row("export", exporting, "cat of what is exported", least([CAT], stream)[0])
    row("query of one condition", least([program, "query", store, "t", "a = 7"])[0], "cat of the stream", least([CAT], stream)[0])
    appending, peak_of_append = cost([program, "append", store, "t"], stream)
    row("append of as much", appending, "writing and two data syncs", writing)
    small = [program, "create", store, "small", "a:int32"]
    row("create beside the table", cost(small)[0], "a program that opens nothing", least([program, "--version"])[0])
    print(f"memory of the import {peak_of_import:.0f} MB, of the export {peak:.0f} MB, of the append {peak_of_append:.0f} MB")
    os.remove(store)


def of_texts(program, room, megabytes):
    stream, tenth, store = (os.path.join(room, name) for name in ("texts", "tenth", "store"))
    write_texts(stream, megabytes * 1_000_000, 1000)
    write_texts(tenth, megabytes * 100_000, 1000)
    quiet([program, "format", store, str(3 * os.path.getsize(stream) // 512), "--format-version", "1"])
    quiet([program, "import", store, "t"], stream)
    plain, query = least([CAT], stream)[0], [program, "query", store, "t"]
    row("check", least([program, "check", store])[0], "cat of the stream", plain)
    row("export", least([program, "export", store, "t"])[0], "cat of the stream", plain)
    row("query of a text, few rows", least([*query, 's = "text number 7"'])[0], "cat of the stream", plain)
    row("query that prints all rows", least(query)[0], "cat of the stream", plain)
    row("the same as objects", least([*query, "--objects"])[0], "cat of the stream", plain)
    appending, peak = cost([program, "append", store, "t"], tenth)
    row("append of a tenth", appending, "cat of the stream", plain)
    print(f"memory of the append {peak:.0f} MB")
    for path in (stream, tenth, store):
        os.remove(path)


def of_dictionaries(program, room, megabytes):
    """An append of as many rows as the table has, under indices of 16 bits and under those of 32."""
    stream, store = os.path.join(room, "coded"), os.path.join(room, "store")
    appending = []
    for kind, size in (("int16", megabytes), ("int32", 2 * megabytes)):
        write_coded(stream, size * 1_000_000, kind, 1000)
        quiet([program, "format", store, str(12 * os.path.getsize(stream) // 512), "--format-version", "1"])
        quiet([program, "import", store, "t"], stream)
        appending.append(cost([program, "append", store, "t"], stream)[0])
        os.remove(store)
    row("append under int16 indices", appending[0], "append under int32 indices", appending[1])
    os.remove(stream)


def of_pieces(program, bench, room, megabytes):
    stream, store = os.path.join(room, "stream"), os.path.join(room, "store")
    write_integers(stream, megabytes * 1_000_000, 100)
    size = os.path.getsize(stream)
    for version in ("1", "2"):
        if os.path.exists(store):
            os.remove(store)
        quiet([program, "format", store, str(2 * size // 512), "--format-version", version])
        quiet([program, "import", store, "t"], stream)
        seconds, peak = least([bench, "pieces", store, "t"])
        row(f"{size / 1e6:.0f} MB in pieces, version {version}", seconds, "cat of the stream", least([CAT], stream)[0])
        print(f"memory of the export in pieces {peak:.0f} MB")


def calls_of(words, room, **more):
    """How many calls read, write and seek, and how many sync."""
    counter, counted = compiled("count_calls", room, "-shared", "-fPIC"), os.path.join(room, "calls")
    cost(words, environment={**os.environ, "LD_PRELOAD": counter, "CALLS": counted, **more})
    with open(counted) as numbers:
        return [int(number) for number in numbers.read().split()]


def of_many_tables(program, room):
    store = os.path.join(room, "many")
    quiet([program, "format", store, "65536"])
    for number in range(TABLES):
        quiet([program, "create", store, f"t{number}", "a:int32?", "s:utf8"])
    row(f"list of {TABLES} tables", least([program, "tables", store])[0], "a program that opens nothing", least([program, "--version"])[0])
    changing = cost([program, "create", store, "one", "a:int32"])[0]
    calls, syncs = calls_of([program, "create", store, "more", "a:int32"], room)
    print(f"create beside them: {changing * 1000:.1f} ms, {calls} reads, writes and seeks, {syncs} syncs")


def of_compaction(program, room):
    store, copy, trace, row_of_one = (os.path.join(room, name) for name in ("pieces", "copy", "trace", "row"))
    with open(row_of_one, "w", encoding="ascii") as out:
        out.write("a\n1\n")
    quiet([program, "format", store, "65536"])
    for number in range(TABLES):
        quiet([program, "create", store, f"t{number}", "a:int32"])
    for number in range(TABLES * APPENDED):
        quiet([program, "append", store, f"t{number % TABLES}", "--as", "csv"], row_of_one)
    for kept in (copy, f"{copy}2"):
        shutil.copyfile(store, kept)
    calls, syncs = calls_of([program, "compact", copy], room, TRACE=trace)
    player = compiled("play_calls", room)
    began = time.perf_counter()
    compacting, peak = cost([program, "compact", store])
    between = time.perf_counter()
    cost([player, trace, f"{copy}2"])
    ended = time.perf_counter()
    row(f"compact of {TABLES} x {APPENDED} segments", between - began, "its calls by themselves", ended - between)
    again = [program, "compact", store]
    row("compact once more", least(again)[0], "a program that opens nothing", least([program, "--version"])[0])
    print(f"compact: {compacting:.1f} s of the processor, {calls} reads, writes and seeks, {syncs} syncs, {peak:.0f} MB; "
          f"once more: {calls_of(again, room)[0]} reads, writes and seeks")


def main():
    parser = parser_of(__doc__)
    parser.add_argument("bench", type=os.path.abspath, help="the program of crates/bench")
    parser.add_argument("--megabytes", type=int, default=100, help="how large the table is")
    parser.add_argument("--folder", default="/dev/shm" if os.path.isdir("/dev/shm") else None, help="where the files are, if not in memory")
    given = parser.parse_args()
    program, bench, megabytes = given.program, given.bench, given.megabytes
    with tempfile.TemporaryDirectory(dir=given.folder) as room:
        for version in ("1", "2"):
            of_much(program, room, megabytes, version)
        of_texts(program, room, megabytes)
        of_dictionaries(program, room, megabytes // 10)
        of_pieces(program, bench, room, 5 * megabytes)
        of_many_tables(program, room)
        of_compaction(program, room)


main()
