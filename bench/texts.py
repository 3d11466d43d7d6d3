#!/usr/bin/env python3
"""texts.py PROGRAM [WORD..] [--megabytes N] [--seed N]: times `append --as csv` and `--as jsonl` of texts of several shapes to an empty table, beside `cat`
on the same bytes and beside writing these bytes to a file with two data syncs, and prints a table. With words only the shapes whose names have one of
them are run.

The texts are drawn with a seed. The times are those of the processor, in user and system code, the least of three runs, each on a store of its own; peak is
the most memory that was resident, beside the text. A benchmark: nothing is compared with a limit."""
import datetime
import json
import os
import random
import shutil
import subprocess
import sys
import tempfile

sys.dont_write_bytecode = True
from measuring import CAT, RUNS, cost, is_chosen, least, parser_of, ratio

# After this many rows a text repeats itself.
ROWS = 1000
EPOCH = datetime.datetime(1970, 1, 1)

FLAT = ["a:int64", "b:int32?", "s:utf8"]
BYTES = ["a:int32", "b:binary?", "f:fixed_binary(8)", "n:null?"]
CODED = ["a:int32", "d:dict<int32,utf8>?", "e:dict<int32,binary>"]
DATED = ["a:int64", "d:date_day?", "t:timestamp_ms(UTC)"]
NESTED = ["a:int32", "l:list<int32?>?", "p:struct<x:int32?,s:utf8>?"]


def flat(pick):
    return pick.randrange(10**9), pick.randrange(10**5), f"text {pick.randrange(1000)}"


def quoted(pick):
    """The same, with a text that has a comma and quotation marks, and one time in ten a line end."""
    number, b, _ = flat(pick)
    return number, b, f'"text ""{pick.randrange(1000)}"", quoted{some(pick, "") is None and chr(10) or ""}"'


def some(pick, value):
    """A value, or a null one time in ten."""
    return None if pick.randrange(10) == 0 else value


def of_bytes(pick):
    return pick.randrange(10**6), some(pick, pick.randbytes(pick.randrange(24)).hex()), pick.randbytes(8).hex(), None


def coded(pick):
    return pick.randrange(10**6), some(pick, f"entry {pick.randrange(100)}"), f"{pick.randrange(50):08x}"


def dated(pick):
    """An integer, and a date and a timestamp as people write them."""
    day, time = datetime.timedelta(pick.randrange(25_000)), datetime.timedelta(milliseconds=pick.randrange(2 * 10**12))
    return pick.randrange(10**9), (EPOCH + day).isoformat()[:10], (EPOCH + time).isoformat(timespec="milliseconds") + "Z"


def nested(pick):
    items = [some(pick, pick.randrange(10**5)) for _ in range(pick.randrange(6))]
    return pick.randrange(10**6), some(pick, items), some(pick, {"x": some(pick, pick.randrange(100)), "s": f"text {pick.randrange(1000)}"})


def names(fields):
    return [field.split(":")[0] for field in fields]


def line(value):
    return json.dumps(value, separators=(",", ":")) + "\n"


def record(row):
    return ",".join("" if value is None else str(value) for value in row) + "\n"


# What a text is called, its form, its fields, and what makes a row.
SHAPES = [
    ("csv", "csv", FLAT, flat),
    ("csv quoted", "csv", FLAT, quoted),
    ("csv bytes", "csv", BYTES, of_bytes),
    ("csv coded", "csv", CODED, coded),
    ("csv dates", "csv", DATED, dated),
    ("jsonl", "jsonl", FLAT, flat),
    ("jsonl arrays", "arrays", FLAT, flat),
    ("jsonl bytes", "jsonl", BYTES, of_bytes),
    ("jsonl coded", "jsonl", CODED, coded),
    ("jsonl dates", "jsonl", DATED, dated),
    ("jsonl nested", "jsonl", NESTED, nested),
]


def text_of(form, fields, rows):
    if form == "csv":
        return "".join(map(record, rows))
    if form == "arrays":
        return "".join(line(list(row)) for row in rows)
    return "".join(line(dict(zip(names(fields), row))) for row in rows)


def write(path, form, fields, make, size, seed):
    """Writes rows of about this many bytes, the same ones again and again. What this process ever held counts as memory of the programs that it starts,
    so that they are not put together first."""
    pick = random.Random(seed)
    rows = text_of(form, fields, [make(pick) for _ in range(ROWS)]).encode()
    with open(path, "wb") as out:
        out.write((",".join(names(fields)) + "\n").encode() if form == "csv" else b"")
        for _ in range(size // len(rows)):
            out.write(rows)


def append(program, store, form, fields, path, size):
    """What one append to an empty table costs, whose store has room for four times the bytes and computes no digests."""
    for words in (["format", store, str(size * 4 // 512), "--format-version", "1"], ["create", store, "t", *fields]):
        subprocess.run([program, *words], stdout=subprocess.DEVNULL, check=True)
    dates = ["--dates", "iso"] if fields is DATED else []
    try:
        return cost([program, "append", store, "t", "--as", "csv" if form == "csv" else "jsonl", *dates], path)
    finally:
        os.remove(store)


def written(path, plain_file):
    """What writing these bytes to a new file with two data syncs costs."""
    copying = 'dd of="$0" bs=1M conv=fdatasync status=none && sync --data "$0"'
    try:
        return cost([shutil.which("sh"), "-c", copying, plain_file], path)[0]
    finally:
        os.remove(plain_file)


def main():
    parser = parser_of(__doc__, has_shapes=True)
    parser.add_argument("--megabytes", type=int, default=100, help="how large the texts are")
    parser.add_argument("--seed", type=int, default=1, help="what is in the texts")
    given = parser.parse_intermixed_args()
    program, size, seed = given.program, given.megabytes * 1_000_000, given.seed
    print(f"{'text':>13} {'MB':>6} {'s':>8} {'cat s':>8} {'x cat':>7} {'write s':>8} {'x write':>8} {'peak MB':>8}")
    with tempfile.TemporaryDirectory() as room:
        path, store, plain_file = (os.path.join(room, name) for name in ("text", "store", "plain"))
        for name, form, fields, make in SHAPES:
            if not is_chosen(name, given.words):
                continue
            write(path, form, fields, make, size, seed)
            runs = [append(program, store, form, fields, path, size) for _ in range(RUNS)]
            seconds, peak = min(run[0] for run in runs), max(run[1] for run in runs)
            plain, writing = least([CAT], path)[0], min(written(path, plain_file) for _ in range(RUNS))
            print(f"{name:>13} {os.path.getsize(path) / 1e6:6.1f} {seconds:8.3f} {plain:8.3f} {ratio(seconds, plain):>7} "
                  f"{writing:8.3f} {ratio(seconds, writing):>8} {peak:8.1f}", flush=True)


main()
