#!/usr/bin/env python3
"""archives.py PROGRAM [--megabytes N]: times `send` and `receive`, and prints a table.

Of a table of integers and texts, 100 MB: an archive of all of it beside an `export`, and its receiving into an empty store beside an `import`; then, when one
row was appended, `have`, `send` of what is lacked, and its receiving. The times are those of the processor, in user and system code, the least of three runs,
with files in memory (/dev/shm), where there is such a folder. A benchmark: nothing is compared with a limit."""
import os
import random
import subprocess
import sys
import tempfile

sys.dont_write_bytecode = True
from measuring import RUNS, cost, least, parser_of, ratio

ROWS_IN_A_MEGABYTE = 35000


def row(what, seconds, beside="", plain=0):
    compared = f"   {beside:8} {plain * 1000:8.1f} ms   ratio {ratio(seconds, plain)}" if beside else ""
    print(f"{what:32} {seconds * 1000:8.1f} ms{compared}", flush=True)


def write_output(words, path, given=os.devnull):
    with open(path, "wb") as taken, open(given, "rb") as source:
        subprocess.run(words, stdin=source, stdout=taken, check=True)


def write_rows(path, count):
    """No two segments of these rows are the same."""
    pick = random.Random(1)
    with open(path, "w", encoding="utf-8") as rows:
        rows.write("a,b,s\n")
        for number in range(count):
            rows.write(f"{number},{pick.randrange(10 ** 9)},text {number % 1000}\n")


def main(program, room, megabytes):
    stream, archive, digests, one, store, other = (os.path.join(room, name) for name in ("stream", "archive", "digests", "one", "store", "other"))
    sectors = str(3 * megabytes * 1_000_000 // 512)

    def made_anew(path):
        if os.path.exists(path):
            os.remove(path)
        write_output([program, "format", path, sectors], os.devnull)

    def least_into_new(words, given):
        seconds = []
        for _ in range(RUNS):
            made_anew(other)
            seconds.append(cost(words, given)[0])
        return min(seconds)

    made_anew(store)
    write_rows(one, megabytes * ROWS_IN_A_MEGABYTE)
    write_output([program, "create", store, "t", "a:int64", "b:int64", "s:utf8"], os.devnull)
    write_output([program, "append", store, "t", "--as", "csv"], os.devnull, one)
    write_output([program, "export", store, "t"], stream)
    write_output([program, "send", store], archive)
    row("send of all", least([program, "send", store])[0], "export", least([program, "export", store, "t"])[0])
    row("receive of all", least_into_new([program, "receive", other], archive), "import", least_into_new([program, "import", other, "t"], stream))
    made_anew(other)
    write_output([program, "receive", other], os.devnull, archive)
    with open(one, "w", encoding="utf-8") as rows:
        rows.write('[1,2,"x"]\n')
    write_output([program, "append", store, "t", "--as", "jsonl"], os.devnull, one)
    row("have", least([program, "have", other])[0])
    write_output([program, "have", other], digests)
    row("send of one appended row", least([program, "send", store, "--have", digests])[0])
    write_output([program, "send", store, "--have", digests], archive)
    row(f"receive of it ({os.path.getsize(archive)} bytes)", cost([program, "receive", other], archive)[0])


if __name__ == "__main__":
    parser = parser_of(__doc__)
    parser.add_argument("--megabytes", type=int, default=100, help="how large the table is")
    given = parser.parse_args()
    with tempfile.TemporaryDirectory(dir="/dev/shm" if os.path.isdir("/dev/shm") else None) as folder:
        main(given.program, folder, given.megabytes)
