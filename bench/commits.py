#!/usr/bin/env python3
"""commits.py PROGRAM [--folder FOLDER] [--number N]: times commits of one row, each by a process of its own, beside the same in SQLite
and LMDB, and prints a table.

The program appends the row with `append --as jsonl`. SQLite inserts it with the program `sqlite3`, with a rollback journal and with a write-ahead log, both
with synchronous=FULL; LMDB puts it with bench/lmdb_commit.c, which opens the environment for each. NUMBER commits (100) are made by each in turn, three times;
the least time that passed is printed, for one commit, and how many syncs it makes. A file system in memory makes no syncs: FOLDER (here) is to be on a disk.
Without sqlite3 or the header of LMDB its row is left out. A benchmark: nothing is compared with a limit."""
import os
import shutil
import subprocess
import sys
import tempfile
import time

sys.dont_write_bytecode = True
from measuring import RUNS, parser_of

HERE = os.path.dirname(os.path.abspath(__file__))
SQLITE = shutil.which("sqlite3")


def quiet(words, given=b"", **more):
    """Runs a program. Its input is a file: for a pipe the program opens its store twice."""
    with tempfile.TemporaryFile() as file:
        file.write(given)
        file.seek(0)
        return subprocess.run(words, stdin=file, stdout=subprocess.DEVNULL, check=True, **more)


def built(source, room, *flags):
    """A program of one C file, or None where that can't be built here."""
    made = os.path.join(room, source.removesuffix(".c"))
    done = subprocess.run(["gcc", "-O2", "-o", made, os.path.join(HERE, source), *flags], stderr=subprocess.DEVNULL, check=False)
    return None if done.returncode else made


def with_store(program, room):
    store = os.path.join(room, "store")
    quiet([program, "format", store, "16384"])
    quiet([program, "create", store, "t", "a:int64"])
    return [program, "append", store, "t", "--as", "jsonl"], b"[1]\n"


def with_sqlite(room, journal):
    base = os.path.join(room, "base")
    quiet([SQLITE, base], f"PRAGMA journal_mode={journal}; CREATE TABLE t (a INTEGER);".encode())
    return [SQLITE, base], b"PRAGMA synchronous=FULL; INSERT INTO t VALUES (1);"


def with_lmdb(program, room):
    return [program, os.path.join(room, "environment")], b""


def contenders(program, room):
    """By name, what makes the words and the input of a commit in a new folder."""
    yield "arrowstore", lambda folder: with_store(program, folder)
    if SQLITE:
        yield "SQLite, rollback journal", lambda folder: with_sqlite(folder, "DELETE")
        yield "SQLite, write-ahead log", lambda folder: with_sqlite(folder, "WAL")
    lmdb = built("lmdb_commit.c", room, "-llmdb")
    if lmdb:
        yield "LMDB", lambda folder: with_lmdb(lmdb, folder)


def syncs_of(words, given, room, counter):
    counted = os.path.join(room, "calls")
    quiet(words, given, env={**os.environ, "LD_PRELOAD": counter, "CALLS": counted})
    with open(counted, encoding="ascii") as numbers:
        return int(numbers.read().split()[1])


def seconds_of(make, room, number):
    with tempfile.TemporaryDirectory(dir=room) as folder:
        words, given = make(folder)
        quiet(words, given)
        began = time.perf_counter()
        for _ in range(number):
            quiet(words, given)
        return (time.perf_counter() - began) / number


def main():
    parser = parser_of(__doc__)
    parser.add_argument("--folder", default=".", help="a folder on a disk")
    parser.add_argument("--number", type=int, default=100, help="how many commits are made in turn")
    given = parser.parse_args()
    program, number = given.program, given.number
    with tempfile.TemporaryDirectory(dir=given.folder) as room:
        room = os.path.abspath(room)
        counter = built("count_calls.c", room, "-shared", "-fPIC", "-ldl")
        made = dict(contenders(program, room))
        times = {name: min(seconds_of(make, room, number) for _ in range(RUNS)) for name, make in made.items()}
        for name, make in made.items():
            with tempfile.TemporaryDirectory(dir=room) as folder:
                words, given = make(folder)
                quiet(words, given)
                syncs = syncs_of(words, given, folder, counter)
            print(f"{name:28} {times[name] * 1000:8.2f} ms a commit   {syncs} syncs", flush=True)


main()
