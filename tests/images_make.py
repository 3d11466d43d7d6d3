#!/usr/bin/env python3
"""images_make.py PROGRAM: makes the stores of tests/images anew, by the commands of kept_stores.py. The ones in the repository were made by an earlier
program, for which a catalogue was one list at any size, so that later programs are seen to open them: a program that writes another format must not be
given."""
import argparse
import gzip
import os
import subprocess
import sys
import tempfile

sys.dont_write_bytecode = True
from kept_stores import SECTOR, STORES, after, after_all, command, laid_store

parser = argparse.ArgumentParser(description=__doc__, formatter_class=argparse.RawDescriptionHelpFormatter)
parser.add_argument("program", type=os.path.abspath)
PROGRAM = parser.parse_args().program
IMAGES = os.path.join(os.path.dirname(os.path.abspath(__file__)), "images")


def run(words, given=b""):
    subprocess.run([PROGRAM, *words], input=given, stdout=subprocess.DEVNULL, check=True, timeout=60)


def content(path):
    with open(path, "rb") as file:
        return file.read()


def put(path, content):
    with open(path, "wb") as file:
        file.write(content)


def without_commit(before, made):
    """What is left of a change whose commit was not written: of its two commit sectors the one that is not as before is."""
    return before[:2 * SECTOR] + made[2 * SECTOR:]


def image(path, store):
    laid, done = store.steps[:store.laid], store.steps[store.laid:]
    if laid:
        put(path, laid_store(store.sectors, laid))
    else:
        run(["format", path, str(store.sectors)])
    tables = after_all(laid)
    for step in done:
        run(*command(path, step, tables))
        tables = after(tables, step)
    made = content(path)
    if not store.stopped:
        return made
    run(*command(path, store.stopped, tables))
    return without_commit(made, content(path))


os.makedirs(IMAGES, exist_ok=True)
with tempfile.TemporaryDirectory() as room:
    for store in STORES:
        packed = gzip.compress(image(os.path.join(room, store.name), store), mtime=0)
        put(os.path.join(IMAGES, f"{store.name}.gz"), packed)
        print(f"{store.name}: {len(packed)} bytes")
