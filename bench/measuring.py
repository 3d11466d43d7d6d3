"""What the benchmarks share: the cost of a run, and the streams that several of them measure."""
import argparse
import importlib.machinery
import importlib.util
import os
import random
import shutil
import struct
import subprocess
import sys

sys.path.insert(0, os.path.join(os.path.dirname(os.path.abspath(__file__)), "..", "tests"))
import streams

RUNS = 3
ROWS_IN_BATCH = 65536
CAT = shutil.which("cat")
HERE = os.path.dirname(os.path.abspath(__file__))


def script(name):
    """Another benchmark, for its shapes."""
    loader = importlib.machinery.SourceFileLoader(f"bench_{name}", os.path.join(HERE, f"{name}.py"))
    made = importlib.util.module_from_spec(importlib.util.spec_from_loader(loader.name, loader))
    loader.exec_module(made)
    return made


def compiled(name, room, *flags):
    """A C program of this folder."""
    made = os.path.join(room, name)
    subprocess.run(["gcc", "-O2", *flags, "-o", made, os.path.join(HERE, f"{name}.c"), "-ldl"], check=True)
    return made


def quiet(words, given=None):
    """Runs a program that is not measured."""
    with open(given or os.devnull, "rb") as source:
        subprocess.run(words, stdin=source, stdout=subprocess.DEVNULL, check=True)


def parser_of(about, has_shapes=False):
    """The arguments that every benchmark takes."""
    parser = argparse.ArgumentParser(description=about, formatter_class=argparse.RawDescriptionHelpFormatter)
    parser.add_argument("program", type=os.path.abspath, help="the program that is measured")
    if has_shapes:
        parser.add_argument("words", nargs="*", metavar="WORD", help="only the shapes whose names have one of these; all, if none is given")
    return parser


def is_chosen(name, words):
    return not words or any(word in name for word in words)


def cost(words, path=os.devnull, environment=None):
    """Seconds of the processor, in user and system code, and peak megabytes of one run, which writes to a file in memory."""
    with open(path, "rb") as given, open(os.memfd_create("output"), "wb") as taken:
        child = os.posix_spawn(words[0], words, environment or os.environ, file_actions=[
            (os.POSIX_SPAWN_DUP2, given.fileno(), 0), (os.POSIX_SPAWN_DUP2, taken.fileno(), 1)])
    _, status, used = os.wait4(child, 0)
    if status:
        sys.exit(f"{' '.join(words)} ended with {os.waitstatus_to_exitcode(status)}")
    return used.ru_utime + used.ru_stime, used.ru_maxrss / 1024


def least(words, path=os.devnull):
    """The least seconds of some runs, and the most megabytes."""
    runs = [cost(words, path) for _ in range(RUNS)]
    return min(seconds for seconds, _ in runs), max(peak for _, peak in runs)


def ratio(seconds, plain):
    return f"{seconds / plain:.1f}" if plain else "-"


def write_again(path, size, fields, batch, first=b""):
    """Writes a record batch again and again, up to about this many bytes, and before it the first messages. Batch by batch: what this process ever held
    counts as memory of the programs that it starts."""
    with open(path, "wb") as out:
        out.write(streams.schema(fields))
        out.write(first)
        for _ in range(size // len(batch)):
            out.write(batch)
        out.write(streams.END)


def write_integers(path, size, most):
    """Writes about this many bytes of a stream of one int32 column, of numbers below a limit."""
    pick = random.Random(1)
    values = b"".join(pick.randrange(most).to_bytes(4, "little") for _ in range(ROWS_IN_BATCH))
    write_again(path, size, [streams.field("a", False, 2, streams.integer("int32"))], streams.record_batch(ROWS_IN_BATCH, [values]))


def write_texts(path, size, count):
    """Writes about this many bytes of a stream of an int32 column `a` and a column `s` of this many different texts."""
    pick = random.Random(1)
    texts = [f"text number {pick.randrange(count)}".encode() for _ in range(ROWS_IN_BATCH)]
    ends = [0]
    for text in texts:
        ends.append(ends[-1] + len(text))
    buffers = [b"", pick.randbytes(4 * ROWS_IN_BATCH), b"", struct.pack(f"<{ROWS_IN_BATCH + 1}i", *ends), b"".join(texts)]
    fields = [streams.field("a", False, 2, streams.integer("int32")), streams.field("s", False, 5, streams.Table())]
    write_again(path, size, fields, streams.rows(ROWS_IN_BATCH, [(ROWS_IN_BATCH, 0)] * 2, buffers))


def write_coded(path, size, kind, count):
    """Writes about this many bytes of a stream of ten columns of texts with a dictionary of this many, whose indices are of this type."""
    pick = random.Random(1)
    texts = [f"text number {number}".encode() for number in range(count)]
    ends = [0]
    for text in texts:
        ends.append(ends[-1] + len(text))
    fields = [streams.field(f"c{place}", False, 5, streams.Table(), (), streams.Table((8, place), streams.integer(kind))) for place in range(10)]
    first = b"".join(streams.entries(place, count, [(count, 0)], [b"", struct.pack(f"<{count + 1}i", *ends), b"".join(texts)]) for place in range(10))
    indices = [streams.numbers(kind, [pick.randrange(count) for _ in range(ROWS_IN_BATCH)]) for _ in fields]
    write_again(path, size, fields, streams.record_batch(ROWS_IN_BATCH, indices), first)
