#!/usr/bin/env python3
"""failing_reads.py PROGRAM: runs each command that reads its input with each of these reads failed in turn; if it has a store, on a fresh copy of it. The
command must be refused, write nothing and leave the store as it was. A read that a signal interrupted must be repeated. The same is done for each command on
a store whose file returns nothing from some read on; there `salvage` and `send` may have written the first part of their output.
Prints each difference, and last 'N passed, M failed'."""
import errno
import os
import shutil
import sys
import tempfile

sys.dont_write_bytecode = True
import archive_model
import refusals
import streams
from running import Answers, name_from

answers = Answers.of_arguments(__doc__)
NUMBERS = list(range(50000))
ROWS = streams.stream([("a", "int32", False)], [[NUMBERS]])
CUT = streams.stream([("a", "int32", False)], [[NUMBERS[start:start + 4096]] for start in range(0, 50000, 4096)])
DONE = 0, b"ok\n", b""
REFUSED = 1, b"", b"refused G1 Io\n"


def archive():
    """Of the table t, with these rows in segments."""
    parts = [streams.stream([("a", "int32", False)], [[NUMBERS[start:start + 4096]]]) for start in range(0, 50000, 4096)]
    segments = [archive_model.Segment(archive_model.digest_of(it), len(it), min(4096, 50000 - 4096 * place)) for place, it in enumerate(parts)]
    table = archive_model.Listed("t", streams.stream([("a", "int32", False)], []), ["a:int32"], segments)
    return archive_model.archive_of(1, [table], parts)


def commands(store):
    """Of more bytes than a read gives: the words, the input, and the answer undisturbed."""
    lines = [b"%d\n" % number for number in NUMBERS]
    yield ["recode"], ROWS, (0, CUT, b"")
    yield ["import", store, "u"], ROWS, DONE
    yield ["append", store, "t"], ROWS, DONE
    yield ["append", store, "t", "--as", "csv"], b"a\n" + b"".join(lines), DONE
    yield ["append", store, "t", "--as", "jsonl"], b"".join(b"[%s]\n" % line[:-1] for line in lines), DONE
    yield ["apply", store, "-"], b"create u a:int32\n" + b"rename t x\nrename x t\n" * 12000, DONE
    yield ["receive", store], archive(), DONE
    yield ["send", store, "--have", "-"], (b"0123456789abcdef" * 4 + b"\n") * 4000, (0, answers.run(["send", store])[1], b"")


def sweep(store, words, given, wanted):
    before, answer = refusals.content(store), refusals.on_a_copy(store)
    command = [answers.program, *words]
    for error, name in ((errno.EIO, "failed"), (errno.EINTR, "interrupted")):
        undisturbed, runs = refusals.each_read_failed(command, given, error, answer)
        answers.compare(f"{words}, undisturbed", undisturbed[:3], wanted)
        answers.compare(f"{words}: whether there are several reads", len(runs) > 3, True)
        for number, run in enumerate(runs, 1):
            answers.compare(f"{words}, read {number} {name}", run, (*REFUSED, before) if error == errno.EIO else undisturbed)


def name_of_command(words, store):
    return name_from(*(word for word in words if word != store))


def on_a_store(store):
    """Commands that read the store, and what each is given."""
    for words in (["tables"], ["schema", "t"], ["query", "t", "a < 10"], ["export", "t"], ["salvage", "t"], ["check"], ["info"], ["have"], ["send"]):
        yield [words[0], store, *words[1:]], b""
    for words in (["create", "u", "a:int32"], ["drop", "t"], ["rename", "t", "u"], ["compact"], ["upgrade"]):
        yield [words[0], store, *words[1:]], b""
    yield ["append", store, "t"], ROWS
    yield ["receive", store, "--delete"], archive()
    yield ["apply", store, "-"], b'create u a:int32\nsave t kept "a < 10"\ndrop t\nrename kept t\n'


def a_store_is_gone(store, words, given):
    before = refusals.content(store)
    undisturbed, runs = refusals.each_file_read_failed([answers.program, *words], given, errno.EIO, refusals.on_a_copy(store))
    answers.compare(f"{words}, undisturbed", (undisturbed[0], undisturbed[2]), (0, b""))
    answers.compare(f"{words}: whether the file is read", len(runs) > 1, True)
    for number, (status, output, said, left) in enumerate(runs, 1):
        at = f"{words}, from read {number} of the file on"
        answers.compare(at, (status, said in (b"refused C4 Device\n", b"refused S9 Device\n"), left == before), (1, True, True))
        is_front = len(output) < len(undisturbed[1]) and undisturbed[1].startswith(output)
        answers.compare(f"{at}: what is written", is_front if words[0] in ("salvage", "send") else output == b"", True)


with tempfile.TemporaryDirectory() as room:
    store = os.path.join(room, "store")
    answers.compare("format", answers.run(["format", store, "2048"]), DONE)
    answers.compare("a table", answers.run(["create", store, "t", "a:int32"]), DONE)
    long = shutil.copy(store, os.path.join(room, "long"))
    for _ in range(3):
        answers.compare("more rows", answers.run(["append", long, "t"], ROWS), DONE)
    reads = [(name_of_command(case[0], store), sweep, store, *case) for case in commands(store)]
    answers.play(*reads, *((f"store-{name_of_command(case[0], long)}", a_store_is_gone, long, *case) for case in on_a_store(long)))
sys.exit(answers.tell("failing reads"))
