#!/usr/bin/env python3
"""failing_writes.py PROGRAM: runs each command that prints, with reads and writes that move few bytes, and with each of these writes failed in turn. If a write
failed, the command must be refused, and have written what came before; a write that a signal interrupted must be repeated. Then with a standard error that
can't be written. Then `format` and `copy`, with each write, each sync and each change of the length of their files failed in turn: they must be refused, leave
no file, and be done when they are tried again. Last an import and a script, which must leave a store that can be read and whose commit sectors agree.
Prints each difference, and last 'N passed, M failed'."""
import errno
import os
import subprocess
import sys
import tempfile

sys.dont_write_bytecode = True
import archive_model
import refusals
import streams
from running import Answers, name_from

answers = Answers.of_arguments(__doc__)
STREAM = streams.stream([("a", "int32", False)], [[[7, -1]]])
DONE = 0, b"ok\n", b""
LINE = b"refused G1 Io\n"


def archive():
    """Of a table of two segments."""
    parts = [STREAM, streams.stream([("a", "int32", False)], [[[5]]])]
    segments = [archive_model.Segment(archive_model.digest_of(it), len(it), count) for it, count in zip(parts, (2, 1))]
    return archive_model.archive_of(1, [archive_model.Listed("v", streams.stream([("a", "int32", False)], []), ["a:int32"], segments)], parts)


def commands(store):
    """The words and the input of each command that prints."""
    yield ["recode"], STREAM
    yield from (([word, store, "t"], b"") for word in ("export", "query", "schema"))
    yield from (([word, store], b"") for word in ("tables", "check", "info", "have"))
    yield from ((words, b"") for words in (["--help"], ["help"], ["query", "--help"], ["help", "refusals"], ["--version"]))


def sweep(words, given):
    """Some writes in the midst of an output are alike, so each takes a fifth of it."""
    command = [answers.program, *words]
    wanted = answers.run(words, given)
    answers.compare(f"{words}, undisturbed", (wanted[0], wanted[1] != b"", wanted[2]), (0, True, b""))
    most = (len(wanted[1]) + 4) // 5
    for few in (1, 3, 7, 100, most):
        answers.compare(f"{words}, {few} bytes at once", refusals.in_pieces(command, given, few), wanted)
    for error, name in ((errno.EIO, "failed"), (errno.EINTR, "interrupted"), (0, "taking nothing")):
        _, runs = refusals.each_write_failed(command, given, error, most)
        answers.compare(f"{words}: the number of writes", len(runs) >= 3, True)
        for number, run in enumerate(runs):
            before = wanted[1][:most * number]
            answers.compare(f"{words}, write {number} {name}", run, wanted if error == errno.EINTR else (1, before, LINE))


def a_new_store(path):
    """Its file gets its length, and is synced with its name, before the store is written: three syncs more, and sectors 0, 2 and 1."""
    command = [answers.program, "format", path, "64"]
    for error in (errno.EIO, errno.ENOSPC):
        undisturbed, runs = refusals.each_change_failed(command, b"", error, refusals.of_a_new_file(path))
        left, again = undisturbed[3]
        answers.compare("format, undisturbed", (undisturbed[:3], len(left), again), (DONE, 64 * 512, (1, b"", LINE)))
        lines = [LINE] * 3 + [b"refused C4 Device\n"] * 6
        answers.compare("format: the number of changes", len(runs), len(lines))
        for number, (run, line) in enumerate(zip(runs, lines), 1):
            answers.compare(f"format, change {number} failed", run, (1, b"", line, (None, DONE)))


def an_archive(store):
    """It is written in parts, of which the first ones may be there if one fails."""
    command, (_, whole, _) = [answers.program, "send", store], answers.run(["send", store])
    for few in (1, 100, 513):
        answers.compare(f"send, {few} bytes at once", refusals.in_pieces(command, b"", few), (0, whole, b""))
    for error, name in ((errno.EIO, "failed"), (errno.EINTR, "interrupted"), (0, "taking nothing")):
        undisturbed, runs = refusals.each_write_failed(command, b"", error, 200)
        answers.compare("send, undisturbed", undisturbed, (0, whole, b""))
        answers.compare("send: the number of writes", len(runs) > 4, True)
        for number, (status, written, said) in enumerate(runs):
            is_front = whole.startswith(written) and len(written) < len(whole)
            got = (status, written, said) if error == errno.EINTR else (status, is_front, said)
            answers.compare(f"send, write {number} {name}", got, (0, whole, b"") if error == errno.EINTR else (1, True, LINE))


def a_compaction(store):
    """The word, the number and the end of its line are written one after another. The compaction is done all the same."""
    command = [answers.program, "compact", store]
    undisturbed, runs = refusals.each_write_failed(command, b"", errno.EIO, 100, refusals.on_a_copy(store))
    answers.compare("compact, undisturbed", undisturbed[:3], (0, b"steps 1\n", b""))
    answers.compare("compact: the number of writes", len(runs), 3)
    for number, (run, before) in enumerate(zip(runs, (b"", b"steps ", b"steps 1")), 1):
        answers.compare(f"compact, write {number} failed", run, (1, before, LINE, undisturbed[3]))


def a_salvage(store):
    """A write for the schema, one for each segment that can be read, and one for the end. Where one fails some of the stream may be written."""
    made = refusals.content(store)
    place = next(place for place in range(1024, len(made), 512) if made[place:place + 8] == STREAM[:8])
    with open(store, "wb") as file:
        file.write(made[:place] + bytes(1) + made[place + 1:])
    command, before = [answers.program, "salvage", store, "t"], refusals.content(store)
    for error, name in ((errno.EIO, "failed"), (errno.EINTR, "interrupted"), (0, "taking nothing")):
        undisturbed, runs = refusals.each_write_failed(command, b"", error, 50, refusals.on_a_copy(store))
        status, stream, said, left = undisturbed
        answers.compare("salvage, undisturbed", (status, said.count(b"left out segment "), left), (1, 1, before))
        answers.compare("salvage: the number of writes", len(runs) > 4, True)
        for number, run in enumerate(runs):
            part = stream[:len(run[1])]
            answers.compare(f"salvage, write {number} {name}", run, undisturbed if error == errno.EINTR else (1, part, LINE, before))
            answers.compare(f"salvage, write {number} {name}: whether all was written", run[1] == stream, error == errno.EINTR)
    unsaid(command[1:], 1, stream)
    with open(store, "wb") as file:
        file.write(made)


def a_change(store, path, word, rest, given):
    """Each write and sync of a change failed: what is left of the store can be read, and its commit sectors agree. The tables are those before or after it."""
    before = answers.run(["tables", store])
    undisturbed, runs = refusals.each_change_failed([answers.program, word, store, *rest], given, errno.EIO, refusals.on_a_copy(store))
    answers.compare(f"{word}, undisturbed", undisturbed[:3], DONE)
    answers.compare(f"{word}: whether there are several writes and syncs", len(runs) > 4, True)
    for number, run in enumerate([undisturbed, *runs]):
        with open(path, "wb") as file:
            file.write(run[3])
        answers.compare(f"{word}, write or sync {number} failed: what is left", answers.run(["check", path]), DONE)
        told = answers.run(["info", path])[1].splitlines()[-2:]
        answers.compare(f"{word}, write or sync {number} failed: its commits", told, [b"commits_agree true", b"device file"])
        found = answers.run(["tables", path])
        after = found if number == 0 else after
        answers.compare(f"{word}, write or sync {number} failed: its tables", found in (before, after), True)


def a_copy(store, path):
    """The sync of the store, and each change of the new file, which is made, gets a byte more, is formatted and filled, and loses that byte: where one fails
    the copy is refused, no file is left, and it is done when it is tried again."""
    command = [answers.program, "copy", store, path, "64"]
    undisturbed, runs = refusals.each_change_failed(command, b"", errno.EIO, refusals.of_a_new_file(path))
    answers.compare("copy, undisturbed", (undisturbed[:3], len(undisturbed[3][0])), (DONE, 64 * 512))
    lines = [b"refused C4 Device\n"] + [LINE] * 5 + [b"refused C4 Device\n"] * 6 + [b"refused S9 Device\n"] * 4 + [LINE] * 2
    answers.compare("copy: the number of changes", len(runs), len(lines))
    for number, (run, line) in enumerate(zip(runs, lines), 1):
        answers.compare(f"copy, change {number} failed", run, (1, b"", line, (None, DONE)))


def unsaid(words, status, written=b""):
    """The status and what is written are the same where nothing can be said."""
    with open("/dev/full", "wb") as full:
        done = subprocess.run([answers.program, *words], input=b"", stdout=subprocess.PIPE, stderr=full, timeout=60)
    answers.compare(f"{words} with no room on standard error", (done.returncode, done.stdout), (status, written))


def all_unsaid(runs):
    for words, status in runs:
        unsaid(words, status)


with tempfile.TemporaryDirectory() as room:
    store = os.path.join(room, "store")
    answers.compare("format", answers.run(["format", store, "64"]), DONE)
    answers.compare("a table", answers.run(["import", store, "t"], STREAM), DONE)
    printing = [(name_from(*(word for word in words if word != store)), sweep, words, given) for words, given in commands(store)]
    without_room = (["recode"], 1), ([], 2), (["recode", "now"], 2), (["tables", store + "s"], 1), (["create", store, "t"], 1)
    left, script = os.path.join(room, "left"), b"create u a:int32\nsave t kept\ndrop t\nrename kept v\n"
    answers.play(
        *printing, ("unsaid", all_unsaid, without_room), (an_archive, store), (a_new_store, os.path.join(room, "new")), (a_salvage, store),
        (a_compaction, store), ("an_import", a_change, store, left, "import", ["u"], STREAM),
        ("a_receive", a_change, store, left, "receive", ["--delete"], archive()), ("an_apply", a_change, store, left, "apply", ["-"], script),
        (a_copy, store, os.path.join(room, "copy")),
    )
sys.exit(answers.tell("failing writes"))
