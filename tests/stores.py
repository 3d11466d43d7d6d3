#!/usr/bin/env python3
"""stores.py PROGRAM: the commands of a store, on real files. Prints each difference, and last 'N passed, M failed'."""
import fcntl
import hashlib
import json
import os
import random
import resource
import shutil
import subprocess
import sys
import tempfile
import time
from concurrent.futures import ThreadPoolExecutor

sys.dont_write_bytecode = True
import streams
from running import Answers
from worked import encoding

answers = Answers.of_arguments(__doc__)
compare, run = answers.compare, answers.run
# The smallest store: no commit in sector 0, the first one in sector 1, and the catalogue of no tables in sector 2.
SECTORS = 16


DONE = (0, b"ok\n", b"")
COLUMN = [("a", "int32", False)]
NONE = streams.Table()
ROWS = streams.stream(COLUMN, [[[7, -1]]])


def refused(what, words, line, given=b""):
    compare(what, run(words, given), (1, b"", f"refused {line}\n".encode()))


def put(path, content):
    with open(path, "wb") as file:
        file.write(content)


def content(path):
    with open(path, "rb") as file:
        return file.read()


def numbers(path):
    """What `info` prints of a store, its numbers, whether its commit sectors agree and what it is on, which is the same as lines and as JSON."""
    status, lines, said = run(["info", path])
    named = dict(line.split(" ") for line in lines.decode().splitlines())
    printed = {name: value if name == "device" else json.loads(value) for name, value in named.items()}
    compare("info as JSON", run(["info", path, "--json"]), (status, json.dumps(printed, separators=(",", ":")).encode() + b"\n", said))
    compare("the sectors of info", printed["used"] + printed["free"] + printed["kept"], printed["sectors"])
    return printed


def an_empty_store(path):
    compare("format", run(["format", path, str(SECTORS)]), (0, b"ok\n", b""))
    made = content(path)
    compare("its length", len(made), SECTORS * 512)
    compare("sector 0, and all from the catalogue on", made[:512] + made[1024:], bytes((SECTORS - 1) * 512))
    compare("tables of an empty store", run(["tables", path]), (0, b"", b""))
    compare("check of an empty store", run(["check", path]), DONE)
    compare("an empty store in numbers", list(numbers(path).items()), [
        ("format_version", 2), ("epoch", 1), ("sectors", SECTORS), ("used", 3), ("free", SECTORS - 3), ("kept", 0), ("largest_free_run", SECTORS - 3), ("tables", 0), ("segments", 0),
        ("commits_agree", True), ("device", "file"),
    ])
    refused("the schema of a table that is not there", ["schema", path, "t"], "S1 NoTable")
    refused("the stream of a table that is not there", ["export", path, "t"], "S1 NoTable")
    refused("a file that is there", ["format", path, str(SECTORS)], "G1 Io")
    compare("its bytes are what they were", content(path), made)
    return made


def no_store(room):
    path = os.path.join(room, "other")
    for what, given, line in (
        ("an empty file", b"", "G2 BadSize"), ("half a sector", bytes(256), "G2 BadSize"),
        ("15 sectors", bytes(15 * 512), "G2 BadSize"), ("a byte more", bytes(SECTORS * 512 + 1), "G2 BadSize"),
        ("zeros", bytes(SECTORS * 512), "C1 NotAStore"),
    ):
        with open(path, "wb") as file:
            file.write(given)
        refused(what, ["tables", path], line)
        compare(f"{what} stays", content(path), given)
    refused("a folder", ["tables", room], "G2 BadSize")
    refused("a change of a folder", ["drop", room, "t"], "G1 Io")
    refused("no file", ["tables", os.path.join(room, "none")], "G1 Io")
    new = os.path.join(room, "size")
    for sectors in ("0", "15", "4194305", "18446744073709551615"):
        refused(f"{sectors} sectors", ["format", new, sectors], "G2 BadSize")
    compare("no file is left", os.path.exists(new), False)
    for size, line in ((7680, "G2 BadSize"), (8191, "G2 BadSize"), (8192, "C1 NotAStore"), (8193, "G2 BadSize"), (1 << 31, "C1 NotAStore"), ((1 << 31) + 512, "G2 BadSize")):
        put(new, b"")
        os.truncate(new, size)
        refused(f"a file of {size} bytes", ["tables", new], line)
        refused("a size where there is a file", ["format", new, "15"], "G2 BadSize")
        refused("a store where there is a file", ["format", new, "16"], "G1 Io")
        os.remove(new)
    compare("the greatest store", run(["format", new, "4194304"]), DONE)
    compare("its length", os.path.getsize(new), 1 << 31)
    compare("its table", run(["import", new, "t"], ROWS), DONE)
    os.remove(new)
    refused("a folder that is not there", ["format", os.path.join(room, "none", "store"), "16"], "G1 Io")


def of_changes(path):
    """Each command that writes to a store, of which one table is t, and what it reads."""
    return [
        (["create", path, "u", "a:int32"], b""), (["import", path, "u"], ROWS), (["append", path, "t"], ROWS), (["append", path, "t", "--as", "csv"], b"a\n1\n"),
        (["append", path, "t", "--as", "jsonl"], b"[1]\n"), (["query", path, "t", "--save", "u"], b""), (["rename", path, "t", "u"], b""), (["drop", path, "t"], b""),
        (["compact", path], b""), (["upgrade", path], b""), (["apply", path, "-"], b"create u a:int32\ndrop t\n"),
    ]


def of_reading(path):
    """Each command that only reads them."""
    return [([*words, *after], b"") for words, after in ((["query", path], ["t"]), (["export", path], ["t"]), (["salvage", path], ["t"]), (["tables", path], []), (["schema", path], ["t"]), (["check", path], []), (["info", path], []))]


def with_changes(made, changes):
    """These bytes with others at some places, each in a sector."""
    made = bytearray(made)
    for sector, at, value in changes:
        made[512 * sector + at] = value
    return bytes(made)


def changes_of_no_store(room):
    """A change of a file without a store, or with a damaged one, is refused, and the file keeps its bytes."""
    path = os.path.join(room, "no_store")
    compare("a store to be damaged", run(["format", path, str(SECTORS)]), DONE)
    compare("its table", run(["import", path, "t"], ROWS), DONE)
    made = content(path)
    for what, given, line in (
        ("random bytes", random.Random(1).randbytes(SECTORS * 512), "C1 NotAStore"), ("zeros", bytes(SECTORS * 512), "C1 NotAStore"),
        ("a store without its commits", bytes(1024) + made[1024:], "C1 NotAStore"),
        ("a store whose commits both have a changed byte", with_changes(made, [(0, 0, 0), (1, 0, 0)]), "C1 NotAStore"),
        ("a store whose commits both lie about the catalogue", with_changes(made, [(0, 16, 1), (1, 16, 1)]), "C3 Damaged CatalogueRange"),
    ):
        put(path, given)
        for words, stream in of_changes(path):
            refused(f"{words[0]} of {what}", words, line, stream)
            compare(f"{words[0]} of {what}: its bytes stay", content(path) == given, True)
    os.remove(path)


def texts_before_the_file(path):
    """Texts of fields and conditions are refused before anything is asked of the system, which opens no file here, not even a folder."""
    def without_files():
        os.close(0)
        resource.setrlimit(resource.RLIMIT_NOFILE, (3, 3))

    for words, line in (
        (["tables", path], b"G1 Io"), (["create", path, "u", "a:int32"], b"G1 Io"), (["query", path, "t"], b"G1 Io"),
        (["create", path, "u", "a"], b"P1 BadText 1"), (["create", path, "u", "a:fixed_binary(2147483648)"], b"P2 Limit"), (["query", path, "t", "a"], b"Q2 BadCondition"),
        (["query", path, "t", "a", "--save", "u"], b"Q2 BadCondition"),
    ):
        done = subprocess.run([answers.program, *words], capture_output=True, timeout=60, preexec_fn=without_files)
        compare(f"{words} without files", (done.returncode, done.stdout, done.stderr), (1, b"", b"refused " + line + b"\n"))


def catalogue_of(made):
    """Where the catalogue that rules lies: its sector, how many sectors, how many bytes."""
    commits = [[int.from_bytes(made[place:place + 8], "little") for place in range(sector + 8, sector + 40, 8)] for sector in (0, 512)]
    return tuple(max(commits)[1:])


def ends_with(made, catalogue, digest):
    """The sector of this catalogue, where these bytes are the last of its text."""
    first, _, size = catalogue
    return made[512 * first:512 * first + size - len(digest)] + digest + bytes(512 - size)


def a_null(room):
    """A table with a null lies in the lowest run that is free, and so does each catalogue."""
    path = os.path.join(room, "null")
    stream = streams.stream([("a", "int32", True)], [[[1, None]]])
    for version, size in (("1", 201), ("2", 233)):
        compare("a store for a null", run(["format", path, str(SECTORS), "--format-version", version]), DONE)
        for given, segment, catalogue in ((["import", path, "t"], 3, (4, 1, size)), (["import", path, "t"], 2, (5, 1, size)), (["drop", path, "t"], None, (3, 1, 4))):
            compare(given, run(given, stream), DONE)
            made = content(path)
            compare(f"its catalogue after {given} in version {version}", catalogue_of(made), catalogue)
            if segment:
                compare(f"its segment after {given}", made[512 * segment:512 * (segment + 1)], stream + bytes(512 - len(stream)))
                compare("its stream", run(["export", path, "t"]), run(["recode"], stream))
                digest = hashlib.sha256(stream).digest() if version == "2" else b""
                compare("the end of its catalogue", made[512 * catalogue[0]:512 * (catalogue[0] + 1)], ends_with(made, catalogue, digest))
        os.remove(path)


def printed_names(room):
    """Names that no field text states, and all that a line of a schema has."""
    path = os.path.join(room, "names")
    compare("a store for names", run(["format", path, str(SECTORS)]), DONE)
    city = streams.field("city", True, streams.UTF8, NONE, encoding=encoding("uint8"))
    pair = streams.field("p", False, streams.STRUCT, NONE, [city, streams.field("x", True, streams.BOOL, NONE)])
    for column, line in (
        (streams.field('q"\\\n\x01é', False, streams.FIXED_BINARY, streams.Table((4, 2147483647))), '"q\\"\\\\\\n\\u0001é":fixed_binary(2147483647)'),
        (streams.field("", False, streams.TIMESTAMP, streams.Table((2, 0), streams.Text("UTC"))), '"":timestamp_s("UTC")'),
        (streams.field("f", False, streams.FIXED_LIST, streams.Table((4, 2)), [pair]), '"f":fixed_list(2,"p":struct<"city":dict<uint8,utf8>?,"x":bool?>)'),
    ):
        compare(f"a table with {line}", run(["import", path, "t"], streams.schema([column]) + streams.END), DONE)
        compare(f"the schema with {line}", run(["schema", path, "t"]), (0, f"{line}\n".encode(), b""))


def changes(path):
    """Each command that changes tables, and some of its refusals. The bytes of the store stay where it is refused."""
    for given, stream in (
        (["create", path, "t", "a:int32"], b""), (["append", path, "t"], ROWS), (["append", path, "t", "--as", "stream"], ROWS),
        (["import", path, "u"], ROWS), (["rename", path, "u", "w"], b""), (["drop", path, "w"], b""),
        (["import", path, "w", "--new"], ROWS), (["drop", path, "w"], b""),
    ):
        compare(given, run(given, stream), DONE)
    compare("its tables", run(["tables", path]), (0, b"t 4\n", b""))
    compare("its fields", run(["schema", path, "t"]), (0, b'"a":int32\n', b""))
    compare("its stream", run(["export", path, "t"]), run(["recode"], streams.stream(COLUMN, [[[7, -1, 7, -1]]])))
    compare("all can be read", run(["check", path]), DONE)
    made = content(path)
    for given, line, stream in (
        (["create", path, "t", "a:int32"], "S2 NameTaken", b""), (["create", path, "a b", "a:int32"], "S3 BadName", b""),
        (["create", path, "v", "a"], "P1 BadText 1", b""), (["create", path, "v", "a:utf9"], "P1 BadText 1", b""),
        (["create", path, "a b", "a"], "P1 BadText 1", b""), (["create", path + "s", "v", "a"], "P1 BadText 1", b""),
        (["import", path, "a b"], "S3 BadName", ROWS), (["import", path, "v"], "S5 Import F9 NoSchema", b""),
        (["import", path, "t", "--new"], "S2 NameTaken", ROWS), (["import", path, "t", "--new"], "S2 NameTaken", b""),
        (["import", path, "a b", "--new"], "S3 BadName", ROWS), (["import", path, "v", "--new"], "S5 Import F9 NoSchema", b""),
        (["import", path, "v"], "S8 NoRoom 13", streams.stream(COLUMN, [[list(range(1459))]])),
        (["append", path, "v"], "S1 NoTable", ROWS), (["append", path, "t"], "S5 Import F1 Truncated", ROWS[:-9]),
        (["append", path, "t"], "S4 SchemaMismatch", streams.stream([("b", "int32", False)], [[[7]]])),
        (["rename", path, "v", "w"], "S1 NoTable", b""), (["rename", path, "t", "t"], "S2 NameTaken", b""), (["drop", path, "v"], "S1 NoTable", b""),
    ):
        refused(given, given, line, stream)
        compare(f"{given} changes nothing", content(path), made)
    for words in (["--new", "--new"], ["--new=true"]):
        status, output, said = run(["import", path, "v", *words], ROWS)
        compare(f"wrong words {words}", (status, output, said != b"", content(path)), (2, b"", True, made))


def no_input_is_awaited(path):
    """A bad name, a table that is not there and one that may not be replaced are reported while the input is still open."""
    for given, line in (
        (["import", path, "a b"], b"S3 BadName"), (["append", path, "v"], b"S1 NoTable"), (["import", path + "s", "v"], b"G1 Io"),
        (["import", "--new", path, "t"], b"S2 NameTaken"), (["import", "--new", path, "a b"], b"S3 BadName"),
        (["import", "--complete", path, "a b"], b"S3 BadName"), (["append", "--complete", path, "v"], b"S1 NoTable"),
    ):
        reads, writes = os.pipe()
        done = subprocess.run([answers.program, *given], stdin=reads, capture_output=True, timeout=60)
        compare(f"{given} with an open input", (done.returncode, done.stderr), (1, b"refused " + line + b"\n"))
        os.close(reads)
        os.close(writes)


def locked(path):
    """Another program that has the file, to write or to read."""
    made = content(path)
    for lock, reads in ((fcntl.LOCK_EX, False), (fcntl.LOCK_SH, True)):
        with open(path, "rb") as file:
            fcntl.flock(file, lock)
            if reads:
                compare("two that read", run(["tables", path]), (0, b"t 4\n", b""))
            else:
                refused("tables of a file that is locked", ["tables", path], "G1 Io")
            refused("a change of a file that is locked", ["drop", path, "t"], "G1 Io")
    compare("a locked file stays", content(path), made)


def begun(words, given=b""):
    """A command that is running, once it waits for a lock or has ended."""
    running = subprocess.Popen([answers.program, *words], stdin=subprocess.PIPE, stdout=subprocess.PIPE, stderr=subprocess.PIPE)
    running.stdin.write(given)
    running.stdin.close()
    running.stdin = None
    return running


def is_waiting(running):
    """Whether the system notes that it waits for a lock; where it notes no such thing, whether it still runs after a second."""
    for _ in range(100):
        if running.poll() is not None:
            return False
        with open("/proc/locks") as locks:
            if any("->" in line and f" {running.pid} " in line for line in locks):
                return True
        time.sleep(0.01)
    return running.poll() is None


def ended(running):
    output, said = running.communicate(timeout=60)
    return running.returncode, output, said


def waits(room):
    """With `--wait` a command waits for whoever has the file, in place of being refused."""
    path = os.path.join(room, "waits")
    run(["format", path, "4096"])
    run(["create", path, "t", "a:int32"])
    for lock, words, given in (
        (fcntl.LOCK_EX, ["append", path, "t", "--wait"], ROWS), (fcntl.LOCK_SH, ["append", "--wait", path, "t"], ROWS), (fcntl.LOCK_EX, ["tables", "--wait", path], b""),
        (fcntl.LOCK_EX, ["check", path, "--wait"], b""), (fcntl.LOCK_EX, ["query", path, "t", "a > 7", "--wait"], b""), (fcntl.LOCK_EX, ["export", "--wait", path, "t"], b""),
        (fcntl.LOCK_EX, ["copy", "--wait", path, path + "2", "4096"], b""), (fcntl.LOCK_SH, ["compact", path, "--wait"], b""),
    ):
        made = content(path)
        with open(path, "rb") as file:
            fcntl.flock(file, lock)
            refused(f"{words} without --wait", [word for word in words if word != "--wait"], "G1 Io", given)
            running = begun(words, given)
            compare(f"{words} waits", is_waiting(running), True)
            compare(f"nothing has changed while {words} waits", content(path), made)
        status, output, said = ended(running)
        compare(f"{words} is done then", (status, said), (0, b""))
    with open(path, "rb") as file:
        fcntl.flock(file, fcntl.LOCK_SH)
        compare("two that read do not wait", run(["tables", path, "--wait"]), (0, b"t 4\n", b""))
    for words in (["tables", "--", path, "--wait"], ["tables", path, "--wait=1"], ["recode", "--wait"], ["tables", path, "--wait", "--wait"]):
        status, output, said = run(words)
        compare(f"wrong words {words}", (status, output, said != b""), (2, b"", True))


def replaced_while_waiting(room):
    """What is done to a file that was replaced would be lost: it is refused."""
    path, new = os.path.join(room, "old"), os.path.join(room, "new")
    for store in (path, new):
        run(["format", store, "16"])
        run(["create", store, "t", "a:int32"])
    made = content(new)
    with open(path, "rb") as file:
        fcntl.flock(file, fcntl.LOCK_EX)
        running = begun(["append", path, "t", "--wait"], ROWS)
        compare("it waits for the old file", is_waiting(running), True)
        os.replace(new, path)
    compare("a file that was replaced", ended(running), (1, b"", b"refused G1 Io\n"))
    compare("the file in its place", content(path), made)


def two_that_wait(room):
    """Two writers, each with one command after another: all rows are there."""
    path, each = os.path.join(room, "two"), 25
    run(["format", path, "4096"])
    run(["create", path, "t", "a:int32"])

    def append(first):
        for row in range(first, first + each):
            yield run(["append", path, "t", "--wait"], streams.stream(COLUMN, [[[row]]]))

    with ThreadPoolExecutor(2) as pool:
        told = [answer for answers_of_one in pool.map(lambda first: list(append(first)), (0, each)) for answer in answers_of_one]
    compare("each of two writers is done", set(told), {DONE})
    status, output, said = run(["query", path, "t"])
    compare("their rows", sorted(json.loads(line)[0] for line in output.splitlines()), list(range(2 * each)))


def as_nobody(room):
    """The program as a user runs it whom rights bind, which are of no weight for one who may do all."""
    program = shutil.copy(answers.program, room)
    for path, mode in ((room, 0o755), (program, 0o755)):
        os.chmod(path, mode)
    who = {"user": 65534, "group": 65534, "extra_groups": []} if os.geteuid() == 0 else {}

    def run_bound(words):
        done = subprocess.run([program, *words], capture_output=True, timeout=60, stdin=subprocess.DEVNULL, **who)
        return done.returncode, done.stdout, done.stderr
    return run_bound


def rights(room, path):
    """A file that may only be read, and one that may not."""
    made, run_bound, line = content(path), as_nobody(room), (1, b"", b"refused G1 Io\n")
    os.chmod(path, 0o444)
    compare("tables of a file that may only be read", run_bound(["tables", path]), (0, b"t 4\n", b""))
    compare("a change of a file that may only be read", run_bound(["drop", path, "t"]), line)
    os.chmod(path, 0)
    compare("a file that may not be read", run_bound(["tables", path]), line)
    os.chmod(path, 0o644)
    compare("its bytes stay", content(path), made)


def within(most, words, given=b""):
    """Runs with files of at most this many bytes: each write after that fails, as on a full disk."""
    limit = lambda: resource.setrlimit(resource.RLIMIT_FSIZE, (most, most))
    done = subprocess.run([answers.program, *words], input=given, capture_output=True, timeout=60, preexec_fn=limit, restore_signals=False)
    return done.returncode, done.stdout, done.stderr


def a_full_disk(room, path):
    new = os.path.join(room, "new")
    compare("no room for the file", within(4096, ["format", new, str(SECTORS)]), (1, b"", b"refused G1 Io\n"))
    compare("no file is left", os.path.exists(new), False)
    compare("no room for a table", within(1024, ["import", path, "u"], ROWS), (1, b"", b"refused S9 Device\n"))
    compare("its tables stay", run(["tables", path]), (0, b"t 4\n", b""))
    compare("a table after it", run(["import", path, "u"], ROWS), DONE)
    compare("a table that goes", run(["drop", path, "u"]), DONE)


def cut_short(path):
    made = content(path)
    for length in (0, 511, 512, 8191):
        put(path, made[:length])
        refused(f"the first {length} bytes", ["tables", path], "G2 BadSize")
        refused(f"a change of the first {length} bytes", ["drop", path, "t"], "G2 BadSize")
        compare(f"the first {length} bytes stay", content(path), made[:length])
    put(path, made)


def another_length(room):
    """A store of 32 sectors that was cut to another size of a store, or has zeros after it: each command that opens it reports so, and leaves its bytes."""
    path = os.path.join(room, "length")
    compare("a store of 32 sectors", run(["format", path, "32"]), DONE)
    compare("its table", run(["import", path, "t"], ROWS), DONE)
    made = content(path)
    for sectors in (16, 31, 33, 64):
        other = made[:512 * sectors].ljust(512 * sectors, b"\0")
        put(path, other)
        for words, given in of_changes(path) + of_reading(path):
            refused(f"{words} of {sectors} sectors", words, "C3 Damaged DeviceSize", given)
            compare(f"{words} of {sectors} sectors: its bytes stay", content(path), other)
    put(path, made)
    compare("the store of its length", run(["tables", path]), (0, b"t 2\n", b""))


def a_changed_byte(path):
    """Each byte of the commit sectors: the tables are those of some commit, or the store is refused. Each byte of the catalogue's text: it is another
    catalogue, which nothing distinguishes from the one that was written, or it is refused."""
    made = content(path)
    at, _, size = catalogue_of(made)
    before = [run(["tables", path])]
    for sector in (0, 1):
        changed = bytearray(made)
        changed[512 * sector:512 * (sector + 1)] = bytes(512)
        put(path, changed)
        before.append(run(["tables", path]))
    for place in (*range(1024), *range(512 * at, 512 * at + size)):
        changed = bytearray(made)
        changed[place] ^= 1
        put(path, changed)
        answer = run(["tables", path])
        is_refused = answer[:2] == (1, b"") and answer[2].startswith(b"refused C")
        is_other = place >= 1024 and answer[0] == 0 and answer[2] == b""
        compare(f"byte {place} is changed", answer in before or is_refused or is_other, True)
        compare(f"byte {place} stays changed", content(path), bytes(changed))
    put(path, made)


# What is changed in a store whose commit of epoch 4 is in sector 0 and that of epoch 3 in sector 1: sector, byte, value; and the tables then, or the first
# cause. In a commit: its epoch at byte 8, the catalogue's first sector at 16, its sectors at 24, its bytes at 32, the sectors of the device at 40, the
# version at 48, the kind at 52. The text is 398 bytes in sector 4: t at byte 8, and its segments, in sectors 3 and 2, at bytes 169 and 201.
NEWER, OLDER = b"t 3\nu 0\n", b"t 3\n"
CAUSES = [
    ([], NEWER), ([(1, 0, 0)], NEWER),
    # No commit is in a sector of another number, without an epoch, of another version or kind, or with anything after it.
    ([(0, 0, 0)], OLDER), ([(0, 8, 5)], OLDER), ([(0, 8, 0)], OLDER), ([(0, 48, 3)], OLDER), ([(0, 52, 2)], OLDER), ([(0, 511, 1)], OLDER), ([(0, 100, 1)], OLDER),
    # A list is not the text of a catalogue in pages, nor one without digests that of a catalogue of version 2.
    ([(0, 52, 1)], "C3 Damaged CatalogueText"), ([(0, 48, 2)], "C3 Damaged CatalogueText"),
    ([(0, 7, 50), (1, 7, 50)], "C1 NotAStore"),
    ([(0, 40, 17), (0, 16, 1), (4, 169, 1)], "C3 Damaged DeviceSize"),
    ([(0, 16, 1), (4, 169, 1)], "C3 Damaged CatalogueRange"), ([(0, 16, 16)], "C3 Damaged CatalogueRange"), ([(0, 24, 2)], "C3 Damaged CatalogueRange"),
    ([(0, 24, 0), (0, 32, 0), (0, 33, 0)], "C3 Damaged CatalogueRange"), ([(0, 32, 3), (0, 33, 0)], "C3 Damaged CatalogueRange"),
    ([(0, 33, 3), (0, 24, 2), (0, 16, 15)], "C3 Damaged CatalogueRange"),
    ([(0, 32, 7), (0, 33, 0), (4, 169, 1)], "C3 Damaged CatalogueText"), ([(4, 177, 0)], "C3 Damaged CatalogueText"),
    # Names are in order, no two are the same, and each is a name.
    ([(4, 8, ord("v"))], "C3 Damaged CatalogueText"), ([(4, 8, ord("u"))], "C3 Damaged CatalogueText"), ([(4, 8, ord("/"))], "C3 Damaged CatalogueText"),
    ([(4, 8, ord("a"))], b"a 3\nu 0\n"),
    ([(4, 169, 1)], "C3 Damaged RunRange"), ([(4, 169, 16)], "C3 Damaged RunRange"), ([(4, 169, 15)], NEWER),
    ([(4, 169, 4)], "C3 Damaged RunOverlap"), ([(4, 201, 6)], NEWER), ([(4, 201, 3)], "C3 Damaged RunOverlap"), ([(4, 169, 4), (4, 201, 1)], "C3 Damaged RunRange"),
]


def the_first_cause(room):
    path = os.path.join(room, "causes")
    for words, given in (
        (["format", path, str(SECTORS), "--format-version", "1"], b""), (["import", path, "t"], ROWS), (["append", path, "t"], streams.stream(COLUMN, [[[5]]])), (["create", path, "u", "a:int32"], b""),
    ):
        compare(words, run(words, given), DONE)
    made = content(path)
    compare("its catalogue", catalogue_of(made), (4, 1, 398))
    fronts = [([(0, 32, size % 256), (0, 33, size // 256)], "C3 Damaged CatalogueText") for size in range(4, 513) if size != 398]
    for changes, wanted in CAUSES + fronts:
        put(path, with_changes(made, changes))
        compare(f"{changes}", run(["tables", path]), (0, wanted, b"") if isinstance(wanted, bytes) else (1, b"", f"refused {wanted}\n".encode()))


def a_changed_segment(path, digests):
    """Each byte of a segment: where it has a digest it is reported that the byte is another one. Without digests what is read is a table of as many rows, or the
    segment that can't be read is reported. What is after its bytes, in its last sector, is never looked at."""
    made = content(path)
    start = made.index(ROWS[:8], 1024)
    whole = run(["export", path, "t"])
    compare("the first segment is changed", start % 512, 0)
    for place in range(start, start + 512):
        changed = bytearray(made)
        changed[place] ^= 1
        put(path, changed)
        checked, exported = run(["check", path]), run(["export", path, "t"])
        is_unread = checked == (1, b"", b"refused S13 SegmentUnread 0\n") and exported == checked
        is_damaged = checked == (1, b"", b"refused S15 SegmentDamaged 0\n") and exported == checked
        is_other = checked == DONE and exported[0] == 0 and len(exported[1]) == len(whole[1])
        if place >= start + len(ROWS):
            compare(f"byte {place} after a segment is changed", checked == DONE and exported == whole, True)
        else:
            compare(f"byte {place} of a segment is changed", is_damaged if digests else is_unread or is_other, True)
    put(path, made)


def with_sector(made, sector, bytes_there):
    return made[:512 * sector] + bytes_there + made[512 * (sector + 1):]


def with_bit(made, sector, place):
    """With one bit of this byte of a sector changed."""
    made = bytearray(made)
    made[512 * sector + place] ^= 1
    return bytes(made)


def agree(path, made):
    """Whether `info` prints that the commit sectors of these bytes agree; what it is refused for, if it is."""
    put(path, made)
    status, lines, said = run(["info", path, "--json"])
    return said if status else json.loads(lines)["commits_agree"]


def commits_of(path):
    """After each command, and after a stop before its commit was written, the commit sectors agree. They do not once a bit is changed in either of them."""
    for epoch, given, stream in ((2, ["create", path, "t", "a:int32"], b""), (3, ["import", path, "u"], ROWS), (4, ["append", path, "u"], ROWS)):
        older = content(path)
        compare(given, run(given, stream), DONE)
        made, newest = content(path), epoch % 2
        compare(f"after {given[0]}", agree(path, made), True)
        compare(f"{given[0]} without its commit", agree(path, with_sector(made, newest, older[512 * newest:512 * (newest + 1)])), True)
        for place in (0, 8, 9, 15, 48, 56, 511):
            for sector in (newest, 1 - newest):
                compare(f"after {given[0]}, byte {place} of commit sector {sector}", agree(path, with_bit(made, sector, place)), False)
        put(path, made)


def changed_commits(room):
    """Where something else has changed a commit sector the last command may be undone: `info` reports it, until the next change."""
    path = os.path.join(room, "commits")
    for version in ("1", "2"):
        compare(f"a store of version {version}", run(["format", path, "16", "--format-version", version]), DONE)
        made = content(path)
        compare("a new store", agree(path, made), True)
        for place in range(0, 512, 7):
            compare(f"byte {place} of the zeros is changed", agree(path, with_bit(made, 0, place)), False)
        put(path, made)
        commits_of(path)
        compare("an upgrade", run(["upgrade", path]), DONE)
        made, tables = content(path), run(["tables", path])
        compare("after an upgrade", agree(path, made), True)
        newest = numbers(path)["epoch"] % 2
        for place in range(512):
            answer = agree(path, with_bit(made, newest, place))
            if 16 <= place < 48 or place == 52:
                # It is a commit still: the opening reports that no catalogue is where it says.
                compare(f"byte {place} of the newest commit", isinstance(answer, bytes) and answer.startswith(b"refused C3 Damaged "), True)
            else:
                compare(f"byte {place} of the newest commit", answer, False)
        compare("zeros in place of the newest commit", agree(path, with_sector(made, newest, bytes(512))), True)
        put(path, with_bit(made, newest, 0))
        compare("the tables that are left can be read", run(["check", path]), DONE)
        compare("a change after it", run(["create", path, "v", "a:int32"]), DONE)
        compare("it is reported no more", numbers(path)["commits_agree"], True)
        put(path, made)
        compare("the tables stay", run(["tables", path]), tables)
        os.remove(path)


def compactions(room):
    """Two segments become one, which then lies further forward: its place is in the catalogue, and the rows are those that were. With no room for the
    new segment, or where one can't be read, nothing changes."""
    path = os.path.join(room, "compact")
    for given, stream in ((["format", path, str(SECTORS)], b""), (["import", path, "t"], ROWS), (["append", path, "t"], ROWS)):
        compare(given, run(given, stream), DONE)
    made, rows = content(path), run(["query", path, "t"])
    before = numbers(path)
    compare("two steps", run(["compact", path]), (0, b"steps 2\n", b""))
    after = numbers(path)
    compare("epochs and segments", [(n["epoch"], n["tables"], n["segments"]) for n in (before, after)], [(3, 1, 2), (5, 1, 1)])
    compare("sectors of a segment are free again", after["used"] < before["used"], True)
    compare("the rows stay", run(["query", path, "t"]), rows)
    compacted, stream = content(path), run(["export", path, "t"])[1]
    compare("the segment", compacted[1024:1024 + len(stream)], stream)
    compare("no step more", run(["compact", path]), (0, b"steps 0\n", b""))
    compare("its bytes stay", content(path), compacted)
    # With a limit it stops between two steps, and the next call goes on where it stopped.
    put(path, made)
    for limit, steps in (("0", 0), ("1", 1), ("0", 0), ("2", 1), ("18446744073709551615", 0)):
        compare(f"at most {limit} steps", run(["compact", path, "--steps", limit]), (0, b"steps %d\n" % steps, b""))
        compare(f"the rows after at most {limit} steps", run(["query", path, "t"]), rows)
    compare("the bytes after all of them", content(path), compacted)
    start = made.index(ROWS[:8], 1024)
    put(path, made[:start] + bytes(1) + made[start + 1:])
    refused("a segment with a changed byte", ["compact", path], f"S15 SegmentDamaged {0 if start != 2 * 512 else 1}")
    put(path, made)
    compare("no room on the disk", within(start, ["compact", path]), (1, b"", b"refused S9 Device\n"))
    compare("the rows after it", run(["query", path, "t"]), rows)
    compare("two steps after it", run(["compact", path]), (0, b"steps 2\n", b""))
    compare("all can be read", run(["check", path]), DONE)


def shown(path):
    """All that is printed of the tables of a store."""
    names = [line.split()[0].decode() for line in run(["tables", path])[1].splitlines()]
    return [run(["tables", path])] + [run([word, path, name]) for name in names for word in ("schema", "export", "query")]


def copies(room):
    """The same tables in a larger store and in a smaller one. Where a copy is refused there is no new file, and what was there stays."""
    path, new = os.path.join(room, "copied"), os.path.join(room, "copy")
    many = streams.stream([("a", "int32", False), ("b", "uint64", True)], [[list(range(1000))] * 2])
    for given, stream in (
        (["format", path, "64"], b""), (["import", path, "u"], ROWS), (["append", path, "u"], ROWS), (["create", path, "w", "a:list<utf8?>?", "b:dict<int8,utf8>"], b""),
        (["import", path, "t"], many), (["create", path, "x"], b""), (["import", path, "v"], ROWS), (["drop", path, "x"], b""),
    ):
        compare(given, run(given, stream), DONE)
    made, tables = content(path), shown(path)
    for sectors in (4096, 64, 48):
        compare(f"a copy of {sectors} sectors", run(["copy", path, new, str(sectors)]), DONE)
        compare("its tables", shown(new), tables)
        compare("its length", os.path.getsize(new), 512 * sectors)
        compare("all of it can be read", run(["check", new]), DONE)
        refused("a copy where there is a file", ["copy", path, new, "64"], "G1 Io")
        compare("its tables stay", shown(new), tables)
        os.remove(new)
    refused("a copy to itself", ["copy", path, path, "64"], "G1 Io")
    for sectors in ("0", "15", "4194305"):
        refused(f"a copy of {sectors} sectors", ["copy", path, new, sectors], "G2 BadSize")
    status, output, said = run(["copy", path, new, "16"])
    compare("a copy without room", (status, output, said.startswith(b"refused S8 NoRoom ")), (1, b"", True))
    for what, sectors in (("a full disk", 63), ("no room for the byte by which the file is longer meanwhile", 64)):
        compare(what, within(sectors * 512, ["copy", path, new, "64"]), (1, b"", b"refused G1 Io\n"))
    refused("a copy of no file", ["copy", path + "s", new, "64"], "G1 Io")
    refused("a copy in a folder that is not there", ["copy", path, os.path.join(new, "copy"), "64"], "G1 Io")
    compare("no file is left", os.path.exists(new), False)
    compare("the store stays", content(path), made)
    place = next(place for place in range(1024, len(made), 512) if made[place:place + 8] == many[:8])
    put(path, made[:place] + bytes(1) + made[place + 1:])
    refused("a copy of a segment with a changed byte", ["copy", path, new, "64"], "S15 SegmentDamaged 0")
    put(path, bytes(1024) + made[1024:])
    refused("a copy of no store", ["copy", path, new, "64"], "C1 NotAStore")
    compare("no file is left", os.path.exists(new), False)
    os.remove(path)


def moved_files(room):
    """Another file that is moved to the path of a new one, once that is made, is neither cut nor removed, whatever fails."""
    library, store, new, other = (os.path.join(room, name) for name in ("moved_file.so", "from", "made", "other"))
    source = os.path.join(os.path.dirname(os.path.abspath(__file__)), "moved_file.c")
    subprocess.run(["gcc", "-O1", "-shared", "-fPIC", "-o", library, source], check=True)
    for words in (["format", store, "64"], ["create", store, "t", "a:int32"]):
        compare(f"{words}", run(words), DONE)
    # A new file and its folder are synced first, and for a copy the store before them.
    for words, made in ((["format", new, "64"], 2), (["copy", store, new, "64"], 3)):
        for at in range(made, made + 4):
            for fails in (at + 1, at + 2, 99):
                put(other, b"of another program")
                settings = {"LD_PRELOAD": library, "MOVE_AT": str(at), "MOVE_FAILS": str(fails), "MOVED": other, "MOVE_TO": new}
                done = subprocess.run([answers.program, *words], capture_output=True, timeout=60, env={**os.environ, "ARROWSTORE_ADVICE": "1", **settings})
                what = f"{words[0]}, a file moved there at call {at}, failures from {fails} on"
                compare(f"{what}: {done.stderr}", (done.returncode, content(new)), (int(done.stdout == b""), b"of another program"))
                compare(f"{what}: what is said", b"was removed" in done.stderr, False)
                if words[0] == "copy":
                    compare(f"{what}: no copy is told that is not there", done.returncode, 1)
                os.remove(new)
        compare(f"{words[0]} where nothing is moved", run(words), DONE)
        os.remove(new)


def salvages(room):
    """The rows of all segments of a table but those that are damaged, of which each is reported with its rows. The store stays as it is."""
    path, pieces = os.path.join(room, "salvaged"), [[7, -1], [5], [3, 4, 6]]
    given = [streams.stream(COLUMN, [[piece]]) for piece in pieces]
    for version in ("1", "2"):
        for words, stream in (
            (["format", path, "64", "--format-version", version], b""), (["import", path, "t"], given[0]), (["append", path, "t"], given[1]), (["append", path, "t"], given[2]), (["create", path, "u", "a:int32"], b""),
        ):
            compare(words, run(words, stream), DONE)
        made = content(path)
        starts = [made.index(stream[:-8], 1024) for stream in given]
        for damaged in ((), (0,), (1,), (0, 2), (0, 1, 2)):
            changed = bytearray(made)
            for place in damaged:
                changed[starts[place]] ^= 1
            put(path, changed)
            status, output, said = run(["salvage", path, "t"])
            lines = "".join(f"left out segment {place} with {len(pieces[place])} rows\n" for place in damaged)
            compare(f"a salvage of version {version} without {damaged}", (status, said), (1 if damaged else 0, lines.encode()))
            rows = [row for place, piece in enumerate(pieces) if place not in damaged for row in piece]
            compare("its stream", run(["recode"], output), run(["recode"], streams.stream(COLUMN, [[rows]] if rows else [])))
            compare("a table without rows beside it", (run(["salvage", path, "u"]), run(["export", path, "u"])[1]), ((0, run(["export", path, "u"])[1], b""), streams.stream(COLUMN, [])))
            compare("its bytes stay", content(path), bytes(changed))
        refused("a salvage of no table", ["salvage", path, "v"], "S1 NoTable")
        # Without digests a value that was changed is given as it is.
        place = made.index(given[1][:-8], 1024) + given[1].index((5).to_bytes(4, "little"), 200)
        put(path, made[:place] + b"\x09" + made[place + 1:])
        status, output, said = run(["salvage", path, "t"])
        rows = [7, -1, 9, 3, 4, 6] if version == "1" else [7, -1, 3, 4, 6]
        compare(f"a salvage of a changed value of version {version}", (status, said, run(["recode"], output)), (0 if version == "1" else 1, b"" if version == "1" else b"left out segment 1 with 1 rows\n", run(["recode"], streams.stream(COLUMN, [[rows]]))))
        os.remove(path)
    refused("a salvage of no file", ["salvage", path, "t"], "G1 Io")
    put(path, bytes(8192))
    refused("a salvage of no store", ["salvage", path, "t"], "C1 NotAStore")
    os.remove(path)


def versions(room):
    """A store of version 1 gets digests where it is. Then a changed byte is reported, which was another table before."""
    path = os.path.join(room, "versions")
    stream = streams.stream([("a", "int32", True)], [[[1, None]]])
    compare("a store of version 1", run(["format", path, "16", "--format-version", "1"]), DONE)
    compare("its table", run(["import", path, "t"], stream), DONE)
    made, rows = content(path), run(["query", path, "t"])
    place = 3 * 512 + 312
    put(path, made[:place] + b"\2" + made[place + 1:])
    compare("a changed byte in version 1", (run(["check", path]), run(["query", path, "t"])), (DONE, (0, b"[2]\n[null]\n", b"")))
    put(path, made)
    compare("its numbers", numbers(path)["format_version"], 1)
    compare("an upgrade", run(["upgrade", path]), DONE)
    upgraded = content(path)
    compare("its version and epoch", [numbers(path)[name] for name in ("format_version", "epoch", "segments")], [2, 3, 1])
    compare("its catalogue in sector 2", catalogue_of(upgraded), (2, 1, 233))
    compare("its segment stays", upgraded[3 * 512:4 * 512], made[3 * 512:4 * 512])
    compare("its rows", run(["query", path, "t"]), rows)
    compare("an upgrade once more", run(["upgrade", path]), DONE)
    compare("its bytes stay", content(path), upgraded)
    put(path, upgraded[:place] + b"\2" + upgraded[place + 1:])
    for given in (["check", path], ["query", path, "t"], ["export", path, "t"], ["append", path, "t"]):
        refused(f"{given[0]} of a changed byte in version 2", given, "S15 SegmentDamaged 0", stream)
    put(path, upgraded)
    compare("a change keeps the version", run(["create", path, "u", "a:int32"]), DONE)
    compare("version 2", numbers(path)["format_version"], 2)
    os.remove(path)
    compare("a store of the newest version", run(["format", path, "16"]), DONE)
    compare("it is version 2", numbers(path)["format_version"], 2)
    new = path + "2"
    for version in (1, 2):
        os.remove(path)
        compare("a store to be copied", run(["format", path, "16", "--format-version", str(version)]), DONE)
        compare("a copy", run(["copy", path, new, "32"]), DONE)
        compare("it has its version", numbers(new)["format_version"], version)
        os.remove(new)
    os.remove(path)
    for number in ("0", "3", "+2", "two", ""):
        compare(f"version {number}", run(["format", path, "16", "--format-version", number])[0], 2)
    compare("no file is made", os.path.exists(path), False)


def no_output(path):
    """An output that takes nothing."""
    for words in (["export", path, "t"], ["salvage", path, "t"], ["check", path], ["compact", path]):
        with open("/dev/full", "wb") as full:
            done = subprocess.run([answers.program, *words], stdout=full, stderr=subprocess.PIPE, timeout=60)
        compare(f"{words} to a full disk", (done.returncode, done.stderr), (1, b"refused G1 Io\n"))


def a_segment_at_a_time(room):
    """Commands that keep none or few of a table's rows hold one segment of it: much less memory than its 40 MB, and the words say which."""
    path, given, row = (os.path.join(room, name) for name in ("large", "large_stream", "one_row"))
    counted = b"".join(number.to_bytes(8, "little") for number in range(1 << 16))
    rows = streams.record_batch(1 << 16, [counted])
    put(given, streams.schema([streams.field("a", False, 2, streams.integer("int64"))]) + 77 * rows + streams.END)
    put(row, b'{"a":7}\n')
    compare("a store for much", run(["format", path, "100000"]), DONE)
    compare("import of much", answers.measured(["import", path, "t"], given)[:3], DONE)
    kept = b"[9]\n" * 77
    for words, wanted in (
        (["check", path], b"ok\n"), (["query", path, "t", "a = 9"], kept), (["query", path, "t", "--limit", "2"], b"[0]\n[1]\n"),
        (["query", path, "t", "a = 9", "--save", "u"], b"ok\n"), (["query", path, "t", "--limit", "2", "--save", "v"], b"ok\n"),
        (["append", path, "t", "--as", "jsonl"], b"ok\n"), (["query", path, "t", "a = 70000"], b""),
    ):
        status, output, said, peak = answers.measured(words, row)
        compare(f"{words[0]} of much", (status, output, said), (0, wanted, b""))
        compare(f"{words[0]} of much: {peak} bytes of memory", peak <= 16_000_000, True)
    compare("the appended row, and the saved ones", run(["tables", path]), (0, b"t %d\nu 77\nv 2\n" % ((77 << 16) + 1), b""))
    compare("rows saved from each segment", run(["query", path, "u"]), (0, kept, b""))
    compare("rows saved up to a limit", run(["query", path, "v"]), (0, b"[0]\n[1]\n", b""))
    os.remove(path)


def heavy_lines(room):
    """Lines of three bytes whose rows are together heavier than any table, and would take 1 GB: they are refused, and none of them is kept."""
    path, given = os.path.join(room, "wide"), os.path.join(room, "heavy_lines")
    put(given, 16_384 * b"{}\n")
    compare("a store of a wide table", run(["format", path, "4096"]), DONE)
    compare("a wide table", run(["create", path, "t", *(f"c{number}:fixed_binary(7)?" for number in range(2048))]), DONE)
    before = content(path)
    status, output, said, peak = answers.measured(["append", path, "t", "--as", "jsonl"], given)
    compare("heavy lines", (status, output, said), (1, b"", b"refused S7 TooMany Weight\n"))
    compare(f"heavy lines: {peak} bytes of memory", peak <= 400_000_000, True)
    compare("the table stays", content(path), before)
    os.remove(path)


def words(room):
    path = os.path.join(room, "words")
    for given in (
        ["format"], ["format", path], ["format", path, "many"], ["format", path, "-1"], ["format", path, "+16"], ["format", path, "16", "more"], ["tables"], ["schema", path],
        ["tables", "--all", path], ["create", path], ["import", path], ["append", path, "t", "--as", "arrow"], ["rename", path, "t"], ["drop", path],
        ["export", path], ["export", path, "t", "u"], ["salvage"], ["salvage", path], ["salvage", path, "t", "u"], ["check"], ["check", path, "t"], ["compact"], ["compact", path, "t"], ["upgrade"], ["upgrade", path, "t"], ["info"], ["info", path, "t"], ["info", path, "--csv"],
        ["copy"], ["copy", path], ["copy", path, path + "2"], ["copy", path, path + "2", "many"], ["copy", path, path + "2", "+16"], ["copy", path, path + "2", "16", "17"],
    ):
        status, output, said = run(given)
        compare(f"wrong words {given}", (status, output, said != b""), (2, b"", True))
    compare("no file is made", os.path.exists(path), False)
    for name in ("format", "create", "import", "append", "export", "rename", "drop", "tables", "schema", "check", "salvage", "info", "compact", "upgrade", "copy", "have", "send", "receive"):
        status, output, said = run([name, "--help"])
        compare(f"help of {name}", (status, b"Example: arrowstore " + name.encode() in output, said), (0, True, b""))


with tempfile.TemporaryDirectory() as room:
    store = os.path.join(room, "store")
    answers.play(
        # One store.
        [
            (an_empty_store, store), (a_changed_byte, store), (changes, store), (a_changed_segment, store, True),
            (no_output, store), (no_input_is_awaited, store), (texts_before_the_file, store), (locked, store),
            (rights, room, store), (a_full_disk, room, store), (cut_short, store), (a_changed_byte, store),
        ],
        (waits, room), (replaced_while_waiting, room), (two_that_wait, room), (another_length, room), (a_null, room),
        (printed_names, room), (the_first_cause, room), (no_store, room), (changes_of_no_store, room),
        (changed_commits, room), (compactions, room), (copies, room), (moved_files, room), (salvages, room),
        (versions, room), (a_segment_at_a_time, room), (heavy_lines, room), (words, room),
    )
sys.exit(answers.tell("stores"))
