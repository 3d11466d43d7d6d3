#!/usr/bin/env python3
"""killed.py PROGRAM: a store whose program is killed in the middle of an import a hundred times, one in the middle of a script sixty times, one sixty times while it
receives an archive, and a copy of one that is killed forty times.

Each import replaces one of three tables by one of another number of rows. The program is killed (SIGKILL) at some moment of it; then the store is opened
again, and has to list every table that was acknowledged by `ok`, with its rows, and the one of the killed import as it was before or as the import would
have left it. All that it lists can be read. Each script has ten lines, which change all tables: after a kill all of them are done, or none.

What a copy that is killed leaves is no file, one that no command takes for a store, or the whole copy; and the store that is copied keeps its bytes. A copy
that is stopped for a while (SIGSTOP) keeps its file locked."""
import collections
import fcntl
import os
import random
import signal
import subprocess
import sys
import tempfile
import time

sys.dont_write_bytecode = True
import streams
from running import Answers

answers = Answers.of_arguments(__doc__)
PROGRAM = answers.program
ROUNDS = 100
UNDISTURBED = 3
ROWS = 100_000
SCRIPTS = 60
ARCHIVES = 60
COPIES = 40
COPIED = "abcdef"
# What a copy may leave.
LEFT = "no file", "no store", "some tables in no store", "all tables"
SECTORS = 16384
COLUMN = [("a", "int32", False)]


def run(*words):
    ended = subprocess.run([PROGRAM, *words], capture_output=True, timeout=60)
    return ended.returncode, ended.stdout, ended.stderr


def done(*words):
    return subprocess.run([PROGRAM, *words], capture_output=True, check=True, timeout=60).stdout


def content(path):
    with open(path, "rb") as file:
        return file.read()


def tables(store):
    return dict(line.split() for line in done("tables", store).decode().splitlines())


def is_acknowledged(words, given, after):
    """Whether the command was acknowledged before it was killed, this many seconds after its beginning."""
    with open(given, "rb") as file:
        running = subprocess.Popen([PROGRAM, *words], stdin=file, stdout=subprocess.PIPE)
        try:
            said, _ = running.communicate(timeout=after)
            answers.require(f"a command `{words[0]}` that was not killed", (running.returncode, said), (0, b"ok\n"))
        except subprocess.TimeoutExpired:
            running.send_signal(signal.SIGKILL)
            said, _ = running.communicate(timeout=60)
    return said == b"ok\n"


def has_one_of(what, store, found, new, there):
    """The tables of a store that can be read are those after a command, or, where that was not acknowledged, those before it."""
    answers.require(f"the tables after {what}", found, there if found == there else new)
    answers.require(f"all can be read after {what}", done("check", store), b"ok\n")


def imports(room):
    store, stream = os.path.join(room, "store"), os.path.join(room, "stream")
    done("format", store, "8192")
    batch, chance = list(range(ROWS)), random.Random(1)
    there, acknowledged, safe, longest = {}, 0, 0, 60
    for turn in range(-UNDISTURBED, ROUNDS):
        name, rows = "abc"[turn % 3], ROWS - UNDISTURBED - turn
        with open(stream, "wb") as file:
            file.write(streams.stream(COLUMN, [[batch[:rows]]]))
        # The first imports are not killed: they say how long the others are left at most.
        began = time.monotonic()
        is_done = is_acknowledged(["import", store, name], stream, chance.uniform(0, longest) if turn >= 0 else 60)
        if turn < 0:
            longest = min(longest, 1.2 * (time.monotonic() - began))
        found, new = tables(store), {**there, name: str(rows)}
        has_one_of(f"import {turn}", store, found, new, None if is_done else there)
        acknowledged += is_done and turn >= 0
        safe += not is_done and found == new
        there = found
    answers.require("some imports are killed before they are acknowledged", acknowledged < ROUNDS, True)
    print(f"{ROUNDS} imports, each killed unless it ended before: {acknowledged} were acknowledged, {safe} more were safe, and the others left the table as it"
          " was.")


def put(path, content):
    with open(path, "wb") as file:
        file.write(content)


def store_for_scripts():
    """The tables t, u and v, and one that is named after a turn."""
    put("row", streams.stream(COLUMN, [[[1]]]))
    put("three", streams.stream(COLUMN, [[[0, 1, 2]]]))
    put("script", b"import t row\nimport u row\nimport v three\ncreate turn a:int32\n")
    done("format", "applied", "8192")
    done("apply", "applied", "script")
    return "applied"


def script_of(turn, there):
    """Ten lines, which change each of these tables, and the tables after them."""
    [last] = there.keys() - set("tuv")
    rows = ROWS - UNDISTURBED - turn
    put("stream", streams.stream(COLUMN, [[list(range(rows))]]))
    put("script", f"""import t.new stream
drop t
rename t.new t
import u stream
append u row
create turn{turn} a:int32
drop {last}
save v v.kept "a >= 0"
drop v
rename v.kept v
""".encode())
    return {f"turn{turn}": "0", "t": str(rows), "u": str(rows + 1), "v": "3"}


def scripts(room):
    os.chdir(room)
    store, chance = store_for_scripts(), random.Random(2)
    there, acknowledged, safe, longest = tables(store), 0, 0, 60
    for turn in range(-UNDISTURBED, SCRIPTS):
        new = script_of(turn, there)
        began = time.monotonic()
        is_done = is_acknowledged(["apply", store, "script"], os.devnull, chance.uniform(0, longest) if turn >= 0 else 60)
        if turn < 0:
            longest = min(longest, 1.2 * (time.monotonic() - began))
        found = tables(store)
        has_one_of(f"script {turn}", store, found, new, None if is_done else there)
        acknowledged += is_done and turn >= 0
        safe += not is_done and found == new
        there = found
    os.chdir("/")
    answers.require("some scripts are killed before they are acknowledged", acknowledged < SCRIPTS, True)
    print(f"{SCRIPTS} scripts of ten lines, each killed unless it ended before: {acknowledged} were acknowledged, {safe} more were safe, and the others left all"
          " tables as they were.")


def sender_of(turn):
    """A store with tables for a turn: one has more rows each time, one has other rows, one has another name. Their numbers of rows."""
    if os.path.exists("sender"):
        os.remove("sender")
    done("format", "sender", str(SECTORS))
    lines, rows = [], ROWS - UNDISTURBED - turn
    for number in range(turn + UNDISTURBED + 1):
        put(f"row{number}", streams.stream(COLUMN, [[[number]]]))
        lines.append(f"append grown row{number}")
    put("stream", streams.stream(COLUMN, [[list(range(rows))]]))
    put("script", "\n".join(["create grown a:int32", *lines, "import replaced stream", f"import turn{turn} stream", f"append turn{turn} row0", ""]).encode())
    done("apply", "sender", "script")
    return {"grown": str(turn + UNDISTURBED + 1), "replaced": str(rows), f"turn{turn}": str(rows + 1)}


def archives(room):
    os.chdir(room)
    done("format", "receiver", str(SECTORS))
    chance, there, acknowledged, safe, longest = random.Random(3), {}, 0, 0, 60
    for turn in range(-UNDISTURBED, ARCHIVES):
        new = sender_of(turn)
        put("had", done("have", "receiver"))
        put("archive", done("send", "sender", "--have", "had"))
        began = time.monotonic()
        is_done = is_acknowledged(["receive", "receiver", "--delete"], "archive", chance.uniform(0, longest) if turn >= 0 else 60)
        if turn < 0:
            longest = min(longest, 1.2 * (time.monotonic() - began))
        found = tables("receiver")
        has_one_of(f"archive {turn}", "receiver", found, new, None if is_done else there)
        acknowledged += is_done and turn >= 0
        safe += not is_done and found == new
        there = found
    os.chdir("/")
    answers.require("some receivers are killed before they have acknowledged their archive", acknowledged < ARCHIVES, True)
    print(f"{ARCHIVES} archives, each receiver killed unless it ended before: {acknowledged} were acknowledged, {safe} more were safe, and the others left all tables"
          " as they were.")


def store_to_copy(room):
    store, stream = os.path.join(room, "old"), os.path.join(room, "stream")
    done("format", store, str(SECTORS))
    for place, name in enumerate(COPIED):
        with open(stream, "wb") as file:
            file.write(streams.stream(COLUMN, [[list(range(place, ROWS))]]))
        answers.require("a table to be copied is imported", is_acknowledged(["import", store, name], stream, 60), True)
    return store


def is_no_store(path):
    """Whether a file is none that a command takes for a store: in its first moments it has no byte, or zeros alone."""
    status, output, said = run("tables", path)
    return (status, output) == (1, b"") and (said == b"refused G2 BadSize\n" or said == b"refused C1 NotAStore\n" and not any(content(path)))


def has_some(path, wanted):
    """Whether a file that is no store has some of the tables, and would be a store but for its length."""
    if os.path.getsize(path) != SECTORS * 512 + 1:
        return False
    os.truncate(path, SECTORS * 512)
    status, _, _ = run("tables", path)
    return status == 0 and 0 < len(tables(path)) < len(wanted)


def is_whole(path, wanted):
    return os.path.getsize(path) == SECTORS * 512 and tables(path) == wanted and done("check", path) == b"ok\n"


def left_of(path, wanted):
    """What is left of a copy. Where it has some of the tables the file is no store, but for its length it would be one."""
    if not os.path.exists(path):
        return "no file"
    if is_no_store(path):
        return "some tables in no store" if has_some(path, wanted) else "no store"
    if is_whole(path, wanted):
        return "all tables"
    return f"a file that is answered with {run('tables', path)}"


def copies(room):
    old, new = store_to_copy(room), os.path.join(room, "new")
    made, wanted = content(old), tables(old)
    left, longest = collections.Counter(), 60
    for turn in range(-UNDISTURBED, COPIES):
        # The first copies are not killed either; the others are at moments that lie evenly.
        began = time.monotonic()
        is_done = is_acknowledged(["copy", old, new, str(SECTORS)], os.devnull, longest * turn / COPIES if turn >= 0 else 60)
        if turn < 0:
            longest = min(longest, 1.2 * (time.monotonic() - began))
        found = left_of(new, wanted)
        answers.require(f"copy {turn} may leave {found}", found in (("all tables",) if is_done else LEFT), True)
        answers.require("the store that is copied", content(old), made)
        left[found] += turn >= 0
        if os.path.exists(new):
            os.remove(new)
    answers.require(f"some copies are killed between two tables, of {dict(left)}", left["some tables in no store"] > 0, True)
    print(f"{COPIES} copies, each killed unless it ended before, left " + ", ".join(f"{found} {number} times" for found, number in left.items()) + ".")


def is_locked(path):
    with open(path, "rb") as file:
        try:
            fcntl.flock(file, fcntl.LOCK_SH | fcntl.LOCK_NB)
        except BlockingIOError:
            return True
    return False


def is_unfinished(path):
    return os.path.exists(path) and os.path.getsize(path) == SECTORS * 512 + 1


def is_stopped_halfway(running, new):
    """Whether a copy could be stopped before its file had the length of a store."""
    while running.poll() is None and not is_unfinished(new):
        pass
    if running.poll() is None:
        running.send_signal(signal.SIGSTOP)
        os.waitpid(running.pid, os.WUNTRACED)
    return is_unfinished(new)


def a_copy_is_locked(room):
    """Its file is locked up to the end, also once it has the byte more, which another handle of it gives and takes."""
    old, new, wanted = os.path.join(room, "old"), os.path.join(room, "new"), tables(os.path.join(room, "old"))
    for _ in range(20):
        with subprocess.Popen([PROGRAM, "copy", old, new, str(SECTORS)], stdin=subprocess.DEVNULL, stdout=subprocess.DEVNULL) as running:
            is_halfway = is_stopped_halfway(running, new)
            is_kept = is_halfway and is_locked(new) and run("tables", new) == (1, b"", b"refused G1 Io\n")
            # Whatever came of it: one that stays stopped would be waited for without end.
            running.send_signal(signal.SIGCONT)
            if is_halfway:
                answers.require("the file of a copy that is stopped is locked", is_kept, True)
                answers.require("a copy that continues after a stop is whole", running.wait(timeout=60) == 0 and is_whole(new, wanted), True)
                print("A copy that was stopped had its file locked, and was whole at its end.")
                return
        os.remove(new)
    answers.compare("a copy can be stopped before its end", False, True)


with tempfile.TemporaryDirectory() as room:
    answers.play((imports, room), (scripts, room), (archives, room), [(copies, room), (a_copy_is_locked, room)])
    os.chdir("/")
sys.exit(answers.tell("killed"))
