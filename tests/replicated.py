#!/usr/bin/env python3
"""replicated.py PROGRAM [CASE ..]: a store on storage that keeps copies of it, or that is reached over a network. It needs root, FUSE, and GlusterFS or nbdkit
with nbdfuse; it says what is missing and what it leaves out, and passes.

turns      a GlusterFS volume of three bricks with the settings of docs/replication.md, mounted twice, as by two machines: appends over both mounts in turn,
           and what each mount shows in between.
at-once    two writers and a reader on each of the two mounts, at once.
late       a command has the file open for some time before it has the lock, also since it waits for it; its machine reads meanwhile, and the other one
           appends.
bricks     the same volume: bricks are killed and brought back while the mounts append; and two of three, so that the volume takes no write.
machine    a machine is lost at each call of an append: the program and its mount are killed.
restarts   all bricks are restarted, one after the other, while a command holds the lock: it is refused then, and what others did stays.
cut-off    a machine is cut off from the network while it holds the lock; others go on, and when it is back its command is refused.
alone      a volume and one mount as GlusterFS makes them: bricks are killed and brought back.
reads, writes, flushes, delays
           a disk that nbdkit serves: some of its reads, writes or flushes fail; it is slow, and the program is killed meanwhile.
server     nbdkit is killed and started again between and within appends.

In each case nothing that was acknowledged is lost, a refused append is there as a whole or not at all, each refusal is one of those that are named, and
`check` answers `ok` at the end. Prints each difference, and last 'N passed, M failed'."""
import argparse
import functools
import json
import os
import random
import signal
import subprocess
import sys
import tempfile
import threading
import time
from concurrent.futures import ThreadPoolExecutor

sys.dont_write_bytecode = True
import disks
import volumes
from running import Answers, chosen_of, parser_of, print_some
from volumes import IMPATIENT, Gluster, NetworkDisk

INSIDE = "--inside"
SECTORS = "8192"
# What docs/replication.md asks for: of the volume, and of each mount.
SETTINGS = ["group db-workload", "client.strict-locks on"]
OPTIONS = ["--direct-io-mode=enable"]
TURNS = 60
DONE, DONE_LINE = (0, b"ok\n"), (0, b"ok")
OF_STORAGE = (b"refused S9 Device", b"refused C4 Device", b"refused G1 Io")
OF_DEVICE = (b"refused S9 Device\n", b"refused C4 Device\n")
LOCKED = b"refused G1 Io\nlocked:"
FIELD, APPEND = ["t", "a:int32"], ["append", "t", "--as", "csv"]
PATIENCE = 60


def text(row):
    return b"a\n%d\n" % row


class Rows:
    """The tables that a store may have, as far as its answers say: one, and more after an append of which nobody knows whether it was done."""
    def __init__(self):
        self.possible, self.next = [()], 0

    def new(self):
        self.next += 1
        return self.next

    def appended(self, row):
        self.possible = [(*rows, row) for rows in self.possible]

    def doubtful(self, row):
        self.possible += [(*rows, row) for rows in self.possible]

    def show(self, rows):
        """Whether a store may have these rows. From then on it has them."""
        is_possible = rows in self.possible
        self.possible = [rows]
        return is_possible


class Case:
    """A store whose rows are known."""
    def __init__(self, program, name):
        self.program, self.name = program, name
        self.answers, self.chance, self.rows = Answers(program, case=name), random.Random(name), Rows()
        self.refusals, self.done, self.patience = 0, 0, PATIENCE

    def compare(self, what, got, wanted):
        self.answers.compare(f"{self.name}, {what}", got, wanted)

    def command(self, path, words):
        return [self.program, words[0], path, *words[1:]]

    def run(self, path, words, given=b"", **extra):
        done = subprocess.run(self.command(path, words), input=given, stdout=subprocess.PIPE, stderr=subprocess.PIPE, timeout=PATIENCE,
                              env={**os.environ, "ARROWSTORE_ADVICE": "1", **extra}, check=False)
        # What is said of a command that is done is no answer.
        return done.returncode, done.stdout + (done.stderr if done.returncode else b"")

    def answer(self, path, words, given=b"", **extra):
        """What a command answers once the lock is free: GlusterFS gives it back some time after its file is closed. Where it never did, later commands wait
        for a second."""
        end = time.monotonic() + self.patience
        while True:
            status, said = self.run(path, words, given, **extra)
            if not said.startswith(LOCKED):
                return status, said
            if time.monotonic() > end:
                self.patience = 1
                return status, said
            time.sleep(0.02)

    def change(self, path, words):
        self.compare(" ".join(words), self.answer(path, words), DONE)

    def begin(self, path, version="2"):
        self.change(path, ["format", SECTORS, "--format-version", version])
        self.change(path, ["create", *FIELD])

    def append(self, path, may_fail=False):
        """Appends a row. Where the storage may fail, the answer is `ok` or a refusal of the storage; whether it is `ok`."""
        row = self.rows.new()
        status, said = self.answer(path, APPEND, text(row))
        line = said.split(b"\n")[0]
        self.compare(f"row {row}", (status, line), DONE_LINE if not may_fail or status == 0 else (1, line if line in OF_STORAGE else OF_STORAGE))
        self.note(row, status, line)
        return status == 0

    def note(self, row, status, line):
        if status == 0:
            self.rows.appended(row)
            self.done += 1
        else:
            self.refusals += 1
            if line == b"refused S9 Device":
                self.rows.doubtful(row)

    def append_until_done(self, path):
        """Rows until the storage takes one again, or something is wrong."""
        end, is_last = time.monotonic() + self.patience, False
        while not self.append(path, may_fail=not is_last) and not is_last and not self.answers.wrong:
            time.sleep(0.2)
            is_last = time.monotonic() > end

    def look(self, path, is_checked=True):
        """The store can be read, and has rows that it may have."""
        if is_checked:
            self.compare("check", self.answer(path, ["check"]), DONE)
        status, said = self.answer(path, ["query", "t"])
        rows = tuple(int(line[1:-1]) for line in said.split()) if status == 0 else said
        self.compare("the rows that are shown", self.rows.show(rows) or rows, True)


class Shared(Case):
    """A store on a volume that is mounted twice."""
    def __init__(self, program, name, settings=(), options=OPTIONS, mounts=2, is_other=False):
        super().__init__(program, name)
        self.volume, self.options = Gluster([*SETTINGS, *settings] if options else []), options
        self.mounts = [self.volume.mount(f"mount{place}", options, is_other and place == 0) for place in range(mounts)]

    def path(self, turn):
        return os.path.join(self.mounts[turn % len(self.mounts)].path, "store")

    def end(self):
        """All mounts show the same at the end, and all copies are alike."""
        for place in range(len(self.mounts)):
            self.look(self.path(place))
        self.volume.wait_for_copies("store")
        self.compare("the copies", volumes.content(os.path.join(self.volume.bricks[0], "store")) == volumes.content(self.path(0)), True)
        for mount in self.mounts:
            mount.end()


def turns(program, name, count=TURNS):
    """Each mount reads after some of the appends of the other, and so keeps what it may keep."""
    case = Shared(program, name)
    case.begin(case.path(0))
    for turn in range(count):
        case.append(case.path(turn))
        if turn % 4 == 1:
            case.look(case.path(case.chance.randrange(2)), is_checked=case.chance.random() < 0.5)
    case.end()
    return case


def at_once(program, name):
    case = Shared(program, name)
    case.begin(case.path(0), "1")
    for number in range(4):
        case.change(case.path(number), ["create", f"w{number}", "a:int32"])
    acknowledged, end, wrong = [0] * 4, time.monotonic() + 10, []

    def write(number):
        while time.monotonic() < end:
            answer = case.answer(case.path(number), ["append", f"w{number}", "--as", "csv"], text(acknowledged[number]))
            if answer != DONE:
                wrong.append(answer)
                return
            acknowledged[number] += 1

    def read(number):
        while time.monotonic() < end:
            before = list(acknowledged)
            status, said = case.answer(case.path(number), ["tables"])
            rows = [int(line.split()[1]) for line in said.splitlines() if line.startswith(b"w")] if status == 0 else said
            if status or any(there < wanted for there, wanted in zip(rows, before)):
                wrong.append((rows, before))

    threads = [threading.Thread(target=what, args=(number,)) for what, most in ((write, 4), (read, 2)) for number in range(most)]
    for thread in threads:
        thread.start()
    for thread in threads:
        thread.join()
    case.compare("what writers and readers met", wrong[:1], [])
    for number, count in enumerate(acknowledged):
        case.compare(f"writer {number}", case.answer(case.path(number + 1), ["query", f"w{number}"]), (0, b"".join(b"[%d]\n" % row for row in range(count))))
    case.compare("all writers wrote", min(acknowledged) > 0, True)
    case.done += sum(acknowledged)
    case.end()
    return case


def late_lock():
    """The library with which a command is late with its lock or its syncs."""
    library = os.path.join(disks.ROOM.name, "late_lock.so")
    if not os.path.exists(library):
        subprocess.run(["gcc", "-O1", "-shared", "-fPIC", "-o", library, os.path.join(volumes.HERE, "late_lock.c")], check=True)
    return library


def late(program, name):
    """What its machine has kept of the file since it was opened is old when the lock is there."""
    case, library = Shared(program, name), late_lock()
    case.begin(case.path(0))
    tried = 0
    for turn in range(4):
        path, other, row = case.path(turn), case.path(turn + 1), case.rows.new()
        with tempfile.TemporaryDirectory() as room, ThreadPoolExecutor(1) as pool:
            opened, lock = (os.path.join(room, file) for file in ("opened", "lock"))
            running = pool.submit(case.run, path, APPEND, text(row), LD_PRELOAD=library, LATE_OPENED=opened, LATE_LOCK=lock)
            volumes.wait_until("an open file", lambda: os.path.exists(opened))
            case.look(path)
            for _ in range(2):
                case.append(other)
            time.sleep(1)
            volumes.put(lock)
            answer = running.result()
        if not answer[1].startswith(LOCKED):
            case.compare("a late command", answer, DONE)
            case.note(row, 0, b"ok")
            tried += 1
        case.look(case.path(case.chance.randrange(2)))
    case.compare("some late commands had the lock", tried > 0, True)
    for _ in range(2):
        wait_behind(case)
        case.look(case.path(case.chance.randrange(2)))
    case.end()
    return case


def wait_behind(case):
    """A command waits while another machine has the lock. Meanwhile its machine reads the file, and then the other one appends."""
    held, row = Held(case, case.path(0)), case.rows.new()
    with ThreadPoolExecutor(1) as pool:
        running = pool.submit(case.run, case.path(1), [*APPEND, "--wait"], text(row))
        time.sleep(0.5)
        volumes.content(case.path(1))
        case.compare("a command that waits", running.done(), False)
        case.compare("a command that had the lock", (held.ended(), held.running.returncode), (DONE[1], 0))
        case.note(held.row, *DONE_LINE)
        case.compare("a command that waited", running.result(), DONE)
        case.note(row, *DONE_LINE)


def fail_bricks(case):
    """One brick is gone, and back; then two, and the volume takes no write."""
    case.begin(case.path(0))
    for place in range(3):
        case.volume.kill(place)
        for turn in range(4):
            case.append(case.path(turn), may_fail=True)
        case.look(case.path(place))
        case.volume.bring_back(case.mounts)
        case.append(case.path(place), may_fail=True)
    for lost in ((0, 1), (1, 2)):
        case.volume.kill(*lost)
        for turn in range(4):
            case.compare(f"an append without bricks {lost}", case.append(case.path(turn), may_fail=True), False)
        case.volume.bring_back(case.mounts)
        for turn in range(2):
            case.append_until_done(case.path(turn))
        case.look(case.path(lost[0]))
    for turn in range(4):
        case.append(case.path(turn))
    case.end()


def bricks(program, name):
    case = Shared(program, name)
    fail_bricks(case)
    return case


def alone(program, name):
    case = Shared(program, name, options=[], mounts=1)
    fail_bricks(case)
    return case


def calls_of_an_append(case):
    """Its writes and syncs, by their numbers."""
    disk = disks.Disk(case.program)
    for words, given in ((["format", "STORE", SECTORS], b""), (["create", "STORE", *FIELD], b""), (["append", "STORE", *APPEND[1:]], text(1))):
        _, _, calls = disk.run(words, given)
    return [call.number for call in calls if call.kind in "wsS"]


def machine(program, name):
    case = Shared(program, name)
    case.begin(case.path(0))
    calls = calls_of_an_append(case)
    case.compare("the calls of an append", len(calls) > 5, True)
    for turn, number in enumerate(calls):
        row, lost = case.rows.new(), turn % 2
        case.append(case.path(lost))
        with tempfile.TemporaryDirectory() as model:
            path = case.path(lost)
            fault = {"LD_PRELOAD": disks.library(), "DISK": model, "DISK_FILE": path, "DISK_CALL": str(number), "DISK_HOW": "killed"}
            case.compare(f"killed after call {number}", case.answer(path, APPEND, text(row), **fault), (-signal.SIGKILL, b""))
        case.rows.doubtful(row)
        case.mounts[lost].lose()
        if case.chance.random() < 0.5:
            case.look(case.path(lost + 1))
        case.append(case.path(lost + 1))
        case.mounts[lost] = case.volume.mount(f"mount{lost}", case.options)
        case.look(case.path(lost))
    case.end()
    return case


class Held:
    """An append that has the lock, and waits before its first sync. Its input is a file: with a pipe it would give the lock back before it changes anything."""
    def __init__(self, case, path):
        self.case, self.row = case, case.rows.new()
        folder = tempfile.mkdtemp(dir=disks.ROOM.name)
        self.sync, self.input = os.path.join(folder, "sync"), os.path.join(folder, "row")
        with open(self.input, "wb") as file:
            file.write(text(self.row))
        volumes.wait_until("the lock", lambda: self.is_held(path))

    def is_held(self, path):
        """Whether an append that is begun now has the lock: what another mount asks for is refused, and it has not ended."""
        settings = {**os.environ, "LD_PRELOAD": late_lock(), "LATE_SYNC": self.sync}
        with open(self.input, "rb") as file:
            self.running = subprocess.Popen(self.case.command(path, APPEND), stdin=file, stdout=subprocess.PIPE, stderr=subprocess.STDOUT, env=settings)
        for _ in range(10):
            time.sleep(0.1)
            if self.case.run(self.case.path(1), APPEND)[1].startswith(LOCKED) and self.running.poll() is None:
                return True
        self.running.kill()
        self.running.communicate()
        return False

    def ended(self):
        """Its sync goes on; what it says."""
        volumes.put(self.sync)
        return self.running.communicate(timeout=PATIENCE)[0]

    def go_on(self, what):
        """Its storage is not what it was when it goes on: it is refused, and nothing has changed."""
        said = self.ended()
        self.case.compare(what, (self.running.returncode, said if said in OF_DEVICE else OF_DEVICE), (1, said))


def restarts(program, name):
    case = Shared(program, name)
    case.begin(case.path(0))
    for turn in range(2):
        case.append(case.path(turn))
        held = Held(case, case.path(0))
        for place in range(3):
            case.volume.kill(place)
            case.volume.bring_back(case.mounts)
        for _ in range(2):
            case.append_until_done(case.path(1))
        held.go_on("a command whose lock is gone")
        case.look(case.path(turn))
        case.append(case.path(0))
    case.end()
    return case


def cut_off(program, name):
    case = Shared(program, name, IMPATIENT, is_other=True)
    case.begin(case.path(0))
    for turn in range(2):
        case.append(case.path(turn))
        held = Held(case, case.path(0))
        case.volume.network.cut()
        for _ in range(2):
            case.append_until_done(case.path(1))
        case.volume.network.join()
        if turn:
            case.volume.wait_for(case.mounts[0])
        held.go_on("a command whose machine was cut off")
        case.append_until_done(case.path(0))
        case.look(case.path(turn))
    case.end()
    return case


# A disk over the network.

# The system asks three times for what it can't read.
SERVED = {
    "reads": ["--filter=error", "file", "FILE", "error-pread=EIO", "error-pread-rate=50%", "error-file=FAILS"],
    "writes": ["--filter=error", "file", "FILE", "error-pwrite=EIO", "error-pwrite-rate=10%", "error-file=FAILS"],
    "delays": ["--filter=delay", "file", "FILE", "rdelay=3ms", "wdelay=20ms"],
    "server": ["file", "FILE"],
}
# No filter fails flushes: a server of this script's own, each of whose flushes fails with a chance of one in four while FAILS is there.
FLUSHES = [
    "eval", "can_write=exit 0", "can_flush=exit 0", "get_size=stat -Lc %s FILE",
    "pread=dd if=FILE iflag=skip_bytes,count_bytes skip=$4 count=$3 status=none", "pwrite=dd of=FILE oflag=seek_bytes seek=$4 conv=notrunc status=none",
    "flush=if [ -e FAILS ] && [ $(($(od -An -N1 -tu1 /dev/urandom) % 4)) = 0 ]; then echo EIO >&2; exit 1; fi",
]


class Remote(Case):
    """A store on a disk that nbdkit serves; while the file FAILS is there, the disk fails."""
    def __init__(self, program, name, words):
        super().__init__(program, name)
        folder = volumes.room()
        file, self.fails = os.path.join(folder, "file"), os.path.join(folder, "fails")
        self.begin(file)
        self.disk = NetworkDisk(file, [word.replace("FILE", file).replace("FAILS", self.fails) for word in words])

    def set_failing(self, does_fail):
        if does_fail:
            volumes.put(self.fails)
        elif os.path.exists(self.fails):
            os.remove(self.fails)

    def end(self):
        self.set_failing(False)
        self.look(self.disk.path)
        self.append(self.disk.path)
        self.disk.end()
        self.look(self.disk.file)


def failing_disk(words, count, program, name):
    """Each append may be refused. Some of what is in doubt is looked at, some is not before the next change."""
    case = Remote(program, name, words)
    for turn in range(count):
        case.disk.drop_pages()
        case.set_failing(True)
        case.append(case.disk.path, may_fail=True)
        case.set_failing(False)
        if turn % 3 == 0:
            case.look(case.disk.path)
        elif turn % 3 == 1:
            case.append(case.disk.path)
    case.compare("some were refused and some were done", (case.refusals > 0, case.done > count // 3), (True, True))
    case.end()
    return case


def delays(words, program, name):
    """The program is killed at some time of an append."""
    case = Remote(program, name, words)
    started = time.monotonic()
    case.append(case.disk.path)
    taken = time.monotonic() - started
    for _ in range(TURNS // 2):
        row = case.rows.new()
        running = subprocess.Popen(case.command(case.disk.path, APPEND), stdin=subprocess.PIPE, stdout=subprocess.PIPE)
        running.stdin.write(text(row))
        running.stdin.close()
        time.sleep(case.chance.random() * 1.2 * taken)
        running.kill()
        said = running.stdout.read()
        running.wait(timeout=PATIENCE)
        case.note(row, *((0, b"ok") if said == b"ok\n" else (1, b"refused S9 Device")))
        if case.chance.random() < 0.5:
            case.look(case.disk.path)
    case.end()
    return case


def server(words, program, name):
    """The server is killed while appends run, and started again."""
    case = Remote(program, name, words)
    for _ in range(8):
        path = case.disk.path
        with ThreadPoolExecutor(1) as pool:
            killed = pool.submit(lambda: (time.sleep(case.chance.random() * 0.1), case.disk.kill()))
            while not killed.done():
                case.append(path, may_fail=True)
            killed.result()
        case.compare("an append without the server", case.append(path, may_fail=True), False)
        case.disk.begin()
        case.append(case.disk.path)
        case.look(case.disk.path)
    case.end()
    return case


OF_VOLUMES = {"turns": turns, "at-once": at_once, "late": late, "bricks": bricks, "machine": machine, "restarts": restarts, "cut-off": cut_off, "alone": alone}
OF_DISKS = {
    "reads": functools.partial(failing_disk, SERVED["reads"], TURNS), "writes": functools.partial(failing_disk, SERVED["writes"], TURNS),
    "flushes": functools.partial(failing_disk, FLUSHES, TURNS // 3), "delays": functools.partial(delays, SERVED["delays"]),
    "server": functools.partial(server, SERVED["server"]),
}


def play(program, name, count):
    """Plays a case in this process, and writes what it found for the one that started it."""
    started = time.monotonic()
    playing = {**OF_VOLUMES, **OF_DISKS}[name]
    case = playing(program, name, count) if name == "turns" else playing(program, name)
    print(json.dumps([case.answers.passed, case.answers.wrong, case.done, case.refusals, round(time.monotonic() - started, 1)]))


def played(program, count, folder, name):
    status, said = volumes.apart([os.path.abspath(__file__), program, name, INSIDE, "--turns", str(count)], folder)
    if status:
        return 0, [f"{name}: status {status}: {said.strip()}"], 0, 0, 0
    return json.loads(said.splitlines()[-1])


def chosen_cases(given):
    """Those that are asked for and that this machine can play. Says which it cannot, and why."""
    asked = chosen_of([*OF_VOLUMES, *OF_DISKS], given)
    for what, cases, lacks in (("GlusterFS", OF_VOLUMES, volumes.lacks_for_volumes), ("nbdkit", OF_DISKS, volumes.lacks_for_disks)):
        chosen = [name for name in cases if name in asked]
        missing = lacks() if chosen else None
        if missing:
            print(f"replicated: the cases of {what} are skipped, since there is no {missing}")
        else:
            yield from chosen


def main():
    parser = parser_of(__doc__)
    parser.add_argument("--turns", type=int, default=TURNS, help="how many rows the case `turns` appends")
    parser.add_argument("--processes", type=int, default=os.cpu_count(), help="how many cases are played at once")
    parser.add_argument(INSIDE, action="store_true", help=argparse.SUPPRESS)
    given = parser.parse_intermixed_args()
    program = given.program
    if given.inside:
        play(program, given.cases[0], given.turns)
        return 0
    cases, passed, failed = list(chosen_cases(given)), 0, 0
    with tempfile.TemporaryDirectory() as folder, ThreadPoolExecutor(given.processes) as pool:
        for name, (right, wrong, done, refused, seconds) in zip(cases, pool.map(functools.partial(played, program, given.turns, folder), cases)):
            print_some(name, wrong)
            print(f"{name}: {done} rows acknowledged, {refused} refused, in {seconds} seconds")
            passed, failed = passed + right, failed + len(wrong)
    print(f"replicated: {passed} passed, {failed} failed")
    return 1 if failed else 0


if __name__ == "__main__":
    sys.exit(main())
