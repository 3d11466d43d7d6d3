#!/usr/bin/env python3
"""failing_disks.py PROGRAM [CASE ..]: the program on real file systems (ext4, xfs, ext2) on a disk that fails writes and is cut from its power, and on a file
system that two machines share. It needs root, FUSE and loop devices; without them it says what is missing, and passes: then tests/power_cuts.py, which has a
model of the same faults, stands alone.

commit    the write of the commit fails, once or three times. Linux then shows the new commit, counts it as written, and the disk has the old one.
data      the writes of the rows fail, once or until the disk is healed; then the same command again.
kill      the program is killed after each write and sync; then writing back what it left fails as well, and another program is told of that or none.
          After each of these: the power is cut at writes and flushes of the disk, and what it then has is mounted, which replays the journal: it has the tables
          as before or as after. Then the store is checked, or it is not; and changed, which is cut again; and the file system is mounted anew. What is shown
          after the check, and once the change is acknowledged, must stay.
shared    a file system that is mounted twice and keeps what it has read until a file is opened again, as NFS and plain FUSE do: each mount sees what was
          acknowledged over the other one, also if a command has its file open for some time before it has the lock. Not shown is a file system that keeps pages over an opening although another machine has changed the file: there
          the program loses tables.

A case is FILESYSTEM-FAULT-VERSION-LAYOUT-THEN, as `ext4-commit-2-whole-checked`, where * stands for any letters. Prints each difference, and last 'N passed,
M failed'."""
import argparse
import atexit
import functools
import itertools
import os
import random
import shutil
import signal
import subprocess
import sys
import tempfile
import time

sys.dont_write_bytecode = True
import block_disks
import disks
import streams
from block_disks import BlockDisk, MountedImage, Served
from disks import Disk, content, synced
from running import Answers, chosen_of, parser_of, play_cases

SECTORS = 1024
USED = 32
COLUMN = [("a", "int32", False)]
DONE = (0, b"ok\n")
C4 = (1, b"refused C4 Device\n")
INSIDE = "--inside"
CUTS = 3
TURNS = 60
# Commands that have the lock late.
LATE = 4
NEEDED = ["unshare", "setpriv", "mount", "umount", "gcc", "pkg-config", "fusermount3", "mkfs.ext4", "mkfs.ext2", "mkfs.xfs"]


def rows(number, first=0):
    return streams.stream(COLUMN, [[list(range(first, first + number))]])


DOUBTFUL = ["import", "STORE", "t"], rows(9000, 9)
NEXT = ["import", "STORE", "v"], rows(300)
CHECK = ["check", "STORE"]
# The file is as `format` leaves it, or written in one piece; what is in doubt is checked first, or changed at once.
WAYS = {1: ("formatted-checked", "whole-changed"), 2: ("formatted-changed", "whole-checked")}


def run(program, path, words, given=b"", **extra):
    command = [program, *(path if word == "STORE" else word for word in words)]
    done = subprocess.run(command, input=given, stdout=subprocess.PIPE, stderr=subprocess.STDOUT, env={**os.environ, **extra}, timeout=60)
    return done.returncode, done.stdout


def lines_of(tables):
    return b"".join(b"%s %d\n" % table for table in sorted(tables.items()))


BEFORE = {b"keep": 600, b"t": 150, b"wide": 0}
AFTER = {**BEFORE, b"t": 9000}
BOTH = [BEFORE, AFTER]


def changed(tables, command):
    """The tables after the doubtful command, or after the next one."""
    return AFTER if command is DOUBTFUL else {**tables, b"v": 300}


def make_store(program, path, version):
    """A store whose commits share their page with a table that stays and with a sector that the list of the tables does not fit into: no later command writes
    that page but to commit."""
    fields = [f"a_column_with_a_long_name_{place}:int64?" for place in range(8)]
    steps = [(["format", "STORE", str(SECTORS), "--format-version", str(version)], b""), (["import", "STORE", "keep"], rows(600)),
             (["create", "STORE", "wide", *fields], b""), (["import", "STORE", "t"], rows(100)), (["append", "STORE", "t"], rows(50))]
    for words, given in steps:
        if run(program, path, words, given) != DONE:
            sys.exit(f"{words} is not done")


def make_disk(program, kind, version):
    """A file system with the store before the doubtful command."""
    path = disk_path(kind, version)
    block_disks.make_file_system(kind, path)
    with MountedImage(kind, path) as folder:
        make_store(program, os.path.join(folder, "store"), version)


def disk_path(kind, version):
    return os.path.join(disks.ROOM.name, f"{kind}-{version}")


def write_whole(path):
    """The same file, written by one long write, as `cp` and a backup do: the system keeps long pages of it."""
    made = content(path)
    with open(f"{path}.new", "wb", buffering=0) as file:
        file.write(made)
        os.fsync(file.fileno())
    os.rename(f"{path}.new", path)
    folder = os.open(os.path.dirname(path), os.O_RDONLY)
    os.fsync(folder)
    os.close(folder)


class Case:
    """One fault of one store on one file system."""
    def __init__(self, program, name):
        self.name, self.program = name, program
        self.kind, self.fault, self.version, self.layout, self.then = name.split("-")[:5]
        self.answers, self.chance, self.images = Answers(program, case=name), random.Random(name), 0
        self.disk = BlockDisk(self.kind, disk_path(self.kind, self.version))
        if self.layout == "whole":
            write_whole(self.disk.path)
        # To ask for them is to sync the file.
        self.extents = self.disk.extents()
        self.differs("the sectors that were written", sum(size for _, _, size in self.extents) // 512, SECTORS)

    def differs(self, what, got, wanted):
        self.answers.compare(f"{self.name}, {what}", got, wanted)

    def run(self, words, given=b"", **extra):
        return run(self.program, self.disk.path, words, given, **extra)

    def told(self, tables):
        names = ((BEFORE, "as before"), (AFTER, "as after"), ({**BEFORE, b"v": 300}, "as before, and the next change"),
                 ({**AFTER, b"v": 300}, "as after, and the next change"))
        lines = {lines_of(named): name for named, name in names}
        return lines.get(tables, tables.decode().strip().replace("\n", ", "))

    def opened(self, path, words, given=b""):
        """What a command answers. A failure that the system told to nobody may be told to its opening, which is refused then."""
        answer = run(self.program, path, words, given)
        return run(self.program, path, words, given) if answer == C4 else answer

    def shown(self, what, path, allowed):
        """Those of these tables that the program shows of a file: one of them."""
        _, lines = self.opened(path, ["tables", "STORE"])
        shown = [tables for tables in allowed if lines_of(tables) == lines][:1]
        wanted = " or ".join(self.told(lines_of(tables)) for tables in allowed)
        self.differs(what, self.told(lines), self.told(lines) if shown else wanted)
        return shown

    def judge(self, what, path, allowed):
        """A check, and then what the program shows of a file: one of these tables, all of which can be read."""
        self.differs(f"{what}, check", self.opened(path, CHECK), DONE)
        return self.shown(what, path, allowed)

    def cut(self, what, start, allowed, most=CUTS):
        """Power cuts since `start`, by the journal of the file system."""
        for moment, image in self.disk.cut_images(start, most, self.chance):
            self.images += 1
            with MountedImage(self.kind, image) as folder:
                self.judge(f"{what}, cut at write {moment} of the disk", os.path.join(folder, "store"), allowed)

    def after_doubt(self, what, start, allowed, command=NEXT):
        """What may come after a command of which nobody knows whether it was done."""
        self.cut(f"{what}, cut at once", start, allowed)
        opened = self.checked(what, allowed) if self.then == "checked" else allowed
        start = self.disk.writes()
        self.differs(f"{what}, another change", self.opened(self.disk.path, *command), DONE)
        done = self.shown(f"{what}, after another change", self.disk.path, [changed(tables, command) for tables in opened])
        self.cut(f"{what}, in another change", start, [*opened, *done])
        self.cut(f"{what}, after another change", self.disk.writes(), done, 0)
        self.disk.mount_anew()
        self.judge(f"{what}, mounted anew after another change", self.disk.path, done)

    def checked(self, what, allowed):
        """What is shown after a check, which stays."""
        start = self.disk.writes()
        shown = self.judge(f"{what}, checked", self.disk.path, allowed)
        self.cut(f"{what}, in a check", start, allowed)
        self.cut(f"{what}, checked", self.disk.writes(), shown, 0)
        return shown

    def end(self):
        self.disk.end()

    # The faults.

    def commit(self, times=1):
        start = self.disk.writes()
        self.disk.fail(block_disks.place_of(0, self.extents), block_disks.BLOCK, times, syncs_before_commit(self.program, self.disk.path))
        self.differs("the doubtful command", self.run(*DOUBTFUL), (1, b"refused S9 Device\n"))
        if times > 1:
            self.differs("a check before the disk is healed", self.run(CHECK), C4)
            self.differs("a change before the disk is healed", self.run(*NEXT), C4)
        self.disk.heal()
        self.shown("the commit was not written, in doubt", self.disk.path, BOTH)
        self.after_doubt("the commit was not written", start, BOTH)

    def commitlater(self):
        self.commit(3)

    def data(self, times=1):
        start = self.disk.writes()
        self.fail_rows(times)
        self.differs("the doubtful command", self.run(*DOUBTFUL), (1, b"refused S9 Device\n"))
        if times < 0:
            self.differs("the same before the disk is healed", self.run(*DOUBTFUL), (1, b"refused S9 Device\n"))
        self.disk.heal()
        self.shown("the rows were not written, in doubt", self.disk.path, [BEFORE])
        self.after_doubt("the rows were not written", start, [BEFORE], DOUBTFUL)

    def fail_rows(self, times):
        """Writes of the sectors behind those of the tables as before fail."""
        for start, place, size in self.extents:
            kept = max(USED * 512 - start, 0)
            if kept < size:
                self.disk.fail(place + kept, size - kept, times)

    def datalater(self):
        self.data(-1)

    def kill(self):
        *_, number, then = self.name.split("-")
        start = self.disk.writes()
        with tempfile.TemporaryDirectory(dir=disks.ROOM.name) as room:
            self.run(*DOUBTFUL, LD_PRELOAD=disks.library(), DISK=room, DISK_FILE=self.disk.path, DISK_CALL=number, DISK_HOW="killed")
        if then != "left":
            self.lose(then)
        self.after_doubt(f"killed after call {number}", start, BOTH)

    def lose(self, then):
        """Writing back what is left in memory fails; and another program that syncs the file is told so, or nobody."""
        for _, place, size in self.extents:
            self.disk.fail(place, size, -1)
        subprocess.run(["sync", *(["--data"] if then == "told" else ["--file-system"]), self.disk.path], stderr=subprocess.DEVNULL, check=False, timeout=60)
        self.disk.heal()


def late_lock():
    return os.path.join(disks.ROOM.name, "late_lock.so")


class Shared:
    """One store in a folder that is mounted twice, by changes over the one and the other mount in turn."""
    def __init__(self, program, name):
        self.name, self.program = name, program
        _, self.version, writes = name.split("-")
        self.answers, self.chance, self.images = Answers(program, case=name), random.Random(name), 0
        self.room = tempfile.mkdtemp(dir=disks.ROOM.name)
        folder = os.path.join(self.room, "folder")
        os.mkdir(folder)
        self.mounts = [Served("caching_mount", [folder, writes], os.path.join(self.room, place)) for place in ("one", "other")]
        self.tables = {}

    def run(self, turn, words, given=b""):
        """A lock is given back some time after its file is closed."""
        path = os.path.join(self.mounts[turn % 2].mount, "store")
        for _ in range(200):
            answer = run(self.program, path, words, given)
            if answer[1] != b"refused G1 Io\n":
                break
            time.sleep(0.01)
        return answer

    def change(self, turn, words, given, tables):
        self.answers.compare(f"{self.name}, turn {turn}: {words[0]}", self.run(turn, words, given), DONE)
        self.tables = tables

    def some_change(self, turn):
        name = self.chance.choice("tuv").encode()
        words, number = ["STORE", name.decode()], self.chance.randrange(1, 2000)
        if name not in self.tables or self.chance.random() < 0.2:
            self.change(turn, ["import", *words], rows(number), {**self.tables, name: number})
        elif self.chance.random() < 0.2:
            self.change(turn, ["drop", *words], b"", {other: there for other, there in self.tables.items() if other != name})
        else:
            self.change(turn, ["append", *words], rows(number), {**self.tables, name: self.tables[name] + number})

    def look(self, turn):
        self.answers.compare(f"{self.name}, turn {turn}: tables", self.run(turn, ["tables", "STORE"]), (0, lines_of(self.tables)))
        self.answers.compare(f"{self.name}, turn {turn}: check", self.run(turn, ["check", "STORE"]), DONE)

    def late(self, turn):
        """A command has its file open and waits for the lock; its machine reads meanwhile, and keeps what it reads, and the other machine appends. Whether
        the command had the lock then."""
        opened, lock = (os.path.join(tempfile.mkdtemp(dir=self.room), name) for name in ("opened", "lock"))
        settings = {"LD_PRELOAD": late_lock(), "LATE_OPENED": opened, "LATE_LOCK": lock}
        words = [self.program, "append", os.path.join(self.mounts[turn % 2].mount, "store"), "t"]
        with subprocess.Popen(words, stdin=subprocess.PIPE, stdout=subprocess.PIPE, stderr=subprocess.STDOUT, env={**os.environ, **settings}) as running:
            while not os.path.exists(opened) and running.poll() is None:
                time.sleep(0.01)
            self.look(turn)
            self.change(turn + 1, ["append", "STORE", "t"], rows(turn + 1), {**self.tables, b"t": self.tables[b"t"] + turn + 1})
            time.sleep(0.3)
            disks.put(lock, b"")
            said, _ = running.communicate(rows(100), timeout=60)
        if said == b"refused G1 Io\n":
            return False
        self.answers.compare(f"{self.name}, a late command", (running.returncode, said), DONE)
        self.tables = {**self.tables, b"t": self.tables[b"t"] + 100}
        self.look(turn + 1)
        return True

    def shared(self):
        self.change(0, ["format", "STORE", str(4 * SECTORS), "--format-version", self.version], b"", {})
        for turn in range(TURNS):
            self.some_change(self.chance.randrange(2))
            self.look(self.chance.randrange(2))
        self.change(0, ["import", "STORE", "t"], rows(1000), {**self.tables, b"t": 1000})
        self.answers.compare(f"{self.name}: some late commands had the lock", any([self.late(turn) for turn in range(LATE)]), True)

    def end(self):
        for mount in self.mounts:
            mount.end()


def calls_of(program, made):
    """The calls of the doubtful command on a store."""
    disk = Disk(program)
    disk.put(synced(made))
    return disk.run(*DOUBTFUL)[2]


def syncs_before_commit(program, path):
    """How many syncs before the last one write something into the block of the commits."""
    syncs, is_dirty = [], False
    for call in calls_of(program, content(path)):
        is_dirty = is_dirty or call.kind == "w" and call.place == 0
        if call.kind == "s":
            syncs.append(is_dirty)
            is_dirty = False
    return sum(syncs[:-1])


def names(kills):
    ways = itertools.cycle(WAYS[2])
    for kind in ("ext4", "xfs", "ext2"):
        for fault in ("commit", "commitlater", "data", "datalater"):
            yield from (f"{kind}-{fault}-{version}-{way}" for version in WAYS for way in WAYS[version])
        for number, left in itertools.product(kills, ("left", "told", "untold")):
            yield f"{kind}-kill-2-{next(ways)}-{number}-{left}"
    yield from (f"shared-{version}-{writes}" for version in (1, 2) for writes in ("through", "back"))


def kills_of(program):
    """The writes and syncs of the doubtful command, by their numbers."""
    with tempfile.TemporaryDirectory(dir=disks.ROOM.name) as room:
        path = os.path.join(room, "store")
        make_store(program, path, 2)
        return [call.number for call in calls_of(program, content(path)) if call.kind in "wsS"]


def played(program, name):
    case = (Shared if name.startswith("shared") else Case)(program, name)
    try:
        getattr(case, case.name.split("-")[0 if isinstance(case, Shared) else 1])()
    finally:
        case.end()
    return case.answers.passed, case.images, case.answers.wrong


def missing():
    """What is needed and is not there, in words; nothing if all is."""
    if os.geteuid() != 0:
        return "root"
    for path in ("/dev/fuse", "/dev/loop-control"):
        if not os.path.exists(path):
            return path
    for name in NEEDED:
        if shutil.which(name, path=f"{os.environ.get('PATH', '')}:/usr/sbin:/sbin") is None:
            return name
    if subprocess.run(["pkg-config", "--exists", "fuse3"], check=False).returncode:
        return "libfuse3-dev"
    return None


def within(words):
    """Runs this script where all mounts and all processes end with it, however it ends; so do the loop devices, which the mounts alone keep."""
    signal.signal(signal.SIGTERM, lambda *_: sys.exit(1))
    apart = ["setpriv", "--pdeathsig", "KILL", "unshare", "--mount", "--propagation", "private", "--pid", "--fork", "--kill-child", "--mount-proc"]
    with open("/proc/self/ns/mnt", "rb") as before:
        settings = {**os.environ, block_disks.BEFORE: str(before.fileno()), "TMPDIR": disks.ROOM.name}
        command = [*apart, sys.executable, os.path.abspath(__file__), INSIDE, *words]
        return subprocess.run(command, env=settings, pass_fds=[before.fileno()], check=False).returncode


def keep_in_memory():
    """What the tests make goes into a mount of theirs, and so away with it."""
    block_disks.quiet("mount", "-t", "tmpfs", "failing_disks", disks.ROOM.name)
    atexit.register(subprocess.run, ["umount", "--lazy", disks.ROOM.name], check=False)


def main():
    parser = parser_of(__doc__)
    parser.add_argument("--processes", type=int, default=os.cpu_count(), help="how many cases are played at once")
    parser.add_argument(INSIDE, action="store_true", help=argparse.SUPPRESS)
    given = parser.parse_intermixed_args()
    lacks = missing()
    if lacks:
        print(f"failing disks: skipped, since there is no {lacks}; tests/power_cuts.py has a model of these faults")
        return 0
    if not given.inside:
        return within(sys.argv[1:])
    keep_in_memory()
    program = given.program
    chosen = chosen_of(names(kills_of(program)), given)
    for name in ("block_disk", "caching_mount"):
        block_disks.server(name)
    disks.library()
    subprocess.run(["gcc", "-O1", "-shared", "-fPIC", "-o", late_lock(), os.path.join(disks.HERE, "late_lock.c")], check=True)
    for kind, version in {tuple(name.split("-")[::2][:2]) for name in chosen if not name.startswith("shared")}:
        make_disk(program, kind, version)
    return 0 if play_cases("failing disks", functools.partial(played, program), chosen, given.processes)[1] else 1


if __name__ == "__main__":
    sys.exit(main())
