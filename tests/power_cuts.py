#!/usr/bin/env python3
"""power_cuts.py PROGRAM [CASE ..]: the program on a disk that fails, in a model of the system's pages and the disk (tests/disk_model.c).

cuts     each change of a store, and the power fails at some moment of it: each sector that was written since the last sync has what it had before or what was
         written to it, each by itself, in all combinations where there are at most 1,024, as ten sectors have, else in 500: none and all of the sectors, each
         alone, all but each, those up to each, and draws in which more and more are new. A file that grows has each of its lengths; a sector that it had not
         before is zeros until it is written, so that `format` and `copy`, which first write zeros to a whole file, add lengths and no other choices.
         Each image is opened by the program: it must show the tables as before or as after the change, and once the change is acknowledged only as after it.
         Some of these images go on: with a second change, of which the power fails too.
faults   each call on the file fails, is interrupted, or moves less than it should. After a sync that fails, the pages count as clean, as with Linux: reads show
         what was to be written, the disk has what it had, and later syncs write only what is written again.
kills    the program is killed at each call; then writing back what it left may fail as well, and another program may be told of that in its place.
         After a fault or a kill the power may fail at once; or the store is checked, or changed again, and the power fails in that or after it. Until the first
         sync of that succeeds, an image has the tables as before or as after; from then on only those that the check answers for, or that the change goes on
         from; and once the change is acknowledged, only what is shown then. A check whose sync fails too leaves all of this as it was. The system may also
         have dropped its clean pages, before the change, so that reads show the disk.
drops    the sync of the commit fails; and while the store is checked, or changed again, the system drops its clean pages before a call of that.
together two writers and two readers, which check the store too, for some seconds: no acknowledged row is lost, and every reader sees a prefix.

A case is PART-COMMAND-VERSION-KIND, as `faults-append-2-pages`, where * stands for any letters. Prints each difference, and last 'N passed, M failed'."""
import errno
import functools
import itertools
import os
import random
import subprocess
import sys
import tempfile
import time
from concurrent.futures import ThreadPoolExecutor
from typing import NamedTuple

sys.dont_write_bytecode = True
import archive_model
import disks
import streams
from disks import Disk, Seen, Viewer, content, images, moments, now, simplified, synced, with_clean_pages_dropped, with_failed_writeback
from running import Answers, chosen_of, parser_of, play_cases

SECTORS = 256
COLUMN = [("a", "int32", False)]
# A schema message so long that the list of the tables is longer than a sector.
WIDE = [(f"a_column_with_a_long_name_{place}", "int64", True) for place in range(8)]
NEXT, CHECK = ["import", "STORE", "v"], ["check", "STORE"]
# All choices of the sectors in doubt where there are at most so many, else that many of them.
ALL, SOME, FEW = (1024, 500), (64, 16), (8, 8)
IMAGES = 10_000
SECONDS = 10


# Ten lines that change, make and remove tables; the files are in ROOM.
SCRIPT = [
    'import w "{room}/more"', 'append w "{room}/few"', "create x a:int32?", 'import y "{room}/few"', 'save t kept "a >= 30"', "drop t", "rename kept t", "create u b:utf8",
    "rename u z", 'append t "{room}/few"',
]


def rows(number, first=0):
    return streams.stream(COLUMN, [[list(range(first, first + number))]])


def script():
    return "".join(line.format(room=disks.ROOM.name) + "\n" for line in SCRIPT).encode()


def archive(had):
    """Of tables one of which goes on from rows that the store has, one is replaced, and one is new; the others are dropped. Without these streams."""
    schema = streams.stream(COLUMN, [])
    tables, sent = [], []
    for name, counts in (("keep", [40]), ("t", [100, 50, 200]), ("w", [500])):
        parts = [rows(count) for count in counts]
        segments = [archive_model.Segment(archive_model.digest_of(it), len(it), count) for it, count in zip(parts, counts)]
        tables.append(archive_model.Listed(name, schema, ["a:int32"], segments))
        sent += [it for it in parts if it not in had]
    return archive_model.archive_of(7, tables, sent)


class Change(NamedTuple):
    words: list
    given: bytes = b""
    versions: tuple = (1, 2)


class Wanted(NamedTuple):
    """The tables that a power cut may leave in a command: until a sync of it has succeeded, from then on, and once it is acknowledged."""
    doubtful: list
    opened: list
    done: list

    def at(self, moment):
        return self.done if moment.is_acknowledged else self.opened if moment.is_synced else self.doubtful


CHANGES = {
    "create": Change(["create", "STORE", "w", "a:int32?"]),
    "import": Change(["import", "STORE", "t"], rows(500, 7)),
    "large": Change(["import", "STORE", "t"], rows(9000)),
    "append": Change(["append", "STORE", "t"], rows(700)),
    "rename": Change(["rename", "STORE", "t", "u"]),
    "drop": Change(["drop", "STORE", "t"]),
    "save": Change(["query", "STORE", "t", "a < 90", "--save", "chosen"]),
    "apply": Change(["apply", "STORE", "-"], script()),
    "receive": Change(["receive", "STORE", "--delete"], archive([rows(100)]), versions=(2,)),
    # A store of version 1 receives whole archives alone.
    "whole": Change(["receive", "STORE", "--delete"], archive([]), versions=(1,)),
    "compact": Change(["compact", "STORE"]),
    "upgrade": Change(["upgrade", "STORE"], versions=(1,)),
}
# Commands that make a file: without a store before them.
MAKERS = {
    "format": Change(["format", "STORE", "16", "--format-version"]),
    "copy": Change(["copy", "OLD", "STORE", str(SECTORS)]),
}


def steps_of(version, kind):
    """A store of a table in two segments, behind a free run, as one list; or of three segments and with two more tables, in pages; or of no table."""
    if kind == "empty":
        return [(["format", "STORE", "16", "--format-version", str(version)], b"")]
    steps = [(["format", "STORE", str(SECTORS), "--format-version", str(version)], b""), (["import", "STORE", "gap"], rows(600))]
    steps += [(["import", "STORE", "t"], rows(100)), (["append", "STORE", "t"], rows(50))]
    if kind == "pages":
        fields = [f"{name}:{kind}?" for name, kind, _ in WIDE]
        steps += [(["append", "STORE", "t"], rows(20)), (["import", "STORE", "keep"], rows(300)), (["create", "STORE", "wide", *fields], b"")]
    return [*steps, (["drop", "STORE", "gap"], b"")]


def base_of(program, version, kind):
    with tempfile.TemporaryDirectory(dir=disks.ROOM.name) as room:
        path = os.path.join(room, "store")
        for words, given in steps_of(version, kind):
            words = [path if word == "STORE" else word for word in words]
            subprocess.run([program, *words], input=given, stdout=subprocess.DEVNULL, check=True, timeout=60)
        return content(path)


class Case:
    """One change of one store."""
    def __init__(self, program, name, change, base, version):
        self.name, self.change, self.version = name, change, version
        self.disk, self.viewer, self.chance = Disk(program), Viewer(program), random.Random(name)
        self.answers = Answers(program, case=name)
        self.base = base
        self.before = self.viewer.of_image(base)
        self.calls, self.said = self.undisturbed()
        self.after = self.viewer.of_image(content(self.disk.path))
        self.next = self.seen_next(program)
        # Only a store of version 2 has digests by which `check` finds each wrong row.
        self.known = [self.before, self.after, *map(self.going_on, (self.before, self.after))] if version == 2 and change.words[0] != "upgrade" else []
        self.looked_after = set()

    def undisturbed(self):
        self.disk.put(synced(self.base))
        status, said, calls = self.disk.run(self.change.words, self.change.given)
        state = self.disk.state()
        self.differs("undisturbed", (status, state.file == state.media, 1 in state.pages), (0, True, False))
        return calls, said

    def seen_next(self, program):
        """What the next change adds to the tables."""
        with tempfile.TemporaryDirectory(dir=disks.ROOM.name) as room:
            path = os.path.join(room, "store")
            disks.put(path, self.base)
            subprocess.run([program, "import", path, "v"], input=rows(300), stdout=subprocess.DEVNULL, check=True, timeout=60)
            return next(table for table in self.viewer.seen(path).tables if table[0] == b"v")

    def going_on(self, seen):
        return seen.having(self.next)

    def differs(self, what, got, wanted):
        self.answers.compare(f"{self.name}, {what}", got, wanted)

    def told(self, seen):
        """A state by its name, for a difference."""
        names = ((self.before, "as before"), (self.after, "as after"), (self.going_on(self.before), "as before, and the next change"),
                 (self.going_on(self.after), "as after, and the next change"))
        return next((name for state, name in names if state == seen), seen if isinstance(seen, str) else f"other tables: {seen.lines().decode()}")

    def judge(self, what, image, allowed):
        seen = self.viewer.of_image(image, self.known)
        self.differs(what, self.told(seen), self.told(seen) if seen in allowed else " or ".join(map(self.told, allowed)))
        return seen

    def judge_moments(self, what, start, calls, wanted, most):
        """Each image that a power cut may leave in these calls, of a command that began with this state. Gives some of them."""
        some = []
        for number, moment in enumerate(moments(start, calls), 1):
            for image in images(moment, *most, self.chance):
                self.judge(f"{what}, cut at moment {number} with {len(moment.pending)} sectors in doubt", image, wanted.at(moment))
                some.append(image)
        return some

    # The parts.

    def cuts(self):
        wanted = Wanted([self.before], [self.before, self.after], [self.after])
        some = self.judge_moments("the change", synced(self.base), self.calls, wanted, ALL)
        for image in self.chance.sample(some, min(len(some), 8)):
            seen = self.viewer.of_image(image, self.known)
            if isinstance(seen, Seen):
                self.next_change("a second change", synced(image), [seen], SOME)

    def next_change(self, what, state, allowed, most=FEW, **fault):
        """Another change, with a cut at each of its moments. Its first sync settles which of these tables it goes on from, and its answer that it stays."""
        self.disk.put(state)
        calls = self.until_opened(what, NEXT, rows(300), **fault)
        shown = self.viewer.of_image(content(self.disk.path), self.known)
        opened = [seen for seen in allowed if self.going_on(seen) == shown]
        self.differs(f"{what}, done", self.told(shown) if not opened else "what was there, and the change", "what was there, and the change")
        self.judge_moments(what, state, calls, Wanted(allowed, [*opened, shown], [shown]), most)

    def until_opened(self, what, words, given=b"", **fault):
        """A failure that the system told to nobody yet may be told to the first opening, which is refused then. The calls of both."""
        status, said, calls = self.disk.run(words, given, **fault)
        if said == b"refused C4 Device\n":
            status, said, more = self.disk.run(words, given)
            calls += more
        self.differs(what, (status, said[:60]), (0, said[:60]))
        return calls

    def faults(self):
        for call in self.calls:
            for fault in faults_of(call):
                self.fault(call, fault)

    def fault(self, call, fault):
        what = f"call {call.number}, {told_fault(call, fault)}"
        self.disk.put(synced(self.base))
        status, said, _ = self.disk.run(self.change.words, self.change.given, call=call.number, **fault)
        is_done = said == self.said
        refusals = [] if is_harmless(fault) else [(1, b"refused S9 Device\n"), (1, b"refused C4 Device\n"), (1, b"refused G1 Io\n")]
        allowed = [(0, self.said), *refusals]
        self.differs(what, (status, said) if (status, said) not in allowed else "one of these", "one of these")
        self.look_after(what, self.disk.state(), [self.after] if is_done else [self.before, self.after])

    def kills(self):
        for call in self.calls:
            if call.kind in "wsS":
                self.kill(call, "kill")
                self.kill(call, "killed")

    def kill(self, call, how):
        what = f"killed {'before' if how == 'kill' else 'after'} call {call.number}, a {KINDS[call.kind]}"
        self.disk.put(synced(self.base))
        self.disk.run(self.change.words, self.change.given, call=call.number, how=how)
        state, both = self.disk.state(), [self.before, self.after]
        self.look_after(what, state, both)
        for then, lost in losses(state, self.chance):
            self.look_after(f"{what}, then writing back failed{then}", lost, both)

    def drops(self):
        """The last commit is not written; then the system drops its clean pages before a call of a check, or of another change."""
        self.disk.put(synced(self.base))
        self.disk.run(self.change.words, self.change.given, call=max(call.number for call in self.calls if call.kind == "s"), how="fail")
        state, both = self.disk.state(), [self.before, self.after]
        for words, given, played in ((CHECK, b"", self.check), (NEXT, rows(300), self.next_change)):
            self.disk.put(state)
            for call in self.disk.run(words, given)[2]:
                if call.kind in "lkrws":
                    played(f"the commit not written, pages dropped before call {call.number} of {words[0]}", state, both, call=call.number, how="drop")

    def look_after(self, what, state, allowed):
        """What a fault left, with and without the copies that the system may drop: the power fails at once, or in another change, or after a check."""
        state = simplified(state)
        key = state, tuple(allowed)
        if key in self.looked_after:
            return
        self.looked_after.add(key)
        for image in images(now(state), *SOME, self.chance):
            self.judge(f"{what}, cut", image, allowed)
        self.next_change(f"{what}, another change", state, allowed)
        self.confirm(what, state, allowed)
        dropped = with_clean_pages_dropped(state)
        if dropped != state:
            self.next_change(f"{what}, its pages dropped, another change", dropped, allowed)

    def confirm(self, what, state, allowed):
        """A check, which settles what is shown from then on, and one whose sync fails, which does not."""
        calls = self.check(f"{what}, checked", state, allowed)
        if state.file != state.media:
            self.check_in_vain(f"{what}, checked by a sync that fails", state, allowed, next(call.number for call in calls if call.kind == "s"))

    def check(self, what, state, allowed, **fault):
        """No cut undoes what is shown after a check, and another change goes on from it. The calls of the check."""
        self.disk.put(state)
        calls = self.until_opened(what, CHECK, **fault)
        checked, shown = self.disk.state(), self.shown(what, allowed)
        self.judge_moments(what, state, calls, Wanted(allowed, shown, shown), SOME)
        for image in images(now(checked), *SOME, self.chance):
            self.judge(f"{what}, cut", image, shown)
        self.next_change(f"{what}, another change", checked, shown)
        return calls

    def check_in_vain(self, what, state, allowed, sync):
        """A check whose sync fails too settles nothing; the next one does."""
        self.disk.put(state)
        self.differs(what, self.disk.run(CHECK, call=sync, how="fail")[:2], (1, b"refused C4 Device\n"))
        for image in images(now(self.disk.state()), *SOME, self.chance):
            self.judge(f"{what}, cut", image, allowed)
        self.until_opened(f"{what}, checked again", CHECK)
        checked, shown = self.disk.state(), self.shown(f"{what}, checked again", allowed)
        for image in images(now(checked), *SOME, self.chance):
            self.judge(f"{what}, checked again, cut", image, shown)

    def shown(self, what, allowed):
        """Those of these tables that the program shows of the file as the system has it: one of them."""
        lines = self.disk.run(["tables", "STORE"])[1]
        shown = [seen for seen in allowed if seen.lines() == lines][:1]
        self.differs(what, "tables as before or after" if shown else lines, "tables as before or after")
        if shown and self.version == 1:
            for name, _, stream in shown[0].tables:
                exported = self.disk.run(["export", "STORE", name.decode()])[1]
                self.differs(f"{what}, the rows of {name.decode()}", disks.digest(exported) == stream, True)
        return shown


class Maker:
    """A command that makes a file."""
    def __init__(self, program, name, words, old):
        self.name, self.program, self.words = name, program, words
        self.disk, self.viewer, self.chance = Disk(program), Viewer(program), random.Random(name)
        self.answers, self.looked_after = Answers(program, case=name), set()
        self.words = [self.old_store(old) if word == "OLD" else word for word in words]
        status, said, self.calls = self.disk.run(self.words)
        self.differs("undisturbed", (status, said), (0, b"ok\n"))
        self.after = self.viewer.of_image(content(self.disk.path))
        self.differs("what is made", self.after, self.viewer.of_image(old))

    def old_store(self, old):
        path = os.path.join(self.disk.room.name, "old")
        disks.put(path, old)
        return path

    def differs(self, what, got, wanted):
        self.answers.compare(f"{self.name}, {what}", got, wanted)

    def judge(self, what, image, is_done):
        """Whether an image is the whole store, or, while it is not yet acknowledged, none that a command takes for one."""
        seen = self.viewer.of_image(image)
        is_none = seen in ("no file", "refused C1 NotAStore", "refused G2 BadSize")
        self.differs(what, "right" if seen == self.after or is_none and not is_done else seen, "right")

    def cuts(self):
        nothing = disks.State(b"", b"", b"", b"")
        for number, moment in enumerate(moments(nothing, self.calls), 1):
            for image in images(moment, *ALL, self.chance):
                self.judge(f"cut at moment {number} with {len(moment.pending)} sectors in doubt", image, moment.is_acknowledged)

    def faults(self):
        """Where the command is refused there is no file, and the command is done when it is tried again."""
        for call in self.calls:
            for fault in faults_of(call):
                self.fault(f"call {call.number}, {told_fault(call, fault)}", call.number, fault)

    def fault(self, what, number, fault):
        self.disk.clear()
        status, said, _ = self.disk.run(self.words, call=number, **fault)
        is_done = (status, said) == (0, b"ok\n")
        is_refused = not is_harmless(fault) and (status, said) in ((1, b"refused G1 Io\n"), (1, b"refused C4 Device\n"), (1, b"refused S9 Device\n"))
        self.differs(what, (status, said) if not is_done and not is_refused else "as wanted", "as wanted")
        self.differs(f"{what}: whether there is a file", os.path.exists(self.disk.path), is_done)
        if is_refused:
            self.disk.clear()
            self.differs(f"{what}, again", self.disk.run(self.words)[:2], (0, b"ok\n"))
        if os.path.exists(self.disk.path):
            self.judge(f"{what}, what is made", content(self.disk.path), True)

    def kills(self):
        for call in self.calls:
            for how in ("kill", "killed"):
                self.disk.clear()
                self.disk.run(self.words, call=call.number, how=how)
                if os.path.exists(self.disk.path):
                    self.look_after(f"{how} at call {call.number}, a {KINDS[call.kind]}", self.disk.state())

    def look_after(self, what, state):
        """What a kill left: a check that takes it for the store settles that it is."""
        state = simplified(state)
        if state in self.looked_after:
            return
        self.looked_after.add(state)
        self.judge(what, state.file, False)
        for then, lost in losses(state, self.chance):
            for image in images(now(lost), *SOME, self.chance):
                self.judge(f"{what}, then writing back failed{then}, cut", image, False)
            self.disk.put(lost)
            answers = [self.disk.run(CHECK)[:2], self.disk.run(CHECK)[:2]]
            for image in images(now(self.disk.state()), *SOME, self.chance):
                self.judge(f"{what}, then writing back failed{then}, checked, cut", image, (0, b"ok\n") in answers)


def losses(state, chance):
    """What may be left if writing back all dirty pages fails, with none of their sectors on the disk or some, and nobody or another program is told."""
    for reaches in (lambda sector: False, lambda sector: chance.random() < 0.5):
        for is_told in (0, 1):
            yield ", and another program was told" * is_told, with_failed_writeback(state, reaches, is_told)


def is_harmless(fault):
    """A call that is repeated, or goes on where it stopped."""
    return fault.get("error") == errno.EINTR or fault["how"] == "short" and fault["part"] > 0


FAILED = {
    "o": (errno.EIO, errno.EMFILE), "c": (errno.EIO, errno.ENOSPC), "l": (errno.EIO, errno.ENOLCK), "k": (errno.EIO,), "r": (errno.EIO, errno.EINTR),
    "w": (errno.EIO, errno.ENOSPC, errno.EINTR), "s": (errno.EIO, errno.EINTR), "S": (errno.EIO, errno.EINTR), "d": (errno.EIO,),
    "t": (errno.EIO, errno.ENOSPC), "x": (errno.EIO,), "u": (errno.EIO,), "a": (),
}


KINDS = {
    "o": "opening", "c": "creation", "l": "lock", "k": "seek", "r": "read", "w": "write", "s": "sync of data", "S": "sync", "d": "sync of the folder",
    "t": "change of the length", "x": "closing", "u": "removal", "a": "answer",
}
REACHED = {1: ", all its sectors on the disk"}


def told_fault(call, fault):
    """A fault in words."""
    if fault["how"] == "short":
        return f"a {KINDS[call.kind]} of {fault['part']} bytes alone"
    after = f" after {fault['part']} bytes" if "part" in fault else ""
    reached = REACHED.get(fault["reached"], f", draw {fault['reached']} of its sectors on the disk") if "reached" in fault else ""
    return f"a {KINDS[call.kind]} with {errno.errorcode[fault['error']]}{after}{reached}"


def faults_of(call):
    """The ways in which a call goes wrong."""
    for error in FAILED[call.kind]:
        yield dict(how="fail", error=error)
    for part in {"r": (0, 1, 511, 513), "w": (1, 512, 513)}.get(call.kind, ()):
        yield dict(how="short", part=part)
    if call.kind == "w":
        yield dict(how="fail", error=errno.EIO, part=512)
    if call.kind in "sS":
        for reached in (1, 2, 3):
            yield dict(how="fail", error=errno.EIO, reached=reached)


class Together:
    """Two writers and two readers of one table, each row of which has the number of its writer and its own."""
    def __init__(self, program, name):
        self.name, self.program, self.answers = name, program, Answers(program, case=name)
        self.viewer = Viewer(program)

    def run(self, words, given=b""):
        return subprocess.run([self.program, *words], input=given, stdout=subprocess.PIPE, stderr=subprocess.STDOUT, timeout=60).stdout

    def writes(self, path, writer, end):
        """The number of acknowledged rows."""
        done = 0
        while time.monotonic() < end:
            said = self.run(["append", path, "t", "--as", "csv"], b"writer,number\n%d,%d\n" % (writer, done))
            done += said == b"ok\n"
            self.answers.compare("a writer", said in (b"ok\n", b"refused G1 Io\n"), True)
            time.sleep(0.01)
        return done

    def reads(self, path, end):
        while time.monotonic() < end:
            said = self.run(["query", path, "t"])
            if said != b"refused G1 Io\n":
                self.answers.compare("a reader: the rows of each writer", self.counts(said) is not None, True)
            self.answers.compare("a check", self.run(["check", path]) in (b"ok\n", b"refused G1 Io\n"), True)
            time.sleep(0.03)

    def counts(self, said):
        """How many rows each writer has, if each has its first ones, in order."""
        counts = [0, 0]
        for line in said.splitlines():
            writer, number = map(int, line.strip(b"[]").split(b","))
            if number != counts[writer]:
                return None
            counts[writer] += 1
        return counts

    def together(self):
        with tempfile.TemporaryDirectory(dir=disks.ROOM.name) as room, ThreadPoolExecutor(4) as pool:
            path = os.path.join(room, "store")
            for words in (["format", path, "65536"], ["create", path, "t", "writer:uint8", "number:int32"]):
                self.answers.compare(words[0], self.run(words), b"ok\n")
            end = time.monotonic() + SECONDS
            writers = [pool.submit(self.writes, path, writer, end) for writer in (0, 1)]
            readers = [pool.submit(self.reads, path, end) for _ in range(2)]
            acknowledged = [writer.result() for writer in writers]
            for reader in readers:
                reader.result()
            self.answers.compare("two writers: the acknowledged rows", self.counts(self.run(["query", path, "t"])), acknowledged)


def names():
    """The names of all cases, those that take longest first."""
    yield "together"
    for part in ("cuts", "kills", "faults", "drops"):
        for command, change in CHANGES.items():
            yield from (f"{part}-{command}-{version}-{kind}" for version in change.versions for kind in ("pages", "list"))
        yield from (f"{part}-{command}-{version}" for command in MAKERS for version in (1, 2) if part != "drops")


def base(program, version, kind):
    return content(os.path.join(disks.ROOM.name, f"base-{version}-{kind}"))


def case_of(program, name):
    if name == "together":
        return Together(program, name)
    part, command, version, *kind = name.split("-")
    if command == "format":
        return Maker(program, name, [*MAKERS["format"].words, version], base(program, version, "empty"))
    if command == "copy":
        return Maker(program, name, MAKERS["copy"].words, base(program, version, "pages"))
    return Case(program, name, CHANGES[command], base(program, version, *kind), int(version))


def played(program, name):
    """The numbers of comparisons and of images, and each difference."""
    case = case_of(program, name)
    getattr(case, name.split("-")[0])()
    return case.answers.passed, len(case.viewer.found), case.answers.wrong


def main():
    parser = parser_of(__doc__)
    parser.add_argument("--processes", type=int, default=os.cpu_count(), help="how many cases are played at once")
    given = parser.parse_intermixed_args()
    chosen = chosen_of(names(), given)
    program = given.program
    disks.library()
    for name, number in (("more", 500), ("few", 20)):
        disks.put(os.path.join(disks.ROOM.name, name), rows(number))
    for version, kind in itertools.product((1, 2), ("list", "pages", "empty")):
        disks.put(os.path.join(disks.ROOM.name, f"base-{version}-{kind}"), base_of(program, version, kind))
    opened, is_right = play_cases("power cuts", functools.partial(played, program), chosen, given.processes)
    if not given.cases and opened < IMAGES:
        print(f"power cuts: {opened:,} images, and {IMAGES:,} are wanted")
        is_right = False
    return 0 if is_right else 1


if __name__ == "__main__":
    sys.exit(main())
