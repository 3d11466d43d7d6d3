"""Runs the program over a model of the system's pages and of the disk below them (tests/disk_model.c), and makes the images that a power cut may leave: each
sector of 512 bytes that was written since the last sync has what it had before, or anything that was written to it since, each by itself."""
import functools
import hashlib
import itertools
import os
import struct
import subprocess
import tempfile
from typing import NamedTuple

HERE = os.path.dirname(os.path.abspath(__file__))
SECTOR = 512
PAGE = 4096
CLEAN, DIRTY = 0, 1
# Where there is a folder in memory, and no other is asked for, no image goes through a disk of this machine.
MEMORY = "/dev/shm" if os.access("/dev/shm", os.W_OK) and "TMPDIR" not in os.environ else None
ROOM = tempfile.TemporaryDirectory(dir=MEMORY)


@functools.cache
def library():
    path = os.path.join(ROOM.name, "disk_model.so")
    subprocess.run(["gcc", "-O1", "-Wno-unused-result", "-shared", "-fPIC", "-o", path, os.path.join(HERE, "disk_model.c")], check=True)
    return path


def content(path):
    with open(path, "rb") as file:
        return file.read()


def put(path, made):
    with open(path, "wb") as file:
        file.write(made)


class Call(NamedTuple):
    """`kind`: o open, c create, l lock, k seek, r read, w write, s and S syncs, d sync of the folder, t length, u remove, x close; a the answer.
    Of a write, `content` are the whole pages that it touched, from `place` on."""
    number: int
    kind: str
    place: int
    result: int
    content: bytes


class State(NamedTuple):
    """What the system shows of the file, what the disk holds, which pages are dirty, and the failures that were told or not."""
    file: bytes
    media: bytes
    pages: bytes
    errors: bytes


class Moment(NamedTuple):
    """A time at which the power may fail: what is on the disk, the contents that each sector may have in place of it, the lengths that the file may have,
    whether the file has a name that lasts, whether a sync has succeeded since the calls began, and whether the command was acknowledged."""
    base: bytes
    pending: dict
    lengths: tuple
    is_named: bool = True
    is_synced: bool = False
    is_acknowledged: bool = False


def synced(image):
    """The state of a file that was not touched since the system began."""
    return State(image, image, bytes(-(-len(image) // PAGE)), struct.pack("<qq", 0, 1))


def sectors_of(made, first):
    for place in range(0, len(made), SECTOR):
        yield first + place // SECTOR, made[place:place + SECTOR]


def on_disk(media, sector):
    """A sector that the disk does not have yet reads as zeros once it is in the file."""
    return media[sector * SECTOR:(sector + 1) * SECTOR].ljust(SECTOR, b"\0")


def pending_of(state):
    """The contents that the dirty pages would give to sectors of the disk."""
    pending = {}
    for page, kind in enumerate(state.pages):
        if kind == DIRTY:
            for sector, there in sectors_of(state.file[page * PAGE:(page + 1) * PAGE], page * PAGE // SECTOR):
                if there != on_disk(state.media, sector):
                    pending[sector] = (there,)
    return pending


def now(state):
    return Moment(state.media, pending_of(state), tuple(dict.fromkeys((len(state.media), len(state.file)))))


def simplified(state):
    """A state that each later command meets as it meets this one: a dirty page that has what the disk has is clean, and any number of failures is one."""
    dirty = {sector * SECTOR // PAGE for sector in pending_of(state)}
    _, is_told = struct.unpack("<qq", state.errors)
    pages = bytes(DIRTY if page in dirty else CLEAN for page in range(len(state.pages)))
    return state._replace(pages=pages, errors=struct.pack("<qq", 1, is_told))


def with_failed_writeback(state, reaches, is_told):
    """The state once writing back all dirty pages has failed; `reaches` says of a sector whether the disk has it all the same."""
    media, pages = bytearray(state.media), bytearray(state.pages)
    for sector, (there,) in pending_of(state).items():
        if reaches(sector):
            media = media.ljust((sector + 1) * SECTOR, b"\0")
            media[sector * SECTOR:(sector + 1) * SECTOR] = there
    for page, kind in enumerate(pages):
        if kind == DIRTY:
            pages[page] = CLEAN
    count, _ = struct.unpack("<qq", state.errors)
    return State(state.file, bytes(media), bytes(pages), struct.pack("<qq", count + 1, is_told))


def settled(base, pending):
    image = bytearray(base)
    for sector, contents in pending.items():
        image[sector * SECTOR:(sector + 1) * SECTOR] = contents[-1]
    return bytes(image)


def with_clean_pages_dropped(state):
    """The state once the system has used the memory of all clean pages for something else: then reads show the disk."""
    file = bytearray(state.file)
    for page, kind in enumerate(state.pages):
        if kind == CLEAN:
            file[page * PAGE:(page + 1) * PAGE] = state.media[page * PAGE:(page + 1) * PAGE]
    return state._replace(file=bytes(file))


def after_call(moment, call):
    """The same moment after a call that leaves one more thing in doubt, or one less."""
    if call.kind == "c":
        return moment._replace(is_named=False)
    if call.kind == "w":
        end = call.place + len(call.content)
        lengths = (*moment.lengths, end) if end > moment.lengths[-1] else moment.lengths
        return moment._replace(pending=with_write(moment.base, moment.pending, call), lengths=lengths)
    if call.kind == "a":
        return moment._replace(is_acknowledged=True)
    if call.result != 0:
        return moment
    if call.kind == "t":
        return moment._replace(lengths=(*moment.lengths, call.place))
    if call.kind == "d":
        return moment._replace(is_named=True)
    if call.kind in "sS":
        length = moment.lengths[-1]
        return moment._replace(base=settled(moment.base.ljust(length, b"\0"), moment.pending), pending={}, lengths=(length,), is_synced=True)
    return moment


def moments(state, calls):
    """The last moment before each sync succeeds, the one of the answer, and the end. What may be left at another one may be left at one of these."""
    moment = now(state)
    for call in calls:
        if call.kind in "dsS" and call.result == 0:
            yield moment
        moment = after_call(moment, call)
        if call.kind == "a":
            yield moment
    yield moment


def with_write(base, pending, call):
    pending = dict(pending)
    for sector, there in sectors_of(call.content, call.place // SECTOR):
        contents = pending.get(sector, ())
        newest = contents[-1] if contents else on_disk(base, sector)
        if there != newest:
            pending[sector] = (*contents, there)
    return pending


def image_of(base, chosen, length):
    image = bytearray(base[:length].ljust(length, b"\0"))
    for sector, there in chosen:
        if there is not None and (sector + 1) * SECTOR <= len(image):
            image[sector * SECTOR:(sector + 1) * SECTOR] = there
    return bytes(image)


def drawn_choices(pending, most, chance):
    """None and all of the sectors, each alone, all but each, those up to each, and draws in which more and more have the new content."""
    newest = [contents[-1] for contents in pending.values()]
    count = len(newest)
    yield [None] * count
    yield newest
    for place in range(min(count, most // 10)):
        yield [there if at == place else None for at, there in enumerate(newest)]
        yield [None if at == place else there for at, there in enumerate(newest)]
        yield [there if at <= place else None for at, there in enumerate(newest)]
    while True:
        share = chance.random()
        yield [chance.choice(contents) if chance.random() < share else None for contents in pending.values()]


def choices(pending, every, most, chance):
    """Each choice of the contents of these sectors where there are at most `every`, else `most` of them."""
    number = 1
    for contents in pending.values():
        number *= 1 + len(contents)
    if number <= every:
        return itertools.product(*((None, *contents) for contents in pending.values()))
    return itertools.islice(drawn_choices(pending, most, chance), most)


def images(moment, every, most, chance):
    """What a power cut at this moment may leave: images, and None where it may leave no file."""
    if not moment.is_named:
        yield None
    for chosen in choices(moment.pending, every, most, chance):
        for length in moment.lengths:
            yield image_of(moment.base, zip(moment.pending, chosen), length)


class Disk:
    """A file over the model."""
    def __init__(self, program):
        self.program = program
        self.room = tempfile.TemporaryDirectory(dir=ROOM.name)
        self.path = os.path.join(self.room.name, "store")
        self.folder = os.path.join(self.room.name, "disk")
        os.mkdir(self.folder)
        self.clear()

    def clear(self):
        """No file."""
        if os.path.exists(self.path):
            os.remove(self.path)
        for name in ("media", "pages", "errors", "calls"):
            put(os.path.join(self.folder, name), b"")

    def put(self, state):
        put(self.path, state.file)
        for name in ("media", "pages", "errors"):
            put(os.path.join(self.folder, name), getattr(state, name))

    def state(self):
        made = content(self.path)
        media, pages, errors = (content(os.path.join(self.folder, name)) for name in ("media", "pages", "errors"))
        return State(made, media, pages.ljust(-(-len(made) // PAGE), b"\0"), errors or struct.pack("<qq", 0, 1))

    def run(self, words, given=b"", **fault):
        """The status, what was said and written, and the calls on the file. `fault`: call, how, error, part, reached of tests/disk_model.c."""
        settings = {f"DISK_{name.upper()}": str(value) for name, value in fault.items()}
        extra = {"LD_PRELOAD": library(), "DISK": self.folder, "DISK_FILE": self.path, **settings}
        command = [self.program, *(self.path if word == "STORE" else word for word in words)]
        done = subprocess.run(command, input=given, stdout=subprocess.PIPE, stderr=subprocess.STDOUT, env={**os.environ, **extra}, timeout=60)
        return done.returncode, done.stdout, self.calls()

    def calls(self):
        made, calls, at = content(os.path.join(self.folder, "calls")), [], 0
        while at < len(made):
            end = made.index(b"\n", at)
            number, kind, place, result, size = made[at:end].split()
            at = end + 1 + int(size)
            calls.append(Call(int(number), kind.decode(), int(place), int(result), made[end + 1:at]))
        return calls


class Seen(NamedTuple):
    """What the program shows of a store: for each table its name, its number of rows, and the digest of its exported stream."""
    tables: tuple

    def lines(self):
        return b"".join(b"%s %s\n" % (name, rows) for name, rows, _ in self.tables)

    def having(self, *more):
        return Seen(tuple(sorted((*self.tables, *more))))


def digest(made):
    return hashlib.blake2b(made, digest_size=16).digest()


class Viewer:
    """Opens images by the program, each once."""
    def __init__(self, program):
        self.program = program
        self.found = {}

    def run(self, *words):
        done = subprocess.run([self.program, *words], stdin=subprocess.DEVNULL, stdout=subprocess.PIPE, stderr=subprocess.STDOUT, timeout=60)
        return done.stdout

    def seen(self, path):
        """All that the program shows of a store, or the line with which it refuses it."""
        lines = self.run("tables", path)
        if lines.startswith(b"refused"):
            return lines.decode().strip()
        tables = []
        for line in lines.splitlines():
            name, rows = line.split()
            stream = self.run("export", path, name.decode())
            if stream.startswith(b"refused"):
                return f"{name.decode()}: {stream.decode().strip()}"
            tables.append((name, rows, digest(stream)))
        return Seen(tuple(tables))

    def checked(self, path, known):
        """The one of these states that the tables' lines name, if all tables can be read: their digests are right then. Else what is said."""
        lines = self.run("tables", path)
        for state in known:
            if isinstance(state, Seen) and state.lines() == lines:
                said = self.run("check", path)
                return state if said == b"ok\n" else f"check: {said.decode().strip()}"
        return lines.decode().strip().replace("\n", ", ")

    def of_image(self, image, known=()):
        """What is shown of an image. With `known` states of a store with digests that differ in their lines, no table is exported."""
        if image is None:
            return "no file"
        key = digest(image)
        if key not in self.found:
            with tempfile.NamedTemporaryFile(dir=ROOM.name) as file:
                file.write(image)
                file.flush()
                self.found[key] = self.checked(file.name, known) if known else self.seen(file.name)
        return self.found[key]
