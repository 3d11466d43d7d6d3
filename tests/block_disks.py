"""A real file system on a disk of the tests' own (tests/block_disk.c): in a file of a FUSE file system, under a loop device, both of which the system removes
when the mount is gone. Everything that the disk is told to write is noted, so that a power cut can be made at each write and each flush."""
import fcntl
import functools
import os
import shutil
import struct
import subprocess
import sys
import tempfile
import time
from typing import NamedTuple

from disks import HERE, ROOM

# The number of an open file of the mounts that were there before the test had its own.
BEFORE = "MOUNTS_BEFORE"
FIEMAP = 0xC020660B
UNWRITTEN = 0x800
BLOCK = 4096
MAKE = {
    "ext4": (16 << 20, ["mkfs.ext4", "-q", "-F", "-b", str(BLOCK)]),
    "ext2": (16 << 20, ["mkfs.ext2", "-q", "-F", "-b", str(BLOCK)]),
    "xfs": (64 << 20, ["mkfs.xfs", "-q", "-f", "--unsupported", "-l", "size=6m"]),
}
OPTIONS = {"xfs": "loop,nouuid", "ext4": "loop", "ext2": "loop"}


@functools.cache
def server(name):
    """A FUSE server, built."""
    path = os.path.join(ROOM.name, name)
    flags = subprocess.run(["pkg-config", "--cflags", "--libs", "fuse3"], stdout=subprocess.PIPE, check=True, text=True).stdout.split()
    subprocess.run(["gcc", "-O1", "-o", path, os.path.join(HERE, f"{name}.c"), *flags], check=True)
    return path


def quiet(*words):
    subprocess.run(words, stdout=subprocess.DEVNULL, stderr=subprocess.DEVNULL, check=True, timeout=60)


def unmounted(path):
    """A mount may be in use for a moment after a process in it has ended."""
    for _ in range(100):
        if subprocess.run(["umount", path], stderr=subprocess.DEVNULL, timeout=60, check=False).returncode == 0:
            return
        time.sleep(0.05)
    sys.exit(f"{path} can't be unmounted")


class Served:
    """A running FUSE server. It keeps no mount of the test's."""
    def __init__(self, name, words, mount):
        self.mount = mount
        os.makedirs(mount, exist_ok=True)
        before = int(os.environ[BEFORE])
        self.running = subprocess.Popen([server(name), str(before), *words, mount], pass_fds=[before])
        while not os.path.ismount(mount):
            if self.running.poll() is not None:
                sys.exit(f"{name} ended with status {self.running.returncode}")
            time.sleep(0.005)

    def end(self):
        unmounted(self.mount)
        self.running.wait(timeout=60)


class Entry(NamedTuple):
    """A write that was done (w), one that failed (x), or a flush (f)."""
    kind: str
    place: int
    content: bytes


def entries_of(path):
    entries, at = [], 0
    with open(path, "rb") as file:
        made = file.read()
    while at < len(made):
        end = made.index(b"\n", at)
        kind, place, size = made[at:end].split()
        at = end + 1 + int(size)
        entries.append(Entry(kind.decode(), int(place), made[end + 1:at]))
    return entries


def copied(old, new):
    subprocess.run(["cp", "--sparse=always", old, new], check=True, timeout=60)


def make_file_system(kind, path):
    size, command = MAKE[kind]
    with open(path, "wb") as file:
        file.truncate(size)
    quiet(*command, path)


def place_of(at, extents):
    """Where the disk has this byte of a file."""
    return next(place + at - start for start, place, size in extents if start <= at < start + size)


class BlockDisk:
    """A copy of a disk, mounted."""
    def __init__(self, kind, old):
        self.kind = kind
        self.room = tempfile.mkdtemp(dir=ROOM.name)
        self.old, self.back, self.log, self.fuse, self.mount = old, *(os.path.join(self.room, name) for name in ("back", "log", "fuse", "mount"))
        copied(old, self.back)
        os.mkdir(self.mount)
        self.served = Served("block_disk", [self.back, self.log], self.fuse)
        self.mounts = False
        self.mount_it()
        self.path = os.path.join(self.mount, "store")

    def mount_it(self):
        quiet("mount", "-t", self.kind, "-o", OPTIONS[self.kind], os.path.join(self.fuse, "disk"), self.mount)
        self.mounts = True

    def mount_anew(self):
        unmounted(self.mount)
        self.mounts = False
        self.mount_it()

    def end(self):
        if self.mounts:
            unmounted(self.mount)
        self.served.end()
        shutil.rmtree(self.room)

    def control(self, text):
        with open(os.path.join(self.fuse, "control"), "w", encoding="ascii") as file:
            file.write(text)

    def fail(self, place, size, times, skip=0):
        """So many writes of this range fail, after so many that are done; -1 is all."""
        self.control(f"fail {place} {size} {skip} {times}")

    def heal(self):
        self.control("heal")

    def extents(self):
        """The bytes of the disk that the store's file has, and that were written: their places in the file and on the disk, and their sizes."""
        with open(self.path, "rb") as file:
            told = bytearray(struct.pack("<QQIIII", 0, 1 << 40, 1, 0, 64, 0) + bytes(64 * 56))
            fcntl.ioctl(file, FIEMAP, told)
        found = [struct.unpack_from("<QQQQQI", told, 32 + 56 * place) for place in range(struct.unpack_from("<I", told, 20)[0])]
        return [(start, place, size) for start, place, size, _, _, flags in found if not flags & UNWRITTEN]

    def writes(self):
        """How much was written and flushed so far."""
        return len(entries_of(self.log))

    def cut_images(self, start, most, chance):
        """What the disk may have after a power cut at moments since `start`: at the last one, at so many behind a flush, and at another; with all that was
        written by then, and with some of that since the last flush left out."""
        entries = entries_of(self.log)
        flushed = [place + 1 for place in range(start, len(entries)) if entries[place].kind == "f"]
        others = range(start, len(entries) if most else start)
        chosen = {*chance.sample(flushed, min(most, len(flushed))), *chance.sample(others, min(1, len(others)))}
        for moment in [len(entries), *sorted(chosen, reverse=True)]:
            last = max((place for place in range(moment) if entries[place].kind == "f"), default=0)
            kept = [entry for place, entry in enumerate(entries[:moment]) if place < last or chance.random() < 0.5]
            yield moment, self.image(entries[:moment])
            if len(kept) < moment:
                yield moment, self.image(kept)

    def image(self, entries):
        path = os.path.join(self.room, "image")
        copied(self.old, path)
        with open(path, "r+b") as file:
            for entry in entries:
                file.seek(entry.place)
                file.write(entry.content)
        return path


class MountedImage:
    """An image of a disk, mounted: `with` gives the folder."""
    def __init__(self, kind, image):
        self.kind, self.image, self.mount = kind, image, f"{image}-mount"

    def __enter__(self):
        os.makedirs(self.mount, exist_ok=True)
        quiet("mount", "-t", self.kind, "-o", OPTIONS[self.kind], self.image, self.mount)
        return self.mount

    def __exit__(self, *_):
        unmounted(self.mount)
