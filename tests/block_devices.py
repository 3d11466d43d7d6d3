#!/usr/bin/env python3
"""block_devices.py PROGRAM: stores on block devices, which are loop devices here. Prints each difference, and last 'N passed, M failed'. It needs root and
loop devices; without them it says what is missing, and passes."""
import contextlib
import fcntl
import os
import shutil
import stat
import subprocess
import sys
import tempfile

sys.dont_write_bytecode = True
import streams
from running import Answers

SECTOR = 512
MOST_SECTORS = 4194304
DONE = (0, b"ok\n", b"")
REFUSED = (1, b"", b"refused G1 Io\n")
ROWS = streams.stream([("a", "int32", False)], [[list(range(5000))]])
answers = Answers.of_arguments(__doc__)
compare, run = answers.compare, answers.run


@contextlib.contextmanager
def attached(path):
    """The loop device over a file, until it is detached."""
    device = subprocess.run(["losetup", "--find", "--show", path], capture_output=True, text=True, check=True).stdout.strip()
    try:
        yield device
    finally:
        subprocess.run(["losetup", "--detach", device], check=True)


@contextlib.contextmanager
def device_of(room, sectors, front=b""):
    """A block device of zeros behind these bytes."""
    path = os.path.join(room, "below")
    with open(path, "wb") as file:
        file.write(front)
        file.truncate(sectors * SECTOR)
    with attached(path) as device:
        yield device


def content(device, sectors=4096):
    with open(device, "rb") as file:
        return file.read(sectors * SECTOR)


def stays(what, device, words, told=REFUSED):
    """A command that is refused, and leaves the device as it was."""
    made = content(device)
    compare(what, run(words), told)
    compare(f"{what}: the device", (stat.S_ISBLK(os.stat(device).st_mode), content(device) == made), (True, True))


def advised(what, words, reason):
    """A command that is refused, with what is said of its device to a script that asks for it."""
    done = subprocess.run([answers.program, *words], capture_output=True, timeout=60, env={**os.environ, "ARROWSTORE_ADVICE": "1"})
    compare(f"{what}: what is said", reason in done.stderr.decode(), True)


def a_store(room):
    """A device gets a store, which commands use as they use a file; it is there when the device is attached again."""
    copy = os.path.join(room, "copy")
    with device_of(room, 4096) as device:
        for sectors in ("4095", "4097", "16", str(MOST_SECTORS)):
            stays(f"a device of 4096 sectors as one of {sectors}", device, ["format", device, sectors])
        compare("format of a device", run(["format", device, "4096"]), DONE)
        stays("format of a device with a store", device, ["format", device, "4096"])
        compare("import", run(["import", device, "t"], ROWS), DONE)
        compare("append", run(["append", device, "t"], ROWS), DONE)
        compare("check", run(["check", device]), DONE)
        compare("tables", run(["tables", device]), (0, b"t 10000\n", b""))
        told = run(["info", device])[1]
        compare("info", (b"\nsectors 4096\n" in told, told.endswith(b"\ndevice block\n")), (True, True))
        compare("info as JSON", run(["info", device, "--json"])[1].endswith(b',"device":"block"}\n'), True)
        compare("copy of a device", run(["copy", device, copy, "4096"]), DONE)
        stays("copy to the device that has a store", device, ["copy", copy, device, "4096"])
    with attached(os.path.join(room, "below")) as device:
        compare("a device that was attached again", run(["tables", device]), (0, b"t 10000\n", b""))
        compare("its table", run(["export", device, "t"]), run(["export", copy, "t"]))


def whole(room):
    """Without a number a store has all sectors of its device."""
    for sectors in (16, 1000, 4096):
        with device_of(room, sectors) as device:
            compare(f"format of a device of {sectors} sectors without a number", run(["format", device]), DONE)
            compare(f"the sectors of a device of {sectors}", f"\nsectors {sectors}\n".encode() in run(["info", device])[1], True)
            stays(f"format of a device of {sectors} sectors with a store", device, ["format", device])
    for sectors in (8, MOST_SECTORS + 8):
        with device_of(room, sectors) as device:
            for words in (["format", device], ["format", "--over", device]):
                stays(f"{words} of {sectors} sectors", device, words, (1, b"", b"refused G2 BadSize\n"))
                advised(f"{words} of {sectors} sectors", words, f"is a block device of {sectors} sectors of 512 bytes")


def over(room):
    """With `--over` a store is made whatever is at the front of a device. What is behind the front stays. A store that is open is not overwritten."""
    with device_of(room, 4096, b"\1" * (3000 * SECTOR)) as device:
        stays("format of a device with something on it", device, ["format", device])
        advised("format of a device with something on it", ["format", device], "is a block device whose first 2048 sectors are not all zeros")
        stays("format over a device of another size", device, ["format", "--over", device, "4095"])
        advised("format over a device of another size", ["format", "--over", device, "4095"], "is a block device of 4096 sectors of 512 bytes")
        compare("format over something", run(["format", "--over", device]), DONE)
        made = content(device)
        compare("the front", made[3 * SECTOR:2048 * SECTOR] == bytes(2045 * SECTOR), True)
        compare("what is behind", made[2048 * SECTOR:] == b"\1" * (952 * SECTOR) + bytes(1096 * SECTOR), True)
        compare("a table", run(["import", device, "t"], ROWS), DONE)
        for lock in (fcntl.LOCK_EX, fcntl.LOCK_SH):
            with open(device, "rb") as file:
                fcntl.flock(file, lock)
                stays("format over a store that is open", device, ["format", "--over", device])
                advised("format over a store that is open", ["format", "--over", device], "is locked by another program")
        compare("the store that was open", run(["tables", device]), (0, b"t 5000\n", b""))
        compare("format over a store", run(["format", "--over", device, "4096", "--format-version", "1"]), DONE)
        compare("the tables of the new store", run(["tables", device]), (0, b"", b""))
        compare("the version of the new store", run(["info", device])[1].startswith(b"format_version 1\n"), True)
        compare("check of the new store", run(["check", device]), DONE)


def is_output(room):
    """A device that has a store is not written to as the output: that would spoil the store. It is known by its number, whatever node leads to it."""
    node = os.path.join(room, "node")
    with device_of(room, 4096) as device:
        compare("format of a device", run(["format", device]), DONE)
        compare("import", run(["import", device, "t"], ROWS), DONE)
        os.mknod(node, stat.S_IFBLK | 0o600, os.stat(device).st_rdev)
        made = content(device)
        for at in (device, node):
            for words in (["tables", device], ["export", device, "t"], ["query", device, "t"], ["send", device], ["drop", device, "t"], ["format", "--over", device]):
                with open(at, "r+b") as output:
                    done = subprocess.run([answers.program, *words], stdin=subprocess.DEVNULL, stdout=output, stderr=subprocess.PIPE, timeout=60)
                compare(f"{words[0]} to the device of the store", (done.returncode, done.stderr), (1, b"refused G1 Io\n"))
                compare(f"{words[0]} to the device of the store: the device", content(device) == made, True)
        with open(device, "r+b") as output:
            done = subprocess.run([answers.program, "help"], stdout=output, stderr=subprocess.PIPE, timeout=60)
        compare("help to a device", (done.returncode, content(device)[:5] != made[:5]), (0, True))


def locks(room):
    with device_of(room, 64) as device:
        compare("format of a small device", run(["format", device, "64"]), DONE)
        with open(device, "rb") as file:
            fcntl.flock(file, fcntl.LOCK_EX)
            stays("a device that is locked", device, ["create", device, "t", "a:int32"])
            stays("format of a device that is locked", device, ["format", device, "64"])


def others(room):
    """What has a file system or anything else at its front is left alone, and so is a device that no store can have."""
    for place in (0, 1024, 4096, 65536, 1024 * 1024 - 1):
        with device_of(room, 4096, bytes(place) + b"\1") as device:
            stays(f"a device with a byte at {place}", device, ["format", device, "4096"])
    with device_of(room, 4096, b"") as device:
        copied = os.path.join(room, "small")
        compare("a small store", run(["format", copied, "16"]), DONE)
        stays("copy to an empty device", device, ["copy", copied, device, "4096"])
        with open(copied, "rb") as small, open(device, "wb") as file:
            shutil.copyfileobj(small, file)
        stays("a device larger than its store", device, ["tables", device], (1, b"", b"refused C3 Damaged DeviceSize\n"))
    with device_of(room, MOST_SECTORS + 8) as device:
        stays("a device larger than the largest store", device, ["format", device, str(MOST_SECTORS)])
        stays("a device that is too large to be opened", device, ["tables", device], (1, b"", b"refused G2 BadSize\n"))


def failing(room):
    """A device that can't be written or synced is not told to be a new file that was removed."""
    small = os.path.join(room, "of 1 MB")
    below = os.path.join(small, "below")
    os.mkdir(small)
    subprocess.run(["mount", "-t", "tmpfs", "-o", "size=1m", "tmpfs", small], check=True)
    try:
        with open(below, "wb") as file:
            file.truncate(4096 * SECTOR)
        with open(os.path.join(small, "full"), "wb") as file, contextlib.suppress(OSError):
            while True:
                os.write(file.fileno(), bytes(4096))
        with attached(below) as device:
            not_new(["format", device, "4096"], device, "synced")
            subprocess.run(["blockdev", "--setro", device], check=True)
            try:
                not_new(["format", device, "4096"], device, "written")
            finally:
                # A loop device stays so when it is detached.
                subprocess.run(["blockdev", "--setrw", device], check=True)
    finally:
        subprocess.run(["umount", small], check=True)


def not_new(words, device, failed):
    done = subprocess.run([answers.program, *words], capture_output=True, timeout=60, env={**os.environ, "ARROWSTORE_ADVICE": "1"})
    line, _, second = done.stderr.decode().partition("\n")
    told = second.startswith(f"device-at-opening: The file `{device}` cannot be {failed}: ") and second.endswith(". Check the disk, and try again.\n")
    compare(f"{words}, which fails: {second}", (done.returncode, line, told), (1, "refused C4 Device", True))


def missing():
    """What is needed and is not there, in words; nothing if all is."""
    if os.geteuid() != 0:
        return "root"
    if not os.path.exists("/dev/loop-control") or shutil.which("losetup") is None:
        return "loop device"
    with tempfile.TemporaryDirectory() as room:
        try:
            with device_of(room, 16):
                return None
        except (OSError, subprocess.CalledProcessError):
            return "loop device"


lacks = missing()
if lacks:
    print(f"block devices: skipped, since there is no {lacks}")
    sys.exit(0)
with tempfile.TemporaryDirectory() as there:
    answers.play(*((part, there) for part in (a_store, whole, over, is_output, locks, others, failing)))
sys.exit(answers.tell("block devices"))
