"""Runs a program with each of its allocations refused, or each read of its input, write of its output, or change of a file failed, in turn, or all reads of
files from each one on, by a library that is loaded before the C library."""
import functools
import os
import shutil
import subprocess
import tempfile
from concurrent.futures import ThreadPoolExecutor

HERE = os.path.dirname(os.path.abspath(__file__))
ROOM = tempfile.TemporaryDirectory()


@functools.cache
def library():
    path = os.path.join(ROOM.name, "refuse.so")
    subprocess.run(["gcc", "-O1", "-shared", "-fPIC", "-o", path, os.path.join(HERE, "refuse.c")], check=True)
    return path


def content(path):
    with open(path, "rb") as file:
        return file.read()


def answer_of(command, given, **extra):
    """The input is a file, and not a pipe, so that each run reads as often."""
    with tempfile.TemporaryFile() as file:
        file.write(given)
        file.seek(0)
        done = subprocess.run(command, stdin=file, capture_output=True, timeout=60, env={**os.environ, **extra})
    return done.returncode, done.stdout, done.stderr


def on_a_copy(store):
    """Answers of commands on a fresh copy of this store each, and the bytes that the copy has then. So they may run at once."""
    def answer(command, given, **extra):
        with tempfile.TemporaryDirectory() as room:
            copy = shutil.copy(store, room)
            return *answer_of([copy if word == store else word for word in command], given, **extra), content(copy)
    return answer


def with_table(program, store, name):
    """The same, and in place of the bytes the stream of a table that the copy has then."""
    def answer(command, given, **extra):
        with tempfile.TemporaryDirectory() as room:
            copy = shutil.copy(store, room)
            return *answer_of([copy if word == store else word for word in command], given, **extra), answer_of([program, "export", copy, name], b"")
    return answer


def of_a_new_file(path):
    """Answers of commands that make this file, each in a folder of its own; and beside them the bytes of the file, where it is left, and the answer of the
    same command after it, undisturbed."""
    def answer(command, given, **extra):
        with tempfile.TemporaryDirectory() as room:
            made = os.path.join(room, "made")
            words = [made if word == path else word for word in command]
            answered, left = answer_of(words, given, **extra), content(made) if os.path.exists(made) else None
            return *answered, (left, answer_of(words, given))
    return answer


def in_turn(counted, command, given, answer, setting, **extra):
    """The answer undisturbed, and the answers with the first, the second .. of what is counted going wrong."""
    counts = os.path.join(ROOM.name, "counts")
    undisturbed = answer(command, given, LD_PRELOAD=library(), COUNTS=counts, **extra)
    numbers = range(1, int(content(counts).split()[counted]) + 1)
    with ThreadPoolExecutor(os.cpu_count()) as pool:
        answers = pool.map(lambda n: answer(command, given, LD_PRELOAD=library(), **extra, **{setting: str(n)}), numbers)
        return undisturbed, list(answers)


def each_refused(command, given=b"", answer=answer_of):
    """With each allocation refused."""
    return in_turn(0, command, given, answer, "REFUSED")


def each_read_failed(command, given, error, answer=answer_of):
    """With each read of standard input failed, with this error of the system."""
    return in_turn(1, command, given, answer, "FAILED_READ", CALL_ERROR=str(error))


def each_write_failed(command, given, error, most, answer=answer_of):
    """With each write to standard output failed, with this error of the system; each of the others takes at most this many bytes."""
    return in_turn(2, command, given, answer, "FAILED_WRITE", CALL_ERROR=str(error), MOST=str(most))


def each_change_failed(command, given, error, answer=answer_of):
    """With each write to a file, each sync of one and each change of its length failed, with this error of the system."""
    return in_turn(3, command, given, answer, "FAILED_CHANGE", CALL_ERROR=str(error))


def each_file_read_failed(command, given, error, answer=answer_of):
    """With the reads of files failed from each one on, with this error of the system."""
    return in_turn(4, command, given, answer, "FAILED_FILE_READ", CALL_ERROR=str(error))


def in_pieces(command, given, most):
    """Where each read of standard input and each write to standard output moves at most this many bytes."""
    return answer_of(command, given, LD_PRELOAD=library(), MOST=str(most))
