#!/usr/bin/env python3
"""advice.py PROGRAM [--number N] [--seed S] [--processes P]: draws refusals, runs the program with `ARROWSTORE_ADVICE=1`, and compares what it says with the
input: the line with the code and the number, the word, and each claim of the sentences behind it, which must be in the closed list of `advice_forms.py`.

For each set of stores, some with drawn tables, 100 refusals are drawn. The same seed gives the same draws. Prints each difference, and last 'N passed, M
failed'."""
import collections
import fcntl
import functools
import itertools
import os
import random
import resource
import subprocess
import sys
import tempfile
from concurrent.futures import ProcessPoolExecutor

sys.dont_write_bytecode = True
import drawn_commands as commands
import drawn_files as files
import drawn_texts
import streams
from advice_forms import FORMS, WORDS, judged
from fields import Field, Kind, printed, stream_of
from running import Answers, chosen_of, parser_of

OF_A_SET = 100
DONE = 0, b"ok\n"
# How often each kind of refusal is drawn.
KINDS = {
    commands.draw_text: 50, commands.draw_text_in_script: 4, commands.draw_large_row: 1, commands.draw_query: 16, commands.draw_unknown_table: 4, commands.draw_taken_name: 1,
    commands.draw_bad_name: 2, commands.draw_fields_refused: 6, commands.draw_type_not_held: 3, commands.draw_bad_parameter: 1,
    commands.draw_broken_stream: 2, commands.draw_other_schema: 4, files.draw_missing: 3, files.draw_existing: 1, files.draw_locked: 2, files.draw_no_file: 2,
    files.draw_no_store: 2, files.draw_other_length: 2, files.draw_later_version: 1, files.draw_sectors: 1, files.draw_unread_input: 2,
    files.draw_full_output: 2, files.draw_no_room: 2, files.draw_script: 4, files.draw_cut_script: 2, files.draw_applied_script: 1, files.draw_unread_in_script: 2, files.draw_damaged: 2,
}
# Those that need no drawn table.
NEED_NO_TABLES = (commands.draw_unknown_table, commands.draw_fields_refused, commands.draw_large_row, files.draw_missing, files.draw_existing,
                  files.draw_locked, files.draw_no_store, files.draw_script, files.draw_cut_script, files.draw_applied_script, files.draw_damaged)
# A table whose null is too heavy for a row, and one with a dictionary below a list.
LARGE = {"heavy": [Field("h", Kind("fixed_binary", 16777216), True)], "many": [Field("l", Kind("list", 0, (Field("item", Kind("int32", index="int8")),)))]}


class Stores:
    """A set of stores in a folder of its own: one with drawn tables, an empty one of few sectors, one with rows, and two with tables to damage."""

    def __init__(self, answers, room, pick):
        self.answers, self.room, self.numbers = answers, room, itertools.count()
        self.path, self.small, self.full = (os.path.join(room, name) for name in ("store", "small", "full"))
        self.tables, self.large = {}, LARGE
        self.done("a store", ["format", self.path, "512"])
        for number in range(pick.choice((0, 1, 6, 6, 6, 6, 22))):
            self.put_table(f"t{number:02}", drawn_texts.draw_fields(pick, pick.choice((1, 2, 3, 4, 5, 25)), 0 if number % 2 else 2))
        self.stream = streams.stream(files.COLUMN, [[list(range(1100))]])
        self.done("a small store", ["format", self.small, "16"])
        self.done("a table", ["create", self.small, "t", "a:int64?"])
        self.full_store()
        self.tables_to_damage = {version: self.to_damage(version) for version in ("1", "2")}

    def done(self, what, words, given=b""):
        # What a note says is compared in `program`.
        self.answers.compare(f"{what}: {words}", self.answers.run(words, given)[:2], DONE)

    def fresh(self):
        """The path of a file that does not exist."""
        return os.path.join(self.room, f"file{next(self.numbers)}")

    def put_table(self, name, fields):
        self.tables[name] = fields
        self.done(f"a table of {fields}", ["import", self.path, name], stream_of(fields))
        lines = "".join(f"{printed(field)}\n" for field in fields).encode()
        self.answers.compare(f"the fields of {name}", self.answers.run(["schema", self.path, name]), (0, lines, b""))

    def full_store(self):
        self.done("a store with rows", ["format", self.full, "64"])
        self.done("rows", ["import", self.full, "t"], self.stream)
        with open(self.full, "rb") as file:
            self.content = file.read()
        for name, fields in self.large.items():
            self.done(f"a table for large rows {name}", ["import", self.full, name], stream_of(fields))

    def to_damage(self, version):
        path, tables = self.fresh(), {name: streams.stream(files.COLUMN, [[[number, -1]]]) for number, name in enumerate(("a", "b.c", "zz"))}
        self.done("a store to damage", ["format", path, "64", "--format-version", version])
        for name, stream in tables.items():
            self.done("a table to damage", ["import", path, name], stream)
        with open(path, "rb") as file:
            return file.read(), tables


def run_with(program, draw, stores):
    """Runs the command of a draw in its way: the status, what is written, and what is said."""
    if not draw.way:
        return stores.answers.run(draw.words, draw.given)
    call = functools.partial(subprocess.run, [program, *draw.words], stderr=subprocess.PIPE, timeout=60)
    if draw.way == "output full":
        with open("/dev/full", "wb") as full:
            done = call(stdin=subprocess.DEVNULL, stdout=full)
        return done.returncode, b"", done.stderr
    if draw.way.startswith("locked"):
        with open(stores.path, "rb") as held:
            fcntl.flock(held, fcntl.LOCK_SH if draw.way == "locked to read" else fcntl.LOCK_EX)
            done = call(stdin=subprocess.DEVNULL, stdout=subprocess.PIPE)
    elif draw.way == "input closed":
        done = subprocess.run(["/bin/sh", "-c", '"$0" "$@" <&-', program, *draw.words], capture_output=True, timeout=60)
    else:
        folder = os.open(stores.room, os.O_RDONLY)
        done = call(stdin=folder, stdout=subprocess.PIPE)
        os.close(folder)
    return done.returncode, done.stdout, done.stderr


def differences(program, draw, stores):
    """What is wrong with the answer to a draw, each with what was run and said."""
    status, written, said = run_with(program, draw, stores)
    first, _, second = said.decode().partition("\n")
    wrong = [] if (status, written, first) == (1, b"", f"refused {draw.line}") else [f"{(status, written, first)}, not {draw.line!r}"]
    if not second.endswith("\n") or second.count("\n") != 1:
        wrong.append("it has no second line")
    else:
        wrong += judged(draw.facts, second[:-1], draw.word or WORDS[draw.facts.code], draw.due)
    return [f"{draw.words} {draw.given!r}\n  {said.decode()!r}\n  {difference}" for difference in wrong]


def play(program, seed, number):
    """Plays the draws of a set of stores: how many comparisons passed, each difference, and the forms that were seen."""
    answers, pick, seen = Answers(program, case=f"set-{number}"), random.Random(f"{seed} {number}"), collections.Counter()
    with tempfile.TemporaryDirectory(dir="/dev/shm" if os.path.isdir("/dev/shm") else None) as room:
        stores = Stores(answers, room, pick)
        kinds = [kind for kind in KINDS if len(stores.tables) > 1 or kind in NEED_NO_TABLES]
        for kind in pick.choices(kinds, [KINDS[kind] for kind in kinds], k=OF_A_SET):
            draw = kind(pick, stores)
            wrong = differences(program, draw, stores)
            answers.passed += not wrong
            for difference in wrong:
                answers.fail(difference)
            seen.update([draw.facts.code, *draw.due])
    return answers.passed, answers.wrong, seen


def main():
    parser = parser_of(__doc__)
    parser.add_argument("--number", type=int, default=5000, help="how many refusals are drawn at least")
    parser.add_argument("--seed", default="4", help="what decides the draws")
    parser.add_argument("--processes", type=int, default=os.cpu_count(), help="how many sets of stores are played at once")
    given = parser.parse_intermixed_args()
    os.environ["ARROWSTORE_ADVICE"] = "1"
    sets = {f"set-{number}": number for number in range(-(-given.number // OF_A_SET))}
    chosen = chosen_of(sets, given)
    passed, failed, seen = 0, 0, collections.Counter()
    with ProcessPoolExecutor(given.processes) as pool:
        for right, wrong, found in pool.map(functools.partial(play, given.program, given.seed), map(sets.get, chosen)):
            print(*wrong, sep="\n", end="\n" * bool(wrong))
            passed, failed, seen = passed + right, failed + len(wrong), seen + found
    used = sum(sum(resource.getrusage(who)[:2]) for who in (resource.RUSAGE_SELF, resource.RUSAGE_CHILDREN))
    print(f"{len(chosen) * OF_A_SET:,} refusals of {sum(code in seen for code in (*WORDS, 'G1'))} codes, in {used:.0f} seconds of processor time")
    if given.number >= 5000 and not given.cases and (unseen := sorted(FORMS.keys() - seen.keys())):
        print(f"forms of sentences that no draw has: {', '.join(unseen)}")
        failed += 1
    print(f"advice: {passed} passed, {failed} failed")
    return 1 if failed else 0


if __name__ == "__main__":
    sys.exit(main())
