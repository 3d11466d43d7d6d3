#!/usr/bin/env python3
"""recipes.py PROGRAM [SCRIPT..]: runs the recipes of docs/recipes.md and docs/replication.md as they are printed there, and those of docs/using.md; or some of
them, by the name of a script or of one of OTHERS below. In the place of `ssh` stands a script that runs the command in a folder of this machine.

Each script is run whole, and twice. It is stopped behind each of its lines, with all that it has started, and run again. At each such place another
program appends a row, or waits for the lock; and it does so after each stop, before the script is run again. Each call of a tool fails once. Scripts that
change a store are also killed at eight moments. At the end no row that was acknowledged is lost, none is there twice, and what the recipe is for is done.
Scripts are also given what they must stop at: nothing is changed then.
What needs a tool that is not on this machine is left out, and a line says so.
Prints each difference, and last 'N passed, M failed'."""
import concurrent.futures
import contextlib
import dataclasses
import hashlib
import io
import json
import os
import re
import shutil
import signal
import subprocess
import sys
import tarfile
import tempfile
import textwrap
import time
import traceback
from collections.abc import Callable

sys.dont_write_bytecode = True
import streams
from running import Answers, chosen_of

ROOT = os.path.abspath(os.path.join(os.path.dirname(os.path.abspath(__file__)), ".."))
KILLS = 8
# Seconds that a script, or the other program, may take where many tests run at once.
LONGEST = 600
answers = Answers.of_arguments(__doc__)
PROGRAM = answers.program

# Stands behind each line of a script: counts how often it was reached, and does at one of these times what is to be done there.
STEP = """#!/bin/sh
read -r count < steps/count
count=$((count + 1))
echo $count > steps/count
[ $count != "${STEP_AT:-0}" ] || . steps/act
"""
STOP = "kill -9 0\n"

# Stands in the place of a tool: one of the calls of tools fails, as that of one that is killed for want of memory.
TOOL = """#!/bin/sh
calls=${{0%/*}}/../steps/calls
count=1
set -C
until {{ true > "$calls/$count"; }} 2> /dev/null; do count=$((count + 1)); done
[ $count != "$FAIL_AT" ] || exit 9
exec {tool} "$@"
"""
TOOLS = "arrowstore basenc cat cmp cp dd dirname expr grep jq ln mkdir mv rm sed sha256sum sqlite3 sync tar tr wc".split()

# Another program appends. If the script holds the lock, it waits for that, and the script goes on.
WRITE = """exec 9>&-
flock -n {lock} true && free=1 || free=
setsid sh steps/writer < /dev/null > steps/told 2>&1 &
while [ "$free" ] && [ ! -e steps/written ]; do sleep 0.01; done
"""
WRITER = """if {command}; then echo > steps/acknowledged; fi
echo > steps/written
"""

LOG = [[20786, 1, "a"], [20787, 2, None], [20788, 3, 'x, "y"'], [20789, 4, ""]]
LATE_ROW = [20790, 9, None]


def page(path):
    with open(f"{ROOT}/{path}", encoding="utf-8") as file:
        return file.read()


def printed_scripts():
    """The scripts of docs/recipes.md and docs/replication.md by their names."""
    pages = page("docs/recipes.md") + page("docs/replication.md")
    return {name: text for text, name in re.findall(r"(?ms)^```(?:sh|python)\n(# (\w+\.\w+)[ :].*?)^```$", pages)}


def scripts_of_using():
    """The commands of the recipes on docs/using.md, by what they do."""
    [recipes] = re.findall(r"(?ms)^## Recipes\n(.*?)^## ", page("docs/using.md"))
    blocks = re.findall(r"(?m)(?:^    .*\n)+", recipes)
    delete, empty, copy = map(textwrap.dedent, blocks)
    return {"using.md, delete": delete, "using.md, empty": empty, "using.md, copy": copy}


def fields_of_using():
    """The command on docs/using.md that changes a field."""
    [found] = re.findall(r"(?m)^    arrowstore schema .*\n    .*\n", page("docs/using.md"))
    return found


def words_of_page(begin):
    """The one command within a sentence of docs/recipes.md that begins so."""
    [found] = re.findall(rf"`({re.escape(begin)}[^`]*)`", page("docs/recipes.md").replace("\n", " "))
    return found


def open_mark(line, mark):
    """The quotation mark of the shell that is open behind a line, if any, where this one was open before it."""
    escaped = False
    for letter in line:
        if escaped or (letter == "\\" and mark != "'"):
            escaped = not escaped
        elif letter in "'\"" and mark in ("", letter):
            mark = "" if mark else letter
    return mark


def with_steps(text):
    """The script with a step behind each line that ends a command, and not within a text, a document or a pipe. A command that fails ends it, as it ends the
    scripts that say so themselves: a step does not hide its status."""
    lines, made, mark, document = text.splitlines(), ["set -e"], "", None
    for number, line in enumerate(lines):
        made.append(line)
        if document:
            document = None if line == document else document
            if document:
                continue
        elif "<<" in line:
            document = re.search(r"<<'?(\w+)'?", line).group(1)
            continue
        mark = "" if line.startswith("#") else open_mark(line, mark)
        if mark or line.startswith("#") or re.search(r"(\\|\||&&)$", line):
            continue
        tried = "\n".join([*made, "step", *lines[number + 1 :], ""])
        if subprocess.run(["sh", "-n"], input=tried, text=True, capture_output=True).returncode == 0:
            made.append("step")
    return "\n".join([*made, ""])


class Room:
    """A folder with the program, the scripts, and the files of a recipe."""

    def __init__(self, folder):
        self.folder = folder
        self.environment = {**os.environ, "PATH": f"{folder}/bin:{os.environ['PATH']}", "LC_ALL": "C.UTF-8"}

    def path(self, name):
        return os.path.join(self.folder, name)

    def has(self, name):
        return os.path.exists(self.path(name))

    def write(self, name, text):
        with open(self.path(name), "w", encoding="utf-8", newline="") as file:
            file.write(text)

    def read(self, name):
        with open(self.path(name), encoding="utf-8", newline="") as file:
            return file.read()

    def run(self, *words, given=None):
        done = subprocess.run(words, cwd=self.folder, env=self.environment, input=given, capture_output=True, text=True, timeout=LONGEST)
        return done.returncode, done.stdout + done.stderr

    def command(self, *words, given=""):
        """What a command of the program prints; it is one that is done."""
        status, printed = self.run("arrowstore", *words, given=given)
        if status:
            raise AssertionError(f"{words}: {printed}")
        return printed

    def names(self, store):
        return [line.rsplit(" ", 1)[0] for line in self.command("tables", store).splitlines()]

    def rows(self, store, table):
        return [json.loads(line) for line in self.command("query", store, table).splitlines()]

    def place(self, recipe):
        """Puts the program and the scripts here, and what the recipe is to find."""
        for folder in ("bin", "plain", "steps"):
            os.mkdir(self.path(folder))
        os.symlink(PROGRAM, self.path("bin/arrowstore"))
        self.write("bin/step", STEP)
        os.chmod(self.path("bin/step"), 0o755)
        for name, text in SCRIPTS.items():
            self.write(f"plain/{name}", text)
        self.write(f"steps/{recipe.name}", with_steps(SCRIPTS[recipe.name]))
        recipe.prepare(self)

    def watch_tools(self):
        """Lets the calls of tools be counted from now on."""
        os.remove(self.path("bin/arrowstore"))
        for name in TOOLS:
            tool = PROGRAM if name == "arrowstore" else shutil.which(name)
            if tool:
                self.write(f"bin/{name}", TOOL.format(tool=tool))
                os.chmod(self.path(f"bin/{name}"), 0o755)

    def begin(self, recipe, at=0, act="", failing=0):
        self.write("steps/count", "0")
        shutil.rmtree(self.path("steps/calls"), ignore_errors=True)
        os.mkdir(self.path("steps/calls"))
        self.write("steps/act", act)
        words = ["sh", f"steps/{recipe.name}", *recipe.words(self)]
        environment = {**self.environment, "STEP_AT": str(at), "FAIL_AT": str(failing)}
        ends = {"stdin": subprocess.DEVNULL, "stdout": subprocess.PIPE, "stderr": subprocess.STDOUT, "text": True}
        return subprocess.Popen(words, cwd=self.folder, env=environment, start_new_session=True, **ends)

    def play(self, recipe, at=0, act="", failing=0):
        """The status of a script, and what it says."""
        run = self.begin(recipe, at, act, failing)
        said, _ = run.communicate(timeout=LONGEST)
        return run.returncode, said

    def let_write(self, recipe):
        self.write("steps/writer", WRITER.format(command=recipe.writer))

    def acknowledged(self):
        """Whether the other program's row was acknowledged, once that program has ended."""
        for _ in range(100 * LONGEST):
            if self.has("steps/written"):
                return self.has("steps/acknowledged")
            time.sleep(0.01)
        raise AssertionError("the other program does not end")


def no_words(_):
    return []


@dataclasses.dataclass
class Recipe:
    """A script, what it is run with, and what it must leave. `held` is asked after each stop, and `done` once the script has run whole after it; both are
    told whether the other program's row was acknowledged, and answer what is wrong, or nothing."""

    name: str
    prepare: Callable
    done: Callable
    held: Callable = lambda room, late: None
    words: Callable = no_words
    again: int = 0
    lock: str = "my.store.lock"
    writer: str = "printf '%s\\n' '{\"day\":20790,\"sensor\":9}' | flock -w 60 my.store.lock arrowstore append my.store log --as jsonl"
    before_again: Callable = lambda room: None
    needs: tuple = ()
    stops: bool = True
    alone: bool = True
    kills: bool = True


def differs(got, *wanted):
    return None if got in wanted else f"{got!r:.200}, not {wanted[0]!r:.200}"


def log_with(late):
    return [*LOG, LATE_ROW] if late else LOG


def make_log(room):
    """A store with the table `log`, of two segments."""
    room.command("format", "my.store", "4096")
    room.command("create", "my.store", "log", "day:date_day", "sensor:uint16", "note:utf8?")
    for part in (LOG[:3], LOG[3:]):
        room.command("append", "my.store", "log", "--as", "jsonl", given="".join(json.dumps(row) + "\n" for row in part))


# The reader's own file.
PEOPLE = [["Ada Lovelace", 1815, "London"], ["Alan Turing", None, None]]


def make_people(room):
    room.write("people.csv", "name,born,city\nAda Lovelace,1815,London\nAlan Turing,,\n")


def has_people(room):
    """Whether there is a store with the table: a `format` that was killed may leave a file that is none."""
    status, said = room.run("arrowstore", "tables", "my.store")
    return status == 0 and "people" in said


def people_held(room, late):
    if not has_people(room):
        return "acknowledged, and not there" if late else None
    end = [["Late", None, None]] if late else []
    return differs(room.rows("my.store", "people"), [*PEOPLE, *end], [*end, *PEOPLE], end)


def people_done(room, late):
    return differs(sorted(map(str, room.rows("my.store", "people"))), sorted(map(str, [*PEOPLE, *([["Late", None, None]] if late else [])])))


def go_on(room):
    """As the page says: the lines that were not done are run."""
    lines = [line for line in SCRIPTS["first.sh"].splitlines() if line.startswith("arrowstore")]
    status, _ = room.run("arrowstore", "tables", "my.store")
    if status and room.has("my.store"):
        os.remove(room.path("my.store"))
    began = 0 if status else 1 if not has_people(room) else 2 if PEOPLE[0] not in room.rows("my.store", "people") else 3
    status, said = room.run("sh", "-ec", "\n".join(lines[began:]))
    assert status == 0, said


# A table that is replaced.
def make_stock(room):
    make_log(room)
    room.command("create", "my.store", "stock", "item:utf8", "pieces:int32?")
    room.command("append", "my.store", "stock", "--as", "jsonl", given='["bolt",1]\n')
    room.write("stock.csv", "item,pieces\nnail,7\nscrew,\n")


NEW_STOCK = [["nail", 7], ["screw", None]]


def stock_held(room, late):
    return differs(room.rows("my.store", "stock"), [["bolt", 1]], NEW_STOCK) or log_stays(room, late)


def stock_done(room, late):
    return differs(room.rows("my.store", "stock"), NEW_STOCK) or log_stays(room, late)


def play_null_characters():
    """SQLite would cut a text at U+0000; the characters of its escape are a text like others."""
    with tempfile.TemporaryDirectory() as folder:
        room = bare_room(folder)
        make_log(room)
        for note, status in (("\\u0000\\\\u0000", 0), ("\\\0", 1)):
            room.command("append", "my.store", "log", "--as", "jsonl", given=spaced([1, 2, note]))
            answers.compare(f"to_sqlite.sh of {note!r}", room.run("sh", "plain/to_sqlite.sh")[0], status)
        printed = json.loads(room.run("sqlite3", "-json", "log.db", "select note from log where day = 1")[1])
        answers.compare("what to_sqlite.sh leaves", printed, [{"note": "\\u0000\\\\u0000"}])


def play_rows_not_taken():
    """Where SQLite does not take a row, as on a full disk, the database of before stays; and where another program's changes would go into the new one."""
    with tempfile.TemporaryDirectory() as folder:
        room = bare_room(folder)
        make_log(room)
        answers.compare("to_sqlite.sh", room.run("sh", "plain/to_sqlite.sh")[0], 0)
        room.command("append", "my.store", "log", "--as", "jsonl", given=spaced([1, 2, None]))
        lacking = SCRIPTS["to_sqlite.sh"].replace("drop table line;", "drop table line;\ndelete from log where day = 1;")
        answers.compare("to_sqlite.sh where a row is not taken", room.run("sh", "-c", lacking), (1, "log.db.part does not have as many rows as log.\n"))
        answers.compare("the database then", room.run("sqlite3", "log.db", "select count(*) from log"), (0, f"{len(LOG)}\n"))
        for kind in ("wal", "journal"):
            room.write(f"log.db-{kind}", "")
            answers.compare(f"to_sqlite.sh beside a {kind}", room.run("sh", "plain/to_sqlite.sh")[0], 1)
            os.remove(room.path(f"log.db-{kind}"))
        answers.compare("to_sqlite.sh without these", room.run("sh", "plain/to_sqlite.sh")[0], 0)


def play_too_large_for_sqlite():
    """The largest integers of SQLite are as they were; at a larger one the database of before stays."""
    with tempfile.TemporaryDirectory() as folder:
        room = bare_room(folder)
        room.command("format", "my.store", "4096")
        room.command("create", "my.store", "log", "day:int64", "sensor:uint64", "note:utf8?")
        rows = [-(1 << 63), (1 << 63) - 1, "007"], [-(1 << 63), 1 << 63, None]
        for row, status in zip(rows, (0, 1)):
            room.command("append", "my.store", "log", "--as", "jsonl", given=spaced(row))
            answers.compare(f"to_sqlite.sh of {row}", room.run("sh", "plain/to_sqlite.sh")[0], status)
        printed = json.loads(room.run("sqlite3", "-json", "log.db", "select day, sensor, note from log")[1])
        answers.compare("what to_sqlite.sh leaves", [list(row.values()) for row in printed], [rows[0]])


def play_stray_mark():
    """A quotation mark that is closed by a later one replaces nothing. Line ends of any kind and empty lines do not count."""
    for text, status, rows in (
        ('item,pieces\n"nail,7\nscrew,8\n"bolt,9\n', 1, [["bolt", 1]]),
        ('item,pieces\nnail,7\nscrew,"8\nnut,9\n', 1, [["bolt", 1]]),
        ('item,pieces\r\nnail,7\r\n\r\n"screw",\r\n', 0, NEW_STOCK),
        ("item,pieces\rnail,7\rscrew,", 0, NEW_STOCK),
        ("item,pieces\n", 0, []),
        ("", 1, [["bolt", 1]]),
    ):
        with tempfile.TemporaryDirectory() as folder:
            room = bare_room(folder)
            make_stock(room)
            room.write("stock.csv", text)
            status_now = room.run("sh", "plain/refresh.sh")[0]
            answers.compare(f"refresh.sh of {text!r}", (status_now, room.rows("my.store", "stock")), (status, rows))


# Three tables that are replaced at once.
THREE = "items", "prices", "shops"


def make_three(room):
    """Of one row each, and streams of two rows each."""
    make_log(room)
    for store, rows in (("my.store", "[1]\n"), ("new.store", "[2]\n[3]\n")):
        if store != "my.store":
            room.command("format", store, "64")
        for name in THREE:
            room.command("create", store, name, "n:int8")
            room.command("append", store, name, "--as", "jsonl", given=rows)
    for name in THREE:
        with open(room.path(f"{name}.arrows"), "wb") as file:
            subprocess.run([PROGRAM, "export", room.path("new.store"), name], stdout=file, check=True)


def three_of(room):
    return [room.rows("my.store", name) for name in THREE]


def three_held(room, late):
    return differs(three_of(room), [[[1]]] * 3, [[[2], [3]]] * 3) or log_stays(room, late)


def three_done(room, late):
    return differs(three_of(room), [[[2], [3]]] * 3) or log_stays(room, late)


def play_cut_stream():
    """A stream that is cut off between two batches replaces nothing."""
    with tempfile.TemporaryDirectory() as folder:
        room = bare_room(folder)
        make_three(room)
        with open(f"{ROOT}/examples/readings.arrows", "rb") as file, open(room.path("prices.arrows"), "wb") as cut:
            cut.write(file.read(640))
        answers.compare("replace.sh of a cut stream", (room.run("sh", "plain/replace.sh")[0], three_of(room)), (1, [[[1]]] * 3))


# Rows that are deleted.
def kept_with(late):
    return [row for row in log_with(late) if row[0] >= 20788]


def deleted_held(room, late):
    """Nothing else is ever there."""
    return differs(room.rows("my.store", "log"), log_with(late), kept_with(late)) or differs(room.names("my.store"), ["log"])


def deleted_done(room, late):
    return differs((room.rows("my.store", "log"), room.names("my.store")), (kept_with(late), ["log"]))


# A column more, a column less, and a column of another type.
def spaced(row):
    return f"{json.dumps(row)}\n"


# Texts, one of which is no number, and times that jq would round.
TEXTS = [[1764547200123456789, "10", "a"], [2, None, "b"], [1764547200123456789, "-9007199254740993", None], [4, "40", "d"]]


def with_a_line(line, rows):
    """What columns.sh does of a table of texts, with a line of one's own behind its `query`: its status, the rows of `log`, and the tables."""
    script = SCRIPTS["columns.sh"].replace("day:date_day sensor:int64", "at:timestamp_ns sensor:int64?").replace("day,sensor", "at,sensor")
    script = re.sub(r"(?m)^tables=", lambda found: f"{line} < log.jsonl > new.jsonl\nmv new.jsonl log.jsonl\n{found[0]}", script)
    with tempfile.TemporaryDirectory() as folder:
        room = bare_room(folder)
        room.command("format", "my.store", "4096")
        for table in "log", "log.new":
            room.command("create", "my.store", table, "at:timestamp_ns", "sensor:utf8?", "note:utf8?")
        room.command("append", "my.store", "log", "--as", "jsonl", given="".join(map(spaced, rows)))
        return room.run("sh", "-c", script)[0], room.rows("my.store", "log"), room.names("my.store")


def play_conversions_of_columns():
    """Numbers are made of texts, none is rounded, and no row is left out: neither by a text that is no number, nor by a line that loses a row."""
    converting, both = words_of_page("python3 retype.py").split(" <")[0].replace("retype", "plain/retype"), ["log", "log.new"]
    numbers = [[at, text and int(text), None] for at, text, _ in TEXTS]
    answers.compare("columns.sh with retype.py", with_a_line(converting, TEXTS), (0, numbers, both))
    wrong = [*TEXTS[:2], [3, "n/a", "c"], *TEXTS[2:]]
    answers.compare("columns.sh with retype.py of no number", with_a_line(converting, wrong), (1, wrong, both))
    answers.compare("columns.sh with a row left out", with_a_line(f"sh -c '{converting} | sed 2d'", TEXTS), (1, TEXTS, both))
    answers.compare("columns.sh of no conversion", with_a_line("cat", TEXTS), (1, TEXTS, both))


def columns_held(room, late):
    return differs(room.rows("my.store", "log"), log_with(late), [[*row[:2], None] for row in log_with(late)])


def columns_done(room, late):
    wanted = '"day":date_day\n"sensor":int64\n"site":utf8?\n'
    return differs((room.rows("my.store", "log"), room.command("schema", "my.store", "log")), ([[*row[:2], None] for row in log_with(late)], wanted))


# Files that are made of a table.
def log_stays(room, late):
    return differs(room.rows("my.store", "log"), log_with(late))


def either(got, wanted_of, late):
    """What was made is of the table as it is, or as it was before the other program's row."""
    return differs(got, wanted_of(log_with(late)), wanted_of(LOG))


def csv_of(rows):
    def cell(value):
        return "" if value is None else '"' + value.replace('"', '""') + '"' if isinstance(value, str) else str(value)

    return "".join(",".join(map(cell, row)) + "\n" for row in rows)


def csv_done(room, late):
    return either(room.read("log.csv"), lambda rows: "day,sensor,note\n" + csv_of(rows), late) or log_stays(room, late)


def database_done(tool, file):
    def done(room, late):
        _, printed = room.run(tool, "-json", file, "select day, sensor, note from log")
        return either([list(row.values()) for row in json.loads(printed)], lambda rows: rows, late) or log_stays(room, late)

    return done


# All tables.
def make_tables(room):
    make_log(room)
    room.command("create", "my.store", "--", "-x.", "l:list<utf8?>?", "p:struct<a:int8,b:date_day>")
    room.command("append", "my.store", "--as", "jsonl", "--", "-x.", given='{"l":["",null],"p":[1,2]}\n{"p":[3,4]}\n')
    room.command("create", "my.store", "none")


def contents(room, store):
    """Of each table its fields and rows."""
    return {name: [room.command(it, "--", store, name) for it in ("schema", "query")] for name in room.names(store)}


def with_late(tables, late):
    schema, rows = tables["log"]
    return {**tables, "log": [schema, rows + json.dumps(LATE_ROW, separators=(",", ":")) + "\n"]} if late else tables


def imported(room, folder):
    """What the streams of a dump hold."""
    with contextlib.suppress(FileNotFoundError):
        os.remove(room.path("looked.store"))
    room.command("format", "looked.store", "4096")
    for line in room.read(f"{folder}/tables").splitlines():
        name = line.rsplit(" ", 1)[0]
        with open(room.path(f"{folder}/{name}.arrows"), "rb") as file:
            done = subprocess.run([PROGRAM, "import", "--", "looked.store", name], cwd=room.folder, stdin=file, capture_output=True)
        assert done.returncode == 0, done
    return contents(room, "looked.store")


def play_folders():
    """A dump in another folder, whose new name is brought to the disk there; and words that name no new folder, which leave nothing."""
    with tempfile.TemporaryDirectory() as folder:
        room = bare_room(folder)
        make_tables(room)
        os.mkdir(room.path("other"))
        room.write("bin/sync", '#!/bin/sh\necho "$*" > synced\n')
        os.chmod(room.path("bin/sync"), 0o755)
        before = sorted(os.listdir(folder))
        for word, status, synced in (("", 1, None), ("/", 1, None), ("other/", 1, None), ("dumped/", 0, "."), ("other/-d", 0, "other"), ("other/-d", 1, None)):
            status_now = room.run("sh", "plain/dump.sh", word)[0]
            answers.compare(f"dump.sh {word!r}", (status_now, room.read("synced").strip() if synced else synced), (status, synced))
        left = sorted(os.listdir(folder)), os.listdir(room.path("other"))
        answers.compare("what dump.sh leaves", left, (sorted([*before, "dumped", "my.store.lock", "synced"]), ["-d"]))
        for name in "dumped", "other/-d":
            answers.compare(f"the dump {name}", room.has(name) and imported(room, name), contents(room, "my.store"))
        room.write("bin/mkdir", '#!/bin/sh\n/bin/mkdir "$1" && : > "$1/log.arrows"\n')
        os.chmod(room.path("bin/mkdir"), 0o755)
        answers.compare("dump.sh where two tables have one file", (room.run("sh", "plain/dump.sh", "third")[0] != 0, room.has("third")), (True, False))


def dump_held(room, late):
    return dump_done(room, late) if room.has("folder") else log_stays(room, late)


def dump_done(room, late):
    now = contents(room, "my.store")
    before = {**now, "log": [now["log"][0], "".join(now["log"][1].splitlines(keepends=True)[: len(LOG)])]}
    return differs(imported(room, "folder"), now, before) or log_stays(room, late)


def make_dump(room):
    make_tables(room)
    status, said = room.run("sh", "plain/dump.sh", "folder")
    assert status == 0, said


def restored_held(room, late):
    return restored_done(room, late) if room.has("restored.store") else ("acknowledged, and not there" if late else None)


def restored_done(room, late):
    return differs(contents(room, "restored.store"), with_late(contents(room, "my.store"), late))


# A backup.
def backup_held(room, late):
    if room.has("backup.store"):
        return either(room.rows("backup.store", "log"), lambda rows: rows, late) or log_stays(room, late)
    return log_stays(room, late)


def backup_done(room, late):
    return either(room.rows("backup.store", "log"), lambda rows: rows, late) or log_stays(room, late)


# The recipes of docs/using.md.
OLD = [[19999, 1], [20000, 2]]


def make_old(room):
    room.command("format", "store", "4096")
    room.command("create", "store", "t", "day:int32", "sensor:int32")
    room.command("append", "store", "t", "--as", "jsonl", given="".join(f"{row}\n" for row in OLD))


def old_with(late):
    return [*OLD, LATE_ROW[:2]] if late else OLD


def old_held(room, late):
    return differs(room.rows("store", "t"), old_with(late), old_with(late)[1:])


def old_deleted(room, late):
    return differs((room.rows("store", "t"), room.names("store")), (old_with(late)[1:], ["t"]))


def old_copied(room, late):
    size = json.loads(room.command("info", "store", "--json"))["sectors"]
    return differs((room.rows("store", "t"), size, room.has("larger")), (old_with(late), 65536, False))


def rights(path):
    it = os.stat(path)
    return oct(it.st_mode & 0o7777), it.st_uid, it.st_gid


def play_rights():
    """A copy of a store can be read and written by those who may read and write the store."""
    cases = [("backup.sh", make_log, "my.store", "backup.store"), ("undo.sh", make_mistake("drop"), "my.store", "my.store")]
    for name, make, store, made in [*cases, ("using.md, copy", make_old, "store", "store")]:
        with tempfile.TemporaryDirectory() as folder:
            room = bare_room(folder)
            make(room)
            os.chmod(room.path(store), 0o660)
            if os.geteuid() == 0:
                os.chown(room.path(store), 65533, 65534)
            wanted = rights(room.path(store))
            before = os.stat(room.path(store)).st_ino
            words = [room.read("steps/epoch")] if name == "undo.sh" else []
            status, said = room.run("sh", f"plain/{name}", *words)
            answers.compare(f"{name} of a store of another owner", (status, os.stat(room.path(made)).st_ino == before), (0, False))
            answers.compare(f"who may use what {name} makes", rights(room.path(made)), wanted)
    # On XFS and btrfs another copy has no blocks of its own.
    shared = [line for text in SCRIPTS.values() for line in text.splitlines() if "cp -p" in line and "cp -p --reflink=never" not in line]
    answers.compare("copies that may share their blocks", shared, [])


def play_no_store():
    """Where the store is not there, as without its disk, a backup stays, and no file of its name is made."""
    [copying] = re.findall(r"`(\(flock --shared [^`]*)`", page("docs/using.md"))
    for title, words, store, backup in (
        ("backup.sh", ["sh", "plain/backup.sh"], "my.store", "backup.store"), ("a copy by using.md", ["sh", "-c", copying], "store", "backup"),
    ):
        with tempfile.TemporaryDirectory() as folder:
            room = bare_room(folder)
            make_log(room)
            os.replace(room.path("my.store"), room.path(store))
            answers.compare(title, (room.run(*words)[0], content_of(room, backup) == content_of(room, store)), (0, True))
            rows = room.rows(backup, "log")
            os.remove(room.path(store))
            answers.compare(f"{title}, of no store", (room.run(*words)[0] != 0, room.has(store), room.rows(backup, "log")), (True, False, rows))
            # Rows that come into a folder without the disk would be gone with it.
            answers.compare("once.sh of no store", (room.run("sh", "plain/once.sh")[0], room.has("log.spool")), (1, False))


def play_new_store():
    """A store that was made anew, or put back, takes no place of a backup that has more, until it is said to be right."""
    with tempfile.TemporaryDirectory() as folder:
        room = bare_room(folder)
        make_log(room)
        answers.compare("backup.sh", room.run("sh", "plain/backup.sh")[0], 0)
        os.rename(room.path("my.store"), room.path("lost.store"))
        room.command("format", "my.store", "4096")
        answers.compare("backup.sh of a new store", (room.run("sh", "plain/backup.sh")[0], room.rows("backup.store", "log")), (1, LOG))
        os.replace(room.path("lost.store"), room.path("my.store"))
        room.command("append", "my.store", "log", "--as", "jsonl", given=spaced(LATE_ROW))
        answers.compare("backup.sh of a later one", (room.run("sh", "plain/backup.sh")[0], room.rows("backup.store", "log")), (0, [*LOG, LATE_ROW]))
        room.command("copy", "my.store", "copied", "4096")
        os.replace(room.path("copied"), room.path("my.store"))
        for status in (1, 0):
            answers.compare("backup.sh of a copy", room.run("sh", "plain/backup.sh")[0], status)
            if status:
                os.remove(room.path("backup.store"))


def play_put_back():
    """A backup takes the place of the store, and stays."""
    with tempfile.TemporaryDirectory() as folder:
        room = bare_room(folder)
        make_log(room)
        answers.compare("backup.sh", room.run("sh", "plain/backup.sh")[0], 0)
        room.command("drop", "my.store", "log")
        command = words_of_page("flock my.store.lock sh -c 'cp")
        for _ in range(2):
            answers.compare("a backup that is put back", room.run("sh", "-c", command), (0, ""))
            answers.compare("its rows", (room.rows("my.store", "log"), content_of(room, "backup.store") == content_of(room, "my.store")), (LOG, True))
        os.remove(room.path("backup.store"))
        answers.compare("none that is put back", (room.run("sh", "-c", command)[0], room.rows("my.store", "log")), (1, LOG))


def made_empty(room, late):
    return differs((room.rows("store", "t"), room.rows("store", "empty")), (old_with(late), []))


def delete_larger(room):
    with contextlib.suppress(FileNotFoundError):
        os.remove(room.path("larger"))


# A spool of rows.
def make_spool(rows):
    def make(room):
        make_log(room)
        room.command("create", "my.store", "other", "n:int8")
        os.mkdir(room.path("log.spool"))
        room.write("log.spool/of now.jsonl", "\n \n".join(map(json.dumps, rows)) + "\n\n")
        room.write("late.jsonl", json.dumps(LATE_ROW))

    return make


def of_other(room):
    return len(room.rows("my.store", "other"))


def spool_with(room, rows, late, appended):
    """Whether the table has the rows that it began with, each row of the other program, and those of the spool, or none of them."""
    own = [LATE_ROW] if late and not of_other(room) else []
    wanted = [*LOG, *own, *(rows if appended else [])]
    return differs(sorted(map(str, room.rows("my.store", "log"))), sorted(map(str, wanted)))


def waiting(room):
    return [name for folder in ("log.spool", "log.work") if room.has(folder) for name in os.listdir(room.path(folder))]


def spool_held(rows):
    """The rows of the spool are in the table once, or in a file that waits."""

    def held(room, late):
        return spool_with(room, rows, late, "log.once" in room.names("my.store") or not waiting(room))

    return held


def spool_done(rows):
    def done(room, late):
        return spool_with(room, rows, late, True) or differs((waiting(room), room.names("my.store")), ([], ["log", "other"]))

    return done


def spooled(rows, **more):
    return Recipe("once.sh", make_spool(rows), spool_done(rows), spool_held(rows), **more)


def play_spool():
    """A file that is refused waits until it is mended. Rows may have any form, also if their append is interrupted."""
    with tempfile.TemporaryDirectory() as folder:
        room = bare_room(folder)
        room.command("format", "my.store", "4096")
        room.command("create", "my.store", "log", "raw:binary?", "pair:struct<a:int8,b:int8>?")
        os.mkdir(room.path("log.spool"))
        room.write("log.spool/a", '["AB",{"a":1,"b":2}]\n{"raw":"ab","pair":[1,2]}')
        room.write("log.spool/b", '["x"]\n')
        room.write("log.spool/c", "")
        room.run("setsid", "sh", "-c", SCRIPTS["once.sh"].replace('mv "$1" log.done', "kill -9 $$"))
        answers.compare("once.sh that is refused", room.run("sh", "plain/once.sh")[0], 1)
        held = room.run("flock", "my.store.lock", "sh", "-c", SCRIPTS["once.sh"].replace("-w 600", "-w 0"))
        answers.compare("once.sh that does not get the lock", held, (1, "Another program has held my.store.lock for ten minutes.\n"))
        answers.compare("what waits then", (os.listdir(room.path("log.work")), os.listdir(room.path("log.spool"))), (["b"], ["c"]))
        room.write("log.work/more", "")
        answers.compare("once.sh of two files in work", room.run("sh", "plain/once.sh")[0], 1)
        os.remove(room.path("log.work/more"))
        room.write("log.work/b", "[null,null]\n")
        os.rename(room.path("log.work/b"), room.path("log.spool/b"))
        answers.compare("once.sh, mended", room.run("sh", "plain/once.sh")[0], 0)
        answers.compare("the rows of any form", room.rows("my.store", "log"), [["ab", [1, 2]], ["ab", [1, 2]], [None, None]])
        answers.compare("what is left of it", (waiting(room), room.names("my.store")), ([], ["log"]))


def play_tables_beside_a_spool():
    """Tables of the user that have such names as a script's own stay: nothing is appended then, and the file waits."""
    with tempfile.TemporaryDirectory() as folder:
        room = bare_room(folder)
        make_log(room)
        os.mkdir(room.path("log.spool"))
        for table, status in (("log.rows", 0), ("log.kept", 0), ("log.once", 1)):
            room.command("create", "my.store", table, "n:int8")
            room.command("append", "my.store", table, "--as", "jsonl", given="[1]\n")
            room.write("log.spool/a", spaced(LATE_ROW))
            before = len(room.rows("my.store", "log"))
            answers.compare(f"once.sh beside {table}", room.run("sh", "plain/once.sh")[0], status)
            answers.compare(f"the rows beside {table}", (room.rows("my.store", table), len(room.rows("my.store", "log")) - before), ([[1]], 1 - status))
        answers.compare("what waits then", waiting(room), ["a"])


def play_two_spools():
    """A script for another table takes up no file of the first one, which was refused or interrupted."""
    with tempfile.TemporaryDirectory() as folder:
        room = bare_room(folder)
        make_log(room)
        room.command("create", "my.store", "more", "--like", "log")
        room.write("more.sh", re.sub(r"\blog\b", "more", SCRIPTS["once.sh"]))
        for folder_name in "log.spool", "more.spool":
            os.mkdir(room.path(folder_name))
        room.write("log.spool/a", spaced(LATE_ROW))
        stopped_spool(room, '        cat "$1" > once.jsonl')
        room.write("more.spool/b", spaced([1, 1, None]))
        for script in "more.sh", "plain/once.sh":
            answers.compare(f"{script} beside another", room.run("sh", script)[0], 0)
        answers.compare("the rows of both", (room.rows("my.store", "log"), room.rows("my.store", "more")), ([*LOG, LATE_ROW], [[1, 1, None]]))


def stopped_spool(room, line):
    """once.sh, killed in the place of a line."""
    text = SCRIPTS["once.sh"]
    assert text.count(f"\n{line}\n") == 1, line
    return room.run("setsid", "sh", "-c", text.replace(f"\n{line}\n", "\nkill -9 $$\n"))


def play_older_spool():
    """A store that is put back says of an older file that it was appended; the one in `work` was not, and is."""
    with tempfile.TemporaryDirectory() as folder:
        room = bare_room(folder)
        make_log(room)
        os.mkdir(room.path("log.spool"))
        for title, put_back in (("a backup", "mv backup.store my.store"), ("an undoing", "sh plain/undo.sh $(($(arrowstore info my.store --json | jq .epoch)))")):
            rows = room.rows("my.store", "log")
            room.write("log.spool/first", spaced(LATE_ROW))
            stopped_spool(room, '    mv "$1" log.done')
            answers.compare("a backup within once.sh", room.run("sh", "plain/backup.sh")[0], 0)
            room.write("log.spool/later", spaced([1, 1, None]))
            stopped_spool(room, "        sync log.spool log.work")
            answers.compare("what is in work", os.listdir(room.path("log.work")), ["later"])
            answers.compare(title, room.run("sh", "-c", put_back)[0], 0)
            answers.compare(f"once.sh after {title}", room.run("sh", "plain/once.sh")[0], 0)
            answers.compare("the rows then", room.rows("my.store", "log"), [*rows, LATE_ROW, [1, 1, None]])
            answers.compare("what is left of it", (waiting(room), room.names("my.store")), ([], ["log"]))


# What is undone: the words of the last command, its input, and the tables that it leaves.
UNDONE = {
    "import": (["import", "my.store", "log"], f"{ROOT}/examples/readings.arrows"),
    "append": (["append", "my.store", "log", "--as", "jsonl"], None),
    "drop": (["drop", "my.store", "log"], None),
    "rename": (["rename", "my.store", "log", "gone"], None),
    "compact": (["compact", "my.store"], None),
}


def make_mistake(command):
    def make(room):
        make_log(room)
        words, stream = UNDONE[command]
        with open(stream, "rb") if stream else tempfile.TemporaryFile() as file:
            if not stream:
                file.write(b'{"day":1,"sensor":1}\n')
                file.seek(0)
            done = subprocess.run([PROGRAM, *words], cwd=room.folder, stdin=file, capture_output=True)
        assert done.returncode == 0, done
        room.write("steps/epoch", str(epoch_of(room)))

    return make


def epoch_of(room):
    return json.loads(room.command("info", "my.store", "--json"))["epoch"]


def undo_held(room, late):
    """The row that was acknowledged is there, before or after the undoing."""
    return "acknowledged, and not there" if late and LATE_ROW not in late_rows(room) else None


def late_rows(room):
    """The rows of `log`, as far as they have its columns."""
    return [[*row, None][:3] for row in room.rows("my.store", "log")] if "log" in room.names("my.store") else []


def undo_done(room, late):
    """The last command is undone, unless another program's command came between: then nothing is."""
    if "log" in room.names("my.store") and room.rows("my.store", "log") == log_with(late):
        return differs(room.command("check", "my.store"), "ok\n")
    return undo_held(room, late) if late else "not undone"


def undoing(command):
    """Stopped behind each line for an import and a drop, and only run for the others."""
    more = {"words": lambda room: [room.read("steps/epoch")], "again": 1, "needs": ("jq",)}
    stops, kills = command in ("import", "drop"), command == "import"
    return Recipe("undo.sh", make_mistake(command), undo_done, undo_held, stops=stops, kills=kills, **more)


# A replica of a store on another machine, and chains of archives.

# What stands in the place of ssh: the other machine is a folder, and knows one name.
SSH = """#!/bin/sh
while [ "$1" = -o ]; do shift 2; done
[ "$1" = origin ] || exit 255
shift
cd home && exec sh -c "$*"
"""
OWN = [[1], [2]]


def make_replica(room):
    """A sender, its replica with the first rows of `log`, and with a table of its own."""
    room.write("bin/ssh", SSH)
    os.chmod(room.path("bin/ssh"), 0o755)
    os.makedirs(room.path("home/data"))
    make_log(room)
    os.rename(room.path("my.store"), room.path("home/data/my.store"))
    room.command("format", "my.store", "4096")
    room.command("create", "my.store", "own", "n:int8")
    room.command("append", "my.store", "own", "--as", "jsonl", given=spaced(OWN[0]))
    status, said = room.run("sh", "plain/replica.sh")
    assert status == 0, said
    room.command("append", "home/data/my.store", "log", "--as", "jsonl", given="".join(map(spaced, LOG)))
    room.command("create", "home/data/my.store", "more")


def with_own(late):
    return [*OWN[:1], OWN[1]] if late else OWN[:1]


def replica_held(room, late):
    """The replica is as it was, or as the sender is, and its own rows are there."""
    return differs(room.rows("my.store", "log"), [*LOG, *LOG], LOG) or differs(room.rows("my.store", "own"), with_own(late))


def replica_done(room, late):
    now = differs(room.rows("my.store", "log"), room.rows("home/data/my.store", "log")) or differs(room.names("my.store"), ["log", "more", "own"])
    sent = room.command("have", "home/data/my.store")
    return now or differs(room.rows("my.store", "own"), with_own(late)) or differs(room.command("have", "my.store")[: len(sent)], sent)


def replica_held_twice(room, late):
    return replica_held(room, False)


def replica_done_twice(room, late):
    return replica_done(room, False)


def origin_held(room, late):
    """Rows of the sender are never lost, and the replica has some of them."""
    rows = [*LOG, *LOG, LATE_ROW] if late else [*LOG, *LOG]
    return differs(room.rows("home/data/my.store", "log"), rows) or differs(room.rows("my.store", "log"), rows, [*LOG, *LOG], LOG)


def origin_done(room, late):
    wrong = origin_held(room, late)
    return wrong or (differs(room.rows("my.store", "log")[:8], [*LOG, *LOG]) or differs(room.rows("my.store", "own"), OWN[:1]))


def make_chain(room):
    """A chain of two archives, and a change since."""
    make_tables(room)
    os.mkdir(room.path("chain"))
    for turn in range(3):
        if turn:
            room.command("append", "my.store", "log", "--as", "jsonl", given=spaced([turn, turn, None]))
            room.command("drop", "my.store", "none") if turn == 1 else room.command("rename", "--", "my.store", "-x.", "-y")
        room.write(f"steps/state{turn + 1}", json.dumps(contents(room, "my.store")))
        if turn < 2:
            status, said = room.run("sh", "plain/chain.sh", "chain")
            assert status == 0, said


def restored_state(room, folder, number):
    """The tables of an archive of a chain."""
    for name in "restored.store", "restored.part":
        with contextlib.suppress(FileNotFoundError):
            os.remove(room.path(name))
    status, said = room.run("sh", "plain/restore_chain.sh", folder, number, "4096")
    return contents(room, "restored.store") if status == 0 else said


def state_of(room, number, late=False):
    return with_late(json.loads(room.read(f"steps/state{int(number)}")), late)


def chain_of(room, folder):
    return sorted(it for it in os.listdir(room.path(folder)) if it.endswith(".tar"))


def chain_held(room, late):
    """Each archive that has its name gives its state."""
    for name in chain_of(room, "chain"):
        wrong = differs(restored_state(room, "chain", name[:-4]), *(state_of(room, min(int(name[:-4]), 3), it) for it in (False, True)))
        if wrong:
            return f"{name}: {wrong}"
    return differs(contents(room, "my.store"), state_of(room, 3, late))


def chain_done(room, late):
    """The last archive has the tables as they are, or as they were before the other program's row."""
    names = chain_of(room, "chain")
    return chain_held(room, late) or (None if names in (names_of(3), names_of(4)) else f"{names}")


def names_of(most):
    return [f"{it:06}.tar" for it in range(1, most + 1)]


def make_copied_chain(room):
    """A chain of three, of which another folder has the first archive."""
    make_chain(room)
    os.mkdir(room.path("other"))
    shutil.copyfile(room.path("chain/000001.tar"), room.path("other/000001.tar"))
    status, said = room.run("sh", "plain/chain.sh", "chain")
    assert status == 0, said


def copy_held(room, late):
    """What is copied is whole, and none is left out."""
    names = chain_of(room, "other")
    different = [name for name in names if content_of(room, f"other/{name}") != content_of(room, f"chain/{name}")]
    return differs((names, different), (chain_of(room, "chain")[: len(names)], []))


def copy_done(room, late):
    return copy_held(room, late) or ("not all are copied" if chain_of(room, "other")[:3] != names_of(3) else None)


def content_of(room, name):
    with open(room.path(name), "rb") as file:
        return file.read()


def point_held(room, late):
    return point_done(room, late) if room.has("restored.store") else ("acknowledged, and not there" if late else None)


def point_done(room, late):
    """The second state of the chain."""
    return differs(contents(room, "restored.store"), state_of(room, 2, late))


SCRIPTS = {**printed_scripts(), **scripts_of_using()}
PEOPLE_WRITER = "printf '%s\\n' '{\"name\":\"Late\"}' | flock -w 60 my.store.lock arrowstore append my.store people --as jsonl"
RESTORED_WRITER = "printf '%s\\n' '{\"day\":20790,\"sensor\":9}' | flock -w 60 restored.store.lock arrowstore append restored.store log --as jsonl"
OTHER_WRITER = "printf '%s\\n' '[1]' | flock -w 60 my.store.lock arrowstore append my.store other --as jsonl"
SPOOL_WRITER = "mv late.jsonl log.spool && sh plain/once.sh"
OLD_WRITER = "printf '%s\\n' '[20790,9]' | flock -w 60 store.lock arrowstore append store t --as jsonl"
OWN_WRITER = "printf '%s\\n' '[2]' | flock -w 60 my.store.lock arrowstore append my.store own --as jsonl"
ORIGIN_WRITER = "printf '%s\\n' '{\"day\":20790,\"sensor\":9}' | flock -w 60 home/data/my.store.lock arrowstore append home/data/my.store log --as jsonl"
CHAIN_WRITER = f"{Recipe.writer} && sh plain/chain.sh chain"
OF_ORIGIN = {"lock": "home/data/my.store.lock", "writer": ORIGIN_WRITER}
OF_RESTORED = {"lock": "restored.store.lock", "writer": RESTORED_WRITER}
OF_USING = {"lock": "store.lock", "writer": OLD_WRITER}
TO_FOLDER = {"words": lambda room: ["folder"], "again": 1}
FROM_FOLDER = {"words": lambda room: ["folder", "65536"], "again": 1}
RECIPES = {
    "first.sh": Recipe("first.sh", make_people, people_done, people_held, again=1, writer=PEOPLE_WRITER, before_again=go_on),
    "refresh.sh": Recipe("refresh.sh", make_stock, stock_done, stock_held),
    "delete.sh": Recipe("delete.sh", make_log, deleted_done, deleted_held),
    "columns.sh": Recipe("columns.sh", make_log, columns_done, columns_held, again=1),
    "replace.sh": Recipe("replace.sh", make_three, three_done, three_held),
    "to_csv.sh": Recipe("to_csv.sh", make_log, csv_done, log_stays, needs=("jq",), kills=False),
    "since.sh": Recipe("since.sh", make_log, log_stays, log_stays, words=lambda room: ["2026-12-01"], needs=("jq",), kills=False),
    "dump.sh": Recipe("dump.sh", make_tables, dump_done, dump_held, **TO_FOLDER),
    "restore.sh": Recipe("restore.sh", make_dump, restored_done, restored_held, **OF_RESTORED, **FROM_FOLDER),
    "backup.sh": Recipe("backup.sh", make_log, backup_done, backup_held),
    # The other program appends an equal row to the table.
    "once.sh, an equal row": spooled([LATE_ROW]),
    "once.sh, another table": spooled([[20791, 1, "s"], [20791, 2, None]], writer=OTHER_WRITER, alone=False, kills=False),
    "once.sh, run by another": spooled([[20791, 1, "s"], [20791, 2, None]], writer=SPOOL_WRITER, alone=False, kills=False),
    **{f"undo.sh, {it}": undoing(it) for it in UNDONE},
    "to_sqlite.sh": Recipe("to_sqlite.sh", make_log, database_done("sqlite3", "log.db"), log_stays, needs=("sqlite3",), kills=False),
    "using.md, delete": Recipe("using.md, delete", make_old, old_deleted, old_held, **OF_USING),
    "using.md, copy": Recipe("using.md, copy", make_old, old_copied, old_held, before_again=delete_larger, **OF_USING),
    "using.md, empty": Recipe("using.md, empty", make_old, made_empty, old_held, again=1, kills=False, **OF_USING),
    "replica.sh": Recipe("replica.sh", make_replica, replica_done, replica_held, writer=OWN_WRITER),
    "replica.sh, a busy sender": Recipe("replica.sh", make_replica, origin_done, origin_held, **OF_ORIGIN),
    "replica.sh, run by another": Recipe("replica.sh", make_replica, replica_done_twice, replica_held_twice, lock="replica.lock", writer="sh plain/replica.sh", kills=False),
    "chain.sh": Recipe("chain.sh", make_chain, chain_done, chain_held, words=lambda room: ["chain"], needs=("jq",)),
    "copy_chain.sh": Recipe("copy_chain.sh", make_copied_chain, copy_done, copy_held, words=lambda room: ["chain", "other"], writer=CHAIN_WRITER, needs=("jq",)),
    "restore_chain.sh": Recipe("restore_chain.sh", make_chain, point_done, point_held, words=lambda room: ["chain", "000002", "65536"], again=1, needs=("jq",), **OF_RESTORED),
    "by_tar.sh": Recipe("by_tar.sh", make_chain, point_done, point_held, words=lambda room: ["65536", *(f"chain/{it}" for it in names_of(2))], again=1, needs=("jq",), **OF_RESTORED),
    "to_duckdb.sh": Recipe("to_duckdb.sh", make_log, database_done("duckdb", "log.duckdb"), log_stays, needs=("duckdb",), kills=False),
}


class Played:
    """What is wrong with a recipe, as it is run in many ways, each in a folder of its own that begins as the first one did."""

    def __init__(self, title, recipe):
        self.title, self.recipe = title, recipe
        self.answers = []

    @contextlib.contextmanager
    def room(self, prepared=None):
        with tempfile.TemporaryDirectory() as folder:
            if prepared:
                subprocess.run(["cp", "-a", f"{prepared.folder}/.", folder], check=True)
            yield Room(folder)

    def expect(self, when, wrong):
        self.answers.append((f"{self.title}, {when}", wrong))

    def stopped(self, when, room):
        """After a stop, nothing is lost; nor is it once another program has appended, nor once the script has run again."""
        recipe = self.recipe
        self.expect(f"{when}: held", recipe.held(room, False))
        if when.endswith("written"):
            room.let_write(recipe)
            room.run("sh", "steps/writer")
        late = room.has("steps/acknowledged")
        self.expect(f"{when}: held beside another", recipe.held(room, late))
        recipe.before_again(room)
        _, said = room.play(recipe)
        wrong = recipe.done(room, late)
        self.expect(f"{when}: run again", wrong and f"{wrong}: {said}")

    def whole(self, room):
        """How many steps the script has, and how long it takes."""
        began = time.monotonic()
        status, said = room.play(self.recipe)
        taken, steps = time.monotonic() - began, int(room.read("steps/count"))
        self.ended("whole", room, status, 0, said)
        status, said = room.play(self.recipe)
        self.ended("twice", room, status, self.recipe.again, said)
        return steps, taken

    def ended(self, when, room, status, wanted, said):
        wrong = differs(status, wanted) or self.recipe.done(room, False)
        self.expect(when, wrong and (wrong, said))

    def beside(self, step, room):
        room.let_write(self.recipe)
        status, said = room.play(self.recipe, step, WRITE.format(lock=self.recipe.lock))
        late = room.acknowledged()
        wrong = self.recipe.done(room, late)
        self.expect(f"another program at step {step}", wrong and (wrong, status, said))

    def failing(self, call, room):
        """One of the calls of tools fails, and so does the script, unless what it is for is done. Nothing is lost then, and the next run does it."""
        room.watch_tools()
        status, said = room.play(self.recipe, failing=call)
        calls = len(os.listdir(room.path("steps/calls")))
        wrong = self.recipe.held(room, False) if status else self.recipe.done(room, False)
        if status and not wrong:
            self.recipe.before_again(room)
            _, said = room.play(self.recipe)
            wrong = self.recipe.done(room, False)
        self.expect(f"call {call} of a tool fails", wrong and (wrong, status, said))
        return calls

    def all(self):
        with self.room() as prepared:
            prepared.place(self.recipe)
            with self.room(prepared) as room:
                steps, taken = self.whole(room)
            for step in range(1, steps + 1) if self.recipe.stops else ():
                with self.room(prepared) as room:
                    self.beside(step, room)
                for more in ("", ", and another written") if self.recipe.alone else (", and another written",):
                    with self.room(prepared) as room:
                        status, _ = room.play(self.recipe, step, STOP)
                        self.expect(f"stopped at step {step}", differs(status, -signal.SIGKILL))
                        self.stopped(f"stopped at step {step}{more}", room)
            with self.room(prepared) as room:
                calls = self.failing(0, room)
            for call in range(1, calls + 1) if self.recipe.alone else ():
                with self.room(prepared) as room:
                    self.failing(call, room)
            for kill in range(KILLS if self.recipe.kills else 0):
                with self.room(prepared) as room:
                    run = room.begin(self.recipe)
                    time.sleep(taken * kill / KILLS)
                    os.killpg(run.pid, signal.SIGKILL)
                    run.communicate()
                    self.stopped(f"killed at {kill}/{KILLS}, and another written", room)
        return self.answers


def is_left_out(title, tools):
    """Whether a tool is not here; then a line says so."""
    missing = [tool for tool in tools if not shutil.which(tool)]
    if missing:
        print(f"recipes: {title} was left out, for want of {', '.join(missing)}")
    return missing


def judge(what, wrong):
    """Nothing is wrong, or what is said of it."""
    if wrong:
        answers.fail(what, [line for part in (wrong if isinstance(wrong, tuple) else (wrong,)) for line in str(part).splitlines()])
    else:
        answers.passed += 1


def stopped_by(error):
    """What stopped a recipe that could not be played to its end."""
    return error and "".join(traceback.format_exception(error)[-4:])


def play_all(chosen):
    """Every recipe that is chosen and whose tools are here, some at a time."""
    with concurrent.futures.ThreadPoolExecutor(os.cpu_count()) as pool:
        runs = []
        for title, recipe in RECIPES.items():
            if recipe.name in chosen and not is_left_out(title, ("flock", *recipe.needs)):
                runs.append((recipe.name, pool.submit(Played(title, recipe).all)))
        for answers.case, run in runs:
            judge("the recipe is played to its end", stopped_by(run.exception()))
            for what, wrong in run.result() if not run.exception() else ():
                judge(what, wrong)


def bare_room(folder):
    """A folder with the program and the scripts alone."""
    room = Room(folder)
    room.place(Recipe("first.sh", lambda _: None, None))
    return room


def converted(script, given, wanted):
    """What a script of Python writes of a file, its status and what it says on standard error."""
    with tempfile.TemporaryDirectory() as folder:
        bare_room(folder).write("given", given)
        with open(f"{folder}/given", "rb") as file:
            done = subprocess.run([sys.executable, f"{folder}/plain/{script}"], stdin=file, capture_output=True)
    answers.compare(f"{script} of {given!r:.60}", (done.returncode, done.stdout.decode()), wanted)


def play_conversions():
    """Prices become cents, or the file is refused: with half a cent, with a decimal comma, and as a text that is no price or no CSV."""
    prices = "\ufeffitem,price\r\nbolt,4.35\n\"a, \"\"b\"\"\",-0.05\nfree,\nlarge,90071992547409.93\nzeros,-1.5000\nwhole,7\n\"x\ry\u00e9\",0.1\n"
    cents = 'item,cents\nbolt,435\n"a, ""b""",-5\nfree,\nlarge,9007199254740993\nzeros,-150\nwhole,700\n"x\ry\u00e9",10\n'
    converted("cents.py", prices, (0, cents.replace("\n", "\r\n")))
    for wrong in ("4.355", "4,35", "1.00000000000000000000000000005", "1_000", "1e2", " 1", "4.", "+1", "\u0661", "1\n\"open,1\nlost,2", "1\nwasher", "\"1\"2"):
        converted("cents.py", f"item,price\nbolt,{wrong}\n", (1, "item,cents\r\n" + ("bolt,100\r\n" if wrong.startswith("1\n") else "")))
    # A table would be replaced by one without rows.
    for wrong in ("", "ERROR: no database\n", "item;price\nbolt;1\n", "price\n1\n", "item,price,price\nbolt,1,2\n"):
        converted("cents.py", wrong, (1, ""))


def play_sentences():
    """The commands within the text, and what scripts print."""
    with tempfile.TemporaryDirectory() as folder:
        room = bare_room(folder)

        def compare(begin, wanted, file=None):
            status, said = room.run("sh", "-c", words_of_page(begin))
            answers.compare(begin, (status, room.read(file) if file else said), (0, wanted))

        make_log(room)
        room.command("create", "my.store", "notes", "note:utf8?")
        room.command("append", "my.store", "notes", "--as", "jsonl", given="".join(spaced(row[2:]) for row in LOG))
        shown = room.run("sh", "-c", words_of_page("arrowstore query my.store log --limit 20").replace(" log ", " notes "))
        answers.compare("a row of a null that is looked at", shown, (0, 'a\n\nx, "y"\n\n'))
        since = '"2026-11-30",2,\n"2026-12-01",3,"x, ""y"""\n"2026-12-02",4,""\n'
        answers.compare("since.sh", room.run("sh", "plain/since.sh", "2026-11-30"), (0, since))
        answers.compare("since.sh of no date", room.run("sh", "plain/since.sh", "2026-02-30")[0], 1)
        compare("arrowstore query my.store log --limit 20", "20786  1  a\n20787  2  \n20788  3  x, \"y\"\n20789  4  \n")
        room.write("dated.csv", "day,sensor,note\n2026-12-03,5,\n")
        compare("flock my.store.lock arrowstore append my.store log --as csv --dates", "ok\n")
        answers.compare("the row of a date", room.rows("my.store", "log")[-1], [20790, 5, None])
        room.command("create", "my.store", "stock", "item:utf8", "cents:int64?")
        room.command("append", "my.store", "stock", "--as", "csv", given="item,cents\nbolt,435\nnut,-5\nfree,\nlarge,999999999999999\n")
        compare("arrowstore query my.store stock", '"bolt",4.35\n"nut",-0.05\n"free",\n"large",9999999999999.99\n')
        room.write("new.csv", "day,sensor,note\n1,2,\n")
        compare("flock my.store.lock arrowstore append my.store log --as csv <", "ok\n")


def with_nulls(columns):
    """to_csv.sh with a text for nulls, as the page gives it."""
    return SCRIPTS["to_csv.sh"].replace("\nnull=null\n", f"\n{words_of_page('null=')}\n").replace("columns=day,sensor,note", f"columns={columns}")


def play_nulls_of_csv():
    """What is read again are the rows: with a text for nulls, which no row may have, and of one column without nulls. The file of before stays else."""
    rows = [[1, None, ""], [2, False, None], [3, True, "null"], [4, None, "na"]]
    for columns, added, status in (
        ("day,sensor,note", [], 0), ("note", [], 0), ("sensor", [], 0), ("day,sensor,note", [[5, True, "NA"]], 5), ("note", [[5, True, "NA"]], 5),
        ("day", [[9007199254740993, None, None]], 5), ("nothing", [], 1),
    ):
        with tempfile.TemporaryDirectory() as folder:
            room = bare_room(folder)
            room.command("format", "my.store", "4096")
            room.command("create", "my.store", "log", "day:int64", "sensor:bool?", "note:utf8?")
            room.command("append", "my.store", "log", "--as", "jsonl", given="".join(map(spaced, [*rows, *added])))
            room.write("log.csv", "before")
            status_now = room.run("sh", "-c", with_nulls(columns))[0]
            answers.compare(f"to_csv.sh of {columns} and {added}", (status_now, status != 0 and room.read("log.csv")), (status, status != 0 and "before"))
            if not status:
                room.command("query", "my.store", "log", "--columns", columns, "--save", "read")
                wanted = room.rows("my.store", "read")
                room.command("apply", "my.store", "-", given="save read again --limit 0\nappend again log.csv --as csv --null NA\n")
                answers.compare(f"{columns}, read again", room.rows("my.store", "again"), wanted)
    with tempfile.TemporaryDirectory() as folder:
        room = bare_room(folder)
        make_log(room)
        told = room.run("sh", "-c", SCRIPTS["to_csv.sh"].replace("columns=day,sensor,note", "columns=note"))[0], room.has("log.csv")
        answers.compare("to_csv.sh of one column with a null", told, (5, False))


def play_fields():
    """A table with a field changed; and no table, if there is none to take the fields from, or one without fields."""
    with tempfile.TemporaryDirectory() as folder:
        room = bare_room(folder)
        room.command("format", "store", "512")
        for words in (["no_fields"], ["t", "size:int32", "name:utf8?", "-l:list<int8?>"]):
            room.command("create", "--", "store", *words)
        for table, status in (("other", 1), ("no_fields", 0), ("t", 0)):
            answers.compare(f"the fields of {table}", room.run("sh", "-c", fields_of_using().replace("store t ", f"store {table} "))[0], status)
            answers.compare(f"the tables after {table}", room.names("store"), ["new"] * (table == "t") + ["no_fields", "t"])
        wanted = room.command("schema", "store", "t", "--fields").replace("size:int32", "size:int64")
        answers.compare("the changed fields", room.command("schema", "store", "new", "--fields"), wanted)


def play_array():
    """Lines are made of one array, and no number is rounded."""
    [command] = re.findall(r"`(python3 -c [^`]*)`", page("docs/using.md"))
    array = '[\n {"at": 1764547200123456789,\n  "note": "\u00e9"}, [18446744073709551615, null]]\n'
    done = subprocess.run(["sh", "-c", command], input=array.encode(), capture_output=True)
    wanted = b'{"at": 1764547200123456789, "note": "\\u00e9"}\n[18446744073709551615, null]\n'
    answers.compare("lines of an array", (done.returncode, done.stdout), (0, wanted))


def play_large_numbers():
    """`to_csv.sh` and `since.sh` stop at a number that jq would round, and at a list, also in a row before others; the file stays as it was."""
    for cells in ((-9007199254740993, None), (9007199254740992, None), (1, [1, 2])):
        with tempfile.TemporaryDirectory() as folder:
            room = bare_room(folder)
            room.command("format", "my.store", "4096")
            room.command("create", "my.store", "log", "day:date_day", "sensor:int64", "note:list<int8>?")
            for row, status in (([3, 9007199254740991, None], 0), ([4, *cells], 5), ([5, 2, None], 5)):
                room.command("append", "my.store", "log", "--as", "jsonl", given=f"{json.dumps(row)}\n")
                for words in (["to_csv.sh"], ["since.sh", "1970-01-01"]):
                    answers.compare(f"{words} of {row}", room.run("sh", f"plain/{words[0]}", *words[1:])[0], status)
            answers.compare("what to_csv.sh leaves", room.read("log.csv"), "day,sensor,note\n3,9007199254740991,\n")


def play_first_size():
    """A new store takes all of its space on the disk. What it takes of a file of small numbers, and of one of empty fields, is less than the page says."""
    with tempfile.TemporaryDirectory() as folder:
        room = bare_room(folder)
        room.command("format", "my.store", "65536")
        answers.compare("the size of a new store", (os.stat(room.path("my.store")).st_size, os.stat(room.path("my.store")).st_blocks >= 65536), (1 << 25, True))
        for times, row, types in ((5, "1,2,3,4\n", "int64"), (9, ",,,\n", "int64?"), (9, ",,,\n", "large_utf8?")):
            text = "a,b,c,d\n" + row * (100_000 // len(row))
            room.command("format", f"{times}{types}", str(times * len(text) // 512))
            room.command("create", f"{times}{types}", "t", *(f"{name}:{types}" for name in "abcd"))
            room.command("append", f"{times}{types}", "t", "--as", "csv", given=text)


def play_deletions():
    """Where no row would stay, and where another table has rows of a column that is added."""
    with tempfile.TemporaryDirectory() as folder:
        room = bare_room(folder)
        make_log(room)
        text = SCRIPTS["delete.sh"]
        answers.compare("how often delete.sh has its condition", text.count("day >= 20788"), 1)
        for condition in ("note = 'a'", 'note = x, "y', "note = $(echo a)", "note = \\"):
            quoted = "'" + condition.replace("'", "'\\''") + "'"
            status, _ = room.run("sh", "-c", text.replace("'day >= 20788'", quoted))
            answers.compare("delete.sh that would keep no row", (status, room.rows("my.store", "log")), (1, LOG))
        # A quotation mark within a condition is not one of the script: nothing is deleted.
        quoted = text.replace("day >= 20788", 'note = x, "y"')
        answers.compare("delete.sh of a condition with quotation marks", (room.run("sh", "-c", quoted)[0], room.rows("my.store", "log")), (1, LOG))
        answers.compare("columns.sh", room.run("sh", "plain/columns.sh")[0], 0)
        room.command("append", "my.store", "log", "--as", "jsonl", given='[1,2,"north"]\n')
        answers.compare("columns.sh again", (room.run("sh", "plain/columns.sh")[0], room.rows("my.store", "log")[-1]), (1, [1, 2, "north"]))


USE = r"""import store
assert store.rows("log", "day >= 20787", "note is not null") == [[20788, 3, 'x, "y"'], [20789, 4, ""]]
store.append("log", [[20790, 9, None], {"day": 20790, "sensor": 9, "note": "\u2028\r\x1f"}])
assert store.rows("log", "day = 20790") == [[20790, 9, None], [20790, 9, "\u2028\r\x1f"]]
try:
    store.append("log", [["x"]])
except store.subprocess.CalledProcessError as error:
    assert error.returncode == 1
else:
    raise AssertionError("a row that does not fit")
"""
USE_ARROW = """import store
table = store.arrow_table("log")
assert table.num_rows == 4 and table.column("sensor").to_pylist() == [1, 2, 3, 4]
store.replace("log", table.slice(1, 2))
assert store.rows("log") == [[20787, 2, None], [20788, 3, 'x, "y"']]
"""


def play_python():
    uses = {"store.py": USE}
    if subprocess.run([sys.executable, "-c", "import pyarrow"], capture_output=True).returncode:
        print("recipes: arrow_table and replace of store.py were left out, for want of pyarrow")
    else:
        uses["store.py with pyarrow"] = USE_ARROW
    for title, use in uses.items():
        with tempfile.TemporaryDirectory() as folder:
            room = bare_room(folder)
            make_log(room)
            room.write("plain/use.py", use)
            answers.compare(title, room.run(sys.executable, "plain/use.py"), (0, "" if "with" in title else "refused X2 Width 1\n"))


KILLED = """import os
import store
os.environ["CALLER"] = str(os.getpid())
store.append("log", [[number % 10] for number in range(40000)])
"""


def play_killed_python():
    """The rows of an `append` are there all or none, where Python is killed before the program has read them."""
    with tempfile.TemporaryDirectory() as folder:
        room = bare_room(folder)
        room.command("format", "my.store", "4096")
        room.command("create", "my.store", "log", "n:int8")
        room.write("plain/killed.py", KILLED)
        os.remove(room.path("bin/arrowstore"))
        room.write("bin/arrowstore", f'#!/bin/sh\nsleep 0.2\nkill -9 $CALLER\n{PROGRAM} "$@"\n')
        os.chmod(room.path("bin/arrowstore"), 0o755)
        # This waits for the program too, which writes to the same standard error.
        answers.compare("Python that is killed", room.run(sys.executable, "plain/killed.py")[0], -signal.SIGKILL)
        os.remove(room.path("bin/arrowstore"))
        os.symlink(PROGRAM, room.path("bin/arrowstore"))
        answers.compare("the rows then", room.command("tables", "my.store"), "log 40000\n")


def play_three_commands():
    """The commands at the beginning of the section, as printed."""
    [block] = re.findall(r"(?m)(?:^    arrowstore .*\n){3}", page("docs/replication.md"))
    with tempfile.TemporaryDirectory() as folder:
        room = bare_room(folder)
        make_tables(room)
        os.rename(room.path("my.store"), room.path("store"))
        room.command("format", "replica", "4096")
        for turn in range(2):
            answers.compare("have, send and receive", room.run("sh", "-ec", textwrap.dedent(block)), (0, "ok\n"))
            answers.compare("the tables of the replica", contents(room, "replica"), contents(room, "store"))
            room.command("append", "store", "log", "--as", "jsonl", given=spaced(LOG[turn]))


# What the connection may do in the place of the command.
LOST = {
    "no connection": "exit 255", "a connection that is lost": "sh -c \"$*\" | head -c 1000; exit 255", "one that is lost, and nobody is told": "sh -c \"$*\" | head -c 1000",
    "another text before": "echo Welcome; sh -c \"$*\"", "nothing": ":", "a lost connection behind the whole": "sh -c \"$*\"; exit 255",
}


def play_lost_connection():
    """Nothing has changed after a connection that fails, and the next run does it."""
    for title, act in LOST.items():
        with tempfile.TemporaryDirectory() as folder:
            room = bare_room(folder)
            make_replica(room)
            before, wanted = content_of(room, "my.store"), contents(room, "home/data/my.store")
            room.write("bin/ssh", SSH.replace('exec sh -c "$*"', f"{{ {act}; }}"))
            status, _ = room.run("sh", "plain/replica.sh")
            answers.compare(f"replica.sh: {title}", (status != 0, content_of(room, "my.store") == before), (True, True))
            room.write("bin/ssh", SSH)
            status, said = room.run("sh", "plain/replica.sh")
            tables = contents(room, "my.store")
            del tables["own"]
            answers.compare(f"replica.sh: the next run after {title}", (status, tables, room.rows("my.store", "own")), (0, wanted, OWN[:1]))


def play_busy_stores():
    """Where either store is locked, it is waited for; a segment that is gone meanwhile refuses the archive; what the replica has changed is lost."""
    with tempfile.TemporaryDirectory() as folder:
        room = bare_room(folder)
        make_replica(room)
        for store in "home/data/my.store", "my.store", "home/data/my.store.lock", "my.store.lock":
            held = subprocess.Popen(["flock", room.path(store), "sleep", "1"])
            time.sleep(0.2)
            answers.compare(f"replica.sh while {store} is locked", room.run("sh", "plain/replica.sh"), (0, "ok\n"))
            answers.compare(f"whether {store} was waited for", held.wait(), 0)
        answers.compare("the replica", replica_done(room, False), None)
        room.command("create", "home/data/my.store", "same", "--like", "log")
        room.command("append", "home/data/my.store", "same", "--as", "jsonl", given=spaced(LOG[0]))
        room.command("create", "my.store", "mine", "--like", "log")
        room.command("append", "my.store", "mine", "--as", "jsonl", given=spaced(LOG[0]))
        room.write("bin/ssh", SSH.replace("cd home && exec", "arrowstore drop my.store mine > /dev/null && cd home && exec"))
        status, said = room.run("sh", "plain/replica.sh")
        answers.compare("replica.sh where a segment is dropped", (status, said.startswith("refused A4 LacksSegment "), replica_held(room, False)), (1, True, None))
        room.write("bin/ssh", SSH)
        answers.compare("the next run", room.run("sh", "plain/replica.sh"), (0, "ok\n"))
        room.command("append", "my.store", "log", "--as", "jsonl", given=spaced([1, 1, "mine"]))
        answers.compare("a replica that was changed", (room.run("sh", "plain/replica.sh"), room.rows("my.store", "log")), ((0, "ok\n"), room.rows("home/data/my.store", "log")))
        room.command("drop", "home/data/my.store", "same")
        answers.compare("a table that is dropped", (room.run("sh", "plain/replica.sh"), "same" in room.names("my.store")), ((0, "ok\n"), True))
        held = subprocess.Popen(["flock", room.path("replica.lock"), "sleep", "1"])
        time.sleep(0.2)
        answers.compare("a run beside another", room.run("sh", "plain/replica.sh"), (0, ""))
        answers.compare("whether the other was not waited for", held.poll(), None)
        held.wait()


def play_left_connection():
    """A connection that has outlived its script writes into files that the next run does not use."""
    with tempfile.TemporaryDirectory() as folder:
        room = bare_room(folder)
        make_replica(room)
        with open(room.path("replica.tar"), "r+b") as here, open(room.path("home/data/sent.tar"), "r+b") as there:
            answers.compare("replica.sh beside a connection", room.run("sh", "plain/replica.sh"), (0, "ok\n"))
            for left in here, there:
                left.write(bytes(10000))
        begins = [content_of(room, name)[:8] for name in ("replica.tar", "home/data/sent.tar")]
        answers.compare("the archives then", begins, [b"manifest"] * 2)


def play_older_sender():
    """A sender that was put back replaces nothing, until it is said to be right."""
    with tempfile.TemporaryDirectory() as folder:
        room = bare_room(folder)
        make_replica(room)
        shutil.copyfile(room.path("home/data/my.store"), room.path("backup"))
        answers.compare("replica.sh", room.run("sh", "plain/replica.sh"), (0, "ok\n"))
        room.command("append", "home/data/my.store", "log", "--as", "jsonl", given=spaced(LATE_ROW))
        answers.compare("replica.sh, a row later", room.run("sh", "plain/replica.sh"), (0, "ok\n"))
        rows = room.rows("my.store", "log")
        os.replace(room.path("backup"), room.path("home/data/my.store"))
        answers.compare("replica.sh of an older sender", (room.run("sh", "plain/replica.sh")[0], room.rows("my.store", "log")), (1, rows))
        # What a full disk or a power cut may leave of it.
        for left in ("", "\n"):
            room.write("replica.epoch", left)
            answers.compare("replica.sh without the last epoch", (room.run("sh", "plain/replica.sh")[0], room.rows("my.store", "log")), (1, rows))
        os.remove(room.path("replica.epoch"))
        answers.compare("replica.sh of one that is right", (room.run("sh", "plain/replica.sh"), room.rows("my.store", "log")), ((0, "ok\n"), rows[:-1]))


def play_stopped_replica():
    """A replica that is stopped as soon as it has the rows takes no older ones then."""
    with tempfile.TemporaryDirectory() as folder:
        room = bare_room(folder)
        make_replica(room)
        shutil.copyfile(room.path("home/data/my.store"), room.path("backup"))
        room.command("append", "home/data/my.store", "log", "--as", "jsonl", given=spaced(LATE_ROW))
        [line] = [it for it in SCRIPTS["replica.sh"].splitlines() if " arrowstore receive " in it]
        room.run("setsid", "sh", "-c", SCRIPTS["replica.sh"].replace(line, f"{line}\nkill -9 $$"))
        rows = room.rows("my.store", "log")
        os.replace(room.path("backup"), room.path("home/data/my.store"))
        answers.compare("the rows of a stopped replica", rows[-1], LATE_ROW)
        answers.compare("replica.sh of an older sender then", (room.run("sh", "plain/replica.sh")[0], room.rows("my.store", "log")), (1, rows))


def play_bad_chains():
    """Archives of a chain that are cut, altered or missing restore nothing, by either script."""
    for title, spoil in (
        ("cut within a stream", lambda made: made[: len(made) // 2]), ("cut between two members", lambda made: made[:-2048]), ("cut to nothing", lambda made: b""),
        ("with a stream altered", lambda made: made.replace(b"\xff\xff\xff\xff", b"\xff\xff\xff\xfe", 1)),
    ):
        with tempfile.TemporaryDirectory() as folder:
            room = bare_room(folder)
            make_chain(room)
            made = content_of(room, "chain/000001.tar")
            with open(room.path("chain/000001.tar"), "wb") as file:
                file.write(spoil(made))
            for words in (["restore_chain.sh", "chain", "000002", "4096"], ["by_tar.sh", "4096", "chain/000001.tar", "chain/000002.tar"]):
                status, _ = room.run("sh", f"plain/{words[0]}", *words[1:])
                answers.compare(f"{words[0]} of an archive {title}", (status != 0, room.has("restored.store")), (True, False))
    with tempfile.TemporaryDirectory() as folder:
        room = bare_room(folder)
        make_chain(room)
        os.remove(room.path("chain/000001.tar"))
        for words in (["restore_chain.sh", "chain", "000002", "4096"], ["by_tar.sh", "4096", "chain/000002.tar"], ["restore_chain.sh", "chain", "000009", "4096"]):
            status, _ = room.run("sh", f"plain/{words[0]}", *words[1:])
            answers.compare(f"{words} of a chain without its first archive", (status != 0, room.has("restored.store")), (True, False))


def play_chain_folders():
    """A folder that tar would take for another machine; a tar that fails; an archive that has the next name already; and what is no chain, or another one."""
    with tempfile.TemporaryDirectory() as folder:
        room = bare_room(folder)
        make_log(room)
        named = "2026-11-30T12:00"
        answers.compare("chain.sh into no folder", (room.run("sh", "plain/chain.sh", named)[0], room.has(named)), (1, False))
        for name in named, "chain":
            os.mkdir(room.path(name))
        answers.compare("chain.sh into a folder with a colon", (room.run("sh", "plain/chain.sh", named), chain_of(room, named)), ((0, ""), names_of(1)))
        answers.compare("by_tar.sh of such a folder", room.run("sh", "plain/by_tar.sh", "4096", f"{named}/000001.tar")[0], 0)
        answers.compare("the tables then", room.has("restored.store") and contents(room, "restored.store"), contents(room, "my.store"))
        room.write("bin/tar", "#!/bin/sh\nexit 9\n")
        os.chmod(room.path("bin/tar"), 0o755)
        answers.compare("chain.sh with a tar that fails", (room.run("sh", "plain/chain.sh", "chain")[0], chain_of(room, "chain")), (9, []))
        os.remove(room.path("bin/tar"))
        answers.compare("copy_chain.sh into no folder", (room.run("sh", "plain/copy_chain.sh", named, "copy")[0], room.has("copy")), (1, False))
        os.mkdir(room.path("copy"))
        answers.compare("copy_chain.sh of no folder", room.run("sh", "plain/copy_chain.sh", "nothing", "copy")[0], 1)
        answers.compare("copy_chain.sh", (room.run("sh", "plain/copy_chain.sh", named, "copy"), chain_of(room, "copy")), ((0, ""), names_of(1)))
        shutil.copyfile(room.path(f"{named}/000001.tar"), room.path(f"{named}/9.tar"))
        for status in (0, 1):
            room.command("rename", "my.store", *(["log", "gone"] if status == 0 else ["gone", "log"]))
            made = room.run("sh", "plain/chain.sh", named)[0], chain_of(room, named)
            answers.compare("chain.sh beside 9.tar", made, (status, ["000001.tar", "000010.tar", "9.tar"]))
        answers.compare("chain.sh, another chain", room.run("sh", "plain/chain.sh", "chain")[0], 0)
        before = content_of(room, "copy/000001.tar")
        answers.compare("copy_chain.sh of another chain", room.run("sh", "plain/copy_chain.sh", "chain", "copy")[0], 1)
        answers.compare("the copied archive", content_of(room, "copy/000001.tar") == before, True)


def play_archive_made_anew():
    """The last archive of a chain is deleted, its command undone, and another archive has its number: a copy of the first one is not of this chain."""
    with tempfile.TemporaryDirectory() as folder:
        room = bare_room(folder)
        make_log(room)
        os.mkdir(room.path("chain"))
        os.mkdir(room.path("copy"))
        many = "".join(f"save log a{number}\n" for number in range(30))
        room.command("apply", "my.store", "-", given=many + "rename log z\n")
        for turn, status in ((0, 0), (1, 0), (2, 1)):
            if turn == 2:
                assert room.run("sh", "plain/undo.sh", str(epoch_of(room)))[0] == 0
                os.remove(room.path("chain/000002.tar"))
            room.command("append", "my.store", "z", "--as", "jsonl", given=spaced([1, turn, None]))
            answers.compare(f"chain.sh, turn {turn}", room.run("sh", "plain/chain.sh", "chain"), (0, ""))
            status_now = room.run("sh", "plain/copy_chain.sh", "chain", "copy")[0]
            answers.compare(f"copy_chain.sh, turn {turn}", (status_now, chain_of(room, "copy")), (status, names_of(turn + 1 - status)))


def play_altered_manifest():
    """A name that no table can have makes no file of its own, and no line of a script."""
    with tempfile.TemporaryDirectory() as folder:
        room = bare_room(folder)
        make_log(room)
        with open(room.path("sent"), "wb") as file:
            subprocess.run([PROGRAM, "send", room.path("my.store")], stdout=file, check=True)
        with tarfile.open(room.path("sent")) as sent:
            members = [(it.name, sent.extractfile(it).read()) for it in sent.getmembers()]
        before = sorted(os.listdir(folder))
        manifest = dict(members)["manifest.jsonl"]
        for name in "../../over", "log\ncreate more n:int8", "a b":
            made = manifest.replace(b'"log"', json.dumps(name).encode())
            for end, told in (
                (hashlib.sha256(made).hexdigest().encode() + b"\n", "The archive has a name that no table can have.\n"),
                (b"", "The archive has a name that no table can have.\n"), (dict(members)["end"], "The list of tables of altered was altered.\n"),
            ):
                with tarfile.open(room.path("altered"), "w") as altered:
                    for member, bytes_of in {**dict(members), "manifest.jsonl": made, "end": end}.items():
                        info = tarfile.TarInfo(member)
                        info.size = len(bytes_of)
                        altered.addfile(info, io.BytesIO(bytes_of))
                answers.compare(f"by_tar.sh of the name {name!r}", room.run("sh", "plain/by_tar.sh", "4096", "altered"), (1, told))
        answers.compare("what it leaves", sorted(os.listdir(folder)), sorted([*before, "altered", "restored.store.lock", "unpacked"]))


def play_chain_of_everything():
    """Tables of all kinds, one with pairs, names as words of the shell, and none at all: restored by both scripts, and each export is the same."""
    with tempfile.TemporaryDirectory() as folder:
        room = bare_room(folder)
        os.mkdir(room.path("chain"))
        room.command("format", "my.store", "4096")
        pairs = streams.Tables([streams.Table(streams.Text("k"), streams.Text("v"))])
        paired = streams.message(1, streams.Table((2, 0), streams.Tables([streams.field("two words", True, streams.INT, streams.integer("int32"))]), pairs)) + streams.END
        for turn in range(3):
            if turn:
                for name in ("..", "--t", "pairs", "z" * 64)[: 2 * turn]:
                    done = subprocess.run([PROGRAM, "import", "--", room.path("my.store"), name], input=paired, capture_output=True)
                    assert done.returncode == 0, done
                room.command("create", "my.store", f"none{turn}")
                room.command("create", "my.store", f"every{turn}", "l:list<utf8?>?", "p:struct<a:int8,b:date_day>?", "d:dict<int8,utf8>?", "f:fixed_binary(2)", "t:timestamp_ns(UTC)")
                for row in '[["x",null],[1,2],"d","00ff",5]\n', "[null,null,null,\"0000\",-5]\n" * 5000:
                    room.command("append", "my.store", f"every{turn}", "--as", "jsonl", given=row)
            status, said = room.run("sh", "plain/chain.sh", "chain")
            answers.compare(f"chain.sh, turn {turn}", (status, said), (0, ""))
            wanted = exports(room, "my.store")
            number = f"{turn + 1:06}"
            for words in (["restore_chain.sh", "chain", number, "4096"], ["by_tar.sh", "4096", *(f"chain/{it}" for it in names_of(turn + 1))]):
                with contextlib.suppress(FileNotFoundError):
                    os.remove(room.path("restored.store"))
                status, said = room.run("sh", f"plain/{words[0]}", *words[1:])
                answers.compare(f"{words[0]}, turn {turn}", (status, exports(room, "restored.store") == wanted), (0, True))
        answers.compare("chain.sh of what has not changed", (room.run("sh", "plain/chain.sh", "chain/"), chain_of(room, "chain")), ((0, ""), names_of(3)))


def exports(room, store):
    """The stream of each table."""
    return {name: subprocess.run([PROGRAM, "export", "--", room.path(store), name], capture_output=True).stdout for name in room.names(store)}


OTHERS = [
    ("cents.py", play_conversions, ()),
    ("the size of a new store", play_first_size, ()),
    ("the commands in the text", play_sentences, ("flock", "jq", "column")),
    ("a stream that is cut off", play_cut_stream, ("flock",)),
    ("a stray quotation mark", play_stray_mark, ("flock",)),
    ("folders of a dump", play_folders, ("flock",)),
    ("characters that SQLite cuts off", play_null_characters, ("flock", "sqlite3")),
    ("rows that SQLite does not take", play_rows_not_taken, ("flock", "sqlite3")),
    ("integers that SQLite rounds", play_too_large_for_sqlite, ("flock", "sqlite3")),
    ("the owner of a copy", play_rights, ("flock", "jq")),
    ("no store", play_no_store, ("flock",)),
    ("a backup of a new store", play_new_store, ("flock",)),
    ("a backup that is put back", play_put_back, ("flock",)),
    ("an array", play_array, ()),
    ("a field that is changed", play_fields, ("xargs",)),
    ("rows at which jq stops", play_large_numbers, ("flock", "jq")),
    ("texts for nulls", play_nulls_of_csv, ("flock", "jq")),
    ("a spool", play_spool, ("flock",)),
    ("tables beside a spool", play_tables_beside_a_spool, ("flock",)),
    ("spools of two tables", play_two_spools, ("flock",)),
    ("a spool of an older store", play_older_spool, ("flock", "jq")),
    ("three commands", play_three_commands, ()),
    ("a connection that is lost", play_lost_connection, ("flock",)),
    ("busy stores", play_busy_stores, ("flock",)),
    ("a connection that is left", play_left_connection, ("flock",)),
    ("an older sender", play_older_sender, ("flock",)),
    ("a replica that is stopped", play_stopped_replica, ("flock",)),
    ("bad chains", play_bad_chains, ("flock", "jq")),
    ("an archive that is made anew", play_archive_made_anew, ("flock", "jq")),
    ("folders of chains", play_chain_folders, ("flock", "jq")),
    ("an altered manifest", play_altered_manifest, ("flock", "jq")),
    ("a chain of everything", play_chain_of_everything, ("flock", "jq")),
    ("columns that are converted", play_conversions_of_columns, ("flock",)),
    ("rows that no condition keeps", play_deletions, ("flock",)),
    ("store.py", play_python, ("flock",)),
    ("store.py that is killed", play_killed_python, ("flock",)),
]
CHOSEN = chosen_of([*(recipe.name for recipe in RECIPES.values()), *(title for title, _, _ in OTHERS)], answers.given)
play_all(CHOSEN)
for title, play, needs in OTHERS:
    if title in CHOSEN and not is_left_out(title, needs):
        answers.plays((title, play))
sys.exit(answers.tell("recipes"))
