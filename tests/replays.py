#!/usr/bin/env python3
"""replays.py PROGRAM: scripts on a device in memory, of which each write and each sync in turn fails, or is the one in which it stops.

What one script may answer is worked out by a small model: the lines before the one in flight are done, that one is refused because its device failed,
and a crash leaves the tables before it or after it. Prints each difference, and last how many passed."""
import os
import shlex
import shutil
import sys
import tempfile

sys.dont_write_bytecode = True
from differences import difference
from running import Answers
from worked import WORKED

ROOT = os.path.dirname(os.path.dirname(os.path.abspath(__file__)))
answers = Answers.of_arguments(__doc__)
compare, run = answers.compare, answers.run
SECTORS = ["--sectors", "16"]
LINES = ["create t a:int32?", "import t rows", "append t rows", "compact", "compact", "reopen", "drop t"]
# How many writes and syncs each line makes, and the tables after it.
CALLS = [4, 5, 5, 5, 5, 1, 4]
TABLES = ["t 0\n", "t 2\n", "t 4\n", "t 4\n", "t 4\n", "t 4\n", ""]
OK, FAILED, UNOPENED, HALTED, ABSENT = "ok\n", "refused S9 Device\n", "refused C4 Device\n", "refused S10 Halted\n", "refused S1 NoTable\n"
BITS = [str(bits) for bits in range(8)]
CHOICES = ["old", "new", "lost"] + BITS + ["lost:" + bits for bits in BITS]


# A word in quotation marks may have spaces, and two marks in it are one; a mark within another word is a mark of it.
QUOTED = (
    (b'drop "t"', OK + "after:\n"), (b'"drop" "t"', OK + "after:\n"), (b'rename t "u"', OK + "after:\nu 0\n"), (b'drop "t "', ABSENT + "after:\nt 0\n"),
    (b'drop "t""u"', ABSENT + "after:\nt 0\n"), (b'drop """t"""', ABSENT + "after:\nt 0\n"), (b'drop t"', ABSENT + "after:\nt 0\n"),
    (b'drop ""', ABSENT + "after:\nt 0\n"), (b'create "" "a:int8"', "refused S3 BadName\nafter:\nt 0\n"), (b'create "u" "a:int8" b:utf8', OK + "after:\nt 0\nu 0\n"),
)
# The rows that a line saves: the worked table has these two.
SAVED = (
    ("all rows", ["save t u"], OK + "after:\nt 2\nu 2\n"),
    ("a column that is not there", ["save t u --columns zz"], "refused S12 Query Q1 UnknownColumn\nafter:\nt 2\n"),
    ("rows by a condition", ['save t u --columns a,a -- "a >= 1"'], "refused S12 Query Q1 UnknownColumn\nafter:\nt 2\n"),
    ("rows by two conditions", ['save t u --columns a -- "a >= 1" "a is not null"', 'save t v "a is null" "a is not null"'], OK * 2 + "after:\nt 2\nu 1\nv 0\n"),
    ("as many rows as a limit says", ["save t u --limit 1", "save t v --limit 0", "save t w --columns a --limit 5", 'save t x --limit 1 --columns a -- "a is null"'],
     OK * 4 + "after:\nt 2\nu 1\nv 0\nw 2\nx 1\n"),
    ("under a name that a table has", ["save t t"], "refused S2 NameTaken\nafter:\nt 2\n"),
    ("a name that is none", ["save t a/b"], "refused S3 BadName\nafter:\nt 2\n"),
    ("from a table that is not there", ["save v u"], ABSENT + "after:\nt 2\n"),
    ("a stream, by its word", ["append t rows --as stream --null x", "append t rows --dates iso"], OK * 2 + "after:\nt 6\n"),
    ("streams that have their end", ["import u rows --complete", "append t rows --complete"], OK * 2 + "after:\nt 4\nu 2\n"),
    ("streams without their end", ["import u open", "append t open"], OK * 2 + "after:\nt 4\nu 2\n"),
    ("names behind two hyphens", ["save -- t --x", "append -- --x rows", "rename -- --x -y", "save -y z", "drop -- -y"], OK * 5 + "after:\nt 2\nz 4\n"),
    ("and the other one dropped", ["save t u", "drop t", "rename u t", "append t rows"], OK * 4 + "after:\nt 4\n"),
)


# Lines between `begin` and `commit`, which are answered as one.
LISTS = (
    ("a list", ["begin", "create t", "rename t u", "commit"], OK + "after:\nu 0\n"),
    ("a list without lines", ["begin", "commit", "create t"], OK * 2 + "after:\nt 0\n"),
    ("a list of one line", ["begin", "create t", "commit"], OK + "after:\nt 0\n"),
    ("two lists", ["create t", "begin", "drop t", "create t", "commit", "begin", "rename t u", "commit", "reopen"], OK * 4 + "after:\nu 0\n"),
    ("rows are deleted", ["import t rows", "begin", 'save t kept "a >= 1"', "drop t", "rename kept t", "commit"], OK * 2 + "after:\nt 1\n"),
    ("a list behind one that is refused", ["begin", "create t", "drop u", "commit", "begin", "create u", "drop t", "commit", "create v"],
     "refused T1 Line 3 S1 NoTable\nrefused T1 Line 7 S1 NoTable\n" + OK + "after:\nv 0\n"),
    ("the same line by itself and in a list", ["drop t", "begin", "drop t", "commit"], ABSENT + "refused T1 Line 3 S1 NoTable\nafter:\n"),
)
# The second of these items is a list. The tables before it, and after it.
LISTED = ["create t a:int32?", "begin", "import u rows", "append t rows", "rename u v", "commit", "drop t"]
BEFORE_LIST, AFTER_LIST = "t 0\n", "t 2\nv 2\n"


def put(content):
    with open("script", "wb") as file:
        file.write(content)


def written(lines):
    put("".join(line + "\n" for line in lines).encode())


def replayed(*options):
    return run(["replay", "script", *options])


def printed(what, options, text):
    compare(what, replayed(*SECTORS, *options), (0, text.encode(), b""))


def refused(what, options, line):
    compare(what, replayed(*options), (1, b"", f"refused {line}\n".encode()))


def line_in_flight(call):
    """The place of the line that makes this write or sync, where calls are counted from 1."""
    for place, calls in enumerate(CALLS):
        if call <= calls:
            return place
        call -= calls
    raise ValueError(call)


def around(place):
    """The tables before a line, and after it."""
    return {TABLES[place - 1] if place else "", TABLES[place]}


def after_failure(place):
    """What the lines from the one in flight on may print where its call fails, each with what a crash at the end may leave."""
    halted = HALTED * max(5 - place - 1, 0)
    if place == 5:
        return {(UNOPENED + HALTED, "t 4\n")}
    if place == 6:
        return {(FAILED, tables) for tables in around(place)}
    # It is opened again, and the line in flight was done or not.
    return {(FAILED + halted + OK + (OK if tables else ABSENT), "") for tables in around(place)}


def swept():
    for call in range(1, sum(CALLS) + 1):
        place = line_in_flight(call)
        before = OK * place
        for choice in CHOICES:
            stopped = {f"{before}{UNOPENED if place == 5 else FAILED}stopped\nafter:\n{tables}" for tables in around(place)}
            one_of(f"stop {call} {choice}", ["--stop", str(call), "--choice", choice], stopped)
            failed = {f"{before}{lines}after:\n{tables}" for lines, tables in after_failure(place)}
            one_of(f"fail {call} {choice}", ["--fail", str(call), "--choice", choice], failed)


def one_of(what, options, texts):
    status, output, errors = replayed(*SECTORS, *options)
    compare(what, (status, errors), (0, b""))
    if output.decode() not in texts:
        answers.fail(what, ["It is none of what it may be. Beside the first of these:", *difference(output.decode(), min(texts))])


def known():
    """What a stop leaves at some calls of the script, and what is answered where they fail."""
    printed("no fault", [], OK * 7 + "after:\n")
    printed("faults at 0", ["--fail", "0", "--stop", "0"], OK * 7 + "after:\n")
    printed("a stop after the last call", ["--stop", "30"], OK * 7 + "after:\n")
    for call in ("8", "9"):
        for choice, tables in (("old", "t 0\n"), ("new", "t 2\n")):
            printed(f"stop {call} {choice}", ["--stop", call, "--choice", choice], f"{OK}{FAILED}stopped\nafter:\n{tables}")
    for call, place, old, new in (("13", 2, "t 2\n", "t 4\n"), ("18", 3, "t 4\n", "t 4\n"), ("23", 4, "t 4\n", "t 4\n"), ("28", 6, "t 4\n", "")):
        for choice, tables in (("old", old), ("new", new)):
            printed(f"stop {call} {choice}", ["--stop", call, "--choice", choice], f"{OK * place}{FAILED}stopped\nafter:\n{tables}")
    printed("the old choice is the one that is not named", ["--stop", "8"], f"{OK}{FAILED}stopped\nafter:\nt 0\n")
    printed("fail 8", ["--fail", "8"], f"{OK}{FAILED}{HALTED * 3}{OK * 2}after:\n")
    printed("fail 25", ["--fail", "25"], f"{OK * 5}{UNOPENED}{HALTED}after:\nt 4\n")


def others():
    """A failure, a new opening and a stop; and a stop in the first line."""
    written(["create t a:int32?", "create u a:int32?", "reopen", "create v a:int32?"])
    printed("a failure and a stop", ["--fail", "8", "--stop", "11", "--choice", "2"], f"{OK}{FAILED}{OK}{FAILED}stopped\nafter:\nt 0\nu 0\n")
    written(["create t a:int32?"])
    for call, choice, tables in (("3", "old", ""), ("3", "new", "t 0\n"), ("2", "old", ""), ("2", "new", "")):
        printed(f"one line, stop {call} {choice}", ["--stop", call, "--choice", choice], f"{FAILED}stopped\nafter:\n{tables}")


def counted(lines, options, replies=None):
    """How many writes and syncs each line, or else each item, makes, found by failing each in turn."""
    written(lines)
    calls = [0] * (replies or len(lines))
    while True:
        _, output, _ = replayed(*options, "--fail", str(sum(calls) + 1))
        done = output.decode().split("after:\n")[0].split("\n")[:-1]
        if FAILED.rstrip("\n") not in done:
            return calls
        calls[done.index(FAILED.rstrip("\n"))] += 1


def upgrades():
    """An upgrade that is stopped leaves the same tables in either version."""
    written(["import t rows", "upgrade"])
    options = [*SECTORS, "--format-version", "1"]
    compare("calls of an import and an upgrade", counted(["import t rows", "upgrade"], options), [5, 4])
    for call in ("6", "7", "8", "9"):
        for choice in CHOICES:
            compare(f"upgrade, stop {call} {choice}", replayed(*options, "--stop", call, "--choice", choice),
                    (0, f"{OK}{FAILED}stopped\nafter:\nt 2\n".encode(), b""))
            compare(f"upgrade, fail {call} {choice}", replayed(*options, "--fail", call, "--choice", choice),
                    (0, f"{OK}{FAILED}after:\nt 2\n".encode(), b""))
    compare("calls of an upgrade in version 2", counted(["import t rows", "upgrade", "drop t"], SECTORS), [5, 0, 4])


def lists():
    """The lines of a list are one commit: a stop, or a failure, at any of its calls leaves all or none of them."""
    for what, lines, text in LISTS:
        written(lines)
        printed(what, [], text)
    for place in range(4):
        lines = ["create w", "begin", *[*"tuv"][:place], "drop none", *[*"tuv"][place:], "commit", "drop w"]
        written([f"create {line}" if line in "tuv" else line for line in lines])
        printed(f"a list whose line {place + 1} is refused", [], f"{OK}refused T1 Line {place + 3} S1 NoTable\n{OK}after:\n")
    many = ["--sectors", "32"]
    before, within, _ = counted(LISTED, many, 3)
    compare("calls of a change before a list", before, 4)
    compare("a list without a fault", replayed(*many), (0, (OK * 3 + "after:\nv 2\n").encode(), b""))
    first, last = before + 1, before + within
    for call in range(first, last + 1):
        for choice in CHOICES:
            for how, after in (("--stop", "stopped\n"), ("--fail", HALTED)):
                status, output, errors = replayed(*many, how, str(call), "--choice", choice)
                left = output.decode().removeprefix(f"{OK}{FAILED}{after}after:\n")
                compare(f"a list, {how} {call} {choice}", (status, left in (BEFORE_LIST, AFTER_LIST), errors), (0, True, b""))
    for call, choice, left in ((first, "new", BEFORE_LIST), (last - 1, "old", BEFORE_LIST), (last - 1, "new", AFTER_LIST), (last, "new", AFTER_LIST)):
        compare(f"a list, stop {call} {choice}", replayed(*many, "--stop", str(call), "--choice", choice), (0, f"{OK}{FAILED}stopped\nafter:\n{left}".encode(), b""))


def pages():
    """How many calls a change of a catalogue in pages makes: each page that is new, the root, a sync, the commit, a sync."""
    fields = " a:int32?"
    lines = [f"create {name}{fields}" for name in "tuvwx"] + ["rename x y", "drop y", "drop w"]
    for version in ("1", "2"):
        options = [*SECTORS, "--format-version", version]
        compare(f"calls with pages in version {version}", counted(lines, options), [4, 4, 4, 8, 5, 4, 4, 4])
        compare(f"tables in pages in version {version}", replayed(*options), (0, (OK * len(lines) + "after:\nt 0\nu 0\nv 0\n").encode(), b""))


def forms():
    for what, content, text in (
        ("no line", b"", "after:\n"), ("the last line feed is missing", b"create t\ndrop t", OK * 2 + "after:\n"),
        ("a table without columns", b"create t\n", OK + "after:\nt 0\n"), ("a name that no table has", b"create a/b\n", "refused S3 BadName\nafter:\n"),
        ("the empty name", b"create \ndrop \n", "refused S3 BadName\nrefused S1 NoTable\nafter:\n"),
        ("a carriage return in a name", b"create t\ndrop t\r\n", OK + ABSENT + "after:\nt 0\n"),
    ):
        put(content)
        printed(what, [], text)
    for line, text in QUOTED:
        put(b"create t\n" + line + b"\n")
        printed(line.decode(), [], OK + text)
    for what, lines, text in SAVED:
        put("".join(line + "\n" for line in ["import t rows", *lines]).encode())
        printed(what, [], OK + text)
    for what, content, number in (
        ("an empty line", b"create t\n\ndrop t\n", 2), ("two spaces", b"drop  t\n", 1), ("a space at the front", b"create t\n drop t\n", 2),
        ("a space at the end", b"reopen \n", 1), ("a word too many", b"drop t u\n", 1), ("a word too few", b"import t\n", 1),
        ("another word", b"compact\ndowngrade\n", 2), ("a carriage return", b"compact\r\n", 1), ("a field text that is none", b"create t a\n", 1), ("an empty field text", b"create t \n", 1),
        ("fields past a limit", b"create t a:fixed_binary(2147483648)\n", 1), ("no text", b"drop \xff\n", 1), ("the first of two", b"reopen\nx\ny\n", 2),
        ("a mark that is not closed", b'drop "t\n', 1), ("a mark after a mark that closes a word", b'drop "t"u\n', 1),
        ("three marks", b'drop """\n', 1), ("a mark at the end of the line", b'drop t "\n', 1), ("no name to save under", b"save t\n", 1),
        ("a condition without an operator", b"save t u a\n", 1), ("an option without a value", b"save t u --columns\n", 1),
        ("a limit without a number", b"save t u --limit\n", 1), ("a limit that is no number", b"reopen\nsave t u --limit +1\n", 2), ("two limits", b"save t u --limit 1 --limit 2\n", 1),
        ("a list in a list", b"begin\nbegin\n", 2), ("a commit outside a list", b"create t\ncommit\n", 2), ("a commit behind a list", b"begin\ncommit\ncommit\n", 3),
        ("a list without an end", b"create t\nbegin\ndrop t\n", 2), ("a list at the end", b"begin\ncommit\nbegin\n", 3), ("a compaction in a list", b"begin\ncompact\ncommit\n", 2),
        ("an upgrade in a list", b"begin\ndrop t\nupgrade\ncommit\n", 3), ("an opening in a list", b"begin\nreopen\ncommit\n", 2), ("a query in a list", b"begin\nquery t\ncommit\n", 2),
        ("a begin with a word", b"begin t\n", 1), ("a commit before a line that is none", b"commit\nx\n", 1), ("a line that is none in a list without an end", b"begin\nx\n", 2),
        ("a text of CSV", b"create t a:int32\nappend t missing --as csv\n", 2), ("a text of JSON Lines in a list", b"begin\ncreate t a:int32\nappend t missing --as jsonl\ncommit\n", 3),
        ("a form that is none", b"create t\nappend t rows --as xml\n", 2), ("options twice", b"append t rows --as stream --as stream\n", 1),
        ("an option for a name", b"create t\nsave t --columns\n", 2), ("an option for a name in a list", b"begin\ndrop --all\ncommit\n", 2),
        ("a condition after dashes", b'save t u -- "a >= 1" --\n', 1), ("a condition in two words", b"save t u a >= 1\n", 1),
    ):
        put(content)
        refused(what, SECTORS, f"G3 BadScript {number}")


def before_any_line():
    put(b"x\n")
    for sectors in ("15", "4194305", "0"):
        refused(f"{sectors} sectors", ["--sectors", sectors], "C3 Damaged DeviceSize")
    put(b"import t missing\nx\n")
    refused("a line before a file", SECTORS, "G3 BadScript 2")
    put(b"create t\nimport t missing\n")
    refused("a file that is not there", SECTORS, "G1 Io")
    for line in (b"import t open --complete", b"append t open --complete"):
        put(b"create t a:int32?\n" + line + b"\n")
        refused(f"a stream without its end: {line}", SECTORS, "F30 NoEnd")
    os.remove("script")
    refused("no script", SECTORS, "G1 Io")
    refused("no script, and 15 sectors", ["--sectors", "15"], "C3 Damaged DeviceSize")
    put(b"create t\n")
    for options in ([], ["--sectors"], ["--sectors", "+16"], [*SECTORS, "--fail", "-1"], [*SECTORS, "--stop", "x"], [*SECTORS, "--choice", "lost:"],
                    [*SECTORS, "--choice", "older"], [*SECTORS, "--choice", "18446744073709551616"], [*SECTORS, "--choice", "+1"], [*SECTORS, "more"]):
        status, output, _ = replayed(*options)
        compare(f"words {options}", (status, output), (2, b""))


def documented():
    """What docs/crash.md shows."""
    with open(f"{ROOT}/docs/crash.md", encoding="utf-8") as page:
        section = page.read().split("## See it\n")[1].split("\n## ")[0]
    shown = [line[4:] for line in section.split("\n") if line.startswith("    ")]
    first = next(place for place, line in enumerate(shown) if line.startswith("$ "))
    written(shown[:first])
    shutil.copytree(f"{ROOT}/examples", "examples")
    for block in "\n".join(shown[first:]).removeprefix("$ ").split("\n$ "):
        line, *wanted = block.split("\n")
        compare(line, run(shlex.split(line)[1:]), (0, "".join(text + "\n" for text in wanted).encode(), b""))


def main():
    with tempfile.TemporaryDirectory() as room:
        os.chdir(room)
        with open("rows", "wb") as file:
            file.write(WORKED)
        # Without the end-of-stream marker.
        with open("open", "wb") as file:
            file.write(WORKED[:-8])
        written(LINES)
        answers.play(known, swept, others, upgrades, lists, pages, forms, before_any_line, documented)
        os.chdir("/")
    return answers.tell("replays")


sys.exit(main())
