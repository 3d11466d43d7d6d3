#!/usr/bin/env python3
"""refused_memory.py PROGRAM: runs the program with each of its allocations refused in turn; if it has a store, on a fresh copy of it. It must either answer and
leave the store as it does undisturbed, or be refused for memory, write nothing and leave the store as it was; if it makes a store, it must leave no file then.
Prints each difference, and last 'N passed, M failed'."""
import os
import sys
import tempfile

sys.dont_write_bytecode = True
import refusals
import streams
import worked
from running import Answers, name_from

answers = Answers.of_arguments(__doc__)
COLUMNS = [("a", "int32", False), ("b", "uint64", True)]
WHOLE = streams.stream(COLUMNS, [[[7, -1], [1, 2]], [[3], [4]]])
JOINED = streams.stream(COLUMNS, [[[7, -1, 3], [1, 2, 4]]])
FLOATS = streams.field("b", False, streams.FLOAT, streams.Table((2, 2)))
PAIR = streams.Table(streams.Text("key"), streams.Text("value"))
STRUCT = streams.Table(streams.Text("a"), (1, 0), (1, streams.STRUCT), streams.Table(), None, streams.Tables([FLOATS]), streams.Tables([PAIR]))
NESTED = streams.schema([STRUCT, STRUCT])
NONE = streams.Table()
ZONES = streams.field("l", True, streams.LIST, NONE, [streams.field("item", True, streams.TIMESTAMP, streams.Table((2, 0), streams.Text("UTC")))])
LISTS = streams.field("item", True, streams.LARGE_LIST, NONE, [streams.field("item", True, streams.BINARY, NONE)])
PARTS = streams.Tables([ZONES, streams.field("f", True, streams.FIXED_LIST, streams.Table((4, 2)), [LISTS])])
PAIRED = streams.Table(streams.Text("s"), (1, 1), (1, streams.STRUCT), NONE, None, PARTS, streams.Tables([PAIR]))
# A schema with memory at each place that has any.
FULL = streams.message(1, streams.Table((2, 0), streams.Tables([PAIRED]), streams.Tables([PAIR, PAIR]))) + streams.END
MANY = list(range(20000))
MANY_ROWS = streams.stream(COLUMNS, [[MANY, MANY]])
FULL_FIELDS = b'"s":struct<"l":list<"item":timestamp_s("UTC")?>?,"f":fixed_list(2,"item":large_list<"item":binary?>?)?>?\n'
CUT = streams.stream(COLUMNS, [[MANY[start:start + 4096]] * 2 for start in range(0, 20000, 4096)])
NO_COLUMNS = streams.schema([]) + streams.record_batch(3, []) + streams.END
REFUSED = 1, b"", b"refused OutOfMemory\n"
DONE = 0, b"ok\n", b""


def refusal(line):
    return 1, b"", f"refused {line}\n".encode()


def streams_and_answers():
    """What `recode` is given, and what it writes or is refused for."""
    for what, given, wanted in (
        ("integers", WHOLE, JOINED), ("no columns", NO_COLUMNS, NO_COLUMNS), ("a schema with pairs", FULL, FULL), ("many rows", MANY_ROWS, CUT), ("a dictionary that grows", *worked.GROWN),
        *((what, given, given) for what, given, _, _ in worked.written_kinds()),
        *((f"indices of {kind}", given, given) for kind in ("int8", "int32") for given in [worked.worked_dictionary(kind)]),
    ):
        yield f"recode of {what}", ["recode"], given, (0, wanted, b"")
    for given, line in ((WHOLE[:-20], "F1 Truncated"), (NESTED, "F12 TypeNotHeld FloatingPoint"), (streams.schema([FLOATS]) + WHOLE, "F12 TypeNotHeld FloatingPoint")):
        yield f"recode, refused {line}", ["recode"], given, refusal(line)


def archive_of(store):
    """The archive of a new store: a table of two segments, another one in place of `d`, and one without rows."""
    for words, given in ((["format", store, "256"], b""), (["import", store, "u"], WHOLE), (["append", store, "u"], WHOLE), (["import", store, "d"], WHOLE),
                         (["create", store, "w", "a:list<utf8>"], b"")):
        answers.compare(" ".join(words), answers.run(words, given), DONE)
    return answers.run(["send", store])[1]


def commands(store):
    """Commands of a store that has the tables d, n and t, and their answers; which of them change it."""
    rows = "a != 3", "b is not null"
    whole = os.path.join(os.path.dirname(store), "whole")
    csv, jsonl = f"{whole}.csv", f"{whole}.jsonl"
    for path, given in ((whole, WHOLE), (csv, b"a,b\n1,2\nx,3\n"), (jsonl, b'[1,2]\n{"b":null,"a":3}\n')):
        with open(path, "wb") as file:
            file.write(given)
    archive = archive_of(os.path.join(os.path.dirname(store), "origin"))
    for words, given, wanted, changes in (
        (["query", "t", *rows, "--columns", "b,a", "--limit", "2"], b"", (0, b"[1,7]\n[2,-1]\n", b""), False),
        (["query", "t", "a != 3", "--objects", "--limit", "1"], b"", (0, b'{"a":7,"b":1}\n', b""), False),
        (["query", "t", "a = x"], b"", refusal("Q2 BadCondition"), False),
        (["query", "t", "a = 3", "--save", "t"], b"", refusal("S2 NameTaken"), False),
        (["query", "t", "a != 3", "--columns", "b", "--save", "u"], b"", DONE, True),
        (["append", "t", "--as", "csv"], b"a,b\n1,2\nx,3\n", refusal("X4 NotANumber 2"), False),
        (["append", "t", "--as", "csv"], b"a,b\n1,2\n3,\n", DONE, True),
        (["append", "t", "--as", "jsonl"], b'[1,2]\n{"b":null,"a":3}\n{"a":4}\n[]', refusal("X2 Width 4"), False),
        (["append", "t", "--as", "jsonl"], b'[1,2]\n{"b":null,"a":3}\n', DONE, True),
        (["append", "t"], WHOLE, DONE, True),
        (["append", "t"], NO_COLUMNS, refusal("S4 SchemaMismatch"), False),
        (["append", "d"], worked.GROWN[0], DONE, True),
        (["query", "d", "a = b", "--save", "u"], b"", DONE, True),
        (["import", "t"], WHOLE, DONE, True),
        (["import", "u"], MANY_ROWS, DONE, True),
        (["import", "u"], WHOLE[:-20], refusal("S5 Import F1 Truncated"), False),
        (["import", "u", "--new"], WHOLE, DONE, True),
        (["import", "t", "--new"], WHOLE, refusal("S2 NameTaken"), False),
        (["apply", "-"], b'save t kept "a != 3" "b is not null"\ndrop t\nrename kept t\ncreate w "a:list<utf8>"\n', DONE, True),
        (["apply", "-"], f'import "{whole}" "{whole}"\n'.encode(), refusal("T1 Line 1 S3 BadName"), False),
        (["apply", "-"], f'import u "{whole}"\nappend u "{whole}"\nappend t "{whole}"\n'.encode(), DONE, True),
        (["apply", "-"], f'create u a:int8 b:int8?\nappend u "{jsonl}" --as jsonl\nappend u "{csv}" --as csv --null x\n'.encode(), refusal("T1 Line 3 X4 NotANumber 2"), False),
        (["apply", "-"], f'create u a:utf8 b:int8?\nappend u "{csv}" --as csv\nappend t "{jsonl}" --as jsonl\n'.encode(), DONE, True),
        (["apply", "-"], b"drop t\ndrop d\ndrop t\n", refusal("T1 Line 3 S1 NoTable"), False),
        (["apply", "-"], b"drop t\ncompact\n", refusal("G3 BadScript 2"), False),
        (["create", "u", "a:int32?", "b:list<struct<x:utf8>>"], b"", DONE, True),
        (["create", "u", "a:int32?", "b:list<"], b"", refusal("P1 BadText 2"), False),
        (["rename", "t", "u"], b"", DONE, True),
        (["drop", "t"], b"", DONE, True),
        (["drop", "u"], b"", refusal("S1 NoTable"), False),
        (["export", "t"], b"", (0, JOINED, b""), False),
        (["tables"], b"", (0, b"d 4\nn 0\nt 3\n", b""), False),
        (["schema", "t"], b"", (0, b'"a":int32\n"b":uint64?\n', b""), False),
        (["check"], b"", DONE, False),
        (["info"], b"", 0, False),
        (["info", "--json"], b"", 0, False),
        (["schema", "n"], b"", (0, FULL_FIELDS, b""), False),
        (["rename", "n", "m"], b"", DONE, True),
        (["query", "n", "--save", "m"], b"", DONE, True),
        (["have"], b"", 0, False),
        (["receive"], archive, DONE, True),
        (["receive", "--delete"], archive, DONE, True),
        (["receive"], archive[:-512], refusal("A3 BadMember end"), False),
        (["receive"], b"a" + archive, refusal("A2 NotAnArchive"), False),
    ):
        yield " ".join(words), [words[0], store, *words[1:]], given, wanted, changes


def sweep(what, command, given, wanted, before, changes, answer):
    """Wanted is the answer undisturbed, or its status alone; before, what is left where it is refused; and whether that changes where it is not."""
    undisturbed, runs = refusals.each_refused(command, given, answer)
    answers.compare(f"{what}, undisturbed", undisturbed[:3] if isinstance(wanted, tuple) else undisturbed[0], wanted)
    answers.compare(f"{what}: whether the store changes", undisturbed[3] != before, changes)
    answers.compare(f"{what}: whether it is refused for memory", (*REFUSED, before) in runs, True)
    for number, run in enumerate(runs, 1):
        answers.compare(f"{what}, allocation {number}", run, run if run == (*REFUSED, before) else undisturbed)


def sweep_of_store(store, what, words, given, wanted, changes=False):
    """On a copy of the store, whose bytes stay where it is refused."""
    sweep(what, [answers.program, *words], given, wanted, refusals.content(store), changes, refusals.on_a_copy(store))


def sweep_of_send(store):
    """Where it is refused a front of the archive may be written, which has no end."""
    before = refusals.content(store)
    undisturbed, runs = refusals.each_refused([answers.program, "send", store], b"", refusals.on_a_copy(store))
    whole = undisturbed[1]
    answers.compare("send, undisturbed", (undisturbed[0], undisturbed[2:], whole[-1024:]), (0, (b"", before), bytes(1024)))
    refused = [run for run in runs if run != undisturbed]
    answers.compare("whether a send was refused for memory", len(refused) > 0, True)
    for number, run in enumerate(refused, 1):
        is_front = whole.startswith(run[1]) and len(run[1]) <= len(whole) - 1024
        answers.compare(f"send, refusal {number}", (run[0], is_front, run[2:]), (1, True, (REFUSED[2], before)))


def sweep_of_compaction(store):
    """Where it is refused the steps before are done, and the tables are those that were."""
    rows = answers.run(["export", store, "t"])
    undisturbed, runs = refusals.each_refused([answers.program, "compact", store], b"", refusals.with_table(answers.program, store, "t"))
    answers.compare("compact, undisturbed", undisturbed, (0, b"steps 2\n", b"", rows))
    answers.compare("whether a compaction was refused for memory", (*REFUSED, rows) in runs, True)
    for number, run in enumerate(runs, 1):
        answers.compare(f"compact, allocation {number}", run, (*REFUSED, rows) if run != undisturbed else undisturbed)


def sweep_of_salvage(store):
    """Where it is refused some of the stream may be written: it is the beginning of the whole one."""
    made = refusals.content(store)
    starts = [place for place in range(1024, len(made), 512) if made[place:place + 8] == WHOLE[:8]]
    with open(store, "wb") as file:
        file.write(made[:starts[0]] + bytes(1) + made[starts[0] + 1:])
    before = refusals.content(store)
    undisturbed, runs = refusals.each_refused([answers.program, "salvage", store, "t"], b"", refusals.on_a_copy(store))
    status, stream, said, left = undisturbed
    answers.compare("salvage, undisturbed", (status, said.startswith(b"left out segment "), left), (1, True, before))
    written = set()
    for number, run in enumerate(runs, 1):
        is_refused = run == (1, run[1], b"refused OutOfMemory\n", before) and stream.startswith(run[1])
        written.add(len(run[1]) if is_refused else None)
        answers.compare(f"salvage, allocation {number}", run, run if is_refused else undisturbed)
    answers.compare("whether a salvage was refused for memory before its stream, and in the midst of it", (0 in written, len(written - {None}) > 2), (True, True))
    with open(store, "wb") as file:
        file.write(made)


def sweep_of_copy(store, path):
    """The same of a copy, whose first store stays."""
    made = refusals.content(store)
    sweep("copy", [answers.program, "copy", store, path, "1024"], b"", DONE, (None, DONE), True, refusals.of_a_new_file(path))
    answers.compare("a store that is copied stays", refusals.content(store), made)


def played(output):
    """Whether these are answers of the seven lines of a script, one of which memory or the device may have been refused, and what a crash may leave then."""
    lines, after, tables = output.partition(b"after:\n")
    replies = {b"ok\n", *(f"refused {reply}\n".encode() for reply in ("OutOfMemory", "S9 Device", "S10 Halted", "C4 Device", "S1 NoTable"))}
    listed = {b"", b"t 0\n", b"t 2\n", b"t 4\n", b"refused OutOfMemory\n", b"refused C4 Device\n"}
    return after != b"" and lines.count(b"\n") == 7 and set(lines.splitlines(True)) <= replies and tables in listed


def sweep_of_replay(room):
    """Of a script on a device in memory, which may fail for want of memory too."""
    script, rows = (os.path.join(room, name) for name in ("script", "rows"))
    with open(rows, "wb") as file:
        file.write(worked.WORKED)
    with open(script, "w", encoding="utf-8") as file:
        file.write(f"create t a:int32?\nimport t {rows}\nappend t {rows}\ncompact\ncompact\nreopen\ndrop t\n")
    undisturbed, runs = refusals.each_refused([answers.program, "replay", script, "--sectors", "16"])
    answers.compare("replay, undisturbed", undisturbed, (0, b"ok\n" * 7 + b"after:\n", b""))
    answers.compare("whether a replay was refused for memory, and a line of one", (REFUSED in runs, any(b"OutOfMemory" in run[1] for run in runs)), (True, True))
    for number, run in enumerate(runs, 1):
        is_refused = run in (REFUSED, (1, b"", b"refused C4 Device\n"))
        answers.compare(f"replay, allocation {number}", run, run if is_refused or (run[0], run[2]) == (0, b"") and played(run[1]) else undisturbed)


def sweep_of_format(path):
    """No file is left where it is refused, and it is done when it is tried again."""
    sweep("format", [answers.program, "format", path, "1024"], b"", DONE, (None, DONE), True, refusals.of_a_new_file(path))


def a_copied_schema(store):
    answers.compare("a copy", answers.run(["query", store, "n", "--save", "m"]), DONE)
    answers.compare("a schema that was copied", answers.run(["export", store, "m"]), (0, FULL, b""))


def name_of_sweep(what, store):
    return name_from(what.replace(repr(store), ""))


with tempfile.TemporaryDirectory() as room:
    store = os.path.join(room, "store")
    answers.compare("format", answers.run(["format", store, "1024"]), DONE)
    for name, stream in (("t", WHOLE), ("n", FULL), ("d", worked.worked_dictionary())):
        answers.compare(f"import of {name}", answers.run(["import", store, name], stream), DONE)
    texts = [(f"{words}", words, b"", status) for words, status in (
        (["recode", "now"], 2), (["help"], 0), (["help", "refusals"], 0), (["query", "--help"], 0), (["help", "append"], 0),
        (["import", store], 2), (["query", store, "t", "--limit", "many"], 2), (["format", store, "+16"], 2),
    )]
    small = os.path.join(room, "small")
    for words, given in ((["format", small, "16"], b""), (["import", small, "t"], WHOLE), (["append", small, "t"], WHOLE)):
        answers.compare(" ".join(words), answers.run(words, given), DONE)
    sweeps = [(name_of_sweep(case[0], store), sweep_of_store, store, *case) for case in (*streams_and_answers(), *texts, *commands(store))]
    answers.play(
        (sweep_of_format, os.path.join(room, "made")), *sweeps, (sweep_of_salvage, small), (sweep_of_compaction, small), (sweep_of_send, store),
        (sweep_of_copy, store, os.path.join(room, "copy")), (sweep_of_replay, room), (a_copied_schema, store),
    )
sys.exit(answers.tell("refused memory"))
