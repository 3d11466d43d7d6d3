#!/usr/bin/env python3
"""archives.py PROGRAM [CASE ..]: `have`, `send` and `receive`, on real files.

What `have` and `send` write is compared, byte for byte, with what tests/archive_model.py makes of the sectors of the store. What `receive` leaves is compared
with the tables of the sender, and with those that the receiver had; where it is refused, the bytes of the store are as they were. Archives are cut, altered
byte by byte, made anew by `tar`, and applied in a row. What a kill or a power cut leaves is asked in tests/killed.py and tests/power_cuts.py.
Prints each difference, and last 'N passed, M failed'."""
import fcntl
import gzip
import io
import json
import os
import pty
import random
import re
import shutil
import subprocess
import sys
import tarfile
import tempfile
import time
from concurrent.futures import ProcessPoolExecutor

sys.dont_write_bytecode = True
import archive_model as model
import streams
from fields import Field, Kind, stream_of
from running import Answers, chosen_of, parser_of, print_some

ROOT = os.path.dirname(os.path.dirname(os.path.abspath(__file__)))
DONE = (0, b"ok\n", b"")
SECTORS = "8192"
ALTERED = 1000
# Where there is a folder in memory, and no other is asked for, syncs do not wait for a disk of this machine.
MEMORY = "/dev/shm" if os.access("/dev/shm", os.W_OK) and "TMPDIR" not in os.environ else None


def line_of(archive):
    """The refusal of what is no archive."""
    try:
        model.read_archive(archive)
    except model.Refused as refused:
        return str(refused)
    return "none"


def refusal(line):
    return 1, b"", f"refused {line}\n".encode()


def content(path):
    with open(path, "rb") as file:
        return file.read()


def put(path, made):
    with open(path, "wb") as file:
        file.write(made)
    return path


def lines_of(rows):
    return "".join(json.dumps(row) + "\n" for row in rows).encode()


class Case(Answers):
    """The program, run in a folder of the case's own, and draws of its own."""
    def __init__(self, program, name):
        super().__init__(program, case=name)
        self.chance = random.Random(name)

    def must(self, word, path, *rest, given=b""):
        self.compare((word, path, *rest), self.run([word, path, *rest], given), DONE)

    def make(self, path, version=2, sectors=SECTORS):
        if os.path.exists(path):
            os.remove(path)
        self.must("format", path, sectors, "--format-version", str(version))
        return path

    def append(self, path, name, rows):
        self.must("append", path, "--as", "jsonl", "--", name, given=lines_of(rows))

    def table(self, path, name, fields, *parts):
        """A table of these fields, with the rows of each part in a segment of their own."""
        self.must("create", path, "--", name, *fields)
        for rows in parts:
            self.append(path, name, rows)

    # What there is.

    def fields(self, path, name):
        """The texts by which the fields are typed in, if there are such texts."""
        status, said, _ = self.run(["schema", "--fields", "--", path, name])
        return said.decode().split("\n")[:-1] if status == 0 else None

    def listed(self, path, texts=None):
        """The tables as an archive lists them. `texts` are those of fields that a terminal can't be shown, by the names of tables."""
        texts = texts or {}
        return [table.listed(texts.get(table.name) or self.fields(path, table.name)) for table in model.read_store(content(path)).tables]

    def archive(self, path, had=(), texts=None):
        store, tables = model.read_store(content(path)), self.listed(path, texts)
        found = store.streams()
        return model.archive_of(store.epoch, tables, [found[it.digest] for it in model.lacked(had, model.segments_of(tables))])

    def digests(self, path):
        return [it.digest for it in model.lacked([], [s for table in model.read_store(content(path)).tables for s in table.listed(None).segments])]

    def epoch(self, path):
        return json.loads(self.run(["info", path, "--json"])[1])["epoch"]

    def seen(self, path):
        """Of each table its rows, its fields, its stream and the digests of its segments."""
        digests = {table.name: [it.digest for it in table.listed(None).segments] for table in model.read_store(content(path)).tables}
        rows = dict(line.rsplit(" ", 1) for line in self.run(["tables", path])[1].decode().splitlines())
        self.compare(f"the names of the tables of {path}", sorted(rows), sorted(digests))
        return {name: (rows[name], self.run(["schema", "--", path, name]), self.run(["export", "--", path, name]), digests[name]) for name in rows}

    # What is asked of the program.

    def same_bytes(self, what, got, wanted):
        """An answer with many bytes, of which a difference is shown as its place."""
        if got != wanted and got[0] == wanted[0]:
            place = next((at for at, (one, other) in enumerate(zip(got[1], wanted[1])) if one != other), min(len(got[1]), len(wanted[1])))
            told = f"{len(got[1]):,} bytes, not {len(wanted[1]):,}, differ from byte {place:,} on, {got[1][place:place + 30]!r}; {got[2]!r:.100}"
            self.wrong.append(f"{what}: {told}")
        else:
            self.compare(what, got, wanted)

    def sends(self, what, path, had=None, texts=None, given=b""):
        """The archive for a receiver that has segments of these digests."""
        words = [] if had is None else ["--have", put("had", "".join(f"{it}\n" for it in had).encode())]
        wanted = self.archive(path, had or (), texts)
        self.same_bytes(f"send, {what}", self.run(["send", path, *words], given), (0, wanted, b""))
        return wanted

    def receives(self, what, path, archive, *options):
        self.compare(f"receive, {what}", self.run(["receive", path, *options], archive), DONE)
        self.compare(f"check after receive, {what}", self.run(["check", path]), DONE)

    def same(self, what, got, wanted):
        """Each of these tables as it is wanted, and no other."""
        for name in sorted({*got, *wanted}):
            self.compare(f"{what}: the table {name}", got.get(name), wanted.get(name))

    def refuses(self, what, path, archive, *lines, options=()):
        """A refusal, one of these lines, that leaves each byte of the store."""
        before = content(path)
        status, output, said = self.run(["receive", path, *options], archive)
        allowed = [f"refused {line}\n".encode() for line in lines]
        self.compare(what, (status, output, said), (1, b"", said if said in allowed else allowed[0]))
        self.compare(f"{what}: nothing has changed", content(path) == before, True)


# ---- the stores of the cases

EVERY = [
    "n:null?", "b:bool?", "i:int8", "w:uint64?", "s:utf8?", "l:large_utf8", "y:binary?", "z:large_binary", "d:date_day?", "m:date_ms", "t:timestamp_ns(UTC)?",
    "u:timestamp_s", "k:fixed_binary(2)", "q:list<utf8?>?", "r:large_list<int8>", "f:fixed_list(2,int16?)", "p:struct<x:int8,y:utf8?>?", "c:dict<int8,utf8>?",
]
EVERY_ROWS = [
    [None, True, -1, 2**64 - 1, "é\n", "", "00ff", "", 20000, 86400000, 1, -1, "abcd", ["x", None, ""], [1, 2], [7, None], [3, None], "one"],
    [None, None, 127, None, None, "\u0000\u2028", None, "ff", None, 0, None, 0, "0000", None, [], [None, -5], None, None],
    [None, False, 0, 0, "x" * 1000, "日本", "", "00", -1, -86400000, -1, 2**40, "ffff", [], [-128], [0, 0], [1, "two"], "one"],
]
NAMED = {
    "unicode": ["é", "日本語", "\U0001f600", "a\\b", "a/b'c", "\u00a0"],
    # Characters that a terminal is not shown: the archive has their texts all the same.
    "unseen": ["a\x7fb", "\u200b", "\u2028", "\ufeffx", "tab\tx", "\x1b[1m"],
    # No text states these.
    "untyped": ["two words", "x"], "untyped.2": ["", "x"], "untyped.3": ['a"b'], "untyped.4": ["a:b"], "untyped.5": ["a\nb", "c d"],
}


def of_names(names):
    return stream_of([Field(name, Kind("int8"), True) for name in names])


def paired():
    """A table with pairs of its own."""
    pairs = streams.Tables([streams.Table(streams.Text("k"), streams.Text('v "1"'))])
    return streams.message(1, streams.Table((2, 0), streams.Tables([streams.field("a", True, streams.INT, streams.integer("int32"))]), pairs)) + streams.END


def texts_of_unseen():
    return {"unseen": [f"{name}:int8?" for name in NAMED["unseen"]]}


def a_store_of_every_kind(case, path, version=2):
    """Tables of every type, without rows, with names of all forms, with many segments, and two with equal segments."""
    case.make(path, version)
    case.table(path, "every", EVERY, EVERY_ROWS, EVERY_ROWS[1:], EVERY_ROWS[:1])
    case.table(path, "z" * 64, ["a:int32"], [[1], [2]])
    case.table(path, "-x.", ["a:int32"], [[3]], [[1], [2]], [[3]])
    case.table(path, "no_fields", [])
    case.must("import", path, "only_rows", given=streams.schema([]) + streams.record_batch(3, []) + streams.END)
    case.table(path, "large", ["n:int64?", "s:utf8?"], [[place, f"row {place}"] if place % 7 else [None, None] for place in range(4500)])
    case.must("import", path, "pairs", given=paired())
    for name, fields in NAMED.items():
        case.must("import", path, name, given=of_names(fields))
    return path


def a_small_store(case, path, version=2):
    """`t` of three segments, `u` of two, one of which `t` has too, and `e` of none."""
    case.make(path, version)
    case.table(path, "t", ["a:int32", "s:utf8?"], [[1, "x"], [2, None]], [[3, "y"]], [[4, "é"]])
    case.table(path, "u", ["a:int32", "s:utf8?"], [[3, "y"]], [[5, None]])
    case.table(path, "e", ["a:int8"])
    return path


# ---- have and send


def page():
    with open(os.path.join(ROOT, "docs/definitions/archive.md"), encoding="utf-8") as file:
        return file.read()


def worked(case):
    """The worked archive of docs/definitions/archive.md."""
    case.make("store")
    case.table("store", "a", ["n:int32"], [[7], [8]])
    case.table("store", "b", ["t:utf8?"])
    text = page().partition("## A worked archive")[2]
    [lines], [size] = re.findall(r"(?ms)^```\n(.*?)^```$", text), re.findall(r"(\d+) bytes; here", text)
    archive = case.sends("the worked one", "store")
    manifest = archive[512:512 + int(size)]
    case.compare("the manifest on the page", re.sub(r'(?<="schema":")[0-9a-f]+', "..", manifest.decode()), lines)
    [digest] = case.digests("store")
    case.compare("the digest on the page", f"`segments/{digest}.arrows`" in text, True)
    case.compare("the bytes on the page", f"gets {len(archive):,} bytes" in text, True)
    small = case.sends("without its segment", "store", [digest])
    case.compare("the bytes on the page, without its segment", f"gets {len(small):,} bytes" in text, True)
    case.compare("what is left out", archive[:1536] + archive[2560:], small)


def kinds(case):
    """Every type, names of all forms, no rows, many segments, equal ones; in both versions."""
    for version in (1, 2):
        path = a_store_of_every_kind(case, f"store{version}", version)
        digests = case.digests(path)
        case.compare(f"have in version {version}", case.run(["have", path]), (0, "".join(f"{it}\n" for it in digests).encode(), b""))
        before = content(path)
        texts = texts_of_unseen()
        archive = case.sends(f"version {version}", path, texts=texts)
        tables = model.read_archive(archive).tables
        untyped = ["pairs", *sorted(it for it in NAMED if it.startswith("untyped"))]
        case.compare("the tables without texts", [it.name for it in tables if it.fields is None], untyped)
        case.compare("two tables have equal segments", len(model.segments_of(tables)) > len(digests), True)
        for had in (digests, digests[:1], digests[1:], digests[::2], digests[::-1] + digests, ["00" * 32], []):
            case.sends(f"version {version}, {len(had)} that the receiver has", path, had, texts)
        case.compare("nothing is changed", content(path) == before, True)
    case.compare("the archives of both versions", *(model.read_archive(case.run(["send", f"store{it}"])[1]) for it in (1, 2)))
    case.make("none")
    case.compare("have without tables", case.run(["have", "none"]), (0, b"", b""))
    case.sends("without tables", "none")


def pages(case):
    """A store whose list of tables is in pages, and one of many tables."""
    case.make("store")
    put("row", streams.stream([("a", "int32", False)], [[[1]]]))
    put("script", b"".join(b"import table_%03d row\nappend table_%03d row\n" % (place, place) for place in range(300)))
    case.must("apply", "store", "script")
    case.compare("have of 300 tables", case.run(["have", "store"])[1].count(b"\n"), 1)
    case.sends("300 tables", "store")


def parts(case):
    """Each segment is the stream of the rows of one append, as `export` writes it of a table of these alone."""
    case.make("store")
    rows = [[[1, "x"], [2, None]], [[3, ""]], [[place, str(place)] for place in range(4096)], [[1, "x"], [2, None]]]
    case.table("store", "t", ["a:int32", "s:utf8?"], *rows)
    exported = []
    for part in rows:
        case.make("alone")
        case.table("alone", "t", ["a:int32", "s:utf8?"], part)
        exported.append(case.run(["export", "alone", "t"])[1])
    archive = case.run(["send", "store"])[1]
    segments = [(model.digest_of(it), len(it), len(part)) for it, part in zip(exported, rows)]
    case.make("empty")
    case.table("empty", "t", ["a:int32", "s:utf8?"])
    table = model.Listed("t", case.run(["export", "empty", "t"])[1], ["a:int32", "s:utf8?"], [model.Segment(*it) for it in segments])
    case.compare("the archive of these parts", archive, model.archive_of(case.epoch("store"), [table], exported[:3]))


def joined(message, parts):
    """One stream of the messages of several, which begin with this one."""
    return message + b"".join(part[len(message):-len(model.END)] for part in parts) + model.END


def unpacked(case):
    """`tarfile` and `tar` unpack an archive, and the streams of a table's segments, one after another, have its rows."""
    path = a_store_of_every_kind(case, "store")
    case.compare("compact", case.run(["compact", path])[0], 0)
    put("sent.tar", case.run(["send", path])[1])
    digests = case.digests(path)
    names = ["manifest.jsonl", *map(model.segment_name, digests), "end"]
    with tarfile.open("sent.tar") as archive:
        found = {it.name: (it, archive.extractfile(it).read()) for it in archive}
    case.compare("the members for tarfile", list(found), names)
    for name, (it, made) in found.items():
        case.compare(f"the member {name}", (it.isfile(), it.mode, it.uid, it.gid, it.mtime, it.uname, it.size), (True, 0o644, 0, 0, 0, "", len(made)))
    listed = subprocess.run(["tar", "-tf", "sent.tar"], capture_output=True)
    case.compare("the members for tar", (listed.returncode, listed.stdout.decode().split(), listed.stderr), (0, names, b""))
    os.mkdir("unpacked")
    done = subprocess.run(["tar", "-xf", "sent.tar", "-C", "unpacked"], capture_output=True)
    case.compare("tar -x", (done.returncode, done.stderr), (0, b""))
    summed = subprocess.run("sha256sum < unpacked/manifest.jsonl", shell=True, capture_output=True, check=True).stdout
    case.compare("the digest of the manifest in end", content("unpacked/end"), summed.split()[0] + b"\n")
    for digest in digests:
        stream = content(f"unpacked/{model.segment_name(digest)}")
        case.compare(f"the digest of {digest}", model.digest_of(stream), digest)
    for line in content("unpacked/manifest.jsonl").decode().split("\n")[1:-1]:
        table = json.loads(line)
        message = bytes.fromhex(table["schema"])[:-len(model.END)]
        parts = [content(f"unpacked/{model.segment_name(it['sha256'])}") for it in table["segments"]]
        rows = case.run(["recode"], joined(message, parts))
        case.compare(f"the rows of {table['table']}", rows, case.run(["export", "--", path, table["table"]]))
        count = str(sum(it["rows"] for it in table["segments"]))
        case.compare(f"how many rows {table['table']} has", f"{table['table']} {count}\n".encode() in case.run(["tables", path])[1], True)


SCHEMAS = (["a:int32"], ["a:int32", "s:utf8?"], ["n:int64?"])


def drawn_rows(pick, schema):
    """Few different ones, so that segments are often equal."""
    count = pick.choice((0, 1, 1, 2, 3, 5000))
    rows = [[pick.randrange(3) if it.startswith("a") else pick.choice((None, 1)) if it.startswith("n") else pick.choice((None, "x", "é"))
             for it in schema] for _ in range(count if count < 100 else 7)]
    return rows * 700 if count == 5000 else rows


def drawn_change(case, path, tables):
    """One change of a store, whose tables have these schemas."""
    pick, name = case.chance, case.chance.choice("tuvw")
    other, schema = pick.choice("tuvw"), pick.choice(SCHEMAS)
    what = pick.choice(("append",) * 4 + ("drop", "rename", "save", "compact", "replace", "upgrade"))
    if what == "upgrade":
        case.must("upgrade", path)
    elif what == "compact":
        case.compare("compact", case.run(["compact", path])[0], 0)
    elif name not in tables or what == "replace":
        if name in tables:
            case.must("drop", path, name)
        case.table(path, name, schema, drawn_rows(pick, schema))
        tables[name] = schema
    elif what == "append":
        case.append(path, name, drawn_rows(pick, tables[name]))
    elif what == "drop":
        case.must("drop", path, name)
        del tables[name]
    elif other not in tables:
        case.must(*(("rename", path, name, other) if what == "rename" else ("query", path, name, "--save", other)))
        tables[other] = tables.pop(name) if what == "rename" else tables[name]


def drawn(case):
    """Drawn stores, and drawn lists of what the receiver has."""
    pick = case.chance
    for number in range(25):
        path, tables = case.make(f"store{number}", pick.choice((1, 2))), {}
        for _ in range(pick.randrange(1, 15)):
            drawn_change(case, path, tables)
        digests = case.digests(path)
        case.compare(f"have of draw {number}", case.run(["have", path]), (0, "".join(f"{it}\n" for it in digests).encode(), b""))
        case.sends(f"draw {number}", path)
        for _ in range(3):
            had = [*pick.sample(digests, pick.randrange(len(digests) + 1)), *(model.digest_of(pick.randbytes(4)) for _ in range(pick.randrange(3)))]
            pick.shuffle(had)
            case.sends(f"draw {number}, {len(had)} that the receiver has", path, had)
        os.remove(path)


def lists(case):
    """Forms of a list of digests: of a file, of the input, in letters of either case, in any order and number, without a last line feed, and empty."""
    path = a_small_store(case, "store")
    digests = case.digests(path)
    all_of_them, whole, none = "".join(f"{it}\n" for it in digests), case.archive(path), case.archive(path, digests)
    for what, text, wanted in (
        ("all", all_of_them, none), ("all, in letters of upper case", all_of_them.upper(), none), ("all, without the last line feed", all_of_them[:-1], none),
        ("all, twice and the other way round", "\n".join([*digests[::-1], *digests]), none), ("none", "", whole), ("one of nothing", f"{'0' * 64}\n", whole),
        ("the first, in both cases", f"{digests[0].title()}\n", case.archive(path, digests[:1])), ("the last", digests[-1], case.archive(path, digests[-1:])),
        ("many", "".join(f"{model.digest_of(b'%d' % it)}\n" for it in range(20000)) + digests[0], case.archive(path, digests[:1])),
    ):
        put("had", text.encode())
        case.compare(f"a list of {what}", case.run(["send", path, "--have", "had"], b"no list"), (0, wanted, b""))
        case.compare(f"a list of {what}, as the input", case.run(["send", path, "--have", "-"], text.encode()), (0, wanted, b""))
    put("-", all_of_them.encode())
    case.compare("a file with the name -", case.run(["send", path, "--have", "./-"]), (0, none, b""))
    case.compare("with the words the other way round", case.run(["send", "--wait", "--have=had", "--", path])[:1], (0,))
    case.compare("what have writes, as the list", case.run(["send", path, "--have", "-"], case.run(["have", path])[1]), (0, none, b""))
    put("had", b"no list")
    case.compare("without --have the input is not read", case.run(["send", path], b"no list"), (0, whole, b""))


def bad_lists(case):
    """A line that is none: its number, and nothing is written."""
    path = a_small_store(case, "store")
    good = "ab" * 32
    for what, lines, number in (
        ("63 digits", [good[1:]], 1), ("65 digits", [good + "a"], 1), ("no digit", [good, "g" + good[1:]], 2), ("an empty line", [good, "", good], 2),
        ("an empty first line", ["", good], 1), ("two empty lines at the end", [good, "", ""], 2), ("a line feed alone", ["", ""], 1),
        ("a space behind", [good + " "], 1), ("a space before", [good, good, " " + good], 3), ("a carriage return", [good + "\r"], 1),
        ("a name of a member", [model.segment_name(good)], 1), ("two on a line", [f"{good} {good}"], 1), ("letters of another script", ["\u0430" * 64], 1),
        ("as sha256sum writes it", [f"{good}  -"], 1), ("a byte order mark", ["\ufeff" + good], 1), ("the first of two", [good, "x", "y"], 2),
        ("none, without a line feed", ["x"], 1), ("behind many", [good] * 5000 + ["x"], 5001), ("full-width digits", ["\uff10" * 64], 1),
        ("a hexadecimal prefix", ["0x" + good[2:]], 1), ("a zero byte", ["\0" + good[1:]], 1),
    ):
        for end in ("\n", "") if lines[-1] else ("",):
            text = ("\n".join(lines) + end).encode()
            put("had", text)
            case.compare(f"a list: {what}", case.run(["send", path, "--have", "had"]), refusal(f"A1 NotADigest {number}"))
            case.compare(f"a list as the input: {what}", case.run(["send", path, "--have", "-"], text), refusal(f"A1 NotADigest {number}"))
    for had in ("missing", "."):
        case.compare(f"a list in {had}", case.run(["send", path, "--have", had]), refusal("G1 Io"))


def words(case):
    """Wrong words, and files that are no store."""
    path = a_small_store(case, "store")
    for given in (
        ["have"], ["have", path, "t"], ["have", path, "--have", "had"], ["have", path, "--wait", "--wait"], ["have", path, "--json"], ["send"],
        ["send", path, "t"], ["send", path, "--have"], ["send", path, "--have", "a", "--have", "b"], ["send", path, "--delete"], ["receive"],
        ["receive", path, "archive"], ["receive", path, "--delete", "--delete"], ["receive", path, "--have", "had"],
    ):
        before = content(path)
        status, output, said = case.run(given)
        case.compare(given, (status, output, said != b"", content(path) == before), (2, b"", True, True))
    put("zeros", bytes(16 * 512))
    for word in ("have", "send", "receive"):
        given = case.archive(path)
        case.compare(f"{word} of no file", case.run([word, "missing"], given), refusal("G1 Io"))
        case.compare(f"{word} makes no file", os.path.exists("missing"), False)
        case.compare(f"{word} of zeros", case.run([word, "zeros"], given), refusal("C1 NotAStore"))
        case.compare(f"{word} leaves zeros", content("zeros"), bytes(16 * 512))
        case.compare(f"{word} has help", case.run([word, "--help"])[0], 0)


def on_a_terminal(case, given):
    """The answer of a program whose output is a terminal: the status, what it says, and what it shows."""
    reader, writer = pty.openpty()
    with subprocess.Popen([case.program, *given], stdin=subprocess.DEVNULL, stdout=writer, stderr=subprocess.PIPE) as run:
        os.close(writer)
        said, shown = run.stderr.read(), b""
        with os.fdopen(reader, "rb", buffering=0) as terminal:
            try:
                while part := terminal.read(4096):
                    shown += part
            except OSError:
                # The end: nobody has the terminal open any more.
                pass
    return run.returncode, said, shown


def outputs(case):
    """An output that is a terminal, is full, is closed, or has no reader."""
    path = a_small_store(case, "store")
    case.table(path, "large", ["n:int64"], [[place] for place in range(20000)])
    case.compare("send to a terminal", on_a_terminal(case, ["send", path]), (2, b"error: no stream is written to a terminal: give `> FILE` or a pipe\n", b""))
    lines = "".join(f"{it}\r\n" for it in case.digests(path)).encode()
    case.compare("have to a terminal", on_a_terminal(case, ["have", path]), (0, b"", lines))
    for given in (["send", path], ["have", path], ["send", path, "--have", "-"]):
        with open("/dev/full", "wb") as full:
            done = subprocess.run([case.program, *given], input=b"", stdout=full, stderr=subprocess.PIPE, timeout=60)
        case.compare(f"{given} to a full device", (done.returncode, done.stderr), (1, b"refused G1 Io\n"))
        done = subprocess.run(["sh", "-c", '"$0" "$@" >&-', case.program, *given], input=b"", capture_output=True, timeout=60)
        case.compare(f"{given} with a closed output", (done.returncode, done.stdout, done.stderr), (1, b"", b"refused G1 Io\n"))
        reader, writer = os.pipe()
        os.close(reader)
        done = subprocess.run([case.program, *given], input=b"", stdout=writer, stderr=subprocess.PIPE, timeout=60)
        os.close(writer)
        case.compare(f"{given} without a reader", (done.returncode, done.stderr), (1, b""))
    done = subprocess.run(["sh", "-c", '{ "$0" send "$1"; echo $? >&2; } | head -c 1000', case.program, path], capture_output=True, timeout=60)
    case.compare("the first bytes of an archive", (done.stdout, done.stderr), (case.archive(path)[:1000], b"1\n"))
    done = subprocess.run(["sh", "-c", '"$0" receive "$1" <&-', case.program, path], capture_output=True, timeout=60)
    case.compare("receive from a closed input", (done.returncode, done.stdout, done.stderr), refusal("G1 Io"))
    os.link(path, "linked")
    done = subprocess.run(["sh", "-c", '"$0" send "$1" >> linked', case.program, path], capture_output=True, timeout=60)
    case.compare("send into its own store", (done.returncode, case.run(["check", path])), (1, DONE))


def place_of(image, stream):
    """Where the run of a segment begins."""
    [place] = [place for place in range(1024, len(image), 512) if image.startswith(stream, place)]
    return place


def damaged(case):
    """A segment that can't be read: what is written has no end, so that nobody receives it. In version 2 one that the receiver has is not read."""
    for version in (1, 2):
        path = a_small_store(case, f"store{version}", version)
        image, whole, tables = content(path), case.archive(path), case.listed(path)
        # The first byte of the last segment of t, without which it is no stream, in version 1 either.
        digest = tables[1].segments[2].digest
        at = place_of(image, model.read_store(image).streams()[digest])
        put(path, image[:at] + bytes(1) + image[at + 1:])
        line = case.run(["export", path, "t"])[2]
        case.compare(f"version {version}: export", line.split()[1:3] in ([b"S15", b"SegmentDamaged"], [b"S13", b"SegmentUnread"]), True)
        status, output, said = case.run(["send", path])
        case.compare(f"version {version}: send", (status, said), (1, line))
        case.compare(f"version {version}: what is written before", whole.startswith(output) and len(output) < len(whole), True)
        case.make("receiver")
        lines = "A2 NotAnArchive", "A3 BadMember end", f"A3 BadMember {model.segment_name(digest)}"
        case.refuses(f"version {version}: what is written is no archive", "receiver", output, *lines)
        if version == 1:
            case.compare("version 1: have", case.run(["have", path]), (1, b"", line))
            continue
        case.compare("version 2: have", case.run(["have", path])[0], 0)
        put("had", f"{digest}\n".encode())
        found = model.read_archive(whole).streams
        wanted = model.archive_of(case.epoch(path), tables, [stream for it, stream in found.items() if it != digest])
        case.compare("version 2: one that the receiver has", case.run(["send", path, "--have", "had"]), (0, wanted, b""))


def locks(case):
    """`have` and `send` run beside other readers, and not beside a writer; `receive` beside none. With --wait they wait."""
    path = a_small_store(case, "store")
    whole, digests = case.archive(path), case.run(["have", path])
    answers = {"have": digests, "send": (0, whole, b""), "receive": DONE}
    for word, answer in answers.items():
        for kind in (fcntl.LOCK_SH, fcntl.LOCK_EX):
            is_free = word != "receive" and kind == fcntl.LOCK_SH
            with open(path, "rb") as file:
                fcntl.flock(file, kind)
                case.compare(f"{word} of a locked store", case.run([word, path], whole), answer if is_free else refusal("G1 Io"))
                given = [case.program, word, path, "--wait"]
                with open("sent", "wb") as sent, subprocess.Popen(given, stdin=subprocess.PIPE, stdout=sent, stderr=subprocess.PIPE) as run:
                    if not is_free:
                        time.sleep(0.3)
                        case.compare(f"{word} that waits", run.poll(), None)
                        fcntl.flock(file, fcntl.LOCK_UN)
                    said = run.communicate(whole, timeout=60)[1]
                case.compare(f"{word} that has waited", (run.returncode, content("sent"), said), answer)


def slow_reader(case):
    """As long as an archive is read by someone, the store can be read and not be changed; what was begun is of one moment."""
    path = a_small_store(case, "store")
    case.table(path, "large", ["n:int64"], [[place] for place in range(30000)])
    whole = case.archive(path)
    with subprocess.Popen([case.program, "send", path], stdin=subprocess.DEVNULL, stdout=subprocess.PIPE) as run:
        front = run.stdout.read(1000)
        case.compare("a change meanwhile", case.run(["drop", path, "t"]), refusal("G1 Io"))
        case.compare("a reader meanwhile", case.run(["have", path])[0], 0)
        case.compare("another archive meanwhile", case.run(["send", path]), (0, whole, b""))
        case.compare("the archive", front + run.stdout.read() == whole, True)
    case.must("drop", path, "t")


# ---- receive


def received(case):
    """All tables of every kind, between both versions; then again; with and without --delete."""
    for sender in (1, 2):
        path = a_store_of_every_kind(case, f"sender{sender}", sender)
        archive = case.run(["send", path])[1]
        for receiver in (1, 2):
            for options in ([], ["--delete"], ["--wait"]) if sender == receiver == 2 else ([],):
                what = f"version {sender} by version {receiver} {options}"
                case.make("receiver", receiver)
                case.receives(what, "receiver", archive, *options)
                case.same(what, case.seen("receiver"), case.seen(path))
                case.compare(f"{what}: have", case.run(["have", "receiver"]), case.run(["have", path]))
                case.compare(f"{what}: one commit", case.epoch("receiver"), 2)
                again = case.run(["send", path, "--have", "-"], case.run(["have", "receiver"])[1])[1]
                for given in (archive, again):
                    before, epoch = content("receiver"), case.epoch("receiver")
                    case.receives(f"{what}, again", "receiver", given, *options)
                    case.same(f"{what}, again", case.seen("receiver"), case.seen(path))
                    if receiver == 2:
                        case.compare(f"{what}, again: no commit", (case.epoch("receiver"), content("receiver") == before), (epoch, True))
        case.compare("what the receiver sends", model.read_archive(case.run(["send", "receiver"])[1])[1:], model.read_archive(archive)[1:])


def replicate(case, what, sender, receiver, *options):
    """Sends what the receiver lacks. The bytes that were sent."""
    own = case.seen(receiver)
    archive = case.run(["send", sender, "--have", "-"], case.run(["have", receiver])[1])[1]
    case.receives(what, receiver, archive, *options)
    wanted = case.seen(sender) if options else {**own, **case.seen(sender)}
    case.same(what, case.seen(receiver), wanted)
    return archive


def grown(case):
    """Rows that are appended at the sender: only they are sent, and the receiver's own segments stay where they are."""
    path = case.make("sender", sectors="32768")
    case.table(path, "large", ["n:int64", "s:utf8?"], [[place, f"row {place}"] for place in range(20000)])
    case.make("receiver", sectors="32768")
    first = replicate(case, "the first", path, "receiver")
    for turn in range(3):
        before, held = content("receiver"), model.read_store(content("receiver")).streams()
        case.append(path, "large", [[turn, "new"]])
        archive = replicate(case, f"row {turn}", path, "receiver")
        case.compare(f"row {turn}: one stream is sent", len(model.read_archive(archive).streams), 1)
        case.compare(f"row {turn}: how much is sent", len(archive) < 6000 < len(first) // 20, True)
        places = [place_of(before, it) for it in held.values()], [place_of(content("receiver"), it) for it in held.values()]
        case.compare(f"row {turn}: where the segments are", *places)
        case.compare(f"row {turn}: one commit", case.epoch("receiver"), 3 + turn)
    case.compare("compact", case.run(["compact", path])[0], 0)
    replicate(case, "compacted", path, "receiver")


# What happens at the sender, to its tables t, u and e, each as words and rows.
CHANGES = {
    "nothing": [],
    "appended": [(("append", "t", "--as", "jsonl"), [[9, "z"]])],
    "appended to a table without rows": [(("append", "e", "--as", "jsonl"), [[9]])],
    "renamed": [(("rename", "t", "v"), None)],
    "two names exchanged": [(("rename", "t", "v"), None), (("rename", "u", "t"), None), (("rename", "v", "u"), None)],
    "dropped": [(("drop", "t"), None)],
    "all dropped": [(("drop", it), None) for it in "tue"],
    "emptied": [(("drop", "t"), None), (("create", "t", "--like", "u"), None)],
    "fewer rows": [(("query", "t", "a = 1", "--save", "v"), None), (("drop", "t"), None), (("rename", "v", "t"), None)],
    "other rows": [(("drop", "t"), None), (("create", "t", "--like", "u"), None), (("append", "t", "--as", "jsonl"), [[8, "w"], [9, None]])],
    "the last segment gone": [(("query", "t", "a < 4", "--save", "v"), None), (("drop", "t"), None), (("rename", "v", "t"), None)],
    "another schema": [(("drop", "t"), None), (("create", "t", "a:int64", "s:utf8?"), None), (("append", "t", "--as", "jsonl"), [[1, "x"]])],
    "another name of a column": [(("drop", "u"), None), (("create", "u", "a:int32", "r:utf8?"), None)],
    "another schema without rows": [(("drop", "e"), None), (("create", "e", "a:int16"), None)],
    "a new table": [(("create", "v", "n:int8"), None), (("append", "v", "--as", "jsonl"), [[1]])],
    "a new table of the rows of another": [(("query", "t", "--save", "v"), None)],
    "compacted": [(("compact",), None)],
    "the same rows twice": [(("append", "t", "--as", "jsonl"), [[4, "é"]])] * 2,
}


def change(case, path, steps):
    for (word, *rest), rows in steps:
        status = case.run([word, path, *rest], lines_of(rows or []))[0]
        case.compare((word, *rest), status, 0)


def changes(case):
    """Each change of the sender reaches a receiver that has what was before, in both versions; tables that only the receiver has stay without --delete."""
    for version in (1, 2):
        for what, steps in CHANGES.items():
            for options in ([], ["--delete"]) if version == 2 else (["--delete"],):
                told = f"{what} {options} by version {version}"
                a_small_store(case, "sender")
                case.make("receiver", version)
                replicate(case, f"before {told}", "sender", "receiver")
                case.table("receiver", "own", ["x:utf8"], [["mine"]])
                change(case, "sender", steps)
                epoch = case.epoch("receiver")
                replicate(case, told, "sender", "receiver", *options)
                is_same = what in ("nothing", "dropped", "all dropped") and not options
                if version == 2:
                    case.compare(f"{told}: its commits", case.epoch("receiver") - epoch, 0 if is_same else 1)
                case.compare(f"{told}: own tables", "own" in case.seen("receiver"), not options)


def old_receivers(case):
    """A store of version 1 has no digests by which its segments are found: where an archive leaves out a stream, they are read. One that can't be read is
    no such segment."""
    a_small_store(case, "sender")
    case.make("receiver", 1)
    replicate(case, "version 1", "sender", "receiver")
    first = case.listed("sender")[1].segments[2].digest
    stream = model.read_store(content("sender")).streams()[first]
    case.append("sender", "t", [[9, "z"]])
    part = case.run(["send", "sender", "--have", "-"], case.run(["have", "receiver"])[1])[1]
    case.compare("a part has one stream", len(model.read_archive(part).streams), 1)
    shutil.copyfile("receiver", "upgraded")
    damaged = content("receiver")
    place = place_of(damaged, stream)
    put("receiver", damaged[:place] + bytes([damaged[place] ^ 1]) + damaged[place + 1:])
    case.refuses("a part by version 1 with a damaged segment", "receiver", part, f"A4 LacksSegment {first}")
    put("receiver", damaged)
    case.receives("a part by version 1", "receiver", part)
    case.same("a part by version 1", case.seen("receiver"), case.seen("sender"))
    case.must("upgrade", "upgraded")
    case.receives("a part, upgraded", "upgraded", part)
    case.same("a part, upgraded", case.seen("upgraded"), case.seen("sender"))


def whole_archives(case):
    """The same with archives of all segments: what the receiver has does not matter."""
    for what, steps in CHANGES.items():
        a_small_store(case, "sender")
        case.make("receiver")
        case.receives("before", "receiver", case.run(["send", "sender"])[1])
        change(case, "sender", steps)
        case.receives(what, "receiver", case.run(["send", "sender"])[1], "--delete")
        case.same(what, case.seen("receiver"), case.seen("sender"))


def both(case):
    """Both sides have changed a table: it becomes the sender's, and rows that only the receiver has are gone. So are the receiver's own tables of a name."""
    for what, fields, rows in (
        ("other rows behind equal ones", None, [[7, "mine"]]), ("rows that the sender has too", None, [[9, "z"]]), ("another schema", ["k:binary"], [["00"]]),
        ("no rows", ["k:binary"], []), ("the same schema and other rows", ["a:int32", "s:utf8?"], [[7, "mine"]]),
        ("the same schema and no rows", ["a:int32", "s:utf8?"], []),
    ):
        a_small_store(case, "sender")
        case.make("receiver")
        replicate(case, f"before {what}", "sender", "receiver")
        case.append("sender", "t", [[9, "z"]])
        if fields:
            case.must("drop", "receiver", "t")
            case.table("receiver", "t", fields, rows)
        else:
            case.append("receiver", "t", rows)
        for options in ([], ["--delete"]):
            shutil.copyfile("receiver", "copy")
            replicate(case, f"{what} {options}", "sender", "copy", *options)
        # And the other way round.
        replicate(case, f"{what}, the other way", "receiver", "sender")
        case.compare(f"{what}: the same then", case.seen("receiver"), case.seen("sender"))


def drawn_replicas(case):
    """Drawn changes of a sender, and now and then of its receiver, which is made like it again and again."""
    pick = case.chance
    for number in range(12):
        sender, receiver = case.make("sender", pick.choice((1, 2))), case.make("receiver", pick.choice((1, 2)))
        here, there = {}, {}
        for turn in range(8):
            for _ in range(pick.randrange(4)):
                drawn_change(case, sender, here)
            if pick.random() < 0.3:
                drawn_change(case, receiver, there)
            options = pick.choice(([], ["--delete"]))
            replicate(case, f"draw {number}, turn {turn} {options}", sender, receiver, *options)
            there = dict(here) if options else {**there, **here}


# These can be done one after another.
IN_A_ROW = (
    "nothing", "appended", "appended to a table without rows", "two names exchanged", "the same rows twice", "a new table", "compacted", "other rows",
    "another schema", "nothing", "emptied", "dropped",
)


def chain(case):
    """Archives in a row, each for a receiver that has what the one before lists: applied one after another they give each state again."""
    path, archives, states, had = a_small_store(case, "sender"), [], [], []
    for what in IN_A_ROW:
        change(case, path, CHANGES[what])
        archives.append(case.sends(f"a chain, {what}", path, had))
        states.append(case.seen(path))
        had = case.digests(path)
    for most in range(1, len(archives) + 1):
        case.make("receiver")
        for archive in archives[:most]:
            case.compare("an archive of a chain", case.run(["receive", "receiver", "--delete"], archive), DONE)
        case.same(f"the first {most} archives of a chain", case.seen("receiver"), states[most - 1])
        case.compare(f"check after {most} archives", case.run(["check", "receiver"]), DONE)
    case.make("receiver")
    case.receives("the first archive", "receiver", archives[0])
    lines = [f"A4 LacksSegment {it}" for it in set(case.digests(path)) - set(case.digests("receiver"))]
    case.compare("the last archive needs others", lines != [], True)
    case.refuses("the last archive behind the first", "receiver", archives[-1], *lines)


def limits_of(archive):
    """Where each member of an archive begins, by its name."""
    with tarfile.open(fileobj=io.BytesIO(archive)) as read:
        return {it.name: it.offset for it in read}


def an_archive(case):
    """One of three tables and four streams, and a receiver with a table of its own and one of the same name."""
    path = a_small_store(case, "sender")
    case.make("receiver")
    case.table("receiver", "t", ["a:int32"], [[1]])
    case.table("receiver", "own", ["a:int8"], [[1]])
    return path, case.archive(path)


def cut(case):
    """An archive that is cut short, at each block and at drawn places."""
    _, archive = an_archive(case)
    starts = limits_of(archive)
    for length in sorted({*range(0, len(archive), 512), *case.chance.sample(range(len(archive)), 100), len(archive) - 1, len(archive) - 512}):
        given = archive[:length]
        case.refuses(f"the first {length:,} of {len(archive):,} bytes", "receiver", given, line_of(given), options=case.chance.choice(([], ["--delete"])))
    for name, begin in starts.items():
        line = "A2 NotAnArchive" if name == "manifest.jsonl" else f"A3 BadMember {name}"
        for length in (begin + 511, begin + 512) if name != "manifest.jsonl" else (begin + 511, begin + 512, begin + 1024):
            case.refuses(f"{length - begin} bytes of {name}", "receiver", archive[:length], line)
    for more in (b"\0", bytes(512), bytes(9216), b"x", archive):
        case.refuses(f"{len(more)} bytes behind it", "receiver", archive + more, "A3 BadMember end")
    case.receives("the whole", "receiver", archive)


def repaired(header):
    """The header of a member with the checksum of its other bytes."""
    return header[:148] + b"%06o\0 " % (sum(header[:148]) + sum(header[156:]) + 8 * 32) + header[156:]


def with_byte(case, archive, place):
    """The archive with another byte at this place."""
    byte = archive[place] ^ case.chance.choice((1, 1, 2, 4, 8, 16, 32, 64, 128, case.chance.randrange(1, 256)))
    return archive[:place] + bytes([byte]) + archive[place + 1:]


def altered_at(archive, places, case):
    """What is altered, and the archive: at each of these places, and in headers with the right checksum too."""
    starts = limits_of(archive).values()
    for place in places:
        given = with_byte(case, archive, place)
        yield f"byte {place:,} as {given[place]:#04x}", given
        for start in starts:
            if start <= place < start + 512:
                yield f"byte {place:,} as {given[place]:#04x}, with its checksum", given[:start] + repaired(given[start:start + 512]) + given[start + 512:]


def no_alteration(case, archive, places, receiver):
    """Each of these alterations is refused. A schema, or texts of another one, may be no manifest."""
    first_end = list(limits_of(archive).values())[1]
    for what, given in altered_at(archive, places, case):
        line = line_of(given)
        if given != archive:
            case.refuses(f"{what}, by {receiver}", receiver, given, line, *(["A2 NotAnArchive"] if given[first_end:] == archive[first_end:] else []))


def altered(case):
    """One byte of an archive is another one: all of a small archive in turn, and drawn ones of a larger one. All are refused, and nothing changes."""
    case.make("small")
    case.table("small", "a", ["n:int32"], [[7], [8]])
    case.table("small", "b", ["t:utf8?"])
    archive = case.archive("small")
    for version in (1, 2):
        case.make(f"receiver{version}", version, "64")
        case.table(f"receiver{version}", "a", ["n:int32"], [[1]])
        no_alteration(case, archive, range(len(archive)), f"receiver{version}")
        case.receives("the small one as it is", f"receiver{version}", archive)
    _, archive = an_archive(case)
    no_alteration(case, archive, case.chance.sample(range(len(archive)), ALTERED), "receiver")


# What may be written in a manifest in the place of something else, so that it is one of other tables.
OTHER_TABLES = {
    "another name": (b'"table":"b"', b'"table":"c"'), "a longer name": (b'"table":"b"', b'"table":"bb"'), "a first name": (b'"table":"a"', b'"table":"A"'),
    "another number of rows": (b'"rows":2', b'"rows":3'), "another epoch": (b'"epoch":', b'"epoch":1'), "version 1": (b'"archive":2', b'"archive":1'),
}


def other_tables(case):
    """A manifest that is one of other tables: `end` has the digest of the one that was sent. With its own digest it is an archive of those tables."""
    case.make("small")
    case.table("small", "a", ["n:int32"], [[7], [8]])
    case.table("small", "b", ["t:utf8?"])
    archive = case.archive("small")
    epoch, tables, _ = model.read_archive(archive)
    text, rest = model.manifest(epoch, tables), archive[list(limits_of(archive).values())[1]:]
    for version in (1, 2):
        case.make("receiver", version, "64")
        for what, (there, other) in OTHER_TABLES.items():
            made = text.replace(there, other, 1)
            case.compare(f"{what} is another manifest", (made != text, line_of(model.member("manifest.jsonl", made) + rest)), (True, "A3 BadMember manifest.jsonl"))
            case.refuses(f"{what} by version {version}", "receiver", model.member("manifest.jsonl", made) + rest, "A3 BadMember manifest.jsonl")
        made = text.replace(*OTHER_TABLES["another name"])
        given = model.member("manifest.jsonl", made) + rest[:-len(model.end(2, text))] + model.end(2, made)
        case.receives(f"another name, which is digested, by version {version}", "receiver", given)
        case.compare(f"the tables of version {version}", sorted(case.seen("receiver")), ["a", "c"])
        case.refuses(f"another digest by version {version}", "receiver", given[:-1536] + b"0" * 64 + given[-1472:], "A3 BadMember manifest.jsonl")


def old_archives(case):
    """Archives of version 1, whose `end` has no digest, are received as they were."""
    path = a_small_store(case, "sender")
    epoch, tables, found = model.read_archive(case.archive(path))
    old, new = (model.archive_of(epoch, tables, list(found.values()), version) for version in model.VERSIONS)
    case.compare("the end of an archive of version 1", old.endswith(model.header("end", 0) + bytes(1024)), True)
    for version in (1, 2):
        case.make("receiver", version)
        case.refuses("version 1 that is cut", "receiver", old[:-1], "A3 BadMember end")
        case.refuses("version 1 with the end of version 2", "receiver", old[:-1536] + new[-2048:], "A3 BadMember manifest.jsonl")
        case.refuses("version 2 with the end of version 1", "receiver", new[:-2048] + old[-1536:], "A3 BadMember end")
        case.receives(f"version 1 by version {version}", "receiver", old)
        case.same(f"version 1 by version {version}", case.seen("receiver"), case.seen(path))


def made_of(case, path, change_streams=None, change_tables=None):
    """An archive of a store, of which something is changed, but for the rest of it."""
    epoch, tables, streams_there = model.read_archive(case.archive(path))
    tables = change_tables(tables) if change_tables else tables
    found = list(streams_there.values())
    return model.archive_of(epoch, tables, change_streams(found) if change_streams else found)


def lacking(case):
    """A stream that is left out, and that the receiver does not have."""
    path, archive = an_archive(case)
    found = list(model.read_archive(archive).streams)
    for number, digest in enumerate(found):
        given = made_of(case, path, lambda it: it[:number] + it[number + 1:])
        case.refuses(f"without stream {number}", "receiver", given, f"A4 LacksSegment {digest}")
        case.make("other")
        [holder] = [table for table in model.read_store(content(path)).tables if digest in [it.digest for it in table.listed(None).segments]][:1]
        stream = model.read_store(content(path)).streams()[digest]
        case.must("import", "other", "elsewhere", given=stream)
        case.receives(f"without stream {number}, which another table of the receiver has ({holder.name})", "other", given, "--delete")
        case.same(f"without stream {number}", case.seen("other"), case.seen(path))
    case.refuses("without any stream", "receiver", made_of(case, path, lambda it: []), *(f"A4 LacksSegment {it}" for it in found))
    case.make("receiver")
    case.receives("all streams", "receiver", archive)
    case.receives("without any stream, which it has", "receiver", made_of(case, path, lambda it: []))
    case.refuses("in another order", "receiver", made_of(case, path, lambda it: it[::-1]), "A3 BadMember member 2")


def repacked(archive, form, change_member=None):
    """The same members with headers as `tarfile` makes them."""
    out = io.BytesIO()
    with tarfile.open(fileobj=io.BytesIO(archive)) as read, tarfile.open(fileobj=out, mode="w", format=form) as made:
        for it in read:
            stream = read.extractfile(it).read()
            made.addfile(change_member(it) if change_member else it, io.BytesIO(stream))
    return out.getvalue()


def foreign(case):
    """What is no archive, or one that something else has made of one."""
    path, archive = an_archive(case)
    starts = list(limits_of(archive).values())
    segments = [name for name in limits_of(archive) if name.startswith("segments")]
    for what, given in (
        ("nothing", b""), ("zeros", bytes(10240)), ("a text", b"refused G1 Io\n"), ("a stream", case.run(["export", path, "t"])[1]), ("a store", content(path)),
        ("a manifest alone", archive[512:starts[1]].rstrip(b"\0")), ("the members behind the manifest", archive[starts[1]:]),
        ("a list of digests", case.run(["have", path])[1]), ("a zero byte before it", b"\0" + archive), ("a block before it", bytes(512) + archive),
        ("an empty tape archive", bytes(1024)), ("one of GNU's form", repacked(archive, tarfile.GNU_FORMAT, lambda it: it.replace(uname="root"))),
        ("one of pax", repacked(archive, tarfile.PAX_FORMAT, lambda it: it.replace(mtime=1.5))),
        ("one of other owners", repacked(archive, tarfile.USTAR_FORMAT, lambda it: it.replace(uid=1000, gid=1000))), ("compressed", gzip.compress(archive)),
    ):
        case.refuses(what, "receiver", given, "A2 NotAnArchive")
    os.mkdir("files")
    put("archive.tar", archive)
    again = "tar -xf ../archive.tar && tar -cf ../again.tar manifest.jsonl segments/* end && tar -cf ../folder.tar ."
    subprocess.run(f"cd files && {again}", shell=True, check=True)
    for name in ("again.tar", "folder.tar"):
        case.refuses(f"{name}, made by tar", "receiver", content(name), "A2 NotAnArchive")
    case.refuses("two archives", "receiver", archive + archive, "A3 BadMember end")
    for place, name in enumerate(segments):
        at, size = starts[place + 1], starts[place + 2] - starts[place + 1]
        stream = archive[at + 512:at + 512 + int(archive[at + 124:at + 135], 8)]
        bad, unnamed, next_one = (f"A3 BadMember {it}" for it in (name, f"member {place + 1}", (*segments, f"member {place + 1}")[place + 1]))
        upper, member = name.upper().replace("SEGMENTS", "segments").replace("ARROWS", "arrows"), archive[at:at + size]
        for what, made, line in (
            ("under another's name", model.member(segments[(place + 1) % len(segments)], stream), next_one),
            ("under the name of none", model.member(model.segment_name("ab" * 32), stream), unnamed),
            ("under its name in upper case", model.member(upper, stream), bad), ("with another end of its name", model.member(f"{name}s", stream), bad),
            ("in another folder", model.member(name.replace("segments", "segmentz"), stream), bad),
            ("behind another member", model.member("readme", b"x") + member, unnamed), ("behind the manifest again", archive[:starts[1]] + member, unnamed),
            ("without bytes", model.member(name, b""), bad), ("with a byte more", model.member(name, stream + b"\0"), bad),
            ("twice", member + member, f"A3 BadMember member {place + 2}"),
        ):
            given = archive[:at] + made + archive[at + size:]
            case.compare(f"stream {place} {what}, by the model", line_of(given), line)
            case.refuses(f"stream {place} {what}", "receiver", given, line)
    more = archive[:starts[-1]] + model.member("x", b"") + archive[starts[-1]:]
    case.refuses("another member before the end", "receiver", more, f"A3 BadMember member {len(segments) + 1}")
    case.refuses("an end with bytes", "receiver", archive[:starts[-1]] + model.member("end", b"x") + bytes(1024), "A3 BadMember end")
    case.receives("the archive", "receiver", archive)


def manifests(case):
    """Manifests that are none: other forms of the same JSON, tables out of order or twice, schemas that are none, texts of another schema."""
    path, archive = an_archive(case)
    epoch, tables, found = model.read_archive(archive)
    text = model.manifest(epoch, tables)
    rest = archive[limits_of(archive)[model.segment_name(list(found)[0])]:limits_of(archive)["end"]]
    lines = text.decode().split("\n")

    def with_text(made):
        return model.member("manifest.jsonl", made) + rest + model.end(2, made)

    def with_lines(*made):
        return with_text("\n".join([*made, ""]).encode())

    swapped, twice = [tables[1], tables[0], tables[2]], [tables[0], tables[0], tables[1], tables[2]]
    worse = tables[0]._replace(schema=tables[0].schema[:-8])
    for what, given in (
        ("tables out of order", with_text(model.manifest(epoch, swapped))),
        ("a table twice", with_text(model.manifest(epoch, twice))),
        ("no line feed at the end", with_text(text[:-1])),
        ("an empty line at the end", with_text(text + b"\n")),
        ("spaces", with_text(text.replace(b":", b": "))),
        ("carriage returns", with_text(text.replace(b"\n", b"\r\n"))),
        ("a later version", with_text(text.replace(b'"archive":2', b'"archive":3'))), ("version 0", with_text(text.replace(b'"archive":2', b'"archive":0'))),
        ("a table fewer than it says", with_lines(*lines[:-2])),
        ("a number of tables too large", with_text(text.replace(b'"tables":3', b'"tables":4'))),
        ("no tables in it, and some said", with_lines(lines[0])),
        ("a schema without its end", with_text(model.manifest(epoch, [worse, *tables[1:]]))),
        ("upper case in a schema", with_text(text.replace(b"ffffffff", b"FFFFFFFF", 1))),
        ("fields of another schema", with_text(text.replace(b'"a:int8"', b'"a:int9"'))),
        ("fields without a text", with_text(text.replace(b'["a:int8"]', b"null"))),
        ("an escape", with_text(text.replace(b'"e"', b'"\\u0065"'))),
        ("epoch 2^64", with_text(re.sub(rb'"epoch":\d+', b'"epoch":18446744073709551616', text))),
        ("a leading zero", with_text(text.replace(b'"epoch":', b'"epoch":0'))),
        ("a fraction", with_text(text.replace(b'"tables":3', b'"tables":3.0'))),
        ("a digest in upper case", with_text(text.replace(list(found)[0].encode(), list(found)[0].upper().encode()))),
        ("a digest too short", with_text(text.replace(list(found)[0].encode(), list(found)[0][1:].encode()))),
        ("no UTF-8", with_text(text.replace(b'"e"', b'"\xff"'))),
        ("a member more", with_text(text.replace(b'"tables":3', b'"tables":3,"x":1'))),
        ("the members the other way", with_text(re.sub(rb'\{"archive":2,("epoch":\d+)', rb'{\1,"archive":2', text))),
        ("nested a million deep", with_text(b"[" * 1000000 + b"\n")),
        ("a byte order mark", with_text(b"\xef\xbb\xbf" + text)),
        ("nothing in it", with_text(b"")),
        ("an array", with_text(b"[]\n")),
        ("a number", with_text(b"1\n")),
    ):
        case.refuses(f"a manifest with {what}", "receiver", given, "A2 NotAnArchive")
    for what, made in ((b"e/f", "a slash"), (b"", "no letter"), (b"d" * 65, "65 letters")):
        case.refuses(f"a table's name of {made}", "receiver", with_text(text.replace(b'"table":"e"', b'"table":"%s"' % what)), "S3 BadName")
    for name in ("manifest.json", "MANIFEST.jsonl", "./manifest.jsonl", "manifest.jsonl.", ""):
        case.refuses(f"a manifest with the name {name!r}", "receiver", model.member(name, text) + rest + model.end(2, text), "A2 NotAnArchive")
    # A stream of other columns under the schema of a table.
    other = tables[0]._replace(segments=tables[1].segments)
    case.refuses("streams of another schema", "receiver", model.archive_of(epoch, [other, *tables[1:]], list(found.values())), "S4 SchemaMismatch")
    bad = [b"no stream", b""]
    for stream in bad:
        one = tables[0]._replace(segments=[model.Segment(model.digest_of(stream), len(stream), 1)])
        status, output, said = case.run(["receive", "receiver"], model.archive_of(epoch, [one], [stream]))
        case.compare(f"the stream {stream}", (status, output, said.split()[:2]), (1, b"", [b"refused", b"S5"]))
    case.receives("the archive itself", "receiver", archive)


def no_room(case):
    """What does not fit is refused as a whole; an append of what is new needs room for that alone."""
    path = case.make("sender")
    case.table(path, "small", ["a:int32"], [[1]])
    case.table(path, "t", ["a:int32"], [[place] for place in range(8000)])
    case.make("receiver", sectors="32")
    case.table("receiver", "own", ["a:int32"], [[1]])
    before = content("receiver")
    status, output, said = case.run(["receive", "receiver"], case.run(["send", path])[1])
    case.compare("too large", (status, output, b" S8 NoRoom" in said, content("receiver") == before), (1, b"", True, True))
    case.make("receiver", sectors="96")
    replicate(case, "as it fits", path, "receiver")
    case.append(path, "t", [[1]])
    replicate(case, "a row more", path, "receiver")


def hurried(case):
    """A store that is the input's own folder or file, an input that is cut while it is read, and a sender that is killed."""
    path, archive = an_archive(case)
    before = content("receiver")
    with subprocess.Popen([case.program, "receive", "receiver"], stdin=subprocess.PIPE, stdout=subprocess.PIPE, stderr=subprocess.PIPE) as run:
        run.stdin.write(archive[:1000])
        run.stdin.flush()
        time.sleep(0.2)
        run.kill()
        case.compare("killed while it reads", run.communicate()[0], b"")
    case.compare("killed while it reads: nothing has changed", content("receiver") == before, True)
    done = subprocess.run(["sh", "-c", '"$0" send sender --have missing | "$0" receive receiver', case.program], capture_output=True, timeout=60)
    lines = [b"refused A2 NotAnArchive", b"refused G1 Io"]
    case.compare("a sender that is refused", (done.returncode, done.stdout, sorted(done.stderr.splitlines())), (1, b"", lines))
    case.compare("a sender that is refused: nothing has changed", content("receiver") == before, True)
    done = subprocess.run(["sh", "-c", '"$0" send sender | "$0" receive receiver', case.program], capture_output=True, timeout=60)
    case.compare("a pipe", (done.returncode, done.stdout, done.stderr), DONE)
    case.same("a pipe", {name: it for name, it in case.seen("receiver").items() if name != "own"}, case.seen(path))


CASES = {it.__name__: it for it in (
    worked, kinds, pages, parts, unpacked, drawn, lists, bad_lists, words, outputs, damaged, locks, slow_reader,
    received, grown, changes, old_receivers, whole_archives, both, drawn_replicas, chain, cut, altered, other_tables, old_archives, lacking, foreign, manifests, no_room, hurried,
)}


def played(program, name):
    """What is right, and each difference of a case."""
    case = Case(program, name)
    with tempfile.TemporaryDirectory(dir=MEMORY) as room:
        os.chdir(room)
        try:
            CASES[name](case)
        except Exception as error:
            case.wrong.append(f"{name} ended with {error!r}")
        os.chdir("/")
    return case.passed, [f"{name}: {it}" for it in case.wrong]


def main():
    given = parser_of(__doc__).parse_args()
    chosen = chosen_of(CASES, given)
    passed = failed = 0
    with ProcessPoolExecutor(os.cpu_count()) as pool:
        for name, (right, wrong) in zip(chosen, pool.map(played, [given.program] * len(chosen), chosen)):
            print_some(name, wrong, 20 if given.cases else 4)
            passed, failed = passed + right, failed + len(wrong)
    print(f"archives: {passed} passed, {failed} failed")
    return 1 if failed else 0


if __name__ == "__main__":
    sys.exit(main())
