"""Drawn files that are refused: none, of another kind or length, locked, full or damaged stores, scripts, and an input or output that fails."""
import errno
import os

import streams
from drawn_commands import Draw, wrong_field
from text_rules import MARK, Facts, is_visible, shown

SECTOR = 512
COLUMN = [("a", "int64", True)]
MISSING, NO_FOLDER = os.strerror(errno.ENOENT), os.strerror(errno.ENOTDIR)
WRONG_LINES = ("drop  t", "drop t u", "", "dorp t", "compact x", "rename a", "import t", "compact\r", "\ufeffcompact", "\ufeffx\r", " compact",
               "COMPACT", "create", "tables", "append t", "drop\tt", "x" * 100, "x" * 101, "é", "query t a = 1", "`", "reopen ", "# drop",
               "import a b c", "append t f --as xml", "append t f --as", "append t f --null a --null b", "append t f --as csv")
# Lines that are refused for a reason of their own, with the form that says it.
TOLD_LINES = {"begin": "list", "commit": "list", "drop --x": "option_name", "save t --columns": "option_name", "rename --t u": "option_name", "import --new f": "option_name",
              "create --like a:int8": "option_name", "append --as f --as csv": "option_name", "save t --limit 5": "option_name", "drop --": None,
              "save -- t": None}
RIGHT_LINES = ("create t a:int32", "compact", "reopen", "drop t", "rename t u", "upgrade")


def reading(path):
    """Commands that read the store at a path."""
    return (["tables", path], ["schema", path, "t"], ["query", path, "t"], ["export", path, "t"], ["info", path], ["check", path], ["salvage", path, "t"])


def changing(path):
    return (["drop", path, "t"], ["rename", path, "t", "u"], ["create", path, "new", "a:int8"], ["compact", path], ["upgrade", path])


def of_file(facts, path, form):
    """What is true of a file, and the form that says so, if a terminal is shown its path."""
    return (facts.also(path=path), [form]) if is_visible(path) else (Facts(facts.code), [])


def put(path, content):
    with open(path, "wb") as file:
        file.write(content)
    return path


def draw_missing(pick, stores):
    name = pick.choice(("none", "none/s", "two words", "é", "esc\x1b", "right\u202e", "n" * 120, "`", "file/s"))
    path, reason = os.path.join(stores.room, name), NO_FOLDER if name == "file/s" else MISSING
    put(os.path.join(stores.room, "file"), b"")
    choice = pick.random()
    if choice < 0.6:
        words = pick.choice((*reading(path), *changing(path), ["copy", path, stores.fresh(), "16"], ["replay", path, "--sectors", "16"]))
        facts, due = of_file(Facts("G1", unopened=reason), path, "unopened")
    else:
        path = path if name.endswith("/s") else path + "/s"
        words = pick.choice((["format", path, "16"], ["copy", stores.path, path, "64"]))
        facts, due = of_file(Facts("G1", unmade=reason), path, "unmade")
    return Draw(words, b"", "G1 Io", facts, due, "missing")


def draw_existing(pick, stores):
    path = pick.choice((stores.path, stores.room))
    words = pick.choice((["format", path, "64"], ["copy", stores.path, path, "64"]))
    return Draw(words, b"", "G1 Io", Facts("G1", path=path, exists=True), ["exists"], "exists")


def draw_locked(pick, stores):
    is_shared = pick.random() < 0.4
    words = pick.choice(changing(stores.path) if is_shared else (*reading(stores.path), *changing(stores.path), ["copy", stores.path, stores.fresh(), "64"]))
    return Draw(words, b"", "G1 Io", Facts("G1", path=stores.path, is_locked=True), ["locked"], "locked", "locked to read" if is_shared else "locked to write")


def draw_no_file(pick, stores):
    """A folder, a named pipe or a device in place of a store."""
    pipe = os.path.join(stores.room, "pipe")
    if not os.path.exists(pipe):
        os.mkfifo(pipe)
    path = pick.choice((stores.room, pipe, "/dev/null", "/"))
    is_read = pick.random() < 0.5
    words = pick.choice((*reading(path), ["copy", path, stores.fresh(), "16"]) if is_read else changing(path))
    # The system opens a device for writing, but neither a folder nor, with a lock, a pipe.
    is_opened = is_read or path == "/dev/null"
    facts = Facts("G2" if is_opened else "G1", path=path, is_no_file=True)
    form = "folder" if os.path.isdir(path) else "not_regular"
    return Draw(words, b"", "G2 BadSize" if is_opened else "G1 Io", facts, [form], "" if is_opened else "other")


def draw_no_store(pick, stores):
    """A file of a drawn length with drawn bytes, which is no store."""
    sectors = pick.randrange(40)
    length = SECTOR * sectors + pick.choice((0, 0, 1, 511, pick.randrange(512)))
    path = put(stores.fresh(), pick.randbytes(length) if pick.random() < 0.5 else bytes(length))
    words = pick.choice((*reading(path), *changing(path)))
    if length % SECTOR or length < 16 * SECTOR:
        return Draw(words, b"", "G2 BadSize", Facts("G2", path=path), ["length"])
    return Draw(words, b"", "C1 NotAStore", Facts("C1", role="file", word=path), ["word_file"])


def draw_other_length(pick, stores):
    made, sectors = stores.content, len(stores.content) // SECTOR
    if pick.random() < 0.4:
        content = made + bytes(pick.choice((1, 1, 512, pick.randrange(1, 3000))))
    else:
        content = made[:pick.choice((pick.randrange(1024, len(made)), SECTOR * pick.randrange(2, sectors), len(made) - 1))]
    path = put(stores.fresh(), content)
    is_possible = len(content) % SECTOR == 0 and len(content) >= 16 * SECTOR
    words = pick.choice((*reading(path), *changing(path), ["copy", path, stores.fresh(), "64"]))
    code, line = ("C3", "C3 Damaged DeviceSize") if is_possible else ("G2", "G2 BadSize")
    return Draw(words, b"", line, Facts(code, path=path, made_with=sectors), ["other_length"])


def draw_later_version(pick, stores):
    content, version = bytearray(stores.content), pick.choice((3, 4, 77, 2**32 - 1))
    for sector in (0, 1):
        content[sector * SECTOR + 48:sector * SECTOR + 52] = version.to_bytes(4, "little")
    path = put(stores.fresh(), content)
    words = pick.choice((*reading(path), *changing(path), ["copy", path, stores.fresh(), "64"]))
    return Draw(words, b"", "C1 NotAStore", Facts("C1", path=path, version=version), ["later_version"])


def draw_sectors(pick, stores):
    number = pick.choice((0, 1, 15, 4194305, 2**32, 2**64 - 1, pick.randrange(16)))
    words, line = pick.choice(((["format", stores.fresh(), str(number)], "G2 BadSize"), (["copy", stores.path, stores.fresh(), f"0{number}"], "G2 BadSize"),
                               (["replay", stores.path, "--sectors", str(number)], "C3 Damaged DeviceSize")))
    return Draw(words, b"", line, Facts(line[:2], sectors=number), ["sectors"])


def draw_unread_input(pick, stores):
    append = ["append", stores.path, pick.choice(list(stores.tables)), "--as", pick.choice(("stream", "csv", "jsonl"))]
    words = pick.choice((["recode"], ["import", stores.path, "new"], append))
    is_closed = pick.random() < 0.5
    # `recode` opens no file, so that the system's reason is that of the input.
    closed = os.strerror(errno.EBADF) if words == ["recode"] else "it is closed"
    facts = Facts("G1", unread=closed if is_closed else os.strerror(errno.EISDIR))
    return Draw(words, b"", "G1 Io", facts, ["unread_input"], "input", "input closed" if is_closed else "input a folder")


def draw_full_output(pick, stores):
    """An output on which there is no room, before or after the store is changed."""
    facts = Facts("G1", unwritten=os.strerror(errno.ENOSPC))
    if pick.random() < 0.5:
        words = pick.choice((["tables", stores.full], ["schema", stores.full, "t"], ["export", stores.full, "t"], ["check", stores.full], ["info", stores.full],
                             ["salvage", stores.full, "t"], ["query", stores.full, "t"], ["--version"], ["--help"], ["help", "S8"], ["query", "--help"]))
        return Draw(words, b"", "G1 Io", facts, ["unwritten_output"], "output-before", "output full")
    path = put(stores.fresh(), stores.content)
    words = pick.choice((["format", stores.fresh(), "16"], ["create", path, "new", "a:int8"], ["drop", path, "t"], ["rename", path, "t", "u"], ["compact",
                                                                                                                                                path],
                         ["copy", path, stores.fresh(), "64"], ["query", path, "t", "--save", "saved"]))
    return Draw(words, b"", "G1 Io", facts.also(is_done=True), ["unwritten_output"], "output-after", "output full")


def draw_no_room(pick, stores):
    """More rows than a store has room for."""
    rows = pick.randrange(1024, 4097)
    given = streams.stream(COLUMN, [[list(range(rows))]])
    line = f"S8 NoRoom {-(-len(given) // SECTOR)}"
    choice = pick.random()
    if choice < 0.7:
        return Draw([pick.choice(("import", "append")), stores.small, "t"], given, line, Facts("S8"), [])
    return Draw(["copy", stores.full, stores.fresh(), "16"], b"", f"S8 NoRoom {-(-len(stores.stream) // SECTOR)}", Facts("S8"), [])


def draw_script(pick, stores):
    """A script with a line that is no command, or whose field is refused."""
    lines = [pick.choice(RIGHT_LINES) for _ in range(pick.randrange(4))]
    facts, about = Facts("G3"), []
    if pick.random() < 0.4:
        text, facts, about = wrong_field(pick)
        line = " ".join(["create t", *pick.sample(("a:int8", "b:utf8?", "c:null?"), pick.randrange(3)), text])
        # A text with a space is several texts for a script, and one that begins with a quotation mark has to close it.
        about = ["word_field", *about] if shown(text) is not None else []
        facts.also(code="G3", role="field", word=text)
        if " " in text or text.startswith('"'):
            return draw_script(pick, stores)
    elif pick.random() < 0.3:
        line = pick.choice(list(TOLD_LINES))
        about = [form] if (form := TOLD_LINES[line]) else []
        facts.also(is_option_name=form == "option_name")
    else:
        line = pick.choice(WRONG_LINES)
    facts.also(line=line.encode())
    form = ["line_return"] if line.endswith("\r") else ["line_mark"] if facts.line.startswith(MARK) else []
    due = (["line"] if shown(line) is not None else []) + form + about
    script = put(stores.fresh(), "\n".join([*lines, line, *RIGHT_LINES[:pick.randrange(2)], ""]).encode())
    return Draw(["replay", script, "--sectors", "64"], b"", f"G3 BadScript {len(lines) + 1}", facts, due)


def draw_cut_script(pick, stores):
    """A script to be applied whose last line lacks its line feed, be it right or not."""
    lines = [pick.choice(("drop t", "rename t u")) for _ in range(pick.randrange(4))]
    line = pick.choice(("drop t", "rename t u", "create t a:int32", "drop", "dro", "re", "é", "x" * 101))
    facts = Facts("G3", line=line.encode(), is_cut_off=True)
    script = put(stores.fresh(), "\n".join([*lines, line]).encode())
    return Draw(["apply", stores.path, script], b"", f"G3 BadScript {len(lines) + 1}", facts, (["line"] if shown(line) is not None else []) + ["line_cut"])


def draw_applied_script(pick, stores):
    """A script to be applied that is empty, in a file or on the input, or has a line that only `replay` takes."""
    choice = pick.random()
    if choice < 0.3:
        return Draw(["apply", stores.path, "-"], b"", "G3 BadScript 1", Facts("G3", given=b""), ["empty"])
    if choice < 0.6:
        script = put(stores.fresh(), b"")
        return Draw(["apply", stores.path, script], b"", "G3 BadScript 1", Facts("G3", path=script), ["empty_script"])
    line = pick.choice(("begin", "commit"))
    script = put(stores.fresh(), f"drop t\n{line}\ndrop u\n".encode())
    return Draw(["apply", stores.path, script], b"", "G3 BadScript 2", Facts("G3", line=line.encode(), is_applied=True), ["line", "one_commit"])


def draw_unread_in_script(pick, stores):
    path = os.path.join(stores.room, pick.choice(("none", "é", "esc\x1b", "n" * 120, "", "none\r", "é\r", "\r")))
    script = put(stores.fresh(), f"create t a:int8\n{pick.choice(('import', 'append'))} t {path}\n".encode())
    if len(path.encode()) > 100:
        return Draw(["replay", script, "--sectors", "64"], b"", "G1 Io", Facts("G1"), [], "missing")
    if os.path.isdir(path):
        facts, due = of_file(Facts("G1", unread=os.strerror(errno.EISDIR)), path, "unread_file")
        return Draw(["replay", script, "--sectors", "64"], b"", "G1 Io", facts, due, "other")
    form = "named_with_return" if path.endswith("\r") else "unopened"
    facts, due = of_file(Facts("G1", unopened=MISSING, has_return=form == "named_with_return"), path.removesuffix("\r"), form)
    return Draw(["replay", script, "--sectors", "64"], b"", "G1 Io", facts, due, "missing")


def draw_damaged(pick, stores):
    """A store in which the first byte of a segment of some tables was changed."""
    version = pick.choice(("1", "2"))
    made, tables = stores.tables_to_damage[version]
    damaged = sorted(pick.sample(sorted(tables), pick.randrange(1, len(tables) + 1)))
    content = bytearray(made)
    for name in damaged:
        content[made.index(tables[name][:-8], 1024)] ^= 1
    path, line = put(stores.fresh(), content), "S15 SegmentDamaged 0" if version == "2" else "S13 SegmentUnread 0"
    facts, of_one = Facts(line.split()[0], damaged=damaged), pick.choice((["export", path, damaged[0]], ["query", path, damaged[0]]))
    words, due = pick.choice(((["check", path], ["unread_table"] * len(damaged)), (["copy", path, stores.fresh(), "64"], ["unread_table"]), (of_one, [])))
    return Draw(words, b"", line, facts, due)
