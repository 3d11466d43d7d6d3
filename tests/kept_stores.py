"""The stores of tests/images: the commands that made each, and what it holds then, worked out without the program."""
from typing import NamedTuple

from streams import field, integer, schema, stream

SECTOR = 512
ONE = [("a", "int32", True)]
PAIR = [("sensor", "uint16", False), ("millidegrees", "int64", True)]


class Table(NamedTuple):
    columns: list
    values: list
    segments: int


class Store(NamedTuple):
    """So many of the first steps, all of them creations, were laid by the format's page, and the program did the others. A step that was stopped wrote all but
    its commit sector."""
    name: str
    sectors: int
    steps: list
    laid: int = 0
    stopped: tuple = ()


def after(tables, step):
    """The tables after a step, as a map has them."""
    what, name, *more = step
    tables = dict(tables)
    if what == "create":
        tables[name] = Table(more[0], [[] for _ in more[0]], 0)
    elif what == "import":
        tables[name] = Table(more[0], more[1], 1)
    elif what == "append":
        old = tables[name]
        tables[name] = Table(old.columns, [few + others for few, others in zip(old.values, more[0])], old.segments + 1)
    elif what == "rename":
        tables[more[0]] = tables.pop(name)
    else:
        del tables[name]
    return tables


def after_all(steps):
    tables = {}
    for step in steps:
        tables = after(tables, step)
    return tables


def texts_of(columns):
    """The field texts, as `create` takes them."""
    return [f"{name}:{kind}{'?' if nullable else ''}" for name, kind, nullable in columns]


def stream_of(table):
    """In the batches in which it is written."""
    rows = range(0, len(table.values[0]), 4096)
    return stream(table.columns, [[column[place:place + 4096] for column in table.values] for place in rows])


def command(path, step, before):
    """The words of the program and its input."""
    what, name, *more = step
    if what == "create":
        return [what, path, name, *texts_of(more[0])], b""
    if what == "import":
        return [what, path, name], stream(more[0], [more[1]])
    if what == "append":
        return [what, path, name], stream(before[name].columns, [more[0]])
    return [what, path, name, *more], b""


def message_of(table):
    return schema([field(name, nullable, 2, integer(kind)) for name, kind, nullable in table.columns])


def list_size(tables):
    """The bytes of a catalogue that is one list."""
    return 4 + sum(4 + len(name) + 4 + len(message_of(table)) + 4 + 32 * table.segments for name, table in tables.items())


def number(value, size):
    return value.to_bytes(size, "little")


def entry_text(name, table, segments=b""):
    """Of a table in a list: its segments are numbers of 32 bytes each."""
    message = message_of(table)
    return number(len(name), 4) + name.encode() + number(len(message), 4) + message + number(len(segments) // 32, 4) + segments


def list_text(tables):
    """Of tables without segments."""
    return number(len(tables), 4) + b"".join(entry_text(name, table) for name, table in sorted(tables.items()))


def laid(sectors, epoch, front, text):
    """A device with what comes first, after the commit sectors, then the list, and the one commit that names it."""
    numbers = (epoch, 2 + len(front) // SECTOR, -(-len(text) // SECTOR), len(text), sectors)
    commit = b"ARWSTOR1" + b"".join(number(value, 8) for value in numbers) + number(1, 4)
    commits = [b"", commit] if epoch % 2 else [commit, b""]
    return (b"".join(commit.ljust(SECTOR, b"\0") for commit in commits) + front + text).ljust(sectors * SECTOR, b"\0")


def laid_store(sectors, steps):
    """What a device holds after these creations."""
    return laid(sectors, len(steps) + 1, b"", list_text(after_all(steps)))


def laid_segments(sectors, tables, place_of=lambda count: count):
    """A store of these tables of one column, each of whose rows is a segment of one sector, at the place that its number in the list of all has."""
    entries, segments = [], {}
    for name, table in sorted(tables.items()):
        places = []
        for value in table.values[0]:
            segment, place = stream(table.columns, [[[value]]]), place_of(len(segments))
            places.append(b"".join(number(part, 8) for part in (2 + place, 1, len(segment), 1)))
            segments[place] = segment.ljust(SECTOR, b"\0")
        entries.append(entry_text(name, table, b"".join(places)))
    front = b"".join(segments[place] for place in range(len(segments)))
    return laid(sectors, 2, front, number(len(tables), 4) + b"".join(entries))


def table_lines(tables):
    return "".join(f"{name} {len(tables[name].values[0])}\n" for name in sorted(tables)).encode()


def schema_lines(table):
    return "".join(f'"{name}":{kind}{"?" if nullable else ""}\n' for name, kind, nullable in table.columns).encode()


def five_segments(first, second):
    """Two tables of 20 letters of names and five segments have a list of 512 bytes."""
    return [
        ("import", first, ONE, [[1, None, 3]]), ("append", first, [[4, 5]]), ("append", first, [[None]]),
        ("import", second, ONE, [list(range(300))]), ("append", second, [[-1, 2**31 - 1]]),
    ]


def many(number):
    """Tables of one, two and three columns; every other one has rows, every fourth has them in two segments."""
    for place in range(number):
        columns = [ONE, PAIR, PAIR + ONE][place % 3]
        values = [[place % 100, 7][:2] for _ in columns]
        yield ("import", f"table_{place:03}", columns, values) if place % 2 else ("create", f"table_{place:03}", columns)
        if place % 4 == 3:
            yield "append", f"table_{place:03}", [[place % 50] for _ in columns]


def thousand():
    """A thousand creations, the last one between others by its name, and then rows of two tables."""
    yield from (("create", f"t{place}", ONE) for place in range(1000) if place != 500)
    yield "create", "t500", ONE
    yield "append", "t0", [[7, None, -1]]
    yield "append", "t500", [[500]]


STORES = [
    Store("list_of_499_bytes", 16, [("create", name, ONE) for name in "tuv"]),
    Store("list_of_512_bytes", 32, five_segments("temperature", "humidity9")),
    Store("list_of_513_bytes", 32, five_segments("temperature", "humidity10")),
    Store("list_of_thousands", 256, list(many(60))),
    Store("1000_tables", 2048, list(thousand()), laid=999),
    Store("stopped_publish", 32, [*five_segments("temperature", "humidity10"), ("rename", "temperature", "t")],
          stopped=("import", "humidity10", PAIR, [[1, 2], [None, -40000]])),
]
