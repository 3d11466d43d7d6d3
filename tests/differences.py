"""What differs between an answer and what is wanted, in lines that a person can read: texts line by line, other bytes from the first that differs."""
import difflib
import itertools

# How many lines and letters are shown of what differs, and how many of what is the same before it.
LINES, LETTERS, BEFORE = 12, 110, 2
BYTES = 16
# What the program answers.
PARTS = "status", "output", "error"


def first_difference(got, wanted):
    """Where two sequences begin to differ."""
    if isinstance(got, bytes) and isinstance(wanted, bytes):
        return first_byte(got, wanted)
    return next((place for place, (one, other) in enumerate(zip(got, wanted)) if one != other), min(len(got), len(wanted)))


def first_byte(got, wanted):
    """The same for bytes, of which there may be very many."""
    low, high = 0, min(len(got), len(wanted))
    while low < high:
        middle = (low + high + 1) // 2
        if got[low:middle] == wanted[low:middle]:
            low = middle
        else:
            high = middle - 1
    return low


def text_of(value):
    """The text that a value is, or None."""
    if isinstance(value, (bytes, bytearray)):
        try:
            value = bytes(value).decode()
        except UnicodeDecodeError:
            return None
        return value if all(letter.isprintable() or letter in "\n\r\t" for letter in value) else None
    return value if isinstance(value, str) else None


def shown(line, start):
    """A line as one line, from a letter on where it is long."""
    end = "" if line.endswith("\n") else " (no line end)"
    line = line.removesuffix("\n")
    part = line if len(line) <= LETTERS else f"{'..' if start else ''}{line[start:start + LETTERS]}{'..' if start + LETTERS < len(line) else ''}"
    return "".join(letter if letter.isprintable() else repr(letter)[1:-1] for letter in part) + end


def difference_of_texts(got, wanted):
    """The first line that differs, with those around it.

    >>> print(*difference_of_texts("a\\nb\\nc\\n", "a\\nB\\nc\\n"), sep="\\n")
    line 2 differs; - wanted, + got:
      a
    - B
    + b
      c
    """
    lines, others = got.splitlines(keepends=True), wanted.splitlines(keepends=True)
    place = first_difference(lines, others)
    pair = [it[place] if place < len(it) else "" for it in (lines, others)]
    start = max(first_difference(*pair) - LETTERS // 3, 0)
    yield f"line {place + 1} differs; - wanted, + got:"
    window = slice(max(place - BEFORE, 0), place + LINES)
    changes = difflib.ndiff(others[window], lines[window], charjunk=None)
    for line in itertools.islice((line for line in changes if line[0] != "?"), BEFORE + LINES):
        yield line[:2] + shown(line[2:], start)
    if max(len(lines), len(others)) > place + LINES:
        yield f"  ({len(lines):,} lines, and {len(others):,} are wanted)"


def difference_of_bytes(got, wanted):
    """The first byte that differs, with some around it.

    >>> print(*difference_of_bytes(b"\\0" * 600 + b"\\xff", b"\\0" * 600 + b"\\xfe\\0"), sep="\\n")
    601 bytes, and 602 are wanted
    byte 600 differs; from byte 592 on:
    - 00 00 00 00 00 00 00 00 fe 00
    + 00 00 00 00 00 00 00 00 ff
    """
    place = first_byte(got, wanted)
    start = max(place - BYTES // 2, 0)
    if len(got) != len(wanted):
        yield f"{len(got):,} bytes, and {len(wanted):,} are wanted"
    yield f"byte {place:,} differs; from byte {start:,} on:"
    for sign, value in (("-", wanted), ("+", got)):
        yield f"{sign} {value[start:start + BYTES].hex(' ')}"


def difference_of_lists(got, wanted):
    """The first item that differs."""
    place = first_difference(got, wanted)
    if len(got) != len(wanted):
        yield f"{len(got):,} items, and {len(wanted):,} are wanted"
    if place < min(len(got), len(wanted)):
        yield from named(f"item {place}", got[place], wanted[place])
    else:
        longer, sign = (got, "+") if len(got) > len(wanted) else (wanted, "-")
        yield f"{sign} item {place}: {longer[place]!r:.{LETTERS}}"


def difference_of_maps(got, wanted):
    for sign, one, other in (("-", wanted, got), ("+", got, wanted)):
        for key in one.keys() - other.keys():
            yield f"{sign} {key!r}: {one[key]!r:.{LETTERS}}"
    for key in got.keys() & wanted.keys():
        if got[key] != wanted[key]:
            yield from named(repr(key), got[key], wanted[key])


def named(name, got, wanted):
    lines = list(difference(got, wanted))
    return [f"{name}: {lines[0]}"] if len(lines) == 1 else [f"{name}:", *(f"  {line}" for line in lines)]


def difference(got, wanted):
    """The lines for any two values.

    >>> print(*difference((1, b"", b"refused G1 Io\\n"), (0, b"", b"")), sep="\\n")
    status: 1, not 0
    error:
      line 1 differs; - wanted, + got:
      + refused G1 Io
    >>> print(*difference(True, False), sep="\\n")
    True, not False
    """
    texts = text_of(got), text_of(wanted)
    if None not in texts and type(got) is type(wanted):
        yield from difference_of_texts(*texts)
    elif isinstance(got, (bytes, bytearray)) and isinstance(wanted, (bytes, bytearray)):
        yield from difference_of_bytes(bytes(got), bytes(wanted))
    elif isinstance(got, tuple) and isinstance(wanted, tuple) and len(got) == len(wanted):
        names = PARTS if len(got) == 3 and isinstance(wanted[0], int) and isinstance(wanted[2], bytes) else [f"part {place}" for place in range(len(got))]
        for name, one, other in zip(names, got, wanted):
            if one != other:
                yield from named(name, one, other)
    elif isinstance(got, (list, tuple)) and isinstance(wanted, (list, tuple)):
        yield from difference_of_lists(got, wanted)
    elif isinstance(got, dict) and isinstance(wanted, dict):
        yield from difference_of_maps(got, wanted)
    else:
        yield f"{got!r:.{LETTERS}}, not {wanted!r:.{LETTERS}}"
