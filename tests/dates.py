#!/usr/bin/env python3
"""dates.py PROGRAM: dates and times as people write them, compared with the system's `date` and with Python.

Every day from 1600 to 2400, 10,000 drawn days of the years 0 to 9999 and 2,000 drawn days of 32 bits are appended as the system's `date` prints
them, and read back as numbers and as texts. Drawn times of each unit go the same way, in columns of UTC and of no time zone, against Python. Each
appended text must give the number, and each number its text. Texts that are refused are listed with their refusals. 100,000 drawn rows are appended in each
form, also with a refused field in row 70,000, whose number must be told.

Prints each difference, and last 'N passed, M failed'."""
import datetime
import json
import os
import random
import subprocess
import sys
import tempfile

sys.dont_write_bytecode = True
from running import Answers

answers = Answers.of_arguments(__doc__)
DAY = 86400
EPOCH = datetime.datetime(1970, 1, 1)
UNITS = {"s": 0, "ms": 3, "us": 6, "ns": 9}
DRAWN = random.Random(14)

def run(*words, given=b""):
    return subprocess.run([answers.program, *words], input=given, capture_output=True)


def table(folder, field):
    """A new store with an empty table of one column."""
    store = os.path.join(folder, "store")
    if os.path.exists(store):
        os.remove(store)
    for words in (("format", store, "65536"), ("create", store, "t", field)):
        assert run(*words).returncode == 0
    return store


def lines_of(store, *options):
    done = run("query", store, "t", *options)
    return [json.loads(line)[0] for line in done.stdout.splitlines()] if done.returncode == 0 else done.stderr


def compare(folder, name, field, numbers, texts):
    """Appends the texts, and looks whether they are these numbers, and are printed as they were read."""
    store = table(folder, field)
    done = run("append", store, "t", "--as", "csv", "--dates", "iso", given=("\n".join(["a", *texts]) + "\n").encode())
    answers.compare(f"{name}: append", (done.returncode, done.stderr), (0, b""))
    answers.compare(f"{name}: numbers", lines_of(store), numbers)
    answers.compare(f"{name}: texts", lines_of(store, "--dates", "iso"), texts)
    store = table(folder, field)
    lines = "".join(json.dumps([text]) + "\n" for text in texts).encode()
    done = run("append", store, "t", "--as", "jsonl", "--dates", "iso", given=lines)
    answers.compare(f"{name}: JSON Lines", (done.returncode, done.stderr, lines_of(store)), (0, b"", numbers))


def days_of_the_system(days):
    """What `date` prints; it gives the years -1 to -999 three digits, and the years above 9999 no sign."""
    text = "".join(f"@{day * DAY}\n" for day in days)
    done = subprocess.run(["date", "-u", "-f", "-", "+%F"], input=text, capture_output=True, text=True, check=True)
    for text in done.stdout.splitlines():
        sign, rest = ("-", text[1:]) if text.startswith("-") else ("", text.lstrip("+"))
        year, month, day = rest.split("-")
        sign = sign or ("+" if int(year) > 9999 else "")
        yield f"{sign}{int(year):04}-{month}-{day}"


def all_days(folder):
    first, last = ((datetime.date(year, month, day) - EPOCH.date()).days for year, month, day in ((1600, 1, 1), (2400, 12, 31)))
    sets = {
        "each day from 1600 to 2400": list(range(first, last + 1)),
        "drawn days of the years 0 to 9999": [DRAWN.randrange(-719528, 2932897) for _ in range(10000)],
        "far days": [DRAWN.randrange(-(2**31), 2**31) for _ in range(2000)] + [-(2**31), 2**31 - 1, 2932897, -719529, -719528],
    }
    for name, days in sets.items():
        compare(folder, name, "a:date_day", days, list(days_of_the_system(days)))


def time_text(number, places):
    second, part = divmod(number, 10**places)
    return (EPOCH + datetime.timedelta(seconds=second)).isoformat() + (f".{part:0{places}}" if places else "")


def all_times(folder):
    for unit, places in UNITS.items():
        low, high = max(-62135596800 * 10**places, -(2**63)), min(253402300800 * 10**places, 2**63)
        numbers = [DRAWN.randrange(low, high) for _ in range(3000)] + [low, high - 1, -1, 0, 1, -DAY * 10**places]
        texts = [time_text(number, places) for number in numbers]
        compare(folder, f"timestamp_{unit}", f"a:timestamp_{unit}", numbers, texts)
        compare(folder, f"timestamp_{unit}(UTC)", f"a:timestamp_{unit}(UTC)", numbers, [text + "Z" for text in texts])
    numbers = [DRAWN.randrange(-62135596800000, 253402300800000) for _ in range(3000)] + [0, -DAY * 1000]
    texts = [time_text(number, 3) if number % (DAY * 1000) else time_text(number // 1000, 0)[:10] for number in numbers]
    compare(folder, "date_ms", "a:date_ms", numbers, texts)


OTHERS = [
    ("date_day", "2026-11-31", "X18 NotADate 1"),
    ("date_day", "20787", "X18 NotADate 1"),
    ("date_day", "", "X18 NotADate 1"),
    ("date_day", "+10000000-01-01", "X5 OutOfRange 1"),
    ("date_ms", "2026-11-30T12:00:00Z", "X19 WrongOffset 1"),
    ("timestamp_s", "2026-11-30T12:00:00+01:00", "X19 WrongOffset 1"),
    ("timestamp_s", "2026-11-30T12:00:00.5", "X18 NotADate 1"),
    ("timestamp_s(Europe/Berlin)", "2026-11-30T12:00:00", "X19 WrongOffset 1"),
    ("timestamp_ns", "2262-04-11T23:47:16.854775808", "X5 OutOfRange 1"),
    ("timestamp_s(UTC)", "2026-11-30 12:00:00+02:00", "2026-11-30T10:00:00Z"),
    ("timestamp_s(Europe/Berlin)", "2026-11-30T12:00:00+01", "2026-11-30T11:00:00Z"),
    ("timestamp_ms(UTC)", "2026-11-30", "2026-11-30T00:00:00.000Z"),
    ("timestamp_ms", "2026-11-30T12:00:00.5", "2026-11-30T12:00:00.500"),
]


def other_texts(folder):
    for kind, text, want in OTHERS:
        store = table(folder, f"a:{kind}")
        done = run("append", store, "t", "--as", "csv", "--dates", "iso", given=f'a\n"{text}"\n'.encode())
        if want[0] == "X":
            answers.compare(f"{kind} {text!r}", (done.returncode, done.stderr), (1, f"refused {want}\n".encode()))
        else:
            answers.compare(f"{kind} {text!r}", lines_of(store, "--dates", "iso"), [want])
    store = table(folder, "a:date_day")
    done = run("append", store, "t", "--as", "jsonl", "--dates", "iso", given=b"[20787]\n")
    answers.compare("a number of JSON", done.stderr, b"refused X18 NotADate 1\n")


# ---- texts of many rows, which are read into several record batches

MANY, BAD = 100_000, 70_000
FIELDS = ["a:int32", "d:date_day?", "t:timestamp_us(UTC)?", "u:timestamp_s", "m:date_ms"]
OFFSETS = [("", 0), ("Z", 0), ("+00:00", 0), ("+02:00", 120), ("-05:30", -330), ("+14", 840)]


def drawn_row(number):
    """A row as people write it, and its numbers. One date and one timestamp in ten is a null."""
    day, second, part = DRAWN.randrange(-719162, 2932896), DRAWN.randrange(DAY), DRAWN.randrange(10**6)
    offset, minutes = DRAWN.choice(OFFSETS)
    moment = EPOCH + datetime.timedelta(day, second)
    date, clock = moment.isoformat()[:10], moment.isoformat()[11:]
    time = f"{date}{DRAWN.choice('T ')}{clock}.{part:06}{offset}"
    texts = [number, date, time, f"{date}T{clock}", DRAWN.choice([date, f"{date}T{clock}.25"])]
    utc = (day * DAY + second - 60 * minutes) * 10**6 + part
    numbers = [number, day, utc, day * DAY + second, day * DAY * 1000 + (0 if texts[4] == date else second * 1000 + 250)]
    for place in (1, 2):
        if DRAWN.randrange(10) == 0:
            texts[place] = numbers[place] = None
    return texts, numbers


def csv_of(rows, quote=""):
    return "".join(",".join("" if value is None else f"{quote}{value}{quote}" for value in row) + "\n" for row in rows).encode()


def jsonl_of(rows):
    return "".join(json.dumps(row, separators=(",", ":")) + "\n" for row in rows).encode()


def append_many(folder, form, text):
    store = os.path.join(folder, "many")
    if os.path.exists(store):
        os.remove(store)
    for words in (("format", store, "65536"), ("create", store, "t", *FIELDS)):
        assert run(*words).returncode == 0
    head = b"a,d,t,u,m\n" if form == "csv" else b""
    done = run("append", store, "t", "--as", form, "--dates", "iso", given=head + text)
    return done.stderr, [json.loads(line) for line in run("query", store, "t").stdout.splitlines()]


def many_rows(folder):
    drawn = [drawn_row(number) for number in range(MANY)]
    texts, numbers = [row for row, _ in drawn], [row for _, row in drawn]
    for form, name, text in (("csv", "plain", csv_of(texts)), ("csv", "quoted", csv_of(texts, '"')), ("jsonl", "arrays", jsonl_of(texts)),
                             ("jsonl", "objects", jsonl_of(dict(zip("adtum", row)) for row in texts))):
        answers.compare(f"{MANY} rows, {form}, {name}", append_many(folder, form, text), (b"", numbers))
    for place, bad, want in ((1, "2026-02-30", "X18 NotADate"), (3, "2026-02-28T12:00:00Z", "X19 WrongOffset"), (1, "+10000000-01-01", "X5 OutOfRange"),
                             (4, "20787", "X18 NotADate")):
        rows = [row[:] for row in texts]
        rows[BAD - 1][place] = bad
        for form, text in (("csv", csv_of(rows)), ("jsonl", jsonl_of(rows))):
            answers.compare(f"{bad} in row {BAD}, {form}", append_many(folder, form, text), (f"refused {want} {BAD}\n".encode(), []))


def dates_below(folder):
    """Dates of lists, structs and dictionaries."""
    fields = ["l:list<date_day?>", "p:struct<d:date_day,t:timestamp_ms>?", "c:dict<int8,date_day>?"]
    row = '[["2026-11-30",null,"1969-12-31"],{"d":"0000-03-01","t":"1969-12-31T23:59:59.5"},"2026-11-30"]\n'
    store = os.path.join(folder, "below")
    for words in (("format", store, "65536"), ("create", store, "t", *fields)):
        assert run(*words).returncode == 0
    done = run("append", store, "t", "--as", "jsonl", "--dates", "iso", given=row.encode() * 3)
    got = [json.loads(line) for line in run("query", store, "t").stdout.splitlines()]
    answers.compare("dates below", (done.stderr, got), (b"", [[[20787, None, -1], [-719468, -500], 20787]] * 3))


with tempfile.TemporaryDirectory() as folder:
    answers.play((all_days, folder), (all_times, folder), (other_texts, folder), (many_rows, folder), (dates_below, folder))
sys.exit(answers.tell("dates"))
