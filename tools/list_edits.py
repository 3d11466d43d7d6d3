#!/usr/bin/env python3
"""list_edits.py [--check]: writes the lists of wrong bodies on docs/testing.md anew, from the lines `refutes: PROMISE` of the edits; with --check it only
says what is not as it would be written, and then ends with status 1.

A promise begins with the name of a crate in backticks where the edit shows that a clause of that crate, which is often a lower one, is strong enough; any
other is one of the whole system. Each edit of must-fail/ has one. An edit may have several."""
import argparse
import glob
import os
import re
import sys
from typing import NamedTuple

ROOT = os.path.abspath(os.path.join(os.path.dirname(__file__), ".."))
PAGE = "docs/testing.md"
# How wide a row of a table may be.
WIDTH = 200
MARKS = "<!-- {} written by tools/list_edits.py -->", "<!-- {} end -->"


class Edit(NamedTuple):
    crate: str
    tier: str
    name: str
    promises: list


def edits():
    for path in sorted(glob.glob(f"{ROOT}/crates/*/must-fail/*.edit") + glob.glob(f"{ROOT}/crates/*/wrong-bodies/*.edit")):
        crate, tier, name = os.path.relpath(path, f"{ROOT}/crates").split("/")
        with open(path, encoding="utf-8") as file:
            yield Edit(crate, tier, name.removesuffix(".edit"), re.findall(r"(?m)^refutes: (.*)$", file.read()))


def cells(found):
    """The names of edits, each with its crate where that is not the one of the name before; several texts where one would be too wide."""
    before = None
    for edit in found:
        yield f"`{edit.name}`" if edit.crate == before else f"`{edit.crate}/{edit.name}`", edit.crate
        before = edit.crate


def rows(promise, found):
    line = f"| {promise} |"
    for place, (cell, _) in enumerate(cells(found)):
        more = f"{', ' if place else ' '}{cell}"
        if len(line) + len(more) + 2 > WIDTH:
            yield f"{line} |"
            line, more = "| |", f" {cell}"
        line += more
    yield f"{line} |"


def table(heads, found, is_of_table):
    """A row for each promise, by its name, and the edits that refute it."""
    by_promise = {}
    for edit in found:
        for promise in filter(is_of_table, edit.promises):
            by_promise.setdefault(promise, []).append(edit)
    lines = [f"| {' | '.join(heads)} |", "|---|---|"]
    for promise in sorted(by_promise, key=lambda it: it.replace("`", "")):
        lines += rows(promise, by_promise[promise])
    return lines


def tables():
    found = list(edits())
    yield "landing", table(("promise", "wrong body"), [it for it in found if it.tier == "must-fail"], lambda promise: not promise.startswith("`"))
    yield "above", table(("promised by", "refuted by"), found, lambda promise: promise.startswith("`"))


def written(text):
    """The page with the lists that the edits have."""
    for name, lines in tables():
        start, end = (mark.format(name) for mark in MARKS)
        before, after = text.split(f"{start}\n")[0], text.split(f"{end}\n")[1]
        text = "\n".join([f"{before}{start}", *lines, f"{end}\n{after}"])
    return text


def main():
    parser = argparse.ArgumentParser(description=__doc__, formatter_class=argparse.RawDescriptionHelpFormatter)
    parser.add_argument("--check", action="store_true", help="write nothing")
    given = parser.parse_args()
    with open(f"{ROOT}/{PAGE}", encoding="utf-8") as file:
        text = file.read()
    wrong = [f"crates/{it.crate}/must-fail/{it.name}.edit: no line 'refutes:'" for it in edits() if it.tier == "must-fail" and not it.promises]
    made = written(text)
    if made != text and given.check:
        wrong.append(f"{PAGE}: the lists of wrong bodies are not those of the edits: run tools/list_edits.py")
    elif made != text:
        with open(f"{ROOT}/{PAGE}", "w", encoding="utf-8") as file:
            file.write(made)
    print(*wrong, sep="\n", end="\n" * bool(wrong))
    return 1 if wrong else 0


if __name__ == "__main__":
    sys.exit(main())
