#!/usr/bin/env python3
"""wrap_pages.py [PAGE..]: lays the paragraphs and list items of pages out anew that have a line of more than 160 characters, or 120 in the README of a crate;
of all pages where none is named. Tables, headings and blocks stay as they are. Prints the pages that it changed."""
import argparse
import glob
import os
import re
import textwrap

ROOT = os.path.abspath(os.path.join(os.path.dirname(__file__), ".."))
# How wide a line is made, and how wide one may be.
WIDTHS, WIDTHS_IN_CRATES = (156, 160), (116, 120)
ITEM = re.compile(r"\s*([-*]|\d+\.) ")


def units(lines):
    """Lists of lines, and whether these may be laid out: a paragraph, or a list item with the lines that go on with it; each other line by itself."""
    unit, in_block = [], False
    for line in lines:
        in_block ^= line.startswith("```")
        alone = in_block or line.startswith(("|", "#", "```")) or not line.strip() or (line.startswith("    ") and not unit)
        if (alone or ITEM.match(line)) and unit:
            yield unit, True
            unit = []
        if alone:
            yield [line], False
        else:
            unit.append(line)
    if unit:
        yield unit, True


def wrapped(unit, width, most):
    if all(len(line) <= most for line in unit):
        return unit
    head = re.match(r"\s*(?:(?:[-*]|\d+\.) |> )?", unit[0])[0]
    quoted = head.strip() == ">"
    text = " ".join([unit[0][len(head):].strip(), *(line.strip().removeprefix("> " if quoted else "") for line in unit[1:])])
    # Code and links stay in one line.
    kept = re.sub(r"`[^`]*`|\[[^\]]*\]\([^)]*\)", lambda found: found[0].replace(" ", "\0"), text)
    lines = textwrap.wrap(kept, width, initial_indent=head, subsequent_indent=head if quoted else " " * len(head), break_long_words=False, break_on_hyphens=False)
    return [line.replace("\0", " ") for line in lines]


CRATES = sorted(glob.glob(f"{ROOT}/crates/*/README.md"))
parser = argparse.ArgumentParser(description=__doc__, formatter_class=argparse.RawDescriptionHelpFormatter)
parser.add_argument("pages", nargs="*", default=[f"{ROOT}/README.md", *sorted(glob.glob(f"{ROOT}/docs/**/*.md", recursive=True)), *CRATES])
for page in parser.parse_args().pages:
    widths = WIDTHS_IN_CRATES if os.path.abspath(page) in CRATES else WIDTHS
    with open(page, encoding="utf-8") as file:
        given = file.read()
    laid = "".join(f"{line}\n" for unit, is_text in units(given.splitlines()) for line in (wrapped(unit, *widths) if is_text else unit))
    if laid != given:
        with open(page, "w", encoding="utf-8") as file:
            file.write(laid)
        print(page)
