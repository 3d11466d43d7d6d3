#!/usr/bin/env python3
"""invented_refusals.py [CRATES]: each place of the sources that refuses for want of memory, or for a failed read or write, without an answer that says so.

Such a refusal has to come from the allocator, the reader, the writer, the device or the file. No clause can ask for that: a body that answers `OutOfMemory`
above some size meets its contract. So a place counts as sound only if it passes an answer on:

    an arm of a `match` whose pattern is an error, as `Err(_) => Err(Refusal::OutOfMemory)`, or one of the same names, as `WriteError::Io => ..`
    `let Ok(..) = .. else { .. }`, `if let Err(..) = .. { .. }` and `if ...is_err() { .. }`
    `.map_err(|_| Refusal::Write)`
    the body of `From` for an error

Every other place is one of docs/decisions/invented_refusals.md, which gives the reason of each. Prints the places that are not, and the lines of that page without
a place, and last 'N places, M wrong'; the status is 1 if any is wrong. CRATES is the folder of the crates, if not the repository's own."""
import argparse
import glob
import os
import re
import sys

ROOT = os.path.abspath(os.path.join(os.path.dirname(__file__), ".."))
PAGE = f"{ROOT}/docs/decisions/invented_refusals.md"
# The names of these refusals. A variant is named with its type.
MEMORY = r"AllocError|(?!ErrorKind)\w+::(?:OutOfMemory|Memory)"
FAILURE = r"Refusal::(?:Read|Write|Device|Io)|DevError::Failed|ReadError::Failed|WriteError::Io|FileFault::Failed|FileError::Io|(?:Open|Format)Error::Device"
REFUSAL = re.compile(rf"\b(?:{MEMORY}|{FAILURE})\b")
# How many characters around a name are looked at.
FAR = 1000
# Crates that only test or show the others.
OTHERS = re.compile(r"test_\w+|bench|library_example|format_numbers")
WORDS = re.compile(r"""//[^\n]*|"(?:\\.|[^"\\])*"|'(?:\\[^']+|[^'\\])'""", re.DOTALL)
CLAUSE = re.compile(r"\b(?:ensures|requires|ghost)\b[^{};]*")
FUNCTION = re.compile(r"\bfn (\w+)")
FROM = re.compile(r"\bimpl\b[^{;]*\bFrom<[^{;]*\{")
# The head of a block that runs where a call has answered with an error.
ANSWERED = re.compile(r"\bErr\b[^=]*=>\s*$|\blet Ok\(.*\) =.*\belse\s*$|\bif let Err\(.*=[^=].*$|\.is_err\(\)\s*$", re.DOTALL)
# What follows a name in a pattern: what closes the pattern, other patterns, a guard, and the arrow of the arm.
PATTERN_ENDS = re.compile(r"(?:\([^()]*\))?(?:\s*(?:\)|,\s*(?:_|\.\.)))*,?\s*(?:\|[^;{}=]*)?(?:\bif\b[^;{}]*)?=>")
ROW = re.compile(r"^\| `(\S+)` \| `(\w+)` \|")


def without_words(text):
    """The source with spaces for comments, strings and characters."""
    return WORDS.sub(lambda found: re.sub(r"[^\n]", " ", found[0]), text)


def closing(text, at):
    """The place behind the brace that closes the one at this place."""
    depth = 0
    for place in range(at, len(text)):
        depth += {"{": 1, "}": -1}.get(text[place], 0)
        if depth == 0:
            return place + 1
    return len(text)


def code_of(path):
    """The code of a source alone: without comments, strings, clauses and ghost items."""
    text = open(path, encoding="utf-8").read()
    if not REFUSAL.search(text):
        return ""
    text = without_words(text)
    found, at = [], 0
    for clause in CLAUSE.finditer(text):
        if clause.start() < at:
            continue
        end = closing(text, clause.end()) if text[clause.end() : clause.end() + 1] == "{" else clause.end()
        found += [text[at : clause.start()], re.sub(r"[^\n]", " ", text[clause.start() : end])]
        at = end
    return "".join(found) + text[at:]


def bodies_of_from(code):
    """The places of each `impl From`."""
    return [(found.end() - 1, closing(code, found.end() - 1)) for found in FROM.finditer(code)]


def is_type_or_pattern(code, found):
    """Whether the name is that of a type, of an item that is used, or part of a pattern."""
    before, after = code[max(found.start() - FAR, 0) : found.start()], code[found.end() : found.end() + FAR]
    statement = before[max(before.rfind(sign) for sign in ";{}") + 1 :]
    if re.match(r"\s*(?:pub )?use\b", statement) or re.search(r"\buse [^;]*$", before[before.rfind(";") + 1 :]):
        return True
    if found[0] == "AllocError" and re.search(r"(?:[<,:&|]|->)\s*$", before):
        return True
    if PATTERN_ENDS.match(after):
        return True
    return re.match(r"[\s)]*=[^=>]", after) is not None or re.search(r"\bmatches!\([^;]*,[^;,]*$", statement) is not None


def heads_of_blocks(code, place):
    """What stands before the brace of each block of the function around a place, the innermost first."""
    depth = 0
    for at in range(place - 1, code.rfind("fn ", 0, place), -1):
        depth += {"}": 1, "{": -1}.get(code[at], 0)
        if code[at] == "{" and depth < 0:
            depth = 0
            yield code[max(code.rfind(sign, 0, at) for sign in ";{}") + 1 : at]


def passes_an_answer_on(code, found):
    """Whether the refusal is what an arm of an error answers, or stands for the error of a call."""
    before = code[max(found.start() - FAR, 0) : found.start()]
    if re.search(r"\.map_err\((?:\|\w*\| (?:\w+(?:::\w+)*\()*)?$", before):
        return True
    if any(ANSWERED.search(head) for head in heads_of_blocks(code, found.start())):
        return True
    arm = re.search(r"([^{},;]*(?:\{[^{}]*\}[^{},;]*)?)=>\s*(?:return )?(?:\w+(?:::\w+)*\()*(?:[\w&. ]+, )*(?:\w+::)*$", before)
    return arm is not None and (re.search(r"\bErr\b", arm[1]) is not None or REFUSAL.search(arm[1]) is not None)


def function_at(code, place):
    """The name of the function around a place."""
    return FUNCTION.findall(code[:place])[-1]


def places_in(folder):
    """The places without an answer: the file below the folder, the function, and the line."""
    for path in sorted(glob.glob(f"{folder}/*/src/**/*.rt", recursive=True)):
        name = os.path.relpath(path, folder)
        if OTHERS.fullmatch(name.split("/")[0]):
            continue
        code = code_of(path)
        conversions = bodies_of_from(code)
        for found in REFUSAL.finditer(code):
            converts = any(start < found.start() < end for start, end in conversions)
            if not converts and not is_type_or_pattern(code, found) and not passes_an_answer_on(code, found):
                yield name, function_at(code, found.start()), code.count("\n", 0, found.start()) + 1


def main():
    parser = argparse.ArgumentParser(description=__doc__, formatter_class=argparse.RawDescriptionHelpFormatter)
    parser.add_argument("crates", nargs="?", default=f"{ROOT}/crates", help="the folder of the crates")
    folder = parser.parse_args().crates
    known = [tuple(row.groups()) for row in map(ROW.match, open(PAGE, encoding="utf-8")) if row]
    left, count, wrong = list(known), 0, 0
    for name, function, line in places_in(folder):
        count += 1
        if (name, function) in left:
            left.remove((name, function))
        else:
            wrong += 1
            print(f"crates/{name}:{line}: {function} refuses for want of memory, or for a failed call, without an answer that says so")
    for name, function in left:
        wrong += 1
        print(f"{os.path.relpath(PAGE, ROOT)}: `{name}` `{function}` has no such place")
    print(f"{count} places, {wrong} wrong")
    sys.exit(wrong > 0)


main()
