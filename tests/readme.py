#!/usr/bin/env python3
"""readme.py PROGRAM: the README and the pages of docs/ are true of the program, and each crate has a README.

Each command of a block 'console' of the README is run as it is, one after another, in a folder of their own, and what it prints is compared with the
lines below it. The store of docs/crash.md is laid out as the page says. The program on docs/library.md is that of crates/library_example. Each link leads to a
file, and to a heading in it. The README has at most 140 lines; no line of a page has more than 160 characters, or 200 in a table. That of a crate has at most
40 lines, of at most 120 characters, and the crate has what it names as proved.
Prints each difference, and last 'N passed, M failed'."""
import glob
import os
import re
import subprocess
import sys
import tempfile

sys.dont_write_bytecode = True
from running import Answers

ROOT = os.path.abspath(os.path.join(os.path.dirname(__file__), ".."))
LINES, WIDTH, WIDTH_IN_TABLE = 140, 160, 200
LINES_IN_CRATE, WIDTH_IN_CRATE = 40, 120
answers = Answers.of_arguments(__doc__)


def text_of(path):
    with open(os.path.join(ROOT, path), encoding="utf-8") as file:
        return file.read()


def blocks(text, kind):
    return re.findall(rf"(?ms)^```{kind}\n(.*?)^```$", text)


def session():
    """Each command, and what it is to print."""
    for block in blocks(text_of("README.md"), "console"):
        for part in re.split(r"(?m)^\$ ", block)[1:]:
            command, _, printed = part.partition("\n")
            yield command, printed


def run_session():
    with tempfile.TemporaryDirectory() as room:
        os.mkdir(f"{room}/bin")
        os.symlink(answers.program, f"{room}/bin/arrowstore")
        for shared in ("examples", "README.md"):
            os.symlink(f"{ROOT}/{shared}", f"{room}/{shared}")
        for command, printed in session():
            done = subprocess.run(["sh", "-c", command], cwd=room, stdout=subprocess.PIPE, stderr=subprocess.STDOUT, text=True, timeout=60)
            answers.compare(command, (done.stdout, done.returncode), (printed, int(printed.startswith("refused "))))


def sectors_in_use():
    """After the commands of docs/crash.md: the epoch and the catalogue's first sector in each commit sector, and which other sectors hold something."""
    with tempfile.TemporaryDirectory() as room:
        store, stream = f"{room}/store", f"{ROOT}/examples/readings.arrows"
        for words, given in (["format", store, "16"], None), (["import", store, "t"], stream), (["import", store, "t"], stream):
            with open(given or os.devnull, "rb") as file:
                subprocess.run([answers.program, *words], stdin=file, check=False, capture_output=True, timeout=60)
        with open(store, "rb") as file:
            sectors = [file.read(512) for _ in range(16)]
    commits = [tuple(int.from_bytes(it[at:at + 8], "little") for at in (8, 16)) for it in sectors[:2]]
    return commits, [number for number in range(2, 16) if any(sectors[number])]


def headings(text):
    """The anchors of a page's headings."""
    outside = re.sub(r"(?ms)^```.*?^```$", "", text)
    return {re.sub(r"[^\w\- ]", "", it.lower()).replace(" ", "-") for it in re.findall(r"(?m)^#+ (.*)$", outside)}


def compare_links(page, text):
    for link in re.findall(r"\]\(([^)\s]+)\)", re.sub(r"(?ms)^```.*?^```$", "", text)):
        path, _, anchor = link.partition("#")
        if not path.startswith(("http:", "https:")):
            to = os.path.normpath(os.path.join(os.path.dirname(page), path)) if path else page
            there = os.path.exists(os.path.join(ROOT, to))
            answers.compare(f"{page}: {link}", there and (not anchor or anchor in headings(text_of(to))), True)


def compare_widths(page, text, width=WIDTH, width_in_table=WIDTH_IN_TABLE):
    wide = [number for number, line in enumerate(text.splitlines(), 1) if len(line) > (width_in_table if line.startswith("|") else width)]
    answers.compare(f"{page}: lines that are too wide", wide, [])


def compare_names(crate, page, text):
    """Each item of what is proved begins with functions, types and, in parentheses, clauses of the crate."""
    code = "\n".join(text_of(it) for it in glob.glob(f"{ROOT}/crates/{crate}/src/**/*.rt", recursive=True))
    had = set(re.findall(r"\b(?:fn|struct|enum|trait|ensures|ghost) (\w+)", code))
    proved = re.sub(r"\n  ", " ", text.partition("## What is proved\n")[2].partition("\n## ")[0])
    named = [name for item in re.findall(r"(?m)^- (.*?): ", proved) for name in re.findall(r"`([^`]+)`", item)]
    answers.compare(f"{page}: names that the crate lacks", [name for name in named if not had.issuperset(name.split("::"))], [])


def pages():
    for page in ["README.md", *(os.path.relpath(it, ROOT) for it in sorted(glob.glob(f"{ROOT}/docs/**/*.md", recursive=True)))]:
        compare_links(page, text_of(page))
        compare_widths(page, text_of(page))
    answers.compare("README.md is short", len(text_of("README.md").splitlines()) <= LINES, True)


def pages_of_crates():
    for crate in re.findall(r"(?m)^(\w+):", text_of("crates.txt")):
        page = f"crates/{crate}/README.md"
        has_page = os.path.exists(f"{ROOT}/{page}")
        answers.compare(f"{page} is there", has_page, True)
        if has_page:
            text = text_of(page)
            compare_links(page, text)
            compare_widths(page, text, WIDTH_IN_CRATE, WIDTH_IN_CRATE)
            compare_names(crate, page, text)
            answers.compare(f"{page} is short", len(text.splitlines()) <= LINES_IN_CRATE, True)


def toolchain():
    """The page names the release of the toolchain that the program in dist/ was proved with."""
    [told] = re.findall(r"(?m)^toolchain (.*)$", text_of("dist/manifest"))
    answers.compare("docs/proved.md names the toolchain of dist/", re.findall(r"(?m)^Proved with `(.*?)`", text_of("docs/proved.md")), [told])


def sectors():
    answers.compare("the sectors of docs/crash.md", sectors_in_use(), ([(2, 5), (3, 2)], [2, 3, 4, 5, 6, 7]))


def example():
    answers.compare("the example's input", *(open(f"{ROOT}/{it}", "rb").read() for it in ("crates/library_example/stdin", "examples/readings.arrows")))
    answers.compare("docs/library.md has the program", blocks(text_of("docs/library.md"), "rust"), [text_of("crates/library_example/src/main.rt")])


answers.play(("session", run_session), pages, pages_of_crates, toolchain, sectors, example)
sys.exit(answers.tell("readme"))
