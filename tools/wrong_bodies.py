#!/usr/bin/env python3
"""wrong_bodies.py [--goals N] [--texts] [CRATE..] [CRATE/EDIT..]: why the prover refuses each wrong body.

Each edit of crates/NAME/wrong-bodies/ and crates/NAME/must-fail/ is tried on a copy of its crate, over the libraries as `make test` proved
them (one that it has not is proved here first): on the functions that it changes, which are proved as they stand first; where these stay
proved, or it changes none, on the whole crate. The first N (3) reasons are printed, under a line that begins with

    meaning   a goal about values stays open in a function whose answers still fit its names
    answer    no such goal, but an answer of a proof does not prove its goal any more: look whether the goal is false
    limit     the prover gave up at a limit of its own, which says less: choose a change that it refuses sooner
    NAMES     the prover misses only names that the edit took away, or does not cover its borrows, which says nothing of the contract
    BAD       the edit cannot be applied, or the prover cannot read the edited text
    PROVED    the crate is still proved
    UNKNOWN   the check came to no end, most likely for memory: try it again

The status is 1 where one of the last four came. A value that is changed, with every name kept, gives a refusal on its meaning.
--texts tries nothing: it only reports the edits that cannot be applied any more. RT_JOBS is how many crates are tried side by side."""
import argparse
import contextlib
import glob
import importlib.machinery
import importlib.util
import os
import re
import shutil
import sys
import tempfile
import threading
from concurrent.futures import ThreadPoolExecutor

sys.dont_write_bytecode = True
ROOT = os.path.abspath(os.path.join(os.path.dirname(__file__), ".."))
GONE = re.compile(r"has no field|has no `|is not in scope|was not admitted|is no name that rattle asks for|nearest: |the borrow checker does not cover")
OPEN = re.compile(r"note: (src/\S+?:\d+):\d+: (.*\(`\S+`\).*)")
ERROR = re.compile(r"(?:note: )?(?:\./)?(proofs/\S+?\.antt)(?::\d+)*: (?:error: )?(?!error: |note: |\d+ declarations? that depend)(.*)")
# Advice, which is given whether or not a goal stays open.
ADVICE = re.compile(r"is rattle's own name, not the source's, and may change")
# An `impl` of a type, and a function; the spaces before it tell whether it is a method.
OWNER = re.compile(r"impl(?:<.*?>)? (?:.* for )?(\w+)[^;]*$")
FUNCTION = re.compile(r"( *)(?:pub(?:\(\w+\))? )?(?:const )?fn (\w+)")
ENDS = re.compile(r"(?:fn|impl|struct|enum|trait|const) (\S+): (not proved|no proof|proved)")


def toolchain():
    """The script `rt`, as a module."""
    path = os.path.realpath(shutil.which("rt") or sys.exit("rt is not on the path"))
    sys.path.insert(0, os.path.dirname(path))
    loader = importlib.machinery.SourceFileLoader("toolchain", path)
    made = importlib.util.module_from_spec(importlib.util.spec_from_loader("toolchain", loader))
    loader.exec_module(made)
    return made


def edits_of(words):
    """The edits that some words name, by their crates; all without a word."""
    found, left = {}, set(words)
    for path in sorted(glob.glob(f"{ROOT}/crates/*/must-fail/*.edit") + glob.glob(f"{ROOT}/crates/*/wrong-bodies/*.edit")):
        crate, _, name = path.removesuffix(".edit").split("/")[-3:]
        if not words or crate in words or f"{crate}/{name}" in words:
            found.setdefault(crate, []).append(path)
            left -= {crate, f"{crate}/{name}"}
    if left:
        sys.exit(f"wrong_bodies: neither a crate with edits nor an edit: {' '.join(sorted(left))}")
    return found


def judge(said):
    """The word for an edit that is refused, and the reasons, by what its check said."""
    goals, waiting, answers, names = [], [], [], []
    for line in said.split("\n"):
        if found := OPEN.match(line):
            waiting.append((found[1], found[2]))
        elif (found := ERROR.match(line)) and not ADVICE.search(line):
            (names if GONE.search(found[2]) else answers).append((found[1], found[2]))
        elif found := ENDS.match(line):
            goals += [(found[1], *goal) for goal in waiting]
            waiting = []
    lost = [folder_of(path) for path, _ in names]
    meant = [it for it in goals if "goal is false" in it[2] or not any(it[0].endswith(f"::{end}") for end in lost)]
    reasons = [f"{at}: {function}: {goal}" for function, at, goal in meant]
    reasons += [f"{path}: {text}" for path, text in answers]
    reasons += [f"(names) {path}: {text}" for path, text in names]
    return "meaning" if meant else "answer" if answers else "NAMES", reasons


def folder_of(path):
    """The function, as `table::Table::vector`, whose proof lies in a folder of proofs/."""
    return "::".join(path.split("/")[1:-1]).replace("+", "")


OUTPUT = threading.Lock()


def tell(crate, edit, word, reasons):
    lines = [f"{word:8} {crate}/{os.path.basename(edit).removesuffix('.edit')}", *(f"         {reason[:300]}" for reason in reasons)]
    with OUTPUT:
        print("\n".join(lines), flush=True)


def functions_in(path, text):
    """The texts of the functions of a file below src/, by their paths, with those of one path joined."""
    module = path.removeprefix("src/").removesuffix(".rt").removesuffix("/mod").replace("/", "::")
    found, owner, name = {}, None, None
    for line in text.split("\n"):
        if begins := OWNER.match(line):
            owner, name = begins[1], None
        if begins := FUNCTION.match(line):
            parts = [module if module != "lib" else "", owner if begins[1] else "", begins[2]]
            name = "::".join(part for part in parts if part)
        if name:
            found[name] = found.get(name, "") + line + "\n"
    return found


def changed_by(crate, texts):
    """The functions that an edit changes; none where it changes a file in another way."""
    changed = []
    for path, text in texts.items():
        if not path.startswith("src/"):
            return []
        with open(f"{crate.folder}/{path}", encoding="utf-8") as file:
            old, new = functions_in(path, file.read()), functions_in(path, text)
        own = [name for name in old if old[name] != new.get(name)]
        if not own or old.keys() != new.keys():
            return []
        changed += own
    return changed


def note_checks(rt):
    """Has each check note what it said, by the thread that it runs in, and returns where."""
    noted, checked = threading.local(), rt.checked

    def check(crate, texts, flags, kept):
        ran = checked(crate, texts, flags, kept)
        noted.said = ran.stdout
        return ran

    rt.checked = check
    return noted


def check_functions(rt, crate, texts, functions, kept):
    """Checks some functions of the crate with these texts."""
    return rt.checked(crate, texts, ["--jobs", "1", "--progress", *(word for name in functions for word in ("--only", name))], kept)


def try_functions(rt, crate, texts, functions, kept):
    """The word for an edit by its functions alone, and the reasons; none where these say nothing."""
    ran = check_functions(rt, crate, texts, functions, kept)
    lines = ran.stdout.rstrip("\n").split("\n")
    if ran.returncode != 1 or not lines[-1].startswith("only=") or any(rt.unread(line, texts) for line in lines):
        return None
    word, reasons = judge(ran.stdout)
    return None if word == "NAMES" or not reasons else (word, reasons)


# A check of a whole crate takes much memory, so there is one at a time.
WHOLE = threading.Lock()


def try_whole(rt, noted, crate, edit, kept):
    """The word for an edit by the whole crate, and the reasons."""
    words = {rt.AT_LIMIT: "limit", rt.BAD: "BAD", rt.MISSED: "PROVED", rt.UNSURE: "UNKNOWN"}
    with WHOLE:
        kind, text = rt.must_fail(crate, edit, ["--jobs", "1", "--progress"], kept)
    return judge(noted.said) if kind == rt.REFUSED else (words[kind], text.split("\n"))


def try_crate(rt, noted, crate, edits, most):
    """The words for what the edits of a crate come to."""
    texts = {edit: rt.read_edit(edit, crate.folder)[0] or {} for edit in edits}
    functions = {edit: changed_by(crate, texts[edit]) for edit in edits}
    every = sorted({name for names in functions.values() for name in names})
    words = []
    with tempfile.TemporaryDirectory(prefix="wrong-bodies-kept-") as kept:
        is_proved = not every or check_functions(rt, crate, {}, every, kept).returncode == 0
        for edit in edits:
            found = try_functions(rt, crate, texts[edit], functions[edit], kept) if is_proved and functions[edit] else None
            word, reasons = found or try_whole(rt, noted, crate, edit, kept)
            tell(crate.name, edit, word, reasons[:most])
            words.append(word)
    return words


def give_library(rt, kept, crate):
    """The crate's library, as the gate proved it on this machine; else it is proved here, and kept for the gate too."""
    os.makedirs(f"{crate.folder}/out", exist_ok=True)
    key = kept.key(crate)
    is_given = kept.give(crate, False, key)
    if not is_given:
        print(f"proving {crate.name}, which no gate has proved on this machine", file=sys.stderr, flush=True)
        if crate.ci(["--jobs", "1"], False):
            sys.exit(f"wrong_bodies: {crate.name} is not proved")
    kept.is_built(crate)
    if not is_given:
        kept.keep(crate, False, key)


def try_all(rt, edits, most):
    """The words for what the edits of some crates come to."""
    root, noted = os.getcwd(), note_checks(rt)
    rt.Crate.allowed, rt.Crate.cuts_libraries = rt.handles_of(root), True
    os.environ.pop(rt.rtlib.ALLOW_C, None)
    rt.rtlib.guarded()
    every = rt.crates_of(root)
    crates = [it for it in every if it.name in edits]
    kept = rt.Kept(every)
    for it in every:
        if any(it in crate.below() for crate in crates):
            give_library(rt, kept, it)
    # the crates with the most edits first
    crates.sort(key=lambda it: -len(edits[it.name]))
    with ThreadPoolExecutor(int(os.environ.get("RT_JOBS", "1"))) as lanes:
        return [word for words in lanes.map(lambda it: try_crate(rt, noted, it, edits[it.name], most), crates) for word in words]


def read_all(rt, edits):
    """The words for what can be said of the edits by their texts alone."""
    found = []
    for crate, paths in edits.items():
        for edit in paths:
            _, why = rt.read_edit(edit, f"{ROOT}/crates/{crate}")
            found.append("BAD" if why else "read")
            if why:
                tell(crate, edit, "BAD", [why])
    return found


def main():
    ask = argparse.ArgumentParser(description=__doc__, formatter_class=argparse.RawDescriptionHelpFormatter)
    ask.add_argument("--goals", type=int, default=3, metavar="N")
    ask.add_argument("--texts", action="store_true")
    ask.add_argument("words", nargs="*", metavar="CRATE or CRATE/EDIT")
    given, rt = ask.parse_args(), toolchain()
    edits = edits_of(given.words)
    if given.texts:
        words = read_all(rt, edits)
    elif not hasattr(rt, "Kept"):
        sys.exit("wrong_bodies: this release of the toolchain keeps no proofs, on which the edits are tried: take a later one, or 'rt must-fail' for must-fail/")
    else:
        with tempfile.TemporaryDirectory(prefix="wrong-bodies-") as room, contextlib.ExitStack() as there:
            rt.copy_crates(ROOT, f"{room}/repository")
            there.callback(os.chdir, ROOT)
            os.chdir(f"{room}/repository")
            # It is the top of a repository, wherever temporary files are.
            os.mkdir(".git")
            words = try_all(rt, edits, given.goals)
    wrong = sum(word.isupper() for word in words)
    print(f"edits {'read' if given.texts else 'tried'}: {len(words)}, and wrong: {wrong}")
    return 1 if wrong else 0


if __name__ == "__main__":
    sys.exit(main())
