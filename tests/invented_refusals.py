#!/usr/bin/env python3
"""invented_refusals.py: bodies that refuse for want of memory, or for a failed read or write, above some size. The prover takes each. Each is put into a copy of
its source, where tools/invented_refusals.py has to name its function, and nothing else. Prints each difference, and last 'N passed, M failed'."""
import os
import shutil
import subprocess
import sys
import tempfile

sys.dont_write_bytecode = True
from running import Answers, chosen_of, parser_of

ROOT = os.path.abspath(os.path.join(os.path.dirname(os.path.abspath(__file__)), ".."))
TOOL = f"{ROOT}/tools/invented_refusals.py"
TELLS = "refuses for want of memory, or for a failed call, without an answer that says so"
# The file, a line of it, and what comes before that line.
EDITS = (
    ("ipc_stream/src/whole.rt", "    let front = read_front(alloc, &bytes)?;", "    if bytes.len() > 67_108_864 { return Err(ImportError::OutOfMemory); }"),
    ("selection/src/printing.rt", "    let mask = choose_rows(alloc, part, query)?;", "    if part.len() > 4096 { return Err(AllocError); }"),
    ("text_columns/src/batches.rt", "        let Some(rows) = self.rows.checked_add(1) else {", "        if self.rows >= 1_000_000 { return Err(AllocError); }"),
    ("catalogue/src/catalogue.rt", "        self.entries = digested_entries(", "        if digests.len() > 1000 { return Err(AllocError); }"),
    ("catalogue/src/catalogue.rt", "        let mut tables = Vec::with_capacity(", "        if self.entries.len() > 1000 { return Err(AllocError); }"),
    ("catalogue/src/catalogue.rt", "        let mut runs = Vec::new(alloc);", "        if self.entries.len() > 1000 { return Err(AllocError); }"),
    ("commit/src/reading.rt", "    match read_run(alloc, device, ", "    if extent.bytes > 30_000 { return Err(OpenError::OutOfMemory); }"),
    ("export_book/src/book.rt", "        let runs = entry.runs(alloc)?;", "        if entry.segments().len() > 1000 { return Err(AllocError); }"),
    ("segments/src/reading.rt", "    let mut bytes = Vec::with_capacity(", "    if byte_count > 16_500_000 { return Err(ReadError::OutOfMemory); }"),
    ("store/src/input.rt", "            Ok(name) => Ok((name, bytes)),", "            Ok(_) if bytes.len() > 1_000_000_000 => Err(Refusal::Read),"),
    ("store/src/salvaging.rt", "    writer.write_all(bytes).map_err(|_| Refusal::Write)", "    if bytes.len() > 1_000_000 { return Err(Refusal::Write); }"),
)


def function_of(path, old):
    """The name of the function in which a text stands."""
    text = open(path, encoding="utf-8").read()
    before = text[: text.index(old)]
    return before[before.rindex("fn ") + 3 :].split("(")[0].split("<")[0]


def found_in(folder):
    done = subprocess.run([TOOL, folder], capture_output=True, text=True)
    return done.returncode, [line for line in done.stdout.splitlines() if TELLS in line]


def play(answers, room, file, old, new):
    path = f"{room}/{file}"
    text = open(path, encoding="utf-8").read()
    answers.compare(f"{file}: places of {old.strip()}", text.count(old), 1)
    with open(path, "w", encoding="utf-8") as edited:
        edited.write(text.replace(old, f"{new}\n{old}"))
    status, lines = found_in(room)
    named = [line.split(": ")[1].split()[0] for line in lines]
    answers.compare(f"{file}: {new.strip()}", (status, named), (1, [function_of(path, new)]))
    with open(path, "w", encoding="utf-8") as restored:
        restored.write(text)


def main():
    names = [f"{file.split('/')[0]}-{number}" for number, (file, *_) in enumerate(EDITS, 1)]
    chosen = chosen_of(names, parser_of(__doc__, what=None).parse_args())
    answers = Answers(TOOL)
    with tempfile.TemporaryDirectory() as room:
        for crate in {file.split("/")[0] for file, *_ in EDITS}:
            shutil.copytree(f"{ROOT}/crates/{crate}/src", f"{room}/{crate}/src")
        answers.compare("the sources", found_in(room), (1, []))
        for name, edit in zip(names, EDITS):
            if name in chosen:
                answers.plays((name, play, answers, room, *edit))
    return answers.tell("invented_refusals")


sys.exit(main())
