#!/usr/bin/env python3
"""run_vectors.py PROGRAM PACK..: runs `PROGRAM recode` on each stream of each pack, a folder with a file answers.jsonl,
and compares its output, its standard error and its exit status with the answer there.

An answer has the stream's `file` and either `answer` ok, with the length and SHA-256 of the canonical stream, or the
line that refuses it. Prints each difference, and last 'N passed, M failed'."""
import hashlib
import json
import os
import subprocess
import sys
from concurrent.futures import ThreadPoolExecutor

sys.dont_write_bytecode = True
from running import Answers, chosen_of, parser_of

VECTORS = os.path.join(os.path.dirname(os.path.abspath(__file__)), "vectors")
PACKS = "ints", "streams", "traps"


def compared(program, name, want):
    """What the program answers to a stream, and what is wanted: status, what is said, and length and digest of what is written."""
    with open(os.path.join(VECTORS, name), "rb") as stream:
        done = subprocess.run([program, "recode"], stdin=stream, capture_output=True, timeout=120)
    if want["answer"] == "ok":
        wanted = 0, b"", want["canonical_length"], want["canonical_sha256"]
        return (done.returncode, done.stderr, len(done.stdout), hashlib.sha256(done.stdout).hexdigest()), wanted
    return (done.returncode, done.stderr, len(done.stdout), ""), (1, want["refusal"].encode() + b"\n", 0, "")


def wants():
    """What is wanted of each stream, by its path."""
    for pack in PACKS:
        with open(os.path.join(VECTORS, pack, "answers.jsonl"), encoding="utf-8") as lines:
            for want in map(json.loads, lines):
                yield f"{pack}/{want['file']}", want


def main():
    given, wanted = parser_of(__doc__).parse_args(), dict(wants())
    chosen, answers = chosen_of(wanted, given), Answers(given.program)
    with ThreadPoolExecutor(os.cpu_count()) as pool:
        for answers.case, pair in zip(chosen, pool.map(lambda name: compared(given.program, name, wanted[name]), chosen)):
            answers.compare(f"{answers.case}: status, line, bytes, digest", *pair)
    return answers.tell("vectors")


sys.exit(main())
