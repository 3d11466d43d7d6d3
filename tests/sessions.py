#!/usr/bin/env python3
"""sessions.py PROGRAM [CASE..]: sessions of the program on one store file, with the answers of an independent reference.

A session is a JSON file: `files` that are in the folder where it runs, and `steps`. A step has `words`, `stdin` and `stdout` in hexadecimal, `status`,
`stderr`; or `damage` [place, value]: that byte of the file `store` becomes this value. `store` is the file's SHA-256 after the step (null: there is none).
Of status 2 the status alone is compared, since its text is that of the command line's reader; of `export` what `recode` makes of its stream.

Prints each difference, and last 'N passed, M failed'."""
import functools
import hashlib
import json
import os
import subprocess
import sys
import tempfile
from concurrent.futures import ThreadPoolExecutor

sys.dont_write_bytecode = True
from differences import difference
from running import Answers, chosen_of, parser_of

VECTORS = os.path.join(os.path.dirname(os.path.abspath(__file__)), "vectors")
FOLDERS = "sessions_digests", "replays_digests"


def run(program, words, given, where="."):
    done = subprocess.run([program, *words], cwd=where, input=given, capture_output=True, timeout=120)
    return done.returncode, done.stdout, done.stderr


def digest(path):
    if not os.path.exists(path):
        return None
    with open(path, "rb") as file:
        return hashlib.sha256(file.read()).hexdigest()


def change_byte(path, place, value):
    with open(path, "r+b") as file:
        file.seek(place)
        file.write(bytes([value]))


def answers_of(program, step, answer):
    """What is compared of the answer of the program, and the step's."""
    status, output, said = answer
    wanted = bytes.fromhex(step["stdout"])
    if status == step["status"] == 2:
        return status, step["status"]
    if step["words"][0] == "export" and status == 0:
        output, wanted = run(program, ["recode"], output), run(program, ["recode"], wanted)
    return (status, output, said), (step["status"], wanted, step["stderr"].encode())


def play(program, session, where):
    """The first difference of a session, with the step where it is, or None."""
    store = os.path.join(where, "store")
    for number, step in enumerate(session["steps"]):
        told = f"step {number} {step.get('words', step.get('damage'))}"
        if "damage" in step:
            change_byte(store, *step["damage"])
        else:
            got, wanted = answers_of(program, step, run(program, step["words"], bytes.fromhex(step["stdin"]), where))
            if got != wanted:
                return [told, *difference(got, wanted)]
        if digest(store) != step["store"]:
            return [f"{told}: the bytes of the store differ"]
    return None


def outcome_of(program, name):
    with open(os.path.join(VECTORS, f"{name}.json"), encoding="utf-8") as file:
        session = json.load(file)
    with tempfile.TemporaryDirectory() as where:
        for path, content in session["files"].items():
            with open(os.path.join(where, path), "wb") as file:
                file.write(bytes.fromhex(content))
        return play(program, session, where)


def main():
    given = parser_of(__doc__).parse_args()
    names = [f"{folder}/{name.removesuffix('.json')}" for folder in FOLDERS for name in sorted(os.listdir(os.path.join(VECTORS, folder)))]
    chosen, answers = chosen_of(names, given), Answers(given.program)
    with ThreadPoolExecutor(4) as pool:
        for answers.case, wrong in zip(chosen, pool.map(functools.partial(outcome_of, given.program), chosen)):
            if wrong:
                answers.fail(answers.case, wrong)
            else:
                answers.passed += 1
    return answers.tell("sessions")


sys.exit(main())
