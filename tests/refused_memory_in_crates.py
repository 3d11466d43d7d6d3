#!/usr/bin/env python3
"""refused_memory_in_crates.py CRATE.. [--tests CASE..]: of each crate, whose tests `rt test` has built, runs each test that is named
'.._also_without_memory' with each of its allocations refused in turn. It must pass each time.
Prints each test that did not, and last 'N passed, M failed'."""
import argparse
import os
import sys

sys.dont_write_bytecode = True
import refusals
from running import Answers, chosen_of

CRATES = os.path.join(refusals.HERE, "..", "crates")


def tests_of(program):
    listed = refusals.answer_of([program, "--list"], b"")[1].decode("ascii")
    names = [line.removesuffix(": test") for line in listed.splitlines() if line.endswith(": test")]
    return [name for name in names if name.endswith("_also_without_memory")]


def program_of(crate):
    return os.path.abspath(os.path.join(CRATES, crate, "out", f"{crate}_tests"))


def play(answers, crate, test):
    undisturbed, runs = refusals.each_refused([program_of(crate), test])
    for number, (status, output, said) in enumerate([undisturbed, *runs]):
        answers.compare(f"{crate} {test}, allocation {number}: {output.decode()} {said.decode()}" if status else test, status, 0)


def main():
    parser = argparse.ArgumentParser(description=__doc__, formatter_class=argparse.RawDescriptionHelpFormatter)
    parser.add_argument("crates", nargs="+", metavar="CRATE", help="the crates")
    parser.add_argument("--tests", nargs="+", dest="cases", default=[], metavar="CASE", help="CRATE/TEST, where * stands for any letters; all, if none is given")
    parser.add_argument("--list", action="store_true", help="print the names of the cases")
    given, answers = parser.parse_args(), Answers("")
    tests = {crate: tests_of(program_of(crate)) for crate in given.crates}
    for crate in given.crates:
        if not tests[crate]:
            answers.fail(f"{crate} has no such test")
    for name in chosen_of((f"{crate}/{test}" for crate in tests for test in tests[crate]), given):
        answers.plays((name, play, answers, *name.split("/")))
    return answers.tell("refused memory in crates")


sys.exit(main())
