#!/usr/bin/env python3
"""gate_cost.py COMMAND..: runs a command, as `rt ci`, and prints what its proofs cost, crate by crate, in processor seconds.

Of each crate: the proof of the library or program, its build with tests, and its must-fail edits: how many, the first, which
proves the crate once more, the mean of the others, and the costliest. `other` is all else: tests and programs that run, and scripts.
`full pace` is the sum at the full pace of the processors: on a shared machine the same proof takes up to twice as many seconds from
one minute to the next, so what is taken is divided by how much longer a fixed loop takes at that time.
The last lines have the sums. The prover's processes below the command are looked at twice a second, and the end of each is missed by
as much. The table goes to standard error once the command has ended, and the status is the command's."""
import argparse
import collections
import os
import resource
import subprocess
import sys
import time

TICKS = os.sysconf("SC_CLK_TCK")

# What `pace` takes with Python 3.11 on a processor of 2.5 GHz at its full pace, in processor seconds, and how many seconds lie between two looks at it.
FULL_PACE = 0.153
PACE_EVERY = 15


def pace():
    """The processor seconds of a fixed loop."""
    began, number, seen = time.process_time(), 0, {}
    for i in range(750_000):
        number = (number * 31 + i) & 0xFFFFFFFF
        if i % 7 == 0:
            seen[number & 0xFFFF] = i
    return time.process_time() - began


class Meter:
    """Processor seconds as they are taken, and what they would be at full pace."""

    def __init__(self):
        self.taken, self.full = 0, 0

    def read(self, taken, share):
        """What was taken in all by now; `share` is how much of it a processor at full pace would take."""
        self.full += max(taken - self.taken, 0) * share
        self.taken = taken


def read(pid, name):
    with open(f"/proc/{pid}/{name}", "rb") as file:
        return file.read().decode(errors="replace")


def processes():
    """Of each process its parent, its processor seconds with those of its ended children, and when it began."""
    found = {}
    for pid in filter(str.isdigit, os.listdir("/proc")):
        try:
            fields = read(pid, "stat").rsplit(")", 1)[1].split()
        except (OSError, IndexError):
            continue
        found[pid] = fields[1], sum(map(int, fields[11:15])) / TICKS, int(fields[19])
    return found


def is_below(pid, top, found):
    while pid in found and pid != top:
        pid = found[pid][0]
    return pid == top


def cost_of_tree(pid, found):
    """The cost of a process and of all that it started: a prover shares its work among processes of the same name."""
    below = [other for other, (parent, _, _) in found.items() if parent == pid]
    return found[pid][1] + sum(cost_of_tree(other, found) for other in below)


def kind_of(pid):
    """The crate that a process of the prover works on, and for what; none for all other processes."""
    try:
        words, folder = read(pid, "cmdline").split("\0"), os.readlink(f"/proc/{pid}/cwd")
    except OSError:
        return None
    if not words[0].endswith("/rattle") or "--crate-name" not in words:
        return None
    crate = words[words.index("--crate-name") + 1]
    if "/rt-edit-" in folder:
        return crate, "edit"
    return crate, "tests" if "--test" in words else "library"


def watch(run):
    """Until a command ends: the meter of each process of the prover below it, with its crate and kind, and the command's own meter."""
    meters, whole = {}, Meter()
    share, looked = FULL_PACE / pace(), time.time()
    while run.poll() is None:
        if time.time() - looked >= PACE_EVERY:
            share, looked = FULL_PACE / pace(), time.time()
        found = processes()
        if str(run.pid) in found:
            whole.read(cost_of_tree(str(run.pid), found), share)
        for pid, (parent, _, began) in found.items():
            kind = kind_of(pid)
            if kind and not kind_of(parent) and is_below(pid, str(run.pid), found):
                meters.setdefault((began, int(pid)), (*kind, Meter()))[2].read(cost_of_tree(pid, found), share)
        time.sleep(0.5)
    used = resource.getrusage(resource.RUSAGE_CHILDREN)
    whole.read(used.ru_utime + used.ru_stime, share)
    return [meters[key] for key in sorted(meters)], whole


def rows_of(meters):
    crates = collections.defaultdict(lambda: {"library": [], "tests": [], "edit": [], "full": []})
    for crate, kind, meter in meters:
        crates[crate][kind].append(meter.taken)
        crates[crate]["full"].append(meter.full)
    for crate, kinds in sorted(crates.items()):
        library, tests, edits = kinds["library"], kinds["tests"], kinds["edit"]
        later = edits[1:] or [0]
        yield [
            crate,
            sum(library),
            sum(tests),
            len(edits),
            sum(edits[:1]),
            sum(later) / len(later),
            max(later),
            sum(library) + sum(tests) + sum(edits),
            sum(kinds["full"]),
        ]


def minutes(seconds):
    return f"{seconds / 60:.0f} processor minutes"


def sums_of(rows, whole):
    """What libraries, tests, the first edits, the other edits and all else cost."""
    library, tests, first, every = (sum(row[at] for row in rows) for at in (1, 2, 4, 7))
    sums = {"libraries": library, "with tests": tests, "first edits": first, "other edits": every - library - tests - first, "other": max(whole - every, 0)}
    return ", ".join(f"{name} {cost / 60:.0f}" for name, cost in sums.items())


def main():
    began = time.time()
    parser = argparse.ArgumentParser(description=__doc__, formatter_class=argparse.RawDescriptionHelpFormatter)
    parser.add_argument("command", nargs=argparse.REMAINDER, help="with its words")
    run = subprocess.Popen(parser.parse_args().command)
    meters, whole = watch(run)
    rows = list(rows_of(meters))
    heads = ["crate", "library", "with tests", "edits", "the first", "mean", "costliest", "sum", "full pace"]
    others = [max(cost - sum(row[at] for row in rows), 0) for cost, at in ((whole.taken, 7), (whole.full, 8))]
    lines = [heads, *rows, ["other", *[""] * 6, *others]]
    table = [[cell if isinstance(cell, str) else f"{cell:.0f}" for cell in line] for line in lines]
    for line in table:
        print(f"| {line[0]:14} |" + "".join(f" {cell:>10} |" for cell in line[1:]), file=sys.stderr)
        if line is table[0]:
            print("|---" + "|---:" * (len(line) - 1) + "|", file=sys.stderr)
    taken = f"{minutes(whole.taken)} in {(time.time() - began) / 60:.0f} minutes on {len(os.sched_getaffinity(0))} processors"
    print(f"{taken}: {sums_of(rows, whole.taken)}", file=sys.stderr)
    print(f"At full pace it would be {minutes(whole.full)}: the processors ran at {whole.full / max(whole.taken, 0.01):.2f} of it.", file=sys.stderr)
    return run.returncode


sys.exit(main())
