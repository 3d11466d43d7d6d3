#!/usr/bin/env python3
"""proofs_at_once.py: prints how many proofs, or scripts of tests/, the gate runs side by side: one for each processor, as many as there are 4 GB of free
memory for.

Each proof then is one process. Without a number `rt ci` shares a proof among up to four processes where processors are free, and each of
these loads the libraries below: a large crate then costs a quarter more processor time."""
import os

NEEDED = 4_000_000_000
LIMITS = "/sys/fs/cgroup/memory.max", "/sys/fs/cgroup/memory/memory.limit_in_bytes"
QUOTAS = ("/sys/fs/cgroup/cpu.max", None), ("/sys/fs/cgroup/cpu/cpu.cfs_quota_us", "/sys/fs/cgroup/cpu/cpu.cfs_period_us")


def words_of(path):
    try:
        with open(path, encoding="ascii") as file:
            return file.read().split()
    except OSError:
        return []


def memory():
    """The free memory in bytes, or the limit of the process's group where that is less."""
    words = words_of("/proc/meminfo")
    free = 1024 * int(words[words.index("MemAvailable:") + 1])
    return min([free, *(int(word) for path in LIMITS for word in words_of(path)[:1] if word.isdigit())])


def processors():
    """The processors that the process may use, or its group's share of them where that is less."""
    found = len(os.sched_getaffinity(0))
    for quota, period in QUOTAS:
        words = words_of(quota) + (words_of(period) if period else [])
        if len(words) == 2 and all(map(str.isdigit, words)):
            found = min(found, int(words[0]) // int(words[1]))
    return found


print(max(1, min(processors(), memory() // NEEDED)))
