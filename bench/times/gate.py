#!/usr/bin/env python3
"""gate.py COMMAND..: runs a command that proves, such as `rt ci`, and prints as a table of markdown what it took: minutes by the clock and of one
processor, and of the latter how many are proofs, tests and edits, and those of the crates that take longest.

What a process of the prover took is read from /proc four times a second, so what it does in its last quarter of a second is missing. The rest of the
command's processor time (rt itself, linking, running) is what is left over.
"""
import collections
import os
import resource
import subprocess
import sys
import time

TICKS = os.sysconf("SC_CLK_TCK")


def described(pid):
    """Returns the crate of a prover's process and what it does there, or None."""
    try:
        with open(f"/proc/{pid}/cmdline", "rb") as file:
            words = file.read().decode(errors="replace").split("\0")
        folder = os.readlink(f"/proc/{pid}/cwd")
    except OSError:
        return None
    if not words[0].endswith("/rattle") or "--crate-name" not in words:
        return None
    crate = words[words.index("--crate-name") + 1]
    kind = "edits" if "/rt-edit-" in folder else "tests" if "--test" in words else "proofs"
    return crate, kind


def seconds(pid):
    """Returns the processor time that a process and the children that it waited for have taken."""
    with open(f"/proc/{pid}/stat", encoding="utf-8", errors="replace") as file:
        fields = file.read().rpartition(")")[2].split()
    return sum(map(int, fields[11:15])) / TICKS


def main():
    known, taken, started = {}, {}, time.time()
    command = subprocess.Popen(sys.argv[1:])
    while command.poll() is None:
        for pid in filter(str.isdigit, os.listdir("/proc")):
            key = known.get(pid) or described(pid)
            if key is None:
                continue
            known[pid] = key
            try:
                taken[pid] = (key, seconds(pid))
            except OSError:
                known.pop(pid)
                taken[pid, len(taken)] = taken.pop(pid, (key, 0.0))
        time.sleep(0.25)
    clock = time.time() - started
    used = resource.getrusage(resource.RUSAGE_CHILDREN)
    kinds, crates = collections.Counter(), collections.Counter()
    for (crate, kind), spent in taken.values():
        kinds[kind] += spent
        if kind != "edits":
            crates[crate] += spent
    print("\n| What | Minutes of one processor | Minutes by the clock |\n|---|---|---|")
    print(f"| all | {(used.ru_utime + used.ru_stime) / 60:.0f} | {clock / 60:.0f} |")
    for kind in ("proofs", "tests", "edits"):
        print(f"| {kind} | {kinds[kind] / 60:.0f} | |")
    for crate, spent in crates.most_common(12):
        print(f"| `{crate}` | {spent / 60:.1f} | |")
    sys.exit(command.returncode)


main()
