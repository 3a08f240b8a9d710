#!/usr/bin/env python3
"""functions.py CRATE [N] [--since SECONDS]: prints the N functions of a crate (25, where no number is given) whose proofs took longest in the checks that were run in
its folder, with the kinds of modules that took most of it.

`rt check` keeps a file for each module that it has checked (out/incremental), and the time between two files is what the second one took. So the checks are to
run with --jobs 1, and on a machine that does nothing else. With --since only the last seconds count in which files were written, as after a check with --only.
"""
import argparse
import collections
import os
import re

TOP = os.path.dirname(os.path.dirname(os.path.dirname(os.path.abspath(__file__))))
# a module of the crate's proofs: the function's path, and the kind of module that the prover makes of it
MODULE = re.compile(r"Rattle-\w+?[-.]proofs\.(?P<function>.*?)(?P<kinds>(?:\.[A-Z]\w*)*)\Z")
# between two checks nothing is written
PAUSE = 90


def written(folder):
    """Returns when each module's file was written, with its name, the oldest first."""
    found = []
    for at, _, names in os.walk(folder):
        found += [(os.lstat(f"{at}/{name}").st_mtime, name) for name in names if name.endswith(".oantt")]
    return sorted(found)


def main():
    words = argparse.ArgumentParser(description=__doc__, formatter_class=argparse.RawDescriptionHelpFormatter)
    words.add_argument("crate")
    words.add_argument("number", nargs="?", type=int, default=25)
    words.add_argument("--since", type=float)
    given = words.parse_args()
    files = written(f"{TOP}/crates/{given.crate}/out/incremental")
    if given.since is not None and files:
        files = [it for it in files if it[0] >= files[-1][0] - given.since]
    functions, kinds = collections.Counter(), collections.defaultdict(collections.Counter)
    for (before, _), (after, name) in zip(files, files[1:]):
        module = MODULE.match(name.removesuffix(".oantt").removesuffix(".decls"))
        if module and after - before < PAUSE:
            functions[module["function"]] += after - before
            kinds[module["function"]][module["kinds"].strip(".").partition(".")[0] or "itself"] += after - before
    print(f"{sum(functions.values()):.0f} seconds, of {len(functions)} functions and modules")
    for function, seconds in functions.most_common(given.number):
        print(f"{seconds:7.1f} {function}: " + ", ".join(f"{kind} {part:.1f}" for kind, part in kinds[function].most_common(4)))


main()
