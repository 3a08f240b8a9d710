#!/usr/bin/env python3
"""Mends IDL files of others by `tools/mend`: mended_idl.py [--least N] FOLDER ..

Each file below the folders is mended into a folder of its own, with all folders that hold IDL files as roots, and the
copy has to be accepted by `check`. Prints each file that isn't, with the line that says why, and the counts; ends with
status 1 where a tool ends otherwise than it may, or fewer than N files are accepted. Those that outside_idl.py speaks
of come by `apt-get source thrift` and `apt-get download`, unpacked by `dpkg-deb -x` (docs/PROFILE.md names them)."""
import argparse
import collections
import os
import subprocess
import sys
import tempfile

from built import TOP
from texts.program import program_path


def idl_files(folders):
    found = (os.path.join(at, one) for folder in folders for at, _, files in os.walk(folder) for one in files)
    return sorted(it for it in found if it.endswith(".thrift"))


def ended(words, **more):
    return subprocess.run(
        words, stdin=subprocess.DEVNULL, capture_output=True, text=True, check=False, timeout=60, **more
    )


def outcome(program, path, roots):
    """What became of a file, and the line that says why it couldn't be mended."""
    with tempfile.TemporaryDirectory(prefix="mended-") as folder:
        words = [os.path.join(TOP, "tools/mend"), path, "--into", folder]
        done = ended(words + [word for root in roots for word in ("--root", root)])
        lines = done.stdout.splitlines()
        if done.returncode == 0:
            accepted = ended([program, "check", os.path.basename(path)], cwd=folder).returncode == 0
            good = accepted and lines[-1].startswith("accepted ")
            return ("accepted as it is" if len(lines) == 1 else "accepted once mended") if good else "ENDED WRONGLY", ""
        is_told = done.returncode == 2 and done.stderr.startswith("thriftd mend: ") and done.stderr.count("\n") == 1
        return "not mended" if is_told else "ENDED WRONGLY", done.stderr.strip()


def main():
    parser = argparse.ArgumentParser(description=__doc__.splitlines()[0])
    parser.add_argument("--least", type=int, default=0)
    parser.add_argument("folders", nargs="+")
    given = parser.parse_args()
    # (it builds none, and the tool runs the same)
    program = os.environ["THRIFTD"] = program_path()
    paths = idl_files(map(os.path.abspath, given.folders))
    roots, counts = sorted(set(map(os.path.dirname, paths))), collections.Counter()
    for path in paths:
        came_to, why = outcome(program, path, roots)
        counts[came_to] += 1
        if why or came_to == "ENDED WRONGLY":
            print(path, came_to, why)
    print("%d files: %s" % (len(paths), ", ".join("%d %s" % (n, what) for what, n in sorted(counts.items()))))
    accepted = counts["accepted as it is"] + counts["accepted once mended"]
    sys.exit(1 if counts["ENDED WRONGLY"] or accepted < given.least else 0)


if __name__ == "__main__":
    main()
