#!/usr/bin/env python3
"""Compares `thriftd compat` with the rules of tools/texts/compat.py on random pairs of schemas: change_mixes.py PAIRS [SEED [THRIFTD]]

The rules read what `check` prints of the two, and tools/changes has to tell each break that they find. Most pairs are a schema and the same with some changes, some are two of their own; where `check` refuses one of the two, `compat` has to say what `check` says of the
first of them, and the pair doesn't count. Prints how many pairs had which kind of break, or the first pair that differs, with its folder; ends with status 1 there."""
import collections
import os
import random
import subprocess
import sys
import tempfile

import change_model as model
from built import TOP, built_program
from texts.compat import Comparison
from texts.schemas import read_schema

sys.path.append(os.path.join(TOP, ".ci/suites"))
from tool_many import loaded  # noqa: E402


def written(folder, schema):
    """Writes the files of a schema, and names the main one."""
    os.makedirs(folder, exist_ok=True)
    for file in ("main", "inc"):
        with open("%s/%s.thrift" % (folder, file), "w", encoding="ascii") as out:
            out.write(model.file_text(schema, file))
    return folder + "/main.thrift"


def ended(program, *words):
    run = subprocess.run([program, *words], stdin=subprocess.DEVNULL, stdout=subprocess.PIPE, stderr=subprocess.PIPE, text=True, timeout=60)
    return run.returncode, run.stdout, run.stderr


def checked(program, name):
    """The schema of a file that `check` accepts."""
    return read_schema(ended(program, "check", name)[1])


def wanted(old, new):
    """How the rules have `compat` end, of two schemas."""
    found = next(Comparison(old, new).breaks(), None)
    if found is None:
        return 0, "compatible\n", ""
    return 15, "break %s %d %s\n" % found[:3], "thriftd: incompatible\n"


def untold(changes, old, new):
    """The breaks that tools/changes doesn't tell, or a line that tells of one where there is none."""
    told = changes.Changes(old, new)
    lines = [line for line in told.all_lines() if line.startswith("break ")]
    lost = ["break %s %d %s" % it[:3] for it in told.all_breaks]
    lost = [it for it in lost if not any(it + ":" in line or it + "," in line for line in lines)]
    return lost or (lines if not told.all_breaks else [])


def random_change(rng):
    old = model.random_schema(rng)
    return old, model.random_schema(rng) if rng.random() < 0.1 else model.changed(rng, old)


def main():
    pairs, seed = int(sys.argv[1]), int(sys.argv[2]) if len(sys.argv) > 2 else 1
    program = sys.argv[3] if len(sys.argv) > 3 else built_program()
    rng, met, refused = random.Random(seed), collections.Counter(), 0
    folder, changes = tempfile.mkdtemp(prefix="changes."), loaded("changes")
    while sum(met.values()) < pairs:
        old, new = random_change(rng)
        names = written(folder + "/old", old), written(folder + "/new", new)
        found = ended(program, "compat", *names)
        if found[0] == 2:
            refused += 1
            refusal = next((end for end in (ended(program, "check", name) for name in names) if end[0] != 0), None)
            expected, lost = refusal and (refusal[0], "", refusal[2]), []
        else:
            schemas = [checked(program, name) for name in names]
            expected, lost = wanted(*schemas), untold(changes, *schemas)
            met[expected[1].split()[-1]] += 1
        if found != expected or lost:
            print("%s: %r, and the rules say %r; not told: %r" % (folder, found, expected, lost))
            sys.exit(1)
    print(", ".join("%s %d" % pair for pair in met.most_common()), "(besides %d pairs with a schema that is refused)" % refused)


if __name__ == "__main__":
    main()
