#!/usr/bin/env python3
"""Runs the program on inputs that libFuzzer makes, guided by what they reach: guided.py FOLDER SECONDS [FLAG ..]

The program is built without proofs (unproved.py), in one process with harness.c of guided/, which says what an input is: an IDL, a script, a payload of a frame in either
protocol, or the bytes of a connection. It begins with the files of examples/, those below the folder that IDLS names, what Apache's client sent (apache_calls.py), and random scripts and
connections. A crash, a status that may not be, an input that takes more than ten seconds, or more than a gigabyte stops it, and is kept in FOLDER; so are the program and the inputs that
reached something new, for the next run. Flags are libFuzzer's. It needs `rt`, `clang` with libFuzzer and `objcopy`, and takes some minutes to build. It is no test of the gate."""
import os
import random
import subprocess
import sys

import rehearsal_mixes as mixes
import unproved
from built import TOP

GUIDED = os.path.join(TOP, "bench", "trials", "guided")
COVERAGE = "-fsanitize-coverage=inline-8bit-counters,pc-table,trace-cmp"
WORDS = ["struct ", "union ", "service ", "const ", "typedef ", "enum ", "include \\\"", "extends ", "throws (", "oneway ", "required ", "optional ", "list<", "set<", "map<", "data 0 ", "end 0", "readfail 0",
         "write 0 ", "block 0", "writefail 0", "rest", "loop 0", "work 0", "collect", "open", "\\x0f\\x00\\x01", "\\x0d\\x00\\x01", "\\x0e\\x00\\x01", "\\x0c\\x00\\x01", "\\x80\\x01\\x00\\x01", "\\x82\\x21", "\\x7f\\xff\\xff\\xff",
         "\\xff\\xff\\xff\\xff"]


def built(folder):
    """The program and the harness under libFuzzer."""
    program = os.path.join(folder, "guided")
    if os.path.exists(program):
        return program
    code = unproved.compiled(unproved.module_of(folder), os.path.join(folder, "guided.o"), "-O1", COVERAGE)
    subprocess.run(["objcopy", "--redefine-sym", "main=thriftd_main", "--redefine-sym", "_exit=thriftd_exit", code], check=True)
    archives = [os.path.join(unproved.kit()[1], "c", name) for name in ("libos_c.a", "liblibc_c.a")]
    subprocess.run(["clang", "-O1", "-g", "-fsanitize=fuzzer", "-o", program, os.path.join(GUIDED, "harness.c"), code, *archives, "-lm", "-lpthread"], check=True)
    return program


def files_below(folder, ending):
    for at, _, names in os.walk(folder):
        for name in sorted(names):
            if name.endswith(ending):
                with open(os.path.join(at, name), "rb") as held:
                    yield held.read()


def recorded(protocol):
    """The frames that Apache's client sent, or none where it isn't there."""
    words = ["/usr/bin/python3", os.path.join(TOP, "bench", "trials", "apache_calls.py"), "-", protocol, "--frames"]
    lines = subprocess.run(words, capture_output=True, text=True, check=False).stdout.splitlines()
    return [bytes.fromhex(line.split(" ")[3]) for line in lines if line.startswith(protocol)]


def seeds():
    rng = random.Random(1)
    for folder in filter(None, [os.path.join(TOP, "examples"), os.environ.get("IDLS")]):
        yield from (b"\0" + text for text in files_below(folder, ".thrift"))
    yield from (b"\1" + text for text in files_below(os.path.join(TOP, "examples"), ".script"))
    yield from (b"\1" + mixes.script(rng, 2) for _ in range(50))
    for kind, protocol in ((b"\2", "binary"), (b"\3", "compact")):
        yield from (kind + frame[4:] for frame in recorded(protocol))
    yield b"\2\x80\1\0\1\0\0\0\1f\0\0\0\1\x0c\0\1\x0f\0\x0c\x08\0\0\0\1\0\0\0\1\x0d\0\x0e\x08\x0c\0\0\0\1\0\0\0\1\x08\0\1\0\0\0\1\0\0\0"
    yield b"\3\x82\x21\1\1f\x1c\xc9\x15\x02\x2b\x01\x5c\x02\x15\x02\x00\x00\x00"
    yield b"\4" + b"".join(recorded("binary"))
    yield from (b"\4" + mixes.incoming(rng) for _ in range(50))


def main(folder, seconds, *flags):
    folder = os.path.abspath(folder)
    corpus, words = os.path.join(folder, "corpus"), os.path.join(folder, "words")
    os.makedirs(corpus, exist_ok=True)
    program = built(folder)
    for k, seed in enumerate(seeds()):
        with open(os.path.join(corpus, "seed-%d" % k), "wb") as out:
            out.write(seed)
    with open(words, "w", encoding="ascii") as out:
        out.write("".join('"%s"\n' % word for word in WORDS))
    limits = ["-max_total_time=" + seconds, "-timeout=10", "-rss_limit_mb=1024", "-max_len=20000", "-detect_leaks=0", "-close_fd_mask=2"]
    return subprocess.run([program, *limits, "-dict=" + words, "-artifact_prefix=" + folder + "/found-", *flags, corpus], check=False).returncode


if __name__ == "__main__":
    sys.exit(main(*sys.argv[1:]))
