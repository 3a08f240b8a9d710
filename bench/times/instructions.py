#!/usr/bin/env python3
"""Counts the instructions of a call by `valgrind --tool=callgrind`: instructions.py [THRIFTD]

Of recorded calls (mixes.py) it rehearses a short script and a longer one, and prints what a call more takes; of `add` it also prints what `serve` without workers takes
a call, on one connection with one call under way and on 64 with 16, all of a run over the number of its calls, on a server that has just begun, and on one that has
lived: 64 connections have come and gone before it is counted. Behind each figure stand the parts of it, by what the functions are named for. It needs valgrind,
objcopy and a C compiler, and takes some minutes.
"""
import collections
import os
import re
import socket
import subprocess
import sys
import tempfile

HERE = os.path.dirname(os.path.abspath(__file__))
MIXES = [("add", "binary"), ("add", "compact"), ("calculate", "binary"), ("calculate", "compact"), ("mirror", "binary")]
SHORT, LONG = "0.2", "0.6"
# The calls of a run, and of the connections that came and went before it.
CALLS, LIVED = 20000, 6400
# What a function is counted under, by the first of these that its name has.
GROUPS = [
    ("allocator", r"malloc|free|realloc|_int_|tcache|sysmalloc|unlink_chunk|alloc_perturb"),
    ("copies", r"memcpy|memmove|memset|memcmp|bcmp"),
    ("decision, reply", r"processor|envelope|binary_codec|compact_codec|struct_skew|known_parts|wire_walk|wire_num|schema"),
    ("hall, booth, worker", r"hall_|seat_booth|cell_"),
    ("loop, connections", r"host_loop|loop_conns|conn_|net_links|mio"),
    ("journal, report", r"journal_text|value_text|text_out|run_report|itoa|hex"),
    ("script", r"script_|memchr"),
    ("values", r"thrift_value"),
]


def counted(program, words, **how):
    """Instructions of a run, in all and by group."""
    with tempfile.TemporaryDirectory() as folder:
        out = os.path.join(folder, "out")
        run = subprocess.run(["valgrind", "--tool=callgrind", "--callgrind-out-file=" + out, program, *words], stdout=subprocess.DEVNULL, stderr=subprocess.DEVNULL, check=False, **how)
        if run.returncode:
            sys.exit("instructions: %s ended by %d" % (" ".join(words[:4]), run.returncode))
        return by_group(out)


def by_group(out):
    told = subprocess.run(["callgrind_annotate", "--threshold=100", out], stdout=subprocess.PIPE, stderr=subprocess.DEVNULL, text=True, check=True).stdout
    groups, total = collections.Counter(), 0
    for line in told.splitlines():
        found = re.match(r"\s*([\d,]+) \(\s*[\d.]+%\)\s+(\S.*)", line)
        if found:
            count = int(found[1].replace(",", ""))
            name = next((group for group, pattern in GROUPS if re.search(pattern, found[2])), None)
            if "PROGRAM TOTALS" in line:
                total = count
            elif name:
                groups[name] += count
    # (where the counts were set to 0 on the way, callgrind gives all that was called then to the functions that were under way)
    groups["other"] = total - sum(groups.values())
    return groups


def tell(name, groups, calls):
    parts = ", ".join("%s %d" % (group, count / calls) for group, count in groups.most_common() if count / calls >= 10)
    print("%s: %d a call (%s)" % (name, sum(groups.values()) / calls, parts), flush=True)


def rehearsed(program, mix, protocol, size, folder):
    """Instructions of the rehearsal of a script of so many megabytes, and its calls."""
    made = subprocess.run([sys.executable, os.path.join(HERE, "mixes.py"), folder, mix, protocol, size], stdout=subprocess.PIPE, text=True, check=True).stdout.split()
    with open(os.path.join(folder, "script"), "rb") as script:
        return counted(program, ["rehearse", *made[1:]], stdin=script), int(made[0])


def free_port():
    with socket.socket() as s:
        s.bind(("127.0.0.1", 0))
        return s.getsockname()[1]


def served(program, load, connections, depth, folder, lived):
    """Instructions of a server, and its calls; of one that has lived, where so many calls came on 64 connections before."""
    port, out = free_port(), os.path.join(folder, "served")
    accepted = connections + (64 if lived else 0)
    words = ["serve", "@tutorial", "binary", "0", "Calculator=calculator", "--listen", str(port), "--accept", str(accepted), "--journal", "/dev/null"]
    line = ["valgrind", "--tool=callgrind", "--callgrind-out-file=" + out, program, *words]
    with subprocess.Popen(line, stdout=subprocess.PIPE, stderr=subprocess.DEVNULL, text=True) as server:
        server.stdout.readline()
        if lived:
            subprocess.run([load, str(port), "64", "1", "x%d" % lived], stdout=subprocess.DEVNULL, check=True)
            subprocess.run(["callgrind_control", "--zero", str(server.pid)], stdout=subprocess.DEVNULL, stderr=subprocess.DEVNULL, check=True)
        subprocess.run([load, str(port), str(connections), str(depth), "x%d" % CALLS], stdout=subprocess.DEVNULL, check=True)
        told = server.stdout.read()
    return by_group(out), int(told.split()[-1]) - lived


def main(program=None):
    if program is None:
        found = subprocess.run([os.path.join(HERE, "../../thriftd")], env={**os.environ, "THRIFTD_PATH_ONLY": "1"}, stdout=subprocess.PIPE, text=True, check=True)
        program = found.stdout.strip()
    with tempfile.TemporaryDirectory() as folder:
        plain, load = os.path.join(folder, "thriftd"), os.path.join(folder, "load")
        subprocess.run(["objcopy", "--strip-debug", program, plain], check=True)
        subprocess.run(["gcc", "-O2", "-o", load, os.path.join(HERE, "serve/load.c")], check=True)
        for mix, protocol in MIXES:
            short, few = rehearsed(plain, mix, protocol, SHORT, folder)
            long, many = rehearsed(plain, mix, protocol, LONG, folder)
            tell("rehearse %s %s" % (mix, protocol), long - short, many - few)
        for connections, depth in ((1, 1), (64, 16)):
            tell("serve add binary %dx%d" % (connections, depth), *served(plain, load, connections, depth, folder, 0))
            tell("serve add binary %dx%d, lived" % (connections, depth), *served(plain, load, connections, depth, folder, LIVED))


if __name__ == "__main__":
    main(*sys.argv[1:])
