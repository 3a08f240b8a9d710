#!/usr/bin/env python3
"""Lets each allocation of a run fail in turn: failing_memory.py [SCRIPT [WORKERS [MAX_FRAME READ_BUDGET]]]

Runs the program (the one that ./thriftd runs) on a script over and over, with a `malloc` in front of the system's that fails at the first, the second and
each later call. Each run has to end in one of two ways: with status 0 and a report that may be, or with status 10, and nothing written but the beginning of a report
and the errors' line, for which there may be no memory either. Ends with status 1 where a run ended otherwise. It needs `cc`. It is no test of the gate.

With a script it is rehearsed, in the binary protocol. Without one, the client's session of the tutorial and three connections are rehearsed and recorded in the binary
protocol, and three connections in the compact one. A report that may be is, of a rehearsal in the binary protocol, one of those that the model of rehearsal_model.py
gives for a want of memory at one of its places; of a recording, one in which judge.py finds nothing; in the compact protocol, the report of the run without a failure,
but that connections which ended with NoMemory were sent less and have fewer calls.
"""
import collections
import os
import subprocess
import sys
import tempfile

import judge
import rehearsal_model as model
from built import built_program

SHIM = r"""
#define _GNU_SOURCE
#include <dlfcn.h>
#include <fcntl.h>
#include <stdio.h>
#include <stdlib.h>
#include <unistd.h>
static long count, fails_at;
__attribute__((constructor)) static void begin(void) { char *at = getenv("FAILS_AT"); fails_at = at ? atol(at) : 0; count = 0; }
static int fails(void) { return ++count == fails_at; }
void *malloc(size_t size) {
  static void *(*next)(size_t);
  if (!next) next = dlsym(RTLD_NEXT, "malloc");
  return fails() ? 0 : next(size);
}
void *realloc(void *old, size_t size) {
  static void *(*next)(void *, size_t);
  if (!next) next = dlsym(RTLD_NEXT, "realloc");
  return fails() ? 0 : next(old, size);
}
static void tell(void) {
  char text[32], *name = getenv("COUNT_TO");
  if (!name) return;
  int file = open(name, O_WRONLY | O_CREAT | O_TRUNC, 0600);
  int size = snprintf(text, sizeof text, "%ld", count);
  if (file >= 0 && write(file, text, size) == size) close(file);
}
void _exit(int status) {
  static void (*next)(int);
  if (!next) next = dlsym(RTLD_NEXT, "_exit");
  tell();
  next(status);
  for (;;) {}
}
"""


class Runs:
    """Runs of the program on one script."""

    def __init__(self, folder, words, text):
        self.line, self.text, self.count = [built_program(), *words], text, os.path.join(folder, "count")
        source, self.shim = os.path.join(folder, "shim.c"), os.path.join(folder, "shim.so")
        with open(source, "w", encoding="ascii") as out:
            out.write(SHIM)
        subprocess.run(["cc", "-shared", "-fPIC", "-o", self.shim, source, "-ldl"], check=True)

    def run(self, fails_at):
        """Status, output and errors where so many allocations succeed but the last; 0 is none that fails."""
        environment = {**os.environ, "LD_PRELOAD": self.shim, "FAILS_AT": str(fails_at), "COUNT_TO": self.count}
        done = subprocess.run(self.line, input=self.text, capture_output=True, env=environment, check=False)
        return done.returncode, done.stdout.decode(), done.stderr.decode()

    def allocations(self):
        """How many the last run made."""
        with open(self.count, encoding="ascii") as held:
            return int(held.read())


PING, ADD = b"0000001180010001" + b"000000" + b"0470696e670000000000", b"0000001e800100010000000361646400000001080001000000010800020000000100"
SESSION = [PING, ADD, b"000000368001000100000009" + b"63616c63756c617465" + b"00000001080001000000010c0002080001000000010800020000000008000300000004" + b"0000",
           b"000000368001000100000009" + b"63616c63756c617465" + b"00000004080001000000010c00020800010000000f0800020000000a08000300000002" + b"0000",
           b"0000001d800100010000000967657453747275637400000002080001000000" + b"0100"]
COMPACT_PING, COMPACT_ADD = b"000000098221010470696e6700", b"0000000c822101036164641502150200"


def on_one(frames):
    return b"open\ndata 0 %s\nend 0\n" % b"".join(frames)


def on_three(one, two):
    return b"open\nopen\ndata 0 %s\ndata 1 %s\nopen\ndata 2 %s\nend 1\nend 0\ndata 2 %s\nend 2\n" % (one, two, one + two, one)


class Rehearsed:
    """Reports of a rehearsal in the binary protocol."""

    words = ["rehearse", "@tutorial", "binary"]

    def __init__(self, text, numbers):
        self.whole, self.reports = model.rehearse(text, *numbers), model.without_memory(text, *numbers)

    def may_be(self, report):
        return report in self.reports

    def may_begin(self, report):
        return any(it.startswith(report) for it in self.reports)


class Recorded:
    """Reports of a recording in the binary protocol."""

    words = ["record", "@tutorial", "binary"]
    whole = None

    def __init__(self, text, numbers):
        self.text, self.numbers = text, numbers

    def may_be(self, report):
        return judge.judge(self.text, report, *self.numbers) is None

    def may_begin(self, report):
        return True


class Compact:
    """Reports of a rehearsal in the compact protocol."""

    words = ["rehearse", "@tutorial", "compact"]
    whole = None

    def __init__(self, text, numbers):
        self.calls = self.conns = None

    def take(self, report):
        """Takes the report of the run without a failure."""
        self.calls, self.conns = parts_of(report)

    def may_be(self, report):
        calls, conns = parts_of(report)
        return len(conns) == len(self.conns) and all(map(is_conn_or_less, conns, self.conns)) and is_among(calls, self.calls)

    def may_begin(self, report):
        return True


def parts_of(report):
    """The lines of calls and of connections."""
    lines = report.splitlines()
    return [it for it in lines if it.startswith("call ")], [it.split(" ") for it in lines if it.startswith("conn ")]


def is_conn_or_less(conn, whole):
    """Whether a connection's line is the one of a run without a failure, or it ended for want of memory and was sent a beginning of its bytes."""
    return conn == whole or (conn[:2] == whole[:2] and conn[2] == "NoMemory" and (conn[3] == "-" or whole[3].startswith(conn[3])))


def is_among(some, all_):
    left = iter(all_)
    return all(it in left for it in some)


def kind_of(ended, whole, reports):
    """In which way a run ended, or nothing where it is none of those that may be."""
    status, output, errors = ended
    if status == 0 and not errors and reports.may_be(output):
        return "status 0, the whole report" if output == whole else "status 0, a connection without memory"
    if status == 10 and errors in ("thriftd: no memory\n", "") and reports.may_begin(output):
        return "status 10" if errors else "status 10, no line"
    return None


def try_each(kind, text, workers, *limits):
    """Lets each allocation of a run fail; says how many runs ended otherwise than they may."""
    words = [*kind.words, workers, "Calculator=calculator"]
    if limits:
        words += ["--max-frame", limits[0], "--read-budget", limits[1]]
    reports = kind(text, [int(workers), *map(int, limits)])
    with tempfile.TemporaryDirectory() as folder:
        runs = Runs(folder, words, text)
        whole = runs.run(0)
        if isinstance(reports, Compact):
            reports.take(whole[1])
        if whole[0] or whole[2] or (reports.whole or whole[1]) != whole[1]:
            sys.exit("the run without a failure isn't as it has to be")
        tally, wrong = collections.Counter(), 0
        for fails_at in range(1, runs.allocations() + 1):
            ended = runs.run(fails_at)
            kind_ = kind_of(ended, whole[1], reports)
            if kind_ is None:
                wrong += 1
                print("allocation %d: status %d, %r, %r" % (fails_at, ended[0], ended[1][-200:], ended[2][-200:]))
            tally[kind_ or "otherwise"] += 1
    print(" ".join(words))
    for name, count in sorted(tally.items()):
        print("%5d %s" % (count, name))
    return wrong


def main(*words):
    if words:
        with open(words[0], "rb") as held:
            return 1 if try_each(Rehearsed, held.read(), *(words[1:] or ("0",))) else 0
    three, compact = on_three(PING, ADD), on_three(COMPACT_PING, COMPACT_ADD)
    runs = [(Rehearsed, on_one(SESSION)), (Recorded, on_one(SESSION)), (Rehearsed, three), (Recorded, three), (Compact, compact)]
    return 1 if sum([try_each(kind, text, "0") for kind, text in runs]) else 0


if __name__ == "__main__":
    sys.exit(main(*sys.argv[1:]))
