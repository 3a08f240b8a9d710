#!/usr/bin/env python3
"""Runs `thriftd record` where things go badly, and judges each report by bench/trials/judge.py: recorded_runs.py [--quick] [THRIFTD]

Worked scripts many times with two workers; writes of one byte, blocks, and writes, reads and inputs that fail or end at each place of three connections; ends, cuts
and bad sizes while others have calls under way; a thousand connections one after the other and at once; threads that can't be started, for each number of them
(as root alone); and of `thriftd serve` a journal whose file is full at each few bytes (bench/trials/failing_journal.py). All of it takes some minutes, with --quick some
twenty seconds. It prints a line for each part, how many runs there were, and ends with status 1 where a run ended otherwise than with status 0 and a right
report. THRIFTD is the program that ./thriftd runs where it isn't said. It is no test of the gate.
"""
import concurrent.futures
import contextlib
import itertools
import os
import subprocess
import sys
import tempfile
import threading
import time

import failing_journal
import judge
import rehearsal_mixes as mixes
import rehearsal_model as model
import unstarted_threads
from built import TOP, built_program

sys.path.append(os.path.join(TOP, ".ci/suites"))
from rows import rows_of

AT_ONCE, MOST_SECONDS = 2, 120
LEAST = (30, 30)


class Runs:
    """Runs of the program, what is wrong with them, and where the scripts and reports of those are kept."""

    def __init__(self, program, is_quick):
        self.program, self.is_quick, self.pool = program, is_quick, concurrent.futures.ThreadPoolExecutor(AT_ONCE)
        self.right, self.lock, self.count, self.wrong, self.folder = set(), threading.Lock(), 0, 0, None

    def command(self, workers, *limits):
        words = [self.program, "record", "@tutorial", "binary", str(workers), "Calculator=calculator"]
        return words + ["%s=%d" % pair for pair in zip(("--max-frame", "--read-budget"), limits)]

    def record(self, text, workers, *limits):
        """Runs a script, and judges the report."""
        try:
            done = subprocess.run(self.command(workers, *limits), input=text, capture_output=True, check=False, timeout=MOST_SECONDS)
        except subprocess.TimeoutExpired:
            return self.note(text, "", "it didn't end", workers, *limits)
        return self.judge(done, text, workers, *limits)

    def judge(self, done, text, workers, *limits):
        """Judges what a run ended with; reports that were found right already aren't judged again."""
        report, found = done.stdout.decode(), None
        key = hash((text, report, limits))
        if done.returncode or done.stderr:
            found = "status %d, %s" % (done.returncode, done.stderr.decode())
        elif key not in self.right:
            found = judge.judge(text, report, workers, *limits)
            # There is memory for all of them.
            found = found or (" NoMemory " in report and "a connection ended for want of memory") or None
        return self.note(text, report, found, workers, *limits, key=key)

    def note(self, text, report, found, *numbers, key=None):
        with self.lock:
            self.count += 1
            if found is None:
                self.right.add(key)
                return
            self.wrong += 1
            self.folder = self.folder or tempfile.mkdtemp(prefix="recorded-")
            base = os.path.join(self.folder, "%d" % self.wrong)
        with open(base + ".script", "wb") as script, open(base + ".report", "w", encoding="utf-8") as out:
            script.write(text)
            out.write(report)
        print("%s.script with %s: %s" % (base, " ".join(map(str, numbers)), found), flush=True)

    def some(self, cases, one_in):
        """All cases, or one in so many where it has to be quick."""
        return itertools.islice(cases, 0, None, one_in) if self.is_quick else cases

    def all_of(self, name, cases):
        """Records each of these, words behind a script, and tells of them."""
        with self.part(name):
            for _ in self.pool.map(lambda case: self.record(*case), cases):
                pass

    @contextlib.contextmanager
    def part(self, name):
        """Tells how many runs there were, and how long they took."""
        before, begin = self.count, time.monotonic()
        yield
        print("%s: %d runs, %.0f s" % (name, self.count - before, time.monotonic() - begin), flush=True)


# --- scripts

def call(name, number, *fields, kind=1):
    return model.message(name, kind, number, b"".join(fields) + b"\0")


def add(a, b, number=0):
    return call(b"add", number, mixes.number_field(1, a), mixes.number_field(2, b))


def calculate(logid, a, b, op, number=0):
    work = mixes.number_field(1, a) + mixes.number_field(2, b) + mixes.number_field(3, op)
    return call(b"calculate", number, mixes.number_field(1, logid), b"\x0c\x00\x02" + work + b"\0")


def get_struct(key, number=0):
    return call(b"getStruct", number, mixes.number_field(1, key))


# What each of three connections sends: results, exceptions of the calculator and of the host, calls without a reply, and keys that the others set.
THREE = [
    [call(b"ping", 0), add(1, 1, 1), call(b"zip", 2), calculate(1, 5, 0, 4, 3), calculate(7, 20, 22, 1, 4), get_struct(7, 5)],
    [call(b"add", 6, mixes.number_field(1, 3), kind=4), get_struct(7, 7), call(b"none", 8), add(1, 1)[:3] + b"\x1d" + add(1, 1)[4:-1], calculate(8, 3, 4, 3, 9)],
    [call(b"calculate", 10, mixes.number_field(1, 8)), calculate(8, 1, 1, 9, 11), get_struct(8, 12), call(b"zip", 13), add(2 ** 31 - 1, 1, 14), call(b"ping", 15)],
]


def replies(frames):
    """How many frames are answered."""
    decided = [model.decide(frame[4:]) for frame in frames]
    return sum(found[0] == "reply" or found[0] == "invoke" and not found[3] for found in decided)


def script(many, ends, rules=()):
    """Connections that bring these pieces, a round at a time, and end so, with these rules."""
    lines = ["open"] * len(many) + list(rules)
    for pieces in itertools.zip_longest(*many):
        lines += ["data %d %s" % (c, piece.hex()) for c, piece in enumerate(pieces) if piece]
    return "".join(line + "\n" for line in lines + ["%s %d" % (end, c) for c, end in enumerate(ends)]).encode()


ALL_OF_IT = 4_294_967_295


def worked_scripts():
    """The examples of the calculator, and the rows of recorded runs, without lines of a schedule."""
    for name in sorted(os.listdir(os.path.join(TOP, "examples"))):
        base, kind = os.path.splitext(os.path.join(TOP, "examples", name))
        if kind == ".script" and not os.path.exists(base + ".words"):
            with open(base + kind, "rb") as text:
                yield text.read(), ()
    for text in (row.input for row in rows_of(os.path.join(TOP, "rows/record.rows")) if row.status == 0):
        yield text, ()
        yield text, LEAST


def worked_runs(runs):
    for text, limits in worked_scripts():
        for _ in range(10 if runs.is_quick else 1_000):
            yield text, 2, *limits


def rules_at_each_write():
    """At each write of each connection one that takes a byte, isn't possible yet or fails; one of all connections at once; and bytes one by one."""
    for k in range(max(map(replies, THREE))):
        for kinds in (["write %d 1"], ["block %d"], ["writefail %d"], ["write %d 1", "block %d"], ["write %d 1", "writefail %d"], ["write %d 20", "writefail %d"]):
            each = [["write %d %d" % (c, ALL_OF_IT)] * k + [kind % c for kind in kinds] for c in range(3)]
            yield from each
            yield sum(each, [])
    yield from ([kind % c for _ in range(100) for kind in kinds] for c in range(3) for kinds in (["write %d 1"], ["write %d 1", "block %d"]))


def write_runs(runs):
    for rules in runs.some(rules_at_each_write(), 12):
        for many in (THREE, [[b"".join(frames)] for frames in THREE]):
            for workers in (0, 2, 8):
                yield script(many, ["end"] * 3, rules), workers


def input_runs(runs):
    """The input of one connection ends, or fails, behind each of its bytes."""
    for c, frames in enumerate(THREE):
        whole = b"".join(frames)
        for place, end in runs.some(itertools.product(range(len(whole) + 1), ("end", "readfail")), 15):
            many = [[b"".join(frames)] for frames in THREE]
            many[c] = [whole[:place]]
            for workers in (0, 2, 8):
                yield script(many, [end if k == c else "end" for k in range(3)]), workers


BAD = [b"", b"\0\0", b"\0\0\0\x11", call(b"ping", 0)[:9], b"\0\0\0\0", b"\xff\xff\xff\xff", b"\x7f\xff\xff\xff", b"\0\xfa\0\x01", b"\x80\0\0\0", b"\0\0\0\x02\xab\xcd",
       call(b"ping", 0, kind=2), b"\0\0\0\x08\x80\x02\0\x01\0\0\0\0", b"\0\0\0\x08\x80\x01\0\x01\xff\xff\xff\xff"]


def runs_beside_calls(runs):
    """A connection that ends badly in the middle of the calls of four others, some of its own in front, and with bytes or none behind."""
    others = [[calculate(c, k, c, 1 + k % 4, k) if k % 2 else get_struct((c + 1) % 4, k) for k in range(12)] for c in range(4)]
    for bad, before in runs.some(itertools.product(BAD, range(0, 12)), 5):
        own = [add(k, k, k) for k in range(before)]
        for behind, end in (([], "end"), ([], "readfail"), ([add(1, 1)], "end")):
            for workers in (1, 2, 4, 8):
                yield script(others + [own + [bad] + behind], ["end"] * 4 + [end]), workers


def in_turn(count):
    """Connections that are opened and ended one after the other."""
    lines = []
    for c in range(count):
        lines += ["open", "data %d %s" % (c, calculate(c % 7, c, 1, 1, c).hex()), "data %d %s" % (c, get_struct((c + 3) % 7, c).hex()), "end %d" % c, "rest"]
    return "".join(line + "\n" for line in lines).encode()


def at_once(count):
    """Connections that are open all at once, with three calls each."""
    return script([[add(c, 1, 0), calculate(c % 9, c, 2, 3, 1), get_struct((c + 1) % 9, 2)] for c in range(count)], ["end"] * count)


def many_connections(runs):
    for text in (in_turn(1_000), at_once(1_000), at_once(1_024)):
        for workers in (2,) if runs.is_quick else (0, 1, 2, 4, 8):
            yield text, workers
            yield text, workers, 54, 108
            yield text, workers, 54, 54


def random_runs(runs):
    """Scripts of several connections, with inputs that are cut and broken, rules and rests anywhere."""
    rng = mixes.random.Random(17)
    for _ in range(40 if runs.is_quick else 1_500):
        workers = rng.choice([0, 1, 2, 3, 8])
        lines = mixes.weave(rng, [mixes.lines_of(rng, c, False) for c in range(rng.choice([2, 3, 5, 9]))])
        for _ in range(rng.choice([0, 0, 1, 3])):
            lines.insert(rng.randrange(len(lines) + 1), "rest")
        limits = rng.choice([(), (), (54, 54), (60, 120), (29, 100)])
        yield "".join(line + "\n" for line in lines).encode(), workers, *limits


def busy():
    """Eight connections with calls enough that the threads can be counted meanwhile."""
    return script([[add(c, k, k) for k in range(500)] for c in range(8)], ["end"] * 8)


def clients():
    """What clients send whose calls leave no others' answers longer or shorter."""
    return [[calculate(c, 40 + c, 2, 1, 0), call(b"zip", 1), get_struct(c, 2), call(b"none", 3), add(c, 1, 4), calculate(c, 5, 0, 4, 5)] for c in range(4)]


def main(words):
    is_quick = words[:1] == ["--quick"]
    words = words[is_quick:]
    if len(words) > 1:
        sys.exit(__doc__)
    runs = Runs(os.path.abspath(words[0] if words else built_program()), is_quick)
    runs.all_of("worked scripts, two workers", worked_runs(runs))
    runs.all_of("a write of one byte, a block, a fault at each write", write_runs(runs))
    runs.all_of("an input that ends or fails at each byte", input_runs(runs))
    runs.all_of("ends, cuts and bad sizes beside calls", runs_beside_calls(runs))
    runs.all_of("a thousand connections, in turn and at once", many_connections(runs))
    runs.all_of("random scripts", random_runs(runs))
    with runs.part("threads that can't be started"):
        if not unstarted_threads.all_of(runs, busy()):
            runs.wrong += 1
            print("not every number of threads was seen")
    with runs.part("a journal whose file is full"):
        failing_journal.all_of(runs, clients())
    print("recorded runs: %d, %d wrong" % (runs.count, runs.wrong))
    return 1 if runs.wrong else 0


if __name__ == "__main__":
    sys.exit(main(sys.argv[1:]))
