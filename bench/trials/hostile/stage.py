"""A server with a canary on its first connection, for one part, and what both have to come to."""
import os
import subprocess
import sys

from server import ONE_PAIR, Server, Wrong, check

# The room for a connection's bytes that are read ahead, and for those that wait to be sent.
BLOCKS = 2 * 16384


class Canary:
    def __init__(self, port, prefix):
        script = os.path.join(os.path.dirname(os.path.abspath(__file__)), "canary.py")
        self.run = subprocess.Popen([sys.executable, script, str(port), prefix], stdin=subprocess.PIPE, stdout=subprocess.PIPE, stderr=subprocess.PIPE, text=True)
        if self.run.stdout.readline() != "ready\n":
            raise Wrong("the canary ended: %s" % self.run.communicate()[1])

    def stop(self):
        """How many calls it made, the longest time of an answer, and how late it woke at the latest, in milliseconds."""
        out, err = self.run.communicate("stop\n", timeout=30)
        check(self.run.returncode == 0, "the canary ended: %s" % err.strip().splitlines()[-1:])
        calls, longest, late = out.split()
        return int(calls), float(longest), float(late)

    def kill(self):
        if self.run.poll() is None:
            self.run.kill()
            self.run.communicate()


class Stage:
    """What a part runs on. Its clients connect one behind the other, so that the connections have their numbers, from 1, in that order.

    The memory that is allowed is what there was with the canary alone, and the budget for frames, for each connection (of `at_once`, or all) two blocks and the
    longest `reply`, for each call that is worked on its `tree`, in bytes, and what is `kept`."""

    def __init__(self, bench, workers, clients, pairs=ONE_PAIR, reply=4096, tree=65536, budget=1048576, frame=262144, kept=0, at_once=None, limit=None):
        self.bench, self.workers, self.clients = bench, workers, clients
        self.prefix = "Calculator:" if len(pairs) > 1 else ""
        bounds = ["--read-budget", str(budget), "--max-frame", str(frame)]
        self.server = Server(bench.program, bench.room, workers, clients + 1, pairs, bounds, limit=limit)
        self.allowed = budget + ((at_once or clients) + 1) * (BLOCKS + reply) + max(1, workers) * tree + kept
        self.canary = None

    def __enter__(self):
        try:
            self.server.await_listening()
            self.canary = Canary(self.server.port, self.prefix)
            self.base, self.is_sanitized = self.server.memory(), self.server.is_sanitized()
            self.descriptors = self.server.descriptors()
        except BaseException:
            self.__exit__()
            raise
        return self

    def __exit__(self, *_):
        if self.canary:
            self.canary.kill()
        self.server.kill()

    def end(self, causes, calls):
        """Ends the part. `causes` are those that each client's connection may have ended by, `calls` how many calls each may have made, as a least and a most."""
        self.server.await_descriptors(self.descriptors)
        memory = self.server.memory()
        made, longest, late = self.canary.stop()
        summary = self.server.end().splitlines()
        journal = self.server.journal_lines()
        self.check_causes(summary[:-1], causes)
        check(summary[-1] == "calls %d" % len(journal), "the summary ends with %r, the journal has %d lines" % (summary[-1], len(journal)))
        self.check_journal(journal, made, calls)
        allowed = self.base + self.allowed
        said = "%d connections, %d calls; canary %d calls, %.0f ms at most, up to %d others between two, woken late by %.0f ms; memory %.1f MB at first, %.1f MB at most of %.1f MB" % (
            self.clients + 1, len(journal), made, longest, most_between(journal), late, self.base / 1e6, memory / 1e6, allowed / 1e6)
        check(longest <= self.bench.milliseconds, "the canary waits too long: " + said)
        check(self.is_sanitized or memory <= allowed, "too much memory is taken: " + said)
        return said

    def check_causes(self, lines, causes):
        check(len(lines) == self.clients + 1, "the summary has %d connections" % len(lines))
        for c, (line, may) in enumerate(zip(lines, [["End"], *causes])):
            head = "conn %d " % c
            check(line.startswith(head) and any(line[len(head):].startswith(cause) for cause in may), "%r, and not one of %s" % (line, may))

    def check_journal(self, journal, made, calls):
        """The canary's lines are its calls; of each other connection there are as many as may be, numbered in order."""
        lines = [[] for _ in range(self.clients + 1)]
        for line in journal:
            lines[int(line.split(" ", 2)[1])].append(line)
        wanted = ["call 0 %d 0 add {1=%di,2=7i} ok %di" % (k, k, k + 7) for k in range(made)]
        check(lines[0] == wanted, "the canary's calls aren't as they stand in the journal")
        for c, (own, (least, most)) in enumerate(zip(lines[1:], calls), 1):
            check(least <= len(own) <= most, "connection %d made %d calls, and not %d to %d" % (c, len(own), least, most))
            numbers = [int(line.split(" ", 3)[2]) for line in own]
            check(numbers == sorted(set(numbers)), "the calls of connection %d aren't in order" % c)


def most_between(journal):
    """How many calls of other connections stand between two of the canary's at most."""
    places = [at for at, line in enumerate(journal) if line.startswith("call 0 ")]
    return max(behind - before - 1 for before, behind in zip(places, places[1:]))
