"""A server that is started for one part, and what is read of it."""
import os
import signal
import resource
import socket
import subprocess
import sys
import time

sys.path.insert(0, os.path.join(os.path.dirname(os.path.abspath(__file__)), ".."))
from tutorial import SHARED, TUTORIAL

OWN = """service Echo { string say(1: string text), list<bool> weigh(1: list<bool> flags) }
service Notes {
  void put(1: binary key, 2: binary value), binary get(1: binary key), binary swap(1: binary key, 2: binary value),
  list<binary> keys(), oneway void forget(1: binary key)
}
"""
ONE_PAIR = ["Calculator=calculator"]
THREE_PAIRS = ONE_PAIR + ["Echo=mirror", "Notes=store"]
# What a status has to be said with.
LINES = {0: "", 5: "thriftd: file fault\n", 7: "thriftd: write fault\n", 8: "thriftd: net fault\n", 9: "thriftd: journal fault\n"}


class Wrong(Exception):
    """Something isn't as it has to be."""


def check(holds, what):
    if not holds:
        raise Wrong(what)


def write_idl(room):
    for name, text in (("hostile", TUTORIAL + OWN), ("shared", SHARED)):
        with open(os.path.join(room, name + ".thrift"), "w") as out:
            out.write(text)


def free_port():
    with socket.socket() as s:
        s.bind(("127.0.0.1", 0))
        return s.getsockname()[1]


class Server:
    """A run of `thriftd serve` on an IDL in a folder of its own."""

    def __init__(self, program, room, workers, accept, pairs=ONE_PAIR, words=(), journal=None, port=None, output=subprocess.PIPE, limit=None, closed=None):
        self.port, self.accept = port or free_port(), accept
        self.journal = journal or os.path.join(room, "journal")
        idl = os.path.join(room, "hostile.thrift")
        line = [program, "serve", idl, "binary", str(workers), *pairs, "--listen", str(self.port), "--accept", str(accept), "--journal", self.journal, *words]
        self.run = subprocess.Popen(line, stdout=output, stderr=subprocess.PIPE, text=True, preexec_fn=lambda: prepare(limit, closed))

    def await_listening(self):
        line = self.run.stdout.readline()
        check(line == "listening 127.0.0.1:%d\n" % self.port, "the server said %r" % line)

    def status_line(self, name):
        with open("/proc/%d/status" % self.run.pid) as lines:
            return next(int(line.split()[1]) for line in lines if line.startswith(name))

    def memory(self):
        """The most memory that it has had, in bytes."""
        return 1024 * self.status_line("VmHWM:")

    def is_sanitized(self):
        """Whether it was built to find faults of memory, and so takes more of it: such a program reserves terabytes of addresses."""
        return self.status_line("VmSize:") > 2**30

    def descriptors(self):
        return len(os.listdir("/proc/%d/fd" % self.run.pid))

    def await_descriptors(self, count):
        """Waits until it has no more than so many descriptors."""
        end = time.monotonic() + 10
        while self.descriptors() > count:
            check(time.monotonic() < end, "the server has %d descriptors and not %d" % (self.descriptors(), count))
            time.sleep(0.02)

    def journal_lines(self):
        """Its whole lines."""
        with open(self.journal) as lines:
            return lines.read().split("\n")[:-1]

    def end(self, status=0, seconds=30):
        """What it has printed behind what was read, once it has ended with this status and the line that belongs to it."""
        try:
            out, err = self.run.communicate(timeout=seconds)
        except subprocess.TimeoutExpired:
            raise Wrong("the server doesn't end") from None
        check(self.run.returncode == status and err == LINES[status], "status %d, %r" % (self.run.returncode, err))
        return out

    def kill(self):
        if self.run.poll() is None:
            self.run.kill()
            self.run.communicate()


def prepare(limit, closed):
    """Sets a limit of the system's for the server, and closes one of its streams. A file that is too long is a fault of a write then, and no signal."""
    if limit:
        signal.signal(signal.SIGXFSZ, signal.SIG_IGN)
        resource.setrlimit(limit[0], (limit[1], limit[1]))
    if closed is not None:
        os.close(closed)
