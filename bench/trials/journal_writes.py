#!/usr/bin/env python3
"""Looks at how `thriftd serve` writes its journal, and at journals of a million entries: journal_writes.py [THRIFTD]

- Under `strace`, with eight connections, each of which makes a thousand calls and then is idle for a second: each write to the journal's file but the last has 65,536 bytes,
  and the last one comes once all is over, so nothing is written between two full buffers. A call whose line is longer than the buffer is among them.
- With the journal at /dev/full: a port whose lines find room in the buffer ends all its connections well, and then with status 9; one with more lines stops them.
- A rehearsal of a million calls prints a million lines in order, and a port to which a million calls come leaves as many lines in its file, those of each connection in order.

It prints what it found, and ends with status 1 where that isn't so. It needs `strace`. It is no test of the gate."""
import collections
import os
import re
import socket
import subprocess
import sys
import tempfile
import threading

from built import built_program

BUFFER, SECONDS = 65_536, 300
PING = bytes.fromhex("00000011800100010000000470696e670000000000")
PONG = bytes.fromhex("00000011800100020000000470696e670000000000")
SHORT_PING = "000000098221010470696e6700"
WROTE = re.compile(r"write\(\d+<([^>]*)>.* = (\d+)$")


def demand(holds, what):
    if not holds:
        sys.exit("journal_writes: " + what)


def say(text):
    """A call of `say` of the service Echo with a text, and its reply."""
    argument = b"\x0b\0\x01" + len(text).to_bytes(4, "big") + text + b"\0"
    parts = [b"\x80\x01\0" + kind + b"\0\0\0\x03say\0\0\0\x01" + it for kind, it in ((b"\x01", argument), (b"\x02", b"\x0b\0\0" + argument[3:]))]
    return [len(part).to_bytes(4, "big") + part for part in parts]


class Server:
    """A server of some words in front, with its journal at a place, to which so many connections come."""

    def __init__(self, program, front, service, journal, connections, folder):
        with socket.socket() as free:
            free.bind(("127.0.0.1", 0))
            self.port = free.getsockname()[1]
        with open(os.path.join(folder, "echo.thrift"), "w", encoding="ascii") as idl:
            idl.write("service Echo { binary say(1: binary text), void ping() }\n")
        idl, pair = ("@tutorial", "Calculator=calculator") if service == "Calculator" else (os.path.join(folder, "echo.thrift"), "Echo=mirror")
        words = [*front, program, "serve", idl, "binary", "0", pair, "--listen", str(self.port), "--accept", str(connections), "--journal", journal]
        self.run = subprocess.Popen(words, stdout=subprocess.PIPE, stderr=subprocess.PIPE, text=True)
        demand(self.run.stdout.readline() == "listening 127.0.0.1:%d\n" % self.port, "the server doesn't listen")

    def connect(self):
        return socket.create_connection(("127.0.0.1", self.port), timeout=SECONDS)

    def end(self):
        output, errors = self.run.communicate(timeout=SECONDS)
        return self.run.returncode, output, errors


def call(link, frames, replies):
    """Sends frames, and demands their replies."""
    sender = threading.Thread(target=link.sendall, args=(frames,))
    sender.start()
    came = bytearray()
    while len(came) < len(replies):
        part = link.recv(1 << 20)
        demand(part, "a connection ended before its replies")
        came += part
    sender.join()
    demand(came == replies, "a reply isn't the right one")


def written(trace, journal):
    """How many bytes each write to a file had, in order."""
    with open(trace, encoding="utf-8", errors="replace") as held:
        found = (WROTE.search(line.rstrip("\n")) for line in held)
        return [int(it[2]) for it in found if it and it[1] == journal]


def look_at_writes(program, folder):
    trace, journal = os.path.join(folder, "trace"), os.path.join(folder, "calls")
    server = Server(program, ["strace", "-f", "-qq", "-y", "-e", "trace=write", "-s", "0", "-o", trace], "Echo", journal, 8, folder)
    links = [server.connect() for _ in range(8)]
    (small, answer), (large, echo) = say(b"x"), say(b"y" * 100_000)
    for k, link in enumerate(links):
        call(link, small * 1_000 + large * (k == 3), answer * 1_000 + echo * (k == 3))
    before = written(trace, journal)
    threading.Event().wait(1)
    demand(written(trace, journal) == before, "the journal is written while nothing comes")
    for link in links:
        link.close()
    status, output, errors = server.end()
    demand(status == 0 and not errors and output.endswith("calls 8001\n"), "status %d, %r, %r" % (status, output[-200:], errors))
    sizes = written(trace, journal)
    demand(sizes == [BUFFER] * (len(sizes) - 1) + [os.path.getsize(journal) % BUFFER], "writes of %s" % collections.Counter(sizes))
    demand(sizes[:-1] == before, "more than the rest is written at the end")
    with open(journal, encoding="ascii") as held:
        demand(len(held.readlines()) == 8_001, "the file hasn't a line for each call")
    print("8,001 calls, %d bytes of lines: %d writes of %d bytes and, once all was over, one of %d" % (os.path.getsize(journal), len(sizes) - 1, BUFFER, sizes[-1]))


def look_at_a_full_device(program, folder):
    """What a port comes to whose journal's first write fails, with few calls and with many."""
    for calls, cause in ((2, "End"), (4_000, "Stopped")):
        server = Server(program, [], "Calculator", "/dev/full", 1, folder)
        with server.connect() as link:
            try:
                link.sendall(PING * calls)
                link.shutdown(socket.SHUT_WR)
                while link.recv(1 << 20):
                    pass
            except ConnectionError:
                demand(cause == "Stopped", "a connection is broken off")
        status, output, errors = server.end()
        lines = output.splitlines()
        demand((status, errors) == (9, "thriftd: journal fault\n"), "at /dev/full: status %d, %r" % (status, errors))
        demand(lines[0] == "conn 0 " + cause and re.fullmatch(r"calls \d+", lines[1]) and len(lines) == 2, "at /dev/full: %r" % output)
        demand(cause == "Stopped" or lines[1] == "calls 2", "at /dev/full: %r" % output)
        print("/dev/full, %d calls: status 9, %s" % (calls, ", ".join(lines)))


def look_at_a_million(program, folder):
    script = "open\n" + ("data 0 " + SHORT_PING * 1_000 + "\n") * 1_000 + "end 0\n"
    run = subprocess.run([program, "rehearse", "@tutorial", "compact", "0", "Calculator=calculator"], input=script, capture_output=True, text=True, timeout=SECONDS, check=False)
    lines = [line for line in run.stdout.splitlines() if line.startswith("call")]
    demand(run.returncode == 0 and lines == ["call 0 %d 0 ping {} empty" % i for i in range(1_000_000)] + ["calls 1000000"], "a rehearsal of a million calls isn't right")
    print("rehearsed: 1,000,000 lines in order")
    journal = os.path.join(folder, "calls")
    server = Server(program, [], "Calculator", journal, 2, folder)
    callers = [threading.Thread(target=call_half, args=(server.connect(),)) for _ in range(2)]
    for caller in callers:
        caller.start()
    status, output, errors = server.end()
    for caller in callers:
        caller.join()
    demand((status, output, errors) == (0, "conn 0 End\nconn 1 End\ncalls 1000000\n", ""), "a port with a million calls: status %d, %r, %r" % (status, output, errors))
    with open(journal, encoding="ascii") as held:
        lines = held.read().splitlines()
    for c in range(2):
        own = [line for line in lines if line.startswith("call %d " % c)]
        demand(own == ["call %d %d 0 ping {} empty" % (c, i) for i in range(500_000)], "the lines of connection %d aren't in order" % c)
    demand(len(lines) == 1_000_000, "the file has %d lines" % len(lines))
    print("served: 1,000,000 lines, those of each connection in order")


def call_half(link):
    with link:
        for _ in range(50):
            call(link, PING * 10_000, PONG * 10_000)


def main(program=None):
    program = program or built_program()
    with tempfile.TemporaryDirectory() as folder:
        look_at_writes(program, folder)
        look_at_a_full_device(program, folder)
        look_at_a_million(program, folder)


if __name__ == "__main__":
    main(*sys.argv[1:])
