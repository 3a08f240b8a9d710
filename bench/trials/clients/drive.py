"""Starts `thriftd serve` and has clients call it: drive.py THRIFTD ROOM CLIENT ..

Each CLIENT is a command (client.py, client.cpp): it prints how many calls it made. For each protocol, for plain names, for multiplexed ones and for both at one port
with a default service, with no workers and with two: each client once with a thousand calls in a row; 64 of them at once; then bytes that are no Thrift, a frame that is cut and a size that no frame has, each on a
connection of its own, while a client goes on. The summary has to name the end of each connection, and the journal to have as many lines as there were calls."""
import os
import shlex
import socket
import subprocess
import sys

CLIENTS_AT_ONCE = 64
GARBAGE = [(b"GET / HTTP/1.1\r\n\r\n", "SizeFault 1195725856"), (bytes.fromhex("00000011800100"), "Cut"), (bytes.fromhex("ffffffff"), "SizeFault -1"),
           (bytes.fromhex("00000011000000000000000000000000000000000000"), "Envelope"), (b"", "End")]


def free_port():
    with socket.socket() as s:
        s.bind(("127.0.0.1", 0))
        return s.getsockname()[1]


class Server:
    """A server that was started and listens. It ends once so many connections were accepted and all of them have ended."""

    def __init__(self, thriftd, room, protocol, workers, served, accept):
        self.port, self.journal = free_port(), os.path.join(room, "journal")
        words = [thriftd, "serve", "@tutorial", protocol, str(workers), *served, "--listen", str(self.port), "--accept", str(accept), "--journal", self.journal]
        self.run = subprocess.Popen(words, stdout=subprocess.PIPE, stderr=subprocess.PIPE, text=True)
        line = self.run.stdout.readline()
        if line != "listening 127.0.0.1:%d\n" % self.port:
            sys.exit("clients: the server said %r %r" % (line, self.run.stderr.read()))

    def end(self):
        """The summary's lines behind the first, once the server has ended, and the journal's lines."""
        out, err = self.run.communicate(timeout=60)
        if self.run.returncode or err:
            sys.exit("clients: the server ended with status %d: %s" % (self.run.returncode, err))
        with open(self.journal) as lines:
            return out.splitlines(), lines.read().splitlines()


def start(client, port, protocol, name, rounds, first):
    return subprocess.Popen([*shlex.split(client), str(port), protocol, name, str(rounds), str(first)], stdout=subprocess.PIPE, stderr=subprocess.STDOUT, text=True)


def calls_of(run):
    out, _ = run.communicate(timeout=120)
    if run.returncode:
        sys.exit("clients: a client ended with status %d: %s" % (run.returncode, out))
    return int(out)


def send_garbage(port):
    for text, _ in GARBAGE:
        with socket.create_connection(("127.0.0.1", port)) as s:
            s.sendall(text)
            s.shutdown(socket.SHUT_WR)
            while s.recv(4096):
                pass


def check(thriftd, room, clients, protocol, workers, names):
    served = ["Calculator=calculator"] + ["shared.SharedService=mirror"] * (names != ["-"]) + ["--default", "Calculator"] * (len(names) > 1)
    accept = len(clients) * len(names) + CLIENTS_AT_ONCE + 1 + len(GARBAGE)
    server = Server(thriftd, room, protocol, workers, served, accept)
    keys = iter(range(0, 10 * accept, 10))
    made = sum(calls_of(start(client, server.port, protocol, name, 1000, next(keys))) for client in clients for name in names)
    pairs = [(client, name) for name in names for client in clients]
    runs = [start(client, server.port, protocol, name, 50, next(keys)) for client, name in (pairs * CLIENTS_AT_ONCE)[:CLIENTS_AT_ONCE]]
    made += sum(calls_of(run) for run in runs)
    beside = start(clients[0], server.port, protocol, names[0], 2000, next(keys))
    send_garbage(server.port)
    made += calls_of(beside)
    summary, journal = server.end()
    # What is wrong with a head is another fault in each protocol.
    causes = sorted(line.split(" ", 2)[2] for line in summary if line.startswith("conn "))
    causes = ["Envelope" if cause.startswith("Envelope ") else cause for cause in causes]
    wanted = sorted([cause for _, cause in GARBAGE] + ["End"] * (accept - len(GARBAGE)))
    if causes != wanted:
        sys.exit("clients: the connections ended by %s" % [c for c in causes if c != "End"])
    if summary[-1] != "calls %d" % made or len(journal) != made:
        sys.exit("clients: %d calls were made, the summary says %r, the journal has %d lines" % (made, summary[-1], len(journal)))
    print("%s, %d workers, %s: %d connections, %d calls" % (protocol, workers, " and ".join("plain" if name == "-" else "multiplexed" for name in names), accept, made))


def main():
    thriftd, room, clients = sys.argv[1], sys.argv[2], sys.argv[3:]
    for protocol in ("binary", "compact"):
        for workers in (0, 2):
            for names in (["-"], ["Calculator"], ["-", "Calculator"]):
                check(thriftd, room, clients, protocol, workers, names)


main()
