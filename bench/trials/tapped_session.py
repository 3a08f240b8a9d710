#!/usr/bin/python3
"""Taps sessions of Apache's Python client at Apache's own server, and plays them anew: tapped_session.py [THRIFTD]

For both protocols, plain and multiplexed: clients of Apache's library (python3-thrift), with code that its compiler
(thrift-compiler) writes from the tutorial's IDL, call Apache's threaded server in Python through `tools/tap`, several
at once and one after the other. `tools/play` sends what was written at a fresh server, at each pace, and its replies
have to compare equal; where a kept reply is changed, the difference has to be told by name. THRIFTD, or what ./thriftd
runs, serves the script too (`rehearse`), and at least a third of the replies have to be the same, byte by byte: both
know how to add. It ends with status 1 where something isn't so."""
import os
import random
import re
import socket
import subprocess
import sys
import tempfile
import threading
import time

from apache_calls import PROTOCOLS, generated, result_of
from built import TOP, built_program
from thrift.protocol import TMultiplexedProtocol
from thrift.transport import TSocket, TTransport

HERE = os.path.dirname(os.path.abspath(__file__))
sys.path.insert(0, os.path.join(TOP, ".ci/suites"))
from screen import free_port  # noqa: E402

CLIENTS, CALLS = 12, 30


def expect(what, got, wanted):
    if got != wanted:
        sys.exit("tapped session: %s: %r and not %r" % (what, got, wanted))


class Server:
    """Apache's server, or a tap, that listens and is ended."""

    def __init__(self, words):
        self.run = subprocess.Popen(words, stdout=subprocess.PIPE, stderr=subprocess.DEVNULL, text=True)
        expect("the first line of %s" % words[1], self.run.stdout.readline()[:9], "listening")

    def __enter__(self):
        return self

    def __exit__(self, *_):
        self.run.terminate()
        self.run.wait()
        self.run.stdout.close()


def apache(folder, protocol, multiplexed, port):
    server = os.path.join(HERE, "servers/server.py")
    return Server(["/usr/bin/python3", server, folder, protocol, "1" if multiplexed else "0", port])


def awaited(port):
    """Waits for a server that begins to listen."""
    for _ in range(500):
        with socket.socket() as link:
            if not link.connect_ex(("127.0.0.1", int(port))):
                return
        time.sleep(0.01)
    sys.exit("tapped session: nobody listens at %s" % port)


def calls(types, seed):
    """What one client calls: methods and arguments."""
    rng = random.Random(seed)
    number = lambda: rng.randrange(-1000, 1000)
    for _ in range(CALLS):
        work = types.Work(
            num1=number(), num2=rng.randrange(0, 3), op=rng.randrange(1, 5), comment=rng.choice([None, "why"])
        )
        method, args = rng.choice(
            [
                ("ping", ()),
                ("add", (number(), number())),
                ("add", (99, 1)),
                ("zip", ()),
                ("calculate", (1, work)),
                ("getStruct", (number(),)),
            ]
        )
        yield method, args


def call_all(modules, protocol, multiplexed, port, seed, results):
    calculator, types, _ = modules
    transport = TTransport.TFramedTransport(TSocket.TSocket("127.0.0.1", int(port)))
    transport.open()
    made = PROTOCOLS[protocol](transport)
    if multiplexed:
        made = TMultiplexedProtocol.TMultiplexedProtocol(made, "Calculator")
    client = calculator.Client(made)
    results[seed] = [result_of(lambda: getattr(client, method)(*args)) for method, args in calls(types, seed)]
    transport.close()


def tapped(modules, folder, protocol, multiplexed, script, replies):
    """Clients call the server through a tap: first six one after the other, then six at once."""
    target, port, results = free_port(), free_port(), {}
    words = [
        os.path.join(TOP, "tools/tap"),
        port,
        target,
        "--out",
        script,
        "--replies",
        replies,
        "--accept",
        str(CLIENTS),
    ]
    with apache(folder, protocol, multiplexed, target):
        awaited(target)
        with Server(["python3", *words]) as tap:
            several = [
                threading.Thread(target=call_all, args=(modules, protocol, multiplexed, port, seed, results))
                for seed in range(CLIENTS)
            ]
            for seed, client in enumerate(several):
                client.start()
                if seed < CLIENTS // 2:
                    client.join()
            for client in several:
                client.join()
            expect("the tap's status", tap.run.wait(20), 0)
    expect("how many clients had their answers", len(results), CLIENTS)


def played(script, port, *words):
    awaited(port)
    done = subprocess.run(
        [os.path.join(TOP, "tools/play"), script, port, *words], capture_output=True, text=True, timeout=60
    )
    return done.returncode, done.stdout, done.stderr


def changed(replies, path):
    """A copy of replies, in which the first answer of an add is another number; how its line has to begin."""
    with open(replies, encoding="ascii") as file:
        lines = file.read().split("\n")
    counts = {}
    for place, line in enumerate(lines):
        connection = line.split(" ")[1]
        counts[connection] = counts.get(connection, -1) + 1
        if "616464" in line and line.endswith("00") and " 80010002" in line:
            lines[place] = line[:-4] + "%02x" % (int(line[-4:-2], 16) ^ 1) + line[-2:]
            break
    with open(path, "w", encoding="ascii") as out:
        out.write("\n".join(lines))
    return "connection %s, reply %d (add): value is " % (connection, counts[connection])


def rehearsed(thriftd, protocol, multiplexed, script, replies):
    """How many replies a rehearsal of the script writes as Apache's server did, of those to `ping` and `add`."""
    bound = ["Calculator=calculator"] + (["shared.SharedService=mirror"] if multiplexed else [])
    with open(script, "rb") as given:
        words = [thriftd, "rehearse", "@tutorial", protocol, "0", *bound]
        done = subprocess.run(words, stdin=given, capture_output=True, text=True)
    expect("the status of `rehearse`", (done.returncode, done.stderr), (0, ""))
    written = {number: bytes_ for number, bytes_ in re.findall(r"^conn (\d+) End (.*)$", done.stdout, re.MULTILINE)}
    expect("the connections", len(written), CLIENTS)
    same = 0
    with open(replies, encoding="ascii") as lines:
        for line in lines:
            _, connection, payload = line.split()
            same += payload in written[connection]
    return same


def check(modules, thriftd, folder, protocol, multiplexed):
    script, replies = os.path.join(folder, "a.script"), os.path.join(folder, "a.replies")
    tapped(modules, folder, protocol, multiplexed, script, replies)
    with open(replies, encoding="ascii") as lines:
        count = len(lines.readlines())
    port = free_port()
    names = ["--compare", replies, "--idl", "@tutorial", "--protocol", protocol]
    with apache(folder, protocol, multiplexed, port):
        for pace in ([], ["--fast"], ["--as", "1"]):
            line = "%d replies on %d connections: equal\n" % (count, CLIENTS)
            expect("played %s" % pace, played(script, port, *names, *pace), (0, line, ""))
        if protocol == "binary":
            path = os.path.join(folder, "b.replies")
            told = changed(replies, path)
            status, out, err = played(script, port, "--compare", path, *names[2:])
            expect("a changed reply", (status, out.startswith(told), out.count("\n"), err), (24, True, 2, ""))
    same = rehearsed(thriftd, protocol, multiplexed, script, replies)
    if same < count // 3:
        sys.exit("tapped session: of %d replies the rehearsal has %d" % (count, same))
    print(
        "tapped session: %s%s: %d replies compare equal, played three times; a rehearsal has %d of them"
        % (protocol, ", multiplexed" if multiplexed else "", count, same)
    )


def main():
    thriftd = os.path.abspath(sys.argv[1] if len(sys.argv) > 1 else built_program())
    os.environ["THRIFTD"] = thriftd
    with tempfile.TemporaryDirectory() as folder:
        modules = generated(folder)
        for protocol in PROTOCOLS:
            for multiplexed in (False, True):
                check(modules, thriftd, folder, protocol, multiplexed)


if __name__ == "__main__":
    main()
