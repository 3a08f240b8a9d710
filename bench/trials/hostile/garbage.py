"""Clients that send what no client should."""
import random
import struct

from messages import add, call, connect, exception_type, frame, reply, sum_reply, word
from server import check
from stage import Stage

MOST_FRAME = 262144
ROUNDS = 4
STRICT = struct.pack(">I", 0x80010001)
NOISE = random.Random(7).randbytes(65536)
SIZES = [0, -1, -2**31, 2**31 - 1, MOST_FRAME + 1]
# What ends a connection, by itself, and as what.
ENDING = [(struct.pack(">i", size), "SizeFault %d" % size) for size in SIZES] + [
    (b"GET / HTTP/1.1\r\nHost: localhost\r\n\r\n", "SizeFault 1195725856"),
    (bytes.fromhex("1603010200010001fc0303"), "SizeFault 369295618"),
    (NOISE, "SizeFault %d" % struct.unpack(">i", NOISE[:4])),
    (frame(b"\xab\xcd"), "Envelope Short"),
    (frame(NOISE[:1000]), "Envelope"),
    (frame(struct.pack(">I", 0x80020001) + word(b"add") + b"\0\0\0\0\0"), "Envelope Version"),
    (frame(STRICT + struct.pack(">i", -1) + b"\0\0\0\0\0"), "Envelope NameSize"),
    (frame(STRICT + struct.pack(">i", 2**31 - 1) + b"add"), "Envelope Short"),
    (frame(struct.pack(">I", 0x80010002) + word(b"add") + b"\0\0\0\0\0"), "Envelope MessageType 2"),
]
# What is answered with an exception of this type; the next call on the connection is made.
ANSWERED = [
    (call("sing"), 1),
    (call("x" * 60000), 1),
    (call("add", b"\x08\x00\x01\x00"), 7),
    (call("add", b"\x63\x00\x01"), 7),
    (call("add", struct.pack(">bhbi", 15, 1, 2, 2**31 - 1)), 7),
    (call("add", struct.pack(">bhbi", 15, 1, 2, -1)), 7),
    (call("add", struct.pack(">bhbbi", 13, 1, 11, 11, 2**30)), 7),
    (call("add", struct.pack(">bhi", 11, 1, 2**31 - 1)), 7),
    (call("add", b"\x0c\x00\x01" * 1000), 7),
]


def garbage(bench, workers):
    """Sizes that no frame has, other protocols, noise, heads that are none; and arguments that can't be read, which end nothing."""
    with Stage(bench, workers, ROUNDS * (len(ENDING) + len(ANSWERED)), frame=MOST_FRAME, reply=70000, tree=16 * 60000) as stage:
        causes, calls = [], []
        for _ in range(ROUNDS):
            for text, cause in ENDING:
                await_end(stage.server.port, text, cause)
                causes.append([cause])
                calls.append((0, 0))
            for text, kind in ANSWERED:
                await_exception(stage.server.port, text, kind)
                causes.append(["End"])
                calls.append((1, 1))
        return stage.end(causes, calls)


def await_end(port, text, cause):
    """The server has to end the connection, though the client doesn't."""
    with connect(port) as s:
        try:
            s.sendall(text)
            check(not s.recv(1), "what ends by %s is answered" % cause)
        except ConnectionError:
            pass


def await_exception(port, text, kind):
    with connect(port) as s:
        s.sendall(text + add(1, 1, ""))
        got = reply(s)
        check(got and exception_type(got) == kind, "%r is answered with %r" % (text[:60], got))
        check(reply(s) == sum_reply(2), "the call behind an exception isn't answered")
