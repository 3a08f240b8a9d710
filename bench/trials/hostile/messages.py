"""Frames of calls in the binary protocol, and what is read of their replies."""
import socket
import struct

CALL, REPLY, EXCEPTION = 1, 2, 3


def frame(payload):
    return struct.pack(">i", len(payload)) + payload


def word(text):
    return struct.pack(">i", len(text)) + text


def call(name, fields=b"", number=0):
    """A call with these fields of its arguments."""
    return frame(struct.pack(">I", 0x80010000 | CALL) + word(name.encode()) + struct.pack(">i", number) + fields + b"\0")


def old_call(name):
    """A call without arguments, behind a head without a version: the shortest frame there is."""
    return frame(word(name.encode()) + struct.pack(">bi", CALL, 0) + b"\0")


def number_field(place, value):
    return struct.pack(">bhi", 8, place, value)


def text_field(place, text):
    return struct.pack(">bh", 11, place) + word(text)


def add(first, second, prefix, number=0):
    return call(prefix + "add", number_field(1, first) + number_field(2, second), number)


def say(text):
    return call("Echo:say", text_field(1, text))


def flags_field(place, count):
    """A list of so many bools."""
    return struct.pack(">bhbi", 15, place, 2, count) + b"\1" * count


def put(key, value):
    return call("Notes:put", text_field(1, key) + text_field(2, value))


def get(key):
    return call("Notes:get", text_field(1, key))


def reply_frame(method, fields):
    """The whole frame that answers the call with the number 0."""
    return frame(struct.pack(">I", 0x80010000 | REPLY) + word(method.encode()) + struct.pack(">i", 0) + fields + b"\0")


def text_reply(method, text):
    return reply_frame(method, text_field(0, text))


def receive(s, count):
    """So many bytes; fewer where the input ends before."""
    got = bytearray()
    while len(got) < count:
        part = s.recv(count - len(got))
        if not part:
            break
        got += part
    return bytes(got)


def reply(s):
    """The next reply: its type, its number and what stands behind its head; nothing at the input's end."""
    size = receive(s, 4)
    if not size:
        return None
    payload = receive(s, struct.unpack(">i", size)[0]) if len(size) == 4 else b""
    if frame(payload)[:4] != size:
        raise ConnectionError("a reply is cut")
    kind = struct.unpack(">I", payload[:4])[0] & 0xFF
    behind = 8 + struct.unpack(">i", payload[4:8])[0]
    return kind, struct.unpack(">i", payload[behind:behind + 4])[0], payload[behind + 4:]


def sum_reply(total, number=0):
    """What `reply` has to answer behind an `add`."""
    return REPLY, number, number_field(0, total) + b"\0"


def empty_reply(number=0):
    """What `reply` has to answer behind a `ping` or a `put`."""
    return REPLY, number, b"\0"


def exception_type(got):
    """The type of an exception that `reply` has answered."""
    kind, _, fields = got
    at = fields.find(b"\x08\x00\x02") if kind == EXCEPTION else -1
    return struct.unpack(">i", fields[at + 3:at + 7])[0] if at >= 0 else None


def connect(port, received=None):
    """A connection to the server; `received` is the size of the system's buffer for what arrives."""
    s = socket.socket()
    if received:
        s.setsockopt(socket.SOL_SOCKET, socket.SO_RCVBUF, received)
    s.settimeout(20)
    s.connect(("127.0.0.1", port))
    s.setsockopt(socket.IPPROTO_TCP, socket.TCP_NODELAY, 1)
    return s


def reset(s):
    """Breaks a connection off."""
    s.setsockopt(socket.SOL_SOCKET, socket.SO_LINGER, struct.pack("ii", 1, 0))
    s.close()
