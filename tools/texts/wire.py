"""Payloads in the binary and the compact protocol, read: message heads, and structs as they came (docs/PROFILE.md,
'Message heads' and 'Values in the binary protocol'). Bytes that are none raise a Fault."""
import struct
from typing import NamedTuple

from . import Fault
from .values import MOST_LEVELS, Value

CALL, REPLY, EXCEPTION, ONEWAY = 1, 2, 3, 4
MOST_VALUES = 4_000_000
NO_ITEMS = ("bool",)
BINARY_TAGS = {
    2: "bool",
    3: "i8",
    4: "double",
    6: "i16",
    8: "i32",
    10: "i64",
    11: "bytes",
    12: "struct",
    13: "map",
    14: "set",
    15: "list",
    16: "uuid",
}
COMPACT_TAGS = {
    1: "bool",
    2: "bool",
    3: "i8",
    4: "i16",
    5: "i32",
    6: "i64",
    7: "double",
    8: "bytes",
    9: "list",
    10: "set",
    11: "map",
    12: "struct",
    13: "uuid",
}
WIDTHS = {"i8": 1, "i16": 2, "i32": 4, "i64": 8, "double": 8, "uuid": 16}


class Message(NamedTuple):
    """A payload: its type (1 call, 2 reply, 3 exception, 4 oneway), the name, the sequence id, and the struct."""

    type: int
    name: str
    id: int
    body: Value


class Reader:
    """Reads a payload from the front. Each protocol says how numbers, fields and the sizes of containers stand."""

    tags = {}

    def __init__(self, data, at=0):
        self.data, self.at, self.count = data, at, 0

    def take(self, count):
        if count > len(self.data) - self.at:
            raise Fault("the bytes end inside a value", self.at)
        self.at += count
        return self.data[self.at - count : self.at]

    def byte(self):
        return self.take(1)[0]

    def big(self, width):
        """A signed number, the highest byte first."""
        return int.from_bytes(self.take(width), "big", signed=True)

    def tag(self, code):
        if code not in self.tags:
            raise Fault("the code %d stands for no type" % code, self.at)
        return self.tags[code]

    def within(self, size):
        """A size or a length, of which each takes a byte at least."""
        if size < 0 or size > len(self.data) - self.at:
            raise Fault("%d elements or bytes in the %d that are left" % (size, len(self.data) - self.at), self.at)
        return size

    def name(self):
        return self.take(self.within(self.size())).decode("latin-1")

    def value(self, tag, levels):
        self.count += 1
        if self.count > MOST_VALUES:
            raise Fault("more than %d values" % MOST_VALUES, self.at)
        if tag in ("struct", "map", "set", "list"):
            if not levels:
                raise Fault("more than %d levels" % MOST_LEVELS, self.at)
            return self.container(tag, levels - 1)
        if tag == "bytes":
            return Value(tag, bytes(self.take(self.within(self.size()))))
        if tag == "uuid":
            return Value(tag, bytes(self.take(16)))
        return Value(tag, self.number(tag))

    def container(self, tag, levels):
        if tag == "struct":
            return Value(tag, self.fields(levels))
        if tag == "map":
            size, of = self.map_head()
            return Value(tag, [tuple(self.value(one, levels) for one in of) for _ in range(size)], of)
        size, of = self.list_head()
        return Value(tag, [self.value(of[0], levels) for _ in range(size)], of)

    def body(self):
        """The struct in front."""
        return self.value("struct", MOST_LEVELS)


class Binary(Reader):
    """The binary protocol."""

    tags = BINARY_TAGS

    def head(self):
        first = self.big(4)
        if first < 0:
            if first >> 16 != -0x8000 + 1:
                raise Fault("no version of a message: %08x" % (first & 0xFFFFFFFF))
            return first & 0xFF, self.name(), self.big(4)
        name = self.take(self.within(first)).decode("latin-1")
        return self.byte(), name, self.big(4)

    def size(self):
        return self.big(4)

    def number(self, tag):
        if tag == "bool":
            return self.byte() == 1
        return int.from_bytes(self.take(8), "big") if tag == "double" else self.big(WIDTHS[tag])

    def fields(self, levels):
        found = []
        while True:
            code = self.byte()
            if code == 0:
                return found
            tag = self.tag(code)
            number = self.big(2)
            found.append((number, self.value(tag, levels)))

    def map_head(self):
        codes, size = self.take(2), self.within(self.size())
        return size, tuple(map(self.tag, codes)) if size else NO_ITEMS * 2

    def list_head(self):
        code, size = self.byte(), self.within(self.size())
        return size, (self.tag(code),) if size else NO_ITEMS


class Compact(Reader):
    """The compact protocol."""

    tags = COMPACT_TAGS

    def head(self):
        front = self.take(2)
        if front[0] != 0x82 or front[1] & 0x1F != 1:
            raise Fault("no version of a message: %s" % front.hex())
        number = self.varint(5) & 0xFFFFFFFF
        return front[1] >> 5, self.name(), number - (1 << 32) if number >> 31 else number

    def varint(self, most):
        number = 0
        for place in range(most):
            byte = self.byte()
            number |= (byte & 0x7F) << 7 * place
            if not byte & 0x80:
                return number
        raise Fault("a number of more than %d bytes" % most, self.at)

    def zigzag(self, width, most):
        """A signed number of so many bits."""
        number = self.varint(most) & (1 << width) - 1
        return number >> 1 ^ -(number & 1)

    def size(self):
        return self.varint(5) & 0xFFFFFFFF

    def number(self, tag):
        if tag == "bool":
            return self.byte() == 1
        if tag == "i8":
            return self.big(1)
        if tag == "double":
            return struct.unpack("<Q", self.take(8))[0]
        if tag == "i16":
            return short(self.zigzag(32, 5))
        return self.zigzag(32, 5) if tag == "i32" else self.zigzag(64, 10)

    def fields(self, levels):
        found, last = [], 0
        while True:
            head = self.byte()
            if head == 0:
                return found
            code, step = head & 0x0F, head >> 4
            tag = self.tag(code)
            last = last + step if step else short(self.zigzag(32, 5))
            if last > 32767:
                raise Fault("a field's number above 32767", self.at)
            self.count += tag == "bool"
            found.append((last, Value("bool", code == 1) if tag == "bool" else self.value(tag, levels)))

    def map_head(self):
        size = self.size()
        if not size:
            return 0, NO_ITEMS * 2
        codes = self.byte()
        return self.within(size), (self.tag(codes >> 4), self.tag(codes & 0x0F))

    def list_head(self):
        head = self.byte()
        size = self.size() if head >> 4 == 15 else head >> 4
        return self.within(size), (self.tag(head & 0x0F),) if size else NO_ITEMS


def short(number):
    """The lowest 16 bits, signed."""
    return (number + (1 << 15)) % (1 << 16) - (1 << 15)


PROTOCOLS = {"binary": Binary, "compact": Compact}


def read_message(protocol, payload):
    """The message that a payload is. Bytes behind its struct aren't looked at."""
    reader = PROTOCOLS[protocol](payload)
    type_, name, number = reader.head()
    return Message(type_, name, number, reader.body())


def split_frames(data):
    """The payloads of the frames in front, and the bytes that are left: a part of one, or a size that is none."""
    payloads, at = [], 0
    while at + 4 <= len(data):
        size = int.from_bytes(data[at : at + 4], "big", signed=True)
        if size < 1 or at + 4 + size > len(data):
            break
        payloads.append(bytes(data[at + 4 : at + 4 + size]))
        at += 4 + size
    return payloads, bytes(data[at:])
