#!/usr/bin/env python3
"""Writes a recorded connection of many calls as a script: mixes.py FOLDER MIX PROTOCOL MEGABYTES [LINES]

MIX is `add`, `calculate` (with a struct), `store` (puts and gets of a thousand keys) or `mirror` (a list of a hundred structs). PROTOCOL is
`binary` or `compact`. The script has about so many million bytes, a piece each call, and stands in FOLDER/script, what it is served by in
FOLDER/mix.thrift. Prints the number of calls, and behind it the words of the command. With LINES, each call's piece is cut into so many."""
import os
import struct
import sys

IDLS = {
    "store": "service Store {\n  void put(1: binary key, 2: binary value),\n  binary get(1: binary key),\n  binary swap(1: binary key, 2: binary value),\n"
    "  list<binary> keys(),\n  oneway void forget(1: binary key)\n}\n",
    "mirror": "struct Point { 1: i32 x, 2: i32 y }\nservice Points { list<Point> same(1: list<Point> points) }\n",
}
CODES = {"binary": {"i32": 8, "bytes": 11, "struct": 12, "list": 15}, "compact": {"i32": 5, "bytes": 8, "struct": 12, "list": 9}}


def varint(number):
    groups = bytearray()
    while number > 127:
        groups.append(128 | number & 127)
        number >>= 7
    groups.append(number)
    return bytes(groups)


def zigzag(number):
    return (number << 1) ^ (number >> 31) & 0xFFFFFFFF


def binary(value):
    kind, content = value[0], value[1]
    if kind == "i32":
        return struct.pack(">i", content)
    if kind == "bytes":
        return struct.pack(">i", len(content)) + content
    if kind == "list":
        return struct.pack(">bi", CODES["binary"][content], len(value[2])) + b"".join(binary(item) for item in value[2])
    return b"".join(struct.pack(">bh", CODES["binary"][field[0]], number) + binary(field) for number, field in content) + b"\0"


def compact(value):
    kind, content = value[0], value[1]
    if kind == "i32":
        return varint(zigzag(content))
    if kind == "bytes":
        return varint(len(content)) + content
    if kind == "list":
        count, code = len(value[2]), CODES["compact"][content]
        head = bytes([count << 4 | code]) if count < 15 else bytes([240 | code]) + varint(count)
        return head + b"".join(compact(item) for item in value[2])
    text, before = b"", 0
    for number, field in content:
        code = CODES["compact"][field[0]]
        text += (bytes([(number - before) << 4 | code]) if 0 < number - before < 16 else bytes([code]) + varint(zigzag(number))) + compact(field)
        before = number
    return text + b"\0"


def frame(protocol, name, sequence, arguments):
    word = name.encode()
    if protocol == "binary":
        payload = struct.pack(">Ii", 0x80010001, len(word)) + word + struct.pack(">i", sequence) + binary(arguments)
    else:
        payload = b"\x82\x21" + varint(sequence) + varint(len(word)) + word + compact(arguments)
    return struct.pack(">i", len(payload)) + payload


def signed(number):
    return (number & 0xFFFFFFFF ^ 0x80000000) - 0x80000000


def call(mix, k):
    """The method and the arguments of call k."""
    a, b = ("i32", signed(k * 7919 & 0x7FFFFFFF)), ("i32", signed(k * 104729))
    if mix == "add":
        return "add", ("struct", [(1, a), (2, b)])
    if mix == "calculate":
        return "calculate", ("struct", [(1, ("i32", k % 1000)), (2, ("struct", [(1, a), (2, b), (3, ("i32", 1 + k % 3))]))])
    if mix == "store":
        key = ("bytes", b"key number %d" % (k // 2 * 7919 % 1000))
        return ("get", ("struct", [(1, key)])) if k % 2 else ("put", ("struct", [(1, key), (2, ("bytes", b"the value at call number %d" % k))]))
    points = [("struct", [(1, ("i32", signed(k * 7919 + i))), (2, ("i32", signed(i * 104729)))]) for i in range(100)]
    return "same", ("struct", [(1, ("list", "struct", points))])


def words(folder, mix, protocol):
    if mix in IDLS:
        idl = os.path.join(folder, "mix.thrift")
        with open(idl, "w") as out:
            out.write(IDLS[mix])
        return [idl, protocol, "0", "Store=store" if mix == "store" else "Points=mirror"]
    return ["@tutorial", protocol, "0", "Calculator=calculator"]


def main():
    folder, mix, protocol, size = sys.argv[1], sys.argv[2], sys.argv[3], int(float(sys.argv[4]) * 1000000)
    pieces = int(sys.argv[5]) if len(sys.argv) > 5 else 1
    some = []
    for k in range(200 if mix == "mirror" else 4000):
        name, arguments = call(mix, k)
        text = frame(protocol, name, k, arguments).hex()
        step = (len(text) // 2 + pieces - 1) // pieces * 2
        some.append("".join("data 0 %s\n" % text[at:at + step] for at in range(0, len(text), step)))
    written = calls = 0
    with open(os.path.join(folder, "script"), "w") as out:
        out.write("open\n")
        while written < size:
            lines = some[calls % len(some)]
            out.write(lines)
            written += len(lines)
            calls += 1
        out.write("end 0\n")
    print(calls, *words(folder, mix, protocol))

if __name__ == "__main__":
    main()
