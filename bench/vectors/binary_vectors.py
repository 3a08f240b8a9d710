#!/usr/bin/env python3
"""Prints crates/format_tests/src/struct_vectors.rt (structs), or crates/format_tests/src/head_vectors.rt (heads).

Each row is made by Apache Thrift's own Python library (Debian package python3-thrift, 0.17.0): a value or a head is
written by its TBinaryProtocol, and the bytes are printed as a Rust byte string. Beside the bytes of a struct stands its
tree as text, made from the value that was written; the script ends with a failure where Apache's own reading of the
bytes gives another text. Run: bench/vectors/binary_vectors.py structs > crates/format_tests/src/struct_vectors.rt, or with heads into
the other file, and then rt fmt in the crate.

The text of a tree is that of `value_text`: a number with the letter of its kind behind it, a double as the letter d and the hexadecimal
digits of its bits, bytes in quotes; a struct as its ids and values in braces, a container as its kinds and what it holds.
"""
import struct
import sys

sys.path.insert(0, "/usr/lib/python3/dist-packages")
from thrift.protocol.TBinaryProtocol import TBinaryProtocol  # noqa: E402
from thrift.Thrift import TMessageType, TType  # noqa: E402
from thrift.transport.TTransport import TMemoryBuffer  # noqa: E402

CODES = {
    "bool": TType.BOOL, "i8": TType.BYTE, "i16": TType.I16, "i32": TType.I32, "i64": TType.I64, "double": TType.DOUBLE,
    "bytes": TType.STRING, "struct": TType.STRUCT, "map": TType.MAP, "set": TType.SET, "list": TType.LIST,
}

# How a value that holds no other is written.
WRITERS = {
    "bool": TBinaryProtocol.writeBool, "i8": TBinaryProtocol.writeByte, "i16": TBinaryProtocol.writeI16,
    "i32": TBinaryProtocol.writeI32, "i64": TBinaryProtocol.writeI64, "double": TBinaryProtocol.writeDouble,
    "bytes": TBinaryProtocol.writeBinary,
}


def put(out, value):
    """Writes a value: a kind, and what it holds."""
    kind = value[0]
    if kind in WRITERS:
        WRITERS[kind](out, value[1])
    elif kind == "struct":
        out.writeStructBegin("")
        for number, inner in value[1]:
            out.writeFieldBegin("", CODES[inner[0]], number)
            put(out, inner)
            out.writeFieldEnd()
        out.writeFieldStop()
        out.writeStructEnd()
    elif kind == "map":
        out.writeMapBegin(CODES[value[1]], CODES[value[2]], len(value[3]))
        for key, inner in value[3]:
            put(out, key)
            put(out, inner)
        out.writeMapEnd()
    elif kind == "set":
        out.writeSetBegin(CODES[value[1]], len(value[2]))
        for inner in value[2]:
            put(out, inner)
        out.writeSetEnd()
    else:
        out.writeListBegin(CODES[value[1]], len(value[2]))
        for inner in value[2]:
            put(out, inner)
        out.writeListEnd()


def count(value):
    """How many values there are, keys and the value itself included."""
    kind = value[0]
    if kind == "struct":
        return 1 + sum(count(inner) for _, inner in value[1])
    if kind == "map":
        return 1 + sum(count(key) + count(inner) for key, inner in value[3])
    if kind in ("set", "list"):
        return 1 + sum(count(inner) for inner in value[2])
    return 1


def depth(value):
    """How many structs and containers stand in one another."""
    kind = value[0]
    if kind == "struct":
        return 1 + max([depth(inner) for _, inner in value[1]] + [0])
    if kind == "map":
        return 1 + max([depth(x) for pair in value[3] for x in pair] + [0])
    if kind in ("set", "list"):
        return 1 + max([depth(inner) for inner in value[2]] + [0])
    return 0


LETTERS = {"i8": "b", "i16": "s", "i32": "i", "i64": "l"}


def quoted(data):
    """Bytes in quotes; other than printable ones by their hexadecimal digits."""
    return '"' + "".join("\\" + chr(b) if b in (34, 92) else chr(b) if 32 <= b < 127 else f"\\x{b:02x}" for b in data) + '"'


def shown(value):
    """The text of a tree."""
    kind = value[0]
    if kind == "bool":
        return "true" if value[1] else "false"
    if kind == "double":
        return "d" + struct.pack(">d", value[1]).hex()
    if kind == "bytes":
        return quoted(value[1])
    if kind == "struct":
        return "{" + ",".join(f"{id_}={shown(x)}" for id_, x in value[1]) + "}"
    if kind == "map":
        return f"map<{value[1]},{value[2]}>{{" + ",".join(f"{shown(key)}={shown(x)}" for key, x in value[3]) + "}"
    if kind in ("set", "list"):
        return f"{kind}<{value[1]}>[" + ",".join(shown(x) for x in value[2]) + "]"
    return f"{value[1]}{LETTERS[kind]}"


KINDS = {code: kind for kind, code in CODES.items()}

# How a value that holds no other is read.
READERS = {
    "bool": TBinaryProtocol.readBool, "i8": TBinaryProtocol.readByte, "i16": TBinaryProtocol.readI16,
    "i32": TBinaryProtocol.readI32, "i64": TBinaryProtocol.readI64, "double": TBinaryProtocol.readDouble,
    "bytes": TBinaryProtocol.readBinary,
}


def taken(source, kind):
    """A value of this kind, as Apache's library reads it."""
    if kind in READERS:
        return (kind, READERS[kind](source))
    if kind == "struct":
        source.readStructBegin()
        fields = []
        while True:
            _, code, number_ = source.readFieldBegin()
            if code == TType.STOP:
                return ("struct", fields)
            fields += [(number_, taken(source, KINDS[code]))]
    if kind == "map":
        key, inner, size = source.readMapBegin()
        return ("map", KINDS[key], KINDS[inner], [(taken(source, KINDS[key]), taken(source, KINDS[inner])) for _ in range(size)])
    code, size = source.readSetBegin() if kind == "set" else source.readListBegin()
    return (kind, KINDS[code], [taken(source, KINDS[code]) for _ in range(size)])


def number(bits):
    """The double of these 64 bits."""
    return struct.unpack(">d", struct.pack(">Q", bits))[0]


SCALARS = [
    ("bool", False), ("bool", True),
    ("i8", 0), ("i8", 1), ("i8", -1), ("i8", 127), ("i8", -128),
    ("i16", 0), ("i16", 258), ("i16", -2), ("i16", 32767), ("i16", -32768),
    ("i32", 0), ("i32", 16909060), ("i32", -3), ("i32", 2147483647), ("i32", -2147483648),
    ("i64", 0), ("i64", 72623859790382856), ("i64", -4), ("i64", 2**63 - 1), ("i64", -(2**63)),
    ("double", 0.0), ("double", -0.0), ("double", 1.5), ("double", -2.0), ("double", number(1)),
    ("double", number(0x7FEFFFFFFFFFFFFF)), ("double", float("inf")), ("double", float("-inf")),
    ("bytes", b""), ("bytes", b"a"), ("bytes", b"\0\xff\x80"), ("bytes", "grüß".encode()), ("bytes", b"x" * 130),
]

# Two values of each kind, the smaller one first.
PAIRS = {
    "bool": [("bool", False), ("bool", True)],
    "i8": [("i8", -5), ("i8", 6)],
    "i16": [("i16", -500), ("i16", 600)],
    "i32": [("i32", -50000), ("i32", 60000)],
    "i64": [("i64", -5000000000), ("i64", 6000000000)],
    "double": [("double", 0.25), ("double", 1.0)],
    "bytes": [("bytes", b"ab"), ("bytes", b"b")],
    "struct": [("struct", [(1, ("i8", 1))]), ("struct", [(1, ("i8", 2)), (2, ("bool", True))])],
    "map": [("map", "i8", "bytes", [(("i8", 1), ("bytes", b"one"))]), ("map", "i8", "bytes", [(("i8", 2), ("bytes", b""))])],
    "set": [("set", "i16", [("i16", 3)]), ("set", "i16", [("i16", 3), ("i16", 4)])],
    "list": [("list", "i32", [("i32", 9)]), ("list", "i32", [("i32", 9), ("i32", 8)])],
}
CONTAINERS = ["struct", "map", "set", "list"]


def structs():
    """The rows: what stands in a struct."""
    rows = [[]]
    rows += [[(1, value)] for value in SCALARS]
    # Ids: the smallest, the greatest, below 0, and several that rise.
    rows += [[(-32768, ("i8", 1)), (-1, ("i8", 2)), (0, ("i8", 3)), (1, ("i8", 4)), (32767, ("i8", 5))]]
    # A list, a set and a map of each kind, with one and with two elements.
    for kind, (low, high) in PAIRS.items():
        rows += [[(1, ("list", kind, [high, low]))]]
        rows += [[(2, ("set", kind, [low, high]))]]
        rows += [[(3, ("map", kind, "bool", [(low, ("bool", True)), (high, ("bool", False))]))]]
        rows += [[(4, ("map", "bytes", kind, [(("bytes", b"k"), low)]))]]
    # Empty containers; they are written with the element type bool, which is what one that was read names.
    rows += [[(1, ("list", "bool", []))], [(1, ("set", "bool", []))], [(1, ("map", "bool", "bool", []))]]
    # A container of every kind in a container of every kind, three deep.
    for outer in CONTAINERS:
        for inner in CONTAINERS:
            held = PAIRS[inner][0]
            wrapped = {
                "struct": ("struct", [(7, held)]),
                "map": ("map", inner, inner, [(held, held)]),
                "set": ("set", inner, [held]),
                "list": ("list", inner, [held, held]),
            }[outer]
            rows += [[(5, ("list", outer, [wrapped, wrapped]))]]
    # Every kind in one struct.
    rows += [[(place + 1, PAIRS[kind][1]) for place, kind in enumerate(PAIRS)]]
    return [("struct", row) for row in rows]


def literal(data):
    """A Rust byte string."""
    return 'b"' + "".join(chr(b) if 32 <= b < 127 and b not in (34, 92) else f"\\x{b:02x}" for b in data) + '"'


def written(value):
    """The bytes that Apache's library writes for a value."""
    buffer = TMemoryBuffer()
    put(TBinaryProtocol(buffer), value)
    return buffer.getvalue()


def as_read(data):
    """The text of the struct that Apache's library reads."""
    return shown(taken(TBinaryProtocol(TMemoryBuffer(data)), "struct"))


# Structs that are read otherwise than by Apache's library, and the text of what is read here: an empty container keeps
# the tag bool, whatever kind it names, and a bool is true where its byte is 1 alone.
DIFFERENCES = [
    (written(("struct", [(1, ("list", "i32", []))])), "{1=list<bool>[]}"),
    (written(("struct", [(2, ("set", "bytes", []))])), "{2=set<bool>[]}"),
    (written(("struct", [(3, ("map", "i64", "struct", []))])), "{3=map<bool,bool>{}}"),
    (written(("struct", [(1, ("list", "list", [("list", "double", [])]))])), "{1=list<list>[list<bool>[]]}"),
    (b"\x02\0\x01\x02\0", "{1=false}"),
    (b"\x02\0\x01\xff\0", "{1=false}"),
    (b"\x0f\0\x01\x02\0\0\0\x03\0\x01\x7f\0", "{1=list<bool>[false,true,false]}"),
]


# How many structs stand in one table.
TABLE = 21


def print_structs():
    rows = structs()
    print("//! Structs as Apache Thrift's own library writes and reads them. Printed by bench/vectors/binary_vectors.py, which says how.\n")
    print("/// The bytes of a struct, how many values it is, how many levels it has, and its tree as text.")
    print("pub(crate) type Row = (&'static [u8], u64, u32, &'static [u8]);\n")
    # Several tables, each behind a function, since a proof that sees so long a table doesn't end.
    tables = [rows[at:at + TABLE] for at in range(0, len(rows), TABLE)]
    for place, table in enumerate(tables):
        print(f"const TABLE_{place}: [Row; {len(table)}] = [")
        for value in table:
            data = written(value)
            if as_read(data) != shown(value):
                sys.exit(f"Apache reads {as_read(data)} for {shown(value)}")
            print(f"    ({literal(data)}, {count(value)}, {depth(value)}, {literal(shown(value).encode())}),")
        print("];\n")
        print(f"fn table_{place}() -> &'static [Row] {{\n    &TABLE_{place}\n}}\n")
    print("/// All the structs, in several tables.")
    print(f"pub(crate) fn tables() -> [&'static [Row]; {len(tables)}] {{")
    print("    [" + ", ".join(f"table_{place}()" for place in range(len(tables))) + "]\n}\n")
    print("/// Structs that are read otherwise here, by own choice: the bytes, the tree as Apache's library reads it, and as it is")
    print("/// read here. An empty container keeps the tag bool, and a bool is true where its byte is 1 alone.")
    print(f"pub(crate) const DIFFERENCES: [(&[u8], &[u8], &[u8]); {len(DIFFERENCES)}] = [")
    for data, here in DIFFERENCES:
        print(f"    ({literal(data)}, {literal(as_read(data).encode())}, {literal(here.encode())}),")
    print("];")


def print_heads():
    rows = []
    for strict in (True, False):
        for kind in (TMessageType.CALL, TMessageType.REPLY, TMessageType.EXCEPTION, TMessageType.ONEWAY):
            for name, number_ in (("ping", 0), ("", -1), ("Calculator:add", 2147483647)):
                buffer = TMemoryBuffer()
                out = TBinaryProtocol(buffer, strictWrite=strict)
                out.writeMessageBegin(name, kind, number_)
                behind = len(buffer.getvalue())
                put(out, ("struct", []))
                rows += [f"    ({literal(buffer.getvalue())}, {literal(name.encode())}, {kind}, {number_}, {behind}),"]
    print("//! Messages as Apache Thrift's own library writes them. Printed by bench/vectors/binary_vectors.py, which says how.\n")
    print("/// The bytes of a message with an empty struct, half of them with a strict head and half with an old one; and of the")
    print("/// head the name, the type, the sequence id and the place behind it.")
    print(f"pub(crate) const MESSAGES: [(&[u8], &[u8], u8, i32, usize); {len(rows)}] = [")
    print("\n".join(rows))
    print("];")


if __name__ == "__main__":
    print_heads() if sys.argv[1:] == ["heads"] else print_structs()
