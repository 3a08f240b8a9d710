#!/usr/bin/env python3
"""Prints structs (the default) or, with the word heads, message heads of the compact protocol as Rust tables.

Each row is made by Apache Thrift's own Python library (Debian package python3-thrift, 0.17.0) with its TCompactProtocol, from
the same values as bench/vectors/binary_vectors.py, which says what the rows are; the script ends with a failure where Apache's own
reading of the bytes gives another text. The values are plain, but for those that are read otherwise here by own choice.
"""
import sys

import binary_vectors as common
from thrift.protocol.TCompactProtocol import TCompactProtocol
from thrift.Thrift import TMessageType, TType
from thrift.transport.TTransport import TMemoryBuffer

WRITERS = {
    "bool": TCompactProtocol.writeBool, "i8": TCompactProtocol.writeByte, "i16": TCompactProtocol.writeI16,
    "i32": TCompactProtocol.writeI32, "i64": TCompactProtocol.writeI64, "double": TCompactProtocol.writeDouble,
    "bytes": TCompactProtocol.writeBinary,
}
READERS = {
    "bool": TCompactProtocol.readBool, "i8": TCompactProtocol.readByte, "i16": TCompactProtocol.readI16,
    "i32": TCompactProtocol.readI32, "i64": TCompactProtocol.readI64, "double": TCompactProtocol.readDouble,
    "bytes": TCompactProtocol.readBinary,
}


def taken(source, kind):
    """A value of this kind, as Apache's library reads it; an empty map tells no kinds, so it gets the kind bool as here."""
    if kind in READERS:
        return (kind, READERS[kind](source))
    if kind == "struct":
        source.readStructBegin()
        fields = []
        while True:
            _, code, number = source.readFieldBegin()
            if code == TType.STOP:
                source.readStructEnd()
                return ("struct", fields)
            fields += [(number, taken(source, common.KINDS[code]))]
            source.readFieldEnd()
    if kind == "map":
        key, inner, size = source.readMapBegin()
        key, inner = (common.KINDS[key], common.KINDS[inner]) if size else ("bool", "bool")
        pairs = [(taken(source, key), taken(source, inner)) for _ in range(size)]
        source.readMapEnd()
        return ("map", key, inner, pairs)
    code, size = source.readSetBegin() if kind == "set" else source.readListBegin()
    items = [taken(source, common.KINDS[code]) for _ in range(size)]
    source.readSetEnd() if kind == "set" else source.readListEnd()
    return (kind, common.KINDS[code], items)


def written(value):
    """The bytes that Apache's library writes for a value."""
    buffer = TMemoryBuffer()
    common.put(TCompactProtocol(buffer), value)
    return buffer.getvalue()


def as_read(data):
    """The text of the struct that Apache's library reads."""
    return common.shown(taken(TCompactProtocol(TMemoryBuffer(data)), "struct"))


def structs():
    """The rows: those of the binary protocol, and what the compact protocol writes in two forms."""
    rows = common.structs()
    more = [
        # Ids 15 and 16 above the one before, the same id again, and one below it.
        [(15, ("i8", 1)), (30, ("i8", 2)), (46, ("i8", 3)), (61, ("bool", True)), (77, ("bool", False)), (32752, ("i16", 4)), (32767, ("i16", 5))],
        # Lists of 14 and 15 elements, which have their size in the byte and behind it; a map of 128 pairs.
        [(1, ("list", "i8", [("i8", place) for place in range(14)]))],
        [(1, ("list", "i8", [("i8", place) for place in range(15)])), (2, ("set", "i16", [("i16", place) for place in range(200)]))],
        [(1, ("map", "i32", "bool", [(("i32", place), ("bool", place % 3 == 0)) for place in range(128)]))],
        # The first field of a struct in a struct counts from 0 again.
        [(9, ("struct", [(3, ("struct", [(2, ("i64", 63)), (5, ("i64", 64))])), (4, ("i64", -65))])), (10, ("i32", 8191)), (11, ("i32", 8192))],
    ]
    return rows + [("struct", row) for row in more]


# Structs that are read otherwise than by Apache's library, and the text of what is read here: an empty container keeps the tag
# bool, whatever kind it names, and a bool among elements is true where its byte is 1 alone.
DIFFERENCES = [
    (written(("struct", [(1, ("list", "i32", []))])), "{1=list<bool>[]}"),
    (written(("struct", [(2, ("set", "bytes", []))])), "{2=set<bool>[]}"),
    (written(("struct", [(1, ("list", "list", [("list", "double", [])]))])), "{1=list<list>[list<bool>[]]}"),
]


def print_structs():
    rows = structs()
    print("//! Structs as Apache Thrift's own library writes and reads them. Printed by bench/vectors/compact_vectors.py, which says how.\n")
    print("/// The bytes of a struct, how many values it is, how many levels it has, and its tree as text.")
    print("pub(crate) type Row = (&'static [u8], u64, u32, &'static [u8]);\n")
    tables = [rows[at:at + common.TABLE] for at in range(0, len(rows), common.TABLE)]
    for place, table in enumerate(tables):
        print(f"const TABLE_{place}: [Row; {len(table)}] = [")
        for value in table:
            data = written(value)
            if as_read(data) != common.shown(value):
                sys.exit(f"Apache reads {as_read(data)} for {common.shown(value)}")
            print(f"    ({common.literal(data)}, {common.count(value)}, {common.depth(value)}, {common.literal(common.shown(value).encode())}),")
        print("];\n")
        print(f"fn table_{place}() -> &'static [Row] {{\n    &TABLE_{place}\n}}\n")
    print("/// All the structs, in several tables.")
    print(f"pub(crate) fn tables() -> [&'static [Row]; {len(tables)}] {{")
    print("    [" + ", ".join(f"table_{place}()" for place in range(len(tables))) + "]\n}\n")
    print("/// Structs that are read otherwise here, by own choice: the bytes, the tree as Apache's library reads it, and as it is")
    print("/// read here. An empty container keeps the tag bool.")
    print(f"pub(crate) const DIFFERENCES: [(&[u8], &[u8], &[u8]); {len(DIFFERENCES)}] = [")
    for data, here in DIFFERENCES:
        print(f"    ({common.literal(data)}, {common.literal(as_read(data).encode())}, {common.literal(here.encode())}),")
    print("];")


def print_heads():
    rows = []
    for kind in (TMessageType.CALL, TMessageType.REPLY, TMessageType.EXCEPTION, TMessageType.ONEWAY):
        for name, number_ in (("ping", 0), ("", -1), ("Calculator:add", 2147483647), ("a" * 200, 128), ("zip", -2147483648), ("x", 127)):
            buffer = TMemoryBuffer()
            out = TCompactProtocol(buffer)
            out.writeMessageBegin(name, kind, number_)
            behind = len(buffer.getvalue())
            common.put(out, ("struct", []))
            rows += [f"    ({common.literal(buffer.getvalue())}, {common.literal(name.encode())}, {kind}, {number_}, {behind}),"]
    print("//! Messages as Apache Thrift's own library writes them. Printed by bench/vectors/compact_vectors.py, which says how.\n")
    print("/// The bytes of a message with an empty struct; and of the head the name, the type, the sequence id and the place behind it.")
    print(f"pub(crate) const MESSAGES: [(&[u8], &[u8], u8, i32, usize); {len(rows)}] = [")
    print("\n".join(rows))
    print("];")


if __name__ == "__main__":
    common.WRITERS.update(WRITERS)
    print_heads() if sys.argv[1:] == ["heads"] else print_structs()
