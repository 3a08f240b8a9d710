#!/usr/bin/env python3
"""Prints messages that tell of failed calls, in the binary and the compact protocol, as Rust tables.

Each row is made by Apache Thrift's own Python library (Debian package python3-thrift, 0.17.0) with its TApplicationException;
the script ends with a failure where Apache's own reading of the bytes gives another exception.
"""
import sys

from binary_vectors import literal
from thrift.protocol.TBinaryProtocol import TBinaryProtocol
from thrift.protocol.TCompactProtocol import TCompactProtocol
from thrift.Thrift import TApplicationException, TMessageType
from thrift.transport.TTransport import TMemoryBuffer

ROWS = [
    ("foo", 5, "Invalid method name: 'foo'", 1),
    ("add", 1, "Service name not found: Nobody", 1),
    ("f", 1, "Bad arguments: Missing x", 7),
    ("calculate", -1, "Internal error processing calculate", 6),
    ("keys", 2147483647, "Reply is too large", 6),
    ("", 0, "", 0),
    ("x", -2147483648, "y", -1),
    ("n" * 127, 127, "t" * 128, 63),
    ("n" * 128, 128, "t" * 127, 64),
    ("zip", 300, "a \"quoted\" text\n", -65),
    ("m", -2, "t" * 300, 2147483647),
    ("long", 16384, "w", -2147483648),
]


def written(protocol, name, number, text, code):
    """The bytes that Apache's library writes."""
    buffer = TMemoryBuffer()
    out = protocol(buffer)
    out.writeMessageBegin(name, TMessageType.EXCEPTION, number)
    TApplicationException(code, text).write(out)
    out.writeMessageEnd()
    return buffer.getvalue()


def as_read(protocol, data):
    """What Apache's library reads in them."""
    source = protocol(TMemoryBuffer(data))
    name, kind, number = source.readMessageBegin()
    found = TApplicationException()
    found.read(source)
    return (name, kind, number, found.message, found.type)


def print_rows(title, protocol):
    print(f"\n/// {title}")
    print(f"pub(crate) const {protocol.__name__[1:-8].upper()}: [Row; {len(ROWS)}] = [")
    for name, number, text, code in ROWS:
        data = written(protocol, name, number, text, code)
        found = as_read(protocol, data)
        if found != (name, TMessageType.EXCEPTION, number, text, code):
            sys.exit(f"Apache reads {found} for {data}")
        print(f"    ({literal(data)}, {literal(name.encode())}, {number}, {literal(text.encode())}, {code}),")
    print("];")


if __name__ == "__main__":
    print("//! Exceptions as Apache Thrift's own library writes and reads them. Printed by bench/vectors/exception_vectors.py, which says how.\n")
    print("/// The bytes of the message; the name, the sequence id, the text and the code.")
    print("pub(crate) type Row = (&'static [u8], &'static [u8], i32, &'static [u8], i32);")
    print_rows("In the binary protocol.", TBinaryProtocol)
    print_rows("In the compact protocol.", TCompactProtocol)
