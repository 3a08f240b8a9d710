#!/usr/bin/env python3
"""Times the program on recorded calls that are made to be dear, each in a process of its own: hard_calls.py THRIFTD

Prints seconds, peak memory, and how the last reply begins. It is no test."""
import os
import struct
import sys
import tempfile
import time


def frame(name, arguments):
    word = name.encode()
    payload = struct.pack(">Ii", 0x80010001, len(word)) + word + struct.pack(">i", 1) + arguments
    return (struct.pack(">i", len(payload)) + payload).hex()


def empty_structs():
    """A list of 4,000,000 empty structs whose one field has a default of a thousand strings."""
    yield "struct D { 1: list<string> names = [%s] }\nservice S { i32 f(1: list<D> ds) }\n" % ", ".join('"a name"' for _ in range(1000))
    yield [frame("f", struct.pack(">bhbi", 15, 1, 12, 3999998) + bytes(3999998) + b"\0")]


def optional_fields():
    """A struct of 30,000 optional fields, sent empty 100,000 times."""
    yield "struct O {\n%s}\nservice S { O f(1: O o) }\n" % "".join("  %d: optional i32 f%d\n" % (k, k) for k in range(1, 30001))
    yield [frame("f", struct.pack(">bh", 12, 1) + b"\0\0")] * 100000


def default_fields():
    """A struct of 300 fields with a default, sent empty 10,000 times."""
    yield "struct O {\n%s}\nservice S { i32 f(1: O o) }\n" % "".join("  %d: i32 f%d = %d\n" % (k, k, k) for k in range(1, 301))
    yield [frame("f", struct.pack(">bh", 12, 1) + b"\0\0")] * 10000


def many_functions():
    """The last of 30,000 functions, called 100,000 times."""
    yield "service S {\n%s}\n" % "".join("  i32 f%d(1: i32 a)\n" % k for k in range(30000))
    yield [frame("f29999", struct.pack(">bhi", 8, 1, 7) + b"\0")] * 100000


def inherited_function():
    """A function of the first of 10,000 services in one line of parents, called 100,000 times on the last."""
    yield "service S0 { i32 f(1: i32 a) }\n" + "".join("service S%d extends S%d {}\n" % (k, k - 1) for k in range(1, 10000)) + "service S extends S9999 {}\n"
    yield [frame("f", struct.pack(">bhi", 8, 1, 7) + b"\0")] * 100000


def unknown_functions():
    """Functions that there aren't, with names of 64 KB, called 200 times."""
    yield "service S { void f() }\n"
    yield [frame("x" * 65536, b"\0")] * 200


def main():
    program = os.path.abspath(sys.argv[1])
    for kind in (empty_structs, optional_fields, default_fields, many_functions, inherited_function, unknown_functions):
        idl, frames = kind()
        with tempfile.TemporaryDirectory() as folder:
            with open(os.path.join(folder, "s.thrift"), "w") as out:
                out.write(idl)
            script = os.path.join(folder, "script")
            with open(script, "w") as out:
                out.write("open\n" + "".join("data 0 %s\n" % f for f in frames) + "end 0\n")
            report = os.path.join(folder, "report")
            begin = time.monotonic()
            child = os.fork()
            if child == 0:
                os.chdir(folder)
                os.dup2(os.open(script, os.O_RDONLY), 0)
                os.dup2(os.open(report, os.O_WRONLY | os.O_CREAT), 1)
                os.execv(program, [program, "rehearse", "s.thrift", "binary", "0", "S=mirror"])
            _, status, usage = os.wait4(child, 0)
            seconds = time.monotonic() - begin
            with open(report, "rb") as text:
                lines = [line for line in text if line.startswith((b"conn", b"calls"))]
            print("%-20s status %d %8.2f s %8.0f MB  %s  %s" % (kind.__name__, os.waitstatus_to_exitcode(status), seconds, usage.ru_maxrss / 1000,
                  " ".join(line[:60].decode().strip() for line in lines), kind.__doc__))


main()
