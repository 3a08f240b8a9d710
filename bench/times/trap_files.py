#!/usr/bin/env python3
"""Writes IDL files of up to 4 MB that are hard on a checker, one for each way to do too much work, into the folder that it is given."""
import os
import sys

LONGEST = 4194304


def typedefs():
    """A chain of 100,000 typedefs."""
    yield "typedef i32 T0\n"
    for k in range(1, 100000):
        yield "typedef T%d T%d\n" % (k - 1, k)


def empty_structs():
    """Of a struct with 30,000 optional fields, 300,000 values without any."""
    yield "struct S {\n"
    for k in range(1, 30001):
        yield "%d: optional i32 f%d\n" % (k, k)
    yield "}\nconst list<S> ALL = [\n"
    for _ in range(30000):
        yield "{},{},{},{},{},{},{},{},{},{},\n"
    yield "]\n"


def services():
    """A line of 80,000 services, each the parent of the next, with a function in the first."""
    yield "service S0 { void first() }\n"
    for k in range(1, 80000):
        yield "service S%d extends S%d {}\n" % (k, k - 1)


def includes():
    """100,000 headers that include one file."""
    for _ in range(100000):
        yield 'include "included.thrift"\n'
    yield "struct S { 1: included.T t }\n"


def enum_values():
    """An enum of 100,000 values, each of which is used by its name."""
    yield "enum E {\n"
    for k in range(100000):
        yield "V%d\n" % k
    yield "}\nconst list<E> ALL = [\n"
    for k in range(100000):
        yield "E.V%d\n" % k
    yield "]\n"


def constants():
    """A chain of 50,000 constants, whose last name is used 200,000 times."""
    yield "const i32 C0 = 7\n"
    for k in range(1, 50000):
        yield "const i32 C%d = C%d\n" % (k, k - 1)
    yield "const list<i32> ALL = [\n"
    for _ in range(200000):
        yield "C49999\n"
    yield "]\n"


FILES = [typedefs, empty_structs, services, includes, enum_values, constants]


def main():
    folder = sys.argv[1]
    with open(os.path.join(folder, "included.thrift"), "w") as out:
        out.write("struct T { 1: i32 a }\n")
    for make in FILES:
        text = "".join(make())
        assert len(text) <= LONGEST, make.__name__
        with open(os.path.join(folder, make.__name__ + ".thrift"), "w") as out:
            out.write(text)
        print("%s %d" % (make.__name__, len(text)))


if __name__ == "__main__":
    main()
