#!/usr/bin/env python3
"""Times `compat` on schemas at size: changes.py [THRIFTD]

A chain of 10,000 structs, of which each holds the next, and a service of 100,000 functions, each compared with itself, and with one in which what comes last has changed.
Prints seconds of a processor and MB of each run; ends with status 1 where one takes more than two seconds or 500 MB, or doesn't say what it should."""
import os
import subprocess
import sys
import tempfile

sys.path.insert(0, os.path.join(os.path.dirname(os.path.abspath(__file__)), "..", "trials"))
from built import built_program

SECONDS, MB = 2.0, 500


def chain(last):
    return "".join("struct S%d { 1: optional S%d next }\n" % (i, i + 1) for i in range(10000)) + "struct S10000 { %s }\n" % last


def functions(last):
    return "service V {\n" + "".join("  void f%d()\n" % i for i in range(99999)) + "  %s last()\n}\n" % last


def measured(program, old, new):
    """How `compat` ends, its output, its seconds of a processor and its MB."""
    with tempfile.TemporaryFile() as output:
        child = subprocess.Popen([program, "compat", old, new], stdin=subprocess.DEVNULL, stdout=output, stderr=subprocess.DEVNULL)
        _, status, used = os.wait4(child.pid, 0)
        seconds = used.ru_utime + used.ru_stime
        output.seek(0)
        return os.waitstatus_to_exitcode(status), output.read().decode(), seconds, used.ru_maxrss / 1024


def main():
    program = sys.argv[1] if len(sys.argv) > 1 else built_program()
    bad = False
    with tempfile.TemporaryDirectory() as folder:
        for what, old, new, said in (
                ("a chain of 10,000 structs", chain(""), chain(""), (0, "compatible\n")),
                ("a chain with a break at its end", chain(""), chain("1: required i8 more"), (15, "break S10000 1 NewRequired\n")),
                ("a service of 100,000 functions", functions("void"), functions("void"), (0, "compatible\n")),
                ("functions with a break at their end", functions("i8"), functions("void"), (15, "break last 0 Result\n"))):
            for name, text in (("old", old), ("new", new)):
                with open("%s/%s.thrift" % (folder, name), "w", encoding="ascii") as file:
                    file.write(text)
            status, output, seconds, mb = measured(program, folder + "/old.thrift", folder + "/new.thrift")
            fine = (status, output) == said and seconds <= SECONDS and mb <= MB
            print("%-36s %5.2f s %4.0f MB  status %d  %s%s" % (what, seconds, mb, status, output.strip(), "" if fine else "  BAD"))
            bad = bad or not fine
    sys.exit(1 if bad else 0)


if __name__ == "__main__":
    main()
