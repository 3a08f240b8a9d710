#!/usr/bin/python3
"""Calls the tutorial's service as Apache's Python library does, recorded: apache_calls.py THRIFTD [binary|compact ..]

Writes with Apache's generated client what it sends for each method (plain names, then multiplexed ones), lets `thriftd rehearse` answer the
recorded bytes, and gives the replies back to the same client. Prints each result that isn't the one that the calculator's rule gives; ends
with status 1 where there is one. With `--frames` it prints the frames in hexadecimal in place of that, one a line, with the method's name."""
import importlib
import os
import subprocess
import sys
import tempfile

try:
    from thrift.Thrift import TApplicationException
    from thrift.protocol import TBinaryProtocol, TCompactProtocol, TMultiplexedProtocol
    from thrift.transport import TTransport
except ImportError:
    print("apache_calls: Apache's Python library isn't installed (python3-thrift)")
    sys.exit(0)

from tutorial import SHARED, TUTORIAL

PROTOCOLS = {"binary": TBinaryProtocol.TBinaryProtocol, "compact": TCompactProtocol.TCompactProtocol}


def generated(folder):
    """Apache's generated code for the tutorial."""
    for name, text in (("tutorial", TUTORIAL), ("shared", SHARED)):
        with open(os.path.join(folder, name + ".thrift"), "w") as out:
            out.write(text)
    subprocess.run(["thrift", "-r", "-gen", "py", "tutorial.thrift"], cwd=folder, check=True)
    sys.path.insert(0, os.path.join(folder, "gen-py"))
    # (tutorial.py beside this script has the name of a generated package)
    sys.modules.pop("tutorial", None)
    return [importlib.import_module(m) for m in ("tutorial.Calculator", "tutorial.ttypes", "shared.ttypes")]


def session(types):
    """Each call: the method, its arguments, and what it comes to by the calculator's rule. What it throws is a string."""
    work = lambda a, b, op, comment=None: types.Work(num1=a, num2=b, op=op, comment=comment)
    return [
        ("ping", (), None),
        ("add", (1, 1), 2),
        ("add", (2147483647, 1), -2147483648),
        ("zip", (), None),
        ("calculate", (1, work(1, 0, 4)), "InvalidOperation 4 Cannot divide by 0"),
        ("getStruct", (1,), "MISSING_RESULT"),
        ("calculate", (1, work(15, 10, 2)), 5),
        ("getStruct", (1,), (1, "5")),
        ("calculate", (2, work(-3, 4, 3, "a comment")), -12),
        ("calculate", (2, work(-7, 2, 4)), -3),
        ("calculate", (3, work(7, 2, 1)), 9),
        ("calculate", (3, work(7, 2, 9)), "InvalidOperation 9 Unknown operation"),
        ("getStruct", (2,), (2, "-3")),
        ("getStruct", (3,), (3, "9")),
    ]


class Side:
    """A client over memory: what it wrote, and the replies that it reads."""

    def __init__(self, calculator, protocol, name):
        self.sent, self.replies = TTransport.TMemoryBuffer(), TTransport.TMemoryBuffer()
        wrap = lambda buffer: PROTOCOLS[protocol](TTransport.TFramedTransport(buffer))
        out = wrap(self.sent)
        if name:
            out = TMultiplexedProtocol.TMultiplexedProtocol(out, name)
        self.client = calculator.Client(wrap(self.replies), out)

    def read_from(self, replies, protocol):
        self.replies = TTransport.TMemoryBuffer(replies)
        self.client._iprot = PROTOCOLS[protocol](TTransport.TFramedTransport(self.replies))


def result_of(receive):
    """What reading a reply comes to."""
    try:
        value = receive()
    except TApplicationException as error:
        return "MISSING_RESULT" if error.type == TApplicationException.MISSING_RESULT else "TApplicationException %d %s" % (error.type, error.message)
    except Exception as error:
        return "%s %s %s" % (type(error).__name__, getattr(error, "whatOp", ""), getattr(error, "why", error))
    return (value.key, value.value) if hasattr(value, "key") else value


def answered(thriftd, protocol, pairs, frames):
    """The bytes that thriftd writes for these frames."""
    script = "open\n" + "".join("data 0 %s\n" % frame.hex() for frame in frames) + "end 0\n"
    run = subprocess.run([thriftd, "rehearse", "@tutorial", protocol, "0", *pairs], input=script, capture_output=True, text=True)
    if run.returncode != 0:
        sys.exit("apache_calls: status %d: %s" % (run.returncode, run.stderr.strip()))
    line = next(line for line in run.stdout.split("\n") if line.startswith("conn 0 "))
    cause, written = line.split(" ")[2:]
    if cause != "End":
        sys.exit("apache_calls: the connection ended by %s" % cause)
    return bytes.fromhex(written.replace("-", ""))


def check(thriftd, modules, protocol, name, pairs, only_frames):
    calculator, types, _ = modules
    side, frames = Side(calculator, protocol, name), []
    for method, args, _ in session(types):
        before = len(side.sent.getvalue())
        getattr(side.client, "send_" + method)(*args)
        frames.append(side.sent.getvalue()[before:])
        if only_frames:
            print(protocol, name or "-", method, frames[-1].hex())
    if only_frames:
        return True
    side.read_from(answered(thriftd, protocol, pairs, frames), protocol)
    good = True
    for method, args, wanted in session(types):
        found = None if method == "zip" else result_of(getattr(side.client, "recv_" + method))
        if found != wanted:
            print("%s %s %s%r: %r in place of %r" % (protocol, name or "-", method, args, found, wanted))
            good = False
    return good


def main():
    words = [word for word in sys.argv[1:] if word != "--frames"]
    thriftd, protocols = words[0], words[1:] or ["binary"]
    good = True
    with tempfile.TemporaryDirectory() as folder:
        modules = generated(folder)
        for protocol in protocols:
            for name, pairs in ((None, ["Calculator=calculator"]), ("Calculator", ["Calculator=calculator", "shared.SharedService=mirror"])):
                good = check(os.path.abspath(thriftd), modules, protocol, name, pairs, "--frames" in sys.argv) and good
    print("apache_calls: %s" % ("every reply is read as the rule gives it" if good else "replies differ"), file=sys.stderr)
    sys.exit(0 if good else 1)


if __name__ == "__main__":
    main()
