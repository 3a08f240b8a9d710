#!/usr/bin/env python3
"""Calls servers with `thriftd call`: called_servers.py [THRIFTD]

Apache's Python library (python3-thrift) and its C++ library (libthrift-dev, g++), with code that its compiler (thrift-compiler) writes from the tutorial's IDL, serve the calculator:
in both protocols, plain and multiplexed, each method and each exception. Then servers that misbehave are called: they answer late, a byte at a time, with a size that no frame has, with two frames, with
garbage, or close before or inside a frame; and a port at which nobody listens. Last, how long a call takes behind the server's reply, and how much memory. It installs nothing,
and says what it leaves out. It ends with status 1 where a line or a status isn't as it has to be."""
import glob
import os
import shutil
import socket
import subprocess
import sys
import tempfile
import threading
import time

from built import built_program

HERE = os.path.dirname(os.path.abspath(__file__))

# the method, its arguments, and the line that is printed
CALLS = [
    ("ping", "{}", "empty"),
    ("add", "{1=1i,2=1i}", "ok 2i"),
    ("add", "{1=-2147483648i,2=0i}", "ok -2147483648i"),
    ("calculate", "{1=7i,2={1=20i,2=22i,3=1i}}", "ok 42i"),
    ("calculate", '{1=7i,2={1=20i,2=22i,3=2i,4="why"}}', "ok -2i"),
    ("calculate", "{1=7i,2={1=1i,2=0i,3=4i}}", 'throws 1 {1=4i,2="Cannot divide by 0"}'),
    ("getStruct", "{1=5i}", 'ok {1=5i,2="kept"}'),
    ("zip", "{}", "sent"),
]


def free_port():
    with socket.socket() as one:
        one.bind(("127.0.0.1", 0))
        return one.getsockname()[1]


def call(program, port, method, args, protocol="binary", more=(), timeout=20):
    words = [program, "call", "@tutorial", protocol, "Calculator", method, args, "--to", str(port), *more]
    done = subprocess.run(words, stdout=subprocess.PIPE, stderr=subprocess.PIPE, text=True, timeout=timeout)
    return done.returncode, done.stdout, done.stderr


def expect(what, got, wanted):
    if got != wanted:
        sys.exit("called servers: %s: %r and not %r" % (what, got, wanted))


def served(server, program, protocol, multiplexed):
    """Calls each method of a server that is started by these words."""
    port = free_port()
    words = [*server, protocol, "1" if multiplexed else "0", str(port)]
    running = subprocess.Popen(words, stdout=subprocess.PIPE, stderr=subprocess.DEVNULL, text=True)
    try:
        running.stdout.readline()
        time.sleep(0.3)
        more = ["--multiplexed"] if multiplexed else []
        for method, args, line in CALLS:
            expect("%s %s %s" % (protocol, more, method), call(program, port, method, args, protocol, more), (0, line + "\n", ""))
        status, out, err = call(program, port, "add", "{1=99i,2=1i}", protocol, more)
        expect("an exception that isn't declared", (status, out[:10], err), (0, "exception ", ""))
    finally:
        running.kill()
        running.wait()


def python_server(room):
    if subprocess.run(["/usr/bin/python3", "-c", "import thrift"], stderr=subprocess.DEVNULL).returncode:
        return None
    subprocess.run(["thrift", "-r", "-gen", "py", "tutorial.thrift"], cwd=room, check=True)
    return ["/usr/bin/python3", os.path.join(HERE, "servers/server.py"), room]


def cpp_server(room):
    if not (shutil.which("g++") and os.path.exists("/usr/include/thrift/Thrift.h")):
        return None
    subprocess.run(["thrift", "-r", "-gen", "cpp", "tutorial.thrift"], cwd=room, check=True)
    sources = [name for name in glob.glob(os.path.join(room, "gen-cpp/*.cpp")) if "skeleton" not in name]
    made = os.path.join(room, "server")
    subprocess.run(["g++", "-O1", "-w", "-I" + os.path.join(room, "gen-cpp"), "-o", made, os.path.join(HERE, "servers/server.cpp"), *sources, "-lthrift"], check=True)
    return [made]


def apache(program, room):
    if not shutil.which("thrift"):
        print("called servers: Apache's are left out: its compiler isn't installed (thrift-compiler)")
        return
    subprocess.run([sys.executable, os.path.join(HERE, "clients/idl.py"), room], check=True)
    for name, server in (("Python", python_server(room)), ("C++", cpp_server(room))):
        if server is None:
            print("called servers: Apache's in %s is left out: its library isn't installed" % name)
            continue
        for protocol in ("binary", "compact"):
            for multiplexed in (False, True):
                served(server, program, protocol, multiplexed)
        print("called servers: Apache's %s servers answer %d calls four times" % (name, len(CALLS) + 1))


def once(answer):
    """A server that answers one connection by a function of it."""
    listening = socket.socket()
    listening.bind(("127.0.0.1", 0))
    listening.listen(1)

    def serve():
        with listening, listening.accept()[0] as conn:
            answer(conn)

    thread = threading.Thread(target=serve, daemon=True)
    thread.start()
    return listening.getsockname()[1], thread


def read_call(conn):
    size = b""
    while len(size) < 4:
        size += conn.recv(4 - len(size))
    payload = b""
    while len(payload) < int.from_bytes(size, "big"):
        payload += conn.recv(65536)
    return payload


TWO = bytes.fromhex("000000178001000200000003616464000000010800000000000200")


def late(conn):
    read_call(conn)
    time.sleep(1)
    conn.sendall(TWO)


def bytewise(conn):
    read_call(conn)
    for byte in TWO:
        conn.sendall(bytes([byte]))
        time.sleep(0.005)


def of(data, reads=True):
    def answer(conn):
        if reads:
            read_call(conn)
        conn.sendall(data)
    return answer


def reset(conn):
    read_call(conn)
    conn.sendall(TWO[:9])
    conn.setsockopt(socket.SOL_SOCKET, socket.SO_LINGER, b"\1\0\0\0\0\0\0\0")


MISBEHAVED = [
    ("late", late, (0, "ok 2i\n", "")),
    ("bytewise", bytewise, (0, "ok 2i\n", "")),
    ("two frames", of(TWO + TWO), (0, "ok 2i\n", "")),
    ("a size of 0", of(bytes(4)), (14, "", "thriftd: reply SizeFault\n")),
    ("a size of -1", of(b"\xff" * 4), (14, "", "thriftd: reply SizeFault\n")),
    ("a size of 16,384,001", of((16384001).to_bytes(4, "big")), (14, "", "thriftd: reply SizeFault\n")),
    ("garbage", of(b"HTTP/1.1 400 Bad Request\r\n\r\n"), (14, "", "thriftd: reply SizeFault\n")),
    ("garbage in a frame", of(b"\0\0\0\5hello"), (14, "", "thriftd: reply Head\n")),
    ("an end before", of(b""), (14, "", "thriftd: reply Cut\n")),
    ("an end inside a size", of(b"\0\0"), (14, "", "thriftd: reply Cut\n")),
    ("an end inside a frame", of(TWO[:-1]), (14, "", "thriftd: reply Cut\n")),
    ("a reset", reset, (8, "", "thriftd: net fault\n")),
]


def misbehave(program):
    for name, answer, wanted in MISBEHAVED:
        port, thread = once(answer)
        expect(name, call(program, port, "add", "{1=1i,2=1i}"), wanted)
        thread.join(10)
    expect("nobody", call(program, free_port(), "add", "{1=1i,2=1i}"), (8, "", "thriftd: net fault\n"))
    # Nothing comes: the call waits until it is ended.
    port, _ = once(lambda conn: time.sleep(30))
    try:
        call(program, port, "add", "{1=1i,2=1i}", timeout=2)
        sys.exit("called servers: a call to which nothing is answered has ended")
    except subprocess.TimeoutExpired:
        pass
    print("called servers: %d servers that misbehave are told" % (len(MISBEHAVED) + 2))


def large(program, room):
    """Arguments that are as long as a payload may be, and longer: words have at most 128 KiB each, so they come by a struct with many fields."""
    idl = os.path.join(room, "large.thrift")
    with open(idl, "w") as file:
        file.write("service V { i32 f(1: string a) }\n")
    text = "a" * 120000
    port, thread = once(lambda conn: (read_call(conn), conn.sendall(bytes.fromhex("0000001580010002000000016600000001080000000000" + "0700"))))
    done = subprocess.run([program, "call", idl, "binary", "V", "f", '{1="%s"}' % text, "--to", str(port)], stdout=subprocess.PIPE, stderr=subprocess.PIPE, text=True, timeout=20)
    expect("a long argument", (done.returncode, done.stdout, done.stderr), (0, "ok 7i\n", ""))
    thread.join(10)


def measure(program):
    """How long after the reply a call ends."""
    spans = []
    for _ in range(50):
        sent = []

        def answer(conn):
            read_call(conn)
            time.sleep(0.02)
            sent.append(time.monotonic())
            conn.sendall(TWO)
        port, thread = once(answer)
        call(program, port, "add", "{1=1i,2=1i}")
        spans.append(time.monotonic() - sent[0])
        thread.join(10)
    spans.sort()
    print("called servers: a call ends %.2f ms after its reply (median of %d, the process's end among it), %.2f ms at least" % (spans[len(spans) // 2] * 1000, len(spans), spans[0] * 1000))


def memory(program):
    """The most memory that a call has taken when its reply is about to come, by /proc."""
    peaks = []

    def answer(conn):
        read_call(conn)
        time.sleep(0.1)
        with open("/proc/%d/status" % started.pid) as status:
            peaks.extend(int(line.split()[1]) for line in status if line.startswith("VmHWM"))
        conn.sendall(TWO)
    port, thread = once(answer)
    words = [program, "call", "@tutorial", "binary", "Calculator", "add", "{1=1i,2=1i}", "--to", str(port)]
    started = subprocess.Popen(words, stdout=subprocess.DEVNULL)
    started.wait()
    thread.join(10)
    print("called servers: a call takes %d KiB" % peaks[0])


def main():
    program = os.path.abspath(sys.argv[1] if len(sys.argv) > 1 else built_program())
    with tempfile.TemporaryDirectory() as room:
        misbehave(program)
        large(program, room)
        measure(program)
        memory(program)
        apache(program, room)


main()
