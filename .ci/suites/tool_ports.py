"""The suite `tool_ports`: the tools `stop`, `tap` and `play` at real ports, with servers and clients of each kind.

Servers are the program, or functions here that serve one connection after the other and misbehave. All ports are free
ones, and all ends by itself, or is killed when its time is over."""
import contextlib
import functools
import os
import random
import re
import signal
import socket
import struct
import subprocess
import sys
import tempfile
import threading
import time
from importlib.machinery import SourceFileLoader
from importlib.util import module_from_spec, spec_from_loader

from screen import free_port
from suite import SECONDS, TOP, Found, Test

TOOLS = os.path.join(TOP, "tools")
sys.path.insert(0, TOOLS)
HOST = "127.0.0.1"
RESET = struct.pack("ii", 1, 0)
TUTORIAL = ["@tutorial", "binary", "2", "Calculator=calculator"]
PING = bytes.fromhex("00000011800100010000000470696e670000000000")
ADD = bytes.fromhex("0000001e800100010000000361646400000001080001000000010800020000000100")
TWO = "8001000200000003616464000000010800000000000200"
CALLS = [
    ("ping", "{}", "empty"),
    ("add", "{1=1i,2=1i}", "ok 2i"),
    ("calculate", "{1=7i,2={1=20i,2=22i,3=1i}}", "ok 42i"),
    ("calculate", "{1=8i,2={1=1i,2=0i,3=4i}}", 'throws 1 {1=4i,2="Cannot divide by 0"}'),
    ("zip", "{}", "sent"),
    ("getStruct", "{1=7i}", 'ok {1=7i,2="42"}'),
]


def demand(what, got, wanted):
    if got != wanted:
        raise Found("%s is %r, and not %r" % (what, got, wanted))


def demand_like(what, got, pattern):
    if not re.fullmatch(pattern, got, re.DOTALL):
        raise Found("%s is %r, and not like %r" % (what, got, pattern))


def tool_words(name, words):
    return [sys.executable, "-B", os.path.join(TOOLS, name), *map(str, words)]


def tool(name, *words, given=b"", program=None):
    """Runs a tool to its end: its status, its output and its line of errors."""
    settings = {**os.environ, **({"THRIFTD": program} if program else {})}
    done = subprocess.run(
        tool_words(name, words), input=given, capture_output=True, env=settings, timeout=SECONDS, check=False
    )
    return done.returncode, done.stdout.decode(), done.stderr.decode()


def loaded(name):
    """A tool as a module."""
    loader = SourceFileLoader(name, os.path.join(TOOLS, name))
    tool_module = module_from_spec(spec_from_loader(name, loader))
    loader.exec_module(tool_module)
    return tool_module


@contextlib.contextmanager
def running(words):
    """Something that runs, and is killed at the end, or when its time is over."""
    started = subprocess.Popen(words, stdout=subprocess.PIPE, stderr=subprocess.PIPE, text=True)
    timer = threading.Timer(SECONDS, started.kill)
    timer.start()
    try:
        yield started
    finally:
        timer.cancel()
        started.kill()
        started.wait()
        started.stdout.close()
        started.stderr.close()


def ended(started):
    """The status, the output and the errors of something that ends by itself."""
    out, err = started.communicate(timeout=SECONDS)
    return started.returncode, out, err


@contextlib.contextmanager
def served(program, words, accept, journal=os.devnull):
    """A server of the program, and its port."""
    port = free_port()
    words = [program, "serve", *words, "--listen", port, "--accept", str(accept), "--journal", journal]
    with running(words) as server:
        demand("the server's first line", server.stdout.readline(), "listening 127.0.0.1:%s\n" % port)
        yield server, port


@contextlib.contextmanager
def tapped(folder, target, *words):
    """A tap before a port, its port, and its script and replies."""
    port, files = free_port(), [os.path.join(folder, name) for name in ("tapped.script", "tapped.replies")]
    with running(tool_words("tap", [port, target, "--out", files[0], "--replies", files[1], *words])) as tap:
        demand("the tap's first line", tap.stdout.readline(), "listening 127.0.0.1:%s\n" % port)
        yield tap, int(port), *files


@contextlib.contextmanager
def answering(*answers):
    """A port at which connections are served one after the other, each by a function."""
    with socket.create_server((HOST, 0)) as listening:

        def serve():
            for answer in answers:
                with listening.accept()[0] as link:
                    answer(link)

        thread = threading.Thread(target=serve, daemon=True)
        thread.start()
        yield listening.getsockname()[1]
        thread.join(SECONDS)


def dial(port):
    return socket.create_connection((HOST, int(port)), timeout=SECONDS)


def reset(link):
    link.setsockopt(socket.SOL_SOCKET, socket.SO_LINGER, RESET)
    link.close()


def read_all(link):
    """All bytes up to the end."""
    return b"".join(iter(lambda: link.recv(65536), b""))


def is_reset(link):
    try:
        return link.recv(1) is None
    except ConnectionError:
        return True


def text_of(path):
    with open(path, encoding="ascii") as file:
        return file.read()


def untimed(path):
    """A script without its times."""
    return re.sub("# at [0-9.]*\n", "", text_of(path))


def file_of(folder, name, text):
    path = os.path.join(folder, name)
    with open(path, "w", encoding="latin-1") as out:
        out.write(text)
    return path


def called(program, port, method, args, protocol="binary"):
    words = [program, "call", "@tutorial", protocol, "Calculator", method, args, "--to", str(port)]
    done = subprocess.run(words, capture_output=True, text=True, timeout=SECONDS, check=False)
    return done.stdout.rstrip("\n")


# --- stop


def stops(program, folder):
    """A server ends by itself, with its summary and its whole journal, also where much is left."""
    for accept in (1, 30, 1500):
        journal = os.path.join(folder, "journal")
        with served(program, TUTORIAL, accept, journal) as (server, port):
            if accept > 1:
                demand("the call", called(program, port, "add", "{1=1i,2=1i}"), "ok 2i")
            calls = int(accept > 1)
            count = "{:,} connection{}".format(accept - calls, "s"[: accept > 1])
            demand("stop", tool("stop", port), (0, "took %s, and the server has ended\n" % count, ""))
            demand("the journal", text_of(journal), "call 0 0 0 add {1=1i,2=1i} ok 2i\n" * calls)
            summary = ["conn %d End" % number for number in range(accept)] + ["calls %d" % calls]
            demand("the server's end", ended(server), (0, "\n".join(summary) + "\n", ""))


def stops_late(program, folder):
    """A server that a client holds open is told, and ends once the client has."""
    with served(program, TUTORIAL, 3) as (server, port), dial(port) as client:
        client.sendall(PING)
        client.recv(100)
        status, out, err = tool("stop", port, "--wait", "0.3")
        said = "thriftd stop: took 2 connections; then the server at port %s took none for 0.3 seconds: " % port
        demand("stop", (status, out, err), (25, "", said + "clients hold it open by 1 connection\n"))
        stop = loaded("stop")
        waiting = lambda: sum(1 for it in stop.inodes(int(port), stop.OPEN) if not it)
        # (the kernel's list changes while it is read, so the count may be off by some)
        before = waiting()
        with running(tool_words("stop", [port])) as again:
            while waiting() < before + 40 and again.poll() is None:
                time.sleep(0.02)
            client.close()
            demand("stop", ended(again), (0, "took 0 connections, and the server has ended\n", ""))
        demand("the server's end", ended(server)[:2], (0, "conn 0 End\nconn 1 End\nconn 2 End\ncalls 1\n"))


def stops_nothing(program, folder):
    """What is no server of the program is left alone."""
    port = free_port()
    demand("stop", tool("stop", port), (8, "", "thriftd stop: nobody listens at port %s\n" % port))
    with answering() as port:
        status, out, err = tool("stop", port)
        demand_like(
            "stop", err, "thriftd stop: port %d is listened at by process .*, which is no thriftd serve\n" % port
        )
        demand("stop's status", (status, out), (8, ""))
    for words in ([], ["0"], ["65536"], ["x"], ["1", "--wait", "0"], ["1", "2"]):
        status, out, err = tool("stop", *words)
        demand("stop's status", (status, out, err.count("\n")), (1, "", 1))


# --- tap


def taps_pieces(program, folder):
    """Pieces are written as they come; a half that is closed, and a reply that is cut, are passed on."""

    has_come = threading.Event()

    def answer(link):
        data = link.recv(2)
        has_come.set()
        data += read_all(link)
        link.sendall(len(data).to_bytes(4, "big") + data + b"\0\0")

    with answering(answer) as target, tapped(folder, target, "--accept", "1") as (tap, port, script, replies):
        with dial(port) as client:
            client.sendall(b"ab")
            has_come.wait(SECONDS)
            client.sendall(b"cde")
            client.shutdown(socket.SHUT_WR)
            demand("the reply", read_all(client), b"\0\0\0\5abcde\0\0")
        demand("the tap's end", ended(tap), (0, "1 connection, 2 pieces\n", ""))
        demand("the script", untimed(script), "open\ndata 0 6162\ndata 0 636465\nend 0\n")
        demand("the replies", text_of(replies), "reply 0 6162636465\nrest 0 0000\n")


def taps_breaks(program, folder):
    """A reset is passed on both ways, and a target that refuses by one; a frame that has no size is a rest."""
    seen = []

    def breaks(link):
        link.recv(100)
        link.sendall(b"\0\0\0\1xHTTP")
        time.sleep(0.1)
        reset(link)

    def waits(link):
        link.recv(100)
        seen.append(is_reset(link))

    with answering(breaks, waits) as target, tapped(folder, target, "--accept", "2") as (tap, port, script, replies):
        with dial(port) as client:
            client.sendall(b"ab")
            demand("the reply", client.recv(100), b"\0\0\0\1xHTTP")
            demand("whether the client is reset", is_reset(client), True)
        client = dial(port)
        client.sendall(b"c")
        time.sleep(0.1)
        reset(client)
        demand("the tap's end", ended(tap), (0, "2 connections, 2 pieces\n", ""))
        demand("the script", untimed(script), "open\ndata 0 6162\nend 0\nopen\ndata 1 63\nreadfail 1\n")
        demand("the replies", text_of(replies), "reply 0 78\nrest 0 48545450\n")
    demand("whether the target is reset", seen, [True])
    nobody = free_port()
    with tapped(folder, nobody, "--accept", "1") as (tap, port, script, replies):
        try:
            with dial(port) as client:
                demand("whether the client is reset", is_reset(client), True)
        except ConnectionError:
            # (that was at once)
            pass
        said = "thriftd tap: port %s took no connection: Connection refused\n" % nobody
        demand("the tap's end", ended(tap), (0, "0 connections, 0 pieces\n", said))


def taps_until_signalled(program, folder):
    """A tap that a signal ends leaves a whole script of the connections that are open."""
    for number in (signal.SIGINT, signal.SIGTERM):
        with served(program, TUTORIAL, 3) as (_, target), tapped(folder, target) as (tap, port, script, _):
            clients = [dial(port) for _ in range(3)]
            clients[1].sendall(PING)
            demand("the reply", len(clients[1].recv(100)), 21)
            tap.send_signal(number)
            demand("the tap's end", ended(tap), (0, "3 connections, 1 piece\n", ""))
            whole = "open\nopen\nopen\ndata 1 %s\nend 0\nend 1\nend 2\n" % PING.hex()
            demand("the script", untimed(script), whole)
            for client in clients:
                client.close()


def echo(link):
    """Answers each frame by its bytes from behind."""
    with link, link.makefile("rb") as frames:
        for size in iter(lambda: frames.read(4), b""):
            link.sendall(size + frames.read(int.from_bytes(size, "big"))[::-1])


def echoed(port, payload, got):
    with dial(port) as link:
        link.sendall(len(payload).to_bytes(4, "big") + payload)
        link.shutdown(socket.SHUT_WR)
        got[payload] = read_all(link)[4:]


def at_once(function, *words):
    """Runs a function at once on each of several words."""
    threads = [threading.Thread(target=function, args=it, daemon=True) for it in zip(*words)]
    for thread in threads:
        thread.start()
    for thread in threads:
        thread.join(SECONDS)


def taps_many(program, folder):
    """What 40 clients at once send and get comes unchanged, and stands in the script and the replies."""
    payloads, got = [random.Random(5).randbytes(1 + 5000 * number) for number in range(40)], {}
    with socket.create_server((HOST, 0), backlog=64) as listening:
        serve = lambda: at_once(echo, [listening.accept()[0] for _ in payloads])
        threading.Thread(target=serve, daemon=True).start()
        with tapped(folder, listening.getsockname()[1], "--accept", "40") as (tap, port, script, replies):
            at_once(echoed, [port] * 40, payloads, [got] * 40)
            demand("the tap's status", ended(tap)[0], 0)
    wrong = [len(it) for it in payloads if got.get(it) != it[::-1]]
    demand("the sizes of what comes changed", wrong, [])
    sent = {}
    for connection, data in re.findall("data ([0-9]+) ([0-9a-f]+)", text_of(script)):
        sent[connection] = sent.get(connection, "") + data
    frames = sorted(len(it).to_bytes(4, "big").hex() + it.hex() for it in payloads)
    demand("whether the script has the bytes", sorted(sent.values()) == frames, True)
    found = sorted(text_of(replies).split()[2::3])
    demand("whether the replies are there", found == sorted(it[::-1].hex() for it in payloads), True)


def taps_no_more_than_a_script(program, folder):
    """A script that is full ends whole, as one of 1,024 connections or of so many bytes."""
    tap = loaded("tap")
    tap.MOST_BYTES, tap.MOST_OPENINGS = 1000, 3
    path = os.path.join(folder, "full.script")
    for size, openings, pieces in ((1, 3, 60), (700, 1, 0), (200, 2, 1)):
        with open(path, "w", encoding="ascii") as out:
            script = tap.Script(out)
            numbers = [script.opened() for _ in range(openings)]
            for _ in range(100):
                script.came(0, b"x" * size)
            script.end_all()
        demand("whether the script is full", script.is_full, True)
        demand("whether more can be opened", (numbers[0], script.opened()), (0, None))
        text = text_of(path)
        demand("the lines", (text.count("open\n"), text.count("end "), len(text) <= 1000), (openings, openings, True))
        demand("whether there are pieces", text.count("data") >= pieces, True)


def taps_nowhere(program, folder):
    """Words, files and ports that don't fit are told, with a line."""
    with answering() as port:
        for words, status, said in (
            (["1", "1"], 1, "LISTEN and TARGET are one port, 1 .*"),
            (["1", "x"], 1, "argument TARGET: x is no port, 1 to 65,535 .*"),
            (["1", "2", "--out", "a", "--replies", "a"], 1, "the script and the replies are one file, a .*"),
            (["1", "2", "--accept", "0"], 1, "argument --accept: 0 is no number from 1 to 1,000,000 .*"),
            ([port, free_port()], 8, "port %d can't be listened at: Address already in use" % port),
            ([free_port(), "1", "--out", "/dev/null/x"], 5, "/dev/null/x: Not a directory"),
        ):
            got = tool("tap", *words)
            demand("the tap's end", got[:2], (status, ""))
            demand_like("the tap's line", got[2], "thriftd tap: %s\n" % said)
    with answering(read_all) as target:
        port = free_port()
        with running(tool_words("tap", [port, target, "--out", "/dev/full", "--accept", "1"])) as tap:
            tap.stdout.readline()
            dial(port).close()
            demand("the tap's end", ended(tap), (7, "", "thriftd tap: write fault: No space left on device\n"))


# --- play


def session(program, folder, protocol):
    """A tapped session of the program's `call` comes to the same at a fresh server, and in a rehearsal, and to other
    values at another service."""
    words = ["@tutorial", protocol, "2", "Calculator=calculator"]
    journal = os.path.join(folder, "journal")
    with served(program, words, len(CALLS), journal) as (server, target):
        with tapped(folder, target, "--accept", str(len(CALLS))) as (tap, port, script, replies):
            for method, args, line in CALLS:
                demand("what %s comes to" % method, called(program, port, method, args, protocol), line)
            demand("the tap's end", ended(tap), (0, "6 connections, 6 pieces\n", ""))
        demand("the server's status", ended(server)[0], 0)
    names = ["--idl", "@tutorial", "--protocol", protocol]
    with served(program, words, len(CALLS)) as (_, port):
        got = tool("play", script, port, "--compare", replies, *names, program=program)
        demand("what is played", got, (0, "5 replies on 6 connections: equal\n", ""))
    mirror = [*words[:3], "Calculator=mirror"]
    with served(program, mirror, len(CALLS)) as (_, port):
        status, out, err = tool("play", script, port, "--compare", replies, *names, program=program)
        demand("the status", (status, err), (24, ""))
        for line in ("connection 1, reply 0 (add): value is 1, and was 2", "5 replies on 6 connections: 4 differ"):
            demand("how often there is the line %s in %r" % (line, out), out.split("\n").count(line), 1)
    with open(script, "rb") as given:
        done = subprocess.run([program, "rehearse", *words], stdin=given, capture_output=True, text=True, check=False)
    entries = re.findall("^(?:call|oneway) .*", done.stdout, re.MULTILINE)
    demand("the rehearsed calls", sorted(entries), sorted(text_of(journal).splitlines()))
    bytes_ = ["%s %s" % it for it in re.findall("^conn ([0-9]+) End .{8}(.*)", done.stdout, re.MULTILINE)]
    demand("the rehearsed replies", bytes_, re.findall("reply (.*)", text_of(replies)))


def plays_examples(program, folder):
    """Scripts of examples/ at a server, at each pace: with their order, in which one call needs another's."""
    with served(program, TUTORIAL, 8) as (_, port):
        script = os.path.join(TOP, "examples/two.script")
        first, second = text_of(os.path.join(TOP, "examples/two.report")).split("\n")[-4:-2]
        replies = "".join("reply %s %s\n" % (it.split()[1], it.split()[3][8:]) for it in (first, second))
        demand("two.script", tool("play", script, port), (0, replies, ""))
        demand("two.script, fast", tool("play", script, port, "--fast"), (0, replies, ""))
        before = time.monotonic()
        demand("two.script in a second", tool("play", script, port, "--as", "1"), (0, replies, ""))
        demand("whether that takes a part of it at least", time.monotonic() - before > 0.4, True)
        given = b"open\nwrite 0 1\ndata 0 %s\nreadfail 0" % ADD.hex().encode()
        got = tool("play", "-", port, given=given)
        demand("a rule", got, (0, "reply 0 %s\n" % TWO, "thriftd play: 1 line passed over\n"))


def plays_values(program, folder):
    """Replies are printed as JSON; those of other bytes and the same values are equal."""
    idl = file_of(folder, "sets.thrift", "service V { set<i32> f() map<string, i32> g() }")
    head = "800100020000000166%08x"
    sets = ["0e00000800000002%08x%08x00" % it for it in ((1, 2), (2, 1), (1, 3))]
    frames = [bytes.fromhex(head % 0 + it) for it in sets]
    calls = "open\n" + "data 0 0000000e8001000100000001660000000000\n" * 3 + "end 0\n"
    script = file_of(folder, "sets.script", calls)
    kept = file_of(folder, "kept", ("# replies\n\n" + "reply 0 %s\n" * 3) % ((frames[0].hex(),) * 3))
    names = ["--idl", idl, "--protocol", "binary"]

    def answer(link):
        with link.makefile("rb") as calls:
            for frame in frames:
                calls.read(18)
                link.sendall(len(frame).to_bytes(4, "big") + frame)

    with answering(answer, answer, answer) as port:
        status, out, err = tool("play", script, port, *names, program=program)
        line = '{"connection": 0, "frame": 1, "type": "reply", "name": "f", "id": 0, "answer": "ok", "value": [1, 2]}'
        demand("the second line", (status, out.split("\n")[1], err), (0, line, ""))
        status, out, err = tool("play", script, port, "--compare", kept, *names, program=program)
        found = "connection 0, reply 2 (f): value[1] is 3, and was 2\n"
        demand("values", (status, out), (24, found + "3 replies on 1 connection: 1 differ, 1 of them in other bytes\n"))
        status, out, err = tool("play", script, port, "--compare", kept)
        found = "from byte %d on it is %s, and was %s; 30 bytes, and were 30"
        lines = ["connection 0, reply 1: " + found % (24, "020000000100", "010000000200")]
        lines += ["connection 0, reply 2: " + found % (28, "0300", "0200"), "3 replies on 1 connection: 2 differ"]
        demand("bytes", (status, out), (24, "\n".join(lines) + "\n"))


def of(data, after=lambda link: None):
    """A server that answers the first bytes with these, and then does something."""

    def answer(link):
        link.recv(100)
        link.sendall(data)
        after(link)

    return answer


def misbehaved(kept, is_over):
    """Servers that misbehave, the words of `play`, and what it comes to; the last waits until that is over."""
    frame = (23).to_bytes(4, "big") + bytes.fromhex(TWO)
    compare, none = ["--compare", kept], "thriftd play: 1 call had no answer\n"
    more = "connection 0, reply 1: it came, and was not there: .*1 differ\n"
    cut = "connection 0, bytes behind .*connection 0, reply 0: none came, and was .*2 differ\n"
    late = "thriftd play: script 2: no answer came on connection 0 in 0.2 seconds, .*"
    yield of(b""), [], (23, "", none)
    yield of(b"", reset), [], (23, "", none)
    yield of(frame + b"\0\0"), [], (0, "reply 0 %s\nrest 0 0000\n" % TWO, "")
    yield of(frame[:9]), [], (23, "rest 0 %s\n" % frame[:9].hex(), none)
    yield of(b"HTTP/1.1"), [], (23, "rest 0 485454502f312e31\n", none)
    yield of(frame * 2), compare, (24, more, "")
    yield of(frame[:9]), compare, (24, cut, "")
    yield of(frame + b"\0"), ["--fast", *compare], (24, "connection 0, bytes behind the last frame: .*", "")
    yield of(b"", lambda link: is_over.wait(SECONDS)), ["--timeout", "0.2"], (23, "", late)


def plays_at_others(program, folder):
    """Servers that misbehave are told."""
    script = file_of(folder, "one.script", "open\ndata 0 %s\nend 0\n" % ADD.hex())
    is_over = threading.Event()
    for answer, words, wanted in misbehaved(file_of(folder, "kept", "reply 0 %s\n" % TWO), is_over):
        is_over.clear()
        with answering(answer) as port:
            got = tool("play", script, port, *words)
            is_over.set()
        for what, part, like in zip(("status", "output", "errors"), got, wanted):
            demand_like("play's %s" % what, str(part), str(like))
    port = free_port()
    said = "thriftd play: script 1: port %s takes no connection: Connection refused\n" % port
    demand("play where nobody listens", tool("play", script, port), (8, "", said))


def refuses_input(program, folder):
    """Scripts cut at each line, and otherwise none, have the program's fault; so do replies, and words."""
    with open(os.path.join(TOP, "examples/two.script"), "rb") as file:
        lines = file.read().splitlines(True)
    texts = [b"".join(lines[:count]) for count in range(2, len(lines))]
    texts += [b"open\r\nend 0\n", "open\nend 0\n".encode("utf-16"), b"open\ndata 0 0\nend 0\n", b"end 0\n"]
    with served(program, TUTORIAL, 1) as (_, port):
        for text in texts:
            done = subprocess.run([program, "rehearse", *TUTORIAL], input=text, capture_output=True, check=False)
            wanted = done.stderr.decode().replace("thriftd:", "thriftd play:")
            path = file_of(folder, "cut.script", text.decode("latin-1"))
            demand("play of %r" % text, tool("play", path, port), (done.returncode, "", wanted))
        script = os.path.join(TOP, "examples/ping.script")
        for text, line in (
            ("reply 0\n", 1),
            ("# a\nreply 0 0\n", 2),
            ("\nrest 00 00", 2),
            ("reply 0 00\ngone\n", 2),
            ("reply 0 \n", 1),
        ):
            path = file_of(folder, "cut.replies", text)
            said = "thriftd play: %s: line %d is no line of replies\n" % (path, line)
            demand("replies %r" % text, tool("play", script, port, "--compare", path), (3, "", said))
        for words, status in (
            (["--idl", "@tutorial"], 1),
            (["--idl", "@nothing", "--protocol", "binary"], 2),
            (["--fast", "--as", "1"], 1),
            (["--as", "-1"], 1),
            (["--compare", folder], 5),
            (["--compare", "/dev/null/x"], 5),
        ):
            got = tool("play", script, port, *words, program=program)
            demand("play with %s" % words, (got[0], got[1], got[2].count("\n")), (status, "", 1))
        demand("a script that is a folder", tool("play", folder, port)[0], 5)
        demand("a script with no line by --as", tool("play", "-", port, "--as", "1")[0], 1)


def large_lines(sizes):
    """Writes a script with pieces of so many bytes, each a frame of a oneway call, a part at a time."""
    yield b"open\n"
    for size in sizes:
        yield b"data 0 %08x80010004" % (size - 4)
        for at in range(8, size, 1 << 14):
            yield b"ab" * min(1 << 14, size - at)
        yield b"\n"
    yield b"end 0\n"


def plays_large(program, folder):
    """A script of 64 MB, of few pieces or of many, takes at most 100 MB."""
    for sizes in ([16_000_000, 16_000_000, 1_500_000], [30_000] * 1_118):
        path, peaks, started = os.path.join(folder, "large.script"), [], []
        with open(path, "wb") as out:
            out.writelines(large_lines(sizes))
        demand("whether the script is large", 66_000_000 < os.path.getsize(path) <= 67_108_864, True)

        def answer(link):
            while link.recv(1 << 16):
                pass
            peaks.extend(map(int, re.findall("VmHWM:(.*) kB", text_of("/proc/%d/status" % started[0].pid))))

        with answering(answer) as port, running(tool_words("play", [path, port])) as play:
            started.append(play)
            demand("play's end", ended(play), (0, "", ""))
        if not 0 < peaks[0] < 100_000:
            raise Found("a script of %d pieces took %d KiB" % (len(sizes), peaks[0]))


CASES = [stops, stops_late, stops_nothing, taps_pieces, taps_breaks, taps_until_signalled, taps_many]
CASES += [
    taps_no_more_than_a_script,
    taps_nowhere,
    plays_examples,
    plays_values,
    plays_at_others,
    refuses_input,
    plays_large,
]


def within(case, program, *more):
    with tempfile.TemporaryDirectory(prefix="thriftd-tools-") as folder:
        case(program, folder, *more)


def tests(programs):
    """A test of each case by each program."""
    for program in programs:
        name = os.path.basename(program)
        for case in CASES:
            yield Test("%s (%s)" % (case.__name__.replace("_", " "), name), functools.partial(within, case, program))
        for protocol in ("binary", "compact"):
            title = "a tapped session, %s (%s)" % (protocol, name)
            yield Test(title, functools.partial(within, session, program, protocol))
