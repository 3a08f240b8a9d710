"""The suite `screen`: what README.md's first screen says to paste prints what it says.

Taken are the first block that begins with `./thriftd serve` and the six behind it: what the server says, the command
that calls it, the client in Python, the one that stops it, and the journal with the command that prints it. They run in
a folder of their own, with the script's path in place of `./thriftd`, and at a port that is free. The client's two
calls are made by bytes too, so that the rest is seen where Apache's library isn't installed. Then each other block that
begins so has to listen."""
import contextlib
import functools
import os
import random
import re
import shlex
import shutil
import socket
import subprocess
import tempfile
import threading
from dataclasses import dataclass

from suite import SECONDS, TOP, Found, LeftOut, Test, Unfit

COMMAND = "./thriftd serve"
PORT = "9090"
LIBRARY = "Apache's client in Python (Debian: python3-thrift, thrift-compiler)"
# add(1, 1) and calculate(7, Work(num1=20, num2=22, op=ADD)) in the binary protocol, without the frames' sizes
CALLS = [
    "800100010000000361646400000000080001000000010800020000000100",
    "800100010000000963616c63756c61746500000000080001000000070c00020800010000001408000200000016080003000000010000",
]


def free_port():
    """A port that nobody listens at, below those that the system gives to others. It is asked for by a connection,
    since a socket that listens there may be held a moment longer by a program that another test starts."""
    for port in random.sample(range(12000, 32000), 100):
        with socket.socket() as probe:
            if probe.connect_ex(("127.0.0.1", port)):
                return str(port)
    raise LeftOut("the first screen, for which no port is free")


@contextlib.contextmanager
def room(examples):
    """A folder with the examples."""
    with tempfile.TemporaryDirectory(prefix="thriftd-screen-") as folder:
        os.symlink(examples, os.path.join(folder, "examples"))
        yield folder


def paste(block, program, folder, **streams):
    """Starts a block as a shell does into which it is pasted, with a program or the script in place of ./thriftd."""
    text = block.replace("./thriftd", "exec " + shlex.quote(program)).replace("/tmp/gen", os.path.join(folder, "gen"))
    return subprocess.Popen(["bash", "-c", text], cwd=folder, stdout=subprocess.PIPE, text=True, **streams)


@contextlib.contextmanager
def served(block, program, folder, **streams):
    """A block that runs, and is killed at the end, or when its time is over."""
    server = paste(block, program, folder, **streams)
    timer = threading.Timer(SECONDS, server.kill)
    timer.start()
    try:
        yield server
    finally:
        timer.cancel()
        server.kill()
        server.wait()
        server.stdout.close()


def compare(what, got, wanted):
    if got != wanted:
        raise Found("%s is %r, and not as README.md says %r" % (what, got, wanted))


def has_library():
    words = ["/usr/bin/python3", "-c", "import thrift"]
    if not shutil.which("thrift") or not os.path.exists(words[0]):
        return False
    return not subprocess.run(words, stderr=subprocess.DEVNULL, check=False).returncode


def pasted(block, start, folder):
    """What a block prints."""
    with served(block, start.script, folder, env=start.settings, stderr=subprocess.STDOUT) as run:
        return run.stdout.read()


def called_by_library(block, start, folder, port):
    """What the client of Apache's library prints."""
    if not has_library():
        raise LeftOut(LIBRARY)
    return pasted(block, start, folder)


def called_by_bytes(block, start, folder, port):
    """The same, by bytes: both answers are numbers, and stand at the end of their replies."""
    answers = []
    with socket.create_connection(("127.0.0.1", int(port)), timeout=SECONDS) as link, link.makefile("rb") as replies:
        for call in map(bytes.fromhex, CALLS):
            link.sendall(len(call).to_bytes(4, "big") + call)
            reply = replies.read(int.from_bytes(replies.read(4), "big"))
            answers.append(str(int.from_bytes(reply[-5:-1], "big", signed=True)))
    return " ".join(answers) + "\n"


@dataclass
class Start:
    """What is started: the script, the examples beside it, and the environment."""

    script: str
    examples: str
    settings: dict


def start_of(program):
    """The script of the tree, with a program."""
    kept = {name: value for name, value in os.environ.items() if not name.startswith("THRIFTD")}
    settings = {**kept, "THRIFTD": program, "THRIFTD_NO_BUILD": "1"}
    return Start(os.path.join(TOP, "thriftd"), os.path.join(TOP, "examples"), settings)


def session(screen, client, start):
    """The server that is called by the command and by a client, and is stopped."""
    port = free_port()
    serving, listening, command, calling, stopping, printing, journal = (it.replace(PORT, port) for it in screen.blocks)
    with room(start.examples) as folder, served(serving, start.script, folder, env=start.settings) as server:
        compare("the server's first line", server.stdout.readline(), listening)
        compare("what the command prints", pasted(command, start, folder), screen.says[0] + "\n")
        compare("what the client prints", client(calling, start, folder, port), screen.says[1] + "\n")
        compare("what stops it prints", pasted(stopping, start, folder), screen.says[2] + "\n")
        lines = server.stdout.read().splitlines()
        compare("the summary", (*lines[:1], *lines[-2:]), screen.summary)
        compare("the server's status", server.wait(), 0)
        compare("the journal", pasted(printing, start, folder), journal)


def listens(block, start):
    port = free_port()
    block = block.replace(PORT, port)
    with room(start.examples) as folder, served(block, start.script, folder, env=start.settings) as server:
        compare("the first line of %s" % block.strip(), server.stdout.readline(), "listening 127.0.0.1:%s\n" % port)


@dataclass
class Screen:
    """The first screen: its blocks, what the page says that they print, three lines of the summary, and the other
    blocks that serve."""

    blocks: list
    says: list
    summary: tuple
    others: list


def first_screen():
    with open(os.path.join(TOP, "README.md"), encoding="utf-8") as readme:
        text = readme.read()
    blocks = re.findall(r"^```(?:sh)?\n(.*?)^```$", text, re.MULTILINE | re.DOTALL)
    serving = [at for at, block in enumerate(blocks) if block.startswith(COMMAND)]
    says = re.findall(r"It prints `([^`]*)`", text)
    summary = re.search(r"`(conn 0 [^`]*)` to `(conn [^`]*)`, and `(calls [^`]*)`", text)
    if not serving or len(blocks) < serving[0] + 7 or len(says) < 3 or not summary:
        raise Unfit("README.md has no %s with six blocks behind it, three answers and a summary" % COMMAND)
    return Screen(blocks[serving[0] : serving[0] + 7], says, summary.groups(), [blocks[at] for at in serving[1:]])


def tests(programs):
    """The tests of each program: the session by bytes and by Apache's library, and each other server."""
    screen = first_screen()
    for program in programs:
        name, start = os.path.basename(program), start_of(program)
        for client in (called_by_bytes, called_by_library):
            yield Test("%s (%s)" % (client.__name__, name), functools.partial(session, screen, client, start))
        for block in screen.others:
            yield Test("%s (%s)" % (block.strip(), name), functools.partial(listens, block, start))
