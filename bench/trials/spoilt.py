#!/usr/bin/env python3
"""Runs the program on spoilt input: spoilt.py SECONDS [SEED [PART ..]]

Good texts are spoilt at random (bytes changed, dropped, doubled, moved, or put in the place of others), and the program (the one that ./thriftd runs) is run on them,
one part after the other, for so many seconds in all:
  idl      `check`, on the files of examples/ and those below the folder that IDLS names, where it is set, each beside its neighbours: it prints a schema and ends with 0,
           or tells one fault with its place and ends with 2, or a file that can't be read, with 5
  script   `rehearse` and `record` in the binary protocol, on scripts of examples/, on what Apache's client sent (apache_calls.py) and on random ones: the rehearsal says
           what the model of rehearsal_model.py says, and judge.py finds nothing in the recording
  compact  the same in the compact protocol, for which there is no model: a rehearsal says the same each time, and a recording the same refusals
  port     `serve`, to which connections bring spoilt calls; behind them one on which nothing is spoilt is answered, and the server ends by itself with status 0
Nothing may crash, take longer than ten seconds, or more memory than it may: 30 MB, and 100 bytes for each byte of its input. What is found is told with the number of
the try, by which the same seed finds it again, and the input is kept in a folder that is named. Ends with status 1 where something was found. It is no test of the gate.
"""
import os
import random
import re
import resource
import shutil
import socket
import subprocess
import sys
import tempfile
import time

import failing_memory as session
import judge
import rehearsal_mixes as mixes
import rehearsal_model as model
from built import TOP, built_program

PROGRAM = built_program()
EXAMPLES = os.path.join(TOP, "examples")
FAULT = re.compile(rb"thriftd: idl .+ \d+:\d+ [A-Z][A-Za-z0-9]*\n", re.DOTALL)
REFUSED = re.compile(rb"thriftd: script \d+ [A-Z][A-Za-z]*\n")
SECONDS, MEMORY, MEMORY_A_BYTE = 10, 30 << 20, 100
COMPACT = session.on_three(session.COMPACT_PING, session.COMPACT_ADD)
# Bytes that texts of IDLs, scripts and frames have, and ones at their limits.
PARTS = [b"\x0f\0\x01\x0f", b"\x0d\0\x02\x08\x0b", b"\x0e", b"\x0c\0\x02", b"\x80\x01\0\x01", b"\0\0\0\x03", b"\x7f\xff\xff\xff", b"\0\0\0\0", b"struct ", b"union ", b"1: ", b"-1: ", b"32767: ", b"list<", b"map<i32,", b"set<", b">", b"{", b"}", b"[", b"]", b"(", b")", b"=", b",", b"\"", b"'", b"\\", b"/*", b"*/",
         b"//", b"#", b"\n", b"\0", b"\xff", b"9223372036854775807", b"9223372036854775808", b"1e400", b"0x", b"include ", b"extends ", b"throws", b"oneway ", b"const ",
         b"data 0 ", b"open\n", b"end 0\n", b"rest\n", b"80010001", b"00000000", b"ffffffff", b"7fffffff", b"0f0001", b"write 0 1\n", b"block 0\n", b"readfail 0\n"]


def spoilt(rng, text):
    """A text that is spoilt at one to six places."""
    text = bytearray(text)
    for _ in range(rng.choice([1, 1, 2, 3, 6])):
        at, to = sorted(rng.randrange(len(text) + 1) for _ in range(2))
        to = min(to, at + rng.choice([1, 1, 4, 40, 4000]))
        way = rng.randrange(6)
        if way == 0 and at < len(text):
            text[at] = rng.choice([text[at] ^ (1 << rng.randrange(8)), rng.randrange(256)])
        elif way == 1:
            del text[at:to]
        elif way == 2:
            text[at:at] = text[at:to] * rng.choice([1, 1, 2, 70, 300])
        elif way == 3:
            text[at:at] = rng.choice(PARTS)
        elif way == 4:
            text[at:to] = rng.choice(PARTS)
        else:
            part = bytes(text[at:to])
            del text[at:to]
            there = rng.randrange(len(text) + 1)
            text[there:there] = part
        del text[1 << 20:]
    return bytes(text)


def spoilt_inside(rng, script):
    """A script of whose pieces one in three is spoilt, and which is one still."""
    lines = script.split(b"\n")
    for k, line in enumerate(lines):
        if line.startswith(b"data ") and rng.random() < 0.33:
            word, c, piece = line.split(b" ")[:3]
            try:
                bytes_ = spoilt(rng, bytes.fromhex(piece.decode()))[:5000]
            except ValueError:
                continue
            lines[k] = b" ".join([word, c, (bytes_ or b"\0").hex().encode()])
    return b"\n".join(lines)


class Found(Exception):
    """What is wrong."""


def demand(holds, what):
    if not holds:
        raise Found(what)


def most_memory(size):
    return MEMORY + MEMORY_A_BYTE * size


def limited(size):
    """Lets a process have no more memory than it may, but for what every process takes."""
    most = most_memory(size) + (64 << 20)
    resource.setrlimit(resource.RLIMIT_AS, (most, most))


def ran(words, text, size):
    """Status, output and errors of a run on an input, which has so many bytes with all that it reads."""
    try:
        done = subprocess.run([PROGRAM, *words], input=text, capture_output=True, timeout=SECONDS, preexec_fn=lambda: limited(size), check=False)
    except subprocess.TimeoutExpired:
        raise Found("it takes more than %d seconds" % SECONDS) from None
    demand(done.returncode in range(11), "it ended by %d" % done.returncode)
    return done.returncode, done.stdout, done.stderr


def held(folder, ending):
    """The files of a folder that end so."""
    for name in sorted(os.listdir(folder)):
        if name.endswith(ending):
            with open(os.path.join(folder, name), "rb") as file:
                yield file.read()


def recorded(protocol):
    """What Apache's client sent, by plain names and by names with a service: two scripts, or none where it isn't there."""
    words = ["/usr/bin/python3", os.path.join(TOP, "bench", "trials", "apache_calls.py"), PROGRAM, protocol, "--frames"]
    lines = [line.split(" ") for line in subprocess.run(words, capture_output=True, text=True, check=False).stdout.splitlines() if line.startswith(protocol)]
    for name in sorted({line[1] for line in lines}):
        yield ("open\n" + "".join("data 0 %s\n" % line[3] for line in lines if line[1] == name) + "end 0\n").encode()


class Idl:
    """Spoilt IDLs, which are checked; beside each stand copies of its neighbours. A text to check comes behind the line of its folder's number."""

    def __init__(self, folder):
        above = [EXAMPLES] + sorted({at for at, _, names in os.walk(os.environ.get("IDLS") or folder) for name in names if name.endswith(".thrift")})
        self.folders = [os.path.join(folder, "idls-%d" % k) for k in range(len(above))]
        for at, copy in zip(above, self.folders):
            shutil.copytree(at, copy, ignore=lambda _, names: [name for name in names if not name.endswith(".thrift")])
        self.seeds = [(k, text) for k, at in enumerate(self.folders) for text in held(at, ".thrift")]

    def make(self, rng):
        k, text = rng.choice(self.seeds)
        return b"%d\n" % k + spoilt(rng, text)

    def look(self, text):
        k, text = text.split(b"\n", 1)
        at = self.folders[int(k)]
        name = os.path.join(at, "spoilt.thrift")
        with open(name, "wb") as out:
            out.write(text)
        status, output, errors = ran(["check", name], b"", sum(file.stat().st_size for file in os.scandir(at)))
        os.remove(name)
        if status == 0:
            demand(output and not errors, "status 0 and %r" % errors)
        elif status == 5:
            demand(not output and errors == b"thriftd: file fault\n", "status 5 and %r" % errors)
        else:
            demand(status == 2 and not output and FAULT.fullmatch(errors), "status %d and %r" % (status, errors))


class Script:
    """Spoilt scripts in the binary protocol, beside the model."""

    protocol = "binary"

    def __init__(self, _folder):
        self.seeds = list(recorded(self.protocol)) + (list(held(EXAMPLES, ".script")) if self.protocol == "binary" else [COMPACT])

    def make(self, rng):
        script = rng.choice([rng.choice(self.seeds), mixes.script(rng, 2)])
        return rng.choice([spoilt, spoilt_inside])(rng, script)

    def words(self, command):
        return [command, "@tutorial", self.protocol, "2", "Calculator=calculator"]

    def look(self, text):
        status, output, errors = ran(self.words("rehearse"), text, len(text))
        self.look_at_rehearsal(text, status, output, errors)
        status, output, errors = ran(self.words("record"), text, len(text))
        self.look_at_recording(text, status, output, errors)

    def look_at_rehearsal(self, text, status, output, errors):
        wanted = model.rehearse(text, 2).encode()
        demand(output + errors == wanted and status == (3 if errors else 0), "a rehearsal says %r and not %r" % ((status, output[-300:], errors), wanted[-300:]))

    def look_at_recording(self, text, status, output, errors):
        if status == 3:
            demand(not output and REFUSED.fullmatch(errors), "status 3 and %r" % errors)
            return
        demand(status == 0 and not errors, "status %d and %r" % (status, errors))
        broken = judge.judge(text, output.decode("ascii"), 2)
        demand(broken is None, "the judge finds: %s" % broken)


class Compact(Script):
    """The same in the compact protocol, where a rehearsal is compared with another one."""

    protocol = "compact"

    def make(self, rng):
        return rng.choice([spoilt, spoilt_inside])(rng, rng.choice(self.seeds))

    def look_at_rehearsal(self, text, status, output, errors):
        demand(ran(self.words("rehearse"), text, len(text)) == (status, output, errors), "two rehearsals differ")
        demand((status == 0 and not errors) or (status == 3 and REFUSED.fullmatch(errors)), "status %d and %r" % (status, errors))

    def look_at_recording(self, text, status, output, errors):
        demand((status == 0 and not errors) or (status == 3 and REFUSED.fullmatch(errors)), "status %d and %r" % (status, errors))


def free_port():
    with socket.socket() as s:
        s.bind(("127.0.0.1", 0))
        return s.getsockname()[1]


class Port:
    """Spoilt calls of connections to a port."""

    connections = 20

    def __init__(self, folder):
        self.journal = os.path.join(folder, "journal")
        self.seeds = [b"".join(bytes.fromhex(line[7:].decode()) for line in script.split(b"\n") if line.startswith(b"data 0 ")) for script in recorded("binary")]

    def make(self, rng):
        seeds = [mixes.incoming(rng) or mixes.PING for _ in range(self.connections)]
        return [spoilt(rng, rng.choice([seed, *self.seeds])) for seed in seeds]

    def look(self, inputs):
        port = free_port()
        words = ["serve", "@tutorial", "binary", "2", "Calculator=calculator", "--listen", str(port), "--accept", str(len(inputs) + 1), "--journal", self.journal]
        size = sum(map(len, inputs))
        with subprocess.Popen([PROGRAM, *words], stdout=subprocess.PIPE, stderr=subprocess.PIPE, preexec_fn=lambda: limited(size + (64 << 20) // MEMORY_A_BYTE)) as server:
            try:
                demand(server.stdout.readline() == b"listening 127.0.0.1:%d\n" % port, "it doesn't listen")
                for text in inputs:
                    send(port, text)
                demand(send(port, mixes.PING) == model.message(b"ping", 2, 0, b"\0"), "a good call isn't answered")
                output, errors = server.communicate(timeout=SECONDS)
            except subprocess.TimeoutExpired:
                raise Found("the server doesn't end") from None
            finally:
                server.kill()
        demand(server.returncode == 0 and not errors, "the server ended by %d and %r" % (server.returncode, errors))
        demand(output.count(b"conn ") == len(inputs) + 1, "it doesn't tell of each connection")


def send(port, text):
    """What comes back on a connection that brings these bytes and then ends."""
    with socket.create_connection(("127.0.0.1", port), timeout=SECONDS) as s:
        came = b""
        try:
            s.sendall(text)
            s.shutdown(socket.SHUT_WR)
            while part := s.recv(65536):
                came += part
        except OSError as fault:
            demand(not isinstance(fault, TimeoutError), "a connection isn't ended")
        return came


PARTS_BY_NAME = {"idl": Idl, "script": Script, "compact": Compact, "port": Port}


def try_part(name, seed, seconds, folder):
    """Tries a part for so long; says how many tries it made, and how many found something."""
    part, end, tries, found = PARTS_BY_NAME[name](folder), time.monotonic() + seconds, 0, 0
    while time.monotonic() < end:
        rng = random.Random("%s %s %d" % (seed, name, tries))
        text = part.make(rng)
        try:
            part.look(text)
        except Found as what:
            found += 1
            kept = os.path.join(folder, "%s-%d" % (name, tries))
            with open(kept, "wb") as out:
                out.write(text if isinstance(text, bytes) else b"\n".join(it.hex().encode() for it in text))
            print("%s, try %d, kept as %s: %s" % (name, tries, kept, what), flush=True)
        tries += 1
    print("%s: %d tries, %d with something found" % (name, tries, found), flush=True)
    return found


def main(seconds, seed="1", *names):
    names = names or tuple(PARTS_BY_NAME)
    folder = tempfile.mkdtemp(prefix="spoilt-")
    found = sum([try_part(name, seed, float(seconds) / len(names), folder) for name in names])
    return 1 if found else 0


if __name__ == "__main__":
    sys.exit(main(*sys.argv[1:]))
