#!/usr/bin/env python3
"""A small model of scripts and of their rehearsals, written from the rules of docs/PROFILE.md and not from the program.

It knows the binary protocol and the tutorial's calculator, and runs a script as `thriftd rehearse @tutorial binary WORKERS
Calculator=calculator` does. `rehearsal_model.py WORKERS [MAX_FRAME [READ_BUDGET]] < SCRIPT` prints the report, or the errors' line of a text that is
none. It comes to what the rows of rehearsals in rows/ say, and bench/trials/rehearsal_mixes.py runs it beside the program.
"""
import io
import sys

import built  # noqa: F401 (texts is found behind it)
from texts import scripts
from texts.scripts import ScriptFault as Fault

MOST_READ = 65_536


# --- scripts

def read_script(text, workers, schedule=True):
    """The lines in order, rules and ignored lines left out, and each connection's rules; or a Fault."""
    lines, rules, piece = [], [], b""
    for line in scripts.read_script(io.BytesIO(text), workers, schedule):
        if line.word in ("write", "block", "writefail"):
            rules[line.numbers[0]].append((line.word, *line.numbers[1:]))
            continue
        if line.word == "open":
            rules.append([])
        if line.data is not None:
            piece += line.data
        if line.whole:
            lines.append((line.word, *line.numbers, *([piece] if line.data is not None else [])))
            piece = b""
    return lines, rules


# --- the tutorial's calculator over the binary protocol

def i32(bytes_):
    return int.from_bytes(bytes_, "big", signed=True)


def put32(value):
    return (value & 0xFFFFFFFF).to_bytes(4, "big")


def wrapped(value):
    return (value + 2 ** 31) % 2 ** 32 - 2 ** 31


class Short(Exception):
    """The bytes end before the item."""


class Bytes:
    """Bytes that are read from the front."""

    def __init__(self, bytes_):
        self.bytes, self.at = bytes_, 0

    def take(self, count):
        if count > len(self.bytes) - self.at:
            raise Short
        self.at += count
        return self.bytes[self.at - count:self.at]


def head(payload):
    """Name, kind, sequence id and what is behind; or the text of an envelope's fault."""
    left = Bytes(payload)
    try:
        first = left.take(4)
        if i32(first) < 0:
            if first[:2] != b"\x80\x01":
                return "Version " + first.hex()
            kind, size = first[3], i32(left.take(4))
            if size < 0:
                return "NameSize"
            name, number_ = left.take(size), i32(left.take(4))
        else:
            name = left.take(i32(first))
            kind, number_ = left.take(1)[0], i32(left.take(4))
    except Short:
        return "Short"
    if kind not in (1, 4):
        return "MessageType %d" % kind
    return name, kind, number_, left


class BadSize(Exception):
    """A length below 0."""


class TooDeep(Exception):
    """A struct or container at level 65."""


class BadType(Exception):
    """A code of no type."""


def size_of(left):
    size = i32(left.take(4))
    if size < 0:
        raise BadSize
    return size


def size_within(left):
    size = size_of(left)
    if size > len(left.bytes) - left.at:
        raise Short
    return size


# How many bytes a number has, by the code of its type. Numbers but those of 32 bits are read and not kept.
WIDTHS = {2: 1, 3: 1, 4: 8, 6: 2, 8: 4, 10: 8}
NO_VALUE = object()


def value_of(left, code, level):
    """A value: a number of 32 bits, a text, or a struct; another one is none."""
    if code in WIDTHS:
        bytes_ = left.take(WIDTHS[code])
        return i32(bytes_) if code == 8 else NO_VALUE
    if code == 11:
        return left.take(size_of(left))
    if level > 64:
        raise TooDeep
    if code == 12:
        return fields(left, level)
    codes = left.take(2 if code == 13 else 1)
    for _ in range(checked(size_within(left), codes)):
        for inner in codes:
            value_of(left, inner, level + 1)
    return NO_VALUE


def checked(size, codes):
    """The size of a container, of whose elements the types are looked at where there are some."""
    for code in codes if size else b"":
        look_at_type(code)
    return size


def look_at_type(code):
    if code not in WIDTHS and code not in (11, 12, 13, 14, 15):
        raise BadType(code)


def fields(left, level=1):
    """A struct: its fields in order, with repeats."""
    found = []
    while True:
        code = left.take(1)[0]
        if code == 0:
            return found
        look_at_type(code)
        place = int.from_bytes(left.take(2), "big", signed=True)
        found.append((place, value_of(left, code, level + 1)))


def text_of(value):
    """A value's text."""
    if isinstance(value, int):
        return "%di" % value
    if isinstance(value, bytes):
        return '"%s"' % "".join("\\" + chr(b) if b in b'"\\' else chr(b) if 0x20 <= b <= 0x7e else "\\x%02x" % b for b in value)
    return "{" + ",".join("%d=%s" % (place, text_of(inner)) for place, inner in value.items()) + "}"


METHODS = {b"ping": {}, b"zip": {}, b"add": {1: int, 2: int}, b"calculate": {1: int, 2: list}, b"getStruct": {1: int}}
WORK = {1: int, 2: int, 3: int, 4: bytes}
TEXTS = {"service": (1, "Service name not found: %s"), "unknown": (1, "Invalid method name: '%s'"), "bad": (7, "Bad arguments: %s"), "broken": (6, "Internal error processing %s"),
         "large": (6, "Reply is too large")}


def message(name, kind, number_, body):
    payload = b"\x80\x01\x00" + bytes([kind]) + put32(len(name)) + name + put32(number_) + body
    return put32(len(payload)) + payload


def exception(name, number_, code, text):
    body = b"\x0b\x00\x01" + put32(len(text)) + text.encode("latin-1") + b"\x08\x00\x02" + put32(code) + b"\x00"
    return message(name, 3, number_, body)


def fitting(found, types):
    """Of the fields that are declared, by id, the last one of the declared type."""
    return {place: value for place, value in sorted(found, key=lambda field: field[0]) if isinstance(value, types.get(place, ()))}


def decide(payload):
    """('close', fault), ('silent',), ('reply', frame) or ('invoke', name, arguments, silent, sequence id)."""
    found = head(payload)
    if isinstance(found, str):
        return "close", found
    asked, kind, number_, left = found
    service, colon, name = asked.partition(b":") if b":" in asked else (b"", b"", asked)
    if colon and service != b"Calculator":
        text = TEXTS["service"][1] % service.decode("latin-1")
        return ("silent",) if kind == 4 else ("reply", exception(name, number_, 1, text))
    if name not in METHODS:
        text = TEXTS["unknown"][1] % name.decode("latin-1")
        return ("silent",) if kind == 4 else ("reply", exception(name, number_, 1, text))
    silent = name == b"zip" or kind == 4
    try:
        read = fields(left)
    except (Short, BadSize, TooDeep, BadType) as fault:
        why = " ".join([type(fault).__name__, *map(str, fault.args)])
        return ("silent",) if silent else ("reply", exception(name, number_, 7, TEXTS["bad"][1] % why))
    args = fitting(read, METHODS[name])
    if name == b"calculate" and 2 in args:
        args[2] = dict(sorted({1: 0, **fitting(args[2], WORK)}.items()))
    return "invoke", name, args, silent, number_


def calculated(op, a, b):
    """What a calculation comes to, or the text of why it comes to nothing."""
    if op == 1:
        return wrapped(a + b)
    if op == 2:
        return wrapped(a - b)
    if op == 3:
        return wrapped(a * b)
    if op != 4:
        return "Unknown operation"
    if b == 0:
        return "Cannot divide by 0"
    return wrapped(abs(a) // abs(b) * (1 if (a < 0) == (b < 0) else -1))


def answer(memory, name, args):
    """('ok', value), ('empty',), ('throws', id, value) or ('broken',)."""
    if name in (b"ping", b"zip"):
        return ("empty",)
    if name == b"add":
        return "ok", wrapped(args.get(1, 0) + args.get(2, 0))
    if name == b"getStruct":
        key = args.get(1, 0)
        return ("ok", {1: key, 2: memory[key]}) if key in memory else ("empty",)
    if 2 not in args:
        return ("broken",)
    work = args[2]
    op = work.get(3, 0)
    value = calculated(op, work.get(1, 0), work.get(2, 0))
    if isinstance(value, str):
        return "throws", 1, {1: op, 2: value.encode()}
    memory[args.get(1, 0)] = b"%d" % value
    return "ok", value


def body_of(value):
    if isinstance(value, int):
        return b"\x08", put32(value)
    if isinstance(value, bytes):
        return b"\x0b", put32(len(value)) + value
    return b"\x0c", b"".join(body_of(inner)[0] + place.to_bytes(2, "big") + body_of(inner)[1] for place, inner in value.items()) + b"\0"


def reply(name, number_, given, max_frame):
    """The frame that goes back; a result that is too long gives way to a failure, which isn't measured."""
    if given[0] == "broken":
        return exception(name, number_, 6, TEXTS["broken"][1] % name.decode())
    if given[0] == "empty":
        frame = message(name, 2, number_, b"\0")
    else:
        place, value = (0, given[1]) if given[0] == "ok" else given[1:]
        code, body = body_of(value)
        frame = message(name, 2, number_, code + place.to_bytes(2, "big") + body + b"\0")
    return frame if len(frame) - 4 <= max_frame else exception(name, number_, 6, TEXTS["large"][1])


def entry_line(entry):
    """An entry's line."""
    c, i, name, args, silent, given = entry
    word = "oneway" if silent else "call"
    said = {"ok": lambda: "ok " + text_of(given[1]), "empty": lambda: "empty", "broken": lambda: "broken",
            "throws": lambda: "throws %d %s" % (given[1], text_of(given[2]))}[given[0]]()
    return "%s %d %d 0 %s %s %s" % (word, c, i, name.decode(), text_of(args), said)


# --- the machine

class Conn:
    """An opened connection: its state, what of its input has arrived, and its rules."""

    def __init__(self, rules):
        self.state, self.held, self.size, self.frames = "size", b"", 0, 0
        self.pieces, self.finish, self.rules, self.left = [], None, list(rules), b""
        self.cause, self.out = None, b""


class JournalFault(Exception):
    """The journal failed."""


class Machine:
    """Loop, hall and workers, without threads."""

    def __init__(self, rules, workers, max_frame, read_budget, fails_at=None, lacks_at=None):
        self.rules, self.max_frame, self.read_budget, self.fails_at = rules, max_frame, read_budget, fails_at
        self.lacks_at, self.wants = lacks_at, 0
        self.conns, self.tape, self.journal, self.memory = [], [], [], {}
        self.admitted, self.jobs, self.outcomes = {}, [], []
        self.workers = [None] * max(1, workers)

    def lacks(self):
        """Whether memory runs out at this want of it, of those that end one connection alone."""
        self.wants += 1
        return self.wants - 1 == self.lacks_at

    def close(self, c, cause):
        conn = self.conns[c]
        conn.state, conn.cause = "ended", cause
        self.admitted.pop(c, None)
        self.tape.append("close %d" % c)

    def read(self, c):
        conn = self.conns[c]
        if not conn.pieces:
            return self.read_behind(c)
        wanted = (4 if conn.state == "size" else conn.size) - len(conn.held)
        piece = conn.pieces[0]
        count = min(wanted, MOST_READ, len(piece))
        conn.held += piece[:count]
        conn.pieces[0] = piece[count:]
        if not conn.pieces[0]:
            conn.pieces.pop(0)
        self.tape.append("read %d %d" % (c, count))
        if count < wanted:
            return True
        if conn.state == "frame":
            conn.state = "ready"
            return True
        conn.size, conn.held = i32(conn.held), b""
        conn.state = "held"
        if not 1 <= conn.size <= self.max_frame:
            self.close(c, "SizeFault %d" % conn.size)
        return True

    def read_behind(self, c):
        conn = self.conns[c]
        if conn.finish is None:
            return False
        if conn.finish == "readfail":
            self.tape.append("readfail %d" % c)
            self.close(c, "ReadFault")
            return True
        self.tape.append("end %d" % c)
        self.close(c, "End" if conn.state == "size" and not conn.held else "Cut")
        return True

    def admit(self, c):
        conn = self.conns[c]
        if sum(self.admitted.values()) + conn.size > self.read_budget:
            return False
        if self.lacks():
            self.close(c, "NoMemory")
            return True
        self.admitted[c] = conn.size
        conn.state = "frame"
        return True

    def submit(self, c):
        conn = self.conns[c]
        self.jobs.append((c, conn.frames, conn.held))
        conn.frames, conn.held, conn.state = conn.frames + 1, b"", "waiting"
        return True

    def write(self, c):
        conn = self.conns[c]
        rule = conn.rules.pop(0) if conn.rules else ("write", len(conn.left))
        if rule[0] == "block":
            return True
        if rule[0] == "writefail":
            self.tape.append("writefail %d" % c)
            self.close(c, "WriteFault")
            return True
        count = min(rule[1], len(conn.left))
        conn.out += conn.left[:count]
        conn.left = conn.left[count:]
        self.tape.append("wrote %d %d" % (c, count))
        if not conn.left:
            conn.state = "size"
        return True

    def loop(self, c):
        """One move of a connection; whether there was one."""
        state = self.conns[c].state
        moves = {"size": self.read, "frame": self.read, "held": self.admit, "ready": self.submit, "writing": self.write}
        return state in moves and moves[state](c)

    def work(self, w):
        """The next of a worker's steps; whether there was one."""
        held = self.workers[w]
        if held is None:
            if not self.jobs:
                return False
            job = self.jobs.pop(0)
            self.workers[w] = (job, ("lacks",) if self.lacks() else decide(job[2]), None)
            return True
        (c, i, _), decided, given = held
        if decided[0] == "invoke" and given is None:
            self.apply(w, c, i, decided)
            return True
        self.workers[w] = None
        if decided[0] == "invoke":
            _, name, _, silent, number_ = decided
            decided = ("silent",) if silent else ("lacks",) if self.lacks() else ("reply", reply(name, number_, given, self.max_frame))
        self.outcomes.append((c, decided))
        return True

    def apply(self, w, c, i, decided):
        _, name, args, silent, _ = decided
        if self.lacks():
            self.workers[w] = (self.workers[w][0], ("lacks",), None)
            return
        given = answer(self.memory, name, args)
        if len(self.journal) == self.fails_at:
            raise JournalFault
        self.journal.append((c, i, name, args, silent, given))
        self.workers[w] = (self.workers[w][0], ("lacks",) if self.lacks() else decided, given)

    def collect(self):
        """Gives the oldest outcome to its connection; whether there was one."""
        if not self.outcomes:
            return False
        c, settled = self.outcomes.pop(0)
        conn = self.conns[c]
        self.admitted.pop(c, None)
        if settled[0] == "close":
            self.close(c, "Envelope " + settled[1])
        elif settled[0] == "lacks":
            self.close(c, "NoMemory")
        elif settled[0] == "silent":
            conn.state, conn.held = "size", b""
        else:
            conn.state, conn.held, conn.left = "writing", b"", settled[1]
        return True

    def one_pass(self):
        moved = False
        for c in range(len(self.conns)):
            while self.loop(c):
                moved = True
        for w in range(len(self.workers)):
            while self.work(w):
                moved = True
                if self.workers[w] is None:
                    break
        while self.collect():
            moved = True
        return moved

    def do(self, line):
        word, *parts = line
        if word == "open":
            self.tape.append("open %d" % len(self.conns))
            self.conns.append(Conn(self.rules[len(self.conns)]))
        elif word == "data":
            self.conns[parts[0]].pieces.append(parts[1])
        elif word in ("end", "readfail"):
            self.conns[parts[0]].finish = word
        elif word == "rest":
            while self.one_pass():
                pass
        elif word == "loop":
            self.loop(parts[0])
        elif word == "work":
            self.work(parts[0])
        else:
            self.collect()

    def run(self, lines):
        """Does the lines, and drains the run; whether the journal held."""
        try:
            for line in lines + [("rest",)]:
                self.do(line)
            return True
        except JournalFault:
            for c, conn in enumerate(self.conns):
                if conn.cause is None:
                    self.close(c, "Stopped")
            return False

    def report(self):
        lines = ["tape " + mark for mark in self.tape] + [entry_line(entry) for entry in self.journal]
        lines += ["conn %d %s %s" % (c, conn.cause, conn.out.hex() or "-") for c, conn in enumerate(self.conns)]
        return "".join(line + "\n" for line in lines + ["calls %d" % len(self.journal)])


def without_memory(text, workers, max_frame=16_384_000, read_budget=268_435_456):
    """The reports of a script's runs in which memory runs out once, at each want that ends one connection alone, and of the run in which it doesn't."""
    lines, rules = read_script(text, workers)
    reports, place = set(), 0
    while True:
        machine = Machine(rules, workers, max_frame, read_budget, None, place)
        machine.run(lines)
        reports.add(machine.report())
        if machine.wants <= place:
            return reports
        place += 1


def rehearse(text, workers, max_frame=16_384_000, read_budget=268_435_456):
    """The report of a script, or the errors' line of a text that is none."""
    try:
        lines, rules = read_script(text, workers)
    except Fault as fault:
        return "thriftd: script %d %s\n" % (fault.line, fault.kind)
    machine = Machine(rules, workers, max_frame, read_budget)
    machine.run(lines)
    return machine.report()


if __name__ == "__main__":
    sys.stdout.write(rehearse(sys.stdin.buffer.read(), *map(int, sys.argv[1:])))
