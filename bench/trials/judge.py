#!/usr/bin/env python3
"""Judges a report over its script, from the rules and not from the program: judge.py WORKERS [MAX_FRAME [READ_BUDGET]] SCRIPT REPORT

The report is one of `thriftd record` or `thriftd rehearse` with `@tutorial binary WORKERS Calculator=calculator`. It ends with status 0 where the report is of a
run that meets the headline and is fed by the script. Otherwise it prints a line, which part is broken and by what, and ends with status 1. Each part is a
function below. What was read is the script's, since the tape tells sizes alone; what was written stands in the lines of the connections.
`judge.py --test` breaks reports in many ways (bench/trials/broken_reports.py), to see that the judge finds each.
"""
import bisect
import heapq
import sys

import rehearsal_model as model
from texts import Fault, entries

MAX_FRAME, READ_BUDGET, MOST_OPEN = 16_384_000, 268_435_456, 1_024
# The order of a report's lines.
RANKS = {"tape": 0, "call": 1, "oneway": 1, "conn": 2, "calls": 3}
NEVER = float("inf")


class Broken(Exception):
    """What is wrong."""


def demand(holds, what, *parts):
    if not holds:
        raise Broken(what % parts)


# --- the report's lines

def plain(value):
    """A value as the model has it: a number, a text or a struct of such."""
    if value.tag == "struct":
        return {number: plain(item) for number, item in value.held}
    demand(value.tag in ("i32", "bytes"), "no value of the calculator: %s", value)
    return value.held


def plain_answer(answer):
    """An answer, as the model has it."""
    parts = [part for part in (answer.id, answer.value and plain(answer.value)) if part is not None]
    return (answer.kind, *parts)


def read_line(line):
    try:
        return entries.read_line(line)
    except Fault as fault:
        raise Broken("no line of a report: %s, at %d: %s" % (fault, fault.at, line)) from None


class Entry:
    """A call of the journal."""

    def __init__(self, line):
        read = read_line(line)
        demand(isinstance(read, entries.Entry), "no line of a call: %s", line)
        self.silent, self.c, self.i, self.slot = read.oneway, read.connection, read.frame, read.slot
        self.method, self.args, self.answer, self.line = read.method.encode(), plain(read.args), plain_answer(read.answer), line
        own = (self.c, self.i, self.method, self.args, self.silent, self.answer)
        demand(self.slot == 0 and model.entry_line(own) == line, "no entry's line: %s", line)


class Report:
    """A report's tape, journal, causes and what was written."""

    def __init__(self, text):
        demand(text.endswith("\n"), "the last line has no end")
        self.tape, self.journal, self.causes, self.outs = [], [], [], []
        lines = text[:-1].split("\n")
        kinds = [line.split(" ")[0] for line in lines]
        ranks = [RANKS.get(kind, len(RANKS)) for kind in kinds]
        demand(ranks == sorted(ranks) and kinds[-1:] == ["calls"], "its lines have another order")
        for line in lines[:-1]:
            self.take(line)
        demand(lines[-1] == "calls %d" % len(self.journal), "the end isn't `calls %d`", len(self.journal))

    def take(self, line):
        if line.startswith(("call ", "oneway ")):
            self.journal.append(Entry(line))
            return
        read = read_line(line)
        if isinstance(read, entries.Mark):
            self.tape.append((read.event, read.connection, read.count or 0))
            return
        is_next = isinstance(read, entries.Ended) and read.connection == len(self.causes) and read.written is not None
        demand(is_next, "no end of connection %d: %s", len(self.causes), line)
        self.causes.append(read.cause)
        self.outs.append(read.written)


# --- a connection

class Connection:
    """What the script says of a connection and what the report does, with the frames of what was read, the decisions on them and the replies to them."""

    def __init__(self, c, max_frame):
        self.c, self.max_frame = c, max_frame
        self.pieces, self.lines, self.opening, self.finish, self.rules = [], [], None, None, []
        self.marks, self.entries, self.cause, self.out = [], [], None, b""

    def settle(self):
        """Works out the rest, once all of the script and the report is known."""
        self.bytes = b"".join(self.pieces)
        self.input = self.bytes[:sum(n for _, kind, n in self.marks if kind == "read")]
        self.frame_ends, self.payloads, at = [], [], 0
        while self.is_size(at) and at + 4 + self.size_at(at) <= len(self.input):
            self.payloads.append(self.input[at + 4:at + 4 + self.size_at(at)])
            at += 4 + self.size_at(at)
            self.frame_ends.append(at)
        self.rest = self.input[at:]
        self.decisions = [model.decide(payload) for payload in self.payloads]
        answers = {entry.i: entry.answer for entry in reversed(self.entries)}
        self.replies = [self.reply_to(decided, answers.get(i)) for i, decided in enumerate(self.decisions)]
        self.sent_ends = [0]
        for reply in self.replies:
            self.sent_ends.append(self.sent_ends[-1] + len(reply))
        self.sent = b"".join(self.replies)
        self.place_frames()

    def size_at(self, at):
        return model.i32(self.input[at:at + 4])

    def is_size(self, at):
        """Whether a whole size that a frame may have stands there."""
        return at + 4 <= len(self.input) and 1 <= self.size_at(at) <= self.max_frame

    def reply_to(self, decided, given):
        """The reply to a frame, or nothing."""
        if decided[0] == "reply":
            return decided[1]
        if decided[0] != "invoke" or decided[3] or given is None:
            return b""
        return model.reply(decided[1], decided[4], given, self.max_frame)

    def place_frames(self):
        """The place of the mark with which each frame is whole, and of that with which its reply begins."""
        read = written = 0
        self.whole_at, self.begun_at = [], [NEVER] * len(self.payloads)
        for place, kind, n in self.marks:
            if kind == "read":
                read += n
                while len(self.whole_at) < len(self.frame_ends) and self.frame_ends[len(self.whole_at)] <= read:
                    self.whole_at.append(place)
            if kind == "wrote":
                first = bisect.bisect_left(self.sent_ends, written)
                last = bisect.bisect_left(self.sent_ends, written + n)
                for i in range(first, min(last, len(self.begun_at))):
                    self.begun_at[i] = place
                written += n

    def missing(self, read):
        """How many bytes complete the size or the payload that is under way, so many bytes being read; or None behind a size that no frame has."""
        k = bisect.bisect_right(self.frame_ends, read)
        start = self.frame_ends[k - 1] if k else 0
        if read - start < 4:
            return start + 4 - read
        return start + 4 + self.size_at(start) - read if self.is_size(start) else None

    def size_under_way(self, read):
        """The whole size of a frame that isn't whole, and whether a byte behind it is read; 0 where there is none."""
        missing = self.missing(read)
        k = bisect.bisect_right(self.frame_ends, read)
        start = self.frame_ends[k - 1] if k else 0
        return (0, False) if missing is None or read - start < 4 else (self.size_at(start), read - start > 4)


class Run:
    """A report beside its script."""

    def __init__(self, text, report, workers, max_frame=MAX_FRAME, read_budget=READ_BUDGET):
        self.max_frame, self.read_budget = max_frame, read_budget
        lines, rules = model.read_script(text, workers)
        self.report, self.conns, self.rests = report, [], []
        for place, line in enumerate(lines):
            self.take_line(place, *line)
        for conn, own in zip(self.conns, rules):
            conn.rules = [rule for rule in own if rule[0] != "block"]
        self.openings = len(self.conns)
        seen = [c for _, c, _ in report.tape] + [entry.c for entry in report.journal]
        demand(len(report.causes) == self.openings and max(seen, default=-1) < self.openings, "the script opens %d connections", self.openings)
        for place, (kind, c, n) in enumerate(report.tape):
            self.conns[c].marks.append((place, kind, n))
        for entry in report.journal:
            self.conns[entry.c].entries.append(entry)
        for conn in self.conns:
            conn.cause, conn.out = report.causes[conn.c], report.outs[conn.c]
            conn.settle()
        self.moments = Moments(self)

    def take_line(self, place, word, *parts):
        if word == "open":
            self.conns.append(Connection(len(self.conns), self.max_frame))
            self.conns[-1].opening = place
        elif word == "rest":
            self.rests.append(place)
        elif word == "data":
            self.conns[parts[0]].pieces.append(parts[1])
            self.conns[parts[0]].lines.append(place)
        elif word in ("end", "readfail"):
            self.conns[parts[0]].finish = (word, place)


# --- the headline

def legal_history(run):
    """Each call has the answer of the calculator, at what the calls before it left."""
    memory = {}
    for entry in run.report.journal:
        demand(entry.method in model.METHODS, "no method: %s", entry.line)
        demand(model.answer(memory, entry.method, entry.args) == entry.answer, "not the answer: %s", entry.line)


def in_order(run):
    """A call whose frame wasn't whole yet when the reply to another had begun stands behind that other."""
    latest, of = -1, None
    for entry in run.report.journal:
        conn = run.conns[entry.c]
        whole = conn.whole_at[entry.i] if entry.i < len(conn.whole_at) else NEVER
        if whole > latest:
            latest, of = whole, entry
        begun = conn.begun_at[entry.i] if entry.i < len(conn.begun_at) and not entry.silent else NEVER
        demand(begun > latest, "its reply begins at mark %s, before the frame of the earlier %s: %s", begun, of.line, entry.line)


def called(conn, count):
    """The calls of the first frames."""
    return [(i, *decided[1:4]) for i, decided in enumerate(conn.decisions[:count]) if decided[0] == "invoke"]


def is_done(conn, count):
    return [(entry.i, entry.method, entry.args, entry.silent) for entry in conn.entries] == called(conn, count)


def demand_finished(conn):
    """Each call is in the journal, once and in order, and each reply is written."""
    demand(is_done(conn, len(conn.payloads)), "connection %d: its calls aren't those of its frames", conn.c)
    demand(conn.out == conn.sent, "connection %d: what was written isn't its replies", conn.c)


def demand_replying(conn):
    """All replies but the last are written, and of that a part, nothing or the whole."""
    before = conn.sent_ends[-2] if conn.payloads else 0
    demand(conn.sent.startswith(conn.out) and len(conn.out) >= before, "connection %d: what was written is no beginning of its replies", conn.c)


def demand_broken_off(conn):
    count = len(conn.payloads)
    demand(is_done(conn, count) or count and is_done(conn, count - 1), "connection %d: its calls aren't those of its frames, or all but the last", conn.c)
    demand_replying(conn)
    if conn.rest:
        demand(goes_on(conn) and has_no_bad_size(conn), "connection %d: bytes behind its end", conn.c)
        demand_finished(conn)


def goes_on(conn):
    """No frame is refused."""
    return all(decided[0] != "close" for decided in conn.decisions)


def has_no_bad_size(conn):
    return len(conn.rest) < 4 or 1 <= model.i32(conn.rest[:4]) <= conn.max_frame


def conversation(conn):
    """The frames of a connection, its calls and what was written to it are as its cause says."""
    kind, _, fault = conn.cause.partition(" ")
    demand(all(decided[0] != "close" for decided in conn.decisions[:-1]), "connection %d: bytes behind a head that is refused", conn.c)
    if kind in ("End", "Cut", "ReadFault"):
        demand(goes_on(conn) and has_no_bad_size(conn), "connection %d: it can't end by %s", conn.c, conn.cause)
        demand(kind == "ReadFault" or (kind == "End") == (not conn.rest), "connection %d: it ends by %s", conn.c, conn.cause)
        demand_finished(conn)
    elif kind == "SizeFault":
        is_such = goes_on(conn) and len(conn.rest) == 4 and not has_no_bad_size(conn) and "%d" % model.i32(conn.rest) == fault
        demand(is_such, "connection %d: it can't end by %s", conn.c, conn.cause)
        demand_finished(conn)
    elif kind == "Envelope":
        demand(not conn.rest and conn.decisions[-1:] == [("close", fault)], "connection %d: it can't end by %s", conn.c, conn.cause)
        demand_finished(conn)
    elif kind == "WriteFault":
        demand(goes_on(conn) and not conn.rest and is_done(conn, len(conn.payloads)), "connection %d: it can't end by %s", conn.c, conn.cause)
        demand_replying(conn)
        demand(conn.out != conn.sent, "connection %d: nothing was left to write", conn.c)
    else:
        demand(conn.cause == "NoMemory", "connection %d: a run that ends well has no such cause: %s", conn.c, conn.cause)
        demand_broken_off(conn)


def turns(conn):
    """No reply goes out before its frame is whole, and nothing more is read before it is written."""
    read = written = 0
    for place, kind, n in conn.marks:
        read += n if kind == "read" else 0
        written += n if kind == "wrote" else 0
        whole = bisect.bisect_right(conn.frame_ends, read)
        start = conn.frame_ends[whole - 1] if whole else 0
        demand(written <= conn.sent_ends[whole], "connection %d: mark %d writes more than is to be sent by then", conn.c, place)
        least = conn.sent_ends[max(0, whole - 1)] if read == start else conn.sent_ends[whole]
        demand(written >= least, "connection %d: mark %d reads before all replies are written", conn.c, place)
    demand(written == len(conn.out), "connection %d: %d bytes were written, and %d are told", conn.c, written, len(conn.out))


ENDINGS = {"End": ["end"], "Cut": ["end"], "ReadFault": ["readfail"], "WriteFault": ["writefail"]}


def marks(conn):
    """A connection's marks are its opening, what was read and written, and the last marks of its cause."""
    kinds = [kind for _, kind, _ in conn.marks]
    ending = ENDINGS.get(conn.cause, []) + ["close"]
    demand(kinds[:1] == ["open"] and len(kinds) > len(ending), "connection %d: its first mark isn't its opening", conn.c)
    demand(kinds[-len(ending):] == ending, "connection %d: its last marks aren't those of %s", conn.c, conn.cause)
    demand(set(kinds[1:-len(ending)]) <= {"read", "wrote"}, "connection %d: a mark of an end before the end", conn.c)


# --- what the script feeds

class Moments:
    """What stands at each place of the tape, from the one in front of all marks to the one behind them."""

    def __init__(self, run):
        self.run, self.tape = run, run.report.tape
        self.read, self.written, self.is_open = [0] * run.openings, [0] * run.openings, [False] * run.openings
        self.next_piece, self.left, self.waiting = [0] * run.openings, [0] * run.openings, []
        self.owes, self.sizes = [False] * run.openings, [(0, False)] * run.openings
        self.now = {"opened": 0, "open": 0, "line": -1, "owing": 0, "held": 0, "begun": 0}
        self.at = []
        self.note()
        for mark in self.tape:
            self.take(*mark)
            self.note()

    def note(self):
        """Keeps what stands now, and besides the earliest line of the script whose bytes an open connection hasn't read."""
        while self.waiting and not self.is_unread(*self.waiting[0]):
            heapq.heappop(self.waiting)
        self.at.append(dict(self.now, unread=self.waiting[0][0] if self.waiting else NEVER))

    def is_unread(self, line, c):
        conn = self.run.conns[c]
        return self.is_open[c] and self.next_piece[c] < len(conn.lines) and conn.lines[self.next_piece[c]] == line

    def take(self, kind, c, n):
        conn, now = self.run.conns[c], self.now
        if kind == "open":
            now["opened"] += 1
            now["line"] = max(now["line"], conn.opening)
            self.turn(c, True)
            self.await_piece(c)
        elif kind == "read":
            self.read_on(c, n)
        elif kind == "wrote":
            self.written[c] += n
        elif kind in ("end", "readfail"):
            now["line"] = max(now["line"], conn.finish[1])
        elif kind == "close":
            self.turn(c, False)
        self.weigh(c)

    def turn(self, c, is_open):
        self.now["open"] += is_open - self.is_open[c]
        self.is_open[c] = is_open

    def await_piece(self, c):
        conn = self.run.conns[c]
        if self.next_piece[c] < len(conn.lines):
            self.left[c] = len(conn.pieces[self.next_piece[c]])
            heapq.heappush(self.waiting, (conn.lines[self.next_piece[c]], c))

    def read_on(self, c, n):
        """Takes so many bytes off the pieces; the mark comes of the last piece's line."""
        conn = self.run.conns[c]
        self.read[c] += n
        while n and self.next_piece[c] < len(conn.lines):
            self.now["line"] = max(self.now["line"], conn.lines[self.next_piece[c]])
            took = min(n, self.left[c])
            n, self.left[c] = n - took, self.left[c] - took
            if not self.left[c]:
                self.next_piece[c] += 1
                self.await_piece(c)

    def weigh(self, c):
        """Counts anew whether something is owed to this connection, and what it has under way."""
        conn, now, is_open = self.run.conns[c], self.now, self.is_open[c]
        whole = bisect.bisect_right(conn.frame_ends, self.read[c])
        owes = is_open and self.written[c] != conn.sent_ends[whole]
        now["owing"] += owes - self.owes[c]
        size, is_begun = conn.size_under_way(self.read[c]) if is_open else (0, False)
        before, was_begun = self.sizes[c]
        now["held"] += size - before
        now["begun"] += (size if is_begun else 0) - (before if was_begun else 0)
        self.owes[c], self.sizes[c] = owes, (size, is_begun)


def within_bounds(run):
    """At no moment more connections are open, or more bytes under way, than may be."""
    for place, now in enumerate(run.moments.at):
        demand(now["open"] <= MOST_OPEN, "%d connections are open at mark %d", now["open"], place)
        demand(now["begun"] <= run.read_budget, "frames of %d bytes are under way at mark %d", now["begun"], place)


def openings_in_order(run):
    opened = [c for kind, c, _ in run.report.tape if kind == "open"]
    demand(opened == list(range(run.openings)), "connections are opened as %s", opened)


def pieces(conn):
    """Each read takes what is missing of the size or the frame, but at most 65,536 bytes and what is left of the piece; the input ends, or fails, behind all."""
    ends, at = [], 0
    for piece in conn.pieces:
        at += len(piece)
        ends.append(at)
    read = 0
    for place, kind, n in conn.marks:
        if kind == "read":
            demand(read < len(conn.bytes), "connection %d: mark %d reads behind its pieces", conn.c, place)
            missing = conn.missing(read)
            demand(missing is not None, "connection %d: mark %d reads behind a size that no frame has", conn.c, place)
            part = min(missing, model.MOST_READ, ends[bisect.bisect_right(ends, read)] - read)
            demand(n == part, "connection %d: mark %d reads %d bytes, and not %d", conn.c, place, n, part)
            read += n
        if kind in ("end", "readfail"):
            demand(read == len(conn.bytes) and kind == conn.finish[0], "connection %d: the script has no %s at mark %d", conn.c, kind, place)


def rules(conn):
    """Each write is under the rule whose turn it is: it takes so many bytes at most, or it fails; without a rule it takes all."""
    read = written = writes = 0
    for place, kind, n in conn.marks:
        read += n if kind == "read" else 0
        if kind not in ("wrote", "writefail"):
            continue
        offered = conn.sent_ends[bisect.bisect_right(conn.frame_ends, read)] - written
        rule = conn.rules[writes] if writes < len(conn.rules) else ("write", offered)
        wanted = ("writefail", 0) if rule[0] == "writefail" else ("wrote", min(rule[1], offered))
        demand((kind, n) == wanted, "connection %d: write %d is %s %d at mark %d, and not %s %d", conn.c, writes, kind, n, place, *wanted)
        writes, written = writes + 1, written + n


def places_between(run):
    """The places of the tape at which nothing is owed, and before which each call stands before those whose frames are whole behind it."""
    at = [(run.conns[entry.c].whole_at[entry.i], rank) for rank, entry in enumerate(run.report.journal)]
    at.sort()
    first_behind = [NEVER] * (len(at) + 1)
    for k in range(len(at) - 1, -1, -1):
        first_behind[k] = min(first_behind[k + 1], at[k][1])
    found, last_before, k = [], -1, 0
    for place, now in enumerate(run.moments.at):
        while k < len(at) and at[k][0] < place:
            last_before = max(last_before, at[k][1])
            k += 1
        if now["owing"] == 0 and last_before < first_behind[k]:
            found.append(place)
    return found


def rest_places(run):
    """For each line of rest there is a place at which all of the lines above it is done, and nothing of those below it."""
    if not run.rests:
        return
    at, candidates = run.moments.at, places_between(run)
    lines, opened = [now["line"] for now in at], [now["opened"] for now in at]
    openings = [conn.opening for conn in run.conns]
    for rest in run.rests:
        first = bisect.bisect_left(opened, bisect.bisect_left(openings, rest))
        behind = bisect.bisect_left(lines, rest)
        own = candidates[bisect.bisect_left(candidates, first):bisect.bisect_left(candidates, behind)]
        demand(any(at[place]["unread"] > rest or at[place]["held"] > run.read_budget for place in reversed(own)), "no place for the rest in line %d", rest)


PARTS_OF_ALL = [("openings in order", openings_in_order), ("legal history", legal_history), ("in order", in_order), ("bounds", within_bounds)]
PARTS_OF_EACH = [("marks", marks), ("pieces", pieces), ("conversation", conversation), ("turns", turns), ("rules", rules)]


def judge(text, report, workers, max_frame=MAX_FRAME, read_budget=READ_BUDGET):
    """What is broken of a report, or None."""
    part = "form"
    try:
        run = Run(text, Report(report), workers, max_frame, read_budget)
        for part, of_each in PARTS_OF_EACH:
            for conn in run.conns:
                of_each(conn)
        for part, of_all in PARTS_OF_ALL + [("rest places", rest_places)]:
            of_all(run)
    except Broken as broken:
        return "%s: %s" % (part, broken)
    except model.Fault as fault:
        return "script: line %d, %s" % (fault.line, fault.kind)
    return None


def main(words):
    if words == ["--test"]:
        import broken_reports
        return broken_reports.main()
    if not 3 <= len(words) <= 5:
        sys.exit(__doc__)
    with open(words[-2], "rb") as script, open(words[-1], encoding="ascii") as report:
        broken = judge(script.read(), report.read(), *map(int, words[:-2]))
    if broken:
        print(broken)
    return 1 if broken else 0


if __name__ == "__main__":
    sys.exit(main(sys.argv[1:]))
