"""Breaks reports in many ways, to see that bench/trials/judge.py finds each: judge.py --test

The reports are those of the calculator that are kept in examples/, and the model's (bench/trials/rehearsal_model.py) of the scripts below and of random ones. Each has to
be found right, and each that is broken has to be found wrong. Two calls that change places may be lawful still: what the judge says of them is compared with
the definitions, read slowly.
"""
import collections
import itertools
import os
import random

import judge
import rehearsal_mixes as mixes
import rehearsal_model as model

EXAMPLES = os.path.join(os.path.dirname(os.path.dirname(os.path.dirname(os.path.abspath(__file__)))), "examples")
RANDOM_SCRIPTS, SEED, MOST_OF_A_KIND = 60, 7, 8
CAUSES = ["End", "Cut", "SizeFault 0", "SizeFault -1", "Envelope Short", "Envelope MessageType 2", "ReadFault", "WriteFault", "NoMemory", "Stopped"]


class Parts:
    """A report's lines, those of the tape as lists of words."""

    def __init__(self, text):
        lines = text.splitlines()
        self.tape = [line.split()[1:] for line in lines if line.startswith("tape ")]
        self.calls = [line for line in lines if line.startswith(("call ", "oneway "))]
        self.conns = [line for line in lines if line.startswith("conn ")]

    def text(self):
        lines = ["tape " + " ".join(mark) for mark in self.tape] + self.calls + self.conns
        return "".join(line + "\n" for line in lines + ["calls %d" % len(self.calls)])

    def with_tape(self, tape):
        return self.replaced("tape", tape)

    def replaced(self, name, lines):
        other = Parts("")
        other.tape, other.calls, other.conns = self.tape, self.calls, self.conns
        setattr(other, name, lines)
        return other.text()


def without(lines, k):
    return lines[:k] + lines[k + 1:]


def instead(lines, k, *others):
    return lines[:k] + list(others) + lines[k + 1:]


def moved(lines, k, to):
    """The line of place k stands at another place."""
    left = without(lines, k)
    return left[:to] + [lines[k]] + left[to:]


# --- calls

def a_call_is_dropped(parts):
    for k in range(len(parts.calls)):
        yield parts.replaced("calls", without(parts.calls, k))


def a_call_is_doubled(parts):
    for k, line in enumerate(parts.calls):
        yield parts.replaced("calls", instead(parts.calls, k, line, line))
        yield parts.replaced("calls", parts.calls + [line])


def calls_of_a_connection_change_places(parts):
    for k, j in itertools.combinations(range(len(parts.calls)), 2):
        if parts.calls[k].split()[1] == parts.calls[j].split()[1]:
            yield parts.replaced("calls", instead(instead(parts.calls, k, parts.calls[j]), j, parts.calls[k]))


def a_word_of_a_call_is_another(parts):
    for k, line in enumerate(parts.calls):
        words = line.split(" ")
        others = [{"call": "oneway", "oneway": "call"}, None, None, None, {"ping": "zip", "add": "ping"}]
        for place, other in enumerate(others):
            word = str(int(words[place]) + 1) if other is None else other.get(words[place], "add")
            yield parts.replaced("calls", instead(parts.calls, k, " ".join(instead(words, place, word))))


def an_argument_or_answer_is_another(parts):
    for k, line in enumerate(parts.calls):
        head, values = line.split(" ", 5)[:5], line.split(" ", 5)[5]
        for at, sign in enumerate(values):
            if sign.isdigit():
                other = values[:at] + "1234567890"[int(sign)] + values[at + 1:]
                yield parts.replaced("calls", instead(parts.calls, k, " ".join(head + [other])))


def an_answer_has_another_form(parts):
    for k, line in enumerate(parts.calls):
        for given in (" ok 0i", " empty", " broken", ' throws 1 {1=0i,2="Unknown operation"}'):
            at = max(line.rfind(" ok "), line.rfind(" throws "), line.rfind(" empty"), line.rfind(" broken"))
            if line[at:] != given:
                yield parts.replaced("calls", instead(parts.calls, k, line[:at] + given))


# --- the lines of connections

def a_written_byte_is_another(parts):
    for k, line in enumerate(parts.conns):
        head, _, text = line.rpartition(" ")
        for at in range(0, len(text) - 1, 2):
            other = text[:at] + "%02x" % (int(text[at:at + 2], 16) ^ 1) + text[at + 2:]
            yield parts.replaced("conns", instead(parts.conns, k, head + " " + other))


def a_written_byte_more_or_less(parts):
    for k, line in enumerate(parts.conns):
        head, _, text = line.rpartition(" ")
        text = text.replace("-", "")
        yield parts.replaced("conns", instead(parts.conns, k, head + " " + text + "00"))
        if text:
            yield parts.replaced("conns", instead(parts.conns, k, head + " " + (text[:-2] or "-")))


def a_cause_is_another(parts):
    for k, line in enumerate(parts.conns):
        head, cause, text = line.split(" ", 2)[:2], line.split(" ", 2)[2].rpartition(" ")[0], line.rpartition(" ")[2]
        for other in CAUSES:
            # Want of memory may come before a head is read.
            if other != cause and not (other == "NoMemory" and cause.startswith("Envelope")):
                yield parts.replaced("conns", instead(parts.conns, k, " ".join(head + [other, text])))


def a_connection_is_dropped_or_doubled(parts):
    for k, line in enumerate(parts.conns):
        yield parts.replaced("conns", without(parts.conns, k))
        yield parts.replaced("conns", instead(parts.conns, k, line, line))


# --- the tape

def own_next(parts, k):
    """The place of the next mark of the same connection, or None."""
    return next((j for j in range(k + 1, len(parts.tape)) if parts.tape[j][1] == parts.tape[k][1]), None)


def a_mark_is_dropped(parts):
    for k in range(len(parts.tape)):
        yield parts.with_tape(without(parts.tape, k))


def a_mark_is_doubled(parts):
    for k, mark in enumerate(parts.tape):
        yield parts.with_tape(instead(parts.tape, k, mark, mark))


def a_write_comes_before_its_frame_is_whole(parts):
    for k, mark in enumerate(parts.tape):
        j = own_next(parts, k)
        if mark[0] == "read" and j is not None and parts.tape[j][0] == "wrote":
            yield parts.with_tape(moved(parts.tape, j, k))


def a_read_comes_before_the_reply_is_written(parts):
    for k, mark in enumerate(parts.tape):
        j = own_next(parts, k)
        if mark[0] == "wrote" and j is not None and parts.tape[j][0] == "read":
            yield parts.with_tape(moved(parts.tape, j, k))


def own_marks_change_places(parts):
    """An opening, an end or a close that isn't where it has to be among its connection's marks."""
    for k, mark in enumerate(parts.tape):
        j = own_next(parts, k)
        if j is not None and not {mark[0], parts.tape[j][0]} <= {"read", "wrote"}:
            yield parts.with_tape(moved(parts.tape, j, k))


def a_size_is_another(parts):
    for k, mark in enumerate(parts.tape):
        for n in (-1, 1, 65536):
            if mark[2:] and int(mark[2]) + n > 0:
                yield parts.with_tape(instead(parts.tape, k, [*mark[:2], str(int(mark[2]) + n)]))


def a_transfer_is_cut_in_two(parts):
    for k, mark in enumerate(parts.tape):
        for n in (1, int(mark[2]) // 2) if mark[2:] and int(mark[2]) > 1 else ():
            yield parts.with_tape(instead(parts.tape, k, [*mark[:2], str(n)], [*mark[:2], str(int(mark[2]) - n)]))


def two_transfers_are_one(parts):
    for k, mark in enumerate(parts.tape):
        j = own_next(parts, k)
        if mark[2:] and j is not None and parts.tape[j][0] == mark[0]:
            whole = [*mark[:2], str(int(mark[2]) + int(parts.tape[j][2]))]
            yield parts.with_tape(instead(without(parts.tape, j), k, whole))


def an_opening_is_out_of_order(parts):
    places = [k for k, mark in enumerate(parts.tape) if mark[0] == "open"]
    for k, j in itertools.combinations(places, 2):
        yield parts.with_tape(instead(instead(parts.tape, k, parts.tape[j]), j, parts.tape[k]))


def a_mark_is_another(parts):
    for k, mark in enumerate(parts.tape):
        for kind in ("open", "end", "readfail", "writefail", "close"):
            if kind != mark[0]:
                yield parts.with_tape(instead(parts.tape, k, [kind, mark[1]]))
        if mark[2:]:
            yield parts.with_tape(instead(parts.tape, k, ["read" if mark[0] == "wrote" else "wrote", *mark[1:]]))


def a_mark_is_of_another_connection(parts):
    for k, mark in enumerate(parts.tape):
        yield parts.with_tape(instead(parts.tape, k, [mark[0], str(int(mark[1]) + 1), *mark[2:]]))


# --- the form

def the_form_is_another(parts):
    text = parts.text()
    yield text[:-1]
    yield text + "\n"
    yield text + "calls %d\n" % len(parts.calls)
    yield text.replace("calls %d\n" % len(parts.calls), "calls %d\n" % (len(parts.calls) + 1))
    yield text.replace("tape ", "tape  ", 1)
    yield "".join(line + "\n" for line in parts.conns) + text


BREAKS = [a_call_is_dropped, a_call_is_doubled, calls_of_a_connection_change_places, a_word_of_a_call_is_another, an_argument_or_answer_is_another,
          an_answer_has_another_form, a_written_byte_is_another, a_written_byte_more_or_less, a_cause_is_another, a_connection_is_dropped_or_doubled,
          a_mark_is_dropped, a_mark_is_doubled, a_write_comes_before_its_frame_is_whole, a_read_comes_before_the_reply_is_written, own_marks_change_places,
          a_size_is_another, a_transfer_is_cut_in_two, two_transfers_are_one, an_opening_is_out_of_order, a_mark_is_another,
          a_mark_is_of_another_connection, the_form_is_another]


# --- what may be lawful still, by the definitions, read slowly

def stands_at(run, place):
    """Of each connection, so many marks of the tape being made: its bytes read, bytes written, whether it is open, and how many frames are whole."""
    found = []
    for conn in run.conns:
        own = run.report.tape[:place]
        read = sum(n for kind, c, n in own if c == conn.c and kind == "read")
        written = sum(n for kind, c, n in own if c == conn.c and kind == "wrote")
        kinds = [kind for kind, c, _ in own if c == conn.c]
        found.append((read, written, kinds.count("open") > kinds.count("close"), sum(end <= read for end in conn.frame_ends)))
    return found


def is_in_order(run):
    """At each place of the tape, for all entries: one whose reply has begun stands before each whose frame isn't whole."""
    journal = run.report.journal
    for place in range(len(run.report.tape) + 1):
        stands = stands_at(run, place)
        whole = [entry.i < stands[entry.c][3] for entry in journal]
        begun = [not entry.silent and run.conns[entry.c].sent_ends[entry.i] < stands[entry.c][1] for entry in journal]
        if any(begun[x] and not whole[y] and x >= y for x in range(len(journal)) for y in range(len(journal))):
            return False
    return True


def tells_no_more(lines, conn, read, kinds):
    """No mark tells of more than these lines say of the connection."""
    said = sum(len(line[2]) for line in lines if line[0] == "data" and line[1] == conn.c)
    return read <= said and all((kind, conn.c) in lines for kind in kinds if kind in ("end", "readfail"))


def is_place_of_rest(run, lines, place):
    """Whether all that these lines say is done at this place of the tape, and nothing else."""
    front = run.report.tape[:place]
    stands, journal = stands_at(run, place), run.report.journal
    if [c for kind, c, _ in front if kind == "open"] != list(range(sum(line == ("open",) for line in lines))):
        return False
    if not all(tells_no_more(lines, conn, stands[conn.c][0], [kind for kind, c, _ in front if c == conn.c]) for conn in run.conns):
        return False
    if any(is_open and written != run.conns[c].sent_ends[whole] for c, (_, written, is_open, whole) in enumerate(stands)):
        return False
    whole = [entry.i < stands[entry.c][3] for entry in journal]
    if any(whole[x] and not whole[y] and x >= y for x in range(len(journal)) for y in range(len(journal))):
        return False
    unread = [c for c, (read, _, is_open, _) in enumerate(stands) if is_open and read < sum(len(line[2]) for line in lines if line[:2] == ("data", c))]
    held = sum(conn.size_under_way(stands[conn.c][0])[0] for conn in run.conns if stands[conn.c][2])
    return not unread or held > run.read_budget


def rests_somewhere(run, lines):
    above = [lines[:k] for k, line in enumerate(lines) if line == ("rest",)]
    return all(any(is_place_of_rest(run, some, place) for place in range(len(run.report.tape) + 1)) for some in above)


def is_lawful_still(text, report, numbers):
    """Whether a report in which two calls or two marks of different connections have changed places is right."""
    run = judge.Run(text, judge.Report(report), *numbers)
    try:
        judge.legal_history(run)
        judge.openings_in_order(run)
        judge.within_bounds(run)
    except judge.Broken:
        return False
    for conn in run.conns:
        if conn.out != conn.sent[:len(conn.out)]:
            return False
    return is_in_order(run) and rests_somewhere(run, model.read_script(text, numbers[0])[0])


def neighbours_of_others_change_places(parts):
    """Two calls, or two marks, of different connections."""
    for name, place in (("calls", 1), ("tape", 1)):
        lines = getattr(parts, name)
        for k in range(len(lines) - 1):
            words, others = [line if name == "tape" else line.split() for line in lines[k:k + 2]]
            if words[place] != others[place]:
                yield parts.replaced(name, moved(lines, k + 1, k))


def calls_are_sorted_by_connection(parts):
    for sign in (1, -1):
        calls = sorted(parts.calls, key=lambda line: sign * int(line.split()[1]))
        if calls != parts.calls:
            yield parts.replaced("calls", calls)


# --- the reports

def add(a, b, number):
    return model.message(b"add", 1, number, mixes.number_field(1, a) + mixes.number_field(2, b) + b"\0")


def own_scripts():
    """Scripts with the ways in which a connection ends, with rules, rests and a budget: text, workers and limits."""
    one = add(1, 1, 0).hex()
    yield "open\ndata 0 %s%s\nend 0\nwrite 0 1\nwrite 0 9\nblock 0\nwrite 0 100\nwrite 0 3\n" % (one, one), 0
    yield "open\ndata 0 %s\nend 0\nwrite 0 5\nwritefail 0\n" % one, 2
    yield "open\nopen\ndata 0 %s\ndata 1 %s\nreadfail 0\nreadfail 1\nwritefail 1\n" % (one, one[:30]), 2
    yield "open\nopen\ndata 0 %s\nrest\ndata 1 %s\nrest\ndata 0 ffffffff\nend 0\nend 1\n" % (one, one), 1
    yield "open\nopen\ndata 0 %s\ndata 1 %s\nrest\ndata 1 %s\nend 0\nend 1\n" % (one, one[:40], one[40:]), 2, 30, 30
    yield "open\nopen\ndata 0 %s\ndata 1 %s\nend 0\nend 1\n" % (one, model.message(b"ping", 2, 7, b"\0").hex()), 2
    yield "open\ndata 0 %s\nend 0\n" % "".join(model.message(name, 1, 0, b"\0").hex() for name in (b"zip", b"calculate", b"none", b"ping")), 2


def cases():
    """Scripts with reports of runs of them, as text, report and numbers."""
    for name in sorted(os.listdir(EXAMPLES)):
        base, kind = os.path.splitext(os.path.join(EXAMPLES, name))
        if kind == ".report" and not os.path.exists(base + ".words"):
            with open(base + ".script", "rb") as text, open(base + ".report", encoding="ascii") as report:
                yield name, text.read(), report.read(), (0,)
    for k, (text, *numbers) in enumerate(own_scripts()):
        yield "own %d" % k, text.encode(), model.rehearse(text.encode(), *numbers), tuple(numbers)
    rng = random.Random(SEED)
    for k in range(RANDOM_SCRIPTS):
        words, text, report = mixes.case(rng)
        if not report.startswith("thriftd: "):
            yield "random %d" % k, text, report, tuple(map(int, words[3:4] + words[6::2]))


class Tally:
    """How many reports were judged, of each kind, and how many wrongly."""

    def __init__(self):
        self.counts, self.wrong = collections.Counter(), 0

    def judge(self, case, kind, is_right, report):
        name, text, _, numbers = case
        found = judge.judge(text, report, *numbers)
        self.counts[kind] += 1
        if (found is None) != is_right:
            self.wrong += 1
            print("%s, %s: %s\n%s" % (name, kind, found or "it isn't found", report))


def some(rng, name, reports):
    """All reports, or some of them where the script is a random one."""
    reports = list(reports)
    return rng.sample(reports, min(MOST_OF_A_KIND, len(reports))) if name.startswith("random") else reports


def main():
    tally, rng = Tally(), random.Random(SEED)
    for case in cases():
        name, text, report, numbers = case
        parts = Parts(report)
        tally.judge(case, "as it is", True, parts.text())
        for kind in BREAKS:
            for broken in some(rng, name, kind(parts)):
                tally.judge(case, kind.__name__.replace("_", " "), False, broken)
        for kind in (neighbours_of_others_change_places, calls_are_sorted_by_connection):
            for other in some(rng, name, kind(parts)):
                is_right = is_lawful_still(text, other, numbers)
                tally.judge(case, "%s, %s" % (kind.__name__.replace("_", " "), "lawfully" if is_right else "unlawfully"), is_right, other)
    for kind, count in tally.counts.items():
        print("%6d %s" % (count, kind))
    print("judge: %d reports, %d judged wrongly" % (sum(tally.counts.values()), tally.wrong))
    return 1 if tally.wrong else 0
