"""A call whose bytes end at each place, and a reply whose writes are of one byte, are blocked or fail at each place."""

WORDS = "rehearse @tutorial binary 0 Calculator=calculator --max-frame 16384000 --read-budget 268435456".split()
PING = "00000011800100010000000470696e670000000000"
PONG = "00000011800100020000000470696e670000000000"
SIZE = 21
CALLED = ["tape close 0", "call 0 0 0 ping {} empty"]


def row(Row, title, script, report):
    """A script, by its lines, and its report."""
    made = Row("rows/places.py", title)
    made.words = WORDS
    made.input = "".join(line + "\n" for line in script).encode()
    made.output = "".join(line + "\n" for line in report).encode()
    return made


def report(marks, cause, sent):
    """The report of a connection that called `ping`, with these marks behind its reads."""
    return ["tape open 0", "tape read 0 4", "tape read 0 17", *marks, *CALLED, "conn 0 %s %s" % (cause, sent or "-"), "calls 1"]


def failing_writes(Row):
    """A write fails after so many of one byte."""
    for count in range(SIZE):
        script = ["open", "data 0 " + PING, *["write 0 1"] * count, "writefail 0", "end 0"]
        marks = ["tape wrote 0 1"] * count + ["tape writefail 0"]
        yield row(Row, "a write fails after %d bytes" % count, script, report(marks, "WriteFault", PONG[: 2 * count]))


def blocked_writes(Row):
    """A write is blocked after so many of one byte: the reply goes out whole, and then the input ends or fails."""
    for count in range(SIZE):
        for end, cause in (("end", "End"), ("readfail", "ReadFault")):
            script = ["open", *["write 0 1"] * count, "block 0", "data 0 " + PING, end + " 0"]
            marks = ["tape wrote 0 1"] * count + ["tape wrote 0 %d" % (SIZE - count), "tape %s 0" % end]
            yield row(Row, "a write is blocked after %d bytes, and then comes %s" % (count, end), script, report(marks, cause, PONG))


def writes_of_one_byte(Row):
    """A reply is written byte by byte, each write after so many that are blocked; a rule that is left has no effect."""
    for blocked in range(3):
        script = ["open", "data 0 " + PING, "end 0", *(["block 0"] * blocked + ["write 0 1"]) * SIZE, "writefail 0"]
        yield row(Row, "%d blocked writes before each byte" % blocked, script, report(["tape wrote 0 1"] * SIZE + ["tape end 0"], "End", PONG))


def ending_calls(Row):
    """So many bytes of the call come, fewer than all, and then the input ends or fails. The size comes first, and what is behind it then."""
    for count in range(SIZE):
        reads = ([4] if count > 4 else []) + ([count - 4 if count > 4 else count] if count else [])
        for end, cause in (("end", "Cut" if count else "End"), ("readfail", "ReadFault")):
            script = ["open", *["data 0 " + PING[: 2 * count]] * (count > 0), end + " 0"]
            marks = ["tape open 0", *("tape read 0 %d" % read for read in reads), "tape %s 0" % end, "tape close 0"]
            yield row(Row, "%d bytes of a call, and then %s" % (count, end), script, marks + ["conn 0 %s -" % cause, "calls 0"])


def rows(Row):
    yield from failing_writes(Row)
    yield from blocked_writes(Row)
    yield from writes_of_one_byte(Row)
    yield from ending_calls(Row)
