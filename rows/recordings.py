"""Scripts of several connections, which `record` serves with no worker, one, two and eight as `rehearse` runs them: each connection is sent the same, and ends by the same cause."""

IDL = b"service V { void f() oneway void g() }"
LIMITS = "--max-frame=8 --read-budget=8".split()
# A call of `f` and its reply, and a call of `g`, which has none; each has a payload of six bytes.
CALL, REPLY, SILENT = "00000006822101016600", "00000006824101016600", "00000006828101016700"

# What a script shows, its lines, how many silent calls it has, and of each connection by what it ends, how many replies it is sent, and how many digits of one more.
SCRIPTS = [
    (
        "calls on one connection, with a silent one between them, of which the last comes in two pieces",
        ["open", f"data 0 {CALL}{SILENT}{CALL[:10]}", f"data 0 {CALL[10:]}", "end 0"],
        1,
        [("End", 2, 0)],
    ),
    (
        "three connections, of which the first calls nothing, and rests between their lines",
        ["open", "open", "open", f"data 1 {CALL}{CALL[:8]}", f"data 2 {CALL}", "rest", f"data 1 {CALL[8:]}", f"data 2 {CALL}{CALL}", "end 2", "rest", "end 0", "end 1"],
        0,
        [("End", 0, 0), ("End", 2, 0), ("End", 3, 0)],
    ),
    (
        "writes of one byte, of none, of three, of none, and of all",
        ["open", "write 0 1", "block 0", "write 0 3", "block 0", "open", "block 1", "block 1", f"data 0 {CALL}{CALL}", f"data 1 {CALL}", "rest", f"data 1 {CALL}", "end 0", "end 1"],
        0,
        [("End", 2, 0), ("End", 2, 0)],
    ),
    (
        "a write that fails after one byte, and a read that fails after a call",
        ["open", "write 0 1", "writefail 0", "open", f"data 0 {CALL}{CALL}", f"data 1 {CALL}", "readfail 1", "end 0"],
        0,
        [("WriteFault", 0, 2), ("ReadFault", 1, 0)],
    ),
    (
        "inputs that are cut off inside a size and inside a payload",
        ["open", "open", f"data 0 {CALL}0000", f"data 1 {CALL}{CALL[:10]}", "end 0", "end 1"],
        0,
        [("Cut", 1, 0), ("Cut", 1, 0)],
    ),
    (
        "sizes that are too large, below 0, and 0",
        ["open", "open", "open", f"data 0 {CALL}00000009", "data 1 ffffffff", "data 2 00000000", "end 2", "end 1", "end 0"],
        0,
        [("SizeFault 9", 1, 0), ("SizeFault -1", 0, 0), ("SizeFault 0", 0, 0)],
    ),
    (
        "frames that pass the budget together wait for one another",
        ["open", "open", "open", *(f"data {c} {CALL[:10]}" for c in range(3)), "rest", *(f"data {c} {CALL[10:]}" for c in range(2)), "rest", f"data 2 {CALL[10:]}", "end 0", "end 1", "end 2"],
        0,
        [("End", 1, 0)] * 3,
    ),
    (
        "a frame that was held goes on after the one before it is cut off, beside a connection that opens late",
        ["open", "open", f"data 0 {CALL[:10]}", f"data 1 {CALL}{CALL}", "rest", "open", f"data 2 {CALL}", "rest", "end 0", "end 2", "end 1"],
        0,
        [("Cut", 0, 0), ("End", 2, 0), ("End", 1, 0)],
    ),
]


def byte_by_byte(inputs):
    """The lines of a script in which what comes on each connection does so byte by byte in turn, and each of forty writes takes one byte."""
    for c, _ in enumerate(inputs):
        yield from ("open", *[f"write {c} 1"] * 40)
    for at in range(0, max(map(len, inputs)), 2):
        yield from (f"data {c} {given[at:at + 2]}" for c, given in enumerate(inputs) if given[at:])
    yield from (f"end {c}" for c, _ in enumerate(inputs))


# What comes on each connection byte by byte, how many calls of it are silent, and how each ends.
BYTES = [
    ("a call on each of two connections", [CALL, CALL], 0, [("End", 1, 0), ("End", 1, 0)]),
    ("three calls, of which the second is silent, beside none", [CALL + SILENT + CALL, ""], 1, [("End", 2, 0), ("End", 0, 0)]),
    ("calls that are cut off inside a size and inside a payload", [CALL + CALL + "000000", CALL + CALL + CALL[:10]], 0, [("Cut", 2, 0), ("Cut", 2, 0)]),
    ("a size that is too large after a call, and one that is 0", [CALL + "00000009", "00000000"], 0, [("SizeFault 9", 1, 0), ("SizeFault 0", 0, 0)]),
]


def report_of(silent, ends):
    """How a report ends with so many silent calls, whose connections have ended so."""
    sent = [REPLY * count + REPLY[:more] or "-" for _, count, more in ends]
    calls = silent + sum(count + (more > 0) for _, count, more in ends)
    return "".join(f"conn {c} {cause} {sent[c]}\n" for c, (cause, _, _) in enumerate(ends)) + f"calls {calls}\n"


def rows(Row):
    scripts = [*SCRIPTS, *(("byte by byte, " + title, [*byte_by_byte(inputs)], silent, ends) for title, inputs, silent, ends in BYTES)]
    for title, lines, silent, ends in scripts:
        for command, workers in (("rehearse", 0), *(("record", workers) for workers in (0, 1, 2, 8))):
            made = Row("rows/recordings.py", f"{command} {workers}: {title}")
            made.words = [command, "v.thrift", "compact", str(workers), "V=mirror", *LIMITS]
            made.files = {"v.thrift": IDL}
            made.input = "".join(line + "\n" for line in lines).encode()
            made.ends = report_of(silent, ends).encode()
            yield made
