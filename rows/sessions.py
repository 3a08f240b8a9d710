"""Sessions by their bytes: one that is cut behind each of them, a call that comes byte by byte, and bytes that are split into frames beside the program."""

WORDS = "rehearse @tutorial binary 0 Calculator=calculator".split()
# What the tutorial's client sends: `ping`, `add`, `calculate` with a division by 0 and then a subtraction, and `getStruct`; and what goes back.
CALLS = [
    "00000011800100010000000470696e670000000000",
    "0000001e800100010000000361646400000001080001000000010800020000000100",
    "00000036800100010000000963616c63756c61746500000001080001000000010c00020800010000000108000200000000080003000000040000",
    "00000036800100010000000963616c63756c61746500000004080001000000010c00020800010000000f0800020000000a080003000000020000",
    "0000001d8001000100000009676574537472756374000000020800010000000100",
]
REPLIES = [
    "00000011800100020000000470696e670000000000",
    "000000178001000200000003616464000000010800000000000200",
    "0000003a800100020000000963616c63756c617465000000010c0001080001000000040b00020000001243616e6e6f742064697669646520627920300000",
    "0000001d800100020000000963616c63756c617465000000040800000000000500",
    "000000298001000200000009676574537472756374000000020c0000080001000000010b000200000001350000",
]
# `ping` and `add` of -2 and 5 under other numbers, with their replies.
OTHERS = {
    bytes.fromhex("00000011800100010000000470696e670000000700"): "00000011800100020000000470696e670000000700",
    bytes.fromhex("0000001e80010001000000036164640000000908" + "0001fffffffe" + "0800020000000500"): "000000178001000200000003616464000000090800000000000300",
}


def row(Row, title, script):
    made = Row("rows/sessions.py", title)
    made.words, made.input = WORDS, script.encode()
    return made


def end_of(cause, replies):
    """How the report of a connection ends that got these replies."""
    return ("\nconn 0 %s %s\ncalls %d\n" % (cause, "".join(replies) or "-", len(replies))).encode()


def cut_sessions(Row):
    """A session ends well behind whole frames alone."""
    session = "".join(CALLS)
    ends = [len("".join(CALLS[:count])) // 2 for count in range(len(CALLS) + 1)]
    for count in range(len(session) // 2 + 1):
        data = "data 0 %s\n" % session[: 2 * count] if count else ""
        made = row(Row, "a session is cut behind %d bytes" % count, "open\n%send 0\n" % data)
        whole = sum(end <= count for end in ends) - 1
        made.ends = end_of("End" if count in ends else "Cut", REPLIES[:whole])
        yield made


def byte_by_byte(Row):
    """A call comes byte by byte: there is a read for each."""
    call, count = CALLS[1], len(CALLS[1]) // 2
    pieces = "".join("data 0 %s\n" % call[at : at + 2] for at in range(0, len(call), 2))
    made = row(Row, "a call comes byte by byte", "open\n%send 0\n" % pieces)
    marks = "tape open 0\n" + "tape read 0 1\n" * count + "tape wrote 0 27\ntape end 0\ntape close 0\ncall 0 0 0 add {1=1i,2=1i} ok 2i"
    made.output = marks.encode() + end_of("End", [REPLIES[1]])
    yield made


def split(given):
    """The whole frames of bytes, and whether that is all of them."""
    frames = []
    while len(given) >= 4 and len(given) >= 4 + int.from_bytes(given[:4], "big"):
        count = 4 + int.from_bytes(given[:4], "big")
        frames.append(given[:count])
        given = given[count:]
    return frames, not given


def plain_splits(Row):
    """The report ends as these frames say, and what is left."""
    ping, add = OTHERS
    for title, parts in (("two calls", [ping, add]), ("half a size", [add, add, b"\0\0"]), ("half a payload", [add, ping, b"\0\0\0\x02a"])):
        given = b"".join(parts)
        frames, is_all = split(given)
        made = row(Row, "bytes are split into frames: " + title, "open\ndata 0 %s\nend 0\n" % given.hex())
        made.ends = end_of("End" if is_all else "Cut", [OTHERS[frame] for frame in frames])
        yield made


def rows(Row):
    yield from cut_sessions(Row)
    yield from byte_by_byte(Row)
    yield from plain_splits(Row)
