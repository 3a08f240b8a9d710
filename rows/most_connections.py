"""As many connections as may be open at once, and a payload that is longer than a read."""

WORDS = "rehearse @tutorial binary 8 Calculator=calculator --max-frame 16384000 --read-budget 268435456".split()
PING = "00000011800100010000000470696e670000000000"
PONG = "00000011800100020000000470696e670000000000"
# The most connections that a script opens.
MOST = 1_024


def row(Row, title, script, report="", errors=""):
    made = Row("rows/most_connections.py", title)
    made.words, made.input, made.output, made.errors = WORDS, script.encode(), report.encode(), errors.encode()
    made.status = 3 if errors else 0
    return made


def each(*texts):
    """These texts for each connection, whose number stands for `#`, one text behind the other."""
    return "".join(text.replace("#", str(number)) for text in texts for number in range(MOST))


def served(Row):
    """Each has a call. There are eight workers: the first eight calls are made in the first pass, and so on."""
    report = each(
        "tape open #\n",
        "tape read # 4\ntape read # 17\n",
        "tape wrote # 21\ntape end #\ntape close #\n",
        "call # 0 0 ping {} empty\n",
        "conn # End %s\n" % PONG,
    )
    yield row(Row, "as many connections as may be open are served", each("open\n", "data # %s\n" % PING, "end #\n"), report + "calls 1024\n")


def opened(Row):
    """Openings count also where inputs have ended."""
    script = each("open\nend #\n")
    yield row(Row, "inputs end at once", script, each("tape open #\n", "tape end #\ntape close #\n", "conn # End -\n") + "calls 0\n")
    yield row(Row, "one opening more", script + "open\n", errors="thriftd: script 2049 TooMany\n")
    for count, fault in ((MOST, "1026 NoEnd"), (MOST + 1, "1025 TooMany")):
        made = row(Row, "%d openings, of which one ends" % count, "open\n" * count + "end 0\n", errors="thriftd: script %s\n" % fault)
        made.words = WORDS[:3] + ["0", "Calculator=calculator"]
        yield made


def long_payloads(Row):
    """A payload of 65,537 bytes, `add` with a text of 65,500 bytes that it doesn't know, comes in two reads, or is refused where payloads may have a byte less."""
    call = "00010001800100010000000361646400000001080001000000010800020000000" + "10b00030000ffdc" + "00" * 65_500 + "00"
    answered = (
        "tape read 0 65536\ntape read 0 1\ntape wrote 0 27\ntape end 0\ntape close 0\ncall 0 0 0 add {1=1i,2=1i} ok 2i\n"
        "conn 0 End 000000178001000200000003616464000000010800000000000200\ncalls 1\n"
    )
    for longest, behind in (("65537", answered), ("65536", "tape close 0\nconn 0 SizeFault 65537 -\ncalls 0\n")):
        script = "open\ndata 0 %s\nend 0\n" % call
        made = row(Row, "a payload of 65,537 bytes where there may be " + longest, script, "tape open 0\ntape read 0 4\n" + behind)
        made.words = "rehearse @tutorial binary 0 Calculator=calculator --max-frame".split() + [longest, "--read-budget", "268435456"]
        yield made


def rows(Row):
    yield from served(Row)
    yield from opened(Row)
    yield from long_payloads(Row)
