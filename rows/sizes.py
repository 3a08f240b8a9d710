"""Texts and messages at size: the longest scripts and IDLs, many frames, tokens and structs, and messages of as many values and levels as may be."""

REHEARSE = "rehearse @tutorial binary 0 Calculator=calculator".split()
PING = "00000011800100010000000470696e670000000000"
LONGEST_SCRIPT, LONGEST_IDL = 67_108_864, 4_194_304


def row(Row, title, words, **found):
    made = Row("rows/sizes.py", title)
    made.words = words
    for name, value in found.items():
        setattr(made, name, value)
    return made


def scripts(Row):
    behind = b"\nopen\nend 0\n"
    comment = b"#" * (LONGEST_SCRIPT - len(behind))
    report = b"tape open 0\ntape end 0\ntape close 0\nconn 0 End -\ncalls 0\n"
    yield row(Row, "a script of the most bytes", REHEARSE, input=comment + behind, output=report)
    yield row(Row, "a script of a byte more", REHEARSE, input=b"#" + comment + behind, errors=b"thriftd: script 0 TooLong\n", status=3)
    many = "open\n" + "data 0 %s\n" % PING * 100_000 + "end 0\n"
    yield row(Row, "a hundred thousand frames", REHEARSE, input=many.encode(), ends=b"\ncalls 100000\n")


def idls(Row):
    words, blanks = ["check", "a.thrift"], b" " * LONGEST_IDL
    yield row(Row, "an IDL of the most bytes", words, files={"a.thrift": blanks}, output=b"file a\n")
    yield row(Row, "an IDL of a byte more", words, files={"a.thrift": blanks + b" "}, errors=b"thriftd: idl a.thrift 0:0 TooLong\n", status=2)
    numbers = b"const list<i32> A = [" + b"1\n" * 50_000 + b"2]"
    yield row(Row, "fifty thousand numbers", words, files={"a.thrift": numbers}, ends=b",1i,1i,2i]\n")
    chain = "".join("struct S%d { 1: optional S%d a }\n" % (number, number + 1) for number in range(10_000)) + "struct S10000 {}"
    files = {"a.thrift": chain.encode(), "b.thrift": chain.encode()}
    yield row(Row, "a chain of 10,000 structs is compatible with itself", ["compat", "a.thrift", "b.thrift"], files=files, output=b"compatible\n")


def defaults(Row):
    """A million and one structs, none of which has a field: with their defaults they are more values than a message may have."""
    idl = b"struct D { 1: i32 a = 1 2: i32 b = 1 3: i32 c = 1 4: i32 d = 1 } service B { void f(1: list<D> x) }"
    frame = "000f4256800100010000000166000000010f00010c000f4240" + "00" * 1_000_001
    reply = b"00000032800100030000000166000000010b00010000001642616420617267756d656e74733a20546f6f4d616e790800020000000700"
    yield row(
        Row,
        "defaults count as values",
        "rehearse b.thrift binary 0 B=mirror".split(),
        files={"b.thrift": idl},
        input=("open\ndata 0 %s\nend 0\n" % frame).encode(),
        ends=b"conn 0 End " + reply + b"\ncalls 0\n",
    )


def levels(Row):
    """`ping` with an argument of lists in one another: with the message's struct there may be 64 levels."""
    most = b"call 0 0 0 ping {} empty\nconn 0 End 00000011800100020000000470696e670000000100\ncalls 1\n"
    more = b"conn 0 End 00000035800100030000000470696e67000000010b00010000001642616420617267756d656e74733a20546f6f446565700800020000000700\ncalls 0\n"
    for size, lists, end in (("0000014f", 63, most), ("00000154", 64, more)):
        frame = size + "800100010000000470696e67000000010f0001" + "0f00000001" * (lists - 1) + "080000000000"
        yield row(Row, "%d lists in one another" % lists, REHEARSE, input=("open\ndata 0 %s\nend 0\n" % frame).encode(), ends=end)


def rows(Row):
    yield from scripts(Row)
    yield from idls(Row)
    yield from defaults(Row)
    yield from levels(Row)
