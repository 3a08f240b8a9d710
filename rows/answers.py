"""Handlers answer calls so, one after the other on a connection: each line is a call of the binary protocol with its answer, as the report has it."""
import re
import struct

# The calculator has each operation, and keeps what the last one of a number has left.
CALCULATED = [
    "calculate {1=1i,2={1=20i,2=22i,3=1i}} ok 42i",
    "calculate {1=1i,2={1=7i,2=9i,3=2i}} ok -2i",
    "calculate {1=1i,2={1=-3i,2=5i,3=3i}} ok -15i",
    "calculate {1=1i,2={1=-7i,2=2i,3=4i}} ok -3i",
    "calculate {1=1i,2={1=-2147483648i,2=-1i,3=4i}} ok -2147483648i",
    'calculate {1=1i,2={1=1i,2=0i,3=4i}} throws 1 {1=4i,2="Cannot divide by 0"}',
    'calculate {1=1i,2={1=1i,2=1i,3=0i}} throws 1 {1=0i,2="Unknown operation"}',
    'calculate {1=1i,2={1=1i,2=1i,3=5i}} throws 1 {1=5i,2="Unknown operation"}',
    "calculate {1=1i,2={1=100i,2=58i,3=2i}} ok 42i",
    'getStruct {1=1i} ok {1=1i,2="42"}',
]

# A store keeps, reads, swaps, lists and forgets what stands under a key.
STORED = [
    'get {1="a"} empty',
    'put {1="a",2="x"} empty',
    'get {1="a"} ok "x"',
    'put {1="a",2="y"} empty',
    'get {1="a"} ok "y"',
    'swap {1="a",2="z"} ok "y"',
    'get {1="a"} ok "z"',
    'keys {} ok list<bytes>["a"]',
    'forget {1="a"} empty',
    'get {1="a"} empty',
]

# A mirror answers with the first argument, whatever its id, and with nothing where there is none.
MIRRORED = [
    "anything {5=-7i} ok -7i",
    "anything {} empty",
]

STORE = """service Store {
  void put(1: binary key, 2: binary value),
  binary get(1: binary key),
  binary swap(1: binary key, 2: binary value),
  list<binary> keys(),
  oneway void forget(1: binary key)
}
"""

MIRROR = "service Mirror { i32 anything(5: i32 number) }"


def sized(text):
    """Bytes behind their number."""
    return struct.pack(">I", len(text)) + text


def coded(text):
    """The type's code and the bytes of the value in front of a text, and the rest of it."""
    if text[0] == "{":
        text, fields = text[1:], b""
        while text[0] != "}":
            number, _, text = text.lstrip(",").partition("=")
            code, value, text = coded(text)
            fields += struct.pack(">bh", code, int(number)) + value
        return 12, fields + b"\0", text[1:]
    if text[0] == '"':
        held, _, text = text[1:].partition('"')
        return 11, sized(held.encode()), text
    if text.startswith("list<bytes>["):
        held, _, text = text[12:].partition("]")
        items = [coded(item)[1] for item in held.split(",")]
        return 15, struct.pack(">bI", 11, len(items)) + b"".join(items), text
    number = re.match(r"(-?\d+)i", text)
    return 8, struct.pack(">i", int(number[1])), text[number.end() :]


def message(kind, method, fields):
    """The frame of a message."""
    return sized(struct.pack(">HH", 0x8001, kind) + sized(method.encode()) + struct.pack(">i", 0) + fields)


def frames(line):
    """The frame of a call and that of its reply."""
    method, args, answer, value = re.match(r"(\w+) (\{.*\}) (ok|throws|empty) ?(.*)\Z", line).groups()
    kind = 4 if method == "forget" else 1
    field = {"ok": "0=" + value, "throws": value.replace(" ", "=", 1), "empty": ""}[answer]
    call = message(kind, method, coded(args)[1])
    return call, b"" if kind == 4 else message(2, method, coded("{" + field + "}")[1])


def answered(Row, title, words, files, lines):
    """The calls of lines are answered so."""
    row = Row("rows/answers.py", title)
    row.words, row.files = words.split(), files
    both = [frames(line) for line in lines]
    row.input = ("open\n" + "".join("data 0 %s\n" % call.hex() for call, _ in both) + "end 0\n").encode()
    report = "tape open 0\n"
    for call, reply in both:
        report += "tape read 0 4\ntape read 0 %d\n" % (len(call) - 4) + ("tape wrote 0 %d\n" % len(reply) if reply else "")
    report += "tape end 0\ntape close 0\n"
    for number, line in enumerate(lines):
        report += "%s 0 %d 0 %s\n" % ("oneway" if line.startswith("forget ") else "call", number, line)
    report += "conn 0 End %s\ncalls %d\n" % ("".join(reply.hex() for _, reply in both), len(lines))
    row.output = report.encode()
    return row


def rows(Row):
    yield answered(Row, "a calculator", "rehearse @tutorial binary 0 Calculator=calculator", {}, CALCULATED)
    yield answered(Row, "a store", "rehearse s.thrift binary 0 Store=store", {"s.thrift": STORE.encode()}, STORED)
    yield answered(Row, "a mirror", "rehearse m.thrift binary 0 Mirror=mirror", {"m.thrift": MIRROR.encode()}, MIRRORED)
