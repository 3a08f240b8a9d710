"""The most that a program may have: files and their bytes, levels of types and of values, values, fields without an id, names that name one another."""

PLACE = "rows/idl_most.py"


def made(Row, title, text, kind=None):
    """A program of one file, which has a schema, or is refused at the mark."""
    return Row(PLACE, title).check({"a.thrift": text.encode()}, kind)


def told(Row, title, files, line):
    """A program that is refused at no place in a file."""
    row = Row(PLACE, title).check(files)
    row.begins, row.errors, row.status = None, b"thriftd: idl %s\n" % line, 2
    return row


def beside_each_other(count):
    """A main file that includes so many others, which are empty."""
    others = [b"f%d.thrift" % number for number in range(1, count + 1)]
    return {"a.thrift": b"".join(b"include '%s'\n" % name for name in others), **{name.decode(): b"" for name in others}}


def in_each_other(count):
    """A main file, and so many others of which each includes the next; the last includes one that there isn't."""
    return {"f%d.thrift" % number if number else "a.thrift": b"include 'f%d.thrift'" % (number + 1) for number in range(count + 1)}


def files(Row):
    row = Row(PLACE, "255 files beside the main one").check(beside_each_other(255))
    row.output, row.begins = b"file a\n" + b"".join(b"file f%d\n" % number for number in range(1, 256)), None
    yield row
    yield told(Row, "256 files beside the main one", beside_each_other(256), b"f256.thrift 0:0 TooMany")
    # The file that would be one too many isn't looked for.
    yield told(Row, "255 files in each other", in_each_other(255), b"f256.thrift 0:0 TooMany")
    yield told(Row, "254 files in each other", in_each_other(254), b"f255.thrift 0:0 Absent")
    row = {"a.thrift": b"include 'b.thrift' struct a.b {}", "b.thrift": b" " * 4_194_305}
    yield told(Row, "a file of more than 4 MiB", row, b"b.thrift 0:0 TooLong")


# Containers in one another: the text in front, what opens a level, the innermost part, what closes a level, the text behind; and the fault of a later pass, if
# there is one. At 65 levels the fault is where the last is opened.
LEVELS = [
    ("typedef ", "list<", "i32", ">", " T", None),
    ("typedef ", "set<", "^T", "> (a)", " U", "UnknownType"),
    ("typedef ", "map<i32,", "i32", ">", " T", None),
    ("typedef ", "map<", "i32", ",i32>", " T", None),
    ("const ^T a = ", "[1, ", "", "]", "", "UnknownType"),
    ("const list<list<^T>> a = ", "{1: ", "b", "}", "", "UnknownType"),
]


def levels_of_texts(Row):
    for front, opening, inner, closing, back, later in LEVELS:
        yield made(Row, "64 levels of " + opening, front + opening * 64 + inner + closing * 64 + back, later)
        front, inner = front.replace("^", ""), inner.replace("^", "")
        yield made(Row, "65 levels of " + opening, front + opening * 64 + "^" + opening + inner + closing * 65 + back, "TooDeep")
    for text, kind in MIXED:
        yield made(Row, "65 levels: " + text[:20], text, kind)


# Texts of 65 levels: the level at fault is of another kind than those around it, or isn't whole, or stands behind
# another fault.
MIXED = [
    ("typedef " + "list<" * 64 + "^map>", "TooDeep"),
    ("typedef " + "list<" * 62 + "map<i32, list<^set<x>>>" + ">" * 62 + " M", "TooDeep"),
    ("const T A = " + "[" * 62 + "[{1: ^[]}]" + "]" * 62, "TooDeep"),
    ("const i32 A = " + "[" * 63 + "{^[", "TooDeep"),
    ("^x typedef " + "list<" * 64 + "set<i32>" + ">" * 64 + " T", "Found"),
]


def levels_of_values(Row):
    """A struct with a value of so many levels, each of which is a constant."""
    text = "struct S { 1: optional S s } const S A1 = {}"
    text += "".join(" const S A%d = {'s': A%d}" % (level, level - 1) for level in range(2, 65))
    row = made(Row, "64 levels of a value", text)
    row.ends = b"\nconst A64 a.S %s{}%s\n" % (b"{1=" * 63, b"}" * 63)
    yield row
    yield made(Row, "65 levels of a value", text + " const S A65 = {'s': ^A64}", "TooLarge")


def thousands(count, last, mark):
    """Constants of 1,000 values each: a list of this many of them and of one more of as many values as are told."""
    front = "const list<i8> A = [%s] const list<i8> B = [%s] " % ("1 " * 999, "1 " * (last - 1))
    return front + "const list<list<i8>> C = [%s%sB]" % ("A " * count, mark)


def unnumbered(count, mark):
    """A struct of so many fields without an id."""
    return "struct S {%s %si8 f%d}" % ("".join(" i8 f%d" % number for number in range(1, count)), mark, count)


def rows(Row):
    yield from files(Row)
    yield from levels_of_texts(Row)
    yield from levels_of_values(Row)
    yield made(Row, "4,000,000 values", thousands(3_999, 999, ""))
    yield made(Row, "4,000,001 values", thousands(3_999, 1_000, "^"), "TooLarge")
    yield made(Row, "32,768 fields without an id", unnumbered(32_768, ""))
    yield made(Row, "32,769 fields without an id", unnumbered(32_769, "^"), "FieldId")
    # A long text has all its tokens.
    row = made(Row, "100,000 tokens", "const list<i8> A = [%s]" % ("1 " * 100_000))
    row.ends = b"\nconst A list<i8> list<i8>[%s1b]\n" % (b"1b," * 99_999)
    yield row
    # Names that would be followed from each of the constants in turn, were their end not kept.
    chain = "const i32 A0 = 7" + "".join(" const i32 A%d = A%d" % (number + 1, number) for number in range(6_000))
    yield made(Row, "6,000 constants that name one another", chain)
