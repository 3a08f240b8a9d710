"""The suite `tool_mend`: what tools/mend copies is accepted by `check`, and each change is told with file and line.

bench/trials/mended_idl.py runs it on the IDL files of others."""
import functools
import os
import subprocess
import tempfile

from suite import SECONDS, TOP, Test
from tool_run import demand, ran, ran_all, wants

WHOLE = "the host takes whole doubles within plus or minus 2^53 alone"
BRACKETS = "`{}` is written as `[]`: the value of a list or a set stands in brackets"
# What stands in a file, what comes of it, and what is told of it, without the file's name.
MENDED = [
    (
        'struct S { 1: double d = 2.5 (a = "b"), 2: i32 n }',
        'struct S { 1: double d (a = "b"), 2: i32 n }',
        ["1: the default 2.5 of d is left out: " + WHOLE],
    ),
    (
        "const double X = 1.5;\nconst map<i32, list<double>> M = {\n 1: [0.5],\n}\nconst i32 N = 3",
        "\n\n\n\nconst i32 N = 3",
        ["1: the constant X = 1.5 is left out: " + WHOLE, "3: the constant M = { 1: [0.5], } is left out: " + WHOLE],
    ),
    (
        "struct S { 1: set<i8> s = {}\n2: list<S> l = { } }",
        "struct S { 1: set<i8> s = []\n2: list<S> l = [] }",
        ["1: " + BRACKETS, "2: " + BRACKETS],
    ),
    (
        "const double X = 1.5\nstruct S { 1: double d = X }",
        "\nstruct S { 1: double d }",
        [
            "1: the constant X = 1.5 is left out: " + WHOLE,
            "2: the default X of d is left out: the host knows no value of this name",
        ],
    ),
    (
        "struct S { 1: optional S & next, 2: i8 b = 300 }",
        "struct S { 1: optional S  next, 2: i8 b }",
        [
            "1: `&` is left out: it says nothing of what is sent",
            "1: the default 300 of b is left out: the value is outside the range of its type",
        ],
    ),
    ("const i32 X = -0x1F", "const i32 X = -31", ["1: -0x1F is written as -31: the host takes no sign before 0x"]),
    (
        "struct S { 1: string uuid }",
        "struct S { 1: string uuid_ }",
        ["1: the field uuid is named uuid_: uuid is a type here"],
    ),
    (
        "service V { async void f(), void g(1: i32 uuid) }",
        "service V { oneway void f(), void g(1: i32 uuid_) }",
        ["1: `async` is written as `oneway`", "1: the field uuid is named uuid_: uuid is a type here"],
    ),
    (
        "struct T { 1: i8 a }\nstruct S {\n1: required T t\n2: required S s }",
        "struct T { 1: i8 a }\nstruct S {\n1: required T t\n2: optional S s }",
        ["4: the field s of S is optional: a value of the struct would have no end"],
    ),
    (
        "const double X = 1e300 // 2.5",
        " // 2.5",
        [
            "1: the constant X = 1e300 is left out: the host takes integers of 64 bits, and doubles of 40 digits and "
            "exponents from -99 to 99 alone"
        ],
    ),
    (
        "const string S = 'a\\d'\nenum E { A = 1 }",
        "\nenum E { A = 1 }",
        ["1: the constant S = 'a\\d' is left out: the host knows no such escape"],
    ),
    ("struct S { 1: i32 a = 7 }", "struct S { 1: i32 a = 7 }", []),
]
# What can't be mended, and why.
LEFT = [
    ("struct S { 0: i32 a }", "1: FieldId, at `0` can't be mended: another number would be another field"),
    ("struct S {}\nstruct S {}", "2: DuplicateName, at `S` can't be mended: which of the two is meant can't be told"),
    ("struct S { 1: T a }", "1: UnknownType, at `T` can't be mended: what the type stands for can't be told"),
    ("struct S {\n1: i32 a\nstruct", "3: Found, at `struct` can't be mended: what is meant can't be told"),
    ("service V { void uuid() }", "1: Found, at `uuid` can't be mended: what is meant can't be told"),
    ('include "b.thrift"', "1: there is no b.thrift in FOLDER: --root names more folders"),
    ("enum E { A = 9876543210 }", "1: EnumValue, at `A` can't be mended: the number of an enum's value has 32 bits"),
    ("\u201cstruct\u201d", "1: BadByte, at `\u00e2` can't be mended: what is meant can't be told"),
    ('const string S = "a', "1: OpenLiteral, at `\"` can't be mended: what is meant can't be told"),
]
CUT = """include "b.thrift"
const list<double> L = [
  1.5,
  2.0
]
struct S {
  1: required b.T t = {"a": 2.5},
  2: set<S> s = {
  }
}
service V extends b.W {
  async void f(1: i32 uuid)
}
"""
INNER = "struct T { 1: double a = 0.5 }\nservice W {}\n"


def written(folder, name, text):
    path = os.path.join(folder, name)
    os.makedirs(os.path.dirname(path), exist_ok=True)
    with open(path, "wb") as out:
        out.write(text if isinstance(text, bytes) else text.encode("utf-8"))
    return path


def text_of(*path):
    with open(os.path.join(*path), encoding="utf-8") as it:
        return it.read()


def is_accepted(program, folder, name):
    words = [program, "check", name]
    return not subprocess.run(words, cwd=folder, capture_output=True, timeout=SECONDS, check=False).returncode


def runs_of(folder, texts):
    """The words that mend each of these texts, into a folder of its own."""
    for number, text in enumerate(texts):
        path = written(folder, "%d/a.thrift" % number, text)
        yield [path, "--into", os.path.join(folder, "%d.mended" % number)], b""


def mended(program):
    with tempfile.TemporaryDirectory(prefix="thriftd-mend-") as folder:
        runs = list(runs_of(folder, [text for text, _, _ in MENDED]))
        for (words, _), ended, (text, wanted, told) in zip(runs, ran_all(program, "mend", runs), MENDED):
            count = "1 change" if len(told) == 1 else "%d changes" % len(told)
            last = "accepted %s, with %s\n" % (os.path.join(words[2], "a.thrift"), count)
            wants(ended, 0, "".join("%s:%s\n" % (words[0], line) for line in told) + last)
            demand(text_of(words[2], "a.thrift") == wanted, "%r became %r", text, text_of(words[2], "a.thrift"))
            demand(is_accepted(program, words[2], "a.thrift"), "%r isn't accepted", wanted)
            demand(text_of(words[0]) == text, "%r was changed", text)


def left(program):
    with tempfile.TemporaryDirectory(prefix="thriftd-mend-") as folder:
        runs = list(runs_of(folder, [text for text, _ in LEFT]))
        for (words, _), ended, (_, said) in zip(runs, ran_all(program, "mend", runs), LEFT):
            said = said.replace("FOLDER", os.path.dirname(words[0]))
            wants(ended, 2, "", "thriftd mend: %s:%s" % (words[0], said))


def cut(program):
    """A file that is cut at each line, and inside each, is mended or told, and the included one is left as it was."""
    with tempfile.TemporaryDirectory(prefix="thriftd-mend-") as folder:
        lines, texts = CUT.splitlines(True), []
        for at, line in enumerate(lines):
            texts += ["".join(lines[:at]), "".join(lines[:at]) + line[: len(line) // 2]]
        texts.append(CUT)
        runs = list(runs_of(folder, texts))
        for words, _ in runs:
            written(os.path.dirname(words[0]), "b.thrift", INNER)
        for (words, _), ended, text in zip(runs, ran_all(program, "mend", runs), texts):
            demand(ended[0] in (0, 2), "%r: %r", text, ended)
            demand((ended[0] == 0) == is_accepted(program, words[2], "a.thrift"), "%r: %r", text, ended)
            demand(bool(ended[0]) == (ended[2].count("\n") == 1), "%r: %r", text, ended)
        demand(ended[0] == 0 and ended[1].count("\n") == 7, "the whole: %r", ended)


def files(program):
    """Includes are found beside a file and below the roots, and all stand in one folder."""
    with tempfile.TemporaryDirectory(prefix="thriftd-mend-") as folder:
        main = written(
            folder, "a/main.thrift", 'include "sub/x.thrift"\ninclude "y.thrift"\nstruct S { 1: x.X x, 2: y.Y y }\n'
        )
        x = written(folder, "a/sub/x.thrift", '\ufeffinclude "../z.thrift"\nstruct X { 1: z.Z z }\n')
        z = written(folder, "a/z.thrift", "struct Z {}\n")
        y = written(folder, "root/y.thrift", "struct Y { 1: double d = 0.5 }\n".encode("utf-16"))
        into = os.path.join(folder, "into")
        told = [
            '%s:1: the include "sub/x.thrift" is "x.thrift", which was found as %s' % (main, x),
            '%s:2: the include "y.thrift" was found as %s' % (main, y),
            "%s:1: written as UTF-8 without a mark: it was utf-16" % y,
            "%s:1: the default 0.5 of d is left out: %s" % (y, WHOLE),
            "%s:1: written as UTF-8 without a mark: it was utf-8-sig" % x,
            '%s:1: the include "../z.thrift" is "z.thrift", which was found as %s' % (x, z),
            "accepted %s, with 6 changes" % os.path.join(into, "main.thrift"),
        ]
        wants(
            ran(program, "mend", main, "--root", os.path.join(folder, "root"), "--into", into),
            0,
            "\n".join(told) + "\n",
        )
        demand(is_accepted(program, into, "main.thrift"), "the copy isn't accepted")


def words(program):
    with tempfile.TemporaryDirectory(prefix="thriftd-mend-") as folder:
        main, into = written(folder, "a/main.thrift", "struct S {}\n"), os.path.join(folder, "into")
        one, two = written(folder, "a/x.thrift", "struct X {}\n"), written(folder, "b/x.thrift", "struct O {}\n")
        both = written(folder, "a/both.thrift", 'include "x.thrift"\ninclude "%s"\n' % two)
        same = "%s:1: two files have the name x.thrift, %s and %s: rename one" % (both, two, one)
        wants(ran(program, "mend", both, "--into", into), 2, None, same)
        for given, status, said in [
            ([main], 1, "the following arguments are required: --into"),
            ([main, "--into", into, "--root", "missing"], 5, "missing is no folder"),
            ([os.path.join(folder, "none.thrift"), "--into", into], 5, "none.thrift: No such file or directory"),
            ([main, "--into", os.path.join(folder, "a")], 5, "would overwrite the IDL itself"),
            ([main, "--into", main], 5, "File exists"),
        ]:
            wants(ran(program, "mend", *given), status, "", said)
        demand(ran(program, "mend", "--help", cwd=TOP)[0] == 0, "--help")


def tests(programs):
    for program in programs:
        for case in (mended, left, cut, files, words):
            yield Test("%s (%s)" % (case.__name__, os.path.basename(program)), functools.partial(case, program))
