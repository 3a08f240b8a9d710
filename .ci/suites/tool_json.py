"""The suite `tool_json`: tools/json writes what journals, reports and scripts say, and tells what is none."""
import functools
import json
import os
import signal
import subprocess
import sys
import tempfile

from suite import SECONDS, TOP, Test
from tool_run import demand, ran, ran_all, settings, wants

NOTES = ["--idl", "examples/notes.thrift", "--service", "Notes", "--service", "Echo"]
IDL = """enum E { ONE = 1 } struct S { 1: double d 2: binary b 3: map<E, uuid> m 4: set<bool> f }
exception X { 1: E e } service V { S get(1: i64 n 2: map<list<i8>, i8> k) throws (3: X x) }
"""
# Lines without names and with them.
LINES = [
    (
        'call 1 2 0 get {1=-9007199254740993l,2=map<list,i8>{list<i8>[1b]=2b}} ok {1=d3ff8000000000000,2="\\xff",'
        "3=map<i32,uuid>{1i=u00112233445566778899aabbccddeeff},4=set<bool>[true]}",
        '"arguments": {"1": -9007199254740993, "2": [[[1], 2]]}, "answer": "ok", "value": {"1": 1.5, '
        '"2": {"base64": "/w=="}, "3": {"1": "00112233-4455-6677-8899-aabbccddeeff"}, "4": [true]}}',
        '"arguments": {"n": -9007199254740993, "k": [[[1], 2]]}, "answer": "ok", "value": {"d": 1.5, '
        '"b": {"base64": "/w=="}, "m": {"ONE": "00112233-4455-6677-8899-aabbccddeeff"}, "f": [true]}}',
    ),
    (
        "oneway 0 0 0 get {} throws 3 {1=1i}",
        '"arguments": {}, "answer": "throws", "exception": 3, "value": {"1": 1}}',
        '"arguments": {}, "answer": "throws", "exception": "x", "value": {"e": "ONE"}}',
    ),
    (
        'call 0 1 0 get {} ok {1=dfff0000000000000,2="gr\\xc3\\xb6\\xc3\\x9fe \\x00"}',
        '"arguments": {}, "answer": "ok", "value": {"1": "-Infinity", "2": "größe \\u0000"}}',
        '"arguments": {}, "answer": "ok", "value": {"d": "-Infinity", "b": "größe \\u0000"}}',
    ),
    ("call 0 1 0 get {} broken", '"arguments": {}, "answer": "broken"}', '"arguments": {}, "answer": "broken"}'),
]
# Inputs that are none, with the line that says why.
NONE = [
    (b"call 0 0 0 f {} ok 2\n", "standard input 1:20: no value"),
    (b"tape open 0\ntape close", "standard input 2:11: the line is cut: it has no end"),
    (b"tape open 0\ncall 0 0 0 f {1=5} empty\n", "standard input 2:17: no value"),
    ("tape open 0\n".encode("utf-16"), "standard input 1:1: no text: ordinal not in range(128)"),
    (b'tape open 0\ncall 0 0 0 f {1="\xe4"} empty\n', "standard input 2:18: no text: ordinal not in range(128)"),
    (b"open\nend 0\nend 0\n", "standard input 3: no line of a script: AfterEnd"),
    (b"open\n", "standard input 2: no line of a script: NoEnd"),
    (b"GET / HTTP/1.1\r\n", "standard input 1:1: no line of a journal, a report or a summary"),
]


def names(program):
    with tempfile.TemporaryDirectory(prefix="thriftd-json-") as folder:
        idl = os.path.join(folder, "a.thrift")
        with open(idl, "w", encoding="utf-8") as out:
            out.write(IDL)
        given = "".join(line + "\n" for line, _, _ in LINES).encode()
        for words, place in (([], 1), (["--idl", idl], 2)):
            status, output, errors = ran(program, "json", *words, given=given)
            demand(status == 0, "%r", errors)
            for line, wanted in zip(output.splitlines(), LINES):
                demand(line.endswith(wanted[place]), "%s, and not %s", line, wanted[place])
                demand(("service" in json.loads(line)) == (place == 2), "%s has a service, or none", line)
        wrong = ran(program, "json", "--idl", idl, given=b"call 0 0 1 get {} empty\n")
        wants(wrong, 3, "", "standard input 1:1: slot 1, and only 1 services are named by --service")
        wrong = ran(program, "json", "--idl", idl, given=b"call 0 0 0 put {} empty\n")
        wants(wrong, 3, "", "standard input 1:1: the service V of slot 0 has no method put")


def examples(program):
    """Each line of the examples' reports and scripts comes to one of JSON; a beginning to as many, and a cut line to
    a fault."""
    for path, words in (("two.report", ["--idl", "@tutorial"]), ("notes.report", NOTES), ("two.script", [])):
        status, output, errors = ran(program, "json", "examples/" + path, *words)
        with open(os.path.join(TOP, "examples", path), "rb") as kept:
            lines = [it for it in kept.read().splitlines(True) if not it.startswith(b"#")]
        demand(status == 0 and not errors and output.count("\n") == len(lines), "%s: %r", path, errors)
        made = [json.loads(it) for it in output.splitlines()]
        demand([it["line"] for it in made] == [it.split()[0].decode() for it in lines], "%s: %s", path, made)
        if path == "two.report":
            cuts = [(b"".join(lines[:cut]), lines[cut][: len(lines[cut]) // 2]) for cut in range(len(lines))]
            whole = ran_all(program, "json", [(words, front) for front, _ in cuts])
            broken = ran_all(program, "json", [(words, front + part) for front, part in cuts])
            for cut, (one, other) in enumerate(zip(whole, broken)):
                kept = "".join(output.splitlines(True)[:cut])
                wants(one, 0, kept)
                wants(other, 3, kept, "standard input %d:" % (cut + 1))


def none(program):
    for ended, (_, said) in zip(ran_all(program, "json", [([], given) for given, _ in NONE]), NONE):
        wants(ended, 3, None, "thriftd json: %s\n" % said)
    several = "examples/notes.thrift has 2 services: --service says which were served"
    cases = [
        (["--foo"], 1, "unrecognized arguments: --foo (--help says more)"),
        (["--service", "V"], 1, "--service goes with --idl"),
        (["missing"], 5, "missing: No such file or directory"),
        (["missing", "--follow"], 5, "missing: No such file or directory"),
        (["/"], 5, "/: Is a directory"),
        (["--idl", "examples/no_colon.thrift"], 2, "idl examples/no_colon.thrift 4:5 Found"),
        (["--idl", "examples/notes.thrift"], 1, several),
        (["--idl", "@tutorial", "--service", "Notes"], 1, "@tutorial has no service Notes, but: Calculator, shared"),
    ]
    for ended, (_, status, said) in zip(ran_all(program, "json", [(words, b"") for words, _, _ in cases]), cases):
        wants(ended, status, "", "thriftd json: " + said)
    helped = ran(program, "json", "--help")
    demand(helped[0] == 0 and helped[1].startswith("usage: thriftd json"), "--help: %r", helped)


def next_line(stream):
    line = json.loads(stream.readline())
    return line["line"], line.get("connection")


def follow(program):
    """A journal is read on as it grows, also by half a line, and anew where it is emptied."""
    with tempfile.TemporaryDirectory(prefix="thriftd-json-") as folder:
        path = os.path.join(folder, "a.journal")
        with open(path, "wb", buffering=0) as journal:
            journal.write(b"call 1 0 0 f {} empty\ncall 2 0 0")
            words = [os.path.join(TOP, "tools/json"), "--follow", path]
            with subprocess.Popen(words, stdout=subprocess.PIPE, env=settings(program)) as run:
                try:
                    demand(next_line(run.stdout) == ("call", 1), "the first line")
                    journal.write(b" f {} empty\n")
                    demand(next_line(run.stdout) == ("call", 2), "the second line")
                    journal.truncate(0)
                    journal.seek(0)
                    journal.write(b"call 3 0 0 f {} empty\n")
                    demand(next_line(run.stdout) == ("call", 3), "the line of the file that was emptied")
                    run.send_signal(signal.SIGINT)
                    demand(run.wait(SECONDS) == 130, "status %s at Ctrl-C", run.returncode)
                finally:
                    run.kill()


# Runs a command, and writes the most memory that it takes, in KB. (A process that is started counts what the one that
# starts it had, and that of the suites is large.)
MEASURE = """
import resource, subprocess, sys
status = subprocess.call(sys.argv[1:])
print(resource.getrusage(resource.RUSAGE_CHILDREN).ru_maxrss, file=sys.stderr)
sys.exit(status)
"""


def large_script(program):
    """A script of 64 MB is read in at most 100 MB."""
    command = [sys.executable, "-c", MEASURE, os.path.join(TOP, "tools/json")]
    with subprocess.Popen(
        command, stdin=subprocess.PIPE, stdout=subprocess.DEVNULL, stderr=subprocess.PIPE, env=settings(program)
    ) as run:
        run.stdin.write(b"open\ndata 0 ")
        for _ in range(60):
            run.stdin.write(b"00" * (1 << 19))
        run.stdin.write(b"\nend 0\n")
        run.stdin.close()
        used = int(run.stderr.read().split()[-1])
        demand(run.wait(SECONDS) == 0 and used < 100_000, "status %s, %d KB", run.returncode, used)


def tests(programs):
    for program in programs:
        for case in (names, examples, none, follow, large_script):
            title = "%s (%s)" % (case.__name__.replace("_", " "), os.path.basename(program))
            yield Test(title, functools.partial(case, program))
