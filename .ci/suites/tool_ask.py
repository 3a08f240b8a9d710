"""The suite `tool_ask`: tools/ask calls with JSON, and ends with a status of its own for each outcome.

It calls the calculator at a port, and servers that misbehave; random calls to a mirror come back equal (1,000 of them
by bench/trials/ask_calls.py)."""
import contextlib
import functools
import json
import os
import random
import socket
import struct
import subprocess
import sys
import tempfile
import threading

import tool_values
from screen import free_port
from suite import SECONDS, TOP, Test
from tool_run import demand, ran, ran_all, wants

sys.path.insert(0, os.path.join(TOP, "tools"))
from texts import schemas  # noqa: E402

WORK = '{"logid": 7, "w": {"num1": 20, "num2": %s, "op": %s}}'
# Calls of the calculator: the method, the arguments, and how they end.
CALLS = [
    ("calculate", WORK % (22, '"ADD"'), 0, "42\n", ""),
    ("calculate", WORK % (22, 1), 0, "42\n", ""),
    ("add", '{"num1": 3, "num2": null}', 0, "3\n", ""),
    ("getStruct", '{"key": 7}', 0, '{"key": 7, "value": "42"}\n', ""),
    ("ping", "{}", 0, "null\n", ""),
    ("zip", "{}", 0, "null\n", ""),
    (
        "calculate",
        WORK % (0, '"DIVIDE"'),
        20,
        '{"ouch": {"whatOp": 4, "why": "Cannot divide by 0"}}\n',
        "calculate threw ouch",
    ),
    ("calculate", "{}", 21, "", "the call failed: Internal error processing calculate (6, internal error)"),
    ("getStruct", '{"key": 99}', 22, "", "nothing came back, and getStruct returns shared.SharedStruct"),
    ("add", '{"num1": "a"}', 13, "", 'refused arguments: num1: expected i32, got "a"'),
    ("add", '{"num1": 1.0}', 13, "", "refused arguments: num1: expected i32, got 1.0"),
    ("add", '{"num3": 1}', 13, "", "refused arguments: num3: the method add has no such field, but num1, num2"),
    ("calculate", WORK % (2**31, 1), 13, "", "refused arguments: w.num2: 2147483648 is out of the range of i32"),
    ("calculate", WORK % (0, '"DIV"'), 13, "", "refused arguments: w.op: expected a value of Operation (ADD, SUBTRACT"),
    ("add", "[]", 13, "", "refused arguments: expected an object of the arguments of add"),
    ("add", '{"num1": 1', 13, "", "refused arguments: no JSON: line 1, column 11:"),
    ("add", '{"num1": 1, "num1": 2}', 13, "", 'refused arguments: the name "num1" stands twice'),
    ("divide", "{}", 13, "", "Calculator has no method divide, but: ping, add, calculate, zip, getStruct"),
]
UNION = """union U { 1: i32 a 2: string b } enum E { X = 5 }
struct R { 1: required U u 2: optional R next 3: map<U, set<E>> m }
service V { oneway void f(1: R r 2: double d = 1.0) void g(1: list<R> l) }
"""
REFUSED = [
    ('{"r": {"u": {"a": 1, "b": "x"}}}', "r.u: union U has one field of these, and not 2: a, b"),
    ('{"r": {"u": {}}}', "r.u: union U has one field of these, and not 0: a, b"),
    ('{"r": {}}', "r.u: expected U, which is required, got nothing"),
    ('{"r": {"u": {"a": 1}, "next": {"u": null}}}', "r.next.u: expected U, which is required, got nothing"),
    ('{"r": {"u": {"a": 1}, "m": [[{"a": 1}, ["X", 5]]]}}', 'r.m[{"a": 1}]: a member of the set stands twice'),
    ('{"r": {"u": {"a": 1}, "m": [[{"a": 1}, []], [{"a": 1}, []]]}}', "r.m: a key of the map stands twice"),
    ('{"r": {"u": {"a": 1}, "m": [1]}}', "r.m: expected an object or an array of pairs of map<U, set<E>>, got [1]"),
    ('{"d": true}', "d: expected double"),
    ('{"r": %s{}%s}' % ('{"u": {"a": 1}, "next": ' * 64, "}" * 64), "next.u: more than 64 levels"),
    ('{"r": {"u": {"b": {"base64": "*"}}}}', 'r.u.b: expected string, got {"base64": "*"}: '),
    (
        '{"r": {"u": {"b": "%s"}}}' % ("x" * 131072),
        "refused arguments: as text they have 131086 bytes, and a word has 131071 at most",
    ),
]


@contextlib.contextmanager
def served(program, *words):
    """A port at which the program serves, until the block ends."""
    port = free_port()
    command = [program, "serve", *words, "--listen", port, "--accept", "1000", "--journal", os.devnull]
    with subprocess.Popen(command, stdout=subprocess.PIPE) as server:
        try:
            server.stdout.readline()
            yield port
        finally:
            server.kill()


def answered(program):
    with served(program, "@tutorial", "binary", "2", "Calculator=calculator") as port:
        front = ["@tutorial", "binary", "Calculator"]
        calls = [([*front, method, given, "--to", port], b"") for method, given, *_ in CALLS]
        for ended, (_, _, status, output, said) in zip(ran_all(program, "ask", calls), CALLS):
            wants(ended, status, output, said)
        more = ["add", "-", "--to", port, "--multiplexed"]
        wants(ran(program, "ask", *front, *more, given=b'{"num1": 40, "num2": 2}'), 0, "42\n")
        other = ran(program, "ask", "@tutorial", "compact", "Calculator", "add", "{}", "--to", port)
        wants(other, 14, "", "refused reply: Cut: the connection ended before a whole frame")
        more = ["shared.SharedService", "getStruct", "{}", "--to", port, "--multiplexed"]
        wants(ran(program, "ask", "@tutorial", "binary", *more), 21, "", "the call failed: Service name not found: ")


@contextlib.contextmanager
def misbehaving(answer):
    """A port whose first caller is answered by a function of its connection."""
    with socket.create_server(("127.0.0.1", 0)) as listening:

        def serve():
            with contextlib.suppress(OSError), listening.accept()[0] as link:
                link.settimeout(SECONDS)
                link.recv(65536)
                answer(link)

        thread = threading.Thread(target=serve, daemon=True)
        thread.start()
        yield str(listening.getsockname()[1])
        thread.join(SECONDS)


def reset(link):
    link.setsockopt(socket.SOL_SOCKET, socket.SO_LINGER, struct.pack("ii", 1, 0))


def unanswered(program):
    """Servers that misbehave, and ports that nobody has."""
    front = ["@tutorial", "binary", "Calculator", "add", '{"num1": 1}']
    for answer, status, said in [
        (reset, 8, "net fault: nobody listens, or the connection broke"),
        (lambda link: link.sendall(bytes.fromhex("00000017 80010002 0000")), 14, "refused reply: Cut: "),
        (lambda link: link.sendall(b"HTTP/1.1 400 Bad Request\r\n"), 14, "refused reply: SizeFault: its size is none"),
        (lambda link: link.sendall(b"\0\0\0\5hello"), 14, "refused reply: Head: its head is no reply's"),
        (lambda link: link.recv(1), 23, "no answer in 0.5 seconds"),
    ]:
        with misbehaving(answer) as port:
            wants(ran(program, "ask", *front, "--to", port, "--timeout", "0.5"), status, "", "thriftd ask: " + said)
    wants(ran(program, "ask", *front, "--to", free_port()), 8, "", "net fault: nobody listens")


def words(program):
    front = ["@tutorial", "binary", "Calculator", "add", "{}"]
    cases = [
        (front, 1, "the following arguments are required: --to"),
        ([*front, "--to", "0"], 1, "argument --to: 0 is no port, 1 to 65,535"),
        ([*front, "--to", "65536"], 1, "argument --to: 65536 is no port, 1 to 65,535"),
        ([*front, "--to", "1", "--timeout", "0"], 1, "argument --timeout: 0 is no number of seconds, above 0 and up to 1,000,000"),
        (["--list"], 1, "--list takes IDL"),
        (["--list", "missing"], 2, "idl missing 0:0 Absent"),
        (["--list", ""], 1, "'' is no name of an IDL"),
        (["--template", "@tutorial", "Calculator"], 1, "--template takes IDL NAME METHOD"),
        (["--template", "@tutorial", "Notes", "get"], 13, "@tutorial has no service Notes, but: Calculator, shared"),
        (["missing", *front[1:], "--to", "1"], 2, "idl missing 0:0 Absent"),
    ]
    for ended, (_, status, said) in zip(ran_all(program, "ask", [(given, b"") for given, _, _ in cases]), cases):
        wants(ended, status, "", "thriftd ask: " + said)
    helped = ran(program, "ask", "--help")
    demand(helped[0] == 0 and helped[1].startswith("usage: thriftd ask IDL"), "--help: %r", helped)


def refused(program):
    """Arguments that are refused with their place, and templates, which are taken as they stand."""
    with tempfile.TemporaryDirectory(prefix="thriftd-ask-") as folder:
        idl = os.path.join(folder, "a.thrift")
        with open(idl, "w", encoding="utf-8") as out:
            out.write(UNION)
        front = [idl, "binary", "V", "f", "-", "--to", "1"]
        for ended, (_, said) in zip(ran_all(program, "ask", [(front, it.encode()) for it, _ in REFUSED]), REFUSED):
            wants(ended, 13, "", said)
        listed = "V: oneway void f(R r, double d)\nV: void g(list<R> l)\n"
        wants(ran(program, "ask", "--list", idl), 0, listed)
        made = ran(program, "ask", "--template", idl, "V", "f")
        wanted = {"r": {"u": {"a": 0}, "next": None, "m": [[{"a": 0}, ["X"]]]}, "d": 1.0}
        demand(made[0] == 0 and json.loads(made[1]) == wanted, "the template is %r", made)
        taken = ran(program, "ask", idl, "binary", "V", "f", made[1], "--to", free_port())
        wants(taken, 8, "", "net fault")


def random_calls(program, seed, count):
    """Random JSON calls of a mirror of a random IDL; each has to come back equal."""
    rng = random.Random(seed)
    with tempfile.TemporaryDirectory(prefix="thriftd-ask-") as folder:
        idl = os.path.join(folder, "m.thrift")
        with open(idl, "w", encoding="utf-8") as out:
            out.write(tool_values.random_idl(rng))
        checked = subprocess.run(
            [program, "check", idl], stdout=subprocess.PIPE, text=True, timeout=SECONDS, check=True
        )
        schema, protocol = schemas.read_schema(checked.stdout), rng.choice(("binary", "compact"))
        functions = list(schema.functions(schema.services()["Mirrored"]).values())
        with served(program, idl, protocol, "2", "Mirrored=mirror") as port:
            calls, given = [], []
            for _ in range(count):
                function = rng.choice(functions)
                given.append((function, tool_values.random_json(rng, schema, function.result)))
                arguments = json.dumps({"it": given[-1][1]}, ensure_ascii=rng.random() < 0.5)
                calls.append(([idl, protocol, "Mirrored", function.name, "-", "--to", port], arguments.encode()))
            for ended, (function, went), (_, arguments) in zip(ran_all(program, "ask", calls), given, calls):
                demand(ended[0] == 0, "seed %d: %s %s: %r", seed, function.name, arguments, ended)
                come = json.loads(ended[1])
                both = [
                    json.dumps(tool_values.normal(schema, function.result, it), sort_keys=True) for it in (come, went)
                ]
                demand(both[0] == both[1], "seed %d: %s came back as %s", seed, arguments, ended[1])


def mirrored(program):
    for seed in (1, 2):
        random_calls(program, seed, 8)


def tests(programs):
    for program in programs:
        for case in (answered, unanswered, words, refused, mirrored):
            yield Test("%s (%s)" % (case.__name__, os.path.basename(program)), functools.partial(case, program))
