"""The suite `tool_texts`: the module tools/texts reads what the program writes and accepts, and refuses what it does.

Values at random go through their text and back; what `check` and `rehearse` print of the examples is read; scripts are
refused as the rows of rows/ have it; and the frames that `call` sends, and a mirror answers, are read in both
protocols."""
import functools
import glob
import io
import json
import os
import random
import socket
import subprocess
import sys
import tempfile

import rows
import tool_values
from suite import SECONDS, TOP, Found, Test

sys.path.insert(0, os.path.join(TOP, "tools"))
from texts import Fault, entries, named, schemas, scripts, values, wire  # noqa: E402

# Texts that are none, with the place of the fault.
NO_VALUES = [
    ("", 0),
    ("{1=5}", 3),
    ("{2=1i,1=1i}", 7),
    ("{1=1i,1=1i}", 7),
    ("{01=1i}", 1),
    ("{1=1i,}", 6),
    ("{1=1i", 5),
    ("128b", 0),
    ("-0i", 0),
    ("01i", 0),
    ("2147483648i", 0),
    ('"a', 2),
    ('"\\x41"', 1),
    ('"\\n"', 1),
    ('"\x7f"', 1),
    ("list<i32>[1l]", 10),
    ("list<i31>[]", 5),
    ("set<i8>[2b,1b]", 13),
    ("set<i8>[1b,1b]", 13),
    ("d3ff", 0),
    ("tru", 0),
    ("map<bool,i8>{true=1b,false=1b}", 26),
    ("map<i8,i8>{1b}", 13),
    ("5i ", 2),
    ("{32768=1i}", 1),
    ("u00", 0),
    ("{1=" * 65 + "1i" + "}" * 65, 192),
]


def demand(holds, what, *parts):
    if not holds:
        raise Found(what % parts)


def fault_of(read, *given):
    """The fault that a reader finds, or nothing."""
    try:
        read(*given)
    except Fault as fault:
        return fault
    return None


def random_values():
    """Values of random types, made from JSON."""
    rng = random.Random(7)
    for _ in range(20):
        structs = [named_struct(rng, number) for number in range(3)]
        yield values.tidied(values.Value("struct", list(enumerate(structs, -1))))


def named_struct(rng, depth):
    """A struct with a value of each tag, and containers of containers."""
    held = [
        values.Value("bool", rng.random() < 0.5),
        values.double(rng.random()),
        values.Value("bytes", rng.randbytes(9)),
    ]
    held += [values.Value(tag, rng.randrange(-(1 << bits - 1), 1 << bits - 1)) for tag, bits in values.BITS.items()]
    held += [values.Value("uuid", rng.randbytes(16)), values.text_value(rng.choice(tool_values.TEXTS))]
    numbers = [values.Value("i8", rng.randrange(-128, 128)) for _ in range(5)]
    held += [values.Value("list", numbers, ("i8",)), values.Value("set", numbers, ("i8",))]
    held += [values.Value("map", [(one, held[-1]) for one in numbers], ("i8", "set"))]
    held += [named_struct(rng, depth - 1)] if depth else []
    return values.Value("struct", [(rng.randrange(-32768, 32768), one) for one in held])


def value_texts():
    """A value is read back from its text, and no beginning of it is a value."""
    for value in random_values():
        text = values.value_text(value)
        demand(values.read_value(text) == value, "%s is read as another value", text)
        for cut in random.Random(1).sample(range(len(text)), 40):
            demand(fault_of(values.read_value, text[:cut]), "%s is read as a value", text[:cut])
    for text, place in NO_VALUES:
        fault = fault_of(values.read_value, text)
        demand(fault and fault.at == place, "%s: the fault is %r, and not at %d", text, fault and fault.args, place)


def example_schemas():
    """What `check` prints of the examples is read, and nothing that is cut inside a line."""
    for path in glob.glob(os.path.join(glob.escape(TOP), "examples/*.check")):
        with open(path, encoding="utf-8") as kept:
            text = kept.read()
        if text.startswith("thriftd: "):
            continue
        schema = schemas.read_schema(text)
        demand(
            sum(map(len, schema.files.values())) == sum(not it.startswith((" ", "file ")) for it in text.splitlines()),
            "%s",
            path,
        )
        for cut in range(len(text)):
            if text[cut - 1 : cut] != "\n":
                demand(fault_of(schemas.read_schema, text[:cut]), "%s is read where it ends at byte %d", path, cut)
    schema = schemas.read_schema(text_of("examples/market.check"))
    demand(list(schema.services()) == ["Market", "money.Exchange"], "services %r", list(schema.services()))
    demand(list(schema.functions(schema.services()["Market"])) == ["offers", "exchanged"], "functions of Market")


def text_of(path):
    with open(os.path.join(TOP, path), encoding="utf-8") as it:
        return it.read()


def example_entries():
    """Each line of the examples' reports is read, an entry's line is written back, and nothing that is cut is read."""
    for path in glob.glob(os.path.join(glob.escape(TOP), "examples/*.report")):
        for line in text_of(os.path.relpath(path, TOP)).splitlines():
            read = entries.read_line(line)
            if isinstance(read, entries.Entry):
                demand(entries.entry_line(read) == line, "%s is written as %s", line, entries.entry_line(read))
                cuts = [line[:cut] for cut in range(len(line))]
                demand(all(fault_of(entries.read_line, it) for it in cuts), "a beginning of %s is read", line)
    for line in (
        "",
        "call",
        "call 0 0 0 f {} ok",
        "call 0 0 0 f 1i empty",
        "tape read 0 0",
        "conn 0 Gone -",
        "calls 01",
        "ärger",
    ):
        demand(fault_of(entries.read_line, line), "%r is read", line)


def script_rows():
    """Scripts are read and refused as the program does it."""
    count = 0
    for path in rows.files_of_rows():
        if os.path.basename(path) not in (
            "script_faults.rows",
            "scripts.rows",
            "record.rows",
            "schedules.rows",
            "script_forms.py",
        ):
            continue
        for row in rows.rows_of(path):
            if row.words[0] in ("rehearse", "record") and (
                row.status == 0 or row.errors.startswith(b"thriftd: script ")
            ):
                count += 1
                workers = int(row.words[3])
                fault = fault_of(
                    lambda: list(scripts.read_script(io.BytesIO(row.input), workers, row.words[0] == "rehearse"))
                )
                said = b"thriftd: %s\n" % str(fault).encode() if fault else b""
                demand(said == row.errors, "%s: %r, and the program says %r", row.place, said, row.errors)
    demand(count > 100, "there are only %d rows of scripts", count)


def long_scripts():
    """A long piece comes in parts, whose bytes are those of the piece, and its fault is told as that of a short one."""
    piece = random.Random(3).randbytes(3 << 19)
    for behind in (b"", b"\n", b"\n# " + b"x" * (2 << 20) + b"\nend 0\n"):
        read = scripts.read_script(io.BytesIO(b"open\ndata 0 %s%s" % (piece.hex().encode(), behind)))
        found = []
        fault = fault_of(lambda: found.extend(read))
        demand(b"".join(it.data for it in found if it.data) == piece, "a long piece has other bytes")
        demand([it.whole for it in found if it.data] == [False] * 3 + [True], "its parts are told otherwise")
        demand((fault is None) == behind.endswith(b"end 0\n"), "fault %s", fault)
    for front, behind, kind in (
        (b"data 0 ", b"0", "BadLine"),
        (b"data 0 x", b"", "BadLine"),
        (b"datum 0 ", b"", "BadLine"),
        (b"data 1 ", b"", "NoConnection"),
        (b"data 1 ", b"x", "BadLine"),
    ):
        text = b"open\n%s%s%s\n" % (front, b"00" * (1 << 20), behind)
        fault = fault_of(lambda: list(scripts.read_script(io.BytesIO(text))))
        demand(fault and (fault.line, fault.kind) == (2, kind), "%r .. %r: %s", front, behind, fault)


def sent_frame(program, idl, protocol, method, args):
    """The payload that `call` sends."""
    with socket.create_server(("127.0.0.1", 0)) as listening:
        listening.settimeout(SECONDS)
        words = [program, "call", idl, protocol, "Mirrored", method, args, "--to", str(listening.getsockname()[1])]
        with subprocess.Popen(words, stdout=subprocess.DEVNULL, stderr=subprocess.DEVNULL) as run:
            with listening.accept()[0] as link, link.makefile("rb") as sent:
                payload = sent.read(int.from_bytes(sent.read(4), "big"))
            run.wait(SECONDS)
    return payload


def mirrored(program, idl, protocol, payloads):
    """The payloads with which a mirror replies."""
    frames = "".join("data 0 %08x%s\n" % (len(it), it.hex()) for it in payloads)
    words = [program, "rehearse", idl, protocol, "0", "Mirrored=mirror"]
    report = subprocess.run(
        words, input="open\n%send 0\n" % frames, stdout=subprocess.PIPE, text=True, timeout=SECONDS, check=True
    ).stdout
    ended = next(it for it in map(entries.read_line, report.splitlines()) if isinstance(it, entries.Ended))
    return wire.split_frames(ended.written)[0]


def frames_of(program, protocol, seed, count=12):
    """What `call` sends, and a mirror replies, is read as the values that were given; nothing that is cut is read."""
    rng = random.Random(seed)
    with tempfile.TemporaryDirectory(prefix="thriftd-texts-") as folder:
        idl = os.path.join(folder, "m.thrift")
        with open(idl, "w", encoding="utf-8") as out:
            out.write(tool_values.random_idl(rng))
        checked = subprocess.run(
            [program, "check", idl], stdout=subprocess.PIPE, text=True, timeout=SECONDS, check=True
        )
        schema = schemas.read_schema(checked.stdout)
        functions = list(schema.functions(schema.services()["Mirrored"]).values())
        given = []
        for place in range(count):
            function = functions[place % len(functions)]
            argument = {"it": tool_values.random_json(rng, schema, function.result)}
            args = named.Reading(schema).fields(argument, function.args, "m")
            given.append((function, args, sent_frame(program, idl, protocol, function.name, values.value_text(args))))
        replies = mirrored(program, idl, protocol, [payload for _, _, payload in given])
        for (function, args, payload), reply in zip(given, replies):
            judge_frames(protocol, function, args, payload, reply, named.Names(schema))


def judge_frames(protocol, function, args, payload, reply, names):
    message, answer = wire.read_message(protocol, payload), wire.read_message(protocol, reply)
    demand(
        names.arguments(function, message.body) == names.arguments(function, args),
        "%s is read as %s",
        args,
        message.body,
    )
    demand((message.type, message.name, message.id) == (1, function.name, 1), "its head is %r", message[:3])
    said = names.message(answer, function)
    wanted = names.json(args.held[0][1], function.result)
    demand(json.dumps(said["value"]) == json.dumps(wanted), "%s is answered %s", wanted, said)
    for cut in range(0, len(payload), max(1, len(payload) // 50)):
        demand(
            fault_of(wire.read_message, protocol, payload[:cut]),
            "a payload of %d bytes is read at %d",
            len(payload),
            cut,
        )


def refused_json(program):
    """JSON that is no value of its type is refused with its place."""
    idl = "@tutorial"
    text = subprocess.run(
        [program, "check", idl], stdout=subprocess.PIPE, text=True, timeout=SECONDS, check=True
    ).stdout
    schema = schemas.read_schema(text)
    function = schema.functions(schema.services()["Calculator"])["calculate"]
    for given, said in [
        ('{"logid": 1, "logid": 2}', 'the name "logid" stands twice'),
        ('{"logit": 1}', "logit: arguments has no such field, but logid, w"),
        (
            '{"w": {"num1": 2147483648}}',
            "w.num1: 2147483648 is out of the range of i32, which is -2147483648 to 2147483647",
        ),
        (
            '{"w": {"op": "add"}}',
            'w.op: expected a value of Operation (ADD, SUBTRACT, MULTIPLY, DIVIDE) or a number, got "add"',
        ),
        ('{"w": [1]}', "w: expected an object of struct Work, got [1]"),
        ('{"logid": NaN}', 'NaN is no JSON: a double that is none is a text, "NaN"'),
        ('{"logid": 1e999}', "the number 1e999 is too large for a double"),
        ('{"w": {"comment": "\\ud800"}}', "w.comment: expected string, got "),
        ("{", "no JSON: line 1, column 2: "),
        ("[" * 100000, "no value: more than 64 levels"),
    ]:
        fault = fault_of(lambda: named.Reading(schema).fields(named.read_json(given), function.args, "arguments"))
        demand(fault and str(fault).startswith(said), "%s: %s, and not %s", given[:60], fault, said)


def tests(programs):
    """A test of each part."""
    for case in (value_texts, example_schemas, example_entries, script_rows, long_scripts):
        yield Test(case.__name__.replace("_", " "), case)
    for program in programs:
        name = os.path.basename(program)
        yield Test("refused JSON (%s)" % name, functools.partial(refused_json, program))
        for protocol in wire.PROTOCOLS:
            yield Test("frames, %s (%s)" % (protocol, name), functools.partial(frames_of, program, protocol, 5))
