#!/usr/bin/env python3
"""Compares two programs on random messages: two_programs.py OTHER [COUNT [SEED]]

OTHER is a program, or a commit of this tree, whose packed program is unpacked. COUNT messages (100,000 unless another number is given) in each protocol ask the mirror
of random IDLs for calls: fields that are declared and fields that aren't, of their types and of others, repeated and out of order, containers of other elements, deep
and empty ones, unions with none and two, and one message in eight is spoilt. Each stands on a connection of its own, so that what is wrong with one hides nothing of
the next. Both programs rehearse the same scripts, and their reports have to be equal to the byte. Prints how many messages were called, refused and closed, and ends
with status 1, naming the folder of the input, where a report differs. It is no test of the gate.
"""
import gzip
import os
import random
import shutil
import stat
import struct
import subprocess
import sys
import tempfile

from built import TOP, built_program

SCALARS = ["bool", "i8", "i16", "i32", "i64", "double", "string", "binary"]
CODES = {"bool": 2, "i8": 3, "double": 4, "i16": 6, "i32": 8, "i64": 10, "string": 11, "binary": 11, "struct": 12, "map": 13, "set": 14, "list": 15}
COMPACT = {"bool": 1, "i8": 3, "i16": 4, "i32": 5, "i64": 6, "double": 7, "string": 8, "binary": 8, "list": 9, "set": 10, "map": 11, "struct": 12}
SIZES = {"i8": ">b", "i16": ">h", "i32": ">i", "i64": ">q"}
DEFAULTS = {"bool": "true", "i8": "7", "i16": "-7", "i32": "70000", "i64": "-1", "string": '"d"', "binary": '"d"'}
STRUCTS, FUNCTIONS, MESSAGES = 8, 6, 500


def random_kind(rng, levels):
    """A type: a word, a number of a struct, or a container's word with the types of its elements."""
    chance = rng.random()
    if levels == 0 or chance < 0.55:
        return rng.choice(SCALARS)
    if chance < 0.7:
        return rng.randrange(STRUCTS)
    word = rng.choice(["list", "set", "map"])
    return (word, *(random_kind(rng, levels - 1) for _ in range(2 if word == "map" else 1)))


def spelled(kind):
    if isinstance(kind, str):
        return kind
    if isinstance(kind, int):
        return "S%d" % kind
    return "%s<%s>" % (kind[0], ", ".join(map(spelled, kind[1:])))


def random_fields(rng, is_union):
    fields = []
    for number in sorted(rng.sample(range(1, 40), rng.choice([0, 1, 2, 3, 5]) or is_union)):
        need = "" if is_union else rng.choice(["", "", "optional ", "required "])
        # A required struct may have no finite value.
        kind = random_kind(rng, 2 if need == "optional " or is_union else 0)
        has_default = kind in DEFAULTS and not is_union and rng.random() < 0.3
        fields.append((number, need, kind, has_default))
    return fields


def random_idl(rng):
    """An IDL with a service that a mirror answers, and the fields of its structs and of its functions' arguments."""
    unions = [rng.random() < 0.2 for _ in range(STRUCTS)]
    structs = [random_fields(rng, is_union) for is_union in unions]
    functions = [random_kind(rng, 3) for _ in range(FUNCTIONS)]
    lines = []
    for number, fields in enumerate(structs):
        lines.append("%s S%d {" % ("union" if unions[number] else "struct", number))
        for place, need, kind, has_default in fields:
            lines.append("  %d: %s%s f%d%s" % (place, need, spelled(kind), place, " = " + DEFAULTS[kind] if has_default else ""))
        lines.append("}")
    lines.append("service Mirror {")
    lines += ["  %s m%d(1: %s x)" % (spelled(kind), number, spelled(kind)) for number, kind in enumerate(functions)]
    lines.append("}")
    return "\n".join(lines) + "\n", structs, functions


def random_value(rng, kind, structs, levels):
    """A value that is mostly of a type, as (word, content)."""
    if rng.random() < 0.04:
        kind = random_kind(rng, 2)
    if isinstance(kind, int):
        return ("struct", random_struct(rng, structs[kind], structs, levels - 1))
    if isinstance(kind, tuple):
        count = 0 if levels <= 0 else rng.choice([0, 0, 1, 1, 2, 3])
        kinds = [kind[1:] if rng.random() < 0.95 else tuple(random_kind(rng, 1) for _ in kind[1:])][0]
        items = [tuple(random_value_of(rng, part, structs, levels - 1) for part in kinds) for _ in range(count)]
        return (kind[0], [word_of(part) for part in kinds], items)
    content = {"bool": lambda: rng.random() < 0.5, "double": lambda: rng.choice([0.0, -0.0, 1.5, float("nan"), float("inf"), rng.random()])}
    if kind in content:
        return (kind, content[kind]())
    if kind in SIZES:
        bits = 8 * struct.calcsize(SIZES[kind]) - 1
        return (kind, rng.choice([0, 1, -1, 2 ** bits - 1, -2 ** bits, rng.randrange(-99, 99)]))
    return (kind, bytes(rng.randrange(256) for _ in range(rng.choice([0, 1, 2, 9]))))


def random_value_of(rng, kind, structs, levels):
    """A value whose word is that of a type, as each element of a container has one word."""
    while True:
        value = random_value(rng, kind, structs, levels)
        if CODES[value[0]] == CODES[word_of(kind)]:
            return value


def word_of(kind):
    return kind if isinstance(kind, str) else "struct" if isinstance(kind, int) else kind[0]


def random_struct(rng, fields, structs, levels):
    """Fields of a struct: most of those that are declared, and some that aren't."""
    sent = []
    if levels > 0:
        for number, _, kind, _ in fields:
            if rng.random() < 0.8:
                sent.append((number, random_value(rng, kind, structs, levels)))
    for _ in range(rng.choice([0, 0, 0, 1, 2])):
        number = rng.choice([number for number, *_ in fields] or [1]) if rng.random() < 0.5 else rng.choice([0, -1, 7, 32767, -32768, rng.randrange(1, 40)])
        sent.insert(rng.randrange(len(sent) + 1), (number, random_value(rng, random_kind(rng, 2), structs, max(levels, 1))))
    if rng.random() < 0.1:
        rng.shuffle(sent)
    return sent


def varint(number):
    groups = bytearray()
    while number > 127:
        groups.append(128 | number & 127)
        number >>= 7
    groups.append(number)
    return bytes(groups)


def zigzag(number):
    return ((number << 1) ^ (number >> 63)) & (1 << 64) - 1


def binary(value):
    word, content = value[0], value[1]
    if word == "bool":
        return bytes([content])
    if word in SIZES:
        return struct.pack(SIZES[word], content)
    if word == "double":
        return struct.pack(">d", content)
    if word in ("string", "binary"):
        return struct.pack(">i", len(content)) + content
    if word == "struct":
        return b"".join(struct.pack(">bh", CODES[part[0]], number) + binary(part) for number, part in content) + b"\0"
    head = b"".join(bytes([CODES[part]]) for part in content) + struct.pack(">i", len(value[2]))
    return head + b"".join(binary(part) for row in value[2] for part in row)


def compact(value):
    word, content = value[0], value[1]
    if word == "bool":
        return bytes([1 if content else 2])
    if word == "i8":
        return struct.pack(">b", content)
    if word in SIZES:
        return varint(zigzag(content))
    if word == "double":
        return struct.pack("<d", content)
    if word in ("string", "binary"):
        return varint(len(content)) + content
    if word == "struct":
        return compact_struct(content)
    codes, count = [COMPACT[part] for part in content], len(value[2])
    if word == "map":
        head = varint(count) + (bytes([codes[0] << 4 | codes[1]]) if count else b"")
    else:
        head = bytes([count << 4 | codes[0]]) if count < 15 else bytes([240 | codes[0]]) + varint(count)
    return head + b"".join(compact(part) for row in value[2] for part in row)


def compact_struct(fields):
    text, before = b"", 0
    for number, part in fields:
        code = COMPACT[part[0]] if part[0] != "bool" else 1 if part[1] else 2
        short = 0 < number - before < 16
        text += bytes([number - before << 4 | code]) if short else bytes([code]) + varint(zigzag(number))
        text += b"" if part[0] == "bool" else compact(part)
        before = number
    return text + b"\0"


def message(protocol, name, number, body):
    if protocol == "binary":
        return struct.pack(">Ii", 0x80010001, len(name)) + name + struct.pack(">i", number) + body
    return bytes([0x82, 0x21]) + varint(number) + varint(len(name)) + name + body


def random_message(rng, protocol, structs, functions, number):
    which = rng.randrange(FUNCTIONS)
    value = random_value(rng, functions[which], structs, rng.choice([1, 3, 6, 6, 30]))
    fields = [(1, value)]
    if rng.random() < 0.1:
        fields = random_struct(rng, [(1, "", functions[which], False)], structs, 4)
    body = bytearray({"binary": binary, "compact": compact}[protocol](("struct", fields)))
    if rng.random() < 0.125:
        at = rng.randrange(len(body))
        if rng.random() < 0.5:
            body[at] = rng.randrange(256)
        else:
            del body[at:at + rng.choice([1, 2, 5])]
    return message(protocol, b"m%d" % which, number, bytes(body))


def random_script(rng, protocol, structs, functions):
    lines = []
    for c in range(MESSAGES):
        payload = random_message(rng, protocol, structs, functions, c)
        lines += ["open", "data %d %s%s" % (c, struct.pack(">I", len(payload)).hex(), payload.hex()), "end %d" % c, "rest"]
    return "\n".join(lines) + "\n"


def older_program(commit, folder):
    packed = subprocess.run(["git", "-C", TOP, "show", commit + ":dist/thriftd.gz"], stdout=subprocess.PIPE, check=True).stdout
    program = os.path.join(folder, "older")
    with open(program, "wb") as file:
        file.write(gzip.decompress(packed))
    os.chmod(program, os.stat(program).st_mode | stat.S_IXUSR)
    return program


def rehearsed(program, idl, protocol, script):
    with open(script, "rb") as file:
        run = subprocess.run([program, "rehearse", idl, protocol, "0", "Mirror=mirror"], stdin=file, stdout=subprocess.PIPE, stderr=subprocess.PIPE, check=False)
    return run.returncode, run.stdout, run.stderr


def main(other, count="100000", seed="1"):
    rng, told = random.Random(int(seed)), {"called": 0, "refused": 0, "closed": 0}
    folder = tempfile.mkdtemp(prefix="two_programs-")
    programs = [built_program(), other if os.path.isfile(other) else older_program(other, folder)]
    idl, script = os.path.join(folder, "mirror.thrift"), os.path.join(folder, "script")
    for start in range(0, int(count), MESSAGES):
        text, structs, functions = random_idl(rng)
        with open(idl, "w", encoding="utf-8") as file:
            file.write(text)
        for protocol in ("binary", "compact"):
            with open(script, "w", encoding="utf-8") as file:
                file.write(random_script(rng, protocol, structs, functions))
            one, two = (rehearsed(program, idl, protocol, script) for program in programs)
            if one != two or one[0] != 0:
                print("two_programs: statuses %d and %d behind %d messages, input in %s" % (one[0], two[0], start, folder))
                return 1
            calls = one[1].count(b"\ncall ")
            closed = MESSAGES - one[1].count(b" End ")
            told["called"] += calls
            told["closed"] += closed
            told["refused"] += MESSAGES - calls - closed
    shutil.rmtree(folder)
    print("two_programs: %s messages in each protocol: %d called, %d refused, %d connections closed, and all reports equal" % (count, told["called"], told["refused"], told["closed"]))
    return 0


if __name__ == "__main__":
    sys.exit(main(*sys.argv[1:]))
