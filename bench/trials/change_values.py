#!/usr/bin/env python3
"""Reads values of one schema by another, between which `thriftd compat` finds no break: change_values.py VALUES [SEED [THRIFTD]]

Of random pairs of schemas that are compatible each pair of structs that is reached is taken, those of results and exceptions from the new schema to the old one. Random
values of the struct that is written are sent to a method that takes the one that is read and answers it (`rehearse` with the reader's IDL and a mirror). Each field
that the reader declares has to be in the answer, equal or kept in turn; else the answer has to be an exception that says TooDeep or TooMany. Last come values at the limits of
both. Prints how many values were kept and how many were too large, or the first that was lost, with its folder; ends with status 1 there."""
import collections
import random
import struct
import subprocess
import sys
import tempfile

from built import built_program
from change_mixes import checked, ended, random_change, written
from texts.compat import Comparison, plain as bytes_type

TAGS = {"bool": 2, "i8": 3, "double": 4, "i16": 6, "i32": 8, "i64": 10, "bytes": 11, "struct": 12, "map": 13, "set": 14, "list": 15}
WIDTHS = {2: 1, 3: 1, 4: 8, 6: 2, 8: 4, 10: 8}
TOO_LARGE = (b"Bad arguments: TooDeep", b"Bad arguments: TooMany")


class NoValue(Exception):
    """A type of which no small value was found."""


# A value is (TAG, PART): bytes, or the elements of a list or a set, the pairs of a map, or the fields of a struct with their ids.

def tag_of(t):
    return TAGS[t if isinstance(t, str) else t[0]]


def scalar(rng, t):
    if t == "bool":
        return bytes([rng.randrange(2)])
    if t == "bytes":
        return rng.randbytes(rng.choice([0, 1, 3, 20]))
    width = WIDTHS[TAGS[t]]
    return rng.choice([bytes(width), b"\xff" * width, b"\x80" + bytes(width - 1), rng.randbytes(width)])


def random_value(rng, schema, t, depth=0):
    if depth > 20:
        raise NoValue
    if isinstance(t, str):
        return TAGS[t], scalar(rng, t)
    if t[0] == "struct":
        d = schema.named[t[1:]]
        if d.sort == "union":
            if not d.fields:
                raise NoValue
            sent = [rng.choice(d.fields)]
        else:
            sent = [field for field in d.fields if field.need == "required" or rng.random() < (0.7 if depth < 6 else 0.1)]
        return 12, [(field.id, random_value(rng, schema, bytes_type(schema, field.type), depth + 1)) for field in sent]
    size = rng.choice([0, 1, 2, 4]) if depth < 4 else 0
    items = [tuple(random_value(rng, schema, part, depth + 1) for part in t[1:]) for _ in range(size)]
    if t[0] != "list":
        items = list({plain(item[0]): item for item in items}.values())
    return tag_of(t), items if t[0] == "map" else [item[0] for item in items]


def plain(value):
    """A value without an order where there is none."""
    tag, part = value
    if tag == 15:
        return tuple(plain(item) for item in part)
    if tag == 14:
        return frozenset(plain(item) for item in part)
    if tag == 13:
        return frozenset((plain(key), plain(item)) for key, item in part)
    return frozenset((number, plain(item)) for number, item in part) if tag == 12 else part


def types_of(schema, t):
    """The types of a struct's fields, by their ids."""
    return {field.id: bytes_type(schema, field.type) for field in schema.named[t[1:]].fields}


def is_kept(reader, t, value, read):
    if value[0] != read[0]:
        return False
    if t[0] == "struct":
        known, there = types_of(reader, t), dict(read[1])
        return all(number in there and is_kept(reader, known[number], item, there[number]) for number, item in value[1] if number in known)
    if t[0] == "list":
        return len(value[1]) == len(read[1]) and all(is_kept(reader, t[1], *both) for both in zip(value[1], read[1]))
    if t[0] == "map":
        there = {plain(key): item for key, item in read[1]}
        return len(value[1]) == len(read[1]) and all(plain(key) in there and is_kept(reader, t[2], item, there[plain(key)]) for key, item in value[1])
    return plain(value) == plain(read)


# ---- bytes

def spelled(value, t, schema):
    tag, part = value
    if tag == 11:
        return struct.pack(">i", len(part)) + part
    if tag in WIDTHS:
        return part
    if tag == 12:
        types = types_of(schema, t)
        return b"".join(struct.pack(">bh", item[0], number) + spelled(item, types[number], schema) for number, item in part) + b"\0"
    if tag == 13:
        return struct.pack(">bbi", tag_of(t[1]), tag_of(t[2]), len(part)) + b"".join(spelled(key, t[1], schema) + spelled(item, t[2], schema) for key, item in part)
    return struct.pack(">bi", tag_of(t[1]), len(part)) + b"".join(spelled(item, t[1], schema) for item in part)


def take(data, at, tag):
    """The value of a tag at a place, and the place behind it."""
    if tag in WIDTHS:
        return (tag, data[at:at + WIDTHS[tag]]), at + WIDTHS[tag]
    if tag == 11:
        behind = at + 4 + struct.unpack_from(">i", data, at)[0]
        return (tag, data[at + 4:behind]), behind
    made = []
    if tag == 12:
        while data[at]:
            inner, number = struct.unpack_from(">bh", data, at)
            item, at = take(data, at + 3, inner)
            made.append((number, item))
        return (tag, made), at + 1
    if tag == 13:
        key_tag, item_tag, size = struct.unpack_from(">bbi", data, at)
        at += 6
        for _ in range(size):
            key, at = take(data, at, key_tag)
            item, at = take(data, at, item_tag)
            made.append((key, item))
        return (tag, made), at
    inner, size = struct.unpack_from(">bi", data, at)
    at += 5
    for _ in range(size):
        item, at = take(data, at, inner)
        made.append(item)
    return (tag, made), at


def frame(method, body):
    name = method.encode()
    payload = b"\x80\x01\0\x01" + struct.pack(">i", len(name)) + name + bytes(4) + body
    return struct.pack(">i", len(payload)) + payload


def replies(program, main, frames):
    """What a mirror that serves Mirrored of this IDL replies: of each frame the message's type, and its struct's fields."""
    script = "open\n" + "".join("data 0 %s\n" % one.hex() for one in frames) + "end 0\n"
    run = subprocess.run([program, "rehearse", main, "binary", "0", "Mirrored=mirror"], input=script, stdout=subprocess.PIPE, text=True, timeout=600, check=True)
    line = next(line for line in run.stdout.splitlines() if line.startswith("conn 0 "))
    data, at, made = bytes.fromhex(line.split()[-1]), 0, []
    while at < len(data):
        size, _, kind, length = struct.unpack_from(">ihxbi", data, at)
        made.append((kind, dict(take(data, at + 16 + length, 12)[0][1])))
        at += 4 + size
    return made


def mirrored(types):
    """A service with a method for each type of the main file, which the mirror answers with its argument."""
    functions = [{"name": "say%d" % i, "oneway": False, "result": t, "args": [{"id": 1, "need": "", "type": t, "name": "value", "has_default": False}], "throws": []} for i, t in enumerate(types)]
    return {"sort": "service", "name": "Mirrored", "parent": None, "functions": functions}


def is_lost(reader, t, value, reply):
    """Whether a value isn't kept in a reply, nor too large: None where it is too large."""
    kind, fields = reply
    if kind == 3 and fields[1][1] in TOO_LARGE:
        return None
    return kind != 2 or 0 not in fields or not is_kept(reader, t, value, fields[0])


def judged(program, folder, texts, writer, reader, pairs, rng, met):
    """Sends values of these pairs to a mirror of the reader's texts, and counts what became of them; the answer is whether none was lost."""
    types = [("name",) + other for one, other in pairs]
    main = written(folder, {"inc": texts["inc"], "main": texts["main"] + [mirrored(types)]})
    sent = []
    for i, (one, other) in enumerate(pairs):
        for _ in range(3):
            try:
                sent.append((i, random_value(rng, writer, ("struct",) + one)))
            except NoValue:
                met["without a small value"] += 1
    bodies = [(i, b"\x0c\0\x01" + spelled(value, ("struct",) + pairs[i][0], writer) + b"\0") for i, value in sent]
    answers = replies(program, main, [frame("say%d" % i, body) for i, body in bodies]) if bodies else []
    if len(answers) != len(sent):
        print("%s: %d replies to %d values" % (folder, len(answers), len(sent)))
        return False
    for (i, value), answer in zip(sent, answers):
        lost = is_lost(reader, ("struct",) + pairs[i][1], value, answer)
        met["too large" if lost is None else "lost" if lost else "kept"] += 1
        if lost:
            print("%s: %s of say%d was answered with %r" % (folder, value, i, answer))
            return False
    return True


# ---- at the limits

def schema_of(fields):
    return {"inc": [], "main": [{"sort": "struct", "name": "S", "fields": fields}]}


def field(number, need, t, has_default=False):
    return {"id": number, "need": need, "type": t, "name": "n%d" % number, "has_default": has_default}


def at_the_limits(program, folder):
    """A chain of structs that may have one level more, and a list with which a default is one value too many: (WHAT, WHETHER KEPT), as they should be."""
    chain, flags = schema_of([field(1, "optional", ("name", "main", "S"))]), schema_of([field(1, "", ("list", "bool"))])
    grown = schema_of([field(1, "", ("list", "bool")), field(2, "", "i32", True)])
    made = []
    for schema, reader, bodies in (
            (chain, chain, [b"\x0c\0\x01" * levels + b"\0" * (levels + 1) for levels in (63, 64)]),
            (flags, grown, [b"\x0c\0\x01\x0f\0\x01\x02" + struct.pack(">i", size) + b"\1" * size + b"\0\0" for size in (3999996, 3999997)])):
        main = written(folder + "/writer", schema)
        reading = written(folder + "/reader", {"inc": [], "main": reader["main"] + [mirrored([("name", "main", "S")])]})
        compatible = ended(program, "compat", main, reading)[0] == 0
        for kind, fields in replies(program, reading, [frame("say0", body) for body in bodies]):
            made.append(compatible and (kind == 2 or kind == 3 and fields[1][1] in TOO_LARGE and "too large"))
    return made


def main():
    values, seed = int(sys.argv[1]), int(sys.argv[2]) if len(sys.argv) > 2 else 1
    program = sys.argv[3] if len(sys.argv) > 3 else built_program()
    rng, met, folder = random.Random(seed), collections.Counter(), tempfile.mkdtemp(prefix="values.")
    while met["kept"] + met["too large"] < values:
        texts = random_change(rng)
        names = [written(folder + place, one) for place, one in zip(("/old", "/new"), texts)]
        if ended(program, "compat", *names)[0] != 0:
            continue
        met["changes"] += 1
        comparison = Comparison(*(checked(program, name) for name in names))
        for goes_back in (False, True):
            pairs = [(it.written, it.read) for it in comparison.pairs() if it.goes_back == goes_back]
            sides = texts[not goes_back], *comparison.sides(goes_back)
            if pairs and not judged(program, folder + "/reading", *sides, pairs, rng, met):
                sys.exit(1)
    print(", ".join("%s %d" % pair for pair in met.most_common()), flush=True)
    limits = at_the_limits(program, folder)
    if limits != [True, "too large"] * 2:
        print("%s: the limits aren't where they should be: %r" % (folder, limits))
        sys.exit(1)


if __name__ == "__main__":
    main()
