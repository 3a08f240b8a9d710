#!/usr/bin/env python3
"""Writes random scripts of many connections, with what the model says of each: rehearsal_mixes.py FOLDER COUNT [SEED]

Each is FOLDER/N.script, its report or errors' line FOLDER/N.wanted, and its words FOLDER/N.words. Inputs are cut anywhere and may be broken; write
rules, lines of rest and schedule lines stand anywhere, and one text in eight is none. With a program as the last word, it runs each and tells which differ:
rehearsal_mixes.py FOLDER COUNT SEED THRIFTD.."""
import os
import random
import subprocess
import sys

import rehearsal_model as model

PING = model.message(b"ping", 1, 0, b"\0")
BROKEN = [b"\0\0\0\0", b"\xff\xff\xff\xff", b"\0\0\0\x01\x80", model.message(b"ping", 2, 7, b"\0"), b"\0\0\0\x04\x80\x02\x00\x01",
          b"\0\0\0\x05\0\0\0\x09p", b"\0\0\0\x08\x80\x01\0\x01\xff\xff\xff\xff"]


def number_field(place, value):
    return b"\x08" + place.to_bytes(2, "big") + model.put32(value)


def frame(rng):
    """A call of one of the methods, or of one that there isn't."""
    kind, number = rng.choice([1, 1, 1, 4]), rng.randrange(100)
    name = rng.choice([b"ping", b"zip", b"add", b"add", b"calculate", b"calculate", b"getStruct", b"getStruct", b"none"])
    body = b""
    if name == b"add":
        body = number_field(1, rng.choice([1, -5, 2 ** 31 - 1])) + number_field(2, rng.randrange(9))
    elif name == b"calculate":
        work = number_field(1, rng.randrange(-20, 20)) + number_field(2, rng.randrange(-3, 4)) + number_field(3, rng.randrange(0, 6))
        body = number_field(1, rng.randrange(3)) + b"\x0c\x00\x02" + work + b"\0"
    elif name == b"getStruct":
        body = number_field(1, rng.randrange(3))
    whole = model.message(name, kind, number, body + b"\0")
    if rng.random() < 0.05:
        return model.put32(len(whole) - 5) + whole[4:-1]
    return whole


def incoming(rng):
    """What a connection brings: frames, of which the last may be broken or cut."""
    bytes_ = b"".join(frame(rng) for _ in range(rng.choice([0, 1, 1, 2, 3, 5])))
    chance = rng.random()
    if chance < 0.15:
        bytes_ += rng.choice(BROKEN) + rng.choice([b"", PING])
    elif chance < 0.3:
        bytes_ = bytes_[:len(bytes_) - rng.randrange(0, min(20, len(bytes_) + 1))]
    return bytes_


def pieces(rng, bytes_):
    size = rng.choice([1, 3, 7, 30, 1000])
    while bytes_:
        count = min(len(bytes_), rng.randrange(1, size + 1))
        yield bytes_[:count]
        bytes_ = bytes_[count:]


def lines_of(rng, c, is_scheduled):
    """The lines of a connection in order, its opening first."""
    lines = ["open"]
    for piece in pieces(rng, incoming(rng)):
        lines.append("data %d %s" % (c, piece.hex()))
    lines.append(rng.choice(["end %d", "end %d", "end %d", "readfail %d"]) % c)
    for _ in range(rng.choice([0, 0, 1, 3, 8])):
        rule = rng.choice(["write %d %d", "write %d %d", "write %d %d", "block %d", "block %d", "writefail %d" if rng.random() < 0.3 else "block %d"])
        rule = rule % ((c, rng.choice([1, 2, 9, 21, 4294967295])) if "write " in rule else c)
        lines.insert(rng.randrange(1, len(lines) + 1), rule)
    if is_scheduled:
        for _ in range(rng.choice([0, 2, 10, 30])):
            lines.insert(rng.randrange(1, len(lines) + 1), "loop %d" % c)
    return lines


def weave(rng, many):
    """Lists of lines put together, each one's order kept; `open` lines come in the lists' order."""
    many, opened, woven = [list(lines) for lines in many], 0, []
    while any(many):
        choices = [k for k, lines in enumerate(many) if lines and (k < opened or k == opened)]
        k = rng.choice(choices)
        opened = max(opened, k + 1)
        woven.append(many[k].pop(0))
    return woven


def script(rng, workers):
    """A script, which is one in seven cases of eight."""
    is_scheduled = rng.random() < 0.6
    lines = weave(rng, [lines_of(rng, c, is_scheduled) for c in range(rng.choice([1, 2, 3, 3, 5]))])
    for _ in range(rng.choice([0, 0, 1, 3])):
        lines.insert(rng.randrange(len(lines) + 1), rng.choice(["rest", "", "# none"]))
    if is_scheduled:
        for _ in range(rng.choice([0, 5, 20, 60])):
            lines.insert(rng.randrange(len(lines) + 1), rng.choice(["work %d" % rng.randrange(max(1, workers)), "collect"]))
    if rng.random() < 0.125:
        wrong = ["open ", "end", "end 9", "work %d" % workers, "data 0 0", "data 0 00", "write 0 0", "loop 7", "end 0", "readfail 4294967296", "open"]
        for _ in range(rng.choice([1, 2])):
            lines.insert(rng.randrange(len(lines) + 1), rng.choice(wrong))
    return ("\n".join(lines) + rng.choice(["\n", "\n", ""])).encode()


def case(rng):
    """Words and script of a run, and what the model says of it."""
    workers = rng.choice([0, 1, 2, 3, 8])
    words, limits = ["rehearse", "@tutorial", "binary", str(workers), "Calculator=calculator"], []
    if rng.random() < 0.5:
        limits = [rng.choice([17, 29, 30, 54, 60])]
        limits.append(rng.choice([limits[0], limits[0] + 1, 2 * limits[0], 100]))
        words += ["--max-frame", str(limits[0]), "--read-budget", str(limits[1])]
    text = script(rng, workers)
    return words, text, model.rehearse(text, workers, *limits)


def ran(program, words, text):
    done = subprocess.run(program + words, input=text, capture_output=True, check=False)
    return (done.stdout + done.stderr).decode()


def main(folder, count, seed, *program):
    os.makedirs(folder, exist_ok=True)
    rng, differ = random.Random(int(seed)), 0
    for n in range(int(count)):
        words, text, wanted = case(rng)
        for end, held in (("script", text), ("wanted", wanted.encode()), ("words", "\n".join(words).encode() + b"\n")):
            with open(os.path.join(folder, "%d.%s" % (n, end)), "wb") as out:
                out.write(held)
        if program and ran(list(program), words, text) != wanted:
            differ += 1
            print("case %d differs" % n)
    print("%s cases, %d differ" % (count, differ))
    return differ


if __name__ == "__main__":
    sys.exit(1 if main(sys.argv[1], sys.argv[2], *(sys.argv[3:] or ["1"])) else 0)
