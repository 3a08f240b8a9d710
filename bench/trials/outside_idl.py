#!/usr/bin/env python3
"""Compares `thriftd check` with Apache's compiler on IDL files: outside_idl.py THRIFTD FOLDER ..

Each file below the folders is checked by both, in its own folder. Where one accepts a file and the other refuses it, the difference has to be
one of the facts below, each of which a rule of docs/PROFILE.md explains; else it is UNEXPLAINED. Where both accept, the names, ids, needs, enum
numbers, defaults and constants that thriftd's schema text has are compared with those of Apache's JSON. Then all is compared again in a copy
of the folders in which what the facts speak of is mended, so that no fact hides what stands behind it. The script prints a line for each
difference and a table of the facts that it met, and ends with status 1 where something isn't explained or differs."""
import collections
import json
import os
import re
import shutil
import subprocess
import sys
import tempfile

import built  # noqa: F401 (texts is found behind it)
from texts.schemas import STRUCTS, read_schema

WHOLE = "a double constant is a whole number within plus or minus 2^53"
FORM = "a constant has the form of its type: a set is a list in brackets"
NAMED = "a constant's name is NAME, f.NAME, Enum.VALUE of this file, or f.Enum.VALUE"
# What thriftd refuses and Apache's compiler accepts: the kind of the fault, the name of the file at fault, what stands at its place, the rule,
# and what the mended copy has there, or a text of the file and what it has in its place, or None where it has the same.
FACTS = [
    ("DoubleConstant", "*", r"[-+]?(?:\d+\.?\d*|\.\d+)(?:[eE][-+]?\d+)?", WHOLE, "7"),
    ("BigNumber", "DoubleConstantsTest.thrift", r"[-+]?1\.7e\+308|[-+]?[0-9.]{41,}", "a double has at most 40 digits and an exponent from -99 to 99", "7"),
    ("WrongKind", "ThriftTest.thrift", r"\{\}", FORM, "[]"),
    ("UnknownName", "EnumTest.thrift", r"MyEnum1\.ME2_2", NAMED, "MyEnum2.ME2_2"),
    ("UnknownName", "Thrift5382.thrift", r"FoobarEnum\.Val_1", NAMED, None),
    ("Refused", "Recursive.thrift", r"&", "& is left out by name", " "),
    ("StructLoop", "optional_required_default.thrift", r"RaceDetails", "a struct has a finite value", ("required RaceDetails ", "optional RaceDetails ")),
    ("Found", "ConstantsDemo.thrift", r"x0001F", "-0x0001F is the integer -0 and a word", ("-0x0001F", "-31")),
]
# What Apache's compiler refuses and thriftd accepts: a part of its message, and the rule.
LAXER = {
    "Cannot use reserved language keyword": "words of target languages are names",
}


def number(value):
    return int(value) if isinstance(value, bool) else value


def key_text(key):
    """A key as Apache's JSON has it."""
    return key.held.decode("utf-8", "replace") if key.tag == "bytes" else str(number(key.number if key.tag == "double" else key.held))


def is_value(schema, type_, ours, theirs):
    """Whether a value of the schema text is one of the JSON, against a type. Booleans are numbers there, sets have any order, of a struct only the
    fields that are given have an entry, by their names, and equal keys have become one."""
    if ours.tag == "map":
        entries = {key_text(key): value for key, value in ours.held}
        return entries.keys() == theirs.keys() and all(is_value(schema, type_.parts[1], entries[key], theirs[key]) for key in entries)
    if ours.tag == "list":
        return len(ours.held) == len(theirs) and all(is_value(schema, type_.parts[0], a, b) for a, b in zip(ours.held, theirs))
    if ours.tag == "set":
        return all(any(is_value(schema, type_.parts[0], a, b) for b in theirs) for a in ours.held) and all(
            any(is_value(schema, type_.parts[0], a, b) for a in ours.held) for b in theirs
        )
    if ours.tag == "struct":
        return is_struct(schema, schema.definition(type_).fields, dict(ours.held), theirs)
    if ours.tag == "bytes":
        return ours.held == theirs.encode("utf-8")
    return number(ours.number if ours.tag == "double" else ours.held) == number(theirs)


def is_struct(schema, fields, ours, theirs):
    """The same of a struct: what isn't given has the default of its field."""
    for field in fields:
        if field.name in theirs:
            if field.id not in ours or not is_value(schema, field.type, ours[field.id], theirs[field.name]):
                return False
        elif ours.get(field.id) != field.default:
            return False
    return set(theirs) <= {field.name for field in fields}


NEEDS = {"default": "req_out", "required": "required", "optional": "optional"}


def fields_differ(schema, ours, theirs, is_union=False):
    theirs = sorted(theirs, key=lambda f: f["key"])
    if [(field.id, field.name) for field in ours] != [(f["key"], f["name"]) for f in theirs]:
        return "fields %r, %r" % (ours, theirs)
    for field, f in zip(ours, theirs):
        if not is_union and NEEDS[field.need] != f["required"]:
            return "need of %s" % field.name
        if (field.default is None) != ("default" not in f):
            return "default of %s" % field.name
        if field.default and not is_value(schema, field.type, field.default, f["default"]):
            return "default of %s: %r, %r" % (field.name, field.default, f["default"])
    return None


def constants_differ(schema, ours, theirs):
    for constant in ours:
        other = next(c for c in theirs if c["name"] == constant.name)
        if not is_value(schema, constant.type, constant.value, other["value"]):
            return "constant %s: %r, %r" % (constant.name, constant.value, other["value"])
    return None


# The sorts of definitions that Apache's JSON has in each of its lists.
SORTS = {"typedefs": ("typedef",), "constants": ("const",), "enums": ("enum",), "structs": STRUCTS, "services": ("service",)}


def difference(schema, base, theirs):
    """The first difference of a file's definitions, or None."""
    ours = {part: [one for one in schema.files[base] if one.sort in sorts] for part, sorts in SORTS.items()}
    for part in ours:
        a, b = sorted(one.name for one in ours[part]), sorted(item["name"] for item in theirs[part])
        if a != b:
            return "names %r, %r" % (a, b)
    for enum in ours["enums"]:
        other = next(e for e in theirs["enums"] if e["name"] == enum.name)
        if enum.values != [(m["name"], m["value"]) for m in other["members"]]:
            return "enum %s" % enum.name
    for struct in ours["structs"]:
        other = next(s for s in theirs["structs"] if s["name"] == struct.name)
        found = fields_differ(schema, struct.fields, other["fields"], struct.sort == "union")
        if found:
            return "%s %s: %s" % (struct.sort, struct.name, found)
    return constants_differ(schema, ours["constants"], theirs["constants"]) or services_differ(schema, ours["services"], theirs["services"])


def services_differ(schema, ours, theirs):
    for service in ours:
        other = next(s for s in theirs if s["name"] == service.name)
        if [f.name for f in service.functions] != [f["name"] for f in other["functions"]]:
            return "functions of %s" % service.name
        for function, f in zip(service.functions, other["functions"]):
            found = fields_differ(schema, function.args, f["arguments"]) or fields_differ(schema, function.throws, f["exceptions"])
            if found or function.oneway != f["oneway"]:
                return "%s.%s: %s" % (service.name, function.name, found or "oneway")
    return None


def check(thriftd, path):
    folder, name = os.path.split(path)
    return subprocess.run([thriftd, "check", name], cwd=folder, capture_output=True, text=True, errors="replace", stdin=subprocess.DEVNULL)


def fact_at(path, line):
    """The fact that an errors' line speaks of: file, line, byte in it, what stands there and the fact; or None."""
    said = re.fullmatch(r"thriftd: idl (.*) (\d+):(\d+) (\w+)", line)
    if not said or said[2] == "0":
        return None
    file = os.path.normpath(os.path.join(os.path.dirname(path), said[1]))
    row, column = int(said[2]) - 1, int(said[3]) - 1
    with open(file, encoding="latin-1", newline="") as text:
        rest = text.read().split("\n")[row][column:]
    for fact in FACTS:
        kind, name, pattern = fact[:3]
        found = re.match(pattern, rest)
        if kind == said[4] and name in ("*", os.path.basename(file)) and found and not is_whole(kind, found[0]):
            return file, row, column, found[0], fact
    return None


def is_whole(kind, token):
    """Whether a double is a whole number within plus or minus 2^53, so that it should have been accepted."""
    return kind == "DoubleConstant" and float(token) == int(float(token)) and abs(float(token)) <= 2**53


def compare(thriftd, path):
    """A line for the file where the two differ, whether that is explained, and the fact that it was explained by."""
    folder, name = os.path.split(path)
    ours = check(thriftd, path)
    with tempfile.TemporaryDirectory() as made:
        theirs = subprocess.run(["thrift", "-gen", "json", "-o", made, name], cwd=folder, capture_output=True, text=True, errors="replace")
        accepted = theirs.returncode == 0
        if accepted and ours.returncode == 0:
            base = name[: -len(".thrift")]
            with open(os.path.join(made, "gen-json", base + ".json"), encoding="utf-8", errors="replace") as file:
                try:
                    told = json.load(file, strict=False)
                except json.JSONDecodeError:
                    return "accepted by both; Apache's compiler writes no JSON of it", True, None
            found = difference(read_schema(ours.stdout), base, told)
            return found and "DIFFERS " + found, not found, None
    if accepted:
        line = ours.stderr.strip()
        met = fact_at(path, line) if ours.returncode == 2 else None
        return "stricter: %s: %s" % (line, met[4][3] if met else "UNEXPLAINED status %d" % ours.returncode), bool(met), met
    if ours.returncode == 0:
        message = " ".join((theirs.stdout + theirs.stderr).split())[-300:]
        rule = next((LAXER[part] for part in LAXER if part in message), None)
        return "laxer: %s: %s" % (rule or "UNEXPLAINED", message), bool(rule), None
    return "refused by both: %s" % ours.stderr.strip(), True, None


def mend(met):
    """Puts something that both accept in the place of what a fact speaks of."""
    file, row, column, token, fact = met
    with open(file, encoding="latin-1", newline="") as text:
        lines = text.read().split("\n")
    if isinstance(fact[4], tuple):
        lines = [line.replace(*fact[4]) for line in lines]
    else:
        lines[row] = lines[row][:column] + fact[4] + lines[row][column + len(token):]
    with open(file, "w", encoding="latin-1", newline="") as text:
        text.write("\n".join(lines))


def walk(thriftd, folders, is_mended):
    """Compares all files below folders, prints a line for each difference, and gives what they came to and the facts that were met."""
    paths = sorted(os.path.join(at, f) for folder in folders for at, _, files in os.walk(folder) for f in files if f.endswith(".thrift"))
    counts, facts = collections.Counter(), collections.Counter()
    for path in paths:
        line, fine, met = compare(thriftd, path)
        while is_mended and met and met[4][4] is not None:
            mend(met)
            line, fine, met = compare(thriftd, path)
        counts["alike" if line is None else "unexplained" if not fine else "refused by both" if line.startswith("refused") else "explained"] += 1
        if line:
            print(path, line)
        if met:
            facts[met[4][0], os.path.basename(met[0]) if met[4][1] != "*" else "%d:%d" % (met[1] + 1, met[2] + 1), met[3], met[4][3]] += 1
    print("%d files: %s" % (len(paths), ", ".join("%d %s" % (n, k) for k, n in sorted(counts.items()))))
    return counts["unexplained"] == 0, facts


def main():
    thriftd, *folders = sys.argv[1:]
    thriftd = os.path.abspath(thriftd)
    good, facts = walk(thriftd, folders, False)
    for (kind, where, token, rule), files in sorted(facts.items()):
        print("fact: %s at %s (%s): %s; %d files" % (kind, token, where, rule, files))
    with tempfile.TemporaryDirectory() as made:
        copies = [shutil.copytree(folder, os.path.join(made, str(number))) for number, folder in enumerate(folders)]
        print("mended:")
        alike, _ = walk(thriftd, copies, True)
    sys.exit(0 if good and alike else 1)


if __name__ == "__main__":
    main()
