"""Random IDLs, and random JSON of their types, for the tests and trials of the tools."""
import base64
import json
import math
import struct

BASES = ("bool", "i8", "i16", "i32", "i64", "double", "string", "binary", "uuid")
BITS = {"i8": 8, "i16": 16, "i32": 32, "i64": 64}
SCALARS = (*BASES, "E0", "E1")
TEXTS = ("", "a", "milk", 'a"\\\n\t\x00b', "größe", "日本", "😀", "{1=1i}", "-1", "true", "NaN", "x" * 300)


def random_type(rng, structs, depth=0):
    """The text of a type of these structs; keys and members are scalars most often."""
    roll = rng.random()
    if depth < 3 and roll < 0.35:
        word = rng.choice(("list", "set", "map"))
        first = rng.choice(SCALARS) if word != "list" and rng.random() < 0.8 else random_type(rng, structs, depth + 1)
        return "%s<%s>" % (word, first if word != "map" else "%s,%s" % (first, random_type(rng, structs, depth + 1)))
    return rng.choice(structs) if structs and roll < 0.55 else rng.choice(SCALARS)


def random_idl(rng, structs=6, functions=8):
    """An IDL whose service Mirrored answers each method with its first argument."""
    lines = ["enum E0 { A = 1, B, C = -7 }", "enum E1 { ONE = 1, UNO = 1, MOST = 2147483647 }"]
    names = []
    for number in range(structs):
        sort = rng.choice(("struct", "struct", "union"))
        fields = []
        for place in sorted(rng.sample(range(1, 200), rng.randrange(1, 6))):
            need = rng.choice(("required ", "optional ", "")) if sort == "struct" else ""
            fields.append("%d: %s%s f%d" % (place, need, random_type(rng, names), place))
        names.append("S%d" % number)
        lines.append("%s S%d { %s }" % (sort, number, ", ".join(fields)))
    made = [
        "  {0} m{1}({2}: {0} it)".format(random_type(rng, names), one, rng.choice((1, 7, -3, 300)))
        for one in range(functions)
    ]
    made = [line.replace("(-3: ", "(") for line in made]
    return "\n".join(lines) + "\nservice Mirrored {\n%s\n}\n" % "\n".join(made)


def random_double(rng):
    number = struct.unpack(">d", rng.getrandbits(64).to_bytes(8, "big"))[0]
    if not math.isfinite(number):
        return rng.choice(("NaN", "Infinity", "-Infinity", {"bits": "7ff8000000000001"}))
    return rng.choice((number, 0.0, -0.0, 1.5, 1e300, -5e-324))


def random_bytes(rng, is_key):
    held = rng.randbytes(rng.randrange(1, 12))
    try:
        return held.decode("utf-8")
    except UnicodeDecodeError:
        return rng.choice(TEXTS) if is_key else {"base64": base64.b64encode(held).decode("ascii")}


def random_scalar(rng, schema, type_, is_key):
    word = type_.word
    if word == "bool":
        return rng.random() < 0.5
    if word in BITS:
        most = 1 << BITS[word] - 1
        return rng.choice((0, 1, -1, most - 1, -most, rng.randrange(-most, most)))
    if word == "double":
        number = random_double(rng)
        return 2.5 if is_key and isinstance(number, dict) else number
    if word == "uuid":
        digits = "%032x" % rng.getrandbits(128)
        return "-".join((digits[:8], digits[8:12], digits[12:16], digits[16:20], digits[20:]))
    if word in ("string", "binary"):
        return rng.choice(TEXTS) if rng.random() < 0.6 else random_bytes(rng, is_key)
    values = {number: name for name, number in reversed(schema.definition(type_).values)}
    return values[rng.choice(list(values))] if rng.random() < 0.9 else 99


def is_scalar(schema, type_):
    return not type_.parts and schema.tag(type_) != "struct"


def random_json(rng, schema, type_, depth=0):
    """JSON of a type, in the form in which a tool prints it; the members of sets and the keys of maps differ."""
    if is_scalar(schema, type_):
        return random_scalar(rng, schema, type_, False)
    size = rng.choice((0, 1, 2, 3)) if depth < 4 else rng.choice((0, 1))
    if type_.word == "list":
        return [random_json(rng, schema, type_.parts[0], depth + 1) for _ in range(size)]
    if type_.word == "set":
        members = [random_json(rng, schema, type_.parts[0], depth + 1) for _ in range(size)]
        return list({json.dumps(normal(schema, type_.parts[0], one), sort_keys=True): one for one in members}.values())
    if type_.word == "map":
        return random_map(rng, schema, type_, size, depth)
    definition = schema.definition(type_)
    fields = definition.fields
    if definition.sort == "union":
        fields = [rng.choice(fields)]
    return {
        it.name: random_json(rng, schema, it.type, depth + 1)
        for it in fields
        if definition.sort == "union" or it.need == "required" or rng.random() < 0.7
    }


def random_map(rng, schema, type_, size, depth):
    key_type, item_type = type_.parts
    if is_scalar(schema, key_type):
        keys = [random_scalar(rng, schema, key_type, True) for _ in range(size)]
        keys = [key if isinstance(key, str) else json.dumps(key) for key in keys]
        return {key: random_json(rng, schema, item_type, depth + 1) for key in keys}
    keys = [random_json(rng, schema, key_type, depth + 1) for _ in range(size)]
    keys = {json.dumps(normal(schema, key_type, key), sort_keys=True): key for key in keys}.values()
    made = [[key, random_json(rng, schema, item_type, depth + 1)] for key in keys]
    return made or {}


def normal(schema, type_, given):
    """JSON of a type in which the members of sets and pairs have one order."""
    if is_scalar(schema, type_):
        return repr(given) if isinstance(given, float) else given
    if type_.word in ("list", "set"):
        made = [normal(schema, type_.parts[0], one) for one in given]
        return made if type_.word == "list" else sorted(made, key=lambda one: json.dumps(one, sort_keys=True))
    if type_.word == "map":
        if isinstance(given, dict):
            return {key: normal(schema, type_.parts[1], one) for key, one in given.items()}
        made = [[normal(schema, part, one) for part, one in zip(type_.parts, pair)] for pair in given]
        return sorted(made, key=lambda one: json.dumps(one, sort_keys=True))
    types = {it.name: it.type for it in schema.definition(type_).fields}
    return {name: normal(schema, types[name], one) for name, one in given.items()}
