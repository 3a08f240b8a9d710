"""Schemas at random, and changes of them. What a change breaks, the rules of tools/texts/compat.py say, by docs/CHANGES.md and not by the program.

A schema is a dict: for 'main' and 'inc' a list of definitions in their order, of which main includes inc as inc.thrift. A type is a text (a base type), or one of
('name', FILE, NAME), ('list', TYPE), ('set', TYPE), ('map', TYPE, TYPE). A definition is a dict with its sort, its name, and what belongs to the sort."""
import copy

BASES = ["bool", "i8", "i16", "i32", "i64", "double", "string", "binary"]
STRUCTS = ("struct", "union", "exception")


# ---- texts

def type_text(t, file):
    if isinstance(t, str):
        return t
    if t[0] == "name":
        return t[2] if t[1] == file else "%s.%s" % (t[1], t[2])
    return "%s<%s>" % (t[0], ", ".join(type_text(part, file) for part in t[1:]))


def fields_text(fields, file):
    words = []
    for field in fields:
        number = "" if field["id"] is None else "%d: " % field["id"]
        default = " = 7" if field["has_default"] and field["type"] in ("i8", "i16", "i32", "i64") else ""
        words.append("%s%s%s %s%s" % (number, field["need"] + " " if field["need"] else "", type_text(field["type"], file), field["name"], default))
    return " ".join(words)


def function_text(f, file):
    result = "void" if f["result"] is None else type_text(f["result"], file)
    throws = " throws (%s)" % fields_text(f["throws"], file) if f["throws"] else ""
    return "  %s%s %s(%s)%s\n" % ("oneway " if f["oneway"] else "", result, f["name"], fields_text(f["args"], file), throws)


def definition_text(d, file):
    if d["sort"] == "enum":
        return "enum %s { A, B }\n" % d["name"]
    if d["sort"] == "typedef":
        return "typedef %s %s\n" % (type_text(d["type"], file), d["name"])
    if d["sort"] == "service":
        parent = " extends " + type_text(d["parent"], file) if d["parent"] else ""
        return "service %s%s {\n%s}\n" % (d["name"], parent, "".join(function_text(f, file) for f in d["functions"]))
    return "%s %s { %s }\n" % (d["sort"], d["name"], fields_text(d["fields"], file))


def file_text(schema, file):
    head = 'include "inc.thrift"\n' if file == "main" else ""
    return head + "".join(definition_text(d, file) for d in schema[file])


def find(schema, file, name, sorts):
    return next((d for d in schema[file] if d["name"] == name and d["sort"] in sorts), None)


# ---- at random

def random_type(rng, schema, file, depth=0, sorts=STRUCTS + ("enum", "typedef")):
    """A type of what a file can name: of itself, and main of inc. Keys and members are mostly such that no struct stands in them."""
    if depth < 3 and rng.random() < 0.3:
        sort = rng.choice(["list", "list", "set", "map"])
        keyed = ("enum",) if rng.random() < 0.97 else sorts
        first = random_type(rng, schema, file, depth + 1, sorts if sort == "list" else keyed)
        return (sort, first, random_type(rng, schema, file, depth + 1, sorts)) if sort == "map" else (sort, first)
    places = [("name", where, d["name"]) for where in ("main", "inc") for d in schema[where] if d["sort"] in sorts and (file == "main" or where == "inc")]
    return rng.choice(places) if places and rng.random() < 0.5 else rng.choice(BASES)


def random_field(rng, schema, file, number, needs):
    name = "unnumbered" if number is None else "n%d" % number
    return {"id": number, "need": rng.choice(needs), "type": random_type(rng, schema, file), "name": name, "has_default": rng.random() < 0.2}


def random_fields(rng, schema, file, most, needs):
    made = [random_field(rng, schema, file, number, needs) for number in rng.sample(range(1, 9), rng.randrange(most + 1))]
    if rng.random() < 0.1:
        made.insert(rng.randrange(len(made) + 1), random_field(rng, schema, file, None, [""]))
    return made


def random_throws(rng, exceptions):
    return [{"id": number, "need": "", "type": rng.choice(exceptions), "name": "e%d" % number, "has_default": False} for number in rng.sample(range(1, 4), rng.randrange(3))]


def needs_of(sort):
    return ["", "optional"] if sort == "union" else ["", "", "optional", "optional", "required"]


def random_function(rng, schema, file, name):
    oneway = rng.random() < 0.1
    exceptions = [("name", where, d["name"]) for where in ("main", "inc") for d in schema[where] if d["sort"] == "exception" and (file == "main" or where == "inc")]
    throws = [] if oneway or not exceptions else random_throws(rng, exceptions)
    result = None if oneway or rng.random() < 0.3 else random_type(rng, schema, file)
    return {"name": name, "oneway": oneway, "result": result, "args": random_fields(rng, schema, file, 2, ["", "", "", "required"]), "throws": throws}


def random_schema(rng):
    schema = {"main": [], "inc": []}
    for file, mark in (("inc", "I"), ("main", "M")):
        for sort, letter, most in (("struct", "S", 4), ("union", "U", 2), ("exception", "E", 2)):
            schema[file] += [{"sort": sort, "name": "%s%s%d" % (mark, letter, i), "fields": []} for i in range(rng.randrange(most + 1))]
        schema[file] += [{"sort": "enum", "name": mark + "N"}] if rng.random() < 0.6 else []
        rng.shuffle(schema[file])
    for _ in range(rng.randrange(3)):
        schema["main"].append({"sort": "typedef", "name": "T%d" % len(schema["main"]), "type": random_type(rng, schema, "main")})
    for file in ("inc", "main"):
        for d in schema[file]:
            if d["sort"] in STRUCTS:
                d["fields"] = random_fields(rng, schema, file, 4, needs_of(d["sort"]))
    number = 0
    for file, mark in (("inc", "I"), ("main", "M")):
        for i in range(rng.randrange(3)):
            parents = [("name", where, d["name"]) for where in ("main", "inc") for d in schema[where] if d["sort"] == "service" and (file == "main" or where == "inc")]
            functions = []
            for _ in range(rng.randrange(4)):
                number += 1
                functions.append(random_function(rng, schema, file, "f%d" % number))
            schema[file].append({"sort": "service", "name": "%sV%d" % (mark, i), "parent": rng.choice(parents) if parents and rng.random() < 0.6 else None, "functions": functions})
    return schema


def other_type(rng, schema, file, t, sorts=STRUCTS + ("enum", "typedef")):
    """Another type, most often one that is near."""
    if not isinstance(t, str) and t[0] != "name" and rng.random() < 0.8:
        at = rng.randrange(1, len(t))
        inner = other_type(rng, schema, file, t[at], sorts if t[0] == "list" or at == 2 else ("enum",))
        return t[:at] + (inner,) + t[at + 1:]
    near = {"string": "binary", "binary": "string"}
    if isinstance(t, str) and t in near and rng.random() < 0.8:
        return near[t]
    alike = ("enum",) if t == "i32" else STRUCTS if not isinstance(t, str) and t[0] == "name" else ()
    places = [("name", where, d["name"]) for where in ("main", "inc") for d in schema[where]
              if d["sort"] in alike and d["sort"] in sorts and (file == "main" or where == "inc")]
    return rng.choice(places) if places and rng.random() < 0.8 else random_type(rng, schema, file, 0, sorts)


def change_fields(rng, schema, file, fields, needs):
    way = rng.randrange(6)
    if way in (0, 1):
        number = rng.randrange(1, 12)
        if all(field["id"] != number for field in fields):
            fields.insert(rng.randrange(len(fields) + 1), random_field(rng, schema, file, number, needs))
    elif fields:
        field = rng.choice(fields)
        if way == 2:
            fields.remove(field)
        elif way == 3:
            field["type"] = other_type(rng, schema, file, field["type"])
        elif way == 4:
            field["need"] = rng.choice(needs)
        else:
            field["name"] += "x"


def change_service(rng, schema, file, service):
    way = rng.randrange(8)
    if way == 0 or not service["functions"]:
        service["functions"].insert(0, random_function(rng, schema, file, "g%d" % rng.randrange(1000)))
        return
    f = rng.choice(service["functions"])
    if way == 1:
        service["functions"].remove(f)
        parent = service["parent"]
        if parent and parent[1] == file and rng.random() < 0.8:
            find(schema, parent[1], parent[2], ("service",))["functions"].append(f)
    elif way == 2:
        f.update(oneway=not f["oneway"], result=None, throws=[])
    elif way == 3 and not f["oneway"]:
        f["result"] = other_type(rng, schema, file, f["result"]) if f["result"] else rng.choice([None, "i32"])
    elif way == 4 and not f["oneway"]:
        f["throws"] = random_function(rng, schema, file, "f")["throws"]
    elif way == 5:
        service["parent"] = None
    else:
        change_fields(rng, schema, file, f["args"], ["", "", "", "required"])


def changed(rng, schema):
    """A schema that comes after another: the same with some changes, which may also leave names without a definition."""
    schema = copy.deepcopy(schema)
    for _ in range(rng.choice([0, 1, 1, 2, 3, 6])):
        file = rng.choice(["main", "main", "inc"])
        if not schema[file]:
            continue
        d = rng.choice(schema[file])
        if d["sort"] in STRUCTS and rng.random() < 0.8:
            change_fields(rng, schema, file, d["fields"], needs_of(d["sort"]))
        elif d["sort"] in STRUCTS and rng.random() < 0.6:
            d["sort"] = rng.choice(STRUCTS)
        elif d["sort"] == "service" and rng.random() < 0.9:
            change_service(rng, schema, file, d)
        elif d["sort"] == "typedef" and rng.random() < 0.7:
            d["type"] = other_type(rng, schema, "main", d["type"])
        elif rng.random() < 0.3:
            schema[file].remove(d)
        elif rng.random() < 0.5:
            rng.shuffle(schema[file])
    return schema
