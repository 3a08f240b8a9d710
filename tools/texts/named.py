"""Values as JSON, with the names of a schema, and back.

A struct is an object of its fields by their names, an enum its value's name where it has one, a list or a set an array.
A map is an object where each key is a text, a number or a bool, and else an array of pairs. Bytes are text where they
are UTF-8, and else {"base64": TEXT}; a uuid is its 36 signs. A double is a number, but "NaN", "Infinity", "-Infinity",
and {"bits": DIGITS} for another NaN. Without a schema fields stand under their ids, and enums are numbers."""
import base64
import binascii
import json
import math
import re
import uuid

from . import Fault
from .schemas import STRUCTS
from .values import BITS, MOST_LEVELS, Value, double, tidied
from .wire import EXCEPTION, ONEWAY, REPLY

NAN = 0x7FF8000000000000
UNUSUAL = {"NaN": math.nan, "Infinity": math.inf, "-Infinity": -math.inf}
MESSAGE_TYPES = {1: "call", REPLY: "reply", EXCEPTION: "exception", ONEWAY: "oneway"}
DECIMAL = re.compile(r"-?(?:0|[1-9][0-9]*)\Z")


class Refused(Fault):
    """JSON that is no value of its type: `path` says which part of it."""

    def __init__(self, path, what):
        super().__init__("%s: %s" % (path, what) if path else what)
        self.path = path


# --- values to JSON


def double_json(value):
    number = value.number
    if math.isfinite(number):
        return number
    if math.isinf(number):
        return "Infinity" if number > 0 else "-Infinity"
    return "NaN" if value.held == NAN else {"bits": "%016x" % value.held}


def bytes_json(held):
    try:
        return held.decode("utf-8")
    except UnicodeDecodeError:
        return {"base64": base64.b64encode(held).decode("ascii")}


def key_text(key):
    """The text under which a key stands in an object, or None for one that has none."""
    if isinstance(key, str):
        return key
    return json.dumps(key) if isinstance(key, (bool, int, float)) else None


class Names:
    """The names of a schema, or none."""

    def __init__(self, schema=None):
        self.schema, self.kept = schema, {}

    def of(self, type_, sorts):
        """What a type's definition, of one of these sorts, names: fields or values; nothing where there is none."""
        if self.schema is None or type_ is None or type_.word != "name":
            return {}
        if type_.name not in self.kept:
            one = self.schema.named[type_.name]
            # (of two names for one number the first counts)
            values = [(number, name) for name, number in reversed(one.values)] if one.sort == "enum" else []
            self.kept[type_.name] = one.sort, dict(values) if one.sort == "enum" else {it.id: it for it in one.fields}
        sort, names = self.kept[type_.name]
        return names if sort in sorts else {}

    def json(self, value, type_=None):
        """A value as JSON, under its type where that is known."""
        tag, held = value.tag, value.held
        if tag == "i32":
            return self.of(type_, ("enum",)).get(held, held)
        if tag == "bytes":
            return bytes_json(held)
        if tag == "struct":
            return self.fields_json(value, self.of(type_, STRUCTS))
        if tag == "double":
            return double_json(value)
        if tag == "uuid":
            return str(uuid.UUID(bytes=held))
        if tag == "map":
            return self.map_json(held, part_of(type_, "map", 0), part_of(type_, "map", 1))
        if tag in ("list", "set"):
            part = part_of(type_, tag, 0)
            return [self.json(item, part) for item in held]
        return held

    def fields_json(self, value, fields):
        """A struct as an object; fields are those of its type by id."""
        made = {}
        for number, item in value.held:
            field = fields.get(number)
            made[field.name if field else str(number)] = self.json(item, field and field.type)
        return made

    def map_json(self, pairs, key_type, item_type):
        made = [(self.json(key, key_type), self.json(item, item_type)) for key, item in pairs]
        texts = [key_text(key) for key, _ in made]
        if None in texts or len(set(texts)) < len(texts):
            return [list(pair) for pair in made]
        return dict(zip(texts, (item for _, item in made)))

    # --- calls

    def arguments(self, function, value):
        """The struct of a function's arguments."""
        return self.fields_json(value, {it.id: it for it in function.args} if function else {})

    def answer(self, function, answer):
        """An Answer, as the fields of an object."""
        if answer.kind == "ok":
            return {"answer": "ok", "value": self.json(answer.value, function and function.result)}
        if answer.kind != "throws":
            return {"answer": answer.kind}
        field = next((it for it in function.throws if it.id == answer.id), None) if function else None
        value = self.json(answer.value, field and field.type)
        return {"answer": "throws", "exception": field.name if field else answer.id, "value": value}

    def function(self, name):
        """The function that a message's name asks for: METHOD or SERVICE:METHOD; None where none or several do."""
        service, colon, method = name.rpartition(":")
        services = self.schema.services() if self.schema else {}
        found = [
            self.schema.functions(one).get(method) for known, one in services.items() if not colon or known == service
        ]
        found = list({id(one): one for one in found if one}.values())
        return found[0] if len(found) == 1 else None

    def message(self, message, function=None):
        """A Message as an object, by the function that it calls or answers, where that is known."""
        made = {"type": MESSAGE_TYPES.get(message.type, message.type), "name": message.name, "id": message.id}
        body = dict(message.body.held)
        if message.type == EXCEPTION:
            text, code = body.get(1), body.get(2)
            return {**made, "code": self.json(code) if code else 0, "text": self.json(text) if text else ""}
        if message.type != REPLY:
            return {**made, "arguments": self.arguments(function, message.body)}
        if 0 in body:
            return {**made, "answer": "ok", "value": self.json(body[0], function and function.result)}
        if not body:
            return {**made, "answer": "empty"}
        throws = {it.id: it for it in function.throws} if function else {}
        return {**made, "answer": "throws", **self.fields_json(message.body, throws)}


def part_of(type_, word, place):
    """The type of a container's elements, where it is known."""
    return type_.parts[place] if type_ is not None and type_.word == word else None


# --- JSON to values


def of_pairs(pairs):
    """An object of whose names none stands twice."""
    made = dict(pairs)
    if len(made) < len(pairs):
        names = [name for name, _ in pairs]
        raise Fault("the name %s stands twice" % json.dumps(next(it for it in names if names.count(it) > 1)))
    return made


def float_of(text):
    number = float(text)
    if math.isinf(number):
        raise Fault("the number %s is too large for a double" % text)
    return number


def no_constant(text):
    raise Fault('%s is no JSON: a double that is none is a text, "%s"' % (text, text))


def read_json(text):
    """JSON, read strictly."""
    try:
        return json.loads(text, object_pairs_hook=of_pairs, parse_float=float_of, parse_constant=no_constant)
    except json.JSONDecodeError as fault:
        raise Fault("no JSON: line %d, column %d: %s" % (fault.lineno, fault.colno, fault.msg)) from None
    except RecursionError:
        raise Fault("no value: more than %d levels" % MOST_LEVELS) from None
    except ValueError as fault:
        raise Fault("no JSON: %s" % fault) from None


def shown(given):
    """A part of JSON, short."""
    text = json.dumps(given, ensure_ascii=False)
    return text if len(text) <= 60 else text[:57] + ".."


def below(path, name):
    return "%s.%s" % (path, name) if path else name


def marked(given, mark):
    """What stands under the one name of an object, or None."""
    return given[mark] if isinstance(given, dict) and list(given) == [mark] and isinstance(given[mark], str) else None


def read_bytes(given, path, word):
    base = marked(given, "base64")
    try:
        if base is not None:
            return Value("bytes", base64.b64decode(base, validate=True))
        if isinstance(given, str):
            return Value("bytes", given.encode("utf-8"))
    except (binascii.Error, UnicodeEncodeError, ValueError) as fault:
        raise Refused(path, "expected %s, got %s: %s" % (word, shown(given), fault)) from None
    raise Refused(path, 'expected %s, as text or as {"base64": TEXT}, got %s' % (word, shown(given)))


def read_number(given, path, word):
    if not isinstance(given, int) or isinstance(given, bool):
        raise Refused(path, "expected %s, got %s" % (word, shown(given)))
    most = 1 << BITS[word] - 1
    if not -most <= given < most:
        raise Refused(path, "%d is out of the range of %s, which is %d to %d" % (given, word, -most, most - 1))
    return Value(word, given)


def read_double(given, path):
    bits = marked(given, "bits")
    if bits is not None and re.fullmatch("[0-9a-f]{16}", bits):
        return Value("double", int(bits, 16))
    if isinstance(given, str) and given in UNUSUAL:
        return Value("double", NAN) if given == "NaN" else double(UNUSUAL[given])
    if not isinstance(given, (int, float)) or isinstance(given, bool):
        raise Refused(path, 'expected double, a number, "NaN", "Infinity" or "-Infinity", got %s' % shown(given))
    try:
        return double(float(given))
    except OverflowError:
        raise Refused(path, "%s is too large for a double" % shown(given)) from None


def read_uuid(given, path):
    if not isinstance(given, str) or not re.fullmatch("[0-9a-fA-F]{8}(-[0-9a-fA-F]{4}){3}-[0-9a-fA-F]{12}", given):
        raise Refused(path, "expected uuid, 32 hexadecimal digits as 8-4-4-4-12, got %s" % shown(given))
    return Value("uuid", uuid.UUID(given).bytes)


class Reading:
    """JSON read as values of a schema's types."""

    def __init__(self, schema):
        self.schema = schema

    def value(self, given, type_, path="", levels=MOST_LEVELS):
        word = type_.word
        if word == "bool":
            if not isinstance(given, bool):
                raise Refused(path, "expected bool, got %s" % shown(given))
            return Value("bool", given)
        if word in BITS:
            return read_number(given, path, word)
        if word == "double":
            return read_double(given, path)
        if word in ("string", "binary"):
            return read_bytes(given, path, word)
        if word == "uuid":
            return read_uuid(given, path)
        definition = self.schema.definition(type_)
        if definition and definition.sort == "enum":
            return self.enum(given, definition, path)
        if not levels:
            raise Refused(path, "more than %d levels" % MOST_LEVELS)
        if definition:
            return self.struct(given, definition, path, levels)
        return self.map(given, type_, path, levels - 1) if word == "map" else self.items(given, type_, path, levels - 1)

    def enum(self, given, definition, path):
        known = dict(definition.values)
        if isinstance(given, str) and given in known:
            return Value("i32", known[given])
        if isinstance(given, int) and not isinstance(given, bool):
            return read_number(given, path, "i32")
        names = ", ".join(known) or "none"
        raise Refused(path, "expected a value of %s (%s) or a number, got %s" % (definition.name, names, shown(given)))

    def struct(self, given, definition, path, levels):
        if not isinstance(given, dict):
            raise Refused(
                path, "expected an object of %s %s, got %s" % (definition.sort, definition.name, shown(given))
            )
        value = self.fields(given, definition.fields, "%s %s" % (definition.sort, definition.name), path, levels)
        if definition.sort == "union" and len(value.held) != 1:
            names = ", ".join(it.name for it in definition.fields)
            raise Refused(
                path, "union %s has one field of these, and not %d: %s" % (definition.name, len(value.held), names)
            )
        return value

    def fields(self, given, fields, of, path="", levels=MOST_LEVELS):
        """The struct of an object; a field that is null is left out."""
        named, found = {it.name: it for it in fields}, []
        for name, part in given.items():
            if name not in named:
                raise Refused(below(path, name), "%s has no such field, but %s" % (of, ", ".join(named) or "none"))
            if part is not None:
                field = named[name]
                found.append((field.id, self.value(part, field.type, below(path, name), levels - 1)))
        for field in fields:
            if field.need == "required" and given.get(field.name) is None:
                type_ = self.schema.type_text(field.type)
                raise Refused(below(path, field.name), "expected %s, which is required, got nothing" % type_)
        return Value("struct", sorted(found, key=lambda pair: pair[0]))

    def items(self, given, type_, path, levels):
        if not isinstance(given, list):
            raise Refused(path, "expected an array of %s, got %s" % (self.schema.type_text(type_), shown(given)))
        part, of = type_.parts[0], (self.schema.tag(type_.parts[0]),)
        held = [self.value(one, part, "%s[%d]" % (path, place), levels) for place, one in enumerate(given)]
        if type_.word == "list":
            return Value("list", held, of)
        value = tidied(Value("set", held, of))
        if len(value.held) < len(held):
            raise Refused(path, "a member of the set stands twice")
        return value

    def map(self, given, type_, path, levels):
        key_type, item_type = type_.parts
        if isinstance(given, dict):
            keys = [self.key(text, key_type, path) for text in given]
        elif isinstance(given, list) and all(isinstance(one, list) and len(one) == 2 for one in given):
            keys = [
                self.value(one[0], key_type, "%s[%d][0]" % (path, place), levels) for place, one in enumerate(given)
            ]
        else:
            type_text = self.schema.type_text(type_)
            raise Refused(path, "expected an object or an array of pairs of %s, got %s" % (type_text, shown(given)))
        items = given.items() if isinstance(given, dict) else given
        held = [
            (key, self.value(item, item_type, "%s[%s]" % (path, shown(name)), levels))
            for key, (name, item) in zip(keys, items)
        ]
        value = tidied(Value("map", held, (self.schema.tag(key_type), self.schema.tag(item_type))))
        if len(value.held) < len(held):
            raise Refused(path, "a key of the map stands twice")
        return value

    def key(self, text, type_, path):
        """A key that is a name of an object."""
        path = "%s[%s]" % (path, shown(text))
        definition = self.schema.definition(type_)
        is_enum = definition is not None and definition.sort == "enum"
        if type_.word == "bool" and text in ("true", "false"):
            return Value("bool", text == "true")
        if (type_.word in BITS or is_enum) and DECIMAL.match(text):
            return self.value(int(text), type_, path)
        if type_.word == "double" and text not in UNUSUAL:
            return self.value(number_text(text), type_, path)
        return self.value(text, type_, path)


def number_text(text):
    """The number that a text is, or the text."""
    try:
        found = read_json(text)
    except Fault:
        return text
    return found if isinstance(found, (int, float)) and not isinstance(found, bool) else text
