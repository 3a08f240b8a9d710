"""Schemas, as `check` prints them: docs/PROFILE.md, 'Schemas'."""
import re
from dataclasses import dataclass, field
from typing import Dict, List, NamedTuple, Optional, Tuple

from . import Fault
from .values import Value, value_at

BASES = ("bool", "i8", "i16", "i32", "i64", "double", "string", "binary", "uuid")
STRUCTS = ("struct", "union", "exception")
BASE = re.compile(r"(%s)(?![\w.])" % "|".join(BASES))
CONTAINER = re.compile(r"(map|set|list)<")
NAME = re.compile(r"[A-Za-z_][A-Za-z_0-9]*")
FRONT = re.compile(r"(-?\d+) (default|required|optional) ")
DEFINITION = re.compile(r"(struct|union|exception|enum|service|typedef|const) ([A-Za-z_][A-Za-z_0-9]*)(?= |$)")


class Type(NamedTuple):
    """A type: its word, which is that of a base type, a container or `name`; the types in a container; and of a name
    (FILE, NAME)."""

    word: str
    parts: tuple = ()
    name: Optional[Tuple[str, str]] = None

    def __str__(self):
        if self.word == "name":
            return ".".join(self.name)
        return "%s<%s>" % (self.word, ",".join(map(str, self.parts))) if self.parts else self.word


@dataclass
class Field:
    id: int
    need: str
    type: Type
    name: str
    default: Optional[Value] = None


@dataclass
class Struct:
    """A struct, a union or an exception."""

    sort: str
    file: str
    name: str
    fields: List[Field] = field(default_factory=list)


@dataclass
class Enum:
    file: str
    name: str
    values: List[Tuple[str, int]]
    sort = "enum"


@dataclass
class Function:
    name: str
    oneway: bool
    result: Optional[Type]
    args: List[Field]
    throws: List[Field]


@dataclass
class Service:
    file: str
    name: str
    parent: Optional[Tuple[str, str]]
    functions: List[Function] = field(default_factory=list)
    sort = "service"


@dataclass
class Typedef:
    file: str
    name: str
    type: Type
    sort = "typedef"


@dataclass
class Constant:
    file: str
    name: str
    type: Type
    value: Value
    sort = "const"


class Schema:
    """The definitions of each file, the main one first, in their order; and what others can name by (FILE, NAME):
    structs, unions, exceptions, enums and services."""

    def __init__(self):
        self.files: Dict[str, list] = {}
        self.named: Dict[Tuple[str, str], object] = {}

    @property
    def main(self):
        """The base name of the main file."""
        return next(iter(self.files))

    def services(self):
        """The services by the names that the program knows them by."""
        found = {}
        for file, definitions in self.files.items():
            for one in definitions:
                if one.sort == "service":
                    found[one.name if file == self.main else "%s.%s" % (file, one.name)] = one
        return found

    def functions(self, service):
        """The functions of a service by name, its own ones first."""
        found = {}
        while service:
            for function in service.functions:
                found.setdefault(function.name, function)
            service = self.named[service.parent] if service.parent else None
        return found

    def definition(self, type_):
        """The struct or enum that a type names, or None."""
        return self.named[type_.name] if type_.word == "name" else None

    def tag(self, type_):
        """The tag of a type's values."""
        if type_.word == "name":
            return "i32" if self.named[type_.name].sort == "enum" else "struct"
        return "bytes" if type_.word in ("string", "binary") else type_.word

    def type_text(self, type_):
        """A type, as one of the main file would write it."""
        if type_.word == "name":
            file, name = type_.name
            return name if file == self.main else "%s.%s" % (file, name)
        return "%s<%s>" % (type_.word, ", ".join(map(self.type_text, type_.parts))) if type_.parts else type_.word


class Line:
    """A line that is read from the front."""

    def __init__(self, text, schema, bases, at=0):
        self.text, self.schema, self.bases, self.at = text, schema, bases, at

    def take(self, pattern, what):
        found = pattern.match(self.text, self.at)
        if not found:
            raise Fault("no %s" % what, self.at)
        self.at = found.end()
        return found

    def skip(self, word):
        """Whether this word stands in front, which is passed then."""
        stands = self.text.startswith(word, self.at)
        self.at += len(word) if stands else 0
        return stands

    def demand(self, word):
        if not self.skip(word):
            raise Fault("no `%s`" % word, self.at)

    def qualified(self, sorts):
        """(FILE, NAME) of a definition of one of these sorts. Any bytes may stand in a file's name."""
        for base in self.bases:
            if self.text.startswith(base + ".", self.at):
                found = NAME.match(self.text, self.at + len(base) + 1)
                name = (base, found[0]) if found else None
                if name in self.schema.named and self.schema.named[name].sort in sorts:
                    self.at = found.end()
                    return name
        raise Fault("no name of a definition", self.at)

    def type(self):
        found = BASE.match(self.text, self.at)
        if found:
            self.at = found.end()
            return Type(found[1])
        found = CONTAINER.match(self.text, self.at)
        if not found:
            return Type("name", (), self.qualified((*STRUCTS, "enum")))
        self.at = found.end()
        parts = [self.type()]
        if found[1] == "map":
            self.demand(",")
            parts.append(self.type())
        self.demand(">")
        return Type(found[1], tuple(parts))

    def value(self):
        value, self.at = value_at(self.text, self.at)
        return value

    def field(self):
        front = self.take(FRONT, "field")
        type_ = self.type()
        self.demand(" ")
        name = self.take(NAME, "name")[0]
        return Field(int(front[1]), front[2], type_, name, self.value() if self.skip(" = ") else None)

    def fields(self):
        """Fields in parentheses."""
        self.demand("(")
        found = []
        while not self.skip(")"):
            if found:
                self.demand(", ")
            found.append(self.field())
        return found

    def function(self):
        oneway = self.skip("oneway ")
        result = None if self.skip("void ") else self.type()
        if result:
            self.demand(" ")
        name = self.take(NAME, "name")[0]
        args = self.fields()
        return Function(name, oneway, result, args, self.fields() if self.skip(" throws ") else [])

    def enum_values(self):
        found = []
        while self.skip(" "):
            name = self.take(NAME, "name")[0]
            self.demand("=")
            found.append((name, int(self.take(re.compile(r"-?\d+"), "number")[0])))
        return found


def shell_of(file, sort, name):
    """A definition before its parts are read."""
    if sort in STRUCTS:
        return Struct(sort, file, name)
    if sort == "enum":
        return Enum(file, name, [])
    return Service(file, name, None) if sort == "service" else None


def fill(line, shell, file, found):
    """Reads what stands on a definition's line behind its name. The definition itself."""
    if shell is None:
        line.demand(" ")
        type_ = line.type()
        if found[1] == "typedef":
            return Typedef(file, found[2], type_)
        line.demand(" ")
        return Constant(file, found[2], type_, line.value())
    if shell.sort == "enum":
        shell.values = line.enum_values()
    elif shell.sort == "service" and line.skip(" extends "):
        shell.parent = line.qualified(("service",))
    return shell


def read_part(line, last):
    """Reads a field of a struct, or a function of a service."""
    line.demand("  ")
    if last is not None and last.sort in STRUCTS:
        last.fields.append(line.field())
    elif last is not None and last.sort == "service":
        last.functions.append(line.function())
    else:
        raise Fault("it belongs to no struct and no service", 0)


def shells(lines, schema):
    """The files, and each definition that others name, before its parts are read."""
    file = None
    for text in lines:
        if text.startswith("file "):
            file = text[len("file ") :]
            schema.files[file] = []
        found = DEFINITION.match(text)
        shell = shell_of(file, found[1], found[2]) if found else None
        if shell:
            schema.named[file, found[2]] = shell


def read_schema(text):
    """The schema that `check` printed."""
    schema, lines = Schema(), text.split("\n")
    if lines.pop() or not lines or not lines[0].startswith("file "):
        raise Fault("it is no schema: it has no first line `file NAME`, or no end of its last line")
    shells(lines, schema)
    bases = sorted(schema.files, key=len, reverse=True)
    file = last = None
    for number, words in enumerate(lines, 1):
        if words.startswith("file "):
            file, last = words[len("file ") :], None
            continue
        line, found = Line(words, schema, bases), DEFINITION.match(words)
        try:
            if found:
                line.at = found.end()
                is_shell = found[1] not in ("typedef", "const")
                last = fill(line, schema.named[file, found[2]] if is_shell else None, file, found)
                schema.files[file].append(last)
            else:
                read_part(line, last)
            if line.at != len(words):
                raise Fault("more stands there", line.at)
        except Fault as fault:
            raise Fault("line %d of the schema, column %d: %s" % (number, fault.at + 1, fault.what), fault.at) from None
    return schema
