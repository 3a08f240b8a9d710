"""What the files of specs/ define, and which definitions each definition names: read as text, for the checks and lists of this folder."""
import functools
import glob
import os
import re

TOP = os.path.dirname(os.path.dirname(os.path.abspath(__file__)))
NAME = r"(?:[A-Za-z_][\w'-]*|◌\S+◌)"
WORDS = r"(?:(?:abbrev|unfoldable|opaque|pub) )*"
HEAD = re.compile(rf"({WORDS})(?:(record|data) ({NAME})(?=[\s:])|({NAME})(?: \{{[^}}]*\}})* :(?=\s|$))")
BLOCK = re.compile(rf"{WORDS}(mutual$|module\b.*\bwhere$)")
PART = re.compile(rf"(?:pub )?({NAME}(?:, {NAME})*) :(?=\s|$)")
TOKEN = re.compile(r"[A-Za-z_][\w']*(?:-[A-Za-z_][\w']*)*(?:\.[A-Za-z_][\w']*)*")
IMPORT = r"(?m)^(?:pub )?(?:{})[^\n]*(?:\n[ \t}}][^\n]*)*"
OPERATOR = re.compile(r"◌(\S+)◌")


class Definition:
    """A definition, or all of a mutual block: its lines with the comment above it, the names that it gives, and the constructors of these."""

    def __init__(self, file, lines, module=None):
        self.file, self.lines, self.module = file, lines, module
        self.names, self.parts, self.is_pub, self.is_record = [], set(), False, False

    def take(self, head):
        self.names.append(head[3] or head[4])
        self.is_pub = self.is_pub or "pub" in head[1].split()
        self.is_record = head[2] == "record"

    def size(self):
        """So many lines that are neither blank nor comment."""
        return sum(bool(line.strip()) and not line.lstrip().startswith("--") for line in self.lines)

    def code(self):
        """Returns its text without comments, below the line of the module that it stands in."""
        return "\n".join(line for line in [self.module or "", *self.lines] if not line.lstrip().startswith("--"))


class Specs:
    """A file of specs/: its imports and its definitions, in order."""

    def __init__(self, path):
        self.path = path
        self.crate, self.stem = path.split("/")[1], os.path.basename(path)[: -len(".antt")]
        with open(os.path.join(TOP, path), encoding="utf-8") as it:
            text = it.read()
        self.imports, self.aliases = imports_of(text, "use ")
        # (those that it hands on to who names them by this file)
        self.handed_on, _ = imports_of("\n".join(re.findall(r"(?m)^pub use [^\n]*(?:\n[ \t}][^\n]*)*", text)), "use ")
        self.definitions = []
        self.read(re.sub(IMPORT.format("use |mod |infix"), "", text).split("\n"))
        self.named = {name: it for it in self.definitions for name in (*it.names, *it.parts)}

    def read(self, lines):
        # (of each block that is open: its indentation, its definition where it is a mutual one, and its line where it is a module)
        comment, now, blocks = [], None, [(0, None, None)]
        for line in lines:
            text, indent = line.strip(), len(line) - len(line.lstrip())
            while text and indent < blocks[-1][0]:
                blocks.pop()
                now = blocks[-1][1]
            level, mutual, module = blocks[-1]
            if not text or indent > level:
                comment = []
                part = now and PART.match(text)
                if part and not now.is_record:
                    now.parts.update(part[1].split(", "))
            elif text.startswith("--"):
                comment.append(line)
                now = mutual
                if not mutual:
                    continue
            elif BLOCK.match(text):
                now = Definition(self, [*comment], module) if "mutual" in text else None
                blocks.append((level + 2, now, None if now else line))
                self.definitions += [now] if now else []
            elif HEAD.match(text):
                if not mutual:
                    now = Definition(self, [*comment], module)
                    self.definitions.append(now)
                now.take(HEAD.match(text))
                comment = []
            if now:
                now.lines.append(line)
        for it in self.definitions:
            while it.lines and not it.lines[-1].strip():
                it.lines.pop()


def imports_of(text, word):
    """Returns the names that lines like 'use PATH.{NAME, NAME as OTHER}' bring in, and those of 'use PATH as NAME', each with (path, name)."""
    names, aliases = {}, {}
    for found in re.finditer(IMPORT.format(word), text):
        item = re.sub(r"\s+", " ", found[0]).strip().removeprefix("pub ").removeprefix(word).rstrip("; ")
        path, brace, inside = item.partition(".{")
        for one in inside.rstrip("} ").split(",") if brace else ():
            if one.strip():
                name, _, other = one.strip().partition(" as ")
                names[other.strip() or name.strip()] = (path, name.strip())
        if not brace and " as " in item:
            path, _, other = item.partition(" as ")
            aliases[other.strip()] = path.strip()
        elif not brace:
            path, _, name = item.rpartition(".")
            names[name] = (path, name)
    return names, aliases


@functools.cache
def crates():
    """Each crate of crates.txt with those that it stands on, lowest first."""
    below, order = {}, []
    with open(f"{TOP}/crates.txt", encoding="utf-8") as lines:
        for line in lines:
            head, colon, names = line.split("#")[0].partition(":")
            if colon:
                below[head.split()[0]] = names.split()

    def reach(name):
        if name not in order:
            for it in below[name]:
                if it in below:
                    reach(it)
            order.append(name)

    for name in below:
        reach(name)
    return {name: below[name] for name in order}


def paths(pattern):
    """The paths of the tree's files that a pattern is of, in order."""
    return sorted(os.path.relpath(it, TOP) for it in glob.glob(f"{glob.escape(TOP)}/{pattern}", recursive=True))


@functools.cache
def files():
    """Each file of specs/ by crate and name, but for the lists Lib.antt."""
    found = {}
    for path in paths("crates/*/specs/*.antt"):
        if not path.endswith("/Lib.antt"):
            it = Specs(path)
            found[it.crate, it.stem] = it
    return found


def at(path, name):
    """Returns the definition, or the path of the declared type, that a name of this module is; or None for one of the kit."""
    words = path.split(".")
    if len(words) < 4 or words[0] != "Rattle" or words[2] != "specs" or words[1] not in crates():
        return None
    if words[3] == "declared":
        return ".".join(words[:-1]) if words[-1] == "TheVariants" else path if words[-1] == name else f"{path}.{name}"
    file = files().get((words[1], words[3]))
    if not file or name in file.named:
        return file and file.named[name]
    if name in file.handed_on:
        return at(*file.handed_on[name])
    # (a variant, by the path of its data type)
    return file.named.get(words[-1]) if len(words) > 4 else None


def found_in(text, imports, aliases, named, bound=frozenset()):
    """Yields the definitions and declared types that a text names."""
    seen = set()
    for token in TOKEN.findall(text):
        first, _, rest = token.partition(".")
        if token in seen or first in bound:
            continue
        seen.add(token)
        if first in named:
            yield named[first]
        elif first in imports:
            yield at(*imports[first])
        elif first in aliases:
            yield at(aliases[first], rest.partition(".")[0])
    for name, origin in imports.items():
        sign = OPERATOR.fullmatch(name)
        if sign and (sign[1] in text or re.search(r"\bdo\b", text)):
            yield at(*origin)


def bound_in(definition):
    """Returns the names that a definition binds: in (x y : T) and λ x, and as patterns on the left of its equations."""
    text, file = definition.code(), definition.file
    found = set()
    for names in re.findall(r"[({]([^(){}:]*?) : ", text):
        found.update(names.split())
    for names in re.findall(r"λ ([^.]*)\.", text):
        found.update(re.findall(r"[A-Za-z_][\w'-]*", names))
    for line in definition.lines:
        left, equals, _ = line.partition(" = ")
        words = TOKEN.findall(left)
        if (equals or line.endswith(" =")) and words and words[0] in definition.names:
            for word in words[1:]:
                it = file.named.get(word) or (at(*file.imports[word]) if word in file.imports else None)
                if isinstance(it, Definition) and word in it.names and word not in it.parts:
                    found.add(word)
    return found - set(definition.names)


@functools.cache
def below(definition):
    """Returns the definitions and declared types that a definition names, itself left out."""
    file = definition.file
    found = found_in(definition.code(), file.imports, file.aliases, file.named, frozenset(bound_in(definition)))
    return [it for it in dict.fromkeys(found) if it is not None and it is not definition]
