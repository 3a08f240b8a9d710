"""Values, and their texts: docs/PROFILE.md, 'Texts of values and entries' and 'Values and their order'."""
import re
import struct
from typing import NamedTuple

from . import Fault

TAGS = ("bool", "i8", "i16", "i32", "i64", "double", "bytes", "struct", "map", "set", "list", "uuid")
RANKS = {tag: rank for rank, tag in enumerate(TAGS)}
BITS = {"i8": 8, "i16": 16, "i32": 32, "i64": 64}
LETTERS = {"b": "i8", "s": "i16", "i": "i32", "l": "i64"}
LETTER_OF = {tag: letter for letter, tag in LETTERS.items()}
MOST_LEVELS, MOST_ID = 64, 32767

LEAF = re.compile(r"(true|false)|(-?[1-9][0-9]*|0)([bsil])|d([0-9a-f]{16})|u([0-9a-f]{32})|(\")|(\{)|(list|set|map)<")
ID = re.compile(r"(-?[1-9][0-9]{0,4}|0)=")
TAG = "(" + "|".join(TAGS) + ")"
ITEM_TAG, PAIR_TAGS = re.compile(TAG + r">\["), re.compile("%s,%s>{" % (TAG, TAG))
# (in a text without its pairs of backslashes: the second of a pair begins no escape)
UNQUOTED = re.compile(r'[^ -~]|\\(?!"|x(?:[0189a-f][0-9a-f]|7f))')


class Value(NamedTuple):
    """A value: its tag; what it holds; of a container the tags of its elements.

    A bool holds a bool, an integer an int, a double its 64 bits as an int, bytes and uuids hold bytes, a struct a list
    of (id, value), a map one of (key, value), a set and a list hold one of values."""

    tag: str
    held: object
    of: tuple = ()

    @property
    def number(self):
        """The float that a double is."""
        return struct.unpack(">d", self.held.to_bytes(8, "big"))[0]

    def key(self):
        """What sorts values as the program does. Element tags don't count."""
        if self.tag in ("set", "list"):
            return RANKS[self.tag], tuple(item.key() for item in self.held)
        if self.tag == "map":
            return RANKS["map"], tuple((key.key(), item.key()) for key, item in self.held)
        if self.tag == "struct":
            return RANKS["struct"], tuple((number, item.key()) for number, item in self.held)
        return RANKS[self.tag], self.held


def double(number):
    """The value of a float."""
    return Value("double", int.from_bytes(struct.pack(">d", number), "big"))


def text_value(text):
    return Value("bytes", text.encode("utf-8"))


# --- writing


def quoted(held):
    """Bytes between quotation marks."""
    text = held.decode("latin-1").replace("\\", "\\\\").replace('"', '\\"')
    return '"%s"' % re.sub("[^ -~]", lambda sign: "\\x%02x" % ord(sign[0]), text)


def value_text(value):
    """The text of a tidy value."""
    tag, held = value.tag, value.held
    if tag == "bytes":
        return quoted(held)
    if tag in BITS:
        return "%d%s" % (held, LETTER_OF[tag])
    if tag == "bool":
        return "true" if held else "false"
    if tag == "double":
        return "d%016x" % held
    if tag == "uuid":
        return "u" + held.hex()
    if tag == "struct":
        return "{%s}" % ",".join("%d=%s" % (number, value_text(item)) for number, item in held)
    if tag == "map":
        pairs = ",".join("%s=%s" % (value_text(key), value_text(item)) for key, item in held)
        return "map<%s,%s>{%s}" % (*value.of, pairs)
    return "%s<%s>[%s]" % (tag, *value.of, ",".join(map(value_text, held)))


def last_of_equal(pairs):
    """Of pairs whose keys are equal the last ones, by rising keys."""
    return [pair for _, pair in sorted({key: (key, item) for key, item in pairs}.items())]


def tidied(value):
    """The value with rising ids, keys and members, of which none stands twice: of equal ones the last counts."""
    tag, held = value.tag, value.held
    if tag == "struct":
        return Value(tag, last_of_equal((number, tidied(item)) for number, item in held))
    if tag == "list":
        return value._replace(held=[tidied(item) for item in held])
    if tag == "set":
        members = {item.key(): item for item in map(tidied, held)}
        return value._replace(held=[members[key] for key in sorted(members)])
    if tag == "map":
        pairs = {key.key(): (key, tidied(item)) for key, item in ((tidied(key), item) for key, item in held)}
        return value._replace(held=[pairs[key] for key in sorted(pairs)])
    return value


# --- reading


def quoted_at(text, at):
    """The bytes behind a quotation mark, and the place behind the mark that ends them."""
    end = text.find('"', at)
    while end > at and text[end - 1] == "\\":
        first = end - 1
        while first > at and text[first - 1] == "\\":
            first -= 1
        if (end - first) % 2 == 0:
            break
        end = text.find('"', end + 1)
    if end < 0:
        raise Fault("a text has no end", len(text))
    inside = text[at:end]
    wrong = UNQUOTED.search(inside.replace("\\\\", "  "))
    if wrong:
        raise Fault("no byte of a text begins so", at + wrong.start())
    return (inside.encode("ascii").decode("unicode_escape") if "\\" in inside else inside).encode("latin-1"), end + 1


def rows_at(text, at, end, row):
    """Rows with commas between them, up to a mark. Each row is read behind the one before it."""
    if text.startswith(end, at):
        return [], at + 1
    rows = []
    while True:
        read, at = row(text, at, rows[-1] if rows else None)
        rows.append(read)
        if text.startswith(end, at):
            return rows, at + 1
        if not text.startswith(",", at):
            raise Fault("no comma and no `%s`" % end, at)
        at += 1


def item_at(tag, levels, rises):
    """A reader of elements of a tag, which rise or needn't."""

    def read(text, at, last):
        item, at = value_at(text, at, levels, tag)
        if rises and last is not None and not last.key() < item.key():
            raise Fault("a member doesn't rise", at)
        return item, at

    return read


def pair_at(tags, levels):
    def read(text, at, last):
        key, at = value_at(text, at, levels, tags[0])
        if last is not None and not last[0].key() < key.key():
            raise Fault("a key doesn't rise", at)
        if not text.startswith("=", at):
            raise Fault("no `=`", at)
        item, at = value_at(text, at + 1, levels, tags[1])
        return (key, item), at

    return read


def field_at(levels):
    def read(text, at, last):
        found = ID.match(text, at)
        if not found or not -MOST_ID - 1 <= int(found[1]) <= MOST_ID:
            raise Fault("no field's number", at)
        if last is not None and int(found[1]) <= last[0]:
            raise Fault("a field's number doesn't rise", found.end() - 1)
        item, at = value_at(text, found.end(), levels)
        return (int(found[1]), item), at

    return read


def container_at(text, at, word, levels):
    """A map, set or list behind its word."""
    found = (PAIR_TAGS if word == "map" else ITEM_TAG).match(text, at)
    if not found:
        raise Fault("no tags of a %s" % word, at)
    of = found.groups()
    row, end = (pair_at(of, levels), "}") if word == "map" else (item_at(of[0], levels, word == "set"), "]")
    held, at = rows_at(text, found.end(), end, row)
    return Value(word, held, of), at


def number_of(digits, letter, at):
    tag, number = LETTERS[letter], int(digits)
    if not -1 << BITS[tag] - 1 <= number < 1 << BITS[tag] - 1:
        raise Fault("%s is no %s" % (digits, tag), at)
    return Value(tag, number)


def value_at(text, at, levels=MOST_LEVELS, wanted=None):
    """The value in front at a place, and the place behind it; of the tag that is wanted, where one is."""
    found = LEAF.match(text, at)
    if not found:
        raise Fault("no value", at)
    word, digits, letter, bits, uuid, mark, brace, container = found.groups()
    end = found.end()
    if (brace or container) and not levels:
        raise Fault("more than %d levels" % MOST_LEVELS, at)
    if mark:
        held, end = quoted_at(text, end)
        value = Value("bytes", held)
    elif digits:
        value = number_of(digits, letter, at)
    elif brace:
        held, end = rows_at(text, end, "}", field_at(levels - 1))
        value = Value("struct", held)
    elif container:
        value, end = container_at(text, end, container, levels - 1)
    elif word:
        value = Value("bool", word == "true")
    else:
        value = Value("double", int(bits, 16)) if bits else Value("uuid", bytes.fromhex(uuid))
    if wanted and value.tag != wanted:
        raise Fault("no %s" % wanted, at)
    return value, end


def read_value(text):
    """The value of a whole text."""
    value, end = value_at(text, 0)
    if end != len(text):
        raise Fault("more stands behind the value", end)
    return value
