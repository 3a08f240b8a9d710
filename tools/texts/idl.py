"""The tokens of an IDL's text, and what stands around one: docs/PROFILE.md, 'IDL tokens'."""
import re
from typing import NamedTuple

OPENING, CLOSING = ("(", "[", "{", "<"), (")", "]", "}", ">")
TOKEN = re.compile(
    r"(?P<blank>[ \t\r\n]+|//[^\n]*|\#[^\n]*|/\*.*?\*/)"
    r"|(?P<word>[A-Za-z_][A-Za-z_0-9.]*)"
    r"|(?P<double>[-+]?(?:[0-9]+[eE][-+]?[0-9]+|[0-9]*\.[0-9]+(?:[eE][-+]?[0-9]+)?))"
    r"|(?P<integer>[-+]?[0-9]+|0x[0-9a-fA-F]+)"
    r"|(?P<literal>\"(?:\\.|[^\"\\])*\"|'(?:\\.|[^'\\])*')"
    r"|(?P<sign>[{}()\[\]<>,;:=*&])"
    r"|(?P<other>.)",
    re.DOTALL,
)


class Token(NamedTuple):
    """A token: its kind (word, integer, double, literal, sign or other), its text and where it stands, in bytes."""

    kind: str
    text: str
    start: int
    end: int


def tokens_of(text):
    """The tokens of a text that was read as latin-1, so that a sign is a byte."""
    found = ((it.lastgroup, it[0], *it.span()) for it in TOKEN.finditer(text))
    return [Token(*one) for one in found if one[0] != "blank"]


def line_at(text, at):
    """The number of the line in which a byte stands."""
    return text.count("\n", 0, at) + 1


def offset_of(text, line, column):
    """The place of a byte that the program names by line and column."""
    at = 0
    for _ in range(line - 1):
        at = text.index("\n", at) + 1
    return at + column - 1


def includes_of(tokens):
    """The literals of the includes."""
    pairs = zip(tokens, tokens[1:])
    return [two for one, two in pairs if one.text == "include" and one.kind == "word" and two.kind == "literal"]


def matching(tokens, place):
    """The place of the sign that closes what the one at a place opens, or of the last token."""
    depth = 0
    for at in range(place, len(tokens)):
        one = tokens[at]
        depth += (one.kind == "sign") * ((one.text in OPENING) - (one.text in CLOSING))
        if depth == 0:
            return at
    return len(tokens) - 1


def opener(tokens, place):
    """The place of the sign that opens what a token stands in, or None."""
    depth = 0
    for at in range(place - 1, -1, -1):
        one = tokens[at]
        if one.kind == "sign" and one.text in CLOSING:
            depth += 1
        elif one.kind == "sign" and one.text in OPENING:
            if depth == 0:
                return at
            depth -= 1
    return None


def word_of(tokens, place):
    """The word of the definition in which a token stands (`struct`, `enum`, `service` ..), or None at the top."""
    at = opener(tokens, place)
    while at is not None:
        if tokens[at].text == "{" and at > 1 and tokens[at - 1].kind == "word":
            before = [it.text for it in tokens[max(0, at - 4) : at - 1]]
            return "service" if "extends" in before else before[-1]
        at = opener(tokens, at)
    return None


class Assignment(NamedTuple):
    """A default or a constant: the places of its first token (`const` or the name), of its name and of its `=`, and
    of the last token of its value."""

    first: int
    name: int
    last: int

    @property
    def sign(self):
        return self.name + 1


def assignment_around(tokens, place):
    """The default or constant in whose value a token stands, or None."""
    at, outer = place, place
    while at >= 0 and tokens[at].text != "=":
        if tokens[at].kind == "sign" and tokens[at].text in CLOSING and at != place:
            at = opener(tokens, at)
            if at is None:
                return None
        elif tokens[at].text == ";" or tokens[at].text in ("const", "struct"):
            return None
        outer, at = at, at - 1
    if at < 1 or tokens[outer].start > tokens[place].start or tokens[at - 1].kind != "word":
        return None
    last = matching(tokens, outer) if tokens[outer].text in OPENING else outer
    if last < place or word_of(tokens, at) == "enum":
        return None
    return Assignment(first_of(tokens, at - 1), at - 1, last)


def first_of(tokens, name):
    """The place of the `const` before the type of a name, or else the name's."""
    depth = 0
    for at in range(name - 1, -1, -1):
        text = tokens[at].text
        if tokens[at].kind == "sign":
            depth += (text in CLOSING) - (text in OPENING)
            if depth < 0 or (depth == 0 and text in (",", ";", ":", "=", "}")):
                return name
        elif depth == 0 and text == "const":
            return at
    return name
