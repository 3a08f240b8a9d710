"""Scripts as a stream of lines: docs/PROFILE.md, 'Scripts'."""
import re
from typing import NamedTuple, Optional

from . import Fault

MOST_BYTES, MOST_OPENINGS, MOST_NUMBER = 67_108_864, 1_024, 2**32 - 1
WORD_HEX = re.compile(rb"data (0|[1-9][0-9]{0,9}) ")
# What stands behind a word: the number of a connection, a worker or bytes, or hexadecimal digits.
WORDS = {
    b"open": "",
    b"data": "ch",
    b"end": "c",
    b"readfail": "c",
    b"write": "cn",
    b"block": "c",
    b"writefail": "c",
    b"rest": "",
    b"loop": "c",
    b"work": "w",
    b"collect": "",
}
SCHEDULE, ARRIVING = (b"loop", b"work", b"collect"), (b"data", b"end", b"readfail")
PART = 1 << 20


class ScriptFault(Fault):
    """The first fault of a script: its line, and the kind that the program names."""

    def __init__(self, line, kind):
        super().__init__("script %d %s" % (line, kind))
        self.line, self.kind = line, kind


class Line(NamedTuple):
    """A line of a script: its number, its word, the numbers in it, and the bytes of a piece. A long piece comes in
    parts, of which the last is `whole`."""

    number: int
    word: str
    numbers: tuple = ()
    data: Optional[bytes] = None
    whole: bool = True


def number_in(word):
    """A decimal of 32 bits without a zero in front, or None."""
    if not word.isdigit() or (word[:1] == b"0" and len(word) > 1) or len(word) > 10 or int(word) > MOST_NUMBER:
        return None
    return int(word)


def bytes_of(digits):
    """The bytes of pairs of hexadecimal digits, one at least, or None."""
    try:
        data = bytes.fromhex(digits.decode("ascii"))
    except ValueError:
        return None
    # (blanks between pairs are passed over there)
    return data if digits and 2 * len(data) == len(digits) else None


def form_of(text):
    """The word of a line, its numbers and its bytes, or None where it has no form."""
    word, *parts = text.split(b" ")
    shape = WORDS.get(word)
    if shape is None or len(parts) != len(shape):
        return None
    numbers, data = [], None
    for kind, part in zip(shape, parts):
        if kind == "h":
            data = bytes_of(part)
            if data is None:
                return None
            continue
        number = number_in(part)
        if number is None or (kind == "n" and number == 0):
            return None
        numbers.append(number)
    return word, tuple(numbers), data


class Reader:
    """Reads a script from the front, and keeps what its next lines are judged by."""

    def __init__(self, stream, workers, schedule):
        self.stream, self.workers, self.schedule = stream, workers, schedule
        self.number, self.taken, self.ended = 0, 0, []

    def take(self, size):
        """The line in front, or so much of it."""
        text = self.stream.readline(size)
        self.taken += len(text)
        if self.taken > MOST_BYTES:
            raise ScriptFault(0, "TooLong")
        return text

    def demand_short(self):
        """A text whose size is known and is too large is at fault before its first line."""
        if self.stream.seekable():
            at = self.stream.tell()
            if self.stream.seek(0, 2) - at > MOST_BYTES:
                raise ScriptFault(0, "TooLong")
            self.stream.seek(at)

    def lines(self):
        self.demand_short()
        while True:
            text = self.take(PART)
            if not text:
                break
            self.number += 1
            if len(text) == PART and not text.endswith(b"\n"):
                yield from self.long_line(text)
            elif text not in (b"\n", b"") and not text.startswith(b"#"):
                yield self.line(text[:-1] if text.endswith(b"\n") else text)
        if not all(self.ended):
            raise ScriptFault(self.number + 1, "NoEnd")

    def line(self, text, whole=True):
        form = form_of(text)
        if form is None:
            raise ScriptFault(self.number, "BadLine")
        word, numbers, data = form
        kind = self.fault(word, numbers)
        if kind:
            raise ScriptFault(self.number, kind)
        if word == b"open":
            self.ended.append(False)
        if word in (b"end", b"readfail"):
            self.ended[numbers[0]] = True
        return Line(self.number, word.decode(), numbers, data, whole)

    def fault(self, word, numbers):
        """What is wrong with a line behind those before it, the first in the order of the kinds."""
        shape = WORDS[word]
        if word in SCHEDULE and not self.schedule:
            return "Schedule"
        if "c" in shape and numbers[0] >= len(self.ended):
            return "NoConnection"
        if "w" in shape and numbers[0] >= max(1, self.workers):
            return "NoWorker"
        if word in ARRIVING and self.ended[numbers[0]]:
            return "AfterEnd"
        return "TooMany" if word == b"open" and len(self.ended) == MOST_OPENINGS else None

    def parts(self, text):
        """A line that is longer than a part, in parts: each has the front of a piece, and whole pairs of digits."""
        front = WORD_HEX.match(text)
        if not front:
            raise ScriptFault(self.number, "BadLine")
        held = text
        while not held.endswith(b"\n"):
            text = self.take(PART)
            if text in (b"", b"\n"):
                break
            cut = len(held) - (len(held) - front.end()) % 2
            yield held[:cut], False
            held = front[0] + held[cut:] + text
        yield held[:-1] if held.endswith(b"\n") else held, True

    def long_line(self, text):
        """The lines of a long line: only a piece and a comment may be long."""
        if text.startswith(b"#"):
            while text and not text.endswith(b"\n"):
                text = self.take(PART)
            return
        fault = None
        for part, whole in self.parts(text):
            try:
                yield self.line(part, whole)
            except ScriptFault as found:
                # (a later part that has no form comes first)
                fault = found if fault is None or found.kind == "BadLine" else fault
        if fault:
            raise fault


def read_script(stream, workers=8, schedule=True):
    """The lines of a script, of a stream of bytes, one after the other; a ScriptFault is raised where its first fault
    is. `schedule` says whether lines of a schedule may stand there."""
    return Reader(stream, workers, schedule).lines()


def script_line(line):
    """The text of a line, with its newline."""
    words = [line.word, *map(str, line.numbers)] + ([] if line.data is None else [line.data.hex()])
    return " ".join(words) + "\n"
