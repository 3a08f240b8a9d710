"""Replies of a server as a text, written and read.

A line is a frame, `reply C HEX`: its payload, on connection C of a script. Where bytes follow a connection's last whole
frame, `rest C HEX` has them, 1,024 at most. Empty lines and lines that begin with `#` say nothing."""
import array
import binascii

from texts import Fault
from texts.scripts import number_in

# (even, so that no pair of digits is cut)
PART = 65_536


def write_line(out, word, connection, data):
    """Writes a line, a part at a time, since a payload may be long."""
    out.write("%s %d " % (word, connection))
    for at in range(0, len(data), PART):
        out.write(data[at : at + PART].hex())
    out.write("\n")


class Kept:
    """The replies in a file that can be read at any place: where the digits of each stand, by connections."""

    def __init__(self, file):
        self.file, self.replies, self.rests = file, {}, {}
        number = at = 0
        for line in iter(lambda: file.readline(PART), b""):
            number += 1
            if line.startswith(b"#"):
                self.skip(line)
            elif line != b"\n":
                self.note(line, number, at)
            at = file.tell()

    def skip(self, line):
        while line and not line.endswith(b"\n"):
            line = self.file.readline(PART)

    def note(self, line, number, at):
        """Keeps the place of a line's digits, and looks at all of it."""
        word, _, behind = line.partition(b" ")
        connection, blank, digits = behind.partition(b" ")
        connection, place = number_in(connection), at + len(line) - len(digits)
        try:
            size = sum(map(len, self.parts(place))) if blank else 0
        except binascii.Error:
            size = 0
        if word not in (b"reply", b"rest") or connection is None or not size:
            raise Fault("line %d is no line of replies" % number)
        if word == b"rest":
            self.rests[connection] = place
        else:
            self.replies.setdefault(connection, array.array("Q")).append(place)

    def parts(self, place):
        """The bytes that stand at a place, in parts."""
        self.file.seek(place)
        digits = self.file.readline(PART)
        while digits:
            yield binascii.unhexlify(digits[:-1] if digits.endswith(b"\n") else digits)
            digits = b"" if digits.endswith(b"\n") else self.file.readline(PART)

    def is_equal(self, place, data):
        at = 0
        for part in self.parts(place):
            if data[at : at + len(part)] != part:
                return False
            at += len(part)
        return at == len(data)

    def whole(self, place):
        return b"".join(self.parts(place))
