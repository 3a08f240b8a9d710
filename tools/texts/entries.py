"""The lines of journals, reports and summaries: docs/PROFILE.md, 'Reports' and 'Texts of values and entries'."""
import re
from typing import NamedTuple, Optional

from . import Fault
from .values import Value, value_at, value_text

NUMBER = "(0|[1-9][0-9]*)"
MARK = re.compile("tape (?:(open|end|readfail|writefail|close) {0}|(read|wrote) {0} ([1-9][0-9]*))".format(NUMBER))
CALL = re.compile("(call|oneway) {0} {0} {0} ([A-Za-z_][A-Za-z_0-9]*) ".format(NUMBER))
THROWS = re.compile("throws (-?[1-9][0-9]*|0) ")
CAUSE = (
    "End|Cut|ReadFault|WriteFault|NoMemory|Stopped|SizeFault (?:0|-?[1-9][0-9]*)"
    "|Envelope (?:Short|NameSize|LongVarint|Version [0-9a-f]+|MessageType [0-9]+)"
)
ENDED = re.compile("conn %s (%s)(?: (-|(?:[0-9a-f]{2})+))?" % (NUMBER, CAUSE))
CALLS = re.compile("calls " + NUMBER)
LISTENING = re.compile("listening ([0-9.]+):" + NUMBER)


class Mark(NamedTuple):
    """A line of the tape: what happened to a connection, and with how many bytes."""

    event: str
    connection: int
    count: Optional[int]


class Answer(NamedTuple):
    """`ok` with a value, `empty`, `throws` with an id and a value, or `broken`."""

    kind: str
    value: Optional[Value] = None
    id: Optional[int] = None


class Entry(NamedTuple):
    """A call with its answer."""

    oneway: bool
    connection: int
    frame: int
    slot: int
    method: str
    args: Value
    answer: Answer


class Ended(NamedTuple):
    """The end of a connection: its cause and, in a report, what was written to it."""

    connection: int
    cause: str
    written: Optional[bytes]


class Calls(NamedTuple):
    """The number of calls, with which a report or a summary ends."""

    count: int


class Listening(NamedTuple):
    """With this a summary begins."""

    address: str
    port: int


def answer_text(answer):
    if answer.kind in ("empty", "broken"):
        return answer.kind
    number = "" if answer.id is None else "%d " % answer.id
    return "%s %s%s" % (answer.kind, number, value_text(answer.value))


def entry_line(entry):
    """The line of an entry, without its newline."""
    front = ("oneway" if entry.oneway else "call", entry.connection, entry.frame, entry.slot, entry.method)
    return "%s %d %d %d %s %s %s" % (*front, value_text(entry.args), answer_text(entry.answer))


def read_answer(text, at=0):
    """The answer that stands from a place on."""
    if text[at:] in ("empty", "broken"):
        return Answer(text[at:])
    found = THROWS.match(text, at)
    if not found and not text.startswith("ok ", at):
        raise Fault("no answer", at)
    value, end = value_at(text, found.end() if found else at + len("ok "))
    if end != len(text):
        raise Fault("more stands behind the answer", end)
    return Answer("throws", value, int(found[1])) if found else Answer("ok", value)


def read_entry(line):
    """The entry of a line, which has no newline."""
    found = CALL.match(line)
    if not found:
        raise Fault("no line of an entry")
    args, at = value_at(line, found.end())
    if args.tag != "struct":
        raise Fault("the arguments are no struct", found.end())
    if not line.startswith(" ", at):
        raise Fault("no answer", at)
    answer = read_answer(line, at + 1)
    return Entry(found[1] == "oneway", int(found[2]), int(found[3]), int(found[4]), found[5], args, answer)


def read_line(line):
    """What a line of a journal, a report or a summary says; the line has no newline."""
    if line.startswith(("call ", "oneway ")):
        return read_entry(line)
    found = MARK.fullmatch(line)
    if found:
        return Mark(found[1], int(found[2]), None) if found[1] else Mark(found[3], int(found[4]), int(found[5]))
    found = ENDED.fullmatch(line)
    if found:
        written = None if found[3] is None else bytes.fromhex(found[3].replace("-", ""))
        return Ended(int(found[1]), found[2], written)
    found = CALLS.fullmatch(line)
    if found:
        return Calls(int(found[1]))
    found = LISTENING.fullmatch(line)
    if found:
        return Listening(found[1], int(found[2]))
    raise Fault("no line of a journal, a report or a summary")
