"""Replies that come, printed or compared with those that are kept: by their bytes, and as values with names."""
import json

from texts import Fault
from texts.values import tidied
from texts.wire import PROTOCOLS, read_message

from .replies import write_line
from .words import counted

# A payload that is larger isn't told as a value, nor are more differences of one.
MOST_TOLD, MOST_DIFFERENCES, MOST_SHOWN = 1_048_576, 20, 200
SHOWN_BYTES, PART = 16, 65_536


class Decoder:
    """Reads payloads as messages with the names of a schema."""

    def __init__(self, protocol, names):
        self.protocol, self.names = protocol, names

    def message(self, payload):
        """The message, its body in order, or None."""
        if len(payload) > MOST_TOLD:
            return None
        try:
            message = read_message(self.protocol, payload)
        except Fault:
            return None
        return message._replace(body=tidied(message.body))

    def json(self, message, call):
        """A message as an object, by the function that the call asks for."""
        name = message.name
        try:
            name = PROTOCOLS[self.protocol](call).head()[1] if call else name
        except Fault:
            pass
        return self.names.message(message, self.names.function(name) or self.names.function(message.name))


def printed(given):
    """A part of JSON as text, its beginning where it is long."""
    text = json.dumps(given, ensure_ascii=False)
    return text if len(text) <= MOST_SHOWN else text[:MOST_SHOWN] + ".."


def differences(now, was, path=""):
    """Yields where two parts of JSON differ: the path, and what is at it and was."""
    if isinstance(now, dict) and isinstance(was, dict):
        for name in [*was, *(it for it in now if it not in was)]:
            below = "%s.%s" % (path, name) if path else name
            if name not in now:
                yield "%s isn't there, and was %s" % (below, printed(was[name]))
            elif name not in was:
                yield "%s is %s, and wasn't there" % (below, printed(now[name]))
            else:
                yield from differences(now[name], was[name], below)
    elif isinstance(now, list) and isinstance(was, list) and len(now) == len(was):
        for place, parts in enumerate(zip(now, was)):
            yield from differences(*parts, "%s[%d]" % (path, place))
    elif json.dumps(now) != json.dumps(was):
        yield "%s is %s, and was %s" % (path, printed(now), printed(was))


def first_difference(now, was):
    """The place of the first byte that differs."""
    at, end = 0, min(len(now), len(was))
    while at < end and now[at : at + PART] == was[at : at + PART]:
        at += PART
    while at < end and now[at] == was[at]:
        at += 1
    return min(at, end)


def bytes_differ(now, was):
    """How the bytes of two payloads differ."""
    at = first_difference(now, was)
    parts = [in_short(it[at:]) or "nothing" for it in (now, was)]
    return "from byte %d on it is %s, and was %s; %d bytes, and were %d" % (at, *parts, len(now), len(was))


def in_short(data):
    return data[:SHOWN_BYTES].hex() + (".." if len(data) > SHOWN_BYTES else "")


class Printer:
    """Prints replies as they come: a line a frame, or as JSON where they can be read."""

    def __init__(self, out, decoder=None):
        self.out, self.decoder, self.counts = out, decoder, {}

    def came(self, connection, payload, call):
        if self.decoder is None:
            write_line(self.out, "reply", connection, payload)
            return
        frame = self.counts.get(connection, 0)
        self.counts[connection] = frame + 1
        message = self.decoder.message(payload)
        made = self.decoder.json(message, call) if message else {"bytes": payload.hex()}
        self.out.write(json.dumps({"connection": connection, "frame": frame, **made}, ensure_ascii=False) + "\n")

    def rest(self, connection, data):
        if data and self.decoder is None:
            write_line(self.out, "rest", connection, data)
        elif data:
            self.out.write(json.dumps({"connection": connection, "rest": data.hex()}) + "\n")


class Comparer:
    """Compares replies as they come with the kept ones, and prints what differs."""

    def __init__(self, out, kept, decoder=None):
        self.out, self.kept, self.decoder = out, kept, decoder
        # How many replies have come on each connection, how many differ, and how many are the same in other bytes
        self.counts, self.differ, self.alike = {}, 0, 0

    def tell(self, connection, frame, what):
        self.out.write("connection %d, %s: %s\n" % (connection, frame, what))

    def came(self, connection, payload, call):
        frame = self.counts.get(connection, 0)
        self.counts[connection] = frame + 1
        places = self.kept.replies.get(connection, ())
        if frame >= len(places):
            self.differ += 1
            self.tell(connection, "reply %d" % frame, "it came, and was not there: %s" % self.shown(payload, call))
        elif not self.kept.is_equal(places[frame], payload):
            self.compare(connection, frame, payload, self.kept.whole(places[frame]), call)

    def compare(self, connection, frame, now, was, call):
        """Tells how two replies of other bytes differ, unless they are the same values."""
        messages = [self.decoder.message(it) for it in (now, was)] if self.decoder else [None]
        if None not in messages and messages[0] == messages[1]:
            self.alike += 1
            return
        self.differ += 1
        found = []
        if None not in messages:
            found = list(differences(*(self.decoder.json(it, call) for it in messages)))
        if len(found) > MOST_DIFFERENCES:
            found[MOST_DIFFERENCES:] = ["and %d differences more" % (len(found) - MOST_DIFFERENCES)]
        name = " (%s)" % messages[0].name if found else ""
        for what in found or [bytes_differ(now, was)]:
            self.tell(connection, "reply %d%s" % (frame, name), what)

    def shown(self, payload, call=None):
        """A payload in short."""
        message = self.decoder.message(payload) if self.decoder else None
        if message:
            return printed(self.decoder.json(message, call))
        return in_short(payload)

    def rest(self, connection, data):
        place = self.kept.rests.get(connection)
        was = b"" if place is None else self.kept.whole(place)
        if data != was:
            self.differ += 1
            self.tell(connection, "bytes behind the last frame", bytes_differ(data, was))

    def finish(self, connections):
        """Tells which of the kept replies didn't come, and sums up. It returns whether something differs."""
        for connection, places in sorted(self.kept.replies.items()):
            if connection >= connections:
                self.differ += len(places)
                self.tell(connection, counted(len(places), "reply", "replies"), "the script has no such connection")
                continue
            for frame in range(self.counts.get(connection, 0), len(places)):
                self.differ += 1
                self.tell(
                    connection, "reply %d" % frame, "none came, and was %s" % self.shown(self.kept.whole(places[frame]))
                )
        came = sum(self.counts.values())
        verdict = "%d differ" % self.differ if self.differ else "equal"
        more = ", %d of them in other bytes" % self.alike if self.alike else ""
        on = "%s on %s" % (counted(came, "reply", "replies"), counted(connections, "connection"))
        self.out.write("%s: %s%s\n" % (on, verdict, more))
        return bool(self.differ)
