"""A script's connections at a port: what is sent, what comes, and what waits for what."""
import collections
import os
import selectors
import socket
import struct
import time

from texts.tool import Stop

from .frames import HEAD, Frames, awaits
from .words import HOST, counted

NET_FAULT, NO_ANSWER = 8, 23
READ, WRITE = selectors.EVENT_READ, selectors.EVENT_WRITE
PIECE, MOST_WAITING = 65_536, 1_048_576
# How long a server that owes nothing may take to close a connection that has ended
CLOSING = 1.0


class Connection:
    """A connection of the script: what waits to be sent on it, and the calls that aren't answered yet."""

    def __init__(self, number, link):
        self.number, self.link, self.waiting = number, link, bytearray()
        self.requests, self.replies = Frames(HEAD), Frames()
        # The heads of the calls whose answers are owed, and how many of these the server has closed without
        self.owed, self.lost = collections.deque(), 0
        # The word of its end, once that was read; and whether it was carried out, and whether all is over
        self.end = None
        self.is_ended = self.is_closed = False
        link.setblocking(False)
        link.setsockopt(socket.IPPROTO_TCP, socket.TCP_NODELAY, 1)

    def is_settled(self):
        return self.is_closed or not (self.owed or self.waiting)

    def put(self, data):
        """Lets bytes wait, and notes the calls that they end."""
        if self.is_closed:
            return
        self.waiting += data
        for payload in self.requests.feed(data):
            if awaits(payload):
                self.owed.append(bytes(payload))

    def send(self):
        """Sends what waits, as far as it is taken, and behind that the end."""
        try:
            while self.waiting:
                del self.waiting[: self.link.send(self.waiting)]
        except BlockingIOError:
            return
        except OSError:
            # (what has come before the connection broke is read still)
            self.waiting.clear()
        if self.end == "end" and not self.is_ended:
            self.is_ended = True
            try:
                self.link.shutdown(socket.SHUT_WR)
            except OSError:
                pass

    def close(self):
        """Closes it, by a reset where the script says that reading fails."""
        if self.end == "readfail":
            self.link.setsockopt(socket.SOL_SOCKET, socket.SO_LINGER, struct.pack("ii", 1, 0))
        else:
            self.lost = len(self.owed)
        self.link.close()
        self.is_closed = True
        self.waiting.clear()
        self.owed.clear()


class Player:
    """Plays a script at a port. What comes goes to a sink: each payload by `came`, the bytes behind by `rest`."""

    def __init__(self, port, patience, sink):
        self.port, self.patience, self.sink = port, patience, sink
        self.ready, self.connections, self.passed_over = selectors.DefaultSelector(), [], 0

    def step(self, line):
        """Carries out a line of the script, as far as that is possible at once."""
        if line.word == "open":
            self.open(line)
        elif line.word == "data":
            self.put(line)
        elif line.word in ("end", "readfail"):
            connection = self.connections[line.numbers[0]]
            connection.end = line.word
            self.move(connection, WRITE)
        elif line.word == "rest":
            self.wait(line, self.connections)
        else:
            self.passed_over += 1

    def open(self, line):
        try:
            link = socket.create_connection((HOST, self.port), self.patience)
        except OSError as fault:
            why = os.strerror(fault.errno) if fault.errno else fault
            raise Stop(
                NET_FAULT, "script %d: port %d takes no connection: %s" % (line.number, self.port, why)
            ) from None
        self.connections.append(Connection(len(self.connections), link))
        self.watch(self.connections[-1])

    def put(self, line):
        connection = self.connections[line.numbers[0]]
        connection.put(line.data)
        self.move(connection, WRITE)
        while len(connection.waiting) > MOST_WAITING:
            if not self.pump(self.patience):
                self.stop(line, connection, "the server takes no more bytes")

    def wait(self, line, connections):
        """Waits until all calls on these connections are answered, and all bytes sent."""
        for connection in connections:
            while not connection.is_settled():
                if not self.pump(self.patience):
                    self.stop(line, connection, "no answer came")

    def stop(self, line, connection, what):
        wait = "in %g seconds, which --timeout can change" % self.patience
        raise Stop(NO_ANSWER, "script %d: %s on connection %d %s" % (line.number, what, connection.number, wait))

    def pump(self, seconds):
        """Reads and sends what can be within some seconds, and says whether something could."""
        events = self.ready.select(seconds)
        for key, mask in events:
            self.move(key.data, mask)
        return bool(events)

    def move(self, connection, mask):
        if connection.is_closed:
            return
        if mask & READ:
            self.read(connection)
        if not connection.is_closed and mask & WRITE:
            connection.send()
            if connection.end == "readfail" and not connection.waiting:
                self.close(connection)
        self.watch(connection)

    def read(self, connection):
        try:
            data = connection.link.recv(PIECE)
        except BlockingIOError:
            return
        except OSError:
            data = b""
        for payload in connection.replies.feed(data):
            head = connection.owed.popleft() if connection.owed else None
            self.sink.came(connection.number, payload, head)
        if not data:
            self.close(connection)

    def close(self, connection):
        self.ready.unregister(connection.link)
        connection.close()
        self.sink.rest(connection.number, connection.replies.rest())

    def watch(self, connection):
        """Waits for what can be done next on a connection."""
        if connection.is_closed:
            return
        wanted, known = READ | (WRITE if connection.waiting else 0), self.ready.get_map().get(connection.link)
        if not known:
            self.ready.register(connection.link, wanted, connection)
        elif known.events != wanted:
            self.ready.modify(connection.link, wanted, connection)

    def finish(self):
        """Waits for what is owed, and for the ends of connections; it returns how many calls weren't answered."""
        while not all(it.is_closed for it in self.connections):
            is_owed = not all(it.is_settled() for it in self.connections)
            if not self.pump(self.patience if is_owed else CLOSING):
                break
        for connection in self.connections:
            if not connection.is_closed:
                self.close(connection)
        return sum(it.lost for it in self.connections)


class InStep:
    """A line waits until all before it is answered."""

    def __init__(self, player):
        self.player = player

    def play(self, line):
        self.player.step(line)
        if line.word == "data" and line.whole:
            self.player.wait(line, [self.player.connections[line.numbers[0]]])


class AtOnce:
    """A line waits for no answer."""

    def __init__(self, player):
        self.player = player

    def play(self, line):
        self.player.step(line)
        self.player.pump(0)


class Spread:
    """The lines are spread over so many seconds: by the times in the script, or evenly, where there are none."""

    def __init__(self, player, seconds, script, lines, last):
        self.player, self.seconds, self.script, self.lines, self.last = player, seconds, script, lines, last
        self.began, self.played = time.monotonic(), 0

    def due(self):
        """When the next line is due, in seconds from the beginning."""
        if self.last:
            return self.seconds * min(1.0, self.script.seconds / self.last)
        return self.seconds * self.played / self.lines

    def play(self, line):
        while True:
            left = self.began + self.due() - time.monotonic()
            if left <= 0:
                break
            self.player.pump(left)
        self.player.step(line)
        self.played += line.whole


class Timed:
    """A script's bytes, with the time that its last comment of a time says: `# at SECONDS`."""

    MARK = b"# at "

    def __init__(self, file):
        self.file, self.seconds, self.begins_line = file, 0.0, True

    def readline(self, size):
        text = self.file.readline(size)
        if self.begins_line and text.startswith(self.MARK):
            self.note(text[len(self.MARK) :])
        self.begins_line = text.endswith(b"\n")
        return text

    def note(self, text):
        try:
            seconds = float(text)
        except ValueError:
            return
        if self.seconds < seconds < 1e9:
            self.seconds = seconds

    def __getattr__(self, name):
        return getattr(self.file, name)


def unanswered(count):
    """The line that says how many calls the server has closed without."""
    return "%s had no answer" % counted(count, "call")
