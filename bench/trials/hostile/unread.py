"""Clients that send calls whose replies are large, and don't read those."""
import select
import time

from messages import connect, empty_reply, get, put, reply, reset, say, text_reply
from server import THREE_PAIRS, check
from stage import Stage

LONG = b"x" * 20_000
KEPT = b"y" * 40_000
# So many frames are sent at most by a client; their replies are more than the system keeps.
MOST = 300
EACH = 4
# Which it is depends on whether the rest of a reply waits in the server or in the system.
BROKEN = ["ReadFault", "WriteFault"]


class Unread:
    """A client that sends calls of one kind, as far as the system takes them, and doesn't read."""

    def __init__(self, port, frame, wanted):
        self.socket, self.frame, self.wanted, self.sent = connect(port, received=4096), frame, wanted, 0
        self.socket.setblocking(False)

    def send(self):
        """Sends what the system takes, and says whether that was anything."""
        if self.sent >= MOST * len(self.frame):
            return False
        try:
            self.sent += self.socket.send(self.frame[self.sent % len(self.frame):])
            return True
        except BlockingIOError:
            return False

    def begun(self):
        """How many frames it has begun to send."""
        return -(-self.sent // len(self.frame))

    def is_cut(self):
        return self.sent % len(self.frame) > 0

    def read_late(self):
        """Sends the rest of the last frame, and reads all replies, which have to be right."""
        unread = self.begun() * len(self.wanted)
        while unread or self.is_cut():
            readable, writable, _ = select.select([self.socket], [self.socket] if self.is_cut() else [], [], 20)
            check(readable or writable, "the replies to a client that reads late don't come")
            if writable:
                self.sent += self.socket.send(self.frame[self.sent % len(self.frame):])
            if readable:
                unread -= self.take(unread)
        self.socket.close()

    def take(self, unread):
        """Reads what has come, of so much that has still to come, and answers how much it was."""
        got = self.socket.recv(65536)
        at = -unread % len(self.wanted)
        check(got and got == (self.wanted + self.wanted)[at:at + len(got)], "a client that reads late gets other bytes than it should")
        return len(got)


def block(clients):
    """Sends on all of them, until nothing was taken for a while."""
    moved = time.monotonic()
    while time.monotonic() < moved + 0.7:
        if any([client.send() for client in clients]):
            moved = time.monotonic()
        time.sleep(0.005)


def unread(bench, workers):
    """A mirror that is sent long texts, and a store that is asked for one: some read in the end, some close, some break off."""
    kinds = [(say(LONG), text_reply("say", LONG)), (get(b"k"), text_reply("get", KEPT))]
    with Stage(bench, workers, 1 + 6 * EACH, THREE_PAIRS, reply=len(KEPT) + 1000, tree=16 * len(LONG), kept=2 * len(KEPT)) as stage:
        keeper = connect(stage.server.port)
        keeper.sendall(put(b"k", KEPT))
        check(reply(keeper) == empty_reply(), "a put isn't answered")
        late, closing, breaking = ([Unread(stage.server.port, *kind) for kind in kinds for _ in range(EACH)] for _ in range(3))
        block(late + closing + breaking)
        time.sleep(1)
        for client in late:
            client.read_late()
        for client in closing:
            client.socket.close()
        for client in breaking:
            reset(client.socket)
        keeper.close()
        # Replies that nobody reads block the server: of who never reads fewer calls are made than were begun.
        calls = [(1, 1)] + [(client.begun(),) * 2 for client in late] + [(1, client.begun() - 1) for client in closing + breaking]
        return stage.end([["End"]] * (1 + 2 * EACH) + [BROKEN] * 4 * EACH, calls)
