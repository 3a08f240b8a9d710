"""Clients that send slowly, or stop."""
import time

from messages import add, connect, empty_reply, old_call, reply
from server import check
from stage import Stage

EACH = 16
# Of the clients that trickle the second half stops behind so many bytes.
STOPS_AT = 9


def slow(bench, workers):
    """One byte a second, half a frame, half a size, and nothing at all, for as long as the shortest call takes at a byte a second."""
    half = add(1, 1, "")
    with Stage(bench, workers, 5 * EACH) as stage:
        whole, cut, halves, sizes, silent = ([connect(stage.server.port) for _ in range(EACH)] for _ in range(5))
        for s in halves:
            s.sendall(half[:len(half) // 2])
        for s in sizes:
            s.sendall(half[:2])
        trickle(whole, cut, old_call("ping"))
        for s in whole:
            check(reply(s) == empty_reply(), "a call that came a byte a second wasn't answered")
        for s in whole + cut + halves + sizes + silent:
            s.close()
        causes = [["End"]] * EACH + [["Cut"]] * 3 * EACH + [["End"]] * EACH
        return stage.end(causes, [(1, 1)] * EACH + [(0, 0)] * 4 * EACH)


def trickle(whole, cut, frame):
    """Sends a frame a byte a second on each, but stops early on those that are to be cut."""
    for at in range(len(frame)):
        for s in whole + (cut if at < STOPS_AT else []):
            s.sendall(frame[at:at + 1])
        time.sleep(1 if at + 1 < len(frame) else 0)
