"""Clients that break off, and such that shut their side down and want all replies."""
import socket
import time

from messages import add, connect, empty_reply, get, put, receive, reply, reset, sum_reply, text_reply
from server import THREE_PAIRS, check
from stage import Stage
from unread import BROKEN, KEPT, Unread, block

EACH = 8
PIPELINED = 2000
LARGE = 100


def resets(bench, workers):
    """Before any byte, in the middle of a frame, behind a call, behind its reply, and while a reply is written."""
    with Stage(bench, workers, 1 + 5 * EACH, THREE_PAIRS, reply=len(KEPT) + 1000, kept=2 * len(KEPT)) as stage:
        keeper = connect(stage.server.port)
        keeper.sendall(put(b"k", KEPT))
        check(reply(keeper) == empty_reply(), "a put isn't answered")
        whole = add(1, 1, stage.prefix)
        for text, answered in ((b"", False), (whole[:len(whole) // 2], False), (whole, False), (whole, True)):
            for _ in range(EACH):
                break_off(stage.server.port, text, answered)
        blocked = [Unread(stage.server.port, get(b"k"), text_reply("get", KEPT)) for _ in range(EACH)]
        block(blocked)
        for client in blocked:
            reset(client.socket)
        keeper.close()
        causes = [["End"]] + [["ReadFault"]] * 2 * EACH + [BROKEN] * EACH + [["ReadFault"]] * EACH + [BROKEN] * EACH
        calls = [(1, 1)] + [(0, 0)] * 2 * EACH + [(0, 1)] * EACH + [(1, 1)] * EACH + [(1, client.begun()) for client in blocked]
        return stage.end(causes, calls)


def break_off(port, text, answered):
    s = connect(port)
    s.sendall(text)
    if answered:
        check(reply(s) == sum_reply(2), "a call isn't answered before its client breaks off")
    elif text and not text.endswith(b"\0"):
        time.sleep(0.02)
    reset(s)


def half_closed(bench, workers):
    """Each shuts its side down behind many calls, and has to get every reply: of short ones, of large ones that it reads late, and with half a frame behind."""
    with Stage(bench, workers, 1 + 3 * EACH, THREE_PAIRS, reply=len(KEPT) + 1000, kept=2 * len(KEPT)) as stage:
        keeper = connect(stage.server.port)
        keeper.sendall(put(b"k", KEPT))
        check(reply(keeper) == empty_reply(), "a put isn't answered")
        short = b"".join(add(k, k, stage.prefix, k) for k in range(PIPELINED))
        large = get(b"k") * LARGE
        many = [send_and_shut(stage.server.port, short, None) for _ in range(EACH)]
        late = [send_and_shut(stage.server.port, large, 4096) for _ in range(EACH)]
        cut = [send_and_shut(stage.server.port, short + short[:9], None) for _ in range(EACH)]
        for s in many + cut:
            check(all(reply(s) == sum_reply(2 * k, k) for k in range(PIPELINED)) and reply(s) is None, "a client that has shut its side down gets other replies")
        for s in late:
            wanted = text_reply("get", KEPT) * LARGE
            check(receive(s, len(wanted)) == wanted and not s.recv(1), "a client that has shut its side down gets other large replies")
        for s in [keeper, *many, *late, *cut]:
            s.close()
        causes = [["End"]] * (1 + 2 * EACH) + [["Cut"]] * EACH
        return stage.end(causes, [(1, 1)] + [(PIPELINED,) * 2] * EACH + [(LARGE,) * 2] * EACH + [(PIPELINED,) * 2] * EACH)


def send_and_shut(port, text, received):
    s = connect(port, received)
    s.sendall(text)
    s.shutdown(socket.SHUT_WR)
    return s
