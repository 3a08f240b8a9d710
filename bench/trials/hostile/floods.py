"""Clients that send one call behind the other without a pause, whose calls are dear, and such that come and go."""
import multiprocessing
import threading

from messages import add, call, connect, flags_field, number_field, receive, reply, reply_frame, reset, say, sum_reply, text_reply
from server import THREE_PAIRS, check
from stage import Stage

CALLERS, SHORT_CALLS, LONG_CALLS = 2, 40_000, 1_500
TEXT = b"z" * 8_000
FLAGS, HEAVY_CALLS = 10_000, 20
# What a value takes, as it is read, by its type, as an answer, and while each of them grows.
VALUE = 4 * 40
COMERS, STORMS, OF_EACH = 3_000, 3, 4_000
# What is kept of a connection that has ended, in bytes.
KEPT_OF_EACH = 64


class Caller:
    """A client that sends so many calls as fast as they are taken, and reads beside that."""

    def __init__(self, port, frame, wanted, count):
        self.socket, self.frame, self.wanted, self.count, self.is_right = connect(port), frame, wanted, count, False
        self.threads = [threading.Thread(target=work) for work in (self.send, self.read)]
        for thread in self.threads:
            thread.start()

    def send(self):
        for _ in range(0, self.count, 20):
            self.socket.sendall(self.frame * 20)

    def read(self):
        self.is_right = all(receive(self.socket, 20 * len(self.wanted)) == self.wanted * 20 for _ in range(0, self.count, 20))

    def end(self):
        for thread in self.threads:
            thread.join()
        check(self.is_right, "a client that doesn't pause gets other replies than it should")
        self.socket.close()


def flood(bench, workers):
    """Two that call for short replies, and two whose calls have long texts."""
    with Stage(bench, workers, 2 * CALLERS, THREE_PAIRS, reply=len(TEXT) + 1000, tree=16 * len(TEXT)) as stage:
        short = [Caller(stage.server.port, add(1, 1, stage.prefix), reply_frame("add", number_field(0, 2)), SHORT_CALLS) for _ in range(CALLERS)]
        long = [Caller(stage.server.port, say(TEXT), text_reply("say", TEXT), LONG_CALLS) for _ in range(CALLERS)]
        for caller in short + long:
            caller.end()
        return stage.end([["End"]] * 2 * CALLERS, [(SHORT_CALLS,) * 2] * CALLERS + [(LONG_CALLS,) * 2] * CALLERS)


def heavy(bench, workers):
    """Two that send lists of 10,000 values, which take much more memory than their frames."""
    with Stage(bench, workers, CALLERS, THREE_PAIRS, reply=FLAGS + 1000, tree=VALUE * FLAGS) as stage:
        clients = [connect(stage.server.port) for _ in range(CALLERS)]
        for _ in range(HEAVY_CALLS):
            for s in clients:
                s.sendall(call("Echo:weigh", flags_field(1, FLAGS)))
            for s in clients:
                wanted = reply_frame("weigh", flags_field(0, FLAGS))
                check(receive(s, len(wanted)) == wanted, "a list of many values isn't answered by itself")
        for s in clients:
            s.close()
        return stage.end([["End"]] * CALLERS, [(HEAVY_CALLS,) * 2] * CALLERS)


def come_and_go(bench, workers):
    """3,000 connections, one behind the other, with a call on each: little is kept of those that have ended."""
    with Stage(bench, workers, COMERS, at_once=1, kept=KEPT_OF_EACH * COMERS) as stage:
        for _ in range(COMERS):
            with connect(stage.server.port) as s:
                s.sendall(add(1, 1, ""))
                check(reply(s) == sum_reply(2), "a call of one that comes and goes isn't answered")
        return stage.end([["End"]] * COMERS, [(1, 1)] * COMERS)


def storm(bench, workers):
    """Three processes that connect and break off as fast as they can."""
    with Stage(bench, workers, STORMS * OF_EACH, at_once=1024, kept=KEPT_OF_EACH * STORMS * OF_EACH) as stage:
        runs = [multiprocessing.Process(target=connect_and_reset, args=(stage.server.port,)) for _ in range(STORMS)]
        for run in runs:
            run.start()
        for run in runs:
            run.join()
            check(run.exitcode == 0, "a connection can't be made")
        return stage.end([["ReadFault"]] * STORMS * OF_EACH, [(0, 0)] * STORMS * OF_EACH)


def connect_and_reset(port):
    for _ in range(OF_EACH):
        reset(connect(port))
