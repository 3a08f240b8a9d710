"""Servers that can't begin, and such whose journal or output fails while they serve: each with its status, its line, and what there is of the summary."""
import os
import resource
import socket

from messages import add, connect, reply, sum_reply
from server import Server, Wrong, check

# The journal of a disk that is full soon: so many bytes fit, with one caller and with many. The server writes once so many bytes of lines stand in its memory.
ROOM, ROOM_OF_MANY = 400, 4000
BUFFER = 65_536
# So many calls have lines that the buffer has room for, and so many more lines than it has.
FEW, MOST = 20, 4000
CALLERS, CALLS = 8, 500


def refusals(bench, workers):
    """Before it listens: a port that is taken, a journal that can't be made, an output that takes nothing."""
    with socket.socket() as s:
        s.bind(("127.0.0.1", 0))
        s.listen()
        check(Server(bench.program, bench.room, workers, 1, port=s.getsockname()[1]).end(8) == "", "a port that is taken: something is printed")
    for journal in (bench.room, os.path.join(bench.room, "none", "journal")):
        check(Server(bench.program, bench.room, workers, 1, journal=journal).end(5) == "", "a journal that can't be made: something is printed")
    for output in (open("/dev/full", "w"), closed_pipe()):
        with output:
            server = Server(bench.program, bench.room, workers, 1, output=output)
        server.end(7)
        check(server.journal_lines() == [], "an output that takes nothing: the journal isn't empty")
    return "a port that is taken 8, a journal that is a folder or in none 5, an output that is full or closed 7"


def no_output(bench, workers):
    """No standard output at all: that is noticed before a connection is served, and nothing else is taken for it."""
    server = Server(bench.program, bench.room, workers, 1, output=None, closed=1)
    try:
        server.end(7, seconds=3)
        check(server.journal_lines() == [], "something stands in the journal")
    except Wrong as wrong:
        raise Wrong("%s, and the journal has %r" % (wrong, server.journal_lines())) from None
    finally:
        server.kill()
    return "status 7"


def closed_pipe():
    reading, writing = os.pipe()
    os.close(reading)
    return os.fdopen(writing, "w")


def failing(bench, workers):
    """While it serves: a journal that takes nothing, one that is full behind some lines, and an output that is closed behind the first line."""
    limit = (resource.RLIMIT_FSIZE, ROOM)
    failing_at_end(bench, workers, "/dev/full", None)
    failing_at_end(bench, workers, None, limit)
    full = failing_journal(bench, workers, "/dev/full", None)
    some = failing_journal(bench, workers, None, limit)
    many = failing_journal_of_many(bench, workers)
    closed_output(bench, workers)
    return "a journal that is full 9, at the end and behind %d calls; behind some lines 9, at the end, behind %d calls, and behind %d calls of %d clients; an output that is closed behind its first line 7" % (
        full, some, many, CALLERS)


def lines_of(c, count):
    """The lines of a client's calls."""
    return "".join("call %d %d 0 add {1=%di,2=1i} ok %di\n" % (c, k, k, k + 1) for k in range(count))


def failing_at_end(bench, workers, journal, limit):
    """Few calls, all of which are answered: their lines are written when the server ends."""
    server = Server(bench.program, bench.room, workers, 1, journal=journal, limit=limit)
    server.await_listening()
    with connect(server.port) as s:
        for k in range(FEW):
            s.sendall(add(k, 1, "", k))
            check(is_answered(s, k), "a call isn't answered whose line the buffer has room for")
    check(server.end(9) == "conn 0 End\ncalls %d\n" % FEW, "the summary isn't that of a connection that has ended well")
    check_lines(server, limit, lines_of(0, FEW))


def closed_output(bench, workers):
    server = Server(bench.program, bench.room, workers, 1)
    server.await_listening()
    with connect(server.port) as s:
        s.sendall(add(1, 1, ""))
        check(reply(s) == sum_reply(2), "a call isn't answered")
        server.run.stdout.close()
    server.run.stdout = None
    server.end(7)
    check(server.journal_lines() == ["call 0 0 0 add {1=1i,2=1i} ok 2i"], "an output that is closed: the journal isn't that of the call")


def failing_journal(bench, workers, journal, limit):
    """Calls until the journal fails, beside a connection on which nothing is done; answers how many calls were answered."""
    server = Server(bench.program, bench.room, workers, 3, journal=journal, limit=limit)
    server.await_listening()
    with connect(server.port) as idle, connect(server.port) as s:
        done = call_until_stopped(s)
        check(not receive_or_broken(idle), "a connection isn't stopped")
    check(server.end(9) == "conn 0 Stopped\nconn 1 Stopped\ncalls %d\n" % done, "the summary isn't that of two connections that were stopped")
    room = BUFFER + (limit[1] if limit else 0)
    check(len(lines_of(1, done)) <= room < len(lines_of(1, done + 1)), "%d calls were answered, whose lines have %d bytes" % (done, len(lines_of(1, done))))
    check_lines(server, limit, lines_of(1, done + 1))
    return done


def call_until_stopped(s):
    """How many calls were answered before the connection ended."""
    done = 0
    while done < MOST:
        s.sendall(add(done, 1, "", done))
        if not is_answered(s, done):
            break
        done += 1
    return done


def is_answered(s, number):
    """Whether a call is answered before the connection ends."""
    try:
        got = reply(s)
    except ConnectionError:
        return False
    check(got is None or got == sum_reply(number + 1, number), "a call is answered with %r" % (got,))
    return got is not None


def receive_or_broken(s):
    try:
        return s.recv(1)
    except ConnectionError:
        return b""


def check_lines(server, limit, lines):
    """The journal has as many bytes of these lines as there is room for."""
    if limit:
        with open(server.journal) as kept:
            check(kept.read() == lines[:limit[1]], "the journal isn't the first %d bytes of its lines" % limit[1])


def failing_journal_of_many(bench, workers):
    """The same with many clients that send all their calls at once: each line is of a call that was made, and no more calls are told than were asked."""
    server = Server(bench.program, bench.room, workers, CALLERS + 1, limit=(resource.RLIMIT_FSIZE, ROOM_OF_MANY))
    server.await_listening()
    clients = [connect(server.port) for _ in range(CALLERS)]
    for s in clients:
        s.sendall(add(0, 1, "", 0))
        check(is_answered(s, 0), "a call isn't answered")
    for s in clients:
        s.sendall(b"".join(add(k, 1, "", k) for k in range(1, CALLS)))
    answered = [next((k for k in range(1, CALLS) if not is_answered(s, k)), CALLS) for s in clients]
    for s in clients:
        s.close()
    *stopped, calls = server.end(9).splitlines()
    made = int(calls.removeprefix("calls "))
    with open(server.journal) as kept:
        whole = kept.read().split("\n")[:-1]
    check(stopped == ["conn %d Stopped" % c for c in range(CALLERS)], "the summary isn't that of %d clients that were stopped" % CALLERS)
    check(len(whole) < made < CALLERS * CALLS and sum(answered) <= made, "%d lines, %d calls, %d of them answered" % (len(whole), made, sum(answered)))
    for c in range(CALLERS):
        own = [line for line in whole if line.startswith("call %d " % c)]
        check("".join(line + "\n" for line in own) == lines_of(c, len(own)), "connection %d has the lines %s" % (c, own[-1:]))
    return made
