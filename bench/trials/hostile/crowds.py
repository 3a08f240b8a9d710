"""Many clients at once: of calls, of connections, of frames, and more than the system allows."""
import resource
import select
import time

from messages import add, connect, frame, reply, sum_reply
from server import Server, check
from stage import Stage

CONNECTIONS, DEPTH, ROUNDS = 64, 16, 20
OPEN_AT_ONCE, ALL = 1024, 1100
FRAME = 65536
FEW_DESCRIPTORS = 64


def pipelined(bench, workers):
    """64 connections with 16 calls under way on each."""
    with Stage(bench, workers, CONNECTIONS) as stage:
        clients = [connect(stage.server.port) for _ in range(CONNECTIONS)]
        for at in range(ROUNDS):
            numbers = range(at * DEPTH, (at + 1) * DEPTH)
            for s in clients:
                s.sendall(b"".join(add(k, 1, "", k) for k in numbers))
            for s in clients:
                check(all(reply(s) == sum_reply(k + 1, k) for k in numbers), "a call among 1,024 isn't answered as it should be")
        for s in clients:
            s.close()
        return stage.end([["End"]] * CONNECTIONS, [(DEPTH * ROUNDS,) * 2] * CONNECTIONS)


def answered(clients, seconds):
    """Those of the clients to which something comes within so many seconds; at once, where that is so for one."""
    poll = select.poll()
    by_number = {s.fileno(): s for s in clients}
    for number in by_number:
        poll.register(number, select.POLLIN)
    return [by_number[number] for number, _ in poll.poll(seconds * 1000)]


def call_once(s):
    s.sendall(add(20, 22, ""))


def await_sum(s):
    check(reply(s) == sum_reply(42), "a call isn't answered as it should be")


def take_turns(port, at_once, count):
    """So many clients call, of which `at_once` are served at the same time; the others wait, and are answered in turn as those before them end."""
    clients = [connect(port) for _ in range(count)]
    for s in clients:
        call_once(s)
    for s in clients[:at_once]:
        await_sum(s)
    check(not answered(clients[at_once:], 0.5), "more connections are served at once than may be open")
    for served, waiting in zip(clients, clients[at_once:]):
        served.close()
        await_sum(waiting)
        check(not answered(clients[clients.index(waiting) + 1:], 0), "more connections are served at once than may be open")
    for s in clients:
        s.close()


def crowd(bench, workers):
    """1,100 connections at once, the canary's among them: the 1,025th is answered once one before it has ended, and so on."""
    with Stage(bench, workers, ALL - 1) as stage:
        take_turns(stage.server.port, OPEN_AT_ONCE - 1, ALL - 1)
        return stage.end([["End"]] * (ALL - 1), [(1, 1)] * (ALL - 1))


def few_descriptors(bench, workers):
    """The server may open 64 descriptors: those that find none wait until a connection has ended."""
    with Stage(bench, workers, 2 * FEW_DESCRIPTORS, limit=(resource.RLIMIT_NOFILE, FEW_DESCRIPTORS)) as stage:
        take_turns(stage.server.port, FEW_DESCRIPTORS - stage.descriptors, 2 * FEW_DESCRIPTORS)
        return stage.end([["End"]] * 2 * FEW_DESCRIPTORS, [(1, 1)] * 2 * FEW_DESCRIPTORS)


def beyond(bench, workers):
    """Connections beyond those that are to be accepted aren't answered, and end with the server."""
    server = Server(bench.program, bench.room, workers, 1)
    try:
        server.await_listening()
        first, second = (connect(server.port) for _ in range(2))
        call_once(second)
        call_once(first)
        await_sum(first)
        check(not answered([second], 0.5), "a connection beyond those to be accepted is answered")
        first.close()
        check(server.end() == "conn 0 End\ncalls 1\n", "the summary isn't that of one connection")
        check(is_broken(second), "a connection outlives the server")
    finally:
        server.kill()
    return "one that isn't accepted isn't answered, and ends with the server"


def is_broken(s):
    try:
        return not s.recv(1)
    except ConnectionError:
        return True


def large_frame():
    """A call whose frame is as large as may be: bytes behind its arguments are ignored."""
    payload = add(20, 22, "")[4:]
    return frame(payload + bytes(FRAME - len(payload)))


def large_frames(bench, workers):
    """64 large frames at once, where the budget has room for two beside one that never comes whole: they come one behind the other."""
    whole = large_frame()
    with Stage(bench, workers, CONNECTIONS + 1, budget=3 * FRAME + 4096, frame=FRAME, reply=FRAME) as stage:
        stopping = connect(stage.server.port)
        stopping.sendall(whole[:FRAME // 2])
        clients = [connect(stage.server.port) for _ in range(CONNECTIONS)]
        for s in clients:
            s.sendall(whole)
        for s in clients:
            await_sum(s)
        for s in [stopping, *clients]:
            s.close()
        return stage.end([["Cut"]] + [["End"]] * CONNECTIONS, [(0, 0)] + [(1, 1)] * CONNECTIONS)


def full_budget(bench, workers):
    """Two frames that don't come whole fill the budget: a call on a third connection waits until one of them ends, and the other comes whole later."""
    whole = large_frame()
    server = Server(bench.program, bench.room, workers, 3, words=["--read-budget", str(2 * FRAME), "--max-frame", str(FRAME)])
    try:
        server.await_listening()
        ending, late, caller = (connect(server.port) for _ in range(3))
        for s in (ending, late):
            s.sendall(whole[:FRAME // 2])
        time.sleep(0.3)
        call_once(caller)
        check(not answered([caller], 0.5), "a frame is read for which the budget has no room")
        ending.close()
        await_sum(caller)
        late.sendall(whole[FRAME // 2:])
        await_sum(late)
        late.close()
        caller.close()
        check(server.end() == "conn 0 Cut\nconn 1 End\nconn 2 End\ncalls 2\n", "the summary isn't that of two calls")
    finally:
        server.kill()
    return "a call waits, and is answered once there is room"
