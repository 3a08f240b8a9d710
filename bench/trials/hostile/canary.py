"""Calls `add` every few milliseconds on one connection until its input ends: canary.py PORT PREFIX

It prints `ready` behind the first calls, and at the end how many calls were made, the longest time that an answer took, and by how much the longest pause
was longer than it should have been, both in milliseconds. Where an answer is wrong it says so, and ends with status 1."""
import select
import sys
import time

from messages import add, connect, reply, sum_reply

FIRST_CALLS = 50
PAUSE = 0.003


def main():
    port, prefix = int(sys.argv[1]), sys.argv[2]
    calls, longest, late = 0, 0.0, 0.0
    with connect(port) as s:
        stopped = False
        while not stopped:
            begin = time.perf_counter()
            s.sendall(add(calls, 7, prefix, calls))
            got = reply(s)
            answered = time.perf_counter()
            longest = max(longest, answered - begin)
            if got != sum_reply(calls + 7, calls):
                sys.exit("call %d of the canary was answered with %r" % (calls, got))
            calls += 1
            if calls == FIRST_CALLS:
                print("ready", flush=True)
            stopped = bool(select.select([sys.stdin], [], [], PAUSE)[0])
            late = max(late, 0 if stopped else time.perf_counter() - answered - PAUSE)
    print(calls, longest * 1000, late * 1000)


main()
